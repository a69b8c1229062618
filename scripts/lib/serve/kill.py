"""SIGKILL again and again under load: what was acknowledged is there, and is delivered.

16 submitters, subscribers of which some fail, a purge five times a second, and SIGKILL at a random
moment. After each kill `relayd check` opens the file, and the relay is started again on it. Purges
begin after half of the kills, at most five: until then every event that was answered 202 is in the
file after each kill, under its number with its bytes. In the end each was delivered under its own
webhook-id with its bytes and a signature that verifies, and nothing was posted under an id that
nobody gave. It is in the file under its number with its bytes, unless a purge named a later moment
than that of its last post. No purge took an event that was pending: what was after a kill is in the
file, or was posted since. Events are published too: one that was answered 202 was posted to each
subscriber, under the number that the answer names for it, and any other one to each subscriber or
to none. One id is submitted after each purge, each time with other bytes: it is refused, or a new
event. At last everything is purged. Runs may go on side by side.
Usage: scripts/serve kill RELAYD [KILLS [SEED]]: 20 kills if left out
"""
import collections
import random
import sqlite3
import sys
import tempfile
import threading
import time
import zlib

from lib.command import Counts, program_of, ran
from lib.serving import SECRET, Relay, Subscriber, ask, post, purge, put, submit, subscribe, wait_until

SUBMITTERS = 16
NAMES = ("a", "b", "c", "d")
# Where events are sent, and the endpoints that get them, in the order in which they are put.
SUBSCRIBERS = ("a", "b", "d")
PLACES = {f"/v1/endpoints/{name}/events": (name,) for name in NAMES} | {"/v1/topics/t/events": SUBSCRIBERS}
FAILURES = (500, 503, b"", b"abc", b"HTTP/1.1 2")
# The endpoint and the id under which one event after another comes.
AGAIN = ("c", "again")
# Seconds between purges, and how many seconds before them an event has ended that they take.
PAUSE, AGE = 0.2, 1
# So many kills at most come before the first purge.
UNPURGED = 5


class Load:
    """Submitters and one who purges, who go on over kills, and what they were answered. An event at an endpoint is its name, id and bytes."""

    def __init__(self, pause=PAUSE, rest=0.0, may_purge=True):
        self.pause, self.rest, self.may_purge = pause, rest, may_purge
        self.sent, self.published = set(), []
        # The number of each event that was acknowledged.
        self.acknowledged = {}
        self.strange = []
        # The latest moment that a purge named, and how many purges were answered.
        self.purged_before = self.purges = 0
        self.lock = threading.Lock()
        self.address = None
        self.ends = False
        works = [(self.send, it) for it in range(SUBMITTERS)] + [(self.purge, None)]
        self.threads = [threading.Thread(target=self.go_on, args=work, daemon=True) for work in works]

    def go_on(self, work, at):
        """Works on, with a relay that is there or was a moment ago."""
        draw, number = random.Random(at), 0
        while not self.ends:
            address = self.address
            if address is None:
                time.sleep(0.01)
                continue
            try:
                work(address, draw, at, number)
            except OSError:
                pass
            number += 1

    def send(self, address, draw, at, number):
        path, event = draw.choice(list(PLACES)), f"e{at}-{number}"
        body = event.encode() + bytes(draw.randrange(256) for _ in range(draw.choice((0, 10, 300))))
        with self.lock:
            self.sent |= {(name, event, body) for name in PLACES[path]}
            self.published += [(event, body)] if path.startswith("/v1/topics/") else []
        self.acknowledge(PLACES[path], event, body, post(address, path, body, event))
        time.sleep(self.rest)

    def purge(self, address, draw, at, number):
        time.sleep(self.pause)
        if not self.may_purge:
            return
        with self.lock:
            self.purged_before = max(self.purged_before, int(time.time()) - AGE)
        answer = purge(address, self.purged_before)
        with self.lock:
            self.purges += answer.status == 200
            self.strange += [answer.body] if answer.status not in (200, 503, None) else []
        (name, event), body = AGAIN, str(number).encode()
        with self.lock:
            self.sent.add((name, event, body))
        self.acknowledge([name], event, body, submit(address, name, body, event))

    def acknowledge(self, names, event, body, answer):
        """Keeps the numbers of an answer: one for each endpoint in the order of these, without another number between."""
        if answer.status != 202:
            return
        told = answer.json()
        numbers = told["seqs"] if "seqs" in told else [told["seq"]]
        with self.lock:
            self.acknowledged.update({(name, event, body): number for name, number in zip(names, numbers)})
            if numbers != list(range(numbers[0], numbers[0] + len(names))):
                self.strange.append(told)


class Failing:
    """A subscriber that fails the first post of one event in five, in one way of several. It keeps when it answered each event last, and of the posts only
    how many there were, and which had an event that nobody sent or no signature."""

    def __init__(self, name, load):
        self.name, self.load = name, load
        self.answered, self.posts, self.strange, self.unsigned = {}, 0, [], []
        self.lock = threading.Lock()

    def __call__(self, post):
        event = post.header("webhook-id")
        with self.load.lock:
            is_sent = (self.name, event, post.body) in self.load.sent
        is_signed = post.is_signed_by(SECRET)
        with self.lock:
            self.posts += 1
            self.strange += [] if is_sent else [event]
            self.unsigned += [] if is_signed else [event]
            is_first = (event, post.body) not in self.answered
            self.answered[event, post.body] = time.time()
        draw = zlib.crc32(event.encode())
        return FAILURES[draw // 5 % len(FAILURES)] if is_first and draw % 5 == 0 else 200


class Kills:
    """A relay under load that is killed again and again."""

    def __init__(self, counts, relayd, folder, load, *options):
        self.counts, self.relayd, self.file, self.load, self.options = counts, relayd, f"{folder}/relay.db", load, options
        self.failing = {name: Failing(name, load) for name in NAMES}
        self.subscribers = {name: Subscriber(self.failing[name]) for name in NAMES}
        for it in self.subscribers.values():
            # A long run has millions of posts.
            it.posts = collections.deque(maxlen=0)
        # The events that were pending after a kill, each with the moment of the start after the last such kill.
        self.pending = {}
        self.relay = Relay(relayd, self.file, *options)
        for name in NAMES:
            counts.check("an endpoint", put(self.relay.address, name, self.subscribers[name].port).status, 201)
        for name in reversed(SUBSCRIBERS):
            counts.check("a subscription", subscribe(self.relay.address, "t", name).status, 200)
        load.address = self.relay.address
        for it in load.threads:
            it.start()

    def kill(self):
        """Kills the relay, looks at its file, and starts it again."""
        self.load.address = None
        with self.load.lock:
            known = len(self.load.acknowledged) + self.load.purges
            acknowledged = dict(self.load.acknowledged)
        self.relay.kill()
        status, told, fault = ran(self.relayd, "check", self.file)
        self.counts.check("the file is opened", (status, fault), (0, ""))
        self.counts.check("it holds what was acknowledged", int(told.split()[2]) >= known + len(NAMES))
        kept, ended = rows(self.file), {seq for (seq,) in reading(self.file, "SELECT delivery FROM attempts WHERE status BETWEEN 200 AND 299")}
        if not self.load.may_purge:
            self.counts.check("events that are not kept under their number", [it[:2] for it, number in acknowledged.items() if kept.get(it) != number], [])
        now = time.time()
        self.pending |= {it: now for it, number in kept.items() if number not in ended}
        self.relay = Relay(self.relayd, self.file, *self.options)
        self.load.address = self.relay.address

    def answered(self):
        """When each event was answered last."""
        return {(name, *it): when for name in NAMES for it, when in list(self.failing[name].answered.items())}

    def conclude(self):
        """Ends the load, and checks what was delivered and kept once nothing is killed any more."""
        self.load.ends = True
        for it in self.load.threads:
            it.join()
        check_kept(self.counts, self.load, self)
        check_posts(self.counts, self.load, self)
        check_emptied(self.counts, self.load, self)


def main():
    relayd = program_of(__doc__)
    kills = int(sys.argv[2]) if len(sys.argv) > 2 else 20
    seed = int(sys.argv[3]) if len(sys.argv) > 3 else random.randrange(2**32)
    print(f"seed {seed}")
    draw, counts = random.Random(seed), Counts()
    with tempfile.TemporaryDirectory() as folder:
        load = Load(may_purge=False)
        run = Kills(counts, relayd, folder, load)
        for number in range(kills):
            load.may_purge = number >= min(kills // 2, UNPURGED)
            time.sleep(draw.uniform(0.05, 1.5))
            run.kill()
        run.conclude()
    return counts.end()


def check_kept(counts, load, run):
    """Each event is delivered, and is in the file or was purged after that."""
    seconds = 60 + len(load.acknowledged) / 100
    counts.check("every event is posted", wait_until(lambda: load.acknowledged.keys() <= run.answered().keys(), seconds))
    pending = lambda: ask(run.relay.address, "GET", "/v1/status").json()["pending"]
    counts.check("every event is delivered", wait_until(lambda: pending() == 0, seconds))
    run.relay.kill()
    kept, posted = rows(run.file), run.answered()
    is_purged = lambda it: it not in kept and it in posted and int(posted[it]) < load.purged_before
    counts.check("events that are neither kept nor purged", [it[:2] for it in load.acknowledged if it not in kept and not is_purged(it)], [])
    counts.check("purges took some", any(map(is_purged, load.acknowledged)))
    counts.check("events under another number", [it[:2] for it, number in load.acknowledged.items() if kept.get(it, number) != number], [])
    counts.check("purges took what was pending", [it[:2] for it, when in run.pending.items() if it not in kept and posted.get(it, 0) < when], [])
    counts.check("other answers", load.strange, [])
    counts.check("one id came again", sum((name, event) == AGAIN for name, event, _ in load.acknowledged) > 1)
    print(f"{len(load.sent)} submitted, {len(load.acknowledged)} acknowledged, {load.purges} purges, {len(kept)} kept")


def check_posts(counts, load, run):
    """What was posted was sent, is signed, and reached each subscriber of its topic."""
    posted = run.answered()
    where = [tuple(name for name in NAMES if (name, *it) in posted) for it in load.published]
    counts.check("publishes that reached some subscribers alone", [it for it in where if it not in ((), SUBSCRIBERS)], [])
    for name, failing in run.failing.items():
        counts.check(f"nothing else is posted to {name}", failing.strange[:5], [])
        counts.check(f"all to {name} are signed", failing.unsigned[:5], [])
    print(f"{len(where)} published, {where.count(SUBSCRIBERS)} of them kept, {sum(it.posts for it in run.failing.values())} posts")


def check_emptied(counts, load, run):
    """A purge of everything leaves no event, and each id is free."""
    run.relay = Relay(run.relayd, run.file, *run.options)
    totals = lambda: ask(run.relay.address, "GET", "/v1/status").json()
    records, ids = totals()["records"], {it[:2] for it in load.acknowledged}
    counts.check("all is purged", (purge(run.relay.address, int(time.time()) + 2).json()["seq"], totals()["delivered"]), (records, 0))
    again = sorted(ids)[:5]
    counts.check("ids are free", all(submit(run.relay.address, name, b"", event).json().get("seq", 0) > records for name, event in again))
    counts.check("what came since is delivered", wait_until(lambda: totals()["pending"] == 0, 20))
    run.relay.kill()
    counts.check("what is left", sorted(rows(run.file)), [(*it, b"") for it in again])


def reading(file, statement):
    conn = sqlite3.connect(f"file:{file}?mode=ro", uri=True)
    try:
        return conn.execute(statement).fetchall()
    finally:
        conn.close()


def rows(file):
    """The events of a file, each with its number."""
    found = reading(file, "SELECT e.name, d.id, d.body, d.seq FROM deliveries d JOIN endpoints e ON e.put = d.endpoint")
    return {tuple(it): seq for *it, seq in found}
