"""A relay that serves: allocations refused, and bounds of its address space.

Each allocation after its start is refused in turn, up to the given number, while an endpoint is
put, events are submitted and posted and pages are asked for; and relays are started with up to 20
bounds of their address space, and loaded until one is met. No relay dies but with status 3 and a
fault's name; what was answered 202 is there afterwards, also for a relay that is started again; and
what was answered 503 is taken once there is memory, under its first number if it had one: no
subscriber answers before all events are taken, so an event has the number that comes next.
Usage: scripts/memory serve RELAYD [ALLOCATIONS [STEP [BOUNDS]]]: each eighth of 400, and 4 of the
20 bounds, if left out; 3000 1 20 by hand
"""
import concurrent.futures
import os
import pathlib
import resource
import subprocess
import sys
import tempfile
import threading
import time

from lib import faults
from lib.command import Counts, needs, program_of
from lib.serving import STARTED, Relay, Subscriber, ask, put, submit, wait_until

FAULTS = {"OutOfMemory", "Halted", "NoThread", "Mismatch", "Store", "Closed", "Lost", "CannotOpen", "CannotListen"}
REFUSED = b'{"error":"OutOfMemory"}'
# How many bounds there are, the least of them and how far they stand apart, in MiB.
SIZES, LEAST, APART, MEGABYTE = 20, 60, 12, 2**20
# An event that is submitted, looked for and posted takes at least so many allocations.
PER_EVENT = 300


def started(program, file, *options, env=None, bound=None):
    """A relay that serves, or the status and what it told where it doesn't."""
    shell = [program] if bound is None else ["prlimit", f"--as={bound}:", program]
    relay, words = Relay.__new__(Relay), [*shell, "serve", file, "127.0.0.1:0", *map(str, options)]
    env = {**os.environ, **(env or {})}
    relay.process = subprocess.Popen(words, stdout=subprocess.PIPE, stderr=subprocess.PIPE, text=True, env=env)
    STARTED.append(relay.process)
    line = relay.process.stdout.readline()
    if not line.startswith("listening on "):
        told = relay.process.stderr.read()
        return None, (relay.process.wait(), told)
    host, _, port = line[len("listening on ") :].strip().rpartition(":")
    relay.address = (host, int(port))
    relay.told = []
    return relay, None


def is_named(status, told):
    """Whether a relay ended as it may: with status 3, and the name of a fault on the last line."""
    last = told.strip().rsplit("\n", 1)[-1]
    return status == 3 and last.removeprefix("relayd: ") in FAULTS


def asked_for(call):
    """An answer, or None where the connection was closed without one."""
    try:
        answer = call()
    except OSError:
        return None
    return answer if answer.status is not None else None


def again(call):
    """The answer that isn't a refusal for memory, asked for a few times."""
    for _ in range(8):
        answer = asked_for(call)
        if answer is not None and (answer.status, answer.body) != (503, REFUSED):
            return answer
        time.sleep(0.02)
    return None


def records(relay):
    """How many records are settled, or None where that isn't told."""
    answer = again(lambda: ask(relay.address, "GET", "/v1/status"))
    return answer.json()["records"] if answer is not None and answer.status == 200 else None


def work(relay, port, kept, events):
    """An endpoint, so many events and the pages: the number that each event was taken under, or None if another answer gave another one. An event
    that was refused for memory and is a record all the same is counted among those that were kept."""
    taken = {}
    if again(lambda: put(relay.address, "a", port)) is None:
        return taken
    for event in [f"e{at + 1}" for at in range(events)]:
        before = records(relay)
        answer = asked_for(lambda: submit(relay.address, "a", event.encode(), event))
        if answer is not None and (answer.status, answer.body) == (503, REFUSED) and records(relay) == (before or 0) + 1:
            kept.append(event)
        if answer is None or answer.status != 202:
            answer = again(lambda: submit(relay.address, "a", event.encode(), event))
        if answer is None or answer.status != 202:
            continue
        seq = answer.json()["seq"]
        # A post that failed for memory may have been recorded meanwhile.
        is_next = before is None or seq == before or (records(relay) or seq) > before + 1
        same = again(lambda: submit(relay.address, "a", event.encode(), event))
        is_same = same is None or (same.status, same.json().get("seq")) == (202, seq)
        taken[event] = seq if is_next and is_same else None
    for path in ("/v1/endpoints/a", "/v1/endpoints/a/events/e1"):
        again(lambda: ask(relay.address, "GET", path))
    return taken


ONE_THREAD = ("--workers", 1, "--intake", 1)


def asked_before(program, library):
    """How many allocations a relay asks for before it serves."""
    with tempfile.TemporaryDirectory() as folder:
        asked = pathlib.Path(folder, "asked")
        asked.write_bytes(faults.EMPTY)
        relay, _ = started(program, f"{folder}/relay.db", *ONE_THREAD, env=faults.settings(library, asked=asked, allocation=0))
        first = faults.counts_of(asked)[0]
        relay.process.kill()
        relay.process.communicate()
        return first


def refused_at(program, library, number, kept, events):
    """What is wrong where the allocation with this number is refused, and whether there was one."""
    with tempfile.TemporaryDirectory() as folder:
        asked, file, held = pathlib.Path(folder, "asked"), f"{folder}/relay.db", threading.Event()
        asked.write_bytes(faults.EMPTY)

        def reply(_):
            held.wait(20)
            return 200

        subscriber = Subscriber(reply)
        try:
            relay, ended = started(program, file, *ONE_THREAD, env=faults.settings(library, asked=asked, allocation=number))
            if relay is None:
                return (None if is_named(*ended) else f"allocation {number}: {ended}"), True
            wrong, taken = worked(relay, subscriber, held, number, kept, events)
        finally:
            held.set()
            subscriber.close()
        was_refused = faults.counts_of(asked)[0] >= number
        return wrong or lost(program, file, taken, f"allocation {number}"), was_refused


def worked(relay, subscriber, held, number, kept, events):
    """What is wrong with a relay that is asked for all, and what it took."""
    taken = work(relay, subscriber.port, kept, events)
    held.set()
    status, wrong = relay.process.poll(), None
    if status is None:
        posted = lambda: {post.header("webhook-id") for post in subscriber.posts} >= taken.keys()
        if len(taken) < events or not wait_until(posted, 20):
            wrong = f"allocation {number}: {taken} were taken, {len(subscriber.posts)} posted"
    relay.process.kill()
    _, told = relay.process.communicate()
    if status is not None and not is_named(status, told):
        wrong = f"allocation {number}: it ended with {status}, {told[-200:]}"
    return wrong, taken


def lost(program, file, taken, what):
    """What of the events that were taken a relay that is started again doesn't have."""
    relay = Relay(program, file)
    try:
        for event, seq in taken.items():
            same = submit(relay.address, "a", event.encode(), event)
            if (same.status, same.json().get("seq")) != (202, seq):
                return f"{what}: {event} was {seq}, and is answered {same.status} {same.body}"
    finally:
        relay.kill()
    return None


def bounded_by(program, size):
    """What is wrong with a relay whose address space is bounded so, once more is asked of it than it has room for, and when it has room again."""
    with tempfile.TemporaryDirectory() as folder:
        file, subscriber, taken = f"{folder}/relay.db", Subscriber(lambda post: 500), {}
        relay, ended = started(program, file, "--workers", 2, "--intake", 2, bound=size)
        what = f"{size // MEGABYTE} MiB"
        if relay is None:
            return (f"{what}: not started", None if is_named(*ended) else f"{what}: {ended}")
        put_at = again(lambda: put(relay.address, "a", subscriber.port))
        refused, number = 0, 0
        while put_at is not None and refused < 5 and number < 3000 and relay.process.poll() is None:
            event, number = f"e{number}", number + 1
            body = (event * 20000)[:60000].encode()
            answer = asked_for(lambda: submit(relay.address, "a", body, event))
            if answer is not None and answer.status == 202:
                taken[event] = (answer.json()["seq"], body)
            else:
                refused += 1
        status, wrong = relay.process.poll(), None
        if status is not None:
            told = relay.process.stderr.read()
            wrong = None if is_named(status, told) else f"{what}: it ended with {status}, {told[-200:]}"
        else:
            resource.prlimit(relay.process.pid, resource.RLIMIT_AS, (resource.RLIM_INFINITY, resource.RLIM_INFINITY))
            put_again = lambda: again(lambda: put(relay.address, "b", subscriber.port))
            if put_again() is None or getattr(again(lambda: submit(relay.address, "b", b"{}", "more")), "status", None) != 202:
                # A committer that was refused nine times in a row ends the relay.
                status = relay.ended(10)
                wrong = None if status is not None and is_named(status, relay.process.stderr.read()) else f"{what}: it takes nothing once there is memory"
            relay.process.kill()
            relay.process.communicate()
        if wrong is None and taken:
            other = Relay(program, file)
            for event, (seq, body) in taken.items():
                same = submit(other.address, "a", body, event)
                if (same.status, same.json().get("seq")) != (202, seq):
                    wrong = f"{what}: {event} was {seq}, and is answered {same.status}"
            other.kill()
        end = "serves on" if status is None else f"ended with {status}"
        return f"{what}: {len(taken)} events taken, {refused} refused, {end}", wrong


def main():
    program = program_of(__doc__)
    needs("prlimit", "util-linux")
    most = int(sys.argv[2]) if len(sys.argv) > 2 else 400
    step = int(sys.argv[3]) if len(sys.argv) > 3 else 8
    bounds = int(sys.argv[4]) if len(sys.argv) > 4 else 4
    sizes = [(LEAST + APART * at) * MEGABYTE for at in range(0, SIZES, max(1, SIZES // bounds))]
    counts, refused, kept = Counts(), 0, []
    with tempfile.TemporaryDirectory() as folder:
        library = faults.compiled(folder)
        first = asked_before(program, library)
        numbers = range(first + 1, first + most + 1, step)
        with concurrent.futures.ThreadPoolExecutor(4) as pool:
            for wrong, was_refused in pool.map(lambda number: refused_at(program, library, number, kept, max(3, most // PER_EVENT)), numbers):
                counts.check("an allocation that is refused", wrong, None)
                refused += was_refused
        counts.check(f"refused allocations: {refused} of {len(numbers)}, of the {most} after the first {first}", refused, len(numbers))
        print(f"{refused} allocations were refused, of the {most} after the first {first}; {len(kept)} events were refused and kept")
        with concurrent.futures.ThreadPoolExecutor(2) as pool:
            for told, wrong in pool.map(lambda size: bounded_by(program, size), sizes):
                print(told)
                counts.check("a bound of the address space", wrong, None)
    return counts.end()
