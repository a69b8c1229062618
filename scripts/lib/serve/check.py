"""Worked requests, the longest values, and submitters and subscribers that misbehave.

Also an endpoint's greatest limit, few threads and descriptors, standard streams that are closed,
and the signatures of 1,000 posts, which Python's hmac verifies; topics; purges.
Answers are those that docs/FORMATS.md names.
Usage: scripts/serve check RELAYD
"""
import base64
import contextlib
import json
import os
import pathlib
import re
import resource
import socket
import sqlite3
import struct
import subprocess
import tempfile
import threading
import time

from lib.command import Counts, program_of
from lib.openings import check_slow_opening
from lib.process import NOBODY, descriptors_of, seconds_of
from lib.retention import check_exhausted_purged, check_large_purge, check_no_number_left, check_purges
from lib.serving import SECRET, STARTED, Answer, Relay, Subscriber, ask, check_answer, connect, exchange, put, read_all, relay_of, request
from lib.serving import submit, wait_until
from lib.topics import check_changing, check_many_subscriptions, check_topics, check_widest

EVENTS = "/v1/endpoints/a/events"
# Which standard streams a program is started without, in the words of a shell.
CLOSED = ("<&-", ">&-", "2>&-", "<&- >&-", "<&- 2>&-", ">&- 2>&-", "<&- >&- 2>&-")
MOST = 65536
EXHAUSTED = "exhausted: event e1 of endpoint a, after 10 failures\n"
RESOLVER = "127.83.7.1"
ELSEWHERE = "127.83.7.2"
# The id of an event that comes without one: a UUID of version 4.
MADE = re.compile(r"msg_[0-9a-f]{8}-[0-9a-f]{4}-4[0-9a-f]{3}-[89ab][0-9a-f]{3}-[0-9a-f]{12}")
# A user of whom nothing runs.
STRANGER = 64321
HEADERS = [
    "host", "user-agent", "content-type", "content-length", "connection", "webhook-id", "webhook-timestamp", "webhook-signature",
]


def chunked(body, size, end=b"0\r\n\r\n"):
    pieces = [body[at : at + size] for at in range(0, len(body), size)]
    return b"".join(b"%x\r\n%s\r\n" % (len(it), it) for it in pieces) + end


def head(*lines, line=f"POST {EVENTS} HTTP/1.1"):
    return "\r\n".join((line, "host: relay", *lines, "", "")).encode()


def records(address):
    return ask(address, "GET", "/v1/status").json()["records"]


def check_worked(counts, relay, subscriber):
    """Requests one after another, each with its answer."""
    address = relay.address
    check_answer(counts, "an endpoint", put(address, "a", subscriber.port), 201, b'{"seq":0}')
    steps = [
        ("an event", "msg_1", b"{}", 202, b'{"id":"msg_1","seq":1}'),
        ("the same again", "msg_1", b"{}", 202, b'{"id":"msg_1","seq":1}'),
        ("its id with other bytes", "msg_1", b"[]", 409, b'{"error":"Conflict"}'),
        ("a body that is too long", "msg_2", b"x" * (MOST + 1), 413, b'{"error":"TooLong"}'),
        ("an id that is none", "a.b", b"{}", 400, b'{"error":"BadId"}'),
    ]
    for name, event, body, status, told in steps:
        check_answer(counts, name, submit(address, "a", body, event), status, told)
    longest = submit(address, "a", b"x" * MOST, "msg_3")
    counts.check("the longest body", (longest.status, longest.json()["id"]), (202, "msg_3"))
    check_answer(counts, "the endpoint again", put(address, "a", subscriber.port), 409, b'{"error":"Exists"}')
    counts.check("another endpoint", put(address, "b", subscriber.port, most=7).status, 201)
    page = ask(address, "GET", "/v1/endpoints/b")
    counts.check("its page", (page.status, page.json()["max"]), (200, 7))
    check_answer(counts, "an endpoint that isn't there", ask(address, "GET", "/v1/endpoints/c"), 404, b'{"error":"UnknownEndpoint"}')
    check_answer(counts, "an event that isn't there", ask(address, "GET", EVENTS + "/no"), 404, b'{"error":"UnknownEvent"}')
    made = [submit(address, "a", b"{}").json()["id"] for _ in range(3)]
    counts.check("ids that are made", [bool(MADE.fullmatch(it)) for it in made], [True] * 3)
    counts.check("each event gets its own", len(set(made)), 3)


def check_delivered(counts, relay, subscriber):
    """What was posted, and the page once it was answered 200."""
    counts.check("three posts", subscriber.wait_for(3))
    post = next(it for it in subscriber.posts if it.header("webhook-id") == "msg_1")
    counts.check("the first line of a post", post.line, "POST /hook HTTP/1.1")
    counts.check("the headers of a post", [name for name, _ in post.headers], HEADERS)
    counts.check("the host", post.header("host"), f"127.0.0.1:{subscriber.port}")
    counts.check("the values", [post.header(it) for it in HEADERS[1:5]], ["relayd/1", "application/json", "2", "close"])
    counts.check("the body of a post", post.body, b"{}")
    counts.check("the signature of a post", post.is_signed_by(SECRET))
    page = f"{EVENTS}/msg_1"
    state = lambda: ask(relay.address, "GET", page).json()["state"]
    counts.check("the page says delivered", wait_until(lambda: state() == "delivered"))


def check_made_ids(counts, relayd, folder):
    """Two events without an id are two records, and no more. Their endpoint is disabled, so that no outcome comes between."""
    relay = Relay(relayd, f"{folder}/made.db")
    put(relay.address, "a", 9)
    ask(relay.address, "PUT", "/v1/endpoints/a/enabled", b'{"enabled":false}')
    made = [submit(relay.address, "a", b"{}").json() for _ in range(2)]
    counts.check("events without ids: their numbers", [it["seq"] for it in made], [2, 3])
    counts.check("events without ids: two ids", len({it["id"] for it in made}), 2)
    totals = ask(relay.address, "GET", "/v1/status").json()
    counts.check("events without ids: the totals", (totals["records"], totals["pending"]), (4, 2))
    counts.check("events without ids: the endpoint's page", ask(relay.address, "GET", "/v1/endpoints/a").json()["pending"], 2)
    relay.kill()


def check_due(counts, relayd, folder):
    """The first retry is due five seconds after the answer, which comes two seconds after the claim. Another worker's claim would set the desk's clock."""
    answered = []

    def reply(_):
        time.sleep(2)
        answered.append(int(time.time()))
        return 500

    subscriber = Subscriber(reply)
    relay = Relay(relayd, f"{folder}/due.db", "--workers", 1)
    put(relay.address, "a", subscriber.port)
    submit(relay.address, "a", b"{}", "e1")
    page = lambda: ask(relay.address, "GET", f"{EVENTS}/e1").json()
    counts.check("due: the first attempt", wait_until(lambda: page()["attempts"] == 1, 10))
    due, now = page()["due"], int(time.time())
    counts.check("due: five seconds after the answer", answered[0] + 5 <= due <= now + 5)
    relay.kill()
    subscriber.close()


def check_full_backlog(counts, relay):
    """A listener that takes no more connections: the attempt ends with the post's time, one second here, and not with the system's, two minutes."""
    with contextlib.ExitStack() as stack:
        listener = stack.enter_context(socket.socket())
        listener.bind(("127.0.0.1", 0))
        listener.listen(0)
        for _ in range(4):
            waiting = stack.enter_context(socket.socket())
            waiting.setblocking(False)
            waiting.connect_ex(listener.getsockname())
        with contextlib.suppress(TimeoutError):
            connect(listener.getsockname(), 0.3).close()
            counts.check("full backlog: it takes no more", False)
        put(relay.address, "full", listener.getsockname()[1])
        submit(relay.address, "full", b"{}", "e1")
        page = lambda: told_of(relay.address, "/v1/endpoints/full/events/e1")
        counts.check("full backlog: a failed attempt in time", wait_until(lambda: page() == (1, 0, "pending"), 10))


def check_unreached(counts, relay, subscriber):
    """An endpoint whose host has no address, and one at whose port nobody listens: a failed attempt each, and the others' events go on. Somebody
    listens at that port later, and gets the event."""
    with socket.socket() as unheard:
        unheard.bind(("127.0.0.1", 0))
        for name, host in (("nowhere", "nowhere.invalid"), ("unheard", "127.0.0.1:%d" % unheard.getsockname()[1])):
            body = json.dumps({"url": f"http://{host}/hook", "max": 1, "secrets": [SECRET]}).encode()
            counts.check(f"an endpoint, {name}", ask(relay.address, "PUT", f"/v1/endpoints/{name}", body).status, 201)
            counts.check(f"its event, {name}", submit(relay.address, name, b"{}", "e1").status, 202)
            page = lambda: ask(relay.address, "GET", f"/v1/endpoints/{name}/events/e1").json()
            said = lambda: (page()["attempts"], page()["last_status"], page()["state"])
            posts = len(subscriber.posts)
            submit(relay.address, "a", b"{}", f"beside-{name}")
            counts.check(f"another endpoint's event beside it, {name}", subscriber.wait_for(posts + 1, 5))
            counts.check(f"a failed attempt, {name}", wait_until(lambda: said() == (1, 0, "pending"), 30))
        port = unheard.getsockname()[1]
    late = Subscriber(port=port)
    counts.check("a subscriber that comes up gets its event", late.wait_for(1, 20))
    counts.check("its page tells of both attempts", wait_until(lambda: said() == (2, 200, "delivered"), 10))
    counts.check("it got one post", len(late.posts), 1)
    late.close()


def told_of(address, path):
    """What an event's page tells of its attempts."""
    page = ask(address, "GET", path).json()
    return page["attempts"], page["last_status"], page["state"]


def with_file(folder, relayd, file, text):
    """A program that runs relayd where a file of /etc has this text."""
    mine, program = pathlib.Path(folder, file), pathlib.Path(folder, f"relayd-with-{file}")
    mine.write_text(text)
    program.write_text(f"#!/bin/sh\nexec unshare -m sh -c 'mount --bind {mine} /etc/{file} && exec {relayd} \"$@\"' relayd \"$@\"\n")
    program.chmod(0o755)
    return str(program)


def check_names(counts, relayd, folder, subscriber):
    """Names that this machine says something of, or nothing. Only root gives a program files of its own below /etc."""
    if subprocess.run(["unshare", "-m", "true"], capture_output=True).returncode != 0:
        print("names of hosts: not tried, since only root gives a program a resolver of its own")
        return
    check_two_addresses(counts, relayd, folder)
    check_silent_resolver(counts, relayd, folder, subscriber)


def check_two_addresses(counts, relayd, folder):
    """A host with two addresses is posted to at the one that takes connections, whichever the system names first."""
    lines = [f"{address} both.test\n" for address in ("127.0.0.1", ELSEWHERE)]
    relay = Relay(with_file(folder, relayd, "hosts", "".join(lines)), f"{folder}/two.db")
    for number, host in enumerate(("127.0.0.1", ELSEWHERE)):
        subscriber, name = Subscriber(host=host), f"a{number}"
        body = json.dumps({"url": f"http://both.test:{subscriber.port}/hook", "max": 1, "secrets": [SECRET]}).encode()
        counts.check(f"two addresses, at {host}: its endpoint", ask(relay.address, "PUT", f"/v1/endpoints/{name}", body).status, 201)
        counts.check(f"two addresses, at {host}: its event", submit(relay.address, name, b"{}", "e1").status, 202)
        page = lambda: told_of(relay.address, f"/v1/endpoints/{name}/events/e1")
        counts.check(f"two addresses, at {host}: the first attempt", wait_until(lambda: page() == (1, 200, "delivered"), 10))
        subscriber.close()
    relay.kill()


def check_silent_resolver(counts, relayd, folder, subscriber):
    """A name that the resolver says nothing of holds the one worker for a post's time, and not for the resolver's, which is ten seconds here; and the
    end isn't held either."""
    with socket.socket(socket.AF_INET, socket.SOCK_DGRAM) as resolver:
        resolver.bind((RESOLVER, 53))
        program = with_file(folder, relayd, "resolv.conf", f"nameserver {RESOLVER}\n")
        relay = Relay(program, f"{folder}/silent.db", "--timeout", 1, "--workers", 1)
        body = json.dumps({"url": "http://subscriber.test/hook", "max": 1, "secrets": [SECRET]}).encode()
        counts.check("silent resolver: its endpoint", ask(relay.address, "PUT", "/v1/endpoints/silent", body).status, 201)
        counts.check("silent resolver: another", put(relay.address, "a", subscriber.port).status, 201)
        counts.check("silent resolver: its event", submit(relay.address, "silent", b"{}", "e1").status, 202)
        time.sleep(0.3)
        posts, begun = len(subscriber.posts), time.monotonic()
        counts.check("silent resolver: another's event", submit(relay.address, "a", b"{}", "e1").status, 202)
        counts.check("silent resolver: it is posted", subscriber.wait_for(posts + 1, 20))
        counts.check("silent resolver: in time", time.monotonic() - begun < 8)
        page = lambda: told_of(relay.address, "/v1/endpoints/silent/events/e1")
        counts.check("silent resolver: a failed attempt", wait_until(lambda: page() == (1, 0, "pending"), 20))
        relay.kill()
        relay = Relay(program, f"{folder}/silent-end.db", "--timeout", 1, "--requests", 2)
        ask(relay.address, "PUT", "/v1/endpoints/silent", body)
        begun = time.monotonic()
        counts.check("silent resolver: its last event", submit(relay.address, "silent", b"{}", "e2").status, 202)
        counts.check("silent resolver: it ends", relay.ended(20), 0)
        counts.check("silent resolver: it ends in time", time.monotonic() - begun < 8)


def post_with_spare(relayd, file, spare, told):
    """Has an event posted again while the relay may open so many more descriptors, then as many as it likes: what its page tells in the end, and how
    much processor time the relay used in two seconds in which the event was due."""
    replies = iter([500])
    subscriber = Subscriber(lambda post: next(replies, 200))
    relay = Relay(relayd, file, "--workers", 1, "--intake", 1)
    page = lambda: told_of(relay.address, f"{EVENTS}/e1")
    put(relay.address, "a", subscriber.port)
    submit(relay.address, "a", b"{}", "e1")
    wait_until(lambda: page()[0] == 1, 20)
    time.sleep(0.5)
    before = resource.prlimit(relay.process.pid, resource.RLIMIT_NOFILE)
    resource.prlimit(relay.process.pid, resource.RLIMIT_NOFILE, (max(descriptors_of(relay.process.pid)) + 1 + spare, before[1]))
    time.sleep(5)
    used = seconds_of(relay.process.pid)
    time.sleep(2)
    used = seconds_of(relay.process.pid) - used
    resource.prlimit(relay.process.pid, resource.RLIMIT_NOFILE, before)
    wait_until(lambda: page()[2] == "delivered", 20)
    told[spare] = page(), used
    relay.kill()


def check_few_descriptors(counts, relayd, folder):
    """A post for which there is no descriptor is no attempt: the endpoint saw nothing of it. It is tried with none to spare, and with one more each
    time until there are enough. The worker rests after each such post."""
    told = {}
    spares = range(7)
    threads = [threading.Thread(target=post_with_spare, args=(relayd, f"{folder}/spare-{it}.db", it, told), daemon=True) for it in spares]
    for it in threads:
        it.start()
    for it in threads:
        it.join()
    for spare in spares:
        page, used = told.get(spare, (None, 2))
        counts.check(f"{spare} descriptors to spare: what its page tells", page, (2, 200, "delivered"))
        counts.check(f"{spare} descriptors to spare: it rests", used < 0.5)


class Misbehaving:
    """Listens at a port of its own, reads each post, sends these bytes, and then closes, stays for some seconds, or resets the connection."""

    def __init__(self, sends, then):
        self.sends, self.then = sends, then
        self.listener = socket.create_server(("127.0.0.1", 0))
        self.port = self.listener.getsockname()[1]
        threading.Thread(target=self.accept, daemon=True).start()

    def accept(self):
        while True:
            sock, _ = self.listener.accept()
            threading.Thread(target=self.serve, args=(sock,), daemon=True).start()

    def serve(self, sock):
        with sock:
            try:
                sock.recv(65536)
                sock.sendall(self.sends)
                if self.then == "stays":
                    time.sleep(5)
                if self.then == "resets":
                    sock.setsockopt(socket.SOL_SOCKET, socket.SO_LINGER, struct.pack("ii", 1, 0))
            except OSError:
                pass


# What a subscriber sends and does, and what its event's page tells then.
MISBEHAVING = {
    "closes": (b"", "closes", (0, "pending")),
    "abc": (b"abc", "closes", (0, "pending")),
    "silent": (b"", "stays", (0, "pending")),
    "head-alone": (b"HTTP/1.1 200 OK\r\ncontent-length: 100\r\n\r\n", "stays", (200, "delivered")),
    "head-cut": (b"HTTP/1.1 200 OK\r\ncontent-length: 100\r\n\r\n", "closes", (200, "delivered")),
    "half-a-head": (b"HTTP/1.1 200 OK\r\ncontent-le", "closes", (0, "pending")),
    "slow-head": (b"HTTP/1.1 200 OK\r\n", "stays", (0, "pending")),
    "status-099": (b"HTTP/1.1 099 X\r\n\r\n", "closes", (0, "pending")),
    "status-100": (b"HTTP/1.1 100 Continue\r\n\r\n", "closes", (0, "pending")),
    "long-head": (b"HTTP/1.1 200 OK\r\nx: " + b"y" * 70_000, "closes", (0, "pending")),
    "resets": (b"", "resets", (0, "pending")),
    "redirects": (b"HTTP/1.1 302 X\r\nlocation: /\r\n\r\n", "closes", (302, "pending")),
    "gone": (b"HTTP/1.1 410 Gone\r\n\r\n", "closes", (410, "pending")),
}


def check_subscribers(counts, relay, subscriber):
    """Subscribers that misbehave, all at once: what each event's page tells, that the 410 alone disables, and that another endpoint's events go on."""
    address = relay.address
    for name, (sends, then, _) in MISBEHAVING.items():
        counts.check(f"an endpoint, {name}", put(address, name, Misbehaving(sends, then).port, most=1).status, 201)
    for name in MISBEHAVING:
        counts.check(f"its event, {name}", submit(address, name, b"{}", "e1").status, 202)
    posts = len(subscriber.posts)
    for number in range(5):
        submit(address, "a", b"{}", f"beside-{number}")
    counts.check("another endpoint's events beside them", subscriber.wait_for(posts + 5, 10))
    for name, (_, _, wanted) in MISBEHAVING.items():
        page = lambda: ask(address, "GET", f"/v1/endpoints/{name}/events/e1").json()
        counts.check(f"an attempt, {name}", wait_until(lambda: page()["attempts"] >= 1, 10))
        counts.check(f"what is recorded, {name}", (page()["last_status"], page()["state"]), wanted)
        counts.check(f"whether it is enabled, {name}", ask(address, "GET", f"/v1/endpoints/{name}").json()["enabled"], name != "gone")


def check_bodies(counts, address):
    """Bodies in all framings: what is taken, what is refused, and what stages nothing."""
    before = records(address)
    length = lambda count: f"content-length: {count}"
    coded = "transfer-encoding: chunked"
    taken = [
        ("in two pieces", (head("webhook-id: p1", length(4)) + b"ab", b"cd"), {"pause": 0.1}),
        ("in chunks", (head("webhook-id: p2", coded) + chunked(b"abcd", 2),), {}),
        ("65,536 bytes in chunks", (head("webhook-id: p3", coded) + chunked(b"y" * MOST, 1000),), {}),
        ("half closed", (head("webhook-id: p4", length(2)) + b"{}",), {"shut": True}),
        ("none", (head("webhook-id: p5"),), {}),
        ("by HTTP/1.0", (head("webhook-id: p6", length(2), line=f"POST {EVENTS} HTTP/1.0") + b"{}",), {}),
        ("with a query", (head("webhook-id: p7", length(2), line=f"POST {EVENTS}?x=/y HTTP/1.1") + b"{}",), {}),
        ("to an absolute target", (head("webhook-id: p8", length(2), line=f"POST http://relay{EVENTS} HTTP/1.1") + b"{}",), {}),
        ("with a fragment", (head("webhook-id: p9", length(2), line=f"POST {EVENTS}#x HTTP/1.1") + b"{}",), {}),
    ]
    for name, pieces, more in taken:
        counts.check(f"a body {name}", Answer(exchange(address, *pieces, **more)).status, 202)
    counts.check("all of these are records", records(address) - before >= len(taken))
    refused = [
        ("65,537 bytes in chunks", head(coded) + chunked(b"y" * (MOST + 1), 1000), 413),
        ("a megabyte in chunks", head(coded) + chunked(b"y" * 1_000_000, 10_000), 413),
        ("another coding", head("transfer-encoding: gzip, chunked") + chunked(b"abcd", 2), 501),
        ("both framings", head(length(4), coded) + chunked(b"abcd", 2), 400),
        ("no host", f"POST {EVENTS} HTTP/1.1\r\ncontent-length: 2\r\n\r\n{{}}".encode(), 400),
        ("no HTTP", b"hello\r\n\r\n", 400),
        ("101 headers", head(*(f"x-{it}: 1" for it in range(101))), 431),
        ("a head of 70 kB", head("x: " + "y" * 70_000), 431),
        ("a target of 70 kB", head(line=f"GET /{'a' * 70_000} HTTP/1.1"), 414),
        ("a coding that isn't chunks", head("transfer-encoding: gzip") + b"abcd", 400),
        ("a coding after chunks", head("transfer-encoding: chunked, gzip") + chunked(b"abcd", 2), 400),
        ("chunks by HTTP/1.0", head(coded, line=f"POST {EVENTS} HTTP/1.0") + chunked(b"abcd", 2), 400),
        ("a path with <", head(line="GET /v1/endpoints/a<b HTTP/1.1"), 400),
        ("a query with quotes", head(line='GET /v1/status?q="x" HTTP/1.1'), 400),
        ("a path that isn't ASCII", head(length(2), line="POST /v1/endpoints/\u00e9/events HTTP/1.1") + b"{}", 400),
        ("HEAD of a page", head(line="HEAD /v1/status HTTP/1.1"), 404),
        ("two ids", head("webhook-id: a", "webhook-id: b", length(2)) + b"{}", 400),
    ]
    closed = [
        ("a body cut in the middle", head("webhook-id: c1", length(10)) + b"abcd"),
        ("chunks cut in the middle", head("webhook-id: c2", coded) + b"4\r\nab"),
        ("chunks without their end", head("webhook-id: c3", coded) + chunked(b"abcd", 2, b"")),
        ("a chunk of no length", head("webhook-id: c4", coded) + b"zz\r\nabcd\r\n0\r\n\r\n"),
    ]
    settled = wait_until(lambda: ask(address, "GET", "/v1/endpoints/a").json()["pending"] == 0, 60)
    counts.check("all that was taken is delivered", settled)
    before = records(address)
    for name, sent, status in refused:
        counts.check(name, Answer(exchange(address, sent)).status, status)
    for name, sent in closed:
        counts.check(name, exchange(address, sent, shut=True), b"")
    counts.check("none of these is a record", records(address), before)
    for name, status in (("a body of 8 MB", 413), ("a body of 8 MB by HTTP/1.0", 413)):
        line = f"POST {EVENTS} HTTP/1.{0 if '1.0' in name else 1}"
        counts.check(f"{name}: its sender reads why", status_while_sending(address, head(length(8_000_000), line=line) + b"y" * 8_000_000), status)


def status_while_sending(address, sent):
    """The status that a client reads which sends all before it reads, or None where its connection is reset."""
    with connect(address) as sock, contextlib.suppress(ConnectionError):
        sock.sendall(sent)
        return Answer(b"".join(iter(lambda: sock.recv(65536), b""))).status
    return None


def check_end_beside_silence(counts, relayd, folder):
    """Clients that connect and say nothing hold their threads for ten seconds. At its end a relay waits for these, but not for long after."""
    threads = 64
    with relay_of(relayd, f"{folder}/silence.db", "--intake", threads, "--requests", 1) as relay:
        silent = [connect(relay.address) for _ in range(threads - 1)]
        counts.check("beside silence: an answer", ask(relay.address, "GET", "/v1/status").status, 200)
        counts.check("beside silence: it ends", relay.ended(30), 0)
        for it in silent:
            it.close()


def ends_at_once(relayd, *words):
    done = subprocess.run([relayd, "serve", *words], capture_output=True, text=True, timeout=10)
    return done.returncode, done.stdout, done.stderr


def check_private(counts, relayd, folder):
    """A store holds secrets: the owner alone may read what `check` and `serve` make."""
    before = os.umask(0)
    try:
        subprocess.run([relayd, "check", f"{folder}/checked.db"], capture_output=True, timeout=60)
        relay = Relay(relayd, f"{folder}/private.db")
        put(relay.address, "a", 9)
        relay.kill()
    finally:
        os.umask(before)
    for name in ("checked.db", "checked.db-wal", "private.db", "private.db-wal"):
        counts.check(f"the mode of {name}", oct(os.stat(f"{folder}/{name}").st_mode & 0o777), "0o600")


def check_starts(counts, relayd, folder, relay, file):
    """How a relay is refused that can't start beside one that serves, which goes on."""
    strange, fresh, anywhere = f"{folder}/strange.db", f"{folder}/fresh.db", "127.0.0.1:0"
    with open(strange, "wb") as other:
        other.write(b"no database" * 1000)
    counts.check("a second relay on the file", ends_at_once(relayd, file, anywhere), (3, "", "relayd: Busy\n"))
    taken = "%s:%d" % relay.address
    counts.check("an address that is taken", ends_at_once(relayd, fresh, taken), (3, "", "relayd: CannotListen\n"))
    counts.check("then no file is made", not os.path.exists(fresh))
    counts.check("no address", ends_at_once(relayd, fresh, "8080"), (1, "", "relayd: BadAddress\n"))
    counts.check("a file of something else", ends_at_once(relayd, strange, anywhere), (4, "", "relayd: NotOurs\n"))
    counts.check("the first goes on", submit(relay.address, "a", b"{}", "s1").status, 202)


def without(closed, *words):
    """A program that is started without these streams."""
    return ["bash", "-c", f'exec "$0" "$@" {closed}', *words]


def address_of(run):
    """Where a relay says that it listens."""
    host, _, port = run.stdout.readline().strip().removeprefix("listening on ").rpartition(":")
    return host, int(port)


def check_closed_streams(counts, relayd, folder):
    """Messages go into no store, if the program was started without standard streams and what it opens gets their numbers."""
    file = f"{folder}/closed.db"
    relay = Relay(relayd, file)
    counts.check("closed streams: an endpoint", put(relay.address, "a", 9).status, 201)
    counts.check("closed streams: it holds", ask(relay.address, "PUT", "/v1/endpoints/a/enabled", b'{"enabled":false}').status, 200)
    counts.check("closed streams: an event", submit(relay.address, "a", b"{}", "c1").status, 202)
    relay.kill()
    stored = lambda: [pathlib.Path(file + end).read_bytes() for end in ("", "-wal")]
    before = stored()
    for closed in CLOSED:
        done = subprocess.run(without(closed, relayd, "check", file), capture_output=True, timeout=60)
        wanted = (3, b"") if ">&-" in closed.split() else (0, b"ok records 3 endpoints 1 pending 1\n")
        counts.check(f"check {closed}", (done.returncode, done.stdout), wanted)
        counts.check(f"check {closed}: the file", stored() == before)
        if ">&-" in closed.split():
            done = subprocess.run(without(closed, relayd, "serve", file, "127.0.0.1:0"), capture_output=True, timeout=60)
            counts.check(f"serve {closed}", (done.returncode, done.stdout), (3, b""))
    done = subprocess.run(without("<&-", relayd, "sign", "msg_1", "1000", SECRET), capture_output=True, timeout=60)
    counts.check("sign <&-", (done.returncode, done.stdout, done.stderr), (3, b"", b"relayd: Read\n"))
    for number, closed in enumerate(("2>&-", "<&- 2>&-")):
        run = subprocess.Popen(without(closed, relayd, "serve", file, "127.0.0.1:0", "--requests", "1"), stdout=subprocess.PIPE, text=True)
        STARTED.append(run)
        counts.check(f"serve {closed}", submit(address_of(run), "a", b"{}", f"d{number}").status, 202)
        counts.check(f"serve {closed}: it ends", run.wait(60), 0)
    done = subprocess.run([relayd, "check", file], capture_output=True, timeout=60)
    counts.check("closed streams: the file is whole", (done.returncode, done.stdout), (0, b"ok records 5 endpoints 1 pending 3\n"))


def check_no_listener(counts, relayd, folder):
    """Nobody reads the operator's log: the relay goes on."""
    subscriber = Subscriber(lambda post: 410)
    words = [relayd, "serve", f"{folder}/unread.db", "127.0.0.1:0"]
    run = subprocess.Popen(words, stdout=subprocess.PIPE, stderr=subprocess.PIPE, text=True)
    STARTED.append(run)
    run.stderr.close()
    address = address_of(run)
    run.stdout.close()
    counts.check("unread: an endpoint", put(address, "a", subscriber.port).status, 201)
    counts.check("unread: an event", submit(address, "a", b"{}", "u1").status, 202)
    gone = lambda: not ask(address, "GET", "/v1/endpoints/a").json()["enabled"]
    counts.check("unread: its endpoint is disabled", wait_until(gone, 20))
    counts.check("unread: it goes on", submit(address, "a", b"{}", "u2").status, 202)
    run.kill()
    run.wait()


def check_slow(counts, relayd, folder):
    """200 connections that say nothing, each of which holds one of 64 threads for ten seconds, a body that comes byte by byte, and a head
    without end: who comes after them is served once these limits have passed."""
    relay = Relay(relayd, f"{folder}/slow.db", "--intake", 64)
    address = relay.address
    put(address, "a", 9)
    begun = time.monotonic()
    silent = [connect(address) for _ in range(200)]
    told = {}

    def keep(name, *pieces, pause):
        told[name] = exchange(address, *pieces, pause=pause, seconds=120)

    drip = [head("webhook-id: s1", "content-length: 100"), *([b"x"] * 99)]
    endless = [head("x: y")[:-2], *([b"z: z\r\n"] * 99)]
    slow = [
        threading.Thread(target=keep, args=("a byte a second", *drip), kwargs={"pause": 1.0}, daemon=True),
        threading.Thread(target=keep, args=("a head without end", *endless), kwargs={"pause": 1.0}, daemon=True),
    ]
    for it in slow:
        it.start()
    good = Answer(exchange(address, request("POST", EVENTS, b"{}", ["webhook-id: g1"]), seconds=120))
    waited = time.monotonic() - begun
    counts.check("one after 200 that are silent is served", good.status, 202)
    counts.check("it waited for about four of these at most", waited < 60)
    for it in slow:
        it.join()
    for name in ("a byte a second", "a head without end"):
        counts.check(f"{name}: no answer", told[name], b"")
    counts.check("each silent connection is closed", all(read_all(sock) == b"" for sock in silent))
    for sock in silent:
        sock.close()
    counts.check("none of these is a record", ask(address, "GET", f"{EVENTS}/s1").status, 404)
    relay.kill()


def check_courtesies(counts, address):
    """What a client may ask of HTTP/1.1 besides."""
    with connect(address) as sock:
        sock.sendall(head("webhook-id: e1", "content-length: 2", "expect: 100-continue"))
        counts.check("100 Continue is sent", sock.recv(1000), b"HTTP/1.1 100 Continue\r\n\r\n")
        sock.sendall(b"{}")
        counts.check("and then 202", Answer(read_all(sock)).status, 202)
    both = request("GET", "/v1/status") + request("GET", "/v1/endpoints/a")
    raw = exchange(address, both)
    counts.check("one answer to requests in a row", raw.count(b"HTTP/1.1 "), 1)


def check_never_overrun(counts, relayd, folder):
    """A subscriber that counts its open requests never has more at once than its endpoint's greatest limit. The events wait until both
    endpoints are enabled, so that there is always one more to post."""
    relay = Relay(relayd, f"{folder}/most.db", "--workers", 32)

    def reply(_):
        time.sleep(0.05)
        return 200

    subscribers = {"few": (Subscriber(reply), 3), "many": (Subscriber(reply), 1000)}
    for name, (subscriber, most) in subscribers.items():
        put(relay.address, name, subscriber.port, most=most)
        ask(relay.address, "PUT", f"/v1/endpoints/{name}/enabled", b'{"enabled":false}')
        for number in range(60):
            submit(relay.address, name, b"{}", f"e{number}")
    for name in subscribers:
        ask(relay.address, "PUT", f"/v1/endpoints/{name}/enabled", b'{"enabled":true}')
    few, many = subscribers["few"][0], subscribers["many"][0]
    counts.check("all are posted", few.wait_for(60, 60) and many.wait_for(60, 60))
    counts.check("three at once at most", few.most, 3)
    counts.check("more at another endpoint", many.most > 3)
    print(f"at most {few.most} posts at once where 3 are allowed, {many.most} where 1000 are")
    relay.kill()


def attempts_in(file):
    """The number and the status of each attempt that a store has."""
    with contextlib.closing(sqlite3.connect(file)) as conn:
        return conn.execute("SELECT number, status FROM attempts").fetchall()


def check_signatures(counts, relayd, folder):
    """1,000 events, each posted once, signed with two secrets, verified by Python's hmac; then the relay ends by itself, with status 0."""
    secrets = ("whsec_" + "A" * 32, SECRET)
    subscriber = Subscriber()
    relay = Relay(relayd, f"{folder}/signed.db", "--requests", 1002)
    put(relay.address, "a", subscriber.port, secrets=secrets)
    bodies = {f"e{number}": os.urandom(number % 500) for number in range(1000)}

    def send(names):
        for name in names:
            submit(relay.address, "a", bodies[name], name)

    names = list(bodies)
    threads = [threading.Thread(target=send, args=(names[at::8],), daemon=True) for at in range(8)]
    for it in threads:
        it.start()
    for it in threads:
        it.join()
    counts.check("1,000 posts", subscriber.wait_for(1000, 60))
    posts = {post.header("webhook-id"): post for post in subscriber.posts}
    counts.check("each under its own id", sorted(posts), sorted(bodies))
    counts.check("each with its bytes", all(posts[it].body == bodies[it] for it in posts))
    counts.check("each signed", sum(post.is_signed_by(*secrets) for post in posts.values()), 1000)
    counts.check("the last request", ask(relay.address, "GET", "/v1/status").status, 200)
    counts.check("it ends after its last request", relay.ended(60), 0)
    counts.check("each attempt was posted once", len(subscriber.posts), 1000)
    counts.check("each event has one attempt", attempts_in(f"{folder}/signed.db"), [(1, 200)] * 1000)
    counts.check("it told that it started, and how far it acknowledged", [line.split(" ")[1] for line in relay.told], ["started:", "acknowledged:"])
    counts.check("up to the last event, at least the 1,001st record", int(relay.told[-1].split(" ")[-1]) >= 1000)


def secret_of(size):
    return "whsec_" + base64.b64encode(os.urandom(size)).decode()


def pages_of(address, name, event):
    return [ask(address, "GET", f"/v1/endpoints/{name}{end}").body for end in ("", f"/events/{event}")]


def check_longest(counts, relayd, folder):
    """The longest value of each kind, and one more of it: the endpoint is put, the event is taken, posted and signed by each secret, and both pages
    tell of them, also after a restart. Beside it an event without a body."""
    file, subscriber, name, event = f"{folder}/longest.db", Subscriber(), "n" * 32, "i" * 64
    front = f"http://127.0.0.1:{subscriber.port}/"
    url, secrets, body = front + "p" * (2048 - len(front)), [secret_of(it) for it in (64, 24, 63, 32)], os.urandom(MOST)
    endpoint = {"url": url, "max": 1000, "secrets": secrets}
    relay = Relay(relayd, file)
    address = relay.address
    puts = lambda name, **other: ask(address, "PUT", f"/v1/endpoints/{name}", json.dumps({**endpoint, **other}).encode())
    for what, found, status, error in (
        ("a name of 33 characters", puts(name + "n"), 400, "BadName"),
        ("a URL of 2,049 bytes", puts(name, url=url + "p"), 400, "BadUrl"),
        ("a secret of 65 bytes", puts(name, secrets=[secret_of(65)]), 400, "BadSecret"),
        ("five secrets", puts(name, secrets=[*secrets, SECRET]), 400, "BadSecret"),
        ("an id of 65 characters", submit(address, name, body, event + "i"), 400, "BadId"),
    ):
        check_answer(counts, what, found, status, b'{"error":"%s"}' % error.encode())
    check_answer(counts, "the longest endpoint", puts(name), 201, b'{"seq":0}')
    check_answer(counts, "the longest event", submit(address, name, body, event), 202, b'{"id":"%s","seq":1}' % event.encode())
    counts.check("the longest event is posted", subscriber.wait_for(1))
    counts.check("an event without a body", submit(address, name, b"", "e").status, 202)
    counts.check("it is posted", subscriber.wait_for(2))
    for post, (id, sent) in zip(subscriber.posts, ((event, body), ("e", b""))):
        counts.check("longest: the line of the post", post.line, f"POST /{'p' * (2048 - len(front))} HTTP/1.1")
        counts.check("longest: its id and its length", (post.header("webhook-id"), post.header("content-length")), (id, str(len(sent))))
        counts.check("longest: its body", post.body == sent)
        counts.check("longest: its signatures, by each secret", post.is_signed_by(*secrets))
    counts.check("longest: both are delivered", wait_until(lambda: ask(address, "GET", "/v1/status").json()["delivered"] == 2, 10))
    pages = pages_of(address, name, event)
    told = {"delivered": 2, "enabled": True, "exhausted": 0, "max": 1000, "name": name, "pending": 0, "secrets": 4, "url": url}
    counts.check("longest: the endpoint's page", pages[0].decode(), json.dumps(told, separators=(",", ":")))
    at = json.loads(pages[1])["at"]
    told = {"at": at, "attempts": 1, "due": None, "endpoint": name, "id": event, "last_status": 200, "state": "delivered"}
    counts.check("longest: the event's page", pages[1].decode(), json.dumps(told, separators=(",", ":")))
    relay.kill()
    done = subprocess.run([relayd, "check", file], capture_output=True, text=True, timeout=60)
    counts.check("longest: it is checked", (done.returncode, done.stdout, done.stderr), (0, "ok records 5 endpoints 1 pending 0\n", ""))
    relay = Relay(relayd, file)
    counts.check("longest: the pages after a restart", pages_of(relay.address, name, event), pages)
    check_answer(counts, "the longest event again", submit(relay.address, name, body, event), 202, b'{"id":"%s","seq":1}' % event.encode())
    counts.check("the longest event, with another last byte", submit(relay.address, name, body[:-1] + bytes([body[-1] ^ 1]), event).status, 409)
    relay.kill()
    subscriber.close()


def check_end(counts, relayd, folder):
    """An end that is asked for while a post is under way: what it comes to is in the file, so that the event isn't posted again."""

    def reply(_):
        time.sleep(2)
        return 200

    file = f"{folder}/end.db"
    subscriber = Subscriber(reply)
    relay = Relay(relayd, file, "--requests", 3)
    put(relay.address, "a", subscriber.port)
    submit(relay.address, "a", b"{}", "e1")
    counts.check("end: the post is under way", subscriber.wait_for(1))
    counts.check("end: the last request", ask(relay.address, "GET", "/v1/status").status, 200)
    counts.check("end: it ends", relay.ended(30), 0)
    relay = Relay(relayd, file)
    counts.check("end: the event is delivered", ask(relay.address, "GET", f"{EVENTS}/e1").json()["state"], "delivered")
    counts.check("end: it isn't posted again", subscriber.wait_for(2, 1.5), False)
    relay.kill()
    subscriber.close()


def check_exhausted(counts, relayd, folder):
    """The tenth failed attempt gives an event up, and the operator's log says so. The second to the ninth are written into the file, since they take days."""
    file = f"{folder}/exhausted.db"
    subscriber = Subscriber(lambda post: 500)
    relay = Relay(relayd, file)
    put(relay.address, "a", subscriber.port)
    submit(relay.address, "a", b"{}", "e1")
    page = lambda: told_of(relay.address, f"{EVENTS}/e1")
    counts.check("exhausted: the first attempt", wait_until(lambda: page() == (1, 500, "pending"), 10))
    relay.kill()
    with contextlib.closing(sqlite3.connect(file)) as conn, conn:
        for number in range(2, 10):
            conn.execute("INSERT INTO attempts VALUES(?, 1, ?, 500, 0)", (number + 1, number))
        conn.execute("UPDATE meta SET records = 11")
    relay = Relay(relayd, file)
    counts.check("exhausted: its page", wait_until(lambda: page() == (10, 500, "exhausted"), 20))
    counts.check("exhausted: two posts", len(subscriber.posts), 2)
    wait_until(lambda: len(relay.told) > 1)
    relay.kill()
    counts.check("exhausted: the operator's log", [line.split(" ", 1)[1] for line in relay.told[1:]], [EXHAUSTED])
    subscriber.close()


def check_no_thread(counts, relayd, folder):
    """A relay that can't start its threads ends and says so. Root may start any number, so it becomes nobody."""

    def limited():
        resource.setrlimit(resource.RLIMIT_NPROC, (20, 20))
        if os.getuid() == 0:
            os.setgid(NOBODY)
            os.setuid(NOBODY)

    with tempfile.TemporaryDirectory() as theirs:
        os.chmod(theirs, 0o777)
        words = [relayd, "serve", f"{theirs}/threads.db", "127.0.0.1:0", "--workers", "64"]
        done = subprocess.run(words, preexec_fn=limited, capture_output=True, text=True, timeout=60)
    counts.check("no thread", (done.returncode, done.stderr.splitlines()[-1:]), (3, ["relayd: NoThread"]))


def started_within(relayd, file, subscriber, which, most):
    """What comes of a relay of one worker and one thread for requests that starts with so many threads or descriptors: what it says as it ends, or
    `serves` if it takes an event and posts it once it may open more. Root may start any number of threads, so it becomes a user of whom nothing runs."""
    before = resource.getrlimit(which)

    def limit():
        resource.setrlimit(which, (most, before[1]))
        if which == resource.RLIMIT_NPROC and os.getuid() == 0:
            os.setgid(STRANGER)
            os.setuid(STRANGER)

    try:
        relay = Relay(relayd, file, "--workers", 1, "--intake", 1, limit=limit)
    except RuntimeError as ended:
        return str(ended)
    posts = len(subscriber.posts)
    with contextlib.suppress(OSError):
        if relay.ended(0.3) is None:
            if which == resource.RLIMIT_NOFILE:
                resource.prlimit(relay.process.pid, which, before)
            exchange(relay.address, request("GET", "/v1/status"), seconds=10)
            put(relay.address, "a", subscriber.port)
            submit(relay.address, "a", b"{}", "e1")
            if subscriber.wait_for(posts + 1, 10):
                relay.kill()
                return "serves"
    status = relay.ended(20)
    relay.kill()
    return relay.told[-1] if status == 3 else "neither ends nor serves"


def check_few_at_start(counts, relayd, subscriber):
    """A relay that lacks what one of its threads needs serves, or ends and says so. A worker starts a thread itself, and a thread for requests opens
    descriptors."""
    for what, which, mosts in (("threads", resource.RLIMIT_NPROC, range(1, 5)), ("descriptors", resource.RLIMIT_NOFILE, range(6, 12))):
        with tempfile.TemporaryDirectory() as theirs:
            os.chmod(theirs, 0o777)
            told = [started_within(relayd, f"{theirs}/{most}.db", subscriber, which, most) for most in mosts]
        counts.check(f"few {what} at the start: some aren't enough", "relayd: NoThread\n" in told)
        counts.check(f"few {what} at the start: it serves, or ends", told.count("neither ends nor serves"), 0)


def main():
    relayd = program_of(__doc__)
    counts = Counts()
    with tempfile.TemporaryDirectory() as folder:
        check_never_overrun(counts, relayd, folder)
        check_signatures(counts, relayd, folder)
        check_longest(counts, relayd, folder)
        check_many_subscriptions(counts, relayd, folder)
        check_topics(counts, relayd, folder)
        check_widest(counts, relayd, folder)
        check_changing(counts, relayd, folder)
        check_purges(counts, relayd, folder)
        check_exhausted_purged(counts, relayd, folder)
        check_large_purge(counts, relayd, folder)
        check_no_number_left(counts, relayd, folder)
        check_end(counts, relayd, folder)
        check_end_beside_silence(counts, relayd, folder)
        check_exhausted(counts, relayd, folder)
        check_no_thread(counts, relayd, folder)
        check_made_ids(counts, relayd, folder)
        check_due(counts, relayd, folder)
        subscriber = Subscriber()
        check_few_at_start(counts, relayd, subscriber)
        relay = Relay(relayd, f"{folder}/relay.db", "--timeout", 1)
        check_private(counts, relayd, folder)
        check_worked(counts, relay, subscriber)
        check_delivered(counts, relay, subscriber)
        check_unreached(counts, relay, subscriber)
        check_full_backlog(counts, relay)
        check_names(counts, relayd, folder, subscriber)
        check_few_descriptors(counts, relayd, folder)
        check_subscribers(counts, relay, subscriber)
        check_bodies(counts, relay.address)
        check_courtesies(counts, relay.address)
        check_starts(counts, relayd, folder, relay, f"{folder}/relay.db")
        relay.kill()
        check_closed_streams(counts, relayd, folder)
        check_no_listener(counts, relayd, folder)
        check_slow(counts, relayd, folder)
        check_slow_opening(counts, relayd, folder)
    return counts.end()
