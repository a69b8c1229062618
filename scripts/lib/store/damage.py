"""2,000 changes of a store: each is refused by a name, or read as SQLite reads it.

A change is of a byte, a page or the length, and `relayd check` looks at it. It damages FILE or
FILE-wal of a store whose records are in its log, and of one whose log was copied into FILE, each of
version 1, of the latest, and with topics. What is read has as many records, endpoints and pending
events as Python's sqlite3 finds, also once it is migrated. It never crashes, takes a minute or a
gigabyte.
Usage: scripts/store damage RELAYD [COUNT [SEED]]: 2,000 if left out
"""
import collections
import os
import pathlib
import random
import resource
import sqlite3
import subprocess
import sys
import tempfile

from lib.command import Counts, program_of
from lib.rows import copy_store, make_store, of_first, rows_in, write_rows
from lib.serving import Relay, Subscriber, ask, put, submit, wait_until

NAMES = {"NotOurs": 4, "NewerVersion": 4, "Damaged": 4, "Busy": 3, "CannotOpen": 3, "Corrupt": 3, "Full": 3, "Lost": 3, "OutOfMemory": 3}
PAGE, GIGABYTE, SECONDS = 4096, 2**30, 60
GONE, MOST_FAILURES = 410, 10
KINDS = {"": "", "-first": " of version 1", "-topics": " with topics"}


def make(relayd, path):
    """A store that a relay wrote: endpoints, other secrets, events that were delivered, that failed, that wait, and one that was answered 410."""
    answers = {f"e{it}": (200, 500, 410, 200)[it % 4] for it in range(24)}
    subscriber = Subscriber(lambda post: answers[post.header("webhook-id")])
    relay = Relay(relayd, path)
    for name in ("a", "b", "c"):
        put(relay.address, name, subscriber.port)
    ask(relay.address, "PUT", "/v1/endpoints/b/secrets", b'{"secrets":["whsec_%s"]}' % (b"A" * 32))
    for number, event in enumerate(answers):
        submit(relay.address, "abc"[number % 3], os.urandom(number * 40), event)
    wait_until(lambda: len(subscriber.posts) >= 12, 10)
    relay.kill()


def with_topics(rows):
    """The rows with topics of two endpoints."""
    key, app, version, records = rows["meta"][0]
    (first, *_), (second, *_) = rows["endpoints"][:2]
    topics = [(topic, put, flag, records + number) for number, (topic, put, flag) in enumerate([("t", first, 1), ("u", second, 0), ("t", second, 1)])]
    return {**rows, "meta": [(key, app, version, records + len(topics))], "topics": topics}


def fold(whole, folded):
    """Copies a store, and has Python's sqlite3 copy its log into FILE."""
    copy_store(whole, folded)
    conn = sqlite3.connect(folded)
    conn.execute("PRAGMA wal_checkpoint(TRUNCATE)")
    conn.close()
    pathlib.Path(folded + "-wal").touch()


def change(draw, data):
    """The bytes with one change, and what was changed."""
    kind = draw.choice(("byte", "byte", "page", "length"))
    at = draw.randrange(len(data))
    if kind == "byte":
        data[at] ^= draw.randrange(1, 256)
    elif kind == "page":
        start, other = at - at % PAGE, draw.randrange(len(data)) // PAGE * PAGE
        data[start : start + PAGE] = draw.choice((bytes(PAGE), draw.randbytes(PAGE), bytes(data[other : other + PAGE])))
    elif draw.random() < 0.7:
        del data[at:]
    else:
        data += draw.randbytes(draw.randrange(1, 2 * PAGE))
    return kind


def is_pending(statuses):
    failed = [it for it in statuses if it != GONE and not 200 <= it <= 299]
    return not any(200 <= it <= 299 for it in statuses) and len(failed) < MOST_FAILURES


def found(path):
    """How many records, endpoints and pending events Python's sqlite3 finds, or None where it finds a fault of its own."""
    conn = sqlite3.connect(path)
    try:
        records = conn.execute("SELECT records FROM meta").fetchone()[0]
        endpoints = conn.execute("SELECT count(*) FROM endpoints").fetchone()[0]
        statuses = {seq: [] for (seq,) in conn.execute("SELECT seq FROM deliveries")}
        for delivery, status in conn.execute("SELECT delivery, status FROM attempts ORDER BY number"):
            statuses[delivery].append(status)
        return records, endpoints, sum(map(is_pending, statuses.values()))
    except (sqlite3.Error, KeyError, TypeError):
        return None
    finally:
        conn.close()


def bounded():
    resource.setrlimit(resource.RLIMIT_AS, (GIGABYTE, GIGABYTE))


def told(relayd, path):
    """What `check` tells of a file: the three numbers, the name of a fault, or what else came."""
    try:
        done = subprocess.run([relayd, "check", path], capture_output=True, text=True, timeout=SECONDS, preexec_fn=bounded)
    except subprocess.TimeoutExpired:
        return "it takes a minute"
    words, name = done.stdout.split(), done.stderr.removeprefix("relayd: ").strip()
    if done.returncode == 0 and not done.stderr and words[:2] == ["ok", "records"]:
        return tuple(map(int, words[2::2]))
    if not done.stdout and NAMES.get(name) == done.returncode:
        return name
    return f"status {done.returncode}, {done.stdout!r}, {done.stderr!r}"


def main():
    relayd = program_of(__doc__)
    count = int(sys.argv[2]) if len(sys.argv) > 2 else 2000
    seed = int(sys.argv[3]) if len(sys.argv) > 3 else random.randrange(2**32)
    print(f"seed {seed}")
    draw, counts, ends = random.Random(seed), Counts(), collections.Counter()
    with tempfile.TemporaryDirectory() as name:
        whole, folded, path, copy = (str(pathlib.Path(name, it)) for it in ("whole", "folded", "damaged", "copy"))
        make(relayd, whole)
        fold(whole, folded)
        rows = rows_in(folded)
        for base in (whole, folded):
            make_store(f"{base}-first", lambda conn: write_rows(conn, of_first(rows)), base == whole)
            make_store(f"{base}-topics", lambda conn: write_rows(conn, with_topics(rows)), base == whole)
        for number in range(count):
            base, end = draw.choice(((whole, ""), (whole, "-wal"), (whole, "-wal"), (folded, ""), (folded, ""), (folded, "")))
            version = draw.choice([*KINDS])
            copy_store(base + version, path)
            data = bytearray(pathlib.Path(path + end).read_bytes())
            kind = change(draw, data)
            pathlib.Path(path + end).write_bytes(data)
            copy_store(path, copy)
            answer = told(relayd, path)
            holds = answer in NAMES
            if isinstance(answer, tuple):
                holds, answer = {found(copy), found(path)} <= {answer, None}, "read"
            file = f"FILE{end}{KINDS[version]}, the log " + ("beside it" if base == whole else "in FILE")
            ends[kind, file, answer] += 1
            counts.check(f"change {number}, {kind} of {file}: {answer}", holds)
            for it in (path, path + "-wal", path + "-shm", copy, copy + "-wal", copy + "-shm"):
                pathlib.Path(it).unlink(missing_ok=True)
    for (kind, file, answer), number in sorted(ends.items()):
        print(f"{kind} of {file}: {answer} {number}")
    return counts.end()
