"""A store with a day of a million events: how long it takes to open, to copy, and to purge.

Python's sqlite3 makes the store: so many events of the last 24 hours, each delivered at once, over
100 endpoints. Then a relay opens it, `packaging/backup` copies it, and purges take the first minute
of the day, its first hour, and all. Beside each copy and purge twelve events a second are
submitted; the longest that one waited is printed. The processor time is the relay's own, of all its
threads. An event may take 300 bytes of memory beyond its body: what the relay takes more than one
without events. A million events need 1.5 GB of memory and 1 GB of disk.
Usage: scripts/bench day RELAYD [EVENTS [BYTES [ID]]]: 1,000,000 events of 100 bytes if left out,
with ids of 13 bytes; the relay's own have 40
"""
import base64
import contextlib
import json
import os
import sqlite3
import sys
import tempfile
import threading
import time

from lib.command import ROOT, Counts, program_of, ran
from lib.formats import make_tables
from lib.process import seconds_of, status_of
from lib.serving import SECRET, Answer, Subscriber, ask, exchange, relay_of, request

ENDPOINTS, DAY, MEGABYTE = 100, 24 * 3600, 2**20
THREADS, MOST = ("--workers", 64, "--intake", 64), 300
A_SECOND, SUBMITTERS, SECONDS = 12, 32, 3000
PURGES = [("a minute", 60), ("an hour", 3600), ("all", 2 * DAY)]


def make_store(file, events, size, port, length):
    """Writes the rows of so many delivered events, and returns when the first one ended."""
    begun = int(time.time()) - DAY
    with contextlib.closing(sqlite3.connect(file)) as conn:
        conn.execute("PRAGMA journal_mode=WAL")
        make_tables(conn, ENDPOINTS + 2 * events)
        for it in range(ENDPOINTS):
            conn.execute("INSERT INTO endpoints VALUES(?, ?, ?, 100, 1, ?, ?)", (it, f"e{it}", f"http://127.0.0.1:{port}/hook", it, it))
            conn.execute("INSERT INTO secrets VALUES(?, 0, ?)", (it, base64.b64decode(SECRET.removeprefix("whsec_"))))
        rows = [(ENDPOINTS + 2 * it, it, begun + it * DAY // events) for it in range(events)]
        conn.executemany("INSERT INTO deliveries VALUES(?, ?, ?, ?, ?)", ((seq, it % ENDPOINTS, f"order-{it:0{length - 6}}", at, b"%d " % it + bytes(size - len(str(it)) - 1))
                                                                          for seq, it, at in rows))
        conn.executemany("INSERT INTO attempts VALUES(?, ?, 1, 200, ?)", ((seq + 1, seq, at) for seq, _, at in rows))
        conn.commit()
    return begun


class Load:
    """Submitters of twelve events a second, until it ends: how long each waited, and its status."""

    def __init__(self, address, name):
        self.address, self.name, self.ends, self.waits, self.lock = address, name, False, [], threading.Lock()
        self.begun = time.monotonic()
        self.threads = [threading.Thread(target=self.send, args=(it,), daemon=True) for it in range(SUBMITTERS)]
        for it in self.threads:
            it.start()

    def send(self, number):
        while not self.ends:
            time.sleep(max(0, self.begun + number / A_SECOND - time.monotonic()))
            began = time.monotonic()
            answer = Answer(exchange(self.address, request("POST", f"/v1/endpoints/e{number % ENDPOINTS}/events", b"{}", [f"webhook-id: {self.name}-{number}"]),
                                     seconds=SECONDS))
            with self.lock:
                self.waits.append((time.monotonic() - began, answer.status))
            number += SUBMITTERS

    def end(self):
        self.ends = True
        for it in self.threads:
            it.join()
        return max(it for it, _ in self.waits), sorted({it for _, it in self.waits} - {202})


def timed(counts, relay, file, name, work):
    """Does some work of a relay under load, and prints a row of the table."""
    load, used, began = Load(relay.address, name.replace(" ", "-")), seconds_of(relay.process.pid), time.monotonic()
    done = work()
    passed, used = time.monotonic() - began, seconds_of(relay.process.pid) - used
    longest, others = load.end()
    counts.check(f"{name}: it is done, and each event is taken", (done, others), (True, []))
    memory = status_of(relay.process.pid, "VmRSS") / MEGABYTE
    store, log = (os.path.getsize(file + end) / MEGABYTE for end in ("", "-wal"))
    print(f"| {name} | {passed:.1f} s | {used:.1f} s | {longest:.1f} s | {memory:.0f} MiB | {store:.0f} and {log:.0f} MiB |", flush=True)


def purged(relay, before):
    asked = request("PUT", "/v1/retention", json.dumps({"before": before}).encode())
    return Answer(exchange(relay.address, asked, seconds=SECONDS)).status == 200


def at_rest(relay):
    """How many events a relay has delivered, and its memory a second later, when all its threads wait."""
    delivered = json.loads(ask(relay.address, "GET", "/v1/status").body)["delivered"]
    time.sleep(1)
    return delivered, status_of(relay.process.pid, "VmRSS")


def main():
    relayd, counts = program_of(__doc__), Counts()
    events, size, length = (int(sys.argv[it]) if len(sys.argv) > it else default for it, default in ((2, 1_000_000), (3, 100), (4, 13)))
    with tempfile.TemporaryDirectory() as folder:
        with relay_of(relayd, f"{folder}/none.db", *THREADS) as relay:
            _, without = at_rest(relay)
        file = f"{folder}/relay.db"
        begun = make_store(file, events, size, Subscriber().port, length)
        began = time.monotonic()
        with relay_of(relayd, file, *THREADS) as relay:
            passed = time.monotonic() - began
            delivered, memory = at_rest(relay)
            counts.check("all are there", delivered, events)
            print(f"{events} events of {size} bytes\n| What | passed | processor | longest wait | memory | store and log |\n|---|---|---|---|---|---|")
            store = os.path.getsize(file) / MEGABYTE
            beyond = (memory - without) / events - size
            print(f"| opening | {passed:.1f} s | {seconds_of(relay.process.pid):.1f} s | | {memory / MEGABYTE:.0f} MiB | {store:.0f} MiB |")
            print(f"| an event, beyond its body | | | | {beyond:.0f} bytes | |", flush=True)
            if events >= 1_000_000 and length <= 16:
                counts.check(f"an event takes {beyond:.0f} bytes beyond its body, of at most {MOST}", beyond <= MOST, True)
            timed(counts, relay, file, "a copy", lambda: ran(ROOT / "packaging" / "backup", "--running", file, f"{folder}/copy.db")[0] == 0)
            for name, seconds in PURGES:
                timed(counts, relay, file, f"a purge of {name}", lambda: purged(relay, begun + seconds))
    return counts.end()
