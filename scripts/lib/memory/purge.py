"""A relay that purges: what it holds is given back, and used again for what comes.

Three rounds. In each so many events of 1,000 bytes are taken, posted to nginx and purged. After a
purge the relay holds at most a fifth of the bytes that it held before, by its allocations. The
second and the third round have it hold no more than the first, and neither its memory (the most
that was resident) nor its two files grow by more than a tenth. The second round has the ids of the
first, with other bytes; the third has new ones. Pages are asked for while it purges, and the
longest wait for one is printed. The relay has the settings of malloc of packaging/relayd.service.
Usage: scripts/memory purge RELAYD [EVENTS]: 200,000 events a round if left out
"""
import concurrent.futures
import contextlib
import multiprocessing
import os
import pathlib
import re
import sys
import tempfile
import time

from lib import faults
from lib.command import ROOT, Counts, needs, program_of
from lib.process import status_of
from lib.serving import ask, free_port, nginx_of, purge, put, relay_of, submit, wait_until

EVENTS, ENDPOINTS, SUBMITTERS, MEGABYTE = 200_000, 32, 4, 2**20
# The first letter of the ids of each round.
ROUNDS = "mmn"
OPTIONS = ("--workers", 32, "--intake", 8)
SECONDS_OF_AN_EVENT = 0.01


def send(work):
    """Submits a part of a round's events, each until it is taken: how many were answered 202."""
    address, place, letter, events = work
    taken = 0
    for number in events:
        body = f"{place} {number} ".encode().ljust(1000, b"x")
        while (status := submit(address, f"e{number % ENDPOINTS}", body, f"{letter}{number}").status) == 503:
            time.sleep(0.2)
        taken += status == 202
    return taken


class Watched:
    """A relay whose allocations are counted."""

    def __init__(self, relay, file, asked):
        self.relay, self.file, self.asked = relay, file, asked

    def totals(self):
        return ask(self.relay.address, "GET", "/v1/status").json()

    def held(self):
        return faults.counts_of(self.asked)[0]

    def peak(self):
        return status_of(self.relay.process.pid, "VmHWM")

    def resident(self):
        return status_of(self.relay.process.pid, "VmRSS")

    def files(self):
        return sum(os.path.getsize(self.file + end) for end in ("", "-wal"))


def fill(counts, watched, pool, place, letter, events):
    """Has the relay take and post the events of a round."""
    address = watched.relay.address
    taken = pool.map(send, [(address, place, letter, range(at, events, SUBMITTERS)) for at in range(SUBMITTERS)])
    counts.check(f"round {place + 1}: all are taken", sum(taken), events)
    done = lambda: (watched.totals()["pending"], watched.totals()["delivered"]) == (0, events)
    counts.check(f"round {place + 1}: all are delivered", wait_until(done, 60 + events * SECONDS_OF_AN_EVENT, 0.5))


def settings_of_unit():
    """What the relay's unit sets of malloc."""
    return dict(re.findall(r"^Environment=(GLIBC_TUNABLES)=(.*)$", (ROOT / "packaging/relayd.service").read_text(), re.M))


def seconds_of(call):
    began = time.monotonic()
    return call(), time.monotonic() - began


def purge_all(counts, watched, place):
    """Purges all that was delivered: the seconds that the request took, and the longest that a page took beside it."""
    time.sleep(1.5)
    records, longest = watched.totals()["records"], 0.0
    with concurrent.futures.ThreadPoolExecutor(1) as other:
        asked = other.submit(seconds_of, lambda: purge(watched.relay.address, int(time.time())))
        while not asked.done():
            longest = max(longest, seconds_of(watched.totals)[1])
    answer, seconds = asked.result()
    counts.check(f"round {place + 1}: it is purged", (answer.status, answer.json()["seq"], watched.totals()["delivered"]), (200, records, 0))
    return seconds, longest


def play(counts, watched, pool, events):
    firsts = None
    print("| round | held before | after | most resident | resident | files | the purge | a page beside it |\n|---|---|---|---|---|---|---|---|")
    for place, letter in enumerate(ROUNDS):
        fill(counts, watched, pool, place, letter, events)
        before = watched.held()
        seconds, longest = purge_all(counts, watched, place)
        after, peak, files = watched.held(), watched.peak(), watched.files()
        sizes = " | ".join(f"{it / MEGABYTE:.1f} MiB" for it in (before, after, peak, watched.resident(), files))
        print(f"| {place + 1} | {sizes} | {seconds:.1f} s | {longest:.2f} s |", flush=True)
        counts.check(f"round {place + 1}: at most a fifth is held", after <= before / 5)
        firsts = firsts or (before, peak, files)
        for name, found, first in zip(("held", "resident at most", "in the files"), (before, peak, files), firsts):
            counts.check(f"round {place + 1}: {name}, as in the first", found <= 1.1 * first)


def main():
    relayd = program_of(__doc__)
    needs("nginx", "nginx")
    events = int(sys.argv[2]) if len(sys.argv) > 2 else EVENTS
    counts = Counts()
    with tempfile.TemporaryDirectory() as folder, contextlib.ExitStack() as stack:
        pool = stack.enter_context(multiprocessing.Pool(SUBMITTERS))
        library, asked, file, port = faults.compiled(folder), pathlib.Path(folder, "asked"), f"{folder}/relay.db", free_port()
        asked.write_bytes(faults.EMPTY)
        stack.enter_context(nginx_of(folder, "subscriber", f"server {{ listen 127.0.0.1:{port}; location / {{ return 200; }} }}"))
        env = {**faults.settings(library, asked=asked, held=1), **settings_of_unit()}
        relay = stack.enter_context(relay_of(relayd, file, *OPTIONS, env=env))
        for number in range(ENDPOINTS):
            put(relay.address, f"e{number}", port, most=1000)
        play(counts, Watched(relay, file, asked), pool, events)
    return counts.end()
