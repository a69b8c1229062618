"""Two builds of the relay beside each other: how much slower or faster the second is.

A machine's disk and its other work change from one minute to the next. So the two run alternately,
in pairs, each pair in an order of its own, and what is told is the mean of the pairs' differences
with its standard error. Of `relayd serve`, under the load of `scripts/bench http`: answers a
second, and processor time for each answer, at 1, 8, 64 and 256 connections. Of `bench`: its
processor time with events that are submitted and posted in one thread, over a file.

Each argument is a folder with relayd/out/relayd and bench/out/bench, such as crates/; if a folder
has no bench, only the relay is measured. It needs wrk.
Usage: scripts/bench pairs BEFORE AFTER [PAIRS [SECONDS [CONNECTIONS..]]]: 12 pairs of 3 seconds if
left out
"""
import math
import pathlib
import random
import resource
import statistics
import subprocess
import sys
import tempfile

from lib.bench import http
from lib.command import end_with_usage

CONNECTIONS = (1, 8, 64, 256)
SUBMITTED = 50_000


def told(name, pairs):
    """A line of the table: the means of both, and by how much of 100 the second differs."""
    differences = [(after / before - 1) * 100 for before, after in pairs]
    error = statistics.stdev(differences) / math.sqrt(len(differences)) if len(differences) > 1 else math.nan
    before, after = (statistics.mean(it) for it in zip(*pairs))
    print(f"| {name} | {len(pairs)} | {before:.5g} | {after:.5g} | {statistics.mean(differences):+.1f} | {error:.1f} |", flush=True)


def paired(count, measure, both):
    """What is measured of both, so many times, in an order of its own each time."""
    found = []
    for _ in range(count):
        order = random.sample((0, 1), 2)
        values = {it: measure(both[it]) for it in order}
        found.append((values[0], values[1]))
    return found


def main():
    if len(sys.argv) < 3:
        end_with_usage(__doc__)
    both = [pathlib.Path(it).resolve() for it in sys.argv[1:3]]
    count, seconds = (int(it) for it in (sys.argv[3:5] + ["12", "3"][len(sys.argv[3:5]):]))
    print("| what | pairs | before | after | differs by, of 100 | standard error |\n|---|---|---|---|---|---|")
    with tempfile.TemporaryDirectory() as name:
        folder = pathlib.Path(name)

        def answers(crates, connections):
            relay, port = http.start_relay(folder, crates / "relayd/out/relayd", "relay.db")
            before = http.times_of(relay)
            found = http.load(folder, port, connections, seconds)
            after = http.times_of(relay)
            relay.terminate()
            relay.wait()
            for file in folder.glob("relay.db*"):
                file.unlink()
            if found.failed:
                sys.exit(f"{found.failed} answers of {crates} were no 2xx")
            return found.rate, (after[0] + after[2] - before[0] - before[2]) / (found.rate * seconds) * 1e6

        def processor(crates):
            before = resource.getrusage(resource.RUSAGE_CHILDREN)
            words = [crates / "bench/out/bench", "submit", str(SUBMITTED), folder / "bench"]
            subprocess.run(words, stdout=subprocess.DEVNULL, check=True)
            after = resource.getrusage(resource.RUSAGE_CHILDREN)
            for file in folder.glob("bench*"):
                file.unlink()
            return after.ru_utime + after.ru_stime - before.ru_utime - before.ru_stime

        for connections in list(map(int, sys.argv[5:])) or CONNECTIONS:
            pairs = paired(count, lambda crates: answers(crates, connections), both)
            told(f"answers a second, {connections} connections", [(before[0], after[0]) for before, after in pairs])
            told(f"processor time of an answer in us, {connections} connections", [(before[1], after[1]) for before, after in pairs])
        if all((it / "bench/out/bench").exists() for it in both):
            told(f"processor time in s, {SUBMITTED:,} events submitted and posted", paired(count, processor, both))
