"""Ten minutes of purges under load, with kills: nothing is lost, memory and the file stay bounded.

A purge each second beside 16 submitters and subscribers that fail, and SIGKILL after 10 to 30
seconds, again and again; what is looked at is as in `serve kill`. Each minute it prints what was
taken, what the process has and how large the two files are. At the end neither memory nor the files
are more than twice what they were after a fifth of the time, though many more events came.
Usage: scripts/serve purge RELAYD [MINUTES [SEED]]: 10 minutes if left out
"""
import os
import random
import sys
import tempfile
import time

from lib.command import Counts, program_of
from lib.process import status_of
from lib.serve.kill import Kills, Load
from lib.serving import ask

PAUSE, REST, SAMPLES, MEGABYTE = 1.0, 0.05, 60.0, 2**20


class Samples:
    """What the process and its files had, from time to time."""

    def __init__(self, run, load):
        self.run, self.load, self.found, self.begun = run, load, [], time.monotonic()
        print("| minute | acknowledged | purges | delivered | pending | memory | files |\n|---|---|---|---|---|---|---|")

    def passed(self):
        return time.monotonic() - self.begun

    def take(self):
        memory = status_of(self.run.relay.process.pid, "VmRSS")
        files = sum(os.path.getsize(self.run.file + end) for end in ("", "-wal"))
        page = ask(self.run.relay.address, "GET", "/v1/status").json()
        self.found.append((self.passed(), memory, files))
        sizes = " | ".join(f"{it / MEGABYTE:.1f} MiB" for it in (memory, files))
        print(f"| {self.passed() / 60:.1f} | {len(self.load.acknowledged)} | {self.load.purges} | {page['delivered']} | {page['pending']} | {sizes} |", flush=True)


def main():
    relayd, minutes = program_of(__doc__), float(sys.argv[2]) if len(sys.argv) > 2 else 10.0
    seed = int(sys.argv[3]) if len(sys.argv) > 3 else random.randrange(2**32)
    print(f"seed {seed}")
    draw, counts, load, seconds = random.Random(seed), Counts(), Load(PAUSE, REST), minutes * 60
    with tempfile.TemporaryDirectory() as folder:
        run = Kills(counts, relayd, folder, load)
        samples = Samples(run, load)
        kill_at, sample_at = draw.uniform(10, 30), seconds / 5
        while samples.passed() < seconds:
            time.sleep(0.2)
            if samples.passed() > sample_at:
                samples.take()
                sample_at += min(SAMPLES, seconds / 5)
            if samples.passed() > kill_at:
                run.kill()
                kill_at += draw.uniform(10, 30)
        (_, *first), (_, *last) = samples.found[0], samples.found[-1]
        for name, before, after in zip(("memory", "the files"), first, last):
            counts.check(f"{name}: at most twice what it was", after <= 2 * before + 4 * MEGABYTE)
        run.conclude()
    return counts.end()
