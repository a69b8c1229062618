"""Runs the merge gate `rt ci`, and then prints where its time went.

For each crate, the slowest first: the time from the first to the last of its proof, of the proof of
its tests and of its mutants, the processor time that they took, and that of compiling and running
it. Then the longest chain of crates that wait for one another, by the time of their proofs. It
looks at the processes that the gate started, twice a second, and changes nothing of what the gate
does. Its exit status is the gate's. All times are in seconds. If it is ended by SIGTERM, it ends
the gate and prints the times until then.

A virtual machine may wait for processors that its host gives to others (steal, /proc/stat). If
more than 1 of 100 of the time that was wanted went that way, it also prints how long the gate
would have taken without: each half second counts by the share of processors that it was given.
Usage: scripts/gate times [--anew]: with --anew the gate takes nothing from earlier runs
"""
import functools
import os
import pathlib
import re
import resource
import signal
import subprocess
import sys
import threading
import time

from lib.command import ROOT, read_crates

KINDS = ("proof", "tests", "edits", "runs")
PAUSE = 0.5
TICK = os.sysconf("SC_CLK_TCK")


def read_process(pid):
    """A process's parent, its processor time with that of its ended children, and when it began, or None where it is gone."""
    try:
        fields = pathlib.Path(f"/proc/{pid}/stat").read_text(errors="replace").rpartition(")")[2].split()
    except OSError:
        return None
    return int(fields[1]), sum(int(it) for it in fields[11:15]) / TICK, fields[19]


def task_of(pid):
    """The crate that a process works for and what it does there, by its words and its folder, or None."""
    try:
        words = pathlib.Path(f"/proc/{pid}/cmdline").read_bytes().decode(errors="replace").split("\0")
        folder = os.readlink(f"/proc/{pid}/cwd")
    except OSError:
        return None
    if "--crate-name" in words:
        crate = words[words.index("--crate-name") + 1]
        if os.path.basename(folder).startswith("rt-edit-"):
            return crate, "edits"
        if "--crate-checked" in words:
            return crate, "runs"
        return crate, "tests" if "--test" in words else "proof"
    for word in words:
        program = re.fullmatch(r".*/rt-run-[^/]*/bin/(\w+?)(_tests)?", word)
        if program:
            return program[1], "runs"
    return None


def machine_times():
    """What all processors together have worked, and what the host took from them, in ticks since the machine started."""
    user, nice, system, _, _, interrupts, soft, stolen = map(int, pathlib.Path("/proc/stat").read_text().split()[1:9])
    return user + nice + system + interrupts + soft, stolen


class Host:
    """How much of the wanted processor time the host took, and the time that passed without that."""

    def __init__(self):
        self.at, self.first, self.last = time.monotonic(), machine_times(), machine_times()
        self.own = 0.0

    def look(self):
        now, seen = time.monotonic(), machine_times()
        worked, stolen = (new - old for new, old in zip(seen, self.last))
        self.own += (now - self.at) * (worked / (worked + stolen) if stolen else 1)
        self.at, self.last = now, seen

    def share(self):
        worked, stolen = (new - old for new, old in zip(self.last, self.first))
        return stolen / max(worked + stolen, 1)


class Times:
    """Per crate and kind of work: when it began and ended, and the processor time of each of its processes."""

    def __init__(self):
        self.spans = {}
        self.used = {}

    def look(self, gate):
        """Takes in the processes below the gate's. A task is its topmost process and all below that."""
        now = time.monotonic()
        seen = {int(it): read_process(it) for it in os.listdir("/proc") if it.isdigit()}
        below = {}
        for pid, process in seen.items():
            if process:
                below.setdefault(process[0], []).append(pid)

        def total(pid):
            return seen[pid][1] + sum(total(it) for it in below.get(pid, []))

        def visit(pid):
            task = task_of(pid)
            if task is None:
                for it in below.get(pid, []):
                    visit(it)
                return
            first, _ = self.spans.get(task, (now, now))
            self.spans[task] = (first, now)
            processes = self.used.setdefault(task, {})
            process = (pid, seen[pid][2])
            processes[process] = max(processes.get(process, 0), total(pid))

        for pid in below.get(gate, []):
            visit(pid)

    def wall(self, task):
        first, last = self.spans.get(task, (0, 0))
        return last - first

    def processor(self, task):
        return sum(self.used.get(task, {}).values())


def table(times, wall, processor):
    """The lines of the table."""
    edits = {it.name: len(list(it.glob("must-fail/*.edit"))) for it in pathlib.Path("crates").iterdir()}
    crates = {crate for crate, _ in times.spans}
    cost = {crate: sum(times.processor((crate, kind)) for kind in KINDS) for crate in crates}
    yield "| crate | proof | processor | tests | processor | mutants | their time | processor | compile, run | processor, all |"
    yield "|---|---|---|---|---|---|---|---|---|---|"
    for crate in sorted(crates, key=lambda it: -cost[it]):
        cells = []
        for kind in KINDS:
            task = (crate, kind)
            if kind == "edits":
                cells.append(edits.get(crate, 0) or "")
            if kind != "runs":
                cells.append(f"{times.wall(task):.0f}" if task in times.spans else "")
            cells.append(f"{times.processor(task):.0f}" if task in times.spans else "")
        yield "| " + " | ".join(str(it) for it in (crate, *cells, f"{cost[crate]:.0f}")) + " |"
    sums = {kind: sum(times.processor((crate, kind)) for crate in crates) for kind in KINDS}
    count = sum(edits.get(it, 0) for it in crates)
    cells = ["", f"{sums['proof']:.0f}", "", f"{sums['tests']:.0f}", count, "", f"{sums['edits']:.0f}", f"{sums['runs']:.0f}"]
    yield "| all | " + " | ".join(str(it) for it in (*cells, f"{sum(sums.values()):.0f}")) + " |"
    yield ""
    yield f"The gate took {wall / 60:.1f} minutes, and {processor / 60:.1f} of processor time, on {len(os.sched_getaffinity(0))} processors."


def longest_chain(times):
    """The crates that are proved one after another, the lowest first, and how long their proofs take."""
    below = read_crates()

    @functools.cache
    def up_to(crate):
        chains = [up_to(it) for it in below[crate] if it in below]
        crates, seconds = max(chains, key=lambda it: it[1], default=((), 0))
        return (*crates, crate), seconds + times.wall((crate, "proof"))

    return max(map(up_to, below), key=lambda it: it[1])


def main():
    os.chdir(ROOT)
    times, host = Times(), Host()
    began = time.monotonic()
    gate = subprocess.Popen(["rt", "ci", *sys.argv[1:]])
    signal.signal(signal.SIGTERM, lambda *_: gate.terminate())
    ended = threading.Event()

    def watch():
        while not ended.wait(PAUSE):
            times.look(gate.pid)
            host.look()

    watcher = threading.Thread(target=watch, daemon=True)
    watcher.start()
    try:
        status = gate.wait()
    except KeyboardInterrupt:
        status = gate.wait()
    ended.set()
    watcher.join()
    used = resource.getrusage(resource.RUSAGE_CHILDREN)
    print()
    for line in table(times, time.monotonic() - began, used.ru_utime + used.ru_stime):
        print(line)
    if host.share() > 0.01:
        print(f"The host took {100 * host.share():.0f} of 100 of what was wanted of these: without that, some {host.own / 60:.1f} minutes.")
    crates, seconds = longest_chain(times)
    if seconds:
        print(f"The longest chain took {seconds / 60:.1f} minutes: {', '.join(crates)}.")
    return status if status >= 0 else 128 - status
