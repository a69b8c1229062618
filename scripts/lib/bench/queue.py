"""The claim queue alone, beside a sorted list in Python.

Its calls with 1,000, 10,000 and 50,000 deliveries over 1, 50 and 256 endpoints, half of which have
room, and beside it a sorted list in Python (sortedcontainers, if it is at hand) of the same pairs.
An endpoint has 10,000 pending events at most in a relay; the queue alone takes more. Prints a table
in nanoseconds, less the time that the clock itself takes.
Usage: scripts/bench queue BENCH
"""
import subprocess
import time

from lib.command import program_of

COUNTS = (1_000, 10_000, 50_000)
ENDPOINTS = (1, 50, 256)
ROUNDS = 10_000


def measured(bench, count, endpoints):
    told = subprocess.run([bench, "queue", str(count), str(endpoints)], stdout=subprocess.PIPE, check=True, text=True).stdout
    times = {name: int(number) for name, _, number in (line.rpartition(" ") for line in told.splitlines())}
    clock = times.pop("the clock")
    return {call: max(taken - clock, 0) for call, taken in times.items()}


def due_of(seq):
    return ((seq * 6364136223846793005 + 1442695040888963407) & (2**64 - 1)) >> 34


def in_python(count):
    """Nanoseconds to take the first pair away and to put another one in."""
    try:
        from sortedcontainers import SortedList
    except ImportError:
        return None
    held = SortedList((due_of(seq), seq) for seq in range(count))
    began = time.perf_counter_ns()
    for seq in range(count, count + ROUNDS):
        held.pop(0)
        held.add((due_of(seq), seq))
    return (time.perf_counter_ns() - began) // ROUNDS


def main():
    bench = program_of(__doc__)
    print("| deliveries | endpoints | next | remove | set_room, twice | insert | all of these | sortedcontainers: first away, another in |")
    print("|---|---|---|---|---|---|---|---|")
    for count in COUNTS:
        python = in_python(count)
        for endpoints in ENDPOINTS:
            calls = measured(bench, count, endpoints)
            cells = [calls[it] for it in ("next", "remove", "set_room, twice", "insert")]
            print(f"| {count:,} | {endpoints} | " + " | ".join(f"{it} ns" for it in (*cells, sum(cells))) + f" | {f'{python} ns' if python else ''} |")
    return 0
