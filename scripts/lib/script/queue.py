"""Random moves of the claim queue: what is next after each is what the model says.

`driver moves SEED COUNT` inserts, removes and changes room at random. A run of 5,000 moves counts as
one.
Usage: scripts/script queue DRIVER [MOVES]: 50,000 moves if left out
"""
import subprocess
import sys

from lib.command import Counts, first_difference, program_of
from lib.model import first_due

NAMES = 12
MOVES = 5_000
MASK = 2**64 - 1


def told(driver, seed, count):
    words = [driver, "moves", str(seed), str(count)]
    return subprocess.run(words, stdout=subprocess.PIPE, check=True, text=True).stdout.split()


def expected(seed, count):
    """What is next after each move."""
    number, held, free, room = seed, [], [0] * NAMES, [False] * NAMES
    reserved = [False] * NAMES
    for seq in range(count):
        number = (number * 6364136223846793005 + 1442695040888963407) & MASK
        endpoint, kind = (number >> 24) % NAMES, number >> 61
        if kind <= 3:
            if free[endpoint] == 0:
                free[endpoint], reserved[endpoint] = 1 + (number >> 40) % 8, True
            free[endpoint] -= 1
            held.append((endpoint, (number >> 32) % 1000, seq))
        elif kind <= 5:
            if held:
                place = (number >> 32) % len(held)
                held[place], held[-1] = held[-1], held[place]
                free[held.pop()[0]] += 1
        elif reserved[endpoint]:
            room[endpoint] = (number >> 40) % 4 > 0
        first = first_due(held, (number >> 44) % 1100, lambda name: room[name])
        yield "-" if first is None else str(first)


def main():
    driver, moves = program_of(__doc__), int(sys.argv[2]) if len(sys.argv) > 2 else 50_000
    counts = Counts()
    for seed in range(1, moves // MOVES + 1):
        counts.check(f"seed {seed}: a move", first_difference(told(driver, seed, MOVES), expected(seed, MOVES)), None)
    return counts.end()
