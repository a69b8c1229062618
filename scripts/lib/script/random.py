"""1,000 random scripts of 100 lines, some of them longer: each reply is the model's.

Usage: scripts/script random RELAYD
"""
import multiprocessing
import random
import subprocess

from lib.command import program_of
from lib.model import Desk
from lib.random_lines import made

SCRIPTS = 1000
LINES = 100
# Each so many scripts one is long, and seldom sealed.
LONG_SCRIPTS = 50
LONG_LINES = 3000


def run(relayd, seed):
    rng = random.Random(seed)
    desk = Desk()
    long = seed % LONG_SCRIPTS == 0
    lines = []
    while len(lines) < (LONG_LINES if long else LINES):
        lines += made(rng, desk, long)
    script = "".join(text + "\n" for text, _ in lines)
    wanted = "".join(reply + "\n" for _, reply in lines)
    told = subprocess.run([relayd, "replay"], input=script.encode(), capture_output=True)
    if told.returncode == 0 and told.stdout.decode() == wanted and not told.stderr:
        return True
    for (text, reply), given in zip(lines, told.stdout.decode().splitlines()):
        if reply != given:
            print(f"seed {seed}: {text}: {given}, wanted {reply}")
            break
    else:
        print(f"seed {seed}: status {told.returncode}, {told.stderr.decode()}")
    return False


def main():
    relayd = program_of(__doc__)
    with multiprocessing.Pool() as pool:
        passed = sum(pool.starmap(run, [(relayd, seed) for seed in range(SCRIPTS)], 10))
        pool.close()
        pool.join()
    print(f"{passed} passed, {SCRIPTS - passed} failed")
    return 0 if passed == SCRIPTS else 1
