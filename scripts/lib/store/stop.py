"""The machine stopped within random runs over a file, and within migrations: what is left is read.

`driver replay` plays 200 random scripts, each of which is stopped at random calls that write, cut or
sync the file or its log. What wasn't synced then is lost, kept, or kept in part, with writes that
are cut at a sector. After each stop `relayd check` opens the file: it has the records of whole
batches, never fewer than were committed nor more than were sealed, and Python's sqlite3 finds the
rows that docs/FORMATS.md gives of them. Before the first reply alone it may be told as NotOurs.
Then `relayd check` migrates 200 stores of version 1, and is stopped the same way: the file has the
same rows, all in tables of version 1 or all in the latest ones, and the next `check` ends it.
Usage: scripts/store stop RELAYD DRIVER [SCRIPTS]: 200 scripts if left out, each of which is stopped
six times
"""
import collections
import concurrent.futures
import itertools
import os
import pathlib
import random
import re
import subprocess
import sys
import tempfile

from lib import faults
from lib.command import programs_of
from lib.model import Desk, counts_in, names_in
from lib.random_lines import KINDS, LATER, made
from lib.rows import copy_store, make_store, of_first, rows_in, rows_of, write_rows

LINES = 60
STOPPED = 9
# What is lost of what wasn't synced, twice each: all, nothing, or what a number says.
LOSSES = 2 * ["all", "none", None]
OFTEN = {**{kind: often for kind, often in KINDS.items() if kind not in ("stop", "halt")}, "submit": (12, 0), "turn": (12, 0)}
# By so many calls, its last ones, a migration writes into a log that is there.
WRITING = 5
# What a relay of version 1 could record.
OF_FIRST = {kind: often for kind, often in OFTEN.items() if kind not in LATER}


def script_of(rng, kinds):
    """Random lines of these kinds with the replies to them, and the history after them."""
    desk, lines = Desk(), []
    while len(lines) < LINES:
        lines += made(rng, desk, False, kinds)
    return lines, desk.history


def number_in(replies, pattern):
    """The last number that a reply of this form has, or 0."""
    found = [re.fullmatch(pattern, reply) for reply in replies]
    return max((int(it[1]) for it in found if it), default=0)


def wrong_after(relayd, history, path, replies):
    """What is wrong with a file after a stop, or None, and how many records it has."""
    committed = number_in(replies, r"committed (\d+)")
    sealed = max(committed, number_in(replies, r"sealed \d+\.\.(\d+)"))
    told = subprocess.run([relayd, "check", path], capture_output=True, text=True, timeout=60)
    if not replies and (told.returncode, told.stderr) == (4, "relayd: NotOurs\n"):
        return None, "no tables"
    found = re.fullmatch(r"ok records (\d+) endpoints \d+ pending \d+\n", told.stdout)
    if told.returncode or not found:
        return f"check told {told}", None
    records = int(found[1])
    if records not in (committed, sealed):
        return f"{records} records, of {committed} committed and {sealed} sealed", None
    rows = rows_in(path)
    if rows != rows_of(history[:records]):
        return f"the rows are {rows}", None
    return None, "committed" if records == committed else "sealed"


def wrong_after_migration(relayd, rows, path, replies, wanted):
    """What is wrong with a file of version 1 whose migration was stopped after these replies, or None, and which tables it has."""
    copy_store(path, f"{path}-copy")
    found = rows_in(f"{path}-copy")
    if found not in (rows, of_first(rows)) or replies and found != rows:
        return f"the rows are {found}", None
    told = subprocess.run([relayd, "check", path], capture_output=True, text=True, timeout=60)
    if (told.returncode, told.stdout.splitlines()) != (0, wanted):
        return f"check told {told}", None
    if rows_in(path) != rows:
        return f"then the rows are {rows_in(path)}", None
    return None, "migrated" if found == rows else "first"


def stop_all(rng, library, words, text, wanted, make, look, late=None):
    """What was wrong after each stop of a program that replies these lines without one, and what was found. `make` makes its file, which is
    the last word, and `look` is at it after these replies. It is stopped at one of its last calls if `late` says how many."""
    folder = pathlib.Path(words[-1]).parent

    def play(stop, lose):
        for left in folder.glob("store*"):
            left.unlink()
        make()
        told, count = faults.run(library, words, text.encode(), folder, stop=stop, lose=lose)
        return told.stdout.decode().splitlines(), told.returncode, count

    replies, status, count = play(0, "none")
    if (replies, status) != (wanted, 0):
        return [(f"without a stop: status {status}, {replies}", None)]
    ends = []
    for lose in LOSSES:
        stop, lose = rng.randint(count - (late or count) + 1, count), lose or rng.randrange(1, 2**32)
        replies, status, made = play(stop, lose)
        # The log of a new file has other random numbers, by which a run may make a call less, and end before the stop.
        is_front = (status, replies) == (STOPPED, wanted[: len(replies)]) or (status, replies) == (0, wanted) and made < stop
        why, found = look(replies) if is_front else (f"status {status}, {replies}", None)
        ends.append((why and f"stopped at {stop} of {count}, {lose} lost: {why}", found))
    return ends


def replays(relayd, driver, library, seed, path):
    """What was wrong after each stop of a script, and how many records were found."""
    rng = random.Random(seed)
    lines, history = script_of(rng, OFTEN)
    text, wanted = "".join(f"{line}\n" for line, _ in lines), [reply for _, reply in lines]
    look = lambda replies: wrong_after(relayd, history, path, replies)
    return stop_all(rng, library, [driver, "replay", path], text, wanted, lambda: None, look)


def migrations(relayd, driver, library, seed, path):
    """What was wrong after each stop of a migration, and which tables were found."""
    rng = random.Random(seed)
    _, history = script_of(rng, OF_FIRST)
    rows, is_in_log = rows_of(history), rng.random() < 0.5
    wanted = [f"ok records {len(history)} endpoints {len(names_in(history))} pending {counts_in(history)['pending']}"]
    make = lambda: make_store(path, lambda conn: write_rows(conn, of_first(rows)), is_in_log)
    look = lambda replies: wrong_after_migration(relayd, rows, path, replies, wanted)
    return stop_all(rng, library, [relayd, "check", path], "", wanted, make, look, WRITING if is_in_log else None)


def main():
    relayd, driver = programs_of(__doc__, 2)
    scripts = int(sys.argv[3]) if len(sys.argv) > 3 else 200
    with tempfile.TemporaryDirectory() as folder, concurrent.futures.ThreadPoolExecutor(os.cpu_count()) as pool:
        library = faults.compiled(folder)

        def stops(work):
            run, seed = work
            with tempfile.TemporaryDirectory(dir=folder) as own:
                ends = run(relayd, driver, library, seed, os.path.join(own, "store"))
            return [(why and f"{run.__name__}, seed {seed}: {why}", found) for why, found in ends]

        works = itertools.product((replays, migrations), range(scripts))
        ends = [end for of in pool.map(stops, works) for end in of]
    for why, _ in [end for end in ends if end[0]][:10]:
        print(why)
    found = collections.Counter(found for _, found in ends)
    print(", ".join(f"{found[it]} {told}" for it, told in (
        ("committed", "stops left what was committed"), ("sealed", "also what was sealed"), ("no tables", "no tables yet"),
        ("first", "the tables of version 1"), ("migrated", "those of version 2"))))
    failed = sum(why is not None for why, _ in ends)
    print(f"{len(ends) - failed} passed, {failed} failed")
    return 1 if failed else 0
