"""Each call of the file failed in turn, alone and with all later ones.

`driver replay` runs over a new file with its first call of the file failed, then with its second,
and so on to its last. Each time a commit reports the right error, and SQLite in C finds the rows of
the records that were committed, and at most those of one doubtful commit more: a purge and the
attempt before it are among them. The same of `driver open` over a store of version 1: SQLite in C finds its rows, in tables of one version or the other,
and the next opening finds them in the latest.
Usage: scripts/store fail DRIVER
"""
import concurrent.futures
import itertools
import pathlib
import re
import subprocess
import tempfile

from lib import faults
from lib.command import program_of
from lib.model import Desk, reply_to
from lib.rows import copy_store, make_store, of_first, rows_in, rows_of, write_rows
from lib.serving import SECRET

PUT = f"http://127.0.0.1:9000/hook 100 {SECRET}"
# Each stages a record. A relay of version 1 could record the first ones.
OF_FIRST = [f"put a {PUT}", "submit 1000 a msg_1 7b7d", f"put b {PUT}", "submit 1000 b msg_1 7b7d"]
STAGING = [*OF_FIRST, "spend 1 1000 200 100000", "purge 1001", "submit 1001 a msg_1 7b7c"]
# Each commit is there twice: the second finds no batch, or a closed vault after a doubtful one.
LINES = [line for staging in STAGING for line in (*["claim 1000"] * staging.startswith("spend"), staging, "seal", "commit", "commit", "settle")]
SCRIPT = "".join(f"{line}\n" for line in LINES).encode()
# What an opening prints of the first records.
OPENED = b"records 4 endpoints 2 pending 2\n"


def records():
    """The records of the script, by the model."""
    desk = Desk()
    for line in LINES:
        reply_to(desk, line)
    return desk.history


def first_records():
    return records()[: len(OF_FIRST)]


def wrong_replay(told, path):
    """What is wrong with this end, or None. Where the tables weren't made, nothing is replied."""
    replies = told.stdout.decode().splitlines()
    if told.returncode not in (0, 1) or (told.returncode == 0) != (len(replies) == len(LINES)):
        return "status"
    staged, committed, doubt, left = [], 0, False, dict(zip(STAGING, records()))
    for at, (line, reply) in enumerate(zip(LINES, replies)):
        if line in left and reply.endswith(f"staged {len(staged)}"):
            staged.append(left[line])
        elif line == "commit":
            if re.fullmatch(r"committed \d+", reply):
                committed = int(reply.split()[1])
            elif reply == "refused 5 Store" and not doubt:
                doubt = True
            elif reply != "no-batch" and not (doubt and reply.startswith("refused 1 ")):
                return f"line {at + 1}: {reply}"
    if not replies:
        return None
    allowed = [rows_of(staged[:committed])]
    if doubt:
        allowed.append(rows_of(staged[:committed + 1]))
    found = rows_in(path)
    return None if found in allowed else f"found {found}"


def wrong_migration(told, path):
    """What is wrong with this end of an opening of a store of version 1, or None."""
    rows, copy = rows_of(first_records()), f"{path}.copy"
    copy_store(path, copy)
    found = rows_in(copy)
    if (told.returncode, told.stdout) == (0, OPENED):
        return None if found == rows else f"found {found}"
    if (told.returncode, told.stdout) != (1, b"Store\n"):
        return "reply"
    if found not in (rows, of_first(rows)):
        return f"found {found}"
    again = subprocess.run([told.args[0], "open", path], capture_output=True, timeout=60)
    found = rows_in(path)
    return None if (again.stdout, found) == (OPENED, rows) else f"then {again.stdout}, found {found}"


def make_first(path, is_in_log):
    rows = of_first(rows_of(first_records()))
    make_store(path, lambda conn: write_rows(conn, rows), is_in_log)


# What runs, with which input, over which file, what it prints at its end, and what is wrong with how it ended.
RUNS = {
    "replay": ("replay", SCRIPT, lambda path: None, b"settled 7", wrong_replay),
    "migration": ("open", b"", lambda path: make_first(path, False), OPENED.strip(), wrong_migration),
    "migration-of-log": ("open", b"", lambda path: make_first(path, True), OPENED.strip(), wrong_migration),
}


def try_all(driver, library, run, settings, pool, scratch):
    """Runs with no call failed, and then with each; how many ended well, and how many did not."""
    word, text, make, last, wrong = RUNS[run]
    name = "-".join([run, *sorted(settings)])

    def one(number):
        path = f"{scratch}/{name}-{number}.db"
        make(path)
        told, count = faults.run(library, [driver, word, path], text, file=number, **settings)
        why = wrong(told, path)
        for left in pathlib.Path(scratch).glob(f"{name}-{number}.db*"):
            left.unlink()
        return why, told, count

    why, told, count = one(0)
    if why or told.returncode or count == 0 or told.stdout.splitlines()[-1:] != [last]:
        print(f"{name}: {count} calls, status {told.returncode}, {why}, {told.stdout!r}")
        return 0, 1
    ends = list(pool.map(one, range(1, count + 1)))
    bad = [(number, why, told) for number, (why, told, _) in enumerate(ends, 1) if why]
    for number, why, told in bad[:5]:
        print(f"{name}, call {number} of {count}: {why}, status {told.returncode}, {told.stdout!r} {told.stderr!r}")
    return count - len(bad), len(bad)


def main():
    driver = program_of(__doc__)
    passed = failed = 0
    with tempfile.TemporaryDirectory() as scratch, concurrent.futures.ThreadPoolExecutor(4) as pool:
        library = faults.compiled(scratch)
        for run, settings in itertools.product(RUNS, ({}, {"also": 1})):
            good, bad = try_all(driver, library, run, settings, pool, scratch)
            passed, failed = passed + good, failed + bad
    print(f"{passed} passed, {failed} failed")
    return 1 if failed else 0
