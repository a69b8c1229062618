"""What `relayd check` says of files that SQLite made, and which of them it changes.

It says the line or the fault that docs/FORMATS.md names, with the exit status. A store of version 1
is migrated, and has the same rows then; every other file is as it was, byte for byte. If there is
nothing, or an empty file, a store is made, which Python's SQLite then reads. Then stores of 200
random histories with topics and purges, in each of which a cell was changed: the conditions of the
page, which Python looks at, decide. Beside these what is said of a file that another program has
open, and the copies of `packaging/backup`. Then the same of `driver open`, which opens a file by one
call. `relayd serve` migrates a store, too.
Usage: scripts/store files RELAYD DRIVER
"""
import contextlib
import fcntl
import os
import pathlib
import random
import re
import sqlite3
import subprocess
import tempfile

from lib.command import ROOT, programs_of
from lib.formats import FIRST, LATEST, make_tables, texts_of_tables
from lib.model import counts_in, names_in
from lib.random_lines import history_of
from lib.rows import copy_store, is_migrated, make_store, rows_in, rows_of, write_rows
from lib.serving import ask, relay_of
from lib.sound import Rows

SECRET = "x'303132333435363738396162636465663031323334353637'"
ENDPOINT = ("INSERT INTO endpoints VALUES(0, 'a', 'http://h/', 100, 1, 0, 0)", f"INSERT INTO secrets VALUES(0, 0, {SECRET})")
EVENT = (*ENDPOINT, "INSERT INTO deliveries VALUES(1, 0, 'msg_1', 1000, x'7b7d')")
DELIVERED = (*EVENT, "INSERT INTO attempts VALUES(2, 1, 1, 200, 1001)")
GONE = (*EVENT, "INSERT INTO attempts VALUES(2, 1, 1, 410, 1001)")
LOOSE = (*EVENT, f"INSERT INTO secrets VALUES(7, 0, {SECRET})")
# Two endpoints, or what belongs to each, twice under keys that the tables without keys don't have.
TWICE = (*EVENT, "INSERT INTO endpoints VALUES(2, 'a', 'http://h/', 100, 1, 2, 2)", f"INSERT INTO secrets VALUES(2, 0, {SECRET})")

TOPICS = texts_of_tables()[-1]

# SQLite gives no index such a name by itself.
RENAMED = (
    "PRAGMA writable_schema = on",
    "UPDATE sqlite_schema SET name = 'sqlite_autoindex_topics_1', sql = replace(sql, 'late', 'sqlite_autoindex_topics_1') WHERE name = 'late'",
)


def no_reference(text):
    return re.sub(r" REFERENCES \w+\(\w+\)", "", text)


def no_key(text):
    """The text of a table without references, and without keys too if it isn't that of meta."""
    if text.startswith("CREATE TABLE meta("):
        return text
    text = no_reference(text).replace("INTEGER PRIMARY KEY", "INTEGER NOT NULL").replace(" UNIQUE,", ",")
    return re.sub(r", (PRIMARY KEY|UNIQUE)\([^)]*\)", "", text)


NO_RECORD = "ok records 0 endpoints 0 pending 0"
AN_EVENT = "ok records 2 endpoints 1 pending 1"

# What is in a store of the first version or the latest, how many records, and what is said of it: the line of the counts, or the fault.
STORES = {
    "no record": ((), 0, NO_RECORD),
    "an event": (EVENT, 2, AN_EVENT),
    "a delivered event": (DELIVERED, 3, "ok records 3 endpoints 1 pending 0"),
    "a number of no row": (ENDPOINT, 2, "ok records 2 endpoints 1 pending 0"),
    "an event after numbers of no row": ((*ENDPOINT, "INSERT INTO deliveries VALUES(8, 0, 'msg_1', 1000, x'7b7d')"), 12, "ok records 12 endpoints 1 pending 1"),
    "all numbers, of no row": ((), 2**62, f"ok records {2**62} endpoints 0 pending 0"),
    "a number more": ((), 2**62 + 1, "Damaged"),
    "a later list of secrets": ((*ENDPOINT, "UPDATE endpoints SET secrets_by = 1"), 2, "ok records 2 endpoints 1 pending 0"),
    "no row": ((), 1, "ok records 1 endpoints 0 pending 0"),
    "a gone endpoint that is enabled": (GONE, 3, "Damaged"),
    "a gone endpoint": ((*GONE, "UPDATE endpoints SET enabled = 0, enabled_by = 2"), 3, "ok records 3 endpoints 1 pending 1"),
    "a gone endpoint whose event was purged": ((*ENDPOINT, "UPDATE endpoints SET enabled = 0, enabled_by = 2"), 4, "ok records 4 endpoints 1 pending 0"),
    "a gone endpoint whose event was purged, gone again": ((*GONE, "UPDATE endpoints SET enabled = 0, enabled_by = 3"), 4, "ok records 4 endpoints 1 pending 1"),
    "gone again after what decides": ((*EVENT, "INSERT INTO attempts VALUES(3, 1, 1, 410, 1001)", "UPDATE endpoints SET enabled = 0, enabled_by = 2"), 4, "Damaged"),
    "a second attempt without a first": ((*EVENT, "INSERT INTO attempts VALUES(2, 1, 2, 500, 1001)"), 3, "Damaged"),
    "without meta": ((*EVENT, "DROP TABLE meta"), 2, "NotOurs"),
    "without attempts": ((*EVENT, "DROP TABLE attempts"), 2, "NotOurs"),
    "another program's meta": ((*EVENT, "UPDATE meta SET app = 'webhook-relays'"), 2, "NotOurs"),
    # Python's SQLite asks of no reference whether its row is there.
    "an event of no endpoint": ((*ENDPOINT, "INSERT INTO deliveries VALUES(1, 7, 'msg_1', 1000, x'7b7d')"), 2, "Damaged"),
    "an attempt of no event": ((*EVENT, "INSERT INTO attempts VALUES(2, 7, 1, 500, 1001)"), 3, "Damaged"),
    "a secret of no endpoint": (LOOSE, 2, "Damaged"),
    "a secret of no endpoint, another program's meta": ((*LOOSE, "UPDATE meta SET app = 'other'"), 2, "NotOurs"),
    "a table more": ((*EVENT, "CREATE TABLE notes(seq INTEGER REFERENCES deliveries(seq), note)"), 2, AN_EVENT),
    "analyzed": ((*EVENT, "ANALYZE"), 2, AN_EVENT),
    "a counter of SQLite's": ((*EVENT, "CREATE TABLE notes(n INTEGER PRIMARY KEY AUTOINCREMENT)"), 2, AN_EVENT),
    "an index and a view more": ((*EVENT, "CREATE INDEX by_at ON deliveries(at)", "CREATE VIEW now AS SELECT * FROM deliveries"), 2, AN_EVENT),
    # These the store's reader doesn't open, or not with the tables that they stand on.
    "a trigger": ((*EVENT, "CREATE TRIGGER t AFTER INSERT ON deliveries BEGIN SELECT 1; END"), 2, "NotOurs"),
    "a trigger that was dropped": ((*EVENT, "CREATE TRIGGER t AFTER INSERT ON deliveries BEGIN SELECT 1; END", "DROP TRIGGER t"), 2, AN_EVENT),
    "an index of some rows": ((*EVENT, "CREATE INDEX late ON deliveries(at) WHERE at > 5"), 2, "NotOurs"),
    # Tables whose texts were changed.
    "no reference": (EVENT, 2, "Damaged", no_reference),
    "no reference, and a secret of no endpoint": (LOOSE, 2, "Damaged", no_reference),
    "no key": (EVENT, 2, "Damaged", no_key),
    "no key, and a name twice": (TWICE, 3, "Damaged", no_key),
    "no key, and a number twice": ((*EVENT, "INSERT INTO deliveries VALUES(1, 0, 'msg_2', 1000, x'7b7d')"), 2, "Damaged", no_key),
    "no key, and an id twice": ((*EVENT, "INSERT INTO deliveries VALUES(2, 0, 'msg_1', 1000, x'7b7d')"), 3, "Damaged", no_key),
}


def topics(records, *rows, changes=()):
    """Statements that add rows of topics to an endpoint and set how many records there are, and how many."""
    return (*ENDPOINT, *(f"INSERT INTO topics VALUES({row})" for row in rows), *changes), records


# Topics of an endpoint, or of two, and what is said of them.
BOTH = ("INSERT INTO endpoints VALUES(1, 'b', 'http://h/', 100, 1, 1, 1)", f"INSERT INTO secrets VALUES(1, 0, {SECRET})")
MANY = "WITH RECURSIVE n(k) AS (SELECT 1 UNION ALL SELECT k + 1 FROM n WHERE k < %d) INSERT INTO topics SELECT 't' || k, 0, 1, k FROM n"
OF_TOPICS = {
    "a topic": (*topics(2, "'t', 0, 1, 1"), "ok records 2 endpoints 1 pending 0"),
    "a topic that ended": (*topics(2, "'t', 0, 0, 1"), "ok records 2 endpoints 1 pending 0"),
    "a topic of two endpoints": (*topics(4, "'t', 0, 1, 2", "'t', 1, 1, 3", changes=BOTH), "ok records 4 endpoints 2 pending 0"),
    "numbers before a topic": (*topics(4, "'t', 0, 1, 3"), "ok records 4 endpoints 1 pending 0"),
    "numbers after each topic": (*topics(5, "'t', 0, 1, 3"), "ok records 5 endpoints 1 pending 0"),
    "a topic of 32 letters": (*topics(2, f"'{'x' * 32}', 0, 1, 1"), "ok records 2 endpoints 1 pending 0"),
    "a topic of 33 letters": (*topics(2, f"'{'x' * 33}', 0, 1, 1"), "Damaged"),
    "a topic without a letter": (*topics(2, "'', 0, 1, 1"), "Damaged"),
    "a topic in capitals": (*topics(2, "'T', 0, 1, 1"), "Damaged"),
    "a topic with another flag": (*topics(2, "'t', 0, 2, 1"), "Damaged"),
    "a topic of no endpoint": (*topics(3, "'t', 7, 1, 1", "'t', 0, 1, 2"), "Damaged"),
    "a topic with its endpoint's number": (*topics(1, "'t', 0, 1, 0"), "Damaged"),
    "a topic with a number below that": (*topics(3, "'t', 1, 1, 0", changes=(*BOTH, "UPDATE endpoints SET enabled_by = 2 WHERE put = 0")), "Damaged"),
    "a topic with the number of records": (*topics(2, "'t', 0, 1, 2"), "Damaged"),
    "a topic with a negative number": (*topics(1, "'t', 0, 1, -1"), "Damaged"),
    "a topic with another endpoint's number": (*topics(2, "'t', 0, 1, 1", changes=BOTH), "Damaged"),
    "a topic with an event's number": ((*EVENT, "INSERT INTO topics VALUES('t', 0, 1, 1)"), 2, "Damaged"),
    "a topic with an attempt's number": ((*DELIVERED, "INSERT INTO topics VALUES('t', 0, 1, 2)"), 3, "Damaged"),
    "a topic with a flag's number": (*topics(3, "'t', 0, 1, 2", "'u', 0, 1, 1", changes=("UPDATE endpoints SET enabled_by = 2",)), "Damaged"),
    "a topic with a list's number": (*topics(3, "'t', 0, 1, 2", "'u', 0, 1, 1", changes=("UPDATE endpoints SET secrets_by = 2",)), "Damaged"),
    "two topics with one number": (*topics(2, "'t', 0, 1, 1", "'u', 0, 1, 1"), "Damaged"),
    "4,096 topics": ((*ENDPOINT, MANY % 4096), 4097, "ok records 4097 endpoints 1 pending 0"),
    "4,097 topics": ((*ENDPOINT, MANY % 4097), 4098, "Damaged"),
}
# The same by the version. Beside tables of version 1 nothing has the name of the table of topics.
VERSIONS = {
    0: {"an event": (EVENT, 2, "Damaged")},
    FIRST: {
        **STORES,
        "another table of topics": ((*EVENT, "CREATE TABLE Topics(topic)"), 2, "NotOurs"),
        "a table of topics": ((*EVENT, TOPICS), 2, "NotOurs"),
        "an index that is named topics": ((*EVENT, "CREATE INDEX topics ON deliveries(at)"), 2, "NotOurs"),
        "an index that is named as that of topics": ((*EVENT, "CREATE INDEX late ON deliveries(at)", *RENAMED), 2, "NotOurs"),
        "a view that is named topics": ((*EVENT, "CREATE VIEW topics AS SELECT * FROM deliveries"), 2, "NotOurs"),
    },
    LATEST: {
        **STORES,
        **OF_TOPICS,
        "without topics": ((*EVENT, "DROP TABLE topics"), 2, "NotOurs"),
        "topics without a reference": ((*EVENT, "DROP TABLE topics", no_reference(TOPICS)), 2, "Damaged"),
        "topics without a key": ((*EVENT, "DROP TABLE topics", re.sub(", PRIMARY KEY.*\\)", ")", TOPICS)), 2, "Damaged"),
    },
    LATEST + 1: {
        "an event": (EVENT, 2, "NewerVersion"),
        "a secret of no endpoint": (LOOSE, 2, "NewerVersion"),
        "a table more": ((*EVENT, "CREATE TABLE purges(a)"), 2, "NewerVersion"),
        "a table less": ((*EVENT, "DROP TABLE attempts"), 2, "NewerVersion"),
        "without topics": ((*EVENT, "DROP TABLE topics"), 2, "NewerVersion"),
    },
}
STATUSES = {"NotOurs": 4, "NewerVersion": 4, "Damaged": 4, "Busy": 3, "CannotOpen": 3, "Corrupt": 3, "Full": 3, "Lost": 3}
# A log of fewer bytes has no page: its head, and a page's head and bytes.
WITH_A_PAGE = 32 + 24 + 512
# As what `driver open` tells each of them.
OF_THE_STORE = [fault for fault, status in STATUSES.items() if status == 3]


def filling(version, statements, records, change=str):
    """What gives a connection the tables of a version, whose texts are changed so, and these rows."""
    def fill(conn):
        make_tables(conn, records, version, change)
        for statement in statements:
            conn.execute(statement)

    return fill


def make(path, fill, pragma="PRAGMA foreign_keys = OFF"):
    with contextlib.closing(sqlite3.connect(path)) as conn:
        conn.execute(pragma)
        fill(conn)
        conn.commit()
    return path


def no_table(path):
    conn = sqlite3.connect(path)
    conn.execute("CREATE TABLE t(a)")
    conn.execute("DROP TABLE t")
    conn.commit()
    conn.close()
    return path


def checks(relayd, path):
    """What `relayd check` tells of the file: the line of the counts, or the fault, and None where it ends in no such way."""
    told = subprocess.run([relayd, "check", str(path)], stdin=subprocess.DEVNULL, capture_output=True, timeout=60)
    for fault, status in STATUSES.items():
        if (told.returncode, told.stdout, told.stderr) == (status, b"", f"relayd: {fault}\n".encode()):
            return fault
    is_done = (told.returncode, told.stderr) == (0, b"") and told.stdout.endswith(b"\n")
    return told.stdout[:-1].decode() if is_done else None


def opens(driver, path):
    """What `driver open` tells of it, in the same words."""
    told = subprocess.run([driver, "open", str(path)], stdin=subprocess.DEVNULL, capture_output=True, timeout=60)
    line = told.stdout.decode().removesuffix("\n")
    if told.returncode == 0:
        return f"ok {line}"
    return line


def ends_so(tell, path, wanted, what):
    """Whether this is said of the file."""
    told = tell(path)
    if told == "Store" and wanted in OF_THE_STORE:
        return True
    if told != wanted:
        print(f"{what}: {told}, wanted {wanted}")
    return told == wanted


def check_kept(tell, path, wanted, what):
    """Whether this is said of the file, and leaves it as it was, beside at most a log of no page."""
    before, log = path.read_bytes() if path.is_file() else None, pathlib.Path(f"{path}-wal")
    told = ends_so(tell, path, wanted, what)
    same = before == (path.read_bytes() if path.is_file() else None) and (not log.exists() or log.stat().st_size < WITH_A_PAGE)
    if not same:
        print(f"{what}: the file was changed")
    return told and same


def texts_in(path):
    """The texts of all that was made in the file, in that order."""
    with contextlib.closing(sqlite3.connect(path)) as conn:
        return [text for (text,) in conn.execute("SELECT sql FROM sqlite_schema WHERE sql IS NOT NULL ORDER BY rowid")]


def check_migrated(tell, path, wanted, what):
    """Whether this is said of a store of version 1, and again once it is of the latest version with the same rows."""
    before = f"{path}-before"
    copy_store(path, before)
    told = [ends_so(tell, path, wanted, what) for _ in range(2)]
    same = is_migrated(rows_in(before), rows_in(path)) and texts_in(path) == [*texts_in(before), TOPICS]
    if not same:
        print(f"{what}: it wasn't migrated: {rows_in(path)}")
    return all(told) and same


def check_stores(tell, version, folder):
    """Whether the right thing is said of each store of a version, which then is as it was or migrated."""
    ends = []
    for number, (what, (statements, records, wanted, *change)) in enumerate(VERSIONS[version].items()):
        path = make(pathlib.Path(folder, f"{number}.db"), filling(version, statements, records, *change))
        is_taken = version == FIRST and wanted not in STATUSES
        ends.append((check_migrated if is_taken else check_kept)(tell, path, wanted, f"version {version}: {what}"))
    return ends


def with_a_change(rng, rows):
    """The rows with one cell changed, to a number near it, one of another row, or another text, but in `meta`."""
    table = rng.choice([it for it in rows if rows[it] and it != "meta"])
    place, column = rng.randrange(len(rows[table])), rng.randrange(len(rows[table][0]))
    row, old = rows[table][place], rows[table][place][column]
    others = [it[column] for it in rows[table]]
    others += [old - 1, old + 1, 0, 1, 410, rows["meta"][0][3]] if isinstance(old, int) else [old[:-1], old + old[:1], old * 3]
    row = (*row[:column], rng.choice(others), *row[column + 1 :])
    return {**rows, table: [*rows[table][:place], row, *rows[table][place + 1 :]]}


def check_changed(tell, folder):
    """What is said of stores of random histories, in each of which a cell was changed."""
    ends = []
    for seed in range(200):
        rng, path = random.Random(seed), pathlib.Path(folder, f"{seed}.db")
        rows = rows_of(history_of(rng))
        if not rows["endpoints"]:
            continue
        rows = with_a_change(rng, rows)
        try:
            make(path, lambda conn: write_rows(conn, rows))
        except sqlite3.IntegrityError:
            continue
        wanted = "Damaged"
        if not Rows(rows).broken():
            history = Rows(rows).history()
            wanted = f"ok records {len(history)} endpoints {len(names_in(history))} pending {counts_in(history)['pending']}"
        ends.append(check_kept(tell, path, wanted, f"a cell of {seed}"))
    return ends


def check_made(tell, path, what):
    """Whether a store of no record is made, and told of again."""
    if not all(ends_so(tell, path, NO_RECORD, what) for _ in range(2)):
        return False
    texts, rows, reserved = texts_in(path), rows_in(path), path.read_bytes()[20]
    if texts == texts_of_tables() and rows == rows_of([]) and reserved == 0:
        return True
    print(f"{what}: {texts} {rows}, {reserved} bytes of each page reserved")
    return False


def linked(path, whole):
    path.write_bytes(whole)
    os.link(path, f"{path}-too")
    return path


def with_journal(path, whole):
    path.write_bytes(whole)
    pathlib.Path(f"{path}-journal").write_bytes(b"\xd9\xd5\x05\xf9\x20\xa1\x63\xd7" + bytes(600))
    return path


def spoiled(version, folder):
    """Files that were a store of a version before something was done to them, each with what is said of it."""
    whole = make(pathlib.Path(folder, "whole"), filling(version, EVENT, 2)).read_bytes()
    page = int.from_bytes(whole[16:18], "big")
    for what, contents in (
        ("its first half", whole[: len(whole) // 2]),
        ("without its last page", whole[:-page]),
        ("a page of zeros", whole[: 2 * page] + bytes(page) + whole[3 * page :]),
        ("a page of text", whole[:page] + (b"overwritten\n" * page)[:page] + whole[2 * page :]),
    ):
        path = pathlib.Path(folder, what.replace(" ", "_"))
        path.write_bytes(contents)
        yield path, "Corrupt", what
    vacuumed = make(pathlib.Path(folder, "vacuumed"), filling(version, EVENT, 2), "PRAGMA auto_vacuum = 1")
    yield vacuumed, "Corrupt", "pages that SQLite moves by itself"
    yield linked(pathlib.Path(folder, "linked"), whole), "CannotOpen", "a file of two names"
    yield with_journal(pathlib.Path(folder, "journal"), whole), "CannotOpen", "a rollback journal"


def check_spoiled(tell, version, folder):
    return [check_kept(tell, path, wanted, f"version {version}: {what}") for path, wanted, what in spoiled(version, folder)]


def check_others(tell, folder):
    """Whether the right thing is said of what never was a store, and a store is made if there is nothing."""
    cases = [
        (no_table(pathlib.Path(folder, "dropped")), "NotOurs", "a database without a table"),
        (pathlib.Path(folder), "CannotOpen", "a folder"),
        (pathlib.Path(folder, "no_folder", "absent"), "CannotOpen", "a path in no folder"),
    ]
    for what, contents in (
        ("a text", b"no database\n" * 1000),
        ("a short text", b"no database\n"),
        ("a byte", b"S"),
        ("zeros", bytes(4096)),
        ("the header alone", b"SQLite format 3\0"),
    ):
        path = pathlib.Path(folder, what.replace(" ", "_"))
        path.write_bytes(contents)
        cases.append((path, "NotOurs", what))
    kept = [check_kept(tell, *case) for case in cases]
    empty = pathlib.Path(folder, "empty")
    empty.write_bytes(b"")
    return kept + [check_made(tell, empty, "an empty file"), check_made(tell, pathlib.Path(folder, "absent"), "an absent file")]


def with_log(path, version):
    """A file whose log has all of its tables."""
    make_store(path, filling(version, EVENT, 2))
    return path


def log_alone(path, version):
    with_log(path, version).unlink()
    return path


def check_logs(tell, version, folder):
    """What is said of a file and its log, of the file without it, and of the log without the file, which is left alone."""
    both, alone = with_log(pathlib.Path(folder, "both"), version), with_log(pathlib.Path(folder, "alone"), version)
    pathlib.Path(f"{alone}-wal").unlink()
    lost = log_alone(pathlib.Path(folder, "lost"), version)
    before = pathlib.Path(f"{lost}-wal").read_bytes()
    refused = ends_so(tell, lost, "CannotOpen", "a log beside no file")
    same = pathlib.Path(f"{lost}-wal").read_bytes() == before and not lost.exists()
    if not same:
        print("a log beside no file: it was changed, or a file was made")
    found = (check_migrated if version == FIRST else ends_so)(tell, both, AN_EVENT, f"version {version}: a file and its log")
    return [found, ends_so(tell, alone, "NotOurs", "a file without its log"), refused and same]


def lock(file):
    """Takes the lock that a relay holds while it has the file open."""
    fcntl.lockf(file, fcntl.LOCK_EX | fcntl.LOCK_NB, 512, 1 << 30)


def check_busy(tell, version, folder):
    """What is said of a file that another program has open, and afterwards."""
    path = make(pathlib.Path(folder, "busy"), filling(version, EVENT, 2))
    with open(path, "r+b") as file:
        lock(file)
        ends = [ends_so(tell, path, "Busy", "under a relay's lock")]
    conn = sqlite3.connect(path, isolation_level=None)
    for begin, what in (("BEGIN IMMEDIATE", "sqlite3 writes"), ("BEGIN", "sqlite3 reads")):
        conn.execute(begin)
        conn.execute("SELECT * FROM meta").fetchall()
        ends.append(ends_so(tell, path, "Busy", what))
        conn.execute("COMMIT")
    ends.append(ends_so(tell, path, AN_EVENT, "sqlite3 waits"))
    conn.close()
    return ends


def backs_up(source, target):
    return subprocess.run([ROOT / "packaging" / "backup", source, target], capture_output=True, timeout=60).returncode


def check_backup(tell, version, folder):
    """Whether a copy holds what the file and its log held, its owner alone may read it, and none is made over another file, of no file, or while the file is open."""
    source, copy, other = (pathlib.Path(folder, name) for name in ("source", "copy", "copy-2"))
    with_log(source, version)
    ends = [backs_up(source, copy) == 0 and ends_so(tell, copy, AN_EVENT, "a copy"), backs_up(source, copy) == 3]
    ends.append(all(os.stat(it).st_mode & 0o777 == 0o600 for it in (copy, f"{copy}-wal")))
    with open(source, "r+b") as file:
        lock(file)
        ends.append(backs_up(source, other) == 3)
    ends.append(backs_up(pathlib.Path(folder, "nothing"), other) == 3)
    ends.append(not other.exists() and not pathlib.Path(f"{other}-wal").exists())
    if not all(ends):
        print(f"backup: {ends}")
    return ends


def check_served(relayd, folder):
    """Whether a relay that serves has migrated a store of version 1, whose rows are in its log or in FILE."""
    ends = []
    for is_in_log in (True, False):
        path = f"{folder}/served-{is_in_log}"
        make_store(path, filling(FIRST, DELIVERED, 3), is_in_log)
        copy_store(path, f"{path}-before")
        with relay_of(relayd, path) as relay:
            totals = ask(relay.address, "GET", "/v1/status").json()
        ends.append(totals["records"] == 3 and is_migrated(rows_in(f"{path}-before"), rows_in(path)))
        if not ends[-1]:
            print(f"served: {totals}, {rows_in(path)}")
    return ends


def in_a_folder(check, *words):
    with tempfile.TemporaryDirectory() as folder:
        return check(*words, folder)


def main():
    relayd, driver = programs_of(__doc__, 2)
    ends = in_a_folder(check_served, relayd)
    for tell in (lambda path: checks(relayd, path), lambda path: opens(driver, path)):
        ends += in_a_folder(check_others, tell)
        ends += in_a_folder(check_changed, tell)
        for version in VERSIONS:
            ends += in_a_folder(check_stores, tell, version)
        for version in (FIRST, LATEST):
            for check in (check_spoiled, check_logs, check_busy, check_backup):
                ends += in_a_folder(check, tell, version)
    failed = len(ends) - sum(ends)
    print(f"{sum(ends)} passed, {failed} failed")
    return 1 if failed else 0
