"""Makes the files of vectors/check/files anew, except those that a relay of version 1 left.

`scripts/store checks` has `relayd check` report of them. This is no test: run it if the tables
change, and compare the counts in vectors/check/reports.
Usage: scripts/store samples RELAYD
"""
import contextlib
import pathlib
import sqlite3
import tempfile

from lib.command import ROOT, program_of
from lib.rows import copy_store
from lib.serving import Relay, Subscriber, ask, put, submit, wait_until

DATA = ROOT / "vectors" / "check" / "files"
# What a relay of version 1 left, in its log and copied, and that with a damaged row.
OF_FIRST = ("first-version", "first-version-wal", "first-version-copied", "first-version-damaged")
# The smallest page of SQLite's.
PAGE = 512
RECORDS = 7
# A log's head and its first two pages, of 4,096 bytes each.
LOG = 32 + 2 * (24 + 4096)


def make_sound(relayd, path):
    """A store of seven records as a relay leaves it when it is killed: its log isn't copied into the file yet."""
    subscriber = Subscriber(lambda post: 200 if post.header("webhook-id") == "e1" else 500)
    relay = Relay(relayd, str(path))
    said = lambda what: ask(relay.address, "GET", "/v1/status").json()[what]
    put(relay.address, "a", subscriber.port)
    put(relay.address, "b", 9)
    ask(relay.address, "PUT", "/v1/endpoints/b/secrets", b'{"secrets":["whsec_%s"]}' % (b"A" * 32))
    submit(relay.address, "a", b"{}", "e1")
    wait_until(lambda: said("delivered") == 1)
    submit(relay.address, "a", b"[]", "e2")
    if not wait_until(lambda: said("records") == RECORDS, 4):
        raise RuntimeError("the records aren't those that were wanted")
    relay.kill()


def copy_log(path):
    """Has SQLite copy the log into the file, and remove the log."""
    conn = sqlite3.connect(path)
    conn.execute("PRAGMA wal_checkpoint(TRUNCATE)")
    conn.close()


def make_other(path, *statements):
    """A database with the smallest pages, made by these statements."""
    conn = sqlite3.connect(path, isolation_level=None)
    conn.execute(f"PRAGMA page_size = {PAGE}")
    conn.execute("PRAGMA foreign_keys = OFF")
    for statement in statements:
        conn.execute(statement)
    conn.close()


def small_copy(source, path, *statements):
    """The same tables and rows in a file with the smallest pages, changed by these statements."""
    with contextlib.closing(sqlite3.connect(source)) as conn:
        script = list(conn.iterdump())
    make_other(path, *script, *statements)


def main():
    relayd = program_of(__doc__)
    for file in DATA.iterdir():
        if file.name not in OF_FIRST:
            file.unlink()
    with tempfile.TemporaryDirectory() as folder:
        whole, copied = pathlib.Path(folder, "whole"), DATA / "sound-copied"
        make_sound(relayd, whole)
        for copy in (DATA / "sound", f"{folder}/copied"):
            copy_store(whole, copy)
        (DATA / "log-alone-wal").write_bytes((DATA / "sound-wal").read_bytes()[:LOG])
        copy_log(f"{folder}/copied")
        small_copy(f"{folder}/copied", copied)
    # No row names record 7.
    topics = "INSERT INTO topics VALUES('orders', 0, 1, 9), ('orders', 1, 0, 8)"
    small_copy(copied, DATA / "topics", "UPDATE meta SET records = 10", topics)
    # Record 6 is an attempt.
    small_copy(copied, DATA / "topics-damaged", "UPDATE meta SET records = 10", topics, "UPDATE topics SET set_by = 6 WHERE set_by = 8")
    small_copy(copied, DATA / "topics-unnamed", "UPDATE meta SET records = 10", topics, "UPDATE topics SET topic = 'ORDERS'")
    # Nothing follows a status of 200, which the attempt at the first event got.
    small_copy(copied, DATA / "damaged-row", "UPDATE meta SET records = 8", "INSERT INTO attempts VALUES(7, 3, 2, 500, 2000000000)")
    small_copy(copied, DATA / "later-version", "UPDATE meta SET version = 3")
    # No endpoint has this number.
    small_copy(copied, DATA / "later-version-damaged", "UPDATE meta SET version = 3", "UPDATE deliveries SET endpoint = 2")
    small_copy(DATA / "first-version-copied", DATA / "first-version-taken", "CREATE TABLE topics(topic TEXT)")
    data = bytearray(copied.read_bytes())
    data[PAGE : 2 * PAGE] = (b"overwritten\n" * PAGE)[:PAGE]
    (DATA / "damaged-page").write_bytes(data)
    make_other(DATA / "another-program", "CREATE TABLE notes(id INTEGER PRIMARY KEY, text TEXT)", "INSERT INTO notes VALUES(1, 'milk')")
    make_other(DATA / "no-table", "CREATE TABLE notes(id INTEGER PRIMARY KEY, text TEXT)", "DROP TABLE notes")
    (DATA / "one-byte").write_bytes(b"S")
    (DATA / "short-text").write_bytes(b"no database\n")
    (DATA / "empty").write_bytes(b"")
