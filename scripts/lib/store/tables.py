"""The tables that `driver replay` writes, read by SQLite in C.

They are those of docs/FORMATS.md, text by text. The rows of one file are those of the first script
below, the other has each kind of record, by the second script.
Usage: scripts/store tables DRIVER
"""
import base64
import sqlite3
import subprocess
import tempfile

from lib.command import program_of
from lib.formats import texts_of_tables

NEW = b"0123456789abcdef01234567"
OLD = b"89abcdef0123456789abcdef"
URL = "http://127.0.0.1:9000/hook"

# The records of a script, each of which is committed and settled, and for an attempt the claim before it.
REQUESTS = [
    f"put a {URL} 100 whsec_{base64.b64encode(NEW).decode()},{base64.b64encode(OLD).decode()}",
    "submit 1000 a msg_1 7b7d",
    f"put b-2 HTTP://h 1000 whsec_{base64.b64encode(OLD).decode()}",
    "submit 1001 b-2 msg_1 -",
    "submit 1000 a msg_2 00ff",
    f"secrets b-2 whsec_{base64.b64encode(NEW).decode()}",
    "disable a",
]

# What each table holds after these seven records. The clock never goes back, so the last event is taken in at 1001.
REPLAYED = {
    "meta": [(1, "webhook-relay", 2, 7)],
    "endpoints": [(0, "a", URL, 100, 0, 6, 0), (2, "b-2", "HTTP://h", 1000, 1, 2, 5)],
    "secrets": [(0, 0, NEW), (0, 1, OLD), (2, 0, NEW)],
    "deliveries": [(1, 0, "msg_1", 1000, b"{}"), (3, 2, "msg_1", 1001, b""), (4, 0, "msg_2", 1001, b"\x00\xff")],
    "attempts": [],
    "topics": [],
}


# What each table holds after an endpoint, an event, a failed attempt, one that found the endpoint gone, a flag, a third attempt,
# other secrets, a topic that is subscribed and unsubscribed, and another topic; then an event that is delivered and purged, and another
# one under its id: fourteen records, of which the fifth decides that the endpoint is enabled, the seventh gave its secrets, and the ninth
# and tenth decide its topics.
EACH_REQUEST = [
    f"put a {URL} 100 whsec_{base64.b64encode(NEW).decode()}",
    "submit 1000 a msg_1 7b7b",
    "claim 1001\nspend 1 1001 500 100000",
    "claim 1006\nspend 1 1006 410 100000",
    "enable a",
    "claim 1007\nspend 1 1007 500 100000",
    f"secrets a whsec_{base64.b64encode(OLD).decode()},whsec_{base64.b64encode(NEW).decode()}",
    "subscribe t a",
    "unsubscribe t a",
    "subscribe u a",
    "submit 1007 a msg_2 7b7d",
    "claim 1007\nspend 10 1007 200 100000",
    "purge 1008",
    "submit 1008 a msg_2 7b7c",
]
EACH_RECORD = {
    "meta": [(1, "webhook-relay", 2, 14)],
    "endpoints": [(0, "a", URL, 100, 1, 4, 6)],
    "secrets": [(0, 0, OLD), (0, 1, NEW)],
    "deliveries": [(1, 0, "msg_1", 1000, b"{{"), (13, 0, "msg_2", 1008, b"{|")],
    "attempts": [(2, 1, 1, 500, 1001), (3, 1, 2, 410, 1006), (5, 1, 3, 500, 1007)],
    "topics": [("t", 0, 0, 8), ("u", 0, 1, 9)],
}


def checks(conn, tables):
    """Each check, whether it holds and what was found."""
    found = conn.execute("PRAGMA integrity_check").fetchall()
    yield "integrity", found == [("ok",)], found
    found = [text for (text,) in conn.execute("SELECT sql FROM sqlite_schema WHERE sql IS NOT NULL ORDER BY rowid")]
    yield "texts of the tables", found == texts_of_tables(), found
    for table, rows in tables.items():
        found = conn.execute(f"SELECT * FROM {table} ORDER BY 1, 2").fetchall()
        yield f"rows of {table}", found == rows, found


def compared(path, tables):
    """How many checks of the file hold, and how many don't."""
    passed = failed = 0
    conn = sqlite3.connect(path)
    for what, holds, found in checks(conn, tables):
        passed, failed = passed + holds, failed + (not holds)
        if not holds:
            print(f"{what}: found {found}")
    conn.close()
    return passed, failed


def main():
    driver = program_of(__doc__)
    passed = failed = 0
    with tempfile.TemporaryDirectory() as scratch:
        for name, entries, tables in (("requests", REQUESTS, REPLAYED), ("each", EACH_REQUEST, EACH_RECORD)):
            path = f"{scratch}/{name}.db"
            given = "".join(f"{entry}\nseal\ncommit\nsettle\n" for entry in entries).encode()
            ran = subprocess.run([driver, "replay", path], input=given, capture_output=True)
            settled = f"settled {tables['meta'][0][3]}"
            if ran.returncode or ran.stdout.decode().splitlines()[-1:] != [settled]:
                print(f"driver replay: status {ran.returncode}, {ran.stdout.decode()}")
                failed += 1
                continue
            good, bad = compared(path, tables)
            passed, failed = passed + good, failed + bad
    print(f"{passed} passed, {failed} failed")
    return 1 if failed else 0
