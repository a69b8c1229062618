"""The rows of a store: those that docs/FORMATS.md gives of a history, and those that SQLite in C finds in a file or writes."""
import base64
import contextlib
import os
import shutil
import sqlite3
import tempfile

from lib.formats import FIRST, LATEST, make_tables
from lib.model import Accept, Outcome, Put, deliveries_in, flag_of, of, secrets_of, subscriptions_in

# The tables, each with the columns of its key.
ORDERS = {"meta": "1", "endpoints": "1", "secrets": "1, 2", "deliveries": "1", "attempts": "1", "topics": "1, 2"}


def bytes_of(secret):
    text = secret.removeprefix("whsec_").rstrip("=")
    return base64.b64decode(text + "=" * (-len(text) % 4))


def rows_of(records):
    """What the tables hold of these records."""
    rows = {table: [] for table in ORDERS}
    rows["meta"] = [(1, "webhook-relay", LATEST, len(records))]
    kept = deliveries_in(records)
    puts = {record.name: number for number, record in enumerate(records) if isinstance(record, Put)}
    for number, record in enumerate(records):
        if isinstance(record, Put):
            (enabled, enabled_by), (secrets, secrets_by) = flag_of(records, record.name), secrets_of(records, record.name)
            rows["endpoints"].append((number, record.name, record.url, record.most, int(enabled), enabled_by, secrets_by))
            rows["secrets"] += [(number, place, bytes_of(secret)) for place, secret in enumerate(secrets)]
        elif isinstance(record, Accept) and number in kept:
            rows["deliveries"].append((number, puts[record.name], record.id, record.at, record.body))
        elif isinstance(record, Outcome) and record.delivery in kept:
            attempt = sum(other.delivery == record.delivery for other in of(Outcome, records[: number + 1]))
            rows["attempts"].append((number, record.delivery, attempt, record.status, record.at))
    pairs = subscriptions_in(records).items()
    rows["topics"] = sorted((topic, puts[name], int(flag), number) for (topic, name), (flag, number) in pairs)
    return rows


def of_first(rows):
    """The same rows in tables of version 1."""
    key, app, _, records = rows["meta"][0]
    return {**{table: rows[table] for table in ORDERS if table != "topics"}, "meta": [(key, app, FIRST, records)]}


def is_migrated(before, after):
    """Whether the rows are those of before, which were of version 1, in tables of the latest one."""
    return of_first(after) == before and after["meta"][0][2] == LATEST and after["topics"] == []


def rows_in(path):
    """What SQLite in C reads in the tables of the file, or what it says of a fault."""
    with contextlib.closing(sqlite3.connect(path)) as conn:
        try:
            if conn.execute("PRAGMA integrity_check").fetchall() != [("ok",)]:
                return "broken"
            tables = {name for (name,) in conn.execute("SELECT name FROM sqlite_schema WHERE type = 'table'")}
            return {it: conn.execute(f"SELECT * FROM {it} ORDER BY {order}").fetchall() for it, order in ORDERS.items() if it in tables}
        except sqlite3.Error as error:
            return str(error)


def copy_store(path, to):
    """Copies a file and its log, if it has one."""
    for end in ("", "-wal"):
        if os.path.exists(f"{path}{end}"):
            shutil.copyfile(f"{path}{end}", f"{to}{end}")


def write_rows(conn, rows):
    """Has SQLite in C make the tables of the version that `meta` names, with these rows."""
    _, _, version, records = rows["meta"][0]
    make_tables(conn, records, version)
    for table in rows.keys() - {"meta"}:
        for row in rows[table]:
            conn.execute(f"INSERT INTO {table} VALUES({', '.join('?' * len(row))})", row)


def make_store(path, fill, is_in_log=True):
    """Has SQLite in C make a store, which `fill` fills over a connection. What it has is in its log, as a relay leaves it, or else in FILE."""
    with tempfile.TemporaryDirectory() as folder, contextlib.closing(sqlite3.connect(f"{folder}/open", isolation_level=None)) as conn:
        conn.execute("PRAGMA journal_mode = wal")
        conn.execute("PRAGMA wal_autocheckpoint = 0")
        fill(conn)
        if not is_in_log:
            conn.execute("PRAGMA wal_checkpoint(TRUNCATE)")
        copy_store(f"{folder}/open", path)
