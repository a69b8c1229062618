"""What docs/FORMATS.md says: its tables, and parts of its text."""
import re

from lib.command import ROOT

PAGE = ROOT / "docs" / "FORMATS.md"
# The versions of the tables. The first one has no table of topics.
FIRST, LATEST = 1, 2


def texts_of_tables(version=LATEST):
    """The texts of a version's CREATE statements, each on one line."""
    texts = [" ".join(it.split()) for it in re.findall(r"^CREATE TABLE.*?STRICT$", PAGE.read_text(), re.S | re.M)]
    return [it for it in texts if version > FIRST or not it.startswith("CREATE TABLE topics(")]


def make_tables(conn, records=0, version=LATEST, change=str):
    """Has Python's sqlite3 make the tables of a version, each by its text after this change, and the row of `meta`."""
    for text in texts_of_tables(version):
        conn.execute(change(text))
    conn.execute("INSERT INTO meta VALUES(1, 'webhook-relay', ?, ?)", (version, records))


def part_from(heading, upto):
    """The text from a heading up to another one."""
    text = PAGE.read_text()
    return text[text.index(heading) : text.index(upto)]
