"""The model itself, against worked scripts and requests. It needs no program.

Scripts that end with a fault are left out, since the model reads good lines alone. The rows of 200
random histories, with topics and purges, keep the conditions of docs/FORMATS.md, and the history
that stands for them has these rows.
Usage: scripts/script model [FOLDER | PAGE]..: if nothing is named, all of vectors/, the histories,
and the scripts of limits, with fewer pending events
"""
import pathlib
import random
import sys

from lib.answers import answer, examples, once_settled, turn
from lib.command import ROOT, Counts, first_difference
from lib.limit_scripts import pairs, publishes, room
from lib.model import Desk, reply_to
from lib.random_lines import history_of
from lib.rows import rows_of
from lib.sound import Rows

PLACES = [ROOT / "vectors" / it for it in ("replay", "topics", "retention", "requests.md", "topics/requests.md", "retention/requests.md")]


class SmallDesk(Desk):
    """A desk for which fewer events are a backlog, since the model is slow."""

    MOST_PENDING = 100
    MOST_PENDING_ALL = 500


def check_replies(counts, name, desk, lines, wanted):
    """Compares the replies to the lines of a script, up to the first that differs."""
    counts.check(name, first_difference([reply_to(desk, line) for line in lines], wanted), None)


def check_script(counts, script):
    lines, wanted = (script.with_suffix(end).read_text().splitlines() for end in (".script", ".replies"))
    check_replies(counts, script, Desk(), lines, wanted)


def check_limits(counts):
    pending = SmallDesk.MOST_PENDING, SmallDesk.MOST_PENDING_ALL
    for name, desk, script in (("room", SmallDesk(), room(*pending)), ("publishes", SmallDesk(), publishes(*pending)), ("pairs", Desk(), pairs())):
        check_replies(counts, name, desk, *map(list, zip(*script.lines)))


def check_histories(counts):
    for seed in range(200):
        rows = rows_of(history_of(random.Random(seed)))
        broken = Rows(rows).broken()
        counts.check(f"history {seed}: broken conditions", broken, [])
        counts.check(f"history {seed}: the same rows", rows_of(Rows(rows).history()) if not broken else None, rows)


def check_page(counts, page):
    """Compares the answer to each request of a page."""
    desk, listed = Desk(), list(examples(page.read_text()))
    counts.check(f"{page} has examples", bool(listed))
    for it, wanted in listed:
        counts.check(f"{page.name}: {it}", once_settled(it, answer(desk, it)), wanted)
        turn(desk)


def check(counts, place):
    if not place.is_dir():
        return check_page(counts, place)
    scripts = [it for it in sorted(place.glob("*.script")) if not it.with_suffix(".status").exists()]
    counts.check(f"{place} has scripts", bool(scripts))
    for script in scripts:
        check_script(counts, script)


def main():
    counts = Counts()
    for place in map(pathlib.Path, sys.argv[1:] or PLACES):
        check(counts, place)
    if not sys.argv[1:]:
        check_limits(counts)
        check_histories(counts)
    return counts.end()
