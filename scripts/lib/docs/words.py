"""The length of the pages and of their sentences, and the width of their lines.

It counts the words of README.md, CHANGELOG.md and docs/*.md. It fails if all pages have more than
27,000 words, if the median sentence of all has more than 16, or if a line of prose is wider than
100 columns.

All words of a page count, those of tables and of code too, as `wc -w` counts them. A sentence is
prose: it ends at a full stop, an exclamation or a question mark before a space, or with its
paragraph or list item. A cell of a table is one if it ends at such a mark. Headings and code have
none. In a sentence a word has a letter or a digit. Rows of tables and code may be wider, and a
link's target adds nothing to the width of its line.

Each bound of all pages and each page's width counts once.
Usage: scripts/docs words [PAGE..]
"""
import pathlib
import re
import statistics
import sys

from lib.command import PAGES

MOST_WORDS, LONGEST_MEDIAN, WIDTH = 27_000, 16, 100
STOP = r"[.!?](?=[)\"”*_]*(?:\s|$))[)\"”*_]*"
SHORT = r"\b(?:e\.g|i\.e|etc|cf|vs|[Nn]o)\.$"


def length(text):
    return sum(bool(re.search(r"\w", it)) for it in text.split())


def parts_of(text):
    """The paragraphs, list items and rows of a page: each its kind and its lines, numbered."""
    parts, fenced, was_blank = [], False, True
    for number, line in enumerate(text.split("\n"), 1):
        is_fence = line.lstrip().startswith("```")
        item = re.match(r"\s*(?:[-*]|\d+\.)\s+", line)
        last = parts[-1][0] if parts and not was_blank else ""
        if fenced or is_fence or line.startswith("    ") and not item and (was_blank and not last or last == "code"):
            kind = "code"
        elif not line.strip():
            kind = ""
        else:
            kind = "row" if line.startswith("|") else "heading" if line.startswith("#") else "prose"
        if kind and (kind != last or kind in ("row", "heading") or item and kind == "prose"):
            parts.append((kind, []))
        if kind:
            parts[-1][1].append((number, line))
        was_blank = not kind
        fenced = fenced != is_fence
    return parts


def sentences_in(text):
    """The sentences of a paragraph or an item. A span of code ends none."""
    text = re.sub(r"`[^`]*`", lambda it: re.sub(r"[.!?]", "_", it[0]), text)
    text = re.sub(r"^\s*(?:[-*>]|\d+\.)\s+", "", text).strip()
    begun = 0
    for found in re.finditer(STOP, text):
        upto = text[: found.start() + 1]
        if upto.endswith("..") or re.search(SHORT, upto):
            continue
        yield text[begun : found.end()]
        begun = found.end()
    yield text[begun:]


def lengths_of(parts):
    """How many words each sentence has."""
    for kind, lines in parts:
        text = " ".join(it.strip() for _, it in lines)
        texts = [text] if kind == "prose" else []
        if kind == "row":
            texts = [it.strip() for it in text.strip("|").split("|") if re.search(rf"{STOP}$", it.strip())]
        yield from (length(it) for one in texts for it in sentences_in(one) if length(it))


def wide_lines(parts):
    """The lines of prose that are too wide, without the targets of links."""
    for kind, lines in parts:
        for number, line in lines:
            shown = re.sub(r"\]\([^)\s]*\)", "]", line)
            if kind == "prose" and len(shown) > WIDTH and " " in shown.strip():
                yield number


def main():
    pages = [pathlib.Path(it) for it in sys.argv[1:]] or PAGES
    words, lengths, ends = 0, [], []
    print(f"{'words':>7} {'sentences':>9} {'median':>6} {'nine in ten':>11}  page")

    def row(words, lengths, name):
        lengths = sorted(lengths) or [0]
        median, ninth = statistics.median(lengths), lengths[9 * (len(lengths) - 1) // 10]
        print(f"{words:7} {len(lengths):9} {median:6.1f} {ninth:11}  {name}")

    for page in pages:
        text = page.read_text()
        parts = parts_of(text)
        own, wide = [*lengths_of(parts)], [*wide_lines(parts)]
        row(len(text.split()), own, page.name)
        words, lengths = words + len(text.split()), lengths + own
        ends.append(not wide)
        if wide:
            print(f"FAILED {page.name}: {len(wide)} lines of prose have more than {WIDTH} columns, the first is line {wide[0]}")
    row(words, lengths, "all pages")
    ends += [words <= MOST_WORDS, not lengths or statistics.median(lengths) <= LONGEST_MEDIAN]
    if not ends[-2]:
        print(f"FAILED all pages: {words} words, and {MOST_WORDS} may be")
    if not ends[-1]:
        print(f"FAILED all pages: the median sentence has {statistics.median(lengths)} words, and {LONGEST_MEDIAN} may be")
    print(f"{ends.count(True)} passed, {ends.count(False)} failed")
    return 0 if all(ends) else 1
