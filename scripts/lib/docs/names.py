"""What the pages name in back-ticks and the tree lacks.

The pages are README.md, CHANGELOG.md and docs/*.md. The tree is every text file except the pages,
built files and mutants. Comments of Rattle code don't count. These are looked up:

  a path           `docs/MODEL.md`, `spool_load/src/*.rt`, `drill/specs/{Moves,Tickets}.antt`,
                   `Waits.antt`, `crates/NAME/wrong/`
  a member         `Vault::commit` in an `impl`, `trait` or `enum` of that name; `drill::run` in
                   that crate; `Desk::{seal, settle}`
  an identifier    `IsCore`, `check_tables`, `MAX_LINES`; one without an underscore or a second
                   capital, as `settle`, only if its paragraph also names a crate, a source file, a
                   member or such an identifier
  a command        `make demo`, `relayd check FILE`, `packaging/backup`, `scripts/serve kill`,
                   `serve kill RELAYD 100`, and any word of parts with hyphens, as `kill-serve`
  an option        `--workers`
  a message        `halted: the store failed`, if no word of it has a capital
  a link           [text](docs/relay.svg), with the heading that it leads to
  a list of crates a row or a tree that says which crates a crate uses: crates.txt decides
  a heading        that a script looks for to read a table of a page, as "## HTTP"

A span of several words is searched for what can only be a name: with `::`, an underscore, a second
capital, or a path. A block of commands is searched for paths, subcommands and `make`. Everything
else (HTTP, JSON, formulas, the toolchain's commands, placeholders in capitals) is passed over.

It also looks in every other text file, and in mutants, for subcommands of scripts/ that aren't
there.

Each name counts once a page.
Usage: scripts/docs names [PAGE..]
"""
import os
import pathlib
import re
import sys

from lib.command import PAGES, ROOT, TOOLS, read_crates, subcommands_of

SKIPPED = {".git", "out", "target", "__pycache__", "must-fail", "wrong", "wrong-by-tests"}
PLACES = {"src", "specs", "proofs", "must-fail", "wrong", "wrong-by-tests", "out", "data"}
SOURCES = {"rt", "antt", "md", "svg", "py", "c", "yaml", "conf", "service", "script", "replies", "edit"}
# A path may begin at each of these.
BASES = ["", "crates/", "docs/", "packaging/", "scripts/", "scripts/lib/", "scripts/lib/*/", "crates/*/", "crates/*/src/", "crates/*/specs/", "crates/*/proofs/"]
# A tool of scripts/ with its subcommand, or another path of scripts/.
CALL = rf"(?<![\w/.$-])scripts/(?:(?:{'|'.join(TOOLS)})\b(?!/)(?: [a-z][a-z-]*)?|[\w./*-]*[\w*])"
# What is looked up in a block of commands: the paths of the repository, and what is made.
TOPS = "crates|docs|vectors|packaging|misuse"
IN_COMMANDS = rf"{CALL}|(?<![\w/.$-])(?:{TOPS})/[\w./*{{}},-]*[\w*}}/]|\bmake [a-z]+\b(?=\s*(?:#|$|&|;))"
WORD = r"[A-Za-z_][A-Za-z0-9_]*"
# Names with hyphens that are of other programs: units of systemd, a header.
OF_OTHERS = {"systemd-time-wait-sync", "chrony-wait", "content-encoding"}


def files_of_tree():
    for folder, folders, names in os.walk(ROOT):
        folders[:] = [it for it in folders if it not in SKIPPED]
        for name in names:
            path = pathlib.Path(folder) / name
            if path not in PAGES:
                yield path


def uncommented(path, text):
    """The text without the comments of Rattle code."""
    mark = {".rt": "//", ".antt": "--"}.get(path.suffix)
    return re.sub(rf"(?m)(^|\s){mark}.*$", r"\1", text) if mark else text


def members_in(text):
    """For each type of a source file, the functions, constants and variants in its `impl`, `trait` or `enum`."""
    for begun in re.finditer(r"(?m)^([ ]*)(?:pub(?:\([a-z]+\))? )?(?:unsafe )?(impl|trait|enum|struct)\b([^{;]*)\{(.*)$", text):
        indent, kind, head, rest = begun.groups()
        ended = None if "}" in rest else re.compile(rf"(?m)^{indent}\}}").search(text, begun.end())
        block = text[begun.start(4) : ended.start() if ended else begun.end()]
        found = re.findall(WORD, block) if kind in ("enum", "struct") else re.findall(rf"\b(?:fn|const|type) ({WORD})", block)
        for name in re.findall(WORD, head):
            yield name, found


class Tree:
    """What the tree has: the words of each file, the members of each type, the names of files and folders."""

    def __init__(self):
        self.crates = read_crates()
        self.subcommands = {it: {*subcommands_of(it)} for it in TOOLS}
        # What files name of scripts/, each with the file.
        self.calls = set()
        self.words, self.members, self.names, self.texts = set(), {}, set(), []
        self.of_crate = {it: set() for it in self.crates}
        for path in files_of_tree():
            try:
                whole = path.read_text()
            except UnicodeDecodeError:
                continue
            text, parts = uncommented(path, whole), path.relative_to(ROOT).parts
            self.names |= {*parts, path.stem}
            if path.samefile(__file__):
                continue
            self.calls |= {("/".join(parts), it) for it in re.findall(CALL, whole)}
            words = {*re.findall(WORD, text)}
            self.words |= words
            self.texts.append((words, text))
            if parts[0] == "crates" and parts[1] in self.of_crate:
                self.of_crate[parts[1]] |= words
            if path.suffix == ".rt":
                for name, found in members_in(text):
                    self.members.setdefault(name, set()).update(found)
        self.all_text = "\n".join(text for _, text in self.texts)
        self.targets = {*re.findall(r"(?m)^([a-z-]+):", (ROOT / "Makefile").read_text())}

    def has_word(self, word):
        return word in self.words or word in self.names

    def has_member(self, path):
        """Whether `A::b` is there: b in the crate A or among the members of the type A. Of another
        library's type, both have to be in one file."""
        *above, owner, name = path.split("::")
        if owner in self.of_crate:
            return name in self.of_crate[owner]
        if any(it in self.of_crate and owner not in self.of_crate[it] for it in above):
            return False
        if owner in self.members:
            return name in self.members[owner]
        return any(owner in words and name in words for words, _ in self.texts)

    def has_call(self, call):
        """Whether `scripts/TOOL NAME`, `TOOL NAME` or another path of scripts/ is there."""
        tool, _, name = call.removeprefix("scripts/").partition(" ")
        if tool not in self.subcommands:
            return self.has_path(call)
        return not name or name in self.subcommands[tool]

    def below(self, crate):
        """The crates that a crate uses, and those that they use."""
        found = set()
        for it in self.crates.get(crate, ()):
            found |= {it, *self.below(it)}
        return found

    def has_path(self, path):
        """Whether each path of a pattern leads to something, from the top, from the crates, or from one crate."""
        return all(self.leads_somewhere(it) for it in expanded(path))

    def leads_somewhere(self, path):
        parts = [re.sub(r"^[A-Z]{4,}$", "*", it) for it in path.rstrip("/").split("/")]
        if "out" in parts:
            parts = parts[: parts.index("out")] or ["crates"]
        return any(next(ROOT.glob(it + "/".join(parts)), None) for it in BASES)


def expanded(path):
    """The paths of a pattern with `{a,b}`."""
    found = re.search(r"\{([^{}]*)\}", path)
    if not found:
        return [path]
    return [it for choice in found[1].split(",") for it in expanded(path[: found.start()] + choice.strip() + path[found.end() :])]


def is_path(tree, word):
    """Whether a word can only be a path of the tree."""
    if not re.fullmatch(r"[A-Za-z0-9_.*{},-]+(/[A-Za-z0-9_.*{},-]+)*/?", word) or re.search(r"/\d+$", word):
        return False
    first, ending = word.split("/")[0], word.rpartition(".")[2]
    if "/" not in word:
        return ending in SOURCES and "." in word.lstrip(".") and not word.startswith(".")
    tops = {it.name for it in ROOT.iterdir()} | {*tree.crates} | PLACES
    return first in tops or ending in SOURCES


def is_strong(word):
    """Whether a word among others can only be an identifier: with an underscore inside or two capitals."""
    return bool(re.fullmatch(WORD, word)) and bool(re.search(r"[A-Za-z0-9]_[A-Za-z0-9]|[a-z0-9][A-Z]", word))


def has(tree, word, is_alone, is_of_code):
    """Whether the tree has what a word of a span names; None if it names nothing that is looked up."""
    word = word.rstrip(",.;") if not is_alone else word
    word = re.sub(r":\d+$", "", word)
    if re.fullmatch(rf"{WORD}(::{WORD})+", word):
        return tree.has_member(word)
    if is_alone and "<" in word:
        return all(tree.has_word(it) for it in re.findall(WORD, word) if is_strong(it))
    if is_path(tree, word):
        return tree.has_path(word)
    if is_strong(word) or (is_alone and is_of_code and re.fullmatch(r"[A-Z]?[a-z][a-z0-9]+", word)):
        return tree.has_word(word)
    if is_alone and re.fullmatch(r"--[a-z][a-z-]+", word):
        return word in tree.all_text or f'"{word[2:]}"' in tree.all_text
    if re.fullmatch(r"[a-z]+(-[a-z]+)+", word) and word not in OF_OTHERS:
        return word in tree.names or word in tree.all_text
    return None


def speaks_of_code(tree, text):
    """Whether a paragraph names a crate, a source file, a member or an identifier of several words."""
    spans = re.findall(r"`([^`\s]+)`", text)
    return any(it in tree.crates or "::" in it or is_strong(it) or it.endswith((".rt", ".antt")) for it in spans)


def named_in(tree, span, is_of_code=False):
    """What a span names, each with whether the tree has it."""
    listed = re.fullmatch(rf"((?:scripts/)?(?:{'|'.join(TOOLS)})) \{{([^{{}}]*)\}}", span)
    if listed:
        yield from ((it, tree.has_call(it)) for it in (f"{listed[1]} {name.strip()}" for name in listed[2].split(",")))
        return
    several = re.fullmatch(rf"({WORD}(?:::{WORD})*)::\{{([^{{}}]*)\}}", span)
    if several:
        for it in several[2].split(","):
            yield f"{several[1]}::{it.strip()}", tree.has_member(f"{several[1]}::{it.strip()}")
        return
    said = re.fullmatch(r"[a-z]+: ([^A-Z]* [^A-Z]*)", span)
    if said:
        yield span, said[1] in tree.all_text
        return
    call = re.fullmatch(rf"({WORD}(?:::{WORD})*)\(.*\)", span)
    words = [call[1]] if call else span.split()
    if not words or words[0] == "rt":
        return
    if words[0] == "make" and len(words) > 1 and "=" not in words[1]:
        yield " ".join(words[:2]), words[1] in tree.targets
        return
    if words[0].removeprefix("scripts/") in TOOLS and len(words) > 1 and re.fullmatch(r"[a-z][a-z-]*", words[1]):
        # (`bench` is also a program, with commands of its own)
        yield " ".join(words[:2]), tree.has_call(" ".join(words[:2])) or words[0] == "bench" and words[1] in tree.of_crate["bench"]
    if words[0] == "relayd" and len(words) > 1 and re.fullmatch(r"-*[a-z][a-z-]+", words[1]):
        yield " ".join(words[:2]), f'"{words[1].lstrip("-")}"' in tree.all_text
    for place, word in enumerate(words):
        found = has(tree, word, len(words) == 1, is_of_code)
        if found is not None and (place == 0 or "-" not in word or "/" in word):
            yield word, found


def begins_part(line):
    """Whether a line of prose begins a row, an item or a heading."""
    return re.match(r"\||#|\s*([-*]|\d+\.)\s", line)


def paragraphs_of(text):
    """The paragraphs, rows, items and blocks of code of a page: the number of the first line, the
    lines, and whether it is code."""
    part, first, fenced, was_blank = [], 1, False, True
    for number, line in enumerate([*text.split("\n"), ""], 1):
        is_fence = line.lstrip().startswith("```")
        is_code = fenced or is_fence or (line.startswith("    ") and (was_blank or bool(part) and part[0][1]))
        ends = line.strip() == "" and not fenced or part and (part[0][1] != is_code or not is_code and begins_part(line))
        if ends and part:
            yield first, [it for it, _ in part], part[0][1]
            part = []
        if line.strip() or fenced:
            first = first if part else number
            part.append((line, is_code))
        was_blank = line.strip() == ""
        fenced = fenced != is_fence


def anchors_of(page):
    """The headings of a page as GitHub makes them anchors."""
    heads = re.findall(r"(?m)^#+ +(.*)$", page.read_text())
    return {re.sub(r"[^\w\- ]", "", it.lower()).replace(" ", "-") for it in heads}


def links_in(page, text):
    for target in re.findall(r"\]\(([^)\s]+)\)", text):
        if re.match(r"[a-z]+:", target):
            continue
        path, _, anchor = target.partition("#")
        to = (page.parent / path).resolve() if path else page
        yield target, to.exists() and (not anchor or to.suffix != ".md" or anchor in anchors_of(to))


def names_in(tree, page):
    """What a page names: the line, the name, and whether the tree has it."""
    for first, lines, is_code in paragraphs_of(page.read_text()):
        text = "\n".join(lines)
        if is_code:
            for found in re.finditer(IN_COMMANDS, text, re.M):
                line = first + text.count("\n", 0, found.start())
                for name, is_there in named_in(tree, found[0]):
                    yield line, name, is_there
            continue
        of_code = speaks_of_code(tree, text)
        for found in re.finditer(r"(?<!`)`([^`]+)`(?!`)", text):
            line = first + text.count("\n", 0, found.start())
            for name, is_there in named_in(tree, found[1], of_code):
                yield line, name, is_there
        for target, is_there in links_in(page, text):
            yield first, target, is_there


def crates_of_cell(cell):
    """The names of a cell that is a list of names in back-ticks and nothing else."""
    names = re.findall(r"`([a-z_0-9]+)`", cell)
    return names if not re.sub(r"`[a-z_0-9]+`|[\s,]|\band\b", "", cell) else None


def tables_of(page):
    """The tables of a page: of each its rows, which are a line and its cells. The first is the head."""
    rows = []
    for number, line in enumerate([*page.read_text().split("\n"), ""], 1):
        if line.startswith("|"):
            rows.append((number, [it.strip() for it in line.strip("|").split("|")]))
        elif rows:
            yield rows
            rows = []


def nearest(tree, crates):
    """Those of the crates that are below no other one of them."""
    return {it for it in crates if not any(it in tree.below(other) for other in crates)}


def lists_in(tree, rows):
    """The rows of a table that have a crate and a list of crates: the line, the crate and the list."""
    for number, cells in rows:
        owners = crates_of_cell(cells[0]) or []
        listed = crates_of_cell(cells[1]) if len(cells) > 1 else None
        if len(owners) == 1 and owners[0] in tree.crates and listed is not None:
            yield number, owners[0], {*listed}


def rows_in(tree, page):
    """The lists of crates in a page's tables. Under a head that speaks of tests they are some of those
    below the crate of the row. Else they are all of crates.txt, without relay_types and libraries of
    others, or in a table where no list has a crate below another one, the nearest of these. A table
    that has a row for most crates has one for each."""
    for rows in tables_of(page):
        lists, of_tests = [*lists_in(tree, rows)], re.search("test", " ".join(rows[0][1][1:2]), re.I)
        has_all = any(nearest(tree, listed) != listed for _, _, listed in lists)
        for number, own, listed in lists:
            used = {it for it in tree.crates[own] if it in tree.crates and it != "relay_types"}
            wanted = set() if of_tests else used if has_all else nearest(tree, used)
            allowed = tree.below(own) if of_tests else wanted | {*tree.crates[own]} - used
            lacking = [f"`{own}` uses {it}, too" for it in sorted(wanted - listed)]
            extra = [f"`{own}` doesn't use {it}, or by another one" for it in sorted(listed - allowed)]
            yield from ((number, it, False) for it in lacking + extra)
            if not lacking + extra:
                yield number, f"the crates of {own}", True
        yield from whole(tree, rows[0][0], {it for _, cells in rows for it in crates_of_cell(cells[0]) or []}, "table")


def whole(tree, line, names, kind):
    """What a table or a tree lacks that names most crates."""
    crates = {*tree.crates}
    if 2 * len(crates & names) > len(crates):
        yield from ((line, f"the {kind} of crates lacks {it}", False) for it in sorted(crates - names))


def trees_in(tree, page):
    """The trees of crates of a page: each crate stands below one that uses it; one that names most crates names all."""
    for first, lines, is_code in paragraphs_of(page.read_text()):
        if not is_code or not any(re.search("[├└]", it) for it in lines):
            continue
        above, seen = [], set()
        for number, line in enumerate(lines, first):
            head = re.match(r"[\s│├└─]*", line)[0]
            seen |= {it for it in re.findall(WORD, line) if "_" in it and it in tree.crates}
            begun = re.match(r"[a-z_0-9]+(, [a-z_0-9]+)*", line[len(head) :])
            names = [it for it in begun[0].split(", ") if it in tree.crates] if begun else []
            if not names:
                continue
            seen |= {*names}
            above = [it for it in above if it[0] < len(head)]
            for name in names:
                is_below = not above or "├" not in head and "└" not in head or name in tree.below(above[-1][1])
                yield number, name if is_below else f"`{above[-1][1]}` doesn't use {name}", is_below
            above.append((len(head), names[0]))
        yield from whole(tree, first, seen, "tree")


def headings_sought():
    """The headings that programs look for, each with whether a page has it."""
    texts = [it.read_text() for it in PAGES]
    for path in files_of_tree():
        parts = path.relative_to(ROOT).parts
        if parts[0] in ("scripts", "packaging") and not path.samefile(__file__):
            for heading in {*re.findall(r'"(?:\\n)?(##+ \w[^"\\]*)(?:\\n)?"', path.read_text())}:
                yield "/".join(parts), f"the heading {heading}", any(re.search(rf"(?m)^{re.escape(heading)}$", it) for it in texts)


def calls_in(tree):
    """What files other than pages name of scripts/, and what mutants have to be refused by, each with whether it is there."""
    for file, call in sorted(tree.calls):
        yield file, call, tree.has_call(call)
    for path in sorted(ROOT.glob("crates/*/wrong-by-tests/*.edit")):
        for call in re.findall(r"(?m)^script: (\S+ \S+)", path.read_text()):
            yield str(path.relative_to(ROOT)), call, tree.has_call(call)


def main():
    pages = [pathlib.Path(it).resolve() for it in sys.argv[1:]]
    tree, passed, failed = Tree(), 0, 0
    for file, name, is_there in (*headings_sought(), *calls_in(tree)):
        passed, failed = passed + is_there, failed + (not is_there)
        if not is_there:
            print(f"FAILED {file}: {name}")
    pages = pages or PAGES
    for page in pages:
        ends = {}
        for look in (names_in, rows_in, trees_in):
            for line, name, is_there in look(tree, page):
                if name not in ends:
                    ends[name] = is_there
                    if not is_there:
                        print(f"FAILED {page.name}:{line}: {name}")
        passed += sum(ends.values())
        failed += len(ends) - sum(ends.values())
    print(f"{passed} passed, {failed} failed")
    return 1 if failed else 0
