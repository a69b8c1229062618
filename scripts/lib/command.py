"""What all subcommands share: how they are called, what they need of the machine, how they count. `scripts/TOOL NAME` runs lib/TOOL/NAME.py or NAME.sh."""
import ast
import importlib
import itertools
import os
import pathlib
import shutil
import subprocess
import sys

SCRIPTS = pathlib.Path(__file__).resolve().parent.parent
ROOT = SCRIPTS.parent
PAGES = [ROOT / "README.md", ROOT / "CHANGELOG.md", *sorted((ROOT / "docs").glob("*.md"))]
TOOLS = ("bench", "docs", "gate", "memory", "script", "serve", "store")


def read_crates():
    """For each crate of crates.txt, the crates and libraries that it uses."""
    lines = [it.split("#")[0] for it in (ROOT / "crates.txt").read_text().split("\n")]
    return {head.split()[0]: used.split() for head, _, used in (it.partition(":") for it in lines) if head.strip()}


def subcommands_of(tool):
    """The file of each subcommand of a tool, by its name."""
    files = sorted((SCRIPTS / "lib" / tool).iterdir())
    return {it.stem.replace("_", "-"): it for it in files if it.suffix in (".py", ".sh")}


def about(file):
    """What a subcommand says of itself: its docstring, or the comment that a shell script begins with. The first line is a summary."""
    if file.suffix == ".py":
        return ast.get_docstring(ast.parse(file.read_text()))
    lines = file.read_text().split("\n")[1:]
    end = next(place for place, line in enumerate(lines) if not line.startswith("#"))
    return "\n".join(line.removeprefix("#").removeprefix(" ") for line in lines[:end])


def run_tool(tool, summary):
    """Runs the subcommand that the first word names, with the words after it."""
    name, *words = sys.argv[1:] or [""]
    subcommands = subcommands_of(tool)
    if name not in subcommands:
        is_asked = name in ("-h", "--help")
        lines = [summary, f"Usage: scripts/{tool} SUBCOMMAND [WORD..]; after a subcommand --help says more of it.", ""]
        lines += [f"  {it:<{max(map(len, subcommands))}}  {about(file).splitlines()[0]}" for it, file in subcommands.items()]
        print("\n".join(lines), file=sys.stdout if is_asked else sys.stderr)
        sys.exit(0 if is_asked else 2)
    file = subcommands[name]
    if words[:1] in (["-h"], ["--help"]):
        print(about(file))
        sys.exit(0)
    if file.suffix == ".sh":
        os.execv(file, [file, *words])
    sys.argv = [f"{tool} {name}", *words]
    sys.exit(importlib.import_module(f"lib.{tool}.{file.stem}").main())


def end_with_usage(doc):
    """Ends a subcommand that was called with the wrong words."""
    print(f"Usage: {' '.join(doc.rpartition('Usage: ')[2].split())}", file=sys.stderr)
    sys.exit(2)


def programs_of(doc, count):
    """The programs that the first words name, so many. If one isn't there, the subcommand ends with its usage."""
    words = sys.argv[1 : 1 + count]
    if len(words) < count or not all(os.access(it, os.X_OK) and not os.path.isdir(it) for it in words):
        end_with_usage(doc)
    return list(map(os.path.abspath, words))


def program_of(doc):
    """The one program that is named."""
    return programs_of(doc, 1)[0]


def needs(program, package):
    """Ends the subcommand if this machine lacks a program, and names Debian's package of it."""
    if not shutil.which(program):
        sys.exit(f"{sys.argv[0]}: there is no {program} (apt-get install {package})")


def has(*programs):
    """Whether this machine has these programs; what it lacks is printed."""
    missing = [it for it in programs if not shutil.which(it)]
    if missing:
        print(f"not on this machine, so not tried: {', '.join(missing)}")
    return not missing


def ran(*words, **options):
    """How a program ended: its status and what it printed on both streams."""
    done = subprocess.run(list(map(str, words)), capture_output=True, text=True, timeout=120, **options)
    return done.returncode, done.stdout, done.stderr


def first_difference(found, wanted):
    """The first place, from 1, at which two lists differ, with what each has there; None if they are equal."""
    for place, pair in enumerate(itertools.zip_longest(found, wanted), 1):
        if pair[0] != pair[1]:
            return place, *pair
    return None


class Counts:
    """Checks that passed and failed; each that fails is printed."""

    def __init__(self):
        self.passed = self.failed = 0

    def check(self, name, found, wanted=True):
        if found == wanted:
            self.passed += 1
            return
        self.failed += 1
        print(f"FAILED {name}: {found!r}, not {wanted!r}")

    def end(self):
        print(f"{self.passed} passed, {self.failed} failed")
        return 1 if self.failed else 0
