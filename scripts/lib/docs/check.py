"""Every example of the pages prints what they say; then `names`, `words` and `crates`.

The pages are README.md, CHANGELOG.md and docs/*.md. An example is a block of a page, indented by four spaces or
between fences, with a line that begins with `$ `. Such a line is a command. A line that ends in
`|`, `\\` or `&&` goes on in the next one. The lines after it, up to the next command, are what it
prints. A line `...` stands for any lines, and a number of ten digits for any other, since it is a
moment.

The commands of a block run one after another in one shell, in a folder of their own. It has links
to what the repository has at its top, so that an example can also count crates or mutants, and in
crates/relayd/out the program alone. What a block starts in the background ends with it. If
something listens already at a port of 127.0.0.1 that a block names, another port takes its place.
They need curl.

Each command, each name and each bound counts.
Usage: scripts/docs check RELAYD [PAGE..]
"""
import os
import pathlib
import re
import signal
import socket
import subprocess
import sys
import tempfile

from lib.command import PAGES, ROOT, needs, program_of
from lib.serving import free_port

SECONDS = 60
MARK = "== example "
TOPS = ["Makefile", "crates.txt", "docs", "misuse", "packaging", "scripts", "vectors"]
CHECKS = ["names", "words", "crates"]


def blocks_of(text):
    """The blocks of a page: the number of the first line, and the lines."""
    block, first, is_fenced = [], 0, False
    for number, line in enumerate([*text.split("\n"), ""], 1):
        if line.startswith("```"):
            is_fenced = not is_fenced
            line = ""
        inside = is_fenced and line != "" or line.startswith("    ")
        if inside:
            first = first if block else number
            block.append(line if is_fenced else line[4:])
        elif block and not (is_fenced and line == ""):
            yield first, block
            block = []
    if block:
        yield first, block


def is_taken(port):
    try:
        socket.create_server(("127.0.0.1", port)).close()
    except OSError:
        return True
    return False


def at_free_ports(block):
    """The block, with another port for each at which something listens already."""
    text = "\n".join(block)
    for port in {*re.findall(r"127\.0\.0\.1:(\d+)", text)}:
        if is_taken(int(port)):
            text = re.sub(rf"\b{port}\b", str(free_port()), text)
    return text.split("\n")


def commands_of(block):
    """The commands of a block, each with the lines that it prints."""
    commands = []
    for line in block:
        if line.startswith("$ "):
            commands.append(([line[2:]], []))
        elif commands and not commands[-1][1] and commands[-1][0][-1].rstrip().endswith(("|", "\\", "&&")):
            commands[-1][0].append(line)
        elif commands:
            commands[-1][1].append(line)
    return [("\n".join(command), printed) for command, printed in commands]


def told_within(words, folder):
    """What a shell prints, which is ended with all that it started where that takes too long."""
    shell = subprocess.Popen(words, cwd=folder, stdin=subprocess.DEVNULL, stdout=subprocess.PIPE, text=True, start_new_session=True)
    try:
        return shell.communicate(timeout=SECONDS)[0]
    except subprocess.TimeoutExpired:
        os.killpg(shell.pid, signal.SIGKILL)
        return shell.communicate()[0]


def lead_to(paths, folder):
    """Makes a link in the folder to each path whose name it hasn't yet."""
    for path in paths:
        if not (folder / path.name).exists():
            (folder / path.name).symlink_to(path)


def run(commands, program):
    """What each command of a block prints, on both streams."""
    words = [f"echo '{MARK}{place}'\n{command}\n" for place, (command, _) in enumerate(commands)]
    with tempfile.TemporaryDirectory() as folder:
        out = pathlib.Path(folder) / "crates" / "relayd" / "out"
        out.mkdir(parents=True)
        (out / "relayd").symlink_to(program)
        lead_to((ROOT / "crates" / "relayd").iterdir(), out.parent)
        lead_to((ROOT / "crates").iterdir(), out.parent.parent)
        lead_to((ROOT / it for it in TOPS), pathlib.Path(folder))
        shell = f"trap 'exec 2> /dev/null; kill -9 $(jobs -p); wait' EXIT\nexec 2>&1\nPATH={out}:$PATH\n" + "".join(words)
        told = told_within(["bash", "-c", shell], folder)
    parts = told.split(MARK)[1:]
    return [part.split("\n", 1)[1].rstrip("\n").split("\n") for part in parts]


def timeless(lines):
    return [re.sub(r"\b\d{10}\b", "MOMENT", line) for line in lines]


def fits(found, wanted):
    """Whether the lines are those that are wanted, of which `...` stands for any."""
    if not wanted:
        return found in ([], [""])
    if wanted[0] == "...":
        return any(fits(found[skipped:], wanted[1:]) for skipped in range(len(found) + 1))
    return bool(found) and found[0] == wanted[0] and fits(found[1:], wanted[1:])


def counts_of(check, pages):
    """Prints what another subcommand finds on the pages, and returns how much passed and how much failed."""
    told = subprocess.run([ROOT / "scripts" / "docs", check, *pages], stdout=subprocess.PIPE, text=True).stdout
    counts = re.search(r"^(\d+) passed, (\d+) failed\n\Z", told, re.M)
    print(f"{told[: counts.start()] if counts else told + f'FAILED {check}'}", end="" if counts else "\n")
    return (int(counts[1]), int(counts[2])) if counts else (0, 1)


def main():
    program = program_of(__doc__)
    needs("curl", "curl")
    pages = [pathlib.Path(it) for it in sys.argv[2:]] or PAGES
    passed = failed = 0
    for page in pages:
        for first, block in blocks_of(page.read_text()):
            commands = commands_of(at_free_ports(block))
            found = run(commands, program) if commands else []
            for place, (command, printed) in enumerate(commands):
                told = found[place] if place < len(found) else ["(it didn't come so far)"]
                if fits(timeless(told), timeless(printed if any(printed) else [])):
                    passed += 1
                else:
                    failed += 1
                    print(f"FAILED {page.name}:{first}: {command}\n  wanted: {printed}\n  found:  {told}")
    for check in CHECKS:
        well, badly = counts_of(check, sys.argv[2:])
        passed, failed = passed + well, failed + badly
    print(f"{passed} passed, {failed} failed")
    return 1 if failed else 0
