"""Tries a crate's mutants, those in different functions at once (`make attack`).

They are crates/NAME/wrong/*.edit and crates/NAME/must-fail/*.edit, of which the gate tries the
latter alone, one by one. Each has to be refused by the prover at a goal of the function that it
changes.

A crate is proved where it stands, if it changed. Then a copy of it in a temporary folder is checked
with the mutants, over what is kept in out/: one check tries all that change different functions. A
function is judged by its own goals, since only contracts stand between functions. Another round
takes those that share a function with one of this round, and those whose function calls one that
was refused, which hides its own goals. A change of a constant counts as one of the functions that
name it. A mutant that is let through fails by its name, and so does a bad edit: its old text isn't
there exactly once, it doesn't compile, or it is refused with no goal.

For each mutant it prints the function and its goals that weren't proved, and says where a mutant is
refused only because a proof file names what the edit took away; then for each crate its rounds and
its processor time, and last 'N passed, M failed'.
Usage: scripts/gate mutants [--seconds N] [--at-once N] [--jobs N] [NAME..]: all crates with mutants
if none is named; N seconds at most for a crate, 3600 if left out; so many crates at once, each by
one job, else as many as there are processors and 5 GB of memory (`make attack CRATE=NAME` calls
it). One crate alone has so many jobs, or as many as rt chooses. Of several, what one prints comes
when it has ended.
"""
import concurrent.futures
import os
import pathlib
import re
import resource
import shutil
import signal
import subprocess
import sys
import tempfile
import time

from lib.command import ROOT, read_crates
from lib.gate.jobs import crates_at_once

PARTS = ("src", "specs", "proofs")
FOLDERS = ("must-fail", "wrong")
OPTIONS = ("--seconds", "--at-once", "--jobs")
SECONDS = 3600
COUNTS = re.compile(r"(\d+) passed, (\d+) failed")
FUNCTION = re.compile(r"( *)(?:pub(?:\([^)]*\))? )?(?:const )?(?:unsafe )?fn (\w+)")
IMPL = re.compile(r"impl(?:<.*?>)? (?:(?P<trait>[\w:]+)(?:<.*?>)? for )?(?P<type>\w+)")
VERDICT = re.compile(r"fn (\S+): (proved|not proved|no proof|could not tell)(.*)")
ERROR = re.compile(r"(?:note: )?(?:\./)?((?:src|specs|proofs)/\S+?):(\d+):\d+: error(?:\[[\w-]+\])?: (.*)")
SEARCHED = re.compile(r"`search` did not prove (`[^`]*`(?:, `[^`]*`)*)")
# What is said of a proof file that names something which an edit took away, as `rt must-fail` knows it.
NAMES = re.compile(r"has no field|is not in scope|has no `|was not admitted")
OPEN = re.compile(r"note: (?:\./)?(src/\S+?):(\d+):\d+: .* \(`(\S+)`\)")
HIDES = re.compile(r"it calls|it passes|a call of")


class Stopped(Exception):
    """A crate that can't be tried, or for which no time is left."""


def items_of(text):
    """The functions of a file in the layout of `rt fmt`: first and last line, name, and the type and the trait of the impl."""
    lines, found, head = text.split("\n"), [], None
    for number, line in enumerate(lines):
        if line.startswith("impl"):
            head = IMPL.match(line)
        elif line.startswith("}"):
            head = None
        at = FUNCTION.match(line)
        if at:
            rest = range(number, len(lines))
            last = next((it for it in rest if lines[it] == f"{at[1]}}}" or it == number and line.endswith("}")), number)
            owner = (head["type"], (head["trait"] or "").rpartition(":")[2]) if head and at[1] else None
            found.append((number, last, at[2], owner))
    return found


def module_of(file):
    return "::".join(it for it in pathlib.Path(file).with_suffix("").parts[1:] if it not in ("lib", "main", "mod"))


def naming(word, crate):
    """The functions of a crate that name a word, each with its file."""
    for file, text in crate.texts.items():
        lines = text.split("\n")
        for item in items_of(text) if file.endswith(".rt") else []:
            if re.search(rf"\b{word}\b", "\n".join(lines[item[0] : item[1] + 1])):
                yield file, item


class Edit:
    """A mutant: its pairs of texts by file, and the functions that it changes, as (module, owner, name)."""

    def __init__(self, path, crate):
        self.path, self.name = path, f"{crate.name}/{path.stem}"
        self.pairs, self.lines = [], set()
        self.functions, self.spans = set(), set()
        file, old = "", None
        for line in path.read_text(errors="replace").split("\n"):
            if line.startswith("file: "):
                file = line[6:].strip()
            elif line.startswith("old: "):
                old = line[5:]
            elif line.startswith("new:") and file and old:
                self.pairs.append((file, old, re.sub(r"\A ", "", line[4:])))
                old = None
        self.fault = self.applied({}, crate)[1] if self.pairs else "it has no 'file:', 'old:' and 'new:' lines"
        for file, old, _ in self.pairs:
            self.find(file, old, crate)

    def find(self, file, old, crate):
        """Takes in the function around a text; around one in a constant there is none, so the functions that name the constant."""
        text = crate.texts.get(file, "")
        first = text[: text.find(old)].count("\n")
        self.lines.add((file, first + 1))
        if old not in text:
            return
        inside = [it for it in items_of(text) if it[0] <= first <= it[1]]
        if inside:
            self.take(file, inside[-1], crate)
            return
        above = re.findall(r"(?m)^(?:pub(?:\([^)]*\))? )?(\w+) (\w+)", "\n".join(text.split("\n")[: first + 1]))
        if above and above[-1][0] in ("const", "static"):
            for file, item in naming(above[-1][1], crate):
                self.take(file, item, crate)

    def take(self, file, item, crate):
        """A method of an `impl` in another file than its type is named by the type's."""
        first, last, name, owner = item
        self.functions.add((crate.module_of_type(owner[0], file) if owner and not owner[1] else module_of(file), owner, name))
        self.spans.add((file, first + 1, last + 1))

    def applied(self, texts, crate):
        """The texts with this edit, or why it can't be applied to them."""
        texts = dict(texts)
        for file, old, new in self.pairs:
            text = texts.get(file, crate.texts.get(file))
            if text is None:
                return None, f"there is no file {file}"
            if text.count(old) != 1:
                return None, f"an 'old:' text is in {file} {text.count(old)} times, and not once"
            texts[file] = text.replace(old, new)
        return texts, None

    def is_of(self, crate, function):
        """Whether a function that the check names, or a closure in it, is one that the edit changes."""
        for module, owner, name in self.functions:
            start = "::".join(it for it in (crate, module) if it)
            if not function.startswith(f"{start}::"):
                continue
            rest = function[len(start) + 2 :].split("::")
            above, last = rest[:-1], rest[-1]
            is_own = above == [owner[0]] or owner[1] and above and above[-1].startswith("".join(owner)) if owner else not above
            if name == last and is_own or "fn" in above and name in above:
                return True
        return False


class Crate:
    """A crate with mutants, and the libraries of the repository below it."""

    def __init__(self, name, listed, flags):
        self.name, self.folder, self.flags = name, ROOT / "crates" / name, flags
        self.below, waiting = [], [name]
        for it in waiting:
            waiting += [low for low in listed[it] if low in listed and low not in waiting]
        self.below = waiting[1:]
        lines = (ROOT / "crates.txt").read_text().splitlines()
        self.lines = [line for line in lines if line.split(":")[0].split()[:1] in [[it] for it in waiting]]
        files = [it for part in PARTS for it in self.folder.glob(f"{part}/**/*.*")]
        self.texts = {str(it.relative_to(self.folder)): it.read_text() for it in files}

    def module_of_type(self, name, file):
        """The module that declares a type, or that of the file where none does."""
        for other, text in self.texts.items():
            if other.endswith(".rt") and re.search(rf"(?m)^(?:pub(?:\([^)]*\))? )?(?:struct|enum) {name}\b", text):
                return module_of(other)
        return module_of(file)

    def copied(self, room):
        """Copies the crate with what its check kept, and links to what stands of the libraries below."""
        (room / "crates.txt").write_text("".join(f"{line}\n" for line in self.lines))
        for name in (self.name, *self.below):
            for part in (*PARTS, "out/incremental" if name == self.name else "out/rlib"):
                start, end = ROOT / "crates" / name / part, room / "crates" / name / part
                if start.is_dir():
                    shutil.copytree(start, end, copy_function=shutil.copy2 if name == self.name else linked)
        return room / "crates" / self.name


def linked(start, end):
    try:
        os.link(start, end)
    except OSError:
        shutil.copy2(start, end)


def ran(command, folder, until):
    """What a command of rt prints in a folder, and how it ended."""
    how = {"stdin": subprocess.DEVNULL, "stdout": subprocess.PIPE, "stderr": subprocess.STDOUT, "errors": "replace"}
    run = subprocess.Popen(["rt", *command], cwd=folder, start_new_session=True, **how)
    try:
        return run.communicate(timeout=max(until - time.monotonic(), 1))[0], run.returncode
    except subprocess.TimeoutExpired:
        raise Stopped("no time was left") from None
    finally:
        if run.poll() is None:
            os.killpg(run.pid, signal.SIGKILL)
            run.wait()


def goals_of(function, said, errors):
    """The goals of a function that weren't proved, and what is said of its proof files beside goals."""
    goals = [it for all in SEARCHED.findall(said) for it in re.findall(r"`([^`]*)`", all)]
    folder, told = f"proofs/{'/'.join(function.split('::')[1:])}/", []
    for file, _, why in errors:
        if file.startswith(folder) and "/" not in file[len(folder) :]:
            if NAMES.search(why):
                told.append(why)
            elif "which was rejected" not in why:
                goal = re.match(r"`([^`]*)`", why)
                goals.append(goal[1] if goal else why[:80])
    return list(dict.fromkeys(goals)), told


def judge(edit, crate, log, is_alone):
    """Whether an edit was refused and what to say of it, or None where another refusal of the round may hide its own."""
    verdicts = [it.groups() for it in map(VERDICT.match, log) if it]
    opened = [it.groups() for it in map(OPEN.match, log) if it]
    errors = [it.groups() for it in map(ERROR.match, log) if it]
    if edit.functions:
        own = [it for it in verdicts if edit.is_of(crate.name, it[0])]
    else:
        own = [it for it in verdicts if it[1] != "proved"]
    noted = {goal for file, line, goal in opened for at in edit.spans if at[0] == file and at[1] <= int(line) <= at[2]}
    if not own and edit.functions:
        return False, "BAD EDIT: the check names no function that it changes"
    if not own:
        return False, "NOT REFUSED: each function is still proved"
    hidden, weak, unclear = False, [], []
    for function, verdict, said in own:
        goals, told = goals_of(function, said, errors)
        goals += sorted(noted - {*goals}) if verdict != "proved" else []
        if goals:
            return True, f"refused: {function}: {', '.join(goals)}"
        hidden |= bool(HIDES.search(said)) or any("was not admitted" in it for it in told)
        weak += [f"{function}: {it[:120]}" for it in told]
        unclear += [f"{function}: {verdict}{said[:160]}"] if verdict != "proved" else []
    if hidden and not is_alone:
        return None
    if weak:
        return True, f"refused only because a proof file names what the edit took away: {weak[0]}"
    if unclear:
        return False, f"BAD EDIT: refused with no goal: {unclear[0]}"
    return False, f"NOT REFUSED: {own[0][0]} is still proved"


def picked(left, crate):
    """The edits of the next round, and the texts with all of them."""
    if not left[0].functions or left[0].is_held:
        return left[:1], left[0].applied({}, crate)[0]
    taken, texts, functions = [], {}, set()
    for edit in left:
        if edit.functions and not edit.is_held and not edit.functions & functions:
            made, _ = edit.applied(texts, crate)
            if made is not None:
                taken, texts, functions = [*taken, edit], made, functions | edit.functions
    return taken, texts


def compile_faults(taken, log):
    """The edits of a round in whose lines the compiler found an error, with that error; none where all reached the prover."""
    if any(line.startswith("logic=") or VERDICT.match(line) for line in log):
        return None
    errors = [(it, line) for line in log for it in [ERROR.match(line)] if it]
    found = {edit: line for edit in reversed(taken) for it, line in reversed(errors) if (it[1], int(it[2])) in edit.lines}
    first = errors[0][1] if errors else next((line for line in reversed(log) if line), "nothing was printed")
    return found or ({taken[0]: first} if len(taken) == 1 else {})


def tried(crate, edits, say, until):
    """Tries the edits round by round, and returns how many rounds that took."""
    with tempfile.TemporaryDirectory(prefix="mutants-") as room:
        folder = crate.copied(pathlib.Path(room))
        left, rounds = list(edits), 0
        while left:
            taken, texts = picked(left, crate)
            for file, text in {**crate.texts, **texts}.items():
                if text != (folder / file).read_text():
                    (folder / file).write_text(text)
            log, rounds = ran(["check", *crate.flags], folder, until)[0].split("\n"), rounds + 1
            faults = compile_faults(taken, log)
            if faults is None:
                answers = {edit: judge(edit, crate, log, len(taken) == 1) for edit in taken}
            else:
                answers = {edit: (False, f"BAD EDIT: it did not reach the prover: {why[:200]}") for edit, why in faults.items()}
            answers = {edit: answer for edit, answer in answers.items() if answer}
            for edit, (is_refused, what) in answers.items():
                left.remove(edit)
                say(edit, is_refused, what)
            if not answers:
                for edit in taken:
                    edit.is_held = True
        return rounds


def attack(crate, until):
    """Tries all mutants of a crate, and returns how many were refused and how many not."""
    began, used = time.monotonic(), resource.getrusage(resource.RUSAGE_CHILDREN)
    edits = [Edit(path, crate) for part in FOLDERS for path in sorted((crate.folder / part).glob("*.edit"))]
    counts, rounds, waiting = [0, 0], 0, {edit.name for edit in edits}

    def say(edit, is_refused, what):
        counts[not is_refused] += 1
        waiting.discard(edit.name)
        print(f"{edit.name}: {what}", flush=True)

    for edit in edits:
        edit.is_held = False
        if edit.fault:
            say(edit, False, f"BAD EDIT: {edit.fault}")
    try:
        # (which ends at once where a library is as it was when it was last proved)
        if ran(["check" if (crate.folder / "src/main.rt").is_file() else "lib", *crate.flags], crate.folder, until)[1]:
            raise Stopped("it is not proved as it stands: see rt check")
        rounds = tried(crate, [it for it in edits if not it.fault], say, until)
    except Stopped as why:
        print(f"{crate.name}: FAILED: {why}; not tried: {', '.join(sorted(waiting))}", flush=True)
        counts[1] += max(len(waiting), 1)
    now = resource.getrusage(resource.RUSAGE_CHILDREN)
    processor = now.ru_utime + now.ru_stime - used.ru_utime - used.ru_stime
    took = f"{time.monotonic() - began:.0f} s, {processor:.0f} s of processor time"
    print(f"{crate.name}: {len(edits)} mutants, {counts[0]} refused, {rounds} rounds, {took}", flush=True)
    return counts


def attack_apart(name, seconds):
    """Tries the mutants of a crate in a process of its own, and returns what it printed and its counts."""
    how = {"stdin": subprocess.DEVNULL, "stdout": subprocess.PIPE, "stderr": subprocess.STDOUT, "errors": "replace"}
    words = [ROOT / "scripts" / "gate", "mutants", "--seconds", str(seconds), "--jobs", "1", name]
    said = subprocess.run(words, check=False, **how).stdout
    *above, last = said.rstrip().split("\n")
    found = COUNTS.fullmatch(last)
    return ("\n".join(above), [int(it) for it in found.groups()]) if found else (f"{said}\n{name}: FAILED: it ended without its counts", [0, 1])


def main():
    words = sys.argv[1:]
    asked = {"--seconds": SECONDS, "--at-once": crates_at_once(), "--jobs": 0}
    while words[:1] and words[0] in OPTIONS and words[1:] and words[1].isdigit():
        asked[words[0]], words = int(words[1]), words[2:]
    seconds, at_once, jobs = asked.values()
    listed = read_crates()
    has_any = [it for it in listed if any(any((ROOT / "crates" / it).glob(f"{part}/*.edit")) for part in FOLDERS)]
    names = words or has_any
    unknown = [it for it in names if it not in has_any]
    if unknown:
        print(f"no crate with mutants: {', '.join(unknown)}\n0 passed, {len(unknown)} failed")
        return 1
    passed = failed = 0
    if len(names) == 1:
        flags = ["--jobs", str(jobs)] if jobs else []
        passed, failed = attack(Crate(names[0], listed, flags), time.monotonic() + seconds)
    else:
        with concurrent.futures.ThreadPoolExecutor(at_once) as pool:
            for said, counts in pool.map(lambda it: attack_apart(it, seconds), names):
                print(said, flush=True)
                passed, failed = passed + counts[0], failed + counts[1]
    print(f"{passed} passed, {failed} failed")
    return 1 if failed else 0
