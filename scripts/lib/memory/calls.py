"""Each allocation of each call refused in turn: it returns what calls.txt says.

A public call that takes memory and isn't in the table fails. First calls alone, each between two
bytes of standard input, by `driver oom`; then each line of a script, by `relayd replay`; then
whole commands, with each allocation refused and with each two in turn; `driver loads` and `driver
runs`, of which each tells which of its calls was refused; and relays that serve, whose committer
can't seal what waits, eight times in a row and nine times.
Usage: scripts/memory calls RELAYD DRIVER
"""
import collections
import concurrent.futures
import os
import pathlib
import re
import shutil
import sqlite3
import subprocess
import tempfile
import time

from lib import faults
from lib.command import ROOT, Counts, programs_of
from lib.rows import make_store, of_first, rows_in, write_rows
from lib.serving import Relay, ask, put

CRATES = ROOT / "crates"
TABLE = pathlib.Path(__file__).with_name("calls.txt")
SECRET = "whsec_MfKQ9r8GKYqrTwjUPD8ILPZIo2LaLaSw"
WAYS = {"oom", "none", "line", "part", "command", "driver", "serve"}


class Row:
    """A line of the table."""

    def __init__(self, text):
        parts = [part.strip() for part in re.split(r": +", text)]
        self.crate, self.call, made = parts[:3]
        self.way, _, self.word = made.partition(" ")
        self.told = parts[3] if len(parts) > 3 else ""


def table():
    lines = TABLE.read_text().splitlines()
    return [Row(line) for line in lines if line and not line.startswith("#")]


# The public calls of the sources.

PROGRAMS = ("bench", "driver", "relayd")
# What says in an answer that memory was lacking: an allocator's refusal, a store's error, and what the repository's own faults are made of.
TELLS = {"AllocError", "Error", "io", "HostRuntime", "Global"}
ITEM = re.compile(
    r"^impl(?P<impl>[^{;]*)\{|^(?P<end>\})|^ *pub fn (?P<name>\w+)(?P<rest>.*?)(?=^\s*(?:requires|ensures|where)\b|\{\s*$)", re.M | re.S
)


def libraries():
    return [crate for crate in sorted(CRATES.iterdir()) if not crate.name.startswith("tests_") and crate.name not in PROGRAMS]


def sources(crate):
    return [path.read_text() for path in sorted((crate / "src").glob("*.rt"))]


def names_that_tell():
    """The enums and structs that can say that memory was lacking: those that do, and those that hold one that does."""
    types = {}
    for text in (text for crate in libraries() for text in sources(crate)):
        types.update(re.findall(r"^pub (?:enum|struct) (\w+)[^{;]*\{(.*?)^\}", text, re.M | re.S))
    found = {name for name, body in types.items() if re.search(r"^ *(?:OutOfMemory|NoMemory)\b", body, re.M)}
    found |= {"Refusal", "SubmitError", "Reply", "Ended"}
    while True:
        more = {name for name, body in types.items() if name.endswith(("Fault", "End")) and found & set(re.findall(r"\w+", body))}
        if more <= found:
            return found
        found |= more


def exported(crate):
    text = (crate / "src" / "lib.rt").read_text()
    parts = re.findall(r"^pub use [\w:]+::(\{[^}]*\}|\w+);|^pub (?:enum|fn|struct) (\w+)", text, re.M)
    return set(re.findall(r"\w+", " ".join(" ".join(part) for part in parts)))


def type_of(head):
    """The type that an `impl` is of."""
    while "<" in head:
        head, before = re.sub(r"<[^<>]*>", "", head), head
        if head == before:
            break
    return head.split(" for ")[-1].split()[0]


def public_calls():
    """Each public call that takes an allocator, or whose answer can say that memory was lacking: its crate and name."""
    tells = names_that_tell() | TELLS
    for crate in libraries():
        names, kind = exported(crate), None
        for item in (item for text in sources(crate) for item in ITEM.finditer(text)):
            if item["impl"]:
                kind = type_of(item["impl"])
            elif item["end"]:
                kind = None
            elif (kind or item["name"]) in names and tells & set(re.findall(r"\w+", item["rest"].replace("io::sink", ""))):
                yield crate.name, f"{kind}::{item['name']}" if kind else item["name"]


def check_table(rows, counts):
    """Whether the table has the calls of the sources, and no others."""
    calls, have = set(public_calls()), {(row.crate, row.call) for row in rows}
    counts.check("public calls that aren't in the table", sorted(calls - have), [])
    counts.check("calls of the table that aren't public", sorted(have - calls), [])
    counts.check("ways of the table", sorted({row.way for row in rows} - WAYS), [])
    whole = {row.call.split("::")[-1] for row in rows if row.way not in ("part", "serve")} | {"Desk::seal", "Lines::advance"}
    counts.check("calls that a part is of", sorted({row.word for row in rows if row.way == "part"} - whole), [])


# Calls alone.

# All of a call's requests are refused too, from each one on, where it makes no more than so many.
FEW, ALL = 64, 10**6
# Openings of a file are also commands, of which each request is refused: here one of so many.
STRIDE = {"FILE": 8, "FIRST": 8, "ABSENT": 8}


def made(library, driver, word, folder, step=0, refuse=0, many=1):
    """What `driver oom` tells of a call that is made twice: what stood, the two answers, and how it ended."""
    with tempfile.TemporaryDirectory(dir=folder) as scratch:
        path = os.path.join(scratch, "store")
        if FILES.get(word):
            shutil.copyfile(os.path.join(folder, FILES[word]), path)
        words = [driver, "oom", path if word in FILES else word]
        run = faults.Lines(library, words, folder, step, refuse, many)
        stood = run.read()
        answers = [run.send("\n"), run.send("\n")]
        return stood, answers, run.end()


def try_call(library, driver, row, folder, pool, counts):
    """Refuses each allocation of the call, and each with all later ones."""
    stood, answers, end = made(library, driver, row.word, folder)
    wanted, *others = row.told.split(" or ")
    count = end.counts[1]
    counts.check(f"{row.word}", (end.status, (answers[0] or "").split(" stands ")[0]), (0, wanted))
    if row.way == "none":
        counts.check(f"{row.word}: allocations", count, 0)
        return
    refused, is_seen = [f"OutOfMemory {stood}", answers[0]], False
    for many in (1, ALL) if count <= FEW else (1,):
        numbers = range(1, count + 1, STRIDE.get(row.word, 1))
        tries = pool.map(lambda number: made(library, driver, row.word, folder, 1, number, many), numbers)
        for number, (before, found, end) in zip(numbers, tries):
            is_seen |= found == refused
            is_right = found == refused or "done" in others and found == answers or found in [[refused[0], f"{other} {stood}"] for other in others]
            name = f"{row.word}, {'all' if many == ALL else 'one'} from allocation {number} of {count}"
            counts.check(name, (end.status, before, None if is_right else found), (0, stood, None))
    counts.check(f"{row.word}: refused", is_seen)


# The lines of a script.

SCRIPT = [
    ("put a http://127.0.0.1:9000/hook 100 " + SECRET, "staged 0"),
    ("submit 1000 a msg_1 7b7d", "staged 1"),
    ("seal", "sealed 0..2"),
    ("commit", "committed 2"),
    ("settle", "settled 2"),
    ("claim 1000", "permit 1 a msg_1 attempt 1 at 1000 inflight 1"),
    ("spend 1 1001 500 100000", "success limit 20 inflight 0 staged 2"),
    ("secrets a " + SECRET, "staged 3"),
    ("enable a", "staged 4"),
    ("subscribe t a", "staged 5"),
    ("subscribe t a", "staged 6"),
    ("submit 1001 a msg_2 -", "staged 7"),
    ("put b http://127.0.0.1:9000/hook 100 " + SECRET, "staged 8"),
    ("subscribe t b", "staged 9"),
    ("publish 1001 t msg_2 -", "staged 7,10"),
    ("publish 1001 t msg_2 -", "staged 7,10"),
    ("publish 1001 t msg_3 -", "staged 11,12"),
    ("seal", "sealed 2..13"),
    ("commit", "committed 13"),
    ("settle", "settled 13"),
    ("told 12", "settled"),
    ("claim 1001", "permit 7 a msg_2 attempt 1 at 1001 inflight 1"),
    ("spend 7 1001 200 100000", "success limit 20 inflight 0 staged 13"),
    ("purge 1002", "staged 14"),
    ("submit 1002 a msg_2 7b", "staged 15"),
    ("seal", "sealed 13..16"),
    ("commit", "committed 16"),
    ("settle", "settled 16"),
    ("told 7", "unknown"),
    ("stop", "reopened 16"),
]
LOOKS = ["show a", "show a msg_1", "show a msg_2", "show b msg_2", "limits a", "told 0", "told 1"]
REFUSED_STOP = "refused stop"


def played(library, relayd, folder, at=None, refuse=0):
    """A script whose line at this place has an allocation refused: the replies of all lines, those of the looks before and after that line, and
    what it replied when it was made again. An empty line follows the script, which is none."""
    run = faults.Lines(library, [relayd, "replay"], folder, 0 if at is None else at + 1 + len(LOOKS), refuse)
    replies, before, after, again = [], None, None, None
    for place, (line, _) in enumerate(SCRIPT):
        if place == at:
            before = [run.send(look + "\n") for look in LOOKS]
        reply = run.send(line + "\n")
        if place == at and reply is not None and reply.endswith("OutOfMemory"):
            after = [run.send(look + "\n") for look in LOOKS]
            again = reply
            reply = run.send(line + "\n")
        replies.append(reply)
        if reply is None:
            break
    return replies, before, after, again, run.end()


def try_line(library, relayd, rows, at, folder, pool, counts):
    """Refuses each allocation of the line at this place."""
    line, _ = SCRIPT[at]
    word = line.split(" ")[0]
    wanted = [reply for _, reply in SCRIPT]
    replies, _, _, _, end = played(library, relayd, folder, at)
    counts.check(f"replay: {word}", (replies, end.status), (wanted, 0))
    count = end.counts[at + 1 + len(LOOKS)]
    row = next((row for row in rows if row.way == "line" and row.word == word), None)
    for number, (replies, before, after, again, end) in enumerate(
        pool.map(lambda number: played(library, relayd, folder, at, number), range(1, count + 1)), 1
    ):
        name = f"replay: {word} at {at}, allocation {number} of {count}"
        if end.status == 3:
            # The line, its reply or the place of a ticket had no memory, or the store wasn't opened again.
            counts.check(name, (replies, end.errors), (wanted[:at] + [None], "relayd: OutOfMemory\n"))
        elif again is None:
            counts.check(name, (replies, end.status), (wanted, 0))
        else:
            counts.check(name, (again, after, replies, end.status), (row.told if row else None, before, wanted, 0))


# Whole commands.

COMMITTED = f"put a http://h/ 100 {SECRET}\nseal\ncommit\nsettle\n"
CALLS = f"{COMMITTED}submit 1000 a msg_1 7b7d\nsecrets a {SECRET}\n"
# What a script of these calls prints, and what where one of them is refused for memory.
DONE = ["staged 0", "sealed 0..1", "committed 1", "settled 1", "staged 1", "staged 2"]
REFUSED = [
    ["refused 7 OutOfMemory", "nothing", "no-batch", "no-receipt", "refused 2 UnknownEndpoint", "refused 2 UnknownEndpoint"],
    ["staged 0", "refused 3 OutOfMemory", "no-batch", "no-receipt", "staged 1", "staged 2"],
    ["staged 0", "sealed 0..1", "refused 4 OutOfMemory", "no-receipt", "staged 1", "staged 2"],
    ["staged 0", "sealed 0..1", "committed 1", "settled 1", "refused 8 OutOfMemory", "staged 1"],
    ["staged 0", "sealed 0..1", "committed 1", "settled 1", "staged 1", "refused 7 OutOfMemory"],
]
# The same of a script whose store is opened again.
STOP = f"{COMMITTED}stop\nshow a\n"
STOP_DONE = ["staged 0", "sealed 0..1", "committed 1", "settled 1", "reopened 1", "enabled pending 0 delivered 0 exhausted 0"]
STOP_REFUSED = [[*replies[:4], "reopened 0", "absent"] for replies in REFUSED[:3]]
# Where a command gets the path of a file of two records, of the same of version 1, of one whose event has no endpoint, and where one on which
# nothing stands.
FILE, FIRST, UNSOUND, ABSENT = "FILE", "FIRST", "UNSOUND", "ABSENT"
FILES = {FILE: "two", FIRST: "first", UNSOUND: "unsound", ABSENT: None}
ROWS = (
    "INSERT INTO endpoints VALUES(0, 'a', 'http://h/', 100, 1, 0, 0)",
    "INSERT INTO secrets VALUES(0, 0, x'303132333435363738396162636465663031323334353637')",
    "INSERT INTO deliveries VALUES(1, 0, 'msg_1', 1000, x'7b7d')",
    "UPDATE meta SET records = 2",
)
LOOSE = "UPDATE deliveries SET endpoint = 7"


def printed(replies):
    return "".join(f"{reply}\n" for reply in replies).encode()


# The words of a command, its standard input, what it writes to both streams with memory at hand, and its status then.
COMMANDS = [
    (["replay"], b"", (b"", b"", 0)),
    (["replay"], CALLS.encode(), (printed(DONE), b"", 0)),
    (["replay"], STOP.encode(), (printed(STOP_DONE), b"", 0)),
    (["sign", "msg_p5jXN8AQM9LWM0D4loKWxJek", "1614265330", SECRET], b'{"test": 2432232314}',
     (b"v1,g0hM9SsE+OTPJTGt/tmIKtSyZlE3uFJELVlNIOLJ1OE=\n", b"", 0)),
    (["vegas", "1000"], b"100000 1 ok\n100000 10 ok\n", (b"20 100000\n26 100000\n", b"", 0)),
    (["check", ABSENT], b"", (b"ok records 0 endpoints 0 pending 0\n", b"", 0)),
    (["check", FILE], b"", (b"ok records 2 endpoints 1 pending 1\n", b"", 0)),
    (["check", FIRST], b"", (b"ok records 2 endpoints 1 pending 1\n", b"", 0)),
    (["check", UNSOUND], b"", (b"", b"relayd: Damaged\n", 4)),
]
# Others that a script may tell, where one of its calls was refused.
OTHERS = {printed(DONE): [printed(replies) for replies in REFUSED], printed(STOP_DONE): [printed(replies) for replies in STOP_REFUSED]}
NO_MEMORY, LOST = b"relayd: OutOfMemory\n", b"relayd: Lost\n"


def make_files(relayd, folder):
    """The files that commands open: the program makes one, and Python's SQLite fills it."""
    path = os.path.join(folder, FILES[FILE])
    subprocess.run([relayd, "check", path], check=True, stdout=subprocess.DEVNULL)
    for name, statements in ((FILE, ROWS), (UNSOUND, (LOOSE,))):
        changed = os.path.join(folder, FILES[name])
        if changed != path:
            shutil.copyfile(path, changed)
        conn = sqlite3.connect(changed)
        for statement in statements:
            conn.execute(statement)
        conn.commit()
        conn.close()
    rows = of_first(rows_in(path))
    make_store(os.path.join(folder, FILES[FIRST]), lambda conn: write_rows(conn, rows), False)


def ended(library, relayd, words, text, folder, refuse, many=1):
    """How the command ends with as many allocations refused from this one on, and how many it asked for."""
    with tempfile.TemporaryDirectory(dir=folder) as scratch:
        path = os.path.join(scratch, "store")
        file = next((FILES[word] for word in words if FILES.get(word)), None)
        if file:
            shutil.copyfile(os.path.join(folder, file), path)
        named = [path if word in FILES else word for word in words]
        told, count = faults.run(library, [relayd, *named], text, scratch, allocation=refuse, many=many)
        return (told.stdout, told.stderr, told.returncode), count


def is_well(end, wanted, many):
    output, errors, status = end
    if status == 3:
        return errors == NO_MEMORY and wanted[0].startswith(output) or many == 2 and (output, errors) == (b"", LOST)
    others = [(other, b"", 0) for other in OTHERS.get(wanted[0], [])]
    return end in [wanted, *others]


def try_command(library, relayd, command, folder, pool, counts):
    """Refuses each allocation of the command, and of one script each two in turn: a commit that lacks memory isn't in doubt, since the look
    at the store after it takes none. While the tables are made it takes some, and the store is lost."""
    words, text, wanted = command
    told, count = ended(library, relayd, words, text, folder, 0)
    counts.check(f"{' '.join(words[:2])}, {count} allocations", (told, count > 0), (wanted, True))
    for many in (1, 2) if text == CALLS.encode() else (1,):
        ends = pool.map(lambda number: ended(library, relayd, words, text, folder, number, many)[0], range(1, count + 1))
        for number, end in enumerate(ends, 1):
            counts.check(f"{words[0]}, {many} from allocation {number} of {count}", end if not is_well(end, wanted, many) else None, None)


# Loads, and runs.

LOADED = """put a http://127.0.0.1:9000/hook 100 whsec_MDEyMzQ1Njc4OTAxMjM0NTY3ODkwMTIz
submit 1000 a msg_1 7b7b
seal
commit
settle
claim 1001
spend 1 1001 500 100000
seal
commit
settle
claim 1006
spend 1 1006 410 100000
enable a
seal
commit
settle
claim 1007
spend 1 1007 500 100000
secrets a whsec_ODlhYmNkZWYwMTIzNDU2Nzg5YWJjZGVm,whsec_MDEyMzQ1Njc4OTAxMjM0NTY3ODkwMTIz
seal
commit
settle
"""
WHOLE_LOAD = "records 7 clock 1007 enabled 1 secrets 2 attempts 3 due 1307"
NO_LOAD = "OutOfMemory"
# What two loads tell where no memory is refused, and where that of one of them is.
LOADS = {(WHOLE_LOAD, WHOLE_LOAD): "none", (NO_LOAD, WHOLE_LOAD): "first", (WHOLE_LOAD, NO_LOAD): "second"}

# The calls of `driver runs`, and how each says that its memory was refused. The others take none.
RUN = ["put", "seal", "commit", "unseal", "seal", "commit", "settle", "submit", "told"]
NUMBERS = {"put": 7, "seal": 3, "commit": 4, "submit": 8}


class Model:
    """An endpoint's record, from staged to settled, and the event after it."""

    def __init__(self):
        self.endpoint = self.event = False
        self.waits = self.out = None

    def put(self):
        self.endpoint = self.waits = True
        return "staged 0"

    def seal(self):
        self.out = "batch"
        return "sealed 0..1"

    def commit(self):
        self.out = "receipt"
        return "committed 1"

    def unseal(self):
        self.out = None
        return "unsealed 0..1"

    def settle(self):
        self.out, self.waits = None, False
        return "settled 1"

    def submit(self):
        self.event = True
        return "staged 1"

    def told(self):
        return "waiting" if self.event else "no-ticket"

    def refusal(self, call):
        """How the call is refused whatever memory there is, or None."""
        if call == "seal":
            return "refused 2 BatchOut" if self.out else None if self.waits else "nothing"
        if call in ("commit", "unseal"):
            return None if self.out == "batch" else "no-batch"
        if call == "settle":
            return None if self.out == "receipt" else "no-receipt"
        return "refused 2 UnknownEndpoint" if call == "submit" and not self.endpoint else None


def replies_of_run(refused):
    """The replies where the call at this place, if any, is refused for memory."""
    model, told = Model(), []
    for place, call in enumerate(RUN):
        reply = model.refusal(call)
        if reply is None:
            reply = f"refused {NUMBERS[call]} OutOfMemory" if place == refused else getattr(model, call)()
        told.append(reply)
    return tuple(told)


def kinds_of_runs():
    """What a run tells, by the call that was refused. Where its own memory is refused, nothing was done, and a second run tells the whole."""
    whole = replies_of_run(None)
    kinds = {replies_of_run(place): f"{call} {place}" for place, call in enumerate(RUN) if call in NUMBERS}
    return {**kinds, whole: "none", ("OutOfMemory", *whole): "own"}


def try_driver(library, driver, word, kinds, needed, folder, pool, counts):
    """Refuses each allocation of the run. Where the store isn't opened it ends with status 1, and tells nothing."""
    def kind_of(number):
        with tempfile.TemporaryDirectory(dir=folder) as scratch:
            for ending in ("", "-wal"):
                if word == "loads" and os.path.exists(f"{folder}/loaded{ending}"):
                    shutil.copyfile(f"{folder}/loaded{ending}", f"{scratch}/store{ending}")
            told, count = faults.run(library, [driver, word, f"{scratch}/store"], b"", scratch, allocation=number)
        lines = tuple(told.stdout.decode().splitlines())
        if told.returncode == 1 and not lines:
            return "opening", count
        return (kinds.get(lines) if told.returncode == 0 else None) or f"{told.returncode} {lines}", count

    whole, count = kind_of(0)
    counts.check(f"driver {word}", (whole, count > 0), ("none", True))
    found = collections.Counter()
    for number, (kind, _) in enumerate(pool.map(kind_of, range(1, count + 1)), 1):
        found[kind] += 1
        counts.check(f"driver {word}, allocation {number} of {count}", kind in {*kinds.values(), "opening"})
        if kind not in {*kinds.values(), "opening"}:
            print(f"    {kind}")
    counts.check(f"driver {word}: never refused", [kind for kind in needed if not found[kind]], [])


# A relay that serves: its committer, which is on the main thread, seals what waits, and lacks memory for that.

# So many refusals in a row it bears, with a pause of so many seconds after each.
BORNE, PAUSE = 8, 0.01
SERVED, LACKING = (201, None, []), (503, 3, ["halted: out of memory nine times in a row\n", "Halted\n"])


def seals(relayd, library, folder, refuse=0, many=0):
    """How a relay answers a change, its status if it ended, and what it told then; how many allocations its main thread had asked for before; and how
    many seconds the answer took."""
    with tempfile.TemporaryDirectory(dir=folder) as scratch, tempfile.NamedTemporaryFile(dir=folder) as asked:
        asked.write(faults.EMPTY)
        asked.flush()
        env = faults.settings(library, asked=asked.name, allocation=refuse, many=many, main=1)
        relay = Relay(relayd, os.path.join(scratch, "relay.db"), "--workers", 1, "--intake", 1, env=env)
        ask(relay.address, "GET", "/v1/status")
        time.sleep(0.2)
        before, begun = faults.counts_of(asked.name)[0], time.monotonic()
        answer = put(relay.address, "a", 9)
        taken = time.monotonic() - begun
        status = relay.ended(10) if answer.status != 201 else relay.process.poll()
        relay.kill()
        return (answer.status, status, [line.split(" ", 1)[1] for line in relay.told[1:]]), before, taken


def try_seals(relayd, library, folder, counts):
    """Refuses the allocations of a seal in a row. It asks for the first one again each time."""
    served, first, _ = seals(relayd, library, folder)
    counts.check("a relay that serves", served, SERVED)
    for many, wanted in ((1, SERVED), (BORNE, SERVED), (BORNE + 1, LACKING)):
        found, _, taken = seals(relayd, library, folder, first + 1, many)
        counts.check(f"{many} seals refused", found, wanted)
        counts.check(f"{many} seals refused: it pauses after each that it bears", taken >= min(many, BORNE) * PAUSE)


def main():
    relayd, driver = programs_of(__doc__, 2)
    counts, rows = Counts(), table()
    check_table(rows, counts)
    with tempfile.TemporaryDirectory() as folder, concurrent.futures.ThreadPoolExecutor(4) as pool:
        library = faults.compiled(folder)
        make_files(relayd, folder)
        for row in rows:
            if row.way in ("oom", "none") and row.word:
                try_call(library, driver, row, folder, pool, counts)
        for at in range(len(SCRIPT)):
            try_line(library, relayd, rows, at, folder, pool, counts)
        for command in COMMANDS:
            try_command(library, relayd, command, folder, pool, counts)
        subprocess.run([driver, "replay", f"{folder}/loaded"], input=LOADED.encode(), stdout=subprocess.DEVNULL, check=True)
        try_driver(library, driver, "loads", LOADS, ("first", "second"), folder, pool, counts)
        try_driver(library, driver, "runs", kinds_of_runs(), ("own", "put 0", "commit 2", "submit 7"), folder, pool, counts)
        try_seals(relayd, library, folder, counts)
    return counts.end()
