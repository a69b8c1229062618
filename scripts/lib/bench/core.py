"""The core and the store, beside the same in Python and SQLite in C (`make bench`).

Measures the programs bench, driver and relayd of crates/, and prints one table. The limit is
compared with its rule in Python, and the store with the same statements through Python's sqlite3,
which is SQLite in C. Times are of whole processes, or what a run tells of its parts, and memory is
the most that one held. `--file PATH COUNT` makes the file of as many deliveries that is reopened,
and `--read PATH` reads its rows. `scripts/bench http` measures the relay with its threads.
Usage: scripts/bench core BENCH DRIVER RELAYD
"""
import contextlib
import sqlite3
import subprocess
import sys
import tempfile
import threading
import time

from lib.command import ROOT, end_with_usage, programs_of
from lib.formats import make_tables
from lib.process import status_of
from lib.rows import ORDERS
from lib.servers import processor_of
from lib.serving import SECRET, relay_of

SAMPLES = 100_000_000
SAMPLES_IN_PYTHON = 1_000_000
OUTCOMES = 100_000
ENDPOINTS = 5
LOADED = 200_000
REOPENED = 100_000
SUBMITTED = 200_000
POSTED = (10_000, 50)
PENDING = (1_000, 10_000, 50_000)
POSTED_TO = (1, 50, 256)
MOST_OF_ONE = 10_000
BATCH = 256
IDLE = 64
IDLE_SECONDS = 10


def measured(words, given=b""):
    """What a command prints, how many seconds it took and the most MiB that it held."""
    began = time.monotonic()
    with subprocess.Popen(words, stdin=subprocess.PIPE, stdout=subprocess.PIPE) as run:
        threading.Thread(target=lambda: (run.stdin.write(given), run.stdin.close())).start()
        peak, told = 0, []
        reader = threading.Thread(target=lambda: told.append(run.stdout.read()))
        reader.start()
        while reader.is_alive():
            with contextlib.suppress(OSError):
                peak = max(peak, status_of(run.pid, "VmHWM") / 2**20)
            reader.join(0.02)
    if run.returncode:
        sys.exit(f"{' '.join(words)}: status {run.returncode}")
    return told[0].decode(), time.monotonic() - began, peak


def limit_in_python(count):
    """The rule of docs/SPECIFICATION.md over the same samples as `bench limit`."""
    number, limit, noload, probes = 0, 20, 0, 0
    for _ in range(count):
        number = (number * 6364136223846793005 + 1442695040888963407) % 2**64
        rtt, inflight, dropped = 100_000 + (number >> 33) % 1_000_003, (number >> 20) % 1000 + 1, number >> 58 == 0
        probes += 1
        if 30 * limit <= probes:
            probes, noload = 0, rtt
        elif noload == 0 or rtt < noload:
            noload = rtt
        else:
            queue, step = -(-limit * (rtt - noload) // rtt), max(len(str(limit)) - 1, 1)
            if dropped or inflight * 2 >= limit and queue > 6 * step:
                limit -= step
            elif inflight * 2 >= limit and queue < 3 * step:
                limit += 6 * step if queue <= step else step
            limit = min(max(limit, 1), 1000)
    print(limit, noload)


def store_in_python(path, count, size):
    """The statements of as many commits, one event in each."""
    conn = sqlite3.connect(path, isolation_level=None)
    conn.execute("PRAGMA journal_mode = WAL")
    conn.execute("PRAGMA synchronous = FULL")
    conn.execute("BEGIN")
    make_tables(conn)
    conn.execute("COMMIT")
    for put in range(ENDPOINTS):
        conn.execute("BEGIN")
        conn.execute("INSERT INTO endpoints VALUES(?1, ?2, ?3, ?4, 1, ?1, ?1)", (put, f"e{put}", "http://h/", 100))
        conn.execute("INSERT INTO secrets VALUES(?1, ?2, ?3)", (put, 0, b"0" * 24))
        conn.execute("UPDATE meta SET records = ?1", (put + 1,))
        conn.execute("COMMIT")
    for event in range(count):
        seq, put, name = ENDPOINTS + event, event % ENDPOINTS, f"msg_{event}"
        conn.execute("BEGIN")
        conn.execute("SELECT put FROM endpoints WHERE name = ?1", (f"e{put}",)).fetchall()
        conn.execute("SELECT seq FROM deliveries WHERE endpoint = ?1 AND id = ?2", (put, name)).fetchall()
        conn.execute("INSERT INTO deliveries VALUES(?1, ?2, ?3, ?4, ?5)", (seq, put, name, 1000 + event, b"{" * size))
        conn.execute("UPDATE meta SET records = ?1", (seq + 1,))
        conn.execute("COMMIT")


def file_in_python(path, count, size=100, attempts=((200, 1001),)):
    """The file of as many deliveries over 100 endpoints with bodies of so many bytes, every second of them with these attempts, each a
    status and a moment; their ids come in no order."""
    conn = sqlite3.connect(path, isolation_level=None)
    conn.execute("PRAGMA journal_mode = WAL")
    conn.execute("BEGIN")
    tried = [(delivery, number, *attempt) for delivery in range(100, 100 + count, 2) for number, attempt in enumerate(attempts, 1)]
    make_tables(conn, 100 + count + len(tried))
    for put in range(100):
        conn.execute("INSERT INTO endpoints VALUES(?1, ?2, 'http://h/', 100, 1, ?1, ?1)", (put, f"e{put}"))
        conn.execute("INSERT INTO secrets VALUES(?1, 0, ?2)", (put, b"0" * 24))
    ids = ((100 + number, number % 100, f"msg_{number * 2_654_435_761 % 2**32}", b"{" * size) for number in range(count))
    conn.executemany("INSERT INTO deliveries VALUES(?1, ?2, ?3, 1000, ?4)", ids)
    conn.executemany("INSERT INTO attempts VALUES(?1, ?2, ?3, ?4, ?5)", ((100 + count + at, *it) for at, it in enumerate(tried)))
    conn.execute("COMMIT")
    conn.close()


def read_in_python(path):
    """Each row of the tables, in the order of their keys."""
    conn = sqlite3.connect(path)
    for table in ORDERS:
        for _ in conn.execute(f"SELECT * FROM {table} ORDER BY rowid"):
            pass


def script(count, size):
    """The script of the same events: each is sealed, committed and settled."""
    lines = [f"put e{put} http://h/ 100 {SECRET}" for put in range(ENDPOINTS)]
    lines += [f"submit {1000 + event} e{event % ENDPOINTS} msg_{event} {'7b' * size}" for event in range(count)]
    return "".join(f"{line}\nseal\ncommit\nsettle\n" for line in lines).encode()


def row(what, count, unit, time_taken, memory, in_python):
    per = f"{time_taken / count * 1e9:.0f} ns" if time_taken / count < 1e-6 else f"{time_taken / count * 1e6:.1f} us"
    held = f"{memory:.0f} MiB" if memory else ""
    print(f"| {what} | {count:,} {unit} | {time_taken:.2f} s | {per} | {held} | {in_python} |", flush=True)


def compared(count, time_taken, memory=0):
    """The cell of what stands for comparison."""
    held = f", {memory:.0f} MiB" if memory else ""
    return f"{time_taken / count * 1e6:.1f} us{held}"


def times_of(told):
    """How many seconds each part of a run took: a line has a part and its microseconds."""
    return {part: int(taken) / 1e6 for part, _, taken in (line.rpartition(" ") for line in told.splitlines())}


def parts_of(bench, path, held):
    """How long each part of a reopening took, where the store holds as much, and the most memory that it held."""
    told, _, memory = measured([bench, "parts", path])
    if told.splitlines()[-1] != held:
        sys.exit(f"{path} reopened: {told}")
    return times_of(told), memory


def read_back(bench, scratch):
    """A file whose store is read back into books."""
    path = f"{scratch}/loaded"
    file_in_python(path, LOADED, 1024, ((500, 1001), (0, 1006)))
    times, memory = parts_of(bench, path, f"records {LOADED * 2 + 100} endpoints 100 pending {LOADED}")
    row("events of 1,024 bytes, half with two attempts, read back into books", LOADED, "events", times["loading"], memory, "")


def reopened(bench, scratch, python):
    """A file that is opened by SQLite's port, and the store in it reopened."""
    path = f"{scratch}/reopened"
    file_in_python(path, REOPENED)
    _, python_spent, python_memory = measured([*python, "--read", path])
    times, memory = parts_of(bench, path, f"records {REOPENED + REOPENED // 2 + 100} endpoints 100 pending {REOPENED - REOPENED // 2}")
    whole = sum(times[part] for part in ("adopting", "loading", "seating"))
    row("deliveries with bodies of 100 bytes, half with an attempt, reopened", REOPENED, "deliveries", whole, memory, "")
    for what, part in (
        ("of these: their tables looked at", "adopting"),
        ("of these: read back into books", "loading"),
        ("of these: the desk made", "seating"),
    ):
        row(what, REOPENED, "deliveries", times[part], 0, "")
    other = compared(REOPENED, python_spent, python_memory)
    row("their file opened before, each page, index and constraint checked", REOPENED, "deliveries", times["opening"], 0, other)


def submitted(bench, scratch):
    """Submissions, which are posted in rounds, and the bare statements of their rows."""
    _, bare, bare_memory = measured([bench, "insert", str(SUBMITTED), f"{scratch}/inserted"])
    told, _, memory = measured([bench, "submit", str(SUBMITTED), f"{scratch}/submitted"])
    settled, _, told = told.partition("\n")
    if settled != f"settled {SUBMITTED * 2 + 100}":
        sys.exit(f"{SUBMITTED:,} submissions: {settled}")
    times = times_of(told)
    for what, parts in (
        ("submissions of 1,024 bytes, 256 in a commit in a file", ("staging", "submissions sealing", "submissions committing")),
        ("of these: taken in by the desk", ("staging",)),
        ("of these: sealed and settled by the desk", ("submissions sealing",)),
        ("of these: committed by the store", ("submissions committing",)),
    ):
        row(what, SUBMITTED, "events", sum(times[part] for part in parts), memory if len(parts) > 1 else 0, "")
    row("the bare INSERTs of their rows, 256 in a transaction", SUBMITTED, "events", bare, bare_memory, "")
    posting = ("claiming", "spending", "outcomes sealing", "outcomes committing")
    row("their posts, claimed, spent and settled, 256 in a commit", SUBMITTED, "events", sum(times[part] for part in posting), 0, "")


def posted(bench, scratch):
    """Pending events, half of whose endpoints are disabled; half as many are claimed, spent and settled. What the first claims take by how
    many are pending, and over how many endpoints, of which each has 10,000 at most."""
    for count, endpoints in ((count, endpoints) for endpoints in POSTED_TO for count in PENDING if count <= MOST_OF_ONE * endpoints):
        told, _, memory = measured([bench, "post", str(count), str(endpoints), f"{scratch}/posted-{count}-{endpoints}"])
        settled, _, told = told.partition("\n")
        posts = count // 2
        if settled != f"settled {endpoints + endpoints // 2 + count + posts}":
            sys.exit(f"{count:,} pending events of {endpoints} endpoints: {settled}")
        times = times_of(told)
        if (count, endpoints) == POSTED:
            parts = ("claiming", "spending", "outcomes sealing", "outcomes committing")
            row(f"of {count:,} events pending over {endpoints} endpoints, posted and settled", posts, "events", sum(times[part] for part in parts), memory, "")
            row("of these: claimed", posts, "events", times["claiming"], 0, "")
            row("of these: spent", posts, "events", times["spending"], 0, "")
            row("of these: committed by the store", posts, "events", times["outcomes committing"], 0, "")
        row(f"claims with {count:,} events pending over {endpoints} endpoints", BATCH, "claims", times["first claims"], 0, "")


def idle(relayd, scratch):
    """The processor time of a relay whose workers have nothing to post."""
    with relay_of(relayd, f"{scratch}/idle", "--workers", IDLE) as relay:
        time.sleep(1)
        before = processor_of(relay.process)
        time.sleep(IDLE_SECONDS)
        used, memory = processor_of(relay.process) - before, status_of(relay.process.pid, "VmHWM") / 2**20
    row(f"processor time of a relay with {IDLE} workers that have nothing to post", IDLE_SECONDS, "seconds", used, memory, "")


def over_a_file(bench, scratch):
    """A store that is read back, submissions beside the bare statements of their rows, and posts."""
    read_back(bench, scratch)
    submitted(bench, scratch)
    posted(bench, scratch)


def main():
    if not sys.argv[1:]:
        end_with_usage(__doc__)
    if sys.argv[1] == "--limit":
        return limit_in_python(int(sys.argv[2]))
    if sys.argv[1] == "--file":
        return file_in_python(sys.argv[2], int(sys.argv[3]))
    if sys.argv[1] == "--read":
        return read_in_python(sys.argv[2])
    if sys.argv[1] == "--store":
        return store_in_python(sys.argv[2], int(sys.argv[3]), int(sys.argv[4]))
    bench, driver, relayd = programs_of(__doc__, 3)
    python = [str(ROOT / "scripts" / "bench"), "core"]
    print("| what | how much | time | for one | memory | the same in Python, for one |\n|---|---|---|---|---|---|")
    told, python_spent, _ = measured([*python, "--limit", str(SAMPLES_IN_PYTHON)])
    same, _, _ = measured([bench, "limit", str(SAMPLES_IN_PYTHON)])
    if told != same:
        sys.exit(f"the limit after {SAMPLES_IN_PYTHON:,} samples: {same.strip()}, in Python {told.strip()}")
    _, spent, _ = measured([bench, "limit", str(SAMPLES)])
    row("the limit, with its inputs", SAMPLES, "samples", spent, 0, compared(SAMPLES_IN_PYTHON, python_spent))
    _, staged, _ = measured([bench, "events", str(OUTCOMES)])
    told, spent, memory = measured([bench, "outcomes", str(OUTCOMES)])
    if told != f"pending {OUTCOMES} attempts 1\n":
        sys.exit(f"{OUTCOMES:,} outcomes: {told.strip()}")
    row("outcomes into a book, settled 256 at a time", OUTCOMES, "outcomes", max(spent - staged, 0), memory, "")
    with tempfile.TemporaryDirectory() as scratch:
        over_a_file(bench, scratch)
        idle(relayd, scratch)
        reopened(bench, scratch, python)
        for place, count, size in (("memory", 50_000, 2), ("memory", 50_000, 1000), ("a file", 2_000, 1000)):
            there = place == "memory"
            words = [relayd, "replay"] if there else [driver, "replay", f"{scratch}/store"]
            _, spent, memory = measured(words, script(count, size))
            path = ":memory:" if there else f"{scratch}/python"
            _, python_spent, python_memory = measured([*python, "--store", path, str(count), str(size)])
            what = f"events of {size:,} bytes, each a commit in {place}"
            row(what, count, "events", spent, memory, compared(count, python_spent, python_memory))
    return 0
