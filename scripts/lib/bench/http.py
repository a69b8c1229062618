"""`relayd serve` beside nginx, relays in Go and Python, and PostgreSQL (`make load`).

All are on the same machine and the same disk:

- nginx, which answers 202 and keeps nothing;
- the relay, and with `--before PROGRAM` an older one, to show what changed;
- a relay in Go (relay.go beside this file): net/http, SQLite in C, the relay's tables, up to 256
  events a commit;
- a plain relay in Python's standard library, one durable INSERT before each 202;
- PostgreSQL, durable INSERTs by pgbench, one a transaction. It has no HTTP, and its clients stay
  connected.

wrk sends each server POSTs of an event of 100 bytes, a connection for each, for 3 seconds at 1, 8,
64 and 256 connections. More than 50,000 pending events the relay doesn't take. In each round all
are measured, one after another. A table has the median of the rounds, with the lowest and the
highest: answers a second, latency (50th and 99th of 100), and the processor time of an answer,
without the client's. Then it prints how much processor time the relay's threads take, how much
memory it has for an event, and how many posts a second reach a subscriber. Last come rounds through
the proxy of packaging/nginx.conf, whose clients keep their connections. Each relay is killed after
its run, and the subcommand fails if the file has fewer events than were answered 202.

It needs wrk and nginx (Debian: `apt-get install wrk nginx-light`). The relay in Go needs golang-go
and golang-github-mattn-go-sqlite3-dev, PostgreSQL needs postgresql. With strace it also prints
where the committer's time goes at 64 connections.
Usage: scripts/bench http RELAYD [--before PROGRAM] [ROUNDS [SECONDS [CONNECTIONS..]]]
"""
import contextlib
import http.client
import json
import pathlib
import re
import shutil
import signal
import statistics
import subprocess
import sys
import tempfile
import threading
import time
import typing

from lib.command import needs, program_of
from lib.process import status_of
from lib.servers import BODY, ENDPOINTS, Postgres, Run, built_go, count_rows, postgres_programs, processor_of, start_go, start_nginx, start_plain
from lib.servers import start_front, started, wait_for
from lib.serving import SECRET, SUBMITTER, free_port

CONNECTIONS = (1, 8, 64, 256)
FRONT_CONNECTIONS = (64, 256)
CLOSED = ("connection", "close")
LUA = """
local count = 0
wrk.method, wrk.body = "POST", "%s"
wrk.headers["%s"] = "%s"
request = function()
  count = count + 1
  return wrk.format(nil, "/v1/endpoints/e" .. (count %% %d) .. "/events")
end
"""


def ask(port, method, path, body=None):
    connection = http.client.HTTPConnection("127.0.0.1", port, timeout=30)
    connection.request(method, path, body)
    answer = connection.getresponse()
    return answer.status, answer.read()


class Load(typing.NamedTuple):
    """What wrk measured: answers a second, in how many milliseconds half and 99 of 100 came, how many weren't 2xx, and how many requests got
    no answer."""
    rate: float
    half: float
    most: float
    failed: int
    lost: int


def load(folder, port, connections, seconds, scheme="http", header=CLOSED):
    """Has wrk submit events over so many connections, with a header of its own."""
    script = folder / "load.lua"
    script.write_text(LUA % (BODY, *header, ENDPOINTS))
    words = ["wrk", "-t", str(min(4, connections)), "-c", str(connections), "-d", f"{seconds}s", "--timeout", "60s", "--latency", "-s", str(script)]
    told = subprocess.run([*words, f"{scheme}://127.0.0.1:{port}/"], capture_output=True, text=True, check=True).stdout
    unit = {"us": 0.001, "ms": 1.0, "s": 1000.0}
    times = {part: float(number) * unit[it] for part, number, it in re.findall(r"(50|99)%\s+([\d.]+)(us|ms|s)", told)}
    failed = re.search(r"Non-2xx or 3xx responses: (\d+)", told)
    lost = re.search(r"Socket errors: connect (\d+), read (\d+), write (\d+), timeout (\d+)", told)
    rate = float(re.search(r"Requests/sec:\s+([\d.]+)", told)[1])
    return Load(rate, times["50"], times["99"], int(failed[1]) if failed else 0, sum(map(int, lost.groups())) if lost else 0)


def start_relay(folder, program, name):
    """A relay with its endpoints, disabled, so that what is measured is the intake."""
    port = free_port()
    words = (program, "serve", folder / name, f"127.0.0.1:{port}", "--intake", 64)
    process = started(*words, stdout=subprocess.DEVNULL, stderr=subprocess.DEVNULL)
    wait_for(port)
    for number in range(ENDPOINTS):
        put = json.dumps({"url": "http://127.0.0.1:9/", "max": 100, "secrets": [SECRET]})
        assert ask(port, "PUT", f"/v1/endpoints/e{number}", put)[0] == 201
        assert ask(port, "PUT", f"/v1/endpoints/e{number}/enabled", '{"enabled":false}')[0] == 200
    return process, port


def times_of(process):
    """Of the committer, which is the first thread, and of all others together: seconds that they ran, and that they waited for a processor."""
    found = {True: [0.0, 0.0], False: [0.0, 0.0]}
    for task in pathlib.Path(f"/proc/{process.pid}/task").iterdir():
        ran, waited, _ = (task / "schedstat").read_text().split()
        kind = found[task.name == str(process.pid)]
        kind[0] += int(ran) / 1e9
        kind[1] += int(waited) / 1e9
    return found[True] + found[False]


def measure(folder, start, table, connections, seconds):
    """Measures a server over a new file. One that keeps events is killed. Then the table has to have each event that was answered 202."""
    file = folder / "measured.db"
    process, port = start(file)
    wait_for(port)
    before = processor_of(process)
    found = load(folder, port, connections, seconds)
    used, count = processor_of(process) - before, found.rate * seconds
    if table:
        process.kill()
    else:
        process.terminate()
    process.wait()
    if table:
        check_kept(file, table, count - found.failed)
    return Run(found.rate, found.half, found.most, used / count * 1e6, found.failed)


def check_kept(file, table, count):
    """Ends with a fault if a table has fewer events than were answered 202. The files go."""
    if (kept := count_rows(file, table)) < count:
        sys.exit(f"{count:.0f} events were answered 202, and {kept} are in the table {table}")
    for path in file.parent.glob(f"{file.name}*"):
        path.unlink()


def servers_of(folder, program, before):
    """The servers that this machine has: for each, what measures it."""
    def server(start, table=None):
        return lambda connections, seconds: measure(folder, start, table, connections, seconds)

    servers = {
        "nginx, nothing kept": server(lambda _: start_nginx(folder)),
        "relayd": server(lambda file: start_relay(folder, program, file.name), "deliveries"),
    }
    if before:
        servers["relayd before"] = server(lambda file: start_relay(folder, before, file.name), "deliveries")
    if in_go := built_go(folder):
        servers["a relay in Go"] = server(lambda file: start_go(in_go, file), "deliveries")
    servers["a plain relay in Python"] = server(start_plain, "events")
    if programs := postgres_programs():
        servers["PostgreSQL, no HTTP"] = Postgres(programs, folder).measure
    return servers


def spread(values, digits):
    """The median, with the lowest and the highest."""
    if None in values:
        return ""
    low, middle, high = (f"{it:,.{digits}f}" for it in (min(values), statistics.median(values), max(values)))
    return f"{middle} ({low} to {high})"


def print_table(found):
    print("| who answers | connections | answers a second | half within, ms | 99 of 100 within, ms | processor, us an answer | not taken |")
    print("|---|---|---|---|---|---|---|")
    for (connections, name), runs in found.items():
        rates, halves, mosts, processors, failed = zip(*runs)
        cells = (name, connections, spread(rates, 0), spread(halves, 2), spread(mosts, 2), spread(processors, 0), sum(failed))
        print(f"| {' | '.join(map(str, cells))} |")


def measure_rounds(servers, rounds, seconds, counts):
    """The runs of each server at each number of connections."""
    found = {(connections, name): [] for connections in counts for name in servers}
    for number in range(rounds):
        print(f"round {number + 1} of {rounds}", file=sys.stderr, flush=True)
        for connections, name in found:
            found[connections, name].append(servers[name](connections, seconds))
    return found


def measure_threads(folder, program, seconds):
    """How long the relay's threads ran and waited at 64 connections, and how its memory grew."""
    relay, port = start_relay(folder, program, "threads.db")
    memory, before = status_of(relay.pid, "VmRSS"), times_of(relay)
    rate = load(folder, port, 64, seconds).rate
    ran, waited, others, others_waited = (after - it for after, it in zip(times_of(relay), before))
    grown, kept = status_of(relay.pid, "VmRSS") - memory, json.loads(ask(port, "GET", "/v1/status")[1])["pending"]
    count = rate * seconds
    print(f"\nAt 64 connections, {rate:.0f} answers a second: of {seconds} s the committer ran {ran:.2f} s and waited {waited:.2f} s for a processor; the 64")
    print(f"threads of the intake ran {others:.2f} s and waited {others_waited:.2f} s. So an answer took {ran / count * 1e6:.0f} us of the committer and "
          f"{others / count * 1e6:.0f} us of the intake.")
    print(f"The relay had {grown / max(1, kept):.0f} bytes of memory for each of {kept} events of 100 bytes.")
    relay.terminate()
    relay.wait()


def measure_calls(folder, program, seconds):
    """The committer's system calls at 64 connections, which strace counts."""
    relay, port = start_relay(folder, program, "calls.db")
    words = ("strace", "-c", "-w", "-p", relay.pid, "-o", folder / "calls")
    tracer = started(*words, stdout=subprocess.DEVNULL, stderr=subprocess.DEVNULL)
    time.sleep(1)
    rate = load(folder, port, 64, seconds).rate
    tracer.send_signal(signal.SIGINT)
    tracer.wait()
    print(f"\nUnder strace, {rate:.0f} answers a second; the committer's calls, with their seconds:\n")
    print("| call | seconds | times | us each |\n|---|---|---|---|")
    for line in (folder / "calls").read_text().split("\n"):
        words = line.split()
        if len(words) >= 5 and words[0][0].isdigit() and float(words[1]) >= 0.01 and words[-1] != "total":
            print(f"| {words[-1]} | {words[1]} | {words[3]} | {words[2]} |")
    relay.terminate()
    relay.wait()


def measure_posts(folder, program, count):
    """How long the relay takes to post so many events to nginx, which answers each 202."""
    nginx, subscriber = start_nginx(folder)
    wait_for(subscriber)
    port = free_port()
    words = (program, "serve", folder / "posts.db", f"127.0.0.1:{port}", "--intake", 64, "--workers", 32)
    relay = started(*words, stdout=subprocess.DEVNULL, stderr=subprocess.DEVNULL)
    wait_for(port)
    put = json.dumps({"url": f"http://127.0.0.1:{subscriber}/hook", "max": 1000, "secrets": [SECRET]})
    assert ask(port, "PUT", "/v1/endpoints/a", put)[0] == 201
    began = time.monotonic()

    def submit():
        for _ in range(count // 32):
            with contextlib.suppress(OSError, http.client.HTTPException):
                ask(port, "POST", "/v1/endpoints/a/events", BODY)

    threads = [threading.Thread(target=submit) for _ in range(32)]
    for thread in threads:
        thread.start()
    for thread in threads:
        thread.join()
    while json.loads(ask(port, "GET", "/v1/status")[1])["pending"] > 0 and time.monotonic() - began < 120:
        time.sleep(0.05)
    taken, delivered = time.monotonic() - began, json.loads(ask(port, "GET", "/v1/status")[1])["delivered"]
    relay.kill()
    nginx.terminate()
    return delivered, taken


def measure_front(folder, program, rounds, seconds):
    """Answers a second through the proxy of packaging/nginx.conf, whose clients keep their connections, and how many answers were lost."""
    found = {it: [] for it in FRONT_CONNECTIONS}
    for _ in range(rounds):
        for connections in found:
            relay, port = start_relay(folder, program, "front.db")
            front, at = start_front(folder, port)
            found[connections].append(load(folder, at, connections, seconds, "https", ("authorization", f"Bearer {SUBMITTER}")))
            relay.kill()
            relay.wait()
            front.terminate()
            front.wait()
            check_kept(folder / "front.db", "deliveries", found[connections][-1].rate * seconds - found[connections][-1].failed)
    print("\n| through packaging/nginx.conf | connections | answers a second | half within, ms | 99 of 100 within, ms | not taken | no answer |")
    print("|---|---|---|---|---|---|---|")
    for connections, runs in found.items():
        rates, halves, mosts, failed, lost = zip(*runs)
        cells = ("relayd", connections, spread(rates, 0), spread(halves, 2), spread(mosts, 2), sum(failed), sum(lost))
        print(f"| {' | '.join(map(str, cells))} |")


def main():
    before = None
    if "--before" in sys.argv[:-1]:
        at = sys.argv.index("--before")
        before = pathlib.Path(sys.argv[at + 1]).resolve()
        del sys.argv[at : at + 2]
    program = program_of(__doc__)
    needs("wrk", "wrk")
    needs("nginx", "nginx-light")
    rounds, seconds = (int(it) for it in (sys.argv[2:4] + ["3", "3"][len(sys.argv[2:4]):]))
    with tempfile.TemporaryDirectory() as name:
        folder = pathlib.Path(name)
        servers = servers_of(folder, program, before)
        print_table(measure_rounds(servers, rounds, seconds, list(map(int, sys.argv[4:])) or CONNECTIONS))
        measure_threads(folder, program, seconds)
        if shutil.which("strace"):
            measure_calls(folder, program, seconds)
        delivered, taken = measure_posts(folder, program, 8000)
        measure_front(folder, program, rounds, seconds)
    print(f"\nOf the relay, {delivered} events were submitted, kept, posted and settled in {taken:.1f} s, {delivered / taken:.0f} a second.")
