"""An event for many: `relayd serve` with publishes, beside as many submissions one by one.

For 1, 16 and 256 subscribers, which are disabled, so that what is measured is the intake. Eight
submitters send events of 100 bytes, a connection for each: first each event to each endpoint, then
each event once, to the topic. Both keep the same number of events at the endpoints. To 256
subscribers three send, since 768 records may wait. It prints requests and kept events a second, and
the relay's processor time for each kept event. Then it prints what 256 events take in `relayd
replay`, over a store in memory, as 256 steps and as one: staged, sealed, committed and settled; and
what a repeated publish takes to 256 subscribers among 4,096 pairs, which looks up each.
Usage: scripts/bench publish RELAYD [EVENTS]: so many kept events of each row, 12,800 if left out
"""
import concurrent.futures
import pathlib
import resource
import statistics
import subprocess
import sys
import tempfile
import time

from lib.command import program_of
from lib.process import seconds_of
from lib.serving import SECRET, ask, post, put, relay_of, subscribe

SUBSCRIBERS = (1, 16, 256)
SUBMITTERS, MOST_WAITING = 8, 768
BODY = b"x" * 100
# How many commits of 256 events a script has, and how often each script is run.
COMMITS, ROUNDS = 30, 5
REPEATED = 200


def measured(relayd, file, count, paths):
    """Requests a second, and the processor time of them all, of requests to these paths, to a relay with so many subscribers."""
    with relay_of(relayd, file, "--intake", 16) as relay, concurrent.futures.ThreadPoolExecutor(min(SUBMITTERS, MOST_WAITING // count)) as pool:
        for number in range(count):
            put(relay.address, f"e{number}", 9)
            ask(relay.address, "PUT", f"/v1/endpoints/e{number}/enabled", b'{"enabled":false}')
            subscribe(relay.address, "t", f"e{number}")
        used, began = seconds_of(relay.process.pid), time.monotonic()
        answers = list(pool.map(lambda it: post(relay.address, it, BODY).status, paths))
        lasted, used = time.monotonic() - began, seconds_of(relay.process.pid) - used
        if set(answers) != {202}:
            sys.exit(f"answers other than 202: {sorted(set(answers) - {202})}")
    return len(paths) / lasted, used


def script_of(is_published):
    """256 subscribers, and events for all of them, each event in a batch of its own."""
    names, turn = [f"e{number}" for number in range(256)], ["seal", "commit", "settle"]
    lines = [f"put {name} http://h/ 100 {SECRET}" for name in names] + turn + [f"subscribe t {name}" for name in names] + turn
    for event in range(COMMITS if is_published is not None else 0):
        lines += [f"publish 1000 t m{event} {BODY.hex()}"] if is_published else [f"submit 1000 {name} m{event} {BODY.hex()}" for name in names]
        lines += turn
    return "\n".join(lines).encode() + b"\n"


def repeated_script(count):
    """256 endpoints, each with 16 subscriptions, an event for all of them, and so many times the same again."""
    names, turn = [f"e{number}" for number in range(256)], ["seal", "commit", "settle"]
    lines = [f"put {name} http://h/ 100 {SECRET}" for name in names] + turn
    for topic in range(16):
        lines += [f"subscribe t{topic} {name}" for name in names] + turn
    lines += [f"publish 1000 t7 m {BODY.hex()}"] + turn + [f"publish 1000 t7 m {BODY.hex()}"] * count
    return "\n".join(lines).encode() + b"\n"


def processor(relayd, script):
    """The processor time of a script, the median of some runs."""
    found = []
    for _ in range(ROUNDS):
        before = resource.getrusage(resource.RUSAGE_CHILDREN)
        subprocess.run([relayd, "replay"], input=script, stdout=subprocess.DEVNULL, check=True)
        after = resource.getrusage(resource.RUSAGE_CHILDREN)
        found.append(after.ru_utime + after.ru_stime - before.ru_utime - before.ru_stime)
    return statistics.median(found)


def main():
    relayd = program_of(__doc__)
    kept = int(sys.argv[2]) if len(sys.argv) > 2 else 12_800
    print("| subscribers | sent | requests a second | kept a second | processor time of one that is kept, us |\n|---|---|---|---|---|")
    with tempfile.TemporaryDirectory() as name:
        folder = pathlib.Path(name)
        for count in SUBSCRIBERS:
            events = min(kept, 9_000 * count) // count
            for what, paths in (
                ("to each endpoint", [f"/v1/endpoints/e{number}/events" for _ in range(events) for number in range(count)]),
                ("to the topic", ["/v1/topics/t/events"] * events),
            ):
                rate, used = measured(relayd, folder / f"{count}-{len(paths)}.db", count, paths)
                each = count if what == "to the topic" else 1
                print(f"| {count} | {what} | {rate:.0f} | {rate * each:.0f} | {used / (events * count) * 1e6:.1f} |", flush=True)
    before = processor(relayd, script_of(None))
    for what, is_published in (("256 steps", False), ("one step", True)):
        used = (processor(relayd, script_of(is_published)) - before) / COMMITS
        print(f"256 events as {what}: {used * 1000:.2f} ms of processor time")
    used = (processor(relayd, repeated_script(REPEATED)) - processor(relayd, repeated_script(0))) / REPEATED
    print(f"a repeated publish to 256 subscribers among 4,096 pairs: {used * 1000:.2f} ms of processor time")
