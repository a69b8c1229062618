"""Ten minutes of load: memory, descriptors and threads stay bounded.

64 submitters, 32 endpoints, and subscribers that answer at once, slowly, with 500, 429 or 410, with
bytes that are no answer, with nothing, or never. Each minute it prints what the process has:
memory, descriptors, threads, and what the relay tells. In the end the threads are as many as at
first, the descriptors are few, and memory grew by no more than the events take.
Usage: scripts/serve soak RELAYD [MINUTES]: 10 minutes if left out
"""
import concurrent.futures
import os
import random
import sys
import tempfile
import threading
import time

from lib.command import Counts, program_of
from lib.process import descriptors_of, status_of
from lib.serving import Relay, Subscriber, ask, put, submit

SUBMITTERS, ENDPOINTS, WORKERS, INTAKE = 64, 32, 32, 16
PAUSE = 0.2
SAMPLES = 60.0
BYTES_OF_EVENT = 4096


def answers_slowly(_):
    time.sleep(0.3)
    return 200


def never_answers(_):
    time.sleep(3)
    return b""


KINDS = (lambda _: 200, answers_slowly, lambda _: random.choice((200, 500)), lambda _: 429, lambda _: random.choice((200, 200, 200, 410)),
         lambda _: b"abc", lambda _: b"", never_answers)


def has(process):
    """What a process has: memory in bytes, descriptors, threads."""
    return status_of(process.pid, "VmRSS"), len(descriptors_of(process.pid)), status_of(process.pid, "Threads")


class Load:
    """Submitters, each with a pause after its request, and how many events were taken and refused."""

    def __init__(self, address):
        self.address, self.ends, self.taken, self.refused, self.lock = address, False, 0, 0, threading.Lock()
        self.threads = [threading.Thread(target=self.submit, args=(at,), daemon=True) for at in range(SUBMITTERS)]
        for it in self.threads:
            it.start()

    def submit(self, at):
        draw = random.Random(at)
        while not self.ends:
            answer = submit(self.address, f"e{draw.randrange(ENDPOINTS)}", os.urandom(draw.choice((2, 100, 400))))
            with self.lock:
                self.taken += answer.status == 202
                self.refused += answer.status == 503
            time.sleep(PAUSE)

    def end(self):
        self.ends = True
        for it in self.threads:
            it.join()


def enable_all(address):
    """Enables all endpoints, at once, since each request waits for those of the submitters."""
    with concurrent.futures.ThreadPoolExecutor(ENDPOINTS) as pool:
        list(pool.map(lambda number: ask(address, "PUT", f"/v1/endpoints/e{number}/enabled", b'{"enabled":true}'), range(ENDPOINTS)))


def main():
    relayd, minutes = program_of(__doc__), float(sys.argv[2]) if len(sys.argv) > 2 else 10.0
    counts, subscribers = Counts(), [Subscriber(KINDS[at % len(KINDS)]) for at in range(ENDPOINTS)]
    with tempfile.TemporaryDirectory() as folder:
        relay = Relay(relayd, f"{folder}/relay.db", "--timeout", 1, "--workers", WORKERS, "--intake", INTAKE)
        for number, subscriber in enumerate(subscribers):
            counts.check("an endpoint", put(relay.address, f"e{number}", subscriber.port).status, 201)
        time.sleep(1)
        first, began = has(relay.process), time.monotonic()
        load = Load(relay.address)
        print("| minute | events taken | refused | posts | pending | memory | descriptors | threads |\n|---|---|---|---|---|---|---|---|")
        while (passed := time.monotonic() - began) < minutes * 60:
            time.sleep(min(SAMPLES, minutes * 60 - passed + 0.1))
            enable_all(relay.address)
            (memory, descriptors, threads), page = has(relay.process), ask(relay.address, "GET", "/v1/status").json()
            posts = sum(len(it.posts) for it in subscribers)
            minute = (time.monotonic() - began) / 60
            print(f"| {minute:.1f} | {load.taken} | {load.refused} | {posts} | {page['pending']} | {memory / 2**20:.0f} MiB | {descriptors} | {threads} |", flush=True)
        load.end()
        last = has(relay.process)
        counts.check("as many threads as at first", last[2], first[2])
        counts.check("few descriptors for each thread", last[1] <= first[1] + 4 * (WORKERS + INTAKE))
        counts.check("memory of the events alone", last[0] - first[0] <= load.taken * BYTES_OF_EVENT + 2**24)
        counts.check("it serves", ask(relay.address, "GET", "/v1/status").status, 200)
        relay.kill()
    return counts.end()
