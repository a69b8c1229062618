"""A full disk, a file that is moved or removed, kills within commits.

The file system is full, is read-only, the file is moved, removed, replaced or hidden, and SIGKILL
comes within a commit. Nothing is answered 202 that isn't in the file afterwards, and a relay that
goes on or is started again serves. It mounts small file systems in memory, so it wants root;
`moved` tries only a file that is moved, removed or replaced, without root.
Usage: scripts/serve hurt RELAYD [KILLS | moved]: 30 kills if left out
"""
import contextlib
import os
import pathlib
import random
import resource
import shutil
import sqlite3
import subprocess
import sys
import tempfile
import threading
import time

from lib.command import Counts, program_of
from lib.process import NOBODY
from lib.serving import Answer, Relay, Subscriber, ask, connect, put, read_all, request, submit, wait_until


@contextlib.contextmanager
def mounted(folder, name, size):
    """A file system in memory of so many bytes."""
    place = pathlib.Path(folder, name)
    place.mkdir()
    subprocess.run(["mount", "-t", "tmpfs", "-o", f"size={size}", "tmpfs", place], check=True)
    try:
        yield place
    finally:
        subprocess.run(["umount", "-l", place], check=True)


def kept_of(relayd, file, taken):
    """Which of the events that were answered 202 are in the file; and a relay that is started on it has to tell of a hundred of them."""
    relay, some = Relay(relayd, file), random.sample(taken, min(100, len(taken)))
    told = {event for event in some if ask(relay.address, "GET", f"/v1/endpoints/a/events/{event}").status == 200}
    relay.kill()
    with contextlib.closing(sqlite3.connect(f"file:{file}?mode=ro", uri=True)) as conn:
        there = {event for (event,) in conn.execute("SELECT id FROM deliveries")}
    return there & set(taken) if told == set(some) else told


def load(address, stop, size=2000):
    """Submits until it is stopped, and gives what was answered: the events that were taken, and the other answers."""
    taken, others, number = [], [], 0
    while not stop(number):
        event, number = f"e{number}", number + 1
        try:
            answer = submit(address, "a", os.urandom(size), event)
        except OSError:
            others.append(None)
            continue
        if answer.status == 202:
            taken.append(event)
        else:
            others.append((answer.status, answer.body))
    return taken, others


def check_full(counts, relayd, folder, subscriber):
    """A file system that becomes full: the relay ends, names the fault, and what it answered 202 is in the file once there is room."""
    with mounted(folder, "full", "4m") as place:
        file = str(place / "relay.db")
        relay = Relay(relayd, file)
        put(relay.address, "a", subscriber.port)
        ended = lambda number: relay.process.poll() is not None or number > 5000
        taken, others = load(relay.address, ended, 20000)
        counts.check("full: some were taken", len(taken) > 20)
        print(f"{len(taken)} events were taken before the file system was full")
        counts.check("full: it ends", relay.ended(20), 3)
        wait_until(lambda: len(relay.told) >= 2)
        counts.check("full: it told of it", ["halted: the store failed" in "".join(relay.told), relay.told[-1]], [True, "relayd: Halted\n"])
        counts.check("full: the others were told 503, or nothing", all(it is None or it[0] in (503, None) for it in others))
        with mounted(folder, "room", "64m") as room:
            for end in ("", "-wal"):
                shutil.copy(file + end, str(room / "relay.db") + end)
            counts.check("full: all are there", kept_of(relayd, str(room / "relay.db"), taken), set(taken))


def check_read_only(counts, relayd, folder, subscriber):
    """A file system that becomes read-only under the relay."""
    with mounted(folder, "read-only", "16m") as place:
        file = str(place / "relay.db")
        relay = Relay(relayd, file)
        put(relay.address, "a", subscriber.port)
        taken, _ = load(relay.address, lambda number: number >= 50)
        done = subprocess.run(["mount", "-o", "remount,ro", place], capture_output=True)
        if done.returncode != 0:
            # A file that is open for writing keeps its file system writable, which is as good.
            counts.check("read-only: the relay holds it", submit(relay.address, "a", b"{}", "more").status, 202)
            relay.kill()
            subprocess.run(["mount", "-o", "remount,ro", place], check=True)
        done = subprocess.run([relayd, "check", file], capture_output=True, text=True, timeout=60)
        counts.check("read-only: it isn't opened", (done.returncode, done.stdout, done.stderr in ("relayd: CannotOpen\n", "relayd: Lost\n")), (3, "", True))
        subprocess.run(["mount", "-o", "remount,rw", place], check=True)
        counts.check("read-only: all are there", kept_of(relayd, file, taken), set(taken))


def answer_to_more(address, event="more"):
    """How one more event is answered: its status, or None where the relay has ended."""
    try:
        return submit(address, "a", b"{}", event).status
    except OSError:
        return None


def check_halted(counts, name, relay):
    """The relay ends, since its file isn't there, and says so."""
    counts.check(f"{name}: it ends", relay.ended(20), 3)
    wait_until(lambda: relay.told and relay.told[-1] == "relayd: Halted\n")
    counts.check(f"{name}: it told of it", ["halted: the file isn't the one that was opened" in "".join(relay.told), relay.told[-1]], [True, "relayd: Halted\n"])


def check_gone(counts, relayd, folder, subscriber, name, take_away):
    """What stood at the path is taken away while the relay has it open: nothing is answered 202 any more, and the relay ends and says why. Gives where
    the store is now, if anywhere, and what was answered 202 before."""
    file = f"{folder}/{name}.db"
    relay = Relay(relayd, file)
    put(relay.address, "a", subscriber.port)
    taken, _ = load(relay.address, lambda number: number >= 20)
    counts.check(f"{name}: some were taken", len(taken), 20)
    moved = take_away(file)
    counts.check(f"{name}: no more is taken", answer_to_more(relay.address) in (503, None))
    check_halted(counts, name, relay)
    return moved, taken


def moved(file):
    for end in ("", "-wal"):
        os.rename(file + end, f"{file}.moved{end}")
    return f"{file}.moved"


def removed(file):
    for end in ("", "-wal"):
        os.remove(file + end)


def replaced(file):
    removed(file)
    pathlib.Path(file).write_bytes(b"another file " * 1000)


def without_log(file):
    os.remove(f"{file}-wal")


def check_taken_away(counts, relayd, folder, subscriber):
    """FILE and FILE-wal are moved, removed or replaced, or the log alone is removed. What was moved has all that was answered 202."""
    file, taken = check_gone(counts, relayd, folder, subscriber, "moved", moved)
    counts.check("moved: all are there", kept_of(relayd, file, taken), set(taken))
    for name, take_away, wanted in (("removed", removed, (0, "")), ("replaced", replaced, (4, "relayd: NotOurs\n"))):
        check_gone(counts, relayd, folder, subscriber, name, take_away)
        done = subprocess.run([relayd, "check", f"{folder}/{name}.db"], capture_output=True, text=True, timeout=60)
        counts.check(f"{name}: what is there is reported", (done.returncode, done.stderr), wanted)
    check_gone(counts, relayd, folder, subscriber, "without its log", without_log)


def check_replaced_at_once(counts, relayd, folder):
    """Another file stands at the path before the first commit: it isn't taken for the one that was opened."""
    file = f"{folder}/at-once.db"
    relay = Relay(relayd, file)
    replaced(file)
    try:
        status = put(relay.address, "a", 9).status
    except OSError:
        status = None
    counts.check("replaced at once: nothing is taken", status in (503, None))
    check_halted(counts, "replaced at once", relay)


def check_no_descriptor(counts, relayd, folder):
    """The file is gone while the relay may open no descriptor, so that it can't wake its intake: it ends once it may."""
    file = f"{folder}/no-descriptor.db"
    relay = Relay(relayd, file)
    counts.check("no descriptor: an endpoint", put(relay.address, "a", 9).status, 201)
    asked = request("POST", "/v1/endpoints/a/events", b"{}", ["webhook-id: e1"])
    before = resource.prlimit(relay.process.pid, resource.RLIMIT_NOFILE)
    with connect(relay.address) as sock:
        sock.sendall(asked[:20])
        time.sleep(0.3)
        resource.prlimit(relay.process.pid, resource.RLIMIT_NOFILE, (3, before[1]))
        removed(file)
        sock.sendall(asked[20:])
        counts.check("no descriptor: no more is taken", Answer(read_all(sock)).status in (503, None))
    time.sleep(0.3)
    resource.prlimit(relay.process.pid, resource.RLIMIT_NOFILE, before)
    check_halted(counts, "no descriptor", relay)


def check_all_moved(counts, relayd, folder, subscriber):
    check_taken_away(counts, relayd, folder, subscriber)
    check_replaced_at_once(counts, relayd, folder)
    check_no_descriptor(counts, relayd, folder)


def as_nobody(folder, relayd):
    """A program that runs a copy of relayd as a user without rights."""
    copied, program = pathlib.Path(folder, "relayd"), pathlib.Path(folder, "relayd-as-nobody")
    shutil.copy(relayd, copied)
    program.write_text(f"#!/bin/sh\nexec setpriv --reuid {NOBODY} --regid {NOBODY} --clear-groups {copied} \"$@\"\n")
    program.chmod(0o755)
    return str(program)


def check_hidden(counts, relayd, folder, subscriber):
    """The folder of FILE may not be looked into for three seconds: what is submitted meanwhile waits, and is taken then. For longer: the relay ends, and
    what it answered 202 is there."""
    os.chmod(folder, 0o755)
    place = pathlib.Path(folder, "hidden")
    place.mkdir()
    os.chown(place, NOBODY, NOBODY)
    relay = Relay(as_nobody(folder, relayd), str(place / "relay.db"))
    put(relay.address, "a", subscriber.port)
    taken, _ = load(relay.address, lambda number: number >= 20)
    counts.check("hidden: some were taken", len(taken), 20)
    place.chmod(0)
    begun = time.monotonic()
    threading.Timer(3, lambda: place.chmod(0o700)).start()
    counts.check("hidden: an event waits, and is taken", answer_to_more(relay.address), 202)
    counts.check("hidden: it waited", 2 < time.monotonic() - begun < 9)
    place.chmod(0)
    counts.check("hidden: no more is taken", answer_to_more(relay.address, "last") in (503, None))
    counts.check("hidden: it ends", relay.ended(20), 3)
    place.chmod(0o700)
    counts.check("hidden: all are there", kept_of(relayd, str(place / "relay.db"), taken + ["more"]), set(taken + ["more"]))


def check_killed(counts, relayd, folder, subscriber, kills):
    """Kills within commits of large bodies: what was answered 202 is there."""
    file = f"{folder}/killed.db"
    taken = []
    for round in range(kills):
        relay = Relay(relayd, file, "--intake", 32)
        put(relay.address, "a", subscriber.port)
        lock, before = threading.Lock(), len(taken)

        def submits(at):
            for number in range(1000):
                event = f"r{round}-{at}-{number}"
                try:
                    if submit(relay.address, "a", os.urandom(60000), event).status == 202:
                        with lock:
                            taken.append(event)
                except OSError:
                    return

        threads = [threading.Thread(target=submits, args=(at,), daemon=True) for at in range(8)]
        for it in threads:
            it.start()
        counts.check("killed: some are taken", wait_until(lambda: len(taken) >= before + 5, 60))
        time.sleep(0.02 * round)
        relay.kill()
        for it in threads:
            it.join()
    counts.check("killed: all are there", kept_of(relayd, file, taken), set(taken))
    print(f"{len(taken)} events of 60,000 bytes were taken over {kills} kills")


def main():
    relayd, counts, subscriber = program_of(__doc__), Counts(), Subscriber()
    if sys.argv[2:] == ["moved"]:
        with tempfile.TemporaryDirectory() as folder:
            check_all_moved(counts, relayd, folder, subscriber)
        return counts.end()
    if os.getuid() != 0:
        sys.exit("serve hurt: it wants root, to mount small file systems")
    with tempfile.TemporaryDirectory() as folder:
        check_full(counts, relayd, folder, subscriber)
        check_read_only(counts, relayd, folder, subscriber)
        check_all_moved(counts, relayd, folder, subscriber)
        check_hidden(counts, relayd, folder, subscriber)
        check_killed(counts, relayd, folder, subscriber, int(sys.argv[2]) if len(sys.argv) > 2 else 30)
    return counts.end()
