"""What docs/OPERATIONS.md says: copies, nginx, two relays, the clock, a full disk.

With relays, nginx and files of its own in a temporary folder it installs, stops and starts, copies
a store while a relay works on it, restores and moves it, stands behind nginx (TLS, tokens, slow
clients), purges, spreads endpoints over two relays and moves one to a third, sets back moments of a
clock that was ahead, fills a disk, and damages a file. What a machine lacks (nginx, openssl,
sqlite3, groff, systemd-analyze, root for a small file system) is named and not counted.
Usage: scripts/docs operations RELAYD
"""
import contextlib
import json
import os
import pathlib
import re
import shutil
import signal
import socket
import ssl
import sqlite3
import subprocess
import tempfile
import threading
import time

from lib.command import ROOT, Counts, has, program_of, ran
from lib.serving import OPERATOR, SECRET, SUBMITTER, Answer, Relay, Subscriber, ask, changed, free_port, front_of, nginx_of, put, read_all
from lib.serving import relay_of, request, submit, wait_until

NOWHERE = 9
TEN_YEARS = 10 * 365 * 24 * 3600


def checked(program, file):
    """What `check` tells of a file: its status, its numbers and its fault."""
    status, told, fault = ran(program, "check", file)
    return status, told.strip(), fault.strip()


def submitted(address, name, events, body=b"{}"):
    """Which of the events are answered 202."""
    return [it for it in events if submit(address, name, body, it).status == 202]


def has_all(address, name, events):
    return all(ask(address, "GET", f"/v1/endpoints/{name}/events/{it}").status == 200 for it in events)


def check_installed(counts, program, folder):
    """`make install` into a folder: the program runs, its manual has every command and no fault of layout, its units are some."""
    counts.check("it is installed", ran(ROOT / "packaging" / "install", program, f"{folder}/prefix")[0], 0)
    installed, page = f"{folder}/prefix/bin/relayd", f"{folder}/prefix/share/man/man1/relayd.1.gz"
    counts.check("the installed program runs", ran(installed, "--version"), ran(program, "--version"))
    manual = ran("zcat", page)[1]
    counts.check("the manual has the commands", sorted(re.findall(r"(?m)^\.SS (\w+)$", manual)), ["check", "replay", "serve", "sign", "vegas"])
    if has("groff"):
        counts.check("the manual is one", ran("groff", "-man", "-Tutf8", "-ww", "-z", input=manual)[2], "")
    if has("systemd-analyze"):
        for unit in ("relayd.service", "relayd-metrics.service", "relayd-purge.service", "relayd-purge.timer", "relayd-backup.service", "relayd-backup.timer"):
            told = ran("systemd-analyze", "verify", "--man=no", f"{folder}/prefix/lib/systemd/system/{unit}")
            counts.check(f"the unit {unit} is one", [line for line in told[2].split("\n") if "relayd" in line], [])


def check_stops(counts, program, folder):
    """A relay that is ended by SIGTERM or SIGKILL leaves what it answered, and the same request is answered the same after it."""
    file = f"{folder}/stops.db"
    for number, how in enumerate((signal.SIGKILL, signal.SIGTERM)):
        relay = Relay(program, file)
        counts.check(f"{how.name}: an endpoint", put(relay.address, f"a{number}", NOWHERE).status, 201)
        told = submit(relay.address, f"a{number}", b"{}", "order-1").body
        relay.process.send_signal(how)
        relay.process.wait(10)
        counts.check(f"{how.name}: it is there", checked(program, file)[1].split()[3:], ["endpoints", str(number + 1), "pending", str(number + 1)])
        with relay_of(program, file) as relay:
            counts.check(f"{how.name}: the same again", submit(relay.address, f"a{number}", b"{}", "order-1").body, told)


class Load:
    """Four submitters, and which of their events were answered 202."""

    def __init__(self, address, name):
        self.address, self.name, self.ends, self.taken = address, name, False, []
        self.threads = [threading.Thread(target=self.submit, args=(at,), daemon=True) for at in range(4)]
        for it in self.threads:
            it.start()

    def submit(self, at):
        number = 0
        while not self.ends:
            self.taken += submitted(self.address, self.name, [f"e{at}-{number}"], os.urandom(1000))
            number += 1

    def end(self):
        self.ends = True
        for it in self.threads:
            it.join()


def check_copies(counts, program, folder):
    """Copies of a store while a relay works on it have what was acknowledged before, and are restored and moved."""
    file, script = f"{folder}/copied.db", ROOT / "packaging" / "backup"
    with relay_of(program, file) as relay:
        put(relay.address, "a", NOWHERE)
        ask(relay.address, "PUT", "/v1/endpoints/a/enabled", b'{"enabled":false}')
        counts.check("without --running a relay's file isn't copied", ran(script, file, f"{folder}/no.db")[0], 3)
        if has("sqlite3"):
            told = ran("sqlite3", file, f".backup {folder}/sqlite3.db")
            counts.check("sqlite3 finds it locked", (told[0] != 0, "locked" in told[2]), (True, True))
        load, known = Load(relay.address, "a"), []
        for number in range(5):
            time.sleep(0.3)
            known.append(list(load.taken))
            counts.check(f"copy {number} is made", ran(script, "--running", file, f"{folder}/copy{number}.db"), (0, "", ""))
        counts.check("a copy isn't written over", ran(script, "--running", file, f"{folder}/copy0.db")[0], 3)
        load.end()
        counts.check("the relay goes on", submit(relay.address, "a", b"{}", "behind").status, 202)
        check_ended_copies(counts, relay, file, f"{folder}/ended.db")
    print(f"{len(load.taken)} events were taken while five copies were made")
    for number, before in enumerate(known):
        with relay_of(program, f"{folder}/copy{number}.db") as relay:
            counts.check(f"copy {number} has what was acknowledged", has_all(relay.address, "a", before))
    counts.check("of a relay that is stopped", ran(script, file, f"{folder}/stopped.db"), (0, "", ""))
    counts.check("the copy is as the store", checked(program, f"{folder}/stopped.db"), checked(program, file))
    check_moved(counts, program, folder, "stopped.db", len(load.taken) + 1)


def check_ended_copies(counts, relay, file, target):
    """A copy that is ended by SIGTERM leaves a relay that goes on, and nothing of the copy."""
    for number in range(20):
        copy = subprocess.Popen([ROOT / "packaging" / "backup", "--running", file, target])
        time.sleep(0.01 * number)
        copy.terminate()
        is_made = copy.wait() == 0
        counts.check(f"copy {number} is whole or isn't there", [os.path.exists(target + end) for end in ("", "-wal")], [is_made] * 2)
        counts.check(f"the relay goes on after copy {number}", ask(relay.address, "GET", "/v1/status").status, 200)
        for end in ("", "-wal"):
            pathlib.Path(target + end).unlink(missing_ok=True)


def check_moved(counts, program, folder, name, events):
    """A copy on another machine, which a folder stands for: what waited at the old one is posted from there."""
    other = pathlib.Path(folder, "other-machine")
    other.mkdir()
    for end in ("", "-wal"):
        shutil.copy(f"{folder}/{name}{end}", f"{other}/relay.db{end}")
    with relay_of(program, other / "relay.db") as relay:
        counts.check("what waited is there", ask(relay.address, "GET", "/v1/endpoints/a").json()["pending"], events)


def check_watched(counts, program, folder):
    """A subscriber that answers 410, as the operator sees it, and enables its endpoint again."""
    answers = [410]
    subscriber = Subscriber(lambda _: answers.pop() if answers else 200)
    with relay_of(program, f"{folder}/watched.db") as relay:
        put(relay.address, "a", subscriber.port)
        submit(relay.address, "a", b"{}", "order-1")
        page = lambda: ask(relay.address, "GET", "/v1/endpoints/a").json()
        counts.check("its page says disabled", wait_until(lambda: not page()["enabled"], 20))
        lines = lambda: [line.split(" ", 1)[1] for line in relay.told]
        counts.check("standard error told that it started", lines()[0].split(" ")[0], "started:")
        wanted = f"disabled: endpoint a at http://127.0.0.1:{subscriber.port}/hook, by a 410 to event order-1\n"
        counts.check("and of the 410", wait_until(lambda: wanted in lines(), 10))
        counts.check("its event waits", page()["pending"], 1)
        ask(relay.address, "PUT", "/v1/endpoints/a/enabled", b'{"enabled":true}')
        counts.check("enabled, it is delivered", wait_until(lambda: page()["delivered"] == 1, 20))


def check_one_slow(counts, program, folder):
    """A subscriber that never answers holds no more workers than its endpoint's maximum says, and the other's events go on."""
    silent, other = Subscriber(lambda _: time.sleep(30) or b""), Subscriber()
    with relay_of(program, f"{folder}/slow.db", "--workers", 4) as relay:
        put(relay.address, "silent", silent.port, most=3)
        put(relay.address, "other", other.port)
        submitted(relay.address, "silent", [f"e{it}" for it in range(20)])
        submitted(relay.address, "other", [f"e{it}" for it in range(20)])
        counts.check("the other's are posted", other.wait_for(20, 20))
        counts.check("three are with the silent one", len(silent.posts), 3)


def check_purged(counts, program, folder):
    """What packaging/purge does, and what it says if the relay doesn't answer, or has no number left, or its words are bad."""
    script, subscriber = ROOT / "packaging" / "purge", Subscriber()
    with relay_of(program, f"{folder}/purged.db") as relay:
        at, told = "%s:%d" % relay.address, lambda *words: ran(script, "--relay", at, *words)
        delivered = lambda: ask(relay.address, "GET", "/v1/status").json()["delivered"]
        put(relay.address, "a", subscriber.port)
        submit(relay.address, "a", b"{}", "order-1")
        counts.check("purge: an event is delivered", wait_until(lambda: delivered() == 1, 20))
        time.sleep(1.5)
        status, line, fault = told(1)
        counts.check("purge: a day", (status, bool(re.fullmatch(r"purged: events that ended before \d{4}-\d\d-\d\d \d\d:\d\d:\d\d UTC, by record 3\n", line)), fault), (0, True, ""))
        counts.check("purge: it is kept for a day", delivered(), 1)
        counts.check("purge: without a day", (told(0)[::2], delivered()), ((0, ""), 0))
        counts.check("purge: more days than there were", told(10**9)[0], 0)
        for words in ([], [""], ["-1"], ["1.5"], ["1", "2"]):
            counts.check(f"purge: bad words {words}", told(*words)[0], 2)
    counts.check("purge: nobody answers", (told(1)[0], told(1)[2].startswith("purge: no answer")), (1, True))
    changed_by(f"{folder}/purged.db", "VACUUM")
    counts.check("purge: vacuumed, it is a store", checked(program, f"{folder}/purged.db"), (0, "ok records 6 endpoints 1 pending 0", ""))
    changed_by(f"{folder}/purged.db", f"UPDATE meta SET records = {2**62}")
    with relay_of(program, f"{folder}/purged.db") as relay:
        refused = ran(script, "--relay", "%s:%d" % relay.address, 1)
        counts.check("purge: it is refused", refused, (1, "", 'purge: 503 {"error":"SeqExhausted"}\n'))


def over_tls(context, port, *pieces, token=None):
    """What is answered to a request that comes over TLS."""
    with context.wrap_socket(socket.create_connection(("127.0.0.1", port), timeout=30)) as sock:
        for piece in pieces:
            sock.sendall(piece)
        return Answer(read_all(sock))


def asked(method, path, body=b"", token=None, event=None):
    headers = ["connection: close"]
    headers += [f"authorization: Bearer {token}"] if token else []
    headers += [f"webhook-id: {event}"] if event else []
    return request(method, path, body, headers)


def check_behind_nginx(counts, program, folder):
    """The configuration of packaging/nginx.conf: TLS, tokens, a bound of bodies, and slow clients that hold none of the relay's threads."""
    if not has("nginx", "openssl"):
        return
    with relay_of(program, f"{folder}/behind.db", "--intake", 2) as relay:
        with front_of(folder, relay) as port:
            context = ssl.create_default_context(cafile=f"{folder}/certificate.pem")
            context.check_hostname = False
            tell = lambda *words, **more: over_tls(context, port, asked(*words, **more))
            endpoint = json.dumps({"url": "http://127.0.0.1:9/hook", "max": 7, "secrets": [SECRET]}).encode()
            steps = [
                ("no token", ("GET", "/v1/status"), {}, 401),
                ("another token", ("GET", "/v1/status"), {"token": "b" * 64}, 401),
                ("the token in capitals", ("GET", "/v1/status"), {"token": OPERATOR.upper()}, 401),
                ("a submitter puts no endpoint", ("PUT", "/v1/endpoints/a", endpoint), {"token": SUBMITTER}, 401),
                ("the operator does", ("PUT", "/v1/endpoints/a", endpoint), {"token": OPERATOR}, 201),
                ("a submitter submits", ("POST", "/v1/endpoints/a/events", b"{}"), {"token": SUBMITTER, "event": "order-1"}, 202),
                ("and looks", ("GET", "/v1/endpoints/a/events/order-1"), {"token": SUBMITTER}, 200),
                ("a body of 65,536 bytes", ("POST", "/v1/endpoints/a/events", b"x" * 65536), {"token": SUBMITTER}, 202),
                ("one byte more", ("POST", "/v1/endpoints/a/events", b"x" * 65537), {"token": SUBMITTER}, 413),
                ("a submitter doesn't purge", ("PUT", "/v1/retention", b'{"before":0}'), {"token": SUBMITTER}, 401),
                ("the operator purges", ("PUT", "/v1/retention", b'{"before":0}'), {"token": OPERATOR}, 200),
                ("another path", ("GET", "/"), {"token": OPERATOR}, 404),
            ]
            for name, words, more, status in steps:
                counts.check(f"nginx: {name}", tell(*words, **more).status, status)
            counts.check("nginx: the event's id", tell("POST", "/v1/endpoints/a/events", b"{}", token=SUBMITTER, event="order-1").json()["id"], "order-1")
            check_slow_clients(counts, relay, context, port)


def check_slow_clients(counts, relay, context, port):
    """Twenty clients that send a byte now and then through nginx, where the relay has two threads; and then two that come without nginx."""
    clients = [context.wrap_socket(socket.create_connection(("127.0.0.1", port))) for _ in range(20)]
    for client in clients:
        client.sendall(asked("POST", "/v1/endpoints/a/events", b"x" * 100, token=SUBMITTER)[:-50])
    for _ in range(3):
        time.sleep(0.5)
        for client in clients:
            client.sendall(b"x")
    began = time.monotonic()
    counts.check("slow clients hold no thread of the relay", (ask(relay.address, "GET", "/v1/status").status, time.monotonic() - began < 5), (200, True))
    for client in clients:
        client.close()
    silent = [socket.create_connection(relay.address) for _ in range(2)]
    time.sleep(0.5)
    began = time.monotonic()
    counts.check("without nginx", (ask(relay.address, "GET", "/v1/status").status, time.monotonic() - began > 5), (200, True))
    for sock in silent:
        sock.close()


def check_several_relays(counts, program, folder):
    """The configuration of packaging/nginx-two-relays.conf; then a third relay, to which an endpoint is moved while events come."""
    if not has("nginx"):
        return
    port, subscriber = free_port(), Subscriber()
    with contextlib.ExitStack() as stack:
        relays = [stack.enter_context(relay_of(program, f"{folder}/relay{it}.db")) for it in (1, 2, 3)]
        changes = {f"127.0.0.1:808{it}": "%s:%d" % relay.address for it, relay in enumerate(relays, 1)}
        text = changed("nginx-two-relays.conf", {**changes, "listen 127.0.0.1:8090": f"listen 127.0.0.1:{port}"})
        reload = stack.enter_context(nginx_of(folder, "spread", text))
        front, names = ("127.0.0.1", port), [f"shop-{it}" for it in range(12)]
        counts.check("each endpoint is put", [put(front, it, subscriber.port).status for it in names], [201] * 12)
        counts.check("and found", [ask(front, "GET", f"/v1/endpoints/{it}").status for it in names], [200] * 12)
        pages = [ask(front, "GET", f"/v1/status/{it}").json()["endpoints"] for it in (1, 2, 3)]
        counts.check("the two have them all", (sum(pages), pages[2], min(pages[:2]) > 0), (12, 0, True))
        check_third(counts, relays, front, names[0], subscriber, lambda old, new: replace_in(folder, old, new, reload))
        relays[0].kill()
        asked_now = sorted({ask(front, "GET", f"/v1/endpoints/{it}").status for it in names[1:]})
        counts.check("where one is down, none is asked in its place", asked_now, [200, 502])


def replace_in(folder, old, new, reload):
    conf = pathlib.Path(folder, "spread", "nginx.conf")
    conf.write_text(conf.read_text().replace(old, new))
    reload()


def check_third(counts, relays, front, name, subscriber, replace):
    """The steps by which an endpoint moves, while one submitter goes on."""
    old = next(it for it in relays if ask(it.address, "GET", f"/v1/endpoints/{name}").status == 200)
    load = Load(front, name)
    counts.check("it is put at the third", put(relays[2].address, name, subscriber.port).status, 201)
    counts.check("and holds what comes", ask(relays[2].address, "PUT", f"/v1/endpoints/{name}/enabled", b'{"enabled":false}').status, 200)
    time.sleep(0.5)
    replace("# shop third", f"{name} third")
    time.sleep(0.5)
    load.end()
    page = lambda relay: ask(relay.address, "GET", f"/v1/endpoints/{name}").json()
    counts.check("the old one comes to its end", wait_until(lambda: page(old)["pending"] == 0, 30))
    counts.check("the new one holds some", page(relays[2])["pending"] > 0)
    ask(old.address, "PUT", f"/v1/endpoints/{name}/enabled", b'{"enabled":false}')
    ask(relays[2].address, "PUT", f"/v1/endpoints/{name}/enabled", b'{"enabled":true}')
    posted = lambda: {post.header("webhook-id") for post in subscriber.posts}
    counts.check("each event that was taken is posted", wait_until(lambda: posted() >= set(load.taken), 30))
    print(f"{len(load.taken)} events were taken while an endpoint moved")


def changed_by(file, statements):
    """Changes a store that no relay has open."""
    with contextlib.closing(sqlite3.connect(file)) as conn:
        conn.executescript(statements)


def check_clock(counts, program, folder):
    """A failed event of a relay whose clock was ten years ahead is due in ten years, and soon once its moments are set back as the page says."""
    file, statuses = f"{folder}/ahead.db", [500]
    subscriber = Subscriber(lambda _: statuses.pop() if statuses else 200)
    page = lambda: ask(relay.address, "GET", "/v1/endpoints/a/events/order-1").json()
    with relay_of(program, file) as relay:
        put(relay.address, "a", subscriber.port)
        submit(relay.address, "a", b"{}", "order-1")
        counts.check("clock: an attempt failed", wait_until(lambda: page()["last_status"] == 500, 20))
    changed_by(file, f"UPDATE deliveries SET at = at + {TEN_YEARS}; UPDATE attempts SET at = at + {TEN_YEARS}")
    with relay_of(program, file) as relay:
        counts.check("clock: it is due in ten years", page()["due"] > time.time() + TEN_YEARS - 3600)
    cure = re.search(r'sqlite3 FILE "(UPDATE [^"]*)"', (ROOT / "docs" / "OPERATIONS.md").read_text())
    changed_by(file, cure[1])
    counts.check("clock: set back, it is a store", checked(program, file), (0, "ok records 3 endpoints 1 pending 1", ""))
    with relay_of(program, file) as relay:
        counts.check("clock: and the event is delivered", wait_until(lambda: page()["state"] == "delivered", 20))


def check_full_disk(counts, program, folder):
    """A file system that becomes full: the relay ends and says so; with room again it is started, and has what it acknowledged."""
    place = pathlib.Path(folder, "disk")
    place.mkdir()
    if os.getuid() != 0 or ran("mount", "-t", "tmpfs", "-o", "size=4m", "tmpfs", place)[0] != 0:
        print("not tried: a full disk, which wants root for a small file system")
        return
    try:
        (place / "ballast").write_bytes(bytes(2**21))
        relay, taken = Relay(program, place / "relay.db"), []
        put(relay.address, "a", NOWHERE)
        for number in range(500):
            try:
                if submit(relay.address, "a", os.urandom(50000), f"e{number}").status != 202:
                    break
            except OSError:
                break
            taken.append(f"e{number}")
        counts.check("full: it ends with status 3", relay.ended(30), 3)
        relay.teller.join()
        counts.check("full: it says why", [any(re.match(r"\d+ halted: ", line) for line in relay.told), relay.told[-1]], [True, "relayd: Halted\n"])
        (place / "ballast").unlink()
        with relay_of(program, place / "relay.db") as relay:
            counts.check("with room, all are there", (len(taken) > 3, has_all(relay.address, "a", taken)), (True, True))
            counts.check("and more is taken", submit(relay.address, "a", b"{}", "more").status, 202)
        print(f"{len(taken)} events were taken before the disk was full")
    finally:
        ran("umount", "-l", place)


def check_damaged(counts, program, folder):
    """A file that somebody wrote over: no relay serves it, and the copy takes its place."""
    file, copy = f"{folder}/damaged.db", f"{folder}/copy-of-damaged.db"
    with relay_of(program, file) as relay:
        put(relay.address, "a", NOWHERE)
        submit(relay.address, "a", b"{}", "order-1")
    ran(ROOT / "packaging" / "backup", file, copy)
    for end in ("", "-wal"):
        data = bytearray(pathlib.Path(file + end).read_bytes())
        data[: len(data) // 2] = os.urandom(len(data) // 2)
        pathlib.Path(file + end).write_bytes(data)
    status, told, fault = checked(program, file)
    counts.check("damaged: it is refused by a name", (status in (3, 4), told, fault.startswith("relayd: ")), (True, "", True))
    counts.check("damaged: no relay serves it", ran(program, "serve", file, "127.0.0.1:0"), (status, "", fault + "\n"))
    for end in ("", "-wal"):
        os.remove(file + end)
        shutil.copy(copy + end, file + end)
    with relay_of(program, file) as relay:
        counts.check("the copy is served", ask(relay.address, "GET", "/v1/endpoints/a/events/order-1").status, 200)


def main():
    program, counts = program_of(__doc__), Counts()
    steps = (check_installed, check_stops, check_copies, check_watched, check_one_slow, check_purged, check_behind_nginx, check_several_relays, check_clock,
             check_full_disk, check_damaged)
    for step in steps:
        with tempfile.TemporaryDirectory() as folder:
            step(counts, program, folder)
    return counts.end()
