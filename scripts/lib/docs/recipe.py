"""The commands of docs/RECIPE.md in a fresh Debian, up to an event that is delivered over https.

The page is what is tried: its blocks of commands run as they are, one after another. The first one
installs packages. The others run in one shell and without the machine's network: in its place are
the names and addresses of the page, with a name server and a subscriber whose certificate is by an
authority of its own. `systemctl` is lib/units.py, since systemd doesn't run in a chroot;
systemd-analyze, if the machine has it, reads the units.

After the page it looks at what the subscriber got, asks prometheus for what it scraped, makes more
copies, and has the timer's service purge the event. With SECONDS it then submits 200 events a
second over https for so long, to a subscriber that answers after 100 ms, and prints what that took.

ROOT is a fresh system, made by `debootstrap --variant=minbase bookworm ROOT`; a copy of it is used.
It wants root, and debootstrap if no ROOT is given. Packages come from Debian's mirror.
Usage: scripts/docs recipe RELAYD [ROOT [SECONDS]]
"""
import concurrent.futures
import contextlib
import ctypes
import http.client
import json
import os
import pathlib
import re
import signal
import socket
import ssl
import subprocess
import sys
import tempfile
import time
import urllib.parse
import urllib.request

from lib.command import ROOT, SCRIPTS, Counts, has, needs, program_of, ran
from lib.docs.check import blocks_of
from lib.process import seconds_of, status_of
from lib.serve.egress import Names, Secure, made_certificates
from lib.serving import ask, wait_until

PAGE = ROOT / "docs" / "RECIPE.md"
PATH = "/usr/local/sbin:/usr/local/bin:/usr/sbin:/usr/bin:/sbin:/bin"
UNITS = ("relayd.service", "relayd-metrics.service", "relayd-purge.service", "relayd-purge.timer", "relayd-backup.service", "relayd-backup.timer")
ALERTS = ["RelaydEndpointDisabled", "RelaydExhaustedGrows", "RelaydNoAnswer", "RelaydPendingGrows"]
MARK = "== block "
# Public addresses, which this machine takes for its own while it has no network.
ADDRESSES = {"relay.example": "9.255.0.1", "shop.example": "9.255.0.2"}
NEW_NETWORK = 0x40000000
RELAY, PROMETHEUS = ("127.0.0.1", 8080), "http://127.0.0.1:9090/api/v1"
INSTALLING, COMMANDS = 1800, 300
A_SECOND, ANSWER_SECONDS, SENDERS, MEGABYTE = 200, 0.1, 64, 2**20


class Fresh:
    """A fresh Debian in a folder: what runs in it, and how that ends."""

    def __init__(self, folder, given):
        self.root = folder / "root"
        if given:
            subprocess.run(["cp", "-a", "--one-file-system", given, self.root], check=True)
        else:
            print(f"debootstrap makes a fresh Debian in {self.root}", flush=True)
            subprocess.run(["debootstrap", "--variant=minbase", "bookworm", self.root], check=True, stdout=subprocess.DEVNULL)
        subprocess.run(["mount", "-t", "proc", "proc", self.root / "proc"], check=True)
        # No package starts what it installs.
        self.write("usr/sbin/policy-rc.d", "#!/bin/sh\nexit 101\n", 0o755)

    def write(self, path, text, mode=0o644):
        place = self.root / path
        place.parent.mkdir(parents=True, exist_ok=True)
        place.write_text(text)
        place.chmod(mode)

    def read(self, path):
        place = self.root / path
        return place.read_text() if place.exists() else ""

    def run(self, text, seconds):
        """How a shell of root ends that runs these commands, up to the first that fails, and what it prints."""
        env = {"PATH": PATH, "HOME": "/root", "LANG": "C.UTF-8", "DEBIAN_FRONTEND": "noninteractive"}
        shell = subprocess.Popen(["chroot", self.root, "bash", "-c", f"set -e -o pipefail\ncd\n{text}"], env=env, stdin=subprocess.DEVNULL, text=True,
                                 stdout=subprocess.PIPE, stderr=subprocess.STDOUT, start_new_session=True)
        try:
            return shell.communicate(timeout=seconds)[0], shell.returncode
        except subprocess.TimeoutExpired:
            os.killpg(shell.pid, signal.SIGKILL)
            return shell.communicate()[0], None

    def processes(self):
        """The numbers of the processes that run in it."""
        for place in pathlib.Path("/proc").glob("[0-9]*"):
            with contextlib.suppress(OSError):
                if os.readlink(place / "root") == str(self.root):
                    yield int(place.name)

    def named(self, name):
        return [it for it in self.processes() if pathlib.Path("/proc", str(it), "comm").read_text().strip() == name]

    def end(self):
        while left := list(self.processes()):
            for it in left:
                with contextlib.suppress(OSError):
                    os.kill(it, signal.SIGKILL)
            time.sleep(0.2)
        ran("umount", self.root / "proc")


def without_network():
    """Leaves the machine's network for one that has the page's addresses and no way out."""
    if ctypes.CDLL(None, use_errno=True).unshare(NEW_NETWORK):
        sys.exit(f"docs recipe: no network of its own: {os.strerror(ctypes.get_errno())}")
    for words in ("link set lo up", *(f"address add {it}/32 dev lo" for it in ADDRESSES.values())):
        subprocess.run(["ip", *words.split()], check=True)


def install(counts, fresh, relayd, block):
    """The page's first block, with a package that is made of the program."""
    made = ran(ROOT / "packaging" / "make-deb", relayd, fresh.root / "root" / "relayd.deb")
    counts.check("a package is made", made[::2], (0, ""))
    told, status = fresh.run("\n".join(block), INSTALLING)
    counts.check("the packages are installed", status if not status else told[-2000:], 0)


def prepare(fresh, folder):
    """What the page takes for given: names, an authority that the system knows, and systemctl."""
    contexts = made_certificates(folder)
    fresh.write("usr/local/share/ca-certificates/root.crt", (folder / "root.pem").read_text())
    fresh.run("update-ca-certificates", COMMANDS)
    fresh.write("etc/resolv.conf", "nameserver 127.0.0.1\n")
    fresh.write("usr/local/bin/systemctl", (SCRIPTS / "lib" / "units.py").read_text(), 0o755)
    return contexts


def follow(counts, fresh, blocks):
    """The page's other blocks: what each prints, as far as it comes."""
    told, status = fresh.run("\n".join(f"echo '{MARK}'\n" + "\n".join(block) for block in blocks), COMMANDS)
    parts = [it.strip("\n") for it in told.split(MARK + "\n")[1:]]
    if status != 0:
        print(f"FAILED block {len(parts)} of {len(blocks)}:\n  " + "\n  ".join([*blocks[max(0, len(parts) - 1)], "printed:", *parts[-1:]]))
        for log in sorted((fresh.root / "run" / "units").glob("*.log")):
            print(f"{log.name}: {log.read_text()[-1000:]}")
    counts.check("the commands succeed", (status, len(parts)), (0, len(blocks)))
    return parts + [""] * (len(blocks) - len(parts))


def check_first(counts, fresh, told, subscriber):
    """What the page's last blocks print, and what the subscriber got."""
    *_, first, now = told
    secret, *answers = first.split("\n")
    counts.check("a secret", bool(re.fullmatch(r"whsec_[A-Za-z0-9+/]{43}=", secret)))
    counts.check("an endpoint is put, an event is taken", answers[:2], ['{"seq":0}', '{"id":"order-1","seq":1}'])
    counts.check("the event is delivered", '"last_status":200,"state":"delivered"' in answers[-1])
    counts.check("over https, as shop.example, once", [(it.line, it.header("host"), it.body) for it in subscriber.posts],
                 [("POST /hook HTTP/1.1", "shop.example", b'{"order":1}')])
    counts.check("signed by the secret", [it.is_signed_by(secret) for it in subscriber.posts], [True])
    counts.check("the copy, with the purge as a record", "ok records 4 endpoints 1 pending 0" in now)
    wanted = ["relayd_up 1", "relayd_delivered_events 1", 'relayd_endpoint_found{endpoint="shop"} 1']
    counts.check("the metrics", [it for it in wanted if it not in now.split("\n")], [])
    counts.check("the purge was asked for", bool(re.search(r"purged: events that ended before .* UTC, by record \d+", fresh.read("run/units/relayd-purge.service.log"))))


def check_prometheus(counts):
    """What prometheus has scraped, and its rules."""
    def data(path, **query):
        with urllib.request.urlopen(f"{PROMETHEUS}/{path}?{urllib.parse.urlencode(query)}", timeout=30) as answer:
            return json.load(answer)["data"]

    def value():
        with contextlib.suppress(OSError, ValueError):
            return [it["value"][1] for it in data("query", query="relayd_records_total")["result"]]

    counts.check("prometheus has scraped it", wait_until(lambda: value() == ["4"], 120, 0.5))
    counts.check("prometheus has the rules", sorted(it["name"] for group in data("rules")["groups"] for it in group["rules"]), ALERTS)


def check_copies(counts, fresh):
    """Copies day by day: the last seven stay, each with its log, of the relay's user alone."""
    for _ in range(8):
        time.sleep(1.1)
        counts.check("a copy is made", fresh.run("systemctl start relayd-backup", COMMANDS), ("", 0))
    place = fresh.root / "var/lib/relayd/copies"
    names = sorted(it.name for it in place.iterdir())
    stores = [it for it in names if it.endswith(".db")]
    counts.check("seven copies stay", (len(stores), names), (7, sorted([*stores, *(f"{it}-wal" for it in stores)])))
    counts.check("they are the relay's", {(it.stat().st_mode & 0o777, it.stat().st_uid) for it in place.iterdir()}, {(0o600, place.stat().st_uid)})


def check_purged(counts, fresh):
    """The timer's service, told to keep no day, takes the event."""
    status = lambda: ask(RELAY, "GET", "/v1/endpoints/shop/events/order-1").status
    counts.check("the event is kept for a day", status(), 200)
    settings = fresh.read("etc/default/relayd")
    fresh.write("etc/default/relayd", settings.replace("RELAYD_KEEP_DAYS=1", "RELAYD_KEEP_DAYS=0"))
    time.sleep(1.5)
    counts.check("the purge", (fresh.run("systemctl start relayd-purge", COMMANDS), status()), (("", 0), 404))
    fresh.write("etc/default/relayd", settings)


def check_units(counts, fresh, folder):
    """What systemd-analyze says of the units."""
    if not has("systemd-analyze"):
        return
    for name in UNITS:
        text = fresh.read(f"usr/lib/systemd/system/{name}")
        (folder / name).write_text(re.sub(r"=/usr/(bin|share)/relayd", rf"={fresh.root}/usr/\1/relayd", text))
    for name in UNITS:
        told = ran("systemd-analyze", "verify", "--man=no", folder / name)[2]
        counts.check(f"the unit {name} is one", [it for it in told.split("\n") if "relayd" in it], [])


class Connection(http.client.HTTPSConnection):
    """A connection to a host of the page, at the address that it has here."""

    def connect(self):
        plain = socket.create_connection((ADDRESSES[self.host], self.port), self.timeout)
        self.sock = self._context.wrap_socket(plain, server_hostname=self.host)


class Sender:
    """Who submits over https, by connections that stay open, each event until it is taken."""

    def __init__(self, fresh):
        self.context = ssl.create_default_context(cafile=fresh.root / "etc/relayd/certificate.pem")
        self.headers = {"authorization": f"Bearer {fresh.read('etc/relayd/submitter').strip()}"}
        self.begun, self.waits, self.again = time.monotonic(), [], []

    def send(self, numbers):
        """Submits events at their moments: how long each was waited for."""
        connection = Connection("relay.example", 8443, timeout=60, context=self.context)
        for number in numbers:
            time.sleep(max(0, self.begun + number / A_SECOND - time.monotonic()))
            began, body = time.monotonic(), b'{"order":%d}' % number
            while (told := self.told(connection, number, body.ljust(100))) != 202:
                self.again.append(told)
                time.sleep(1)
            self.waits.append(time.monotonic() - began)

    def told(self, connection, number, body):
        """The status that a submission is answered, or why there is none."""
        try:
            connection.request("POST", "/v1/endpoints/shop/events", body, {**self.headers, "webhook-id": f"load-{number}"})
            answer = connection.getresponse()
            answer.read()
            return answer.status
        except (http.client.HTTPException, OSError) as error:
            connection.close()
            return repr(error)


def load(counts, fresh, subscriber, seconds):
    """A peak over https both ways: what it took."""
    subscriber.reply, before = lambda _: time.sleep(ANSWER_SECONDS) or 200, len(subscriber.posts)
    used = lambda: [sum(map(seconds_of, fresh.named(it))) for it in ("relayd", "nginx")]
    events, at_first, sender = int(seconds * A_SECOND), used(), Sender(fresh)
    with concurrent.futures.ThreadPoolExecutor(SENDERS) as threads:
        for it in range(SENDERS):
            threads.submit(sender.send, range(it, events, SENDERS))
    passed, waits = time.monotonic() - sender.begun, sorted(sender.waits)
    pending = lambda: ask(RELAY, "GET", "/v1/status").json()["pending"]
    counts.check("each is taken and delivered", (len(waits), wait_until(lambda: pending() == 0, 120, 0.2)), (events, True))
    behind = time.monotonic() - sender.begun - passed
    counts.check("each is posted", len({it.header("webhook-id") for it in subscriber.posts[before:]}), events)
    relayd, nginx = (1000 * (now - then) / events for then, now in zip(at_first, used()))
    memory = status_of(fresh.named("relayd")[0], "VmRSS") / MEGABYTE
    print(f"{events} events in {passed:.0f} s, answered after {waits[events // 2] * 1000:.0f} ms, 99 of 100 in {waits[events * 99 // 100] * 1000:.0f} ms; "
          f"sent again {len(sender.again)} {sorted({*map(str, sender.again)})[:3]}; delivered {behind:.1f} s later by {len(subscriber.posts) - before} posts; "
          f"an event took relayd {relayd:.2f} ms of processor, nginx {nginx:.2f} ms; relayd has {memory:.0f} MiB")


def main():
    relayd, given = program_of(__doc__), sys.argv[2] if len(sys.argv) > 2 else None
    seconds = float(sys.argv[3]) if len(sys.argv) > 3 else 0
    for program, package in (("dpkg-deb", "dpkg"), ("ip", "iproute2"), ("openssl", "openssl"), *([] if given else [("debootstrap", "debootstrap")])):
        needs(program, package)
    if os.getuid() != 0:
        sys.exit("docs recipe: it wants root, for a chroot")
    counts, (installing, *blocks) = Counts(), [block for _, block in blocks_of(PAGE.read_text())]
    with tempfile.TemporaryDirectory() as name, contextlib.ExitStack() as stack:
        folder = pathlib.Path(name).resolve()
        fresh = Fresh(folder, given)
        stack.callback(fresh.end)
        install(counts, fresh, relayd, installing)
        contexts = prepare(fresh, folder)
        without_network()
        Names({it: [address] for it, address in ADDRESSES.items()}, 53)
        subscriber = Secure(lambda _: 200, contexts, 443, ADDRESSES["shop.example"])
        check_first(counts, fresh, follow(counts, fresh, blocks), subscriber)
        check_prometheus(counts)
        check_copies(counts, fresh)
        check_purged(counts, fresh)
        check_units(counts, fresh, folder)
        if seconds:
            load(counts, fresh, subscriber, seconds)
    return counts.end()
