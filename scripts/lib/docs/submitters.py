"""The programs of docs/SUBMITTERS.md, in each language that this machine has.

Each runs against a relay, and has to have its event kept once, under its id, though the relay first
doesn't listen, then closes the connection, answers 503 and a proxy 502, and though an answer is
lost after the event was kept; and each has to give up at once if the request is refused for good. A
language that isn't here (Debian: curl, nodejs, golang-go, default-jdk-headless) is named and not
counted.
Usage: scripts/docs submitters RELAYD
"""
import pathlib
import shutil
import subprocess
import sys
import tempfile
import threading

from lib.command import ROOT, Counts, program_of
from lib.languages import programs_in, with_go
from lib.serving import Subscriber, ask, exchange, free_port, put, relay_of, subscribe, wait_until

SECONDS = 300
EVENT = b'{"order":1,"note":"\xc3\xa9"}\n\x00\xff'
PYTHON = "\nimport os\nprint(send(os.environ['URL'], os.environ['ID'], open('event.json', 'rb').read()))\n"
NODE = "\nsend(process.env.URL, process.env.ID, require('node:fs').readFileSync('event.json')).then(console.log);\n"
GO = 'package main\n\nimport (\n\t"bytes"\n\t"fmt"\n\t"net/http"\n\t"os"\n\t"time"\n)\n\n'
GO_MAIN = '\nfunc main() {\n\tbody, _ := os.ReadFile("event.json")\n\tfmt.Println(send(os.Getenv("URL"), os.Getenv("ID"), body))\n}\n'
JAVA = "import java.io.IOException;\nimport java.net.URI;\nimport java.net.http.*;\nimport java.nio.file.*;\nimport java.time.Duration;\n\nclass Send {\n"
JAVA_MAIN = '\npublic static void main(String[] none) throws Exception {\n    var body = Files.readAllBytes(Path.of("event.json"));\n    ' \
    'System.out.println(send(HttpClient.newHttpClient(), System.getenv("URL"), System.getenv("ID"), body));\n}\n}\n'


def programs(page, folder):
    """Of each language the words that run its program, or None where this machine hasn't what runs it."""
    blocks = programs_in(page)
    (folder / "send.sh").write_text(blocks["sh"])
    (folder / "send.py").write_text(blocks["python"] + PYTHON)
    (folder / "send.js").write_text(blocks["javascript"] + NODE)
    (folder / "send.go").write_text(GO + blocks["go"] + GO_MAIN)
    (folder / "Send.java").write_text(JAVA + blocks["java"] + JAVA_MAIN)
    env = with_go(folder)
    yield "curl", "curl", ["sh", "send.sh"], None, env
    yield "python", sys.executable, [sys.executable, "send.py"], None, env
    yield "node", "node", ["node", "send.js"], None, env
    yield "go", "go", ["./send"], ["go", "build", "-o", "send", "send.go"], env
    yield "java", "javac", ["java", "Send"], ["javac", "Send.java"], env


class Between:
    """What stands between a program and the relay, and does to each request what the next of its turns says: it ends the connection, answers a status,
    has the relay keep the event and loses its answer, or passes both."""

    def __init__(self, relay, turns=(), port=0):
        self.relay, self.turns = relay, list(turns)
        self.listener = Subscriber(self.reply, port)
        self.port, self.requests = self.listener.port, self.listener.posts

    def reply(self, post):
        turn = self.turns.pop(0) if self.turns else "pass"
        if isinstance(turn, int):
            return f"HTTP/1.1 {turn} X\r\nretry-after: 1\r\nconnection: close\r\ncontent-length: 0\r\n\r\n".encode()
        if turn == "end":
            return None
        head = "\r\n".join([post.line, *(f"{name}: {value}" for name, value in post.headers), "", ""]).encode("latin-1")
        told = exchange(self.relay.address, head + post.body)
        return told if turn == "pass" else None


def sent(words, env, folder, port, name, event, body):
    """What a program prints that sends an event to an endpoint, or to a path."""
    (folder / "event.json").write_bytes(body)
    path = name if name.startswith("/") else f"/v1/endpoints/{name}/events"
    own = {**env, "URL": f"http://127.0.0.1:{port}{path}", "ID": event}
    told = subprocess.run(words, cwd=folder, env=own, capture_output=True, text=True, timeout=SECONDS)
    return told.stdout.strip() or told.stderr.strip()


def check_again(counts, language, send, relay, subscriber):
    """The event is kept, once and as it is, however its requests end before."""
    between = Between(relay, ["end", 503, 502, "lose"])
    counts.check(f"{language}: after four that failed", send(between.port, "shop", f"{language}-1", EVENT), "202")
    counts.check(f"{language}: five requests, of one id and the same bytes", [(it.header("webhook-id"), it.body) for it in between.requests],
                 [(f"{language}-1", EVENT)] * 5)
    posts = lambda: [post.body for post in list(subscriber.posts) if post.header("webhook-id") == f"{language}-1"]
    counts.check(f"{language}: it is posted", wait_until(posts, 60))
    counts.check(f"{language}: once, as it was sent", posts(), [EVENT])


def check_later(counts, language, send, relay):
    """A relay that doesn't listen at first."""
    port = free_port()
    begun = threading.Timer(2, lambda: Between(relay, port=port))
    begun.start()
    counts.check(f"{language}: once it listens", send(port, "shop", f"{language}-2", EVENT), "202")
    begun.join()


def check_refused(counts, language, send, relay):
    """What is refused for good is refused once, by its status."""
    cases = [
        ("other bytes under an id", "shop", f"{language}-1", b"{}", 409),
        ("an endpoint that isn't there", "nowhere", f"{language}-1", b"{}", 404),
        ("a bad id", "shop", "a.b", b"{}", 400),
        ("a long body", "shop", f"{language}-3", b"x" * 65537, 413),
    ]
    for name, endpoint, event, body, status in cases:
        between = Between(relay)
        counts.check(f"{language}: {name}", (send(between.port, endpoint, event, body), len(between.requests)), (str(status), 1))


def check_published(counts, language, send, relay):
    """An event that is published is posted to both subscribers, also if the answer to its first request is lost."""
    names, port = ("here", "there"), Between(relay, ["lose"]).port
    subscribers = [Subscriber() for _ in names]
    for name, subscriber in zip(names, subscribers):
        put(relay.address, f"{language}-{name}", subscriber.port)
        counts.check(f"{language}: a subscription", subscribe(relay.address, language, f"{language}-{name}").status, 200)
    counts.check(f"{language}: it publishes", send(port, f"/v1/topics/{language}/events", f"{language}-4", EVENT), "202")
    for name, subscriber in zip(names, subscribers):
        counts.check(f"{language}: {name} gets it", subscriber.wait_for(1))
        counts.check(f"{language}: {name} gets it once", [it.body for it in subscriber.posts], [EVENT])


def main():
    relayd, counts = program_of(__doc__), Counts()
    page = ROOT / "docs" / "SUBMITTERS.md"
    with tempfile.TemporaryDirectory() as name:
        folder, subscriber, events = pathlib.Path(name), Subscriber(), 0
        with relay_of(relayd, folder / "relay.db") as relay:
            counts.check("an endpoint is put", put(relay.address, "shop", subscriber.port).status, 201)
            for language, needed, words, build, env in programs(page, folder):
                if not shutil.which(needed):
                    print(f"{language}: not on this machine")
                    continue
                if build:
                    made = subprocess.run(build, cwd=folder, env=env, capture_output=True, text=True, timeout=SECONDS)
                    counts.check(f"{language}: it is built", (made.returncode, made.stderr), (0, ""))
                send = lambda *what, words=words, env=env: sent(words, env, folder, *what)
                check_again(counts, language, send, relay, subscriber)
                check_later(counts, language, send, relay)
                check_refused(counts, language, send, relay)
                check_published(counts, language, send, relay)
                events += 2
            totals = lambda: ask(relay.address, "GET", "/v1/endpoints/shop").json()
            counts.check("two events of each language are kept, and no other", wait_until(lambda: (totals()["delivered"], totals()["pending"]) == (events, 0), 60))
    return counts.end()
