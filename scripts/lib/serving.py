"""A relay that serves, those who submit to it and those who listen for its posts. A program that imports this ends what it started, also if it is
ended by SIGTERM itself."""
import atexit
import base64
import contextlib
import email.utils
import hashlib
import hmac
import json
import pathlib
import signal
import socket
import subprocess
import sys
import threading
import time

from lib.command import ROOT, ran

SECRET = "whsec_MDEyMzQ1Njc4OTAxMjM0NTY3ODkwMTIz"
# The tokens of those who come through the proxy in front.
SUBMITTER, OPERATOR = "5" * 64, "a" * 64
STARTED = []


def end_all():
    """Ends what still runs. SIGTERM comes first, by which nginx ends its workers too."""
    still = [process for process in STARTED if process.poll() is None]
    for process in still:
        process.terminate()
    for process in still:
        try:
            process.wait(5)
        except subprocess.TimeoutExpired:
            process.kill()


atexit.register(end_all)
signal.signal(signal.SIGTERM, lambda *_: sys.exit(143))


class Relay:
    """A process of `relayd serve` on a file, at a port of its own. `limit` is called in it before it is the program."""

    def __init__(self, relayd, file, *options, address="127.0.0.1:0", env=None, limit=None):
        words = [relayd, "serve", file, address, *map(str, options)]
        self.process = subprocess.Popen(words, stdout=subprocess.PIPE, stderr=subprocess.PIPE, text=True, env=env, preexec_fn=limit)
        STARTED.append(self.process)
        self.told = []
        self.teller = threading.Thread(target=self.listen, daemon=True)
        self.teller.start()
        line = self.process.stdout.readline()
        if not line.startswith("listening on "):
            self.process.wait()
            self.teller.join()
            raise RuntimeError(f"relayd serve ended with {self.process.returncode}: {''.join(self.told)}")
        host, _, port = line[len("listening on "):].strip().rpartition(":")
        self.address = (host, int(port))

    def listen(self):
        for line in self.process.stderr:
            self.told.append(line)

    def kill(self):
        """Ends it by SIGKILL."""
        self.process.send_signal(signal.SIGKILL)
        self.process.wait()
        self.teller.join()
        self.process.stdout.close()
        self.process.stderr.close()

    def ended(self, seconds):
        """The exit status, if it ends by itself within so many seconds. All that it told is there then."""
        try:
            self.process.wait(seconds)
        except subprocess.TimeoutExpired:
            return None
        self.teller.join()
        return self.process.returncode


@contextlib.contextmanager
def relay_of(*words, **options):
    relay = Relay(*words, **options)
    try:
        yield relay
    finally:
        relay.kill()


def connect(address, seconds=40):
    sock = socket.create_connection(address, timeout=seconds)
    sock.setsockopt(socket.IPPROTO_TCP, socket.TCP_NODELAY, 1)
    return sock


def read_all(sock):
    """What comes until the other side closes, also where it resets the connection then."""
    parts = []
    try:
        while part := sock.recv(65536):
            parts.append(part)
    except ConnectionError:
        pass
    return b"".join(parts)


def exchange(address, *pieces, pause=0.0, shut=False, seconds=40):
    """Sends the pieces over a connection of their own, and gives what comes back until it is closed."""
    with connect(address, seconds) as sock:
        try:
            for piece in pieces:
                sock.sendall(piece)
                if pause:
                    time.sleep(pause)
            if shut:
                sock.shutdown(socket.SHUT_WR)
        except ConnectionError:
            pass
        return read_all(sock)


class Answer:
    """An answer: its status, its headers in their order, and its body."""

    def __init__(self, raw):
        head, _, self.body = raw.partition(b"\r\n\r\n")
        lines = head.decode("latin-1").split("\r\n")
        words = lines[0].split(" ", 2)
        self.status = int(words[1]) if len(words) > 1 and words[1].isdigit() else None
        self.headers = [tuple(line.split(": ", 1)) for line in lines[1:] if ": " in line]

    def header(self, name):
        return next((value for it, value in self.headers if it == name), None)

    def json(self):
        return json.loads(self.body)


def request(method, path, body=b"", headers=()):
    head = [f"{method} {path} HTTP/1.1", "host: relay", f"content-length: {len(body)}", *headers, "", ""]
    return "\r\n".join(head).encode() + body


def ask(address, method, path, body=b"", headers=(), seconds=40):
    return Answer(exchange(address, request(method, path, body, headers), seconds=seconds))


def put(address, name, port, most=100, secrets=(SECRET,), path="/hook"):
    body = json.dumps({"url": f"http://127.0.0.1:{port}{path}", "max": most, "secrets": list(secrets)}).encode()
    return ask(address, "PUT", f"/v1/endpoints/{name}", body)


def submit(address, name, body, event=None):
    return post(address, f"/v1/endpoints/{name}/events", body, event)


def publish(address, topic, body, event=None):
    return post(address, f"/v1/topics/{topic}/events", body, event)


def post(address, path, body, event=None):
    return ask(address, "POST", path, body, [f"webhook-id: {event}"] if event else [])


def subscribe(address, topic, name, flag=True):
    return ask(address, "PUT", f"/v1/endpoints/{name}/topics/{topic}", json.dumps({"subscribed": flag}).encode())


def purge(address, before):
    """Purges, which is one commit however much it removes."""
    return ask(address, "PUT", "/v1/retention", json.dumps({"before": before}).encode(), seconds=600)


class Post:
    """A request that a subscriber got."""

    def __init__(self, head, body):
        lines = head.decode("latin-1").split("\r\n")
        self.line = lines[0]
        self.headers = [tuple(line.split(": ", 1)) for line in lines[1:]]
        self.body = body

    def header(self, name):
        """The value of a header, whose name may have been written in other letters on its way."""
        return next(value for it, value in self.headers if it.lower() == name)

    def is_signed_by(self, *secrets):
        """Whether the signature is that of Standard Webhooks 1.0.0: for each secret, the newest first."""
        signed = f"{self.header('webhook-id')}.{self.header('webhook-timestamp')}.".encode() + self.body
        parts = []
        for secret in secrets:
            key = base64.b64decode(secret.removeprefix("whsec_"))
            mac = hmac.new(key, signed, hashlib.sha256).digest()
            parts.append("v1," + base64.b64encode(mac).decode())
        return self.header("webhook-signature") == " ".join(parts)


def read_post(sock):
    raw = b""
    while b"\r\n\r\n" not in raw:
        part = sock.recv(65536)
        if not part:
            return None
        raw += part
    head, _, body = raw.partition(b"\r\n\r\n")
    post = Post(head, body)
    length = int(post.header("content-length"))
    while len(post.body) < length:
        part = sock.recv(65536)
        if not part:
            return None
        post.body += part
    return post


class Subscriber:
    """Listens at a port, of its own where none is said, and answers each post by what `reply` says of it: a status, or bytes as they are
    sent, or several of them, one after another."""

    def __init__(self, reply=lambda post: 200, port=0, host="127.0.0.1"):
        self.reply = reply
        self.posts = []
        self.open = self.most = 0
        self.lock = threading.Lock()
        self.listener = socket.create_server((host, port), backlog=256)
        self.port = self.listener.getsockname()[1]
        threading.Thread(target=self.accept, daemon=True).start()

    def accept(self):
        while True:
            try:
                sock, _ = self.listener.accept()
            except OSError:
                return
            threading.Thread(target=self.serve, args=(sock,), daemon=True).start()

    def serve(self, sock):
        self.count(1)
        try:
            post = read_post(sock)
            told = None
            if post is not None:
                with self.lock:
                    self.posts.append(post)
                told = self.reply(post)
            if isinstance(told, int):
                told = f"HTTP/1.1 {told} X\r\ncontent-length: 0\r\n\r\n".encode()
        except OSError:
            told = None
        self.count(-1)
        try:
            for piece in [told] if isinstance(told, bytes) else told or []:
                sock.sendall(piece)
        except OSError:
            pass
        finally:
            sock.close()

    def count(self, more):
        with self.lock:
            self.open += more
            self.most = max(self.most, self.open)

    def close(self):
        self.listener.close()

    def wait_for(self, count, seconds=30):
        return wait_until(lambda: len(self.posts) >= count, seconds)


@contextlib.contextmanager
def nginx_of(folder, name, *sections):
    """An nginx of these parts of its `http` block."""
    place = pathlib.Path(folder, name)
    place.mkdir()
    kept = "".join(f"{it}_temp_path {place}/{it}; " for it in ("client_body", "proxy", "fastcgi", "uwsgi", "scgi"))
    conf = f"pid {place}/pid; error_log {place}/log; events {{ worker_connections 512; }}\nhttp {{ access_log off; keepalive_timeout 0; {kept}\n" + "\n".join(sections) + "\n}\n"
    (place / "nginx.conf").write_text(conf)
    words = ["nginx", "-c", str(place / "nginx.conf")]
    server = subprocess.Popen([*words, "-g", "daemon off;"], stdout=subprocess.DEVNULL, stderr=subprocess.DEVNULL)
    STARTED.append(server)
    try:
        if not wait_until((place / "pid").exists, 10):
            raise RuntimeError(ran(*words, "-t")[2])
        time.sleep(0.5)
        yield lambda: ran(*words, "-s", "reload") and time.sleep(1)
    finally:
        server.terminate()
        server.wait()


@contextlib.contextmanager
def front_of(folder, relay):
    """The proxy of packaging/nginx.conf in front of a relay, at a port of its own."""
    port = free_port()
    with nginx_of(folder, "front", front_section(folder, "%s:%d" % relay.address, port)):
        yield port


def front_section(folder, relay, port):
    """packaging/nginx.conf for a relay at this address, to listen at this port, with a certificate that is made in the folder."""
    ran("openssl", "req", "-x509", "-newkey", "rsa:2048", "-nodes", "-days", "1", "-subj", "/CN=localhost", "-keyout", f"{folder}/key.pem", "-out",
        f"{folder}/certificate.pem")
    changes = {"/etc/relayd/": f"{folder}/", "127.0.0.1:8080": relay, "listen 8443": f"listen 127.0.0.1:{port}", "SUBMITTER-TOKEN": SUBMITTER,
               "OPERATOR-TOKEN": OPERATOR, "/usr/share/relayd": str(ROOT / "packaging")}
    return changed("nginx.conf", changes)


def free_port():
    with socket.socket() as listener:
        listener.bind(("127.0.0.1", 0))
        return listener.getsockname()[1]


def changed(name, changes):
    """A file of packaging/, with these texts changed, each of which stands in it."""
    text = (ROOT / "packaging" / name).read_text()
    for old, new in changes.items():
        assert old in text, f"{name} has no {old}"
        text = text.replace(old, new)
    return text


def wait_until(holds, seconds=30, pause=0.02):
    """Whether it holds within so many seconds. It is looked at with such pauses."""
    until = time.monotonic() + seconds
    while not holds():
        if time.monotonic() > until:
            return False
        time.sleep(pause)
    return True


def check_answer(counts, name, answer, status, body):
    """An answer of the relay: its status, its body, and its headers, no others and in this order."""
    counts.check(f"{name}: status and body", (answer.status, answer.body), (status, body))
    retry = [("retry-after", "1")] if status == 503 else []
    date = answer.header("date")
    wanted = [("content-type", "application/json"), *retry, ("date", date), ("connection", "close"), ("content-length", str(len(body)))]
    counts.check(f"{name}: headers", answer.headers, wanted)
    told = email.utils.parsedate_tz(date or "")
    counts.check(f"{name}: its date is now", told is not None and abs(email.utils.mktime_tz(told) - time.time()) < 10)
