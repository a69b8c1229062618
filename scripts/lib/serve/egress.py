"""Posts to https through nginx with packaging/nginx-egress.conf.

The subscriber with TLS is on loopback. First it posts to nginx as the relay does: what the
subscriber sees and answers passes unchanged; an expired certificate, one of another name or of an
unknown authority, a host that isn't listed, a name without an address and one of a private address,
a subscriber that listens no more or doesn't answer with a head: each ends the connection with
nothing, and a slow subscriber is answered 504. Then a relay posts to the same. Last it tries the
addresses that count as private, and what the commands of docs/RECIPE.md install, in one nginx with
the proxy in front of the relay.

It makes certificates and names of its own. The shipped file is used with other values: port, name
server, list of hosts, root certificates, and loopback isn't private, except in a second nginx where
it stays so. It needs nginx and openssl, and names what the machine lacks.
Usage: scripts/serve egress RELAYD
"""
import concurrent.futures
import contextlib
import json
import pathlib
import re
import socket
import ssl
import struct
import tempfile
import threading
import time

from lib.command import ROOT, Counts, has, program_of, ran
from lib.serving import SECRET, Subscriber, ask, changed, exchange, free_port, nginx_of, relay_of, request, submit, wait_until

ROOTS = pathlib.Path("/etc/ssl/certs/ca-certificates.crt")
OTHER_SECRET = "whsec_" + "A" * 32
LONG = ".".join(["a" * 60] * 3) + ".example"
PATH = "/hook%2fof/the~shop'?order=1&at=%20x"
# The names of the subscriber, and of each the certificate that it shows.
SHOWN = {
    "shop.example": "good", "slow.example": "good", "head.example": "good", "gone.example": "good", "later.example": "good", LONG: "good",
    "expired.example": "expired", "wrong.example": "other", "unknown.example": "unknown", "redirect.example": "good", "silent.example": "good",
    "garbage.example": "good", "cut.example": "good", "unlisted.example": "good", "both.example": "good",
}
PUBLIC = ["1.1.1.1", "9.255.0.1", "11.0.0.1", "100.63.0.1", "100.128.0.1", "126.0.0.1", "128.0.0.1", "169.253.0.1", "172.15.0.1", "172.32.0.1", "192.0.1.1",
          "192.167.0.1", "192.169.0.1", "198.17.0.1", "198.20.0.1", "198.51.99.1", "203.0.112.1", "223.255.255.255"]
PRIVATE = ["0.0.0.0", "10.0.0.1", "10.255.255.255", "100.64.0.1", "100.79.0.1", "100.99.0.1", "100.119.0.1", "100.127.0.1", "127.0.0.1", "127.255.0.1",
           "169.254.169.254", "172.16.0.1", "172.20.0.1", "172.31.0.1", "192.0.0.8", "192.0.2.1", "192.168.0.1", "198.18.0.1", "198.19.0.1", "198.51.100.1",
           "203.0.113.1", "224.0.0.1", "239.255.255.250", "240.0.0.1", "255.255.255.255", "[::1]", "[2001:db8::1]", "unix:"]


# The type and the class that a question ends with.
ADDRESS_OF_IPV4 = b"\0\1\0\1"


class Names:
    """A name server of these names and their addresses of IPv4. It says nothing of one that has none, and of any other that there is no such name."""

    def __init__(self, addresses, port=0):
        self.addresses = addresses
        self.sock = socket.socket(socket.AF_INET, socket.SOCK_DGRAM)
        self.sock.bind(("127.0.0.1", port))
        self.port = self.sock.getsockname()[1]
        threading.Thread(target=self.serve, daemon=True).start()

    def serve(self):
        while True:
            asked, client = self.sock.recvfrom(4096)
            name, end = self.name_in(asked)
            addresses = self.addresses.get(name, [])
            if addresses or name not in self.addresses:
                shown = addresses if asked[end - 4 : end] == ADDRESS_OF_IPV4 else []
                found = b"".join(struct.pack(">HHHIH", 0xC00C, 1, 1, 60, 4) + socket.inet_aton(it) for it in shown)
                head = struct.pack(">HHHHH", 0x8180 if addresses else 0x8183, 1, len(shown), 0, 0)
                self.sock.sendto(asked[:2] + head + asked[12:end] + found, client)

    def name_in(self, asked):
        """The name that a question asks for, and where the question ends."""
        labels, at = [], 12
        while asked[at]:
            labels.append(asked[at + 1 : at + 1 + asked[at]].decode())
            at += 1 + asked[at]
        return ".".join(labels), at + 5


class Secure(Subscriber):
    """A subscriber with TLS, which shows each name the certificate that is its own."""

    def __init__(self, reply, contexts, port=0, host="127.0.0.1"):
        self.contexts, self.names = contexts, []
        self.first = ssl.SSLContext(ssl.PROTOCOL_TLS_SERVER)
        self.first.sni_callback = self.choose
        super().__init__(reply, port, host)

    def choose(self, sock, name, _):
        self.names.append(name)
        sock.context = self.contexts[SHOWN.get(name, "other")]

    def serve(self, sock):
        try:
            secure = self.first.wrap_socket(sock, server_side=True)
        except OSError:
            sock.close()
            return
        super().serve(secure)

    def posts_to(self, name):
        return [post for post in list(self.posts) if post.header("host").split(":")[0] == name]


def made_certificates(folder):
    """The certificates: by a root that nginx trusts, through two authorities as some real ones are. Of each a context that shows it."""
    make = lambda *words: ran("openssl", *words, cwd=folder)
    key = ("-newkey", "ec", "-pkeyopt", "ec_paramgen_curve:prime256v1", "-nodes")
    names = ",".join(f"DNS:{it}" for it in SHOWN)
    (folder / "authority").write_text("basicConstraints=critical,CA:TRUE\nkeyUsage=critical,keyCertSign\n")
    for name in ("root", "nobody"):
        make("req", "-x509", *key, "-days", "2", "-subj", f"/CN={name}", "-keyout", f"{name}.key", "-out", f"{name}.pem")
    for name, by in (("authority", "root"), ("issuer", "authority")):
        make("req", *key, "-subj", f"/CN={name}", "-keyout", f"{name}.key", "-out", f"{name}.csr")
        make("x509", "-req", "-in", f"{name}.csr", "-CA", f"{by}.pem", "-CAkey", f"{by}.key", "-days", "2", "-extfile", "authority", "-out", f"{name}.pem")
    contexts = {}
    for name, of, days, by in (("good", names, 2, "issuer"), ("expired", names, -1, "issuer"), ("other", "DNS:other.example", 2, "issuer"),
                               ("unknown", names, 2, "nobody")):
        (folder / "names").write_text(f"subjectAltName={of}\n")
        make("req", *key, "-subj", f"/CN={name}", "-keyout", f"{name}.key", "-out", f"{name}.csr")
        make("x509", "-req", "-in", f"{name}.csr", "-CA", f"{by}.pem", "-CAkey", f"{by}.key", "-days", days, "-extfile", "names", "-out", f"{name}.own.pem")
        above = ("issuer", "authority") if by == "issuer" else (by,)
        (folder / f"{name}.pem").write_text("".join((folder / f"{it}.pem").read_text() for it in (f"{name}.own", *above)))
        contexts[name] = ssl.SSLContext(ssl.PROTOCOL_TLS_SERVER)
        contexts[name].load_cert_chain(folder / f"{name}.pem", folder / f"{name}.key")
    return contexts


def text_of(folder, name_server, **changes):
    """The configuration as it is shipped, with this script's list, roots and name server."""
    own = {"/etc/relayd/subscribers": f"{folder}/subscribers", str(ROOTS): f"{folder}/root.pem", "NAMESERVER": f"127.0.0.1:{name_server}"}
    return changed("nginx-egress.conf", {**own, **changes})


@contextlib.contextmanager
def egress_of(folder, name, name_server, is_loopback_private):
    """An nginx that posts to https: its port, how it is loaded again, and what its log says."""
    port = free_port()
    changes = {} if is_loopback_private else {"(?:0|10|127)": "(?:0|10)"}
    with nginx_of(folder, name, text_of(folder, name_server, **changes, **{"127.0.0.1:8443": f"127.0.0.1:{port}"})) as reload:
        yield port, reload, lambda: pathlib.Path(folder, name, "log").read_text()


def replied(post):
    """How the subscriber answers, by the host that is posted to; else by the path, whose end is a status."""
    host, path = post.header("host").split(":")[0], post.line.split(" ")[1]
    if host == "slow.example":
        time.sleep(40)
        return None
    if host == "head.example":
        return in_parts(int(path[1:]))
    if host == "redirect.example":
        return b"HTTP/1.1 200 X\r\nx-accel-redirect: /shop.example/hook\r\ncontent-length: 0\r\n\r\n"
    if host == "garbage.example":
        return b"I have it\r\n\r\n"
    if host in ("silent.example", "cut.example"):
        return b"" if host == "silent.example" else b"HTTP/1.1 200 OK\r\ncontent-le"
    if host == "gone.example":
        return 410
    if path == "/early":
        return [b"HTTP/1.1 103 Early Hints\r\n\r\n", b"HTTP/1.1 200 OK\r\ncontent-length: 0\r\n\r\n"]
    status = re.search(r"/(\d{3})$", path)
    if status and status[1][0] == "3":
        return f"HTTP/1.1 {status[1]} X\r\nlocation: https://{post.header('host')}/elsewhere\r\ncontent-length: 0\r\n\r\n".encode()
    return int(status[1]) if status else 200


def in_parts(length):
    """A whole head at once, with a header of so many bytes, and its body later."""
    yield b"HTTP/1.1 200 OK\r\ncontent-length: 2\r\nx-long: " + b"x" * length + b"\r\n\r\n"
    time.sleep(10)
    yield b"{}"


def told_by(port, path, body=b"{}", event="msg_1"):
    """What nginx answers to a post."""
    headers = ["user-agent: relayd/1", "content-type: application/json", "connection: close", f"webhook-id: {event}"]
    return exchange(("127.0.0.1", port), request("POST", path, body, headers))


def status_of(told):
    """The status of a head; 'ended' where the connection ended with nothing, and None where what came is no head."""
    line = told.split(b"\r\n")[0].split(b" ")
    return "ended" if not told else int(line[1]) if line[0] == b"HTTP/1.1" else None


def check_passed(counts, port, subscriber):
    """What the subscriber gets and answers passes unchanged."""
    host = f"shop.example:{subscriber.port}"
    body = bytes(range(256)) * 256
    counts.check("it is answered", status_of(told_by(port, f"/{host}{PATH}", body)), 200)
    post = subscriber.posts[-1]
    counts.check("its request line", post.line, f"POST {PATH} HTTP/1.1")
    counts.check("its body", post.body == body)
    wanted = {"host": host, "user-agent": "relayd/1", "content-type": "application/json", "content-length": "65536", "connection": "close",
              "webhook-id": "msg_1"}
    counts.check("its headers", {name.lower(): value for name, value in post.headers}, wanted)
    counts.check("the name that its certificate is asked for", subscriber.names[-1], "shop.example")
    for path, wanted in (("", "/"), ("/", "/"), ("?a=1", "/?a=1"), ("//a//b/", "//a//b/"), ("/a/../b", "/a/../b")):
        told_by(port, f"/{host}{path}")
        counts.check(f"the path of '{path}'", subscriber.posts[-1].line, f"POST {wanted} HTTP/1.1")
    for status in (200, 204, 299, 301, 307, 400, 404, 410, 429, 500, 502, 503, 504, 599, 999):
        before = len(subscriber.posts)
        counts.check(f"a {status}", status_of(told_by(port, f"/{host}/{status}")), status)
        counts.check(f"one post for a {status}", len(subscriber.posts) - before, 1)
    told = told_by(port, f"/{host}/early").split(b"\r\n\r\n")
    counts.check("an answer after a hint", [status_of(it) for it in told[:2]], [103, 200])
    counts.check("a long name", status_of(told_by(port, f"/{LONG}:{subscriber.port}/")), 200)
    before = len(subscriber.posts)
    counts.check("a redirect in nginx's own words isn't followed", status_of(told_by(port, f"/redirect.example:{subscriber.port}/")), 200)
    counts.check("it is one post", len(subscriber.posts) - before, 1)


def check_head_first(counts, port, subscriber):
    """The head of an answer comes at once, though its body doesn't."""
    for length in (1, 40_000):
        began = time.monotonic()
        with socket.create_connection(("127.0.0.1", port), timeout=40) as sock:
            sock.sendall(request("POST", f"/head.example:{subscriber.port}/{length}", b"{}"))
            told = b""
            while b"\r\n\r\n" not in told and (part := sock.recv(65536)):
                told += part
        counts.check(f"a head before its body, a header of {length} bytes", (status_of(told), time.monotonic() - began < 8), (200, True))


def check_ended(counts, port, subscriber, closed, log):
    """What has no answer of the subscriber ends the connection with nothing, and the log says why."""
    at = lambda host, own=subscriber.port: f"/{host}:{own}/hook"
    before = len(subscriber.posts)
    cases = [
        ("an expired certificate", at("expired.example"), "certificate has expired"),
        ("a certificate of another name", at("wrong.example"), 'does not match "wrong.example"'),
        ("one of an unknown authority", at("unknown.example"), "self-signed certificate in certificate chain"),
        ("a subscriber that doesn't listen", at("shop.example", closed), "Connection refused"),
        ("a name without an address", "/nowhere.example/hook", "nowhere.example could not be resolved"),
        ("a host that isn't listed", at("unlisted.example"), None),
        ("a listed host at another port", "/shop.example:1/hook", None),
        ("a listed host in capitals", at("SHOP.example"), None),
        ("an address", at("127.0.0.1"), None),
        ("an address of IPv6", "/[::1]/hook", None),
        ("a number", "/2130706433/hook", None),
        ("no host", "/", None),
        ("a path above the root", at("shop.example") + "/../../../a", None),
        ("a path with a bad escape", at("shop.example") + "/%zz", None),
        ("a name and a user", f"/shop.example@{at('shop.example')[1:]}", None),
    ]
    for name, path, why in cases:
        counts.check(f"{name}: ended", status_of(told_by(port, path)), "ended")
        counts.check(f"{name}: the log", why is None or wait_until(lambda: why in log(), 10))
    counts.check("none of them is posted", len(subscriber.posts) - before, 0)
    for host in ("silent.example", "cut.example"):
        counts.check(f"{host}: ended", status_of(told_by(port, at(host))), "ended")
    counts.check("an answer without a head isn't made a 200", status_of(told_by(port, at("garbage.example"))), None)
    counts.check("each is posted once", len(subscriber.posts) - before, 3)
    told = [status_of(told_by(port, at("both.example"))) for _ in range(24)]
    counts.check("of two addresses each post takes one", ({*told}, told.count(200)), ({200, "ended"}, len(subscriber.posts) - before - 3))


def check_private(counts, port, subscriber, log):
    """As the file is shipped, a name of a private address gets no request, though its certificate is good."""
    before = len(subscriber.posts)
    counts.check("loopback as shipped: ended", status_of(told_by(port, f"/shop.example:{subscriber.port}/hook")), "ended")
    counts.check("loopback as shipped: no request", len(subscriber.posts) - before, 0)
    counts.check("loopback as shipped: the name that was asked for", subscriber.names[-1], "refused.invalid")
    counts.check("loopback as shipped: the log", wait_until(lambda: '"refused.invalid"' in log(), 10))


def check_slow(counts, port, silent):
    """A subscriber that takes the connection and says nothing more is answered 504, within the relay's fifteen seconds."""
    began = time.monotonic()
    counts.check("no handshake: 504", status_of(told_by(port, f"/slow.example:{silent}/hook")), 504)
    counts.check("no handshake: in time", 4 < time.monotonic() - began < 14)


def check_unnamed(counts, port):
    """A name of which the name server says nothing ends the connection, within the relay's fifteen seconds too."""
    began = time.monotonic()
    counts.check("a silent name server: ended", status_of(told_by(port, "/unnamed.example/hook")), "ended")
    counts.check("a silent name server: in time", 4 < time.monotonic() - began < 14)


def check_relay(counts, relayd, folder, egress, subscriber, closed, reload):
    """A relay that posts through nginx: what is delivered, what is tried again, and what its pages say."""
    hosts = {it: f"{it}.example:{subscriber.port}" for it in ("shop", "slow", "gone", "expired", "wrong", "later")}
    with relay_of(relayd, f"{folder}/relay.db") as relay:
        page = lambda name: ask(relay.address, "GET", f"/v1/endpoints/{name}/events/order-1").json()
        seen = lambda name: (page(name)["state"], page(name)["attempts"], page(name)["last_status"])
        for name, host in {**hosts, "refusing": f"shop.example:{closed}"}.items():
            body = {"url": f"http://127.0.0.1:{egress}/{host}/relayed?a=%20", "max": 7, "secrets": [SECRET, OTHER_SECRET]}
            counts.check(f"{name} is put", ask(relay.address, "PUT", f"/v1/endpoints/{name}", json.dumps(body).encode()).status, 201)
            counts.check(f"{name} takes an event", submit(relay.address, name, b'{"order":1}', "order-1").status, 202)
        counts.check("it is delivered", wait_until(lambda: seen("shop") == ("delivered", 1, 200), 30))
        posts = [post for post in subscriber.posts_to("shop.example") if "/relayed" in post.line]
        counts.check("by one post, signed by both secrets", [(post.line, post.body, post.is_signed_by(SECRET, OTHER_SECRET)) for post in posts],
                     [("POST /relayed?a=%20 HTTP/1.1", b'{"order":1}', True)])
        for name in ("expired", "wrong", "later", "refusing"):
            counts.check(f"{name}: no answer", wait_until(lambda: page(name)["attempts"] > 0 and page(name)["last_status"] == 0, 30))
        counts.check("gone: it is disabled", wait_until(lambda: not ask(relay.address, "GET", "/v1/endpoints/gone").json()["enabled"], 30))
        (folder / "subscribers").write_text((folder / "subscribers").read_text() + f"later.example:{subscriber.port} 1;\n")
        reload()
        counts.check("later: once it is listed, it is delivered", wait_until(lambda: seen("later")[0] == "delivered", 60))
        counts.check("later: signed", [post.is_signed_by(SECRET, OTHER_SECRET) for post in subscriber.posts_to("later.example")], [True])
        counts.check("slow: 504", wait_until(lambda: page("slow")["last_status"] == 504, 60))
        counts.check("slow: it is tried again", page("slow")["state"], "pending")


def check_addresses(counts, folder):
    """The addresses that count as private, asked of the file's own rule."""
    port, asked = free_port(), {"$upstream_addr": "$arg_of", "$subscriber_name": "public"}
    rule = re.search(r"(?ms)^map \$arg_of .*?^\}$", changed("nginx-egress.conf", asked))[0]
    with nginx_of(folder, "rule", rule, f"server {{ listen 127.0.0.1:{port}; return 200 $certified_name; }}"):
        told = {it: exchange(("127.0.0.1", port), request("GET", f"/?of={it}:443")).rpartition(b"\r\n\r\n")[2].decode() for it in PUBLIC + PRIVATE}
    counts.check("public addresses", [it for it in PUBLIC if told[it] != "public"], [])
    counts.check("private addresses", [it for it in PRIVATE if told[it] != "refused.invalid"], [])


def check_beside(counts, folder):
    """What the page's commands install, beside the proxy in front of the relay, in one nginx and at one port as both are shipped: posts take loopback,
    requests the other addresses."""
    port = free_port()
    commands = re.search(r"(?ms)^    echo 'shop.example 1;'.*?^    nginx -t", (ROOT / "docs" / "RECIPE.md").read_text())[0].rpartition("\n")[0]
    (folder / "resolv.conf").write_text("search example\nnameserver 127.0.0.1\nnameserver 127.0.0.2\n")
    (folder / "installed").mkdir()
    places = {"/etc/nginx/conf.d": folder, "/etc/resolv.conf": folder / "resolv.conf", "/etc/relayd": folder / "installed",
              "/usr/share/doc/relayd/examples": ROOT / "packaging"}
    for old, new in places.items():
        counts.check(f"the page has {old}", old in commands)
        commands = commands.replace(old, str(new))
    counts.check("the page's commands", ran("sh", "-ec", commands)[::2], (0, ""))
    egress = (folder / "egress.conf").read_text().replace("/etc/relayd", f"{folder}/installed").replace("127.0.0.1:8443", f"127.0.0.1:{port}")
    changes = {"/etc/relayd/certificate.pem": f"{folder}/good.pem", "/etc/relayd/key.pem": f"{folder}/good.key", "listen 8443": f"listen {port}"}
    if not ROOTS.exists():
        print(f"not on this machine, so not loaded: {ROOTS} (apt-get install ca-certificates)")
        egress = egress.replace(str(ROOTS), f"{folder}/root.pem")
    with nginx_of(folder, "beside", egress, changed("nginx.conf", changes)):
        context = ssl.create_default_context(cafile=folder / "root.pem")
        with context.wrap_socket(socket.create_connection(("127.0.0.2", port), timeout=30), server_hostname="shop.example") as sock:
            sock.sendall(request("GET", "/v1/status"))
            counts.check("beside: the proxy in front", status_of(sock.recv(65536)), 401)
        counts.check("beside: the proxy to https", status_of(told_by(port, "/unlisted.example/")), "ended")


def main():
    relayd, counts = program_of(__doc__), Counts()
    if not has("nginx", "openssl"):
        return counts.end()
    with tempfile.TemporaryDirectory() as name, concurrent.futures.ThreadPoolExecutor() as threads:
        folder = pathlib.Path(name)
        contexts = made_certificates(folder)
        subscriber, relayed = Secure(replied, contexts), Secure(replied, contexts)
        silent, closed = socket.create_server(("127.0.0.1", 0)), free_port()
        listed = [f"{it}:{to.port}" for to in (subscriber, relayed) for it in SHOWN if it not in ("later.example", "unlisted.example")]
        listed += [f"slow.example:{silent.getsockname()[1]}", f"shop.example:{closed}", "nowhere.example", "unnamed.example"]
        (folder / "subscribers").write_text("".join(f"{it} 1;\n" for it in listed))
        addresses = {it: ["127.0.0.1"] for it in SHOWN}
        name_server = Names({**addresses, "both.example": ["127.0.0.1", "127.0.0.3"], "unnamed.example": []}).port
        with egress_of(folder, "egress", name_server, False) as (port, reload, log):
            slow = [threads.submit(check_relay, counts, relayd, folder, port, relayed, closed, reload),
                    threads.submit(check_slow, counts, port, silent.getsockname()[1]), threads.submit(check_unnamed, counts, port)]
            check_passed(counts, port, subscriber)
            check_head_first(counts, port, subscriber)
            check_ended(counts, port, subscriber, closed, log)
            with egress_of(folder, "shipped", name_server, True) as (private, _, told):
                check_private(counts, private, subscriber, told)
            check_addresses(counts, folder)
            check_beside(counts, folder)
            for it in slow:
                it.result()
    return counts.end()
