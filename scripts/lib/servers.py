"""The servers that `scripts/bench http` measures beside relayd: nginx, a relay in Python, a relay in Go, and PostgreSQL, which has no HTTP."""
import base64
import contextlib
import glob
import os
import pathlib
import pwd
import re
import shutil
import signal
import socket
import sqlite3
import subprocess
import sys
import time
import typing

from lib.command import SCRIPTS
from lib.formats import make_tables
from lib.serving import SECRET, STARTED, free_port, front_section, wait_until

ENDPOINTS = 40
BODY = "x" * 100
NGINX = """
worker_processes 4; pid %(folder)s/nginx.pid; error_log %(folder)s/error.log;
events { worker_connections 4096; }
http {
  access_log off; client_body_temp_path %(folder)s/body; keepalive_timeout 0;
  server { listen 127.0.0.1:%(port)d; location / { return 202 '{"id":"x","seq":1}'; } }
}
"""
FRONT = """
worker_processes 4; pid %s/front.pid; error_log %s/front.log;
events { worker_connections 4096; }
http {
  access_log off; client_body_temp_path %s/body; proxy_temp_path %s/proxy;
%s
}
"""
PLAIN = """
import http.server, socketserver, sqlite3, sys, threading, uuid
lock, base = threading.Lock(), sqlite3.connect(sys.argv[1], check_same_thread=False, isolation_level=None)
base.execute("PRAGMA journal_mode=WAL"); base.execute("PRAGMA synchronous=FULL")
base.execute("CREATE TABLE IF NOT EXISTS events(id TEXT PRIMARY KEY, endpoint TEXT, body BLOB)")
class Handler(http.server.BaseHTTPRequestHandler):
    protocol_version = "HTTP/1.1"
    def do_POST(self):
        body = self.rfile.read(int(self.headers["content-length"]))
        name = "msg_" + str(uuid.uuid4())
        with lock:
            base.execute("INSERT INTO events VALUES(?, ?, ?)", (name, self.path, body))
        told = b'{"id":"' + name.encode() + b'"}'
        self.send_response(202); self.send_header("content-length", str(len(told))); self.send_header("connection", "close")
        self.end_headers(); self.wfile.write(told); self.close_connection = True
    def log_message(self, *words):
        pass
class Server(socketserver.ThreadingMixIn, http.server.HTTPServer):
    request_queue_size, daemon_threads = 1024, True
Server(("127.0.0.1", int(sys.argv[2])), Handler).serve_forever()
"""
GO_PACKAGES = pathlib.Path("/usr/share/gocode")
POSTGRES_TABLE = """
DROP TABLE IF EXISTS deliveries;
CREATE TABLE deliveries(seq bigint GENERATED ALWAYS AS IDENTITY PRIMARY KEY, endpoint bigint NOT NULL, id text NOT NULL,
  at bigint NOT NULL, body bytea NOT NULL, UNIQUE(endpoint, id))
"""
POSTGRES_INSERT = """
\\set endpoint random(1, %d)
INSERT INTO deliveries(endpoint, id, at, body) VALUES(:endpoint, 'msg_' || gen_random_uuid(), extract(epoch FROM now())::bigint, '%s');
"""


class Run(typing.NamedTuple):
    """What was measured of a server: answers a second, in how many milliseconds half and 99 of 100 came, microseconds of processor for
    each, and how many weren't 2xx."""
    rate: float
    half: float | None
    most: float | None
    processor: float
    failed: int


def started(*words, **options):
    """A process that ends with this one."""
    process = subprocess.Popen(list(map(str, words)), **options)
    STARTED.append(process)
    return process


def wait_for(port):
    for _ in range(200):
        try:
            socket.create_connection(("127.0.0.1", port), 1).close()
            return
        except OSError:
            time.sleep(0.05)
    sys.exit(f"nothing listens at {port}")


def processor_of(process):
    """The seconds of processor that a process and its children have used, also those that ended."""
    ticks = 0
    for path in pathlib.Path("/proc").glob("[0-9]*/stat"):
        with contextlib.suppress(OSError):
            words = path.read_text().rpartition(")")[2].split()
            if process.pid in (int(path.parent.name), int(words[1])):
                ticks += sum(map(int, words[11:15]))
    return ticks / os.sysconf("SC_CLK_TCK")


def start_nginx(folder):
    port = free_port()
    (folder / "nginx.conf").write_text(NGINX % {"folder": folder, "port": port})
    return started("nginx", "-c", folder / "nginx.conf", "-g", "daemon off;", stderr=subprocess.DEVNULL), port


def start_front(folder, relay):
    """The proxy of packaging/nginx.conf in front of a relay that listens at this port."""
    port = free_port()
    (folder / "front.conf").write_text(FRONT % (*[folder] * 4, front_section(folder, f"127.0.0.1:{relay}", port)))
    front = started("nginx", "-c", folder / "front.conf", "-g", "daemon off;", stderr=subprocess.DEVNULL)
    wait_for(port)
    return front, port


def start_plain(file):
    port = free_port()
    return started(sys.executable, "-c", PLAIN, file, port, stderr=subprocess.DEVNULL), port


def built_go(folder):
    """The relay in Go, or None if this machine lacks Go or its package of SQLite."""
    if not shutil.which("go") or not (GO_PACKAGES / "src/github.com/mattn/go-sqlite3").exists():
        print("no relay in Go: apt-get install golang-go golang-github-mattn-go-sqlite3-dev")
        return None
    env = {**os.environ, "GO111MODULE": "off", "GOPATH": str(GO_PACKAGES)}
    subprocess.run(["go", "build", "-o", folder / "relay-go", SCRIPTS / "lib/bench/relay.go"], env=env, check=True)
    return folder / "relay-go"


def make_store(file):
    """A store as docs/FORMATS.md describes it, with the rows that relayd writes if it puts and disables the endpoints."""
    key = base64.b64decode(SECRET.removeprefix("whsec_"))
    with contextlib.closing(sqlite3.connect(file)) as conn, conn:
        make_tables(conn, 2 * ENDPOINTS)
        for number in range(ENDPOINTS):
            row = (2 * number, f"e{number}", "http://127.0.0.1:9/", 100, 0, 2 * number + 1, 2 * number)
            conn.execute("INSERT INTO endpoints VALUES(?, ?, ?, ?, ?, ?, ?)", row)
            conn.execute("INSERT INTO secrets VALUES(?, 0, ?)", (2 * number, key))


def start_go(program, file):
    make_store(file)
    port = free_port()
    return started(program, file, f"127.0.0.1:{port}"), port


def count_rows(file, table):
    with contextlib.closing(sqlite3.connect(file)) as conn:
        return conn.execute(f"SELECT count(*) FROM {table}").fetchone()[0]


def postgres_programs():
    """The folder of PostgreSQL's programs, or None if this machine lacks them. Debian has them outside of PATH."""
    folders = [*os.get_exec_path(), *glob.glob("/usr/lib/postgresql/*/bin")]
    for folder in map(pathlib.Path, folders):
        if all(os.access(folder / it, os.X_OK) for it in ("initdb", "postgres", "pgbench", "psql", "pg_isready")):
            return folder
    print("no PostgreSQL: apt-get install postgresql")
    return None


class Postgres:
    """A cluster of its own below a folder, with PostgreSQL's own settings except the number of connections."""

    def __init__(self, programs, folder):
        self.programs, self.folder, self.port = programs, folder / "postgres", free_port()
        self.env = {**os.environ, "PGHOST": "127.0.0.1", "PGPORT": str(self.port), "PGUSER": "relay", "PGDATABASE": "postgres"}
        self.folder.mkdir()
        self.user = self.other_user()
        self.run("initdb", "-D", self.folder / "data", "-A", "trust", "-U", "relay", "-E", "UTF8", "--locale=C", **self.user)
        (self.folder / "insert.sql").write_text(POSTGRES_INSERT % (ENDPOINTS, BODY))

    def other_user(self):
        """Options that start a program as nobody, because PostgreSQL refuses to run as root."""
        if os.getuid() != 0:
            return {}
        user = pwd.getpwnam("nobody")
        self.folder.parent.chmod(0o711)
        os.chown(self.folder, user.pw_uid, user.pw_gid)
        return {"user": user.pw_uid, "group": user.pw_gid, "extra_groups": []}

    def run(self, program, *words, **options):
        words = [self.programs / program, *map(str, words)]
        done = subprocess.run(words, cwd=self.folder, env=self.env, capture_output=True, text=True, **options)
        if done.returncode:
            sys.exit(f"{program}: {done.stderr}")
        return done.stdout

    def start(self):
        settings = ("listen_addresses=127.0.0.1", "unix_socket_directories=", "max_connections=300", "fsync=on", "synchronous_commit=on")
        words = (self.programs / "postgres", "-D", self.folder / "data", "-p", self.port, *(it for one in settings for it in ("-c", one)))
        server = started(*words, cwd=self.folder, stdout=subprocess.DEVNULL, stderr=subprocess.DEVNULL, **self.user)
        is_ready = (self.programs / "pg_isready", "-q")
        if not wait_until(lambda: subprocess.run(is_ready, env=self.env).returncode == 0):
            sys.exit("PostgreSQL doesn't start")
        return server

    def measure(self, connections, seconds):
        """INSERTs into an empty table, a transaction each, by so many clients of pgbench."""
        server = self.start()
        self.run("psql", "-q", "-c", POSTGRES_TABLE)
        before = processor_of(server)
        words = ("-n", "-M", "prepared", "-f", "insert.sql", "-c", connections, "-j", min(4, connections), "-T", seconds)
        told = self.run("pgbench", *words)
        used = processor_of(server) - before
        count = int(re.search(r"actually processed: (\d+)", told)[1])
        kept = int(self.run("psql", "-A", "-t", "-c", "SELECT count(*) FROM deliveries"))
        server.send_signal(signal.SIGINT)
        server.wait()
        if kept < count:
            sys.exit(f"PostgreSQL committed {count} events and has {kept}")
        rate = float(re.search(r"tps = ([\d.]+) \((?:without|excluding)", told)[1])
        return Run(rate, None, None, used / count * 1e6, 0)
