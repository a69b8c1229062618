"""packaging/relayd-metrics and packaging/relayd-alerts.yml, with Debian's prometheus.

What is answered is what the pages, the files and /proc say; promtool takes the metrics and the
rules, and says at which moment each rule fires; then prometheus scrapes, with the rules' windows
shortened, and each of the four alerts is seen to fire and to end. As root it also tries the user of
the relay and another one. It takes four minutes.
Usage: scripts/serve metrics RELAYD
"""
import contextlib
import json
import os
import pathlib
import re
import shutil
import signal
import socket
import sqlite3
import subprocess
import tempfile
import threading
import time
import urllib.error
import urllib.parse
import urllib.request

from lib.command import ROOT, Counts, has, needs, program_of, ran
from lib.process import NOBODY, status_of
from lib.serving import STARTED, Relay, Subscriber, ask, changed, put, submit, wait_until

PACKAGING = ROOT / "packaging"
EXPORTER = PACKAGING / "relayd-metrics"
# How the rules' windows and waits are shortened. A scrape comes every three seconds.
SHORTER = {"[10m]": "[30s]", "for: 10m": "for: 6s", "[1h]": "[30s]", "for: 1m": "for: 6s"}
SCRAPE = 3
# Generous, since other programs may have the processors.
SECONDS = 180
TEN_DAYS = 10 * 24 * 3600
# For each rule as it is shipped: what comes every 15 seconds, and whether it fires after so many minutes.
MOMENTS = [
    ("RelaydPendingGrows", "relayd_pending_events", "5+10x120 1200-100x12 0x60", [(9, False), (25, True), (45, False)]),
    ("RelaydPendingGrows", "relayd_pending_events", "7x200", [(25, False), (45, False)]),
    ("RelaydPendingGrows", "relayd_pending_events", "0 40 20 0 60 80 0 50 0 90 10 0 70 0 100 30 0 110 5 0 120 0x40", [(5, False), (12, False)]),
    ("RelaydExhaustedGrows", "relayd_exhausted_events", "3x40 4x400", [(9, False), (11, True), (60, True), (75, False)]),
    ("RelaydExhaustedGrows", "relayd_exhausted_events", "40x40 3x200 4x400", [(9, False), (11, False), (55, False), (62, True)]),
    ("RelaydEndpointDisabled", 'relayd_endpoint_enabled{endpoint="a"}', "1x20 0x20 1x20", [(4, False), (7, True), (12, False)]),
    ("RelaydNoAnswer", "relayd_up", "1x20 0x20 1x20", [(4, False), (7, True), (12, False)]),
    ("RelaydNoAnswer", 'up{job="relayd"}', "1x20 0x20 1x20", [(4, False), (7, True), (12, False)]),
]


class Served:
    """A program that is started, and where it says that it listens."""

    def __init__(self, *words, **options):
        self.process = subprocess.Popen(list(map(str, words)), stdout=subprocess.PIPE, stderr=subprocess.DEVNULL, text=True, **options)
        STARTED.append(self.process)
        host, _, port = self.process.stdout.readline().removeprefix("listening on ").strip().rpartition(":")
        self.address = (host, int(port))

    def end(self):
        self.process.terminate()
        self.process.wait()
        self.process.stdout.close()


def metrics_of(address, path="/metrics"):
    """What is answered to a scrape: the status, the type of the content, the text."""
    try:
        with urllib.request.urlopen("http://%s:%d%s" % (*address, path), timeout=60) as answer:
            return answer.status, answer.headers["content-type"], answer.read().decode()
    except urllib.error.HTTPError as error:
        return error.code, error.headers["content-type"], error.read().decode()


def values_of(text):
    """Each sample with its value."""
    return {it.rpartition(" ")[0]: float(it.rpartition(" ")[2]) for it in text.split("\n") if it and not it.startswith("#")}


def at_of(address):
    return "%s:%d" % address


def check_metrics(counts, program, folder):
    """What is answered to a scrape, beside what the pages, the files and /proc say."""
    file, subscriber = f"{folder}/relay.db", Subscriber(lambda post: 500 if post.header("webhook-id") == "bad" else 200)
    relay = Relay(program, file)
    put(relay.address, "a", subscriber.port, most=7)
    for event in ("e1", "e2", "bad"):
        submit(relay.address, "a", b"{}", event)
    put(relay.address, "b", subscriber.port)
    submit(relay.address, "b", b"{}", "e1")
    wait_until(lambda: ask(relay.address, "GET", "/v1/status").json()["records"] == 10, 30)
    exporter = Served(EXPORTER, "--relay", at_of(relay.address), "--listen", "127.0.0.1:0", file, "a", "other", "a")
    status, content, text = metrics_of(exporter.address)
    counts.check("it is answered", (status, content), (200, "text/plain; version=0.0.4; charset=utf-8"))
    counts.check("another path isn't", metrics_of(exporter.address, "/")[0], 404)
    counts.check("promtool check metrics", ran("promtool", "check", "metrics", input=text), (0, "", ""))
    found, page, process = values_of(text), ask(relay.address, "GET", "/v1/status").json(), relay.process.pid
    for metric, member in (("endpoints", "endpoints"), ("records_total", "records"), ("pending_events", "pending"), ("delivered_events", "delivered"),
                           ("exhausted_events", "exhausted")):
        counts.check(f"the page of everything: {member}", found[f"relayd_{metric}"], page[member])
    counts.check("it is up", (found["relayd_up"], 0 < found["relayd_answer_seconds"] < 5), (1, True))
    counts.check("the pages of what was done", (page["endpoints"], page["records"], page["pending"], page["delivered"]), (2, 10, 1, 3))
    of_a = {it: found[f'relayd_endpoint_{it}{{endpoint="a"}}'] for it in ("found", "enabled", "pending_events", "delivered_events",
        "exhausted_events", "max_posts")}
    counts.check("the page of a", list(of_a.values()), [1, 1, 1, 2, 0, 7])
    counts.check("an endpoint that isn't there", {it: value for it, value in found.items() if '"other"' in it}, {'relayd_endpoint_found{endpoint="other"}': 0})
    counts.check("an endpoint that isn't named", [it for it in found if '"b"' in it], [])
    sizes = [os.path.getsize(file), os.path.getsize(f"{file}-wal")]
    counts.check("the files", [found[f'relayd_store_bytes{{file="{it}"}}'] for it in ("store", "log")], sizes)
    room = shutil.disk_usage(folder).free
    counts.check("the room", abs(found["relayd_store_free_bytes"] - room) < 2**32)
    counts.check("its memory", abs(found["relayd_process_resident_memory_bytes"] - status_of(process, "VmRSS")) < 2**22)
    counts.check("its threads", found["relayd_process_threads"], len(os.listdir(f"/proc/{process}/task")))
    counts.check("its start", abs(found["relayd_process_start_time_seconds"] - time.time()) < 300)
    counts.check("its files and their limit", 3 < found["relayd_process_open_fds"] <= found["relayd_process_max_fds"])
    counts.check("its time", 0 <= found["relayd_process_cpu_seconds_total"] < 60)
    once = values_of(ran(EXPORTER, "--once", "--relay", at_of(relay.address), file, "a")[1])
    counts.check("with --once the same", once.keys(), found.keys() - {'relayd_endpoint_found{endpoint="other"}'})
    check_silent(counts, relay, exporter)
    exporter.end()


def check_silent(counts, relay, exporter):
    """A relay that stands still, and one that is killed: it is said within the time limit, and what the relay told before isn't told again."""
    relay.process.send_signal(signal.SIGSTOP)
    began = time.monotonic()
    found = values_of(metrics_of(exporter.address)[2])
    counts.check("of one that stands still", (found["relayd_up"], "relayd_pending_events" in found, found["relayd_answer_seconds"] >= 5), (0, False, True))
    counts.check("its process is there", found["relayd_process_threads"] > 1)
    counts.check("within its time", time.monotonic() - began < 20)
    relay.process.send_signal(signal.SIGCONT)
    counts.check("it goes on", wait_until(lambda: values_of(metrics_of(exporter.address)[2])["relayd_up"] == 1, 60))
    relay.kill()
    found = values_of(metrics_of(exporter.address)[2])
    counts.check("of one that is killed", (found["relayd_up"], [it for it in found if "process" in it]), (0, []))
    counts.check("its files are there", 'relayd_store_bytes{file="store"}' in found)


def check_words(counts, folder):
    """What it is called with that it doesn't take."""
    for words in ([], ["--relay", "nowhere", "a.db"], ["a.db", "Shop"], ["--listen", "127.0.0.1:99999", "a.db"]):
        status, told, fault = ran(EXPORTER, *words)
        counts.check(f"{words} is refused", (status, told, fault.startswith("usage: relayd-metrics ")), (2, "", True))
    status, told, _ = ran(EXPORTER, "--once", "--relay", "127.0.0.1:9", f"{folder}/none.db", "shop")
    counts.check("no relay and no file", (status, values_of(told)["relayd_up"], "bytes" in told), (0, 0, False))


def check_ipv6(counts, program, folder):
    """A relay and its metrics at addresses of IPv6."""
    try:
        socket.create_server(("::1", 0), family=socket.AF_INET6).close()
    except OSError:
        print("not tried: IPv6, which this machine hasn't")
        return
    relay = Relay(program, f"{folder}/ipv6.db", address="[::1]:0")
    exporter = Served(EXPORTER, "--relay", at_of(relay.address), "--listen", "[::1]:0", f"{folder}/ipv6.db")
    counts.check("over IPv6", (exporter.address[0], values_of(metrics_of(exporter.address)[2])["relayd_up"]), ("[::1]", 1))
    exporter.end()
    relay.kill()


def check_users(counts, program, folder):
    """As the relay's user it sees the files and the process; as another one the pages alone."""
    if os.getuid() != 0:
        print("not tried: other users, which wants root")
        return
    os.chmod(folder, 0o755)
    place = pathlib.Path(folder, "store")
    place.mkdir(mode=0o700)
    os.chown(place, NOBODY, NOBODY)
    for it in (program, EXPORTER):
        shutil.copy(it, folder)
        os.chmod(f"{folder}/{os.path.basename(it)}", 0o755)
    program, exporter = f"{folder}/{os.path.basename(program)}", ["/usr/bin/python3", f"{folder}/relayd-metrics"]
    relay = Served(program, "serve", place / "relay.db", "127.0.0.1:0", user=NOBODY, group=NOBODY, extra_groups=[])
    words = [*exporter, "--once", "--relay", at_of(relay.address), place / "relay.db"]
    for user, sees in ((NOBODY, True), (NOBODY - 1, False)):
        _, told, fault = ran(*words, user=user, group=user, extra_groups=[])
        found = values_of(told)
        counts.check(f"as user {user}", (found.get("relayd_up"), "relayd_process_threads" in found, 'relayd_store_bytes{file="store"}' in found, fault),
                     (1, sees, sees, ""))
    relay.end()


def check_unit(counts, folder):
    """The unit, which systemd-analyze reads."""
    if not has("systemd-analyze"):
        return
    unit = pathlib.Path(folder, "relayd-metrics.service")
    unit.write_text(changed(unit.name, {"/usr/share/relayd/relayd-metrics": str(EXPORTER)}))
    counts.check("the unit is one", [it for it in ran("systemd-analyze", "verify", "--man=no", unit)[2].split("\n") if "relayd-metrics" in it], [])


def check_rules(counts, folder):
    """What promtool says of the rules, and at which moments they fire as they are shipped."""
    pathlib.Path(folder, "rules.yml").write_text(changed("relayd-alerts.yml", SHORTER))
    for rules in (PACKAGING / "relayd-alerts.yml", f"{folder}/rules.yml"):
        status, told, fault = ran("promtool", "check", "rules", rules)
        counts.check("promtool check rules", (status, "4 rules found" in told, fault), (0, True, ""))
    for place, (alert, series, values, moments) in enumerate(MOMENTS):
        tests = [{"expr": 'count by (alertname) (ALERTS{alertstate="firing"})', "eval_time": f"{minutes}m",
                  "exp_samples": [{"labels": f'{{alertname="{alert}"}}', "value": 1}] if fires else []} for minutes, fires in moments]
        text = {"rule_files": [str(PACKAGING / "relayd-alerts.yml")], "evaluation_interval": "30s",
                "tests": [{"interval": "15s", "input_series": [{"series": series, "values": values}], "promql_expr_test": tests}]}
        pathlib.Path(folder, f"{place}.yml").write_text(json.dumps(text))
        status, told, fault = ran("promtool", "test", "rules", f"{folder}/{place}.yml")
        counts.check(f"{alert} over {values}", (status, told + fault if status else ""), (0, ""))


class Prometheus:
    """Debian's prometheus with the rules, which scrapes one address."""

    def __init__(self, folder, scraped):
        config = {"global": {"scrape_interval": f"{SCRAPE}s", "scrape_timeout": f"{SCRAPE}s", "evaluation_interval": "2s"},
                  "rule_files": [f"{folder}/rules.yml"],
                  "scrape_configs": [{"job_name": "relayd", "static_configs": [{"targets": [at_of(scraped)]}]}]}
        pathlib.Path(folder, "prometheus.yml").write_text(json.dumps(config))
        self.log = open(f"{folder}/prometheus.log", "w+")
        self.port = None
        words = ["prometheus", f"--config.file={folder}/prometheus.yml", f"--storage.tsdb.path={folder}/tsdb", "--web.listen-address=127.0.0.1:0"]
        self.process = subprocess.Popen(words, stdout=self.log, stderr=self.log)
        STARTED.append(self.process)
        if not wait_until(self.listens, SECONDS):
            raise RuntimeError(f"prometheus doesn't listen: {pathlib.Path(self.log.name).read_text()[-500:]}")

    def listens(self):
        found = re.search(r'msg="Listening on" address=127\.0\.0\.1:(\d+)', pathlib.Path(self.log.name).read_text())
        self.port = found and found[1]
        return self.port

    def data(self, path, **query):
        url = f"http://127.0.0.1:{self.port}/api/v1/{path}?{urllib.parse.urlencode(query)}"
        with urllib.request.urlopen(url, timeout=60) as answer:
            return json.load(answer)["data"]

    def value(self, query):
        with contextlib.suppress(OSError):
            found = self.data("query", query=query)["result"]
            return float(found[0]["value"][1]) if found else None

    def firing(self):
        """The alerts that fire, each with its endpoint."""
        return {(it["labels"]["alertname"], it["labels"].get("endpoint")) for it in self.data("alerts")["alerts"] if it["state"] == "firing"}

    def end(self):
        self.process.terminate()
        self.process.wait()
        self.log.close()


def doomed(program, file):
    """A store whose one event has failed nine times, and is due once its endpoint is enabled: what takes three days is written into its tables."""
    subscriber = Subscriber(lambda _: 500)
    relay = Relay(program, file)
    put(relay.address, "doomed", subscriber.port)
    submit(relay.address, "doomed", b"{}", "e1")
    wait_until(lambda: ask(relay.address, "GET", "/v1/endpoints/doomed/events/e1").json()["attempts"] == 1, 30)
    ask(relay.address, "PUT", "/v1/endpoints/doomed/enabled", b'{"enabled":false}')
    relay.kill()
    with contextlib.closing(sqlite3.connect(file)) as conn:
        for number in range(2, 10):
            conn.execute("INSERT INTO attempts SELECT ?, seq, ?, 500, 0 FROM deliveries", (number + 2, number))
        conn.execute("UPDATE attempts SET at = ?", (int(time.time()) - TEN_DAYS,))
        conn.execute("UPDATE meta SET records = 12")
        conn.commit()
    return subscriber


class Load:
    """A submitter of five events a second."""

    def __init__(self, address, name):
        self.ends, self.number = threading.Event(), 0
        self.thread = threading.Thread(target=self.submit, args=(address, name), daemon=True)
        self.thread.start()

    def submit(self, address, name):
        while not self.ends.wait(0.2):
            submit(address, name, b"{}", f"load-{self.number}")
            self.number += 1

    def end(self):
        self.ends.set()
        self.thread.join()


def seen(counts, prometheus, alert, causes, ends, endpoint=None):
    """An alert that fires after what causes it, alone, and ends after what ends it; how long each took is printed."""
    counts.check(f"{alert}: none fires before", prometheus.firing(), set())
    began = time.monotonic()
    causes()
    fires = wait_until(lambda: prometheus.firing(), SECONDS)
    counts.check(f"{alert}: it fires", prometheus.firing() if fires else None, {(alert, endpoint)})
    fired = time.monotonic()
    ends()
    counts.check(f"{alert}: it ends", wait_until(lambda: not prometheus.firing(), SECONDS))
    print(f"{alert}: fired after {fired - began:.0f} s, ended after {time.monotonic() - fired:.0f} s more")


def check_alerts(counts, program, folder):
    """Prometheus scrapes a relay, and each alert fires and ends."""
    file, may_answer, loads = f"{folder}/relay.db", threading.Event(), []
    others = doomed(program, file)
    shop, gone = Subscriber(lambda _: 200 if may_answer.wait(600) else b""), Subscriber(lambda _: 410)
    relay = Relay(program, file, "--timeout", 60)
    counts.check("the event that failed nine times is pending", ask(relay.address, "GET", "/v1/endpoints/doomed/events/e1").json()["attempts"], 9)
    put(relay.address, "shop", shop.port)
    put(relay.address, "gone", gone.port)
    words = ["--relay", at_of(relay.address), "--timeout", SCRAPE - 1, file, "shop", "gone"]
    exporter = Served(EXPORTER, "--listen", "127.0.0.1:0", *words)
    prometheus = Prometheus(folder, exporter.address)
    counts.check("it is scraped", wait_until(lambda: prometheus.value("relayd_up") == 1, SECONDS))
    counts.check("with what the page says", prometheus.value("relayd_records_total"), ask(relay.address, "GET", "/v1/status").json()["records"])
    counts.check("the job", prometheus.value('up{job="relayd"}'), 1)
    enable = lambda name, flag: ask(relay.address, "PUT", f"/v1/endpoints/{name}/enabled", b'{"enabled":%s}' % flag)

    seen(counts, prometheus, "RelaydPendingGrows", lambda: loads.append(Load(relay.address, "shop")), lambda: (loads[0].end(), may_answer.set()))
    delivered = lambda: ask(relay.address, "GET", "/v1/endpoints/shop").json()["delivered"]
    counts.check("all of the load is delivered", wait_until(lambda: delivered() == loads[0].number, SECONDS))
    seen(counts, prometheus, "RelaydExhaustedGrows", lambda: enable("doomed", b"true"), lambda: None)
    counts.check("by a tenth failure", (len(others.posts), ask(relay.address, "GET", "/v1/endpoints/doomed/events/e1").json()["state"]), (2, "exhausted"))
    seen(counts, prometheus, "RelaydEndpointDisabled", lambda: submit(relay.address, "gone", b"{}", "e1"),
         lambda: (setattr(gone, "reply", lambda _: 200), enable("gone", b"true")), endpoint="gone")
    seen(counts, prometheus, "RelaydNoAnswer", lambda: relay.process.send_signal(signal.SIGSTOP), lambda: relay.process.send_signal(signal.SIGCONT))
    again = []
    seen(counts, prometheus, "RelaydNoAnswer", exporter.end, lambda: again.append(Served(EXPORTER, "--listen", at_of(exporter.address), *words)))
    again[0].end()
    prometheus.end()
    relay.kill()


def main():
    program, counts = program_of(__doc__), Counts()
    needs("prometheus", "prometheus")
    needs("promtool", "prometheus")
    with tempfile.TemporaryDirectory() as folder:
        check_metrics(counts, program, folder)
        check_words(counts, folder)
        check_ipv6(counts, program, folder)
        check_unit(counts, folder)
        check_rules(counts, folder)
    with tempfile.TemporaryDirectory() as folder:
        check_users(counts, program, folder)
    with tempfile.TemporaryDirectory() as folder:
        pathlib.Path(folder, "rules.yml").write_text(changed("relayd-alerts.yml", SHORTER))
        check_alerts(counts, program, folder)
    return counts.end()
