"""What `scripts/serve check` tries of purges over real sockets. docs/FORMATS.md has the answers."""
import contextlib
import sqlite3
import time

from lib.answers import LAST_MOMENT, MOST_BODY
from lib.serving import Subscriber, ask, check_answer, publish, purge, put, relay_of, submit, subscribe, wait_until
from lib.topics import error

PATH = "/v1/retention"
MOST_RECORDS = 2**62
# So many events are purged by one request, which is answered within so many seconds.
MANY, SECONDS = 50_000, 60


def totals(address):
    return ask(address, "GET", "/v1/status").json()


def changed(file, *statements):
    """Changes a store that no relay has open."""
    with contextlib.closing(sqlite3.connect(file)) as conn, conn:
        for statement, *values in statements:
            conn.executemany(statement, *values) if values else conn.execute(statement)


def check_refused(counts, address):
    """Requests that purge nothing."""
    bodies = [
        (b'{"before":%d}' % (LAST_MOMENT + 1), "BadMoment"),
        (b'{"before":-1}', "BadMoment"),
        (b'{"before":-0}', "BadMoment"),
        (b'{"before":1.0}', "BadMoment"),
        (b'{"before":1e3}', "BadMoment"),
        (b'{"before":18446744073709551616}', "BadMoment"),
        (b'{"before":1e999}', "BadBody"),
        (b'{"before":"7"}', "BadBody"),
        (b'{"before":true}', "BadBody"),
        (b"{}", "BadBody"),
        (b"7", "BadBody"),
        (b"", "BadBody"),
    ]
    for body, name in bodies:
        check_answer(counts, f"purge: {body.decode()}", ask(address, "PUT", PATH, body), 400, error(name))
    long = b'{"before":7}'.ljust(MOST_BODY + 1)
    check_answer(counts, "purge: a long body", ask(address, "PUT", PATH, long), 413, error("TooLong"))
    for method, path in (("GET", PATH), ("POST", PATH), ("DELETE", PATH), ("PUT", f"{PATH}/"), ("PUT", f"{PATH}/a")):
        check_answer(counts, f"purge: {method} {path}", ask(address, method, path, b'{"before":7}'), 404, error("NotFound"))


def check_purges(counts, relayd, folder):
    """An event that was delivered is purged, one that waits is not. The id of the first is free then: it is taken in with other bytes, and posted under
    its id once more. Published again, an event is new to those alone who lack it. A restart changes nothing."""
    file, subscriber = f"{folder}/purges.db", Subscriber()
    with relay_of(relayd, file) as relay:
        address = relay.address
        page = lambda name, event: ask(address, "GET", f"/v1/endpoints/{name}/events/{event}")
        posted = lambda event: [it.body for it in list(subscriber.posts) if it.header("webhook-id") == event]
        for name in ("a", "b"):
            put(address, name, subscriber.port)
            subscribe(address, "t", name)
        ask(address, "PUT", "/v1/endpoints/b/enabled", b'{"enabled":false}')
        check_answer(counts, "purge: an event for two", publish(address, "t", b"{}", "msg_1"), 202, b'{"id":"msg_1","seqs":[5,6]}')
        counts.check("purge: one gets it", wait_until(lambda: page("a", "msg_1").json()["state"] == "delivered"))
        check_refused(counts, address)
        taken_in = page("a", "msg_1").json()["at"]
        check_answer(counts, "purge: before the first moment", purge(address, 0), 200, b'{"seq":8}')
        check_answer(counts, "purge: before the event", purge(address, taken_in), 200, b'{"seq":9}')
        counts.check("purge: it is still there", page("a", "msg_1").json()["state"], "delivered")
        check_answer(counts, "purge: other bytes", submit(address, "a", b"[]", "msg_1"), 409, error("Conflict"))
        check_answer(counts, "purge: before the last moment", purge(address, LAST_MOMENT), 200, b'{"seq":10}')
        check_answer(counts, "purge: it is gone", page("a", "msg_1"), 404, error("UnknownEvent"))
        counts.check("purge: what waits is there", page("b", "msg_1").json()["state"], "pending")
        counts.check("purge: the totals", totals(address), {"delivered": 0, "endpoints": 2, "exhausted": 0, "pending": 1, "records": 11})
        check_answer(counts, "purge: published again", publish(address, "t", b"{}", "msg_1"), 202, b'{"id":"msg_1","seqs":[11,6]}')
        counts.check("purge: it is posted again", wait_until(lambda: posted("msg_1") == [b"{}"] * 2))
        counts.check("purge: and delivered", wait_until(lambda: page("a", "msg_1").json()["state"] == "delivered"))
        purge(address, LAST_MOMENT)
        check_answer(counts, "purge: other bytes now", submit(address, "a", b"[]", "msg_1"), 202, b'{"id":"msg_1","seq":14}')
        counts.check("purge: they are posted", wait_until(lambda: posted("msg_1") == [b"{}", b"{}", b"[]"]))
        counts.check("purge: and delivered too", wait_until(lambda: page("a", "msg_1").json()["state"] == "delivered"))
    with contextlib.closing(sqlite3.connect(file)) as conn:
        found = [conn.execute(f"SELECT {columns} FROM {table} ORDER BY 1").fetchall() for columns, table in (("seq, id, body", "deliveries"), ("seq, delivery", "attempts"))]
        counts.check("purge: the rows", found, [[(6, "msg_1", b"{}"), (14, "msg_1", b"[]")], [(15, 14)]])
    with relay_of(relayd, file) as relay:
        counts.check("purge: a restart", totals(relay.address), {"delivered": 1, "endpoints": 2, "exhausted": 0, "pending": 1, "records": 16})
        check_answer(counts, "purge: a known id after a restart", submit(relay.address, "a", b"[]", "msg_1"), 202, b'{"id":"msg_1","seq":14}')
    subscriber.close()


def check_exhausted_purged(counts, relayd, folder):
    """An event that was given up is purged. Its last attempt by number decides, though another one has a later moment."""
    file = f"{folder}/given-up.db"
    with relay_of(relayd, file) as relay:
        put(relay.address, "a", 9)
    attempts = [(number + 1, 1, number, 500, 5000 if number < 10 else 1000) for number in range(1, 11)]
    changed(file, ("INSERT INTO deliveries VALUES(1, 0, 'msg_1', 1000, x'7b7d')",), ("INSERT INTO attempts VALUES(?, ?, ?, ?, ?)", attempts),
            ("UPDATE meta SET records = 12",))
    with relay_of(relayd, file) as relay:
        for before, count in ((1000, 1), (1001, 0)):
            counts.check(f"purge: given up, before {before}", (purge(relay.address, before).status, totals(relay.address)["exhausted"]), (200, count))


def check_large_purge(counts, relayd, folder):
    """Many events go at once, which were written into the file."""
    file = f"{folder}/many.db"
    with relay_of(relayd, file) as relay:
        put(relay.address, "a", 9)
        ask(relay.address, "PUT", "/v1/endpoints/a/enabled", b'{"enabled":false}')
    rows = [(2 + 2 * number, f"old-{number}", b"x" * 100) for number in range(MANY)]
    changed(file, ("INSERT INTO deliveries VALUES(?, 0, ?, 1000, ?)", rows), ("INSERT INTO attempts VALUES(? + 1, ?, 1, 200, 1000)", [(seq, seq) for seq, _, _ in rows]),
            (f"UPDATE meta SET records = {2 + 2 * MANY}",))
    with relay_of(relayd, file) as relay:
        counts.check("purge: many are there", totals(relay.address)["delivered"], MANY)
        began = time.monotonic()
        check_answer(counts, "purge: many", purge(relay.address, 1001), 200, b'{"seq":%d}' % (2 + 2 * MANY))
        taken = time.monotonic() - began
        print(f"{MANY} events were purged in {taken:.1f} seconds")
        counts.check("purge: many, in time", taken < SECONDS)
        counts.check("purge: many are gone", totals(relay.address)["delivered"], 0)
        counts.check("purge: an id of theirs is new", submit(relay.address, "a", b"{}", "old-7").json()["seq"], 3 + 2 * MANY)


def check_no_number_left(counts, relayd, folder):
    """A store that has as many records as there may be, without a row for them: it is opened, its pages are answered, and nothing is taken."""
    file = f"{folder}/last.db"
    with relay_of(relayd, file) as relay:
        put(relay.address, "a", 9)
    changed(file, (f"UPDATE meta SET records = {MOST_RECORDS}",))
    with relay_of(relayd, file) as relay:
        counts.check("no number left: the totals", totals(relay.address)["records"], MOST_RECORDS)
        for name, answer in (("an event", submit(relay.address, "a", b"{}")), ("a purge", purge(relay.address, 0))):
            check_answer(counts, f"no number left: {name}", answer, 503, error("SeqExhausted"))
