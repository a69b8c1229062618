"""What `scripts/serve check` tries of topics over real sockets. docs/FORMATS.md has the answers."""
import concurrent.futures
import contextlib
import sqlite3
import time

from lib.answers import MOST_BODY
from lib.serving import SECRET, Subscriber, ask, check_answer, post, publish, put, relay_of, submit, subscribe, wait_until

MOST_ENDPOINTS, MOST_PENDING = 256, 10_000


def error(name):
    """The body of a refusal."""
    return b'{"error":"%s"}' % name.encode()


def check_topic_refusals(counts, address):
    """Requests of topics that are refused, each by the first of two faults."""
    changes = [
        ("/v1/endpoints/a/topics/T", b"{}", 400, "BadName"),
        ("/v1/endpoints/a/topics/", b"{}", 400, "BadName"),
        ("/v1/endpoints/A/topics/t", b"x" * (MOST_BODY + 1), 400, "BadName"),
        ("/v1/endpoints/a/topics/" + "t" * 33, b"{}", 400, "BadName"),
        ("/v1/endpoints/c/topics/t", b"x" * (MOST_BODY + 1), 413, "TooLong"),
        ("/v1/endpoints/c/topics/t", b'{"subscribed":1}', 400, "BadBody"),
        ("/v1/endpoints/c/topics/t", b'{"subscribed":true}', 404, "UnknownEndpoint"),
        ("/v1/endpoints/a/topics", b'{"subscribed":true}', 404, "NotFound"),
        ("/v1/endpoints/a/topics/t/u", b'{"subscribed":true}', 404, "NotFound"),
        ("/v1/topics/t/events", b"{}", 404, "NotFound"),
    ]
    for path, body, status, name in changes:
        check_answer(counts, f"topics: PUT {path}, {name}", ask(address, "PUT", path, body), status, error(name))
    events = [
        ("/v1/topics/T/events", "a.b", b"x" * (MOST_BODY + 1), 400, "BadName"),
        ("/v1/topics//events", "a.b", b"{}", 400, "BadName"),
        ("/v1/topics/u/events", "a.b", b"x" * (MOST_BODY + 1), 413, "TooLong"),
        ("/v1/topics/u/events", "a.b", b"{}", 400, "BadId"),
        ("/v1/topics/u/events", "msg_1", b"{}", 404, "UnknownTopic"),
        ("/v1/topics/t/events", "msg_1", b"[]", 409, "Conflict"),
        ("/v1/topics/t", "msg_1", b"{}", 404, "NotFound"),
        ("/v1/endpoints/a/topics/t", "msg_1", b"{}", 404, "NotFound"),
    ]
    for path, event, body, status, name in events:
        check_answer(counts, f"topics: POST {path}, {name}", post(address, path, body, event), status, error(name))
    for path in ("/v1/topics/t/events", "/v1/endpoints/a/topics/t"):
        check_answer(counts, f"topics: GET {path}", ask(address, "GET", path), 404, error("NotFound"))


def check_publishes(counts, address):
    """Events for two subscribers, which are disabled, so that no outcome comes between: the ids of all."""
    steps = [
        ("an event at one of them", submit(address, "a", b"{}", "msg_1"), b'{"id":"msg_1","seq":6}'),
        ("the same for both", publish(address, "t", b"{}", "msg_1"), b'{"id":"msg_1","seqs":[7,6]}'),
        ("another one", publish(address, "t", b"[]", "msg_2"), b'{"id":"msg_2","seqs":[8,9]}'),
        ("the same again", publish(address, "t", b"[]", "msg_2"), b'{"id":"msg_2","seqs":[8,9]}'),
        ("it alone at one", submit(address, "z", b"[]", "msg_2"), b'{"id":"msg_2","seq":8}'),
    ]
    for name, answer, body in steps:
        check_answer(counts, f"topics: {name}", answer, 202, body)
    made = publish(address, "t", b"").json()
    counts.check("topics: an event without an id", (made["id"][:4], made["seqs"]), ("msg_", [10, 11]))
    totals = ask(address, "GET", "/v1/status").json()
    counts.check("topics: the totals", (totals["records"], totals["pending"]), (12, 6))
    return {"msg_1": b"{}", "msg_2": b"[]", made["id"]: b""}


def check_topics(counts, relayd, folder):
    """A topic with two subscribers, which get each of its events, until they are subscribed no more. The endpoint that was put first comes first,
    whatever its name is and whoever subscribed first. A restart changes nothing."""
    file, subscribers = f"{folder}/topics.db", {"z": Subscriber(), "a": Subscriber()}
    with relay_of(relayd, file) as relay:
        address = relay.address
        for name, subscriber in subscribers.items():
            put(address, name, subscriber.port)
        for name in subscribers:
            ask(address, "PUT", f"/v1/endpoints/{name}/enabled", b'{"enabled":false}')
        for number, name in enumerate(reversed(subscribers)):
            check_answer(counts, f"topics: {name} subscribes", subscribe(address, "t", name), 200, b'{"seq":%d}' % (4 + number))
        events = check_publishes(counts, address)
        check_topic_refusals(counts, address)
        counts.check("topics: refusals are no records", ask(address, "GET", "/v1/status").json()["records"], 12)
    with relay_of(relayd, file) as relay:
        address = relay.address
        check_answer(counts, "topics: an event after a restart", publish(address, "t", b"[]", "msg_2"), 202, b'{"id":"msg_2","seqs":[8,9]}')
        put(address, "late", 9)
        subscribe(address, "t", "late")
        check_answer(counts, "topics: it again, with a new subscriber", publish(address, "t", b"[]", "msg_2"), 202, b'{"id":"msg_2","seqs":[8,9,14]}')
        subscribe(address, "t", "late", False)
        for name, subscriber in subscribers.items():
            ask(address, "PUT", f"/v1/endpoints/{name}/enabled", b'{"enabled":true}')
            counts.check(f"topics: {name} gets all", subscriber.wait_for(len(events)))
            found = {it.header("webhook-id"): it.body for it in subscriber.posts}
            counts.check(f"topics: {name} gets each under its id", found, events)
            counts.check(f"topics: all to {name} are signed", all(it.is_signed_by(SECRET) for it in subscriber.posts))
        counts.check("topics: a subscribes no more", subscribe(address, "t", "a", False).status, 200)
        counts.check("topics: an event for one", len(publish(address, "t", b"{}", "msg_3").json()["seqs"]), 1)
        counts.check("topics: z subscribes no more", subscribe(address, "t", "z", False).status, 200)
        check_answer(counts, "topics: an event for nobody", publish(address, "t", b"{}", "msg_3"), 404, error("UnknownTopic"))
        counts.check("topics: z gets the event for one", subscribers["z"].wait_for(len(events) + 1))
        counts.check("topics: a doesn't", subscribers["a"].wait_for(len(events) + 1, 1), False)
    for subscriber in subscribers.values():
        subscriber.close()


def check_widest(counts, relayd, folder):
    """An event for 256 subscribers, of which one is disabled. Once that one has 10,000 pending events it gets no new one, and so nobody does. Most
    are written into the file, since they take long over HTTP."""
    file, subscriber, names = f"{folder}/widest.db", Subscriber(), [f"e{number}" for number in range(MOST_ENDPOINTS)]
    totals = lambda: ask(relay.address, "GET", "/v1/status").json()
    first = b'{"id":"msg_1","seqs":[%s]}' % b",".join(b"%d" % (2 * MOST_ENDPOINTS + 1 + number) for number in range(MOST_ENDPOINTS))
    with relay_of(relayd, file) as relay:
        for name in names:
            put(relay.address, name, subscriber.port)
        for name in names:
            subscribe(relay.address, "t", name)
        ask(relay.address, "PUT", f"/v1/endpoints/{names[0]}/enabled", b'{"enabled":false}')
        check_answer(counts, "widest: an event for 256", publish(relay.address, "t", b"{}", "msg_1"), 202, first)
        counts.check("widest: all but one get it", wait_until(lambda: (totals()["delivered"], totals()["pending"]) == (MOST_ENDPOINTS - 1, 1), 20))
    with contextlib.closing(sqlite3.connect(file)) as conn, conn:
        (records,) = conn.execute("SELECT records FROM meta").fetchone()
        rows = [(records + number, f"old-{number}", int(time.time())) for number in range(MOST_PENDING - 1)]
        conn.executemany("INSERT INTO deliveries VALUES(?, 0, ?, ?, x'')", rows)
        conn.execute("UPDATE meta SET records = records + ?", (len(rows),))
    with relay_of(relayd, file) as relay:
        before = totals()
        answer = publish(relay.address, "t", b"{}", "msg_2")
        check_answer(counts, "widest: a full backlog", answer, 503, error("EndpointBacklog"))
        counts.check("widest: try again", answer.header("retry-after"), "1")
        check_answer(counts, "widest: a known event", publish(relay.address, "t", b"{}", "msg_1"), 202, first)
        counts.check("widest: nothing came of it", totals(), before)
        subscribe(relay.address, "t", names[0], False)
        counts.check("widest: an event for the others", len(publish(relay.address, "t", b"{}", "msg_2").json()["seqs"]), MOST_ENDPOINTS - 1)
    subscriber.close()


def check_changing(counts, relayd, folder):
    """Events are published while endpoints come, subscribe and leave again: the file has each event at exactly the endpoints whose numbers its answer
    names, in the order in which they were put."""
    file, subscriber = f"{folder}/changing.db", Subscriber()

    def change(relay, number):
        for turn in range(40):
            name = f"e{number}-{turn // 8}"
            if turn % 8 == 0:
                put(relay.address, name, subscriber.port)
            subscribe(relay.address, "t", name, turn % 2 == 0)

    def publish_each(relay, number):
        ids = [f"msg_{number}-{turn}" for turn in range(40)]
        return [(it, publish(relay.address, "t", it.encode(), it)) for it in ids]

    with relay_of(relayd, file) as relay, concurrent.futures.ThreadPoolExecutor(8) as pool:
        put(relay.address, "always", subscriber.port)
        subscribe(relay.address, "t", "always")
        changes = [pool.submit(change, relay, number) for number in range(4)]
        told = [it for made in [pool.submit(publish_each, relay, number) for number in range(4)] for it in made.result()]
        for it in changes:
            it.result()
    counts.check("changing: each event is taken", [answer.status for _, answer in told], [202] * len(told))
    with contextlib.closing(sqlite3.connect(file)) as conn:
        for event, answer in told:
            found = conn.execute("SELECT seq, body FROM deliveries WHERE id = ? ORDER BY endpoint", (event,)).fetchall()
            counts.check(f"changing: {event} is where its answer says", found, [(seq, event.encode()) for seq in answer.json()["seqs"]])
    subscriber.close()


def check_many_subscriptions(counts, relayd, folder):
    """4,096 pairs of a topic and an endpoint, and one more. Most are written into the file, since they take long over HTTP."""
    file = f"{folder}/pairs.db"
    with relay_of(relayd, file) as relay:
        put(relay.address, "a", 9)
    with contextlib.closing(sqlite3.connect(file)) as conn, conn:
        conn.executemany("INSERT INTO topics VALUES(?, 0, 1, ?)", [(f"t{number}", number) for number in range(1, 4096)])
        conn.execute("UPDATE meta SET records = 4096")
    with relay_of(relayd, file) as relay:
        check_answer(counts, "pairs: the last", subscribe(relay.address, "last", "a"), 200, b'{"seq":4096}')
        for flag in (True, False):
            check_answer(counts, "pairs: one more", subscribe(relay.address, "more", "a", flag), 409, error("TooManySubscriptions"))
            answer = subscribe(relay.address, "t7", "a", flag)
            check_answer(counts, "pairs: a known one", answer, 200, b'{"seq":%d}' % (4098 - flag))
