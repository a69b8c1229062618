"""Shows what a relay does, step by step, and ends by itself (`make demo`).

An endpoint, events that are signed and delivered, an answer 500 that is tried again, an event that
is published to three subscribers of which one fails and recovers, a kill -9 after which nothing
acknowledged is missing, an answer 410 that disables, and a purge that frees an id. Its exit status
is 0 if all of it was seen.
Usage: scripts/serve demo RELAYD
"""
import tempfile
import threading
import time

from lib.command import program_of
from lib.serving import SECRET, Relay, Subscriber, ask, publish, purge, put, submit, subscribe, wait_until


def say(text):
    print(text, flush=True)


class Steps:
    """Steps that are said as they are seen."""

    def __init__(self):
        self.number = 0
        self.missing = 0

    def see(self, text, holds):
        self.number += 1
        self.missing += not holds
        say(f"{self.number}. {text}" if holds else f"{self.number}. NOT SEEN: {text}")


class Script:
    """A subscriber whose answers are given beforehand: 200 to all but the ids that are named, alone or with a path."""

    def __init__(self):
        self.answers = {}

    def __call__(self, post):
        event, path = post.header("webhook-id"), post.line.split(" ")[1]
        waiting = self.answers.get(event) or self.answers.get(f"{event} {path}", [])
        return waiting.pop(0) if waiting else 200


def state(relay, event, name="shop"):
    return ask(relay.address, "GET", f"/v1/endpoints/{name}/events/{event}").json()


def is_enabled(relay):
    return ask(relay.address, "GET", "/v1/endpoints/shop").json()["enabled"]


def first_event(steps, relay, subscriber):
    answer = put(relay.address, "shop", subscriber.port)
    steps.see(f"The endpoint `shop` is put: answer {answer.status} {answer.body.decode()}", answer.status == 201)
    answer = submit(relay.address, "shop", b'{"order":1}', "order-1")
    steps.see(f"The event `order-1` is taken: answer {answer.status}, which comes once it is on the disk", answer.status == 202)
    came = subscriber.wait_for(1)
    post = subscriber.posts[0] if came else None
    steps.see("The subscriber got it under its webhook-id, with its bytes", came and post.body == b'{"order":1}')
    if came:
        say(f"   webhook-signature: {post.header('webhook-signature')}")
        steps.see("That signature is the one that Python's hmac computes with the endpoint's secret", post.is_signed_by(SECRET))
    seen = wait_until(lambda: state(relay, "order-1")["state"] == "delivered", 5)
    steps.see("The event's page says `delivered`", seen)


def retried(steps, relay, subscriber, script):
    script.answers["order-2"] = [500]
    submit(relay.address, "shop", b'{"order":2}', "order-2")
    seen = wait_until(lambda: state(relay, "order-2")["last_status"] == 500, 5)
    page = state(relay, "order-2")
    steps.see(f"The subscriber answers `order-2` with 500: it is `{page['state']}`, and due again 5 seconds later", seen)
    seen = wait_until(lambda: state(relay, "order-2")["state"] == "delivered", 15)
    page = state(relay, "order-2")
    steps.see(f"It was posted again under the same id: `{page['state']}` after {page['attempts']} attempts", seen)


def published(steps, relay, subscriber, script):
    names = ["shop", "stock", "books"]
    for name in names:
        if name != "shop":
            put(relay.address, name, subscriber.port, path=f"/{name}")
        subscribe(relay.address, "paid", name)
    script.answers["order-0 /stock"] = [500]
    answer = publish(relay.address, "paid", b'{"order":0}', "order-0")
    steps.see(f"`shop`, `stock` and `books` subscribe to `paid`. An event is published to it once: answer {answer.status} {answer.body.decode()}", answer.status == 202)
    told = lambda: [state(relay, "order-0", name)["state"] for name in names]
    seen = wait_until(lambda: told() == ["delivered", "pending", "delivered"] and state(relay, "order-0", "stock")["last_status"] == 500, 5)
    steps.see(f"Two subscribers take it, and `stock` answers 500: {', '.join(told())}", seen)
    seen = wait_until(lambda: told() == ["delivered"] * 3, 15)
    steps.see("`stock` gets it again 5 seconds later, the other two don't", seen and len([it for it in subscriber.posts if it.header("webhook-id") == "order-0"]) == 4)


def killed(steps, relay, relayd, file, subscriber):
    answer, may_answer = subscriber.reply, threading.Event()
    subscriber.reply = lambda post: answer(post) if may_answer.wait(60) else b""
    taken = [submit(relay.address, "shop", b"{}", f"order-{it}").status for it in range(3, 23)]
    relay.kill()
    steps.see("Twenty events more are taken, and at once the relay is killed by kill -9", taken == [202] * 20)
    relay = Relay(relayd, file)
    page = ask(relay.address, "GET", "/v1/status").json()
    steps.see(f"It is started again on the same file: {page['pending']} events wait, {page['delivered']} are delivered", page["pending"] == 20)
    may_answer.set()
    done = lambda: ask(relay.address, "GET", "/v1/status").json()["delivered"] == 25
    steps.see("All that was acknowledged is delivered, none is missing", wait_until(done, 20))
    return relay


def gone(steps, relay, script):
    script.answers["order-23"] = [410]
    submit(relay.address, "shop", b"{}", "order-23")
    seen = wait_until(lambda: not is_enabled(relay), 5)
    steps.see("The subscriber answers `order-23` with 410 Gone: the endpoint is disabled, and its event waits", seen)
    ask(relay.address, "PUT", "/v1/endpoints/shop/enabled", b'{"enabled":true}')
    seen = wait_until(lambda: state(relay, "order-23")["state"] == "delivered", 5)
    steps.see("Once the endpoint is enabled again the event is delivered", seen)
    for line in relay.told:
        say(f"   standard error: {line.rstrip()}")


def purged(steps, relay, subscriber):
    time.sleep(1)
    answer = purge(relay.address, int(time.time()))
    page = ask(relay.address, "GET", "/v1/status").json()
    steps.see(f"All that was delivered until now is purged: answer {answer.status}, and {page['delivered']} delivered events are left", page["delivered"] == 0)
    answer = ask(relay.address, "GET", "/v1/endpoints/shop/events/order-1")
    steps.see(f"The event `order-1` is gone: answer {answer.status} {answer.body.decode()}", answer.status == 404)
    answer = submit(relay.address, "shop", b'{"order":"1b"}', "order-1")
    steps.see(f"Its id is free, so other bytes are taken under it: answer {answer.status}", answer.status == 202)
    bodies = lambda: [it.body for it in list(subscriber.posts) if it.header("webhook-id") == "order-1"]
    steps.see("The subscriber gets them as an event of its own", wait_until(lambda: bodies() == [b'{"order":1}', b'{"order":"1b"}'], 5))


def main():
    relayd, steps, script = program_of(__doc__), Steps(), Script()
    subscriber = Subscriber(script)
    with tempfile.TemporaryDirectory() as folder:
        file = f"{folder}/relay.db"
        relay = Relay(relayd, file)
        host, port = relay.address
        say(f"A relay serves at {host}:{port} on a fresh file, and a subscriber listens at port {subscriber.port}.")
        first_event(steps, relay, subscriber)
        retried(steps, relay, subscriber, script)
        published(steps, relay, subscriber, script)
        relay = killed(steps, relay, relayd, file, subscriber)
        gone(steps, relay, script)
        purged(steps, relay, subscriber)
        relay.kill()
    say("All of it was seen." if not steps.missing else f"{steps.missing} steps weren't seen.")
    return 1 if steps.missing else 0
