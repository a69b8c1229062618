"""Random lines of scripts with the replies of the model in model.py."""
import base64

from lib.model import DELAYS, Accept, Desk, Outcome, names_in, of, reply_to, subscriptions_in

# How often each line comes in a short script and in a long one.
KINDS = {
    "put": (4, 5),
    "secrets": (2, 5),
    "flag": (2, 5),
    "submit": (6, 400),
    "told": (3, 10),
    "turn": (6, 1),
    "claim": (8, 3),
    "spend": (6, 3),
    "limits": (2, 2),
    "seal": (5, 2),
    "commit": (5, 2),
    "settle": (5, 2),
    "unseal": (1, 1),
    "halt": (0.1, 0.02),
    "stop": (0.5, 0.05),
    "show_endpoint": (2, 2),
    "show": (4, 2),
    "subscribe": (8, 10),
    "publish": (8, 100),
    "purge": (5, 5),
    "ending": (5, 10),
}
# Those that a store of version 1 can't have come of.
LATER = ("subscribe", "publish", "purge")


# Words


def name(rng):
    return rng.choice(["a", "b-2", "hook"])


def topic(rng):
    return rng.choice(["t", "b-2"])


def id_of(rng, long):
    return f"m{rng.randrange(5000)}" if long else rng.choice(["msg_1", "MSG-2", "x", "y" * 64])


def secret(rng):
    raw = bytes(rng.randrange(256) for _ in range(rng.randint(24, 64)))
    text = base64.b64encode(raw).decode()
    if rng.random() < 0.3:
        text = text.rstrip("=")
    return ("whsec_" if rng.random() < 0.7 else "") + text


def secrets(rng):
    return ",".join(secret(rng) for _ in range(rng.randint(1, 4)))


def moment(rng):
    """A moment, seldom the last one, after which none is later."""
    return 2**40 if rng.random() < 0.005 else rng.choice([0, 1000, rng.randrange(2000), rng.randrange(400_000)])


def body(rng):
    raw = bytes(rng.randrange(256) for _ in range(rng.choice([0, 1, 2])))
    return "-" if not raw else raw.hex() if rng.random() < 0.5 else raw.hex().upper()


# Lines, each drawn for the state of a desk


def put(rng, desk, long):
    url = rng.choice(["http://127.0.0.1:9000/hook", "HTTP://h", "http://h:65535/?q=1"])
    return f"put {name(rng)} {url} {rng.choice([1, 2, 3, 25, rng.randint(1, 1000)])} {secrets(rng)}"


def subscribe(rng, desk, long):
    names = names_in(desk.history)
    call = "subscribe" if rng.random() < 0.8 else "unsubscribe"
    return f"{call} {topic(rng)} {rng.choice(names) if names and rng.random() < 0.9 else name(rng)}"


def publish(rng, desk, long):
    """An event for a topic: mostly for one that an endpoint is subscribed to, now and then one that an endpoint has already."""
    topics = sorted({pair[0] for pair, (flag, _) in subscriptions_in(desk.history).items() if flag})
    to = rng.choice(topics) if topics and rng.random() < 0.9 else topic(rng)
    known = of(Accept, desk.history)
    if known and rng.random() < 0.2:
        event = rng.choice(known)
        return f"publish {moment(rng)} {to} {event.id} {event.body.hex() or '-'}"
    return f"publish {moment(rng)} {to} {id_of(rng, long)} {body(rng)}"


def purge(rng, desk, long):
    """A purge: mostly before a moment that ends an event or follows one that does, seldom before the first moment or the last."""
    ends = [it.at for it in of(Outcome, desk.history)] or [desk.clock]
    return f"purge {min(rng.choice([rng.choice(ends), rng.choice(ends) + 1, max(ends) + 1, desk.clock + 1, moment(rng)]), 2**40)}"


def claim(rng, desk, long):
    return f"claim {min(rng.choice([moment(rng), desk.clock, desk.clock + rng.choice(DELAYS)]), 2**40)}"


def spend(rng, desk, long):
    out = [permit.delivery for permit in desk.permits]
    number = rng.choice(out) if out and rng.random() < 0.9 else rng.randrange(len(desk.history) + 2)
    status = rng.choice([200, 299, 410, 429, 500, 500, 500, 502, 503, 504, 100, 999])
    rtt = rng.choice([0, 1, 100_000, 110_000, rng.randrange(200_000), 2**63 - 1])
    result = rng.choice([f"{status} {rtt}", f"{status} {rtt}", f"{status} {rtt}", f"timeout {rtt}", "unreached", "unsent"])
    return f"spend {number} {moment(rng)} {result}"


def ending(rng, desk):
    """The lines of an attempt at what is due first, which mostly delivers it."""
    due = min((due for _, due, _ in desk.held_to_post()), default=desk.clock)
    yield f"claim {min(due, 2**40)}"
    if desk.permits:
        yield f"spend {desk.permits[-1].delivery} {desk.clock} {rng.choice([200, 200, 200, 204, 410])} 100000"


def told(rng, desk, long):
    if desk.tickets and rng.random() < 0.5:
        return f"told {rng.choice(sorted(desk.tickets))}"
    return f"told {rng.choice([rng.randrange(len(desk.history) + 2), 2**64 - 1])}"


LINES = {
    "put": put,
    "secrets": lambda rng, desk, long: f"secrets {name(rng)} {secrets(rng)}",
    "flag": lambda rng, desk, long: f"{rng.choice(['enable', 'disable'])} {name(rng)}",
    "subscribe": subscribe,
    "submit": lambda rng, desk, long: f"submit {moment(rng)} {name(rng)} {id_of(rng, long)} {body(rng)}",
    "publish": publish,
    "purge": purge,
    "told": told,
    "claim": claim,
    "spend": spend,
    "limits": lambda rng, desk, long: f"limits {name(rng)}",
    "show_endpoint": lambda rng, desk, long: f"show {name(rng)}",
    "show": lambda rng, desk, long: f"show {name(rng)} {id_of(rng, long)}",
}


def made(rng, desk, long, kinds=KINDS):
    """The next line with its reply, or the lines of a batch's whole way or of an attempt."""
    kind = rng.choices(list(kinds), [often[long] for often in kinds.values()])[0]
    if kind == "ending":
        texts = ending(rng, desk)
    else:
        texts = ["seal", "commit", "settle"] if kind == "turn" else [LINES[kind](rng, desk, long) if kind in LINES else kind]
    return [(text, reply_to(desk, text)) for text in texts]


def history_of(rng, lines=60):
    """The history after so many random lines, with topics and purges."""
    desk, kinds = Desk(), {kind: often for kind, often in KINDS.items() if kind not in ("stop", "halt")}
    for _ in range(lines):
        made(rng, desk, False, kinds)
    return desk.history
