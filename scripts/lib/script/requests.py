"""Worked requests, and 2,000 random ones: each answer is the page's or the model's.

`driver asks` answers the requests, the random ones in runs of 50.
Usage: scripts/script requests DRIVER
"""
import base64
import random
import subprocess

from lib.answers import LINES, MOST_BODY, Request, answer, examples, once_settled, turn
from lib.command import ROOT, program_of
from lib.model import Desk
from lib.serving import SECRET

PAGES = [ROOT / "vectors" / it for it in ("requests.md", "topics/requests.md", "retention/requests.md")]
RUNS = 40
ASKS = 50


def hexed(raw):
    return raw.hex() or "-"


def text_of(it):
    """The line of a request."""
    return " ".join(["ask", str(it.now), it.fresh, *map(hexed, [it.method, it.path, it.body, *it.ids])])


def replies_of(program, lines):
    told = subprocess.run([program, "asks"], input="".join(line + "\n" for line in lines).encode(), capture_output=True)
    replies = told.stdout.decode().splitlines()
    if told.returncode or told.stderr or len(replies) != len(lines):
        print(f"status {told.returncode}, {len(replies)} replies to {len(lines)} lines, {told.stderr.decode()}")
    return replies + [None] * (len(lines) - len(replies))


# Random requests

ESCAPED = ["\\ud83d\\ude00", "\\u0061", "\\n", "\\\\", "\\\"", "é", " "]
HALVES = ["\\ud800", "\\udc00", "\\ud800\\u0061"]


def secret(rng):
    raw = rng.randbytes(rng.choice([24, 32, 63, 64] * 8 + [23, 65]))
    text = base64.b64encode(raw).decode()
    if rng.random() < 0.3:
        text = text.rstrip("=")
    if rng.random() < 0.04:
        text = text[: rng.randrange(len(text))] + rng.choice("=-_ AZz/") + text[rng.randrange(len(text)) :]
    return rng.choice(["whsec_"] * 30 + [""] * 10 + ["WHSEC_"]) + text


def url(rng):
    if rng.random() < 0.8:
        return "http://127.0.0.1:9000/hook"
    host = rng.choice(["h", "H-1._x", "127.0.0.1", "", "h" * 253, "h" * 254, "h h", "[::1]", "u@h", "é"])
    port = rng.choice(["", "", "", ":1", ":80", ":65535", ":65536", ":0", ":080", ":", ":x"])
    path = rng.choice(["", "/", "/a?b=%41&c", "/#", "?q", "/" + "p" * 2040, "/~!$&'()*+,;=:@-._", "/\\u0061", "/\\n"])
    return rng.choice(["http://", "HTTP://", "hTtp://", "https://", "http:/", "", "ftp://"]) + host + port + path


def most(rng):
    if rng.random() < 0.75:
        return str(rng.randint(1, 1000))
    numbers = ["0", "1", "1000", "1001", "-1", "-0", "7.0", "1e2", "1E2", "1.5", "1e999", "-1e999", "1e-9", "01", "+1", ".5", "1."]
    others = [str(2**64 - 1), str(2**64), str(-(2**63) - 1), "1" + "0" * 308, "1" + "0" * 309, "0.0", "NaN", "Infinity", "0x1"]
    return rng.choice(numbers + others + ["\"1\"", "true", "null", "[]", "{}", ""])


def before(rng):
    """The moment of a purge, mostly one that is after all outcomes or before them."""
    if rng.random() < 0.75:
        return str(rng.choice([0, 1000, 1001, rng.randrange(2000), 2**40]))
    return rng.choice([str(2**40 + 1), "1000.0", "1e3", most(rng)])


def others_of(rng):
    """A member that nobody asks for."""
    text = rng.choice(ESCAPED) if rng.random() < 0.8 else rng.choice(HALVES)
    deep = rng.choice([1, 2, 125, 126, 127, 200])
    values = [f'"{text}"', most(rng), "[" * deep + "]" * deep, '{"x":' * deep + "1" + "}" * deep, "null"]
    return rng.choice(["x", "URL", text]), rng.choice(values)


def members_for(rng, line):
    """The members of a body, each with its text."""
    secrets = [f'"{secret(rng)}"' for _ in range(rng.choice([1, 1, 2, 4] * 4 + [0, 5]))]
    if rng.random() < 0.05:
        secrets.append(rng.choice(["1", "null", "[]", '"a"']))
    listed = rng.choice([f"[{','.join(secrets)}]"] * 40 + ["null", "{}", '"a"'])
    flag = rng.choice(["true", "false"] * 8 + ["1", "null", '"true"', "True"])
    return {
        "put": [("url", f'"{url(rng)}"'), ("max", most(rng)), ("secrets", listed)],
        "secrets": [("secrets", listed)],
        "enabled": [("enabled", flag)],
        "subscribed": [("subscribed", flag)],
        "retention": [("before", before(rng))],
    }[line]


def document(rng, line):
    """The text of a body, which mostly has the members of the line."""
    members = members_for(rng, line)
    if rng.random() < 0.2:
        members.append(others_of(rng))
    if rng.random() < 0.05:
        members.append(rng.choice(members + members_for(rng, "enabled")))
    if rng.random() < 0.05:
        members.remove(rng.choice(members))
    rng.shuffle(members)
    space = rng.choice([" ", " ", "\n\t", "\r\n ", "\x0b"]) if rng.random() < 0.2 else ""
    text = "{" + ",".join(f'{space}"{name}"{space}:{space}{value}' for name, value in members) + space + "}"
    if rng.random() < 0.06:
        text = rng.choice([text + "x", text[:-1], "\ufeff" + text, "[" + text + "]", text + " ", "", text[:-1] + ",}", "null"])
    return text


def body_of(rng, line):
    if line in ("put", "secrets", "enabled", "subscribed", "retention"):
        raw = document(rng, line).encode()
        if rng.random() < 0.03:
            return raw.replace(b"}", b"\xff}")
        pad = rng.choice([MOST_BODY, MOST_BODY + 1]) if rng.random() < 0.03 else 0
        return raw + b" " * (pad - len(raw))
    if rng.random() < 0.05:
        return bytes(rng.choice([MOST_BODY, MOST_BODY + 1]))
    return rng.choice([b"", b"{}", b"[]", b"\n\xff\x00"])


# Each line of the table: its path, and how often it comes.
PATHS = {
    "put": (b"/v1/endpoints/%(name)b", 6),
    "secrets": (b"/v1/endpoints/%(name)b/secrets", 2),
    "enabled": (b"/v1/endpoints/%(name)b/enabled", 3),
    "subscribed": (b"/v1/endpoints/%(name)b/topics/%(topic)b", 4),
    "retention": (b"/v1/retention", 4),
    "submit": (b"/v1/endpoints/%(name)b/events", 6),
    "publish": (b"/v1/topics/%(topic)b/events", 6),
    "totals": (b"/v1/status", 2),
    "endpoint": (b"/v1/endpoints/%(name)b", 3),
    "event": (b"/v1/endpoints/%(name)b/events/%(id)b", 4),
}


def name_of(rng, names):
    return rng.choice(names) if rng.random() < 0.93 else rng.choice([b"", b"A", b"%61", b"a b", b"x" * 32, b"x" * 33, b"\xff"])


def path_of(rng, line, id):
    path = PATHS[line][0] % {b"name": name_of(rng, [b"a", b"b-2"]), b"topic": name_of(rng, [b"t", b"b-2"]), b"id": id}
    if rng.random() < 0.1:
        path += rng.choice([b"?", b"?x=/v2", b"/", b"?a?b", b"//", b"%", b"/secrets", b"\n"])
    if rng.random() < 0.04:
        path = rng.choice([path[1:], path.upper(), b"/" + path, path.replace(b"s", b"%73", 1), b"", b"?" + path, rng.randbytes(9)])
    return path


def request(rng):
    line = rng.choices(list(PATHS), [often for _, often in PATHS.values()])[0]
    id = rng.choice([b"msg_1", b"MSG-2"]) if rng.random() < 0.93 else rng.choice([b"", b"a.b", b"%61", b"y" * 64, b"y" * 65])
    method = LINES[line][0]
    if rng.random() < 0.04:
        method = rng.choice([b"GET", b"PUT", b"POST", b"DELETE", b"get", b"HEAD", b""])
    ids = rng.choice([[], [id], [id]]) if rng.random() < 0.95 else [id, rng.choice([id, b"msg_1"])]
    now = rng.choice([0, 1000, rng.randrange(2000), 2**40])
    fresh = rng.choice(["fresh", "msg_0"])
    return Request(now, fresh, method, path_of(rng, line, id), body_of(rng, line), ids)


def both_subscribed():
    """Requests that put both endpoints, the later name first, and subscribe them to a topic."""
    put = b'{"url":"http://h","max":1,"secrets":["%b"]}' % SECRET.encode()
    paths = {b"/v1/endpoints/b-2": put, b"/v1/endpoints/a": put}
    paths |= {path + b"/topics/t": b'{"subscribed":true}' for path in reversed(paths)}
    return [Request(0, "fresh", b"PUT", path, body, []) for path, body in paths.items()]


def random_lines(rng):
    """The lines of a run, each with the model's reply: as many requests, and now and then a turn or a halt."""
    desk, asks = Desk(), 0
    first = both_subscribed() if rng.random() < 0.5 else []
    while asks < ASKS:
        kind = rng.choices(["ask", "turn", "halt"], [80, 20, 0.2])[0]
        if kind == "ask":
            it = first.pop(0) if first else request(rng)
            asks += 1
            yield text_of(it), answer(desk, it), it
        else:
            yield kind, turn(desk) if kind == "turn" else desk.halt(), kind


def random_run(program, seed):
    """How many of a run's requests have the model's reply."""
    lines = list(random_lines(random.Random(seed)))
    passed = 0
    for (line, wanted, it), given in zip(lines, replies_of(program, [line for line, _, _ in lines])):
        if given != wanted:
            print(f"seed {seed}: {it}: {given}, wanted {wanted}")
        passed += line.startswith("ask") and given == wanted
    return passed


def check_examples(program, page):
    """How many examples of a page have its answer, and how many haven't."""
    listed = list(examples(page.read_text()))
    lines = [line for it, _ in listed for line in (text_of(it), "turn")]
    passed = 0
    for (it, wanted), given in zip(listed, replies_of(program, lines)[::2]):
        told = once_settled(it, given)
        if told != wanted:
            print(f"{it}: {told}, wanted {wanted}")
        passed += told == wanted
    if not listed:
        print(f"no examples in {page}")
    return passed, max(len(listed), 1) - passed


def main():
    program = program_of(__doc__)
    ends = [check_examples(program, page) for page in PAGES]
    right = sum(random_run(program, seed) for seed in range(RUNS))
    passed, failed = right + sum(it for it, _ in ends), RUNS * ASKS - right + sum(it for _, it in ends)
    print(f"{passed} passed, {failed} failed")
    return 1 if failed else 0
