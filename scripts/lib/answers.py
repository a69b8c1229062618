"""What a request over HTTP is answered, by the model of the desk in model.py. docs/FORMATS.md has the rules of requests; JSON is read by Python's
own reader. `scripts/script requests` compares the relay with it, `scripts/script model` compares it with worked requests.
"""
import base64
import json
import re
from typing import NamedTuple

from lib.model import Enabled, Put, Secrets, Subscribed, counts_in, deliveries_in, flag_of, names_in, number_of, of, secrets_of

MOST_BODY = 65_536
MOST_DEEP = 127
LAST_MOMENT = 2**40
NAME = re.compile("[a-z0-9-]{1,32}")
ID = re.compile("[A-Za-z0-9_-]{1,64}")
URL = re.compile(rb"[Hh][Tt][Tt][Pp]://[A-Za-z0-9._-]{1,253}(?::([1-9][0-9]{0,4}))?(?:/[A-Za-z0-9._~!$&'()*+,;=:@/%?-]*)?")
# The status of each refusal of the desk that isn't 503.
STATUSES = {"UnknownEndpoint": 404, "UnknownTopic": 404, "Conflict": 409, "Exists": 409, "TooManyEndpoints": 409, "TooManySubscriptions": 409}
# An example of a page: a row of a request, its id, its body, and the answer.
EXAMPLE = re.compile(r"^\| `([A-Z]+) (\S+)` \|([^|]*)\|([^|]*)\| (\d+) `(.*)` \|$", re.M)


class Request(NamedTuple):
    """A request, and the moment and the id that an event gets which comes without one."""

    now: int
    fresh: str
    method: bytes
    path: bytes
    body: bytes
    ids: list


class Refused(Exception):
    """An answer that refuses a request."""

    def __init__(self, status, name):
        super().__init__(f"{status}{' retry' if status == 503 else ''} {json.dumps({'error': name}, separators=(',', ':'))}")


# JSON


def within_a_float(text):
    number = float(text)
    if number in (float("inf"), float("-inf")):
        raise ValueError(text)
    return number


def whole(text):
    """A number without a point and an exponent. `-0`, and one that is beyond 64 bits, is a float to the relay's reader."""
    number = within_a_float(text)
    return int(text) if text != "-0" and -(2**63) <= int(text) < 2**64 else number


def no_halves(value):
    """The value, if no text in it has half of a surrogate pair."""
    if isinstance(value, str):
        value.encode()
    if isinstance(value, list):
        for item in value:
            no_halves(item)
    return value


def members_of(pairs):
    for name, value in pairs:
        no_halves(name)
        no_halves(value)
    return dict(pairs)


def depth(text):
    """How deep arrays and objects nest at most."""
    deep = most = 0
    for mark in re.sub(r'"(?:[^"\\]|\\.)*"', "", text, flags=re.S):
        deep += (mark in "[{") - (mark in "]}")
        most = max(most, deep)
    return most


def not_json(text):
    raise ValueError(text)


def object_of(body):
    """The members of the object that the body is."""
    try:
        text = body.decode()
        if depth(text) > MOST_DEEP:
            raise ValueError(text)
        value = json.loads(
            text, object_pairs_hook=members_of, parse_int=whole, parse_float=within_a_float, parse_constant=not_json
        )
        no_halves(value)
    except ValueError:
        raise Refused(400, "BadBody") from None
    if not isinstance(value, dict):
        raise Refused(400, "BadBody")
    return value


def member(members, name, is_kind):
    if name not in members or not is_kind(members[name]):
        raise Refused(400, "BadBody")
    return members[name]


def is_flag(value):
    return isinstance(value, bool)


def is_number(value):
    return isinstance(value, (int, float)) and not isinstance(value, bool)


def is_text(value):
    return isinstance(value, str)


def is_texts(value):
    return isinstance(value, list) and all(isinstance(text, str) for text in value)


# Values


def check_url(url):
    text = url.encode()
    found = URL.fullmatch(text)
    if found is None or len(text) > 2048 or int(found[1] or 80) > 65535:
        raise Refused(400, "BadUrl")


def check_max(number):
    if isinstance(number, float) or not 1 <= number <= 1000:
        raise Refused(400, "BadMax")


def check_moment(number):
    if isinstance(number, float) or not 0 <= number <= LAST_MOMENT:
        raise Refused(400, "BadMoment")


def check_secrets(texts):
    if not 1 <= len(texts) <= 4:
        raise Refused(400, "BadSecret")
    for text in texts:
        bare = text.removeprefix("whsec_").rstrip("=")
        if not re.fullmatch("[A-Za-z0-9+/]*", bare) or len(bare) % 4 == 1:
            raise Refused(400, "BadSecret")
        raw = base64.b64decode(bare + "=" * (-len(bare) % 4))
        written = base64.b64encode(raw).decode()
        if text.removeprefix("whsec_") not in (written, written.rstrip("=")) or not 24 <= len(raw) <= 64:
            raise Refused(400, "BadSecret")


def id_of(request):
    """The id that an event is taken in under."""
    if len(request.ids) > 1 or not all(ID.fullmatch(id.decode("latin-1")) for id in request.ids):
        raise Refused(400, "BadId")
    return request.ids[0].decode() if request.ids else request.fresh


# What changes something. It is answered `staged`, the numbers of its records, and the id of an event.


def told(reply, id=None):
    """What is told of the desk's reply."""
    if reply.startswith("refused"):
        name = reply.split()[2]
        raise Refused(STATUSES.get(name, 503), name)
    return reply if id is None else f"{reply} {id}"


def put(desk, request, name):
    members = object_of(request.body)
    url, most, secrets = member(members, "url", is_text), member(members, "max", is_number), member(members, "secrets", is_texts)
    check_url(url)
    check_max(most)
    check_secrets(secrets)
    return told(desk.put(name, url, most, secrets))


def other_secrets(desk, request, name):
    secrets = member(object_of(request.body), "secrets", is_texts)
    check_secrets(secrets)
    return told(desk.change(Secrets(name, tuple(secrets))))


def enabled(desk, request, name):
    flag = member(object_of(request.body), "enabled", is_flag)
    return told(desk.change(Enabled(name, flag)))


def subscribed(desk, request, name, topic):
    flag = member(object_of(request.body), "subscribed", is_flag)
    return told(desk.change(Subscribed(topic, name, flag)))


def retention(desk, request):
    before = member(object_of(request.body), "before", is_number)
    check_moment(before)
    return told(desk.purge(before))


def submit(desk, request, name):
    id = id_of(request)
    return told(desk.submit(request.now, name, id, request.body), id)


def publish(desk, request, topic):
    id = id_of(request)
    return told(desk.publish(request.now, topic, id, request.body), id)


# Pages


def page(**members):
    return "200 " + json.dumps(members, sort_keys=True, separators=(",", ":"))


def totals(desk, _):
    records = desk.shown()
    return page(**counts_in(records), endpoints=len(names_in(records)), records=len(records))


def put_of(records, name):
    for record in of(Put, records):
        if record.name == name:
            return record
    raise Refused(404, "UnknownEndpoint")


def endpoint(desk, _, name):
    records = desk.shown()
    it, flag, secrets = put_of(records, name), flag_of(records, name)[0], secrets_of(records, name)[0]
    return page(**counts_in(records, name), enabled=flag, max=it.most, name=name, secrets=len(secrets), url=it.url)


def event(desk, _, name, id):
    if not ID.fullmatch(id):
        raise Refused(400, "BadId")
    records = desk.shown()
    put_of(records, name)
    number = number_of(records, name, id)
    if number is None:
        raise Refused(404, "UnknownEvent")
    it = deliveries_in(records)[number]
    return page(
        at=it.accept.at,
        attempts=len(it.outcomes),
        due=it.due if it.state == "pending" else None,
        endpoint=name,
        id=id,
        last_status=it.outcomes[-1].status if it.outcomes else None,
        state=it.state,
    )


# Requests

LINES = {
    "put": (b"PUT", re.compile(b"/v1/endpoints/([^/]*)"), put),
    "secrets": (b"PUT", re.compile(b"/v1/endpoints/([^/]*)/secrets"), other_secrets),
    "enabled": (b"PUT", re.compile(b"/v1/endpoints/([^/]*)/enabled"), enabled),
    "subscribed": (b"PUT", re.compile(b"/v1/endpoints/([^/]*)/topics/([^/]*)"), subscribed),
    "retention": (b"PUT", re.compile(b"/v1/retention"), retention),
    "submit": (b"POST", re.compile(b"/v1/endpoints/([^/]*)/events"), submit),
    "publish": (b"POST", re.compile(b"/v1/topics/([^/]*)/events"), publish),
    "totals": (b"GET", re.compile(b"/v1/status"), totals),
    "endpoint": (b"GET", re.compile(b"/v1/endpoints/([^/]*)"), endpoint),
    "event": (b"GET", re.compile(b"/v1/endpoints/([^/]*)/events/([^/]*)"), event),
}


def line_of(request):
    """Which line of the table a request is, and the parts of its path."""
    path = request.path.split(b"?", 1)[0]
    for line, (method, form, _) in LINES.items():
        found = form.fullmatch(path)
        if found and method == request.method:
            return line, [part.decode("latin-1") for part in found.groups()]
    raise Refused(404, "NotFound")


def answered(desk, request):
    line, parts = line_of(request)
    if not all(NAME.fullmatch(part) for part in (parts[:1] if line == "event" else parts)):
        raise Refused(400, "BadName")
    if len(request.body) > MOST_BODY:
        raise Refused(413, "TooLong")
    return LINES[line][2](desk, request, *parts)


def answer(desk, request):
    """What is answered to a request: a status, `retry` beside `Retry-After`, and a body; or `staged` for what changes something."""
    try:
        return answered(desk, request)
    except Refused as reply:
        return str(reply)


def once_settled(request, reply):
    """The answer to a request, once what it changed is settled."""
    found = re.fullmatch(r"staged ([\d,]+)(?: (\S+))?", reply or "")
    if found is None:
        return reply
    numbers, id = found.groups()
    line, _ = line_of(request)
    if line == "publish":
        return f'202 {{"id":"{id}","seqs":[{numbers}]}}'
    if line == "submit":
        return f'202 {{"id":"{id}","seq":{numbers}}}'
    return f'{201 if line == "put" else 200} {{"seq":{numbers}}}'


def turn(desk):
    """Has what waits sealed, committed and settled."""
    for call in (desk.seal, desk.commit, desk.settle):
        call()
    return f"settled {desk.settled}"


def examples(text):
    """Each request of a page of examples, with its answer."""
    for method, path, ids, body, status, reply in EXAMPLE.findall(text):
        ids = [id.encode() for id in re.findall("`(.*?)`", ids)]
        yield Request(1000, "fresh", method.encode(), path.encode(), body.strip(" `").encode(), ids), f"{status} {reply}"
