"""The status page, in Debian's headless Chromium.

It clicks and types through packaging/status.html. nginx serves it by packaging/nginx.conf before a
relay of its own: what the page says is what the relay's pages say, each error of docs/FORMATS.md is
a sentence, an endpoint is put and a test event followed until it is delivered, all by the keyboard.
It looks at the labels, the order of the focus, the live regions, and at 400 and 1,600 pixels, in
light and dark, whether all of it fits and is legible. Two pictures go into FOLDER, if one is given.
Usage: scripts/serve page RELAYD [FOLDER]
"""
import json
import pathlib
import re
import sys
import tempfile
import time

from lib.browser import SECONDS, Browser, until
from lib.command import Counts, needs, program_of
from lib.formats import part_from
from lib.serving import OPERATOR, SUBMITTER, Relay, Subscriber, ask, front_of, put, submit

PICTURES = {"status-wide.png": (1600, "light"), "status-narrow.png": (400, "dark")}
MOST_BYTES = 150_000
# The contrast of each text that is shown against what is behind it, by the formulas of WCAG 2: the least, and where it is.
CONTRASTS = """(() => {
  const parts = (it) => it.match(/[\\d.]+/g).map(Number);
  const light = (it) => parts(it).slice(0, 3).map((v) => v / 255).map((v) => v <= 0.03928 ? v / 12.92 : ((v + 0.055) / 1.055) ** 2.4)
    .reduce((sum, v, place) => sum + v * [0.2126, 0.7152, 0.0722][place], 0);
  const behind = (it) => {
    const color = it ? getComputedStyle(it).backgroundColor : "rgb(255, 255, 255)";
    return parts(color)[3] === 0 ? behind(it.parentElement) : color;
  };
  const texts = [...document.body.querySelectorAll("*")].filter((it) => it.checkVisibility() && !it.disabled && !it.matches("script") &&
    (it.matches("input:not([type=checkbox]), textarea") || [...it.childNodes].some((node) => node.nodeType === 3 && node.data.trim())));
  const contrast = (it) => {
    const [more, less] = [light(getComputedStyle(it).color), light(behind(it))].sort((a, b) => b - a);
    return [(more + 0.05) / (less + 0.05), it.tagName + " " + it.textContent.slice(0, 40)];
  };
  return texts.map(contrast).sort((a, b) => a[0] - b[0])[0];
})()"""
# What is wider than the window, or wider than the box around it.
TOO_WIDE = """[...document.body.querySelectorAll("*")].filter((it) => it.checkVisibility() && it.getBoundingClientRect().right > innerWidth + 0.5 ||
  it.matches("section, li, form, fieldset, button") && it.scrollWidth > it.clientWidth + 1).map((it) => it.tagName + " " + it.textContent.slice(0, 40))"""
SMALL = """[...document.querySelectorAll("button, input, textarea")].filter((it) => it.checkVisibility() &&
  Math.min(it.getBoundingClientRect().height, it.getBoundingClientRect().width) < 24).map((it) => it.name || it.textContent)"""
IS_OUTLINED = """(() => {
  const it = getComputedStyle(document.activeElement);
  return it.outlineStyle !== "none" && parseFloat(it.outlineWidth) >= 2;
})()"""
IN_STEPS = """[...document.querySelectorAll("h1, h2, h3")].every((it, place, all) =>
  place === 0 ? it.tagName === "H1" : it.tagName[1] - all[place - 1].tagName[1] <= 1)"""
WITHIN = """[...document.querySelectorAll("figure path")].map((it) => it.getBBox()).every((it) =>
  it.x >= 0 && it.y >= 0 && it.x + it.width <= 601 && it.y + it.height <= 100.1)"""
GROUNDS = {"light": "rgb(244, 246, 248)", "dark": "rgb(13, 17, 23)"}
DISABLED = "Disabled: its events wait. The subscriber answered 410 Gone, or somebody disabled it."
FOCUSABLE = """[...document.querySelectorAll("input, textarea, button")].filter((it) => it.checkVisibility() && !it.matches(":disabled")).length"""


def card(name):
    return f'[...document.querySelectorAll("#cards li")].find((it) => it.querySelector("h3").textContent === {json.dumps(name)})'


def rows_of(page, name):
    """What a card says: its first sentence, and each term with its value."""
    return page.run(f"(() => {{ const it = {card(name)}; return it && [it.querySelector('p').textContent, Object.fromEntries([...it.querySelectorAll('dt')]"
                    ".map((term) => [term.textContent, term.nextSibling.textContent]))] })()")


def steps_of(page):
    return page.run("[...document.querySelectorAll('#steps li')].map((it) => it.textContent)")


def last_step(page, wanted, seconds=SECONDS):
    until(lambda: any(wanted in it for it in steps_of(page)), seconds)
    return (steps_of(page) or [None])[-1]


def errors_of_formats():
    """The names of errors that docs/FORMATS.md has for requests."""
    section = part_from("## HTTP", "## Posts")
    checks = re.findall(r":\s+(?:40[04]|413) ([A-Z]\w+)", section)
    refusals = [it for part in re.findall(r"(?s)- (?:404|409|503)[^:]*:(.*?)(?=\n- |\n\n)", section) for it in re.findall(r"\b[A-Z][a-z]+[A-Za-z]*\b", part)]
    return sorted({*checks, *refusals})


def check_words(counts, page):
    """Each error as a sentence of its own."""
    names = errors_of_formats()
    counts.check("the errors of FORMATS", (len(names) >= 22, {"BadMax", "WentBack", "EndpointBacklog", "UnknownEvent", "Exists"} <= {*names}), (True, True))
    told = {it: page.run(f"sentence(400, {json.dumps(it)})") for it in [*names, "Unauthorized"]}
    for name, text in told.items():
        counts.check(f"{name} is a sentence", bool(re.fullmatch(r"[A-Z0-9].{20,}[.]", text)) and (name not in text or name in ("Unknown", "Conflict")))
    counts.check("no two are the same", len({*told.values(), page.run("sentence(400)")}), len(told) + 1)
    others = [page.run(f"sentence({status})") for status in (0, 200, 400, 401, 418, 431, 501, 502, 503, 504)]
    counts.check("an answer without a name", [it for it in others if not re.fullmatch(r"[A-Z].{20,}[.]", it)], [])
    counts.check("of another status", "418" in others[4])


def check_token(counts, page, relay):
    """Without a token the page asks for one; a wrong one is refused; then the totals come."""
    counts.check("it wants a token", page.waits_for("#state", "token"), "The proxy wants a token: enter one.")
    counts.check("nothing is known", page.text("#all-pending"), "–")
    page.press("Tab")
    counts.check("the first stop is the token", page.focused(), "enter token")
    page.type("enter token", "b" * 64)
    page.press("Enter")
    counts.check("a wrong one", page.waits_for("#state", "admit").startswith("The proxy doesn't admit this token here"))
    page.type("enter token", OPERATOR)
    page.press("Enter")
    counts.check("the right one", page.waits_for("#state", "answers"), "The relay answers.")
    check_totals(counts, page, relay, "at first")


def check_totals(counts, page, relay, when):
    shown = lambda: {it: page.text(f"#all-{it}") for it in ("delivered", "endpoints", "exhausted", "pending", "records")}
    real = lambda: {key: f"{value:,}" for key, value in ask(relay.address, "GET", "/v1/status").json().items()}
    until(lambda: shown() == real(), SECONDS)
    counts.check(f"the totals {when}", shown(), real())


def check_cards(counts, page, relay, subscriber):
    """Cards of an endpoint that is there, one that isn't, and of no name; and how one is removed."""
    for name in ("shop", "nowhere", "No/name"):
        page.type("add name", name)
        page.press("Enter")
        counts.check(f"{name} is added", page.waits_for("#added", name), f"A card of {name} is added.")
    until(lambda: not page.run("[...document.querySelectorAll('#cards p')].some((it) => it.textContent === 'It is asked for.')"), SECONDS)
    it = ask(relay.address, "GET", "/v1/endpoints/shop").json()
    wanted = {"Pending": f"{it['pending']:,} of 10,000", "Delivered": f"{it['delivered']:,}", "Exhausted": "0", "At most": "7 posts at once", "Secrets": "1",
              "URL": f"http://127.0.0.1:{subscriber.port}/hook"}
    counts.check("the card of shop", rows_of(page, "shop"), ["Enabled", wanted])
    counts.check("of one that isn't there", rows_of(page, "nowhere"), ["The relay has no endpoint of this name.", {}])
    counts.check("of no name", rows_of(page, "No/name"), ["This is no name of an endpoint or a topic: it has 1 to 32 small letters, digits and hyphens.", {}])
    page.type("add name", "shop")
    page.press("Enter")
    counts.check("twice", page.waits_for("#added", "already"), "There is a card of shop already.")
    for name in ("nowhere", "No/name"):
        page.tab_to(f"Remove the card of {name}")
        page.press("Enter")
        counts.check(f"{name} is removed", (page.waits_for("#added", "removed"), page.focused()), (f"The card of {name} is removed.", "add name"))
    counts.check("the address has the name", page.run("location.hash"), "#shop")
    page.type("add name", "billing")
    page.press("Enter")
    until(lambda: (rows_of(page, "billing") or ["It is asked for."])[0] != "It is asked for.", SECONDS)
    counts.check("enabled", rows_of(page, "billing")[0], "Enabled")
    submit(relay.address, "billing", b"{}", "gone")
    until(lambda: rows_of(page, "billing")[0] != "Enabled", SECONDS)
    told = rows_of(page, "billing")
    counts.check("disabled", (told[0], told[1]["Pending"]), (DISABLED, "1 of 10,000"))


def look_up(page, name, event):
    page.type("look name", name)
    page.type("look id", event)
    page.run("document.getElementById('looked').textContent = ''")
    page.press("Enter")
    until(lambda: page.text("#looked"), SECONDS)
    return page.text("#looked")


def check_events(counts, page, relay):
    """An event by its endpoint and its id."""
    at = ask(relay.address, "GET", "/v1/endpoints/shop/events/order-1").json()["at"]
    taken = f"It was taken at {time.strftime('%Y-%m-%d %H:%M:%S', time.localtime(at))}."
    counts.check("a delivered one", look_up(page, "shop", "order-1"), f"Delivered: attempt 1 was answered 200. {taken}")
    text = look_up(page, "shop", "order-bad")
    due = ask(relay.address, "GET", "/v1/endpoints/shop/events/order-bad").json()["due"]
    wanted = f"and the next is due at {time.strftime('%Y-%m-%d %H:%M:%S', time.localtime(due))}."
    counts.check("a pending one", bool(re.fullmatch(r"Pending: attempt \d+ was answered 503, (.*) It was taken at .*", text)) and wanted in text)
    counts.check("none of this id", look_up(page, "shop", "order-9"), "The endpoint has no event with this id.")
    counts.check("no id", look_up(page, "shop", "a.b"), "This is no event's id: it has 1 to 64 letters, digits, hyphens and underscores.")
    counts.check("letters that no id has", look_up(page, "shop", "ö"), "This is no event's id: it has 1 to 64 letters, digits, hyphens and underscores.")
    counts.check("no endpoint", look_up(page, "nowhere", "order-1"), "The relay has no endpoint of this name.")
    for state, attempts, status, wanted in (
        ("pending", 0, None, "Pending: no attempt has ended yet."),
        ("pending", 2, 0, "Pending: attempt 2 got no answer, and the next is due at"),
        ("pending", 1, 410, "That disabled the endpoint: the event waits until it is enabled."),
        ("exhausted", 10, 500, "Exhausted: it was given up after 10 failures, and the last was answered 500."),
    ):
        event = {"state": state, "attempts": attempts, "last_status": status, "due": 60, "at": 60}
        counts.check(f"in words: {wanted}", wanted in page.run(f"storyOf({json.dumps(event)})"))


def send(page, **fields):
    """Fills in the form by the keyboard and sends it; a field that isn't said stays as it is."""
    page.tab_to("send name")
    for name in ("name", "url", "max", "secret", "body", "id"):
        if name in fields:
            page.type(f"send {name}", fields[name])
    page.tab_to("send Send and follow it")
    page.press("Enter")


def check_sending(counts, page, relay, subscriber):
    """An endpoint is put and an event sent that its subscriber first answers with 500; then what the relay refuses."""
    page.tab_to("send first")
    page.press("Space")
    page.tab_to("send make")
    page.press("Space")
    secret = page.run("document.querySelector('#send [name=secret]').value")
    counts.check("a secret is made", bool(re.fullmatch(r"whsec_[A-Za-z0-9+/]{43}=", secret)))
    event = page.run("document.querySelector('#send [name=id]').value")
    url = f"http://127.0.0.1:{subscriber.port}/hook"
    for field, value, right, told in (("url", "https://h/", url, "This is no URL"), ("max", "0", "5", "The number of posts at once"),
                                      ("max", "many", "5", "The number of posts at once"), ("secret", "whsec_short", secret, "This is no secret")):
        send(page, **{"name": "trial", "url": url, "body": '{"trial":1}', field: value})
        counts.check(f"{field} {value} is refused", (last_step(page, told) or "").startswith(told))
        page.type(f"send {field}", right)
    send(page, name="trial")
    last = last_step(page, "Delivered", 120)
    found = steps_of(page)
    status = ask(relay.address, "GET", "/v1/status").json()
    wanted = ["The endpoint trial is put, as record N.", f"The event {event} is taken, as record N."]
    counts.check("it is put, taken", [re.sub(r"\d+\.$", "N.", it) for it in found[:2]], wanted)
    patterns = (r"Pending: attempt 1 was answered 500, and the next is due at",
                r"Delivered: attempt 2 was answered 200\..* This page saw it \d+\.\d seconds after the relay's answer\.")
    counts.check("it is followed", [bool(re.search(pattern, "\n".join(found))) for pattern in patterns], [True, True])
    counts.check("the last step", last and last.startswith("Delivered"))
    posts = [it for it in subscriber.posts if it.header("webhook-id") == event]
    counts.check("the subscriber got it, signed", [(it.body, it.is_signed_by(secret)) for it in posts], [(b'{"trial":1}', True)] * 2)
    counts.check("its card is added", until(lambda: rows_of(page, "trial") and rows_of(page, "trial")[1].get("Delivered") == "1", SECONDS))
    counts.check("it isn't put again", page.run("[form.first.checked, document.getElementById('new').disabled]"), [False, True])
    counts.check("it isn't followed any more", page.run("document.getElementById('stop').hidden"))
    counts.check("records", status["records"] >= 6)
    check_refused(counts, page, relay, event)


def check_refused(counts, page, relay, event):
    """What is refused at sending, and how following is stopped."""
    steps = [
        ({"id": event, "body": "other"}, "The endpoint has an event with this id already"),
        ({"id": "a b"}, "This is no event's id"),
        ({"name": "nowhere", "id": "e1"}, "The relay has no endpoint of this name."),
        ({"name": "trial", "body": "x" * 65537}, "The event is too long"),
    ]
    for fields, told in steps:
        send(page, **fields)
        counts.check(f"{told}..", (last_step(page, told) or "").startswith(told))
    page.click("#send [name=first]")
    send(page, name="trial", body="{}")
    counts.check("an endpoint that is there", (last_step(page, "There is an endpoint") or "").startswith("There is an endpoint of this name already"))
    page.click("#send [name=first]")
    counts.check("by the mouse it is no more put", page.run("document.getElementById('new').disabled"))
    ask(relay.address, "PUT", "/v1/endpoints/trial/enabled", b'{"enabled":false}')
    send(page, id="waits")
    counts.check("one that waits", (last_step(page, "Pending") or "").startswith("Pending: no attempt has ended yet."))
    page.tab_to("send stop")
    page.press("Enter")
    counts.check("it is followed no more", last_step(page, "any more"), "It isn't followed any more. Look it up above.")
    counts.check("and the focus isn't lost", page.focused(), "send Send and follow it")
    ask(relay.address, "PUT", "/v1/endpoints/trial/enabled", b'{"enabled":true}')


def check_submitter(counts, page):
    """A submitter's token looks and sends, and puts no endpoint."""
    page.type("enter token", SUBMITTER)
    page.press("Enter")
    counts.check("a submitter's token looks", page.waits_for("#state", "answers"), "The relay answers.")
    page.click("#send [name=first]")
    send(page, name="third", id="e1")
    counts.check("and puts no endpoint", (last_step(page, "admit") or "").startswith("The proxy doesn't admit this token here"))
    page.click("#send [name=first]")
    send(page, name="trial", id="by-submitter")
    counts.check("and sends", (last_step(page, "Delivered") or "").startswith("Delivered: attempt 1 was answered 200."))
    page.click("#enter [name=token]")
    page.type("enter token", OPERATOR)
    page.press("Enter")


def check_course(counts, page, relay):
    """The lines: their names and numbers, that they grow, and that what was pending for a while is in them."""
    names = lambda: page.run("[...document.querySelectorAll('figure svg')].map((it) => it.getAttribute('aria-label'))")
    pending = ask(relay.address, "GET", "/v1/status").json()["pending"]
    until(lambda: f"Pending: {pending} now" in names()[0], SECONDS)
    wanted = [f"{it}: N now, between N and N in this time" for it in ("Pending", "Delivered in a second", "Exhausted")]
    counts.check("what the lines are", [re.sub(r"[\d.]+", "N", it) for it in names()], wanted)
    counts.check("pending now", names()[0].startswith(f"Pending: {pending} now"))
    count = lambda: page.run("(document.querySelector('#chart-pending path').getAttribute('d').match(/[ML]/g) ?? []).length")
    before = count()
    counts.check("they grow", (before > 2, until(lambda: count() > before, SECONDS)), (True, True))
    counts.check("and stay within their box", page.run(WITHIN))
    for count in (30, 60):
        ask(relay.address, "PUT", "/v1/endpoints/trial/enabled", b'{"enabled":false}')
        for number in range(count):
            submit(relay.address, "trial", b"{}", f"many-{count}-{number}")
            time.sleep(0.2)
        counts.check(f"{count} that wait are seen", until(lambda: f"and {pending + count} in" in names()[0], SECONDS))
        ask(relay.address, "PUT", "/v1/endpoints/trial/enabled", b'{"enabled":true}')
        counts.check("and that they went", until(lambda: f"Pending: {pending} now" in names()[0], SECONDS))
    gaps = page.run("samples.slice(1).map((it, place) => it.at - samples[place].at)")
    counts.check("no two are near each other, though a token was entered between", min(gaps) >= 2500)
    page.run("samples.unshift({at: Date.now() - 590000, pending: 3, delivered: 0, exhausted: 0}); drawCourse()")
    counts.check("ten minutes", page.text("#chart-pending .ends span"), "10 minutes ago")
    counts.check("a gap is a gap", page.run("document.querySelector('#chart-pending path').getAttribute('d').match(/M/g).length") >= 2)
    page.run("samples.shift(); drawCourse()")


def check_reload(counts, page):
    """Read again, the page has its cards and the course, and no token."""
    line = "document.querySelector('#chart-pending path').getAttribute('d').length"
    before = page.run(line)
    kept = page.run("JSON.stringify([{...sessionStorage}, {...localStorage}, document.cookie, location.href])")
    counts.check("no token is kept", ("course" in kept, OPERATOR in kept), (True, False))
    page.run("location.reload()")
    counts.check("it has no token", page.waits_for("#state", "token"), "The proxy wants a token: enter one.")
    counts.check("its field is empty", page.run("document.querySelector('[name=token]').value"), "")
    counts.check("it has its cards", page.run("[...document.querySelectorAll('h3')].map((it) => it.textContent)"), ["shop", "billing", "trial"])
    counts.check("and the course", page.run(line) > before / 2)
    page.type("enter token", OPERATOR)
    page.press("Enter")
    counts.check("it goes on", page.waits_for("#state", "answers"), "The relay answers.")


def check_pause(counts, page, requests):
    """Paused, the page asks nothing; it goes on by the same button."""
    page.click("#pause")
    counts.check("it is paused", (page.run("document.getElementById('pause').getAttribute('aria-pressed')"), page.text("#asked")), ("true", "Paused"))
    time.sleep(6)
    before = len(requests())
    time.sleep(8)
    counts.check("it asks nothing", len(requests()), before)
    page.click("#pause")
    counts.check("it goes on", until(lambda: len(requests()) > before, SECONDS))


def check_labels(counts, page):
    """What a reader without eyes, mouse or both has: names, live regions, one order, a focus that is seen."""
    counts.check("the language", page.run("document.documentElement.lang"), "en")
    roles = page.roles()
    counts.check("each has a name", [it for it in roles if it[0] != "status" and not it[1]], [])
    counts.check("fields have labels", page.run("[...document.querySelectorAll('input:not([hidden]), textarea')].every((it) => it.labels.length === 1)"))
    live = page.run("[...document.querySelectorAll('[role=status], [role=log]')].map((it) => it.id || it.getAttribute('aria-label'))")
    counts.check("live regions", live, ["state", "added", "looked", "What became of the test event"])
    counts.check("headings go down one by one", page.run(IN_STEPS))
    page.run("document.querySelector('[name=token]').focus(); scrollTo(0, 0)")
    order, outlined = [], []
    for place in range(page.run(FOCUSABLE)):
        if place:
            page.press("Tab")
        order.append(page.run("[...document.querySelectorAll('input, textarea, button')].indexOf(document.activeElement)"))
        outlined.append(page.run(IS_OUTLINED))
    counts.check("Tab goes to each, in the page's order", (order == sorted({*order}), len(order)), (True, page.run(FOCUSABLE)))
    counts.check("the focus is seen", all(outlined))
    page.press("Tab", shift=True)
    counts.check("and back", page.focused() is not None)


def check_shapes(counts, page, folder):
    """At both widths, in light and dark, all of it fits and is legible; two pictures."""
    for width in (400, 1600):
        for scheme in ("light", "dark"):
            page.shape(width, scheme)
            name = f"{width} pixels, {scheme}"
            counts.check(f"{name}: nothing goes over", (page.run("document.documentElement.scrollWidth <= innerWidth"), page.run(TOO_WIDE)), (True, []))
            counts.check(f"{name}: nothing is too small", page.run(SMALL), [])
            least, where = page.run(CONTRASTS)
            counts.check(f"{name}: the contrast is 4.5 or more ({least:.2f} at {where})", least >= 4.5)
            counts.check(f"{name}: the ground", page.run("getComputedStyle(document.body).backgroundColor"), GROUNDS[scheme])
    page.shape(640, "light")
    counts.check("at 640 pixels too", page.run(TOO_WIDE), [])
    look_up(page, "shop", "order-bad")
    page.type("add name", "shop")
    page.press("Enter")
    send(page, name="trial")
    counts.check("one is sent for the pictures", (last_step(page, "Delivered") or "").startswith("Delivered"))
    for name, (width, scheme) in PICTURES.items():
        page.shape(width, scheme)
        page.run("document.activeElement.blur(); scrollTo(0, 0)")
        size = page.picture(pathlib.Path(folder, name))
        counts.check(f"{name} is below 150 kB", size < MOST_BYTES)
        print(f"{name}: {size} bytes")
    page.shape(1600, "light")


def check_down(counts, page, program, relay, file):
    """The relay is killed, and started again at its address."""
    relay.kill()
    told = "The relay doesn't answer the proxy: it is down, or all its threads are held."
    counts.check("it is down", page.waits_for("#state", "doesn't answer"), told)
    counts.check("nothing is shown as if it were so", (page.text("#all-pending"), rows_of(page, "shop")), ("–", [told, {}]))
    counts.check("the title says it", page.run("document.title"), "No answer – relayd")
    relay = Relay(program, file, address="%s:%d" % relay.address)
    counts.check("it is there again", page.waits_for("#state", "answers."), "The relay answers.")
    check_totals(counts, page, relay, "at the end")
    return relay


def check_served(counts, page, port):
    """How nginx serves it, what it asked for, and what the console says."""
    answers = [it["response"] for it in page.events("Network.responseReceived") if it["response"]["url"].endswith("/status.html")]
    headers = {key.lower(): value for key, value in answers[0]["headers"].items()}
    counts.check("its type", headers["content-type"], "text/html; charset=utf-8")
    counts.check("its policy", "default-src 'none'" in headers["content-security-policy"] and "connect-src 'self'" in headers["content-security-policy"])
    asked = {it["request"]["url"] for it in page.events("Network.requestWillBeSent")}
    own = f"https://127.0.0.1:{port}/"
    counts.check("it asks the relay alone", [it for it in asked if not it.startswith((f"{own}v1/", f"{own}status.html", "data:,"))], [])
    counts.check("it throws nothing", page.events("Runtime.exceptionThrown"), [])
    other = [it["entry"]["text"] for it in page.events("Log.entryAdded") if "Failed to load resource" not in it["entry"]["text"]]
    counts.check("the console", other, [])


def main():
    program, counts = program_of(__doc__), Counts()
    for name, package in (("chromium", "chromium"), ("nginx", "nginx-light"), ("openssl", "openssl")):
        needs(name, package)
    wrong = {"order-bad": [503] * 20}
    first = {}

    def reply(post):
        """A subscriber that answers 500 to the first post of each test event of the form that isn't a submitter's, and as `wrong` says."""
        event = post.header("webhook-id")
        if wrong.get(event):
            return wrong[event].pop()
        if event == "gone":
            return 410
        return 500 if event.startswith("test-") and first.setdefault(event, post) is post else 200

    with tempfile.TemporaryDirectory() as folder:
        file, subscriber = f"{folder}/relay.db", Subscriber(reply)
        relay = Relay(program, file)
        put(relay.address, "shop", subscriber.port, most=7)
        put(relay.address, "billing", subscriber.port, most=1)
        for event in ("order-1", "order-2", "order-bad"):
            submit(relay.address, "shop", b"{}", event)
        until(lambda: ask(relay.address, "GET", "/v1/endpoints/shop/events/order-bad").json()["attempts"] > 1, 60)
        pictures = sys.argv[2] if len(sys.argv) > 2 else folder
        with front_of(folder, relay) as port:
            browser = Browser(folder)
            page = browser.page(f"https://127.0.0.1:{port}/status.html")
            page.shape(1600, "light")
            check_words(counts, page)
            check_token(counts, page, relay)
            check_cards(counts, page, relay, subscriber)
            check_events(counts, page, relay)
            check_sending(counts, page, relay, subscriber)
            check_submitter(counts, page)
            check_course(counts, page, relay)
            check_reload(counts, page)
            check_labels(counts, page)
            check_shapes(counts, page, pictures)
            check_pause(counts, page, lambda: page.events("Network.requestWillBeSent"))
            relay = check_down(counts, page, program, relay, file)
            check_served(counts, page, port)
            browser.end()
        relay.kill()
    return counts.end()
