"""Draws how the adaptive limit follows a subscriber: an SVG of ten seconds.

It has the round trips, and the posts in flight over the limit. The subscriber is computed here: it
works on so many posts at once, each for so long (a fifth more or less, by chance), and lets the
others wait in their order. The relay always has something to post, and keeps as many posts in
flight as its limit allows. The limit is asked of `relayd vegas`, one sample after another. In the
last course both are real: `relayd serve` posts with 64 workers to an endpoint with a maximum of 50,
and what is drawn is what the subscriber saw. There the maximum follows in place of the limit, which
no reply of a relay shows.

It prints how many posts were in flight at most, how many on average at the end of each part, and,
if the subscriber slows down, for how long more than twice as many were in flight as it then works
on. It fails if more were in flight than the maximum, or if the subscriber didn't get fewer at once
as it slowed down and more as it recovered.

A COURSE is one of:
  slows-down   a subscriber that works on 40 posts at once, each for 50 ms; after 3 seconds on 10,
               each for 200 ms; after 7 as before
  steady       one that works on 40 posts at once all the while
  served       a relay that serves, and the subscriber of slows-down, each of whose posts takes
               twice as long

Usage: scripts/bench limits RELAYD COURSE SVG
"""
import concurrent.futures
import heapq
import pathlib
import random
import subprocess
import sys
import tempfile
import threading
import time

from lib.command import end_with_usage, program_of
from lib.serving import Relay, Subscriber, ask, put, submit

SECONDS = 10
MOST = 100
MOST_SERVED = 50
SPREAD = 0.2
COURSES = {
    "slows-down": [(0, 40, 0.05), (3, 10, 0.2), (7, 40, 0.05)],
    "steady": [(0, 40, 0.05)],
    "served": [(0, 40, 0.1), (3, 10, 0.4), (7, 40, 0.1)],
}
EVENTS = 4000
PAUSE = 0.01
# How much of a part's end is averaged, in seconds.
TAIL = 1.5
WIDTH, HEIGHT, LEFT, RIGHT, TOP, GAP = 780, 150, 72, 28, 34, 46


class Limit:
    """The relay's limit, by the program."""

    def __init__(self, program):
        self.program = subprocess.Popen([program, "vegas", str(MOST)], stdin=subprocess.PIPE, stdout=subprocess.PIPE, text=True)
        self.value = min(20, MOST)

    def sample(self, seconds, inflight):
        self.program.stdin.write(f"{max(1, round(seconds * 1e6))} {inflight} ok\n")
        self.program.stdin.flush()
        self.value = int(self.program.stdout.readline().split()[0])

    def end(self):
        self.program.stdin.close()
        self.program.wait()


class Seen:
    """What is drawn: moments with a round trip, with the posts in flight, and with the limit."""

    def __init__(self, most, name):
        self.most, self.name, self.trips, self.flying, self.limits = most, name, [], [], []

    def note(self, now, flying, limit):
        self.flying.append((now, flying))
        self.limits.append((now, limit))


def phase_at(course, moment):
    """How many posts the subscriber works on at once, and for how long on each."""
    return [phase[1:] for phase in course if phase[0] <= moment][-1]


def follow(course, limit):
    """Computes relay and subscriber."""
    seen, waiting, working, now, flying, rng = Seen(MOST, "limit"), [], [], 0.0, 0, random.Random(1)
    while now < SECONDS:
        while flying < limit.value:
            flying += 1
            waiting.append((now, flying))
        seen.note(now, flying, limit.value)
        servers, work = phase_at(course, now)
        while waiting and len(working) < servers:
            began, inflight = waiting.pop(0)
            heapq.heappush(working, (now + work * rng.uniform(1 - SPREAD, 1 + SPREAD), began, inflight))
        now, began, inflight = heapq.heappop(working)
        flying -= 1
        limit.sample(now - began, inflight)
        seen.trips.append((now, now - began))
    return seen


class Working:
    """A subscriber that works on so many posts at once, each for so long. It keeps the moment of each
    answer and how long it took."""

    def __init__(self, course):
        self.course, self.began, self.busy, self.trips, self.rng = course, None, 0, [], random.Random(1)
        self.free = threading.Condition()

    def phase(self):
        return phase_at(self.course, time.monotonic() - self.began)

    def __call__(self, _):
        came = time.monotonic()
        with self.free:
            self.free.wait_for(lambda: self.busy < self.phase()[0], 60)
            self.busy += 1
            spread = self.rng.uniform(1 - SPREAD, 1 + SPREAD)
        time.sleep(self.phase()[1] * spread)
        with self.free:
            self.busy -= 1
            self.free.notify_all()
        now = time.monotonic()
        self.trips.append((now - self.began, now - came))
        return 200


def serve(program, course):
    """Lets a relay post, and returns what its subscriber saw."""
    seen, working = Seen(MOST_SERVED, "maximum"), Working(course)
    subscriber = Subscriber(working)
    with tempfile.TemporaryDirectory() as folder:
        relay = Relay(program, f"{folder}/relay.db", "--workers", 64)
        put(relay.address, "a", subscriber.port, most=MOST_SERVED)
        ask(relay.address, "PUT", "/v1/endpoints/a/enabled", b'{"enabled":false}')
        with concurrent.futures.ThreadPoolExecutor(8) as pool:
            list(pool.map(lambda number: submit(relay.address, "a", b"{}", f"e{number}"), range(EVENTS)))
        working.began = time.monotonic()
        ask(relay.address, "PUT", "/v1/endpoints/a/enabled", b'{"enabled":true}')
        now = 0
        while now < SECONDS:
            seen.note(now, subscriber.open, MOST_SERVED)
            time.sleep(PAUSE)
            now = time.monotonic() - working.began
        relay.kill()
    seen.note(SECONDS, subscriber.most, MOST_SERVED)
    seen.trips = sorted(it for it in working.trips if it[0] < SECONDS)
    return seen


def thinned(pairs):
    """One pair for each fiftieth of a second."""
    return list({int(pair[0] * 50): pair for pair in pairs if pair[0] < SECONDS}.values())


def x_of(moment):
    return LEFT + (WIDTH - LEFT - RIGHT) * min(moment, SECONDS) / SECONDS


def y_of(value, most, top):
    return top + HEIGHT * (1 - min(value, most) / most)


def line(pairs, most, top):
    return " ".join(f"{x_of(moment):.1f},{y_of(value, most, top):.1f}" for moment, value in pairs)


def steps(pairs):
    """A value that stays until the next one."""
    for (moment, value), (following, _) in zip(pairs, [*pairs[1:], (SECONDS, 0)]):
        yield from ((moment, value), (following, value))


def panel(title, unit, most, top, names):
    """A part of the picture: its title, its scale, and the names of its lines, each with a colour and
    a distance from the right."""
    yield f'<text x="{LEFT}" y="{top - 12}" class="title">{title}</text>'
    for part in range(5):
        y = top + HEIGHT * (1 - part / 4)
        yield f'<line x1="{LEFT}" y1="{y:.1f}" x2="{WIDTH - RIGHT}" y2="{y:.1f}" class="grid"/>'
        yield f'<text x="{LEFT - 8}" y="{y + 4:.1f}" class="scale" text-anchor="end">{most * part // 4}{unit}</text>'
    for name, colour, x in names:
        yield f'<text x="{WIDTH - RIGHT - x}" y="{top - 12}" fill="{colour}" text-anchor="end">{name}</text>'


def trips_panel(seen, top):
    trips = [(moment, trip * 1000) for moment, trip in seen.trips]
    slowest = max(100, -(-int(max(trip for _, trip in trips)) // 100) * 100)
    yield from panel("round trip", " ms", slowest, top, [("of each answer", "#b3541e", 0)])
    yield f'<polyline points="{line(thinned(trips), slowest, top)}" fill="none" stroke="#b3541e" stroke-width="1.2"/>'


def posts_panel(seen, course, top):
    """The limit as a filled step, the posts in flight over it, and how many posts the subscriber works on at once, dashed."""
    names = [("in flight", "#4c8431", 0), ("- - what the subscriber works on", "#333", 70), (f"\u25a0 {seen.name}", "#6f93cf", 272)]
    yield from panel("posts at once", "", MOST, top, names)
    area = [(0, 0), *steps(thinned(seen.limits)), (SECONDS, 0)]
    yield f'<polygon points="{line(area, MOST, top)}" fill="#c3d4f0"/>'
    flying = steps(thinned(seen.flying))
    yield f'<polyline points="{line(flying, MOST, top)}" fill="none" stroke="#5b9a3c" stroke-width="1.4"/>'
    works = steps([phase[:2] for phase in course])
    yield f'<polyline points="{line(works, MOST, top)}" fill="none" stroke="#333" stroke-width="1.6" stroke-dasharray="6 4"/>'


def picture(seen, course):
    second = TOP + HEIGHT + GAP
    height = second + HEIGHT + 40
    yield f'<svg xmlns="http://www.w3.org/2000/svg" viewBox="0 0 {WIDTH} {height}" font-family="sans-serif" font-size="12">'
    yield "<style>.grid{stroke:#ddd}.scale{fill:#666}.title{font-weight:bold}</style>"
    yield f'<rect width="{WIDTH}" height="{height}" fill="#fff"/>'
    yield from trips_panel(seen, TOP)
    yield from posts_panel(seen, course, second)
    for moment in range(SECONDS + 1):
        yield f'<text x="{x_of(moment):.1f}" y="{second + HEIGHT + 20}" class="scale" text-anchor="middle">{moment} s</text>'
    yield "</svg>"


def mean_of(pairs, begun, end):
    """The mean of a value that stays until the next one."""
    held = zip(pairs, [*pairs[1:], (end, 0)])
    return sum(value * max(0, min(until, end) - max(now, begun)) for (now, value), (until, _) in held) / (end - begun)


def fall_of(course, flying):
    """How long after it slowed down the subscriber had more than twice as many posts as it then worked on."""
    (begun, works, _), (end, _, _) = course[1:]
    return max((now - begun for now, value in flying if begun <= now < end and value > 2 * works), default=0)


def main():
    program = program_of(__doc__)
    if len(sys.argv) != 4 or sys.argv[2] not in COURSES:
        end_with_usage(__doc__)
    course = COURSES[sys.argv[2]]
    if sys.argv[2] == "served":
        seen = serve(program, course)
    else:
        limit = Limit(program)
        seen = follow(course, limit)
        limit.end()
    if not seen.trips:
        sys.exit("no post was answered")
    pathlib.Path(sys.argv[3]).write_text("\n".join(picture(seen, course)) + "\n")
    most = max(value for _, value in seen.flying)
    means = [mean_of(seen.flying, end - TAIL, end) for end in [*(phase[0] for phase in course[1:]), SECONDS]]
    print(f"{len(seen.trips)} answers; at most {most} in flight; at the end of each part {', '.join(f'{it:.1f}' for it in means)}")
    if most > seen.most:
        sys.exit("more were in flight than the endpoint's maximum")
    if len(means) == 3:
        print(f"more than {2 * course[1][1]} were in flight for {fall_of(course, seen.flying):.1f} seconds after it slowed down")
        if not means[0] > means[1] < means[2]:
            sys.exit("it didn't get fewer at once as it slowed down, and more as it recovered")
