"""A model of the relay's desk: what a history says, what each call of the desk is answered, and what survives a crash.

The model keeps all records in one list and looks everything up in it: it is slow, and easy to compare with docs/SPECIFICATION.md, which has the
rules. It shares no code with the relay. It knows neither out of memory nor the limit of 2^62 records. `scripts/script` compares the relay with it, and
`scripts/script model` compares it with worked examples.
"""
from typing import NamedTuple

MOST_ENDPOINTS = 256
MOST_PAIRS = 4096
MOST_WAITING = 768
MOST_OUTCOMES = 256
MOST_SEALED = 256
# The seconds to the next attempt after each failure but the last.
DELAYS = [5, 300, 1800, 7200, 18000, 36000, 50400, 72000, 86400]
GONE = 410


# The records


class Put(NamedTuple):
    name: str
    url: str
    most: int
    secrets: tuple


class Secrets(NamedTuple):
    name: str
    secrets: tuple


class Enabled(NamedTuple):
    name: str
    flag: bool


class Subscribed(NamedTuple):
    topic: str
    name: str
    flag: bool


class Accept(NamedTuple):
    name: str
    id: str
    body: bytes
    at: int


class Outcome(NamedTuple):
    delivery: int
    status: int
    at: int


class Purge(NamedTuple):
    before: int


# What a history says, which is a list of records


def of(kind, records):
    """The records of a kind."""
    return [record for record in records if isinstance(record, kind)]


def names_in(records):
    """The endpoints, in the order in which they were put."""
    return [record.name for record in of(Put, records)]


def last_that_says(records, said):
    """What the last record says that says something, and its number."""
    for number in reversed(range(len(records))):
        value = said(records[number])
        if value is not None:
            return value, number
    return None, None


def secrets_of(records, name):
    """The secrets of an endpoint, newest first, and the number of the record that gave them."""
    return last_that_says(records, lambda it: it.secrets if isinstance(it, (Put, Secrets)) and it.name == name else None)


def flag_of(records, name):
    """Whether an endpoint is enabled, and the number of the record that decides it."""

    def said(record):
        if isinstance(record, Put) and record.name == name:
            return True
        if isinstance(record, Enabled) and record.name == name:
            return record.flag
        if isinstance(record, Outcome) and record.status == GONE and records[record.delivery].name == name:
            return False
        return None

    return last_that_says(records, said)


def subscriptions_in(records):
    """Of each pair of a topic and an endpoint that a record names: the last flag, and that record's number."""
    pairs = {}
    for number, record in enumerate(records):
        if isinstance(record, Subscribed):
            pairs[record.topic, record.name] = record.flag, number
    return pairs


def subscribers(records, topic):
    """The endpoints that are subscribed to a topic, in the order in which they were put."""
    flags = {record.name: record.flag for record in of(Subscribed, records) if record.topic == topic}
    return [name for name in names_in(records) if flags.get(name)]


class Delivery:
    """An event at its endpoint, and the outcomes of the attempts at it."""

    def __init__(self, accept):
        self.accept = accept
        self.outcomes = []

    @property
    def failures(self):
        return sum(not 200 <= it.status <= 299 and it.status != GONE for it in self.outcomes)

    @property
    def state(self):
        if any(200 <= it.status <= 299 for it in self.outcomes):
            return "delivered"
        return "exhausted" if self.failures > len(DELAYS) else "pending"

    @property
    def due(self):
        """When a pending event is posted next."""
        if not self.outcomes:
            return self.accept.at
        last = self.outcomes[-1]
        return last.at if last.status == GONE else last.at + DELAYS[self.failures - 1]


    def is_past(self, before):
        """Whether its last attempt ended it, before a moment."""
        return bool(self.outcomes) and self.outcomes[-1].at < before and self.state != "pending"


def deliveries_in(records):
    """Each event by its number, without those that a purge took."""
    found = {}
    for number, record in enumerate(records):
        if isinstance(record, Accept):
            found[number] = Delivery(record)
        if isinstance(record, Outcome):
            found[record.delivery].outcomes.append(record)
        if isinstance(record, Purge):
            found = {number: it for number, it in found.items() if not it.is_past(record.before)}
    return found


def is_purged(records, number):
    """Whether the record with a number is an event that a purge took."""
    it = Delivery(records[number])
    for record in records[number + 1 :] if isinstance(it.accept, Accept) else ():
        if isinstance(record, Outcome) and record.delivery == number:
            it.outcomes.append(record)
        if isinstance(record, Purge) and it.is_past(record.before):
            return True
    return False


def number_of(records, name, id):
    """The number of the event that an endpoint knows by an id, or None."""
    numbers = (number for number, it in enumerate(records) if isinstance(it, Accept) and it.name == name and it.id == id)
    return next((number for number in numbers if not is_purged(records, number)), None)


def counts_in(records, name=None):
    """How many events, of one endpoint or of all, are in each state."""
    states = [it.state for it in deliveries_in(records).values() if name in (None, it.accept.name)]
    return {state: states.count(state) for state in ("pending", "delivered", "exhausted")}


def first_due(held, now, has_room):
    """The number of the event that is posted first, or None. `held` has events as (endpoint, due moment, number). One may be posted if it is due and
    its endpoint has room. The one that is due first comes first, at equal moments the one that was accepted first."""
    with_room = {name for name in {name for name, _, _ in held} if has_room(name)}
    ready = [(due, number) for name, due, number in held if due <= now and name in with_room]
    return min(ready)[1] if ready else None


# The adaptive limit


class Estimator:
    """The limit of an endpoint, sample by sample."""

    def __init__(self, most):
        self.most, self.limit, self.noload, self.probes = most, min(20, most), 0, 0

    def sample(self, rtt, inflight, dropped):
        rtt = min(max(rtt, 1), 3_600_000_000)
        self.probes += 1
        if 30 * self.limit <= self.probes:
            self.noload, self.probes = rtt, 0
        elif self.noload == 0 or rtt < self.noload:
            self.noload = rtt
        else:
            self.limit = min(max(self.moved(rtt, inflight, dropped), 1), self.most)

    def moved(self, rtt, inflight, dropped):
        limit, gap = self.limit, max(1, len(str(self.limit)) - 1)
        queued = -(-limit * (rtt - self.noload) // rtt)
        if dropped:
            return limit - gap
        if 2 * inflight < limit:
            return limit
        if queued <= gap:
            return limit + 6 * gap
        if queued < 3 * gap:
            return limit + gap
        return limit - gap if queued > 6 * gap else limit


# The desk


def refused(number, name):
    return f"refused {number} {name}"


class Permit(NamedTuple):
    name: str
    delivery: int
    inflight: int


class Desk:
    """A desk and its store. Calls answer as the lines of a script do."""

    # How many events may be pending at an endpoint, and in all.
    MOST_PENDING = 10_000
    MOST_PENDING_ALL = 50_000

    def __init__(self, history=()):
        """Opens a store that has these records."""
        self.history = list(history)
        self.settled = self.sealed = len(self.history)
        # Where each step ends that was staged since the opening.
        self.ends = []
        # What is held: a batch, the receipt of one, or nothing.
        self.held = None
        self.halted = False
        self.clock = max((record.at for it in deliveries_in(self.history).values() for record in (it.accept, *it.outcomes)), default=0)
        self.tickets = set()
        self.permits = []
        self.limits = {put.name: Estimator(put.most) for put in of(Put, self.history)}

    def stop(self):
        """A crash. What isn't committed is gone, and so are tickets, permits and limits."""
        kept = self.sealed if self.held == "receipt" else self.settled
        self.__init__(self.history[:kept])
        return f"reopened {kept}"

    # What waits

    def shown(self):
        """The records that are settled, which pages tell of."""
        return self.history[: self.settled]

    def waiting_outcomes(self):
        return of(Outcome, self.history[self.settled :])

    def is_full(self, more=1):
        """Whether so many more records of requests find no place."""
        return len(self.history) - self.settled - len(self.waiting_outcomes()) + more > MOST_WAITING

    def stage(self, *records):
        """Adds a step of these records, and gives their numbers."""
        first = len(self.history)
        self.history += records
        self.ends.append(len(self.history))
        return range(first, len(self.history))

    def told(self, number):
        if number not in self.tickets:
            return "no-ticket"
        if number < self.settled:
            return "unknown" if is_purged(self.shown(), number) else "settled"
        return "unknown" if self.halted else "waiting"

    # Commands

    def command(self, record):
        """Stages a command, if there is a place for it."""
        if self.is_full():
            return refused(5, "WaitingFull")
        (number,) = self.stage(record)
        self.tickets.add(number)
        return f"staged {number}"

    def put(self, name, url, most, secrets):
        names = names_in(self.history)
        if self.halted:
            return refused(1, "Halted")
        if name in names:
            return refused(3, "Exists")
        if len(names) >= MOST_ENDPOINTS:
            return refused(4, "TooManyEndpoints")
        reply = self.command(Put(name, url, most, tuple(secrets)))
        if reply.startswith("staged"):
            self.limits[name] = Estimator(most)
        return reply

    def change(self, record):
        """A command that changes an endpoint: Secrets, Enabled or Subscribed."""
        if self.halted:
            return refused(1, "Halted")
        if record.name not in names_in(self.history):
            return refused(2, "UnknownEndpoint")
        if isinstance(record, Subscribed) and self.is_a_pair_too_many(record):
            return refused(8, "TooManySubscriptions")
        return self.command(record)

    def purge(self, before):
        """A command that takes away the events that ended before a moment."""
        return refused(1, "Halted") if self.halted else self.command(Purge(before))

    def is_a_pair_too_many(self, record):
        """Whether no record named this pair yet, and no further one may be named."""
        pairs = subscriptions_in(self.history)
        return (record.topic, record.name) not in pairs and len(pairs) >= MOST_PAIRS

    # Events

    def submit(self, now, name, id, body):
        """An event for one endpoint."""
        known = name in names_in(self.history)
        return self.take_in(now, [name] if known else [], "UnknownEndpoint", id, body)

    def publish(self, now, topic, id, body):
        """An event for each endpoint that is subscribed to a topic."""
        return self.take_in(now, subscribers(self.history, topic), "UnknownTopic", id, body)

    def take_in(self, now, names, unknown, id, body):
        """Takes an event in, in one step, for those of the endpoints that don't know its id. It is answered its number at each of them."""
        if self.halted:
            return refused(1, "Halted")
        if not names:
            return refused(2, unknown)
        numbers = {name: number_of(self.history, name, id) for name in names}
        if any(number is not None and self.history[number].body != body for number in numbers.values()):
            return refused(3, "Conflict")
        lacking = [name for name in names if numbers[name] is None]
        reply = self.no_room_for(lacking) if lacking else None
        if reply:
            return reply
        self.clock = max(self.clock, now)
        if lacking:
            numbers.update(zip(lacking, self.stage(*(Accept(name, id, body, self.clock) for name in lacking))))
        self.tickets.update(numbers.values())
        return "staged " + ",".join(str(numbers[name]) for name in names)

    def no_room_for(self, names):
        """How one more event of each of these endpoints is refused, if there is no room for them."""
        # Fewer records than this leave no backlog. It takes long to count them.
        if len(self.history) >= self.MOST_PENDING:
            if any(counts_in(self.history, name)["pending"] >= self.MOST_PENDING for name in names):
                return refused(4, "EndpointBacklog")
            if counts_in(self.history)["pending"] + len(names) > self.MOST_PENDING_ALL:
                return refused(5, "Backlog")
        return refused(6, "WaitingFull") if self.is_full(len(names)) else None

    # Attempts

    def in_flight(self, name):
        return sum(permit.name == name for permit in self.permits)

    def has_room(self, name):
        """Whether an endpoint may be posted to now."""
        return flag_of(self.history, name)[0] and self.in_flight(name) < self.limits[name].limit

    def held_to_post(self):
        """The pending events at which no attempt is under way, nor was one whose outcome waits."""
        busy = {it.delivery for it in (*self.permits, *self.waiting_outcomes())}
        found = deliveries_in(self.shown()).items()
        return [(it.accept.name, it.due, number) for number, it in found if it.state == "pending" and number not in busy]

    def claim(self, now):
        if self.halted:
            return refused(1, "Halted")
        self.clock = max(self.clock, now)
        if len(self.permits) + len(self.waiting_outcomes()) >= MOST_OUTCOMES:
            return "none"
        number = first_due(self.held_to_post(), self.clock, self.has_room)
        if number is None:
            return "none"
        accept = self.history[number]
        permit = Permit(accept.name, number, self.in_flight(accept.name) + 1)
        self.permits.append(permit)
        attempt = len(deliveries_in(self.history)[number].outcomes) + 1
        return f"permit {number} {accept.name} {accept.id} attempt {attempt} at {self.clock} inflight {permit.inflight}"

    def spend(self, number, now, result, rtt=None):
        """Ends an attempt: with a status or a timeout and the round trip, or `unreached`, or `unsent`."""
        permit = next((permit for permit in self.permits if permit.delivery == number), None)
        if permit is None:
            return "no-permit"
        self.permits.remove(permit)
        dropped = result in ("timeout", "429", "502", "503", "504")
        spent = "ignored" if rtt is None else "dropped" if dropped else "success"
        staged = "nothing" if self.halted else self.record_outcome(permit, now, result, rtt, dropped)
        return f"{spent} limit {self.limits[permit.name].limit} inflight {self.in_flight(permit.name)} {staged}"

    def record_outcome(self, permit, now, result, rtt, dropped):
        self.clock = max(self.clock, now)
        if rtt is not None:
            self.limits[permit.name].sample(rtt, permit.inflight, dropped)
        if result == "unsent":
            return "nothing"
        (number,) = self.stage(Outcome(permit.delivery, int(result) if result.isdigit() else 0, self.clock))
        return f"staged {number}"

    # Batches

    def seal(self):
        if self.halted:
            return refused(1, "Halted")
        if self.held:
            return refused(2, "BatchOut")
        if self.settled == len(self.history):
            return "nothing"
        self.sealed = max(end for end in self.ends if end <= self.settled + MOST_SEALED)
        self.held = "batch"
        return f"sealed {self.settled}..{self.sealed}"

    def commit(self):
        if self.held != "batch":
            return "no-batch"
        self.held = "receipt"
        return f"committed {self.sealed}"

    def settle(self):
        if self.held != "receipt":
            return "no-receipt"
        self.held = None
        self.settled = self.sealed
        return f"settled {self.settled}"

    def unseal(self):
        if self.held != "batch":
            return "no-batch"
        self.held = None
        return f"unsealed {self.settled}..{self.sealed}"

    def halt(self):
        if self.held == "receipt":
            return refused(1, "WrongTurn")
        self.held = None
        self.halted = True
        return "halted"

    # Looks

    def show(self, name, id):
        number = number_of(self.shown(), name, id)
        if number is None:
            return "absent"
        it = deliveries_in(self.shown())[number]
        due = f" due {it.due}" if it.state == "pending" else ""
        return f"{it.state}{due} attempts {len(it.outcomes)}"

    def show_endpoint(self, name):
        records = self.shown()
        if name not in names_in(records):
            return "absent"
        counts = " ".join(f"{state} {count}" for state, count in counts_in(records, name).items())
        return f"{'enabled' if flag_of(records, name)[0] else 'disabled'} {counts}"

    def show_limits(self, name):
        if name not in self.limits:
            return "absent"
        limit = self.limits[name]
        return f"limit {limit.limit} inflight {self.in_flight(name)} noload {limit.noload}"


# Scripts


def body_of(word):
    return bytes.fromhex(word.removeprefix("-"))


CALLS = {
    "put": lambda desk, name, url, most, secrets: desk.put(name, url, int(most), secrets.split(",")),
    "secrets": lambda desk, name, secrets: desk.change(Secrets(name, tuple(secrets.split(",")))),
    "enable": lambda desk, name: desk.change(Enabled(name, True)),
    "disable": lambda desk, name: desk.change(Enabled(name, False)),
    "subscribe": lambda desk, topic, name: desk.change(Subscribed(topic, name, True)),
    "unsubscribe": lambda desk, topic, name: desk.change(Subscribed(topic, name, False)),
    "purge": lambda desk, before: desk.purge(int(before)),
    "submit": lambda desk, now, name, id, body: desk.submit(int(now), name, id, body_of(body)),
    "publish": lambda desk, now, topic, id, body: desk.publish(int(now), topic, id, body_of(body)),
    "told": lambda desk, number: desk.told(int(number)),
    "claim": lambda desk, now: desk.claim(int(now)),
    "spend": lambda desk, number, now, result, *rtt: desk.spend(int(number), int(now), result, *map(int, rtt)),
    "limits": lambda desk, name: desk.show_limits(name),
    "show": lambda desk, name, *id: desk.show(name, *id) if id else desk.show_endpoint(name),
    **{call: lambda desk, call=call: getattr(desk, call)() for call in ("seal", "commit", "settle", "unseal", "halt", "stop")},
}


def reply_to(desk, line):
    """What a line of a script is answered. The words of the line are good ones."""
    call, *words = line.split(" ")
    return CALLS[call](desk, *words)
