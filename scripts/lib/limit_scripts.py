"""Scripts that come to the relay's limits, with the replies that docs/SPECIFICATION.md gives them. `scripts/script limits` runs them;
`scripts/script model` runs them over the model, with fewer pending events.
"""
from lib.serving import SECRET

MOST_PAIRS = 4096
MOST_WAITING = 768
MOST_SEALED = 256


class Script:
    """Lines, each with the reply that it wants."""

    def __init__(self):
        self.lines = []
        self.staged = 0
        self.settled = 0
        # Where each waiting step ends.
        self.ends = []

    def wants(self, text, reply):
        self.lines.append((text, reply))

    def stages(self, text, count=1, known=()):
        """A line that stages so many records, and is answered their numbers after those that are known. What waits is settled if there is no place for
        them."""
        if self.staged - self.settled + count > MOST_WAITING:
            self.settles()
        numbers = [*known, *range(self.staged, self.staged + count)]
        self.wants(text, "staged " + ",".join(map(str, numbers)))
        self.staged += count
        self.ends.append(self.staged)

    def settles(self):
        """All that waits goes into the store, in batches."""
        while self.settled < self.staged:
            upto = max(end for end in self.ends if end <= self.settled + MOST_SEALED)
            self.wants("seal", f"sealed {self.settled}..{upto}")
            self.wants("commit", f"committed {upto}")
            self.wants("settle", f"settled {upto}")
            self.settled = upto
        self.ends.clear()


def put(name):
    return f"put {name} http://h/ 100 {SECRET}"


def room(pending, pending_all):
    """All endpoints and pending events that there is room for, and one more of each. So many events may be pending at an endpoint, and in all."""
    script, last = Script(), pending_all // pending - 1
    for number in range(256):
        script.stages(put(f"e{number}"))
    script.wants(put("one-more"), "refused 4 TooManyEndpoints")
    script.wants(put("e0"), "refused 3 Exists")
    for number in range(last + 1):
        for event in range(pending):
            script.stages(f"submit 1000 e{number} m{event} 7b7d")
        if number == 0:
            script.wants("submit 1000 e0 more 7b7d", "refused 4 EndpointBacklog")
            script.wants("submit 1000 e0 m0 7b7d", "staged 256")
            script.wants("told 256", "settled" if script.settled > 256 else "waiting")
            script.wants(f"told {script.staged - 1}", "waiting")
    script.wants(f"submit 1000 e{last + 1} more 7b7d", "refused 5 Backlog")
    script.wants(f"submit 1000 e{last} more 7b7d", "refused 4 EndpointBacklog")
    script.settles()
    script.wants(f"show e{last} m{pending - 1}", "pending due 1000 attempts 0")
    script.wants(f"show e{last}", f"enabled pending {pending} delivered 0 exhausted 0")
    return script


def pairs():
    """All pairs of a topic and an endpoint that there is room for, and then all requests that may wait. No pair more may be named, also to unsubscribe
    it. A publish of an id that is known is still taken."""
    script = Script()
    script.stages(put("a"))
    for number in range(MOST_PAIRS):
        script.stages(f"subscribe t{number} a")
    script.settles()
    for event in range(MOST_WAITING - 2):
        script.stages(f"submit 1000 a m{event} 7b7d")
    for call in ("unsubscribe", "subscribe"):
        script.wants(f"{call} more a", "refused 8 TooManySubscriptions")
        script.stages(f"{call} t7 a")
    for call in ("unsubscribe", "subscribe"):
        script.wants(f"{call} more b", "refused 2 UnknownEndpoint")
        script.wants(f"{call} more a", "refused 8 TooManySubscriptions")
        script.wants(f"{call} t7 a", "refused 5 WaitingFull")
    script.wants("publish 1000 more m0 7b7d", "refused 2 UnknownTopic")
    script.wants("publish 1000 t7 m0 7b7d", f"staged {MOST_PAIRS + 1}")
    script.wants("publish 1000 t7 more 7b7d", "refused 6 WaitingFull")
    return script


def publishes(pending, pending_all):
    """Publishes up to all pending events that there is room for. One is refused if an endpoint that lacks its event has no room, or if there is none
    for as many events."""
    script = Script()
    names = [f"e{number}" for number in range(7)]
    for name in names:
        script.stages(put(name))
    for name in reversed(names):
        script.stages(f"subscribe all {name}")
    for name in names[5:]:
        script.stages(f"subscribe two {name}")
    first = script.staged
    for event in range(pending - 1):
        script.stages(f"submit 1000 e0 m{event} 7b7d")
    script.stages("publish 1000 all last 7b7d", 7)
    script.wants("publish 1000 all more 7b7d", "refused 4 EndpointBacklog")
    script.stages("publish 1000 all m0 7b7d", 6, [first])
    # All endpoints but the first have two events now. The next four get as many as leave room for one.
    for event in range(pending_all - pending - 13):
        script.stages(f"submit 1000 e{1 + event // (pending - 2)} n{event} 7b7d")
    script.wants("publish 1000 two more 7b7d", "refused 5 Backlog")
    script.stages("submit 1000 e5 more 7b7d")
    script.wants("publish 1000 two more 7b7d", "refused 5 Backlog")
    script.wants("publish 1000 two more 7b7c", "refused 3 Conflict")
    last = range(first + pending - 1, first + pending + 6)
    script.wants("publish 1000 all last 7b7d", "staged " + ",".join(map(str, last)))
    return script
