"""Which rows a store may have: the conditions of docs/FORMATS.md, "Rows that are opened", and the history that it gives of such rows.

It shares no code with the relay. `scripts/script model` compares it with random histories, and `scripts/store files` compares the relay with it."""
import base64
import itertools

from lib.answers import ID, LAST_MOMENT, NAME, URL
from lib.model import DELAYS, GONE, Accept, Enabled, Outcome, Purge, Put, Secrets, Subscribed

MOST_RECORDS = 2**62
MOST_ENDPOINTS, MOST_TOPICS, MOST_BODY = 256, 4096, 65_536


class Rows:
    """The rows of a store, of either version, and what is asked of them. Each method is a condition, by its number."""

    def __init__(self, rows):
        self.records = rows["meta"][0][3]
        self.endpoints, self.secrets = rows["endpoints"], rows["secrets"]
        self.deliveries, self.attempts = rows["deliveries"], rows["attempts"]
        self.topics = rows["topics"] if rows["meta"][0][2] > 1 else []
        self.puts, self.events = {it[0]: it for it in self.endpoints}, {it[0]: it for it in self.deliveries}
        self.taken = [it[0] for it in (*self.endpoints, *self.deliveries, *self.attempts)] + [it[3] for it in self.topics]
        self.named = {*self.taken, *(number for it in self.endpoints for number in it[5:7])}

    def broken(self):
        """The conditions that these rows break."""
        if not all(of in self.puts for of in self.referred_endpoints()) or not all(it[1] in self.events for it in self.attempts):
            return ["a reference"]
        return [number for number in range(1, 9) if not getattr(self, f"holds_{number}")()]

    def referred_endpoints(self):
        return [it[0] for it in self.secrets] + [it[1] for it in (*self.deliveries, *self.topics)]

    def secrets_of(self, put):
        return sorted(it[1:] for it in self.secrets if it[0] == put)

    def holds_1(self):
        return 0 <= self.records <= MOST_RECORDS and all(0 <= it < self.records for it in self.named)

    def holds_2(self):
        return len(self.taken) == len(set(self.taken))

    def holds_3(self):
        def is_sound(it):
            secrets = self.secrets_of(it[0])
            places = [place for place, _ in secrets] == list(range(len(secrets))) and 1 <= len(secrets) <= 4
            return places and NAME.fullmatch(it[1]) and URL.fullmatch(it[2].encode()) and 1 <= it[3] <= 1000 and all(24 <= len(key) <= 64 for _, key in secrets)

        return len(self.endpoints) <= MOST_ENDPOINTS and all(map(is_sound, self.endpoints))

    def holds_4(self):
        def is_sound(it):
            by, others = it[6], [other[6] for other in self.endpoints if other[0] != it[0]]
            return by == it[0] or by > it[0] and by not in (*self.taken, *others, *(other[5] for other in self.endpoints))

        return all(map(is_sound, self.endpoints))

    def holds_5(self):
        def is_sound(it):
            put, enabled, by = it[0], it[4], it[5]
            gone = [seq for seq, event, _, status, _ in self.attempts if status == GONE and self.events[event][1] == put]
            taken = {*self.taken, *(other[5] for other in self.endpoints if other[0] != put), *(other[6] for other in self.endpoints if other[6] != other[0])}
            given = (by, enabled) == (put, 1) or by in gone and enabled == 0 or by > put and by not in taken
            return enabled in (0, 1) and given and all(seq <= by for seq in gone)

        return all(map(is_sound, self.endpoints))

    def holds_6(self):
        return all(put < seq and ID.fullmatch(id) and 0 <= at <= LAST_MOMENT and len(body) <= MOST_BODY for seq, put, id, at, body in self.deliveries)

    def holds_7(self):
        for event in self.events:
            attempts = sorted(it for it in self.attempts if it[1] == event)
            statuses = [it[3] for it in attempts]
            failed = list(itertools.accumulate(it != GONE and not 200 <= it <= 299 for it in statuses))
            numbered = [it[2] for it in attempts] == list(range(1, len(attempts) + 1))
            ended = any(200 <= it <= 299 for it in statuses[:-1]) or any(it > len(DELAYS) for it in failed[:-1])
            if not numbered or ended or any(it[0] <= event or not 0 <= it[4] <= LAST_MOMENT or it[3] and not 100 <= it[3] <= 999 for it in attempts):
                return False
        return True

    def holds_8(self):
        sound = all(NAME.fullmatch(topic) and subscribed in (0, 1) and by > put for topic, put, subscribed, by in self.topics)
        return len(self.topics) <= MOST_TOPICS and sound

    def history(self):
        """The history that stands for these rows, which break no condition."""
        return [self.record(number) for number in range(self.records)]

    def record(self, number):
        name = lambda put: self.puts[put][1]
        for seq, put, id, at, body in self.deliveries:
            if seq == number:
                return Accept(name(put), id, body, at)
        for seq, event, _, status, at in self.attempts:
            if seq == number:
                return Outcome(event, status, at)
        for topic, put, subscribed, by in self.topics:
            if by == number:
                return Subscribed(topic, name(put), subscribed == 1)
        if number in self.puts:
            _, *given = self.puts[number][:4]
            return Put(*given, self.list_of(number))
        for it in self.endpoints:
            if it[5] == number:
                return Enabled(it[1], it[4] == 1)
            if it[6] == number:
                return Secrets(it[1], self.list_of(it[0]))
        return Purge(0)

    def list_of(self, put):
        return tuple("whsec_" + base64.b64encode(key).decode() for _, key in self.secrets_of(put))
