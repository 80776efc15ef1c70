"""Traces in the format of docs/RULES.md: full ones of several mixes, and short ones that are damaged."""

import random
import struct

LONGEST = 65_536
NODES = 8
LEAD = 500
BACKSTEP = 20
MAX_UNDER_WAY = 64
KEYS = 300
NAME = "ABCDEFGHIJKLMNOPQRSTUVWXYZ0123456789-"
LARGEST = 30  # the longest record, a put by tag

# How many of a hundred records are what; the last are refused for various reasons. A send is a receipt where as many messages are
# under way as may be, as they soon are where it is crowded. Losses are the shortest records, and most are of messages that are not
# under way, so that there are about as many records as a trace has at most.
MIXES = {
    "puts": {"put": 88, "read": 3, "note": 3, "send": 2, "receipt": 2, "bad": 2},
    "reads": {"read": 88, "put": 5, "note": 3, "send": 1, "receipt": 1, "bad": 2},
    "messages": {"send": 46, "receipt": 40, "loss": 10, "note": 2, "bad": 2},
    "crowded": {"send": 90, "receipt": 8, "bad": 2},
    "losses": {"loss": 98, "send": 1, "bad": 1},
    "mixed": {"put": 25, "read": 25, "note": 14, "send": 16, "receipt": 14, "loss": 4, "bad": 2},
}


class Maker:
    """Makes records that a recorder accepts, by keeping the stamps that it gives."""

    def __init__(self, seed, tags, lead=LEAD, most_under_way=MAX_UNDER_WAY):
        self.random = random.Random(seed)
        self.tags = tags
        self.lead = lead
        self.most_under_way = most_under_way
        self.keys = [self.new_key() for _ in range(KEYS)]
        self.now = 1_700_000_000_000
        self.high = [0] * NODES
        self.last = [(0, 0)] * NODES
        self.under_way = {}
        self.next_number = 1

    def new_key(self):
        if self.tags:
            size = self.random.randint(4, 12)
            return "".join(self.random.choices(NAME, k=size)).encode().ljust(16, b"\0")
        return struct.pack(">I", self.random.getrandbits(32))

    def set_up(self):
        return struct.pack(">BBBII", 0, NODES, self.tags, self.lead, BACKSTEP)

    def stamp(self, node, raw, floor=(0, 0)):
        last = max(self.last[node], floor)
        time = max(last[0], raw)
        self.last[node] = (time, last[1] + 1 if time == last[0] else 0)
        self.high[node] = max(self.high[node], raw)
        return self.last[node]

    def sample(self):
        """A node, and its clock: a few milliseconds about the true time, and never too far back."""
        self.now += self.random.choice((0, 0, 0, 1, 1, 2, 5))
        node = self.random.randrange(NODES)
        return node, max(self.now + self.random.randint(-15, 15), self.high[node] - BACKSTEP)

    def record(self, kind):
        return getattr(self, kind)()

    def note(self):
        node, raw = self.sample()
        self.stamp(node, raw)
        return struct.pack(">BBQ", 1, node, raw)

    def send(self):
        if len(self.under_way) == self.most_under_way:
            return self.receipt()
        node, raw = self.sample()
        number, to = self.next_number, self.random.randrange(NODES)
        self.next_number += 1
        self.under_way[number] = (to, self.stamp(node, raw))
        return struct.pack(">BBQBI", 2, node, raw, to, number)

    def receipt(self):
        if not self.under_way:
            return self.note()
        number = self.random.choice(list(self.under_way))
        to, sent = self.under_way.pop(number)
        raw = max(self.sample()[1], self.high[to] - BACKSTEP, sent[0] - self.lead)
        self.stamp(to, raw, sent)
        return struct.pack(">BBQI", 3, to, raw, number)

    def loss(self):
        if not self.under_way:
            return struct.pack(">BI", 4, self.next_number)
        number = self.random.choice(list(self.under_way))
        del self.under_way[number]
        return struct.pack(">BI", 4, number)

    def put(self):
        node, raw = self.sample()
        self.stamp(node, raw)
        key, value = self.random.choice(self.keys), self.random.randint(-40_000, 40_000)
        return struct.pack(">BBQ", 6 if self.tags else 5, node, raw) + key + struct.pack(">i", value)

    def read(self):
        """At a settled stamp, mostly a late one."""
        time, counter = min(self.last)
        time = max(0, time - int(self.random.expovariate(0.002)))
        code = time << 16 | counter if time else 0
        key = self.random.choice(self.keys)
        return struct.pack(">BQ", 8 if self.tags else 7, code) + key

    def bad(self):
        """One that is refused."""
        node, raw = self.sample()
        key = self.random.choice(self.keys)
        put, read = (6, 8) if self.tags else (5, 7)
        return self.random.choice((
            struct.pack(">BBQ", 1, NODES, raw),
            struct.pack(">BBQ", 1, node, 0),
            struct.pack(">BBQ", 1, node, 1),
            struct.pack(">BBQI", 3, node, raw, self.next_number),
            struct.pack(">BI", 4, self.next_number),
            struct.pack(">BQ", read, (self.now + 1000) << 16) + key,
            struct.pack(">BBQ", 11 - put, node, raw) + (key + bytes(12))[:4 if self.tags else 16] + bytes(4),
            struct.pack(">BBBII", 0, 1, 0, 0, 0),
        ))

    def odd(self):
        """A send or a receipt of a message that is under way, mostly refused."""
        if not self.under_way:
            return self.bad()
        node, raw = self.sample()
        number = self.random.choice(list(self.under_way))
        to, _ = self.under_way[number]
        return self.random.choice((
            struct.pack(">BBQBI", 2, node, raw, to, number),
            struct.pack(">BBQI", 3, (to + 1) % NODES, raw, number),
            struct.pack(">BBQI", 3, to, max(1, self.high[to] - BACKSTEP), number),
        ))


def full_trace(seed, tags, mix):
    """As many bytes as are listed, up to one record less."""
    maker = Maker(seed, tags)
    parts = [maker.set_up()]
    # Every node has a stamp, so that there are settled ones; where reads are to find something, there are puts.
    for _ in range(600 if mix == "reads" else 40):
        parts.append(maker.put())
    kinds, weights = zip(*MIXES[mix].items())
    size = sum(map(len, parts))
    while size + LARGEST <= LONGEST:
        part = maker.record(maker.random.choices(kinds, weights)[0])
        parts.append(part)
        size += len(part)
    return b"".join(parts)


def full_traces(seed):
    for tags in (0, 1):
        for mix in MIXES:
            yield f"{mix}, {'tags' if tags else 'points'}", full_trace(f"{seed} {tags} {mix}", tags, mix)


def odd_traces(seed, count):
    """Short traces of all kinds, most of them damaged in a few places, and some ends."""
    yield b""
    yield bytes(LONGEST + 1)
    yield bytes(LONGEST)
    chance = random.Random(seed)
    for number in range(count):
        # Some recorders take no message that is ahead, and some makers send more messages than may be under way.
        maker = Maker(f"{seed} odd {number}", number % 2, chance.choice((LEAD, 0, 3)), chance.choice((MAX_UNDER_WAY, 5000)))
        mix = chance.choice(list(MIXES.values())) | {"odd": 5}
        kinds, weights = zip(*mix.items())
        parts = [maker.set_up()]
        for _ in range(chance.choice((0, 3, 30, 300, 1200, 2000))):
            parts.append(maker.record(chance.choices(kinds, weights)[0]))
        trace = bytearray(b"".join(parts))
        if chance.random() < 0.3:
            del trace[chance.randrange(len(trace)):]
        for _ in range(chance.choice((0, 0, 1, 2, 5, 20))):
            if trace:
                place = chance.randrange(min(len(trace), chance.choice((12, len(trace)))))
                trace[place] = chance.choice((0, 1, 255, chance.randrange(256)))
        yield bytes(trace[:LONGEST + 1])
