"""Seeded random scripts, by family. A maker has the model beside it, and draws its numbers near what the state holds."""

import random

import model
from model import HALF, SIZE, U32, U64

FAMILIES = {}
# The first words of the lines that are no driver's.
WIDE = b"new done out find next prep wrote resend prefix reset transfer holds dump".split()


def family(weight):
    def add(function):
        FAMILIES[function.__name__] = (weight, function)
        return function

    return add


def record(prefix=0, on=False, idx=None, rel=False, seq=None, rng=None, cum=None, acks=(), lrs=None, pkt=None):
    """The words of a record, in 01's order."""
    words = [prefix]
    words += ["on"] * on + (["idx", *idx] if idx else []) + ["rel"] * rel
    words += ["seq", seq] if seq is not None else []
    words += ["rng", *rng] if rng else []
    words += ["cum", cum] if cum is not None else []
    for ack in acks:
        words += ["ack", ack]
    words += ["lrs", lrs] if lrs is not None else []
    words += ["pkt", pkt] if pkt is not None else []
    return " ".join(map(str, words))


class Maker:
    def __init__(self, seed, play):
        self.random = random.Random(seed)
        self.play = play
        self.lines = []
        self.time = 0
        self.handle = self.random.choice([0, 0, 100, U32 - 40])
        self.tail = b""

    # -- Saying

    def say(self, text):
        line = text if isinstance(text, bytes) else text.encode()
        self.lines.append(line)
        answer = self.play.line(line)
        if self.random.random() < 0.12:
            self.lines.append(b"dump")
            self.play.line(b"dump")
        return answer

    def deliver(self, address, text, pigs=()):
        for pig in pigs:
            self.say(f"pig {pig}")
        answer = self.say(f"in {self.time} {address} {text}")
        if self.chance(0.1):
            self.say("done")
        return answer

    def script(self):
        return b"".join(line + b"\n" for line in self.lines) + self.tail

    # -- Drawing

    def chance(self, p):
        return self.random.random() < p

    def pick(self, *choices):
        return self.random.choice(choices)

    def upto(self, low, high):
        return self.random.randint(low, high)

    def pkt(self):
        """A handle: mostly a new one."""
        if self.chance(0.9):
            self.handle = (self.handle + 1) % U32
        return self.handle

    def tick(self, most=3):
        self.time = min(U64 - 1, self.time + self.upto(0, most))

    def address(self):
        return self.random.choices([7, 8, 9, 0, U32 - 1, self.upto(10, 20)], [40, 25, 10, 2, 2, 3])[0]

    def key(self):
        """on, index"""
        return self.random.choices([(False, None), (True, None), (True, self.pick(1, 2)), (True, U32 - 1)], [30, 40, 25, 2])[0]

    def channel(self, address, on, index):
        return self.play.driver.table.channels.get((address, on, index))

    def any_channel(self):
        """The key of a channel that is there, mostly."""
        keys = list(self.play.driver.table.channels)
        if keys and self.chance(0.93):
            return self.random.choice(keys)
        return (self.address(), *self.key())

    def far(self):
        """A number near where the comparison turns."""
        return self.pick(0, HALF, SIZE) + self.upto(-3, 3)

    def number(self, about=0):
        """A number: near one, half the circle from it, or anywhere. Now and then an illegal one."""
        if self.chance(0.006):
            return self.pick(SIZE, SIZE + 1, U32 - 1)
        choices = [about + self.upto(-3, 8), about + HALF + self.upto(-2, 2), self.far(), self.upto(0, SIZE)]
        return self.random.choices(choices, [85, 5, 5, 5])[0] % SIZE

    def among(self, numbers, about=0):
        """One of these, mostly."""
        return self.random.choice(numbers) if numbers and self.chance(0.8) else self.number(about)

    def any_record(self, address, on, index, forwarded=False):
        """The words of a record of any kind, near the state of its channel."""
        channel = self.channel(address, on, index)
        expected = channel.expected if channel else 0
        queue = channel.acks if channel else []
        out = [e.number for e in channel.out] if channel else []
        named = queue if forwarded else out
        about = self.random.choice([*out[-1:], channel.next if channel else 0]) if forwarded else expected
        fields = {"on": on, "prefix": self.pick(0, self.upto(0, U32 - 1)), "pkt": self.pkt()}
        if index is not None:
            version = channel.version if channel else 5
            fields["idx"] = (index, max(1, min(U32 - 1, version + self.pick(-1, 0, 0, 0, 1))) if self.chance(0.99) else 0)
        elif not on and self.chance(0.05):
            fields["idx"] = (self.pick(0, 3), self.pick(0, 1))
        if self.chance(0.5):
            fields["rel"] = True
        if self.chance(0.95):
            fields["seq"] = self.among([expected, (expected + 1) % SIZE], about)
        if self.chance(0.25):
            fields["rng"] = self.any_range(channel, fields)
        if self.chance(0.2 if on else 0.03):
            fields["cum"] = (self.among(named, about) + self.pick(0, 0, 1)) % SIZE
        if self.chance(0.3):
            count = self.random.choices([1, 2, 3, 8, 9], [50, 20, 10, 8, 1])[0]
            fields["acks"] = [self.among(named, about) for _ in range(count)]
        if self.chance(0.05):
            fields["lrs"] = self.pick((expected - 1) % SIZE, (expected - 1) % SIZE, expected, self.number(expected))
        return record(**fields)

    def any_range(self, channel, fields):
        """Mostly one that its number lies in, or a group that is there."""
        groups = list(channel.groups) if channel else []
        if groups and self.chance(0.6):
            first = self.random.choice(groups)
            length = len(channel.groups[first].places)
            fields["seq"] = (first + self.upto(0, length - 1)) % SIZE if self.chance(0.95) else (first + length) % SIZE
            return first, (first + length - 1) % SIZE if self.chance(0.9) else self.number(first)
        number = fields.get("seq", 0) % SIZE
        first = (number - self.random.choices([0, 1, 2, 5], [70, 15, 10, 5])[0]) % SIZE
        length = self.random.choices([2, 3, 1, 5, 32, 33, 0], [40, 20, 10, 10, 3, 2, 2])[0]
        return first, (first + length - 1) % SIZE

    def pop(self, key=None):
        address, on, index = key or self.any_channel()
        where = ("on" if index is None else f"idx {index}") if on else "off"
        return self.say(f"pop {address} {where}")

    def wrote_all(self, key):
        channel = self.channel(*key)
        self.say(f"wrote {self.word(key)}" + "".join(f" {n}" for n in channel.acks) if channel else "prefix")

    def word(self, key):
        address, on, index = key
        return f"{address} " + (("on" if index is None else f"idx {index}") if on else "off")


# ---- Families in the driver's language


def stream(m, count, coherent=0.97):
    """Packets of a stream: number and range, in order."""
    packets, number = [], 0
    while number < count:
        length = m.random.choices([1, 2, 3, 4, 7, 12], [50, 20, 12, 8, 6, 2])[0]
        whole = m.chance(coherent)
        for k in range(length):
            rng = (number, number + length - 1) if length > 1 or m.chance(0.1) else None
            if not whole and m.chance(0.3):
                last = number + length
                rng = m.pick((number, last), (number + 1, last), (number, number), (number, number - 1 + SIZE), None)
                rng = rng and tuple(n % SIZE for n in rng)
            packets.append((number + k, rng))
        number += length
    return packets


def send_stream(m, address, index, packets, pops):
    for number, rng in packets:
        m.tick()
        m.deliver(address, record(on=True, idx=(index, 1) if index else None, rel=True, seq=number, rng=rng, pkt=m.pkt()))
        while m.chance(pops):
            m.pop((address, True, index))


@family(6)
def in_order(m):
    for _ in range(m.upto(1, 2)):
        send_stream(m, m.address(), m.pick(None, None, 3), stream(m, m.upto(5, 25)), 0.5)


@family(14)
def reordered(m):
    """Displaced by a little, lost and sent again, and repeated."""
    address, index = m.address(), m.pick(None, None, 3)
    packets = stream(m, m.upto(8, 45), m.pick(1, 0.97, 0.8))
    window = m.pick(2, 4, 10, 40)
    late = [p for p in packets if m.chance(0.1)]
    order = sorted(enumerate(p for p in packets if p not in late), key=lambda kp: kp[0] + m.random.random() * window)
    sent = [p for _, p in order] + late
    for _ in range(m.upto(0, 6)):
        sent.insert(m.upto(0, len(sent)), m.random.choice(packets))
    send_stream(m, address, index, sent, 0.45)
    for _ in range(m.upto(0, 8)):
        m.pop((address, True, index))


@family(5)
def far_numbers(m):
    """Reliable packets at every distance where the comparison turns."""
    for _ in range(m.upto(10, 40)):
        channel = m.channel(7, True, None)
        expected = channel.expected if channel else 0
        near = [expected, expected + m.upto(1, 5), expected + HALF + m.upto(-3, 2), expected - m.upto(1, 4)]
        number = m.random.choices(near + [m.far(), m.upto(0, SIZE - 1)], [20, 20, 25, 10, 15, 10])[0]
        m.deliver(7, record(on=True, rel=True, seq=number % SIZE, pkt=m.pkt()))
        if m.chance(0.2):
            m.pop((7, True, None))


@family(10)
def fragments(m):
    """Groups off-channel and on, reliable off-channel or not, with repeats, wrong places, and ages about ten seconds."""
    where = [(m.address(), *m.random.choice([(False, None), (False, None), (True, None), (True, 2)])) for _ in range(m.upto(1, 2))]
    groups = []
    for _ in range(m.upto(1, 6)):
        first = m.pick(m.upto(0, 30), SIZE - m.upto(1, 4), HALF)
        length = m.random.choices([2, 3, 5, 8, 1, 32, 33], [30, 25, 20, 10, 8, 4, 2])[0]
        groups.append((first, length))
    for _ in range(m.upto(8, 50)):
        address, on, index = m.random.choice(where)
        first, length = m.random.choice(groups)
        place = m.upto(0, length - 1) if m.chance(0.96) else length
        channel = m.channel(address, on, index)
        group = channel and channel.groups.get(first)
        if group and m.chance(0.6):
            empty = [k for k, p in enumerate(group.places) if p is None]
            place = m.random.choice(empty) if empty else place
        if group and m.chance(0.12):
            m.time = max(m.time, group.updated + m.pick(9_999, 10_000, 10_001, 10_002))
        m.tick(50)
        last = (first + length - 1) % SIZE if m.chance(0.95) else m.number(first)
        rel = not on and m.chance(0.4)
        idx = (index, 1) if index else None
        m.deliver(address, record(on=on, idx=idx, rel=rel, seq=(first + place) % SIZE, rng=(first, last), pkt=m.pkt()))
        if m.chance(0.2):
            m.pop((address, on, index))


@family(8)
def refusals(m):
    for _ in range(m.upto(10, 35)):
        address, (on, index) = m.address(), m.key()
        m.tick()
        if m.chance(0.04):
            text = m.pick(m.any_record(address, on, index), record(seq=SIZE), record(on=True, idx=(0, 1)), record(acks=range(9)))
            m.say(f"in {max(0, m.time - m.upto(1, 3))} {address} {text}")
        else:
            m.deliver(address, m.any_record(address, on, index))
        if m.chance(0.25):
            m.pop()


@family(3)
def versions(m):
    for _ in range(m.upto(5, 25)):
        index = m.pick(1, 2, U32 - 1)
        version = m.random.choices([m.upto(1, 6), U32 - 1, 0], [20, 1, 1])[0]
        m.deliver(m.pick(7, 7, 8), record(on=m.chance(0.9), idx=(index, version), rel=m.chance(0.6), seq=m.upto(0, 4), pkt=m.pkt()))
        if m.chance(0.2):
            m.pop((7, True, m.pick(0, index, index)))


@family(8)
def piggybacks(m):
    for _ in range(m.upto(3, 12)):
        address = m.address()
        m.tick()
        count = m.random.choices([0, 1, 2, 4, 7, 8, 9], [15, 25, 25, 15, 12, 3, 1])[0]
        texts = []
        for _ in range(count + 1):
            on, index = m.key() if m.chance(0.5) else (True, None)
            texts.append(m.any_record(address, on, index))
        for text in texts[:-1]:
            m.say(f"pig {text}")
            if m.chance(0.02):
                m.say(m.pick("pig", "pig x", "pig 0 on on", "in 0", "in", "inn 0 7 0", "pop 7", ""))
            if m.chance(0.02):
                m.pop()
        m.say(f"in {m.time} {address} {texts[-1]}")
        if m.chance(0.3):
            m.say("done")
        if m.chance(0.3):
            m.pop()


@family(4)
def times(m):
    m.time = m.pick(0, 5, U64 - 30_000)
    for _ in range(m.upto(6, 25)):
        m.time = min(U64 - 1, m.time + m.pick(0, 1, 9_999, 10_000, 10_001, m.upto(0, 20_000)))
        when = m.random.choices([m.time, max(0, m.time - 1), m.upto(0, U64 - 1), U64], [30, 2, 1, 1])[0]
        first = m.pick(0, 2)
        rel, seq, rng = m.chance(0.3), first + m.upto(0, 1), (first, first + m.pick(1, 1, 2))
        answer = m.say(f"in {when} 7 " + record(rel=rel, seq=seq, rng=rng, pkt=m.pkt()))
        if answer and answer != "bad" and answer not in ("no 2", "no 3"):
            m.time = when
        if m.chance(0.2):
            m.pop((7, False, None))


# ---- Limits: filled to the last place, then past it, then with room again


def fill_acks(m):
    for k in range(66):
        m.deliver(7, record(on=True, rel=True, seq=m.pick(1, 1, 2), pkt=m.pkt()))


def fill_buffer(m):
    numbers = list(range(1, 34 + m.upto(0, 1)))
    if m.chance(0.5):
        m.random.shuffle(numbers)
    for number in numbers:
        m.deliver(7, record(on=True, rel=True, seq=number, pkt=m.pkt()))
    m.deliver(7, record(on=True, rel=True, seq=0, pkt=m.pkt()))


def fill_gap(m):
    """Single packets behind a gap, then the gap: as many bundles at once."""
    count = m.pick(14, 15, 16, 17)
    for number in range(1, count + 1):
        m.deliver(7, record(on=True, rel=True, seq=number, pkt=m.pkt()))
    m.deliver(7, record(on=True, rel=True, seq=0, pkt=m.pkt()))
    for _ in range(m.upto(0, 17)):
        m.pop((7, True, None))
    m.deliver(7, record(on=True, rel=True, seq=0, pkt=m.pkt()))


def fill_queue(m):
    length = m.pick(31, 32, 33, 33, 34, 40, SIZE)
    for number in range(35):
        m.deliver(7, record(on=True, rel=True, seq=number, rng=(0, (length - 1) % SIZE), pkt=m.pkt()))
        if m.chance(0.05):
            m.deliver(7, record(on=True, rel=True, seq=number, rng=(0, (length - 1) % SIZE), pkt=m.pkt()))
    m.pop((7, True, None))


def fill_groups(m):
    on = m.chance(0.5)
    for first in range(0, 60, m.pick(10, 12)):
        m.deliver(7, record(on=on, seq=first + m.upto(0, 1), rng=(first, first + 1), pkt=m.pkt()))
    first = m.pick(0, 10)
    m.deliver(7, record(on=on, seq=first + 1, rng=(first, first + 1), pkt=m.pkt()))
    m.deliver(7, record(on=on, seq=first, rng=(first, first + 1), pkt=m.pkt()))
    m.deliver(7, record(on=on, seq=70, rng=(70, 71), pkt=m.pkt()))


def fill_places(m):
    length = m.pick(31, 32, 33, 34, SIZE)
    first = m.pick(0, 5, SIZE - 3)
    places = list(range(min(length, 34)))
    m.random.shuffle(places)
    if length < SIZE:
        places.insert(m.pick(0, 0, 5), length)
    for place in places:
        m.deliver(7, record(rel=m.chance(0.3), seq=(first + place) % SIZE, rng=(first, (first + length - 1) % SIZE), pkt=m.pkt()))
    m.pop((7, False, None))


def fill_bundles(m):
    on = m.chance(0.3)
    for _ in range(m.upto(15, 18)):
        m.deliver(7, record(on=on, pkt=m.pkt()))
    for _ in range(m.upto(1, 3)):
        m.pop((7, on, None))
        m.deliver(7, record(on=on, pkt=m.pkt()))
        m.deliver(7, record(on=on, pkt=m.pkt()))


def fill_handles(m):
    if m.chance(0.5):
        for first in (0, 32):
            for k in range(32):
                m.deliver(7, record(seq=first + k, rng=(first, first + 31), pkt=m.pkt()))
        key = (7, False, None)
        m.deliver(7, record(pkt=m.pkt()))
    else:
        length = m.pick(16, 21, 31, 32)
        for k in range(66):
            first = k - k % length
            m.deliver(7, record(on=True, rel=True, seq=k, rng=(first, first + length - 1), pkt=m.pkt()))
            if k == 50 and m.chance(0.7):
                m.wrote_all((7, True, None))
        key = (7, True, None)
        m.deliver(7, record(on=True, pkt=m.pkt()))
    m.pop(key)
    m.deliver(7, record(on=key[1], pkt=m.pkt()))


def fill_channels(m):
    on = m.chance(0.6)
    for k in range(m.upto(4, 10)):
        idx = (m.upto(1, 3), 1) if on and m.chance(0.4) else None
        refused = {"cum": 1} if not on and m.chance(0.2) else {"lrs": 3} if m.chance(0.2) else {}
        m.deliver(k if m.chance(0.9) else 0, record(on=on, idx=idx, rel=m.chance(0.4), pkt=m.pkt(), **refused))
        if m.chance(0.1):
            m.say(f"find {m.word((k + 20, on, None))}")
        if m.chance(0.1):
            m.say(f"out {m.time} {k + 30} " + record(on=on))


def fill_out(m):
    on = m.chance(0.5)
    word = m.word((7, on, None))
    m.say(f"find {word}")
    while m.chance(0.97):
        channel = m.channel(7, on, None)
        if m.chance(0.5):
            count = m.pick(1, 2, 3, 16, max(0, 32 - len(channel.out)), max(0, 33 - len(channel.out)))
            answer = m.say(f"prep {m.time} {word} rel" + "".join(f" {m.pkt()}" for _ in range(min(count, 17))))
            if answer.startswith("no"):
                m.say(f"prep {m.time} {word} unrel 1 2")
        else:
            m.say(f"out {m.time} 7 " + record(on=on, rel=True, seq=m.number(len(channel.out) + 100)))
        if len(channel.out) > 30 and m.chance(0.2):
            m.deliver(7, record(on=on, acks=[e.number for e in channel.out[:3]]))


@family(14)
def limits(m):
    fills = [fill_acks, fill_buffer, fill_gap, fill_queue, fill_groups, fill_places, fill_bundles, fill_handles, fill_channels]
    m.random.choice(fills + [fill_out] * 2)(m)
    for _ in range(m.upto(0, 4)):
        key = m.any_channel()
        m.deliver(key[0], m.any_record(*key))
        m.pop(key)


# ---- Families with a line for each other call


@family(12)
def forwarded(m):
    m.say("new forwarding" + m.pick("", " nested"))
    for _ in range(m.upto(10, 45)):
        m.tick()
        address, (on, index) = m.pick(7, 7, 8), m.key()
        if m.chance(0.5):
            when = m.time if m.chance(0.98) else max(0, m.time - 1)
            m.say(f"out {when} {address} {m.any_record(address, on, index, True)}")
        elif m.chance(0.8):
            text, count = m.any_record(address, on, index), m.pick(0, 0, 0, 1, 3)
            m.deliver(address, text, [m.any_record(address, *m.key()) for _ in range(count)])
        else:
            any_call(m)


@family(4)
def acks_forwarded(m):
    """A long ack queue, and what forwarded acks make of it."""
    m.say("new forwarding")
    on = m.chance(0.7)
    for _ in range(m.upto(3, 30)):
        m.deliver(7, record(on=on, rel=True, seq=m.number(10), pkt=m.pkt()))
        if m.chance(0.5):
            m.pop((7, on, None))
    for _ in range(m.upto(1, 12)):
        channel = m.channel(7, on, None)
        queue = channel.acks if channel else []
        cum = m.among(queue) if on and m.chance(0.25) else None
        m.say(f"out {m.time} 7 " + record(on=on, cum=cum, acks=[m.among(queue) for _ in range(m.upto(0, 4))]))
        m.say("dump")


@family(4)
def observed(m):
    """The source of an on-channel, moved by the numbers that pass."""
    m.say("new forwarding")
    for _ in range(m.upto(5, 25)):
        channel = m.channel(7, True, None)
        source = channel.next if channel else 0
        number = (source + m.pick(0, 1, -1, -2, 5, HALF, HALF - 1, HALF - 2, HALF + 1)) % SIZE
        m.deliver(7, record(on=True, rel=True, seq=number, pkt=m.pkt()))
        if m.chance(0.4):
            m.say(f"prep {m.time} 7 on rel" + "".join(f" {m.pkt()}" for _ in range(m.upto(0, 3))))
        if channel and len(channel.out) > 20:
            m.deliver(7, record(on=True, cum=channel.next))


def any_call(m):
    key = m.any_channel()
    word, channel = m.word(key), m.play.driver.table.channels.get(key)
    kinds = "prep wrote resend find next pop prefix reset transfer holds out".split()
    kind = m.random.choices(kinds, [30, 15, 16, 6, 8, 6, 3, 2, 4, 8, 8])[0]
    when = m.time if m.chance(0.96) else max(0, m.time - 1)
    if kind == "prep":
        count = m.random.choices([0, 1, 2, 3, 16, 17], [10, 40, 20, 10, 4, 1])[0]
        m.say(f"prep {when} {word} {m.pick('rel', 'rel', 'unrel')}" + "".join(f" {m.pkt()}" for _ in range(count)))
    elif kind == "wrote":
        queue = channel.acks if channel else []
        count = m.upto(0, len(queue))
        names = m.pick(queue[:count], m.random.sample(queue, count), [m.among(queue) for _ in range(m.upto(0, 3))])
        m.say(f"wrote {word}" + "".join(f" {n}" for n in names))
    elif kind == "resend":
        resend(m, when)
    elif kind == "next":
        m.say(f"next {word} {m.pick(0, 1, 2, 64)}")
    elif kind in ("find", "pop"):
        m.say(f"{kind} {word}" if m.chance(0.95) else f"{kind} 7 idx 0")
    elif kind == "holds":
        m.say(f"holds {max(0, m.handle - m.upto(0, 12))}")
    elif kind == "out":
        m.say(f"out {when} {key[0]} {m.any_record(*key, True)}")
    else:
        m.say(kind)


def resend(m, when):
    entries = [e for c in m.play.driver.table.channels.values() for e in c.out]
    timeout, give_up = m.pick(0, 1, 5, 100), m.pick(10, 1_000, U64 - 1)
    if entries and m.chance(0.6):
        entry = m.random.choice(entries)
        timeout = max(0, when - entry.sent + m.pick(0, 1, -1))
        give_up = m.pick(give_up, max(0, when - entry.time + m.pick(0, 1, 2)))
    m.say(f"resend {when} {timeout} {give_up} {m.pick(384, 384, 384, 384, 0, 1, 3)}")


@family(14)
def sends(m):
    if m.chance(0.5):
        m.say("new forwarding" if m.chance(0.5) else "new nested")
    m.time = m.pick(0, 0, 0, U64 - 200)
    for _ in range(m.upto(1, 3)):
        m.say(f"find {m.word((m.pick(7, 7, 8), *m.key()))}")
    for _ in range(m.upto(10, 45)):
        m.tick(6)
        if m.chance(0.6):
            any_call(m)
        else:
            key = m.any_channel()
            m.deliver(key[0], m.any_record(*key))


@family(10)
def mixed(m, most=60):
    m.say("new" + m.pick("", " forwarding") + m.pick("", " nested"))
    for _ in range(m.upto(15, most)):
        m.tick(m.pick(3, 3, 3, 4_000))
        key = m.any_channel() if m.chance(0.5) else (m.address(), *m.key())
        if m.chance(0.35):
            any_call(m)
        elif m.chance(0.3):
            m.pop(key)
        else:
            pigs = [m.any_record(key[0], *m.key()) for _ in range(m.pick(0, 0, 0, 0, 1, 2, 7))]
            m.deliver(key[0], m.any_record(*key), pigs)


@family(0.7)
def long_history(m):
    mixed(m, 900)


# ---- Lines that can't be read


READABLE = [
    b"in 0 7 0",
    b"in 3 7 0 on idx 1 2 rel seq 1 rng 1 2 cum 3 ack 4 ack 5 pkt 6",
    b"in 0 7 0 on lrs 268435455",
    b"pig 0 on rel seq 0",
    b"pop 7 on",
    b"pop 7 idx 4",
]
DAMAGE = [b" ", b"0", b"00", b"9", b"-", b"+", b"x", b"\t", b"\r", b"\x00", b"\x80", b"\xff"]
DAMAGE += [b"on", b" on", b" ack 1", b" rel", b" seq 1"]


def damaged(m, line):
    at = m.upto(0, len(line))
    kind = m.pick("put", "cut", "change", "swap", "short", "twice", "blank", "sign")
    if kind == "put":
        return line[:at] + m.random.choice(DAMAGE) + line[at:]
    if kind == "cut":
        return line[:at] + line[at + m.upto(1, 2) :]
    if kind == "change":
        return line[:at] + m.pick(bytes([m.upto(0, 255)]), b"A", b" ").replace(b"\n", b" ") + line[at + 1 :]
    if kind == "short":
        return line[:at]
    words = line.split(b" ")
    a, b = m.upto(0, len(words) - 1), m.upto(0, len(words) - 1)
    if kind == "blank":
        blank = m.pick(b"\t", b"  ", b"\r", b"\x00", b"\xa0", b"\x0b")
        return m.pick(blank + line, line + b" ", line + b"\r", blank.join([b" ".join(words[: a + 1]), b" ".join(words[a + 1 :])]))
    if kind == "sign":
        words[a] = m.pick(b"+", b"-", b"0x", b"_") + words[a]
    elif kind == "swap":
        words[a], words[b] = words[b], words[a]
    else:
        words.insert(a, words[b])
    return b" ".join(words)


@family(10)
def unreadable(m):
    for _ in range(m.upto(8, 30)):
        if m.chance(0.4):
            line = m.random.choice(READABLE)
        else:
            key = m.any_channel()
            text = m.any_record(*key)
            line = m.pick(f"in {m.time} {key[0]} {text}", f"pig {text}", f"pop {m.word(key)}").encode()
        if m.chance(0.25):
            number = m.pick(U32 - 1, U32, U64 - 1, U64, 10**30, "0" * m.upto(1, 30) + "7", "")
            words = line.split(b" ")
            at = m.upto(0, len(words) - 1)
            words[at] = str(number).encode() if words[at].isdigit() else words[at]
            line = b" ".join(words)
        if m.chance(0.6):
            line = damaged(m, line)
        if m.play.driver.table.time > 1_000_000 and m.chance(0.3):
            line = b"in %d 7 0" % m.play.driver.table.time
        m.say(line.replace(b"\n", b"") if m.chance(0.98) else b"")
        m.time = m.play.driver.table.time


@family(4)
def unfinished(m):
    """A last line without its line feed."""
    m.random.choice([in_order, refusals, piggybacks, unreadable])(m)
    m.tail = m.random.choice(READABLE + m.lines[-5:])
    m.tail = m.tail[: m.upto(0, len(m.tail))]


@family(2)
def past_the_cut(m):
    """About 60,000 bytes, the end of a line on either side of the cut."""
    size, short = 0, m.upto(200, 900)
    while size < model.INPUT - short:
        key = m.any_channel() if m.chance(0.95) else (m.address(), *m.key())
        before = len(m.lines)
        m.tick()
        if m.chance(0.7):
            m.say(b"junk" + b"k" * m.upto(0, 1800))
        elif m.chance(0.5):
            m.pop(key)
        else:
            m.deliver(key[0], m.any_record(*key))
        size += sum(len(line) + 1 for line in m.lines[before:])
    # The last line's line feed is the 60,000th byte, or stands a little off it.
    left = model.INPUT + m.pick(-1, 0, 0, 1, 2) - size
    line = m.pick(f"in {m.time} 7 0", f"pop 7 off", f"in {m.time} 7 0 on rel seq 0")
    m.lines.append(line.replace(" 7", " " + "0" * (left - len(line) - 1) + "7", 1).encode())
    m.lines += [m.random.choice(READABLE) for _ in range(m.pick(0, 1, 3))]
    m.tail = m.pick(b"", b"", b"in", b"pop 7 off")


def make(seed, play):
    """A script of a family drawn by the seed. Answers the family's name and the maker."""
    m = Maker(seed, play)
    names = list(FAMILIES)
    name = m.random.choices(names, [FAMILIES[n][0] for n in names])[0]
    FAMILIES[name][1](m)
    return name, m
