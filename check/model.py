"""A plain model of document 01 and its driver. It follows 01's text and docs/DECISIONS.md, not the definitions that are proved.

It is slow and bounded by nothing but 01's limits: lists, whole copies, and one function for each of 01's paragraphs. Words
in quotes are 01's; "D5" is point 5 of docs/DECISIONS.md. `python3 check/model.py` answers a script on standard input as the
driver would; with the word `wide` it also takes a line for each other call (oracle/relay/main.rs lists them).
"""

import sys
from typing import NamedTuple, Optional

# ---- Numbers

SIZE = 1 << 28
HALF = 1 << 27
U32 = 1 << 32
U64 = 1 << 64


def legal(n):
    """ "A sequence number is 0 to 0x0FFFFFFF." """
    return 0 <= n < SIZE


def compare(a, b):
    """ "Equal if equal; else with d = (a - b) mod 2^28, Less if d > 2^27, otherwise Greater." """
    if a == b:
        return "Equal"
    return "Less" if (a - b) % SIZE > HALF else "Greater"


# ---- What is counted while the model runs. A comparison that leaves one of these at zero has not tried it.

MARKS = []


def mark(name):
    MARKS.append(name)


RULES = """
1 off-channel created; 1 on-channel created; 1 indexed created; 1 higher version accepted, not stored; 1 index off-channel ignored
2 cumulative removes; 2 cumulative stops at Equal; 2 cumulative stops at Less; 2 cumulative removes all
3 ack removes; 3 ack of a number that stands twice; 3 ack of no entry
4 acked, off-channel; 4 acked, on-channel; 4 acked again; 4 observe moves; 4 observe stays
5 last reliable number right
6 bundle of one; 6 group created; 6 group of length 1 created; 6 stored; 6 replaced; 6 filled; 6 stale, dropped
6 age 10,000 stored; 6 age 10,001 dropped; 6 reliable off-channel fragment; 6 group on an on-channel
reorder: Equal; reorder: successor moved; reorder: Less, dropped; reorder: Equal in the buffer, dropped
reorder: inserted after; reorder: inserted in front; reorder: inserted between; reorder: distance 2^27
grouping: bundle of one; grouping: not its first, dropped; grouping: fewer waiting, stop; grouping: bundle of several
grouping: range of length 1; grouping: ranges differ, dropped; grouping: no range, dropped (the Rust panics)
grouping: several bundles at once
out: cumulative keeps some; out: cumulative drops some; out: ack removes, the last takes its place; out: ack removes the last
out: ack of no number; out: inserted after; out: inserted in front; out: inserted between; out: repeat, dropped
out: on-channel created; out: off-channel created; out: indexed created; out: lower version not checked; out: nothing to do
send: nothing allocated; send: own source; send: shared source; send: shared source, on-channel; send: reliable, no handle
send: sixteen handles; send: indexed
written: earliest of several; written: not the first; written: no name
resends: given up; resends: age just below give-up; resends: listed; resends: time just below timeout
resends: without a handle, not listed; resends: two channels of one address; resends: no row
find: off-channel created; find: on-channel created; find: indexed created; find: found
next: bundle; next: none; prefix; reset; transfer; held: out list; held: buffer; held: contiguous queue; held: group
held: bundle; held: no
delivery: of 1; delivery: of 8; delivery: count below its records; delivery: last refused, count above 0
delivery: earlier one malformed, skipped; delivery: earlier one refused by the Rust; delivery: earlier one refused by the port
driver: in; driver: pig; driver: pop; driver: bad; driver: bad in uses held records up; driver: bad pig
driver: bad line that is no in keeps held records; driver: last line without line feed; driver: cut at 60,000 bytes
driver: ninth ack in in; driver: ninth ack in pig; driver: eighth held record; driver: leading zero; driver: byte over 0x7F
driver: number that does not fit
""".replace("\n", ";").split(";")

REFUSALS = """
delivery 2; delivery 3; delivery 4; delivery 5; delivery 6; delivery 7; delivery 8; delivery 9; delivery 10; delivery 11
forwarded out 2; forwarded out 3; forwarded out 4; forwarded out 6; forwarded out 11; find 2; find 4
next bundle 2; next bundle 13; next bundle 12; send 2; send 3; send 13; send 11; acks written 2; acks written 13
resends 3; resends 12
""".replace("\n", ";").split(";")

LIMITS = {
    "off-channels": 4,
    "on-channels": 8,
    "out entries": 32,
    "acks": 64,
    "buffered": 32,
    "contiguous waiting": 32,
    "groups": 4,
    "places of a group": 32,
    "bundles": 16,
    "handles in bundles": 64,
}

EXPECTED = [name.strip() for name in RULES if name.strip()]
EXPECTED += ["refusal: " + name.strip() for name in REFUSALS if name.strip()]
EXPECTED += ["limit reached: " + name for name in LIMITS] + ["limit passed: " + name for name in LIMITS]

# ---- State


class Record(NamedTuple):
    """ "Fields: handle, prefix, on flag, optional index and version (both nonzero), reliable flag, number, optional range
    (first, last), optional cumulative ack, up to 8 single acks, optional last reliable number." """

    prefix: int = 0
    on: bool = False
    indexed: Optional[tuple] = None
    reliable: bool = False
    number: int = 0
    range: Optional[tuple] = None
    cumulative: Optional[int] = None
    acks: tuple = ()
    last_reliable: Optional[int] = None
    handle: int = 0

    def index(self):
        """ "Fields not flagged are ignored, as is an index off-channel." """
        return self.indexed[0] if self.on and self.indexed else None

    def key(self, address):
        return (address, self.on, self.index())

    def malformed(self):
        """Refusal 2: "field out of range, zero index or version, list too long". D1, D2."""
        numbers = [self.number, *self.acks[:8], *(self.range or ())]
        numbers += [n for n in (self.cumulative, self.last_reliable) if n is not None]
        return (
            len(self.acks) > 8
            or not all(legal(n) for n in numbers)
            or (self.on and self.indexed is not None and 0 in self.indexed)
        )


class Entry(NamedTuple):
    """An out entry: a reliable packet not yet acknowledged."""

    number: int
    handle: Optional[int]
    time: int
    sent: int


class Waiting(NamedTuple):
    """A reliable packet in the buffer or the contiguous queue."""

    number: int
    handle: int
    range: Optional[tuple]


class Group:
    def __init__(self, length):
        self.places = [None] * length
        self.updated = 0

    def copy(self):
        other = Group(0)
        other.places, other.updated = list(self.places), self.updated
        return other


class Channel:
    def __init__(self, key, version=None):
        self.key = key
        self.version = version
        self.out, self.acks, self.groups, self.bundles = [], [], {}, []
        # On-channel: "each on-channel's [source starts] at 0".
        self.next, self.expected, self.buffer, self.queue = 0, 0, [], []

    def copy(self):
        other = Channel(self.key, self.version)
        other.out, other.acks, other.bundles = list(self.out), list(self.acks), list(self.bundles)
        other.groups = {first: group.copy() for first, group in self.groups.items()}
        other.next, other.expected = self.next, self.expected
        other.buffer, other.queue = list(self.buffer), list(self.queue)
        return other

    def sizes(self):
        return {
            "out entries": len(self.out),
            "acks": len(self.acks),
            "buffered": len(self.buffer),
            "contiguous waiting": len(self.queue),
            "groups": len(self.groups),
            "places of a group": max((len(g.places) for g in self.groups.values()), default=0),
            "bundles": len(self.bundles),
            "handles in bundles": sum(len(b) for b in self.bundles),
        }

    def name(self):
        address, on, index = self.key
        return f"on {address} {index or '-'}" if on else f"off {address}"


class Refused(Exception):
    def __init__(self, number):
        self.number = number


# ---- Searches that two rules share


def insertion(numbers, number):
    """ "search the buffer from its end; Equal drops, Greater inserts after, none inserts in front" """
    for place in range(len(numbers), 0, -1):
        order = compare(number, numbers[place - 1])
        if order == "Equal":
            return None
        if order == "Greater":
            return place
    return 0


def inserted(what, place, count):
    mark(f"{what}: inserted " + ("after" if place == count else "between" if place else "in front"))


def filled(group):
    return all(place is not None for place in group.places)


class Table:
    def __init__(self, forwarding=False):
        """ "A new table, forwarding or not as asked, has no channels, and its latest time, last prefix and prefix offset are
        0." "The shared off-channel source starts at 1" """
        self.forwarding = forwarding
        self.time = self.prefix = self.offset = 0
        self.shared = 1
        self.channels = {}
        # Of the last delivery, for whoever compares: each record's refusal number, 0 where it was granted.
        self.outcomes = []
        # Whether the last call would have made the Rust panic where the port carries on.
        self.panics = False

    # -- Channels

    def of_kind(self, on):
        """In order of creation."""
        return [c for c in self.channels.values() if c.key[1] == on]

    def found_or_new(self, key, version, what):
        """A copy of the channel, or a new one; 4 where "channel table full"."""
        if key in self.channels:
            return self.channels[key].copy()
        kind = "on-channels" if key[1] else "off-channels"
        if len(self.of_kind(key[1])) == LIMITS[kind]:
            mark("limit passed: " + kind)
            raise Refused(4)
        mark(f"{what} " + ("indexed" if key[2] else "on-channel" if key[1] else "off-channel") + " created")
        return Channel(key, version if key[2] else None)

    def store(self, channel):
        self.channels[channel.key] = channel
        kind = "on-channels" if channel.key[1] else "off-channels"
        if len(self.of_kind(channel.key[1])) == LIMITS[kind]:
            mark("limit reached: " + kind)

    def existing(self, key):
        """13: "channel absent (only delivery, forwarded out and find create one)" """
        if key not in self.channels:
            raise Refused(13)
        return self.channels[key].copy()

    def check_room(self, channel):
        """11: "resulting state over a limit". "Room is judged on the state the rule would end in." """
        sizes = channel.sizes()
        over = [name for name, size in sizes.items() if size > LIMITS[name]]
        for name in over:
            if sizes[name] == LIMITS[name] + 1:
                mark("limit passed: " + name)
        if over:
            raise Refused(11)
        for name, size in sizes.items():
            if size == LIMITS[name]:
                mark("limit reached: " + name)

    def timed(self, time):
        """ "A timed call past check 3 always sets the latest time." """
        if time < self.time:
            raise Refused(3)
        self.time = time

    # -- One record

    def delivery(self, time, address, records):
        """ "A delivery is a lent list of 1 to 8 records [..] with one time." Answers the last record's channel or refusal, and
        "the count of records not refused (0 at 1 to 3)". """
        self.outcomes, self.panics = [], False
        # D4: 2 for an empty or too long list or a malformed last record, then 3, then each record by itself.
        if not 1 <= len(records) <= 8 or records[-1].malformed():
            return Refused(2), 0
        try:
            self.timed(time)
        except Refused as refused:
            return refused, 0
        for record in records:
            answer = self.record(time, address, record)
            self.outcomes.append(answer.number if isinstance(answer, Refused) else 0)
        count = self.outcomes.count(0)
        self.mark_delivery(count)
        return answer, count

    def mark_delivery(self, count):
        if len(self.outcomes) in (1, 8):
            mark(f"delivery: of {len(self.outcomes)}")
        if count < len(self.outcomes):
            mark("delivery: count below its records")
        if count and self.outcomes[-1]:
            mark("delivery: last refused, count above 0")
        for number in self.outcomes[:-1]:
            if number == 2:
                mark("delivery: earlier one malformed, skipped")
            elif number:
                mark("delivery: earlier one refused by the " + ("Rust" if 5 <= number <= 9 else "port"))

    def record(self, time, address, record):
        """One record: its channel after it, or its refusal. A refusal leaves what its row in 01's table says: 2, 4, 10 and 11
        nothing of the record, 5 the prefix, 6 "prefix, channel", 7 to 9 "prefix, channel, acks applied"."""
        try:
            if record.malformed():
                raise Refused(2)
            channel = self.found_or_new(record.key(address), record.indexed and record.indexed[1], "1")
            number = self.refusal_before_acks(channel, record)
            if number == 0:
                self.acks_in(channel, record)
                number = self.refusal_after_acks(channel, record)
            if number:
                self.prefix = record.prefix
                if number != 5:
                    self.store(channel)
                raise Refused(number)
            panics = self.take_in(channel, record, time)
            self.check_room(channel)
        except Refused as refused:
            return refused
        self.panics |= panics
        self.prefix = record.prefix
        self.store(channel)
        return channel

    def refusal_before_acks(self, channel, record):
        """Steps 1 and 2. "A version below the stored one: refusal 5. A higher one is accepted and not stored." "Cumulative ack,
        off-channel: refusal 6." """
        if record.indexed and not record.on:
            mark("1 index off-channel ignored")
        if record.index() is not None:
            if record.indexed[1] < channel.version:
                return 5
            if record.indexed[1] > channel.version:
                mark("1 higher version accepted, not stored")
        return 6 if record.cumulative is not None and not record.on else 0

    def acks_in(self, channel, record):
        """Steps 2 and 3."""
        if record.cumulative is not None:
            # "from the front of the out list remove entries until one where ack compares Less or Equal"
            count = 0
            while count < len(channel.out) and compare(record.cumulative, channel.out[count].number) == "Greater":
                count += 1
            if count:
                mark("2 cumulative removes")
            if count < len(channel.out):
                mark("2 cumulative stops at " + compare(record.cumulative, channel.out[count].number))
            elif count:
                mark("2 cumulative removes all")
            del channel.out[:count]
        for ack in record.acks:
            # "Each single ack removes the first out entry with that number."
            numbers = [entry.number for entry in channel.out]
            mark(["3 ack of no entry", "3 ack removes", "3 ack of a number that stands twice"][min(numbers.count(ack), 2)])
            if ack in numbers:
                del channel.out[numbers.index(ack)]

    def refusal_after_acks(self, channel, record):
        """Steps 4 and 5. "Reliable with last reliable number: refusal 7." "Not reliable, last reliable number given: on-channel it
        must equal expected - 1, else refusal 8; off-channel, refusal 9." """
        if record.last_reliable is None:
            return 0
        if record.reliable:
            return 7
        if not record.on:
            return 9
        if record.last_reliable != (channel.expected - 1) % SIZE:
            return 8
        mark("5 last reliable number right")
        return 0

    def take_in(self, channel, record, time):
        """Steps 4 and 6, for a record that no step refused. True if the Rust would panic."""
        if record.reliable:
            # "append the number to the ack queue, repeats too"
            mark("4 acked again" if record.number in channel.acks else "4 acked, " + ("on" if record.on else "off") + "-channel")
            channel.acks.append(record.number)
            if record.on:
                # "On-channel then: if forwarding, `observe`; then the reorder rule; done."
                if self.forwarding:
                    self.observe(channel, record.number)
                self.reorder(channel, Waiting(record.number, record.handle, record.range))
                return self.grouping(channel)
        if record.range is None:
            # "No range: a bundle of one."
            mark("6 bundle of one")
            channel.bundles.append((record.handle,))
        else:
            self.fragment(channel, record, time)
        return False

    def observe(self, channel, number):
        """ "`observe` moves to seq + 1 if that compares Greater than the next." """
        after = (number + 1) % SIZE
        if compare(after, channel.next) == "Greater":
            mark("4 observe moves")
            channel.next = after
        else:
            mark("4 observe stays")

    def fragment(self, channel, record, time):
        """ "Range: the group keyed by its first number." """
        first, last = record.range
        place = (record.number - first) % SIZE
        if first not in channel.groups:
            # "No group: create one of length last - first + 1, store, make no bundle even if the length is 1." D3.
            length = (last - first) % SIZE + 1
            if place >= length:
                raise Refused(10)
            if length > LIMITS["places of a group"]:
                if length == LIMITS["places of a group"] + 1:
                    mark("limit passed: places of a group")
                raise Refused(11)
            mark("6 group of length 1 created" if length == 1 else "6 group created")
            channel.groups[first] = Group(length)
            self.put(channel, first, place, record, time)
            return
        group = channel.groups[first]
        age = time - group.updated
        if age > 10_000:
            # "Group present and time - last update > 10,000: drop the record; the group stays." D5: never 10.
            mark("6 stale, dropped")
            if age == 10_001:
                mark("6 age 10,001 dropped")
            return
        if place >= len(group.places):
            raise Refused(10)
        if age == 10_000:
            mark("6 age 10,000 stored")
        mark("6 stored" if group.places[place] is None else "6 replaced")
        self.put(channel, first, place, record, time)
        if filled(group):
            # "if every place is filled remove it and make a bundle in place order"
            mark("6 filled")
            del channel.groups[first]
            channel.bundles.append(tuple(group.places))

    def put(self, channel, first, place, record, time):
        """ "Storing is at place (number - first) mod 2^28 and sets last update." """
        if record.reliable:
            mark("6 reliable off-channel fragment")
        if record.on:
            mark("6 group on an on-channel")
        group = channel.groups[first]
        group.places[place] = record.handle
        group.updated = time

    def reorder(self, channel, packet):
        """The reorder rule."""
        order = compare(packet.number, channel.expected)
        if order == "Equal":
            # "append to the contiguous queue, advance, then move buffered successors while contiguous"
            mark("reorder: Equal")
            channel.queue.append(packet)
            channel.expected = (channel.expected + 1) % SIZE
            while channel.buffer and channel.buffer[0].number == channel.expected:
                mark("reorder: successor moved")
                channel.queue.append(channel.buffer.pop(0))
                channel.expected = (channel.expected + 1) % SIZE
        elif order == "Less":
            mark("reorder: Less, dropped")
        else:
            place = insertion([p.number for p in channel.buffer], packet.number)
            if place is None:
                mark("reorder: Equal in the buffer, dropped")
                return
            inserted("reorder", place, len(channel.buffer))
            if (packet.number - channel.expected) % SIZE == HALF:
                mark("reorder: distance 2^27")
            channel.buffer.insert(place, packet)

    def grouping(self, channel):
        """ "Bundles from the contiguous queue". True if the Rust would panic: "if the first that differs has no range; the port
        drops them"."""
        panics, made = False, 0
        while channel.queue:
            front = channel.queue[0]
            if front.range is None:
                mark("grouping: bundle of one")
                channel.bundles.append((channel.queue.pop(0).handle,))
                made += 1
                continue
            first, last = front.range
            if front.number != first:
                mark("grouping: not its first, dropped")
                channel.queue.pop(0)
                continue
            length = (last - first) % SIZE + 1
            if len(channel.queue) < length:
                mark("grouping: fewer waiting, stop")
                break
            run = channel.queue[:length]
            del channel.queue[:length]
            differs = [p for p in run if p.range != front.range]
            if not differs:
                mark("grouping: bundle of several" if length > 1 else "grouping: range of length 1")
                channel.bundles.append(tuple(p.handle for p in run))
                made += 1
            elif differs[0].range is None:
                mark("grouping: no range, dropped (the Rust panics)")
                panics = True
            else:
                mark("grouping: ranges differ, dropped")
        if made > 1:
            mark("grouping: several bundles at once")
        return panics

    # -- Other calls

    def accept_out(self, time, address, record):
        """ "Forwarded out (`accept_out`): no prefix, version check or piggybacks." D1: every field must be legal."""
        if record.malformed():
            raise Refused(2)
        self.timed(time)
        known = record.key(address) in self.channels
        channel = self.found_or_new(record.key(address), record.indexed and record.indexed[1], "out:")
        if known and record.index() is not None and record.indexed[1] < channel.version:
            mark("out: lower version not checked")
        if record.cumulative is not None:
            if not record.on:
                # 6 leaves "prefix (not for forwarded), channel"
                self.store(channel)
                raise Refused(6)
            # "Cumulative ack on-channel keeps queued acks comparing Greater or Equal to it"
            kept = [n for n in channel.acks if compare(n, record.cumulative) != "Less"]
            if kept:
                mark("out: cumulative keeps some")
            if len(kept) < len(channel.acks):
                mark("out: cumulative drops some")
            channel.acks = kept
        for ack in record.acks:
            # "Each single ack removes its first match, the last element taking its place."
            if ack not in channel.acks:
                mark("out: ack of no number")
                continue
            place = channel.acks.index(ack)
            last = channel.acks.pop()
            if place < len(channel.acks):
                mark("out: ack removes, the last takes its place")
                channel.acks[place] = last
            else:
                mark("out: ack removes the last")
        if record.reliable:
            # "Reliable: insert in the out list, searching from the end as above, without a handle."
            place = insertion([entry.number for entry in channel.out], record.number)
            if place is None:
                mark("out: repeat, dropped")
            else:
                inserted("out", place, len(channel.out))
                channel.out.insert(place, Entry(record.number, None, time, time))
        elif not record.acks and record.cumulative is None:
            mark("out: nothing to do")
        self.check_room(channel)
        self.store(channel)
        return channel

    def prepare(self, time, key, reliable, handles):
        """ "Send (state half of `prepare`), 0 to 16 handles". Answers the first number or none, and the channel."""
        if key[2] == 0 or len(handles) > 16:
            raise Refused(2)
        self.timed(time)
        channel = self.existing(key)
        first, shared = None, self.shared
        if reliable or len(handles) > 1:
            # "if reliable or more than one, allocate; reliable on-channel from its own source, otherwise from the shared one"
            if reliable and key[1]:
                mark("send: own source")
                first = channel.next
                channel.next = (first + len(handles)) % SIZE
            else:
                mark("send: shared source, on-channel" if key[1] else "send: shared source")
                first = shared
                shared = (first + len(handles)) % SIZE
        else:
            mark("send: nothing allocated")
        if reliable:
            # "Reliable packets join the out list at its end. The ack queue is untouched."
            if not handles:
                mark("send: reliable, no handle")
            for k, handle in enumerate(handles):
                channel.out.append(Entry((first + k) % SIZE, handle, time, time))
        self.check_room(channel)
        if len(handles) == 16:
            mark("send: sixteen handles")
        if key[2]:
            mark("send: indexed")
        self.shared = shared
        self.store(channel)
        return first, channel

    def acks_written(self, key, names):
        """ "Acks written (by `prepare`'s other half): named numbers leave the ack queue, each at its earliest place; if one is
        lacking, refusal 2. An absent channel gives 2 for any name, 13 for an empty list." D11."""
        if key[2] == 0:
            raise Refused(2)
        acks = list(self.channels[key].acks) if key in self.channels else []
        for name in names:
            if name not in acks:
                raise Refused(2)
            if acks.count(name) > 1:
                mark("written: earliest of several")
            if acks.index(name):
                mark("written: not the first")
            acks.remove(name)
        channel = self.existing(key)
        if not names:
            mark("written: no name")
        channel.acks = acks
        self.store(channel)

    def take_resends(self, time, timeout, give_up, places):
        """ "Resends: in each channel drop entries whose age is not below give-up, then list, as address and handle, those with a
        handle whose time since last sent is at least the timeout, setting last sent. Off-channels first, each kind in order of
        creation". Answers the rows of each channel that has any."""
        self.timed(time)
        changed, rows = [], []
        for channel in self.of_kind(False) + self.of_kind(True):
            channel = channel.copy()
            due = []
            kept = [e for e in channel.out if time - e.time < give_up]
            self.mark_ages(channel.out, time, timeout, give_up)
            for k, entry in enumerate(kept):
                if entry.handle is not None and time - entry.sent >= timeout:
                    due.append(entry.handle)
                    kept[k] = entry._replace(sent=time)
            channel.out = kept
            changed.append(channel)
            if due:
                rows.append((channel, due))
        if sum(len(due) for _, due in rows) > places:
            # D10: "12 is exactly more rows than the lent list has places, and then only the time is set."
            raise Refused(12)
        for channel in changed:
            self.store(channel)
        addresses = [channel.key[0] for channel, _ in rows]
        if len(set(addresses)) < len(addresses):
            mark("resends: two channels of one address")
        mark("resends: listed" if rows else "resends: no row")
        return rows

    def mark_ages(self, out, time, timeout, give_up):
        for entry in out:
            age, since = time - entry.time, time - entry.sent
            if age >= give_up:
                mark("resends: given up")
            elif age + 1 == give_up:
                mark("resends: age just below give-up")
            if age < give_up and entry.handle is None and since >= timeout:
                mark("resends: without a handle, not listed")
            if age < give_up and entry.handle is not None and since + 1 == timeout:
                mark("resends: time just below timeout")

    def channel(self, key):
        """ "Find or create a channel (a created index gets version 1)" """
        if key[2] == 0:
            raise Refused(2)
        if key in self.channels:
            mark("find: found")
            return self.channels[key]
        channel = self.found_or_new(key, 1, "find:")
        self.store(channel)
        return channel

    def next_bundle(self, key, places):
        """The next bundle or none. 12: "lent answer list too short". D12: none, whatever the list's length."""
        if key[2] == 0:
            raise Refused(2)
        channel = self.existing(key)
        if not channel.bundles:
            mark("next: none")
            return None
        if len(channel.bundles[0]) > places:
            raise Refused(12)
        mark("next: bundle")
        bundle = channel.bundles.pop(0)
        self.store(channel)
        return bundle

    def holds(self, handle):
        """D8: "in an out list, the buffer, the contiguous queue, a group, or a bundle not yet handed out" """
        held = {
            "out list": [e.handle for c in self.channels.values() for e in c.out],
            "buffer": [p.handle for c in self.channels.values() for p in c.buffer],
            "contiguous queue": [p.handle for c in self.channels.values() for p in c.queue],
            "group": [h for c in self.channels.values() for g in c.groups.values() for h in g.places],
            "bundle": [h for c in self.channels.values() for b in c.bundles for h in b],
        }
        where = [name for name, handles in held.items() if handle in handles]
        for name in where or ["no"]:
            mark("held: " + name)
        return bool(where)

    def check(self):
        """What 01 says of every table: the limits, and "Distances of buffered numbers from expected strictly increase within 1 to
        2^27", "the contiguous queue is consecutive and ends at expected - 1", times. For tests of the model itself."""
        for c in self.channels.values():
            for name, size in c.sizes().items():
                assert size <= LIMITS[name], name
            ahead = [(p.number - c.expected) % SIZE for p in c.buffer]
            assert all(1 <= d <= HALF for d in ahead) and ahead == sorted(set(ahead)), "buffer"
            behind = [(c.expected - p.number) % SIZE for p in c.queue]
            assert behind == list(range(len(behind), 0, -1)), "queue"
            assert all(e.time <= e.sent <= self.time for e in c.out), "times"
            assert all(g.updated <= self.time for g in c.groups.values()), "groups"

    def dump(self):
        """The whole state in one line, channels and groups sorted."""
        text = f"dump prefix {self.prefix} offset {self.offset} shared {self.shared}"
        or_dash = lambda x: "-" if x is None else x
        for c in sorted(self.channels.values(), key=lambda c: (c.key[1], c.key[0], c.key[2] or 0)):
            text += " | " + c.name()
            if c.key[1]:
                text += f" version {or_dash(c.version)} next {c.next} expected {c.expected}"
                for name, packets in ("buffer", c.buffer), ("queue", c.queue):
                    shown = [f" {p.number},{p.handle}," + ("%d..%d" % p.range if p.range else "-") for p in packets]
                    text += f" {name}" + "".join(shown)
            text += " out" + "".join(f" {e.number},{or_dash(e.handle)},{e.time},{e.sent}" for e in c.out)
            text += " acks" + "".join(f" {n}" for n in c.acks) + " groups"
            for first, group in sorted(c.groups.items()):
                count = sum(place is not None for place in group.places)
                text += f" {first},{group.updated},{count}:" + ".".join(str(or_dash(p)) for p in group.places)
            text += " bundles" + "".join(" " + ".".join(map(str, bundle)) for bundle in c.bundles)
        return text + f" | time {self.time}"


# ---- The driver


class Bad(Exception):
    """ "`bad` for an unreadable line" """


class Words:
    """The words of a line. "One blank between words": an empty word is none that any reader takes."""

    def __init__(self, line):
        self.words = line.split(b" ")

    def next(self):
        if not self.words:
            raise Bad
        return self.words.pop(0)

    def take(self, word):
        if self.words and self.words[0] == word:
            self.words.pop(0)
            return True
        return False

    def number(self, bound=U32):
        """D14: "one or more decimal digits whose value fits its type [..] leading zeros are allowed" """
        word = self.next()
        if not word or any(not 48 <= byte <= 57 for byte in word):
            raise Bad
        if len(word) > 1 and word[0] == 48:
            mark("driver: leading zero")
        digits = word.lstrip(b"0") or b"0"
        if len(digits) > 20 or int(digits) >= bound:
            mark("driver: number that does not fit")
            raise Bad
        return int(digits)

    def end(self):
        if self.words:
            raise Bad

    def key(self):
        """ "`pop A off`, `pop A on` or `pop A idx I`" """
        address = self.number()
        if self.take(b"off"):
            return (address, False, None)
        if self.take(b"on"):
            return (address, True, None)
        if self.take(b"idx"):
            return (address, True, self.number())
        raise Bad

    def record(self):
        """P, "then in this order if present: `on`, `idx I V`, `rel`, `seq N`, `rng F L`, `cum N`, `ack N` (repeated), `lrs N`,
        `pkt H`; an absent `seq` or `pkt` is 0" """
        prefix = self.number()
        on = self.take(b"on")
        indexed = (self.number(), self.number()) if self.take(b"idx") else None
        reliable = self.take(b"rel")
        number = self.number() if self.take(b"seq") else 0
        range_ = (self.number(), self.number()) if self.take(b"rng") else None
        cumulative = self.number() if self.take(b"cum") else None
        acks = []
        while self.take(b"ack"):
            acks.append(self.number())
        last_reliable = self.number() if self.take(b"lrs") else None
        handle = self.number() if self.take(b"pkt") else 0
        self.end()
        return Record(prefix, on, indexed, reliable, number, range_, cumulative, tuple(acks), last_reliable, handle)


INPUT = 60_000


def cut(data):
    """ "Standard input, read up to 60,000 bytes". """
    if len(data) > INPUT:
        mark("driver: cut at 60,000 bytes")
    return data[:INPUT]


def lines_of(data):
    """The lines, each with whether its line feed is there. Nothing after the last line feed is no line."""
    lines = data.split(b"\n")
    return [(line, True) for line in lines[:-1]] + ([(lines[-1], False)] if lines[-1] else [])


def view(channel, version=False):
    """ "`ok off A`, `ok on A I exp N` (I is `-` without index)" """
    text = "ok " + channel.name()
    if channel.key[1]:
        text += f" exp {channel.expected}"
    if version and channel.version is not None:
        text += f" ver {channel.version}"
    return text


class Driver:
    """Answers lines. `wide` adds the lines of the other calls."""

    def __init__(self, wide=False):
        self.wide = wide
        self.table = Table()
        self.held = []
        self.done = "done 0"
        self.refused_by = None

    def run(self, data):
        answers = []
        for line, whole in lines_of(cut(data)):
            answer = self.line(line) if whole else self.unfinished()
            if answer is not None:
                answers.append(answer)
        return "".join(answer + "\n" for answer in answers).encode()

    def unfinished(self):
        """ "A last line without its line feed is `bad`." """
        mark("driver: last line without line feed")
        return "bad"

    def line(self, line):
        """One line's answer; None for a held record."""
        words = Words(line)
        command = words.next()
        try:
            if command == b"in":
                return self.deliver(words)
            if command == b"pig":
                return self.hold(words)
            if command == b"pop":
                mark("driver: pop")
                key = words.key()
                words.end()
                return self.call("next bundle", self.next_bundle, key, U32)
            if self.wide:
                return self.other(command, words)
            raise Bad
        except Bad:
            mark("driver: bad")
            if any(byte > 0x7F for byte in line):
                mark("driver: byte over 0x7F")
            if command == b"pig":
                mark("driver: bad pig")
            if self.held:
                used = command == b"in"
                mark("driver: bad in uses held records up" if used else "driver: bad line that is no in keeps held records")
            if command == b"in":
                # "an `in`, `bad` too, uses them up". D16: where the first word is exactly `in`.
                self.held = []
            return "bad"

    def hold(self, words):
        """ "`pig P` and the same fields holds a record for the next `in`" """
        record = words.record()
        mark("driver: pig")
        if len(record.acks) > 8:
            mark("driver: ninth ack in pig")
        self.held.append(record)
        if len(self.held) == 8:
            mark("driver: eighth held record")

    def deliver(self, words):
        time, address = words.number(U64), words.number()
        record = words.record()
        mark("driver: in")
        if len(record.acks) > 8:
            mark("driver: ninth ack in in")
        records, self.held = self.held + [record], []
        answer, count = self.table.delivery(time, address, records)
        self.done = f"done {count}"
        if isinstance(answer, Refused):
            mark(f"refusal: delivery {answer.number}")
            return f"no {answer.number}"
        if answer.version is not None:
            self.done += f" ver {answer.version}"
        return view(answer)

    def call(self, name, function, *arguments):
        """A call's answer, or `no R`."""
        self.refused_by, self.table.panics = None, False
        try:
            return function(*arguments)
        except Refused as refused:
            self.refused_by = refused.number
            mark(f"refusal: {name} {refused.number}")
            return f"no {refused.number}"

    def next_bundle(self, key, places):
        bundle = self.table.next_bundle(key, places)
        return "none" if bundle is None else " ".join(map(str, ("bundle", len(bundle), *bundle)))

    # -- The lines of the other calls

    def other(self, command, words):
        table = self.table
        self.refused_by = None
        if command == b"new":
            forwarding, _ = words.take(b"forwarding"), words.take(b"nested")
            words.end()
            self.table, self.held, self.done = Table(forwarding), [], "done 0"
            return "new"
        if command == b"out":
            time, address, record = words.number(U64), words.number(), words.record()
            return self.call("forwarded out", lambda: view(table.accept_out(time, address, record), True))
        if command == b"find":
            key = words.key()
            words.end()
            return self.call("find", lambda: view(table.channel(key), True))
        if command == b"next":
            key, places = words.key(), words.number()
            words.end()
            return self.call("next bundle", self.next_bundle, key, places)
        if command == b"prep":
            return self.send(words)
        if command == b"wrote":
            key, names = words.key(), []
            while words.words:
                names.append(words.number())
            return self.call("acks written", lambda: table.acks_written(key, names) or "ok")
        if command == b"resend":
            time, timeout, give_up, places = words.number(U64), words.number(U64), words.number(U64), words.number()
            words.end()
            return self.call("resends", lambda: rows(table.take_resends(time, timeout, give_up, places)))
        if command == b"holds":
            handle = words.number()
            words.end()
            return "yes" if table.holds(handle) else "no"
        words.end()
        if command == b"done":
            return self.done
        if command == b"dump":
            table.check()
            return table.dump()
        if command == b"prefix":
            mark("prefix")
            return f"prefix {table.prefix}"
        if command == b"reset":
            mark("reset")
            table.offset = 0
            return "ok"
        if command == b"transfer":
            mark("transfer")
            table.offset = table.prefix
            return "ok"
        raise Bad

    def send(self, words):
        time, key = words.number(U64), words.key()
        reliable = words.take(b"rel")
        if not reliable and not words.take(b"unrel"):
            raise Bad
        handles = []
        while words.words:
            handles.append(words.number())

        def answer():
            """ "Answers the first number (none where nothing was allocated), expected number and index if on, prefix offset." """
            first, channel = self.table.prepare(time, key, reliable, handles)
            text = "sent " + ("-" if first is None else str(first))
            if not key[1]:
                text += " off"
            elif key[2] is None:
                text += f" on - exp {channel.expected}"
            else:
                text += f" on {key[2]} ver {channel.version} exp {channel.expected}"
            return f"{text} offset {self.table.offset}"

        return self.call("send", answer)


def rows(found):
    text = f"rows {sum(len(due) for _, due in found)}"
    for channel, due in found:
        text += f" | {channel.name()}:" + "".join(f" {handle}" for handle in due)
    return text


if __name__ == "__main__":
    sys.stdout.buffer.write(Driver(wide="wide" in sys.argv[1:]).run(sys.stdin.buffer.read()))
