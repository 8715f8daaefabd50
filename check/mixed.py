#!/usr/bin/env python3
"""Holds what the program mixed_history writes to the model of 01 and to the original.

    check/mixed.py                                       its stored output, against the model
    check/mixed.py --oracle target/oracle/original       and the same history, put to the original

The program draws 2,000 steps over every call from their numbers alone (crates/mixed_history/src/draw.rt), and so does this file.
The model (model.py) gives each step's answer, and the words of the table after it, whose sum must be the program's. The
history is also a script, with the whole state asked for after every tenth step; what only the port refuses is withheld
from the original (compare.py). The 100 lines at the end are calls on a table that is not well formed: each answers 1, and
the sum stays.
"""

import argparse
import os
import sys
from collections import Counter

sys.path.insert(0, os.path.dirname(os.path.abspath(__file__)))
import compare
import model
from given import runnable
from model import Record, Refused, Table

ROOT = os.path.dirname(os.path.dirname(os.path.abspath(__file__)))
STORED = os.path.join(ROOT, "crates", "mixed_history", "stdout")
STEPS = 2000
PRIME = 4294967291

# ---- What is drawn, as in mixed_history


def pick(step, part, choice, n):
    b = (step * 131 + part * 8191 + choice * 524287 + 7) % 2147483647
    c = (b ^ b >> 15) * 48271 % 2147483647
    return (c ^ c >> 13) * 48271 % 2147483647 % n


def near(step, part, choice):
    return step // 32 + pick(step, part, choice, 8)


def time(step):
    return step * 37 + 1000 - (500 if pick(step, 0, 40, 60) == 0 else 0)


def address(step):
    return 7 if pick(step, 0, 41, 8) else pick(step, 0, 42, 4)


def index(step, part):
    return 1 + pick(step, part, 3, 2) if pick(step, part, 17, 60) else 0


def record(step, part):
    number = near(step, part, 6) if pick(step, part, 7, 150) else model.SIZE
    count = pick(step, part, 15, 3) if pick(step, part, 21, 120) else 9
    acks = (near(step, part, 16), near(step, part, 18)) + (0,) * 7
    flagged = lambda choice, n, value: value if pick(step, part, choice, n) == 0 else None
    return Record(
        prefix=pick(step, part, 20, 100000),
        on=pick(step, part, 1, 4) != 0,
        indexed=flagged(2, 3, (index(step, part), 1 + pick(step, part, 4, 2))),
        reliable=pick(step, part, 5, 3) != 0,
        number=number,
        range=flagged(8, 5, (max(number - pick(step, part, 9, 3), 0), near(step, part, 10))),
        cumulative=flagged(11, 5, near(step, part, 12)),
        acks=acks[:count],
        last_reliable=flagged(13, 12, max(near(step, part, 14) - 1, 0)),
        handle=pick(step, part, 19, 1000000),
    )


def batch(step):
    k = pick(step, 0, 43, 40)
    return [record(step, part) for part in range({0: 0, 1: 9}.get(k, k if k < 8 else 1))]


def key(step):
    on = pick(step, 0, 44, 4) != 0
    return (address(step), on, index(step, 0) if on and pick(step, 0, 45, 3) == 0 else None)


def handles(step):
    count = pick(step, 0, 49, 4) if pick(step, 0, 50, 25) else 17
    return [pick(step, part, 48, 1000000) for part in range(count)]


def names(step):
    return [near(step, 0, 51), near(step, 0, 52)][: pick(step, 0, 53, 3)]


def short(step):
    return pick(step, 0, 54, 8) == 0


# ---- The table's words in order, zeros left out, and their sum


def padded(items, room, width):
    return [word for item in items for word in item] + [0] * ((room - len(items)) * width)


def long(n):
    return [n % 2**32, n >> 32]


def of_channel(c):
    out = [[*long(e.time), *long(e.sent), e.number, int(e.handle is not None), e.handle or 0] for e in c.out]
    words = [len(out)] + padded(out, 32, 7) + [len(c.acks)] + padded([[n] for n in c.acks], 64, 1)
    groups = []
    for first, g in c.groups.items():
        marks = [[int(place is not None)] for place in g.places]
        stored = [[place or 0] for place in g.places]
        filled = sum(place is not None for place in g.places)
        groups.append([*long(g.updated), first, len(g.places), filled] + padded(marks, 32, 1) + padded(stored, 32, 1))
    words += [len(groups)] + padded(groups, 4, 69)
    all_handles = [[h] for bundle in c.bundles for h in bundle]
    return words + [len(c.bundles), len(all_handles)] + padded([[len(b)] for b in c.bundles], 16, 1) + padded(all_handles, 64, 1)


def of_waiting(packets):
    rows = [[p.number, p.handle, int(p.range is not None), *(p.range or (0, 0))] for p in packets]
    return [len(rows)] + padded(rows, 32, 5)


def words(t):
    offs = [[c.key[0]] + of_channel(c) for c in t.of_kind(False)]
    ons = [
        [c.key[0], c.key[2] or 0, c.version or 0, c.expected, c.next] + of_channel(c) + of_waiting(c.buffer) + of_waiting(c.queue)
        for c in t.of_kind(True)
    ]
    channel = 1 + (1 + 32 * 7) + (1 + 64) + (1 + 4 * 69) + (2 + 16 + 64)
    top = [*long(t.time), int(t.forwarding), t.prefix, t.offset, t.shared, len(offs), len(ons)]
    return top + padded(offs, 4, channel) + padded(ons, 8, channel + 4 + 2 * (1 + 32 * 5))


POWERS = [1]


def total(list_):
    while len(POWERS) < len(list_):
        POWERS.append(POWERS[-1] * 31 % PRIME)
    return sum(w * p for w, p in zip(reversed(list_), POWERS) if w) % PRIME


# ---- The steps: what the program writes, and the same as lines of a script


def numbers(*list_):
    return "".join(f" {n}" for n in list_)


def answer(name, value, refused):
    """`value` gives the numbers of a granted call; `refused` are those of a refused one."""
    try:
        return f"{name} ok" + numbers(*value())
    except Refused as no:
        return f"{name} no {no.number}" + numbers(*refused)


def view(c):
    return (int(c.key[1]), c.key[0], c.key[2] or 0, c.version or 0, c.expected if c.key[1] else 0)


def fields(r):
    text = f"{r.prefix}" + " on" * r.on + (f" idx {r.indexed[0]} {r.indexed[1]}" if r.indexed else "")
    text += " rel" * r.reliable + f" seq {r.number}" + ("" if r.range is None else " rng %d %d" % r.range)
    text += "" if r.cumulative is None else f" cum {r.cumulative}"
    text += "".join(f" ack {n}" for n in r.acks)
    return text + ("" if r.last_reliable is None else f" lrs {r.last_reliable}") + f" pkt {r.handle}"


def named(k):
    address, on, i = k
    return f"{address} " + ("off" if not on else "on" if i is None else f"idx {i}")


def deliver(t, step):
    records = batch(step)
    if not records or len(records) > 8:
        return "in no 2" + numbers(0, 0, 0, 0, 0, 0), []
    lines = ["pig " + fields(r) for r in records[:-1]] + [f"in {time(step)} {address(step)} {fields(records[-1])}", "done"]
    last, count = t.delivery(time(step), address(step), records)
    if isinstance(last, Refused):
        return f"in no {last.number}" + numbers(count, 0, 0, 0, 0, 0), lines
    return "in ok" + numbers(count, *view(last)), lines


def forward_out(t, step):
    r = record(step, 0)
    said = answer("out", lambda: view(t.accept_out(time(step), address(step), r)), (0, 0, 0, 0, 0))
    return said, [f"out {time(step)} {address(step)} {fields(r)}"]


def find(t, step):
    return answer("find", lambda: view(t.channel(key(step))), (0, 0, 0, 0, 0)), ["find " + named(key(step))]


def hand_out(t, step):
    places = 1 if short(step) else 64

    def value():
        bundle = t.next_bundle(key(step), places)
        return (0, 0) if bundle is None else (1, len(bundle), *bundle)

    return answer("next", value, (0, 0)), [f"next {named(key(step))} {places}"]


def prepare(t, step):
    reliable = pick(step, 0, 47, 2) if pick(step, 0, 46, 30) else 2
    k, list_ = key(step), handles(step)
    nothing = (0,) * 7
    if reliable == 2 or len(list_) > 16:
        return "prep no 2" + numbers(*nothing), []

    def value():
        first, c = t.prepare(time(step), k, reliable == 1, list_)
        seen = (1, c.expected, c.key[2] or 0, c.version or 0) if c.key[1] else (0, 0, 0, 0)
        return (int(first is not None), first or 0, *seen, t.offset)

    line = f"prep {time(step)} {named(k)} " + ("rel" if reliable else "unrel") + numbers(*list_)
    return answer("prep", value, nothing), [line]


def wrote(t, step):
    said = answer("wrote", lambda: t.acks_written(key(step), names(step)) or (), ())
    return said, [f"wrote {named(key(step))}" + numbers(*names(step))]


def resend(t, step):
    timeout, give_up = pick(step, 0, 56, 2000), pick(step, 0, 57, 20000)
    places = 1 if short(step) else 384

    def value():
        rows = [(c.key[0], h) for c, due in t.take_resends(time(step), timeout, give_up, places) for h in due]
        return (len(rows), *(n for row in rows for n in row))

    return answer("resend", value, (0,)), [f"resend {time(step)} {timeout} {give_up} {places}"]


def held(t, step):
    handle = pick(step, 0, 58, 1000000)
    return f"holds ok {int(t.holds(handle))}", [f"holds {handle}"]


def prefix(t, step):
    return f"prefix ok {t.prefix}", ["prefix"]


def reset(t, step):
    t.offset = 0
    return "reset ok", ["reset"]


def transfer(t, step):
    t.offset = t.prefix
    return "transfer ok", ["transfer"]


KINDS = (
    [deliver] * 44 + [forward_out] * 12 + [find] * 4 + [hand_out] * 16 + [prepare] * 8 + [wrote] * 6 + [resend] * 4
    + [held] * 2 + [prefix] * 2 + [reset, transfer]
)
# What each kind writes on a table that is not well formed: 1, and zeros.
ILL = {
    deliver: ("in", 6), forward_out: ("out", 5), find: ("find", 5), hand_out: ("next", 2), prepare: ("prep", 7), wrote: ("wrote", 0),
    resend: ("resend", 1), held: ("holds", 1), prefix: ("prefix", 1), reset: ("reset", 0), transfer: ("transfer", 0),
}  # fmt: skip


def history():
    """The lines of the program, the script, and how often each answer came."""
    t, written, script, seen = Table(True), [], [], Counter()
    for step in range(STEPS):
        said, lines = KINDS[pick(step, 0, 59, 100)](t, step)
        t.check()
        written.append(f"{step} {said} sum {total(words(t))}")
        script += lines + ["dump"] * (step % 10 == 9)
        seen[" ".join(said.split(" ")[: 3 if " no " in said else 2])] += 1
    spoilt = words(t)
    spoilt[7] = 2**32 - 1
    for kind in KINDS:
        name, zeros = ILL[kind]
        written.append(f"{STEPS} {name} no 1" + " 0" * zeros + f" sum {total(spoilt)}")
    return written, script, seen


def main():
    arguments = argparse.ArgumentParser(description=__doc__.split("\n")[0])
    arguments.add_argument("--oracle", type=runnable, help="the original, as oracle/build makes it")
    arguments.add_argument("--store", action="store_true", help="make the file anew")
    given = arguments.parse_args()
    written, script, seen = history()
    if given.store:
        with open(STORED, "w") as to:
            to.write("".join(line + "\n" for line in written))
    stored = open(STORED).read().splitlines()
    wrong = [(a, b) for a, b in zip(stored, written) if a != b]
    for a, b in wrong[:5]:
        print(f"wrote:    {a}\nmust be:  {b}")
    if len(stored) != len(written):
        sys.exit(f"{STORED}: {len(stored)} lines for {len(written)} steps")
    asked = 0
    if given.oracle:
        played = compare.Play()
        for line in ["new forwarding"] + script:
            played.line(line.encode())
        asked = len(played.expected())
        found = compare.differs(given.oracle, played)
        if found:
            line, expected, said = found
            wrong.append(found)
            print(f"at {line.decode()}\n  model: {expected}\n  original: {said}")
    print("answers: " + ", ".join(f"{n} {name}" for name, n in sorted(seen.items())))
    print(f"check/mixed.py: {len(written)} lines of mixed_history, {asked} answers of the original, {len(wrong)} wrong")
    sys.exit(1 if wrong else 0)


if __name__ == "__main__":
    main()
