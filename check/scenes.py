#!/usr/bin/env python3
"""Holds what the scenes write (the file stdout of crates/scenes, group_scenes and arrival_scenes) to the original Rust.

    check/scenes.py --oracle target/oracle/original             every scene, and the counts
    check/scenes.py --oracle target/oracle/original --store     makes the files anew, from the original and the table
    check/scenes.py                                             the scenes of the table alone: no original at hand

A scene's script is put to the original, on a new table, and its line must follow from what the original's `dump` then shows:
`out`, `acks`, `groups`, `bundles`, `buffer`, `queue` and `expected` are copied, of `out` the numbers alone unless it is a
scene of times and handles. Every script stays in the Rust's domain: no list of it passes a limit of 01's room.

Outside that domain a scene's line is worked out from 01:

  no 11   its last packet brings the original's list over the limit that is named, and no other over its own. "Room is judged
          on the state the rule would end in", so it is refused and the lists stay as the original had them before it.
  no 10   the original panics at its last packet, and the lists stay as the original had them before it.
  hand    the line stands in the table, written from 01. `panics`: the original was seen to panic there.

| scene | kind | line, or the limit |
|---|---|---|
| a 33rd out entry | no 11 | out |
| a 65th ack | no 11 | acks |
| a 5th group | no 11 | groups |
| one of 33 places | no 11 | places |
| a 17th bundle | no 11 | bundles |
| a 65th handle | no 11 | handles |
| a full group that finds 16 bundles | no 11 | bundles |
| a 33rd buffered | no 11 | buffer |
| 33 contiguous of a range of 34 | no 11 | queue |
| 17 bundles from one filled gap | no 11 | bundles |
| a 17th packet in order | no 11 | bundles |
| a 65th handle in order | no 11 | handles |
| a fragment beyond its group | no 10 | |
| a number outside its range | no 10 | |
| a number outside its range of 33 | no 10 | |
| a number before its range | no 10 | |
| a 5th group, the number outside its range | no 10 | |
| beyond its group, with 16 bundles | no 10 | |
| a run with a bare packet | hand, panics | ok expected 2 buffer queue bundles |
| a packet after a run with a bare packet | hand | ok expected 3 buffer queue bundles 2 |
| one of the range 5 to 4 | hand | no 11 groups bundles |
| 268435455 where it is expected | hand | ok expected 0 buffer queue bundles 20 |
| the first of the range 268435455 to 0 | hand | ok expected 0 buffer queue 268435455,268435455,268435455..0 bundles |
| both of the range 268435455 to 0 | hand | ok expected 1 buffer queue bundles 268435455.0 |
| 268435455 before the buffer 0 | hand | ok expected 1 buffer queue bundles 20 21 |
| written 5 5 on 5 6 | hand | taken no acks 5 6 |
| written 5 7 on 5 6 | hand | taken no acks 5 6 |
| written 6 4 on 4 5 6 4 | hand | taken yes acks 5 4 |
| a sent packet at the latest time | hand | well formed yes |
| a sent packet after the latest time | hand | well formed no |
| an entry past the count | hand | well formed no |
| acks 4 7 | hand | well formed yes |
| an ack that is no legal number | hand | well formed no |
| an ack queue of 65 | hand | well formed no |
| a group updated at the latest time | hand | well formed yes |
| a group updated after the latest time | hand | well formed no |
| a handle of no bundle | hand | well formed no |
| a buffer 3 5 where 2 is expected | hand | well formed yes |
| a buffer 3 5 where 3 is expected | hand | well formed no |
| a queue 0 1 where 2 is expected | hand | well formed yes |
| a queue 0 1 where 3 is expected | hand | well formed no |

Why by hand: the bare run is the panic that the port leaves out ("the port drops them"). The range 5 to 4 has 2^28 places, which
the Rust would set aside. The Rust expects 268435455 only after as many packets. It writes the acks at the front of its queue
and no others, and knows no name that is lacking. Well-formedness is the port's own.
"""

import argparse
import os
import re
import subprocess
import sys

HERE = os.path.dirname(os.path.abspath(__file__))
sys.path.insert(0, HERE)
from given import runnable
LIMITS = {"out": 32, "acks": 64, "buffer": 32, "queue": 32, "groups": 4, "places": 32, "bundles": 16, "handles": 64}


class Lists:
    """The one channel of a dump, or a new one where there is none yet."""

    WORDS = ("expected", "buffer", "queue", "out", "acks", "groups", "bundles")

    def __init__(self, dump):
        parts = dump.split(" | ")[1:]
        assert len(parts) <= 1, f"one channel, and not {dump}"
        self.of = {word: [] for word in self.WORDS}
        to = []
        for word in parts[0].split(" ") if parts else []:
            if word in self.of:
                to = self.of[word]
            else:
                to.append(word)
        self.of["expected"] = self.of["expected"][:1] or ["0"]

    def text(self, *words):
        return " ".join(part for word in words for part in [word] + self.of[word])

    def numbers(self):
        return " ".join(["out"] + [entry.split(",")[0] for entry in self.of["out"]])

    def sizes(self):
        sizes = {word: len(self.of[word]) for word in LIMITS if word in self.of}
        sizes["places"] = max([len(group.split(":")[1].split(".")) for group in self.of["groups"]], default=0)
        sizes["handles"] = sum(len(bundle.split(".")) for bundle in self.of["bundles"])
        return sizes

    def over(self):
        return [word for word, size in self.sizes().items() if size > LIMITS[word]]


# ---- what a line shows of the lists, and of the answers to the script


def out(lists, answers):
    return lists.numbers()


def whole(lists, answers):
    return lists.text("out")


def room(lists, answers):
    return "room yes " + lists.numbers()


def rows(lists, answers):
    count, *channels = answers[-1].split(" | ")
    handles = "".join(" " + channel.split(": ")[1] for channel in channels)
    return f"{count} |{handles} | {lists.text('out')}"


def acks(lists, answers):
    return lists.text("acks")


def taken(lists, answers):
    return {"ok": "taken yes ", "lacks": "taken no "}[answers[-1]] + lists.text("acks")


def fragments(lists, answers):
    return "ok " + lists.text("groups", "bundles")


def arrival(lists, answers):
    return "ok " + lists.text("expected", "buffer", "queue", "bundles")


def holds(*handles):
    return lambda lists, answers: "holds" + "".join(f" {h} {a}" for h, a in zip(handles, answers[-len(handles) :]))


# ---- the scripts


def forward(*numbers, time=0):
    return [f"out {time} 7 0 on rel seq {n}" for n in numbers]


def send(time, *handles):
    return [f"prep {time} 7 on rel {' '.join(map(str, handles))}"]


def resend(time, timeout, age):
    return [f"resend {time} {timeout} {age} 384"]


def cumulative(number):
    return [f"in 0 7 0 on cum {number}"]


def receive(*numbers):
    return [f"in 0 7 0 on rel seq {n}" for n in numbers]


def forwarded(fields):
    return [f"out 0 7 0 on {fields}"]


def bare(*handles):
    return [f"in 0 7 0 seq 0 pkt {h}" for h in handles]


def part(number, first, last, handle, time=0):
    return [f"in {time} 7 0 seq {number} rng {first} {last} pkt {handle}"]


def parts(first, last):
    return [line for n in range(first, last + 1) for line in part(n, first, last, n)]


def packet(number, handle):
    return [f"in 0 7 0 on rel seq {number} pkt {handle}"]


def packets(low, high):
    return [line for n in range(low, high) for line in packet(n, n)]


def ranged(first, last, *numbers):
    return [f"in 0 7 0 on rel seq {n} rng {first} {last} pkt {n}" for n in numbers]


POP = ["pop 7 off"]
HOLDS = ["holds 20", "holds 0"]

FULL = send(0, *range(16)) + send(0, *range(16, 32))
SENT = send(10, 20)
MARKED = SENT + resend(60, 50, 100)
WHOLE_ACKS = [line for n in range(64) for line in packet(n, n) + ["pop 7 on"]]
QUEUE = receive(4, 7, 9, 6)

SCENES = [
    ("32 out entries", FULL, out),
    ("a 33rd out entry", FULL + forward(32), room),
    ("a repeat at 32 out entries", FULL + forward(31), room),
    ("room freed by a single ack", FULL + ["in 0 7 0 on ack 5"] + forward(32), room),
    ("cumulative 3 on 1 2 3 5", forward(1, 2, 3, 5) + cumulative(3), out),
    ("cumulative 1 on 1 2", forward(1, 2) + cumulative(1), out),
    ("cumulative 9 on 1 2", forward(1, 2) + cumulative(9), out),
    ("cumulative 0 across the wrap", forward(268435454, 268435455, 0, 1) + cumulative(0), out),
    ("cumulative 3 on 5 0 1", forward(5) + send(0, 20) + send(0, 21) + cumulative(3), out),
    ("cumulative 0 on 134217728", forward(134217728) + cumulative(0), out),
    ("cumulative 0 on 134217727", forward(134217727) + cumulative(0), out),
    ("cumulative 134217728 on 0", forward(0) + cumulative(134217728), out),
    ("cumulative 134217729 on 0", forward(0) + cumulative(134217729), out),
    ("single acks 2 9 5 on 1 2 3 5", forward(1, 2, 3, 5) + ["in 0 7 0 on ack 2 ack 9 ack 5"], out),
    ("the number 0 twice", forward(0) + send(0, 20), whole),
    ("single ack 0 of the number 0 twice", forward(0) + send(0, 20) + ["in 0 7 0 on ack 0"], whole),
    ("forwarded 3 into 1 5", forward(1, 5, 3), out),
    ("forwarded 1 into 3 5", forward(3, 5, 1), out),
    ("forwarded 7 into 3 5", forward(3, 5, 7), out),
    ("forwarded 0 into 268435455 1", forward(268435455, 1, 0), out),
    ("forwarded 0 into 134217728", forward(134217728, 0), out),
    ("forwarded 134217728 into 0", forward(0, 134217728), out),
    ("forwarded 1 again into 1 3", forward(1, 3) + forward(1, time=5), whole),
    ("a resend at its timeout", SENT + resend(60, 50, 100), rows),
    ("a resend one below its timeout", SENT + resend(59, 50, 100), rows),
    ("a second resend at its timeout", MARKED + resend(110, 50, 200), rows),
    ("a second resend one below its timeout", MARKED + resend(109, 50, 200), rows),
    ("given up at its age", SENT + resend(110, 50, 100), rows),
    ("one below its age", SENT + resend(109, 50, 100), rows),
    ("one of two given up", SENT + send(60, 21) + resend(110, 50, 100), rows),
    ("forwarded packets are not sent again", forward(1, 2) + resend(60, 50, 100), rows),
    ("handles held by 3 forwarded and 0 sent", forward(3) + send(0, 20) + HOLDS, holds(20, 0)),
    ("a sent packet at the latest time", None, None),
    ("a sent packet after the latest time", None, None),
    ("an entry past the count", None, None),
    ("64 acks", WHOLE_ACKS, acks),
    ("a 65th ack", WHOLE_ACKS + packet(64, 64), acks),
    ("the same number twice", receive(5, 5), acks),
    ("forwarded ack 7 on 4 7 9 6", QUEUE + forwarded("ack 7"), acks),
    ("forwarded ack 6 on 4 7 9 6", QUEUE + forwarded("ack 6"), acks),
    ("forwarded ack 5 on 4 7 9 6", QUEUE + forwarded("ack 5"), acks),
    ("forwarded acks 4 9 on 4 7 9 6", QUEUE + forwarded("ack 4 ack 9"), acks),
    ("forwarded cumulative 5 on 3 5 7 4 5", receive(3, 5, 7, 4, 5) + forwarded("cum 5"), acks),
    ("forwarded cumulative 0 across the wrap", receive(268435454, 1, 268435455, 0) + forwarded("cum 0"), acks),
    ("forwarded cumulative 0 on 134217728 134217729", receive(134217728, 134217729) + forwarded("cum 0"), acks),
    ("written 5 5 on 5 5 6", receive(5, 5, 6) + ["wrote 7 on 5 5"], taken),
    ("written 5 5 on 5 6", None, None),
    ("written 5 7 on 5 6", None, None),
    ("written 6 4 on 4 5 6 4", None, None),
    ("acks 4 7", None, None),
    ("an ack that is no legal number", None, None),
    ("an ack queue of 65", None, None),
]

FOUR = [line for n in (10, 20, 30, 40) for line in part(n, n, n + 1, n)]
SIXTEEN = bare(*range(16))
AGED = part(10, 10, 12, 20, 5)
RENEWED = AGED + part(11, 10, 12, 21, 10005)
TWO_WHOLE = parts(0, 31) + parts(32, 63)

GROUP_SCENES = [
    ("a packet without a range", bare(20), fragments),
    ("12 of the range 10 to 12", part(12, 10, 12, 22, 5), fragments),
    ("10 after 12 of the range 10 to 12", part(12, 10, 12, 22, 5) + part(10, 10, 12, 20, 6), fragments),
    (
        "11 after 12 and 10 of the range 10 to 12",
        part(12, 10, 12, 22, 5) + part(10, 10, 12, 20, 6) + part(11, 10, 12, 21, 7),
        fragments,
    ),
    ("0 of the range 268435455 to 1", part(0, 268435455, 1, 20), fragments),
    (
        "all of the range 268435455 to 1",
        part(0, 268435455, 1, 20) + part(268435455, 268435455, 1, 19) + part(1, 268435455, 1, 21),
        fragments,
    ),
    ("a first fragment of a range of length 1", part(10, 10, 10, 20), fragments),
    ("a second copy in a range of length 1", part(10, 10, 10, 20) + part(10, 10, 10, 30, 1), fragments),
    ("a fragment twice", part(10, 10, 11, 20) + part(10, 10, 11, 30, 1), fragments),
    ("a fragment with another last", part(10, 10, 11, 20) + part(11, 10, 99, 21, 1), fragments),
    ("a group at 10000 ms", AGED + part(11, 10, 12, 21, 10005), fragments),
    ("a group at 10001 ms", AGED + part(11, 10, 12, 21, 10006), fragments),
    ("10000 ms after the update", RENEWED + part(12, 10, 12, 22, 20005), fragments),
    ("10001 ms after the update", RENEWED + part(12, 10, 12, 22, 20006), fragments),
    ("a fragment beyond its group", part(10, 10, 11, 20) + part(12, 10, 12, 22), fragments),
    ("a fragment beyond its group at 10001 ms", part(10, 10, 11, 20) + part(12, 10, 12, 22, 10001), fragments),
    ("a number outside its range", part(12, 10, 11, 22), fragments),
    ("a number outside its range of 33", part(43, 10, 42, 22), fragments),
    ("a number before its range", part(9, 10, 11, 22), fragments),
    ("4 groups", FOUR, fragments),
    ("a 5th group", FOUR + part(50, 50, 51, 50), fragments),
    ("a 5th group, the number outside its range", FOUR + part(52, 50, 51, 52), fragments),
    ("room freed by a full group", FOUR + part(11, 10, 11, 11) + part(50, 50, 51, 50), fragments),
    ("one of 32 places", part(0, 0, 31, 20), fragments),
    ("one of 33 places", part(0, 0, 32, 20), fragments),
    ("one of the range 5 to 4", None, None),
    ("16 bundles", SIXTEEN, fragments),
    ("a 17th bundle", SIXTEEN + bare(16), fragments),
    ("a 17th bundle once one is handed out", SIXTEEN + POP + bare(16), fragments),
    ("64 handles", TWO_WHOLE, fragments),
    ("a 65th handle", TWO_WHOLE + bare(64), fragments),
    (
        "a full group that finds 16 bundles",
        SIXTEEN + part(10, 10, 11, 20) + part(11, 10, 11, 21),
        fragments,
    ),
    ("beyond its group, with 16 bundles", SIXTEEN + part(10, 10, 11, 20) + part(12, 10, 11, 21), fragments),
    ("two bundles", parts(10, 12) + bare(20), fragments),
    ("the first of two handed out", parts(10, 12) + bare(20) + POP, fragments),
    ("both handed out", parts(10, 12) + bare(20) + POP * 2, fragments),
    ("nothing left to hand out", parts(10, 12) + bare(20) + POP * 3, fragments),
    (
        "handles of a bundle of 20 and a group of 21",
        bare(20) + part(10, 10, 11, 21) + ["holds 20", "holds 21", "holds 0"],
        holds(20, 21, 0),
    ),
    ("a group updated at the latest time", None, None),
    ("a group updated after the latest time", None, None),
    ("a handle of no bundle", None, None),
]

LATE = packet(3, 23) + packet(5, 25)
STOPPED = ranged(0, 3, 0, 1)
OTHER = ranged(0, 1, 0) + ranged(1, 2, 1)
TWO_RANGES = ranged(0, 31, *range(32)) + ranged(32, 63, *range(32, 64))

ARRIVAL_SCENES = [
    ("0 and 1 in order", packets(0, 2), arrival),
    ("0 again after 0 and 1", packets(0, 2) + packet(0, 30), arrival),
    ("3 into the buffer 1 5", packet(1, 21) + packet(5, 25) + packet(3, 23), arrival),
    ("1 into the buffer 3 5", LATE + packet(1, 21), arrival),
    ("7 into the buffer 3 5", LATE + packet(7, 27), arrival),
    ("3 again into the buffer 3 5", LATE + packet(3, 33), arrival),
    ("0 before the buffer 1 2 4", packets(1, 3) + packet(4, 4) + packet(0, 0), arrival),
    ("134217728 where 0 is expected", packet(134217728, 20), arrival),
    ("134217729 where 0 is expected", packet(134217729, 20), arrival),
    ("1 into the buffer 134217728", packet(134217728, 20) + packet(1, 21), arrival),
    ("32 buffered", packets(1, 33), arrival),
    ("a 33rd buffered", packets(1, 34), arrival),
    ("a repeat at 32 buffered", packets(1, 33) + packet(32, 99), arrival),
    ("32 contiguous of a range of 33", ranged(0, 32, *range(32)), arrival),
    ("33 contiguous that become one bundle", ranged(0, 32, *range(33)), arrival),
    ("33 contiguous of a range of 34", ranged(0, 33, *range(33)), arrival),
    ("0 to 2 of one range", ranged(0, 2, 0, 1, 2), arrival),
    ("0 after 2 and 1 of one range", ranged(0, 2, 2, 1, 0), arrival),
    ("a reliable range of length 1", ranged(0, 0, 0), arrival),
    ("a range of 2 and one packet", ranged(0, 1, 0, 1) + packet(2, 2), arrival),
    ("an incomplete front", STOPPED, arrival),
    ("an incomplete front with another behind it", STOPPED + packet(2, 2), arrival),
    ("an incoherent range", OTHER, arrival),
    ("a packet after an incoherent range", OTHER + packet(2, 2), arrival),
    ("a run with a bare packet", ranged(0, 1, 0) + packet(1, 1), arrival),
    ("a packet after a run with a bare packet", None, None),
    ("a wrong first", ranged(5, 6, 0), arrival),
    ("a packet after a wrong first", ranged(5, 6, 0) + packet(1, 1), arrival),
    ("268435455 where it is expected", None, None),
    ("the first of the range 268435455 to 0", None, None),
    ("both of the range 268435455 to 0", None, None),
    ("268435455 before the buffer 0", None, None),
    ("16 bundles from one filled gap", packets(1, 16) + packet(0, 0), arrival),
    ("17 bundles from one filled gap", packets(1, 17) + packet(0, 0), arrival),
    ("a 17th packet in order", packets(0, 17), arrival),
    ("64 handles in two bundles", TWO_RANGES, arrival),
    ("a 65th handle in order", TWO_RANGES + forwarded("cum 32") + packet(64, 64), arrival),
    (
        "handles of bundle 20, queue 1 and buffer 23",
        packet(0, 20) + ranged(1, 2, 1) + packet(3, 23) + ["holds 20", "holds 1", "holds 23", "holds 0"],
        holds(20, 1, 23, 0),
    ),
    ("a buffer 3 5 where 2 is expected", None, None),
    ("a buffer 3 5 where 3 is expected", None, None),
    ("a queue 0 1 where 2 is expected", None, None),
    ("a queue 0 1 where 3 is expected", None, None),
]

PROGRAMS = {"scenes": SCENES, "group_scenes": GROUP_SCENES, "arrival_scenes": ARRIVAL_SCENES}


# ---- the comparison


def file(program):
    return os.path.join(HERE, "..", "crates", program, "stdout")


def table():
    """The scenes of the table above: their kind, and line or limit."""
    cells = [line.strip("|").split(" | ") for line in __doc__.split("\n") if line.startswith("| ")][1:]
    return {name.strip(): (kind, last.strip(" |")) for name, kind, last in cells}


class Original:
    def __init__(self, path):
        self.path = path

    def play(self, script):
        """The answers, and the lists at the end; no lists where it panicked."""
        lines = ["new"] + script + ["dump"]
        run = subprocess.run([self.path], input="\n".join(lines) + "\n", capture_output=True, text=True, check=True)
        _, *answers, dump = run.stdout.splitlines()
        assert len(answers) == len(script), run.stdout
        return answers, None if dump == "panic" else Lists(dump)

    def granted(self, script):
        """The same, of a script that stays in the domain."""
        answers, lists = self.play(script)
        wrong = [a for a in answers if a.split(" ")[0] in ("bad", "unfit", "panic") or re.fullmatch(r"no \d+", a)]
        assert lists and not wrong and not lists.over(), (script, answers)
        return answers, lists


def line_of(original, name, script, show, kind, last):
    """What the scene's line must be after the colon."""
    if kind == "same":
        answers, lists = original.granted(script)
        return show(lists, answers)
    if kind.startswith("hand"):
        assert (script is not None) == (kind == "hand, panics"), name
        if script:
            original.granted(script[:-1])
            assert original.play(script)[1] is None, name
        return last
    answers, before = original.granted(script[:-1])
    after = original.play(script)[1]
    if kind == "no 10":
        assert after is None, name
    else:
        assert kind == "no 11" and after.over() == [last], (name, after.over())
    line = show(before, answers)
    return re.sub("^ok", kind, line) if line.startswith("ok") else line.replace("room yes", "room no")


def main():
    arguments = argparse.ArgumentParser(description=__doc__.split("\n")[0])
    arguments.add_argument("--oracle", type=runnable, help="the original, as oracle/build makes it")
    arguments.add_argument("--store", action="store_true", help="make the files anew")
    given = arguments.parse_args()
    original = given.oracle and Original(given.oracle)
    outside = table()
    counts, wrong = {}, 0
    for program, scenes in PROGRAMS.items():
        lines = []
        stored = [] if given.store else open(file(program)).read().splitlines()
        if not given.store and len(stored) != len(scenes):
            sys.exit(f"{file(program)}: {len(stored)} lines for {len(scenes)} scenes")
        for at, (name, script, show) in enumerate(scenes):
            kind, last = outside.pop(name, ("same", None))
            if original is None and kind != "hand":
                kind = "skipped"
            else:
                lines.append(f"{name}: {line_of(original, name, script, show, kind, last)}")
                if not given.store and stored[at] != lines[-1]:
                    wrong += 1
                    print(f"wrote:    {stored[at]}\nmust be:  {lines[-1]}")
            counts[kind] = counts.get(kind, 0) + 1
        if given.store:
            with open(file(program), "w") as to:
                to.write("".join(line + "\n" for line in lines))
    assert not outside, f"the table names what is no scene: {list(outside)}"
    said = ", ".join(f"{n} {kind}" for kind, n in counts.items())
    print(f"check/scenes.py: {sum(counts.values())} scenes ({said}), {wrong} wrong")
    sys.exit(1 if wrong else 0)


if __name__ == "__main__":
    main()
