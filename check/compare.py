#!/usr/bin/env python3
"""Compares the model of 01 (model.py) with the original Rust (oracle/build) on seeded random scripts (make.py).

    check/compare.py --oracle target/oracle/original --scripts 20000 --seed 1
    check/compare.py --oracle target/oracle/original --one 17       one script, shown with both answers
    check/compare.py --driver 'tools/run driver' --oracle target/oracle/original --scripts 2000
                                                                    the same for a driver program: the scripts' lines in the
                                                                    driver's own language are put to all three
    check/compare.py --stored                                       the stored scripts of check/scripts, on the model and on
                                                                    whatever else is named
    check/compare.py --oracle target/oracle/original --store        makes their answers anew

Every answer is compared, and every so often the whole state. A call that gets one of the port's own refusals, which the Rust
doesn't know, is withheld from the original, since it leaves nothing there but the latest time; of a delivery, the refused
record alone. Where the model says that the Rust would panic, it must, and that script is compared no further. Some scripts
end at the first of the port's own refusals instead: it is put to the original all the same, which must grant it (12, 13), panic
(10), do one of these (11), or also reject it (4, which is checked before the others).

A disagreement is cut down to a few lines and printed, and the run fails. It also fails if a rule, refusal or limit was never
reached.
"""

import argparse
import os
import shlex
import subprocess
import sys
import time
from collections import Counter
from concurrent.futures import ThreadPoolExecutor

sys.path.insert(0, os.path.dirname(os.path.abspath(__file__)))
import make
import model
from given import runnable
from model import Driver, cut, lines_of, view

ADDED = (2, 3, 4, 10, 11, 12, 13)
SCRIPTS = os.path.join(os.path.dirname(os.path.abspath(__file__)), "scripts")

class Play:
    """A script put to the model, and what of it is put to the original: lines, and the answers it must give to them. An expected
    answer is None (a held record, no answer), a text, or a tuple of the words that the answer may begin with."""

    def __init__(self, probe=False, wide=True):
        self.driver = Driver(wide)
        self.probe = probe
        self.asked = [(b"new", "new")]
        self.held = []
        self.over = False
        self.same_done = True
        self.answers = []
        # How often each rule was reached, and how often in a line that was put to the original as it stands.
        self.reached, self.compared = Counter(), Counter()

    def ask(self, line, expected):
        self.asked.append((line, expected))
        return len(self.asked) - 1

    def drop(self, at):
        if at is not None:
            self.asked[at] = None

    def line(self, line):
        model.MARKS.clear()
        answer = self.driver.line(line)
        if answer is not None:
            self.answers.append(answer)
        if not self.over and self.put(line, answer):
            self.compared.update(model.MARKS)
        self.reached.update(model.MARKS)
        return answer

    def end(self):
        """The last line, without its line feed."""
        model.MARKS.clear()
        self.answers.append(self.driver.unfinished())
        self.reached.update(model.MARKS)

    def put(self, line, answer):
        """True if the line is put to the original as it stands, and must be answered as the model answers it."""
        driver, command = self.driver, line.split(b" ")[0]
        if answer == "bad":
            if not driver.wide and command in make.WIDE:
                return False
            if command == b"in":
                self.held = []
        elif command == b"pig":
            # A malformed record can't be put to the original: its types have no such value.
            fits = not driver.held[-1].malformed()
            self.held.append(self.ask(line, None) if fits else None)
            return fits
        elif command == b"in":
            return self.delivery(line, answer)
        elif driver.refused_by in ADDED:
            self.probed(driver.refused_by, line)
            return False
        elif command == b"dump":
            answer = answer[: answer.rindex(" | time ")]
        elif command == b"resend":
            count, *channels = answer.split(" | ")
            answer = " | ".join([count] + sorted(channels, key=channel_order))
        elif command == b"new":
            self.held, self.same_done = [], True
        elif command == b"done" and not self.same_done:
            return False
        self.ask(line, answer)
        return True

    def delivery(self, line, answer):
        """Withholds the records that the port alone refused."""
        outcomes, held, self.held = self.driver.table.outcomes, self.held, []
        self.same_done = bool(outcomes) and outcomes[-1] not in ADDED
        if not outcomes:
            for at in held:
                self.drop(at)
            return False
        if self.driver.table.panics:
            self.over = True
        withheld = [number in ADDED for number in outcomes]
        if withheld[-1] and not any(withheld[:-1]) and not self.over and self.probed(outcomes[-1], line):
            return False
        for at, no in zip(held, withheld):
            if no:
                self.drop(at)
        if withheld[-1]:
            # The last record that is left takes the carrier's place.
            left = [(at, number) for at, number, no in zip(held, outcomes, withheld) if not no]
            if not left:
                return False
            at, number = left[-1]
            when, address = line.split(b" ")[1:3]
            text = self.asked[at][0].removeprefix(b"pig ")
            self.drop(at)
            line = b" ".join([b"in", when, address, text])
            answer = f"no {number}" if number else self.seen(address, text)
        self.ask(line, "panic" if self.over else answer)
        return not any(withheld) and not self.over

    def seen(self, address, text):
        key = model.Words(text).record().key(int(address))
        return view(self.driver.table.channels[key])

    def probed(self, number, line):
        """Puts a call that the port refuses to the original, as the last of this script. True if it did."""
        if not self.probe or number in (2, 3) or line.startswith(b"wrote "):
            return False
        if line.startswith(b"in "):
            record = model.Words(line.split(b" ", 3)[3]).record()
            if record.range and (record.range[1] - record.range[0]) % model.SIZE > 100_000:
                return False
        granted = ("ok", "bundle", "none", "sent", "rows")
        allowed = {10: ("panic",), 11: granted + ("panic",), 4: granted + ("panic", "no")}
        self.ask(line, allowed.get(number, granted))
        self.over = True
        self.reached[f"put to the original all the same: {number}"] += 1
        return True

    def script(self):
        return b"".join(entry[0] + b"\n" for entry in self.asked if entry)

    def expected(self):
        return [entry[1] for entry in self.asked if entry and entry[1] is not None]


def channel_order(text):
    """Sorts as the original's program does: off-channels first, by address and index."""
    kind, address, *index = text.split(":")[0].split(" ")
    return (kind == "on", int(address), 0 if index in ([], ["-"]) else int(index[0]))


def play(data, probe=False, wide=True):
    """A whole script, from its bytes."""
    played = Play(probe, wide)
    model.MARKS.clear()
    data = cut(data)
    played.reached.update(model.MARKS)
    for line, whole in lines_of(data):
        if whole:
            played.line(line)
        else:
            played.end()
    return played


def agree(expected, said):
    if isinstance(expected, tuple):
        return said.split(" ")[0] in expected
    return expected == said


def first_difference(expected, said):
    for k in range(max(len(expected), len(said))):
        if k >= len(expected) or k >= len(said) or not agree(expected[k], said[k]):
            return k
    return None


def run(program, data):
    """A program's answers to a script. An end that is not as it should be is an answer too."""
    done = subprocess.run(program, input=data, stdout=subprocess.PIPE, stderr=subprocess.PIPE)
    *lines, rest = done.stdout.decode("latin-1").split("\n")
    return lines + [f"{rest} (no line feed)"] * bool(rest) + [f"(exit code {done.returncode})"] * bool(done.returncode)


# ---- One script against the original, and its shrinking


def differs(oracle, played):
    """What the two say at the first difference, or None."""
    expected, said = played.expected(), run(oracle, played.script())
    k = first_difference(expected, said)
    if k is None:
        return None
    asked = [entry[0] for entry in played.asked if entry and entry[1] is not None]
    at = lambda list_: list_[k] if k < len(list_) else "(nothing)"
    return asked[k] if k < len(asked) else b"", at(expected), at(said)


def driver_differs(program, data, answers=None):
    """The same for a driver program, whose answers must be the model's."""
    answers = Driver().run(data).decode().split("\n")[:-1] if answers is None else answers
    said = run(program, data)
    k = first_difference(answers, said)
    if k is None:
        return None
    at = lambda list_: list_[k] if k < len(list_) else "(nothing)"
    return b"answer %d" % (k + 1), at(answers), at(said)


def shrunk(data, fails):
    """A shorter script that still fails: lines, then words go, then numbers shrink, until nothing more does."""
    whole = data.endswith(b"\n")
    lines = data.removesuffix(b"\n").split(b"\n")
    join = lambda parts: b"\n".join(parts) + (b"\n" if whole else b"")
    size = len(lines)
    while size:
        at = 0
        while at < len(lines) > size:
            fewer = lines[:at] + lines[at + size :]
            if fails(join(fewer)):
                lines = fewer
            else:
                at += size
        size //= 2
    for at in range(len(lines)):
        fails_with = lambda line: fails(join(lines[:at] + [line] + lines[at + 1 :]))
        while (line := next(filter(fails_with, simpler(lines[at])), None)) is not None:
            lines[at] = line
    less = join(lines)
    return less if less == data else shrunk(less, fails)


def simpler(line):
    """Lines with one to three words fewer, or with a smaller number."""
    words = line.split(b" ")
    for count in (3, 2, 1):
        for at in range(len(words) - count, 0, -1):
            yield b" ".join(words[:at] + words[at + count :])
    for at, word in enumerate(words):
        for small in (0, 1, 2, 7):
            if word.isdigit() and int(word) > small:
                yield b" ".join(words[:at] + [b"%d" % small] + words[at + 1 :])


def report(seed, name, data, found):
    """Prints a disagreement, cut down. `found` answers what differs in a script, or None."""
    print(f"DISAGREEMENT in script {seed} ({name}), cut down to:")
    data = shrunk(data, lambda d: found(d) is not None)
    line, expected, said = found(data)
    for text in data.split(b"\n")[: -1 if data.endswith(b"\n") else None]:
        print("   ", text.decode("latin-1"))
    print(f"  at: {line.decode('latin-1')}\n  model: {expected}\n  other: {said}", flush=True)


# ---- Many scripts


def probing(seed):
    return seed % 4 == 0


def made(seed):
    """The family, the script and its play. A script with a cut or unfinished end is played from its bytes."""
    played = Play(probing(seed))
    name, maker = make.make(seed, played)
    data = maker.script()
    if maker.tail or len(data) > model.INPUT:
        played = play(data, probing(seed))
    return name, data, played


def without_other_calls(data):
    """What of a script is in the driver's own language, and what is in none."""
    lines = data.split(b"\n")
    return b"\n".join(line for line in lines if line.split(b" ")[0] not in make.WIDE)


def compare(oracle, driver, first, count):
    """With a driver program the scripts are in its own language, and the original and the driver are both asked."""
    families, reached, compared, asked, answers, failures = Counter(), Counter(), Counter(), 0, Counter(), 0
    began = time.time()
    batch, runs = [], ThreadPoolExecutor(os.cpu_count())

    def replay(data, seed):
        return play(data, probing(seed), wide=not driver)

    def settle():
        nonlocal failures
        if oracle and batch:
            said = run(oracle, b"".join(played.script() for _, _, _, played, _ in batch))
            expected = [e for _, _, _, played, _ in batch for e in played.expected()]
            if first_difference(expected, said) is not None:
                failures += singly()
        for seed, name, data, _, driven in batch:
            if driven and driven.result():
                report(seed, name, data, lambda d: driver_differs(driver, d))
                failures += 1
        batch.clear()

    def singly():
        """A batch that differs, script by script."""
        found = 0
        for seed, name, data, _, _ in batch:
            differing = lambda d: differs(oracle, replay(d, seed))
            if differing(data):
                report(seed, name, data, differing)
                found += 1
        if not found:
            print(f"DISAGREEMENT between scripts {batch[0][0]} and {batch[-1][0]}, in none of them by itself")
        return max(1, found)

    for seed in range(first, first + count):
        name, data, played = made(seed)
        if driver:
            data = without_other_calls(data)
            played = replay(data, seed)
        families[name] += 1
        reached.update(played.reached)
        compared.update(played.compared)
        asked += sum(1 for entry in played.asked if entry)
        answers.update(" ".join(answer.split(" ")[: 2 if answer.startswith("no ") else 1]) for answer in played.answers)
        driven = runs.submit(driver_differs, driver, data, played.answers) if driver else None
        batch.append((seed, name, data, played, driven))
        if len(batch) == 200 or failures:
            settle()
        if failures >= 5:
            break
    settle()
    runs.shutdown()
    print(f"seeds {first} to {first + count - 1}: {sum(families.values())} scripts in {time.time() - began:.0f} s")
    print("families: " + ", ".join(f"{name} {families[name]}" for name in sorted(families)))
    if oracle:
        print(f"lines put to the original: {asked}")
    if driver:
        print(f"answers of the driver: {sum(answers.values())}: " + ", ".join(f"{n} {name}" for name, n in answers.most_common()))
    return failures, reached, compared


def coverage(reached, compared, oracle, driver):
    """Prints the counts. Answers the names of what was never reached, or never put to the original though it could be."""
    print("reached by the model, and so in a line that was put to the original:")
    wanted = [name for name in model.EXPECTED if not driver or not other(name)]
    missing = []
    for name in wanted + sorted(set(reached) - set(wanted)):
        print(f"  {reached[name]:9} {compared[name]:9}  {name}")
        if name in wanted and not (compared if oracle and not withheld(name) else reached)[name]:
            missing.append(name)
    return missing


def withheld(name):
    """Whether a rule is one that the original is never asked about."""
    if name.startswith("refusal: "):
        return int(name.split(" ")[-1]) in ADDED
    ours = "limit passed", "driver: last line", "driver: cut", "driver: ninth", "delivery: earlier one malformed"
    return name.startswith(ours + ("delivery: earlier one refused by the port", "grouping: no range"))


def other(name):
    """Whether a rule is one that only the other calls reach, or only on what they leave."""
    calls = "out:", "send:", "written:", "resends:", "find:", "prefix", "reset", "transfer", "held:"
    refusals = tuple("refusal: " + call for call in ("forwarded", "find", "next bundle 12", "send", "acks written", "resends"))
    left = "2 cumulative", "3 ack removes", "3 ack of a number", "4 observe", "limit reached: out", "limit passed: out"
    return name.startswith(calls + refusals + left)


# ---- Stored scripts


def stored(oracle, driver, store):
    """Replays check/scripts: the answers to NAME.txt must be those in NAME.out. A name that begins with `wide-` has lines of other
    calls, which are no driver's. With the original at hand it is asked too, but for what only the port refuses, and must agree."""
    failures = lines = asked = driven = 0
    names = sorted(name[:-4] for name in os.listdir(SCRIPTS) if name.endswith(".txt"))
    for name in names:
        path = os.path.join(SCRIPTS, name)
        with open(path + ".txt", "rb") as file:
            data = file.read()
        wide = name.startswith("wide-")
        played = play(data, wide=wide)
        answers = "".join(answer + "\n" for answer in played.answers)
        found = differs(oracle, played) if oracle else None
        found = found or (driver_differs(driver, data) if driver and not wide else None)
        if found:
            line, expected, said = found
            print(f"stored script {name}, at {line.decode('latin-1')}\n  model: {expected}\n  other: {said}")
        elif store:
            with open(path + ".out", "w") as file:
                file.write(answers)
        with open(path + ".out") as file:
            kept = file.read()
        if kept != answers:
            k = first_difference(kept.split("\n"), answers.split("\n"))
            print(f"stored script {name}: answer {k + 1} is not the model's")
        failures += bool(found) or kept != answers
        lines += len(played.answers)
        asked += len(played.expected()) - 1
        driven += 0 if wide else len(played.answers)
    others = [f"{asked} of them the original's"] * bool(oracle) + [f"{driven} of them the driver's"] * bool(driver)
    print(", ".join([f"stored scripts: {len(names)}, {lines} answers"] + others))
    return 1 if failures or not names else 0


def show(oracle, seed):
    name, data, played = made(seed)
    print(f"script {seed} ({name})")
    said = iter(run(oracle, played.script()) if oracle else [])
    for entry in played.asked:
        if entry:
            line, expected = entry
            print(line.decode("latin-1"))
            if expected is not None:
                print(f"    {expected}")
                answer = next(said, "(nothing)") if oracle else expected
                print(f"  ! {answer}\n" * (oracle is not None and not agree(expected, answer)), end="")


def main():
    words = argparse.ArgumentParser(description=__doc__.split("\n")[0])
    words.add_argument("--oracle", type=runnable, help="the program that oracle/build makes")
    words.add_argument("--driver", type=runnable, help="a driver program, with its words")
    words.add_argument("--scripts", type=int, default=1000)
    words.add_argument("--seed", type=int, default=1)
    words.add_argument("--one", type=int)
    words.add_argument("--stored", action="store_true")
    words.add_argument("--store", action="store_true")
    words.add_argument("--quiet", action="store_true", help="no list of counts")
    given = words.parse_args()
    oracle = given.oracle and [os.path.abspath(given.oracle)]
    driver = given.driver and shlex.split(given.driver)
    if given.one is not None:
        return show(oracle, given.one)
    if given.store and not oracle:
        return "--store needs the original, --oracle"
    if given.stored or given.store:
        return stored(oracle, driver, given.store)
    failures, reached, compared = compare(oracle, driver, given.seed, given.scripts)
    if failures:
        return 1
    if given.quiet:
        return 0
    missing = coverage(reached, compared, oracle, driver)
    if missing:
        print("NEVER REACHED: " + ", ".join(missing))
        return 1
    return 0


if __name__ == "__main__":
    sys.exit(main())
