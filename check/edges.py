#!/usr/bin/env python3
"""Inputs at the driver's edges, with answers worked out by hand from 01 and docs/DECISIONS.md, put to the model and to a driver.

    check/edges.py --driver 'tools/run driver'
"""

import argparse
import os
import shlex
import sys

sys.path.insert(0, os.path.dirname(os.path.abspath(__file__)))
from compare import run
from given import runnable
from model import INPUT, Driver


def padded(size):
    """One readable `in` of so many bytes, its line feed included."""
    return b"in 0 " + b"7".rjust(size - len(b"in 0  0\n"), b"0") + b" 0\n"


def pops(count, where="7 off"):
    return f"pop {where}\n" * count


def bundles(*handles):
    return "".join(f"bundle 1 {handle}\n" for handle in handles)


PIGS = "".join(f"pig 0 pkt {k}\n" for k in range(1, 8))
BIG = range(4294967295, 4294967295 - 33, -1)
RUN = "".join(f"in 0 7 0 on rel seq {k} rng 0 32 pkt {h}\n" for k, h in enumerate(BIG))
RAN = "".join(f"ok on 7 - exp {k}\n" for k in range(1, 34))

# What is tried: the input, and all that must be written.
EDGES = {
    "no input": (b"", ""),
    "an empty line": (b"\n", "bad\n"),
    "three empty lines": (b"\n\n\n", "bad\n" * 3),
    "an `in` without its line feed": (b"in 0 7 0", "bad\n"),
    "a `pig` without its line feed": (b"pig 0", "bad\n"),
    "a blank without its line feed": (b"in 0 7 0\n ", "ok off 7\nbad\n"),
    "a line feed as byte 60,000": (padded(INPUT), "ok off 7\n"),
    "a line feed as byte 60,001": (padded(INPUT + 1), "bad\n"),
    "a line past byte 60,000": (padded(INPUT) + b"in 0 8 0\n", "ok off 7\n"),
    "a line about byte 60,000": (padded(INPUT - 4) + b"in 0 8 0\n", "ok off 7\nbad\n"),
    "60,000 empty lines": (b"\n" * INPUT, "bad\n" * INPUT),
    "70,000 empty lines": (b"\n" * 70_000, "bad\n" * INPUT),
    "60,000 bytes and no line feed": (b"\xff" * INPUT, "bad\n"),
    "every byte as a line": (b"".join(bytes([b, 10]) for b in range(256) if b != 10), "bad\n" * 255),
    "every byte behind a line": (
        b"".join(b"in 0 7 0%c\n" % b for b in range(256) if b != 10),
        "".join("ok off 7\n" if chr(b).isdigit() and b < 128 else "bad\n" for b in range(256) if b != 10),
    ),
    "a carriage return": (b"in 0 7 0\r\n", "bad\n"),
    "a tab": (b"in\t0 7 0\n", "bad\n"),
    "blanks": (b"in  0 7 0\n in 0 7 0\nin 0 7 0 \nin 0 7 0 on  rel\n", "bad\n" * 4),
    "no number": (b"in  7 0\nin 0 7\nin\npop 7\npop off\npop 7 idx\npig\nin 0 7 0 seq\nin 0 7 0 rng 1\n", "bad\n" * 9),
    "signs": (b"in -0 7 0\nin +0 7 0\nin 0 0x7 0\nin 0 7 0 seq 1_0\n", "bad\n" * 4),
    "words out of order": (b"in 0 7 0 rel on\nin 0 7 0 pkt 1 seq 0\nin 0 7 0 on on\nin 0 7 0 lrs 1 ack 1\n", "bad\n" * 4),
    "letters": (b"IN 0 7 0\nin 0 7 0 On\npop 7 offf\npop 7 o\n", "bad\n" * 4),
    "the largest numbers": (
        b"in 18446744073709551615 4294967295 4294967295 pkt 4294967295\n" + pops(2, "4294967295 off").encode(),
        "ok off 4294967295\n" + bundles(4294967295) + "none\n",
    ),
    "numbers that do not fit": (b"in 18446744073709551616 7 0\nin 0 4294967296 0\nin 0 7 4294967296\npop 4294967303 off\n", "bad\n" * 4),
    "a number that fits and is illegal": (b"in 0 7 0 seq 268435456\nin 0 7 0 seq 268435455\n", "no 2\nok off 7\n"),
    "leading zeros": (b"in 00000000000000000000000 0000000000007 00 seq 000 pkt 0021\npop 07 off\n", "ok off 7\nbundle 1 21\n"),
    "eight acks and nine": (f"in 0 7 0{' ack 1' * 8}\nin 0 7 0{' ack 1' * 9}\nin 0 7 0{' ack 1' * 9} ack x\n".encode(), "ok off 7\nno 2\nbad\n"),
    "seven held": ((PIGS + "in 0 7 0 pkt 8\n" + pops(9)).encode(), "ok off 7\n" + bundles(*range(1, 9)) + "none\n"),
    "eight held": ((PIGS + "pig 0 pkt 8\nin 0 7 0 pkt 9\nin 0 7 0 pkt 10\n" + pops(2)).encode(), "no 2\nok off 7\n" + bundles(10) + "none\n"),
    "nine held": ((PIGS + "pig 0\npig 0\nin 0 7 0 pkt 9\nin 0 7 0 pkt 10\n" + pops(2)).encode(), "no 2\nok off 7\n" + bundles(10) + "none\n"),
    "a held record that is malformed": (("pig 0 seq 268435456 pkt 1\nin 0 7 0 pkt 2\n" + pops(2)).encode(), "ok off 7\n" + bundles(2) + "none\n"),
    "a `bad` `in` uses held records up": (("pig 0 pkt 1\nin\nin 0 7 0 pkt 2\n" + pops(2)).encode(), "bad\nok off 7\n" + bundles(2) + "none\n"),
    "a refused `in` uses held records up": (
        ("pig 0 pkt 1\nin 0 7 0 seq 268435456\nin 0 7 0 pkt 2\n" + pops(2)).encode(),
        "no 2\nok off 7\n" + bundles(2) + "none\n",
    ),
    "`inn` keeps held records": (("pig 0 pkt 1\ninn 0 7 0\nin 0 7 0 pkt 2\n" + pops(3)).encode(), "bad\nok off 7\n" + bundles(1, 2) + "none\n"),
    "a `bad` `pig` keeps held records": (("pig 0 pkt 1\npig x\nin 0 7 0 pkt 2\n" + pops(3)).encode(), "bad\nok off 7\n" + bundles(1, 2) + "none\n"),
    "a `pop` keeps held records": (("pig 0 pkt 1\npop 7 off\nin 0 7 0 pkt 2\n" + pops(3)).encode(), "no 13\nok off 7\n" + bundles(1, 2) + "none\n"),
    "`pop` of index 0 and of no channel": (b"pop 7 idx 0\npop 7 idx 1\npop 7 on\npop 7 off\n", "no 2\nno 13\nno 13\nno 13\n"),
    "the longest bundle": ((RUN + pops(2, "7 on")).encode(), RAN + "bundle 33 " + " ".join(map(str, BIG)) + "\nnone\n"),
}


def main():
    words = argparse.ArgumentParser(description=__doc__.split("\n")[0])
    words.add_argument("--driver", type=runnable, help="a driver program, with its words")
    driver = shlex.split(words.parse_args().driver or "")
    failures = 0
    for name, (data, answers) in EDGES.items():
        sayings = {"the model": Driver().run(data).decode().split("\n")[:-1]} | ({"the driver": run(driver, data)} if driver else {})
        for who, said in sayings.items():
            if said != answers.split("\n")[:-1]:
                at = next((k for k, (a, b) in enumerate(zip(said, answers.split("\n"))) if a != b), min(len(said), answers.count("\n")))
                print(f"{name}: answer {at + 1} of {who} is not the one worked out: {' '.join(said[at : at + 1]) or '(nothing)'}")
                failures += 1
    print(f"edges: {len(EDGES)} inputs, {sum(answers.count(chr(10)) for _, answers in EDGES.values())} answers")
    return 1 if failures else 0


if __name__ == "__main__":
    sys.exit(main())
