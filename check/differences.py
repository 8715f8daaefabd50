#!/usr/bin/env python3
"""Runs the scripts of docs/DIFFERENCES.md: their answers must be the model's, and with the original at hand what the page says
of the Rust's answers must be the original's.

    check/differences.py [--oracle target/oracle/original]

A block of lines between ``` is a script, the next one its answers; a line "The Rust answers line N with `..`" belongs to the
script before it. In a table the columns `script`, `answer` and `the Rust` are read: an answer is the last line's, and what
stands in no ` ` is not read. "K = A to B" and "N times" after a line say how often it stands.
"""

import argparse
import os
import re
import sys

HERE = os.path.dirname(os.path.abspath(__file__))
sys.path.insert(0, HERE)
from compare import run
from given import runnable
from model import Driver

PAGE = os.path.join(HERE, "..", "docs", "DIFFERENCES.md")
OFTEN = re.compile(r"K = (\d+) to (\d+)|(\d+) times")


def spread(line, often):
    """The lines that a line stands for."""
    if not often:
        return [line]
    low, high, times = OFTEN.fullmatch(often).groups()
    if times:
        return [line] * int(times)
    return [re.sub(r"\bK\b", str(k), line) for k in range(int(low), int(high) + 1)]


def block(lines):
    """The lines of a block, each with how often it stands after two or more blanks."""
    return [one for line in lines for one in spread(*(re.split(r"  +", line) + [""])[:2])]


def cell(text):
    """The lines of a script in a table: `line`, how often; `line` .."""
    parts = re.findall(r"`([^`]*)`(?:, ([^;|]*))?", text)
    return [one for line, often in parts for one in spread(line, often.strip())]


def answer_in(text):
    found = re.match(r"`([^`]*)`", text)
    return found and found.group(1)


class Case:
    def __init__(self, script, answers=None, last=None):
        self.script, self.answers, self.last = script, answers, last
        # The Rust's answers: the number of a line, from 1, or None for the last.
        self.rust = []


def cases(text):
    """Every script of the page."""
    found, lines, at, columns = [], text.split("\n"), 0, None
    while at < len(lines):
        line = lines[at]
        if line == "```":
            end = lines.index("```", at + 1)
            body = block(lines[at + 1 : end])
            if found and found[-1].answers is None and found[-1].last is None:
                found[-1].answers = body
            else:
                found.append(Case(body))
            at = end
        for number, said in re.findall(r"The Rust answers line (\d+) with `([^`]*)`", line):
            found[-1].rust.append((int(number), said))
        if line.startswith("|"):
            cells = [c.strip() for c in line.strip("|").split(" | ")]
            if "script" in cells:
                columns = cells
            elif columns and not line.startswith("|---") and cells[columns.index("script")].startswith("`"):
                row = dict(zip(columns, cells))
                case = Case(cell(row["script"]), last=answer_in(row["answer"]))
                if answer_in(row["the Rust"]):
                    case.rust.append((None, answer_in(row["the Rust"])))
                found.append(case)
        else:
            columns = None
        at += 1
    return found


def main():
    words = argparse.ArgumentParser(description=__doc__.split("\n")[0])
    words.add_argument("--oracle", type=runnable, help="the program that oracle/build makes")
    given = words.parse_args()
    with open(PAGE) as file:
        found = cases(file.read())
    failures = asked = 0

    def hold(case, what, expected, said):
        nonlocal failures
        if expected != said:
            failures += 1
            print(f"docs/DIFFERENCES.md, script {case.script}:\n  the page: {expected}\n  {what}: {said}")

    for case in found:
        data = "".join(line + "\n" for line in case.script).encode()
        answers = Driver(wide=True).run(data).decode().split("\n")[:-1]
        if case.last is None:
            hold(case, "the model", case.answers, answers)
        else:
            hold(case, "the model", case.last, answers[-1])
        for number, expected in case.rust if given.oracle else []:
            said = run([os.path.abspath(given.oracle)], data)
            hold(case, "the original", expected, said[-1 if number is None else number - 1])
            asked += 1
    print(f"docs/DIFFERENCES.md: {len(found)} scripts" + (f", {asked} answers of the original" if given.oracle else ""))
    return 1 if failures or not found else 0


if __name__ == "__main__":
    sys.exit(main())
