#!/usr/bin/env python3
"""Tries the comparison itself: models that are wrong on purpose (wrong.txt), each of which the scripts must catch.

    check/wrong.py --oracle target/oracle/original

An edit of the Rust's own rules must be caught by the original. One of what the port adds, which the original does not know,
must answer some script otherwise than the model, as a driver or a host with that mistake would. Without the original only
the second kind is tried.
"""

import argparse
import importlib
import os
import sys
import types

HERE = os.path.dirname(os.path.abspath(__file__))
sys.path.insert(0, HERE)
from given import runnable


def read(name):
    with open(os.path.join(HERE, name)) as file:
        return file.read()


def edits(right, limits):
    """Whose rule it is, what is wrong, and the wrong text of model.py."""
    for part in read("wrong.txt").split("\n\n")[1:]:
        head, *lines = part.strip("\n").split("\n")
        owner, what = head.removeprefix("# ").split(": ", 1)
        old = "".join(line[1:] + "\n" for line in lines if line[0] in " -")
        new = "".join(line[1:] + "\n" for line in lines if line[0] in " +")
        yield owner, what, replaced(right, what, old, new)
    for name, limit in limits.items():
        for wrong in (limit - 1, limit + 1):
            what = f"room for {wrong} {name}"
            yield "port", what, replaced(right, what, f'    "{name}": {limit},\n', f'    "{name}": {wrong},\n')


def replaced(right, what, old, new):
    count = right.count("\n" + old)
    if count != 1:
        sys.exit(f"check/wrong.txt: {what}: its lines stand {count} times in model.py")
    return right.replace("\n" + old, "\n" + new)


def load(source):
    """The model with this text, and the comparison over it."""
    changed = types.ModuleType("model")
    exec(compile(source, "model.py", "exec"), changed.__dict__)
    sys.modules["model"] = changed
    for name in ("make", "compare"):
        sys.modules.pop(name, None)
    return importlib.import_module("compare")


def answers(compare, data):
    """The model's answers. A wrong one may fail its own check instead, which is another answer too."""
    try:
        return compare.Driver(wide=True).run(data)
    except AssertionError:
        return None


def caught_by_model(wrong, data, right):
    return answers(wrong, data) != right


def caught_by_original(wrong, oracle, seed, data, right):
    """Whether the wrong model expects of the original what the right one doesn't, and is not answered so."""
    try:
        played = wrong.play(data, wrong.probing(seed))
    except AssertionError:
        return False
    expected, script = played.expected(), played.script()
    return (expected, script) != right and wrong.first_difference(expected, wrong.run(oracle, script)) is not None


def main():
    words = argparse.ArgumentParser(description=__doc__.split("\n")[0])
    words.add_argument("--oracle", type=runnable, help="the program that oracle/build makes")
    words.add_argument("--scripts", type=int, default=800)
    words.add_argument("--list", action="store_true", help="prints where each was caught")
    given = words.parse_args()
    oracle = given.oracle and [os.path.abspath(given.oracle)]
    source = read("model.py")
    right = load(source)
    scripts, said, expected = {}, {}, {}
    for seed in range(1, given.scripts + 1):
        scripts[seed] = right.made(seed)[1]
        said[seed] = answers(right, scripts[seed])
        if oracle:
            played = right.play(scripts[seed], right.probing(seed))
            expected[seed] = (played.expected(), played.script())
    order, tried, missed = list(scripts), 0, 0
    for owner, what, text in edits(source, right.model.LIMITS):
        if owner == "rust" and not oracle:
            continue
        wrong = load(text)
        for seed in order:
            data = scripts[seed]
            if owner == "rust":
                caught = caught_by_original(wrong, oracle, seed, data, expected[seed])
            else:
                caught = caught_by_model(wrong, data, said[seed])
            if caught:
                # A script that caught one mistake is tried first on the next.
                order.remove(seed)
                order.insert(0, seed)
                break
        tried += 1
        missed += not caught
        if given.list or not caught:
            print(f"  {f'caught by script {seed}' if caught else 'NOT CAUGHT'}: {what}", flush=True)
    print(f"wrong models caught: {tried - missed} of {tried}")
    return 1 if missed else 0


if __name__ == "__main__":
    sys.exit(main())
