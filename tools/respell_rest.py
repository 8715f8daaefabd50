#!/usr/bin/env python3
"""What tools/respell.py left: nine definitions, and the name of a time in definitions and lemmas, that share their word with a function.

usage: respell_rest.py [ROOT]      ROOT: the repository's top (default: this folder)

It changes .antt, .edit and .rt below crates/, and the names in backquotes on the pages. Functions of src/ keep their names, and lemmas of
proofs/ that had a new name already get NAME_lem.
"""
import os
import re
import sys

NAMES = {f"with{w}": f"with_{w.lower()}" for w in "On Reliable Acks Prefix Index Range Cumulative Handle Ack".split()}
NAMES["giveUp"] = "give_up"
# a lemma beside which its definition now stands, and the only file that has it
ROOM = {"crates/kept/proofs/Channel.antt": {"with_reliable": "with_reliable_lem"}}

root = sys.argv[1] if len(sys.argv) > 1 else "."
WORD = re.compile(r"(?<![\w-])[A-Za-z][\w']*(?:-[\w']+)*")


def turned(text, names):
    return WORD.sub(lambda m: names.get(m[0], m[0]), text)


changed = 0
for folder, folders, files in os.walk(os.path.join(root, "crates")):
    if os.path.dirname(folder) == os.path.join(root, "crates"):
        folders[:] = [it for it in folders if it != "out"]
    for file in files:
        path = os.path.join(folder, file)
        if file.endswith((".antt", ".edit", ".rt")):
            old = open(path, encoding="utf-8").read()
            new = turned(turned(old, ROOM.get(os.path.relpath(path, root), {})), NAMES)
            if new != old:
                open(path, "w", encoding="utf-8").write(new)
                changed += 1
for folder in ("docs", "."):
    for file in sorted(os.listdir(os.path.join(root, folder))):
        path = os.path.join(root, folder, file)
        if file.endswith(".md") and os.path.isfile(path):
            old = open(path, encoding="utf-8").read()
            new = re.sub(r"`[^`\n]+`", lambda m: turned(m[0], NAMES), old)
            if new != old:
                open(path, "w", encoding="utf-8").write(new)
                changed += 1
print(f"respell_rest: {len(NAMES)} names, {changed} files changed")
