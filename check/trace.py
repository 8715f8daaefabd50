#!/usr/bin/env python3
"""Tells whether docs/TRACE.md and docs/PROMISES.md name what is there: every path, every name in its file, every must-fail edit.

In a table's cell a path in backquotes is followed by names that must stand in that file, up to the next path. A path stands below
crates/ or at the top; in a row that begins with a crate's name it may stand in that crate. CRATE/EDIT names a must-fail edit.
"""

import os
import re
import sys

TOP = os.path.dirname(os.path.dirname(os.path.abspath(__file__)))
PAGES = ("docs/TRACE.md", "docs/PROMISES.md")
PATH = re.compile(r"[\w.-]+(/[\w.-]+)+/?")
NAME = re.compile(r"(?:\w+::)?([A-Za-z][\w'-]*)")


def found(words, crate):
    """The file or folder that a path names, or None."""
    at = [os.path.join(TOP, "crates", words), os.path.join(TOP, words)]
    if crate:
        at.append(os.path.join(TOP, "crates", crate, words))
    owner, _, edit = words.partition("/")
    at.append(os.path.join(TOP, "crates", owner, "must-fail", edit + ".edit"))
    return next((path for path in at if os.path.exists(path)), None)


def stands(name, path):
    with open(path, encoding="utf-8") as file:
        return re.search(rf"(?<![\w-]){re.escape(name)}(?![\w-])", file.read())


def wrong(row):
    """What a row names and is not there."""
    cells = row.strip().strip("|").split("|")
    first = re.match(r"\s*`(\w+)`", cells[0])
    crate = first[1] if first and os.path.isdir(os.path.join(TOP, "crates", first[1])) else None
    for cell in cells:
        path = None
        for words in re.findall(r"`([^`]+)`", cell):
            if PATH.fullmatch(words):
                path = found(words, crate)
                if path is None:
                    yield f"no {words}"
            elif path and os.path.isfile(path) and not path.endswith(".edit") and (name := NAME.fullmatch(words)) and not words.endswith("_"):
                if not stands(name[1], path):
                    yield f"no {words} in {os.path.relpath(path, TOP)}"


def main():
    rows = mistakes = 0
    for page in PAGES:
        with open(os.path.join(TOP, page), encoding="utf-8") as file:
            for number, row in enumerate(file, 1):
                if row.startswith("|"):
                    rows += 1
                    for what in wrong(row):
                        mistakes += 1
                        print(f"{page}:{number}: {what}")
    print(f"trace: {rows} rows of {' and '.join(PAGES)}, {mistakes} mistakes")
    return mistakes > 0 or rows == 0


if __name__ == "__main__":
    sys.exit(main())
