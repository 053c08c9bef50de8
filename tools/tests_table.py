#!/usr/bin/env python3
"""Gathers the first sentence of each test's description, as the table of docs/CHANGING.md.

usage: tests_table.py [--check PAGE | --write PAGE]     compares it with the page, or writes it there
"""
import glob
import os
import re
import sys

import page

TOP = os.path.join(os.path.dirname(os.path.realpath(__file__)), "..")
SOURCES = ["checks/*", "crates/*_tests/src/lib.rt", "crates/*_tests/src/main.rt", "crates/run_rows/src/main.rt",
           "tests/commands/run.py", "tests/*.py", "tests/*.sh"]
# (what runs the others, and what they share)
LEFT_OUT = {"tests/run.sh", "tests/equal_recovery.py", "tests/formats.py"}


def first_sentence(path):
    """Returns the first sentence of a file's own description, without what follows a colon."""
    with open(f"{TOP}/{path}", encoding="utf8") as file:
        lines = file.read().split("\n")
    if path.endswith(".py"):
        text = re.search(r'"""(.*?)"""', "\n".join(lines), re.S)[1].split("\n\n")[0].split("\n")
    else:
        mark = "//!" if path.endswith(".rt") else "#"
        begin = next(i for i, line in enumerate(lines) if line.startswith(mark) and not line.startswith("#!"))
        end = next(i for i in range(begin, len(lines)) if not lines[i].startswith(mark))
        text = [line[len(mark):] for line in lines[begin:end]]
    return re.match(r".*?[^.](?=[.:]( |$)|$)", " ".join(line.strip() for line in text).strip())[0]


def rows():
    yield from ["| Where | What it does |", "|---|---|"]
    paths = [os.path.relpath(it, TOP) for pattern in SOURCES for it in sorted(glob.glob(f"{TOP}/{pattern}"))]
    for path in paths:
        if path not in LEFT_OUT and os.path.isfile(f"{TOP}/{path}"):
            name = path.split("/src/")[0]
            yield f"| `{name}` | {first_sentence(path)} |"


if __name__ == "__main__":
    sys.exit(page.settle(sys.argv[1:], "tests", list(rows())))
