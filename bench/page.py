#!/usr/bin/env python3
"""Writes the figures of docs/ratios.txt and docs/growth.txt, as `make bench` left them, into docs/PERFORMANCE.md and
README.md, or compares.

usage: page.py --write | --check
"""
import os
import re
import sys
import textwrap

TOP = os.path.join(os.path.dirname(os.path.realpath(__file__)), "..")
sys.path.insert(0, f"{TOP}/tools")
import page  # noqa: E402

# The scene that README names.
HEADLINE = "create: 128 MiB in one file, 3,277 slices of 4 KiB"
HEADING = re.compile(r"# (.*\d), ([^,]+), (x86-64-v\d), (.+), par2cmdline version (\S+)")


def table(name):
    """Returns the first line of a table of docs/, and its rows."""
    with open(f"{TOP}/docs/{name}.txt", encoding="utf8") as file:
        lines = file.read().splitlines()
    heading = HEADING.fullmatch(lines[0]) or sys.exit(f"docs/{name}.txt: its first line")
    return heading.groups(), [line.split("\t") for line in lines if not line.startswith("#")]


def time_of(text):
    """Returns milliseconds as a page has them."""
    if text == "-":
        return ""
    number = float(text)
    return f"{number:.2g} ms" if number < 99.5 else f"{number / 1000:.3g} s" if number < 999500 else f"{number / 1000:.0f} s"


def whole_commands():
    """Returns the lines of the table of whole commands."""
    (day, machine, target, commit, version), rows = table("ratios")
    yield from textwrap.wrap(
        f"Beside par2cmdline {version} on one thread (`-t1 -T1`), the least of several runs, in a folder without a history. "
        f"Measured {day} on one core of {machine}, {target}, {commit}.", 120)
    yield ""
    yield "| Scene | Ours | Theirs | Ratio | at v3 | What bounds it |"
    yield "|---|---|---|---|---|---|"
    for ratio, ours, theirs, scene, bound, wide in rows:
        cells = [scene, time_of(ours), time_of(theirs), ratio.strip("-"), wide.strip("-"), bound]
        yield f"| {' | '.join(cells)} |".replace("|  |", "| |").replace("|  |", "| |")


def growth():
    """Returns the lines on how times grow."""
    (day, machine, target, commit, _), rows = table("growth")
    names = {"a create": 2, "a verify": 4, "a repair of as many lost slices": 6}
    said = []
    for name, at in names.items():
        times = [float(after[at]) / float(before[at]) for before, after in zip(rows, rows[1:])
                 if int(after[0]) == 2 * int(before[0])]
        said.append(f"{name} takes {min(times):.1f} to {max(times):.1f} times as long")
    slices, count = (f"{int(it):,}" for it in rows[-1][:2])
    largest = ", ".join(f"{name.split()[1]} {time_of(rows[-1][at])}" for name, at in names.items())
    yield from textwrap.wrap(
        f"Twice the slices with twice the recovery slices: {', '.join(said)}. {slices} slices of 4 KiB with {count} recovery "
        f"slices: {largest} ({day}, {machine}, {target}, {commit}).", 120)


def headline():
    """Returns the line of README."""
    for _, ours, theirs, scene, *_ in table("ratios")[1]:
        if scene == HEADLINE:
            yield f"A create of 3,277 recovery slices over 128 MiB takes {time_of(ours)}; par2cmdline takes {time_of(theirs)} on one thread."
            return
    sys.exit(f"docs/ratios.txt has no row {HEADLINE}")


def main(words):
    parts = [("docs/PERFORMANCE.md", "ratios", whole_commands), ("docs/PERFORMANCE.md", "growth", growth),
             ("README.md", "speed", headline)]
    if words not in (["--write"], ["--check"]):
        sys.exit(__doc__)
    return max([page.settle([*words, f"{TOP}/{path}"], name, list(lines())) for path, name, lines in parts])


if __name__ == "__main__":
    sys.exit(main(sys.argv[1:]))
