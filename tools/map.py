#!/usr/bin/env python3
"""Prints docs/map.dot with an arrow from each crate to those of crates.txt that it depends on, except where other arrows
imply it.

usage: map.py [--check]     --check says which crates have no place on the map, or are not there any more
"""
import os
import re
import sys

TOP = os.path.join(os.path.dirname(os.path.realpath(__file__)), "..")
LEGEND = {"face", "room"}


def libraries():
    """Returns the crates of this repository that each crate of the program and of the face names."""
    below = {}
    with open(f"{TOP}/crates.txt", encoding="utf8") as lines:
        for line in lines:
            name, _, names = line.split("#")[0].partition(":")
            if name.startswith("par2"):
                below[name] = [it for it in names.split() if it in below]
    return below


def reached(below, name):
    return {it for first in below[name] for it in {first, *reached(below, first)}}


def main(words):
    below = libraries()
    with open(f"{TOP}/docs/map.dot", encoding="utf8") as file:
        text = file.read()
    drawn = set(re.findall(r"^    (\w+) \[label", text, re.M)) - LEGEND
    if drawn != {*below}:
        print(f"docs/map.dot has other crates than crates.txt: {' '.join(sorted(drawn ^ {*below}))}", file=sys.stderr)
        return 1
    if words == ["--check"]:
        return 0
    arrows = [f"    {name} -> {it}\n" for name in below for it in below[name]
              if not any(it in reached(below, other) for other in below[name])]
    print(text.rstrip().removesuffix("}") + "\n" + "".join(arrows) + "}")
    return 0


if __name__ == "__main__":
    sys.exit(main(sys.argv[1:]))
