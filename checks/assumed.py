#!/usr/bin/env python3
"""Lists the C functions whose contracts the proof of the program assumes. A proof, a contract or linked code reaches them;
no axiom, hole or choice is among what it rests on.

usage: assumed.py [--check PAGE | --write PAGE]     compares the list with the page, or writes it there

The libraries below the program must be built, as the gate leaves them, or they are proved first. The program is proved
once more for the list, which takes a few minutes.
"""
import collections
import os
import re
import sys

import wrong_bodies

sys.path.insert(0, f"{wrong_bodies.TOP}/tools")
import page  # noqa: E402

PROGRAM = "par2"


def checked(rt, crate):
    """Returns what a check of the crate says of the functions that it assumes."""
    if not wrong_bodies.built([(crate, [])]):
        sys.exit("a library below the program is not proved")
    said = rt.checked(crate, {}, ["--jobs", "1", "--list-axioms"], None).stdout
    if "\nlogic=proved" not in said:
        sys.exit(f"{crate.name} is not proved:\n{said[-2000:]}")
    return said


def functions(said):
    """Returns the names of the functions by their crates, and compares their number with that of the verdict."""
    names = sorted(re.findall(r"^  (\S+) +reached$", said, re.M))
    count = int((re.findall(r"^logic=proved.* axioms=(\d+) ", said, re.M) or [0])[0])
    if count != len(names):
        sys.exit(f"the verdict rests on {count} functions, and {len(names)} are listed")
    return names


def assumed():
    """Returns the names of the functions."""
    rt = wrong_bodies.toolchain()
    crates = rt.rtlib.crates_below(os.getcwd())
    return functions(checked(rt, next(it for it in crates if it.name == PROGRAM)))


def rows(names):
    yield from ["| Crate | C functions |", "|---|---|"]
    by_crate = collections.defaultdict(list)
    for name in names:
        crate, _, rest = name.partition("::")
        by_crate[crate].append(f"`{rest}`")
    for crate, listed in by_crate.items():
        yield f"| `{crate}` | {', '.join(listed)} |"


if __name__ == "__main__":
    os.chdir(wrong_bodies.TOP)
    sys.exit(page.settle(sys.argv[1:], "assumed", list(rows(assumed()))))
