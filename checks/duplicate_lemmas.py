#!/usr/bin/env python3
"""No lemma of crates/*/proofs is proved twice. Lists those whose statements differ only in the names of variables.

usage: duplicate_lemmas.py

A lemma is proved once: in the lowest crate that needs it, or in par2_spec if crates beside each other need it. Lemmas of
the toolchain's library are found by `rt lemma`, not by this. The status is 1 if something is proved twice.
"""
import collections
import pathlib
import re
import sys

# Shorter statements say too little to be compared.
SHORTEST = 25
TOKEN = re.compile(r"[^\s(){}\[\],;]+|[(){}\[\],;]")
LEMMA = re.compile(r"(\s*)(?:pub )?([A-Za-z_]\S*) : (.*)$")
BINDER = re.compile(r"[({]([^(){}:]+) : |λ ([^.]+)\.")
# A statement without any of these is a definition, or the answer to a goal.
IS_STATEMENT = re.compile(r"≡|≤|<|⊎|×|IsTrue|\bT\b|All|⊥")


def lemmas(lines):
    """Returns the lemmas of a file, each with its line, its name and its statement."""
    for number, line in enumerate(lines):
        found = LEMMA.match(line)
        if not found:
            continue
        margin, name, statement = found.groups()
        behind = number + 1
        while behind < len(lines) and is_more(lines[behind], margin):
            statement += " " + lines[behind].strip()
            behind += 1
        while behind < len(lines) and lines[behind].strip().startswith("unfolding"):
            behind += 1
        if behind < len(lines) and lines[behind].strip().startswith(name):
            yield number + 1, name, statement


def is_more(line, margin):
    """Returns whether a line continues a statement that begins at the margin."""
    return line.startswith(margin + " ") and not re.match(r"\s*(where\b|unfolding\b|$)", line)


def with_plain_names(statement):
    """Returns the statement with numbers as the names of its variables."""
    names = {}
    for found in BINDER.finditer(statement):
        for name in (found[1] or found[2]).split():
            names.setdefault(name.strip("()"), f"v{len(names)}")
    return " ".join(names.get(it.rstrip("."), it) for it in TOKEN.findall(statement))


def main():
    places = collections.defaultdict(list)
    for path in sorted(pathlib.Path("crates").glob("*/proofs/**/*.antt")):
        for number, name, statement in lemmas(path.read_text().split("\n")):
            plain = with_plain_names(statement)
            if len(plain) > SHORTEST and IS_STATEMENT.search(plain) and not plain.startswith("goal."):
                places[plain].append(f"{path}:{number} {name}")
    twice = [it for it in places.values() if len(it) > 1]
    for group in twice:
        print(*group, sep="\n", end="\n\n")
    print(f"{len(twice)} statements stand twice")
    return 1 if twice else 0


sys.exit(main())
