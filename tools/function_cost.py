#!/usr/bin/env python3
"""Proves a crate from nothing over the libraries that earlier checks left, and prints where the time goes: the seconds
of each function, and of each file of definitions or lemmas, the slowest first.

usage: function_cost.py [--tests] [--most N] CRATE      (N: how many lines, 40 unless said; --tests: the crate's tests)

The check keeps a file for each module in a folder that was empty before. The difference of the times of two files in a
row is taken for the time of the later module. A function has some ten modules: its borrows (Lts), the proofs of its
goals (Proof, Answers), and what joins these (Tie) are the slow ones. Reading a library is counted for the function that
first uses it, so check a slow function by itself (`rt check --only`) before you split it.
"""
import collections
import os
import subprocess
import sys
import tempfile

import rt_module

KINDS = ["Lts", "Proof", "Answers", "Tie", "Kinds", "Goals", "Code", "Statement", "Met", "Symbol", "Invariants"]


def checked(rt, crate, tests, kept):
    """Checks the crate, or its tests, with one job and returns how that ended."""
    words = crate.words(["--jobs", "1"], tests=tests, keeps=False)
    command = [*rt.rtlib.guarded(), rt.rtlib.RATTLE, "check", *words, "--incremental", kept]
    return subprocess.run(command, cwd=crate.folder, stdin=subprocess.DEVNULL, capture_output=True, text=True)


def modules(kept):
    """Returns each module that a check has kept, in the order of their times, with the time in seconds."""
    found = []
    for at, _, names in os.walk(kept):
        paths = [os.path.join(at, name) for name in names if name.endswith(".oantt")]
        found += [(os.stat(path).st_mtime_ns / 1e9, os.path.basename(path).removesuffix(".oantt")) for path in paths]
    return sorted(found)


def weights(found):
    """Returns the seconds of each function or file, and those of each kind of module."""
    of_function, of_kind = collections.Counter(), collections.Counter()
    for (before, _), (after, name) in zip(found, found[1:]):
        parts = [part for part in name.split(".") if part != "decls"]
        kind = parts.pop() if parts[-1] in KINDS else "others"
        of_function[".".join(parts).removeprefix("Rattle-")] += after - before
        of_kind[kind] += after - before
    return of_function, of_kind


def main(words):
    if not words:
        print(__doc__.strip())
        return 2
    tests = "--tests" in words
    most = int(words[words.index("--most") + 1]) if "--most" in words else 40
    rt = rt_module.loaded()
    crate = next((it for it in rt.rtlib.crates_below(os.getcwd()) if it.name == words[-1]), None)
    if not crate or any(it.build_rlib(["--jobs", "1"], anew=False) for it in crate.below()):
        return 2
    with tempfile.TemporaryDirectory() as kept:
        ran = checked(rt, crate, tests, kept)
        of_function, of_kind = weights(modules(kept))
    kinds = ", ".join(f"{it} {of_kind[it]:.0f}" for it in ["others", *KINDS[:4]])
    print(f"{crate.name}: {sum(of_function.values()):.0f} s; {kinds}")
    for name, seconds in of_function.most_common(most):
        print(f"{seconds:7.2f}  {name}")
    if ran.returncode:
        print("".join(ran.stdout.splitlines(keepends=True)[-5:]) + ran.stderr, end="")
    return ran.returncode


if __name__ == "__main__":
    os.chdir(os.path.join(os.path.dirname(os.path.abspath(__file__)), ".."))
    sys.exit(main(sys.argv[1:]))
