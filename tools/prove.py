#!/usr/bin/env python3
"""Proves a program of crates.txt with the libraries below it and builds it.

usage: prove.py PROGRAM CPU TO     CPU is a level of x86-64, and TO the file that becomes the program
       prove.py --minutes [--check PAGE | --write PAGE]
           prints what a first build takes by tools/seconds.txt, compares it with the page or writes it there

It runs the gate on a copy of the libraries below the program, without tests and must-fail edits, in the order of
tools/chain_first.py: each is proved from nothing, or taken from what an earlier gate kept. Then it proves the program and
compiles it by LLVM alone; the gate also compiles it by a second compiler. A line of progress says which crate was proved,
how many are left, and about how long they take, by tools/seconds.txt and by how fast this run has been so far. RT_JOBS says
how many processors there are to use. With PROVE_ANEW=1 nothing is taken of what is kept, which is how to measure.
"""
import os
import re
import shutil
import signal
import subprocess
import sys
import tempfile
import time

import page
import rt_module

# The most processes that share a proof, what sharing costs, and the part that can't be shared; and how much longer several
# processors take than the least time, because crates wait for each other.
SHARERS, SHARING, ALONE, WAITING = 4, 1.65, 0.3, 1.2
ANEW = ["--anew"] if os.environ.get("PROVE_ANEW") == "1" else []
TOP = os.path.join(os.path.dirname(os.path.realpath(__file__)), "..")
PROVED = re.compile(r"rt: (\w+) (proved$|is kept: )")


def seconds_of_crates():
    """Returns the seconds of each crate that tools/seconds.txt names."""
    with open(f"{TOP}/tools/seconds.txt") as lines:
        rows = [line.split("#")[0].split() for line in lines]
    return {row[0]: int(row[1]) for row in rows if row}


def lines_of_crates():
    """Returns the line of crates.txt for each crate, and the repository's libraries that it names."""
    with open(f"{TOP}/crates.txt") as file:
        lines = [line.split("#")[0].strip() for line in file]
    lines = {line.split(":")[0].split()[0]: line for line in lines if line}
    return lines, {name: [it for it in line.partition(":")[2].split() if it in lines] for name, line in lines.items()}


def wanted(program, below):
    """Returns the program and each library that it reaches, lowest first."""
    found = []
    for name in below[program]:
        found += [it for it in wanted(name, below) if it not in found]
    return [*found, program]


def copy(names, to):
    """Makes a repository of these crates, or adds them to the one that is there."""
    lines = lines_of_crates()[0]
    for name in names:
        leave = lambda folder, found, at=f"{TOP}/crates/{name}": {"out", "must-fail"} & {*found} if folder == at else ()
        shutil.copytree(f"{TOP}/crates/{name}", f"{to}/crates/{name}", symlinks=True, ignore=leave)
    shutil.copy(f"{TOP}/HANDLES", to)
    with open(f"{to}/crates.txt", "a") as file:
        file.write("".join(f"{lines[it]}\n" for it in names))
    # (the top of a repository)
    os.makedirs(f"{to}/.git", exist_ok=True)


def processors():
    """Returns how many processors there are to use."""
    number = os.environ.get("RT_JOBS", "")
    return int(number) if number.isdigit() and int(number) else len(os.sched_getaffinity(0))


def about(seconds):
    minutes = seconds / 60
    return "less than a minute" if minutes < 1 else f"about {minutes:.0f} minute{'s' * (minutes >= 1.5)}"


def first_build():
    """Returns the lines of README on a first build."""
    four, one = (Clock(wanted("par2", lines_of_crates()[1]), processors).planned for processors in (4, 1))
    yield f"By the times of single crates it takes {about(four)} on four processors of a slow machine, {one / 60:.0f} on one."


class Clock:
    """What is left to prove, by the seconds of each crate and by how fast the run has been."""

    def __init__(self, names, processors):
        known, sharers = seconds_of_crates(), min(SHARERS, processors)
        self.seconds, self.below = {it: known.get(it, 30) for it in names}, lines_of_crates()[1]
        self.processors, self.start = processors, time.time()
        self.shared = ALONE + (1 - ALONE) * SHARING / sharers if sharers > 1 else 1
        self.planned = self.least()

    def least(self):
        """Returns about the seconds until nothing is left: those of the work or of the longest chain, and of waiting."""
        chains = {}
        for name in self.seconds:
            chains[name] = self.seconds[name] + max((chains[it] for it in self.below[name] if it in chains), default=0)
        least = max(sum(self.seconds.values()) / self.processors, self.shared * max(chains.values(), default=0))
        return least * (WAITING if self.processors > 1 else 1)

    def ends(self, name, is_kept):
        """Notes that a crate is proved. One that was kept says nothing of how fast the run is."""
        before = self.least()
        self.seconds.pop(name, None)
        if is_kept:
            self.planned -= before - self.least()

    def words(self):
        """Says how many crates are left and about how long they take."""
        least, spent = self.least(), time.time() - self.start
        slower = spent / max(self.planned - least, 1) if spent > 20 else 1
        return f"{len(self.seconds)} left, {about(least * min(max(slower, 0.2), 5))}"


def what_failed(log):
    """Returns what the gate printed of the crates that are not proved, and its own lines."""
    parts = re.split(r"(?m)^(?=== )", log)
    kept = [part if "NOT PROVED" in part else "" for part in parts[1:]]
    own = [line for line in log.split("\n") if line.startswith("rt: ") and not line.endswith(" proved")]
    return "".join(kept) + "\n".join(own)


def gate(folder, clock):
    """Runs the gate in the folder and prints each crate that it proves. Stops with what failed, if anything does."""
    said, how = [], {"stdout": subprocess.PIPE, "stderr": subprocess.STDOUT, "text": True, "errors": "replace"}
    words = [sys.executable, f"{TOP}/tools/chain_first.py", *ANEW]
    with subprocess.Popen(words, cwd=folder, **how) as ran:
        signal.signal(signal.SIGTERM, lambda *_: ran.terminate())
        for line in ran.stdout:
            said.append(line)
            if proved := PROVED.match(line):
                clock.ends(proved[1], proved[2] != "proved")
                print(f"  {proved[1]} is proved{f'; {clock.words()}' if clock.seconds else ''}", flush=True)
    if ran.returncode:
        sys.exit(what_failed("".join(said)))


def main(program, cpu, to):
    if program not in lines_of_crates()[0]:
        sys.exit(f"crates.txt names no crate {program}")
    names = wanted(program, lines_of_crates()[1])
    with tempfile.TemporaryDirectory(prefix="par2-build-") as folder:
        copy(names[:-1], folder)
        clock = Clock(names, processors())
        few = f"{len(names)} crates on {clock.processors} processor{'s' * (clock.processors > 1)}"
        print(f"{few}: {about(clock.planned)} on a slow machine.")
        print("The first crate's time says how long it takes on this one.", flush=True)
        gate(folder, clock)
        copy([program], folder)
        made = rt_module.built_for(folder, program, cpu, min(SHARERS, clock.processors)) or sys.exit(1)
        os.makedirs(os.path.dirname(os.path.abspath(to)), exist_ok=True)
        shutil.copy(made, f"{to}.new")
        os.replace(f"{to}.new", to)


if __name__ == "__main__":
    if sys.argv[1:2] == ["--minutes"]:
        sys.exit(page.settle(sys.argv[2:], "first_build", list(first_build())))
    if len(sys.argv) != 4:
        sys.exit("usage: prove.py PROGRAM CPU TO")
    main(*sys.argv[1:])
