#!/usr/bin/env python3
"""Says how long the gate takes on this machine, while it writes its log: after the first crate by that crate's time, and
after each further one by how fast the run has been.

usage: gate_clock.py LOG LANES     LANES is how many checks there are at a time

The seconds of a crate are those of tools/seconds.txt. The order is the gate's: what can begin, the longest chain first,
proofs and tests before must-fail edits. A crate that an earlier run kept takes no time. If its edits were not tried then,
this says too little, because the gate tells that only at its end.
"""
import glob
import os
import re
import sys
import time

from prove import TOP, lines_of_crates, seconds_of_crates

# What a must-fail edit takes, in proofs of its crate, and what follows the gate: rows, stops, cuts and the like, in seconds
# of one processor of the table's machine.
EDIT, AFTER = 1.35, 1200
LINE = re.compile(r"rt: (\w+)(: its tests are)? (proved|is kept)")


def tasks_of(seconds, below):
    """Returns each task of the gate: its seconds and the tasks that it waits for."""
    tasks = {}
    for name, names in below.items():
        takes, has_tests = seconds.get(name, 30), name.endswith("_tests")
        tasks[name, "proof"] = 10 if has_tests else takes, [(it, "proof") for it in names]
        both = [(name, "proof")]
        if has_tests:
            tasks[name, "tests"] = takes, [(it, "proof") for it in names]
            both.append((name, "tests"))
        for edit in glob.glob(f"{TOP}/crates/{name}/must-fail/*.edit"):
            tasks[name, edit] = EDIT * takes, both
    return tasks


def ends_of(tasks, lanes, kept):
    """Returns for each task the second at which it ends by the table, with as many at a time as there are lanes. Those of
    `kept` take no time."""
    seconds = {it: 0 if it in kept else tasks[it][0] for it in tasks}
    behind = dict(seconds)
    for it in reversed([*tasks]):
        for first in tasks[it][1]:
            behind[first] = max(behind[first], seconds[first] + behind[it])
    left = sorted((it for it in tasks if it not in kept), key=lambda it: (it[1] not in ("proof", "tests"), -behind[it]))
    ended, running, now = dict.fromkeys(kept, 0), [], 0
    while left or running:
        for it in [it for it in left if all(first in ended for first in tasks[it][1])]:
            if len(running) < lanes:
                left.remove(it)
                running.append((now + seconds[it], it))
        now, it = min(running)
        running.remove((now, it))
        ended[it] = now
    return ended


class Gate:
    """The tasks of a gate, what is done of them, and how fast that was."""

    def __init__(self, lanes):
        self.tasks = tasks_of(seconds_of_crates(), lines_of_crates()[1])
        self.lanes, self.done, self.kept, self.start = lanes, set(), set(), time.time()

    def bodies(self):
        """Returns the seconds of the edits' second check, beside what follows the gate."""
        return sum(self.tasks[it][0] for it in self.tasks if it[1] not in ("proof", "tests") and it not in self.kept)

    def ends(self, name, tests, how):
        """Notes a line of the log, and returns whether it was a proof of this run."""
        task = (name, "tests" if tests else "proof")
        if how == "is kept":
            self.kept |= {it for it in self.tasks if it[0] == name}
        else:
            self.done.add(task)
        return how == "proved" and not tests

    def minutes(self, now):
        """Returns about how many minutes are left at the second `now`: by the table, as many proofs as are done end at
        `there`, and the rest takes as much longer than by the table as these did."""
        ends = ends_of(self.tasks, self.lanes, self.kept)
        proofs = sorted(ends[it] for it in ends if it[1] in ("proof", "tests") and it not in self.kept)
        there = proofs[len(self.done - self.kept) - 1]
        after = max(AFTER, self.bodies() / max(self.lanes - 1, 1))
        return (max(ends.values()) - there + after) * (now - self.start) / there / 60

    def words(self):
        """Says how many crates are left and about how long they take."""
        left = sum(kind == "proof" and (name, kind) not in self.done | self.kept for name, kind in self.tasks)
        return f"{left} crates left to prove, about {max(self.minutes(time.time()), 1):.0f} minutes to the end"


def main(log, lanes):
    gate = Gate(int(lanes))
    print(f"The gate runs {lanes} checks at a time. It says how long it takes when the first crate is proved.", flush=True)
    with open(log, errors="replace") as lines:
        text = ""
        while True:
            text += lines.readline()
            if not text.endswith("\n"):
                time.sleep(1)
                continue
            found, text = LINE.match(text), ""
            if found and gate.ends(*found.groups()):
                print(f"  {found[1]} is proved; {gate.words()}", flush=True)


if __name__ == "__main__":
    if len(sys.argv) != 3:
        sys.exit(__doc__)
    main(*sys.argv[1:])
