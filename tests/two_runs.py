#!/usr/bin/env python3
"""Holds a run at each call that reads or changes the folder, and has another run to its end there. What both print,
their statuses and the folder that they leave must be those of the two runs one after the other, or of one run alone
while the other ended with status 6. If no run locks the folder, or none looks at the journal again once it holds it
alone, that must fail.

Folders are compared by names, bytes and journal. A refused run prints the message of status 6 and nothing else. Runs that
only read never refuse each other. Each folder that is left opens: a verify reads it, undos lead back until there is
nothing to undo, and redos forth. The first moment that leads elsewhere is printed, and ends the test with status 1.

usage: two_runs.py [PROGRAM]     PROGRAM is crates/par2/out/par2 without the word
"""
import os
import shutil
import subprocess
import sys
import tempfile
from collections import Counter, namedtuple
from concurrent.futures import ThreadPoolExecutor
from itertools import count

from cuts import HERE, JOURNAL, MOST_STEPS, PROGRAM, TEMPORARY, held, room_for_folders, shown, without_history

# A run that has not ended after this many seconds waits for the other one.
LONGEST = 60
# What a run prints, and its status.
Said = namedtuple("Said", "text status")
REFUSED = Said("par2: a file could not be read or written\n", 6)
ENDS = {"undo": Said("par2: nothing to undo\n", 9), "redo": Said("par2: nothing to redo\n", 9)}
# The calls that open the folder and lock it.
OPENINGS = 2
# What a verify says of a folder that it could read.
READABLE = (0, 1, 2, 3, 4)
# The kinds of outcomes that may come.
MAY_COME = IN_ORDER, REFUSED_ONE = "in order", "one refused"
# What comes of two runs: what each says, and the files that they leave.
Outcome = namedtuple("Outcome", "first second files")
# A folder that runs find, and the runs.
Scene = namedtuple("Scene", "name files lines")


class Otherwise(Exception):
    """Two runs came to something else than they may."""


def key_of(files):
    return tuple(sorted(files.items()))


class Runs:
    """Runs of the program in folders of their own. What a run leads to alone is kept."""

    def __init__(self, room, program):
        self.room = room
        self.program = os.path.realpath(program)
        self.shim = os.path.join(room, "hold.so")
        self.alone = {}
        self.opened = {}
        subprocess.run(["sh", os.path.join(HERE, "preload/build.sh"), "hold_calls", self.shim], check=True)

    def folder(self, files):
        """Makes a folder of these files. Its journal is old, so that no later one is of the same time."""
        here = tempfile.mkdtemp(dir=self.room)
        for name, data in files.items():
            with open(os.path.join(here, name), "wb") as file:
                file.write(data)
        if JOURNAL in files:
            os.utime(os.path.join(here, JOURNAL), (0, 0))
        return here

    def begun(self, here, line, **how):
        words = [self.program, *line.split()]
        pipes = {"stdin": subprocess.DEVNULL, "stdout": subprocess.PIPE, "stderr": subprocess.STDOUT}
        return subprocess.Popen(words, cwd=here, text=True, **pipes, **how)

    def ended(self, run):
        try:
            text, _ = run.communicate(timeout=LONGEST)
        except subprocess.TimeoutExpired:
            run.kill()
            run.communicate()
            return Said("it waits\n", None)
        return Said(text, run.returncode)

    def ran(self, files, line):
        """Returns what a run says in a folder of these files, and the files that it leaves."""
        key = key_of(files), line
        if key not in self.alone:
            here = self.folder(files)
            said = self.ended(self.begun(here, line))
            self.alone[key] = said, held(here)
            shutil.rmtree(here)
        return self.alone[key]

    def hold(self, here, line, number, fault=""):
        """Begins a run in a folder, which is held at its call of this number. Returns the run, whether it makes this many
        calls, and the descriptor that lets it continue when it is closed."""
        told, tells = os.pipe()
        waits, go = os.pipe()
        env = {"LD_PRELOAD": self.shim, "FORGETS": fault, "HELD": str(number), "TELLS": str(tells), "WAITS": str(waits)}
        run = self.begun(here, line, env={**os.environ, **env}, pass_fds=[tells, waits])
        os.close(tells)
        os.close(waits)
        is_held = os.read(told, 1) != b""
        os.close(told)
        return run, is_held, go

    def outcome(self, files, first, second, number, fault):
        """Returns what comes of two runs, of which the first is held at its call of this number; None where it makes
        fewer calls."""
        here = self.folder(files)
        run, is_held, go = self.hold(here, first, number, fault)
        said = None
        if is_held:
            env = {**os.environ, "LD_PRELOAD": self.shim, "FORGETS": fault}
            said = self.ended(self.begun(here, second, env=env))
        os.close(go)
        outcome = Outcome(self.ended(run), said, held(here))
        shutil.rmtree(here)
        return outcome if is_held else None

    def halfway(self, files, line):
        """Returns the files that a run leaves when it is killed among its changes."""
        ends = [without_history(files), without_history(self.ran(files, line)[1])]
        for number in count(1):
            here = self.folder(files)
            run, is_held, go = self.hold(here, line, number)
            run.kill()
            self.ended(run)
            os.close(go)
            after = held(here)
            shutil.rmtree(here)
            if without_history(after) not in ends:
                return after
            if not is_held:
                raise Otherwise(f"two runs, {line}: it makes no two changes")

    def only_reads(self, files, line):
        return line.startswith("verify") and self.ran(files, line)[1] == files

    def one_after_the_other(self, files, first, second):
        """Returns what may come of two runs one after the other, in either order."""
        first_said, between = self.ran(files, first)
        second_said, after = self.ran(between, second)
        yield Outcome(first_said, second_said, after)
        second_said, between = self.ran(files, second)
        first_said, after = self.ran(between, first)
        yield Outcome(first_said, second_said, after)

    def one_alone(self, files, first, second):
        """Returns what may come of two runs of which one is refused."""
        if not (self.only_reads(files, first) and self.only_reads(files, second)):
            said, after = self.ran(files, first)
            yield Outcome(said, REFUSED, after)
            said, after = self.ran(files, second)
            yield Outcome(REFUSED, said, after)

    def steps_to_end(self, files, way):
        """Returns the files after undos, or redos, until there is nothing left; None where one says anything else."""
        for _ in range(MOST_STEPS):
            said, files = self.ran(files, way)
            if said.status != 0:
                return files if said == ENDS[way] else None
        return None

    def opens(self, files):
        """Whether a folder opens, and has nothing left over."""
        key = key_of(files)
        if key not in self.opened:
            said, after = self.ran(files, "verify t.par2")
            for way in ("undo", "redo"):
                after = after and self.steps_to_end(after, way)
            self.opened[key] = said.status in READABLE and after is not None and TEMPORARY not in files
        return self.opened[key]

    def moments(self, files, first, second, fault=""):
        """Returns for each call of the first run which kind of outcome came of it, and the outcome."""
        in_order = list(self.one_after_the_other(files, first, second))
        alone = list(self.one_alone(files, first, second))
        number = 1
        while outcome := self.outcome(files, first, second, number, fault):
            kind = IN_ORDER if outcome in in_order else REFUSED_ONE if outcome in alone else "otherwise"
            if kind in MAY_COME and not self.opens(outcome.files):
                kind = "unopened"
            yield kind, outcome
            number += 1


def printed(scene, first, second, number, kind, outcome):
    """Says what came of two runs."""
    return (
        f"two runs, {scene.name}: {second}, at call {number} of {first}: {kind}\n"
        f"{first}: status {outcome.first.status}\n{outcome.first.text}"
        f"{second}: status {outcome.second.status}\n{outcome.second.text}"
        f"they leave {shown(outcome.files)}"
    )


def tried(runs, scene, first, second):
    """Returns how many moments there are of each kind."""
    kinds = Counter()
    for number, (kind, outcome) in enumerate(runs.moments(scene.files, first, second), 1):
        if kind not in MAY_COME:
            raise Otherwise(printed(scene, first, second, number, kind, outcome))
        kinds[kind] += 1
    # A run that only reads goes on beside one that has the folder open and locked, but has not written yet.
    if kinds[IN_ORDER] <= OPENINGS and runs.only_reads(scene.files, second):
        raise Otherwise(f"two runs, {scene.name}: {second} never goes on beside {first}")
    return kinds


def try_each(runs, scene, pool):
    """Tries each pair of runs, and returns how many moments there are of each kind."""
    pairs = [(first, second) for first in scene.lines for second in scene.lines]
    kinds = sum(pool.map(lambda pair: tried(runs, scene, *pair), pairs), Counter())
    print(
        f"two runs, {scene.name}: {len(pairs)} pairs, {kinds.total()} moments: {kinds[IN_ORDER]} as one after the"
        f" other, {kinds[REFUSED_ONE]} with one refused",
        flush=True,
    )
    return kinds


def is_seen(runs, scene, fault, first, second):
    """Whether it is seen that a fault is planted."""
    seen = any(kind not in MAY_COME for kind, _ in runs.moments(scene.files, first, second, fault))
    if not seen:
        print(f"two runs, {scene.name}: {second} during {first}: it was not seen that the {fault} is forgotten")
    return seen


# The folders that runs find, and what is run there.

WHOLE = {"aa": b"abcdefgh", "bb": b"ijklmnopqrst"}
CREATE, OVER = "create -s4 -c1 v.par2", "create -s4 -c2 --overwrite t.par2"
REPAIR, PURGING = "repair t.par2", "repair -p t.par2"
PURGE, PURGE_ANOTHER = "purge t.par2", "purge u.par2"
UNDO, REDO, VERIFY = "undo", "redo", "verify t.par2"
# Runs that lead elsewhere where a fault is planted: which fault, the first run and the second.
SEEN = [
    ("lock", PURGING, f"{OVER} aa"),
    ("lock", f"{CREATE} aa", UNDO),
    ("look", PURGING, f"{OVER} aa"),
    ("look", f"{CREATE} aa", REPAIR),
    ("look", UNDO, REDO),
]


def accepted(runs, files, *lines):
    """Returns the files after these runs, which must be accepted."""
    for line in lines:
        said, files = runs.ran(files, line)
        if said.status != 0:
            raise Otherwise(f"two runs, {line}: status {said.status}\n{said.text}")
    return files


def history(runs, files):
    """Returns the files once there is something to undo and to redo."""
    return accepted(runs, files, "create -s4 -c1 u.par2 aa", "create -s4 -c1 w.par2 aa", UNDO)


def scenes_of(runs):
    """Returns the scenes. In the first each of the runs is accepted; in the others also what that folder doesn't allow."""
    given = without_history(accepted(runs, WHOLE, "create -s4 -c5 t.par2 aa bb"))
    damaged = history(runs, {**given, "aa": b"abcdxfgh", "bb": b"ijkl"})
    every = [f"{CREATE} aa", f"{OVER} aa", REPAIR, PURGING, PURGE_ANOTHER, UNDO, REDO, VERIFY]
    for line in every[:-1]:
        accepted(runs, damaged, line)
    yield Scene("damaged files", damaged, every)
    yield Scene("whole files", history(runs, given), [f"{OVER} aa bb", REPAIR, PURGE, UNDO, REDO, VERIFY])
    yield Scene("no journal", given, [f"{CREATE} aa bb", PURGING, PURGE, UNDO, VERIFY])
    halfway = runs.halfway(given, PURGE)
    yield Scene("a command halfway", halfway, [f"{CREATE} aa bb", REPAIR, PURGE, UNDO, VERIFY])
    yield Scene("no set", WHOLE, ["create -s4 -c1 t.par2 aa", f"{OVER} aa bb", VERIFY])


def main(words):
    with tempfile.TemporaryDirectory(dir=room_for_folders()) as room, ThreadPoolExecutor(os.cpu_count()) as pool:
        runs = Runs(room, *(words or [PROGRAM]))
        try:
            scenes = list(scenes_of(runs))
            kinds = sum((try_each(runs, scene, pool) for scene in scenes), Counter())
        except Otherwise as otherwise:
            print(otherwise)
            return 1
        if not all(kinds[kind] for kind in MAY_COME):
            print(f"two runs: not each kind was seen: {dict(kinds)}")
            return 1
        if not all([is_seen(runs, scenes[0], *planted) for planted in SEEN]):
            return 1
    print(f"two runs: {kinds.total()} moments, each as it may be; {len(SEEN)} pairs show a lock or a look that is forgotten")
    return 0


if __name__ == "__main__":
    sys.exit(main(sys.argv[1:]))
