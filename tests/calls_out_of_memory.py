#!/usr/bin/env python3
"""Makes library calls with the first allocation refused, then with the second, and so on until none is refused.

A call of a library returns what it returns without a refusal, or out of memory. (A list whose size is refused as a whole
grows item by item: calls that make one are tried with two growths refused in a row, too.) Then its arguments are as
before, and the same call made once more returns what it returns without a refusal. A call of the whole program on a store
in memory is out of memory and leaves the store as before, or fails at a growth of the store itself: then the store opens
as before or as after.
"""
import os
import re
import subprocess
import sys
import tempfile

ROOT = os.path.join(os.path.dirname(os.path.realpath(__file__)), "..")
PROGRAM = os.path.realpath(os.path.join(ROOT, "crates/run_rows/out/run_rows"))

# The descriptor on which the allocator reports growths.
REACHED = 9
# The call that never fails from one refused growth: the other of the two actions is done.
NEVER_TOLD = ("Session::play of two",)
# The calls that fail only from two refused growths in a row: a list whose size is refused as a whole grows item by item.
TOLD_AT_THE_SECOND = ("Folder::names", "MemoryStore::names", "whole_buffers")

# The file `a` was cut after a create.
DAMAGED = "new\nput a abcdefgh\nrun create -s4 -c1 t.par2 a\nput a abcdef\n"
CREATED = "new\nput a abcdefgh\nrun create -s4 -c1 t.par2 a\n"
UNDONE = CREATED + "run undo\n"
FRESH = "new\nput a abcdefgh\n"
# The calls of an opening over three files, of the halfway journal and of the two changes are eight.
HALFWAY = DAMAGED + "stop 8 repair t.par2\n"
OVER_STORES = [
    (FRESH, "create -s4 -c1 t.par2 a"),
    (DAMAGED, "repair t.par2"),
    (DAMAGED, "repair -p t.par2"),
    (CREATED, "purge t.par2"),
    (DAMAGED, "verify t.par2"),
    (CREATED, "undo"),
    (UNDONE, "redo"),
]
OPENED = [FRESH, CREATED, DAMAGED, HALFWAY]
READ = ["create -s4 -c1 -f2 --overwrite t.par2 a b", "repair -p t.par2 x", "verify t.par2 x y", "undo"]

# The results of a run and of a command on an open session that run out of memory, and of those whose store fails.
MEMORY = ("8", "Session(Plan(Memory))")
STORE = ("6", "Store")


class Program:
    """Runs of `run_rows`, under an allocator that refuses one growth."""

    def __init__(self, room):
        self.room = room
        self.shim = os.path.join(room, "refuse.so")
        subprocess.run(["sh", os.path.join(ROOT, "tests/preload/build.sh"), "refuse_memory", self.shim], check=True)

    def said(self, lines, **variables):
        """Returns what the program writes. If growths are shown, each is there as an exclamation mark."""
        with open(os.path.join(self.room, "told"), "w+b") as told, open(os.devnull, "wb") as nowhere:
            os.dup2((told if "SHOWN" in variables else nowhere).fileno(), REACHED)
            env = {**os.environ, **variables, "LD_PRELOAD": self.shim}
            how = {"cwd": self.room, "env": env, "input": lines.encode(), "stdout": told, "pass_fds": [REACHED]}
            ended = subprocess.run([PROGRAM], check=False, **how)
            told.seek(0)
            text = told.read().decode()
        if ended.returncode:
            sys.exit(f"growths: {lines}: status {ended.returncode}: {text}")
        return text

    def refused_each(self, lines, **variables):
        """Returns what the program writes, and what it writes with each growth of its call refused, one at a time."""
        shown = self.said(lines, REFUSED="0", SHOWN="yes")
        # The line of the call, and its growths after it.
        call = re.search(r"^!*>.*\n(!*)", shown, re.MULTILINE)
        earlier = shown[: call.start(1)].count("!")
        numbers = range(earlier + 1, earlier + len(call[1]) + 1)
        return shown.replace("!", ""), [self.said(lines, REFUSED=str(n), **variables) for n in numbers]


def library_calls(program):
    """Refuses the growths of each call of a library."""
    told = program.said("call-all\n")
    calls = [line.split(": ") for line in told.splitlines() if ": " in line and not line.startswith(" ")]
    growths = 0
    for words in calls:
        call = f"call {' '.join(words)}\n"
        whole, refused = program.refused_each(call)
        if words[1] in TOLD_AT_THE_SECOND:
            refused += program.refused_each(call, NEXT_TOO="yes")[1]
        before, line, behind = whole.partition(f"> {words[1]}\n")
        wanting = before + line + "out of memory\n" + before + line + behind
        wrong = [text for text in refused if text not in (whole, wanting)]
        is_told = wanting in refused or words[1] in NEVER_TOLD
        if wrong or not behind.startswith("returned\n") or not refused or not is_told:
            sys.exit(f"growths of {words[1]}: {whole}\nand with a growth refused {wrong or refused}")
        growths += len(refused)
    print(f"growths: {len(calls)} calls of libraries, {growths} growths refused one by one", flush=True)


def is_right(text, whole, stood):
    """Whether a call over a store may print this, if its session was at first as the last line says."""
    before, _, answer, after, *_, stands = text.splitlines()
    if answer in MEMORY:
        return after == before and stands == stood
    return text == whole or (answer in STORE and stands in (stood, whole.splitlines()[-1]))


def calls_over_stores(program):
    """Refuses the growths of runs, and of commands on an open session."""
    growths, told = 0, set()
    for files, line in OVER_STORES:
        stood = program.said(files + "grow open_store\n").splitlines()[-2]
        for call in ("run", "perform"):
            whole, refused = program.refused_each(f"{files}grow {call} {line}\n")
            wrong = [text for text in refused if not is_right(text, whole, stood)]
            if wrong or not refused:
                sys.exit(f"growths of {call} {line}: {whole}\nand with a growth refused {wrong}")
            growths += len(refused)
            told.update(text.splitlines()[2] for text in refused)
    if not told.issuperset(MEMORY + STORE):
        sys.exit(f"growths of runs: all that was told is {told}")
    print(f"growths: {2 * len(OVER_STORES)} runs and commands over stores in memory, {growths} refused one by one", flush=True)


def calls_made_again(program):
    """Refuses the growths of openings and of calls that read words, which are made once more then."""
    calls = [(files, "open_store") for files in OPENED] + [("", f"read_words {line}") for line in READ]
    growths = 0
    for files, call in calls:
        whole, refused = program.refused_each(f"{files}grow {call}\n")
        before, line, behind = whole.partition(">\n")
        wanting = before + line + "Memory\n" + before + line + behind
        failing = before + line + "Store\n", line + behind
        wrong = [
            text
            for text in refused
            if text not in (whole, wanting) and not (text.startswith(failing[0]) and text.endswith(failing[1]))
        ]
        if wrong or wanting not in refused:
            sys.exit(f"growths of {call}: {whole}\nand with a growth refused {wrong or refused}")
        growths += len(refused)
    print(f"growths: {len(calls)} openings and lists of words, {growths} refused one by one", flush=True)


def main():
    with tempfile.TemporaryDirectory() as room:
        program = Program(room)
        library_calls(program)
        calls_made_again(program)
        calls_over_stores(program)


if __name__ == "__main__":
    main()
