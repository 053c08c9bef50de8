#!/usr/bin/env python3
"""Cuts the power after each call that changes the folder or syncs. Each folder that the disk may then hold must open as
the folder from before the run, or as the one after it.

Synced data survives, and anything may have happened to the rest: the bytes of a file are all there, half of them, none, or
those of the last sync; and each creation, link, rename and removal of a name has survived or has not, by itself. A sync of
a file is for its bytes, a sync of the folder for its names. In each such folder undos are made until one is refused, then
redos. What they print and which files they leave must be the same as from the folder before the run, or as from the one
after it. Only the journal's temporary file may be left over.

At the first folder that opens otherwise it prints the contents, and ends with status 1. At the end the disk forgets syncs
of bytes, and then of names: some folders must open otherwise.

usage: cuts.py [--tell] [--hurry] [PROGRAM]     PROGRAM is crates/par2/out/par2 without the word
    --tell     tells the gravest folder of each scene, and goes on
    --hurry    the disk forgets all waits
"""
import argparse
import io
import os
import shutil
import subprocess
import sys
import tempfile
from collections import namedtuple
from concurrent.futures import ThreadPoolExecutor
from itertools import chain, combinations, islice, product

HERE = os.path.dirname(os.path.realpath(__file__))
PROGRAM = os.path.join(HERE, "../crates/par2/out/par2")

# The descriptor on which calls are recorded.
RECORD = 9
JOURNAL, TEMPORARY = ".par2undo", ".par2undo.tmp"
# What is synced: the bytes of a file, or the names of the folder.
BYTES, NAMES = "bytes", "names"
# The free memory that is needed to have the folders in memory.
ROOM = 1 << 28
# The most folders that are tried after one call, and the most ways to lose what wasn't synced.
MOST_FOLDERS = 200
MOST_WAYS = 2000
# More undos or redos than any of these folders has.
MOST_STEPS = 100
# Of a file with more bytes only the length is printed.
SHORT_FILE = 32

# A change of names: one that is gone and one that the file of this number has then, or None.
Change = namedtuple("Change", "gone name file")
# A folder that the disk may hold, and the number of the first call after which it may.
Cut = namedtuple("Cut", "number files")
# An undo or a redo: what it says, its status, and the files after it.
Step = namedtuple("Step", "way text status files")


class Fault(Exception):
    """A run, or its record, isn't as it must be."""


class Otherwise(Fault):
    """A folder opens neither as before nor as after."""


class Call(namedtuple("Call", "word file number first second")):
    """A recorded call: its descriptor, a number and two strings."""

    def matters(self):
        """Whether it changes the folder or syncs."""
        return self.word != "open" or self.number & (os.O_CREAT | os.O_TRUNC) != 0

    def gives_or_takes_name(self):
        """Whether it gives a name, or takes one away that isn't the temporary file's."""
        return self.word in ("rename", "link") or self.word == "unlink" and os.fsdecode(self.first) != TEMPORARY

    def __str__(self):
        texts = [] if self.word == "write" else [os.fsdecode(self.first), os.fsdecode(self.second)]
        return " ".join(filter(None, [self.word, *texts]))


# Folders: the bytes of each file by its name.


def held(folder):
    """Returns the files of a real folder."""
    files = {}
    for name in sorted(os.listdir(folder)):
        with open(os.path.join(folder, name), "rb") as file:
            files[name] = file.read()
    return files


def put(folder, files):
    """Makes a real folder with these files."""
    os.mkdir(folder)
    for name, data in files.items():
        with open(os.path.join(folder, name), "wb") as file:
            file.write(data)


def without_history(files):
    return {name: data for name, data in files.items() if name not in (JOURNAL, TEMPORARY)}


def distinct(folders):
    """Returns folders by what they hold, each once."""
    return {tuple(sorted(files.items())): files for files in folders}


def shown_file(data):
    if data is None:
        return "absent"
    return repr(data)[1:] if len(data) <= SHORT_FILE else f"{len(data)} bytes"


def shown(files):
    return ", ".join(f"{name} {shown_file(data)}" for name, data in sorted(files.items()))


# What a disk may hold.


def calls_of(record):
    """Returns the calls of a record."""
    text, calls = io.BytesIO(record), []
    for line in iter(text.readline, b""):
        word, *numbers = line.decode().split()
        file, number, first, second = map(int, numbers)
        calls.append(Call(word, file, number, text.read(first), text.read(second)))
    return calls


def changed(names, changes):
    """Returns the names once the changes are made, each with the number of its file."""
    names = dict(names)
    for change in changes:
        names.pop(change.gone, None)
        if change.name is not None:
            names[change.name] = change.file
    return names


def subsets(items):
    return chain.from_iterable(combinations(items, count) for count in range(len(items) + 1))


def unlike_subsets(items):
    """Returns those that differ most: none, all, each item alone, and all but each."""
    alone = combinations(items, 1)
    others = combinations(items, max(len(items) - 1, 0))
    return chain([(), tuple(items)], alone, others)


class Disk:
    """A disk with one folder: its names and the bytes of its files, as they were when they were last synced, and the names
    and files that were changed since then. It may forget one kind of sync, or both."""

    # The folder's number among those of files.
    FOLDER = -1

    def __init__(self, files, forgotten=()):
        self.forgotten = forgotten
        self.names = {name: number for number, name in enumerate(files)}
        self.lasting_names = self.names
        self.changes = []
        self.texts = list(files.values())
        self.lasting_texts = list(self.texts)
        self.rewritten = set()
        self.opened = {}

    def make(self, call):
        """Makes a recorded call."""
        getattr(self, "make_" + call.word)(call)

    def make_open(self, call):
        name = os.path.normpath(os.fsdecode(call.first))
        if name not in self.names and call.number & os.O_CREAT:
            self.change(None, name, len(self.texts))
            self.texts.append(b"")
            self.lasting_texts.append(b"")
        # Other files than those of the folder are only read.
        number = self.FOLDER if name == os.curdir else self.names.get(name)
        self.opened[call.file] = number
        if call.number & os.O_TRUNC:
            self.rewrite(number, b"")

    def make_write(self, call):
        number = self.opened[call.file]
        end = call.number + len(call.first)
        before, behind = self.texts[number][: call.number], self.texts[number][end:]
        self.rewrite(number, before.ljust(call.number, b"\0") + call.first + behind)

    def make_truncate(self, call):
        number = self.opened[call.file]
        self.rewrite(number, self.texts[number][: call.number].ljust(call.number, b"\0"))

    def make_rename(self, call):
        gone, name = os.fsdecode(call.first), os.fsdecode(call.second)
        self.change(gone, name, self.names[gone])

    def make_link(self, call):
        self.change(None, os.fsdecode(call.second), self.names[os.fsdecode(call.first)])

    def make_unlink(self, call):
        self.change(os.fsdecode(call.first), None, None)

    def make_wait(self, call):
        number = self.opened[call.file]
        kind = NAMES if number == self.FOLDER else BYTES
        if kind in self.forgotten:
            return
        if kind == NAMES:
            self.lasting_names, self.changes = self.names, []
        else:
            self.lasting_texts[number] = self.texts[number]
            self.rewritten.discard(number)

    def rewrite(self, number, text):
        self.texts[number] = text
        self.rewritten.add(number)

    def change(self, *change):
        self.changes.append(Change(*change))
        self.names = changed(self.names, self.changes[-1:])

    def files(self):
        """Returns the files of the folder."""
        return {name: self.texts[number] for name, number in self.names.items()}

    def remains(self, number):
        """Returns what a cut may leave of a file: its bytes, half of them, none, and those that were waited for."""
        text, lasting = self.texts[number], self.lasting_texts[number]
        return [text, text[: len(text) // 2], b"", lasting] if number in self.rewritten else [text]

    def losses(self):
        """Returns the folders that a cut may leave."""
        for changes in subsets(self.changes):
            names = changed(self.lasting_names, changes)
            numbers = dict.fromkeys(names.values())
            for remains in product(*map(self.remains, numbers)):
                texts = dict(zip(numbers, remains))
                yield {name: texts[number] for name, number in names.items()}

    def unlike_losses(self):
        """Returns those that differ most: all files fare alike in them, or all names last and all files but one."""
        for changes in unlike_subsets(self.changes):
            remains = {name: self.remains(number) for name, number in changed(self.lasting_names, changes).items()}
            for way in range(4):
                yield {name: texts[way % len(texts)] for name, texts in remains.items()}
        for name, number in self.names.items():
            yield from ({**self.files(), name: text} for text in self.remains(number))

    def after_a_cut(self):
        """Returns the folders that a cut may leave by what they hold: all of them, or those that differ most."""
        losses = list(islice(self.losses(), MOST_WAYS + 1))
        every = distinct(losses)
        if len(losses) <= MOST_WAYS and len(every) <= MOST_FOLDERS:
            return every
        return dict(islice(distinct(chain(self.unlike_losses(), losses)).items(), MOST_FOLDERS))


class Runs:
    """Runs of the program in folders, of which some are recorded."""

    def __init__(self, room, program):
        self.room = room
        self.program = os.path.realpath(program)
        self.shim = os.path.join(room, "record.so")
        subprocess.run(["sh", os.path.join(HERE, "preload/build.sh"), "record_calls", self.shim], check=True)
        self.record = open(os.path.join(room, "record"), "w+b", buffering=0)
        os.dup2(self.record.fileno(), RECORD)

    def said(self, folder, line, **how):
        """Runs the words of a line in a folder, and returns what the run says and its status."""
        words = [self.program, *line.split()]
        how = {"cwd": folder, "stdin": subprocess.DEVNULL, "text": True, **how}
        ran = subprocess.run(words, stdout=subprocess.PIPE, stderr=subprocess.STDOUT, check=False, **how)
        return ran.stdout, ran.returncode

    def recorded(self, files, line, wanted=0):
        """Returns the calls of a run that finds these files, and the files after it. It must end with this status."""
        self.record.seek(0)
        self.record.truncate()
        env = {**os.environ, "LD_PRELOAD": self.shim}
        with tempfile.TemporaryDirectory(dir=self.room) as room:
            here = os.path.join(room, "here")
            put(here, files)
            text, status = self.said(here, line, env=env, pass_fds=[RECORD])
            after = held(here)
        if status != wanted:
            raise Fault(f"{line}: status {status}: {text}")
        self.record.seek(0)
        return calls_of(self.record.read()), after

    def walk(self, files):
        """Returns the steps of undos in such a folder until one is refused, and then of redos."""
        with tempfile.TemporaryDirectory(dir=self.room) as room:
            here = os.path.join(room, "here")
            put(here, files)
            return [*self.steps(here, "undo"), *self.steps(here, "redo")]

    def steps(self, here, way):
        for _ in range(MOST_STEPS):
            text, status = self.said(here, way)
            yield Step(way, text, status, without_history(held(here)))
            if status:
                return
        raise Fault(f"{way}: it came to no end")


class Scene:
    """A run, the folders that cuts of it may leave, and those of them that open otherwise than they must."""

    def __init__(self, name, before, after):
        self.name = name
        self.before = before
        self.after = after
        self.calls = []
        self.cuts = {}
        self.wrong = []

    def cut_each(self, calls, forgotten):
        """Cuts the power before the first call that matters and after each."""
        disk = Disk(self.before, forgotten)
        self.cut(disk)
        for call in calls:
            disk.make(call)
            if call.matters():
                self.calls.append(call)
                self.cut(disk)
        if disk.files() != self.after:
            raise Fault(f"{self.name}: the record leads to {shown(disk.files())}, and the run to {shown(self.after)}")

    def cut(self, disk):
        for key, files in disk.after_a_cut().items():
            self.cuts.setdefault(key, Cut(len(self.calls), files))

    def walk_each(self, walk):
        """Undoes and redoes what can be in each folder."""
        folders = [self.before, self.after, *(cut.files for cut in self.cuts.values())]
        with ThreadPoolExecutor(os.cpu_count()) as pool:
            before, after, *walks = pool.map(walk, folders)
        self.wrong = [pair for pair in zip(self.cuts.values(), walks) if pair[1] not in (before, after)]

    def lost(self, cut, steps):
        """Returns the files of which neither the bytes from before the run nor those from after it are left, there or
        wherever that leads."""
        folders = [cut.files, *(step.files for step in steps)]
        left = {data for files in folders for data in without_history(files).values()}
        both = [name for name in without_history(self.before) if name in self.after]
        return [name for name in both if self.before[name] not in left and self.after[name] not in left]

    def gravity(self, cut, steps):
        """The more files are lost, the graver; then if no undo and no redo is accepted; then if fewer files are left."""
        return len(self.lost(cut, steps)), all(step.status for step in steps), -len(cut.files)

    def as_which(self, name, data):
        known = [word for word, files in (("before", self.before), ("after", self.after)) if files.get(name) == data]
        return " and ".join(known) or "neither before nor after"

    def told(self, cut, steps):
        """Returns lines about a folder: its contents, and what its undos and redos print and leave."""
        call = f"{cut.number} of {len(self.calls)} ({self.calls[cut.number - 1]})" if cut.number else "0"
        lines = [f"{self.name}, cut behind call {call}: the folder may hold"]
        for name in sorted({**self.before, **self.after, **cut.files}):
            data = cut.files.get(name)
            lines.append(f"    {name}: {shown_file(data)}, as {self.as_which(name, data)}")
        lines += [f"  {step.way}: status {step.status}, {step.text.strip()}: {shown(step.files)}" for step in steps]
        lines += [f"  lost: {name}" for name in self.lost(cut, steps)]
        return "\n".join(lines)

    def counted(self):
        """Says how many folders there are, and how many of them open otherwise."""
        head = f"cuts of {self.name}: {len(self.calls)} calls, {len(self.cuts)} folders"
        if not self.wrong:
            return f"{head}, each as before or as after"
        lost = sum(self.lost(*pair) != [] for pair in self.wrong)
        return f"{head}, {len(self.wrong)} of them otherwise, {lost} without a file from before and from after"


class Cuts:
    """The folder that runs find, and what was found of them."""

    def __init__(self, runs, forgotten, is_telling):
        self.runs = runs
        self.forgotten = forgotten
        self.is_telling = is_telling
        self.files = {}
        self.tried = 0
        self.wrong = 0

    def before(self, line):
        """Runs the words of a line in the folder."""
        _, self.files = self.runs.recorded(self.files, line)

    def stopped(self, count, line):
        """The same, but the run is stopped after this many calls that give or take names other than the temporary
        file's. The first of them puts the journal."""
        calls, _ = self.runs.recorded(self.files, line)
        disk = Disk(self.files)
        for call in calls:
            disk.make(call)
            count -= call.gives_or_takes_name()
            if count == 0:
                break
        self.files = disk.files()

    def cut(self, name, line, wanted=0):
        """Cuts the power in a run that finds the folder, and that ends with this status otherwise."""
        calls, after = self.runs.recorded(self.files, line, wanted)
        scene = Scene(name, self.files, after)
        scene.cut_each(calls, self.forgotten)
        scene.walk_each(self.runs.walk)
        self.tried += len(scene.cuts)
        self.wrong += len(scene.wrong)
        print(scene.counted(), flush=True)
        if scene.wrong and not self.is_telling:
            raise Otherwise(scene.told(*scene.wrong[0]))
        if scene.wrong:
            print(scene.told(*max(scene.wrong, key=lambda pair: scene.gravity(*pair))))


# The runs of which the power is cut.

WHOLE = {"aa": b"abcdefgh", "bb": b"ijklmnopqrst", "cc": b"uvwx"}


def damaged(cuts):
    """Makes a set, and has another hand change one file, remove one and rename one."""
    cuts.files = dict(WHOLE)
    cuts.before("create -s4 -c5 t.par2 aa bb cc")
    cuts.files["aa"] = b"abcdxfgh"
    cuts.files["dd"] = cuts.files.pop("cc")
    del cuts.files["bb"], cuts.files[JOURNAL]


def purging_repair(cuts, name="a repair that purges"):
    damaged(cuts)
    cuts.cut(name, "repair -p t.par2 dd")


def repairs(cuts):
    damaged(cuts)
    cuts.cut("a repair", "repair t.par2 dd")
    cuts.before("repair t.par2 dd")
    cuts.cut("an undo of a repair", "undo")
    cuts.before("undo")
    cuts.cut("a redo of a repair", "redo")
    damaged(cuts)
    cuts.stopped(3, "repair t.par2 dd")
    # The files are damaged again, which a verify reports by its status.
    cuts.cut("a verify that takes a stopped repair back", "verify t.par2 dd", wanted=1)


def creates(cuts):
    cuts.files = dict(WHOLE)
    cuts.cut("a first create", "create -s4 -c3 t.par2 aa bb")
    cuts.files[TEMPORARY] = b"left over"
    cuts.cut("a create that finds a temporary file", "create -s4 -c3 t.par2 aa bb")
    cuts.before("create -s4 -c3 t.par2 aa bb")
    cuts.cut("a create that overwrites", "create -s4 -c2 --overwrite t.par2 aa bb")
    cuts.cut("an undo of a create", "undo")
    cuts.before("undo")
    cuts.cut("a redo of a create", "redo")
    cuts.cut("a create that drops a redo", "create -s4 -c1 u.par2 cc")


def purges(cuts):
    cuts.files = dict(WHOLE)
    cuts.before("create -s4 -c3 t.par2 aa bb")
    cuts.cut("a purge", "purge t.par2")
    cuts.before("purge t.par2")
    cuts.cut("an undo of a purge", "undo")
    cuts.before("undo")
    cuts.cut("a redo of a purge", "redo")
    cuts.stopped(3, "redo")
    cuts.cut("an undo that takes a stopped redo back", "undo")
    cuts.cut("a create that takes a stopped redo back", "create -s4 -c1 u.par2 cc")


def room_for_folders():
    """Returns the place of the folders: in memory if there is enough, else where temporary files are."""
    memory = "/dev/shm"
    if os.path.isdir(memory) and shutil.disk_usage(memory).free >= ROOM:
        return memory
    return None


def opens_well(cuts):
    """Tries all scenes, and returns whether each folder opens as it must."""
    for scenes in (creates, purging_repair, repairs, purges):
        scenes(cuts)
    print(f"cuts: {cuts.tried} folders, {cuts.wrong} of them otherwise than as before or as after", flush=True)
    return cuts.wrong == 0


def is_seen(runs, kind):
    """Whether it is seen that the disk forgets one kind of sync."""
    try:
        purging_repair(Cuts(runs, [kind], False), f"a repair that purges, its waits for {kind} forgotten")
    except Otherwise:
        return True
    print(f"cuts: it was not seen that the waits for {kind} are forgotten")
    return False


def main(words):
    options = argparse.ArgumentParser(add_help=False, usage=__doc__)
    options.add_argument("--tell", action="store_true")
    options.add_argument("--hurry", action="store_true")
    options.add_argument("program", nargs="?", default=PROGRAM)
    asked = options.parse_args(words)
    with tempfile.TemporaryDirectory(dir=room_for_folders()) as room:
        runs = Runs(room, asked.program)
        cuts = Cuts(runs, [BYTES, NAMES] if asked.hurry else [], asked.tell)
        try:
            is_right = opens_well(cuts) and is_seen(runs, BYTES) and is_seen(runs, NAMES)
        except Fault as fault:
            print(f"cuts: {fault}")
            return 1
    return 0 if is_right else 1


if __name__ == "__main__":
    sys.exit(main(sys.argv[1:]))
