#!/usr/bin/env python3
"""Runs commands with the first allocation refused, then with the second, and so on until none is refused.

Each run ends as the run without a refusal does, or says that it is out of memory and leaves the files and the journal
as they were; or, if a stopped command has to be taken back first, as they are once that is done.
"""
import os
import resource
import shutil
import signal
import subprocess
import sys
import tempfile
from collections import namedtuple

ROOT = os.path.join(os.path.dirname(os.path.realpath(__file__)), "..")
PROGRAM = os.path.realpath(os.path.join(ROOT, "crates/par2/out/par2"))

# More growths than any of these runs has.
MOST = 10_000
# The descriptor on which the allocator says that it refused a growth.
REACHED = 9
WANTING = "par2: out of memory\n", 8

# What a run says, its status, and the folder that it leaves.
Told = namedtuple("Told", "text status files")


def held(folder):
    """Returns the bytes of each file in a folder by its name, the journal among them."""
    files = {}
    for name in os.listdir(folder):
        with open(os.path.join(folder, name), "rb") as file:
            files[name] = file.read()
    return files


def pattern(seed, count):
    """Returns bytes that are the same in each run."""
    made = bytearray()
    for _ in range(count):
        seed = (seed * 1103515245 + 12345) % (1 << 31)
        made.append(33 + (seed >> 16) % 90)
    return bytes(made)


def without_room(kib):
    """Returns what lets no file of a process grow beyond this many KiB: a write fails and the run stops halfway."""

    def limit():
        signal.signal(signal.SIGXFSZ, signal.SIG_IGN)
        resource.setrlimit(resource.RLIMIT_FSIZE, (kib << 10, kib << 10))

    return limit


class Refusals:
    """A folder that runs find, and an allocator that refuses one growth of each."""

    def __init__(self, room):
        self.room = room
        self.shim = os.path.join(room, "refuse.so")
        self.found = os.path.join(room, "found")
        self.here = os.path.join(room, "here")
        self.reached = open(os.path.join(room, "reached"), "w+b", buffering=0)
        os.dup2(self.reached.fileno(), REACHED)
        os.mkdir(self.found)

    def put(self, name, data):
        with open(os.path.join(self.found, name), "wb") as file:
            file.write(data)

    def restore(self, files):
        """Makes these the files of the folder, and no others."""
        shutil.rmtree(self.found)
        os.mkdir(self.found)
        for name, data in files.items():
            self.put(name, data)

    def said(self, folder, line, env=None, **how):
        """Runs the words of a line in a folder, and returns what the run says and its status."""
        words = [PROGRAM, *line.split()]
        how = {"cwd": folder, "env": env, "stdin": subprocess.DEVNULL, "text": True, **how}
        ran = subprocess.run(words, stdout=subprocess.PIPE, stderr=subprocess.STDOUT, check=False, **how)
        return ran.stdout, ran.returncode

    def before(self, line):
        """Runs the words of a line in the folder, with nothing refused."""
        text, status = self.said(self.found, line)
        if status:
            sys.exit(f"{line}: status {status}: {text}")

    def stopped(self, kib, line):
        """Runs the words of a line in the folder, where no file has room beyond this many KiB."""
        how = {"preexec_fn": without_room(kib), "restore_signals": False}
        _, status = self.said(self.found, line, **how)
        if not status:
            sys.exit(f"not stopped: {line}")

    def run(self, number, line):
        """Runs the words of a line in a copy of the folder, the growth of that number refused. Returns what is reported,
        and whether there was such a growth."""
        shutil.rmtree(self.here, ignore_errors=True)
        shutil.copytree(self.found, self.here)
        self.reached.seek(0)
        self.reached.truncate()
        env = {**os.environ, "REFUSED": str(number), "LD_PRELOAD": self.shim}
        said = self.said(self.here, line, env, pass_fds=[REACHED])
        return Told(*said, held(self.here)), os.fstat(REACHED).st_size > 0

    def refuse_each(self, name, line):
        """Refuses each growth of a run, one at a time."""
        whole, _ = self.run(0, line)
        wanting = [Told(*WANTING, held(self.found))]
        if line.startswith("verify "):
            # What a verify leaves is what it found once a stopped command was taken back.
            wanting.append(Told(*WANTING, whole.files))
        refused = 0
        for number in range(1, MOST + 1):
            told, is_reached = self.run(number, line)
            refused += is_reached and told in wanting
            if told != whole and not (is_reached and told in wanting):
                sys.exit(f"growths of {name}: with growth {number} refused it ends with status {told.status}: {told.text}")
            if not is_reached:
                break
        if is_reached or not refused:
            sys.exit(f"growths of {name}: the refusals came to no end, or there was none")
        print(f"growths of {name}: {number - 1} refused one by one, {refused} reported as out of memory", flush=True)


def creates(runs):
    """Runs over a folder with one file at first."""
    runs.put("a", b"abcdefgh")
    runs.refuse_each("a create", "create -s4 -c2 t.par2 a")
    runs.refuse_each("an undo of nothing", "undo")
    runs.before("create -s4 -c2 t.par2 a")
    runs.refuse_each("a create over another", "create --overwrite -s4 -c3 t.par2 a")
    runs.refuse_each("an undo of a create", "undo")
    runs.before("undo")
    runs.refuse_each("a redo of a create", "redo")
    runs.put("b", pattern(1, 1024))
    runs.stopped(1, "create -s4 -c1 --overwrite u.par2 a b")
    runs.refuse_each("an undo that takes a stopped create back", "undo")


def several_files(runs):
    """Runs over a set of four files. Afterwards one is damaged, one has a byte inserted, one has another name and one is
    intact, and there is a file beside them."""
    whole = {"cut": pattern(2, 3000), "shifted": pattern(3, 700), "moved": pattern(4, 500), "intact": pattern(5, 300)}
    runs.restore(whole)
    runs.refuse_each("a create of several files", "create -s64 -c12 s.par2 cut shifted moved intact")
    runs.before("create -s64 -c12 s.par2 cut shifted moved intact")
    runs.refuse_each("a verify", "verify s.par2")
    runs.refuse_each("a purge", "purge s.par2")
    runs.put("cut", whole["cut"][:600] + b"lost" + whole["cut"][604:2904])
    runs.put("shifted", b"x" + whole["shifted"])
    os.rename(os.path.join(runs.found, "moved"), os.path.join(runs.found, "extra"))
    runs.put("beside", pattern(6, 200))


def repairs(runs):
    """Runs over the damaged files, with all volumes and with none."""
    runs.refuse_each("a verify of damaged files", "verify s.par2")
    runs.refuse_each("a verify with further files", "verify s.par2 extra beside")
    runs.refuse_each("a repair", "repair s.par2")
    runs.refuse_each("a repair with further files", "repair s.par2 extra beside")
    runs.refuse_each("a repair that purges", "repair -p s.par2 extra beside")
    damaged = held(runs.found)
    runs.restore({name: data for name, data in damaged.items() if not name.startswith("s.vol")})
    runs.refuse_each("a verify of what can't be repaired", "verify s.par2 beside")
    runs.refuse_each("a repair that can't be done", "repair s.par2 beside")
    runs.restore(damaged)


def there_and_back(runs, what, undone, line):
    """An undo and a redo of the words of a line, after which the folder is as these left it."""
    runs.before(line)
    runs.refuse_each(f"an undo of {undone}", "undo")
    runs.before("undo")
    runs.refuse_each(f"a redo of {what}", "redo")
    runs.before("redo")


def undos(runs):
    """Undos and redos of repairs and of a purge, and runs that first take a stopped repair back."""
    damaged = held(runs.found)
    there_and_back(runs, "a repair", "a repair", "repair s.par2 extra beside")
    there_and_back(runs, "a purge", "a purge", "purge s.par2")
    runs.restore(damaged)
    there_and_back(runs, "a repair that purges", "a repair that purged", "repair -p s.par2 extra beside")
    runs.restore(damaged)
    runs.stopped(2, "repair s.par2 extra beside")
    runs.refuse_each("an undo that takes a stopped repair back", "undo")
    runs.refuse_each("a verify that takes a stopped repair back", "verify s.par2")


def main():
    with tempfile.TemporaryDirectory() as room:
        runs = Refusals(room)
        subprocess.run(["sh", os.path.join(ROOT, "tests/preload/build.sh"), "refuse_memory", runs.shim], check=True)
        for part in (creates, several_files, repairs, undos):
            part(runs)


if __name__ == "__main__":
    main()
