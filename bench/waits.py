#!/usr/bin/env python3
"""What it costs whole commands that they wait for the disk: each runs as it is, and with all of its waits left out. The
two take turns over the same folders on a disk. A line has the least time of each in milliseconds, and their ratio.

The folders are in TMPDIR, or else in /var/tmp. A wait for a file of 4 KiB, and one for its folder, are measured beside.

usage: waits PROGRAM
"""
import os
import shutil
import subprocess
import sys
import tempfile
import time

HERE = os.path.dirname(os.path.realpath(__file__))
ROUNDS = 5
JOURNAL = ".par2undo"


def milliseconds(done):
    begun = time.perf_counter()
    done()
    return (time.perf_counter() - begun) * 1000


class Waits:
    """Runs of a program in copies of one folder."""

    def __init__(self, room, program):
        self.program = os.path.realpath(program)
        self.found = os.path.join(room, "found")
        self.here = os.path.join(room, "here")
        self.shim = os.path.join(room, "hurry.so")
        subprocess.run(["sh", os.path.join(HERE, "../tests/preload/build.sh"), "forget_waits", self.shim], check=True)

    def fresh(self, count, size):
        """Fills the folder with `count` files of random bytes."""
        shutil.rmtree(self.found, ignore_errors=True)
        os.mkdir(self.found)
        for number in range(count):
            with open(os.path.join(self.found, f"data{number:03}"), "wb") as file:
                file.write(os.urandom(size))

    def damage(self, size):
        """Overwrites the begin of each file, which ends the history."""
        os.remove(os.path.join(self.found, JOURNAL))
        for name in os.listdir(self.found):
            if name.startswith("data"):
                with open(os.path.join(self.found, name), "r+b") as file:
                    file.write(bytes(size))

    def run(self, folder, line, **variables):
        env = {**os.environ, **variables}
        how = {"cwd": folder, "env": env, "stdout": subprocess.PIPE, "stderr": subprocess.STDOUT, "text": True}
        ran = subprocess.run([self.program, *line.split()], check=False, **how)
        if ran.returncode:
            sys.exit(f"{line}: status {ran.returncode}: {ran.stdout}")

    def before(self, line):
        """Runs the words of a line in the folder."""
        self.run(self.found, line)

    def took(self, line, **variables):
        """Returns the milliseconds of a run in a copy of the folder that is on the disk."""
        shutil.rmtree(self.here, ignore_errors=True)
        shutil.copytree(self.found, self.here)
        os.sync()
        return milliseconds(lambda: self.run(self.here, line, **variables))

    def row(self, name, line):
        turns = [(self.took(line), self.took(line, LD_PRELOAD=self.shim)) for _ in range(ROUNDS)]
        waiting, hurrying = map(min, zip(*turns))
        print(f"{name:66} {waiting:6.0f} ms  {hurrying:6.0f} ms  {waiting / hurrying:.2f}", flush=True)


def one_wait(room):
    """Prints what one wait for a file takes, and one for the folder when its name is new."""
    path = os.path.join(room, "one")
    folder = os.open(room, os.O_RDONLY)
    turns = []
    for _ in range(ROUNDS):
        os.sync()
        with open(path, "wb", buffering=0) as file:
            file.write(bytes(4096))
            of_file = milliseconds(lambda: os.fsync(file.fileno()))
        os.rename(path, path + ".1")
        turns.append((of_file, milliseconds(lambda: os.fsync(folder))))
    os.close(folder)
    of_file, of_folder = map(min, zip(*turns))
    print(f"one wait for a file of 4 KiB {of_file:.2f} ms, for a folder with a new name {of_folder:.2f} ms")


def main(program):
    with tempfile.TemporaryDirectory(dir=os.environ.get("TMPDIR", "/var/tmp")) as room:
        one_wait(room)
        waits = Waits(room, program)
        print(f"{'':66} {'waits':>9}  {'does not':>9}  ratio")
        waits.fresh(1, 1 << 22)
        waits.row("create: 4 MiB in one file, 60 slices of 4 KiB, 7 files", "create -s4096 -c60 set.par2 data000")
        waits.before("create -s4096 -c60 set.par2 data000")
        waits.row("purge: these 7 files", "purge set.par2")
        waits.fresh(1, 1 << 12)
        waits.row("create: 4 KiB in one file, 32,768 slices of 64, 17 files", "create -s64 -c32768 set.par2 data000")
        waits.before("create -s64 -c32768 set.par2 data000")
        waits.row("purge: these 17 files", "purge set.par2")
        waits.fresh(100, 1 << 15)
        waits.before("create -s4096 -c100 set.par2 " + " ".join(sorted(os.listdir(waits.found))))
        waits.damage(4096)
        waits.row("repair: a slice of 4 KiB in each of 100 files of 32 KiB", "repair set.par2")


if __name__ == "__main__":
    if len(sys.argv) != 2:
        sys.exit(__doc__)
    main(sys.argv[1])
