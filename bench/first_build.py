#!/usr/bin/env python3
"""Compares the first build of this tree with that of an earlier commit, from nothing, on all processors.

usage: first_build.py COMMIT      a commit whose tools/prove.py builds a program

Two trees stand in a folder of their own, and each builds `par2` as `make install` does. They take turns of TURN seconds:
one is stopped while the other runs. So both meet the same machine, whose speed may change by half from hour to hour, and
nothing runs beside either. Prints for each the time of its turns and the processor time, and the ratios. It takes as long as
both builds together.
"""
import os
import signal
import subprocess
import sys
import tempfile
import time

TURN = 10
TOP = os.path.join(os.path.dirname(os.path.realpath(__file__)), "..")


class Build:
    """A build that runs in turns."""

    def __init__(self, commit, folder):
        subprocess.run(["git", "clone", "-q", TOP, folder], check=True)
        subprocess.run(["git", "checkout", "-q", commit], cwd=folder, check=True)
        words = [sys.executable, "tools/prove.py", "par2", "x86-64-v2", f"{folder}.par2"]
        self.log = open(f"{folder}.log", "w")
        how = {"cwd": folder, "stdout": self.log, "stderr": self.log, "start_new_session": True}
        self.ran = subprocess.Popen(words, env={**os.environ, "PROVE_ANEW": "1"}, **how)
        self.wall, self.usage, self.status = 0, None, None
        self.send(signal.SIGSTOP)

    def send(self, number):
        """Sends a signal to each process of the build's session, also to those that it starts meanwhile."""
        sent = set()
        while new := {*self.processes()} - sent:
            for it in new:
                try:
                    os.kill(it, number)
                except ProcessLookupError:
                    pass
            sent |= new

    def processes(self):
        """Returns the processes of the build's session."""
        for it in filter(str.isdigit, os.listdir("/proc")):
            try:
                if os.getsid(int(it)) == self.ran.pid:
                    yield int(it)
            except ProcessLookupError:
                pass

    def turn(self):
        """Lets the build run for one turn, or until it ends."""
        start = time.monotonic()
        self.send(signal.SIGCONT)
        while self.status is None and time.monotonic() - start < TURN:
            time.sleep(0.1)
            ended, status, usage = os.wait4(self.ran.pid, os.WNOHANG)
            if ended:
                self.status, self.usage = os.waitstatus_to_exitcode(status), usage
        self.wall += time.monotonic() - start
        if self.status is None:
            self.send(signal.SIGSTOP)

    def processor(self):
        """Returns the seconds of processor time that the build took."""
        return self.usage.ru_utime + self.usage.ru_stime


def main(commit):
    with tempfile.TemporaryDirectory() as folder:
        builds = [Build(commit, f"{folder}/before"), Build("HEAD", f"{folder}/now")]
        while left := [it for it in builds if it.status is None]:
            for it in left:
                it.turn()
        for it in builds:
            if it.status:
                sys.exit(f"a build failed:\n{open(it.log.name).read()}")
    before, now = builds
    print(f"time, minutes: {before.wall / 60:.1f} before, {now.wall / 60:.1f} now: {now.wall / before.wall:.2f}")
    print(f"processor time: {before.processor() / 60:.1f} before, {now.processor() / 60:.1f} now: {now.processor() / before.processor():.2f}")


if __name__ == "__main__":
    if len(sys.argv) != 2:
        sys.exit(__doc__.strip())
    main(sys.argv[1])
