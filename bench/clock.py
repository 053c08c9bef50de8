#!/usr/bin/env python3
"""Adds the milliseconds of a run to a file, a number a line, and those of the processor that the run itself took (user) to
another one, TIMES.user. What starts the run, and what reads the clock, isn't counted.

usage: clock.py TIMES STATUS SAID COMMAND..     SAID gets what the command prints; another status than STATUS is an error
"""
import resource
import subprocess
import sys
import time


def add(times, taken):
    with open(times, "a") as file:
        file.write(f"{taken:.{1 if taken < 100 else 0}f}\n")


def user():
    return resource.getrusage(resource.RUSAGE_CHILDREN).ru_utime


def main(times, status, said, *command):
    with open(said, "wb") as output:
        begun = time.perf_counter()
        ended = subprocess.run(command, stdout=output, stderr=subprocess.STDOUT).returncode
        taken = 1000 * (time.perf_counter() - begun)
        of_processor = 1000 * user()
    if ended != int(status):
        with open(said, errors="replace") as output:
            sys.exit(f"{output.read()}{' '.join(command)}: status {ended}, and not {status}")
    add(times, taken)
    add(f"{times}.user", of_processor)


if __name__ == "__main__":
    main(*sys.argv[1:])
