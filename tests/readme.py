#!/usr/bin/env python3
"""Runs the session that README.md shows, and compares what it prints.

The file is that of `make demo`, with one slice overwritten after the create.

usage: readme.py [PROGRAM]     PROGRAM is crates/par2/out/par2 without the word
"""
import os
import re
import subprocess
import sys
import tempfile

ROOT = os.path.join(os.path.dirname(os.path.realpath(__file__)), "..")


def run(program, room, line):
    ran = subprocess.run([program, *line.split()[1:]], cwd=room, capture_output=True, text=True, check=False)
    return ran.stdout + ran.stderr


def main(program):
    with open(f"{ROOT}/README.md", encoding="utf8") as page:
        session = re.search(r"```\n(\$ .*?)```", page.read(), re.S)[1]
    with tempfile.TemporaryDirectory() as room:
        with open(f"{room}/numbers.txt", "w") as file:
            file.write("".join(f"{number}\n" for number in range(1, 33334)))
        run(program, room, "par2 create -s4096 -c10 numbers.par2 numbers.txt")
        with open(f"{room}/numbers.txt", "r+b") as file:
            file.seek(100000)
            file.write(b"lost")
        os.remove(f"{room}/.par2undo")
        said = "".join(f"$ {line}\n{run(program, room, line)}" for line in re.findall(r"^\$ (.*)$", session, re.M))
    if said != session:
        print(f"README.md shows another session than this:\n{said}")
        return 1
    print(f"the session of README.md: {len(session.splitlines())} lines")
    return 0


if __name__ == "__main__":
    sys.exit(main(os.path.realpath(sys.argv[1] if len(sys.argv) > 1 else f"{ROOT}/crates/par2/out/par2")))
