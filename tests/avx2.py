#!/usr/bin/env python3
"""Builds par2 for x86-64-v3 too, if the processor has it, and runs the lines of tests/commands/run.py on it.

The libraries are those that the gate has just proved. The program is proved once more, because the gate keeps nothing of
a program's proof; so it is a few lines over libraries.
"""
import os
import subprocess
import sys

TOP = os.path.join(os.path.dirname(os.path.realpath(__file__)), "..")
sys.path.insert(0, f"{TOP}/tools")
import rt_module  # noqa: E402

PROGRAM, TARGET = "par2", "x86-64-v3"


def has_target():
    said = subprocess.run(["sh", "tools/processor.sh"], check=True, capture_output=True, text=True)
    return said.stdout.strip() == TARGET


def main():
    if not has_target():
        print(f"{PROGRAM} is not built for {TARGET}: the machine's processor is less")
        return 0
    program = rt_module.built_for(os.getcwd(), PROGRAM, TARGET)
    sys.stdout.flush()
    if not program or subprocess.run([sys.executable, "tests/commands/run.py", program], check=False).returncode:
        print(f"{PROGRAM} for {TARGET} FAILED")
        return 1
    print(f"{PROGRAM}, built for {TARGET}, answers as it does for x86-64-v2")
    return 0


os.chdir(TOP)
sys.exit(main())
