#!/usr/bin/env python3
"""Compares the recovery packets of two folders byte for byte. Each exponent of one is in the other, with the same packet.

usage: equal_recovery.py FOLDER FOLDER
"""
import os
import sys

from formats import HALVES, MAGIC

TYPE = b"PAR 2.0\0" + HALVES["recovery"]


def packets(data):
    """Yields the packets of a file that is as it was written."""
    at = 0
    while at < len(data):
        length = int.from_bytes(data[at + 8 : at + 16], "little")
        if data[at : at + 8] != MAGIC or length < 64:
            sys.exit(f"no packet at byte {at}")
        yield data[at : at + length]
        at += length


def recovery_of(folder):
    """Returns the recovery packets of a folder by their exponents."""
    found = {}
    for name in sorted(os.listdir(folder)):
        if name.endswith(".par2"):
            with open(os.path.join(folder, name), "rb") as file:
                for packet in packets(file.read()):
                    if packet[48:64] == TYPE:
                        found[int.from_bytes(packet[64:68], "little")] = packet
    return found


def main():
    ours, theirs = [recovery_of(folder) for folder in sys.argv[1:]]
    if not ours or ours.keys() != theirs.keys():
        sys.exit(f"{len(ours)} and {len(theirs)} recovery slices, not of the same exponents")
    for exponent, packet in ours.items():
        if packet != theirs[exponent]:
            sys.exit(f"the recovery slices of exponent {exponent} differ")
    print(len(ours))


main()
