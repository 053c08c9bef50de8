#!/usr/bin/env python3
"""Runs the test command and prints what it costs, crate by crate, in seconds of processor time.

usage: gate_cost.py [COMMAND..]     (without words: make test)

While the command runs, its processes are looked at ten times a second. A process of the prover names its crate; one
that checks an edited copy is known by the folder that it works in. So each figure lacks at most a tenth of a second
for each process. What the command prints goes to standard error, the tables to standard output.

The longest chain is what more processors can't shorten: a crate's proof waits for the proofs of the libraries below
it, its tests too, and its must-fail edits for its proof and its tests.
"""
import os
import subprocess
import sys
import time

TICKS = os.sysconf("SC_CLK_TCK")
KINDS = ["proof", "tests", "edits", "program"]
WAIT = 0.1


def libraries():
    """Returns the crates that each crate depends on."""
    below = {}
    with open("crates.txt") as lines:
        for line in lines:
            name, _, names = line.split("#")[0].partition(":")
            if name.strip():
                below[name.split()[0]] = names.split()
    return {name: [it for it in names if it in below] for name, names in below.items()}


def processes():
    """Returns each process by its number: its parent, when it began, and its processor time in seconds."""
    found = {}
    for number in filter(str.isdigit, os.listdir("/proc")):
        try:
            with open(f"/proc/{number}/stat") as file:
                text = file.read()
        except OSError:
            continue
        fields = text[text.rindex(")") + 2 :].split()
        found[int(number)] = int(fields[1]), fields[19], (int(fields[11]) + int(fields[12])) / TICKS
    return found


def below(root, found):
    """Returns the numbers of the processes that the process `root` began, and of those that they began."""
    children = {}
    for number, (parent, _, _) in found.items():
        children.setdefault(parent, []).append(number)
    reached, left = [], [root]
    while left:
        number = left.pop()
        reached.append(number)
        left += children.get(number, [])
    return [it for it in reached if it in found]


def place_of(number):
    """Returns the crate and the kind of work of a process, or None if it is no work on a crate."""
    try:
        with open(f"/proc/{number}/cmdline", "rb") as file:
            words = file.read().decode(errors="replace").split("\0")
        folder = os.readlink(f"/proc/{number}/cwd")
    except OSError:
        return None
    if "--crate-name" not in words:
        return None
    crate = words[words.index("--crate-name") + 1]
    if "rt-edit-" in folder:
        return crate, "edits"
    if "--test" in words:
        return crate, "tests"
    return crate, "program" if "--crate-checked" in words else "proof"


def watched(command):
    """Runs the command and returns its status, its seconds by the clock, and what each of its processes did."""
    begin, seen = time.time(), {}
    running = subprocess.Popen(command, stdout=sys.stderr)
    while running.poll() is None:
        found = processes()
        for number in below(running.pid, found):
            _, began, seconds = found[number]
            # a process that was just begun may still have its parent's words
            if (number, began) not in seen or seen[number, began][2] < 5:
                looks = seen.get((number, began), (None, 0, 0))[2] + 1
                seen[number, began] = place_of(number), seconds, looks
            else:
                place, _, looks = seen[number, began]
                seen[number, began] = place, seconds, looks
        time.sleep(WAIT)
    return running.returncode, time.time() - begin, seen.values()


def edit_counts(crates):
    """Returns how many must-fail edits each crate has."""
    counts = {}
    for crate in crates:
        folder = f"crates/{crate}/must-fail"
        if os.path.isdir(folder):
            counts[crate] = len([it for it in os.listdir(folder) if it.endswith(".edit")])
    return counts


def chains(crates, spent):
    """Returns for each crate the longest chain of work that ends with it, and the crates of that chain."""
    proofs = {}

    def proof(crate):
        if crate not in proofs:
            before = max((proof(it) for it in crates[crate]), default=(0, []))
            proofs[crate] = before[0] + spent.get((crate, "proof"), 0), before[1] + [crate]
        return proofs[crate]

    ends = []
    for crate, names in crates.items():
        before = max((proof(it) for it in names), default=(0, []))
        tested = before[0] + spent.get((crate, "tests"), 0), before[1] + [crate]
        seconds, through = max(proof(crate), tested)
        ends.append((seconds + spent.get((crate, "edits"), 0) + spent.get((crate, "program"), 0), through))
    return sorted(ends, reverse=True)


def table(crates, spent, others, clock):
    """Prints the tables."""
    counts = edit_counts(crates)
    rows = []
    for crate in crates:
        parts = [spent.get((crate, kind), 0) for kind in KINDS]
        rows.append((sum(parts), crate, parts))
    print("| Crate | Proof | Tests | Edits | Count | Mean | Program | Sum |")
    print("|---|---|---|---|---|---|---|---|")
    for whole, crate, (proof, tests, edits, program) in sorted(rows, reverse=True):
        count = counts.get(crate, 0)
        mean = f"{edits / count:.0f}" if count else ""
        print(f"| {crate} | {proof:.0f} | {tests:.0f} | {edits:.0f} | {count} | {mean} | {program:.0f} | {whole:.0f} |")
    sums = [sum(parts[k] for _, _, parts in rows) for k in range(len(KINDS))]
    count = sum(counts.values())
    mean = sums[2] / max(count, 1)
    print(f"| all | {sums[0]:.0f} | {sums[1]:.0f} | {sums[2]:.0f} | {count} | {mean:.0f} | {sums[3]:.0f} | {sum(sums):.0f} |")
    seconds, through = chains(crates, spent)[0]
    print()
    print(f"processor time: {(sum(sums) + others) / 60:.1f} minutes, of which {others / 60:.1f} on no crate's proof or build")
    print(f"by the clock: {clock / 60:.1f} minutes")
    print(f"longest chain: {seconds / 60:.1f} minutes: {', '.join(through)}")


def main():
    os.chdir(os.path.join(os.path.dirname(os.path.abspath(__file__)), ".."))
    status, clock, seen = watched(sys.argv[1:] or ["make", "test"])
    spent, others = {}, 0
    for place, seconds, _ in seen:
        if place:
            spent[place] = spent.get(place, 0) + seconds
        else:
            others += seconds
    table(libraries(), spent, others, clock)
    return status


if __name__ == "__main__":
    sys.exit(main())
