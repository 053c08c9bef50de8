#!/usr/bin/env python3
"""Gathers what a crate's proof files import in its proofs/Common.antt, which passes it on, and rewrites their `use` lines.

usage: proof_imports.py CRATE..     at the top of the repository

A module from which two proof files take names, other than a proof file of the crate, goes to Common with those names.
If several modules have a name, Common takes it from the one that most files use. Names that a file
renames stay in that file; of those that a file unfolds, Common passes on the right to unfold, too. So a new proof
imports as it likes, and this tidies up behind it. What Common passes on is looked up first, so that a second run
changes nothing.
"""
import collections
import os
import re
import sys

USE = re.compile(r"^(?:unfoldable )?(?:pub )?use (Rattle\.[\w.\-]+)\.\{(.*)\}\s*$")
HEAD = "-- The names that proofs of this crate take from elsewhere.\n\n"


def names_in(text):
    return [name.strip() for name in text.split(",")]


def unfolded(lines):
    """Returns the names that a file unfolds."""
    words = [line.split()[1:] for line in lines if line.strip().startswith("unfolding ")]
    words += [found.split() for line in lines for found in re.findall(r"\bunfold (.*?) in\b", line)]
    return {name for found in words for name in found}


class Crate:
    """The proof files of a crate, as lines, with what they import from Common looked up."""

    def __init__(self, name):
        self.root, self.own, self.opened = f"crates/{name}/proofs", f"Rattle.{name}.proofs.", set()
        self.common, self.files = f"{self.root}/Common.antt", {}
        homes = {}
        if os.path.isfile(self.common):
            for line in open(self.common, encoding="utf8"):
                if found := USE.match(line):
                    homes |= dict.fromkeys(names_in(found[2]), found[1])
        for folder, _, names in os.walk(self.root):
            for path in (f"{folder}/{it}" for it in names if it.endswith(".antt")):
                if path not in (self.common, f"{self.root}/Lib.antt"):
                    with open(path, encoding="utf8") as file:
                        self.files[path] = [*self.looked_up(file.read().split("\n"), homes)]

    def looked_up(self, lines, homes):
        for line in lines:
            found = USE.match(line)
            if not found or found[1] != f"{self.own}Common":
                yield line
                continue
            modules = collections.defaultdict(list)
            for name in names_in(found[2]):
                modules[homes[name]].append(name)
            yield from (f"use {module}.{{{', '.join(names)}}}" for module, names in modules.items())

    def passed_on(self, line):
        """Returns the module of a `use` line and those of its names that Common may pass on."""
        found = USE.match(line)
        if not found or found[1].startswith(self.own) or ".contracts." in f"{found[1]}.":
            return None, []
        return found[1], [it for it in names_in(found[2]) if " as " not in it and "." not in it]

    def modules(self):
        """Returns the modules that Common takes names from, each with these names."""
        users = collections.defaultdict(lambda: collections.defaultdict(set))
        opened = set()
        for path, lines in self.files.items():
            opens = unfolded(lines)
            for line in lines:
                module, names = self.passed_on(line)
                for name in names:
                    users[name][module].add(path)
                    if name in opens:
                        opened.add((name, module))
        homes = {
            name: min(of, key=lambda it: ((name, it) not in opened, -len(of[it]), it)) for name, of in users.items()
        }
        self.opened = {name for name, module in opened if homes[name] == module}
        files, names = collections.defaultdict(set), collections.defaultdict(list)
        for name, module in homes.items():
            files[module] |= users[name][module]
            names[module].append(name)
        return {module: names[module] for module in files if len(files[module]) > 1}

    def rewritten(self, lines, homes):
        taken, out, place = [], [], None
        for line in lines:
            module, names = self.passed_on(line)
            moved = [it for it in names if homes.get(it) == module]
            if not moved:
                out.append(line)
                continue
            taken += moved
            place = len(out) if place is None else place
            if rest := [it for it in names_in(USE.match(line)[2]) if it not in moved]:
                out.append(f"use {module}.{{{', '.join(rest)}}}")
        if taken:
            out.insert(place, f"use {self.own}Common.{{{', '.join(dict.fromkeys(taken))}}}")
        return out

    def write(self):
        modules = self.modules()
        homes = {name: module for module, names in modules.items() for name in names}
        for path, lines in self.files.items():
            with open(path, "w", encoding="utf8") as file:
                file.write("\n".join(self.rewritten(lines, homes)))
        if not modules:
            return
        order = sorted(modules, key=lambda it: (not it.startswith("Rattle.std."), it))
        with open(self.common, "w", encoding="utf8") as file:
            file.write(HEAD)
            for it in order:
                for mark, opens in ("", False), ("unfoldable ", True):
                    if names := sorted(name for name in modules[it] if (name in self.opened) == opens):
                        file.write(f"{mark}pub use {it}.{{{', '.join(names)}}}\n")
        self.declare()

    def declare(self):
        lib = f"{self.root}/Lib.antt"
        text = open(lib, encoding="utf8").read() if os.path.isfile(lib) else ""
        if not re.search(r"^(pub )?mod Common$", text, re.M):
            with open(lib, "w", encoding="utf8") as file:
                file.write("mod Common\n" + text)


if __name__ == "__main__":
    if len(sys.argv) < 2:
        sys.exit("usage: proof_imports.py CRATE..")
    for name in sys.argv[1:]:
        Crate(name).write()
