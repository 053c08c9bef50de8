#!/usr/bin/env python3
"""Prints what an auditor has to read to know what the program promises: the contract of `run`, the call that `main`
makes, and each definition of this repository that its clauses reach, down to the field and to the toolchain's library.

usage: reading_list.py [--text | --check PAGE | --write PAGE]
Without a word it prints the modules, lowest first, with the number of their definitions that are reached, and their lines
without comments; modules of one crate that follow one another are one row. --text prints the definitions themselves in
that order. --check compares the rows with those of the page, and --write writes them there.
"""
import glob
import itertools
import os
import re
import sys

import page

TOP = os.path.join(os.path.dirname(os.path.realpath(__file__)), "..")
HEADLINE = "crates/par2_tool/src/headline.rt"
START = re.compile(r" *(?:(?:pub|abbrev|unfoldable|opaque|private|record|data) )*(?:abbrev|unfoldable|opaque|record|data|pub) ([A-Za-z_]\w*)")
FIELD = re.compile(r" +pub \w+ :")
TOKEN = re.compile(r"[A-Za-z_][A-Za-z0-9_]*(?:\.[A-Za-z_][A-Za-z0-9_]*)*")
IMPORT = re.compile(r"(?:(?:ghost|unfoldable) )?(?:pub )?use Rattle\.([A-Za-z0-9_.]+?)(?:\.\{([^}]*)\})?(?: as ([A-Za-z_]\w*))?;?$")


def imports_of(lines):
    """Returns the modules that short names stand for, and where each imported name comes from."""
    modules, names = {}, {}
    for line in lines:
        found = IMPORT.match(line.strip())
        if not found:
            continue
        module, listed, alias = found.groups()
        if listed is None:
            modules[alias or module.split(".")[-1]] = module
            continue
        if alias:
            modules[alias] = module
        for item in listed.split(","):
            name, _, other = item.strip().partition(" as ")
            names[other or name] = module, name
    return modules, names


class Module:
    """A file of definitions: its imports, and the lines of each definition with the comment above it."""

    def __init__(self, path):
        with open(path, encoding="utf8") as file:
            lines = file.read().split("\n")
        self.modules, self.names = imports_of(lines)
        self.definitions, self.order = {}, []
        name, comment = None, []
        for line in lines:
            begins = START.match(line)
            if begins and not FIELD.match(line):
                name = begins[1]
                self.definitions[name] = [*comment, line]
                self.order.append(name)
                comment = []
            elif line.strip().startswith("--") and not (name and line.startswith("  ")):
                name, comment = None, [*comment, line]
            elif not line.strip() or line.startswith(("use ", "module ")):
                name, comment = None, []
            elif name:
                self.definitions[name].append(line)


def modules_of_repository():
    """Returns each module of definitions of the repository by its name."""
    found = {}
    for path in sorted(glob.glob(f"{TOP}/crates/*/specs/*.antt")):
        crate, file = path.split("/crates/")[1].split("/specs/")
        if file != "Lib.antt":
            found[f"{crate}.specs.{file[:-5]}"] = Module(path)
    return found


def code_of(lines):
    return [line.split(" -- ")[0] for line in lines if line.strip() and not line.strip().startswith("--")]


def home_of(module, name, all_modules):
    """Returns the module that defines the name, where `module` passes it on, and its name there."""
    while module in all_modules and name not in all_modules[module].definitions and name in all_modules[module].names:
        module, name = all_modules[module].names[name]
    return module, name


def cited(text, modules, names, own, all_modules):
    """Returns the definitions of the repository that these lines name."""
    for token in set(TOKEN.findall(text)):
        first, _, rest = token.partition(".")
        if token in own[1]:
            yield own[0], token
        elif first in names and (home := home_of(*names[first], all_modules))[0] in all_modules:
            yield home
        elif rest and first in modules and modules[first] in all_modules:
            yield modules[first], rest.split(".")[0]
        elif first in own[1]:
            yield own[0], first


def contract_of_run():
    with open(f"{TOP}/{HEADLINE}", encoding="utf8") as file:
        lines = file.read().split("\n")
    start = next(i for i, line in enumerate(lines) if line.startswith("pub fn run"))
    end = next(i for i in range(start, len(lines)) if lines[i] == "{")
    return lines, lines[start:end]


def reached(modules):
    """Returns the names that the contract of `run` reaches, by module."""
    lines, contract = contract_of_run()
    aliases, names = imports_of(lines)
    text = "\n".join(line for line in contract if not line.strip().startswith("//"))
    waiting = list(cited(text, aliases, names, ("", ()), modules))
    found = {}
    while waiting:
        module, name = waiting.pop()
        it = modules[module]
        if name not in it.definitions or name in found.setdefault(module, set()):
            continue
        found[module].add(name)
        body = "\n".join(code_of(it.definitions[name]))
        waiting += cited(body, it.modules, it.names, (module, it.definitions), modules)
    return {module: names for module, names in found.items() if names}


def in_order(found, modules):
    """Returns the modules so that each comes after those that it cites, as far as that can be."""
    done = []

    def visit(name, above):
        if name in done or name in above:
            return
        it = modules[name]
        body = "\n".join("\n".join(code_of(it.definitions[d])) for d in found[name])
        for below in sorted({m for m, _ in cited(body, it.modules, it.names, (name, it.definitions), modules)}):
            if below in found:
                visit(below, above | {name})
        done.append(name)

    for name in sorted(found):
        visit(name, frozenset())
    return done


def rows(found, modules):
    yield from ["| Crate | Definitions | Number | Lines |", "|---|---|---|---|"]
    sums = [0, 0]
    for crate, names in itertools.groupby(in_order(found, modules), key=lambda name: name.split(".")[0]):
        names = list(names)
        count = sum(len(found[name]) for name in names)
        lines = sum(len(code_of(modules[name].definitions[it])) for name in names for it in found[name])
        sums = [sums[0] + count, sums[1] + lines]
        listed = ", ".join(f"`{name.split('.')[2]}`" for name in names)
        yield f"| `{crate}` | {listed} | {count} | {lines} |"
    contract = [line for line in contract_of_run()[1] if not line.strip().startswith("//")]
    yield f"| `par2_tool` | the contract of `run` | 1 | {len(contract)} |"
    yield f"| all | | {sums[0] + 1} | {sums[1] + len(contract)} |"


def main(words):
    modules = modules_of_repository()
    found = reached(modules)
    if words != ["--text"]:
        return page.settle(words, "reading_list", list(rows(found, modules)))
    for name in in_order(found, modules):
        print(f"==== {name}\n")
        for definition in modules[name].order:
            if definition in found[name]:
                print("\n".join(modules[name].definitions[definition]), end="\n\n")
    return 0


if __name__ == "__main__":
    sys.exit(main(sys.argv[1:]))
