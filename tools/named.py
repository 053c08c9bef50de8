#!/usr/bin/env python3
"""Checks that what the pages name exists. In the tables of promises, `call` (`clause`, ..) names clauses of that function,
or of functions of that type or trait, and names after a colon are fields of records that these clauses cite. Each other name
between backquotes is one of the sources. On the pages about the code, and in the crates' READMEs, each name between
backquotes is one of the sources or of a file.

usage: named.py
"""
import glob
import os
import re
import sys

TOP = os.path.join(os.path.dirname(os.path.realpath(__file__)), "..")
CALL = re.compile(r"`([\w:]+)`(?:, `([\w:]+)`)* \(((?:`\w+`(?:, )?)+)\)")
CLAUSE = re.compile(r"^ *ensures\*? (\w+) \{(.*?)\};?$", re.M | re.S)
# A definition, with the lines below it that are indented more.
DEFINITION = re.compile(r"^( *)(?:abbrev )?pub (record )?(\w+).*\n((?:\1 +.*\n|\1\3 .*\n)*)", re.M)
FIELD = re.compile(r"^ *pub (\w+) :", re.M)
PROMISES = {"README.md": "## What is proved", "docs/PROMISES.md": "## The headline"}
# Pages about the code, and what else they name: a system call, and variables of formulas.
OF_CODE = ["docs/ARCHITECTURE.md", "docs/DECISIONS.md", "crates/*/README.md"]
OTHERS = re.compile(r"flock|[a-z]_[a-z]")


def sources():
    for pattern in ("src/**/*.rt", "specs/*.antt"):
        for path in glob.glob(f"{TOP}/crates/par2*/{pattern}", recursive=True):
            with open(path, encoding="utf8") as file:
                yield file.read()


def clauses_of(name, texts):
    """Returns the clauses of all functions of this name, or of those in a file that defines such a type, with their texts."""
    function = re.compile(rf"fn {name.split('::')[-1]}\b.*?\n *(?:\{{|;)?$", re.S | re.M)
    found = [clause for text in texts for head in function.finditer(text) for clause in CLAUSE.findall(head[0])]
    types = [text for text in texts if re.search(rf"(trait|struct|enum) {name}\b", text)]
    return found + [clause for text in types for clause in CLAUSE.findall(text)]


def fields_of(text, definitions, seen):
    """Returns the fields of the records that this text names, by itself or by definitions."""
    found = set()
    for name in {*re.findall(r"\w+", text)} - seen & {*definitions}:
        for is_record, body in definitions.get(name, []):
            found |= {*FIELD.findall(body)} if is_record else fields_of(body, definitions, seen | {name})
    return found


def heads(text):
    """Returns the source without function bodies: a head ends at a line that is a brace, or with the clause's `;`."""
    return re.sub(r"(?m)^( *)\{\n(?:.*\n)*?\1\}$", r"\1{", text)


def missing(page, texts):
    """Returns what a page's tables name and the sources don't have."""
    words, definitions = set(re.findall(r"\w+", "\n".join(texts))), {}
    for _, is_record, name, body in (it for text in texts for it in DEFINITION.findall(text)):
        definitions.setdefault(name, []).append((is_record, body))
    for row in re.findall(r"^\| .*\|$", page, re.M):
        for cell in row.strip("| ").split(" | ")[1:]:
            for call in CALL.finditer(cell):
                calls = re.findall(r"`([\w:]+)`", call[0].split(" (")[0])
                known = [clause for it in calls for clause in clauses_of(it, texts)]
                named = re.findall(r"\w+", call[3])
                yield from (f"{calls[-1]} ({it})" for it in named if it not in {clause for clause, _ in known})
                cited = " ".join(text for clause, text in known if clause in named)
                after = CALL.split(cell[call.end():])[0] if cell[call.end():].startswith(":") else ""
                fields = fields_of(cited, definitions, set()) if after else set()
                yield from (f"{calls[-1]} ({', '.join(named)}): {it}" for it in re.findall(r"`(\w+)`", after) if it not in fields)
            yield from (it for it in re.findall(r"`([A-Za-z_]\w+)`", cell) if it not in words)


def text_of(path):
    with open(f"{TOP}/{path}", encoding="utf8") as file:
        return file.read()


def known_names(texts):
    """Returns the words of the sources, and the names and paths of files."""
    paths = [os.path.relpath(it, TOP) for depth in ("*", "*/*", "*/*/*", "*/*/*/*") for it in glob.glob(f"{TOP}/{depth}")]
    return {*re.findall(r"\w+", "\n".join(texts)), *paths, *(part for path in paths for part in path.split("/"))}


def unknown(page, words):
    """Returns the names between backquotes of a page about the code that are not among these words."""
    for name in sorted(set(re.findall(r"`([A-Za-z_][\w:.]*)`", re.sub(r"```.*?```", "", page, flags=re.S)))):
        if name not in words and not OTHERS.fullmatch(name) and any(it not in words for it in re.split(r"::|\.", name)):
            yield f"`{name}`"


def main():
    texts = [*sources()]
    short = [heads(it) for it in texts]
    found = [(path, it) for path, begin in PROMISES.items() for it in missing(promises_of(text_of(path), begin), short)]
    words = known_names(texts)
    for path in sorted(os.path.relpath(it, TOP) for pattern in OF_CODE for it in glob.glob(f"{TOP}/{pattern}")):
        found += [(path, it) for it in unknown(text_of(path), words)]
    for path, it in found:
        print(f"{path}: there is no {it}")
    return 1 if found else 0


def promises_of(page, begin):
    """Returns what a page says from this line on, without what commands write."""
    return re.sub(r"<!-- (\w+) -->.*?<!-- end of \1 -->", "", page[page.index(begin):], flags=re.S)


if __name__ == "__main__":
    sys.exit(main())
