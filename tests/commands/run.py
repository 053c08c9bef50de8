#!/usr/bin/env python3
"""Runs the commands of the file `lines` in real folders, and compares with the file `expected`. At the first difference
it prints that and ends with status 1.

A line is a word, a space and the word's arguments. The words are in class Words and the classes that it names.

usage: run.py [PROGRAM]     PROGRAM is crates/par2/out/par2 without the word
"""
import hashlib
import os
import shutil
import subprocess
import sys
import tempfile
from collections import namedtuple
from functools import partial

HERE = os.path.dirname(os.path.realpath(__file__))
sys.path.insert(0, os.path.join(HERE, ".."))
from formats import (  # noqa: E402
    HALVES,
    HEADING,
    JOURNAL,
    MAGIC,
    RENAME,
    REMOVE,
    REPLACE,
    WRITE,
    counted,
    digest_of,
    fingerprint_of,
    md5,
    named,
    number,
    packet,
    sealed,
)

LINES = os.path.join(HERE, "lines")
EXPECTED = os.path.join(HERE, "expected")
DATA = os.path.join(HERE, "data")
PROGRAM = os.path.join(HERE, "../../crates/par2/out/par2")

# The free memory that is needed to have the folders in memory.
ROOM = 1 << 30
# More than a run takes.
SECONDS = 600

# Of a file with more bytes only the length is printed.
SHORT_FILE = 32
# Of an output with more bytes only their number is printed.
SHORT_TEXT = 1024
# Of more files only the number is printed.
FEW = 9
# More commands than a history has.
MANY = 200

# What is done with a folder with a forged journal: it is opened, or the words of a line are run in it.
OPEN, VERIFY = "open", "verify s.par2"
WAYS = [OPEN, VERIFY, "undo", "redo", "create -s4 -c0 u.par2 a"]
INVALID = b"par2: the journal is not valid\n"
CHANGED = b"par2: the folder is not as the journal left it\n"

# A set of no files, made by another program from the format alone.
SET = bytes.fromhex(
    "5041523200504b544c000000000000007efc07144ec6ab2a575f9c50bb3043a5"
    "48bb7051aaabc4ed4e39bd40390991a150415220322e30004d61696e00000000"
    "040000000000000000000000"
)

ESCAPES = {"\0": "\\0", "\t": "\\t", "\r": "\\r", "\n": "\\n", '"': '\\"', "\\": "\\\\"}


class Difference(Exception):
    """Something else was said than what is expected."""


def text_of(data):
    return data.decode(errors="replace")


def quoted(text):
    """Returns the string between quotes, with unprintable characters escaped."""
    shown = (c if c.isprintable() else f"\\u{{{ord(c):x}}}" for c in text)
    return '"' + "".join(ESCAPES.get(c, s) for c, s in zip(text, shown)) + '"'


def last_line(text):
    return ["", *filter(None, text.split("\n"))][-1]


def truth(value):
    return "true" if value else "false"


def parted(line):
    """Returns the first word and the rest of a line."""
    word, _, rest = line.partition(" ")
    return word, rest


# Bytes as a line gives them, one term after the other: `text:abc`, `hex:00ff`, `md5:abc` for the digest of a string,
# `4:7` and `8:7,9` for numbers of four and of eight bytes, the lowest first, and `100*hex:00` for a term repeated. Of a
# journal's changes, `write:NAME:TEXT`, `replace:NAME:TEXT`, `rename:FROM:TO` and `remove:NAME`.


def change(kind, rest):
    name, _, more = rest.partition(":")
    front = bytes([kind]) + named(name)
    if kind in (WRITE, REPLACE):
        return front + counted(more.encode())
    return front + named(more) if kind == RENAME else front


def many_names(count):
    return [f"f{10000 + k}" for k in range(int(count))]


def many_writes(count):
    """Returns changes that write this many empty files, in the order of their names."""
    return b"".join(change(WRITE, name) for name in many_names(count))


def many_prints(count):
    """Returns the fingerprints of the folders that a command goes through which takes those files away, the last one
    first. The folder has two more files before them and a set behind them."""
    hasher = hashlib.md5(b"".join(map(counted, (b"a", b"abcdefgh", b"b", b"xyz"))))
    prints = []
    for name in many_names(count):
        whole = hasher.copy()
        whole.update(counted(b"s.par2") + counted(SET))
        prints.append(whole.digest())
        hasher.update(counted(name.encode()) + counted(b""))
    return b"".join(reversed(prints))


TERMS = {
    "text": str.encode,
    "hex": bytes.fromhex,
    "md5": lambda rest: md5(rest.encode()),
    "4": lambda rest: number(int(rest), 4),
    "8": lambda rest: b"".join(number(int(value)) for value in rest.split(",")),
    "write": partial(change, WRITE),
    "replace": partial(change, REPLACE),
    "rename": partial(change, RENAME),
    "remove": partial(change, REMOVE),
    "writes": many_writes,
    "prints": many_prints,
}


def term_bytes(term):
    count, star, repeated = term.partition("*")
    if star:
        return term_bytes(repeated) * int(count)
    kind, _, rest = term.partition(":")
    return TERMS[kind](rest)


def bytes_told(terms):
    return b"".join(map(term_bytes, terms.split()))


# Bytes that are cut at each place, or have one of them changed.


def damaged(data, damage, place):
    """Returns the bytes cut at the place, or with these bits of the byte there flipped."""
    if damage == "cut":
        return data[:place]
    if place == len(data):
        return data
    return data[:place] + bytes([data[place] ^ int(damage)]) + data[place + 1 :]


def at_each_place(data, damage):
    """Returns the bytes with the damage at each place, and behind these without it."""
    return [damaged(data, damage, place) for place in range(len(data) + 1)]


def with_true_digests(journal, damage):
    """Returns a journal with the damage at each place before its digest, and with true digests then."""
    return [body + md5(body) for body in at_each_place(journal[:-16], damage)]


class Pattern:
    """Bytes without a pattern, by xorshift."""

    MASK = (1 << 64) - 1

    def __init__(self):
        self.state = 0x9E3779B97F4A7C15
        self.made = bytearray()

    def next_byte(self):
        state = self.state
        state ^= state << 13 & self.MASK
        state ^= state >> 7
        state ^= state << 17 & self.MASK
        self.state = state
        return state >> 56

    def first(self, length):
        self.made.extend(self.next_byte() for _ in range(length - len(self.made)))
        return bytes(self.made[:length])


class Folder:
    """A real folder: its files, and its journal, which is none of these."""

    def __init__(self, path):
        self.path = path
        os.mkdir(path)

    def path_of(self, name):
        return os.path.join(self.path, name)

    def names(self):
        names = (name for name in os.listdir(self.path) if name != JOURNAL)
        return sorted(names, key=os.fsencode)

    def read(self, name):
        with open(self.path_of(name), "rb") as file:
            return file.read()

    def put(self, name, data):
        with open(self.path_of(name), "wb") as file:
            file.write(data)

    def rename(self, name, other):
        os.rename(self.path_of(name), self.path_of(other))

    def remove(self, name):
        os.remove(self.path_of(name))

    def files(self):
        """Returns the bytes of each file by its name, in the order of the names."""
        return {name: self.read(name) for name in self.names()}

    def fingerprint(self):
        return fingerprint_of(self.files())

    def has_journal(self):
        return os.path.exists(self.path_of(JOURNAL))

    def journal(self):
        return self.read(JOURNAL) if self.has_journal() else None

    def put_journal(self, data):
        self.put(JOURNAL, data)

    def clear(self):
        for name in os.listdir(self.path):
            self.remove(name)

    def hold(self, files, journal=None):
        """Makes these its files, and this its journal, if there is one."""
        self.clear()
        for name, data in files.items():
            self.put(name, data)
        if journal is not None:
            self.put_journal(journal)


class Answer(namedtuple("Answer", "status out err")):
    """The result of a run: its status, and the bytes that it wrote on its two writers."""

    def text(self):
        return text_of(self.out + self.err)

    def told(self):
        return f"{self.status} {quoted(self.text())}"

    def told_shortly(self):
        length = len(self.text().encode())
        return self.told() if length <= SHORT_TEXT else f'{self.status} "{length} bytes"'


class Program:
    """The program, and the number of its runs."""

    def __init__(self, path):
        self.path = os.path.realpath(path)
        self.runs = 0

    def run(self, folder, line):
        """Runs the words of a line in a folder."""
        self.runs += 1
        how = {"cwd": folder.path, "stdin": subprocess.DEVNULL, "capture_output": True, "timeout": SECONDS}
        ran = subprocess.run([self.path, *line.split()], check=False, **how)
        return Answer(ran.returncode, ran.stdout, ran.stderr)


class Output:
    """The lines that are printed, compared with those that are expected."""

    def __init__(self, expected):
        self.expected = expected
        self.place = 0

    def say(self, text):
        text += "\n"
        if not self.expected.startswith(text, self.place):
            raise Difference(self.difference(text))
        self.place += len(text)

    def end(self):
        if self.place != len(self.expected):
            raise Difference(self.difference(""))

    def difference(self, text):
        """Returns the expected lines, as many as the output has, and the output."""
        wanted = self.expected[self.place :].split("\n")[: max(1, text.count("\n"))]
        number = self.expected.count("\n", 0, self.place) + 1
        shown = [f"line {number} of {os.path.basename(EXPECTED)}:"]
        shown += [f"- {line}" for line in wanted]
        return "\n".join(shown + [f"+ {line}" for line in text.splitlines()])


class Runs:
    """Runs in a folder, and what comes of them."""

    def __init__(self, folder, program, output):
        self.folder = folder
        self.program = program
        self.say = output.say

    def run(self, line):
        return self.program.run(self.folder, line)

    def told(self, line):
        """Runs the words of a line, and prints the status and the bytes that the writers got."""
        answer = self.run(line)
        self.say(f"[{line}] {answer.status}")
        for writer, data in (("output", answer.out), ("error", answer.err)):
            if data:
                self.say(f"  {writer} {quoted(text_of(data))}")

    def show(self, _=""):
        """Prints the files with their lengths, and the journal's length."""
        for name, data in self.folder.files().items():
            self.say(f"  file {name}: {len(data)}")
        journal = self.folder.journal()
        self.say("  no journal" if journal is None else f"  journal: {len(journal)}")

    def row(self, line):
        self.told(line)
        self.show()

    def show_bytes(self, file_told):
        """Prints each file, and its bytes if they are few."""
        for name, data in self.folder.files().items():
            told = f"{len(data)} bytes" if len(data) > SHORT_FILE else quoted(text_of(data))
            self.say(f"{file_told(name)}: {told}")

    def shown(self, line):
        self.told(line)
        self.show_bytes("  {}".format)

    def leads_to(self, line, wanted, when):
        """Runs the words of a line, and prints whether the folder then has this fingerprint."""
        self.told(line)
        self.say(f"  files as {when}: {truth(self.folder.fingerprint() == wanted)}")

    def there_and_back(self, line):
        """Runs the words of a line, and undoes and redoes them."""
        before = self.folder.fingerprint()
        self.shown(line)
        after = self.folder.fingerprint()
        self.leads_to("undo", before, "before")
        self.leads_to("redo", after, "after")

    def say_kept(self, journal):
        self.say(f"  journal as before: {truth(self.folder.journal() == journal)}")

    def kept(self, line):
        journal = self.folder.journal()
        self.told(line)
        self.say_kept(journal)

    def row_kept(self, line):
        journal = self.folder.journal()
        self.row(line)
        self.say_kept(journal)

    def refused(self, line):
        """Runs the words of a line, and prints whether files and journal are as before."""
        journal = self.folder.journal()
        self.leads_to(line, self.folder.fingerprint(), "before")
        self.say_kept(journal)

    def written(self, line):
        """Runs the words of a line, and prints its output unchanged, and the status."""
        answer = self.run(line)
        self.say(f"{answer.text()}status: {answer.status}")

    def run_on(self, line):
        """Runs the words of a line until they are refused."""
        for count in range(MANY + 1):
            answer = self.run(line)
            if answer.status != 0:
                self.say(f"  {line}: {count}, then {answer.told_shortly()}")
                break

    def words(self):
        return {
            "run": self.run,
            "told": self.told,
            "row": self.row,
            "shown": self.shown,
            "return": self.there_and_back,
            "refused": self.refused,
            "kept": self.kept,
            "row-kept": self.row_kept,
            "show": self.show,
            "written": self.written,
            "run-on": self.run_on,
        }


class Changes:
    """Changes of the files and the journal of a folder, as another hand makes them."""

    def __init__(self, folder):
        self.folder = folder

    def new(self, _):
        self.folder.clear()

    def put(self, rest):
        name, text = parted(rest)
        self.folder.put(name, text.encode())

    def remove(self, name):
        self.folder.remove(name)

    def rename(self, rest):
        self.folder.rename(*parted(rest))

    def copy(self, rest):
        name, other = parted(rest)
        self.folder.put(other, self.folder.read(name))

    def append(self, rest):
        name, other = parted(rest)
        self.folder.put(other, self.folder.read(other) + self.folder.read(name))

    def journal(self, digits):
        self.folder.put_journal(bytes.fromhex(digits))

    def no_journal(self, _):
        self.folder.remove(JOURNAL)

    def load(self, name):
        """Gives the folder copies of the files of a folder beside this script."""
        shutil.copytree(os.path.join(DATA, name), self.folder.path, dirs_exist_ok=True)

    def words(self):
        return {
            "new": self.new,
            "put": self.put,
            "remove": self.remove,
            "rename": self.rename,
            "copy": self.copy,
            "append": self.append,
            "journal": self.journal,
            "no-journal": self.no_journal,
            "load": self.load,
        }


class Index:
    """What the files of a folder say by their bytes alone."""

    def __init__(self, folder, output):
        self.folder = folder
        self.say = output.say

    def set(self, _):
        """Prints the bytes of the index that hold its set ID."""
        self.say(f"  bytes 32 to 47 of t.par2: {self.folder.read('t.par2')[32:48].hex()}")

    def digests(self, _):
        for name, data in self.folder.files().items():
            self.say(f"{md5(data).hex()} {len(data)} {name}")

    def packets(self, name):
        """Prints the contents of a file's packets, which follow one another."""
        text = self.folder.read(name)
        while text:
            length = int.from_bytes(text[8:16], "little")
            self.packet(text[:length])
            text = text[length:]

    def packet(self, text):
        if text != sealed(text[32:]):
            raise Difference("a packet is none")
        body = text[64:]
        if text[56:64] == HALVES["main"]:
            self.main(text[32:48], body)
        elif text[56:64] == HALVES["desc"]:
            self.description(body)
        elif text[56:64] == HALVES["ifsc"]:
            self.checksums(body)

    def main(self, set_id, body):
        self.say(f"set: {set_id.hex()}")
        self.say(f"slice size: {int.from_bytes(body[:8], 'little')}")
        for k in range(int.from_bytes(body[8:12], "little")):
            self.say(f"file of the set: {body[12 + 16 * k :][:16].hex()}")

    def description(self, body):
        self.say(f"file: {body[:16].hex()}")
        self.say(f"md5: {body[16:32].hex()}")
        self.say(f"md5 of the first 16384 bytes: {body[32:48].hex()}")
        self.say(f"length: {int.from_bytes(body[48:56], 'little')}")
        self.say(f"name: {text_of(body[56:].rstrip(bytes(1)))}")

    def checksums(self, body):
        self.say(f"file: {body[:16].hex()}")
        self.say(f"pairs: {(len(body) - 16) // 20}")
        for place in range(16, len(body), 20):
            pair = body[place : place + 20]
            self.say(f"{pair[:16].hex()} {int.from_bytes(pair[16:], 'little'):08x}")

    def words(self):
        return {"set": self.set, "digests": self.digests, "packets": self.packets}


class Forge:
    """Forged bytes: files of packets, and journals, with right digests, as an attacker would write them."""

    def __init__(self, folder):
        self.folder = folder
        # The set ID that packets get.
        self.set_id = bytes(16)
        # The packets of a file.
        self.packets = bytearray()
        # The first bytes of each journal.
        self.front = b""
        self.journals = []
        self.kinds = self.packet_words() | self.journal_words()

    def main(self, terms):
        """A Main, whose digest is the set ID from now on."""
        self.set_id = md5(bytes_told(terms))
        self.packet(f"main {terms}")

    def packet(self, rest):
        kind, terms = parted(rest)
        self.packets += packet(self.set_id, kind, bytes_told(terms))

    def bytes(self, terms):
        """Bytes that need not be a packet."""
        self.packets += bytes_told(terms)

    def lies(self, _):
        """False recovery slices of all exponents but the first two."""
        for exponent in range(2, 65536):
            self.packets += packet(self.set_id, "recovery", number(exponent, 4) + b"\1\2\3\4")

    def headers(self, count):
        """Headers one behind the other, each of which claims all that is behind it."""
        for left in range(int(count), 0, -1):
            self.packets += MAGIC + number(16 * left)

    def repeat(self, count):
        """All that is there, as often as a number says."""
        self.packets *= int(count)

    def id(self, terms):
        """Another identifier for the packets that come."""
        self.set_id = bytes_told(terms)

    def file(self, name):
        """A file of what was added, after which nothing is there."""
        self.folder.put(name, self.packets)
        self.packets = bytearray()

    def packet_words(self):
        return {
            "main": self.main,
            "packet": self.packet,
            "bytes": self.bytes,
            "lies": self.lies,
            "headers": self.headers,
            "repeat": self.repeat,
            "id": self.id,
            "file": self.file,
        }

    def change_front(self, terms):
        self.front = bytes_told(terms)

    def journal(self, terms):
        body = self.front + bytes_told(terms)
        self.journals.append(body + md5(body))

    def text(self, terms):
        """Bytes in place of a journal."""
        self.journals.append(bytes_told(terms))

    def no_journals(self, _):
        self.journals = []

    def put_journals(self, _):
        """Puts the journals in place of the folder's, so that the last one stays."""
        for journal in self.journals:
            self.folder.put_journal(journal)

    def journal_words(self):
        return {
            "front": self.change_front,
            "journal": self.journal,
            "text": self.text,
            "no-journals": self.no_journals,
            "put-journals": self.put_journals,
        }

    def forge(self, line):
        word, rest = parted(line)
        self.kinds[word](rest)

    def words(self):
        return {"forge": self.forge}


class Large:
    """Large files and many of them, and commands on them. Only the last line of their output is printed."""

    def __init__(self, runs):
        self.runs = runs
        self.folder = runs.folder
        self.say = runs.say
        self.pattern = Pattern()
        self.kinds = {
            "fill": self.fill,
            "blank": self.blank,
            "many": self.many,
            "move": self.move,
            "told": self.told,
            "return": self.there_and_back,
        }

    def fill(self, rest):
        """Writes a file of this many bytes."""
        name, length = parted(rest)
        self.folder.put(name, self.pattern.first(int(length)))

    def blank(self, rest):
        """Writes zeros over the first bytes of a file."""
        name, length = parted(rest)
        self.folder.put(name, bytes(int(length)) + self.folder.read(name)[int(length) :])

    def many(self, count):
        """Writes this many files of eight bytes each, which differ."""
        for k in range(int(count)):
            self.folder.put(f"f{k:07}", f"f{k:07}".encode())

    def names(self):
        return [name for name in self.folder.names() if not name.endswith(".par2")]

    def move(self, _):
        """Renames each file except for the PAR2 files to its name with an `x` in front."""
        for name in self.names():
            self.folder.rename(name, f"x{name}")

    def told(self, line):
        """Runs the words of a line; a star at its end means the names of all files except for the PAR2 files."""
        words = line[:-1] + " ".join(self.names()) if line.endswith("*") else line
        answer = self.runs.run(words)
        self.say(f"[{line}] {answer.status} {last_line(answer.text())}")

    def leads_to(self, line, wanted):
        self.told(line)
        self.say(f"  files as they were: {truth(self.folder.fingerprint() == wanted)}")

    def there_and_back(self, line):
        before = self.folder.fingerprint()
        self.told(line)
        after = self.folder.fingerprint()
        self.leads_to("undo", before)
        self.leads_to("redo", after)

    def enlarge(self, line):
        word, rest = parted(line)
        self.kinds[word](rest)

    def words(self):
        return {"large": self.enlarge}


class Attacks:
    """Commands beside a forged set, each in a copy of the folder's files, without the journal: their results, and
    whether they change files."""

    def __init__(self, folder, copy):
        self.folder = folder
        self.copy = copy
        self.say = copy.say

    def attack(self, lines):
        """Runs the words of each line, separated by semicolons. Commands that changed files are undone."""
        for line in lines.split("; "):
            self.copy.folder.hold(self.folder.files())
            self.attacked(line)

    def attacked(self, line):
        folder = self.copy.folder
        before = folder.fingerprint()
        self.say(f"  {line}: {self.copy.run(line).told()}")
        same = folder.fingerprint() == before
        self.say(f"    files as before: {truth(same)}, a journal: {truth(folder.has_journal())}")
        if not same:
            self.copy.show_bytes(lambda name: f"    {quoted(name)}")
            self.undone(before)

    def undone(self, before):
        status = self.copy.run("undo").status
        same = self.copy.folder.fingerprint() == before
        self.say(f"    undo: {status}, files as before: {truth(same)}")

    def sweep(self, rest):
        """Runs the words of a line with the damage at each place of the base, one after the other, and prints each
        result that differs from the one at the place before."""
        damage, line = parted(rest)
        self.say(f"  {line}")
        files = self.folder.files()
        last = None
        for place, base in enumerate(at_each_place(files["t.par2"], damage)):
            answer = self.told_by({**files, "t.par2": base}, line)
            if answer != last:
                self.say(f"    from {place}: {answer}")
                last = answer

    def told_by(self, files, line):
        """Returns the result of a command beside these files, and the file `a` afterwards."""
        self.copy.folder.hold(files)
        told = self.copy.run(line).told()
        after = self.copy.folder.files()
        return f"{told}, files as before: {truth(after == files)}, a: {text_of(after['a'])}"

    def words(self):
        return {"attack": self.attack, "sweep": self.sweep}


class Prints:
    """The fingerprints that a halfway journal holds: of the folder before the command, and after each change."""

    def __init__(self, journal):
        # The cursor is after the heading and the first fingerprint, and isn't used here.
        self.rest = memoryview(journal)[len(HEADING) + 24 :]
        self.prints = [journal[len(HEADING) :][:16]]
        for _ in range(self.number()):
            self.pass_entry()
        self.take(1)
        self.prints += [bytes(self.take(16)) for _ in range(self.number())]

    def take(self, length):
        taken, self.rest = self.rest[:length], self.rest[length:]
        return taken

    def number(self, size=8):
        return int.from_bytes(self.take(size), "little")

    def pass_entry(self):
        for _ in range(self.number()):
            self.pass_change()

    def pass_change(self):
        kind = self.number(1)
        self.take(self.number(1))
        if kind in (WRITE, REPLACE):
            self.take(self.number())
        elif kind == RENAME:
            self.take(self.number(1))

    def changes_made(self, files):
        """Returns the number of changes that led to these files; as many take the command back."""
        return self.prints.index(fingerprint_of(files))


class Copies:
    """Runs in copies of these files with a journal. The result of a run is kept, because an opening needs it, too."""

    def __init__(self, runs, files):
        self.runs = runs
        self.files = files
        self.kept = {}

    def run(self, journal, line):
        """Returns the result of the words of a line, and the files and the journal afterwards."""
        if (journal, line) not in self.kept:
            self.runs.folder.hold(self.files, journal)
            answer = self.runs.run(line)
            self.kept[journal, line] = answer, self.runs.folder.files(), self.runs.folder.journal()
        return self.kept[journal, line]

    def depth(self, files, journal, line):
        """Returns how often the words of a line are accepted in a copy of a folder."""
        self.runs.folder.hold(files, journal)
        count = 0
        while self.runs.run(line).status == 0:
            count += 1
        return count


class Opening:
    """What a folder opens as with a journal. Whole commands find that out: a verify takes a halfway command back and
    leaves the history alone, and accepted undos and redos count it."""

    def __init__(self, copies, journal):
        self.copies = copies
        self.journal = journal

    def told(self):
        """Returns what the folder opens as, its files and its journal once it is open."""
        before = self.copies.files, self.journal
        verified, *after = self.copies.run(self.journal, VERIFY)
        if verified.err == INVALID:
            return "JournalInvalid", *before
        if verified.err == CHANGED:
            return "FolderChanged { halfway: true }", *before
        is_settled = tuple(after) == before
        if is_settled and self.copies.run(self.journal, "undo")[0].err == CHANGED:
            return "FolderChanged { halfway: false }", *before
        opening = "settled" if is_settled else f"halfway, {self.changes_back()} changes back"
        return f"{opening}, {self.depths(*after)}", *after

    def changes_back(self):
        return Prints(self.journal).changes_made(self.copies.files)

    def depths(self, files, journal):
        undos, redos = (self.copies.depth(files, journal, line) for line in ("undo", "redo"))
        return f"undos {undos}, redos {redos}"


class JournalAttacks:
    """What a folder opens as with a forged journal, and what commands do in a copy with it: each result that differs
    from that of the journal before, and the digest of all files and journals afterwards."""

    def __init__(self, folder, copy, forge):
        self.folder = folder
        self.copy = copy
        self.forge = forge
        self.say = copy.say

    def attack_by(self, title):
        self.attack_by_each(self.forge.journals, title)

    def attack_by_damage(self, damage_each, rest):
        """The same for each of the journals with a damage at each place."""
        damage, title = parted(rest)
        for journal in self.forge.journals:
            self.attack_by_each(damage_each(journal, damage), title)

    def attack_by_each(self, journals, title):
        self.say(f"{title}: {len(journals)}")
        hasher = hashlib.md5()
        copies = Copies(self.copy, self.folder.files())
        for way in WAYS:
            self.say(f"  {way}")
            self.answers(copies, journals, way, hasher)
        self.say(f"  digest: {hasher.hexdigest()}")

    def answers(self, copies, journals, way, hasher):
        """Prints each result that differs from the one before, and adds what is there afterwards to the digest."""
        last = None
        for place, journal in enumerate(journals):
            answer, *after = self.answer(copies, journal, way)
            hasher.update(digest_of(*after))
            if answer != last:
                self.say(f"    from {place}: {answer}")
                last = answer

    def answer(self, copies, journal, way):
        """Returns what comes of one way, the files and the journal afterwards."""
        if way == OPEN:
            return Opening(copies, journal).told()
        answer, after, left = copies.run(journal, way)
        became = "files as before" if after == copies.files else self.files_told(after)
        return f"{answer.told_shortly()}, {became}, journal as before: {truth(left == journal)}", after, left

    @staticmethod
    def files_told(files):
        if len(files) > FEW:
            return f"{len(files)} files"
        return "files" + "".join(f" {name}:{len(data)}" for name, data in files.items())

    def words(self):
        return {
            "attack-by": self.attack_by,
            "attack-by-damaged": partial(self.attack_by_damage, at_each_place),
            "attack-by-resealed": partial(self.attack_by_damage, with_true_digests),
        }


class Words:
    """All words of the lines, over two folders of a room: one that stays, and one for copies."""

    def __init__(self, room, program, output):
        folder = Folder(os.path.join(room, "folder"))
        copy = Runs(Folder(os.path.join(room, "copy")), program, output)
        runs = Runs(folder, program, output)
        forge = Forge(folder)
        parts = [runs, Changes(folder), Index(folder, output), forge, Large(runs), Attacks(folder, copy)]
        self.words = {"say": output.say}
        for part in [*parts, JournalAttacks(folder, copy, forge)]:
            self.words |= part.words()

    def carry_out(self, line):
        """Carries out a line. Empty lines and lines that begin with `#` are skipped."""
        word, rest = parted(line)
        if word not in ("", "#"):
            self.words[word](rest)


def carry_out_all(words, output):
    with open(LINES, encoding="utf-8") as lines:
        for place, line in enumerate(lines, 1):
            try:
                words.carry_out(line.rstrip("\n"))
            except Difference as difference:
                raise Difference(f"line {place} of {os.path.basename(LINES)}: {line}{difference}") from None
    output.end()


def room_for_folders():
    """Returns the place of the folders: in memory if there is enough, else where temporary files are."""
    memory = "/dev/shm"
    if os.path.isdir(memory) and shutil.disk_usage(memory).free >= ROOM:
        return memory
    return None


def main(path=PROGRAM):
    with open(EXPECTED, encoding="utf-8", newline="") as file:
        output = Output(file.read())
    program = Program(path)
    with tempfile.TemporaryDirectory(dir=room_for_folders()) as room:
        try:
            carry_out_all(Words(room, program, output), output)
        except Difference as difference:
            print(f"folder rows: {difference}")
            return 1
    print(f"folder rows: {program.runs} runs, as they must be")
    return 0


sys.exit(main(*sys.argv[1:]))
