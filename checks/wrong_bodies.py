#!/usr/bin/env python3
"""Shows of the must-fail edits that each function that they change is refused by a goal of its own. The gate tries an
edit as a whole and stops at the first goal that is refused, so it wouldn't see a change that no clause refuses any more.

usage: wrong_bodies.py [--together] [CRATE [EDIT..]]
       (without CRATE each crate; EDIT: the name of a file in crates/CRATE/must-fail, without .edit; else all of them)

The lines under one comment of an edit are a change. A copy of the crate is checked over a copy of what earlier checks
kept in out/, if anything; if nothing is kept and there is more than one check to do, the unchanged crate is checked
first.

Together, each edit is checked once, which takes one to five minutes. A line says of each function that the edit changes
which of its own goals are refused; that it calls a function which is refused shows nothing of itself. A change with a
name (`NAME: ` begins its comment) is then checked by itself if another one changes the same function. `limit` marks a
goal at which the search for a proof has ended at a limit, which is slow. Crates are checked side by side, one for each
processor, as many as memory holds (RT_JOBS sets another number). The last line counts, and the status is 1 if a function
has no such goal.

Otherwise each change is checked by itself, which takes 10 to 70 seconds: a line says whether it is refused, and by
which goal. The status is 1 if one is proved.
"""
import collections
import difflib
import os
import re
import shutil
import subprocess
import sys
import tempfile
import time
from concurrent.futures import ThreadPoolExecutor

TOP = os.path.join(os.path.dirname(os.path.abspath(__file__)), "..")
sys.path.insert(0, f"{TOP}/tools")
import rt_module  # noqa: E402

# The memory that a check may take.
EACH = 5_000_000_000
# What the gate leaves beside the program that it built: the checksum of its sources.
SOURCES = "crates/par2/out/par2.sources"
# A proof file that names what an edit removed, and what cites that proof: such a fault says nothing about a contract.
TAKEN_AWAY = re.compile(r"has no field|is not in scope|has no `|was not admitted")
HEAD = re.compile(r"( *)(?:pub(?:\([^)]*\))? )?(?:const )?fn (\w+)")
# The beginning of the comment of a change that has a name.
NAME = re.compile(r"[a-z]\w*_\w+(?=: )")
PLACE = re.compile(r"(?:note: )?(?:\./)?(\S+?):(\d+):\d+: (?:error: |it is not proved)")

# The result of edits: the lines to print, the number of functions that they change, and the number of faults.
Told = collections.namedtuple("Told", "lines functions faults")


def toolchain():
    """Returns the toolchain's command as a module."""
    module = rt_module.loaded()
    # (its signals are set by the main thread)
    module.rtlib.guarded()
    built, are_gates = module.rtlib.Crate.is_built, is_gated()
    # The gate leaves its libraries without a stamp.
    is_gates = lambda it: are_gates and os.path.isdir(it.rlib) and not os.path.exists(f"{it.folder}/out/rlib/stamp")
    module.rtlib.Crate.is_built = lambda it: built(it) or is_gates(it)
    return module


def is_gated():
    """Returns whether the gate has proved these sources, and not others since."""
    said = subprocess.run(["sh", "tools/sources.sh"], check=True, capture_output=True, text=True)
    return os.path.isfile(SOURCES) and text_of(SOURCES) == said.stdout


def text_of(path):
    with open(path, encoding="utf-8") as file:
        return file.read()


def changes_of(text):
    """Returns the changes of an edit, each by what its comment says and as an edit of its own."""
    changes, path, is_done = [["", ""]], "", False
    for line in text.splitlines(keepends=True):
        if line.startswith("#") and is_done:
            changes.append(["", path])
        if line.startswith("#"):
            changes[-1][0] += line.strip("# \n") + " "
        path = line if line.startswith("file: ") else path
        is_done = line.startswith("new:") or is_done and not line.startswith("#")
        changes[-1][1] += line
    return changes


def first_goal(said):
    """Returns the first line that names what isn't proved."""
    lines = [it for it in said.splitlines() if re.match(r"(note: )?\S+:\d+:\d+: (error|it is not proved)", it)]
    return lines[0].removeprefix("note: ")[:160] if lines else "no goal is named"


def functions_of(text):
    """Returns each function of a source: the type and trait of its impl, its name, its first line and its last."""
    lines, impl, found = text.splitlines(), "", []
    for at, line in enumerate(lines):
        if line.startswith("impl"):
            impl = impl_of(line)
        if head := HEAD.match(line):
            end = next((i for i in range(at, len(lines)) if lines[i] == head[1] + "}"), len(lines) - 1)
            first = next(i for i in range(at, -1, -1) if i == 0 or not lines[i - 1].startswith(head[1] + "#["))
            found.append((impl if head[1] else "", head[2], first + 1, end + 1))
    return found


def impl_of(line):
    """Returns the name by which the toolchain calls an impl, as far as its trait's parameters."""
    names = re.sub(r"<[^<>]*>", "", re.sub(r"<[^<>]*>", "", line)).removeprefix("impl").split("{")[0].split()
    return names[2] + names[0] if len(names) == 3 else names[0]


def changed(old, new):
    """Returns the functions of the new source that the old one has, too, with lines that differ not only in spaces."""
    lines = [[it.split() for it in text.splitlines()] for text in (old, new)]
    lines = [[" ".join(it) for it in part] for part in lines]
    parts = difflib.SequenceMatcher(None, *lines, autojunk=False).get_opcodes()
    others = {at + 1 for kind, _, _, first, end in parts if kind != "equal" for at in range(first, max(end, first + 1))}
    known = {it[:2] for it in functions_of(old)}
    found = functions_of(new)
    holder = {at: it for it in found for at in range(it[2], it[3] + 1)}
    return [it for it in found if it[:2] in known and any(holder.get(at) == it for at in others)]


def goals_of(path, function, said):
    """Returns the goals of a function that are refused, by what the check said."""
    impl, name, first, last = function
    # The answers of a method are below its type, which may be another file's.
    place = f"(.*/)?{impl}[^/]*" if impl else re.sub(r"^src|(/lib|/main)?\.rt$", "", path).removeprefix("/")
    answers = re.compile(rf"proofs/{place + '/' * bool(place)}\+?{name}/")
    goals = []
    for line in said.splitlines():
        at = PLACE.match(line)
        if at and at[1] == path and first <= int(at[2]) <= last:
            goals.append("".join(re.findall(r"\(`([^`]*)`\)", line)[-1:]) + " limit" * ("its limits" in line))
        elif at and answers.match(at[1]) and not TAKEN_AWAY.search(line):
            goals.append("".join(re.findall(r"error: `([^`]*)`", line)[:1]))
    return list(dict.fromkeys(filter(None, goals)))


def changed_in(crate, texts):
    """Returns the functions that these sources change, each by its file, its type and its name."""
    found = {path: changed(text_of(f"{crate.folder}/{path}"), text) for path, text in texts.items()}
    return {(path, *it[:2]): it for path, functions in found.items() for it in functions}


def check(rt, crate, texts, kept):
    """Checks the crate with these sources in place of its own, and again if it is killed, most likely for memory."""
    ran = rt.checked(crate, texts, ["--jobs", "1"], kept)
    return ran if ran.returncode >= 0 else rt.checked(crate, texts, ["--jobs", "1"], kept)


def told_of(rt, crate, title, text, kept):
    """Returns for each function that an edit changes which of its goals are refused."""
    texts, why = rt.edited(text, crate.folder)
    if why:
        return Told([f"{title} cannot be applied: {why}"], 0, 1)
    begun, functions = time.monotonic(), changed_in(crate, texts)
    said = check(rt, crate, texts, kept).stdout
    unread = [it for it in said.splitlines() if rt.unread(it, texts)]
    if "\nlogic=not-proved" not in said:
        unread = said.splitlines()[:3]
    lines = [f"{title}: {time.monotonic() - begun:.0f} s"] + [f"  not tried: {it[:160]}" for it in unread]
    faults = bool(unread) or not functions
    for (path, *names), function in functions.items():
        goals = goals_of(path, function, said)
        faults += not goals
        lines.append(f"  {path} {'::'.join(filter(None, names))}: {', '.join(goals) or 'NO GOAL OF ITS OWN'}")
    return Told(lines, len(functions), int(faults))


def in_one_function(rt, crate, text):
    """Returns the changes of an edit that have a name, and change a function which another of its changes changes too."""
    changes = changes_of(text)
    each = [set(changed_in(crate, rt.edited(it, crate.folder)[0] or {})) for _, it in changes]
    count = collections.Counter(it for names in each for it in names)
    return [it for it, names in zip(changes, each) if NAME.match(it[0]) and any(count[it] > 1 for it in names)]


def told_together(rt, crate, edits, kept):
    """Returns the result of a crate's edits, each as a whole, and of changes of one function one by one."""
    tries, alone = [], []
    for edit in edits:
        text, name = text_of(edit), f"{crate.name}/{os.path.basename(edit)}"
        tries.append((name, text))
        alone += [(f"{name}, {NAME.match(title)[0]} alone", it) for title, it in in_one_function(rt, crate, text)]
    if len(tries + alone) > 1 and not os.listdir(kept):
        check(rt, crate, {}, kept)
    whole = [told_of(rt, crate, *it, kept) for it in tries]
    each = [told_of(rt, crate, *it, kept) for it in alone]
    lines = [line for told in whole + each for line in told.lines]
    return Told(lines, sum(it.functions for it in whole), sum(it.faults for it in whole + each))


def told_alone(rt, crate, edits, kept):
    """Returns the result of each change of a crate's edits by itself."""
    lines, faults = [], 0
    for title, text in [it for edit in edits for it in changes_of(text_of(edit))]:
        texts, why = rt.edited(text, crate.folder)
        ran = None if why else check(rt, crate, texts, kept)
        if not ran or not ran.returncode:
            said, faults = f"cannot be applied: {why}" if why else "PROVED", faults + 1
        elif any(rt.unread(it, texts) for it in ran.stdout.splitlines()):
            said = "not read"
        else:
            said = f"refused: {first_goal(ran.stdout)}"
        lines += [f"  {title[:90]}", f"    {said}"]
    return Told([crate.name, *lines], 0, faults)


def told(rt, crate, edits, tell):
    """Returns the result of a crate's edits, over a copy of what earlier checks of the crate kept."""
    with tempfile.TemporaryDirectory() as room:
        if os.path.isdir(f"{crate.folder}/out/incremental"):
            shutil.copytree(f"{crate.folder}/out/incremental", f"{room}/kept")
        os.makedirs(f"{room}/kept", exist_ok=True)
        return tell(rt, crate, edits, f"{room}/kept")


def edits_of(rt, crate, names):
    edits = [os.path.relpath(it) for it in rt.edits_of(crate)[0]]
    return [it for it in edits if not names or os.path.basename(it).removesuffix(".edit") in names]


def in_lanes(rt, work, tell):
    """Returns the result of each crate's edits, as many crates at a time as there are processors and memory for, the
    longest first."""
    lanes = int(os.environ.get("RT_JOBS") or min(rt.processors(), rt.free() // EACH))
    work = sorted(work, key=lambda it: -it[0].count(rb"\n"))
    with ThreadPoolExecutor(max(lanes, 1)) as pool:
        yield from zip(work, pool.map(lambda it: told(rt, *it, tell), work))


def faulty(lines):
    """Returns the lines that tell of a fault, each under the title of its edit."""
    title, found = "", []
    for line in lines:
        title = title if line.startswith(" ") else line
        if re.search(r"NO GOAL OF ITS OWN$|^  not tried: | cannot be applied: ", line):
            found += [title, line] if line != title else [line]
    return list(dict.fromkeys(found))


def tell_all(rt, work):
    """Prints the result of each crate's edits, together, what is wrong once more at the end, and returns whether nothing
    is."""
    functions, faults, wrong = 0, 0, []
    if not built(work):
        return False
    for _, found in in_lanes(rt, work, told_together):
        print(*found.lines, sep="\n", flush=True)
        functions, faults, wrong = functions + found.functions, faults + found.faults, wrong + faulty(found.lines)
    print(*wrong, sep="\n", end="\n" * bool(wrong))
    whole = f"wrong bodies: {functions} functions of {sum(len(it) for _, it in work)} edits"
    print(f"{whole}, {f'{faults} FAULTS' if faults else 'each refused by a goal of its own'}")
    return not faults


def built(work):
    """Builds the libraries below the crates that are to be checked, and returns whether all are built."""
    return not any(below.build_rlib(["--jobs", "1"], anew=False) for crate, _ in work for below in crate.below())


def main(words):
    flags, names = [it for it in words if it.startswith("--")], [it for it in words if not it.startswith("--")]
    rt = toolchain()
    crates = rt.rtlib.crates_below(os.getcwd())
    asked = [(it, edits_of(rt, it, names[1:])) for it in crates if not names or it.name == names[0]]
    work = [it for it in asked if it[1]]
    if not work or set(flags) - {"--together"}:
        print(__doc__)
        return 2
    if "--together" in flags:
        return 0 if tell_all(rt, work) else 1
    faults = 0
    for _, found in in_lanes(rt, work, told_alone) if built(work) else ():
        print(*found.lines, sep="\n", flush=True)
        faults += found.faults
    return 1 if faults else 0


if __name__ == "__main__":
    os.chdir(TOP)
    sys.exit(main(sys.argv[1:]))
