#!/usr/bin/env python3
"""Shows that memory is bounded by the files that are there, whatever forged journals and sets claim. These have right
digests, journals wrong ones too, and each growth of memory beyond a bound is refused: nothing is allocated for a claim
before its bytes are found. Then creates, verifies, repairs, purges, undos and redos run over folders of several kinds, and
their growths are recorded: each is bounded by the bytes of the folder that the run finds and those that it writes, and so
are their sum and what there is at a time, also if 16,000 slices are lost. A repair by exponents with holes takes little
more than one by exponents without, whether few slices are lost or many.
"""
import os
import random
import shutil
import struct
import subprocess
import sys
import tempfile

from formats import HALVES, HEADING, JOURNAL, fingerprint_of, md5, number, packet

ROOT = os.path.join(os.path.dirname(os.path.realpath(__file__)), "..")
PROGRAM = os.path.join(ROOT, "crates/par2/out/par2")
# More than a run over small files allocates at once.
SMALL = 1 << 19
# What each run may allocate at once and in all, whatever it finds; then the multiple of the bytes that it finds and
# writes. The field's tables come to 820 KiB as they grow, and the filter of a search and the table of its groups to 256
# more each, so a repair over small files allocates 1,358 KiB. The sum of all growths of a create includes the buffers
# of each slice, which are freed with it.
AT_ONCE, IN_ALL = 1 << 18, 6 << 18
TIMES_AT_ONCE = 2
TIMES_IN_ALL = {"create": 10, "verify": 6, "repair": 7, "purge": 6, "undo": 4, "redo": 4}
# What each run may have at a time, whatever it finds; then the multiple of the bytes that it finds and writes. A create
# has its outputs once; of the columns of its recovery slices it has no more at a time than there is room for, however
# many they are.
HELD = 9 << 18
TIMES_HELD = {"create": 1.25, "verify": 2, "repair": 2, "purge": 3, "undo": 3, "redo": 3}
# How much more a repair may have at a time if the exponents have holes.
HOLES = 1 << 19
MOST_SLICES = 32768
# With this many lost slices a matrix of their equations would take 32,000 bytes for each, and each takes no more than this
# beside its bytes: two rows of 64 bytes for each of about twice as many points, and its places in lists of slices.
MANY_LOST = 16000
EACH_LOST = 640
# For each lost slice whose syndrome fills holes: its origin, and references to it.
EACH_FILLED = 96
# How many exponents there are before every 32nd one is left out.
EXPONENTS_WITH_HOLES = [128, 1024]
# The descriptor on which the allocator reports growths.
TOLD = 9
CLAIMS = [1 << 20, 1 << 30, 1 << 40, (1 << 63) - 1, (1 << 64) - 1]


def run(room, largest, *words):
    """Returns what a run in the folder says, and its status."""
    shim = {"LD_PRELOAD": os.path.join(room, "refuse.so"), "LARGEST": str(largest)}
    ran = subprocess.run(
        [PROGRAM, *words], cwd=os.path.join(room, "here"), env={**os.environ, **shim}, capture_output=True, text=True
    )
    return ran.stdout + ran.stderr, ran.returncode


def journals(files):
    """Returns journals of this folder, each of which claims more of something than it holds."""
    print_of = fingerprint_of(files)

    def body(cursor, entries, rest=b"\0"):
        return HEADING + print_of + number(cursor) + entries + rest

    for claim in CLAIMS:
        bodies = {
            f"{claim} entries": body(0, number(claim)),
            f"a cursor at {claim}": body(claim, number(0)),
            f"{claim} changes": body(0, number(1) + number(claim)),
            f"{claim} bytes": body(0, number(1) + number(1) + b"\1\1x" + number(claim) + b"bytes"),
            f"{claim} changes of a way back": body(0, number(0), b"\1" + number(claim)),
        }
        for what, text in bodies.items():
            yield what, text + md5(text)
            yield f"{what} with a false digest", text + md5(b"other")


def index(slice_size, files_claimed, size, name=b"a\0\0\0"):
    """Returns an index of one target with one pair of checksums."""
    head = md5(b"")
    file_id = md5(head + number(size) + name.rstrip(b"\0"))
    main = number(slice_size) + number(files_claimed, 4) + file_id
    set_id = md5(main)
    return b"".join(
        packet(set_id, kind, body)
        for kind, body in [
            ("main", main),
            ("desc", file_id + md5(b"other") + head + number(size) + name),
            ("ifsc", file_id + md5(b"slice") + b"\0\0\0\0"),
            ("creator", b"none"),
        ]
    )


SETS = [
    ("4294967295 files", index(4, 4294967295, 4), "par2: no main packet\n", 4),
    ("slices of 2^30 bytes", index(1 << 30, 1, 8), None, 2),
    ("a file of 2^64 - 1 bytes", index(4, 1, (1 << 64) - 1), "par2: the set is not in this profile\n", 4),
    ("a file of 2^40 bytes in slices of 4", index(4, 1, 1 << 40), "par2: the set is not in this profile\n", 4),
]


def fresh(room):
    here = os.path.join(room, "here")
    shutil.rmtree(here, ignore_errors=True)
    os.mkdir(here)
    return here


def put(here, files):
    for name, data in files.items():
        with open(os.path.join(here, name), "wb") as file:
            file.write(data)


def wrong(room):
    """Returns the results that are not as they should be."""
    files, found = {"a": b"abcdefgh"}, []
    for what, text in journals(files):
        put(fresh(room), {**files, JOURNAL: text})
        for words in (["verify", "t.par2"], ["undo"]):
            answer = run(room, SMALL, *words)
            if answer != ("par2: the journal is not valid\n", 9):
                found.append(f"a journal that claims {what}, {words[0]}: {answer}")
    for what, text, wanted, status in SETS:
        put(fresh(room), {**files, "t.par2": text})
        said, ended = run(room, SMALL, "verify", "t.par2")
        if ended != status or wanted not in (None, said):
            found.append(f"a set that claims {what}: {said}{ended}")
    with_holes = [line for count in EXPONENTS_WITH_HOLES for line in wrong_holes(room, count)]
    return found + wrong_growths(room) + with_holes + wrong_lost(room)


def held(here):
    """Returns the bytes of each file in the folder by its name, the journal among them."""
    files = {}
    for name in os.listdir(here):
        with open(os.path.join(here, name), "rb") as file:
            files[name] = file.read()
    return files


def total(files):
    return sum(len(data) for data in files.values())


def growths(room, words):
    """Returns how many bytes each growth of a run asks for, how many there are with it, and the run's status."""
    shim = {"LD_PRELOAD": os.path.join(room, "refuse.so"), "SIZES": "1"}
    with tempfile.TemporaryFile(dir=room) as told:
        os.dup2(told.fileno(), TOLD)
        ran = subprocess.run(
            [PROGRAM, *words],
            cwd=os.path.join(room, "here"),
            env={**os.environ, **shim},
            capture_output=True,
            pass_fds=[TOLD],
        )
        told.seek(0)
        return list(struct.iter_unpack("<qq", told.read())), ran.returncode


def wrong_growths_of(room, name, wanted, words):
    """Returns whether a run asks for more than what it finds and writes explains, or doesn't end as it should."""
    here = os.path.join(room, "here")
    before = held(here)
    told, status = growths(room, words)
    sizes, at_a_time = [size for size, _ in told], [held for _, held in told]
    after = held(here)
    count = total(before) + total({name: data for name, data in after.items() if before.get(name) != data})
    found = []
    if status != wanted or not sizes:
        found.append(f"{name}, {words[0]}: status {status}, {len(sizes)} growths")
    elif max(sizes) > AT_ONCE + TIMES_AT_ONCE * count:
        found.append(f"{name}, {words[0]}: {max(sizes)} bytes at once, where {count} are found and written")
    elif sum(sizes) > IN_ALL + TIMES_IN_ALL[words[0]] * count:
        found.append(f"{name}, {words[0]}: {sum(sizes)} bytes in all, where {count} are found and written")
    elif max(at_a_time) > HELD + TIMES_HELD[words[0]] * count:
        found.append(f"{name}, {words[0]}: {max(at_a_time)} bytes at a time, where {count} are found and written")
    return found


def scene(room, name, files, options):
    """Returns which runs over these files ask for too much. The first file is damaged before they are repaired."""
    here = fresh(room)
    put(here, files)
    first, data = next(iter(files.items()))
    steps = [(0, ["create", *options, "t.par2", *files]), (0, ["verify", "t.par2"]), (0, ["undo"]), (0, ["redo"])]
    found = [line for wanted, words in steps for line in wrong_growths_of(room, name, wanted, words)]
    put(here, {first: data[:1] + bytes([data[1] ^ 255]) + data[2:]})
    os.remove(os.path.join(here, ".par2undo"))
    steps = [(1, ["verify", "t.par2"])]
    for command in ("repair", "purge"):
        steps += [(0, [command, "t.par2"]), (0, ["undo"]), (0, ["redo"])]
    return found + [line for wanted, words in steps for line in wrong_growths_of(room, name, wanted, words)]


def packets_in(data):
    at = 0
    while at < len(data):
        size = int.from_bytes(data[at + 8 : at + 16], "little")
        yield data[at : at + size]
        at += size


def recovery_packets(files):
    """Returns the recovery packets of the volumes, each with its exponent."""
    volumes = [data for name, data in files.items() if ".vol" in name]
    packets = [it for data in volumes for it in packets_in(data) if it[56:64] == HALVES["recovery"]]
    return sorted((int.from_bytes(it[64:68], "little"), it) for it in packets)


def bytes_of(seed, count):
    return random.Random(seed).randbytes(count)


def repair_by(room, data, index, packets):
    """Returns how much a repair of a file in slices of four bytes has at a time, and its status. There is a recovery packet
    for each lost slice."""
    lost = bytearray(data)
    for number in range(len(packets)):
        lost[len(data) // len(packets) // 4 * 4 * number] ^= 255
    put(fresh(room), {"a": bytes(lost), "t.par2": index, "t.vol.par2": b"".join(packets)})
    told, status = growths(room, ["repair", "t.par2"])
    return max(held for _, held in told), status


def protected(room, data, count):
    """Returns the index of a set over a file in slices of four bytes, and its recovery packets, each with its exponent."""
    here = fresh(room)
    put(here, {"a": data})
    create = [PROGRAM, "create", "-s4", f"-c{count}", "t.par2", "a"]
    subprocess.run(create, cwd=here, stdout=subprocess.DEVNULL, check=True)
    files = held(here)
    return files["t.par2"], recovery_packets(files)


def wrong_holes(room, count):
    """Returns whether a repair by exponents with holes has much more at a time than one by exponents that follow one
    another. There are as many slices as a set can have, so a row of coefficients takes 64 KiB, and 31 exponents before
    each hole: too few to be computed together, and too many to have all their rows at a time."""
    data = bytes_of(7, 4 * MOST_SLICES)
    index, packets = protected(room, data, count)
    with_holes = [packet for exponent, packet in packets if exponent % 32 != 31]
    in_a_row = [packet for _, packet in packets[: len(with_holes)]]
    (most, status), (usual, other) = (repair_by(room, data, index, it) for it in (with_holes, in_a_row))
    # For each lost slice it also has what the equations of the holes multiply a syndrome by, and a few references.
    few = len(in_a_row) * (2 * (count // 32) + EACH_FILLED)
    if (status, other) != (0, 0) or most > usual + HOLES + few:
        return [
            f"a repair of {len(in_a_row)} slices by exponents with holes: status {status}, {most} bytes at a time; "
            f"without: {other}, {usual}"
        ]
    return []


def wrong_lost(room):
    """Returns whether a repair of very many lost slices has more at a time than what it finds and writes and their number
    explain."""
    data = bytes_of(8, 4 * MOST_SLICES)
    index, packets = protected(room, data, MANY_LOST)
    recovery = [packet for _, packet in packets]
    most, status = repair_by(room, data, index, recovery)
    # It finds the damaged file, the index and the recovery packets, and writes the file.
    count = 2 * len(data) + len(index) + total(dict(packets))
    if status != 0 or most > HELD + TIMES_HELD["repair"] * count + EACH_LOST * MANY_LOST:
        return [f"a repair of {MANY_LOST} slices: status {status}, {most} bytes at a time, {count} found and written"]
    return []


def scenes():
    """Returns names, files and the options of creates. Of fewer than 32 slices the recovery slices are computed by rows of
    coefficients, also of exponents that follow one another: of 60,000 there must not be all rows at a time."""
    yield "small files", {"a": b"abcdefgh", "b": b"ijkl"}, ["-s4", "-c2"]
    yield "files of 1 MiB and less", {"a": bytes_of(1, 1 << 20), "b": bytes_of(2, 1 << 18)}, ["-s16384", "-c20"]
    yield "many files", {f"f{number}": b"%d" % (10 + number) for number in range(2000)}, ["-s4", "-c20"]
    yield "many slices", {"a": bytes_of(3, 1 << 17)}, ["-s4", "-c20"]
    yield "many exponents", {"a": bytes_of(4, 1 << 17)}, ["-s64", "-c3000"]
    yield "very many exponents", {"a": bytes_of(5, 1 << 12)}, ["-s64", "-c60000"]
    yield "very many exponents and few slices", {"a": bytes_of(6, 31 << 6)}, ["-s64", "-c60000"]


def wrong_growths(room):
    """Returns which runs ask for more than what they find and write explains."""
    return [line for of_scene in scenes() for line in scene(room, *of_scene)]


def main():
    with tempfile.TemporaryDirectory() as room:
        shim = os.path.join(room, "refuse.so")
        subprocess.run(["sh", os.path.join(ROOT, "tests/preload/build.sh"), "refuse_memory", shim], check=True)
        found = wrong(room)
    for line in found:
        print(line)
    if not found:
        print(f"claims: {2 * 2 * 5 * len(CLAIMS)} runs on journals, {len(SETS)} on sets, none asks for what is only claimed")
        print(f"claims: runs over {len(list(scenes()))} folders, none asks for more than what it finds and writes explains")
    return 1 if found else 0


sys.exit(main())
