"""Makes the bytes of packets and journals that the tests forge. docs/FORMATS.md has both formats."""
import hashlib

JOURNAL = ".par2undo"
HEADING = b"P2UNDO2\n"
MAGIC = b"PAR2\0PKT"
WRITE, REPLACE, RENAME, REMOVE = 1, 2, 3, 4

# The second half of a packet's type.
HALVES = {
    "main": b"Main\0\0\0\0",
    "desc": b"FileDesc",
    "ifsc": b"IFSC\0\0\0\0",
    "recovery": b"RecvSlic",
    "creator": b"Creator\0",
    "other": b"other\0\0\0",
}


def md5(data):
    return hashlib.md5(data).digest()


def number(value, size=8):
    return value.to_bytes(size, "little")


def counted(data):
    return number(len(data)) + data


def named(text):
    data = text.encode()
    return bytes([min(len(data), 255)]) + data


def sealed(data):
    """Returns a packet of these bytes, with its true length and digest."""
    return MAGIC + number(32 + len(data)) + md5(data) + data


def packet(set_id, kind, body):
    return sealed(set_id + b"PAR 2.0\0" + HALVES[kind] + body)


def fingerprint_of(files):
    """Returns the fingerprint of a folder of these files."""
    return md5(b"".join(counted(name.encode()) + counted(data) for name, data in sorted(files.items())))


def digest_of(files, journal):
    return md5(fingerprint_of(files) + journal)
