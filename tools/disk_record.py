"""A record of what a disk was sent, as examples/futures/recorder.py writes it and tools/trace reads it: its form stands in docs/FUTURES.md."""

import os
import struct
from collections import namedtuple

from host import BadInput, told_with
from image import SECTOR

# The last byte is the version.
MAGIC = b"bfqdisk1"
# What it is, whether it was told to be done only when it was on the disk (FUA), zeros, LENGTH, OFFSET.
HEAD = struct.Struct("<cBHIQ")
KINDS = {b"W": "write", b"T": "trim", b"Z": "zeroing", b"F": "flush"}

# Something that the disk was sent: what, the first sector and how many there are, whether it has FUA, and the bytes of a write.
Sent = namedtuple("Sent", "what start count is_forced data")


def read_record(path, sectors):
    """What a disk of so many sectors was sent, in its order."""
    if os.path.exists(path) and not os.path.isfile(path):
        raise BadInput(f"{path}: no regular file")
    with told_with(path), open(path, "rb") as file:
        if file.read(len(MAGIC)) != MAGIC:
            raise BadInput(f"{path}: no record of a disk: it does not begin with {MAGIC.decode()}")
        # What is there is known, so no length can ask for more memory than that.
        left = os.fstat(file.fileno()).st_size - len(MAGIC)
        number = 0
        while left:
            number += 1
            try:
                it = sent(file, left, sectors)
            except ValueError as fault:
                raise BadInput(f"{path}: bad record {number}: {fault}") from None
            left -= HEAD.size + len(it.data)
            yield it


def sent(file, left, sectors):
    """The next one, for which so many bytes are left."""
    if left < HEAD.size:
        raise ValueError(f"the file ends behind {left} of its first {HEAD.size} bytes")
    kind, forced, zeros, length, offset = HEAD.unpack(file.read(HEAD.size))
    if kind not in KINDS:
        raise ValueError(f"its first byte is {kind[0]:#04x}, and not W, T, Z or F")
    if forced > 1 or zeros:
        raise ValueError("its second byte is 0 or 1, and the next two are 0")
    if KINDS[kind] == "flush":
        if forced or length or offset:
            raise ValueError("a flush has zeros behind its first byte")
        return Sent("flush", 0, 0, False, b"")
    for name, value in (("OFFSET", offset), ("LENGTH", length)):
        if value % SECTOR:
            raise ValueError(f"{name} is no multiple of {SECTOR}: {value}")
    if not length:
        raise ValueError("LENGTH is 0")
    if offset + length > sectors * SECTOR:
        raise ValueError(f"past the end of the image, which has {sectors} sectors: bytes {offset} to {offset + length}")
    if kind == b"W" and left - HEAD.size < length:
        raise ValueError(f"the file ends behind {left - HEAD.size} of the {length} bytes that are written")
    data = file.read(length) if kind == b"W" else b""
    return Sent(KINDS[kind], offset // SECTOR, length // SECTOR, bool(forced), data)


def parts_of(it, most):
    """What was sent in parts of at most so many sectors: each with its first sector, how many there are, and its bytes."""
    for at in range(0, it.count, most):
        yield it.start + at, min(most, it.count - at), it.data[at * SECTOR:(at + most) * SECTOR]
