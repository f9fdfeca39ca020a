"""A disk whose writes are recorded: a plugin in Python for nbdkit, over a file.

    cp disk.img before.img
    nbdkit python recorder.py image=disk.img record=disk.log
    tools/trace nbd disk.log --image before.img --into told

Each write, trim, zeroing and flush that the disk was sent goes to the record, in the order in which they came, once it is done. Reads do
not. The record is a new file. It begins with MAGIC, whose last byte is the version. Behind it stands for each of them

    1 byte     what it is: W a write, T a trim, Z a zeroing, F a flush
    1 byte     1 if it must be on the disk before it is told to be done (FUA), else 0
    2 bytes    zeros
    4 bytes    LENGTH: how many bytes of the disk; of a flush 0
    8 bytes    OFFSET: where they begin; of a flush 0

and then, of a write alone, the LENGTH bytes. All numbers have their least byte first.
"""

import errno
import functools
import os
import struct

import nbdkit

API_VERSION = 2
MAGIC = b"bfqdisk1"
HEAD = struct.Struct("<cBHIQ")
# Zeros are written in pieces of at most so many bytes.
PIECE = 1 << 20

given = {}


def told(act):
    """What the system refuses is told to the client by its number."""
    @functools.wraps(act)
    def called(*words):
        try:
            return act(*words)
        except OSError as fault:
            nbdkit.set_error(fault.errno or errno.EIO)
            raise
    return called


def config(key, value):
    if key not in ("image", "record"):
        raise ValueError(f"{key}: image=FILE and record=FILE are known")
    given[key] = value


def config_complete():
    if len(given) < 2:
        raise ValueError("image=FILE and record=FILE are wanted")
    given["disk"] = os.open(given["image"], os.O_RDWR)
    # One that is there already may be somebody's only record.
    given["log"] = os.open(given["record"], os.O_WRONLY | os.O_CREAT | os.O_EXCL, 0o666)
    put(given["log"], MAGIC)


def thread_model():
    """One request at a time, so that the record has the order in which the disk was written."""
    return nbdkit.THREAD_MODEL_SERIALIZE_ALL_REQUESTS


def can_fua(handle):
    """A write with FUA comes as one, and not as a write with a flush behind it."""
    return nbdkit.FUA_NATIVE


def open(readonly):
    return given


def get_size(handle):
    return os.stat(handle["disk"]).st_size


@told
def pread(handle, buf, offset, flags):
    view = memoryview(buf).cast("B")
    while view:
        part = os.pread(handle["disk"], len(view), offset)
        if not part:
            raise OSError(errno.EIO, "past the end of the disk")
        view[:len(part)] = part
        view, offset = view[len(part):], offset + len(part)


@told
def pwrite(handle, buf, offset, flags):
    put(handle["disk"], buf, offset)
    record(handle, b"W", offset, len(buf), flags, buf)


@told
def trim(handle, count, offset, flags):
    """What was trimmed is zeros, as it is where the record is searched."""
    clear(handle, count, offset)
    record(handle, b"T", offset, count, flags)


@told
def zero(handle, count, offset, flags):
    clear(handle, count, offset)
    record(handle, b"Z", offset, count, flags)


@told
def flush(handle, flags):
    os.fdatasync(handle["disk"])
    record(handle, b"F", 0, 0, 0)


def clear(handle, count, offset):
    for at in range(0, count, PIECE):
        put(handle["disk"], bytes(min(PIECE, count - at)), offset + at)


def record(handle, kind, offset, length, flags, data=b""):
    is_forced = bool(flags & nbdkit.FLAG_FUA)
    if is_forced:
        os.fdatasync(handle["disk"])
    put(handle["log"], HEAD.pack(kind, is_forced, 0, length, offset) + bytes(data))


def put(file, data, offset=None):
    """Writes all of some bytes: at a place, or at the end."""
    view = memoryview(data).cast("B")
    while view:
        count = os.write(file, view) if offset is None else os.pwrite(file, view, offset)
        view = view[count:]
        offset = None if offset is None else offset + count
