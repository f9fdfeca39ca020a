"""A record as docs/FORMATS.md has it, read by this page alone: a first line, and a frame for each entry.

It knows no code of the repository, so what it tells is a second reading.
"""

import zlib
from typing import NamedTuple

SECTOR = 512
HEADER = b"bfqhost record 1 "
# The greatest length of a frame's body: that of a Finish with the bytes of 256 sectors.
MOST_BODY = 131_083
CLASSES = {1: "rt", 3: "idle"}
WHYS = (2, 3, 4, 5)
FAILURES = {1: "short", 2: "fault"}
# A client's kinds with sectors alone.
SPANS = {0x02: "read", 0x06: "discard"}
SCHEDULERS = {0: "none", 1: "bfq"}
# The operator's kinds with no field.
BARE = {0x14: "freeze", 0x15: "thaw", 0x17: "tick", 0x18: "hold", 0x19: "release"}


class BadEntry(Exception):
    """The bytes of this entry, from 1, are none; 0 is the first line."""


class Entry(NamedTuple):
    """An entry: whose it is, its call as a line of a list has it, and where its frame ends in the file, in bytes."""
    who: str
    call: str
    end: int


class Fields:
    """The fields of a body, one after the other. Each that is not there raises IndexError."""

    def __init__(self, body):
        self.body = body

    def number(self, size):
        if len(self.body) < size:
            raise IndexError
        found, self.body = self.body[:size], self.body[size:]
        return int.from_bytes(found, "big")

    def rest(self, most):
        if len(self.body) > most:
            raise IndexError
        found, self.body = self.body, b""
        return found

    def of(self, names):
        return names[self.number(1)]


def bytes_text(data):
    """Bytes as a list tells them: the one byte that all are, two dots if there are none, or how many and their sum."""
    if not data:
        return ".."
    if data == data[:1] * len(data):
        return str(data[0])
    return f"<{len(data)} bytes, crc32 {zlib.crc32(data):08x}>"


def client_call(seat, kind, fields):
    if kind in (0x01, 0x08):
        group, prio = fields.number(1), fields.number(1)
        return f"attach {seat} {group} {prio}" + (f" {fields.of(CLASSES)}" if kind == 0x08 else "")
    if kind in (0x02, 0x03, 0x06):
        span = " ".join(str(fields.number(size)) for size in (8, 8, 2))
        return f"write {seat} {span} {bytes_text(fields.rest(64 * SECTOR))}" if kind == 0x03 else f"{SPANS[kind]} {seat} {span}"
    if kind == 0x04:
        return f"reap {seat} {fields.number(8)}"
    if kind == 0x05 or kind == 0x09 and fields.number(1) in WHYS:
        return f"leave {seat}"
    raise IndexError


def device_call(kind, fields):
    if kind not in (0x21, 0x22, 0x23, 0x24):
        raise IndexError
    flight = f"{fields.number(1)} {fields.number(8)}"
    if kind == 0x22:
        return f"finish {flight} fill {bytes_text(fields.rest(256 * SECTOR))}"
    if kind == 0x23:
        return f"finish {flight} {fields.of(FAILURES)}"
    return f"finish {flight} stored" if kind == 0x21 else f"requeue {flight}"


def operator_call(kind, fields):
    if kind in (0x11, 0x13):
        return f"{'group' if kind == 0x11 else 'weight'} {fields.number(1)} {fields.number(2)}"
    if kind == 0x12:
        return f"drop {fields.number(1)}"
    if kind == 0x16:
        return f"switch {fields.of(SCHEDULERS)}"
    if kind in (0x1a, 0x1b):
        return f"{'undo' if kind == 0x1a else 'redo'} {fields.number(4)}"
    return BARE[kind]


def entry_of(body, end):
    """The entry of a body. Raises LookupError if it is none."""
    who, fields = body[0], Fields(body[1:])
    kind = fields.number(1)
    if who < 16:
        entry = Entry(f"client{who}", client_call(who, kind, fields), end)
    elif 0x40 <= who < 0x44:
        entry = Entry(f"device{who - 0x40}", device_call(kind, fields), end)
    elif who == 0x80:
        entry = Entry("operator", operator_call(kind, fields), end)
    elif (who, kind) == (0xc0, 0x31):
        entry = Entry("core", "dispatch", end)
    else:
        raise IndexError
    if fields.body:
        raise IndexError
    return entry


def read_record(data):
    """The first line of a record without its end, its entries, and whether bytes of a frame that is not whole stand behind them.

    Raises BadEntry, whose first argument is the entry's number.
    """
    line, end, _ = data[:256].partition(b"\n")
    if not end or not line.startswith(HEADER):
        raise BadEntry(0)
    entries, place = [], len(line) + 1
    while len(data) - place >= 4:
        length = int.from_bytes(data[place:place + 4], "big")
        if not 0 < length <= MOST_BODY:
            raise BadEntry(len(entries) + 1)
        if len(data) - place - 4 < length:
            break
        place += 4 + length
        try:
            entries.append(entry_of(data[place - length:place], place))
        except LookupError:
            raise BadEntry(len(entries) + 1) from None
    return line, entries, place < len(data)
