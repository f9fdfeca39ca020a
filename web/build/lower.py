"""Rewrites a WebAssembly module over a 64-bit memory for a 32-bit one, so that every browser takes it.

An address keeps its 64 bits in the code, and is cut to 32 at each access. That changes nothing if the memory has at most 4 GiB, as one of
32 bits has. An access below address 0 becomes one near 4 GiB, and traps too. Read is what `rattle-link` writes of a Rattle module: one
memory of its own, no import, no call by pointer, no vectors and no threads. Anything else is refused.
"""

I32, I64, F32, F64 = 0x7F, 0x7E, 0x7D, 0x7C
WRAP, EXTEND_S, EXTEND_U = b"\xa7", b"\xac", b"\xad"
MAGIC = b"\0asm\1\0\0\0"
# The sections of a module that are read; all but those of names and notes are kept.
NOTES, TYPES, IMPORTS, FUNCTIONS, TABLES, MEMORIES, CODE, DATA = 0, 1, 2, 3, 4, 5, 10, 11
# A load or a store: the first and the last opcode, the first store, and what a store takes.
FIRST_LOAD, FIRST_STORE, LAST_STORE = 0x28, 0x36, 0x3E
STORED = {0x36: I32, 0x37: I64, 0x38: F32, 0x39: F64, 0x3A: I32, 0x3B: I32, 0x3C: I64, 0x3D: I64, 0x3E: I64}
MEMORY_SIZE, MEMORY_GROW, MORE = 0x3F, 0x40, 0xFC
MEMORY_COPY, MEMORY_FILL, LAST_CONVERSION = 10, 11, 7
# The opcodes that are kept with what stands behind them: a signed number, a number, numbers with their count, or nothing.
SIGNED = {0x02, 0x03, 0x04, 0x41, 0x42}
NUMBERED = {0x0C, 0x0D, 0x10, 0x20, 0x21, 0x22, 0x23, 0x24}
BRANCH_TABLE = 0x0E
FIXED = {0x43: 4, 0x44: 8}
PLAIN = {0x00, 0x01, 0x05, 0x0B, 0x0F, 0x1A, 0x1B, *range(0x45, 0xC5)}


class Unknown(ValueError):
    """The module has something that is not read here."""


class Reader:
    """Reads bytes from the front on."""

    def __init__(self, data, at=0):
        self.data, self.at = data, at

    def byte(self):
        self.at += 1
        return self.data[self.at - 1]

    def take(self, count):
        """The next bytes."""
        self.at += count
        return self.data[self.at - count:self.at]

    def number(self):
        """A number in LEB128."""
        whole = shift = 0
        while True:
            byte = self.byte()
            whole |= (byte & 127) << shift
            shift += 7
            if byte < 128:
                return whole

    def signed(self):
        """A signed number in LEB128."""
        whole = shift = 0
        while True:
            byte = self.byte()
            whole |= (byte & 127) << shift
            shift += 7
            if byte < 128:
                return whole - (1 << shift) if byte & 64 else whole


def number(whole):
    """A number in LEB128, as short as it can be."""
    out = bytearray()
    while True:
        byte, whole = whole & 127, whole >> 7
        out.append(byte | 128 if whole else byte)
        if not whole:
            return bytes(out)


def signed(whole):
    """A signed number in LEB128, as short as it can be."""
    out = bytearray()
    while True:
        byte, whole = whole & 127, whole >> 7
        if (whole == 0 and not byte & 64) or (whole == -1 and byte & 64):
            return bytes([*out, byte])
        out.append(byte | 128)


def sections(data):
    """The kind and the bytes of each section."""
    if data[:len(MAGIC)] != MAGIC:
        raise Unknown("it is no WebAssembly module")
    reader = Reader(data, len(MAGIC))
    while reader.at < len(data):
        kind = reader.byte()
        yield kind, reader.take(reader.number())


def parameters(types):
    """How many parameters each type of a function has."""
    reader = Reader(types)
    for _ in range(reader.number()):
        if reader.byte() != 0x60:
            raise Unknown("a type that is no function's")
        yield len(reader.take(reader.number()))
        reader.take(reader.number())


def limits(reader):
    """The limits of a memory or a table, with an index of 32 bits."""
    flags = reader.byte()
    if flags & ~5:
        raise Unknown("a shared memory")
    numbers = [reader.number() for _ in range(1 + (flags & 1))]
    return bytes([flags & 1]) + b"".join(map(number, numbers))


def memories(body):
    """The section of the one memory."""
    reader = Reader(body)
    if reader.number() != 1:
        raise Unknown("not one memory")
    return b"\1" + limits(reader)


def tables(body):
    """The section of tables, which are empty."""
    reader = Reader(body)
    count = reader.number()
    return number(count) + b"".join(reader.take(1) + limits(reader) for _ in range(count))


def segments(body):
    """The section of data, of which each segment lies at a number."""
    reader, out = Reader(body), b""
    count = reader.number()
    for _ in range(count):
        if reader.number() or reader.byte() != 0x42:
            raise Unknown("a segment of data that does not lie at a number")
        out += b"\0\x41" + signed(reader.signed()) + reader.take(1)
        length = reader.number()
        out += number(length) + reader.take(length)
    return number(count) + out


class Function:
    """Rewrites the body of a function that has so many parameters."""

    def __init__(self, body, own):
        self.body, self.reader, self.out = body, Reader(body), bytearray()
        self.groups = [(self.reader.number(), self.reader.byte()) for _ in range(self.reader.number())]
        first = own + sum(count for count, _ in self.groups)
        # Two spare locals of i64 and one of each other type, for what stands on the stack above an address.
        self.spare = {I64: first, "next": first + 1, I32: first + 2, F32: first + 3, F64: first + 4}
        self.groups += [(2, I64), (1, I32), (1, F32), (1, F64)]

    def keep(self, which):
        return b"\x21" + number(self.spare[which])

    def give(self, which):
        return b"\x20" + number(self.spare[which])

    def rewritten(self):
        """The whole body with its new locals."""
        while self.reader.at < len(self.body):
            at = self.reader.at
            code = self.reader.byte()
            if FIRST_LOAD <= code <= LAST_STORE:
                self.access(code)
            elif code in (MEMORY_SIZE, MEMORY_GROW):
                self.size(code, at)
            elif code == MORE:
                self.more(at)
            else:
                self.same(code, at)
        return number(len(self.groups)) + b"".join(number(count) + bytes([kind]) for count, kind in self.groups) + bytes(self.out)

    def access(self, code):
        """A load or a store: its address is cut."""
        align, offset = self.reader.number(), self.reader.number()
        if offset >= 1 << 32:
            raise Unknown("an offset of over 32 bits")
        # The linker writes an offset in ten bytes, where five are the most for one of 32 bits.
        whole = bytes([code]) + number(align) + number(offset)
        self.out += WRAP + whole if code < FIRST_STORE else self.keep(STORED[code]) + WRAP + self.give(STORED[code]) + whole

    def size(self, code, at):
        """How large the memory is, or is to be."""
        self.reader.byte()
        own = self.body[at:self.reader.at]
        # It answers -1 where the memory cannot grow.
        self.out += own + EXTEND_U if code == MEMORY_SIZE else WRAP + own + EXTEND_S

    def more(self, at):
        """An instruction of two parts: a copy or a fill, whose addresses and length are cut, or a conversion, which is kept."""
        kind = self.reader.number()
        if kind == MEMORY_COPY:
            self.reader.take(2)
            self.out += self.keep(I64) + self.keep("next") + WRAP + self.give("next") + WRAP + self.give(I64) + WRAP
        elif kind == MEMORY_FILL:
            self.reader.take(1)
            self.out += self.keep(I64) + self.keep(I32) + WRAP + self.give(I32) + self.give(I64) + WRAP
        elif kind > LAST_CONVERSION:
            raise Unknown(f"the instruction fc {kind}")
        self.out += self.body[at:self.reader.at]

    def same(self, code, at):
        """An instruction that is kept as it is."""
        if code in SIGNED:
            self.reader.signed()
        elif code in NUMBERED:
            self.reader.number()
        elif code == BRANCH_TABLE:
            for _ in range(self.reader.number() + 1):
                self.reader.number()
        elif code in FIXED:
            self.reader.take(FIXED[code])
        elif code not in PLAIN:
            raise Unknown(f"the instruction {code:02x}")
        self.out += self.body[at:self.reader.at]


def codes(body, owns):
    """The section of code, whose functions have so many parameters each."""
    reader, out = Reader(body), []
    for own in owns[:reader.number()]:
        whole = Function(reader.take(reader.number()), own).rewritten()
        out.append(number(len(whole)) + whole)
    return number(len(out)) + b"".join(out)


def lowered(data):
    """The bytes of a module over a 32-bit memory, of those of one over a 64-bit memory. It raises Unknown."""
    found = list(sections(data))
    by_kind = dict(found)
    if IMPORTS in by_kind:
        raise Unknown("a module that imports")
    counts = list(parameters(by_kind[TYPES]))
    reader = Reader(by_kind[FUNCTIONS])
    owns = [counts[reader.number()] for _ in range(reader.number())]
    change = {TABLES: tables, MEMORIES: memories, CODE: lambda body: codes(body, owns), DATA: segments}
    out = MAGIC
    for kind, body in found:
        if kind != NOTES:
            body = change.get(kind, bytes)(body)
            out += bytes([kind]) + number(len(body)) + body
    return out
