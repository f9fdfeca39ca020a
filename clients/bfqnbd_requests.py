"""Requests of an NBD client as reads, writes and discards of whole sectors, in pieces that a host takes.

A piece has at most 64 sectors. A write that does not begin and end at a sector is fenced: it waits for all that its connection has begun,
reads the sectors of which it has a part, changes them, writes, and what comes behind it waits till then. So are zeros without bytes.
"""

from __future__ import annotations

import collections
from typing import Deque, Dict, Iterator, List, Optional, Sequence, Set, Tuple, Union

from bfqclient_base import MOST_SECTORS, SECTOR
from bfqclient_session import Io


# What a piece is at the host.
READ, WRITE, DISCARD = "read", "write", "discard"


class Request:
    """What a client asks of bytes of the device. Its sectors begin at `start`, and its places are counted in bytes from there."""

    __slots__ = ("cookie", "cost", "start", "skip", "length", "size", "is_fenced", "lacks_edges", "is_stale", "left", "done", "error")

    def __init__(self, cookie: int, offset: int, length: int, cost: int, is_fenced: bool) -> None:
        self.cookie, self.length, self.cost = cookie, length, cost
        self.start, self.skip = divmod(offset, SECTOR)
        # The bytes of all sectors of which it has a part.
        self.size = size_of(offset, length)
        self.is_fenced = is_fenced
        # Of a fenced one: whether the sectors of which it has a part are still to be read.
        self.lacks_edges = is_fenced
        # Of a fenced one: whether it must begin anew, once nothing of it is at the host.
        self.is_stale = False
        # How many of its pieces are not done, and those that are: what was undone must be done again, until the client is answered.
        self.left = 0
        self.done: List[Piece] = []
        self.error = 0

    def edges(self) -> List[int]:
        """The places of the sectors of which it has a part."""
        places = {0} if self.skip else set()
        if (self.skip + self.length) % SECTOR:
            places.add(self.size - SECTOR)
        return sorted(places)

    def pieces(self) -> List[Piece]:
        """Its next pieces: those of the sectors of which it has a part, then all."""
        found = [Piece(self, at, 1, READ) for at in self.edges()] if self.lacks_edges else self.whole()
        self.left = len(found)
        self.done = []
        return found

    def cut(self, first: int, end: int, kind: str) -> List[Piece]:
        """Pieces of this kind from one place to another."""
        return [Piece(self, at, min(MOST_SECTORS, (end - at) // SECTOR), kind) for at in range(first, end, MOST_SECTORS * SECTOR)]

    def whole(self) -> List[Piece]:
        """The pieces that do it."""
        raise NotImplementedError

    def fill(self, at: int, read: bytes) -> None:
        """Takes what was read, from this place on."""
        raise NotImplementedError

    def given(self, at: int, size: int) -> bytes:
        """The bytes that it writes at this place."""
        raise NotImplementedError

    def answer(self) -> Optional[memoryview]:
        """The bytes that were read; None if it is no read."""
        return None


def size_of(offset: int, length: int) -> int:
    """The bytes of all sectors of which a range has a part."""
    return -(-(offset % SECTOR + length) // SECTOR) * SECTOR


class Transfer(Request):
    """A read or a write of the client. `data` has whole sectors: what was read so far, or what is written."""

    __slots__ = ("is_read", "data")

    def __init__(self, cookie: int, offset: int, length: int, given: Optional[bytes]) -> None:
        super().__init__(cookie, offset, length, length, given is not None and size_of(offset, length) != length)
        self.is_read = given is None
        self.data: Union[bytes, bytearray] = given if given is not None and not self.is_fenced else bytearray(self.size)
        if self.is_fenced and given is not None:
            self.changing()[self.skip:self.skip + length] = given

    def changing(self) -> bytearray:
        """Its data, where it is filled piece by piece."""
        assert isinstance(self.data, bytearray)
        return self.data

    def whole(self) -> List[Piece]:
        return self.cut(0, self.size, READ if self.is_read else WRITE)

    def fill(self, at: int, read: bytes) -> None:
        """Takes what was read, from this place of its data on. Of a write that is what the client does not write."""
        data = self.changing()
        if self.is_read:
            data[at:at + len(read)] = read
            return
        end = at + len(read)
        for begin, stop in ((at, min(self.skip, end)), (max(at, self.skip + self.length), end)):
            if begin < stop:
                data[begin:stop] = read[begin - at:stop - at]

    def given(self, at: int, size: int) -> bytes:
        return bytes(memoryview(self.data)[at:at + size])

    def answer(self) -> Optional[memoryview]:
        return memoryview(self.data)[self.skip:self.skip + self.length] if self.is_read else None


class Clearing(Request):
    """A TRIM, or zeros that come without bytes: its whole sectors are discarded. Of a sector of which it has a part zeros write that part,
    and a TRIM leaves all of it."""

    __slots__ = ("blocks",)

    def __init__(self, cookie: int, offset: int, length: int, cost: int, is_trim: bool) -> None:
        super().__init__(cookie, offset, length, cost, not is_trim and size_of(offset, length) != length)
        # The sectors of which it has a part, by their places, as they are to be.
        self.blocks: Dict[int, bytearray] = {}

    def inside(self) -> Tuple[int, int]:
        """The places from which and to which whole sectors are discarded."""
        return SECTOR if self.skip else 0, self.size - SECTOR if (self.skip + self.length) % SECTOR else self.size

    def is_empty(self) -> bool:
        """Whether nothing is to be done, as a TRIM has no whole sector."""
        first, end = self.inside()
        return first >= end and not self.is_fenced

    def whole(self) -> List[Piece]:
        written = self.edges() if self.is_fenced else []
        return [*(Piece(self, at, 1, WRITE) for at in written), *self.cut(*self.inside(), DISCARD)]

    def fill(self, at: int, read: bytes) -> None:
        block = bytearray(read)
        begin, end = max(self.skip - at, 0), min(self.skip + self.length - at, SECTOR)
        block[begin:end] = bytes(end - begin)
        self.blocks[at] = block

    def given(self, at: int, size: int) -> bytes:
        return bytes(self.blocks[at])


class Piece:
    """A part of a request that is one read, write or discard of the host: its place in the request, and how many sectors it has."""

    __slots__ = ("request", "at", "count", "kind")

    def __init__(self, request: Request, at: int, count: int, kind: str) -> None:
        self.request, self.at, self.count, self.kind = request, at, count, kind

    @property
    def start(self) -> int:
        """Its first sector."""
        return self.request.start + self.at // SECTOR

    def data(self) -> bytes:
        """The bytes that it writes; those of a discard are zeros."""
        size = self.count * SECTOR
        return bytes(size) if self.kind == DISCARD else self.request.given(self.at, size)

    def io(self) -> Io:
        return Io(self.start, self.count, self.data() if self.kind == WRITE else None, self.kind == DISCARD)


class Requests:
    """The requests that are not answered, and the pieces that are not at the host."""

    def __init__(self) -> None:
        self.waiting: Deque[Request] = collections.deque()
        # Those that were begun; and the fenced one among them, which is then the only one.
        self.begun: Set[Request] = set()
        self.fenced: Optional[Request] = None
        self.pieces: Deque[Piece] = collections.deque()

    def __bool__(self) -> bool:
        return bool(self.waiting or self.begun)

    def all(self) -> Iterator[Request]:
        """All that are not answered."""
        yield from self.begun
        yield from self.waiting

    def begin(self) -> None:
        """Begins those that may begin: any but behind a fenced one, and a fenced one alone."""
        while self.waiting and self.fenced is None and not (self.waiting[0].is_fenced and self.begun):
            request = self.waiting.popleft()
            self.begun.add(request)
            if request.is_fenced:
                self.fenced = request
            self.pieces.extend(request.pieces())

    def ended(self, piece: Piece, error: int) -> bool:
        """A piece is done, or cannot be done. Gives whether its request is to be answered."""
        request = piece.request
        request.left -= 1
        request.error = request.error or error
        request.done.append(piece)
        if request.left:
            return False
        if not request.error and (request.is_stale or request.lacks_edges):
            request.lacks_edges, request.is_stale = request.is_stale, False
            self.pieces.extend(request.pieces())
            return False
        self.begun.discard(request)
        if request is self.fenced:
            self.fenced = None
        return True

    def again(self, lost: Sequence[Piece]) -> int:
        """Steps were undone: these pieces are not at the host any more, and of a request that is not answered what was done may not be
        so now. Does all of it again, in the order of old. Gives how many pieces that are."""
        fenced = self.fenced
        if fenced is not None:
            # What it has read may be what was undone, so it begins anew. No other one is at work.
            count = len(lost) + len(self.pieces)
            self.pieces.clear()
            fenced.left -= count
            fenced.is_stale = fenced.left > 0
            if not fenced.is_stale:
                fenced.lacks_edges = True
                self.pieces.extend(fenced.pieces())
            return count
        done = [piece for request in self.begun for piece in request.done]
        for request in self.begun:
            request.left += len(request.done)
            request.done = []
        self.pieces.extendleft(reversed([*done, *lost]))
        return len(done) + len(lost)
