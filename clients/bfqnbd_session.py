"""The session of one NBD connection at its host: what was asked, in its order, and what the host answers. Nothing here waits.

What was undone is noticed by what comes: a refusal 3, 4, 15 or 16, or a result that was told before.
"""

from __future__ import annotations

import collections
import errno
import time
from typing import Deque, Dict, Iterator, List, Optional, Protocol, Set, Union

from bfqclient_base import LONGEST, SECTOR, Lost, Refused, Reply, TimedOut, Wire, deadline
from bfqclient_session import (ATTACHED, FAILED, KINDS, MOST_BIOS, QUEUED, READ, REFUSED, RESULTS, SECOND, attach, opening, reap, reply_of,
                               submit)
from bfqnbd_handshake import Place
from bfqnbd_log import Log
from bfqnbd_requests import Piece, Requests

SEAT_TAKEN, NO_SESSION, STALE_SESSION, TOO_MANY_BIOS, NOTHING_OWED, HISTORY_FULL, OUT_OF_MEMORY = 2, 3, 4, 15, 16, 33, 34
# The refusals that are errors of their own; each other one is EIO.
ERRORS = {HISTORY_FULL: errno.ENOSPC, OUT_OF_MEMORY: errno.ENOMEM}
# A host answers 1,048,576 frames of a connection. Another one is made before.
MOST_FRAMES = 1_000_000
# How often a seat is tried that is taken, and how long to wait at most in between: seconds. All together that are some seconds.
TRIES, PAUSE = 20, 0.2
# How long a host may let a connection wait to be made: seconds.
TO_CONNECT = 10.0
# Asked for are results for this part of what is under way: with fewer the host waits for this bridge, and behind more no new ones come.
ASKED_PART = 2
ATTACH, REAP = "attach", "reap"


class Link(Wire):
    """A connection to the host."""

    def __init__(self, path: str) -> None:
        try:
            super().__init__(path, deadline(TO_CONNECT), reply_of)
        except TimedOut as late:
            raise Lost(f"{path}: {late.text}") from late
        # How many frames were sent.
        self.frames = 0

    def ask(self, frame: bytes) -> None:
        """Notes a frame; it goes with the next push."""
        self.unsent += frame
        self.frames += 1

    def replies(self) -> Iterator[Reply]:
        """The replies that are there whole."""
        while len(self.unread) >= 4:
            length = int.from_bytes(self.unread[:4], "big")
            if not 1 <= length <= LONGEST:
                raise Lost(f"no frame: its length is {length}")
            if len(self.unread) < 4 + length:
                return
            body = bytes(memoryview(self.unread)[4:4 + length])
            del self.unread[:4 + length]
            yield self.reply_of(body)


class Owner(Protocol):
    """Whoever a session is for."""

    def attached(self, number: int) -> None:
        """The session has this number."""

    def ended(self, piece: Piece, error: int) -> None:
        """A piece is done, or cannot be done for this error."""

    def undone(self, why: str, lost: List[Piece]) -> None:
        """Steps were undone and not redone; these pieces are not at the host any more. There is no reason where it was told before."""

    def told(self, text: str) -> None:
        """A line for a person."""


class HostSession:
    """A session at a seat. Raises Lost, and Refused if it cannot attach."""

    def __init__(self, path: str, place: Place, owner: Owner, depth: int = MOST_BIOS, log: Optional[Log] = None) -> None:
        self.path, self.place, self.owner, self.depth, self.log = path, place, owner, depth, log
        # Its number; 0 while it is not attached.
        self.number = 0
        self.link: Optional[Link] = None
        # Why it is to attach anew, if it is; how often it has tried; and when it may.
        self.renewing = ""
        self.tries = 0
        self.not_before = 0.0
        # What is not answered yet, in its order: a piece for a Submit.
        self.expected: Deque[Union[Piece, str]] = collections.deque()
        self.submits = self.reaps = 0
        # The pieces that the host has queued, by their bios; those of a session that is gone; and bios whose results nobody waits for.
        self.going: Dict[int, Piece] = {}
        self.lost: List[Piece] = []
        self.dropped: Set[int] = set()

    @property
    def is_idle(self) -> bool:
        """Whether the host owes nothing."""
        return not (self.expected or self.going or self.lost)

    def connect(self) -> None:
        """Connects, and asks to attach."""
        self.close()
        self.number, self.submits, self.reaps = 0, 0, 0
        self.expected.clear()
        self.dropped.clear()
        self.link = Link(self.path)
        # What a stream begins with is no call, and does not count.
        self.link.unsent += opening(SECOND)
        self.link.ask(attach(*self.place))
        self.expected.append(ATTACH)

    def close(self) -> None:
        """Ends the connection, if there is one: the host makes a Leave for it."""
        if self.link is not None:
            self.link.close()
        self.link = None

    def wait(self) -> Optional[float]:
        """For how many seconds nothing can be done here, if nothing comes; None if that is for ever."""
        return max(0.0, self.not_before - time.monotonic()) if self.link is None else None

    def feed(self, requests: Requests) -> None:
        """Asks for all that can be asked for now."""
        if self.link is None:
            if time.monotonic() >= self.not_before:
                self.connect()
            return
        if not self.number:
            return
        if self.link.frames > MOST_FRAMES - 2 * MOST_BIOS:
            self.renewing = self.renewing or "frames"
        if self.renewing:
            self.renew()
            return
        while requests.pieces and len(self.going) + self.submits < self.depth:
            piece = requests.pieces.popleft()
            self.link.ask(submit(self.number, piece.io()))
            self.expected.append(piece)
            self.submits += 1
        self.ask_results()

    def ask_results(self) -> None:
        """Asks for results where some are under way and none was asked for."""
        if self.reaps == 0 and (self.going or self.submits):
            self.reaps = -(-(len(self.going) + self.submits) // ASKED_PART)
            self.ask_reaps(self.reaps)

    def ask_reaps(self, count: int) -> None:
        assert self.link is not None
        for _ in range(count):
            self.link.ask(reap(self.number))
            self.expected.append(REAP)

    def renew(self) -> None:
        """Attaches anew, once all that was asked is answered, and if the session stands, all that is under way is done."""
        if self.renewing == "undone":
            if not self.expected:
                self.connect()
        elif self.going or self.submits:
            self.ask_results()
        elif not self.expected:
            self.connect()

    def pull(self) -> None:
        """Takes what the host has sent."""
        assert self.link is not None
        link = self.link
        link.pull()
        for reply in link.replies():
            if not self.expected:
                raise Lost("a reply to nothing")
            asked = self.expected.popleft()
            if asked == ATTACH:
                self.take_attached(reply)
            elif asked == REAP:
                self.reaps -= 1
                self.take_result(reply)
            elif isinstance(asked, Piece):
                self.submits -= 1
                self.take_queued(asked, reply)

    def take_attached(self, reply: Reply) -> None:
        """The answer to an Attach. A seat may be taken by a session whose leave was undone: at the end of this connection the host makes a
        Leave for it. Or a session has left it with requests that are not finished. So it is tried again."""
        if reply.kind == ATTACHED:
            self.number, self.tries = reply.fields[0], 0
            self.owner.attached(self.number)
            if self.renewing == "undone":
                lost, self.lost, self.going = [*self.in_order(), *self.lost], [], {}
                self.renewing = ""
                self.owner.undone("", lost)
            self.renewing = ""
        elif reply.kind != REFUSED:
            raise other(reply)
        elif reply.fields[0] != SEAT_TAKEN or self.tries >= TRIES:
            raise Refused(reply.fields[0])
        else:
            self.close()
            self.expected.clear()
            self.not_before = time.monotonic() + min(0.001 * 2 ** self.tries, PAUSE)
            self.tries += 1

    def in_order(self) -> List[Piece]:
        """The pieces that are queued, in the order in which they were."""
        return [self.going[bio] for bio in sorted(self.going)]

    def take_queued(self, piece: Piece, reply: Reply) -> None:
        """The answer to a Submit."""
        if reply.kind == QUEUED:
            self.going[reply.fields[0]] = piece
            return
        code = refusal(reply)
        if code in (NO_SESSION, STALE_SESSION):
            self.lost.append(piece)
            self.session_gone(code)
        elif code == TOO_MANY_BIOS:
            # The host owes what was told: nobody takes it away but this session, though it has nothing under way.
            if self.reaps == 0:
                self.reaps = 1
                self.ask_reaps(1)
            self.owner.undone("refused 15", [piece])
        else:
            self.owner.ended(piece, ERRORS.get(code, errno.EIO))

    def take_result(self, reply: Reply) -> None:
        """The answer to a Reap."""
        if reply.kind not in RESULTS:
            self.take_refused(refusal(reply))
            return
        bio: int = reply.fields[0]
        piece = self.going.pop(bio, None)
        if piece is None:
            if bio not in self.dropped:
                self.owner.undone(f"bio {bio} was told again", [])
            self.dropped.discard(bio)
            return
        if reply.kind not in KINDS[piece.kind] or reply.kind == READ and len(reply.fields[1]) != piece.count * SECTOR:
            raise other(reply)
        if reply.kind == READ:
            piece.request.fill(piece.at, reply.fields[1])
        elif reply.kind != FAILED:
            self.note(bio, piece)
        self.owner.ended(piece, errno.EIO if reply.kind == FAILED else 0)

    def take_refused(self, code: int) -> None:
        """A Reap was refused."""
        if code in (NO_SESSION, STALE_SESSION):
            self.session_gone(code)
        elif code == NOTHING_OWED:
            # Whatever was queued before this Reap is not owed any more.
            if self.going:
                lost, self.going = self.in_order(), {}
                self.owner.undone("refused 16", lost)
        else:
            # There is no history or no memory for a result, so none of these can be had.
            pieces, self.going = dict(self.going), {}
            self.dropped.update(pieces)
            for piece in pieces.values():
                self.owner.ended(piece, ERRORS.get(code, errno.EIO))

    def session_gone(self, code: int) -> None:
        """Nobody knows this session any more. Once all that was asked is answered another one begins."""
        if self.renewing != "undone":
            self.renewing = "undone"
            self.owner.undone(f"refused {code}", [])

    def note(self, bio: int, piece: Piece) -> None:
        """Writes a write or a discard that is done to the log, if there is one."""
        if self.log is not None and (fault := self.log.add(bio, piece.start, piece.count, piece.data())) is not None:
            self.owner.told(f"the log ends before bio {bio}: {fault}")


def refusal(reply: Reply) -> int:
    """The code of a refusal. Raises Lost if it is none."""
    if reply.kind != REFUSED:
        raise other(reply)
    code: int = reply.fields[0]
    return code


def other(reply: Reply) -> Lost:
    return Lost(f"another reply than was waited for: {reply.kind:02x}")
