"""What all parts of the client share: its exceptions with the refusals and causes, frames, and connections.

Whatever a program may use of it, `bfqclient` gives.
"""

from __future__ import annotations

import math
import operator
import os
import select
import socket
import struct
import time
from typing import Any, Callable, Dict, Iterable, NamedTuple, Optional, Tuple, TypeVar, Union

# The bytes of a sector.
SECTOR = 512
# A read, a write or a discard has at most so many sectors.
MOST_SECTORS = 64
# The longest frame that a host sends: a read of 64 sectors.
LONGEST = 9 + MOST_SECTORS * SECTOR
# No line that a host prints is longer: a request has at most 256 bios, of 20 digits each, and there are 256 requests.
LONGEST_LINE = 1 << 21
# What is said if a connection ends.
HOST_CLOSED = "the host closed the connection"
# How long to wait before another try to connect, where as many wait already as the system lets wait: seconds.
AGAIN = 0.01
FAILURES = {1: ("short", "the device ended before the range"), 2: ("fault", "the device reported a fault")}

# The refusals and causes of docs/FORMATS.md: the name of each, and what it says.
REFUSALS: Dict[int, Tuple[str, str]] = {
    1: ("BadSeat", "seats are numbered 0 to 15"),
    2: ("SeatTaken", "a session sits at this seat, or has left it with a request that is not finished"),
    3: ("NoSession", "nobody sits at this seat, or whoever did has left"),
    4: ("StaleSession", "another session sits at this seat"),
    5: ("NoGroup", "there is no such group; perhaps it was dropped, or its making undone"),
    6: ("RootGroup", "group 0 is the root, which is neither dropped nor given a weight"),
    7: ("BadWeight", "a weight is 1 to 1000"),
    8: ("BadPrio", "a priority is 0 to 7"),
    9: ("TooDeep", "groups stand at most four levels under the root"),
    10: ("GroupsFull", "there are 32 groups, the root among them, and there can be no more"),
    11: ("GroupInUse", "another group is in this group, or a session, even one that has left with a request that is not finished"),
    12: ("BadCount", "a read, a write or a discard has 1 to 64 sectors"),
    13: ("BadLength", "a write brings 512 bytes for each sector, and a read or a discard none; no line of a script breaks this"),
    14: ("OutOfRange", "the last of these sectors is past the end of the device"),
    15: ("TooManyBios", "the session has 32 reads, writes and discards that are not reaped; reap one first"),
    16: ("NothingOwed", "the session has no result to come: it has reaped one for each read, write and discard, if it made any"),
    17: ("NothingQueued", "no request waits to be sent"),
    18: ("NoTag", "every tag bears a request in flight; one must be finished or given back first"),
    19: ("BadTag", "tags are numbered from 0, and are as many as --tags says"),
    20: ("NotInFlight", "no request is in flight under this tag and issue; perhaps it was undone or has been finished"),
    21: ("BadOutcome", "a write or a discard is finished by stored alone, and a read by fill, short or fault"),
    22: ("AlreadyFrozen", "the host is frozen already"),
    23: ("NotFrozen", "the host is not frozen; thaw and switch want a frozen host"),
    24: ("NotDrained", "a request is still queued, in flight or given back by the device"),
    25: ("SameScheduler", "the host has this scheduler already"),
    26: ("NoneInService", "no queue is in service that could grow older; under the scheduler none there never is one"),
    27: ("VtimeFull", "a virtual time would pass 2^62"),
    28: ("NotHeld", "the host is not held; release, undo and redo want a held host"),
    29: ("AlreadyHeld", "the host is held already"),
    30: ("ZeroCount", "undo and redo take at least one step"),
    31: ("NothingToUndo", "fewer steps stand than are to be undone"),
    32: ("NothingToRedo", "fewer undone steps are left than are to be redone; a new step drops all that are left"),
    33: ("HistoryFull", "the journal has as many accepted calls as --history allows; going back makes no room"),
    34: ("OutOfMemory", "there was no memory for this call"),
    41: ("Held", "the host is held; it takes no step, a completion neither, until it is released"),
    42: ("Frozen", "the host is frozen; it takes no new read, write or discard until it is thawed"),
    43: ("RequestsFull", "there are as many requests as --nr-requests allows, and this read, write or discard joins none of them"),
    44: ("NotCompleted", "of the reads, writes and discards that the session has not reaped, none is finished yet"),
}

Path = Union[str, bytes, "os.PathLike[str]", "os.PathLike[bytes]"]
Found = TypeVar("Found", bound="ClientError")


class ClientError(Exception):
    """Each exception of this module is one of these.

    text      what happened, in one line
    name      its name: of a refusal that of docs/FORMATS.md, of a failed read `short` or `fault`, else that of the class
    sentence  what the name says
    kind      what was asked: `connect`, `attach`, `read`, `write`, `discard`, `reap`, `leave` or `run`; None if that is not known
    sectors   the sectors that it is about, as a `range`; None if there are none
    bios      the numbers of the reads, writes and discards that it is about, as the host counts them
    also      what was refused or failed besides, in the same call
    """

    kind: Optional[str] = None
    sectors: Optional[range] = None
    bios: Tuple[int, ...] = ()
    also: Tuple[ClientError, ...] = ()

    @property
    def text(self) -> str:
        return str(self.args[0])

    @property
    def name(self) -> str:
        return type(self).__name__

    @property
    def sentence(self) -> str:
        return self.text

    def about(self: Found, kind: Optional[str], sectors: Optional[range] = None, bios: Iterable[int] = ()) -> Found:
        """Notes what it is about, where nothing is noted yet."""
        if self.kind is None:
            self.kind, self.sectors, self.bios = kind, sectors, tuple(bios)
        return self

    def __str__(self) -> str:
        if self.sectors:
            last = f" to {self.sectors[-1]}" if self.sectors[0] != self.sectors[-1] else ""
            return f"{self.text} ({self.kind} of sector{'s' if last else ''} {self.sectors[0]}{last})"
        return f"{self.text} ({self.kind})" if self.kind else self.text


class Misuse(ClientError, ValueError):
    """A value is out of range, or a call comes at a time when none may. Nothing was sent for it, and the session goes on."""


class Refused(ClientError):
    """The host refused a call. `code` is the number, and `name` and `sentence` are those of docs/FORMATS.md. The session goes on."""

    word = "refused"

    def __init__(self, code: int) -> None:
        super().__init__(code)
        self.code = code

    @property
    def text(self) -> str:
        return f"{self.word} {self.code}"

    @property
    def name(self) -> str:
        return REFUSALS.get(self.code, ("Unknown", ""))[0]

    @property
    def sentence(self) -> str:
        return REFUSALS.get(self.code, ("", "this client does not know the number"))[1]

    def __str__(self) -> str:
        return f"{super().__str__()}: {self.name}: {self.sentence}"


class NotYet(Refused):
    """The host cannot do a call of the operator as things stand, and may later. `code`, `name` and `sentence` are as those of Refused."""

    word = "notyet"


class Failed(ClientError):
    """A read failed at the device. `name` is `short` or `fault`, and `bios` has its number. The session goes on."""

    def __init__(self, how: int) -> None:
        super().__init__(how)
        self.how = how

    @property
    def text(self) -> str:
        return self.sentence

    @property
    def name(self) -> str:
        return FAILURES.get(self.how, ("unknown", ""))[0]

    @property
    def sentence(self) -> str:
        return FAILURES.get(self.how, ("", "the device failed"))[1]


class Lost(ClientError):
    """The connection could not be made, or it ended, or what came is not what a host answers. The session has ended."""


class NoInspect(Lost):
    """The host cannot be looked into: it has no socket `inspect`."""


class NotServing(ClientError):
    """A host did not begin to serve, or has ended by itself. `line` is the last one that it said on standard error, and `status` its exit
    status: below 0 the signal that ended it, None if it runs or none was started."""

    def __init__(self, text: str, line: str = "", status: Optional[int] = None) -> None:
        super().__init__(text, line, status)
        self.line, self.status = line, status


class BadRecord(NotServing):
    """A record cannot be opened, or the program that reads it has ended. `line` is the last one that it said on standard error, and
    `status` its exit status."""


class NotFound(ClientError):
    """No step of the line brings a moment. The host stands where it stood."""


class Ended(Lost):
    """The session was used again after it had ended. The text says why it had."""


class TimedOut(ClientError, TimeoutError):
    """A time limit has passed. Whether the host does what was asked is not known. The session has ended."""


class Undone(ClientError):
    """The host told of what this client does not wait for: steps were undone, and not redone. The session has ended."""


class Reply(NamedTuple):
    """A frame of the host: its kind, and its fields."""

    kind: int
    fields: Tuple[Any, ...]


def in_range(what: str, value: int, least: int, most: int) -> None:
    """Raises Misuse, a ValueError, if a number is out of its range, and TypeError if it is no whole number."""
    if not least <= operator.index(value) <= most:
        raise Misuse(f"{what} is {least} to {most}, and not {value}")


def deadline(timeout: Optional[float]) -> Optional[float]:
    """When so many seconds will have passed; None where there is no limit. Raises Misuse if that is no time."""
    if timeout is None:
        return None
    if not timeout > 0:
        raise Misuse(f"a time limit is more than 0 seconds, and not {timeout}")
    return time.monotonic() + timeout


def framed(kind: int, form: str = "", *fields: int, rest: bytes = b"") -> bytes:
    """A frame: the length of what follows, the kind, the fields, and the rest."""
    body = struct.pack(">B" + form, kind, *fields) + rest
    return struct.pack(">I", len(body)) + body


class Wire:
    """A connection: frames, or lines, go out and come in. It reads while it sends, so that two full sockets never wait for each other.

    A time, where one is given, is one of `time.monotonic`: a wait that is not over by then ends by TimedOut."""

    def __init__(self, path: Path, until: Optional[float], reply_of: Callable[[bytes], Reply]) -> None:
        """Connects. What the host says in a frame, without its length, `reply_of` tells; it raises Lost if that is no answer."""
        self.reply_of = reply_of
        self.socket = socket.socket(socket.AF_UNIX)
        try:
            self.connect(os.fspath(path), until)
        except BaseException as error:
            self.socket.close()
            # A TimedOut is an OSError too, by Python's own names.
            if isinstance(error, OSError) and not isinstance(error, ClientError):
                # Of a path that is too long the system is not asked.
                raise Lost(f"{os.fsdecode(path)}: {error.strerror or error}") from error
            raise
        self.socket.setblocking(False)
        self.unsent = bytearray()
        self.unread = bytearray()

    def connect(self, path: Union[str, bytes], until: Optional[float]) -> None:
        """Connects, and waits where as many wait there already as the system lets wait."""
        self.socket.setblocking(until is None)
        while True:
            try:
                return self.socket.connect(path)
            except BlockingIOError:
                time.sleep(min(AGAIN, left(until) or AGAIN))

    def send(self, frame: bytes) -> None:
        """Sends what the socket takes now; the rest goes with the next reply that is waited for."""
        self.unsent += frame
        self.push()

    def push(self) -> None:
        try:
            while self.unsent:
                del self.unsent[:self.socket.send(self.unsent)]
        except BlockingIOError:
            pass
        except OSError as error:
            raise Lost(str(error)) from error

    def pull(self) -> None:
        try:
            piece = self.socket.recv(1 << 16)
        except BlockingIOError:
            return
        except OSError as error:
            raise Lost(str(error)) from error
        if not piece:
            raise Lost(HOST_CLOSED)
        self.unread += piece

    def reply(self, until: Optional[float] = None) -> Reply:
        """The next reply, which is waited for."""
        while True:
            if len(self.unread) >= 4:
                length = struct.unpack_from(">I", self.unread)[0]
                if not 1 <= length <= LONGEST:
                    raise Lost(f"no frame: its length is {length}")
                if len(self.unread) >= 4 + length:
                    body = bytes(self.unread[4:4 + length])
                    del self.unread[:4 + length]
                    return self.reply_of(body)
            self.wait(until)

    def line(self, until: Optional[float] = None) -> str:
        """The next line, without its end, which is waited for."""
        while b"\n" not in self.unread:
            if len(self.unread) > LONGEST_LINE:
                raise Lost(f"no line: it has more than {LONGEST_LINE} bytes")
            self.wait(until)
        line, _, rest = self.unread.partition(b"\n")
        self.unread = rest
        return line.decode(errors="replace")

    def wait(self, until: Optional[float]) -> None:
        """Waits till the socket takes or gives something, and moves it. What it gives comes first: it may be the last that came."""
        if self.socket.fileno() < 0:
            raise Lost("the connection is closed")
        # A number of files above 1,023 is nothing to `poll`, as it is to `select`.
        poll = select.poll()
        poll.register(self.socket, select.POLLIN | (select.POLLOUT if self.unsent else 0))
        seconds = left(until)
        # In milliseconds, and no more than an hour, as `poll` takes no number that is too large; whoever waits asks again.
        for _, event in poll.poll(None if seconds is None else math.ceil(min(seconds, 3600) * 1000)):
            if event & ~select.POLLOUT:
                self.pull()
            if event & select.POLLOUT:
                self.push()

    def close(self) -> None:
        self.socket.close()


def left(until: Optional[float]) -> Optional[float]:
    """The seconds up to a time; None where there is no limit. Raises TimedOut if it has passed."""
    if until is None:
        return None
    seconds = until - time.monotonic()
    if seconds <= 0:
        raise TimedOut("the time limit has passed")
    return seconds
