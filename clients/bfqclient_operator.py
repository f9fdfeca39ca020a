"""The operator of a host that serves, with all commands that `bfqctl` has, and looks into the host."""

from __future__ import annotations

import contextlib
import os
import struct
from typing import Any, Dict, Iterator, List, NamedTuple, Optional, Sequence, Tuple, Type

from bfqclient_base import ClientError, Lost, Misuse, NoInspect, NotYet, Path, Refused, Reply, Wire, deadline, framed, in_range

# The sockets in the folder of a host.
OPERATOR, INSPECT = "operator", "inspect"
# What numbers fit their fields.
BYTE, WEIGHT, STEPS = 2**8 - 1, 2**16 - 1, 2**32 - 1
SCHEDULERS = {"none": 0, "bfq": 1}
GROUP, DONE, MOVED, CLOSED, REFUSED, NOT_YET = 0x91, 0x92, 0x93, 0x9F, 0xE0, 0xE1
FORMS = {GROUP: "B", DONE: "", MOVED: "II", CLOSED: "", REFUSED: "B", NOT_YET: "B"}
# A look is a line of at most so many bytes. Looks that are asked together have at most so many, which a socket takes at once.
MOST_BYTES, TOGETHER = 256, 4_096
# What the host answers to a line that is no look.
BAD_LINE = "bad line "


class Moved(NamedTuple):
    """Where a host stands: how many steps of its line stand, and how many the line has."""

    cursor: int
    length: int


def reply_of(body: bytes) -> Reply:
    """What a frame of the host says to the operator, without its length. Raises Lost if it says no such thing to him."""
    kind, rest = body[0], body[1:]
    if kind not in FORMS or len(rest) != struct.calcsize(">" + FORMS[kind]):
        raise Lost(f"no frame for the operator: {body[:16].hex()}")
    return Reply(kind, struct.unpack(">" + FORMS[kind], rest))


def no_frame(body: bytes) -> Reply:
    """Lines have no frames."""
    raise Lost(f"a frame where lines are asked for: {body[:16].hex()}")


class Operator:
    """The operator of a host. `path` is its folder, or the socket `operator` in it.

    Each call has a connection of its own, so that others come in between. A `timeout` is in seconds, above 0, for one call; if it is None
    a call waits as long as the host and whoever is connected there let it wait. Commands raise Refused, NotYet (while the host is held),
    Lost, TimedOut and Misuse. After each of them the next call may come."""

    def __init__(self, path: Path, timeout: Optional[float] = None) -> None:
        """Nothing is connected yet. Raises Misuse if the time limit is none."""
        deadline(timeout)
        given = os.fsdecode(path)
        is_folder = os.path.isdir(given)
        self.folder = given if is_folder else os.path.dirname(given)
        self.path = os.path.join(given, OPERATOR) if is_folder else given
        self.timeout = timeout

    def group_make(self, parent: int, weight: int, timeout: Optional[float] = None) -> int:
        """Makes a group of this weight under the group `parent`, and gives its number."""
        in_range("a parent", parent, 0, BYTE)
        in_range("a weight", weight, 0, WEIGHT)
        number: int = self._ask("group-make", framed(0x11, "BH", parent, weight), GROUP, timeout)[0]
        return number

    def group_drop(self, group: int, timeout: Optional[float] = None) -> None:
        """Drops a group with no session and no group in it."""
        in_range("a group", group, 0, BYTE)
        self._ask("group-drop", framed(0x12, "B", group), DONE, timeout)

    def set_weight(self, group: int, weight: int, timeout: Optional[float] = None) -> None:
        """Gives a group another weight, which counts from its next stamping on."""
        in_range("a group", group, 0, BYTE)
        in_range("a weight", weight, 0, WEIGHT)
        self._ask("set-weight", framed(0x13, "BH", group, weight), DONE, timeout)

    def freeze(self, timeout: Optional[float] = None) -> None:
        """From now on new reads, writes and discards wait."""
        self._ask("freeze", framed(0x14), DONE, timeout)

    def thaw(self, timeout: Optional[float] = None) -> None:
        """They wait no longer."""
        self._ask("thaw", framed(0x15), DONE, timeout)

    def switch(self, scheduler: str, timeout: Optional[float] = None) -> None:
        """Gives a frozen host without a request the scheduler `bfq` or `none`."""
        if scheduler not in SCHEDULERS:
            raise Misuse(f"a scheduler is {' or '.join(SCHEDULERS)}, and not {scheduler!r}")
        self._ask("switch", framed(0x16, "B", SCHEDULERS[scheduler]), DONE, timeout)

    def tick(self, timeout: Optional[float] = None) -> None:
        """Makes the queue in service a tick older."""
        self._ask("tick", framed(0x17), DONE, timeout)

    def hold(self, timeout: Optional[float] = None) -> Moved:
        """Holds the host: it takes no step until it is released."""
        return Moved(*self._ask("hold", framed(0x18), MOVED, timeout))

    def release(self, timeout: Optional[float] = None) -> None:
        """Releases a host that is held. The next step drops those that are undone then."""
        self._ask("release", framed(0x19), DONE, timeout)

    def undo(self, count: int = 1, timeout: Optional[float] = None) -> Moved:
        """Undoes the last steps that stand, of a host that is held."""
        in_range("a number of steps", count, 0, STEPS)
        return Moved(*self._ask("undo", framed(0x1A, "I", count), MOVED, timeout))

    def redo(self, count: int = 1, timeout: Optional[float] = None) -> Moved:
        """Redoes the next undone steps, of a host that is held."""
        in_range("a number of steps", count, 0, STEPS)
        return Moved(*self._ask("redo", framed(0x1B, "I", count), MOVED, timeout))

    def stop(self, timeout: Optional[float] = None) -> None:
        """The host ends. When this comes back its sockets are gone."""
        self._ask("stop", framed(0x1C), CLOSED, timeout)

    @contextlib.contextmanager
    def held(self, timeout: Optional[float] = None) -> Iterator[Moved]:
        """Holds the host for a block, and releases it behind it, also after an exception."""
        moved = self.hold(timeout)
        try:
            yield moved
        finally:
            self.release(timeout)

    def look(self, line: str, timeout: Optional[float] = None) -> str:
        """What the host answers to a look: a line of a script that asks and changes nothing, as `show flight` or `sector 5`.

        Raises NoInspect if the host has no socket for looks, Misuse if the line is none, Lost and TimedOut."""
        return self.looks([line], timeout)[0]

    def looks(self, lines: Sequence[str], timeout: Optional[float] = None) -> List[str]:
        """The answers to looks. Between two of them the host may go on, if it is not held."""
        for line in lines:
            check_line(line)
        until = deadline(self.timeout if timeout is None else timeout)
        found: List[str] = []
        try:
            while len(found) < len(lines):
                self._look_on(lines, found, until)
        except ClientError as fault:
            if isinstance(fault.__cause__, (FileNotFoundError, ConnectionRefusedError)):
                raise NoInspect(f"{fault.text}: the host has no socket for looks, or none runs").about("look") from fault
            raise fault.about("look")
        return found

    def _look_on(self, lines: Sequence[str], found: List[str], until: Optional[float]) -> None:
        """Asks the looks that have no answer yet. A host lets a connection go that has been met for a while if another one waits, so what
        is left then is asked in the next one."""
        before = len(found)
        wire = Wire(os.path.join(self.folder, INSPECT), until, no_frame)
        try:
            for part in pieces(lines[before:]):
                wire.send("".join(f"{line}\n" for line in part).encode())
                for line in part:
                    answer = wire.line(until)
                    if answer.startswith(BAD_LINE):
                        raise Misuse(f"the host knows no look {line!r}")
                    found.append(answer)
        except Lost:
            if len(found) == before:
                raise
        finally:
            wire.close()

    def _ask(self, kind: str, frame: bytes, wanted: int, timeout: Optional[float]) -> Tuple[Any, ...]:
        """One call, and the fields of its answer."""
        until = deadline(self.timeout if timeout is None else timeout)
        try:
            wire = Wire(self.path, until, reply_of)
            try:
                wire.send(frame)
                reply = wire.reply(until)
            finally:
                wire.close()
            if reply.kind in FAULTS:
                raise FAULTS[reply.kind](reply.fields[0])
            if reply.kind == CLOSED != wanted:
                raise Lost("the host has ended")
            if reply.kind != wanted:
                raise Lost(f"another reply than was waited for: {reply.kind:02x}")
            return reply.fields
        except ClientError as fault:
            raise fault.about(kind)


def check_line(line: str) -> None:
    """Raises Misuse if a line cannot be one that is answered."""
    if not line or line.startswith("#") or not line.isascii() or not line.isprintable() or len(line) > MOST_BYTES:
        raise Misuse(f"no line that is answered: {line[:MOST_BYTES]!r}")


FAULTS: Dict[int, Type[Refused]] = {REFUSED: Refused, NOT_YET: NotYet}


def pieces(lines: Sequence[str]) -> Iterator[List[str]]:
    """Lines, as many at a time as may be asked together."""
    part: List[str] = []
    size = 0
    for line in lines:
        if part and size + len(line) + 1 > TOGETHER:
            yield part
            part, size = [], 0
        part.append(line)
        size += len(line) + 1
    yield part
