"""Moments of a line of steps: `stored sector 2`, `issued seat 1`, `serial 312`, or `LOOK = TEXT`; the ways to them, forth and back; and the
states of the device on the way.

A machine is whatever answers the lines of a script: a run of a script or of a record, or a host that serves. It must be held while it is
searched. Each way is an `undo` or a `redo`, which the history counts like any call. `tools/step` and `tools/export` use this too.
"""

from __future__ import annotations

from typing import BinaryIO, Dict, Iterator, List, NamedTuple, Optional, Protocol, Sequence

from bfqclient_base import SECTOR

__all__ = ["Issued", "Line", "Look", "Machine", "Moment", "NotMoved", "Serial", "State", "Step", "Stored", "moment_of", "states"]

# So many steps are asked for together: their lines are fewer bytes than a pipe takes at once.
TOGETHER = 128
# What stands between a look and what it must answer; and with which words a look begins.
EQUALS = " = "
LOOKS = {"sector", "queue", "vtime", "class", "entity", "line", "show"}
FORMS = ("stored sector NUMBER", "issued seat SEAT", "serial SERIAL", f"LOOK{EQUALS}TEXT")


class Machine(Protocol):
    """Whatever answers the lines of a script, each in one line."""

    def ask_all(self, lines: Sequence[str]) -> List[str]:
        """The answers to lines, of at most 4,096 bytes together."""


class NotMoved(Exception):
    """The machine was to go back or forth, and answered otherwise. It stands where it stood before that line."""

    def __init__(self, line: str, answer: str) -> None:
        super().__init__(f"{line} -> {answer}")
        self.line, self.answer = line, answer


class Step(NamedTuple):
    """A step of a line: its place, counted from 1, its serial, and its line as a script spells it."""

    place: int
    serial: int
    line: str


class Line:
    """The line of a machine that is held, and where on it the machine stands: so many steps stand, of so many."""

    def __init__(self, machine: Machine) -> None:
        self.machine = machine
        _, cursor, length, _ = self.ask("line").split(" ")
        self.cursor, self.length = int(cursor), int(length)
        # Each line by which it moved, with its answer.
        self.moves: List[str] = []

    def ask(self, line: str) -> str:
        return self.machine.ask_all([line])[0]

    def go(self, place: int) -> None:
        """Goes to where so many steps stand. Raises NotMoved."""
        if place == self.cursor:
            return
        line = f"undo {self.cursor - place}" if place < self.cursor else f"redo {place - self.cursor}"
        answer = self.ask(line)
        if not answer.startswith("moved "):
            raise NotMoved(line, answer)
        self.moves.append(line)
        self.cursor = place

    def steps(self, places: Sequence[int]) -> Iterator[Step]:
        """The steps at these places, in their order."""
        for at in range(0, len(places), TOGETHER):
            for answer in self.machine.ask_all([f"show step {place}" for place in places[at:at + TOGETHER]]):
                _, place, serial, line = answer.split(" ", 3)
                yield Step(int(place), int(serial), line)

    def ahead(self, moment: Moment) -> Optional[Step]:
        """Goes forth to the next step by which the moment comes. If there is none the machine stands where it stood."""
        return self.search(moment, range(self.cursor + 1, self.length + 1))

    def behind(self, moment: Moment, with_last: bool = True) -> Optional[Step]:
        """Goes back to the last step by which the moment came, the last that stands among them if that is wanted."""
        return self.search(moment, range(self.cursor if with_last else self.cursor - 1, 0, -1))

    def search(self, moment: Moment, places: range) -> Optional[Step]:
        """Goes to the first step at these places by which the moment came. If there is none the machine stands where it stood."""
        origin = self.cursor
        moment.begin()
        for step in self.steps(places):
            if moment.may_come(step) and moment.comes(self, step):
                self.go(step.place)
                return step
        self.go(origin)
        return None


class Moment:
    """What comes by a step. Whether it does is told by looks right before the step, or right after it."""

    def begin(self) -> None:
        """A search begins: what was seen before counts no more."""

    def may_come(self, step: Step) -> bool:
        """Whether it may come by such a step. It tells without a move."""
        return True

    def comes(self, line: Line, step: Step) -> bool:
        """Whether it comes by this step. It moves the machine to before the step, or behind it."""
        raise NotImplementedError


def flight_of(line: Line) -> List[List[str]]:
    """What is in flight: for each request its tag, issue, seat, operation, sectors and bios."""
    return [item.split(":") for item in line.ask("show flight").split(" ")[1:]]


class Stored(Moment):
    """The device has stored a write of a sector, or discarded it."""

    def __init__(self, sector: int) -> None:
        self.sector = sector

    def may_come(self, step: Step) -> bool:
        return step.line.startswith("finish ") and step.line.endswith(" stored")

    def comes(self, line: Line, step: Step) -> bool:
        line.go(step.place - 1)
        return self.sector in sectors_stored(line, step)


def sectors_stored(line: Line, step: Step) -> range:
    """The sectors that a `finish .. stored` stores, or discards. The machine stands before it."""
    words = step.line.split(" ")[1:3]
    for item in flight_of(line):
        if item[:2] == words:
            start, count = map(int, item[4].split("+"))
            return range(start, start + count)
    return range(0)


class Issued(Moment):
    """A request of a seat is sent to the device."""

    def __init__(self, seat: int) -> None:
        self.seat = str(seat)

    def may_come(self, step: Step) -> bool:
        return step.line == "dispatch"

    def comes(self, line: Line, step: Step) -> bool:
        # The issue is the serial of the step that sent it.
        line.go(step.place)
        return any(item[1:3] == [str(step.serial), self.seat] for item in flight_of(line))


class Serial(Moment):
    """The step with this serial."""

    def __init__(self, serial: int) -> None:
        self.serial = serial

    def may_come(self, step: Step) -> bool:
        return step.serial == self.serial

    def comes(self, line: Line, step: Step) -> bool:
        return True


class Look(Moment):
    """A look begins to answer with this text: it does behind the step, and did not before."""

    def __init__(self, look: str, text: str) -> None:
        self.look, self.text = look, text
        # Whether it does where so many steps stand.
        self.seen: Dict[int, bool] = {}

    def begin(self) -> None:
        self.seen.clear()

    def comes(self, line: Line, step: Step) -> bool:
        # What was seen costs no move, and of the others the nearer one comes first, so that a search goes one way.
        for place in sorted((step.place - 1, step.place), key=lambda place: (place not in self.seen, abs(place - line.cursor))):
            self.see(line, place)
        return self.seen[step.place] and not self.seen[step.place - 1]

    def see(self, line: Line, place: int) -> None:
        if place not in self.seen:
            line.go(place)
            self.seen[place] = line.ask(self.look) == self.text


def moment_of(text: str) -> Moment:
    """The moment that a text names. Raises ValueError if it names none, and TypeError if it is no text. What stands behind the first word of a look, the machine judges."""
    if not isinstance(text, str):
        raise TypeError(f"a moment is a text, and not {text!r}")
    look, equals, wanted = text.partition(EQUALS)
    if equals and look.split(" ")[0] in LOOKS:
        return Look(look, wanted)
    words = text.split(" ")
    number = words[-1]
    if number.isascii() and number.isdigit():
        for name, kind in (("stored sector", Stored), ("issued seat", Issued), ("serial", Serial)):
            if " ".join(words[:-1]) == name:
                return kind(int(number))
    raise ValueError(f"no moment: {text!r}; one is {', '.join(FORMS[:-1])} or {FORMS[-1]}")


class State(NamedTuple):
    """The device as a crash could have left it: the step that stored a write or a discard, what that has changed, and all that is stored
    by then, each sector by its number with its 512 bytes: zeros if it was discarded. What is not among it is as the image has it."""

    step: Step
    changed: Dict[int, bytes]
    stored: Dict[int, bytes]

    def over(self, image: bytes) -> bytes:
        """The bytes of the device, if those of its image are these. What is stored past their end is left out."""
        data = bytearray(image)
        for sector, held in self.stored.items():
            data[sector * SECTOR:(sector + 1) * SECTOR] = held[:max(0, len(data) - sector * SECTOR)]
        return bytes(data)

    def write(self, file: BinaryIO) -> None:
        """Writes what is stored to its places in a file, as a copy of the image is one."""
        for sector, held in self.stored.items():
            file.seek(sector * SECTOR)
            file.write(held)


def states(line: Line) -> Iterator[State]:
    """The state of the device after each step of a line that stored a write or a discard, from the first on. At the end, or if it is left
    before, the machine stands where it stood. Raises NotMoved."""
    origin = line.cursor
    stored: Dict[int, bytes] = {}
    moment = Stored(0)
    try:
        for step in line.steps(range(1, line.length + 1)):
            if moment.may_come(step):
                line.go(step.place - 1)
                sectors = sectors_stored(line, step)
                line.go(step.place)
                changed = contents(line, sectors)
                stored.update(changed)
                yield State(step, changed, dict(stored))
    finally:
        line.go(origin)


def contents(line: Line, sectors: range) -> Dict[int, bytes]:
    """The bytes of sectors that are stored."""
    found: Dict[int, bytes] = {}
    for at in range(0, len(sectors), TOGETHER):
        for answer in line.machine.ask_all([f"sector {sector}" for sector in sectors[at:at + TOGETHER]]):
            _, sector, where, *told = answer.split(" ")
            if where != "overlay":
                raise ValueError(f"sector {sector} was stored, and is {where}")
            held = bytes.fromhex(told[0])
            found[int(sector)] = held if len(held) == SECTOR else held * SECTOR
    return found
