"""Looks at the host from time to time, in a process of its own: whether it is there, whether steps behind a session's Attach were undone, and
whether its history is full.

The line of steps tells it exactly. `show host` has the last serial that was given and how many steps stand. Each step has the next serial.
So while nothing is undone behind a session's Attach, the last serial less the number of steps that stand is the same as when it attached.

What is not finished when the history becomes full never is, and a Reap for it waits for ever. No look tells how long the history may be; the
words that started the host do. If they cannot be had and nothing was accepted for a while, where reads, writes or discards are under way,
another seat is asked to attach: that is refused then.
"""

from __future__ import annotations

import os
import select
import socket
import time
from typing import Dict, List, NamedTuple, Optional

from bfqclient_base import ClientError, NoInspect, Refused
from bfqclient_operator import Operator
from bfqclient_session import Session
from bfqnbd_line import ENDED, FULL, SITS, UNDONE, hear, say
from bfqnbd_room import most_of
from bfqnbd_wire import Gone

# How often it looks, in seconds: while a session sits there, and while none does.
OFTEN, SELDOM = 0.1, 1.0
# For how long a look is waited for: seconds. It is asked again then.
PATIENCE = 10.0
# After how many seconds without a call it asks whether the history is full, and after how many again, as the device may be slow. To ask is an
# Attach and a Leave if it is not.
STILL, STILL_AGAIN = 2.0, 10.0
# For how long a seat may let it wait then: seconds.
TO_ATTACH = 2.0
HISTORY_FULL = 33


class Line(NamedTuple):
    """Where a host stands: whether it is held, whether it is frozen, how many steps stand, the last serial, and how many calls were
    accepted."""

    is_held: bool
    is_frozen: bool
    cursor: int
    serial: int
    journal: int


def line_of(operator: Operator) -> Line:
    """Where the host stands. Raises ClientError."""
    _, _, run, hold, _, cursor, _, serial, journal = operator.look("show host").split(" ")[:9]
    return Line(hold == "held", run == "frozen", int(cursor), int(serial), int(journal))


class Watch:
    """What is known of the sessions that sit at the host."""

    def __init__(self, operator: Operator, bridge: socket.socket, seats: List[int], most: Optional[int]) -> None:
        self.operator, self.bridge, self.seats = operator, bridge, seats
        # How many calls the history may have, if that is known.
        self.most = most
        # The session at each seat, and how many serials were lost when it attached; None if that is not known yet.
        self.sessions: Dict[int, int] = {}
        self.lost: Dict[int, Optional[int]] = {}
        # How many calls were accepted at the last look; when to ask whether the history is full, or to tell it again.
        self.journal = -1
        self.ask_at = 0.0

    def run(self) -> None:
        """Looks till the bridge has ended, or the host has."""
        poll = select.poll()
        poll.register(self.bridge, select.POLLIN)
        while True:
            # A session is looked for as soon as it sits there.
            if poll.poll((OFTEN if self.sessions else SELDOM) * 1000):
                self.note(*hear(self.bridge))
            try:
                self.look()
            except NoInspect:
                say(self.bridge, ENDED)
                return
            except ClientError:
                # Others were before it, or the host is ending. The next look tells.
                continue

    def note(self, word: str, numbers: List[int]) -> None:
        """A session that sits there, or has left."""
        self.sessions.pop(numbers[0], None)
        self.lost.pop(numbers[0], None)
        if word == SITS:
            self.sessions[numbers[0]], self.lost[numbers[0]] = numbers[1], None

    def look(self) -> None:
        """One look. While the host is held what was undone may be redone, so nothing is said then."""
        line = line_of(self.operator)
        self.look_for_room(line)
        if line.is_held:
            return
        lost = line.serial - line.cursor
        for seat, session in self.sessions.items():
            known = self.lost[seat]
            if known is None:
                known = self.first(session, lost)
            if lost > known:
                say(self.bridge, UNDONE, seat, lost - known)
            self.lost[seat] = lost

    def first(self, session: int, lost: int) -> int:
        """How many serials were lost when a session attached that was not looked for yet. If its Attach stands where it must if none was lost
        since, none was."""
        place = session - lost
        told = self.operator.look(f"show step {place}").split(" ") if place > 0 else ["step", "0", "none"]
        # Of a session that is gone at least its Attach was undone.
        return lost if told[2] == str(session) else lost - 1

    def look_for_room(self, line: Line) -> None:
        """Tells if the history is full. At the look before it was as full: what was answered last has come to its client by now."""
        is_still = line.journal == self.journal
        self.journal = line.journal
        if self.most is not None:
            if is_still and line.journal >= self.most and time.monotonic() > self.ask_at:
                self.ask_at = time.monotonic() + STILL
                say(self.bridge, FULL)
        elif not is_still or line.is_held or line.is_frozen:
            self.ask_at = time.monotonic() + STILL
        elif time.monotonic() > self.ask_at:
            self.ask_at = time.monotonic() + STILL_AGAIN
            self.ask_for_room()

    def ask_for_room(self) -> None:
        """Whether the history has room, if something is under way that does not end."""
        seats = self.operator.looks([f"show seat {seat}" for seat in self.sessions])
        if any(told.split(" ")[5:6] not in ([], ["0"]) for told in seats) and self.is_full():
            say(self.bridge, FULL)

    def is_full(self) -> bool:
        """Whether an Attach is refused for the history, at a seat of the bridge at which nobody sits."""
        for seat in self.seats:
            if seat not in self.sessions:
                try:
                    with Session(os.path.join(self.operator.folder, f"client{seat}"), timeout=TO_ATTACH):
                        return False
                except Refused as refused:
                    return refused.code == HISTORY_FULL
        return False


def watch(folder: str, bridge: socket.socket, seats: List[int]) -> None:
    """Looks at the host of a folder till it has ended, or the bridge has."""
    try:
        Watch(Operator(folder, PATIENCE), bridge, seats, most_of(folder)).run()
    except Gone:
        pass
