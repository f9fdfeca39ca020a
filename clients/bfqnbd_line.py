"""The lines between the bridge and its processes: one for each connection, and one for that which looks at the host.

A message is a word, and behind it numbers, each after a space. They go over a socket that keeps them apart.
"""

from __future__ import annotations

import socket
import sys
from typing import List, Optional, Tuple

from bfqnbd_wire import Gone

# What a connection says: it wants a seat, it gives its seat back, its session has this number, its host is gone.
SEAT, BACK, ATTACHED, LOST = "seat", "back", "attached", "lost"
# What it hears: its seat, that there is none, that so many steps were undone behind its Attach, and that the history is full.
NONE, UNDONE, FULL = "none", "undone", "full"
# What the bridge says to whoever looks: a seat has this session, or none; and what it hears besides UNDONE and FULL: the host has ended.
SITS, LEFT, ENDED = "sits", "left", "ended"
# No message has more bytes: a word and two numbers.
LONGEST = 64


def pair() -> Tuple[socket.socket, socket.socket]:
    """Both ends of a line."""
    return socket.socketpair(socket.AF_UNIX, socket.SOCK_SEQPACKET)


def say(line: socket.socket, word: str, *numbers: int) -> None:
    """Sends a message. Raises Gone if nobody is there."""
    try:
        line.send(" ".join([word, *map(str, numbers)]).encode())
    except OSError as fault:
        raise Gone("the bridge has ended") from fault


def hear(line: socket.socket) -> Tuple[str, List[int]]:
    """The next message, which is waited for. Raises Gone if nobody is there."""
    try:
        word, *numbers = line.recv(LONGEST).decode().split(" ")
    except OSError as fault:
        raise Gone("the bridge has ended") from fault
    if not word:
        raise Gone("the bridge has ended")
    return word, [int(it) for it in numbers]


class BridgeLine:
    """A connection's line to the bridge, and what is said of it to a person."""

    def __init__(self, line: socket.socket) -> None:
        self.line = line
        self.seat: Optional[int] = None

    def fileno(self) -> int:
        return self.line.fileno()

    def told(self, text: str) -> None:
        tell(f"seat {self.seat}: {text}")

    def take_seat(self) -> bool:
        """Whether there is a seat, which is this connection's own then."""
        say(self.line, SEAT)
        word, numbers = hear(self.line)
        self.seat = numbers[0] if word == SEAT else None
        return word == SEAT

    def give_back(self) -> None:
        """Gives the seat back, as no session is there."""
        self.seat = None
        say(self.line, BACK)

    def attached(self, number: int) -> None:
        """The session has this number."""
        say(self.line, ATTACHED, number)

    def lost(self) -> None:
        """The host does not answer any more."""
        say(self.line, LOST)

    def notice(self) -> Optional[int]:
        """How many steps were undone, as a look shows; None if the history is full. Raises Gone if the bridge has ended."""
        word, numbers = hear(self.line)
        return numbers[0] if word == UNDONE else None


def tell(text: str) -> None:
    """Says a line on standard error, where it takes one. It goes out in one write, as processes say theirs at the same time; `print` makes
    two of them if nothing is buffered."""
    try:
        sys.stderr.write(f"bfqnbd: {text}\n")
        sys.stderr.flush()
    except OSError:
        pass
