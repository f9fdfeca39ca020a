"""The handshake of NBD: fixed newstyle, with the options EXPORT_NAME, ABORT, LIST, INFO and GO."""

from __future__ import annotations

import re
import socket
import struct
from typing import Dict, List, NamedTuple, Optional, Protocol

from bfqclient_session import BEST_EFFORT, MOST_GROUP
from bfqnbd_wire import (FIXED_NEWSTYLE, GOOD_BLOCK, INFO_BLOCK_SIZE, INFO_EXPORT, LEAST_BLOCK, MOST_OPTION, MOST_REQUEST, NO_ZEROES,
                         OPT_ABORT, OPT_EXPORT_NAME, OPT_GO, OPT_INFO, OPT_LIST, OPTION_MAGIC, OPTION_REPLY_MAGIC, REP_ACK,
                         REP_ERR_INVALID, REP_ERR_UNKNOWN, REP_ERR_UNSUP, REP_INFO, REP_SERVER, SERVER_MAGIC, Gone, Offer, received, sent)

# The export of the device as it stands, by looks alone.
LOOK = "look"
# How long a client may say nothing in its handshake, and take nothing: seconds.
PATIENCE = 30.0
# What stands behind a group and a priority, and the class that it says.
CLASSES: Dict[str, str] = {"": BEST_EFFORT, "rt": "rt", "idle": "idle"}
PLACE = re.compile(rf"(?:g([0-9]{{1,2}})(?:p([0-7]))?({'|'.join(CLASSES)}))?", re.ASCII)
FORMS = (f"an export is '', 'gGROUP', 'gGROUPpPRIO', these two also with 'rt' or 'idle' behind, or '{LOOK}', GROUP 0 to {MOST_GROUP},"
         " PRIO 0 to 7, in lower case")


class Place(NamedTuple):
    """Where a session sits: its group, its priority and its class."""

    group: int
    prio: int
    prio_class: str


class Denied(Exception):
    """An export is not to be had: the kind of the option's reply, and why."""

    def __init__(self, kind: int, why: str) -> None:
        super().__init__(why)
        self.kind, self.why = kind, why


def place_of(name: str) -> Place:
    """Where the session of an export's name sits. Raises Denied if it is the name of none."""
    found = PLACE.fullmatch(name)
    if found is None or int(found[1] or 0) > MOST_GROUP:
        raise Denied(REP_ERR_UNKNOWN, FORMS)
    return Place(int(found[1] or 0), int(found[2] or 4), CLASSES[found[3] or ""])


class House(Protocol):
    """What a handshake asks of whoever has the exports."""

    def names(self) -> List[str]:
        """The exports that a list tells."""

    def offer(self, name: str) -> Offer:
        """What a client is told of an export. Raises Denied."""

    def open(self, name: str) -> None:
        """Makes it ready for requests. Raises Denied."""


class Handshake:
    """The handshake with one client. Raises Gone where the connection is to end."""

    def __init__(self, nbd: socket.socket, house: House) -> None:
        self.nbd, self.house = nbd, house
        self.has_zeroes = True

    def run(self) -> Optional[Offer]:
        """The export that was opened; None if the client wants none."""
        self.nbd.settimeout(PATIENCE)
        sent(self.nbd, struct.pack(">QQH", SERVER_MAGIC, OPTION_MAGIC, FIXED_NEWSTYLE | NO_ZEROES))
        flags = struct.unpack(">I", received(self.nbd, 4))[0]
        if flags & ~(FIXED_NEWSTYLE | NO_ZEROES):
            raise Gone(f"unknown flags {flags:08x}")
        if not flags & FIXED_NEWSTYLE:
            raise Gone("a client without fixed newstyle")
        self.has_zeroes = not flags & NO_ZEROES
        while True:
            magic, option, length = struct.unpack(">QII", received(self.nbd, 16))
            if magic != OPTION_MAGIC or length > MOST_OPTION:
                raise Gone("no option")
            data = received(self.nbd, length)
            if option == OPT_ABORT:
                self.reply(option, REP_ACK)
                return None
            if (offer := self.answer(option, data)) is not None:
                self.nbd.settimeout(None)
                return offer

    def answer(self, option: int, data: bytes) -> Optional[Offer]:
        """Answers an option. Gives the export if requests may come now."""
        try:
            if option == OPT_EXPORT_NAME:
                return self.by_name(data)
            if option == OPT_LIST:
                self.list(option, data)
            elif option in (OPT_INFO, OPT_GO):
                return self.by_option(option, data)
            else:
                raise Denied(REP_ERR_UNSUP, "")
        except Denied as denied:
            self.reply(option, denied.kind, denied.why.encode())
        return None

    def reply(self, option: int, kind: int, data: bytes = b"") -> None:
        sent(self.nbd, struct.pack(">QIII", OPTION_REPLY_MAGIC, option, kind, len(data)) + data)

    def by_name(self, data: bytes) -> Offer:
        """The oldest option. It has no reply for an error, so the connection ends."""
        try:
            name = text_of(data)
            offer = self.house.offer(name)
            self.house.open(name)
        except Denied as denied:
            raise Gone(denied.why) from denied
        sent(self.nbd, struct.pack(">QH", offer.size, offer.flags) + bytes(124 if self.has_zeroes else 0))
        return offer

    def list(self, option: int, data: bytes) -> None:
        if data:
            raise Denied(REP_ERR_INVALID, "a list is asked for without data")
        for name in self.house.names():
            self.reply(option, REP_SERVER, struct.pack(">I", len(name)) + name.encode())
        self.reply(option, REP_ACK)

    def by_option(self, option: int, data: bytes) -> Optional[Offer]:
        """INFO and GO. What they ask to be told makes no difference: all that is known is told."""
        name = text_of(name_in(data))
        offer = self.house.offer(name)
        if option == OPT_GO:
            self.house.open(name)
        self.reply(option, REP_INFO, struct.pack(">HQH", INFO_EXPORT, offer.size, offer.flags))
        self.reply(option, REP_INFO, struct.pack(">HIII", INFO_BLOCK_SIZE, LEAST_BLOCK, GOOD_BLOCK, MOST_REQUEST))
        self.reply(option, REP_ACK)
        return offer if option == OPT_GO else None


def name_in(data: bytes) -> bytes:
    """The name in the data of INFO and GO. Raises Denied if its lengths do not fit."""
    size = struct.unpack_from(">I", data)[0] if len(data) >= 6 else len(data)
    if size > len(data) - 6 or len(data) != 6 + size + 2 * struct.unpack_from(">H", data, 4 + size)[0]:
        raise Denied(REP_ERR_INVALID, "the lengths in it do not fit")
    return data[4:4 + size]


def text_of(name: bytes) -> str:
    """A name as text. Raises Denied if it is none."""
    try:
        return name.decode()
    except UnicodeDecodeError:
        raise Denied(REP_ERR_UNKNOWN, FORMS) from None
