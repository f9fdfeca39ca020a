"""One NBD connection, in a process of its own, so that connections do not wait for each other's Python."""

from __future__ import annotations

import os
import select
import socket
from typing import List, NamedTuple, Optional

from bfqclient_base import HOST_CLOSED, ClientError, Lost, Refused
from bfqnbd_handshake import LOOK, Denied, Handshake, place_of
from bfqnbd_host import Host
from bfqnbd_line import BridgeLine, tell
from bfqnbd_log import Log
from bfqnbd_look import Device, serve_look
from bfqnbd_requests import Piece, Requests
from bfqnbd_session import HostSession
from bfqnbd_transmission import Client, Transmission
from bfqnbd_wire import (CAN_MULTI_CONN, HAS_FLAGS, READ_ONLY, REP_ERR_POLICY, REP_ERR_SHUTDOWN, REP_ERR_UNKNOWN, SEND_FAST_ZERO, SEND_FLUSH,
                         SEND_FUA, SEND_TRIM, SEND_WRITE_ZEROES, Gone, Offer)


class Given(NamedTuple):
    """What all connections share: the folder of the host, its image if one is given, the size of the device in bytes, how many seats there
    are, how many reads, writes and discards are under way at a time, whether a connection goes on after an undo, whether nothing is written,
    the log, if there is one, and the host as it was found."""

    folder: str
    image: Optional[str]
    size: int
    seats: int
    depth: int
    keeps: bool
    is_read_only: bool
    log: Optional[Log]
    host: Host


class Attaching:
    """The owner of a session that has no requests yet."""

    def __init__(self, bridge: BridgeLine) -> None:
        self.bridge = bridge

    def attached(self, number: int) -> None:
        self.bridge.attached(number)

    def ended(self, piece: Piece, error: int) -> None:
        raise Lost("a reply to nothing")

    def undone(self, why: str, lost: List[Piece]) -> None:
        raise Lost("a reply to nothing")

    def told(self, text: str) -> None:
        self.bridge.told(text)


class Connection:
    """What one client is given: a seat for a session, or the device by looks."""

    def __init__(self, nbd: socket.socket, line: socket.socket, given: Given) -> None:
        self.nbd, self.bridge, self.given = nbd, BridgeLine(line), given
        self.session: Optional[HostSession] = None

    def run(self) -> None:
        """Serves the client till the end of its connection. At that of the session's the host makes a Leave, which waits with a held host, as
        this process need not."""
        try:
            offer = Handshake(self.nbd, self).run()
            if offer is not None and self.session is None:
                assert self.given.image is not None
                serve_look(self.nbd, self.bridge.line, Device(self.given.folder, self.given.image), offer)
            elif offer is not None and self.session is not None:
                transmission = Transmission(Client(self.nbd), self.session, self.bridge, offer, self.given.keeps)
                self.session.owner = transmission
                transmission.run()
        except Lost:
            self.bridge.lost()
        except (Gone, OSError):
            # The client is gone, or must be. What ends a connection without its client's doing was told.
            pass

    def names(self) -> List[str]:
        """The exports that a list tells. Those of groups are not known here."""
        return ["", LOOK] if self.given.image is not None else [""]

    def offer(self, name: str) -> Offer:
        """What a client is told of an export."""
        if name == LOOK:
            if self.given.image is None:
                raise Denied(REP_ERR_UNKNOWN, f"there is no export {LOOK} without --image")
            return Offer(self.given.size, HAS_FLAGS | READ_ONLY | SEND_FLUSH | SEND_FUA | CAN_MULTI_CONN)
        place_of(name)
        # A client with leave for more connections makes them at once, and fails if there is no seat for them.
        several = CAN_MULTI_CONN if self.given.seats > 1 else 0
        rest = READ_ONLY if self.given.is_read_only else SEND_TRIM | SEND_WRITE_ZEROES | SEND_FAST_ZERO
        return Offer(self.given.size, HAS_FLAGS | SEND_FLUSH | SEND_FUA | several | rest)

    def open(self, name: str) -> None:
        """Takes a seat, and attaches there. While the host is held that waits."""
        if self.given.host.has_ended():
            # Another one that serves in its folder by now may have a device of another size.
            self.bridge.lost()
            raise Denied(REP_ERR_SHUTDOWN, "the host has ended")
        if name == LOOK:
            return
        place = place_of(name)
        if not self.bridge.take_seat():
            raise Denied(REP_ERR_POLICY, "no seat is free")
        path = os.path.join(self.given.folder, f"client{self.bridge.seat}")
        session = HostSession(path, place, Attaching(self.bridge), self.given.depth, self.given.log)
        try:
            self.attach(session)
        except (Lost, Refused) as fault:
            session.close()
            self.bridge.give_back()
            if isinstance(fault, Refused):
                raise Denied(REP_ERR_POLICY, f"{fault.text}: {fault.name}: {fault.sentence}") from fault
            self.bridge.lost()
            perhaps = "; perhaps the host does not know version 2 of the frames" if fault.text == HOST_CLOSED else ""
            raise Denied(REP_ERR_SHUTDOWN, fault.text + perhaps) from fault
        self.session = session

    def attach(self, session: HostSession) -> None:
        """Waits till the session is attached. Raises Gone if the client goes away meanwhile, Lost and Refused."""
        session.connect()
        while not session.number:
            poll = select.poll()
            # What the client sends stays where it is: only its end matters.
            poll.register(self.nbd, select.POLLRDHUP)
            poll.register(self.bridge.fileno(), 0)
            if session.link is not None:
                session.link.push()
                poll.register(session.link.socket, select.POLLIN | (select.POLLOUT if session.link.unsent else 0))
            seconds = session.wait()
            events = dict(poll.poll(None if seconds is None else 1 + int(seconds * 1000)))
            if self.nbd.fileno() in events or self.bridge.fileno() in events:
                session.close()
                raise Gone("the client closed in its handshake, or the bridge has ended")
            if session.link is None:
                session.feed(Requests())
            elif events.get(session.link.socket.fileno(), 0) & ~select.POLLOUT:
                session.pull()


def serve_connection(nbd: socket.socket, line: socket.socket, given: Given) -> None:
    """Serves one client, whatever comes."""
    try:
        Connection(nbd, line, given).run()
    except (Gone, ClientError) as fault:
        tell(str(fault))
