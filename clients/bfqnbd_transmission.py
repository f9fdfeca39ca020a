"""The transmission phase of one NBD connection: requests in, reads, writes and discards to the host, results back, replies out.

It waits in one place, for whatever comes first: the client, the host, or a line of the bridge, which tells of undone steps.
"""

from __future__ import annotations

import collections
import contextlib
import errno
import select
import socket
import sys
import time
from typing import Deque, Dict, List, Optional, Tuple

from bfqclient_base import Lost, Refused
from bfqnbd_line import BridgeLine
from bfqnbd_requests import Clearing, Piece, Request, Requests, Transfer
from bfqnbd_session import ERRORS, HostSession
from bfqnbd_wire import (CMD_DISC, CMD_FLUSH, CMD_TRIM, CMD_WRITE, CMD_WRITE_ZEROES, ESHUTDOWN, HEADER, Gone, Header, Offer, fault_of,
                         header_of, reply_head)

# While so many bytes of requests are not answered, or of replies not taken, no more are read from the client.
MOST_OWED = 64 << 20
# A read or write of a socket takes so many bytes at most; and one call sends so many parts.
PIECE, PARTS = 1 << 20, 64
# How long a client may take to read its last errors, once the host is gone: seconds.
TO_PART = 1.0
# Notices of the same undo come many at a time. One is told in so many seconds.
TOLD_AGAIN = 1.0


class Client:
    """The NBD client's side. Nothing here waits."""

    def __init__(self, nbd: socket.socket) -> None:
        self.nbd = nbd
        nbd.setblocking(False)
        self.unread = bytearray()
        self.out: Deque[memoryview] = collections.deque()
        self.unsent = 0
        self.most_owed = MOST_OWED
        # The client takes no replies any more; and it has said that it goes, so that no request comes behind.
        self.is_deaf = self.is_leaving = False

    def pull(self) -> None:
        """Takes what has come. Raises Gone at the end of the connection."""
        try:
            data = self.nbd.recv(PIECE)
        except BlockingIOError:
            return
        except OSError as fault:
            raise Gone(str(fault)) from fault
        if not data:
            raise Gone("the client closed")
        self.unread += data

    def first(self) -> Optional[Tuple[Header, int]]:
        """The first request that has come whole, and how many bytes it has with its data; None if there is none, or no more is wanted."""
        if len(self.unread) < HEADER.size or self.is_leaving:
            return None
        header = header_of(bytes(memoryview(self.unread)[:HEADER.size]))
        size = HEADER.size + (header.length if header.kind == CMD_WRITE else 0)
        return (header, size) if len(self.unread) >= size else None

    def take(self, owed: int) -> Optional[Tuple[Header, Optional[bytes]]]:
        """Takes the first request, with the bytes of a write, if there is room for it where so many bytes are owed. One that is alone always
        has room."""
        found = self.first()
        if found is None or (owed + self.unsent and owed + self.unsent + found[0].cost > self.most_owed):
            return None
        header, size = found
        data = bytes(memoryview(self.unread)[HEADER.size:size]) if header.kind == CMD_WRITE else None
        del self.unread[:size]
        self.is_leaving = header.kind == CMD_DISC
        return header, data

    def reply(self, *parts: memoryview) -> None:
        """Notes a reply; it goes with the next push."""
        if not self.is_deaf:
            self.out.extend(parts)
            self.unsent += sum(map(len, parts))

    def push(self) -> None:
        """Sends what the client takes now. One that takes no replies may have sent more requests, so they are read on."""
        try:
            while self.out:
                sent = self.nbd.sendmsg([self.out[at] for at in range(min(len(self.out), PARTS))])
                self.unsent -= sent
                while sent and sent >= len(self.out[0]):
                    sent -= len(self.out.popleft())
                if sent:
                    self.out[0] = self.out[0][sent:]
        except BlockingIOError:
            pass
        except OSError:
            self.is_deaf, self.unsent = True, 0
            self.out.clear()

    def wanted(self) -> int:
        """What is waited for at its socket. Where a request is there whole and has no room, none is read behind it."""
        is_reading = not self.is_leaving and self.first() is None
        return (select.POLLIN if is_reading else 0) | (select.POLLOUT if self.out else 0)


def request_of(header: Header, data: Optional[bytes]) -> Optional[Request]:
    """What the client asks for, which the export takes; None if nothing is to be done for it."""
    if header.kind not in (CMD_TRIM, CMD_WRITE_ZEROES):
        return Transfer(header.cookie, header.offset, header.length, data)
    clearing = Clearing(header.cookie, header.offset, header.length, header.cost, header.kind == CMD_TRIM)
    return None if clearing.is_empty() else clearing


class Transmission:
    """Requests of one client, by one session. It ends by Gone, or when the client has said that it goes and all is done."""

    def __init__(self, client: Client, session: HostSession, bridge: BridgeLine, offer: Offer, keeps: bool) -> None:
        self.client, self.session, self.bridge, self.offer, self.keeps = client, session, bridge, offer, keeps
        self.requests = Requests()
        # The bytes of the requests that are not answered.
        self.owed = 0
        # Whether the history is full: then what was asked is not answered any more, and nothing behind it.
        self.is_full = False
        self.told_at = 0.0
        self.poll = select.poll()
        self.polled: Dict[int, int] = {}

    def run(self) -> None:
        """Serves till the end. If the host is gone, or refuses to attach anew, each request gets its error."""
        try:
            while not self.is_done():
                # What the client takes makes room for more of its requests.
                if not self.move() and not self.is_done():
                    self.wait()
        except Refused as refused:
            self.part(ERRORS.get(refused.code, ESHUTDOWN), f"it does not attach anew: {refused}")
        except Lost as lost:
            self.part(ESHUTDOWN, f"the host: {lost.text}")
            raise

    def is_done(self) -> bool:
        return self.client.is_leaving and not self.requests and not self.client.out

    def move(self) -> bool:
        """Does what can be done without waiting. Gives whether the client was sent something while a request of it waits for room."""
        self.take()
        self.requests.begin()
        self.session.feed(self.requests)
        if self.session.link is not None:
            self.session.link.push()
        before = self.client.unsent
        if self.client.out:
            self.client.push()
        return self.client.unsent < before and self.client.first() is not None

    def take(self) -> None:
        """Takes the client's requests, as long as there is room."""
        while (found := self.client.take(self.owed)) is not None and not self.client.is_leaving:
            self.accept(*found)

    def accept(self, header: Header, data: Optional[bytes]) -> None:
        error = fault_of(header, self.offer)
        if self.is_full and not error and header.kind != CMD_FLUSH:
            error = errno.ENOSPC
        if error or header.kind == CMD_FLUSH:
            # What was completed is stored in the host, for all its clients. So a flush has nothing to do.
            self.client.reply(memoryview(reply_head(header.cookie, error)))
            return
        request = request_of(header, data)
        if request is None:
            self.client.reply(memoryview(reply_head(header.cookie)))
            return
        self.owed += request.cost
        self.requests.waiting.append(request)

    def wait(self) -> None:
        """Waits till something comes, and takes it."""
        session, client = self.session, self.client
        wants = {self.bridge.fileno(): select.POLLIN}
        if events := client.wanted():
            wants[client.nbd.fileno()] = events
        if session.link is not None:
            wants[session.link.socket.fileno()] = select.POLLIN | (select.POLLOUT if session.link.unsent else 0)
        self.watch(wants)
        seconds = session.wait()
        for number, event in self.poll.poll(None if seconds is None else 1 + int(seconds * 1000)):
            if not event & ~select.POLLOUT:
                # What is to be sent goes before the next wait.
                continue
            if number == self.bridge.fileno():
                self.hear()
            elif number != client.nbd.fileno():
                session.pull()
            elif wants[number] & select.POLLIN:
                client.pull()
            else:
                client.push()

    def hear(self) -> None:
        """What the bridge has to say: steps were undone, or the history is full."""
        count = self.bridge.notice()
        if count is not None:
            self.undone(f"{count} steps, by a look", [])
        elif not self.is_full:
            self.told("the history is full")
            self.is_full = True
            for request in [*self.requests.all()]:
                self.answer(request, errno.ENOSPC)
            self.requests = Requests()

    def watch(self, wants: Dict[int, int]) -> None:
        """Has these numbers polled for these events."""
        if wants != self.polled:
            for number in self.polled.keys() - wants.keys():
                self.poll.unregister(number)
            for number, events in wants.items():
                if self.polled.get(number) != events:
                    self.poll.register(number, events)
            self.polled = wants

    # What a session asks of its owner.

    def attached(self, number: int) -> None:
        self.bridge.attached(number)

    def told(self, text: str) -> None:
        self.bridge.told(text)

    def ended(self, piece: Piece, error: int) -> None:
        # Where the history is full all was answered.
        if not self.is_full and self.requests.ended(piece, error):
            self.answer(piece.request, piece.request.error)

    def answer(self, request: Request, error: int) -> None:
        self.owed -= request.cost
        head, data = memoryview(reply_head(request.cookie, error)), request.answer()
        if data is not None and not error:
            self.client.reply(head, data)
        else:
            self.client.reply(head)

    def undone(self, why: str, lost: List[Piece]) -> None:
        if not self.keeps:
            self.told(f"steps were undone and not redone ({why}): the connection ends")
            raise Gone("steps were undone")
        count = self.requests.again(lost)
        now = time.monotonic()
        if why and (count or now - self.told_at >= TOLD_AGAIN):
            self.told(f"steps were undone and not redone ({why}): it goes on, {count} reads, writes and discards are asked anew")
            self.told_at = now

    def part(self, error: int, why: str) -> None:
        """Gives all requests their error, as nothing can be done any more, also those that are only now read."""
        self.told(why)
        for request in self.requests.all():
            self.answer(request, error)
        self.client.most_owed = sys.maxsize
        until = time.monotonic() + TO_PART
        with contextlib.suppress(Gone):
            while time.monotonic() < until:
                before = len(self.client.unread)
                self.client.pull()
                is_more = len(self.client.unread) > before
                while (found := self.client.take(0)) is not None and not self.client.is_leaving:
                    self.client.reply(memoryview(reply_head(found[0].cookie, error)))
                self.client.push()
                if self.client.out:
                    self.watch({self.client.nbd.fileno(): select.POLLOUT})
                    self.poll.poll(TO_PART * 1000)
                elif not is_more:
                    break
