#!/usr/bin/env python3
"""Serves the device of a host (`bfqhost serve`) over NBD, so that qemu, fio, nbdkit or a file system can use it.

    bfqnbd.py --dir DIR --socket PATH [--image FILE] [--seats A-B] [--depth N] [--after-undo drop|keep] [--read-only] [--log FILE]

DIR is the folder of the host's sockets. PATH is the socket of NBD, which is made; its owner alone may use it. A client that knows URIs finds
it as `nbd+unix:///?socket=PATH`. Each connection takes a seat of the host, as one session, and leaves at its end.

The name of an export says where its session sits: '' in group 0 with priority 4, 'gGROUP' in a group, 'gGROUPpPRIO' with a priority, and
'rt' or 'idle' behind these with a class. The export `look` is the device as it stands, also while the host is held. It is read-only, takes
no seat, and needs --image, which is the host's own.

Any byte may be read and written. TRIM and WRITE_ZEROES discard. A flush has nothing to do: what is completed is stored in the host. The
size of the device comes from a look, or without a socket for looks from --image.

If steps are undone and not redone a line tells it on standard error. With --after-undo drop, as it is if nothing is said, the connections
end then, as after a crash, and a client that connects again goes on. With keep they stay: what was not answered is asked anew, and the
client does not notice that what it was told is not so any more.

--log writes each write or discard that is completed: its bio in 8 bytes, its first sector in 8, how many sectors in 4, and their bytes. It
ends before the first one that the system does not take whole.

It needs Python 3.9 alone. Exit statuses: 0 the host was stopped or has ended, or a signal ended it (SIGTERM, SIGINT); 2 bad words, no image,
or a log that cannot be made; 3 no host, or its sockets may not be used; 7 the socket cannot be had.
"""

from __future__ import annotations

import argparse
import collections
import contextlib
import os
import re
import select
import signal
import socket
import stat
import sys
import time
from typing import Deque, Dict, List, NamedTuple, Optional, Tuple

from bfqclient import MOST_BIOS, SECTOR, ClientError, NoInspect, Operator, __version__
from bfqnbd_connection import Given, serve_connection
from bfqnbd_host import NOBODY, Host
from bfqnbd_line import (ATTACHED, BACK, ENDED, FULL, LEFT, LOST, NONE, SEAT, SITS, UNDONE, hear, pair, say, tell)
from bfqnbd_log import Log
from bfqnbd_look import PATIENCE, size_of
from bfqnbd_watch import watch
from bfqnbd_wire import Gone

DONE, BAD_WORDS, NO_HOST, NO_SOCKET = 0, 2, 3, 7
# A host has at most so many seats. So many connections are served at a time, as some only ask what there is.
MOST_SEATS, MOST_CONNECTIONS = 16, 64
# How long connections may take to tell their clients that the host has ended: seconds.
TO_PART = 2.0
# How long to wait after a connection that cannot be met, as the cause may last: seconds.
AGAIN = 0.1
# How often it is seen whether the host is still there, in seconds; and one line of several that say the same is told in so many.
EACH, TOLD_AGAIN = 1.0, 1.0


class Stop(Exception):
    """Ends the bridge with a status: what is told of it."""

    def __init__(self, status: int, text: str = "") -> None:
        super().__init__(text)
        self.status, self.text = status, text


class Child(NamedTuple):
    """A connection's process, its line, and its seat in a list, as it may have none."""

    pid: int
    line: socket.socket
    seat: List[int]


class Bridge:
    """Who has which seat, and the processes of the connections."""

    def __init__(self, listening: socket.socket, given: Given, seats: List[int]) -> None:
        self.listening, self.given = listening, given
        # The seat that was left first is taken first: at one that was left last a Leave may wait.
        self.free: Deque[int] = collections.deque(seats)
        self.children: Dict[int, Child] = {}
        self.looker: Optional[Child] = None
        # When the host was seen last, and when a refusal may be told again.
        self.seen_at, self.refusal_at = time.monotonic(), 0.0
        self.poll = select.poll()
        self.poll.register(listening, select.POLLIN)

    def start(self, is_looking: bool) -> None:
        """Starts who looks at the host, if it can be looked at."""
        seats = [*self.free]
        if is_looking:
            ours, theirs = pair()
            self.looker = Child(self.fork(lambda: watch(self.given.folder, theirs, seats), [ours]), ours, [])
            theirs.close()
            self.poll.register(ours, select.POLLIN)

    def fork(self, act: "collections.abc.Callable[[], None]", closed: List[socket.socket]) -> int:
        """A process of its own that does something and ends. It has none of these sockets, and none of the bridge's."""
        pid = os.fork()
        if pid:
            return pid
        try:
            signal.signal(signal.SIGTERM, signal.SIG_DFL)
            # A terminal sends it to all: the bridge ends the others.
            signal.signal(signal.SIGINT, signal.SIG_IGN)
            for it in [self.listening, *closed, *(child.line for child in self.all())]:
                it.close()
            act()
        except Exception as fault:
            tell(f"{type(fault).__name__}: {fault}")
        finally:
            # Nothing of the bridge's own is to be done at its end.
            os._exit(0)

    def all(self) -> List[Child]:
        return [*self.children.values(), *([self.looker] if self.looker else [])]

    def run(self) -> None:
        """Serves till the host has ended."""
        while True:
            for number, _ in self.poll.poll(EACH * 1000):
                if number == self.listening.fileno():
                    self.accept()
                elif self.looker and number == self.looker.line.fileno():
                    self.hear_looker(self.looker)
                elif number in self.children:
                    self.hear_child(number)
            self.see_host()

    def see_host(self) -> None:
        """Ends the bridge if its host has ended. Of a host without looks that nobody uses nothing else tells it."""
        now = time.monotonic()
        if now - self.seen_at >= EACH:
            self.seen_at = now
            if self.given.host.has_ended():
                raise Stop(DONE)

    def accept(self) -> None:
        """A connection. One too many ends at once, and so does one for which the system has no file or no process left."""
        try:
            nbd, _ = self.listening.accept()
        except OSError as fault:
            tell(f"a connection cannot be met: {fault.strerror}")
            time.sleep(AGAIN)
            return
        with nbd, contextlib.suppress(OSError):
            if len(self.children) < MOST_CONNECTIONS:
                self.begin(nbd)

    def begin(self, nbd: socket.socket) -> None:
        """Starts the process of a connection."""
        ours, theirs = pair()
        try:
            pid = self.fork(lambda: serve_connection(nbd, theirs, self.given), [ours])
        except OSError as fault:
            tell(f"a connection cannot be served: {fault.strerror}")
            ours.close()
        else:
            self.children[ours.fileno()] = Child(pid, ours, [])
            self.poll.register(ours, select.POLLIN)
        finally:
            theirs.close()

    def hear_looker(self, looker: Child) -> None:
        """What was seen of the host."""
        try:
            word, numbers = hear(looker.line)
        except Gone:
            raise Stop(DONE) from None
        if word == ENDED:
            raise Stop(DONE)
        for child in self.children.values():
            with contextlib.suppress(Gone):
                if word == FULL and child.seat:
                    say(child.line, FULL)
                elif word == UNDONE and child.seat == numbers[:1]:
                    say(child.line, UNDONE, numbers[1])

    def hear_child(self, number: int) -> None:
        """What a connection wants, or that it has ended."""
        child = self.children[number]
        try:
            word, numbers = hear(child.line)
            if word == SEAT and self.free:
                child.seat[:] = [self.free.popleft()]
                say(child.line, SEAT, *child.seat)
            elif word == SEAT:
                self.refuse(child)
            elif word == BACK:
                self.seat_left(child)
            elif word == ATTACHED and self.looker:
                say(self.looker.line, SITS, *child.seat, *numbers)
            elif word == LOST and self.given.host.has_ended():
                raise Stop(DONE)
        except Gone:
            self.poll.unregister(number)
            child.line.close()
            del self.children[number]
            os.waitpid(child.pid, 0)
            self.seat_left(child)

    def refuse(self, child: Child) -> None:
        """Nobody has left a seat for this connection. Several come at a time, and are told once."""
        say(child.line, NONE)
        now = time.monotonic()
        if now >= self.refusal_at:
            self.refusal_at = now + TOLD_AGAIN
            tell(f"no seat is free, of {self.given.seats}: a connection is refused")

    def seat_left(self, child: Child) -> None:
        """Another connection may have the seat of this one."""
        if child.seat:
            seat = child.seat.pop()
            self.free.append(seat)
            if self.looker:
                with contextlib.suppress(Gone):
                    say(self.looker.line, LEFT, seat)

    def end(self, patience: float) -> None:
        """Ends all that it has started. Connections may have some seconds to end by themselves."""
        until = time.monotonic() + patience
        while self.children and time.monotonic() < until:
            for number in [number for number, child in self.children.items() if os.waitpid(child.pid, os.WNOHANG)[0]]:
                self.children.pop(number)
            time.sleep(0.01)
        for child in self.all():
            with contextlib.suppress(ProcessLookupError):
                os.kill(child.pid, signal.SIGTERM)
            with contextlib.suppress(ChildProcessError):
                os.waitpid(child.pid, 0)


def is_listening(path: str) -> bool:
    """Whether somebody listens at a socket. Raises FileNotFoundError if there is none, and ConnectionRefusedError if nobody does."""
    with socket.socket(socket.AF_UNIX) as trial:
        # Where as many wait as may, somebody listens.
        trial.setblocking(False)
        with contextlib.suppress(BlockingIOError):
            trial.connect(path)
    return True


def clear(path: str) -> None:
    """Removes a socket at which nobody listens. Whatever else stands there stays."""
    with contextlib.suppress(FileNotFoundError):
        if stat.S_ISSOCK(os.lstat(path).st_mode):
            try:
                is_listening(path)
            except ConnectionRefusedError:
                os.unlink(path)


def listen(path: str) -> socket.socket:
    """A socket at a path, for its owner alone. Raises Stop."""
    listening = socket.socket(socket.AF_UNIX)
    old = os.umask(0o177)
    try:
        clear(path)
        listening.bind(path)
        listening.listen(MOST_CONNECTIONS)
    except OSError as fault:
        raise Stop(NO_SOCKET, f"{path}: {fault.strerror or fault}") from None
    finally:
        os.umask(old)
    return listening


def seats_word(text: str) -> Tuple[int, int]:
    """The first and the last seat of `A-B`, or of `A`."""
    found = re.fullmatch(r"([0-9]{1,2})(?:-([0-9]{1,2}))?", text, re.ASCII)
    if found is None or not int(found[1]) <= int(found[2] or found[1]) < MOST_SEATS:
        raise argparse.ArgumentTypeError(f"seats are A-B, 0 to {MOST_SEATS - 1}, and not {text!r}")
    return int(found[1]), int(found[2] or found[1])


def depth_word(text: str) -> int:
    """A number of reads, writes and discards."""
    if re.fullmatch("[0-9]{1,2}", text, re.ASCII) is None or not 1 <= int(text) <= MOST_BIOS:
        raise argparse.ArgumentTypeError(f"N is 1 to {MOST_BIOS}, and not {text!r}")
    return int(text)


def words() -> argparse.Namespace:
    """What the words ask for."""
    parser = argparse.ArgumentParser(description=__doc__, formatter_class=argparse.RawDescriptionHelpFormatter, allow_abbrev=False)
    parser.add_argument("--dir", required=True, metavar="DIR", help="the folder of the host's sockets")
    parser.add_argument("--socket", required=True, metavar="PATH", help="the socket of NBD, which is made")
    parser.add_argument("--image", metavar="FILE", help="the host's image, for the export `look`")
    parser.add_argument("--seats", type=seats_word, metavar="A-B", help="the seats that are the bridge's own (all of the host)")
    parser.add_argument("--depth", type=depth_word, default=MOST_BIOS, metavar="N",
                        help=f"reads, writes and discards of a connection at a time, 1 to {MOST_BIOS} ({MOST_BIOS})")
    parser.add_argument("--after-undo", choices=["drop", "keep"], default="drop", help="what comes of connections (drop)")
    parser.add_argument("--read-only", action="store_true", help="nothing is written")
    parser.add_argument("--log", metavar="FILE", help="a new file, for what is written")
    parser.add_argument("--version", action="version", version=f"bfqnbd {__version__}")
    return parser.parse_args()


def host_of(folder: str) -> Host:
    """The host that serves in a folder. Raises Stop."""
    try:
        return Host(folder)
    except NOBODY:
        raise Stop(NO_HOST, f"{folder}: no host serves there") from None
    except OSError as fault:
        raise Stop(NO_HOST, f"{os.path.join(folder, 'operator')}: {fault.strerror or fault}") from None


def seats_of(folder: str, asked: Optional[Tuple[int, int]]) -> List[int]:
    """The seats that are the bridge's own. Raises Stop if one is not there."""
    found = [seat for seat in range(MOST_SEATS) if os.path.exists(os.path.join(folder, f"client{seat}"))]
    if not found:
        raise Stop(NO_HOST, f"{folder}: no host serves there")
    if asked is None:
        return found
    wanted = [*range(asked[0], asked[1] + 1)]
    if lacking := [seat for seat in wanted if seat not in found]:
        raise Stop(BAD_WORDS, f"--seats: the host has no seat {lacking[0]}")
    return wanted


def image_size(path: str) -> int:
    """The whole sectors of an image, in bytes. Raises Stop."""
    try:
        with open(path, "rb") as image:
            return image.seek(0, os.SEEK_END) // SECTOR * SECTOR
    except OSError as fault:
        raise Stop(BAD_WORDS, f"{path}: {fault.strerror}") from None


def size_in(given: argparse.Namespace) -> Tuple[int, bool]:
    """The size of the device in bytes, and whether the host can be looked at. Raises Stop."""
    of_image = None if given.image is None else image_size(given.image)
    try:
        size = size_of(Operator(given.dir, PATIENCE)) * SECTOR
    except NoInspect as fault:
        if of_image is None:
            raise Stop(NO_HOST, f"{fault.text}: give --image FILE") from None
        return of_image, False
    except ClientError as fault:
        raise Stop(NO_HOST, f"{given.dir}: {fault.text}") from None
    if of_image not in (None, size):
        raise Stop(BAD_WORDS, f"{given.image}: it has {of_image} bytes in whole sectors, and the host's image {size}")
    return size, True


def log_of(path: Optional[str]) -> Optional[Log]:
    """The new file of the log. Raises Stop."""
    try:
        return None if path is None else Log(path)
    except OSError as fault:
        raise Stop(BAD_WORDS, f"{path}: {fault.strerror}") from None


def stop(*_: object) -> None:
    raise Stop(DONE)


def serve(given: argparse.Namespace) -> None:
    """Serves, till something ends it by Stop."""
    host = host_of(given.dir)
    seats = seats_of(given.dir, given.seats)
    size, is_looking = size_in(given)
    # Without a socket for looks there is no export of them.
    image = os.path.abspath(given.image) if given.image is not None and is_looking else None
    listening = listen(given.socket)
    made = os.lstat(given.socket)
    bridge = None
    try:
        shared = Given(os.path.abspath(given.dir), image, size, len(seats), given.depth, given.after_undo == "keep", given.read_only,
                       log_of(given.log), host)
        bridge = Bridge(listening, shared, seats)
        for number in (signal.SIGTERM, signal.SIGINT):
            signal.signal(number, stop)
        bridge.start(is_looking)
        if not is_looking:
            tell("the host has no socket for looks: undone steps are noticed late, by what comes")
        tell(f"serving {given.socket}, {size // SECTOR} sectors, seats {seats[0]} to {seats[-1]}")
        bridge.run()
    finally:
        for number in (signal.SIGTERM, signal.SIGINT):
            signal.signal(number, signal.SIG_IGN)
        with contextlib.suppress(OSError):
            # Somebody else's stays.
            if os.path.samestat(os.lstat(given.socket), made):
                os.unlink(given.socket)
        listening.close()
        if bridge is not None:
            bridge.end(TO_PART if host.has_ended() else 0)


def main() -> int:
    """Does what the words ask for. Gives the exit status."""
    given = words()
    try:
        serve(given)
    except Stop as ending:
        if ending.text:
            tell(ending.text)
        return ending.status
    return DONE


if __name__ == "__main__":
    sys.exit(main())
