"""Errors that a client of the bridge is told of its requests: where the history of the host is full, where the device has bad sectors, and of
hosts that are played here and answer otherwise than a real one would by itself."""

import contextlib
import os
import socket
import threading

from nbd_client import EIO, ENOMEM, ENOSPC, ESHUTDOWN, GO, POLICY, READ, SHUTDOWN, TRIM, WRITE, Bridge, named
from served import SECTOR, Talk, same, sector_of

# What a played host answers to the Submit of a read, and the error of that read.
ANSWERS = [("00000002 e0 22", ENOMEM), ("00000002 e0 21", ENOSPC), ("00000002 e0 1b", EIO),
           # No frame, another answer than one to a Submit, and nothing: the host has gone mad, or away.
           ("00000000", ESHUTDOWN), ("00000009 84 0000000000000002", ESHUTDOWN), ("", ESHUTDOWN)]
# With these its session is gone, or it owes what nobody knows of: steps were undone.
GONE = ["00000002 e0 03", "00000002 e0 04", "00000002 e0 0f"]


def full(place):
    """The history is full: a write is ENOSPC, so is a read, and a new client is told; nothing hangs."""
    with place.bridge("--after-undo", "keep") as bridge, bridge.opened() as nbd:
        errors = [nbd.ask(WRITE, at * SECTOR, data=b"x" * SECTOR)[0] for at in range(8)]
        # Attach is one of 22 entries, and a write four; of the sixth one no result can be had.
        same("the errors", errors, [0, 0, 0, 0, 0, ENOSPC, ENOSPC, ENOSPC])
        same("a read", nbd.ask(READ, 0, SECTOR)[0], ENOSPC)
        with bridge.connect() as other:
            kind, text = other.greet().asks(GO, named(b""))[0]
            same("another client", (kind, b"refused 33" in text), (POLICY, True))


def full_with_all_seats(place):
    """So it is if each seat of the bridge is in use: what is under way gets its error."""
    with place.bridge("--seats", "1", "--after-undo", "keep") as bridge, bridge.opened() as nbd:
        errors = [nbd.ask(WRITE, at * SECTOR, data=b"x" * SECTOR)[0] for at in range(7)]
        same("the errors", errors, [0, 0, 0, 0, 0, ENOSPC, ENOSPC])
        bridge.says("the history is full")
        bridge.quiet()


def full_and_not_told(place):
    """So it is if the system does not tell how long the history may be, as long as a seat of the bridge is free."""
    with place.bridge(before="import bfqnbd_room; bfqnbd_room.most_of = lambda folder: None") as bridge, bridge.opened() as nbd:
        same("the errors", [nbd.ask(WRITE, at * SECTOR, data=b"x" * SECTOR)[0] for at in range(6)], [0, 0, 0, 0, 0, ENOSPC])


def bad_sectors(place):
    """A read of bad sectors is EIO, and so is a write of a part of one, which is read first. Whole writes and what stands beside go on."""
    with place.bridge() as bridge, bridge.opened() as nbd:
        same("a read of what is around", nbd.ask(READ, 99 * SECTOR, 10 * SECTOR)[0], EIO)
        same("a read of the last", nbd.ask(READ, 107 * SECTOR, 1)[0], EIO)
        same("a write of a part", nbd.ask(WRITE, 100 * SECTOR + 1, data=b"x")[0], EIO)
        same("what stands before", nbd.read(99 * SECTOR, SECTOR), sector_of(99))
        same("what stands behind", nbd.read(108 * SECTOR, SECTOR), sector_of(108))
        nbd.write(100 * SECTOR, bytes(8 * SECTOR))
        nbd.clear(TRIM, 100 * SECTOR, 8 * SECTOR)
        # The device is asked before what is stored is put over it.
        same("a read of what was written", nbd.ask(READ, 100 * SECTOR, SECTOR)[0], EIO)
        nbd.leave()


class Played:
    """A host with one seat, which is asked one session: its Attach is accepted, if it speaks version 2, and its first Submit is answered so."""

    def __init__(self, folder, answer, version=2):
        self.answer, self.version = bytes.fromhex(answer), version
        os.mkdir(folder)
        self.sockets = {name: socket.socket(socket.AF_UNIX) for name in ("operator", "client0")}
        for name, listening in self.sockets.items():
            listening.bind(os.path.join(folder, name))
            listening.listen()
        threading.Thread(target=self.serve, daemon=True).start()

    def serve(self):
        # It ends when its socket is closed.
        with contextlib.suppress(OSError):
            while True:
                connection, _ = self.sockets["client0"].accept()
                self.meet(connection)

    def meet(self, connection):
        with connection:
            talk = Talk.__new__(Talk)
            talk.socket = connection
            # What it ends at has been read with all that came behind it.
            opening, _ = talk.reply(), talk.reply()
            if opening[:1] == b"\7" and self.version == 1:
                return
            talk.send("00000009 81 0000000000000001")
            if talk.reply() and self.answer:
                connection.sendall(self.answer)
                # What it asks besides has no answer; it ends when the bridge does.
                while talk.reply():
                    pass

    def __enter__(self):
        return self

    def __exit__(self, *_):
        for listening in self.sockets.values():
            listening.close()


def played(place, number, answer, version=2):
    """A bridge to a host that is played, and what ends both."""
    folder = os.path.join(place.folder, f"played-{number}")
    stack = contextlib.ExitStack()
    stack.enter_context(Played(folder, answer, version))
    return stack, stack.enter_context(Bridge(folder, "--image", place.image, path=os.path.join(place.folder, "played")))


def answers_of_a_host(place):
    """What a host answers to a request is its error: want of memory, a full history, any other refusal; and ESHUTDOWN if it answers what is none."""
    for number, (answer, error) in enumerate(ANSWERS):
        stack, bridge = played(place, number, answer)
        with stack, bridge.opened() as nbd:
            same(f"the error of a read that is answered {answer!r}", nbd.ask(READ, 0, SECTOR)[0], error)


def sessions_that_are_gone(place):
    """If the host does not know the session any more, or owes it what was told, steps were undone: the connection ends."""
    for number, answer in enumerate(GONE):
        stack, bridge = played(place, number, answer)
        with stack, bridge.opened() as nbd:
            nbd.begin(READ, 0, SECTOR)
            nbd.ends()
            bridge.says("steps were undone", "the connection ends")


def host_of_version_1(place):
    """A host that knows version 1 alone ends the connection at once, and a client is told what may be the cause."""
    stack, bridge = played(place, 0, "", version=1)
    with stack, bridge.connect() as nbd:
        kind, text = nbd.greet().asks(GO, named(b""))[0]
        same("a client", (kind, b"perhaps the host does not know version 2" in text), (SHUTDOWN, True))


ERROR_RUNS = (full, full_with_all_seats, full_and_not_told, bad_sectors, answers_of_a_host, sessions_that_are_gone, host_of_version_1)
