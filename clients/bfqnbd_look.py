"""The export `look`: the device as it stands at the cursor, by looks alone, also while the host is held. It takes no seat.

What is stored the host tells (`show stored` and `sector`), and the rest is read from its image. A look tells of one moment, and the next
look of another: hold the host for a picture that stands still.
"""

from __future__ import annotations

import contextlib
import os
import select
import socket
from typing import Dict, List, Tuple

from bfqclient_base import SECTOR, ClientError, TimedOut
from bfqclient_operator import Operator
from bfqnbd_wire import (CMD_DISC, CMD_READ, CMD_WRITE, ESHUTDOWN, HEADER, Gone, Header, Offer, fault_of, header_of, received, reply_head,
                         sent)
from errno import EIO

# For how long a look is waited for: seconds. Others that look may have their turn before.
PATIENCE = 30.0


def size_of(operator: Operator) -> int:
    """How many sectors the host's device has, by looks: sector N is `none` from there on."""
    low, high = 0, 1 << 55
    points = [0, *(1 << power for power in range(56))]
    while low < high:
        answers = operator.looks([f"sector {point}" for point in points])
        for point, answer in zip(points, answers):
            if answer.endswith(" none"):
                high = min(high, point)
            else:
                low = max(low, point + 1)
        # So many places between both are asked at a time.
        step = max(1, (high - low) // 64)
        points = [*range(low, high, step)][:65]
    return low


class Device:
    """The device of a host: what is stored there, over its image."""

    def __init__(self, folder: str, image: str) -> None:
        self.operator = Operator(folder, PATIENCE)
        self.image = os.open(image, os.O_RDONLY)

    def read(self, start: int, count: int) -> bytes:
        """The bytes of sectors. Raises ClientError, and OSError of the image."""
        data = bytearray(count * SECTOR)
        at = 0
        while at < len(data):
            piece = os.pread(self.image, len(data) - at, start * SECTOR + at)
            if not piece:
                # The image was cut since, and the device reads nothing there either.
                raise OSError(EIO, os.strerror(EIO))
            data[at:at + len(piece)] = piece
            at += len(piece)
        for sector, block in self.stored(start, start + count).items():
            data[(sector - start) * SECTOR:(sector - start + 1) * SECTOR] = block
        return bytes(data)

    def stored(self, start: int, stop: int) -> Dict[int, bytes]:
        """The sectors of these that are stored, each with its bytes."""
        found: Dict[int, bytes] = {}
        while start < stop:
            run, start = self.next_run(start, stop)
            for sector, answer in zip(run, self.operator.looks([f"sector {sector}" for sector in run]) if run else []):
                _, _, where, *told = answer.split(" ")
                # Of a host that is not held a write may be undone between two looks. Then the image has it.
                if where == "overlay":
                    block = bytes.fromhex(told[0])
                    found[sector] = block * (SECTOR // len(block))
        return found

    def next_run(self, start: int, stop: int) -> Tuple[List[int], int]:
        """The next sectors without a gap that are stored, and where to look on."""
        told = self.operator.look(f"show stored {start}").split(" ")[1]
        if told == "none":
            return [], stop
        begin, count = map(int, told.split("+"))
        end = min(begin + count, stop)
        return [*range(begin, end)], max(end, begin)


def serve_look(nbd: socket.socket, line: socket.socket, device: Device, offer: Offer) -> None:
    """Answers the requests of one connection, one by one, till it ends or the bridge does. Raises Gone."""
    poll = select.poll()
    poll.register(nbd, select.POLLIN)
    poll.register(line, select.POLLIN)
    while True:
        if any(number == line.fileno() for number, _ in poll.poll()):
            raise Gone("the bridge has ended")
        header = header_of(received(nbd, HEADER.size))
        if header.kind == CMD_DISC:
            return
        if header.kind == CMD_WRITE:
            received(nbd, header.length)
        error = fault_of(header, offer)
        data = b""
        if header.kind == CMD_READ and not error:
            error, data = looked(device, header)
        sent(nbd, reply_head(header.cookie, error) + data)


def looked(device: Device, header: Header) -> Tuple[int, bytes]:
    """The error of a read, or 0, and its bytes."""
    start, skip = divmod(header.offset, SECTOR)
    count = -(-(skip + header.length) // SECTOR)
    with contextlib.suppress(TimedOut, OSError):
        try:
            return 0, device.read(start, count)[skip:skip + header.length]
        except TimedOut:
            raise
        except ClientError:
            return ESHUTDOWN, b""
    return EIO, b""
