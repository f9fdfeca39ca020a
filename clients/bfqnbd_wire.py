"""What is said over NBD: its numbers, its requests, and which of them an export takes.

The numbers have the names of the NBD protocol (its own document, `proto.md`) without the prefix. All have their most significant byte first.
"""

from __future__ import annotations

import errno
import socket
import struct
from typing import Dict, NamedTuple

SERVER_MAGIC, OPTION_MAGIC, OPTION_REPLY_MAGIC = 0x4E42444D41474943, 0x49484156454F5054, 0x0003E889045565A9
REQUEST_MAGIC, SIMPLE_REPLY_MAGIC = 0x25609513, 0x67446698
# Flags of the handshake, the server's and the client's.
FIXED_NEWSTYLE, NO_ZEROES = 1, 2
OPT_EXPORT_NAME, OPT_ABORT, OPT_LIST, OPT_INFO, OPT_GO = 1, 2, 3, 6, 7
REP_ACK, REP_SERVER, REP_INFO = 1, 2, 3
REP_ERR_UNSUP, REP_ERR_POLICY, REP_ERR_INVALID, REP_ERR_UNKNOWN, REP_ERR_SHUTDOWN = (1 << 31 | code for code in (1, 2, 3, 6, 7))
INFO_EXPORT, INFO_BLOCK_SIZE = 0, 3
# Flags of an export.
HAS_FLAGS, READ_ONLY, SEND_FLUSH, SEND_FUA, SEND_TRIM, SEND_WRITE_ZEROES, CAN_MULTI_CONN, SEND_FAST_ZERO = 1, 2, 4, 8, 32, 64, 256, 2048
CMD_READ, CMD_WRITE, CMD_DISC, CMD_FLUSH, CMD_TRIM, CMD_WRITE_ZEROES = 0, 1, 2, 3, 4, 6
CMD_FLAG_FUA, CMD_FLAG_NO_HOLE, CMD_FLAG_FAST_ZERO = 1, 2, 16
# An error that not each system has: NBD gives it this number.
ESHUTDOWN = 108
# A read or a write has at most so many bytes, as most clients of NBD expect; and the data of an option. What has no data may be longer.
MOST_REQUEST, MOST_OPTION = 32 << 20, 1 << 16
MOST_LENGTH = 2**32 - 1
# A request without data takes so many bytes, and one more for so many bytes of the export, as it is done in pieces.
LEAST_COST, PIECES_COST = 1024, 128
# The block sizes that are told. Any byte can be read and written; a page at a time is what suits.
LEAST_BLOCK, GOOD_BLOCK = 1, 4096


class Gone(Exception):
    """The NBD client has ended its connection, or what came is not NBD; or the bridge ends it."""


class Header(NamedTuple):
    """A request without its data."""

    flags: int
    kind: int
    cookie: int
    offset: int
    length: int

    @property
    def cost(self) -> int:
        """About how many bytes of memory the request takes, with its data, or else with its pieces."""
        return LEAST_COST + self.length // PIECES_COST if self.kind in (CMD_TRIM, CMD_WRITE_ZEROES) else self.length


HEADER = struct.Struct(">IHHQQI")


class Command(NamedTuple):
    """What a command takes: its flags, how many bytes of the export it may name, whether it changes them, and the error of a range past the
    end."""

    flags: int
    most: int
    changes: bool
    past_end: int


# The commands that are answered. What is discarded is stored as zeros, so there are no holes, and it is faster than a write of zeros.
COMMANDS: Dict[int, Command] = {
    CMD_READ: Command(CMD_FLAG_FUA, MOST_REQUEST, False, errno.EINVAL),
    CMD_WRITE: Command(CMD_FLAG_FUA, MOST_REQUEST, True, errno.ENOSPC),
    CMD_FLUSH: Command(CMD_FLAG_FUA, 0, False, 0),
    CMD_TRIM: Command(CMD_FLAG_FUA, MOST_LENGTH, True, errno.EINVAL),
    CMD_WRITE_ZEROES: Command(CMD_FLAG_FUA | CMD_FLAG_NO_HOLE | CMD_FLAG_FAST_ZERO, MOST_LENGTH, True, errno.ENOSPC),
}


class Offer(NamedTuple):
    """An export as a client is told of it: its size in bytes, and its flags."""

    size: int
    flags: int


def fault_of(header: Header, offer: Offer) -> int:
    """The error of a request that an export does not take; 0 if it takes it."""
    command = COMMANDS.get(header.kind)
    if command is None or header.flags & ~command.flags:
        return errno.EINVAL
    if not command.most:
        return errno.EINVAL if header.offset or header.length else 0
    if command.changes and offer.flags & READ_ONLY:
        return errno.EPERM
    if not 1 <= header.length <= command.most:
        return errno.EINVAL
    return command.past_end if header.offset + header.length > offer.size else 0


def header_of(data: bytes) -> Header:
    """The header in 28 bytes. Raises Gone if they are none, or if the data behind it is longer than that of any request: then nobody knows
    where the next one begins."""
    magic, *fields = HEADER.unpack(data)
    header = Header(*fields)
    if magic != REQUEST_MAGIC:
        raise Gone("no NBD request")
    if header.kind == CMD_WRITE and header.length > MOST_REQUEST:
        raise Gone(f"a write of {header.length} bytes")
    return header


def reply_head(cookie: int, error: int = 0) -> bytes:
    """A simple reply, without the data of a read."""
    return struct.pack(">IIQ", SIMPLE_REPLY_MAGIC, error, cookie)


def received(nbd: socket.socket, count: int) -> bytes:
    """So many bytes, which are waited for. Raises Gone if the client ends, or its time limit passes."""
    data = bytearray()
    while len(data) < count:
        try:
            piece = nbd.recv(count - len(data))
        except OSError as fault:
            raise Gone(str(fault)) from fault
        if not piece:
            raise Gone("the client closed")
        data += piece
    return bytes(data)


def sent(nbd: socket.socket, data: bytes) -> None:
    """Sends all of this. Raises Gone as `received` does."""
    try:
        nbd.sendall(data)
    except OSError as fault:
        raise Gone(str(fault)) from fault
