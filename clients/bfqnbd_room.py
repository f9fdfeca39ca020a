"""How long the history of a host that serves may be.

A look tells how many entries it has, and none how many it may have. That stands in the words that started the host, and the system tells these
of the process that listens at a socket.
"""

from __future__ import annotations

import os
import socket
import struct
from typing import List, Optional

# What the history of a host without `--history` may have.
USUAL = 65536
# The options of `serve` that have no value.
ALONE = {"--no-inspect"}
# What the system tells of a peer: its process, its user and its group.
PEER = struct.Struct("3i")
# For how long it may take to be connected, in seconds.
PATIENCE = 30


def most_of(folder: str) -> Optional[int]:
    """How many entries the history of the host in a folder may have; None if the system does not tell, as of a process in another
    container."""
    try:
        with socket.socket(socket.AF_UNIX) as path:
            path.settimeout(PATIENCE)
            path.connect(os.path.join(folder, "inspect"))
            process, _, _ = PEER.unpack(path.getsockopt(socket.SOL_SOCKET, socket.SO_PEERCRED, PEER.size))
        with open(f"/proc/{process}/cmdline", "rb") as file:
            return history_in(os.fsdecode(file.read()).split("\0")[:-1])
    except (OSError, ValueError, LookupError):
        return None


def history_in(words: List[str]) -> Optional[int]:
    """What the words of a host say of its history; None if they are not those of one that serves."""
    if words[1] != "serve":
        return None
    rest = iter(words[2:])
    for word in rest:
        name, equals, value = word.partition("=")
        if not equals and name not in ALONE:
            value = next(rest, "")
        if name == "--history":
            return int(value)
    return USUAL
