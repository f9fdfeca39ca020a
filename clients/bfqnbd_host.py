"""The host of a folder, by the socket of its operator: whether it is there, and whether it is still the same one."""

from __future__ import annotations

import errno
import os
import socket
from typing import Tuple

# What is wrong with the path of a socket if no host serves there. Any other fault, as of permission, says nothing of the host.
NOBODY = (FileNotFoundError, ConnectionRefusedError, NotADirectoryError)


class Host:
    """The host that serves in a folder when this is made. Raises OSError if none does, or if it cannot be told."""

    def __init__(self, folder: str) -> None:
        self.path = os.path.join(folder, "operator")
        self.made = self.mark()
        knock(self.path)

    def mark(self) -> Tuple[int, int, int]:
        """Tells its socket from that of another host. A file system may give a number again, so the time at which it was made counts too."""
        found = os.stat(self.path)
        return found.st_dev, found.st_ino, found.st_mtime_ns

    def has_ended(self) -> bool:
        """Whether it does not serve any more, though another one may."""
        try:
            if self.mark() != self.made:
                return True
            knock(self.path)
        except NOBODY:
            return True
        except OSError:
            pass
        return False


def knock(path: str) -> None:
    """Sees whether a process has a socket at a path, which notices nothing: one of another type is asked for, and refused by the system.
    Raises OSError if none has."""
    with socket.socket(socket.AF_UNIX, socket.SOCK_DGRAM) as trial:
        try:
            trial.connect(path)
        except OSError as fault:
            if fault.errno != errno.EPROTOTYPE:
                raise
