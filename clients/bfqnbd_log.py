"""The log of the bridge: each write that is completed. All connections write it, each in a process of its own."""

from __future__ import annotations

import fcntl
import mmap
import os
import signal
import struct
from typing import Optional

# A write in the log: its bio, its first sector, how many sectors, and then its bytes.
LOGGED = struct.Struct(">QQI")
# Signals that end a process. What is begun in the log is brought to its end before.
HELD = (signal.SIGTERM, signal.SIGINT)


class Log:
    """A file of whole records. It ends, for all processes, before the first one that cannot be written."""

    def __init__(self, path: str) -> None:
        """Makes the file, which must not be there. Raises OSError."""
        self.file = os.open(path, os.O_WRONLY | os.O_CREAT | os.O_EXCL | os.O_APPEND, 0o600)
        # Shared with the processes that are forked: whether the log has ended.
        self.over = mmap.mmap(-1, 1)

    def add(self, bio: int, start: int, count: int, data: bytes) -> Optional[str]:
        """Adds a write of so many sectors from `start` on. Gives why the log ends before it, to the first one that it is not written for."""
        record = LOGGED.pack(bio, start, count) + data
        old = signal.pthread_sigmask(signal.SIG_BLOCK, HELD)
        # The system drops this lock if its process ends.
        fcntl.lockf(self.file, fcntl.LOCK_EX)
        try:
            if self.over[0]:
                return None
            fault = self.append(record)
            self.over[0] = fault is not None
            return fault
        finally:
            fcntl.lockf(self.file, fcntl.LOCK_UN)
            signal.pthread_sigmask(signal.SIG_SETMASK, old)

    def append(self, record: bytes) -> Optional[str]:
        """Writes a record whole, or takes off what was written of it and gives why."""
        try:
            count = os.write(self.file, record)
        except OSError as failed:
            return str(failed.strerror)
        if count == len(record):
            return None
        try:
            os.ftruncate(self.file, os.fstat(self.file).st_size - count)
        except OSError as failed:
            return f"not all was taken, and its last {count} bytes are a part of it: {failed.strerror}"
        return "not all was taken"
