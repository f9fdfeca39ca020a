#!/usr/bin/env python3
"""A client of a host that serves (`bfqhost serve`): reads, writes and discards its sectors over a socket.

    from bfqclient import Io, Session

    with Session("/run/bfq/client0") as session:
        session.write(5, bytes(512))
        data = session.read(5, 1)
        for bio, io, data in session.run([Io.read(0, 8), Io.read(8, 8)]):
            print(bio, io.start, data[:4])

Operator makes the calls of a host's operator, and serve starts a host. A sector has 512 bytes, and is named by its number, from 0 on. All
exceptions have the base ClientError. It needs Python 3.9 or later, and nothing else. docs/CLIENT.md is its page. The frames are those of
docs/FORMATS.md, written and read anew here. The parts stand in files beside this one, whose names begin with its name; this file with
words behind it runs the command, bfqclient_command.py.
"""

from __future__ import annotations

import sys

from bfqclient_base import (MOST_SECTORS, REFUSALS, SECTOR, BadRecord, ClientError, Ended, Failed, Lost, Misuse, NoInspect, NotFound,
                            NotServing, NotYet, Refused, TimedOut, Undone)
from bfqclient_moments import State, Step
from bfqclient_operator import Moved, Operator
from bfqclient_record import Record, open_record
from bfqclient_serve import Served, serve
from bfqclient_session import MOST_BIOS, Io, Session

__version__ = "0.1.0"
__all__ = ["MOST_BIOS", "MOST_SECTORS", "REFUSALS", "SECTOR", "BadRecord", "ClientError", "Ended", "Failed", "Io", "Lost", "Misuse",
           "Moved", "NoInspect", "NotFound", "NotServing", "NotYet", "Operator", "Record", "Refused", "Served", "Session", "State", "Step",
           "TimedOut", "Undone", "open_record", "serve"]

if __name__ == "__main__":
    # The command stands in a file of its own beside this one, and uses this one as any program does.
    from bfqclient_command import main
    sys.exit(main())
