"""How much room is left in the history of a host that serves."""

import os
import sys

sys.path.insert(0, os.path.join(os.path.dirname(os.path.dirname(os.path.abspath(__file__))), "clients"))
from bfqnbd_room import history_in, most_of  # noqa: E402

__all__ = ["Room", "history_in", "most_of"]


class Room:
    """The room in the history of a host."""

    def __init__(self, host, most):
        self.host, self.most = host, most

    def left(self):
        """How many more entries it takes."""
        return self.most - int(self.host.ask("show host").split(" ")[8])
