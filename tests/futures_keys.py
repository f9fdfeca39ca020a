"""What tools/futures takes for one state goes on alike.

In a whole search each state has its whole key, with all virtual times as they are, and the short one of a reduced search, with times from
V. All states of one short key must lead to the same short keys. So nothing that decides what comes next is left out of it.
"""

import argparse
import collections
import os
import sys
import tempfile

from tools import TOOLS, written

sys.path.append(TOOLS)
from driving import with_usual  # noqa: E402
from future_clients import Opening, read_clients  # noqa: E402
from future_contents import Contents, Ways  # noqa: E402
from future_search import Bounds, Search  # noqa: E402
from future_states import Names, Reader  # noqa: E402
from image import stored  # noqa: E402


class Watched(Search):
    """A whole search that keeps both keys of each state, and the short ones that come of it."""

    def __init__(self, of_short, *parts):
        super().__init__(*parts)
        # Reads the same lines as a reduced search does.
        self.of_short = of_short
        self.short, self.after = {}, collections.defaultdict(set)

    def view(self, before, move, looks):
        found = super().view(before, move, looks)
        self.short[found.key] = self.of_short.view(looks, found.pcs, found.content, found.used).key
        self.after[before.key].add(self.short[found.key])
        return found


def searched(program, options, clients, script, ticks):
    """A whole search from the end of a script, with so many ticks."""
    given = argparse.Namespace(all_states=True, faults=False, requeues=0, ticks=ticks)
    with tempfile.TemporaryDirectory() as folder:
        opening = Opening(program, with_usual(options), written(folder, "script", script),
                          read_clients(written(folder, "clients", clients)))
    names = Names(False)
    with opening.host() as host:
        reader, of_short, contents = Reader(host, names, True), Reader(host, names, False), Contents(None, stored(host))
    contents.name_all(names, opening)
    search = Watched(of_short, opening, reader, contents, given)
    bounds = Bounds()
    cut = search.run(bounds, Ways(contents, bounds), lambda _: None)
    assert cut is None
    return search


# Seat 0 has five times 64 sectors to send, in one service, or in two if a tick ends the first one. It begins anew after that, with a budget
# of 320 or of 256. Seat 1 has two requests, so a tick may find it in service.
CLIENTS = "seat 0\nsync\nread 0 64\nseat 1\nread 900 64\nread 800 64\n"
# A read and a discard of the same sectors, neither of which merges with the other.
DISCARDS = "seat 0\nsync\ndiscard 0 64\nseat 1\nread 900 64\ndiscard 900 64\n"
OPTIONS = ["--tags", "1", "--first-budget", "512", "--timeout", "1"]
REAL_TIME = "attach 0 0 0 rt\nattach 1 0 7 rt\n"
# Each with the clients that go on behind it.
SCRIPTS = {"real time": (REAL_TIME, CLIENTS), "groups": ("group 0 100\ngroup 0 300\nattach 0 1 4\nattach 1 2 4\n", CLIENTS),
           "a group beside a seat": ("group 0 300\nattach 0 1 4\nattach 1 0 4\n", CLIENTS), "discards": (REAL_TIME, DISCARDS)}


def key_faults(program, script, clients):
    """States of one short key that lead to other ones. Some must have one short key, or nothing is tried."""
    session = 1 + script.count("group ")
    script += "".join(f"read 0 {session} {100 * at} 64\n" for at in range(5))
    search = searched(os.path.abspath(program), OPTIONS, clients, script, 1)
    groups = collections.defaultdict(list)
    for whole, short in search.short.items():
        groups[short].append(whole)
    merged = [wholes for wholes in groups.values() if len(wholes) > 1]
    if not merged:
        yield f"none of {search.states} states have one short key"
    for wholes in merged:
        if any(search.after[whole] != search.after[wholes[0]] for whole in wholes):
            yield f"{[(*whole[:3], whole[3].key) for whole in wholes[:2]]} have one short key, and do not go on alike"
            return
