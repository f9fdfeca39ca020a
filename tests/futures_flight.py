"""What is in flight at each state of a search is what `show flight` tells there.

tools/futures asks for it where it begins, and follows it from there on. Here it is asked behind each step besides, and compared. Hosts end
early, so that others play the ways again.
"""

import argparse
import collections
import os
import tempfile

from tools import written

import future_search
from driving import with_usual
from future_clients import Opening, read_clients
from future_contents import Contents, Ways
from future_search import Bounds, Search
from future_states import Names, Reader
from image import stored

# A host that was asked so many lines is replaced.
MOST_LINES = 2000


class Asked(Search):
    """A search that is told what is in flight, and follows it too."""

    def __init__(self, *parts):
        super().__init__(*parts)
        self.faults, self.sizes = [], collections.Counter()
        self.reader.lines = self.reader.first_lines

    def take_apart(self, view, node, move, answer):
        super().take_apart(view, node, move, answer)
        told, view.flight = view.flight, self.followed(view, node, move, answer)
        self.sizes[len(told)] += 1
        if deciding(view.flight) != deciding(told):
            self.faults.append(f"{view.flight} is followed behind {move} and {told} is told, at {view.looks[0]!r}")


def deciding(flight):
    """What is in flight, without the names of the bios of reads, which are not followed."""
    return [(tag, issue, (seat, operation, () if operation == "fetch" else names)) for tag, issue, (seat, operation, names) in flight]


# Clients, the script before them, and the options of sim. The first begins with tags that are free between others, and what it writes is
# there already. The second has requests that are alike, also of somebody who has left.
Case = collections.namedtuple("Case", "clients script options")
MANY = ("attach 0 0 4\nwrite 0 1 5 1 9\ndispatch\nwrite 0 1 40 1 9\ndispatch\nread 0 1 5 1\ndispatch\nfinish 0 3 stored\nwrite 0 1 5 1 9\n"
        "hold\nundo 1\nrelease\nwrite 0 1 5 1 9\n")
LEFT = "attach 0 0 4\nattach 5 0 4\nwrite 5 2 0 1 1\nwrite 5 2 70 1 1\ndispatch\nrequeue 0 5\nleave 5\nwrite 0 1 0 1 1\n"
CASES = {
    "free tags": Case("seat 0\nreap\nwrite 5 1 9\nseat 2\ndiscard 40 2\n", MANY, ["--tags", "3"]),
    "requests alike": Case("seat 0\nwrite 0 1 1\nwrite 0 1 1\ndiscard 0 1\ndiscard 0 1\n", LEFT, ["--scheduler", "none"]),
}


def searched(program, it):
    """A whole search, in which one request may be given back."""
    given = argparse.Namespace(all_states=True, faults=False, requeues=1, ticks=0)
    with tempfile.TemporaryDirectory() as folder:
        opening = Opening(program, with_usual(it.options), written(folder, "script", it.script),
                          read_clients(written(folder, "clients", it.clients)))
    names = Names(False)
    with opening.host() as host:
        reader, contents = Reader(host, names, True), Contents(None, stored(host))
    contents.name_all(names, opening)
    search, bounds = Asked(opening, reader, contents, given), Bounds()
    most, future_search.MOST_LINES = future_search.MOST_LINES, MOST_LINES
    try:
        cut = search.run(bounds, Ways(contents, bounds), lambda _: None)
    finally:
        future_search.MOST_LINES = most
    assert cut is None
    return search


def flight_faults(program, it):
    """The states at which another flight is told than was followed. There must be some with two requests and more, or little is tried."""
    search = searched(os.path.abspath(program), it)
    if max(search.sizes) < 2:
        yield f"at most {max(search.sizes)} requests are in flight"
    yield from search.faults[:2]
