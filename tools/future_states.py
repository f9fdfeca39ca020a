"""What a state is: the line of a host that has no names.

Two states that differ in serials alone, or in which tag bears which request, go on alike. So the line `show state` is all that a state is, but
for three things. What has become of a bio stands there, and not which one it was: nothing depends on that once it is in an outbox, nor on what a
read found. Virtual times may be told from that of their class, on whose difference alone rules stand. And bytes are told by a sum. If
bios of one sum store other bytes, or if each bio must have a name of its own, their names are a part of the state, too.

Which tag bears which request is asked where a search begins. From there on the search follows it by what it did itself, unless names are asked
anyway.
"""

import collections
import functools
import re

from grammar import CLASSES
from shown import BEST_EFFORT

# A bio in an outbox, before what has become of it; and the sum of what a read found.
IN_OUTBOX, READ_SUM = re.compile(r" \d+\+\d+(?:=[0-9a-f]{8})?:"), re.compile(r"(?<=read)=[0-9a-f]{8}")
REQUEUED, FLIGHT, SERVICE, TREE = " requeued", " flight", " service ", " tree "
# So many groups with their members are kept as they were told, so many texts of all seats, and so many lines.
MOST_KEPT, MOST_SEATS, MOST_LINES = 1 << 16, 1 << 12, 1 << 13

# The seats of a line: what of them is a part of a key; and of each that is taken its queued requests, and its completed bios.
Seats = collections.namedtuple("Seats", "key queues outboxes")


class Line:
    """What all lines say that are one to a search. It is a part of a key as it is, as there is one for all of them."""

    __slots__ = ("key", "seats", "waiting", "in_flight", "has_service")

    def __init__(self, key, seats, rest):
        self.key, self.seats = key, seats
        returned, _, rest = rest.partition(FLIGHT)
        self.waiting = len(returned.split()) + sum(map(len, seats.queues.values()))
        self.in_flight, _, rest = rest.partition(SERVICE)
        self.has_service = not rest.startswith("none")


class View:
    """A state: how far each client is, what is stored, what the search has used up, and what the looks say. Its key is all of it that decides
    what can come of it. The rest is taken apart where somebody goes on from here."""

    __slots__ = ("looks", "line", "flight", "returned", "queues", "outboxes", "waiting", "pcs", "content", "used", "seen", "has_service", "key")

    def __init__(self, looks, pcs, content, used):
        self.looks, self.pcs, self.content, self.used, self.seen = looks, pcs, content, used, ()
        # Each request in flight with its tag and its issue, once that is known.
        self.flight = None


class Names:
    """Names that need no serials. Bios that do the same have one name, unless each must have its own."""

    def __init__(self, has_each_its_own):
        self.has_each_its_own = has_each_its_own
        self.numbers = {}
        # What does the same as something else, with that.
        self.same = {}
        # The names of bios that store something, by how the line spells them.
        self.spelled = {}
        # Of the host that is asked: the names of bios, and of issues, by their serials.
        self.bios, self.issues = {}, {}

    def of(self, io, place):
        """The name of a bio, by what it does and where it comes from."""
        io = self.same.get(io, io)
        return self.numbers.setdefault((io, place) if self.has_each_its_own else io, len(self.numbers))

    def forget(self):
        """Another host gives its serials anew."""
        self.bios, self.issues = {}, {}

    def in_item(self, item):
        """The names of the bios of a request, which stand last in its item."""
        return tuple(self.bios[bio] for bio in item.rpartition(":")[2].split(","))


class Reader:
    """Reads states from the looks of a host, all of which have the seats of this one."""

    def __init__(self, host, names, is_whole, has_names=False):
        self.names = names
        # Whether virtual times are told as they are; else they are told from that of their class, on whose difference alone rules stand.
        self.is_whole = is_whole
        # Whether the names of bios are a part of a state.
        self.has_names = has_names
        line = host.ask("show state")
        _, self.scheduler, run, *_ = line.split(" ")
        self.is_frozen = run == "frozen"
        self.seats = [part.partition(" ")[0] for part in line.partition(REQUEUED)[0].split(" seat ")[1:]]
        # What is asked behind each step, and what where a search begins.
        self.lines, self.first_lines = ["show state"], ["show state", "show flight"]
        if has_names:
            self.lines = self.first_lines = [*self.first_lines, "show requeued", *(f"show queue {seat}" for seat in self.seats)]
        # What was sent between two flight parts so far.
        self.known = {}
        # The lines so far by what of them decides, and the last ones by their texts.
        self.told, self.read = {}, {}

    def has_serials(self):
        """Whether serials are told behind a step, so that it must be known what they name."""
        return len(self.lines) > 1

    def view(self, looks, pcs, content, used):
        """The state that looks tell, with how far each client is, what is stored, and what the search has used up."""
        view = View(looks, pcs, content, used)
        view.line = self.read.get(looks[0]) or self.line_of(looks[0])
        view.key = pcs, content, used, view.line
        if self.has_names:
            self.take_apart(view)
            view.key += (tuple(sorted(request for _, _, request in view.flight)), tuple(map(self.named, looks[2:])))
        return view

    def line_of(self, text):
        """The line of a text. Most texts come again, as other contents have the same machine."""
        before, _, rest = text.partition(REQUEUED)
        seats = seats_of(before)
        key = (seats.key, *self.key_of(rest))
        found = self.told.get(key)
        if found is None:
            found = self.told[key] = Line(key, seats, rest)
        if len(self.read) >= MOST_LINES:
            self.read.clear()
        self.read[text] = found
        return found

    def named(self, look):
        """The names of the bios of the dispatch list, or of a queue."""
        return tuple(self.names.in_item(item) for item in look.split(" ") if ":" in item)

    def key_of(self, rest):
        """The parts of a key that a line has behind its seats."""
        if self.is_whole or self.scheduler == "none":
            return (rest,)
        before, *trees = rest.split(TREE)
        return (before, *map(shifted, trees))

    def take_apart(self, view):
        """What decides which moves a state has."""
        line = view.line
        view.waiting, view.has_service = line.waiting, line.has_service
        _, view.queues, view.outboxes = line.seats
        if len(view.looks) > 1:
            view.flight = []
            for item in view.looks[1].split(" ")[1:]:
                tag, issue, seat, operation, _ = item.split(":", 4)
                view.flight.append((tag, self.names.issues[issue], (seat, operation, self.names.in_item(item))))

    def sent(self, before, after):
        """The request that is in flight after a dispatch and was not before, which is kept."""
        key = before.line.in_flight, after.line.in_flight
        if key not in self.known:
            self.known[key] = self.new_in_flight(*map(str.split, key))
        return self.known[key]

    def new_in_flight(self, before, after):
        """The request that is in flight after a dispatch and was not before: its seat, its operation, and the names of the bios that it
        stores. What a read is called decides nothing."""
        # Both are in order, so the first that differs is new. The rest must be as it was.
        place = next((place for place, item in enumerate(before) if item != after[place]), len(before))
        item = after.pop(place)
        if before != after:
            raise ValueError(f"more than {item} has changed in flight")
        seat, operation, bios = item.split(":")
        return seat, operation, () if operation == "fetch" else tuple(self.names.spelled[bio] for bio in bios.split(","))

    def queued(self, view):
        """The names of all queued bios, which are known if names are a part of a state."""
        return [bio for look in view.looks[3:] for request in self.named(look) for bio in request]


@functools.lru_cache(MOST_SEATS)
def seats_of(text):
    """The seats of a line."""
    queues, outboxes = {}, {}
    for part in text.split(" seat ")[1:]:
        seat, _, rest = part.partition(" ")
        queue, _, outbox = rest.partition(" queue")[2].partition(" outbox")
        queues[seat], outboxes[seat] = queue.split(), outbox.split()
    return Seats(READ_SUM.sub("", IN_OUTBOX.sub(" ", text)), queues, outboxes)


def request_of(text):
    """The operation of a request, its first sector, how many it has, and how many bios."""
    operation, _, bios = text.partition(":")
    extents = [tuple(map(int, bio.partition("=")[0].split("+"))) for bio in bios.split(",")]
    return operation, extents[0][0], sum(count for _, count in extents), len(extents)


@functools.lru_cache(MOST_KEPT)
def shifted(tree):
    """A group, its parent and its members as a text, with times told from that of their class. The finish of an idle one counts while it is
    ahead, and its start never. A text, unlike a tuple, knows its hash."""
    group, parent, *rest = tree.split(" ")
    vtimes = dict(zip(CLASSES, map(int, rest)))
    found = [group, parent]
    for item in rest[len(CLASSES):]:
        entity, state, start, finish, weight, pending, budget, *class_name = item.split(":")
        vtime = vtimes[class_name[0] if class_name else BEST_EFFORT]
        ahead = int(finish) - vtime
        times = max(ahead, 0) if state == "idle" else f"{int(start) - vtime}:{ahead}"
        found.append(f"{entity}:{state}:{times}:{weight}:{pending}:{budget}:{class_name}")
    return " ".join(found)
