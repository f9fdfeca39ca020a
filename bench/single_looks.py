"""States by the single looks of a host, as tools/futures read them before there was `show state`: the measure for bench/futures.py.

With two clients it asks 7 looks by the scheduler none and 13 by bfq, and more if there are groups.
"""

import itertools

from future_states import Reader, View
from shown import BEST_EFFORT, tree_of

GROUPS = 32
NONE = ["none"]


class SingleLooks(Reader):
    """A reader that asks each part of a machine by a look of its own. It gives the same states."""

    def __init__(self, host, names, is_whole):
        super().__init__(host, names, is_whole)
        trees = {group: tree_of(answer) for group, answer in enumerate(host.ask_each(f"show tree {group}" for group in range(GROUPS)))}
        self.trees = {group: tree for group, tree in trees.items() if tree and tree.members}
        self.lines = ["show flight", "show requeued", *itertools.chain.from_iterable(
            (f"show queue {seat}", f"show outbox {seat}") for seat in self.seats), *self.of_scheduler()]
        self.first_lines = self.lines

    def of_scheduler(self):
        """The looks at what the scheduler knows."""
        if self.scheduler == "none":
            return ["show host"] if len(self.seats) > 1 else []
        self.places = sorted({(group, it.class_name) for group, tree in self.trees.items() for it in tree.members} |
                             {(group, BEST_EFFORT) for group in self.trees})
        seats = [line for seat in self.seats for line in (f"show seat {seat}", f"entity {seat}")]
        return ["show service", *(f"show tree {group}" for group in self.trees), *(f"vtime {group} {name}" for group, name in self.places),
                *seats]

    def requests(self, items):
        """The requests of a queue, or of the dispatch list, with the names of their bios."""
        return tuple((*item.split(":")[:-1], self.names.in_item(item)) for item in items)

    def view(self, looks, pcs, content, used):
        """The state that looks tell."""
        view = View(looks, pcs, content, used)
        view.flight = []
        for item in looks[0].split(" ")[1:]:
            tag, issue, seat, operation, extent, _ = item.split(":")
            view.flight.append((tag, self.names.issues[issue], (seat, operation, extent, self.names.in_item(item))))
        view.returned = self.requests(looks[1].split(" ")[1:])
        view.queues, view.outboxes, at = {}, {}, 2
        for seat in self.seats:
            queue, outbox = looks[at].split(" ")[2:], looks[at + 1].split(" ")[2:]
            view.queues[seat] = () if queue == NONE else self.requests(queue)
            view.outboxes[seat] = () if outbox == NONE else tuple(item.split(":")[1] for item in outbox)
            at += 2
        rest = looks[at:]
        view.has_service = self.scheduler == "bfq" and rest[0] != "service none"
        view.key = (pcs, content, used, tuple(sorted(request for _, _, request in view.flight)), view.returned, tuple(view.queues.values()),
                    tuple(view.outboxes.values()), self.rest_of(rest))
        return view

    def take_apart(self, view):
        """All else was taken apart for its key."""
        view.waiting = len(view.returned) + sum(map(len, view.queues.values()))

    def rest_of(self, looks):
        """What the scheduler knows, as a part of a key."""
        if self.scheduler == "none":
            return looks[0].split(" ")[4] if looks else ""
        if self.is_whole:
            return tuple(looks)
        after_trees = 1 + len(self.trees)
        after_times = after_trees + len(self.places)
        vtimes = {place: int(look.rpartition(" ")[2]) for place, look in zip(self.places, looks[after_trees:after_times])}
        shifted = [self.shifted(group, look, vtimes) for group, look in zip(self.trees, looks[1:after_trees])]
        # Of a seat its head and whether it is here, of its entity its budget and its service.
        return (looks[0], *shifted, *(tuple(look.split(" ")[6:]) for look in looks[after_times:]))

    @staticmethod
    def shifted(group, look, vtimes):
        """The members of a tree, with times told from that of their class."""
        found = []
        for item in look.split(" ")[4:]:
            entity, state, start, finish, weight, pending, *class_name = item.split(":")
            vtime = vtimes[group, class_name[0] if class_name else BEST_EFFORT]
            ahead = int(finish) - vtime
            found.append((entity, state, None if state == "idle" else int(start) - vtime, max(ahead, 0) if state == "idle" else ahead,
                          weight, pending))
        return tuple(found)
