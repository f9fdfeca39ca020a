"""What is watched along each way of a search: the lag of each group, and how long a request waits."""

from future_search import Dispatch


class Worst:
    """The greatest value so far, and the shortest way to it."""

    def __init__(self):
        self.value, self.steps, self.edge = 0, 0, None

    def meet(self, value, steps, edge):
        """A value that some steps lead to."""
        if value > self.value or (value == self.value and self.edge and steps < self.steps):
            self.value, self.steps, self.edge = value, steps, edge


class Lag:
    """For each client, which has a group of its own: how much service it was behind its share since it had something queued, at most.

    A value is in sectors times the sum of all weights, so that it is whole.
    """

    def __init__(self, weights, search):
        self.weights, self.total, self.search = weights, sum(weights), search
        self.worst = [Worst() for _ in weights]
        self.first = (0,) * len(weights)

    def step(self, edge):
        """The values after a move."""
        before, after = edge.node.view, edge.view
        if not isinstance(edge.move, Dispatch):
            return before.seen
        _, tag, *_, count = edge.answer.split(" ")
        seat = next(int(request[0]) for of, _, request in after.flight if of == tag)
        steps = self.search.steps_to(edge.node) + 1
        found = []
        for client, place, weight, worst, value in zip(self.search.clients, self.search.places, self.weights, self.worst, before.seen):
            if not before.queues[place]:
                found.append(0)
                continue
            value = max(0, value + weight * int(count) - (self.total * int(count) if client.seat == seat else 0))
            worst.meet(value, steps, edge)
            found.append(value if after.queues[place] else 0)
        return tuple(found)


class Wait:
    """For each queued request: how many dispatches the oldest of its bios has seen go by."""

    def __init__(self, search):
        self.search, self.worst = search, Worst()
        self.first = ()

    def step(self, edge):
        """Each queued bio with its dispatches."""
        seen, went = dict(edge.node.view.seen), isinstance(edge.move, Dispatch)
        found = []
        for bio in self.search.reader.queued(edge.view):
            # One that was queued at the start has seen none.
            count = seen.get(bio, 0) + went
            found.append((bio, count))
            self.worst.meet(count, self.search.steps_to(edge.node) + 1, edge)
        return tuple(found)
