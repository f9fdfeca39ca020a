#!/usr/bin/env python3
"""A variation: round robin by weight. In each group the members of a class take turns, and a turn is worth 8 sectors for each unit of
weight. Who is sent more than that owes the rest of its next turn. Virtual times go on as ever, and choose nothing."""

from keeper import answer_all
from model import Machine

SECTORS_OF_WEIGHT = 8


class Deficit(Machine):
    """A surplus round robin in the place of B-WF2Q+. Classes stay strict, and a queue in service expires for time and for emptying."""

    def __init__(self, limits):
        super().__init__(limits)
        # By entity what is left of its turn, below 0 if it owes; and by group and class whose turn it is.
        self.left, self.turn = {}, {}

    def join(self, entity, *place):
        super().join(entity, *place)
        self.left[entity] = 0

    def pick(self, group, name):
        members = {it.entity: it for it in self.active(group, name)}
        now = self.turn.get((group, name), -1)
        while now not in members or self.left[now] <= 0:
            now = min(members, key=lambda entity: (entity <= now, entity))
            self.left[now] += SECTORS_OF_WEIGHT * members[now].pending
        self.turn[group, name] = now
        return members[now]

    def is_exhausted(self, count):
        return self.left[self.service.seat] <= 0

    def charge(self, count):
        super().charge(count)
        for it in self.path(self.service.seat):
            self.left[it.entity] -= count

    def expire(self, cause):
        path = [*self.path(self.service.seat)]
        super().expire(cause)
        # Who waits for nothing keeps nothing of its turn, but still owes.
        self.left.update({it.entity: min(self.left[it.entity], 0) for it in path if it.state == "idle"})


if __name__ == "__main__":
    answer_all(Deficit)
