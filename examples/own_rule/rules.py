"""The rules of BFQ, as docs/MODEL.md has them in its section of that name. A variation puts another method in place of one of these."""

import os
import sys
from types import SimpleNamespace as Record

sys.path.append(os.path.join(os.path.dirname(os.path.realpath(__file__)), "..", "..", "tools"))
from grammar import CLASSES  # noqa: E402

SEATS, ROOT = 16, 0
SCALE, LAST_TIME, LEAST_BUDGET = 22, 2**62, 256


class No(Exception):
    """A refusal or a cause to wait, by its number."""


def unless(is_so, number):
    """A test: it goes on if this is so."""
    if not is_so:
        raise No(number)


def delta(sectors, weight):
    """How much virtual time the service of some sectors takes."""
    return (sectors << SCALE) // weight


def checked(time):
    """A virtual time that was made."""
    unless(time <= LAST_TIME, 27)
    return time


class Rules:
    """What the scheduler knows: groups by their parents, members by their entities, virtual times, and the queue in service. Seats are
    those of the machine, of which a queue and its head are read here."""

    def __init__(self, limits):
        self.limits = limits
        self.seats = {}
        self.parents, self.members, self.vtimes, self.service = {ROOT: None}, {}, {}, None
        self.start_times(ROOT)

    def start_times(self, group):
        self.vtimes.update({(group, name): self.limits.first_vtime for name in CLASSES})

    def join(self, entity, group, class_name, weight, budget):
        """An entity is new in a group."""
        self.members[entity] = Record(entity=entity, group=group, class_name=class_name, state="idle", start=self.limits.first_vtime,
                                      finish=self.limits.first_vtime, weight=weight, pending=weight, budget=budget)

    def path(self, seat):
        """The members from a session up to the root."""
        entity = seat
        while entity != SEATS + ROOT:
            yield self.members[entity]
            entity = SEATS + self.members[entity].group

    def of_class(self, group, name):
        return [it for it in self.members.values() if (it.group, it.class_name) == (group, name)]

    def active(self, group, name):
        return [it for it in self.of_class(group, name) if it.state == "active"]

    def sum_of_weights(self, group, name):
        vtime = self.vtimes[group, name]
        return sum(it.weight for it in self.of_class(group, name) if it.state != "idle" or it.finish > vtime)

    def rank(self, member):
        """Of those that may be picked the one of least rank is: by its finish, on a tie by its number."""
        return member.finish, member.entity

    def pick(self, group, name):
        """One of the active members of a class, of which there is one at least."""
        waiting = self.active(group, name)
        self.vtimes[group, name] = max(self.vtimes[group, name], min(it.start for it in waiting))
        return min((it for it in waiting if it.start <= self.vtimes[group, name]), key=self.rank)

    def stamp(self, member, start):
        member.weight = member.pending
        member.start, member.finish = start, checked(start + delta(member.budget, member.weight))
        member.state = "active"

    def activate(self, seat):
        for it in self.path(seat):
            if it.state != "idle":
                return
            self.stamp(it, max(self.vtimes[it.group, it.class_name], it.finish))

    def select(self):
        group = ROOT
        while True:
            name = next(name for name in CLASSES if self.active(group, name))
            member = self.pick(group, name)
            member.state = "serving"
            if member.entity < SEATS:
                self.service = Record(seat=member.entity, sent=0, age=0)
                return
            group = member.entity - SEATS

    def charge(self, count):
        self.service.sent += count
        for it in self.path(self.service.seat):
            place = it.group, it.class_name
            self.vtimes[place] = checked(self.vtimes[place] + delta(count, self.sum_of_weights(*place)))

    def is_exhausted(self, count):
        """Whether the queue in service may not have so many sectors more."""
        return self.service.sent + count > self.members[self.service.seat].budget

    def next_budget(self, cause, budget, sent):
        grown = {"exhaustion": 4 * budget, "time": 2 * budget}
        return min(grown[cause], self.limits.max_budget) if cause in grown else max(sent, LEAST_BUDGET)

    def expire(self, cause):
        seat, sent = self.service.seat, self.service.sent
        session = self.members[seat]
        session.budget = self.next_budget(cause, session.budget, sent)
        for it in self.path(seat):
            left = checked(it.start + delta(sent, it.weight))
            if self.seats[seat].queue if it is session else any(self.active(it.entity - SEATS, name) for name in CLASSES):
                self.stamp(it, left)
            else:
                it.state, it.start, it.finish = "idle", left, left
        self.service = None

    def next_of(self, seat):
        """Min gives the earlier one of equal starts."""
        ahead = [it for it in seat.queue if it.start >= seat.head]
        return min(ahead or seat.queue, key=lambda it: it.start)

    def choose(self):
        """The next request by BFQ, which leaves its queue."""
        if self.service:
            count = self.next_of(self.seats[self.service.seat]).count
            if self.service.age >= self.limits.timeout:
                self.expire("time")
            elif self.is_exhausted(count):
                self.expire("exhaustion")
        if not self.service:
            self.select()
        seat = self.seats[self.service.seat]
        request = self.next_of(seat)
        self.charge(request.count)
        seat.queue.remove(request)
        seat.head = request.start + request.count
        if not seat.queue:
            self.expire("emptying")
        return request
