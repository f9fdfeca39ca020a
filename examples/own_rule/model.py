#!/usr/bin/env python3
"""All rules of docs/MODEL.md as a plain program, to be read beside that page: it answers each line of a script as `bfqhost sim` does.

    examples/own_rule/model.py sim --tags 2 < examples/weights.script
    tools/step --program examples/own_rule/model.py

Here are the steps; the rules of BFQ stand in rules.py, and the keeper, the lines and the looks in keeper.py. docs/OWN_RULE.md tells how to
change a rule.
"""

from keeper import answer_all, spelled
from rules import ROOT, SEATS, Record, Rules, unless

SECTOR, GROUPS, LEVELS = 512, 32, 4
MOST_SECTORS, MOST_BIOS, MOST_OF_REQUEST, PRIORITIES = 64, 32, 256, 8


class Machine(Rules):
    """The machine at one moment. Each step has its tests first, and behind its `yield` what it changes and its answer."""

    def __init__(self, limits):
        super().__init__(limits)
        # The serial of the step that is made.
        self.serial = 0
        self.scheduler, self.is_frozen, self.last_seat = limits.scheduler, False, SEATS - 1
        self.flight, self.returned, self.overlay = {}, [], {}

    # Sessions, and what they ask.

    def of(self, number):
        """All requests of a seat, wherever they are."""
        return [it for it in [*self.seats[number].queue, *(it for _, it in self.flight.values()), *self.returned] if it.seat == number]

    def owed(self, number):
        return sum(len(it.bios) for it in self.of(number)) + len(self.seats[number].outbox)

    def sits(self, number, session=None):
        """The seat of a session that makes calls; with no name that of whoever sits there."""
        unless(number < SEATS, 1)
        unless(number in self.seats and not self.seats[number].is_leaving, 3)
        unless(session in (None, self.seats[number].session), 4)
        return self.seats[number]

    def attach(self, number, group, prio, class_name="be"):
        unless(number < SEATS, 1)
        unless(number not in self.seats, 2)
        unless(group in self.parents, 5)
        unless(prio < PRIORITIES, 8)
        yield
        self.seats[number] = Record(session=self.serial, prio=prio, head=0, is_leaving=False, queue=[], outbox=[])
        self.join(number, group, class_name, (PRIORITIES - prio) * 10, self.limits.first_budget)
        return f"attached {self.serial}"

    def submit(self, operation, number, session, start, count, byte=None):
        seat = self.sits(number, session)
        unless(1 <= count <= MOST_SECTORS, 12)
        unless(start + count <= self.limits.sectors, 14)
        unless(not self.is_frozen, 42)
        unless(self.owed(number) < MOST_BIOS, 15)
        fitting = [it for it in seat.queue
                   if it.operation == operation and it.count + count <= MOST_OF_REQUEST and len(it.bios) < MOST_BIOS]
        back = next((it for it in fitting if it.start + it.count == start), None)
        front = next((it for it in fitting if start + count == it.start), None)
        in_pool = sum(len(it.queue) for it in self.seats.values()) + len(self.flight) + len(self.returned)
        unless(back or front or in_pool < self.limits.nr_requests, 43)
        yield
        was_empty, bio = not seat.queue, Record(serial=self.serial, start=start, count=count, byte=byte)
        if request := back or front:
            request.bios.insert(len(request.bios) if back else 0, bio)
            request.start, request.count = min(request.start, start), request.count + count
        else:
            seat.queue.append(Record(seat=number, operation=operation, start=start, count=count, bios=[bio]))
        if was_empty and self.scheduler == "bfq":
            self.activate(number)
        return f"queued {self.serial}"

    def read(self, *words):
        return self.submit("fetch", *words)

    def write(self, *words):
        return self.submit("store", *words)

    def discard(self, *words):
        """What is discarded is zeros, once it is done."""
        return self.submit("discard", *words)

    def reap(self, number, session):
        seat = self.sits(number, session)
        unless(self.owed(number), 16)
        unless(seat.outbox, 44)
        yield
        bio, result = seat.outbox.pop(0)
        return f"completed {bio.serial} {result}"

    def leave(self, number):
        seat = self.sits(number)
        yield
        seat.is_leaving, seat.outbox = True, []
        self.free_if_left(number)
        return "left"

    def free_if_left(self, number):
        """A seat is free with the last request of a session that has left."""
        if self.seats[number].is_leaving and not self.of(number):
            del self.seats[number], self.members[number]

    def choose_by_turns(self):
        """The next request by `none`."""
        turn = [(self.last_seat + 1 + away) % SEATS for away in range(SEATS)]
        self.last_seat = next(number for number in turn if number in self.seats and self.seats[number].queue)
        return self.seats[self.last_seat].queue.pop(0)

    # The device.

    def dispatch(self):
        unless(self.returned or any(it.queue for it in self.seats.values()), 17)
        unless(len(self.flight) < self.limits.tags, 18)
        yield
        if self.returned:
            request = self.returned.pop(0)
        else:
            request = self.choose() if self.scheduler == "bfq" else self.choose_by_turns()
        tag = min({*range(self.limits.tags)} - {*self.flight})
        self.flight[tag] = self.serial, request
        return f"issued {tag} {self.serial} {request.operation} {request.start} {request.count}"

    def in_flight(self, tag, issue):
        unless(tag < self.limits.tags, 19)
        unless(self.flight.get(tag, (None,))[0] == issue, 20)
        return self.flight[tag][1]

    def finish(self, tag, issue, outcome, blocks=None):
        """Blocks are what was fetched, or a byte that all are of."""
        request = self.in_flight(tag, issue)
        unless((outcome == "stored") == (request.operation != "fetch"), 21)
        yield
        del self.flight[tag]
        for bio in request.bios:
            sectors = range(bio.start, bio.start + bio.count)
            if outcome == "stored":
                self.overlay.update(dict.fromkeys(sectors, bytes([bio.byte or 0]) * SECTOR))
                result = "written" if request.operation == "store" else "discarded"
            elif outcome == "fill":
                device = [bytes([blocks]) * SECTOR] * request.count if isinstance(blocks, int) else blocks
                result = " ".join(["read", *(spelled(self.overlay.get(at, device[at - request.start])) for at in sectors)])
            else:
                result = f"error {outcome}"
            if not self.seats[request.seat].is_leaving:
                self.seats[request.seat].outbox.append((bio, result))
        self.free_if_left(request.seat)
        return f"finished {len(request.bios)}"

    def requeue(self, tag, issue):
        request = self.in_flight(tag, issue)
        yield
        del self.flight[tag]
        self.returned.append(request)
        return "requeued"

    # The operator.

    def group(self, parent, weight):
        unless(parent in self.parents, 5)
        unless(1 <= weight <= 1000, 7)
        unless(self.level(parent) < LEVELS, 9)
        unless(len(self.parents) < GROUPS, 10)
        yield
        number = min({*range(GROUPS)} - {*self.parents})
        self.parents[number] = parent
        self.start_times(number)
        self.join(SEATS + number, parent, "be", weight, self.limits.max_budget)
        return f"group {number}"

    def level(self, group):
        return 0 if group == ROOT else 1 + self.level(self.parents[group])

    def is_no_root(self, group):
        unless(group in self.parents, 5)
        unless(group != ROOT, 6)

    def drop(self, group):
        self.is_no_root(group)
        unless(not any(it.group == group for it in self.members.values()), 11)
        yield
        del self.parents[group], self.members[SEATS + group]
        return "done"

    def weight(self, group, weight):
        self.is_no_root(group)
        unless(1 <= weight <= 1000, 7)
        yield
        self.members[SEATS + group].pending = weight
        return "done"

    def freeze(self):
        unless(not self.is_frozen, 22)
        yield
        self.is_frozen = True
        return "done"

    def thaw(self):
        unless(self.is_frozen, 23)
        yield
        self.is_frozen = False
        return "done"

    def switch(self, scheduler):
        unless(self.is_frozen, 23)
        unless(not (self.flight or self.returned or any(it.queue for it in self.seats.values())), 24)
        unless(scheduler != self.scheduler, 25)
        yield
        self.scheduler, self.last_seat = scheduler, SEATS - 1
        for seat in self.seats.values():
            seat.head = 0
        if scheduler == "bfq":
            for group in self.parents:
                self.start_times(group)
            for it in self.members.values():
                it.start = it.finish = self.limits.first_vtime
                it.budget = self.limits.first_budget if it.entity < SEATS else it.budget
        return "done"

    def tick(self):
        unless(self.service, 26)
        yield
        self.service.age += 1
        return "done"


if __name__ == "__main__":
    answer_all(Machine)
