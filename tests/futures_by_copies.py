"""An independent count of the futures that tools/futures searches: no undo, no pipe, no looks, no reduction.

Each step is taken by a copy of the plain program of the rules, examples/own_rule/model.py. It shares with the tool neither a line nor what
a state is: here that is what the plain machine has, without its serials.
"""

import collections
import os
import pickle
import sys
from fractions import Fraction

TOP = os.path.dirname(os.path.dirname(os.path.abspath(__file__)))
sys.path.append(os.path.join(TOP, "examples", "own_rule"))
from keeper import end_of, limits_of  # noqa: E402
from model import Machine  # noqa: E402
from rules import No  # noqa: E402

# A client's seat, and what it calls.
Client = collections.namedtuple("Client", "seat calls")
# How many states, edges and steps there are; of each content the fewest steps to it; and the worst lag of each client.
Count = collections.namedtuple("Count", "states edges steps contents lags")
# Where a search is: the machine, its last serial, how far each client is, how many requests were given back and ticks made, and lags.
Place = collections.namedtuple("Place", "machine serial at used lags")


def clients_of(text):
    """The clients of a text, with a reap for each result in place of a `sync`."""
    clients, owed = [], 0
    for row in text.splitlines():
        words = row.split()
        if not words or words[0] == "#":
            continue
        if words[0] == "seat":
            clients.append(Client(int(words[1]), []))
            owed = 0
        elif words[0] in ("reap", "sync"):
            count = owed if words[0] == "sync" else 1
            clients[-1].calls.extend([["reap"]] * count)
            owed -= count
        else:
            clients[-1].calls.append([words[0], *map(int, words[1:])])
            owed += 1
    return clients


def taken(machine, serial, step):
    """A copy of a machine that has taken a step, and its answer; None if it refuses it."""
    copy = pickle.loads(machine)
    copy.serial = serial
    made = getattr(copy, step[0])(*step[1:])
    try:
        next(made)
        return copy, end_of(made)
    except No:
        return None


def request_of(request):
    return request.seat, request.operation, tuple((bio.start, bio.count, bio.byte) for bio in request.bios)


def kind_of(result):
    """A result without what was read."""
    return result if result.startswith("error") else result.split(" ")[0]


def stored_in(machine):
    """What is stored, where it is not the zero that stood there before."""
    return frozenset((sector, block[0]) for sector, block in machine.overlay.items() if block[0])


def key_of(machine):
    """All of a machine that decides what can come, but for serials and tags."""
    seats = tuple((number, seat.head, tuple(map(request_of, seat.queue)), tuple(kind_of(result) for _, result in seat.outbox))
                  for number, seat in sorted(machine.seats.items()))
    members = tuple((entity, it.state, it.start, it.finish, it.weight, it.pending, it.budget)
                    for entity, it in sorted(machine.members.items()))
    service = machine.service and (machine.service.seat, machine.service.sent, machine.service.age)
    flight = tuple(sorted(map(repr, (request_of(request) for _, request in machine.flight.values()))))
    return (seats, tuple(map(request_of, machine.returned)), flight, members, tuple(sorted(machine.vtimes.items())), service,
            machine.last_seat, stored_in(machine))


class Counter:
    """A search by copies, breadth first."""

    def __init__(self, clients, opening, limits, bounds, weights=()):
        self.clients, self.limits, self.bounds = clients, limits, bounds
        # For the lag of each client: its share.
        self.shares = [Fraction(weight, sum(weights)) for weight in weights]
        self.machine, self.serial = pickle.dumps(Machine(limits)), 0
        for row in opening.splitlines():
            word, *words = row.split(" ")
            self.serial += 1
            machine, _ = taken(self.machine, self.serial, [word, *(int(it) if it.isdigit() else it for it in words)])
            self.machine = pickle.dumps(machine)

    def steps(self, machine, place):
        """What may be tried, each with the place behind it but for the machine."""
        for number, client in enumerate(self.clients):
            if place.at[number] < len(client.calls):
                word, *words = client.calls[place.at[number]]
                at = (*place.at[:number], place.at[number] + 1, *place.at[number + 1:])
                yield [word, client.seat, machine.seats[client.seat].session, *words], place._replace(at=at)
        yield ["dispatch"], place
        for tag, (issue, request) in machine.flight.items():
            of_read = [["fill", 0], *([["short"], ["fault"]] if self.bounds.faults else [])]
            outcomes = of_read if request.operation == "fetch" else [["stored"]]
            for outcome in outcomes:
                yield ["finish", tag, issue, *outcome], place
            if place.used[0] < self.bounds.requeues:
                yield ["requeue", tag, issue], place._replace(used=(place.used[0] + 1, place.used[1]))
        if place.used[1] < self.bounds.ticks:
            yield ["tick"], place._replace(used=(place.used[0], place.used[1] + 1))

    def lags(self, before, after, lags, answer):
        """What each client was behind after a dispatch, and the most of it while it had something queued."""
        _, tag, _, _, _, size = answer.split(" ")
        served = after.flight[int(tag)][1].seat
        found = []
        for client, share, lag in zip(self.clients, self.shares, lags):
            was_waiting = bool(before.seats[client.seat].queue)
            found.append(max(0, lag + share * int(size) - (int(size) if client.seat == served else 0)) if was_waiting else 0)
        return found, tuple(lag if after.seats[client.seat].queue else 0 for client, lag in zip(self.clients, found))

    def count(self):
        """Goes through all states."""
        first = Place(self.machine, self.serial, (0,) * len(self.clients), (0, 0), (0,) * len(self.shares))
        seen, todo, edges, deepest = set(), collections.deque([(first, 0)]), 0, 0
        contents, worst = {}, [0] * len(self.shares)
        machine = pickle.loads(first.machine)
        seen.add((key_of(machine), first.at, first.used, first.lags))
        contents[stored_in(machine)] = 0
        while todo:
            place, steps = todo.popleft()
            deepest = max(deepest, steps)
            before = pickle.loads(place.machine)
            for step, behind in self.steps(before, place):
                made = taken(place.machine, place.serial + 1, step)
                if made is None:
                    continue
                edges += 1
                after, answer = made
                lags = place.lags
                if self.shares and step[0] == "dispatch":
                    most, lags = self.lags(before, after, lags, answer)
                    worst = [*map(max, worst, most)]
                key = key_of(after), behind.at, behind.used, lags
                if key not in seen:
                    seen.add(key)
                    contents.setdefault(stored_in(after), steps + 1)
                    todo.append((behind._replace(machine=pickle.dumps(after), serial=place.serial + 1, lags=lags), steps + 1))
        return Count(len(seen), edges, deepest, contents, worst)


# How many requests are given back at most, how many ticks there are, and whether reads may fail.
Bounds = collections.namedtuple("Bounds", "requeues ticks faults")


def counted(text, options=(), opening=None, bounds=Bounds(0, 0, False), weights=()):
    """The count of the clients of a text."""
    clients = clients_of(text)
    if opening is None:
        opening = "".join(f"attach {client.seat} 0 4\n" for client in clients)
    limits = limits_of(["sim", *options])
    return Counter(clients, opening, limits, bounds, weights).count()
