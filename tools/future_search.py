"""The search: every order in which clients call, requests are sent and the device completes them, breadth first, by undo in place.

A host takes a step, is looked at, and takes the step back; so it goes from state to state. States that go on alike are one. What will be
accepted is known from the looks, and each accepted step takes the next serial, so lines for many states are asked together.

Two reductions leave each content reachable, and the shortest way to it. A reap that can be made is made first: it changes nothing for
anybody else, and is no part of a way if its client calls nothing after it. And a request is completed only if something waits for that: a
reap, a read, a write or a discard for which the host has no room, or a dispatch that wants its tag. All orders of completions that are
left out are closed over in contents alone.
"""

import collections
import gc
import time

from future_clients import REAP
from future_states import request_of
from host import Ended, Refused
from reasons import limits_of

# So many states go on at once.
TOGETHER = 64
# A host that was asked so many lines is replaced by a new one, as a script has an end.
MOST_LINES = 100_000
MOST_BIOS, MOST_OF_REQUEST = 32, 256
NR_REQUESTS = 64
# What a device may answer to a read, and what it answers to all else.
FILLED, FAULTS = "fill 0", ("short", "fault")
STORED = "stored"
DISPATCH = "dispatch"
# Back to the state before.
BACK = "hold", "undo 1", "release"
# What a queue calls what a client does.
OPERATIONS = {"read": "fetch", "write": "store", "discard": "discard"}

# The moves. A client calls what it calls next; a request is dispatched, finished or given back; the queue in service is a tick older.
# A call has its line, the name of its bio, if it has one, and how far each client is after it.
Call = collections.namedtuple("Call", "client item line name pcs")
Dispatch = collections.namedtuple("Dispatch", "")
# An issue is the number of steps before the one that made it, or less than 0 if that was none of the search. If it is stored, its bios have
# these names.
Finish = collections.namedtuple("Finish", "tag issue outcome bios")
GiveBack = collections.namedtuple("GiveBack", "tag issue")
Tick = collections.namedtuple("Tick", "")
DISPATCHED = Dispatch()


class Cut(Exception):
    """A bound was met."""


class Bounds:
    """How far a search goes."""

    def __init__(self, steps=None, states=None, seconds=None):
        self.steps, self.states, self.seconds = steps, states, seconds
        self.begin = time.monotonic()

    def look(self, count=0):
        """So many states, or contents, are there, and there is another one."""
        if self.states is not None and count >= self.states:
            raise Cut("states")
        if self.seconds is not None and time.monotonic() - self.begin >= self.seconds:
            raise Cut("seconds")


class Node:
    """A state, and the move that led to it from another one."""

    __slots__ = ("parent", "move", "depth", "view")

    def __init__(self, parent, move, depth, view):
        self.parent, self.move, self.depth, self.view = parent, move, depth, view

    def way(self):
        """The nodes from the first state, which is none of them, to this one."""
        found, node = [], self
        while node.parent is not None:
            found.append(node)
            node = node.parent
        return found[::-1]


def line_of_item(client, item):
    """What a client calls as a line."""
    word, start, count, byte = item
    if item is REAP:
        return f"reap {client.seat} {client.session}"
    return f"{word} {client.seat} {client.session} {start} {count}" + ("" if byte is None else f" {byte}")


def line_of(move, serials):
    """A move as a line. An issue has the serial of its step."""
    kind = type(move)
    if kind is Call:
        return move.line
    if kind is Finish:
        tag, issue, outcome, _ = move
        return f"finish {tag} {serials[issue] if issue >= 0 else -issue} {outcome}"
    if kind is GiveBack:
        return f"requeue {move.tag} {serials[move.issue] if move.issue >= 0 else -move.issue}"
    return DISPATCH if kind is Dispatch else "tick"


class Live:
    """A host that stands at a state, and the lines that it will be asked next."""

    def __init__(self, opening, reader):
        self.opening, self.names = opening, reader.names
        # Whether it is asked behind each step what serials name.
        self.has_serials = reader.has_serials()
        self.host, self.lines = None, []
        self.begin()

    def begin(self):
        """A host that stands where the opening ends."""
        self.end()
        self.host = self.opening.host()
        # The nodes on the way to where it stands, with the serials of their steps.
        self.way, self.serials, self.serial, self.asked = [], [], self.opening.serial, 0
        # How many steps it will go back before it takes another one.
        self.behind = 0
        self.names.forget()
        for serial, act in self.opening.bios.items():
            self.names.bios[serial] = self.names.of(act, int(serial))
        for issue in self.opening.issues:
            self.names.issues[issue] = -int(issue)

    def end(self, *fault):
        """The host ends, and well if nothing was wrong so far."""
        host, self.host = self.host, None
        if host is not None:
            host.__exit__(*(fault or (None, None, None)))

    def __enter__(self):
        """A host runs from the start."""
        return self

    def __exit__(self, *fault):
        """Ends it, as a host ends."""
        self.end(*fault)

    def take(self, move):
        """It will take a step. Gives the place of its line among those that it will be asked."""
        if self.behind:
            self.go_back()
        self.serial += 1
        if self.has_serials:
            self.name(move)
        self.lines.append(line_of(move, self.serials))
        return len(self.lines) - 1

    def go_back(self):
        """It will take back the steps that it stands behind."""
        self.lines += BACK if self.behind == 1 else ("hold", f"undo {self.behind}", "release")
        self.behind = 0

    def name(self, move):
        """What the serial of its last step names."""
        if type(move) is Dispatch:
            self.names.issues[str(self.serial)] = len(self.serials)
        elif type(move) is Call and move.name is not None:
            self.names.bios[str(self.serial)] = move.name

    def go_to(self, node):
        """It will go to a state: back to where both ways part, and on."""
        before, on, depth = self.way, [], node.depth
        while depth and (depth > len(before) or before[depth - 1] is not node):
            on.append(node)
            node, depth = node.parent, depth - 1
        if len(before) > depth:
            self.behind += len(before) - depth
            del before[depth:], self.serials[depth:]
        if on and self.behind:
            self.go_back()
        lines, serials = self.lines, self.serials
        # These are most of all steps.
        for one in reversed(on):
            self.serial += 1
            if self.has_serials:
                self.name(one.move)
            lines.append(line_of(one.move, serials))
            before.append(one)
            serials.append(self.serial)

    def answers(self):
        """The answers to all lines. A step that is refused has made all that follows another one."""
        lines, self.lines = self.lines, []
        self.asked += len(lines)
        try:
            return self.host.ask_accepted(lines)
        except Refused as fault:
            raise Ended(f"the search cannot go on: {fault}") from None


class Search:
    """The states from an opening on."""

    def __init__(self, opening, reader, contents, given, observer=None):
        self.opening, self.reader, self.contents, self.given, self.observer = opening, reader, contents, given, observer
        self.clients = opening.clients
        self.tags = limits_of(opening.limits)["--tags"]
        self.room = value_of(opening.limits, "--nr-requests", NR_REQUESTS)
        self.outcomes = [FILLED, *FAULTS] if given.faults else [FILLED]
        # The seat of each client as a look has it. A seat that is no client's may get free, when somebody who has left is gone.
        self.places = [str(client.seat) for client in self.clients]
        # By how far each client is: the calls that may come next, and how many reaps are the last calls of their clients.
        self.ahead, self.reaps = {}, {}
        self.keys = set()
        self.states = self.edges = self.depth = 0

    # What can come of a state.

    def moves(self, view):
        """The moves from a state, of which the reductions leave some out."""
        found, is_waiting, flight = [], False, view.flight
        is_full = self.reader.is_frozen or len(flight) + view.waiting >= self.room
        for place, call in self.ahead.get(view.pcs) or self.calls(view.pcs):
            if view.outboxes[place] if call.item is REAP else not is_full or self.joins(view, place, call.item):
                found.append(call)
                if call.item is REAP and not self.given.all_states:
                    return found[-1:]
            else:
                is_waiting = True
        has_more, has_tag = view.waiting > 0, len(flight) < self.tags
        if has_more and has_tag:
            found.append(DISPATCHED)
        if self.given.all_states or is_waiting or (has_more and not has_tag):
            found += self.finishes(view)
        if view.used[0] < self.given.requeues:
            found += [GiveBack(tag, issue) for tag, issue, _ in flight]
        if view.used[1] < self.given.ticks and view.has_service:
            found.append(Tick())
        return found

    def calls(self, pcs):
        """What each client calls next that has not called all yet, with its place in a look. That is kept."""
        found = self.ahead[pcs] = []
        for number, (client, place, pc) in enumerate(zip(self.clients, self.places, pcs)):
            if pc < len(client.items):
                item = client.items[pc]
                name = None if item is REAP else self.reader.names.of(item.act(), (number, pc))
                found.append((place, Call(number, item, line_of_item(client, item), name, (*pcs[:number], pc + 1, *pcs[number + 1:]))))
        return found

    def finishes(self, view):
        """The completions of what is in flight."""
        found = []
        for tag, issue, request in view.flight:
            if request[1] == "fetch":
                found += [Finish(tag, issue, outcome, None) for outcome in self.outcomes]
            else:
                found.append(Finish(tag, issue, STORED, request[-1]))
        return found

    def joins(self, view, place, item):
        """Whether a host that is full takes a read, a write or a discard: it is not frozen, and has a request that it joins."""
        if self.reader.is_frozen:
            return False
        for operation, start, count, bios in map(request_of, view.queues[place]):
            is_beside = start + count == item.start or item.start + item.count == start
            if operation == OPERATIONS[item.word] and is_beside and count + item.count <= MOST_OF_REQUEST and bios < MOST_BIOS:
                return True
        return False

    # The search.

    def run(self, bounds, ways, progress):
        """Goes through all states within bounds. Gives by what it was cut, or None if it is complete."""
        self.ways, self.bounds = ways, bounds
        # Nothing of a search is a circle, and its states are looked through again and again for one.
        gc.disable()
        try:
            with Live(self.opening, self.reader) as self.live:
                return self.go_through(self.first(), progress)
        except Cut as cut:
            return str(cut)
        finally:
            gc.enable()

    def first(self):
        """The state where the opening ends."""
        self.live.lines += self.reader.first_lines
        node = Node(None, None, 0, self.reader.view(self.live.answers(), (0,) * len(self.clients), self.contents.first, (0, 0)))
        self.reader.take_apart(node.view)
        if self.observer:
            self.observe(node.view, self.observer.first)
        self.note(node)
        return node

    def go_through(self, node, progress):
        """All states that come of one, those of fewer steps first."""
        frontier, most, is_cut = collections.deque([node]), self.bounds.steps, False
        while frontier:
            nodes = [frontier.popleft() for _ in range(min(TOGETHER, len(frontier)))]
            if most is not None and nodes[-1].depth >= most:
                is_cut = is_cut or any(self.moves(it.view) for it in nodes if it.depth >= most)
                nodes = [it for it in nodes if it.depth < most]
            if self.live.asked > MOST_LINES:
                self.live.begin()
            frontier.extend(self.go_on(nodes))
            progress(self)
        return "steps" if is_cut else None

    def go_on(self, nodes):
        """The new states that come of some."""
        jobs, found, live, looks, keys = [], [], self.live, self.reader.lines, self.keys
        count = len(looks)
        for node in nodes:
            live.go_to(node)
            for move in self.moves(node.view):
                jobs.append((node, move, live.take(move)))
                live.lines += looks
                live.behind = 1
        answers = live.answers()
        for node, move, at in jobs:
            self.edges += 1
            view = self.view(node.view, move, answers[at + 1:at + 1 + count])
            if self.observer:
                self.take_apart(view, node, move, answers[at])
                self.observe(view, self.observer.step(Edge(node, move, answers[at], view)))
            if view.key not in keys:
                self.bounds.look(self.states)
                self.take_apart(view, node, move, answers[at])
                found.append(Node(node, move, node.depth + 1, view))
                self.note(found[-1])
        for node in nodes:
            # What came of it is known.
            node.view = None
        return found

    def view(self, before, move, looks):
        """The state after a move."""
        pcs, content, used = before.pcs, before.content, before.used
        kind = type(move)
        if kind is Call:
            pcs = move.pcs
        elif kind is Finish:
            if move.bios is not None:
                content = self.contents.stored(content, move.bios)
        elif kind is GiveBack:
            used = used[0] + 1, used[1]
        elif kind is Tick:
            used = used[0], used[1] + 1
        return self.reader.view(looks, pcs, content, used)

    def take_apart(self, view, node, move, answer):
        """What decides which moves a state has. Where it is not asked what is in flight, that is known from the state before."""
        self.reader.take_apart(view)
        if view.flight is None:
            view.flight = self.followed(view, node, move, answer)

    def followed(self, view, node, move, answer):
        """What is in flight after a move, by tag as `show flight` has it."""
        before = node.view
        if isinstance(move, Dispatch):
            new = answer.split(" ")[1], node.depth, self.reader.sent(before, view)
            return sorted([*before.flight, new], key=lambda it: int(it[0]))
        if isinstance(move, (Finish, GiveBack)):
            return [it for it in before.flight if it[0] != move.tag]
        return before.flight

    @staticmethod
    def observe(view, seen):
        """What an observer has seen is a part of the state."""
        view.seen, view.key = seen, (*view.key, seen)

    def note(self, node):
        """A state is new. Its content and those near it may be too."""
        view = node.view
        self.keys.add(view.key)
        self.states += 1
        # It goes breadth first.
        self.depth = node.depth
        steps = self.steps_to(node)
        self.ways.found(view.content, steps, node)
        if not self.given.all_states:
            stores = [(tag, issue, request[-1]) for tag, issue, request in view.flight if request[1] != "fetch"]
            if not self.ways.is_closed(view.content, steps, [bios for *_, bios in stores]):
                self.ways.close(view.content, steps, node, tuple((Finish(tag, issue, STORED, bios), bios) for tag, issue, bios in stores))

    def steps_to(self, node):
        """How many steps lead to the content of a state: a reap is none of them if its client calls nothing after it."""
        pcs = node.view.pcs
        reaps = self.reaps.get(pcs)
        if reaps is None:
            reaps = self.reaps[pcs] = sum(client.last_reaps[pc] for client, pc in zip(self.clients, pcs))
        return node.depth - reaps

    # What is told.

    def script(self, node, after=()):
        """The lines behind the opening that lead to a state, without reaps that nothing needs."""
        moves = [one.move for one in node.way()]
        needed, have_more = [], set()
        for move in reversed(moves):
            if isinstance(move, Call):
                if move.item is REAP and move.client not in have_more:
                    needed.append(False)
                    continue
                have_more.add(move.client)
            needed.append(True)
        lines, serials, serial = [], [], self.opening.serial
        for move, is_needed in zip([*moves, *after], [*needed[::-1], *(True for _ in after)]):
            if is_needed:
                lines.append(line_of(move, serials))
            serial += is_needed
            serials.append(serial)
        return lines


# A move from a node, with its answer and the state after it.
Edge = collections.namedtuple("Edge", "node move answer view")


def value_of(options, name, default):
    """The number that an option of sim has, or the default."""
    words = [part for word in options for part in word.split("=", 1)]
    return next((int(value) for word, value in zip(words, words[1:]) if word == name and value.isdigit()), default)
