"""What each client of a run was given, and what it was entitled to, along each future of the run.

A future is a line of steps. One ends where steps were undone and another step was made in their place. The next one has the steps that
stood then, and goes on with the other one.
"""

import collections

import grammar
from host import answers_to
from reasons import Looks, look
from shown import OF_GROUPS, ROOT, classes_of, tree_of, vtimes_of
from ways import while_held

# A session at a seat.
Client = collections.namedtuple("Client", "seat session")
# After a step, by its serial: all sectors that were sent, those of each client, and what it was entitled to; whose request the step sent,
# or None; and the tree of the group, or None where it does not stand, with its virtual times of other classes than best effort.
Point = collections.namedtuple("Point", "serial total sent entitled served tree vtimes")
BEFORE = Point(0, 0, {}, {}, None, None, {})


class Run:
    """A run of a script, of which the points of each future are kept."""

    def __init__(self, host, group, of_clients):
        self.host = host
        self.looks = Looks(host)
        self.group = group
        # Whether it is looked at who is served, which a plain CSV of virtual times does not need.
        self.of_clients = of_clients
        # Each point in the order in which it came, whether it still stands or not.
        self.all = []
        # By how many steps stand; a step that neither sends nor finishes has none.
        self.points = [BEFORE]
        self.cursor = 0
        # The futures that were left, each with the place from which on it is another than the one before.
        self.futures = []
        self.begins = 0
        # The weights that each client and each group had; and the group that a client is in, in the order in which clients came.
        self.weights = collections.defaultdict(dict)
        self.groups = {}

    def play(self, script):
        """Asks a script."""
        for _ in answers_to(script, self):
            pass

    def play_line(self):
        """Goes along the line of a host that has gone some way, which is held meanwhile, from its start to where it stands."""
        while_held(self.host, self.along)

    def along(self, line):
        """Each step that stands is redone, and what came of it is kept. At the end the host stands where it stood."""
        last = line.cursor
        line.go(0)
        for step in line.steps(range(1, last + 1)):
            before = look(self.host) if self.of_clients and step.line == "dispatch" else None
            if before and len(self.standing()) == 1:
                self.points[0] = self.point(BEFORE, 0)
            line.go(step.place)
            self.step(before, *answer_of(self.looks, step), step.serial)

    def lines(self):
        """The futures so far, each with the place from which on it is another than the one before. The last is the line as it is."""
        return [*self.futures, (self.begins, [point for point in self.points if point])]

    def standing(self):
        """The points of the steps that stand."""
        return [point for point in self.points[:self.cursor + 1] if point]

    def ask(self, line):
        """Asks a line, and keeps what came of it."""
        before = look(self.host) if self.of_clients and line == "dispatch" else None
        if before and len(self.standing()) == 1:
            self.points[0] = self.point(BEFORE, 0)
        answer = self.host.ask(line)
        word, *rest = answer.split(" ")
        if word == "moved":
            self.cursor = int(rest[0])
        elif grammar.is_step(line) and not grammar.is_refusal(answer):
            self.step(before, word, rest)
        return answer

    def step(self, before, word, rest, serial=None):
        """A step that was accepted: the last one, or the one of this serial."""
        last = self.standing()[-1]
        if self.cursor < len(self.points) - 1:
            self.futures.append((self.begins, [point for point in self.points if point]))
            self.begins = len(self.standing())
        point = None
        if word in ("issued", "finished"):
            count = int(rest[-1]) if word == "issued" else 0
            serial = int(self.looks.ask("line").split(" ")[3]) if serial is None else serial
            point = self.point(last._replace(total=last.total + count), serial)
            if count and before:
                point = self.with_service(point, before, rest[0], count)
            self.all.append(point)
        self.points[self.cursor + 1:] = [point]
        self.cursor += 1

    def point(self, last, serial):
        """What is after a step that sent nothing."""
        tree = tree_of(self.looks.ask(f"show tree {self.group}"))
        vtimes = vtimes_of(self.looks, [(self.group, name) for name in classes_of(tree)]) if tree else {}
        return last._replace(serial=serial, served=None, tree=tree, vtimes={name: vtime for (_, name), vtime in vtimes.items()})

    def with_service(self, point, before, tag, count):
        """A point, with the sectors of one request given to whose it was, and to those who were entitled to them."""
        flight = next(item.split(":") for item in self.looks.ask("show flight").split(" ")[1:] if item.startswith(f"{tag}:"))
        seat = int(flight[2])
        clients = {at: Client(at, queue.session) for at, queue in before.queues.items()}
        for at, client in clients.items():
            self.groups[client] = before.queues[at].group
            for entity in before.path(at) if at in before.parents else []:
                self.weights[client if entity == at else entity][before.member(entity).weight] = None
        # Nobody waits for a request that the device gave back: it was paid for when it was first sent.
        shares = {seat: 1.0} if before.returned else shares_of(before)
        known = {client: point.sent.get(client, 0) for client in clients.values()}
        sent = {**point.sent, **known, clients[seat]: known[clients[seat]] + count}
        due = {client: point.entitled.get(client, 0.0) + count * shares.get(at, 0.0) for at, client in clients.items()}
        entitled = {**point.entitled, **due}
        return point._replace(sent=sent, entitled=entitled, served=clients[seat])


def answer_of(looks, step):
    """The first word of the answer that a step had, and the others as far as they are known behind it: those of what it has sent."""
    if step.line == "dispatch":
        for item in looks.ask("show flight").split(" ")[1:]:
            tag, issue, _, operation, sectors, _ = item.split(":")
            if issue == str(step.serial):
                return "issued", [tag, issue, operation, *sectors.split("+")]
    return ("finished" if step.line.startswith("finish ") else ""), []


def shares_of(machine):
    """What share each seat is entitled to of what is sent next: of each group those who have something to send share by their weights, the
    members of the first class alone; and under `none` all alike."""
    if machine.scheduler == "none":
        waiting = [seat for seat, queue in machine.queues.items() if queue.requests]
        return dict.fromkeys(waiting, 1 / len(waiting)) if waiting else {}
    found = {}
    share_out(machine, ROOT, 1.0, found)
    return found


def share_out(machine, group, share, found):
    """Gives the share of a group to its members."""
    busy = [it for it in machine.members[group].values() if it.state != "idle"]
    first = next((name for name in grammar.CLASSES if any(it.class_name == name for it in busy)), None)
    chosen = [it for it in busy if it.class_name == first]
    whole = sum(it.weight for it in chosen)
    for it in chosen:
        if it.entity < OF_GROUPS:
            found[it.entity] = share * it.weight / whole
        else:
            share_out(machine, it.entity - OF_GROUPS, share * it.weight / whole, found)
