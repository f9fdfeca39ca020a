"""Why the host sends just this request: what a dispatch must do by the rules of docs/MODEL.md, worked out from looks that are asked before
it, in words; and where the host did otherwise.

Nothing of a dispatch is taken from the host's own answer. The looks before it give a machine, the rules give what the machine is after it,
and the looks after it are compared with that: the request, the queue in service, budgets, weights and all virtual times.
"""

import collections
import copy
import dataclasses
import re

import grammar
from host import BadLine, Ended
from shown import BEST_EFFORT, OF_GROUPS, ROOT, SCALE, SEATS, budgets_of, by_weight, name_of, trees

# No virtual time is greater.
MOST_VTIME = 2**62
LEAST_BUDGET = 256
# By how much the budget grows of a queue that expires for exhaustion or for time.
GROWS = {"exhaustion": 4, "time": 2}
# The options of sim on which a dispatch depends, with what they are if they are not given. No look shows them.
DEFAULTS = {"--max-budget": 4096, "--timeout": 8, "--tags": 4, "--history": 65536}
HELD, NOTHING_QUEUED, NO_TAG, VTIME_FULL, HISTORY_FULL, NO_MEMORY = (
    "notyet 41", "refused 17", "refused 18", "refused 27", "refused 33", "refused 34")

Request = collections.namedtuple("Request", "operation start count")
Service = collections.namedtuple("Service", "seat sent age")
# Why a dispatch does what it does, the answer that it must get, and whose request is sent.
Reason = collections.namedtuple("Reason", "text answer seat")
# A line's answer; of a dispatch also why, and where the host did otherwise.
Asked = collections.namedtuple("Asked", "answer why faults")


class Full(Exception):
    """A virtual time would be too great."""


class Contradiction(Exception):
    """What the looks say does not go together."""


@dataclasses.dataclass
class Queue:
    """What a session has to send, and the sector from which it goes on."""

    session: int
    group: int
    head: int
    requests: list


@dataclasses.dataclass
class Machine:
    """What a dispatch depends on."""

    scheduler: str
    is_held: bool
    last_seat: int
    serial: int
    calls: int
    service: Service = None
    # What the device gave back, and what is in flight by its tag: each a seat and a request.
    returned: list = dataclasses.field(default_factory=list)
    flight: dict = dataclasses.field(default_factory=dict)
    queues: dict = dataclasses.field(default_factory=dict)
    # The members of each group by their entities; the virtual times by group and class; the group of each entity; and the budgets.
    members: dict = dataclasses.field(default_factory=dict)
    vtimes: dict = dataclasses.field(default_factory=dict)
    parents: dict = dataclasses.field(default_factory=dict)
    budgets: dict = dataclasses.field(default_factory=dict)

    def path(self, seat):
        """The entities from a session up to the root, which is none."""
        entity = seat
        while entity is not None:
            self.member(entity)
            yield entity
            group = self.parents[entity]
            entity = None if group == ROOT else OF_GROUPS + group

    def member(self, entity):
        if entity not in self.parents:
            raise Contradiction(f"{name_of(entity)} is served, and no group has it")
        return self.members[self.parents[entity]][entity]

    def put(self, entity, **given):
        """Changes what a group knows of an entity."""
        self.members[self.parents[entity]][entity] = self.member(entity)._replace(**given)

    def active(self, group, class_name=None):
        """The members of a group, or of a class in it, that wait."""
        return [it for it in self.members[group].values() if it.state == "active" and class_name in (None, it.class_name)]

    def next_of(self, seat):
        """The request of a queue that is sent next: the first from its head on, else the first of all."""
        queue = self.queues.get(seat)
        if queue is None or not queue.requests:
            raise Contradiction(f"seat {seat} is served, and no request is queued there")
        return min(queue.requests, key=lambda it: (it.start < queue.head, it.start))

    def flat(self):
        """All that must be as the rules say, by name."""
        return {
            "the scheduler": self.scheduler, "whether it is held": self.is_held, "the last serial": self.serial,
            "the count of calls": self.calls, "the queue in service": self.service, "the dispatch list": self.returned,
            "what is in flight": self.flight,
            "the round robin": self.last_seat,
            **{f"the queue of seat {seat}": queue for seat, queue in self.queues.items()},
            **{name_of(it.entity): f"{it.state} with S {it.start}, F {it.finish} and weight {told_weight(it)}"
               for of in self.members.values() for it in of.values()},
            **{f"V of class {name} in group {group}": vtime for (group, name), vtime in self.vtimes.items()},
            **{f"the budget of {name_of(entity)}": budget for entity, budget in self.budgets.items()},
        }


def told_weight(member):
    """The weight in effect, and the pending one if that is another."""
    return f"{member.weight}" if member.weight == member.pending else f"{member.weight}->{member.pending}"


# The looks.

REQUEST = r"(fetch|store|discard):\d+\+\d+:\d+(,\d+)*"
# The answers to looks, by their first word. A queue, an outbox, an entity is asked for where there is one. A later program may have more in
# an item of a tree.
ANSWERS = {
    "host": r"host (bfq|none) (running|frozen) (free|held)( \d+){5}",
    "service": r"service (none|\d+( \d+){3})",
    "requeued": rf"requeued( \d+:{REQUEST})*",
    "flight": rf"flight( \d+:\d+:\d+:{REQUEST})*",
    "seat": r"seat \d+ (none|\d+( \d+){4} \w+)",
    "queue": rf"queue \d+( {REQUEST})*",
    "outbox": r"outbox \d+( \d+:(written|read|discarded|short|fault))*",
    "tree": r"tree \d+ (none|(-|\d+) \d+( \d+:(idle|active|serving):\d+:\d+:[1-9]\d*:[1-9]\d*(:[^ :]+)*)*)",
    "vtime": r"vtime \d+ (rt|be|idle) \d+",
    "entity": r"entity \d+ (idle|active|serving)( \d+){5,}",
}


class Looks:
    """A host that is asked looks. One that it has not, or that is told otherwise, is told with what came."""

    def __init__(self, host):
        self.host = host

    def ask(self, line):
        """The answer to a look."""
        return self.ask_all([line])[0]

    def ask_all(self, lines):
        """The answers to looks, each of which begins with the word of its look."""
        try:
            answers = self.host.ask_all(lines)
        except BadLine as fault:
            raise Ended(f"{self.host.program} lacks a look: it was asked {fault.line!r}, and {fault.answer!r} came") from None
        for line, answer in zip(lines, answers):
            asked = line.removeprefix("show ")
            if not f"{answer} ".startswith(f"{asked} ") or not re.fullmatch(ANSWERS.get(asked.split(" ")[0], ".*"), answer, re.ASCII):
                raise Ended(f"{self.host.program} lacks a look: it was asked {line!r}, and {answer!r} came")
        return answers


def request_of(operation, sectors, _):
    """A request by the parts of its item, of which its bios are the last."""
    start, count = sectors.split("+")
    return Request(operation, int(start), int(count))


def of_seat(seat, *request):
    """Whose request an item is, and the request."""
    return int(seat), request_of(*request)


def look(host):
    """The machine as its looks have it."""
    looks = Looks(host)
    said, served, returned, flight, *seats = (answer.split(" ")[1:] for answer in looks.ask_all(
        ["show host", "show service", "show requeued", "show flight", *(f"show seat {seat}" for seat in range(SEATS))]))
    scheduler, _, hold, last, _, _, serial, calls = said
    found = Machine(scheduler, hold == "held", int(last), int(serial), int(calls))
    if served != ["none"]:
        found.service = Service(*map(int, served[:3]))
    found.returned = [of_seat(*item.split(":")) for item in returned]
    found.flight = {int(tag): of_seat(*rest) for tag, _, *rest in (item.split(":") for item in flight)}
    look_at_queues(looks, found, [words for words in seats if words[1] != "none"])
    if scheduler == "bfq":
        look_at_groups(looks, found)
    return found


def look_at_queues(looks, found, seats):
    """What the taken seats have to send."""
    answers = looks.ask_all([f"show queue {words[0]}" for words in seats]) if seats else []
    for (seat, session, group, _, _, head, _), answer in zip(seats, answers):
        requests = [request_of(*item.split(":")) for item in answer.split(" ")[2:]]
        found.queues[int(seat)] = Queue(int(session), int(group), int(head), requests)


def look_at_groups(looks, found):
    """What the groups know of their members."""
    of_groups, vtimes = trees(looks)
    found.members = {group: {it.entity: it for it in tree.members} for group, tree in of_groups.items()}
    found.vtimes = dict(vtimes)
    found.parents = {entity: group for group, members in found.members.items() for entity in members}
    found.budgets = budgets_of(looks, [*found.parents])


# The rules.

def delta(sectors, weight):
    """The virtual time that a service takes."""
    return (sectors << SCALE) // weight


def checked(vtime):
    """A virtual time that is made."""
    if vtime > MOST_VTIME:
        raise Full
    return vtime


def times(*vtimes):
    """What tells virtual times: by weight, and whole as well if another one looks the same by weight."""
    texts = collections.Counter(by_weight(vtime) for vtime in {*vtimes})
    return lambda vtime: by_weight(vtime) if texts[by_weight(vtime)] == 1 else f"{by_weight(vtime)} ({vtime})"


def listed(names):
    """Names in a row."""
    *others, last = names
    return f"{', '.join(others)} and {last}" if others else last


def text_of(request):
    return f"{request.operation} {request.start}+{request.count}"


class Choice:
    """A dispatch by the rules: it changes a machine, and says why."""

    def __init__(self, machine, limits):
        self.machine = machine
        self.limits = limits
        self.said = []

    def refusal(self):
        """The refusal that comes before any rule, and why; None if there is none."""
        machine, limits = self.machine, self.limits
        if machine.is_held:
            return HELD, "the host is held, so no step is taken"
        if not machine.returned and not any(queue.requests for queue in machine.queues.values()):
            return NOTHING_QUEUED, "no request waits to be sent"
        if len(machine.flight) >= limits["--tags"]:
            return NO_TAG, f"each of the {limits['--tags']} tags bears a request in flight"
        if machine.calls >= limits["--history"]:
            return HISTORY_FULL, f"the history has {machine.calls} calls, and there is room for {limits['--history']}"
        return None

    def reason(self):
        """The whole reason. It has no answer if the looks do not go together."""
        if refusal := self.refusal():
            return Reason(refusal[1], refusal[0], None)
        try:
            seat, request = self.sent()
        except Full:
            return Reason("; ".join([*self.said, "a virtual time would pass 2^62"]), VTIME_FULL, None)
        except Contradiction as fault:
            return Reason("; ".join([*self.said, str(fault)]), None, None)
        machine = self.machine
        tag = next(tag for tag in range(self.limits["--tags"]) if tag not in machine.flight)
        machine.flight = dict(sorted([*machine.flight.items(), (tag, (seat, request))]))
        machine.serial, machine.calls = machine.serial + 1, machine.calls + 1
        return Reason("; ".join(self.said), f"issued {tag} {machine.serial} {request.operation} {request.start} {request.count}", seat)

    def sent(self):
        """Whose request is sent, and which."""
        machine = self.machine
        if machine.returned:
            seat, request = machine.returned.pop(0)
            self.said.append(f"from the dispatch list, which goes first: seat {seat}, {text_of(request)}")
            return seat, request
        return self.by_turns() if machine.scheduler == "none" else self.by_budget()

    def by_turns(self):
        """The round robin."""
        machine = self.machine
        after = [(machine.last_seat + 1 + at) % SEATS for at in range(SEATS)]
        seat = next((seat for seat in after if seat in machine.queues and machine.queues[seat].requests), None)
        # Looks ask for these seats alone, so a machine that was read has one. One that was made otherwise may not.
        if seat is None:
            raise Contradiction(f"a request is queued, but at no seat from 0 to {SEATS - 1}")
        request = machine.queues[seat].requests.pop(0)
        self.said.append(f"by turns: after seat {machine.last_seat} the next with a request is seat {seat}; its earliest is "
                         f"{text_of(request)}")
        machine.last_seat = seat
        return seat, request

    def by_budget(self):
        """The rules of BFQ."""
        machine = self.machine
        if machine.service:
            machine.member(machine.service.seat)
            self.go_on_or_expire()
        if machine.service is None:
            self.select()
        seat = machine.service.seat
        queue, request = machine.queues[seat], machine.next_of(seat)
        how = f"from sector {queue.head} on" if request.start >= queue.head else f"as none starts at {queue.head} or after it"
        self.said.append(f"next is {text_of(request)}, {how}")
        self.charge(seat, request)
        queue.requests.remove(request)
        queue.head = request.start + request.count
        if not queue.requests:
            self.expire("emptying", f"seat {seat} is empty then, and expires for emptying")
        return seat, request

    def go_on_or_expire(self):
        """The queue in service, which may have had enough."""
        seat, sent, age = self.machine.service
        budget, count = self.machine.budgets[seat], self.machine.next_of(seat).count
        if age >= self.limits["--timeout"]:
            self.expire("time", f"seat {seat} expires for time: its age is {age} of {self.limits['--timeout']}")
        elif sent + count > budget:
            self.expire("exhaustion", f"seat {seat} expires for exhaustion: {sent} sectors sent and {count} next pass its budget of "
                                      f"{budget}")
        else:
            self.said.append(f"seat {seat} is in service and goes on: {sent} of {budget} sectors sent, {count} next, age {age} of "
                             f"{self.limits['--timeout']}")

    def expire(self, cause, text):
        """The queue in service is in service no more."""
        machine = self.machine
        seat, sent, _ = machine.service
        before = machine.budgets[seat]
        after = min(self.limits["--max-budget"], before * GROWS[cause]) if cause in GROWS else max(LEAST_BUDGET, sent)
        machine.budgets[seat] = after
        self.said.append(f"{text}, budget {before}{' stays' if before == after else f' -> {after}'}")
        for entity in machine.path(seat):
            member = machine.member(entity)
            left = checked(member.start + delta(sent, member.weight))
            told = f"{name_of(entity)}: F' = S {by_weight(member.start)} + {sent}/{member.weight} = {by_weight(left)}"
            has_more = machine.active(entity - OF_GROUPS) if entity >= OF_GROUPS else machine.queues[entity].requests
            if has_more:
                finish = checked(left + delta(machine.budgets[entity], member.pending))
                machine.put(entity, state="active", start=left, finish=finish, weight=member.pending)
                self.said.append(f"{told}, waits with F {by_weight(finish)}")
            else:
                machine.put(entity, state="idle", start=left, finish=left)
                self.said.append(f"{told}, idle")
        machine.service = None

    def select(self):
        """From the root down to a session."""
        group = ROOT
        while True:
            name = next((name for name in grammar.CLASSES if self.machine.active(group, name)), None)
            if name is None:
                raise Contradiction(f"nobody waits in group {group}, though a request is queued")
            entity = self.pick(group, name)
            self.machine.put(entity, state="serving")
            if entity < OF_GROUPS:
                self.machine.service = Service(entity, 0, 0)
                return
            group = entity - OF_GROUPS

    def pick(self, group, name):
        """One of a class in a group."""
        machine, waiting = self.machine, self.machine.active(group, name)
        before, least = machine.vtimes.get((group, name), 0), min(it.start for it in waiting)
        vtime = machine.vtimes[group, name] = max(before, least)
        eligible = sorted((it for it in waiting if it.start <= vtime), key=lambda it: (it.finish, it.entity))
        taken = eligible[0]
        told = times(before, vtime, *(it.finish if it.start <= vtime else it.start for it in waiting))
        of_class = f" class {name}" if self.has_classes(group) else ""
        texts = [f"group {group}{of_class}: V {told(vtime)}" if vtime == before else
                 f"group {group}{of_class}: V jumps from {told(before)} to {told(vtime)}, the least S"]
        texts.append("eligible " + ", ".join(f"{name_of(it.entity)} F {told(it.finish)}" for it in eligible))
        if late := [it for it in waiting if it.start > vtime]:
            texts.append("not eligible " + ", ".join(
                f"{name_of(it.entity)}, S {told(it.start)} is past V by {apart(it.start, vtime)}" for it in late))
        tied = [name_of(it.entity) for it in eligible[1:] if it.finish == taken.finish]
        why = f", of the same F as {listed(tied)} and the lower number" if tied else ", the least F" if eligible[1:] else ""
        self.said.append(f"{', '.join(texts)}: {name_of(taken.entity)} is taken{why}")
        return taken.entity

    def has_classes(self, group):
        """Whether not all of a group are best effort."""
        return any(it.class_name != BEST_EFFORT for it in self.machine.members[group].values())

    def charge(self, seat, request):
        """Service of so many sectors."""
        machine = self.machine
        machine.service = machine.service._replace(sent=machine.service.sent + request.count)
        for entity in machine.path(seat):
            place = machine.parents[entity], machine.member(entity).class_name
            if not (weights := self.sum_of(*place)):
                raise Contradiction(f"{name_of(entity)} is served, and no weight counts in group {place[0]}")
            machine.vtimes[place] = checked(machine.vtimes[place] + delta(request.count, weights))

    def sum_of(self, group, name):
        """The sum of weights of a class in a group."""
        vtime = self.machine.vtimes[group, name]
        return sum(it.weight for it in self.machine.members[group].values()
                   if it.class_name == name and (it.state != "idle" or it.finish > vtime))


def apart(later, earlier):
    """How far two times are apart: by weight, or whole if that is less than it tells."""
    text = by_weight(later - earlier)
    return text if text != by_weight(0) else f"{later - earlier}/2^{SCALE}"


# The choices of a run.

def limits_of(options):
    """The numbers on which a dispatch depends, by the words that sim is given."""
    words = [part for word in options for part in word.split("=", 1)]
    given = {name: value for name, value in zip(words, words[1:]) if name in DEFAULTS and value.isascii() and value.isdigit()}
    return {name: int(given.get(name, default)) for name, default in DEFAULTS.items()}


class Plain:
    """A host of which nothing but answers is asked, so that any program will do that has these."""

    # No choice is worked out.
    others = 0

    def __init__(self, host):
        self.host = host

    def ask(self, line):
        """A line's answer, with no reason."""
        return Asked(self.host.ask(line), None, [])


class Reasons:
    """The reasons of a run's choices, each of which is compared with what the host does."""

    def __init__(self, host, options):
        self.host = host
        self.limits = limits_of(options)
        self.choices = 0
        # How many of them the host made otherwise, and for how many it found no memory.
        self.others = self.without_memory = 0

    def ask(self, line):
        """Asks a line. If it is a dispatch it is worked out before, and compared after."""
        if line != "dispatch":
            return Asked(self.host.ask(line), None, [])
        before = look(self.host)
        after = copy.deepcopy(before)
        reason = Choice(after, self.limits).reason()
        answer = self.host.ask(line)
        # There may be no memory for what would else be done.
        is_no_memory = answer == NO_MEMORY and reason.answer not in (HELD, NOTHING_QUEUED, NO_TAG, HISTORY_FULL)
        wanted = answer if is_no_memory else reason.answer
        faults = [*self.differences(answer, wanted, before if grammar.is_refusal(answer) else after)]
        self.choices += 1
        self.without_memory += is_no_memory
        self.others += bool(faults)
        return Asked(answer, f"{reason.text}; no memory was found, which no look tells" if is_no_memory else reason.text, faults)

    def differences(self, answer, wanted, machine):
        """Where the host did otherwise than the rules have it: its answer, and what the machine is after it. A refusal changes nothing."""
        if wanted is None:
            yield "its looks do not go together"
            return
        if answer != wanted:
            yield f"the answer is {grammar.told(answer)} and not {grammar.told(wanted)}"
            # After another step than the wanted one nothing can be as wanted.
            if not grammar.is_refusal(answer):
                return
        of_rules, found = machine.flat(), look(self.host).flat()
        for what in sorted({*of_rules} | {*found}):
            if of_rules.get(what) != found.get(what):
                yield f"{what} is {found.get(what)} and not {of_rules.get(what)}"

    def __str__(self):
        without = f", {self.without_memory} without memory" if self.without_memory else ""
        return f"{self.choices} choices, {self.others} otherwise than worked out{without}"


def lines_of(asked):
    """What is told of a choice: a line of its reason, and loudly where the host did otherwise."""
    if asked.why is not None:
        yield f"why: {asked.why}"
    for fault in asked.faults:
        yield f"!!! THE HOST DID OTHERWISE: {fault}"


def choice_of(line, asked):
    """The lines of a dispatch with its answer and its reason; none of another line."""
    return [] if asked.why is None else [f"{line} -> {grammar.told(asked.answer)}", *(f"    {row}" for row in lines_of(asked))]
