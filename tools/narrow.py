"""The machine as a picture for a terminal of 80 columns and 24 rows: a row for each client and each group, and at its end the queue in
service.

Times are in sectors by weight. Those of a group that would look the same and are not are whole. What is not as it was in the picture before
has a mark. If there are more rows than a terminal has, those are left out that have not changed and are not in service.
"""

import collections
import textwrap

from grammar import CLASSES
from reasons import Looks, look
from shown import BEST_EFFORT, COLUMNS, INDENT, OF_GROUPS, ROOT, aligned, by_weight, name_of

# A picture has at most so many lines; the prompt stands below it, and above it the line that was asked and its answer.
LINES = 21
MARK, NO_MARK = "* ", "  "
HEAD = ["weight", "budget", "S", "F", "V", "queued", "sent", "done"]

# What a row is of; its words and its numbers; and whether it is always in the picture, as it is in service.
Row = collections.namedtuple("Row", "of words numbers is_serving")


class Narrow:
    """Makes pictures, each of which is compared with the one before."""

    def __init__(self, host):
        self.looks = Looks(host)
        self.host = host
        self.before = {}

    def picture(self):
        """The lines of a picture, each with whether it has changed and whether it is in service."""
        machine = look(self.host)
        said = self.looks.ask("show host").split(" ")
        outboxes = self.looks.ask_all([f"show outbox {seat}" for seat in machine.queues]) if machine.queues else []
        done = {seat: len(answer.split(" ")) - 2 for seat, answer in zip(machine.queues, outboxes)}
        rows = [*rows_of(machine, done)]
        now = {row.of: (row.words, row.numbers) for row in rows}
        changed = {of for of, text in now.items() if self.before and self.before.get(of) != text}
        self.before = now
        table = [(["", "", ""], HEAD), *((row.words, row.numbers) for row in rows)]
        first, *texts = aligned(table)
        if max(map(len, [first, *texts])) > COLUMNS - len(MARK):
            # No column of classes is needed where all are best effort, and there is less room between the columns.
            first, *texts = aligned([(words if any(row.words[1] for row in rows) else words[::2], numbers) for words, numbers in table], " ")
        lines = [(f"{said[1]}, {said[2]}, {said[3]}; {said[5]} of {said[6]} steps stand, last serial {said[7]}", False, False),
                 (NO_MARK + first, False, False)]
        kept = fitting([(row, text, row.of in changed) for row, text in zip(rows, texts)], LINES - len(lines) - 4)
        lines += [((MARK if is_changed else NO_MARK) + text, is_changed, row.is_serving) for row, text, is_changed in kept]
        if left := len(rows) - len(kept):
            lines.append((f"{NO_MARK}{left} rows are left out", False, False))
        return [*lines, *((text, False, False) for text in of_requests(machine)), (of_service(machine), False, True)]


def fitting(rows, most):
    """As many rows as there is room for, first of all those that are in service and those that have changed."""
    wanted = sorted(range(len(rows)), key=lambda at: (not rows[at][0].is_serving, not rows[at][2], at))[:most]
    return [rows[at] for at in sorted(wanted)]


def rows_of(machine, done):
    """The rows of all groups and clients; under `none` of clients alone."""
    if machine.scheduler == "none":
        for seat in machine.queues:
            yield Row(seat, [name_of(seat), "", ""], ["", "", "", "", "", *counts_of(machine, seat, done)], False)
        return
    yield from rows_of_group(machine, done, ROOT, "")


def rows_of_group(machine, done, group, indent):
    """The rows of a group: its virtual times, and its members with all that is in them."""
    told = times_in(machine, group)
    vtimes = vtimes_in(machine, group)
    if group == ROOT:
        yield Row("root", [name_of(OF_GROUPS + ROOT), "", ""], ["", "", "", "", told(vtimes[BEST_EFFORT]), "", "", ""], False)
    for name, vtime in vtimes.items():
        if name != BEST_EFFORT:
            yield Row((group, name), [f"{indent}{INDENT}V", name, ""], ["", "", "", "", told(vtime), "", "", ""], False)
    for it in machine.members[group].values():
        is_group = it.entity >= OF_GROUPS
        weight = f"{it.weight}" if it.weight == it.pending else f"{it.weight}->{it.pending}"
        inner = it.entity - OF_GROUPS
        vtime = times_in(machine, inner)(machine.vtimes[inner, BEST_EFFORT]) if is_group else ""
        yield Row(it.entity, [f"{indent}{INDENT}{name_of(it.entity)}", "" if it.class_name == BEST_EFFORT else it.class_name, it.state],
                  [weight, str(machine.budgets[it.entity]), told(it.start), told(it.finish), vtime,
                   *(["", "", ""] if is_group else counts_of(machine, it.entity, done))], it.state == "serving")
        if is_group:
            yield from rows_of_group(machine, done, inner, indent + INDENT)


def counts_of(machine, seat, done):
    """How many requests of a seat are queued and at the device, and how many of its bios are done."""
    return [str(len(machine.queues[seat].requests)), str(sum(of == seat for of, _ in machine.flight.values())), str(done[seat])]


def vtimes_in(machine, group):
    """The virtual times of a group by their class."""
    return {name: machine.vtimes[group, name] for name in CLASSES if (group, name) in machine.vtimes}


def times_in(machine, group):
    """What tells the virtual times in a group: by weight, or whole if another one looks the same by weight."""
    texts = collections.defaultdict(set)
    for vtime in [*vtimes_in(machine, group).values(), *(time for it in machine.members[group].values() for time in (it.start, it.finish))]:
        texts[by_weight(vtime)].add(vtime)
    return lambda vtime: by_weight(vtime) if len(texts[by_weight(vtime)]) == 1 else str(vtime)


def of_requests(machine):
    """The dispatch list and what is in flight, a line each."""
    def line(name, items):
        return textwrap.shorten(f"{name}: {', '.join(items) or 'none'}", COLUMNS, placeholder=" ..")

    def text_of(seat, request):
        return f"seat {seat} {request.operation} {request.start}+{request.count}"

    yield line("dispatch list", [text_of(*item) for item in machine.returned])
    yield line("in flight", [f"tag {tag} {text_of(*item)}" for tag, item in machine.flight.items()])


def of_service(machine):
    """Who is in service, how much of the budget is used, and what is next."""
    if machine.scheduler == "none":
        return f"round robin: seat {machine.last_seat}"
    if machine.service is None:
        return "in service: none"
    seat, sent, age = machine.service
    following = machine.next_of(seat)
    return (f"in service: seat {seat}, {sent} of {machine.budgets[seat]} sectors sent, age {age}; next {following.operation} "
            f"{following.start}+{following.count}")
