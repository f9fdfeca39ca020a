"""What the program's `show` lines say: the tree of a group taken apart, and the whole machine as a picture in text."""

import collections
import textwrap

from grammar import CLASSES

# A picture has at most so many columns, where its numbers allow it.
COLUMNS = 80
INDENT = "  "
GAP = "  "
SEATS = 16
# The entity of a group has its number and this one; those below are the sessions at the seats.
OF_GROUPS = 16
ROOT = 0
# Virtual times divided by 2 to the power of this are in sectors by weight.
SCALE = 22
# The class of a member whose item names none.
BEST_EFFORT = "be"

# The virtual time of a tree is that of best effort.
Tree = collections.namedtuple("Tree", "parent vtime members")
Member = collections.namedtuple("Member", "entity state start finish weight pending class_name")


def tree_of(answer):
    """What a `show tree` says; None where no such group stands."""
    _, _, parent, *rest = answer.split(" ")
    if parent == "none":
        return None
    vtime, *items = rest
    return Tree(parent, int(vtime), [member_of(*item.split(":")) for item in items])


def member_of(entity, state, start, finish, weight, pending, *more):
    """A member by the fields of its item. One of a later program may have more of them."""
    class_name = next((word for word in more if word in CLASSES), BEST_EFFORT)
    return Member(int(entity), state, *map(int, (start, finish, weight, pending)), class_name)


def classes_of(tree):
    """The classes of the members of a tree, but for best effort."""
    found = {it.class_name for it in tree.members} - {BEST_EFFORT}
    return [name for name in CLASSES if name in found]


def vtimes_of(host, places):
    """The virtual times of some places, each of which is a group and a class."""
    answers = host.ask_all([f"vtime {group} {name}" for group, name in places])
    return {place: int(answer.split(" ")[-1]) for place, answer in zip(places, answers)}


def budgets_of(host, entities):
    """The budgets of some entities, in sectors."""
    answers = host.ask_all([f"entity {entity}" for entity in entities]) if entities else []
    return {entity: int(answer.split(" ")[6]) for entity, answer in zip(entities, answers)}


def name_of(entity):
    """What an entity is."""
    return f"seat {entity}" if entity < OF_GROUPS else f"group {entity - OF_GROUPS}"


def by_weight(vtime):
    """A virtual time in sectors by weight, to three places."""
    thousandths = (vtime * 1000 + 2**(SCALE - 1)) >> SCALE
    return f"{thousandths // 1000}.{thousandths % 1000:03}"


# The picture.

def picture(host):
    """The lines of a picture of the whole machine. The program says all that is in it."""
    machine, service, requeued, flight, *seats = host.ask_all(
        ["show host", "show service", "show requeued", "show flight", *(f"show seat {seat}" for seat in range(SEATS))])
    return [*of_host(machine, service), *of_seats(host, seats),
            *of_list("dispatch list", map(given_back, requeued.split(" ")[1:])),
            *of_list("in flight", map(in_flight, flight.split(" ")[1:])), *of_groups(host)]


def wrapped(text, indent=""):
    """A text in lines, the first of which is indented so far."""
    return textwrap.wrap(text, COLUMNS, initial_indent=indent, subsequent_indent=indent + INDENT, break_long_words=False,
                         break_on_hyphens=False)


def of_host(machine, service):
    """What a `show host` and a `show service` say."""
    _, scheduler, run, hold, last, cursor, length, serial, journal = machine.split(" ")
    _, seat, *rest = service.split(" ")
    served = "none"
    if rest:
        sent, age, budget = rest
        served = f"seat {seat}, {sent} of {budget} sectors sent, age {age}"
    return [*wrapped(f"{scheduler}, {run}, {hold}; {cursor} of {length} steps stand, last serial {serial}, {journal} calls"),
            *wrapped(f"in service: {served}; round robin: seat {last}")]


def of_seats(host, answers):
    """What `show seat` says of each seat, and what is queued and completed there."""
    taken = [words[1:] for words in (answer.split(" ") for answer in answers) if words[2] != "none"]
    if not taken:
        yield "no seat is taken"
    for seat, session, group, prio, owed, head, word in taken:
        yield from wrapped(f"seat {seat}: session {session}, group {group}, priority {prio}, owed {owed}, head {head}, {word}")
        queue, outbox = host.ask_all([f"show queue {seat}", f"show outbox {seat}"])
        for name, items in [("queue", map(request_of, queue.split(" ")[2:])),
                            ("outbox", (item.replace(":", " ") for item in outbox.split(" ")[2:]))]:
            if text := ", ".join(items):
                yield from wrapped(f"{name}: {text}", INDENT)


def of_list(name, items):
    """A list of requests, each in a line of its own."""
    lines = [line for item in items for line in wrapped(item, INDENT)]
    return [f"{name}:", *lines] if lines else [f"{name}: none"]


def request_of(item):
    """A request as `OP:START+COUNT:BIO,BIO`."""
    operation, sectors, bios = item.split(":")
    return f"{operation} {sectors} bio{'s' * (',' in bios)} {bios.replace(',', ' ')}"


def given_back(item):
    seat, request = item.split(":", 1)
    return f"seat {seat} {request_of(request)}"


def in_flight(item):
    tag, issue, rest = item.split(":", 2)
    return f"tag {tag}, issue {issue}: {given_back(rest)}"


# A row of the picture of groups: a name, a class and a state; a weight; a budget; the times; and the times by weight.
Row = collections.namedtuple("Row", "words weight budget times by_weight")


def trees(host):
    """The tree of each group by its number, from the root down, and its virtual times by its number and their class: that of best
    effort, and all three if a member is of another class."""
    found, numbers = {}, [ROOT]
    while numbers:
        level = [tree_of(answer) for answer in host.ask_all([f"show tree {number}" for number in numbers])]
        found.update(zip(numbers, level))
        numbers = [it.entity - OF_GROUPS for tree in level if tree for it in tree.members if it.entity >= OF_GROUPS]
    others = [(group, name) for group, tree in found.items() if classes_of(tree) for name in CLASSES if name != BEST_EFFORT]
    return found, {**{(group, BEST_EFFORT): tree.vtime for group, tree in found.items()}, **vtimes_of(host, others)}


def of_groups(host):
    """The groups with their members, their budgets and their virtual times, and with classes if one is not best effort. What is too wide
    for one line has its budget and its times by weight in a second one."""
    found, vtimes = trees(host)
    budgets = budgets_of(host, [it.entity for tree in found.values() for it in tree.members])
    rows = [Row([f"group {ROOT}", "class", "state"], "weight", "budget", ["start", "finish"], [f"S/2^{SCALE}", f"F/2^{SCALE}"]),
            *rows_of(found, vtimes, budgets, ROOT, INDENT)]
    if not any(map(classes_of, found.values())):
        rows = [row._replace(words=[row.words[0], row.words[2]]) for row in rows]
    lines = aligned([(row.words, [row.weight, row.budget, *row.times, *row.by_weight]) for row in rows])
    if max(map(len, lines)) > COLUMNS:
        lines = aligned([part for row in rows for part in ((row.words, [row.weight, *row.times]),
                                                           ([""] * len(row.words), [row.budget, *row.by_weight]))])
    return lines


def rows_of(found, vtimes, budgets, group, indent):
    """The rows of a group: its virtual times, and its members with all that is in them."""
    for name in CLASSES:
        if (vtime := vtimes.get((group, name))) is not None:
            yield Row([f"{indent}V", name, ""], "", "", [str(vtime), ""], [by_weight(vtime), ""])
    for it in found[group].members:
        weight = f"{it.weight}" if it.weight == it.pending else f"{it.weight}->{it.pending}"
        yield Row([f"{indent}{name_of(it.entity)}", it.class_name, it.state], weight, str(budgets[it.entity]),
                  [str(it.start), str(it.finish)], [by_weight(it.start), by_weight(it.finish)])
        if it.entity >= OF_GROUPS:
            yield from rows_of(found, vtimes, budgets, it.entity - OF_GROUPS, indent + INDENT)


def aligned(rows, gap=GAP):
    """Rows of words and numbers in columns as wide as the widest of them. Words begin together, and numbers end together."""
    widths = [max(map(len, column)) for column in zip(*([*words, *numbers] for words, numbers in rows))]
    return [gap.join([*map(str.ljust, words, widths), *map(str.rjust, numbers, widths[len(words):])]).rstrip() for words, numbers in rows]
