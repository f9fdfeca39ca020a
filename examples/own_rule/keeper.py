"""The keeper of docs/MODEL.md over any machine, and the lines, queries and looks of docs/FORMATS.md.

The machine is what the line's first `cursor` steps make. So an undo makes a new one and takes these steps again, which is plain and slow.
"""

import argparse
import os
import sys
import zlib

from rules import ROOT, No, unless

from grammar import CLASSES, MOST_LINES, NO_STEPS, is_silent, why_bad  # rules.py has made the path to it

SECTOR, MOST_STORED, BAD_LINE = 512, 65_536, 2
# The options of sim, each with what stands for it if it is not given.
OPTIONS = {"scheduler": "bfq", "nr-requests": 64, "tags": 4, "first-budget": 1024, "max-budget": 4096, "timeout": 8, "history": 65_536,
           "first-vtime": 0, "sectors": 1024, "image": ""}


def told(numbers, sign=":"):
    return sign.join(map(str, numbers))


class Keeper:
    """A machine with its past: the line of accepted steps, of which so many stand, and how many calls were accepted."""

    def __init__(self, make_machine, limits):
        self.make_machine, self.limits = make_machine, limits
        self.line, self.cursor, self.is_held, self.last_serial, self.journal = [], 0, False, 0, 0
        self.machine = make_machine(limits)

    def answer(self, line):
        """The answer to a line of a script."""
        word, *words = [int(word) if word.isdigit() else word for word in line.split(" ")]
        try:
            if word == "show":
                return getattr(self, f"show_{words[0]}")(*words[1:])
            if word in NO_STEPS:
                return getattr(self, f"{word}_")(*words)
            unless(not self.is_held, 41)
            return self.do(*self.work(*words) if word == "work" else (word, *words))
        except No as reason:
            number = reason.args[0]
            return f"refused {number}" if number < 41 else f"notyet {number}"

    def accept(self):
        """A call is accepted if its own tests are passed and there is room for it."""
        unless(self.journal < self.limits.history, 33)

    def do(self, *step):
        """A step. One that is refused for a time leaves nothing behind."""
        serial = self.last_serial + 1
        self.machine.serial = serial
        made = getattr(self.machine, step[0])(*step[1:])
        next(made)
        self.accept()
        try:
            answer = end_of(made)
        except No:
            self.fold()
            raise
        self.line[self.cursor:] = [(serial, step)]
        self.cursor, self.last_serial, self.journal = self.cursor + 1, serial, self.journal + 1
        return answer

    def fold(self):
        """The machine of the steps that stand."""
        self.machine = self.make_machine(self.limits)
        for serial, (word, *words) in self.line[:self.cursor]:
            self.machine.serial = serial
            made = getattr(self.machine, word)(*words)
            next(made)
            end_of(made)

    def work(self, tag, issue):
        """What the device does with a request in flight, as a step."""
        found, request = self.machine.flight.get(tag, (None, None))
        if found != issue or request.operation != "fetch":
            return "finish", tag, issue, "stored"
        if not self.limits.image:
            return "finish", tag, issue, "fill", 0
        with open(self.limits.image, "rb") as file:
            file.seek(SECTOR * request.start)
            data = file.read(SECTOR * request.count)
        if len(data) < SECTOR * request.count:
            return "finish", tag, issue, "short"
        return "finish", tag, issue, "fill", [data[at:at + SECTOR] for at in range(0, len(data), SECTOR)]

    # The calls of the keeper.

    def hold_(self):
        unless(not self.is_held, 29)
        self.accept()
        self.is_held = True
        return self.moved()

    def release_(self):
        unless(self.is_held, 28)
        self.accept()
        self.is_held = False
        self.journal += 1
        return "done"

    def undo_(self, count):
        return self.move(count, -count, 31)

    def redo_(self, count):
        return self.move(count, count, 32)

    def move(self, count, by, number):
        unless(self.is_held, 28)
        unless(count, 30)
        unless(0 <= self.cursor + by <= len(self.line), number)
        self.accept()
        self.cursor += by
        self.fold()
        return self.moved()

    def moved(self):
        self.journal += 1
        return f"moved {self.cursor} {len(self.line)}"

    # Queries.

    def line_(self):
        return f"line {self.cursor} {len(self.line)} {self.last_serial}"

    def sector_(self, number):
        block = self.machine.overlay.get(number)
        state = f"overlay {spelled(block)}" if block else "base"
        return f"sector {number} {state if number < self.limits.sectors else 'none'}"

    def queue_(self, number):
        if number not in self.machine.seats:
            return "queue none"
        return " ".join(["queue", *(f"{it.start}+{it.count}x{len(it.bios)}" for it in self.machine.seats[number].queue)])

    def vtime_(self, group, name=None):
        vtime = self.machine.vtimes[group, name or "be"] if group in self.machine.parents else "none"
        return f"vtime {group} {name} {vtime}" if name else f"vtime {group} {vtime}"

    def class_(self, entity):
        return f"class {entity} {self.machine.members[entity].class_name if entity in self.machine.members else 'none'}"

    def entity_(self, entity):
        it = self.machine.members.get(entity)
        if it is None:
            return f"entity {entity} none"
        sent = self.machine.service.sent if it.state == "serving" else 0
        return f"entity {entity} {it.state} {it.start} {it.finish} {it.weight} {it.budget} {sent}"

    # Looks.

    def show_seat(self, number):
        seat = self.machine.seats.get(number)
        if seat is None:
            return f"seat {number} none"
        place = "leaving" if seat.is_leaving else "here"
        group = self.machine.members[number].group
        return f"seat {number} {seat.session} {group} {seat.prio} {self.machine.owed(number)} {seat.head} {place}"

    def show_outbox(self, number):
        seat = self.machine.seats.get(number)
        items = ["none"] if seat is None else [f"{bio.serial}:{kind_of(result)}" for bio, result in seat.outbox]
        return " ".join([f"outbox {number}", *items])

    def show_queue(self, number):
        seat = self.machine.seats.get(number)
        return " ".join([f"queue {number}", *(["none"] if seat is None else map(text_of, seat.queue))])

    def show_requeued(self):
        return " ".join(["requeued", *(f"{it.seat}:{text_of(it)}" for it in self.machine.returned)])

    def show_flight(self):
        return " ".join(["flight", *(f"{tag}:{issue}:{it.seat}:{text_of(it)}" for tag, (issue, it) in sorted(self.machine.flight.items()))])

    def show_service(self):
        it = self.machine.service
        return f"service {it.seat} {it.sent} {it.age} {self.machine.members[it.seat].budget}" if it else "service none"

    def show_tree(self, group):
        if group not in self.machine.parents:
            return f"tree {group} none"
        members = sorted((it for it in self.machine.members.values() if it.group == group), key=lambda it: it.entity)
        parent = "-" if group == ROOT else self.machine.parents[group]
        return " ".join([f"tree {group} {parent} {self.machine.vtimes[group, 'be']}", *(
            told([it.entity, it.state, it.start, it.finish, it.weight, it.pending, *[it.class_name] * (it.class_name != "be")])
            for it in members)])

    def show_host(self):
        it = self.machine
        return (f"host {it.scheduler} {'frozen' if it.is_frozen else 'running'} {'held' if self.is_held else 'free'} {it.last_seat} "
                f"{self.cursor} {len(self.line)} {self.last_serial} {self.journal}")

    def show_state(self):
        """The machine in one line without names."""
        it = self.machine
        slot = f"{it.service.seat} {it.service.sent} {it.service.age}" if it.service else "none"
        return " ".join([
            f"state {it.scheduler} {'frozen' if it.is_frozen else 'running'} {it.last_seat}", *map(self.seat_of_state, sorted(it.seats)),
            "requeued", *(f"{request.seat}:{nameless(request)}" for request in it.returned),
            "flight", *sorted(f"{request.seat}:{nameless(request)}" for _, request in it.flight.values()),
            f"service {slot}", *map(self.tree_of_state, sorted(it.parents))])

    def seat_of_state(self, number):
        """A seat with its queue and its outbox, without names."""
        seat = self.machine.seats[number]
        place, group = "leaving" if seat.is_leaving else "here", self.machine.members[number].group
        return " ".join([f"seat {number} {group} {seat.prio} {self.machine.owed(number)} {seat.head} {place}",
                         "queue", *map(nameless, seat.queue), "outbox", *(f"{bio_of_state(bio)}:{kind_of(result)}{sum_of(read_in(result))}"
                                                                          for bio, result in seat.outbox)])

    def tree_of_state(self, group):
        """A group with its times and members."""
        times = [self.machine.vtimes[group, name] for name in CLASSES]
        members = sorted((it for it in self.machine.members.values() if it.group == group), key=lambda it: it.entity)
        return " ".join([f"tree {group} {'-' if group == ROOT else self.machine.parents[group]} {told(times, ' ')}", *(
            told([it.entity, it.state, it.start, it.finish, it.weight, it.pending, it.budget, *[it.class_name] * (it.class_name != "be")])
            for it in members)])

    def show_stored(self, first):
        stored = self.machine.overlay
        start = min((at for at in stored if at >= first), default=None)
        if start is None:
            return "stored none"
        count = next(count for count in range(1, MOST_STORED + 1) if count == MOST_STORED or start + count not in stored)
        return f"stored {start}+{count}"

    def show_step(self, place):
        if not 1 <= place <= len(self.line):
            return f"step {place} none"
        serial, step = self.line[place - 1]
        return f"step {place} {serial} {line_of(*step)}"


def end_of(made):
    """The answer of a step whose tests are passed."""
    try:
        next(made)
    except StopIteration as ended:
        return ended.value
    raise AssertionError("a step has one `yield`")


def spelled(block):
    """A sector as an answer has it."""
    return f"{block[0]:02x}" if block.count(block[0]) == SECTOR else block.hex()


def kind_of(result):
    """A result in one word."""
    return result.split(" ")["error" in result]


def read_in(result):
    """The bytes that a result has, if it has some."""
    word, *blocks = result.split(" ")
    return b"".join(bytes.fromhex(it) * (SECTOR if len(it) == 2 else 1) for it in blocks) if word == "read" else b""


def sum_of(data):
    """The sum of bytes behind `=`, where there are some."""
    return f"={zlib.crc32(data):08x}" if data else ""


def bio_of_state(bio):
    """A bio by what it does, and not by its name. A write alone has bytes."""
    return f"{bio.start}+{bio.count}{'' if bio.byte is None else sum_of(bytes([bio.byte]) * SECTOR * bio.count)}"


def nameless(request):
    return f"{request.operation}:{','.join(map(bio_of_state, request.bios))}"


def text_of(request):
    return f"{request.operation}:{request.start}+{request.count}:{told((bio.serial for bio in request.bios), ',')}"


def line_of(*step):
    """A step as a line of a script spells it."""
    if step[0] == "attach" and step[4:] == ("be",):
        step = step[:4]
    *words, last = step
    if isinstance(last, list):
        data = b"".join(last)
        last = data[0] if data.count(data[0]) == len(data) else ".."
    return told([*words, last], " ")


def limits_of(options):
    """The words of sim. Whether a number is in its limits is not looked at."""
    words = argparse.ArgumentParser(description="answers a script as `bfqhost sim` does", allow_abbrev=False)
    words.add_argument("sim", choices=["sim"])
    for name, default in OPTIONS.items():
        words.add_argument(f"--{name}", type=type(default), default=default)
    limits = words.parse_args(options)
    if limits.image:
        limits.sectors = os.path.getsize(limits.image) // SECTOR
    return limits


def answer_all(make_machine):
    """Answers the script that is standard input, line by line."""
    keeper = Keeper(make_machine, limits_of(sys.argv[1:]))
    for number, row in enumerate(sys.stdin.buffer, 1):
        line = row.removesuffix(b"\n").decode(errors="surrogateescape")
        if number > MOST_LINES or why_bad(line):
            print(f"bad line {number}", flush=True)
            sys.exit(BAD_LINE)
        if not is_silent(line):
            print(keeper.answer(line), flush=True)
