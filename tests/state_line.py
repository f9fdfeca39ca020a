"""What `show state` prints, at each moment of random scripts and of pairs of scripts.

The line is worked out here from the single looks, which have names, and from what the script's own steps say of each bio: what it does, its
sectors and its bytes, whose sum is that of zlib. Machines that differ in names alone must have one line. Of two that differ in something
else the fields that differ are known, and what stands in each: the numbers are worked out by hand, as told beside them.
"""

import os
import re
import sys
import tempfile
import zlib

from random_scripts import options_of, random_lines
from state_pairs import ALIKE, ONE_SUM, PAIRS, fields_of

TOP = os.path.dirname(os.path.dirname(os.path.abspath(__file__)))
sys.path.append(os.path.join(TOP, "tools"))
import grammar  # noqa: E402
from host import Host, Stop  # noqa: E402

SECTOR, SEATS, GROUPS = 512, 16, 32
# The looks that are asked each time.
ALWAYS = ["show host", "show requeued", "show flight", "show service", *(f"show seat {seat}" for seat in range(SEATS)),
          *(f"show tree {group}" for group in range(GROUPS))]
# How many random scripts there are, and with `./test --all`.
FEW, MANY = 16, 200
# What a random script that is played has to show somewhere, or it tries nothing of it.
SEEN = {name: re.compile(text) for name, text in {
    "bfq": "^state bfq", "none": "^state none", "frozen": "^state [a-z]+ frozen", "two seats": " seat .* seat ", "leaving": " leaving ",
    "a queue of two": r" queue [^ ]+:\S+ [a-z]+:\S+", "a merge": r" queue.*\d,\d", "bytes": r"store:\d+\+\d+=", "a discard": r"discard:\d+\+\d+",
    "read": r":read=[0-9a-f]{8}", "written": ":written", "discarded": ":discarded", "short": ":short", "fault": ":fault",
    "given back": r" requeued \d", "two given back": r" requeued \d\S* \d", "in flight": r" flight \d", "two in flight": r" flight \d\S* \d",
    "in service": r" service \d", "a tick": r" service \d+ \d+ [1-9]", "a group": " tree 1 0 ", "a group in a group": r" tree \d+ [1-9]",
    "real time": ":rt", "idle": r":\d+:idle", "a pending weight": r":(\d+):(?!\1:)\d+:\d+(:rt|:idle)?( |$)"}.items()}


class Followed:
    """A host with what the steps that were asked say of each bio. After each of them its line is compared."""

    def __init__(self, host, seed):
        self.host, self.seed = host, seed
        # Of each bio, by its serial: how many sectors it has and where, and its bytes. No serial is given twice.
        self.bios = {}
        # What was read by each, after each step of the line: a bio may be read again once that was undone.
        self.past, self.cursor = [{}], 0
        self.faults, self.seen, self.moments = [], set(), 0

    def ask(self, line):
        """The answer to a line, behind which `show state` is looked at."""
        words = line.split(" ")
        before = self.will_read(words) if words[0] in ("finish", "work") else {}
        answer = self.host.ask(line)
        if answer.startswith("moved "):
            self.cursor = int(answer.split(" ")[1])
        elif grammar.is_step(line) and not grammar.is_refusal(answer):
            self.past[self.cursor + 1:] = [{**self.past[self.cursor], **before}]
            self.cursor += 1
            if answer.startswith("queued "):
                self.note(answer.split(" ")[1], words)
        self.look(line)
        return answer

    def note(self, serial, words):
        """A bio is new."""
        start, count, *byte = words[3:]
        self.bios[serial] = f"{start}+{count}", bytes([int(byte[0])]) * SECTOR * int(count) if byte else b""

    def will_read(self, words):
        """The bytes that each bio of a request in flight would find: what is stored, and else what the device has."""
        found = {}
        _, tag, _, *outcome = words
        device = bytes([int(outcome[1])]) * SECTOR if outcome[:1] == ["fill"] else bytes(SECTOR)
        for item in self.host.ask("show flight").split(" ")[1:]:
            its, _, _, operation, _, bios = item.split(":")
            if its == tag and operation == "fetch":
                for bio in bios.split(","):
                    start, count = map(int, self.bios[bio][0].split("+"))
                    told = self.host.ask_each(f"sector {sector}" for sector in range(start, start + count))
                    found[bio] = b"".join(block_of(answer) or device for answer in told)
        return found

    def look(self, line):
        """Compares the line at this moment."""
        found, wanted = self.host.ask("show state"), self.worked_out()
        self.moments += 1
        self.seen |= {name for name, form in SEEN.items() if form.search(wanted)}
        if found != wanted and len(self.faults) < 3:
            self.faults.append(f"seed {self.seed}, after {line!r}: {found!r} and not {wanted!r}")

    # The line, by the single looks.

    def shown(self):
        """The single looks of this moment, each with its answer; those at what is not there are left out."""
        told = dict(zip(ALWAYS, self.host.ask_each(ALWAYS)))
        more = [f"show {what} {seat}" for seat in range(SEATS) if not told[f"show seat {seat}"].endswith(" none") for what in ("queue", "outbox")]
        for group in range(GROUPS):
            _, _, parent, *rest = told[f"show tree {group}"].split(" ")
            if parent != "none":
                more += [f"vtime {group} {name}" for name in grammar.CLASSES]
                more += [f"entity {item.partition(':')[0]}" for item in rest[1:]]
        return {**told, **dict(zip(more, self.host.ask_each(more)))}

    def worked_out(self):
        """What `show state` has to print."""
        told = self.shown()

        def items(look, place, form):
            """The items of a look, each told without names."""
            return [form(item.split(":")) for item in told[look].split(" ")[place:]]

        host = told["show host"].split(" ")
        text = ["state", host[1], host[2], host[4]]
        for seat in range(SEATS):
            _, _, session, *words = told[f"show seat {seat}"].split(" ")
            if session != "none":
                text += ["seat", str(seat), *words, "queue", *items(f"show queue {seat}", 2, self.request),
                         "outbox", *items(f"show outbox {seat}", 2, self.done)]
        text += ["requeued", *items("show requeued", 1, self.owned), "flight", *sorted(items("show flight", 1, self.borne))]
        # Of the queue in service a look tells the budget besides, which stands at its entity here.
        text += told["show service"].split(" ")[:4]
        for group in range(GROUPS):
            text += tree(group, told)
        return " ".join(text)

    def bio(self, serial):
        """A bio by its range, and the sum of its bytes if it has some."""
        extent, data = self.bios[serial]
        return extent + sum_of(data)

    def request(self, parts):
        operation, _, bios = parts
        return f"{operation}:{','.join(map(self.bio, bios.split(',')))}"

    def owned(self, parts):
        seat, *request = parts
        return f"{seat}:{self.request(request)}"

    def borne(self, parts):
        _, _, *owned = parts
        return self.owned(owned)

    def done(self, parts):
        serial, result = parts
        return f"{self.bio(serial)}:{result}" + (sum_of(self.past[self.cursor][serial]) if result == "read" else "")


def tree(group, told):
    """A group with its times and its members, by the looks of a moment; nothing if there is no such group."""
    _, number, parent, *rest = told[f"show tree {group}"].split(" ")
    if parent == "none":
        return []
    words = ["tree", number, parent, *(told[f"vtime {group} {name}"].split(" ")[3] for name in grammar.CLASSES)]
    for item in rest[1:]:
        entity, state, start, finish, weight, pending, *class_name = item.split(":")
        budget = told[f"entity {entity}"].split(" ")[6]
        words.append(":".join([entity, state, start, finish, weight, pending, budget, *class_name]))
    return words


def block_of(answer):
    """What `sector N` tells that is stored there; None if nothing is."""
    _, _, place, *digits = answer.split(" ")
    return bytes.fromhex(digits[0]) * (SECTOR if len(digits[0]) == 2 else 1) if place == "overlay" else None


def sum_of(data):
    return f"={zlib.crc32(data):08x}" if data else ""


def at_random(program, count):
    """The line at each moment of random scripts, in which all that it can tell must be there."""
    seen, moments = set(), 0
    for seed in range(1, count + 1):
        with Host(program, options_of(seed)) as host:
            followed = Followed(host, seed)
            random_lines(seed, followed.ask)
        if followed.faults:
            yield f"show state: seed {seed}", followed.faults
        seen |= followed.seen
        moments += followed.moments
    print(f"show state: {moments} moments of the random scripts of the seeds 1 to {count}")
    yield "show state: random scripts", [f"none of them has {name}" for name in SEEN if name not in seen]


def told_by(program, options, lines, looks):
    """What a new host tells by some looks behind a script, of which it refuses nothing."""
    with Host(program, options) as host:
        for line in lines:
            if grammar.is_refusal(answer := host.ask(line)):
                raise Stop(f"{line!r} is answered {answer!r}")
        return host.ask_all(looks)


def pair_faults(program, it):
    """Two machines differ in the fields that are known, and in no others."""
    one, other = (fields_of(told_by(program, it.options, [*it.before, *lines], ["show state"])[0]) for lines in (it.one, it.other))
    found = {name: (one.get(name), other.get(name)) for name in {*one, *other} if one.get(name) != other.get(name)}
    return [] if found == it.wanted else [f"{name}: {found.get(name)} and not {it.wanted.get(name)}"
                                          for name in {*found, *it.wanted} if found.get(name) != it.wanted.get(name)]


def alike_faults(program, it):
    """Two machines have one line, though a look with names tells them apart."""
    (state, *one), (of_other, *other) = (told_by(program, it.options, [*it.before, *lines], ["show state", *it.looks]) for lines in (it.one, it.other))
    return ([] if state == of_other else [f"{state!r} and {of_other!r}"]) + [f"{look!r} is {first!r} of both" for look, first, second in
                                                                             zip(it.looks, one, other) if first == second]


def one_sum_faults(program):
    """Two writes of other bytes with one sum have one line, also when each was read; and the bytes are not the same."""
    first, second = ONE_SUM
    if zlib.crc32(first) != zlib.crc32(second) or first == second:
        yield "they have no one sum, or are the same"
    with tempfile.TemporaryDirectory() as folder:
        path = os.path.join(folder, "payload")
        with open(path, "wb") as file:
            file.write(first + second)
        lines = ["attach 0 0 4", "write 0 1 5 1 @{}", "dispatch", "finish 0 3 stored", "reap 0 1", "write 0 1 5 1 @{}", "read 0 1 5 1",
                 "dispatch", "dispatch", "finish 1 9 fill 0"]
        one, other = (told_by(program, ["--payload", path], [line.format(at) for line in lines], ["show state", "sector 5"])
                      for at in (0, 1))
    yield from [] if one[0] == other[0] and one[0].count(f"={zlib.crc32(first):08x}") == 2 else [f"{one[0]!r} and {other[0]!r}"]
    yield from [] if one[1] != other[1] else ["both have stored the same"]


def state_runs(program, count=FEW):
    """The name of each comparison, with its faults."""
    try:
        for it in PAIRS:
            yield f"show state tells apart: {it.name}", pair_faults(program, it)
        for it in ALIKE:
            yield f"show state tells as one: {it.name}", alike_faults(program, it)
        yield "show state tells as one: bytes of one sum", [*one_sum_faults(program)]
        yield from at_random(program, count)
    except (LookupError, OSError, ValueError, Stop) as fault:
        yield "show state", [str(fault)]
