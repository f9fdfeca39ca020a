"""Pairs of short scripts for `show state`: those that lead to machines which differ in one thing, and those that differ in names alone.

Some things never differ alone. A weight goes by the priority, and what is owed by what is queued, in flight, given back and completed. A
time moves with the sectors sent. So each pair has all fields that differ, with what stands in both.
"""

import re
import zlib
from collections import namedtuple

# Two scripts behind the same lines; the fields that differ, each with what it is behind the one and behind the other script.
Pair = namedtuple("Pair", "name options before one other wanted")
# Two scripts behind the same lines, and the looks whose names differ.
Alike = namedtuple("Alike", "name options before one other looks")

CLASSES = ["real time", "best effort", "idle"]


def fields_of(line):
    """The fields of a line by their names."""
    first, *parts = re.split(r" (?=(?:seat|service|tree) |requeued|flight)", line)
    _, scheduler, run, served = first.split(" ")
    fields = {"scheduler": scheduler, "run": run, "served": served}
    for part in parts:
        word, _, rest = part.partition(" ")
        if word == "seat":
            fields.update(of_seat(*re.fullmatch(r"(\d+) (.*) queue(?: (.*))? outbox(?: (.*))?", rest).groups("")))
        elif word == "tree":
            group, parent, *words = rest.split(" ")
            fields[f"parent of tree {group}"] = parent
            fields.update({f"{name} of tree {group}": time for name, time in zip(CLASSES, words)})
            fields.update({f"{item.partition(':')[0]} of tree {group}": item.partition(":")[2] for item in words[len(CLASSES):]})
        else:
            fields[word] = rest
    return fields


def of_seat(seat, words, queue, outbox):
    """The fields of a seat."""
    names = ["group", "priority", "unreaped", "head", "place"]
    return {f"{name} of seat {seat}": word for name, word in zip([*names, "queue", "outbox"], [*words.split(" "), queue, outbox])}


def delta(sectors, weight):
    """How much virtual time the service of some sectors takes."""
    return sectors * 2**22 // weight


def sum_of(byte, sectors=1):
    """The sum of sectors of this byte."""
    return f"={zlib.crc32(bytes([byte]) * 512 * sectors):08x}"


NONE = ("--scheduler", "none")
HERE, BOTH = ["attach 0 0 4"], ["attach 0 0 4", "attach 1 0 4"]
# Weight 40, a budget of 1,024 sectors; and a group of weight 100, with a budget of 4,096.
NEW, OF_GROUP = "idle:0:0:40:40:1024", "idle:0:0:100:100:4096"
# What the device does with the one request of a session that has called nothing before, so that its bio is 2.
SENT = ["dispatch"]
SHORT = [*SENT, "finish 0 3 short"]
REAPED = [*SHORT, "reap 0 1"]
# Two requests in flight under the tags 0 and 1.
TWO = [*HERE, "read 0 1 0 1", "read 0 1 8 1", "dispatch", "dispatch"]
# After one sector of weight 40 a queue that is empty has 104,857 for its start and its finish, and the least budget.
AFTER_ONE, AFTER_TWO = (f"idle:{delta(sectors, 40)}:{delta(sectors, 40)}:40:40:256" for sectors in (1, 2))


def seat_alone(seat):
    """The fields of a seat whose session has called nothing."""
    return of_seat(seat, "0 4 0 0 here", "", "")


def one_of_both(one, other):
    """Fields that one machine alone has, and those that the other one alone has."""
    return {**{name: (value, None) for name, value in one.items()}, **{name: (None, value) for name, value in other.items()}}


def served_by(seat, other):
    """The lines that serve one client of none and then the other."""
    return [line for at, it in enumerate((seat, other)) for line in (
        f"read {it} {it + 1} {8 * it} 1", "dispatch", f"finish 0 {4 + 4 * at} short", f"reap {it} {it + 1}")]


def in_class(name):
    """The lines of a session of a class that has one sector sent, and leaves."""
    return [f"attach 0 0 4 {name}", "read 0 1 0 1", *REAPED, "leave 0"]


def in_service(first, second):
    """The lines of two clients of these priorities, of which one has one request sent and reaped."""
    seat = int(second < first)
    return [f"attach 0 0 {first}", f"attach 1 0 {second}", *(f"read {it} {it + 1} {at} 1" for it in (0, 1) for at in (0, 8)),
            "dispatch", "finish 0 7 short", f"reap {seat} {seat + 1}"]


OF_HOST = [
    Pair("a scheduler", (), [], [], ["freeze", "switch none", "thaw"], {"scheduler": ("bfq", "none")}),
    Pair("a frozen host", (), [], [], ["freeze"], {"run": ("running", "frozen")}),
    Pair("who was served last", NONE, BOTH, served_by(0, 1), served_by(1, 0), {"served": ("1", "0")}),
]
OF_SEATS = [
    Pair("a seat", (), [], HERE, ["attach 1 0 4"], one_of_both({**seat_alone(0), "0 of tree 0": NEW}, {**seat_alone(1), "1 of tree 0": NEW})),
    Pair("a group", (), ["group 0 100"], HERE, ["attach 0 1 4"],
         {"group of seat 0": ("0", "1"), "0 of tree 0": (NEW, None), "0 of tree 1": (None, NEW)}),
    Pair("a priority", (), [], HERE, ["attach 0 0 3"],
         {"priority of seat 0": ("4", "3"), "0 of tree 0": (NEW, "idle:0:0:50:50:1024")}),
    Pair("what is not reaped", (), [*HERE, "read 0 1 0 1", *SHORT], [], ["reap 0 1"],
         {"unreaped of seat 0": ("1", "0"), "outbox of seat 0": ("0+1:short", "")}),
    Pair("a head", (), HERE, ["read 0 1 0 1", *REAPED], ["read 0 1 8 1", *REAPED], {"head of seat 0": ("1", "9")}),
    Pair("a session that leaves", (), [*HERE, "read 0 1 0 1", *SENT], [], ["leave 0"], {"place of seat 0": ("here", "leaving")}),
]


def queued(name, one, other, first, second):
    """A pair whose queues differ."""
    return Pair(name, (), HERE, one, other, {"queue of seat 0": (first, second)})


def in_flight(name, one, other, first, second):
    """A pair whose requests in flight differ, and one where they were given back."""
    return [Pair(f"{name} in flight", (), HERE, [one, "dispatch"], [other, "dispatch"], {"flight": (first, second)}),
            Pair(f"{name} given back", (), HERE, [one, "dispatch", "requeue 0 3"], [other, "dispatch", "requeue 0 3"],
                 {"requeued": (first, second)})]


OF_REQUESTS = [
    queued("the order of a queue", ["read 0 1 0 1", "read 0 1 100 1"], ["read 0 1 100 1", "read 0 1 0 1"],
           "fetch:0+1 fetch:100+1", "fetch:100+1 fetch:0+1"),
    queued("an operation", ["read 0 1 0 1"], ["discard 0 1 0 1"], "fetch:0+1", "discard:0+1"),
    queued("a write or a discard", ["write 0 1 0 1 0"], ["discard 0 1 0 1"], f"store:0+1{sum_of(0)}", "discard:0+1"),
    queued("where a bio begins", ["read 0 1 0 1"], ["read 0 1 1 1"], "fetch:0+1", "fetch:1+1"),
    queued("how long a bio is", ["read 0 1 0 1"], ["read 0 1 0 2"], "fetch:0+1", "fetch:0+2"),
    queued("which bios a request has", ["read 0 1 0 1", "read 0 1 1 2"], ["read 0 1 0 2", "read 0 1 2 1"], "fetch:0+1,1+2", "fetch:0+2,2+1"),
    queued("one request or two", ["read 0 1 0 1", "read 0 1 1 1"], ["read 0 1 0 1", "read 0 1 2 1"], "fetch:0+1,1+1", "fetch:0+1 fetch:2+1"),
    queued("bytes", ["write 0 1 0 2 7"], ["write 0 1 0 2 8"], f"store:0+2{sum_of(7, 2)}", f"store:0+2{sum_of(8, 2)}"),
    *in_flight("an operation", "read 0 1 0 1", "discard 0 1 0 1", "0:fetch:0+1", "0:discard:0+1"),
    *in_flight("bytes", "write 0 1 0 1 7", "write 0 1 0 1 8", f"0:store:0+1{sum_of(7)}", f"0:store:0+1{sum_of(8)}"),
    Pair("what is in flight", (), TWO, ["finish 0 4 short", "reap 0 1"], ["finish 1 5 short", "reap 0 1"],
         {"flight": ("0:fetch:8+1", "0:fetch:0+1")}),
    Pair("whose request is in flight", NONE, [*BOTH, "read 0 1 0 1", "read 1 2 0 1", "dispatch", "dispatch"],
         ["finish 0 5 short", "reap 0 1"], ["finish 1 6 short", "reap 1 2"],
         {"flight": ("1:fetch:0+1", "0:fetch:0+1"), "unreaped of seat 0": ("0", "1"), "unreaped of seat 1": ("1", "0")}),
    Pair("in flight or given back", (), [*HERE, "read 0 1 0 1", *SENT], [], ["requeue 0 3"],
         {"flight": ("0:fetch:0+1", ""), "requeued": ("", "0:fetch:0+1")}),
    Pair("the order of what was given back", (), TWO, ["requeue 0 4", "requeue 1 5"], ["requeue 1 5", "requeue 0 4"],
         {"requeued": ("0:fetch:0+1 0:fetch:8+1", "0:fetch:8+1 0:fetch:0+1")}),
]


def completed(name, one, other, first, second):
    """A pair whose one result differs."""
    return Pair(name, (), HERE, one, other, {"outbox of seat 0": (first, second)})


READ = ["read 0 1 0 1", "dispatch"]
OF_RESULTS = [
    Pair("the order of an outbox", (), TWO, ["finish 0 4 short", "finish 1 5 short"], ["finish 1 5 short", "finish 0 4 short"],
         {"outbox of seat 0": ("0+1:short 8+1:short", "8+1:short 0+1:short")}),
    completed("how a read failed", [*READ, "finish 0 3 short"], [*READ, "finish 0 3 fault"], "0+1:short", "0+1:fault"),
    completed("a read that failed", [*READ, "finish 0 3 short"], [*READ, "finish 0 3 fill 0"], "0+1:short", f"0+1:read{sum_of(0)}"),
    completed("what was read", [*READ, "finish 0 3 fill 1"], [*READ, "finish 0 3 fill 2"], f"0+1:read{sum_of(1)}", f"0+1:read{sum_of(2)}"),
    completed("what was written", ["write 0 1 0 1 7", "dispatch", "finish 0 3 stored"], ["write 0 1 0 1 8", "dispatch", "finish 0 3 stored"],
              f"0+1{sum_of(7)}:written", f"0+1{sum_of(8)}:written"),
    completed("written or discarded", ["write 0 1 0 1 0", "dispatch", "finish 0 3 stored"],
              ["discard 0 1 0 1", "dispatch", "finish 0 3 stored"], f"0+1{sum_of(0)}:written", "0+1:discarded"),
]
# Of the two clients of the weights 40 and 50 the one with the earlier finish is selected. V grows by one sector at a sum of 90 for both.
WAITS, SERVED = f"active:0:{delta(1024, 40)}:40:40:1024", f"serving:0:{delta(1024, 50)}:50:50:1024"
OF_SERVICE = [
    Pair("an age", (), [*HERE, "read 0 1 0 1", "read 0 1 8 1", "dispatch"], [], ["tick"], {"service": ("0 1 0", "0 1 1")}),
    # What was sent ends at sector 2 each time.
    Pair("the sectors sent", (), [*HERE, "read 0 1 8 1"], ["read 0 1 1 1", "dispatch", "finish 0 4 short", "reap 0 1"],
         ["read 0 1 0 2", "dispatch", "finish 0 4 short", "reap 0 1"],
         {"service": ("0 1 0", "0 2 0"), "best effort of tree 0": (str(delta(1, 40)), str(delta(2, 40)))}),
    Pair("who is in service", (), [], in_service(4, 3), in_service(3, 4),
         {"service": ("1 1 0", "0 1 0"), "priority of seat 0": ("4", "3"), "priority of seat 1": ("3", "4"),
          "unreaped of seat 0": ("2", "1"), "unreaped of seat 1": ("1", "2"), "head of seat 0": ("0", "1"), "head of seat 1": ("1", "0"),
          "queue of seat 0": ("fetch:0+1 fetch:8+1", "fetch:8+1"), "queue of seat 1": ("fetch:8+1", "fetch:0+1 fetch:8+1"),
          "0 of tree 0": (WAITS, SERVED), "1 of tree 0": (SERVED, WAITS)}),
]
OF_GROUPS = [
    Pair("a group that stands", (), [], [], ["group 0 100"],
         one_of_both({}, {"parent of tree 1": "0", **{f"{name} of tree 1": "0" for name in CLASSES}, "17 of tree 0": OF_GROUP})),
    Pair("a parent", (), ["group 0 100"], ["group 0 100"], ["group 1 100"],
         {"parent of tree 2": ("0", "1"), "18 of tree 0": (OF_GROUP, None), "18 of tree 1": (None, OF_GROUP)}),
    *(Pair(f"the time of {one} or {other}", (), [], in_class(name), in_class(its),
           {f"{one} of tree 0": (str(delta(1, 40)), "0"), f"{other} of tree 0": ("0", str(delta(1, 40)))})
      for name, one, its, other in (("rt", "real time", "be", "best effort"), ("be", "best effort", "idle", "idle"))),
]
# Five times 60 sectors at weight 10: a time is 2^22 / 10 * 60 each, which is whole. A tick ends the first service of the other machine after
# four of them; its second one sends less than the least budget.
LONG = ["attach 0 0 7", *(f"read 0 1 {100 * at} 60" for at in range(5))]
WHOLE = delta(300, 10)
OF_MEMBERS = [
    Pair("a state", (), HERE, [], ["read 0 1 0 1"], {"unreaped of seat 0": ("0", "1"), "queue of seat 0": ("", "fetch:0+1"),
                                                     "0 of tree 0": (NEW, f"active:0:{delta(1024, 40)}:40:40:1024")}),
    Pair("a start and a finish", (), HERE, ["read 0 1 1 1", *REAPED], ["read 0 1 0 2", *REAPED],
         {"best effort of tree 0": (str(delta(1, 40)), str(delta(2, 40))), "0 of tree 0": (AFTER_ONE, AFTER_TWO)}),
    Pair("a pending weight", (), ["group 0 100"], ["weight 1 100"], ["weight 1 200"],
         {"17 of tree 0": (OF_GROUP, "idle:0:0:100:200:4096")}),
    # The weight that was set before the group has something to send is that of its first service.
    Pair("a weight in effect", (), ["group 0 100", "attach 0 1 4"], *(
        [f"weight 1 {weight}", "read 0 2 0 1", "dispatch", "finish 0 5 short", "reap 0 2", "weight 1 100"] for weight in (200, 100)),
         {"best effort of tree 0": (str(delta(1, 200)), str(delta(1, 100))),
          "17 of tree 0": (f"idle:{delta(1, 200)}:{delta(1, 200)}:200:100:4096", f"idle:{delta(1, 100)}:{delta(1, 100)}:100:100:4096")}),
    Pair("a budget", ("--timeout", "1", "--tags", "8"), LONG, 5 * ["dispatch"], [*4 * ["dispatch"], "tick", "dispatch"],
         {"0 of tree 0": (f"idle:{WHOLE}:{WHOLE}:10:10:300", f"idle:{WHOLE}:{WHOLE}:10:10:256")}),
    *(Pair(f"the class {name}", (), [], HERE, [f"attach 0 0 4 {name}"], {"0 of tree 0": (NEW, f"{NEW}:{name}")}) for name in ("rt", "idle")),
]
PAIRS = [*OF_HOST, *OF_SEATS, *OF_REQUESTS, *OF_RESULTS, *OF_SERVICE, *OF_GROUPS, *OF_MEMBERS]

ALIKE = [
    Alike("another session", (), [], [*HERE, "read 0 1 0 1"], ["attach 5 0 4", "leave 5", *HERE, "read 0 3 0 1"], ["show seat 0", "show queue 0"]),
    Alike("other tags and issues", (), TWO, [], ["requeue 1 5", "requeue 0 4", "dispatch", "dispatch"], ["show flight"]),
    Alike("another way behind an undo", (), HERE, ["read 0 1 0 1"], ["read 0 1 8 1", "hold", "undo 1", "release", "read 0 1 0 1"],
          ["show queue 0", "line"]),
    Alike("two clients in another order", (), BOTH, ["read 0 1 0 1", "read 1 2 8 1"], ["read 1 2 8 1", "read 0 1 0 1"],
          ["show queue 0", "show queue 1"]),
    *(Alike(f"calls in another order that are {what}", (), HERE, ["read 0 1 0 1", "read 0 1 8 1", "dispatch", "dispatch", *lines],
            ["read 0 1 8 1", "read 0 1 0 1", "dispatch", "dispatch", *lines], [look]) for what, lines, look in (
        ("in flight", [], "show flight"), ("given back", ["requeue 0 4", "requeue 1 5"], "show requeued"),
        ("completed", ["finish 0 4 short", "finish 1 5 short"], "show outbox 0"))),
    # Whether it reads or writes, a session that has reaped all is as before; what is stored is not told.
    Alike("whether it is stored", (), HERE, ["write 0 1 5 1 7", "dispatch", "finish 0 3 stored", "reap 0 1"], ["read 0 1 5 1", *REAPED],
          ["show stored 0"]),
    Alike("what is stored", (), HERE, *(
        [f"write 0 1 5 1 {byte}", "dispatch", "finish 0 3 stored", "reap 0 1"] for byte in (7, 8)), ["sector 5"]),
    Alike("a host that is held", (), HERE, [], ["hold"], ["show host"]),
    Alike("steps that can be redone", (), HERE, [], ["read 0 1 8 1", "hold", "undo 1", "release"], ["line", "show step 2"]),
]

# A sum does not change if the bits of its polynomial are turned somewhere. They are 33, the highest first: 1 and then 04C11DB7. A byte has its
# lowest bit first there, so turned around they are EDB88320, with a 1 below.
TURNED = (0xEDB88320 << 1 | 1).to_bytes(5, "little")
ONE_SUM = [bytes(512), TURNED + bytes(507)]
