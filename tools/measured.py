"""What a run of tools/iolog has come to, beside its line of totals: the script of it, a measure of each client, and its events in the
kernel's own binary form.

All of it is made in memory, and written when the run is over: beside the file, which it then replaces whole.
"""

import contextlib
import json
import os
import struct

import grammar
from host import told_with
from reasons import look
from shares import shares_of

SECTOR = 512
PERCENTS = (50, 90, 99)

# The kernel's struct blk_io_trace, of include/uapi/linux/blktrace_api.h: magic, sequence, time, sector, bytes, action, pid, device, cpu,
# error and the length of what follows.
EVENT = struct.Struct("<IIQQIIIIIHH")
MAGIC = 0x65617407
# Actions, and the classes that stand above them.
QUEUED, BACK_MERGED, FRONT_MERGED, GOT, REQUEUED, ISSUED, COMPLETED, INSERTED = 1, 2, 3, 4, 6, 7, 8, 12
OF_QUEUE, OF_REQUEUE, OF_ISSUE, OF_COMPLETE, OF_NOTICE = 1 << 20, 1 << 21, 1 << 22, 1 << 23, 1 << 26
# How many bytes the name of a process has.
NAME_BYTES = 16
OF_OPERATION = {"read": 1 << 16, "fetch": 1 << 16, "write": 1 << 17, "store": 1 << 17,
                # A discard is a write there too.
                "discard": 1 << 17 | 1 << 29}
# The device 8,0; and how many nanoseconds a sector stands for.
DEVICE, NANOSECONDS = 8 << 20, 1000


def write_whole(path, data):
    """Writes a file beside its place, and puts it there when it is whole. A link stays, and what it leads to is written."""
    place = os.path.realpath(path)
    beside = f"{place}.new"
    with told_with(path):
        # A device or a pipe must not be replaced by a file, as root could do.
        if os.path.exists(place) and not os.path.isfile(place) and not os.path.isdir(place):
            with open(place, "wb") as file:
                file.write(data)
            return
        try:
            with open(beside, "wb") as file:
                file.write(data)
            os.replace(beside, place)
        except OSError:
            with contextlib.suppress(OSError):
                os.unlink(beside)
            raise


class Recorder:
    """A host whose lines are kept, but for looks."""

    def __init__(self, host):
        self.host, self.program, self.lines = host, host.program, []

    def ask(self, line):
        return self.ask_all([line])[0]

    def ask_all(self, lines):
        self.lines += [line for line in lines if not line.startswith("show ")]
        return self.host.ask_all(lines)


class Measure:
    """Of each client what was sent, how long each of its bios took, and how far it was behind its share."""

    def __init__(self, host, clients):
        self.host, self.clients = host, clients
        # The clock is the driver's own.
        self.clock = self.sectors = self.dispatches = 0
        self.shares = {}
        # By bio: what the clock was when it came, and how many dispatches there were.
        self.born = {}
        self.took = {client.seat: [] for client in clients}
        self.sent = dict.fromkeys(self.took, 0)
        self.requests = dict.fromkeys(self.took, 0)
        self.due = dict.fromkeys(self.took, 0.0)
        # The least and the greatest lag so far.
        self.behind, self.ahead = dict.fromkeys(self.took, 0.0), dict.fromkeys(self.took, 0.0)

    def queued(self, client, bio, word, start, count, came):
        self.born[bio] = came, self.dispatches

    def before_dispatch(self):
        """Who is entitled to what is sent next; None if it goes to whoever sent it first."""
        machine = look(self.host)
        self.shares = None if machine.returned else shares_of(machine)

    def issued(self, client, operation, start, count):
        self.sectors += count
        self.dispatches += 1
        self.sent[client.seat] += count
        self.requests[client.seat] += 1
        for seat, share in ({client.seat: 1.0} if self.shares is None else self.shares).items():
            self.due[seat] += count * share
        for seat, sent in self.sent.items():
            lag = sent - self.due[seat]
            self.behind[seat], self.ahead[seat] = min(self.behind[seat], lag), max(self.ahead[seat], lag)

    def given_back(self, client, operation, start, count):
        """Nothing is measured: it is sent again."""

    def finished(self, client, operation, start, count):
        """Its bios are measured one by one."""

    def done(self, client, bio):
        came, dispatches = self.born.pop(bio)
        self.took[client.seat].append((self.clock - came, self.dispatches - dispatches))

    def text(self):
        """The measure in JSON."""
        found = {"sectors": self.sectors, "dispatches": self.dispatches, "clients": [self.of(client) for client in self.clients]}
        return json.dumps(found, indent=1, ensure_ascii=True) + "\n"

    def of(self, client):
        seat, place = client.seat, client.place
        took = self.took[seat]
        return {
            "seat": seat, "log": client.log, "file": client.file, "group": place.group, "prio": place.prio, "class": place.class_name,
            "bios": len(took), "requests": self.requests[seat], "sectors": self.sent[seat],
            "latency": {"sectors": percentiles([it for it, _ in took]), "dispatches": percentiles([it for _, it in took])},
            "lag": {"behind": round(self.behind[seat], 3), "ahead": round(self.ahead[seat], 3),
                    "last": round(self.sent[seat] - self.due[seat], 3)},
        }


def percentiles(numbers):
    """Of some numbers those that so many in a hundred do not pass, and the greatest; None if there is none."""
    if not numbers:
        return None
    ordered = sorted(numbers)
    return {**{f"p{percent}": ordered[-(-percent * len(ordered) // 100) - 1] for percent in PERCENTS}, "max": ordered[-1]}


class Events:
    """The events of a run, as blktrace writes them: Q, then M, F, or G and I of each bio, and D, C or R of each request."""

    def __init__(self, host, clients):
        self.host = host
        # It counts sectors, and is the driver's own.
        self.clock = 0
        # The name of each process stands first.
        self.packed = [EVENT.pack(MAGIC, 0, 0, 0, 0, OF_NOTICE, client.seat, DEVICE, 0, 0, NAME_BYTES)
                       + f"seat{client.seat}".encode().ljust(NAME_BYTES, b"\0") for client in clients]
        self.count = 0

    def add(self, action, of, client, operation, start, count):
        self.count += 1
        self.packed.append(EVENT.pack(MAGIC, self.count, NANOSECONDS * self.clock, start, SECTOR * count,
                                      action | of | OF_OPERATION[operation], client.seat, DEVICE, 0, 0, 0))

    def queued(self, client, bio, word, start, count, came):
        """Which request it has joined, and where, the queue shows."""
        self.add(QUEUED, OF_QUEUE, client, word, start, count)
        items = self.host.ask(f"show queue {client.seat}").split(" ")[2:]
        bios = next(found for found in (item.split(":")[2].split(",") for item in items) if bio in found)
        if len(bios) == 1:
            self.add(GOT, OF_QUEUE, client, word, start, count)
            self.add(INSERTED, OF_QUEUE, client, word, start, count)
        else:
            self.add(FRONT_MERGED if bios[0] == bio else BACK_MERGED, OF_QUEUE, client, word, start, count)

    def before_dispatch(self):
        """Nothing happens yet."""

    def issued(self, client, operation, start, count):
        self.add(ISSUED, OF_ISSUE, client, operation, start, count)

    def given_back(self, client, operation, start, count):
        self.add(REQUEUED, OF_REQUEUE, client, operation, start, count)

    def finished(self, client, operation, start, count):
        self.add(COMPLETED, OF_COMPLETE, client, operation, start, count)

    def done(self, client, bio):
        """A request has one end, which is told already."""


def script_of(recorder, told):
    """The lines of a run as a script, which begins with the options that it is for."""
    return "".join(f"{line}\n" for line in [f"# {told}"[:grammar.MOST_BYTES], *recorder.lines]).encode(errors="backslashreplace")
