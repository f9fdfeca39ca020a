"""A host under load that is held, stepped back and forth, and switched: each client reads what it wrote.

Sixteen clients read, write and discard sectors of their own at random; a fifth are discards. Meanwhile the operator holds the host, undoes
some steps, redoes the same, and releases it; now and then he freezes it, switches the scheduler once no request is left, and thaws it. What
a client reads must be what it wrote there last, zeros if it has discarded it since, or else the image. So far nothing was cut, and the
serial of a step is its place in the line.

Then the clients stand still, and some steps are undone and not redone. Of a client's writes and discards those stand whose serial is not
above the place that the undo came to. Each client takes the results that it is still owed, reads all its sectors, which must be so, and
goes on.
"""

import contextlib
import os
import random
import subprocess
import sys
import tempfile
import threading
import time

TOP = os.path.dirname(os.path.dirname(os.path.abspath(__file__)))
sys.path.insert(0, os.path.join(TOP, "clients"))
sys.dont_write_bytecode = True
from bfqclient import SECTOR, Io, Refused, Session  # noqa: E402
from served import (DONE, FREEZE, HOLD, NOT_HELD, RELEASE, THAW, Served, Wrong, image_of, redo, same, sector_of, undo)  # noqa: E402

CLIENTS = 16
OWN = 48
# What shares of all are writes and discards.
WRITES, DISCARDS = 0.4, 0.2
MOST_IOS = 200_000
MOST_UNDONE = 3000
NOT_DRAINED, NOTHING_OWED = "e018", 16
TO_NONE, TO_BFQ = "00000002 16 00", "00000002 16 01"


class Client(threading.Thread):
    """A client with sectors of its own."""

    def __init__(self, host, number, soak):
        super().__init__(daemon=True)
        self.place = host.path(f"client{number}"), number % soak.GROUPS, number % 8
        self.session = self.connected()
        self.sectors = range(number * soak.APART, number * soak.APART + OWN)
        self.depth = (1, 2, 8, 32)[number % 4]
        self.dice = random.Random(number)
        self.soak = soak
        # Of each sector what it has had so far, each with its bio; a bio's number is the serial of its Submit.
        self.writes = {at: [(0, sector_of(at))] for at in self.sectors}
        # Of each sector that something is under way for what it has then, and None of a read.
        self.busy = {}
        self.fault = None

    def connected(self):
        """A session at its place, which can discard."""
        return Session(*self.place, version=2)

    def run(self):
        try:
            self.begin()
            self.soak.meet()
            self.soak.meet()
            self.after_undo(self.soak.cursor)
            self.end()
        except Exception as fault:  # pylint: disable=broad-except
            self.fault = f"client at {self.sectors.start}: {type(fault).__name__}: {fault}"
            self.soak.barrier.abort()

    def begin(self):
        """What it does before steps are undone and not redone."""
        self.load(self.soak.is_over)

    def end(self):
        """What it does after that."""
        until = time.monotonic() + 1
        self.load(lambda: time.monotonic() >= until)
        self.session.close()

    def ios(self, is_over):
        """Reads, writes and discards of one sector at random, of which none meets another that is under way, until it is over."""
        while not is_over():
            at = self.dice.choice(self.sectors)
            if at in self.busy:
                yield None
                continue
            roll = self.dice.random()
            if roll < WRITES:
                io = Io.write(at, self.dice.randbytes(4) * (SECTOR // 4))
            else:
                io = Io.discard(at, 1) if roll < WRITES + DISCARDS else Io.read(at, 1)
            self.busy[at] = bytes(SECTOR) if io.is_discard else io.data
            yield io

    def load(self, is_over):
        for bio, io, data in self.session.run(self.ios(is_over), self.depth):
            now = self.busy.pop(io.start)
            self.soak.count += 1
            self.soak.discards += io.is_discard
            if now is not None:
                self.writes[io.start].append((bio, now))
            else:
                self.compare(io.start, data)

    def compare(self, at, data):
        """What was read must be what the sector has."""
        if data != self.writes[at][-1][1]:
            raise Wrong(f"sector {at} has {data[:4].hex()} and not {self.writes[at][-1][1][:4].hex()}")

    def after_undo(self, cursor):
        """What was submitted behind the cursor is gone. What stands is done, some of it anew, and is reaped, some of it anew."""
        for at in self.sectors:
            self.writes[at] = [write for write in self.writes[at] if write[0] <= cursor]
        try:
            while True:
                self.session.reap()
        except Refused as refused:
            if refused.code != NOTHING_OWED:
                raise
        self.read_all()

    def read_all(self):
        """Each of its sectors has what it wrote there last, or zeros."""
        data = self.session.read(self.sectors.start, OWN)
        for at in self.sectors:
            self.compare(at, data[(at - self.sectors.start) * SECTOR:][:SECTOR])


class Soak:
    """The clients, and the operator among them."""

    # How many groups the clients stand in: the root alone. The sectors of one client follow those of the one before.
    GROUPS, APART = 1, OWN

    def __init__(self, host, seconds):
        self.host = host
        self.count = self.discards = 0
        self.until = time.monotonic() + seconds
        self.barrier = threading.Barrier(CLIENTS + 1, timeout=120)
        self.cursor = 0
        self.dice = random.Random(99)
        self.rounds = [0, 0]

    def is_over(self):
        return time.monotonic() >= self.until or self.count >= MOST_IOS

    def kept(self):
        """So many steps are never undone for good: those by which the clients have come, as they go on."""
        return CLIENTS

    def meet(self):
        """Waits until all clients and the operator are here."""
        self.barrier.wait()

    def ask(self, operator, frame):
        operator.send(frame)
        return operator.reply().hex()

    def held(self, operator):
        """Holds the host. Gives its place, which is the length of the line, as nothing was ever cut."""
        cursor, length = placed(self.ask(operator, HOLD))
        same("the line", cursor, length)
        return cursor

    def back_and_forth(self, operator):
        place = self.held(operator)
        k = self.dice.randint(1, min(place, MOST_UNDONE))
        same("the place after an undo", placed(self.ask(operator, undo(k))), (place - k, place))
        same("the place after a redo", placed(self.ask(operator, redo(k))), (place, place))
        operator.asks((RELEASE, DONE))
        self.rounds[0] += 1

    def switch(self, operator, wanted):
        """Freezes the host, gives it this scheduler as soon as no request is left, and thaws it."""
        operator.asks((FREEZE, DONE))
        while (reply := self.ask(operator, wanted)) == NOT_DRAINED:
            time.sleep(0.001)
        same("a switch", reply, DONE)
        operator.asks((THAW, DONE))
        self.rounds[1] += 1

    def operate(self):
        with self.host.operator() as operator:
            while not (self.is_over() or self.barrier.broken):
                if self.dice.random() < 0.1:
                    self.switch(operator, TO_BFQ if self.rounds[1] % 2 else TO_NONE)
                else:
                    self.back_and_forth(operator)
                time.sleep(self.dice.random() * 0.05)
            self.meet()
            place = self.held(operator)
            k = self.dice.randint(1, min(place - self.kept(), MOST_UNDONE))
            same("the place after the last undo", placed(self.ask(operator, undo(k))), (place - k, place))
            self.cursor = place - k
            operator.asks((RELEASE, DONE))
            # The host may be frozen at that place.
            self.ask(operator, THAW)
            operator.asks((RELEASE, NOT_HELD))
            self.meet()


def placed(reply):
    """The cursor and the length of a Moved."""
    same("the kind of a reply", reply[:2], "93")
    return int(reply[2:10], 16), int(reply[10:18], 16)


def soak(program, folder, seconds):
    """Gives how many reads, writes and discards were done, how many were discards, and how often the host was stepped back and forth, and
    switched."""
    sockets = os.path.join(folder, "sockets")
    os.mkdir(sockets)
    with Served(program, image_of(folder, CLIENTS * OWN), sockets, "--history", "16777216", clients=CLIENTS, workers=4) as host:
        run = Soak(host, seconds)
        with at_work([Client(host, number, run) for number in range(CLIENTS)]):
            run.operate()
        host.stop()
    return run.count, run.discards, *run.rounds


@contextlib.contextmanager
def at_work(clients):
    """The clients run meanwhile, and must end well. What one of them has found is told first."""
    for client in clients:
        client.start()
    try:
        yield
    except threading.BrokenBarrierError:
        pass
    for client in clients:
        client.join(60)
    faults = [client.fault for client in clients if client.fault] + [f"{client.sectors} does not end" for client in clients if client.is_alive()]
    if faults:
        raise Wrong("; ".join(faults[:3]))


def soaks(program, seconds):
    """The name of the run, and what was wrong with it. What it came to is told."""
    name = "a host that serves under load"
    try:
        with tempfile.TemporaryDirectory(prefix="bfq-") as folder:
            count, discards, stepped, switched = soak(program, folder, seconds)
        print(f"soak: {count} reads, writes and discards, {discards} of these; stepped back and forth {stepped} times, switched {switched} times")
        yield name, [] if min(discards, stepped, switched) > 0 else ["nothing was done"]
    except (Wrong, OSError, subprocess.SubprocessError) as fault:
        yield name, [str(fault)]
