"""Undo under the feet of a client of the bridge: what it sees of a hold, an undo and a redo, and what `--after-undo drop` and `keep` make of it.

A client that writes one block at a time leaves four steps for each: its submit, dispatch, finish and reap. So it is known which writes an
undo takes back.
"""

import collections
import contextlib
import random
import re
import struct
import threading
import time

from nbd_client import GO, POLICY, READ, SHUTDOWN, WRITE, looked, named, option
from served import DONE, HOLD, RELEASE, SECONDS, SECTOR, STOP, Wrong, redo, same, sector_of, undo

KEEP = ("--after-undo", "keep")
# The steps of a write that is alone, and the blocks of a client that writes in turn.
STEPS, BLOCKS = 4, 32
BLOCK = 8 * SECTOR


def version(block, number):
    """The bytes of a block: its number and its version, again and again."""
    return struct.pack(">HI", block, number) * (BLOCK // 6) + bytes(BLOCK % 6)


def version_in(data):
    """The version in the bytes of a block; 0 if nothing was written."""
    block, number = struct.unpack_from(">HI", data)
    return number if data == version(block, number) else 0


class Operated:
    """The operator, who holds the host for a block."""

    def __init__(self, host):
        self.host = host

    def __enter__(self):
        self.talk = self.host.operator()
        self.talk.send(HOLD)
        self.cursor, self.length = struct.unpack(">II", self.talk.reply()[1:])
        return self

    def __exit__(self, *_):
        with self.talk:
            self.talk.asks((RELEASE, DONE))

    def go(self, frame):
        self.talk.send(frame)
        self.cursor, self.length = struct.unpack(">II", self.talk.reply()[1:])


def written(nbd, count, first=1):
    """Writes so many versions, one after the other, each into the next block. Gives what each block has then."""
    told = {}
    for number in range(first, first + count):
        nbd.write(number % BLOCKS * BLOCK, version(number % BLOCKS, number))
        told[number % BLOCKS] = number
    return told


def versions(nbd):
    """The version in each block."""
    return {block: version_in(nbd.read(block * BLOCK, BLOCK)) for block in range(BLOCKS)}


def exactly(place):
    """With keep, of 100 writes the last 10 are undone: the blocks have the 10 versions before, and none is newer. A line tells how many
    steps it were. What is written then stands."""
    with place.bridge(*KEEP) as bridge, bridge.opened() as nbd:
        told = written(nbd, 100)
        same("the blocks", versions(nbd), told)
        # So that its session was looked for before.
        time.sleep(0.5)
        reads = BLOCKS * STEPS
        with Operated(place.host) as operator:
            operator.go(undo(10 * STEPS + reads))
        bridge.says("seat 0", f"{10 * STEPS + reads} steps, by a look", "it goes on")
        wanted = {block: number if number <= 90 else number - BLOCKS for block, number in told.items()}
        same("the blocks behind the undo", versions(nbd), wanted)
        written(nbd, 5, 91)
        same("the blocks at last", versions(nbd), {**wanted, **{number % BLOCKS: number for number in range(91, 96)}})
        nbd.leave()
        bridge.quiet()


def invisible(place):
    """A hold, an undo of up to 2,000 steps, as many redone, and a release, ten times under load of 16 at a time: no error, nothing is old,
    and the bridge has nothing to tell."""
    with place.bridge("--image", place.image) as bridge, loaded(bridge) as load:
        for _ in range(10):
            time.sleep(0.1)
            with Operated(place.host) as operator:
                count = min(2000, operator.cursor)
                operator.go(undo(count))
                with bridge.opened(b"look") as look:
                    look.read(0, BLOCK)
                operator.go(redo(count))
        load.end()
        same("the blocks", versions(load.nbd), load.told)
        bridge.quiet()


@contextlib.contextmanager
def loaded(bridge):
    """A client that writes versions, up to 16 blocks at a time, in a thread of its own."""
    with bridge.opened() as nbd:
        load = Load(nbd)
        try:
            yield load
        finally:
            load.is_over = True
            load.thread.join(SECONDS)


class Load:
    """Writes versions of blocks. `told` has what was completed of each, `begun` all its versions in order, and `going` what is under way,
    by its cookie."""

    def __init__(self, nbd):
        self.nbd = nbd
        self.told, self.going, self.count, self.fault = {}, {}, 0, None
        self.begun = collections.defaultdict(list)
        self.is_over = False
        self.thread = threading.Thread(target=self.run, daemon=True)
        self.thread.start()

    def run(self):
        try:
            while not self.is_over or self.going:
                while not self.is_over and len(self.going) < 16:
                    self.begin()
                cookie, error, _ = self.nbd.reply()
                block, number = self.going.pop(cookie)
                same("an error under load", error, 0)
                self.told[block] = number
        except (Wrong, OSError, KeyError) as fault:
            self.fault = fault

    def begin(self):
        """Writes the next version of a block of which none is under way."""
        self.count += 1
        busy = {block for block, _ in self.going.values()}
        block = next(block for block in range(self.count, self.count + BLOCKS) if block % BLOCKS not in busy) % BLOCKS
        cookie = self.nbd.cookie + 1
        self.going[cookie] = block, self.count
        self.begun[block].append(self.count)
        self.nbd.begin(WRITE, block * BLOCK, data=version(block, self.count))

    def end(self):
        """Ends it, when all is answered."""
        self.is_over = True
        self.thread.join(SECONDS)
        if self.thread.is_alive() or self.fault:
            raise Wrong(f"under load: {self.fault or 'no end'}")


def under_load(place):
    """With keep, 16 writes at a time, up to 200 steps undone and not redone: what was not answered is asked anew and answered, nothing is newer
    than what was written, and each block that is older than it was told was so where the host stood behind the undo."""
    with place.bridge(*KEEP, "--image", place.image) as bridge, loaded(bridge) as load:
        time.sleep(0.3)
        # So that no more is written when the host goes on.
        with Operated(place.host) as operator:
            load.is_over = True
            # What was answered before the hold is taken.
            time.sleep(0.3)
            # So many that some of them were answered: up to 16 are under way.
            operator.go(undo(min(200, operator.cursor // 2)))
            going = {block for block, _ in [*load.going.values()]}
            told = dict(load.told)
            with bridge.opened(b"look") as look:
                stands = versions(look)
            # What was sent and not finished by then is finished, again, when the host goes on. It is the version behind the one that
            # stands, and no later one: the undo may have gone back over several of a block.
            stands.update({block: min(it for it in load.begun[block] if it > stands[block]) for block in unfinished(place.host)})
        load.end()
        found = versions(load.nbd)
        for block, number in found.items():
            if block not in going:
                same(f"block {block}, which was told {told.get(block)}", number, stands[block])
            else:
                same(f"block {block}, which was under way", number, load.told[block])
        same("whether something is old", any(found[block] < told[block] for block in told), True)
        bridge.says("seat 0", "steps were undone")


def unfinished(host):
    """The blocks with writes that are queued or in flight, where a host stands."""
    shown = [looked(host, line) for line in ("show queue 0", "show flight", "show requeued")]
    spans = [tuple(map(int, span)) for text in shown for span in re.findall(r"store:(\d+)\+(\d+):", text)]
    return {sector * SECTOR // BLOCK for start, count in spans for sector in range(start, start + count)}


def dropped(place):
    """With drop, as it is if nothing is said, each connection whose host went back ends, one that does nothing too, and that of looks does
    not. Who connects again is served, and finds the old bytes."""
    with place.bridge("--image", place.image) as bridge, bridge.opened(b"look") as look, bridge.opened() as one:
        with bridge.opened(b"g0p1") as two:
            written(one, 10)
            two.read(0, SECTOR)
            with Operated(place.host) as operator:
                operator.go(undo(2 * STEPS))
                one.waits()
            one.ends()
            two.ends()
        bridge.says("steps were undone", "the connection ends")
        bridge.says("steps were undone", "the connection ends")
        with bridge.opened() as again:
            # The last 2 of 14 calls of four steps were the read and the tenth write.
            same("its blocks", [number for number in versions(again).values() if number], [*range(1, 10)])
            same("by looks", version_in(look.read(9 * BLOCK, BLOCK)), 9)
            again.leave()
        bridge.quiet()


def before_its_attach(place):
    """All is undone, the Attach too. With keep another session begins, and what is not answered is answered by it."""
    with place.bridge(*KEEP) as bridge, bridge.opened() as nbd:
        written(nbd, 3)
        with Operated(place.host) as operator:
            nbd.begin(WRITE, 5 * BLOCK, data=version(5, 99))
            nbd.begin(READ, 6 * BLOCK + 5, 7)
            operator.go(undo(operator.cursor))
            time.sleep(0.2)
        same("what waited", sorted(nbd.reply()[1] for _ in range(2)), [0, 0])
        same("its blocks", {block: number for block, number in versions(nbd).items() if number}, {5: 99})
        bridge.says("steps were undone", "it goes on")
        nbd.leave()


def an_undone_leave(place):
    """A Leave is undone, so a session without a connection has the seat: the next Attach is refused once, and tried again."""
    with place.bridge("--seats", "1") as bridge:
        with bridge.opened() as nbd:
            nbd.write(0, bytes(SECTOR))
            nbd.leave()
        until = time.monotonic() + SECONDS
        while looked(place.host, "show seat 1") != "seat 1 none":
            if time.monotonic() > until:
                raise Wrong("the session does not leave")
            time.sleep(0.01)
        with Operated(place.host) as operator:
            operator.go(undo(1))
        with bridge.opened() as nbd:
            same("its bytes", nbd.read(0, SECTOR), bytes(SECTOR))
            nbd.leave()


def told_again(place):
    """With keep a result that is told again is passed over; with drop the connection ends."""
    for words, ends in ((KEEP, False), ((), True)):
        with place.bridge(*words) as bridge, bridge.opened() as nbd:
            written(nbd, 3)
            with Operated(place.host) as operator:
                operator.go(undo(1))
            if ends:
                nbd.begin(READ, 0, 1)
                nbd.ends()
            else:
                same("a read", version_in(nbd.read(3 * BLOCK, BLOCK)), 3)
                nbd.leave()
            bridge.says("seat", "steps were undone")


def parts_of_sectors(place):
    """With keep, while writes of parts of sectors are under way the host goes back at random: each is answered once, without an error, and
    what was written last of each byte stands, as each is written until it stands."""
    dice = random.Random(3)
    with place.bridge(*KEEP) as bridge, bridge.opened() as nbd:
        until = time.monotonic() + 3
        rounds = 0
        while time.monotonic() < until:
            rounds += 1
            spans = [(at * 700 + 3, dice.randbytes(dice.randrange(1, 600))) for at in range(12)]
            for at, data in spans:
                nbd.begin(WRITE, at, data=data)
            time.sleep(dice.random() * 0.01)
            with Operated(place.host) as operator:
                back = dice.randrange(1, 30)
                if operator.cursor > back:
                    operator.go(undo(back))
                    if dice.random() < 0.5:
                        operator.go(redo(dice.randrange(1, back + 1)))
            while nbd.going:
                same("an error", nbd.reply()[1], 0)
            # What was told before the undo may be old, so all is written again, and then stands.
            for at, data in spans:
                nbd.write(at, data)
            for at, data in spans:
                same(f"{len(data)} bytes at {at}", nbd.read(at, len(data)), data)
        same("whether that was more than once", rounds > 3, True)


def in_its_handshake(place):
    """The host is stopped while a client waits in its handshake: it is told. So is one in a group whose making is undone."""
    with place.bridge() as bridge:
        operator = place.host.operator()
        operator.asks(("00000004 11 00 0064", "91 01"))
        with bridge.connect() as nbd, bridge.connect() as other:
            other.greet()
            nbd.greet()
            operator.send(HOLD)
            operator.reply()
            other.send(option(GO, named(b"g1")))
            other.waits()
            operator.send(undo(1))
            operator.reply()
            operator.asks((RELEASE, DONE))
            kind, text = other.reply_of_option(GO)
            same("a group that is not there", (kind, text[:11]), (POLICY, b"refused 5: "))
            operator.send(HOLD)
            operator.reply()
            nbd.send(option(GO, named(b"")))
            nbd.waits()
            operator.send(STOP)
            same("a host that stops", nbd.reply_of_option(GO)[0], SHUTDOWN)
        operator.socket.close()
        bridge.ended()


def held_long(place):
    """A hold of two seconds is a pause, and neither the bridge nor the host has anything to do meanwhile."""
    with place.bridge() as bridge, bridge.opened() as nbd:
        with Operated(place.host):
            nbd.begin(WRITE, 0, data=sector_of(9))
            before, began = used(bridge), time.monotonic()
            nbd.waits(2)
            share = (used(bridge) - before) / (time.monotonic() - began)
        same("the write", nbd.reply()[1], 0)
        # Ten looks a second are all that is done.
        same(f"whether {share:.3f} of a processor is little", share < 0.05, True)


def used(bridge):
    """Seconds of processor time of a bridge and its processes."""
    with open(f"/proc/{bridge.process.pid}/task/{bridge.process.pid}/children", encoding="ascii") as file:
        pids = [bridge.process.pid, *map(int, file.read().split())]
    total = 0
    for pid in pids:
        with open(f"/proc/{pid}/stat", encoding="ascii") as file:
            fields = file.read().rpartition(")")[2].split()
        total += int(fields[11]) + int(fields[12])
    return total / 100


UNDO_RUNS = (exactly, invisible, under_load, dropped, before_its_attach, an_undone_leave, told_again, parts_of_sectors, in_its_handshake, held_long)
