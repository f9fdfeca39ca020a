"""Runs of `clients/bfqnbd.py` with a client of NBD of the tests' own (tests/nbd_client.py): handshakes, requests of any byte, bad input, limits, and
what comes of connections if the host is held, stopped, killed, full (tests/nbd_errors.py), or goes back (tests/nbd_undo.py)."""

import collections
import concurrent.futures
import contextlib
import os
import random
import resource
import shutil
import socket
import stat
import struct
import subprocess
import sys
import tempfile
import time

from nbd_client import (ABORT, ACK, BLOCK_STATUS, BRIDGE, CACHE, CLEARS, DISC, EINVAL, ENOSPC, ENVIRONMENT, EPERM, ESHUTDOWN, EXPORT_NAME,
                        FAST_ZERO, FLUSH, FUA, GO, INFO, INVALID, LIST, LIST_META, MULTI_CONN, NO_HOLE, POLICY, READ, READ_ONLY, REP_INFO, SERVER,
                        SET_META, SHUTDOWN, STARTTLS, STRUCTURED, TOP, TRIM, UNKNOWN, UNSUP, USUAL, WRITE, WRITE_ZEROES, Bridge, Nbd, looked,
                        named, option, request)
from nbd_errors import ERROR_RUNS
from nbd_undo import UNDO_RUNS
from served import DONE, FREEZE, HOLD, RELEASE, SECONDS, SECTOR, STOP, Served, Wrong, image_of, moved, same, sector_of, undo

sys.path.insert(0, os.path.join(TOP, "clients"))
from bfqnbd_look import size_of  # noqa: E402
from bfqnbd_wire import Header, Offer, fault_of  # noqa: E402

# The sectors of the image, and its bytes.
SECTORS = 512
SIZE = SECTORS * SECTOR
# So many streams are changed, each by itself; and with --all.
FEW, MANY = 500, 10_000
MIB = 1 << 20


class Place:
    """A folder with an image and a host that serves it."""

    def __init__(self, program, folder, *words, sectors=SECTORS, clients=4, workers=2):
        self.program, self.folder = program, folder
        self.sockets = os.path.join(folder, "sockets")
        os.mkdir(self.sockets)
        self.image = image_of(folder, sectors)
        words = words or ("--history", "16777216")
        self.host = Served(program, self.image, self.sockets, *words, clients=clients, workers=workers)

    def __enter__(self):
        return self

    def __exit__(self, *_):
        self.host.kill()

    def bridge(self, *words, **more):
        return Bridge(self.sockets, *words, **{"path": os.path.join(self.folder, "nbd"), **more})


def content():
    """The bytes of the image."""
    return b"".join(map(sector_of, range(SECTORS)))


def goes_on(bridge):
    """A client is served as if nothing had been."""
    with bridge.opened() as nbd:
        nbd.write(8 * SECTOR, b"good" * 128)
        same("what was written", nbd.read(8 * SECTOR, SECTOR), b"good" * 128)
        nbd.leave()


def handshake(place):
    """Names, sizes, block sizes and flags, by each option that opens an export or asks for one; lists; and an export that is left."""
    infos = [struct.pack(">HQH", 0, SIZE, USUAL | CLEARS | MULTI_CONN), struct.pack(">HIII", 3, 1, 4096, 32 * MIB)]
    with place.bridge("--image", place.image) as bridge:
        same("the mode of its socket", stat.S_IMODE(os.stat(bridge.path).st_mode), 0o600)
        with bridge.connect() as nbd:
            nbd.greet()
            same("LIST", nbd.asks(LIST), [(SERVER, b"\0\0\0\0"), (SERVER, b"\0\0\0\4look"), (ACK, b"")])
            for data in (named(b""), named(b"g0"), named(b"g0p7", [0, 1, 2, 3])):
                same(f"INFO {data}", nbd.asks(INFO, data), [(REP_INFO, infos[0]), (REP_INFO, infos[1]), (ACK, b"")])
            look = struct.pack(">HQH", 0, SIZE, USUAL | READ_ONLY | MULTI_CONN)
            same("INFO of look", nbd.asks(INFO, named(b"look")), [(REP_INFO, look), (REP_INFO, infos[1]), (ACK, b"")])
            same("no session so far", looked(place.host, "line"), "line 0 0 0")
            nbd.open(b"g0p3")
            same("its session", looked(place.host, "show seat 0"), "seat 0 1 0 3 0 0 here")
            same("its bytes", nbd.read(0, SIZE), content())
            nbd.leave()
        with bridge.connect() as nbd:
            nbd.greet()
            same("ABORT", nbd.asks(ABORT), [(ACK, b"")])
            nbd.ends()
        for flags, zeroes in ((1, 124), (3, 0)):
            with bridge.connect() as nbd:
                nbd.greet(flags)
                nbd.send(option(EXPORT_NAME, b""))
                same("EXPORT_NAME", nbd.take(10 + zeroes), struct.pack(">QH", SIZE, USUAL | CLEARS | MULTI_CONN) + bytes(zeroes))
                same("its bytes", nbd.read(3 * SECTOR, SECTOR), sector_of(3))
                nbd.leave()
    with place.bridge("--seats", "2", "--read-only") as bridge, bridge.connect() as nbd:
        same("one seat, and nothing written", nbd.greet().open().flags, USUAL | READ_ONLY)
        same("a write", nbd.ask(WRITE, 0, data=bytes(SECTOR))[0], EPERM)
        same("a TRIM, and zeros", [nbd.ask(kind, 0, SECTOR)[0] for kind in (TRIM, WRITE_ZEROES)], [EPERM, EPERM])
        same("its seat", looked(place.host, "show seat 2").split(" ")[3:], ["0", "4", "0", "0", "here"])
        same("LIST without an image", Nbd(bridge.path).greet().asks(LIST), [(SERVER, b"\0\0\0\0"), (ACK, b"")])
        same("look without an image", Nbd(bridge.path).greet().asks(GO, named(b"look"))[0][0], UNKNOWN)


def any_byte(place):
    """Reads and writes at random, of any byte, one by one and many at a time that do not meet, are those of a plain copy."""
    dice = random.Random(7)
    copy = bytearray(content())
    with place.bridge() as bridge, bridge.opened() as nbd:
        for _ in range(300):
            offset = dice.choice([dice.randrange(SIZE), dice.randrange(SECTORS) * SECTOR])
            length = min(SIZE - offset, dice.choice([1, 511, 512, 513, 4096, dice.randrange(1, 90_000)]))
            roll = dice.random()
            if roll < 0.4:
                data = dice.randbytes(length)
                nbd.write(offset, data, dice.choice([0, FUA]))
                copy[offset:offset + length] = data
            elif roll < 0.6:
                kind = dice.choice([TRIM, WRITE_ZEROES])
                nbd.clear(kind, offset, length, dice.choice([0, FUA]))
                cleared(copy, kind, offset, offset + length)
            else:
                same(f"{length} bytes at {offset}", nbd.read(offset, length), bytes(copy[offset:offset + length]))
        # Writes of single bytes side by side, and zeros, all sent before the first reply: each changes its sector by itself.
        for at in range(5, 205, 2):
            if at % 5:
                nbd.begin(WRITE, at, data=b"#")
            else:
                nbd.begin(WRITE_ZEROES, at, 1)
            copy[at] = ord("#") if at % 5 else 0
        nbd.begin(FLUSH)
        while nbd.going:
            same("an error", nbd.reply()[1], 0)
        same("the whole device", nbd.read(0, SIZE), bytes(copy))
        nbd.leave()


def cleared(copy, kind, begin, end):
    """Makes zeros in a copy: of a TRIM in whole sectors alone."""
    if kind == TRIM:
        begin, end = -(-begin // SECTOR) * SECTOR, end // SECTOR * SECTOR
    if begin < end:
        copy[begin:end] = bytes(end - begin)


def clears(place):
    """TRIM and WRITE_ZEROES are discards of at most 64 sectors. A TRIM of parts of sectors leaves them; zeros of parts are written. All
    flags of zeros are taken. An undo gives the bytes back."""
    with place.bridge("--depth", "1") as bridge:
        with bridge.opened() as nbd:
            copy, wanted = bytearray(content()), []
            for kind, offset, length, flags, steps in [
                    (TRIM, 100, 412, 0, []), (TRIM, 0, 511, FUA, []), (TRIM, 100, 3 * SECTOR, FUA, ["discard 1 2"]),
                    (TRIM, 10 * SECTOR, SECTOR, 0, ["discard 10 1"]), (WRITE_ZEROES, 20 * SECTOR, 130 * SECTOR, 0, ["discard 20 64", "discard 84 64", "discard 148 2"]),
                    (WRITE_ZEROES, 200 * SECTOR + 7, 20, NO_HOLE, ["read 200 1", "write 200 1"]),
                    (WRITE_ZEROES, 210 * SECTOR + 500, 24, FAST_ZERO, ["read 210 1", "read 211 1", "write 210 1", "write 211 1"]),
                    (WRITE_ZEROES, 220 * SECTOR, 2 * SECTOR + 1, FUA | NO_HOLE | FAST_ZERO, ["read 222 1", "write 222 1", "discard 220 2"]),
                    (WRITE_ZEROES, 231 * SECTOR - 1, SECTOR + 1, FAST_ZERO, ["read 230 1", "write 230 1", "discard 231 1"])]:
                nbd.clear(kind, offset, length, flags)
                cleared(copy, kind, offset, offset + length)
                wanted += steps
            same("its bytes", nbd.read(0, SIZE), bytes(copy))
            count = int(looked(place.host, "line").split()[2])
            lines = [looked(place.host, f"show step {at}").split()[3:] for at in range(1, count + 1)]
            found = [" ".join([line[0], *line[3:5]]) for line in lines if line[0] in ("read", "write", "discard")]
            # At last the whole device was read.
            same("what was asked of the host", found[:len(wanted)], wanted)
            nbd.leave()
        with bridge.opened() as nbd:
            nbd.write(300 * SECTOR, b"A" * SECTOR)
            nbd.clear(TRIM, 300 * SECTOR, SECTOR)
            same("trimmed", nbd.read(300 * SECTOR, SECTOR), bytes(SECTOR))
            with place.host.operator() as operator:
                operator.send(HOLD)
                operator.reply()
                # The last Reap, Finish, Dispatch and Submit are of the read; those before of the TRIM.
                operator.send(undo(8))
                operator.reply()
                operator.asks((RELEASE, DONE))
        with bridge.opened() as nbd:
            same("undone", nbd.read(300 * SECTOR, SECTOR), b"A" * SECTOR)


def long_ones(place):
    """A TRIM and zeros may be longer than a read or a write, as they have no bytes; many may wait."""
    offer = Offer(2**40, CLEARS)
    lengths = [fault_of(Header(0, kind, 7, 0, length), offer) for kind in (TRIM, WRITE_ZEROES, WRITE) for length in (33 * MIB, 2**32 - 1)]
    same("what may be so long", lengths, [0, 0, 0, 0, EINVAL, EINVAL])
    with place.bridge() as bridge, bridge.opened() as nbd:
        nbd.clear(WRITE_ZEROES, 1, SIZE - 2)
        same("its bytes", nbd.read(0, SIZE), sector_of(0)[:1] + bytes(SIZE - 2) + sector_of(SECTORS - 1)[-1:])
        for _ in range(100):
            nbd.begin(TRIM, 0, 2 * SECTOR)
        while nbd.going:
            same("an error", nbd.reply()[1], 0)
        same("past the end", (nbd.ask(TRIM, 0, 2**32 - 1)[0], nbd.ask(WRITE_ZEROES, 0, 2**32 - 1)[0]), (EINVAL, ENOSPC))
        nbd.leave()


def classes(place):
    """The class of a session is said behind its group and its priority."""
    with place.bridge("--seats", "1") as bridge:
        for name, prio, prio_class in ((b"", 4, "be"), (b"g0rt", 4, "rt"), (b"g0p7rt", 7, "rt"), (b"g0idle", 4, "idle"), (b"g0p0idle", 0, "idle"),
                                       (b"g0p2", 2, "be")):
            with bridge.opened(name) as nbd:
                same(f"the class of {name}", looked(place.host, "class 1"), f"class 1 {prio_class}")
                same(f"the priority of {name}", looked(place.host, "show seat 1").split()[3:5], ["0", str(prio)])
                same("a sector", nbd.read(SECTOR, SECTOR), sector_of(1))
                nbd.leave()


# What comes of bad input in the handshake: the bytes behind the greeting, and the kind of the reply; None if the connection ends.
BAD_OPTIONS = [
    ("unknown flags of the client", struct.pack(">I", 7), None),
    ("no fixed newstyle", struct.pack(">I", 0), None),
    ("an option without its magic", struct.pack(">I", 3) + option(LIST, magic=1), None),
    ("an option of more than 64 KiB", struct.pack(">I", 3) + option(INFO, length=65_537), None),
    ("EXPORT_NAME of no export", struct.pack(">I", 3) + option(EXPORT_NAME, b"none"), None),
    ("EXPORT_NAME of no group", struct.pack(">I", 3) + option(EXPORT_NAME, b"g9"), None),
    ("an unknown option", struct.pack(">I", 3) + option(99, b"data"), UNSUP),
    ("STARTTLS", struct.pack(">I", 3) + option(STARTTLS), UNSUP),
    ("structured replies", struct.pack(">I", 3) + option(STRUCTURED), UNSUP),
    ("LIST_META_CONTEXT", struct.pack(">I", 3) + option(LIST_META, b"\0" * 8), UNSUP),
    ("SET_META_CONTEXT", struct.pack(">I", 3) + option(SET_META, b"\0" * 8), UNSUP),
    ("LIST with data", struct.pack(">I", 3) + option(LIST, b"x"), INVALID),
    ("GO of no data", struct.pack(">I", 3) + option(GO), INVALID),
    ("GO whose name is longer than its data", struct.pack(">I", 3) + option(GO, named(b"abc", size=4)), INVALID),
    ("GO whose name has 2^32 - 1 bytes", struct.pack(">I", 3) + option(GO, named(b"abc", size=2**32 - 1)), INVALID),
    ("INFO with more infos than it has", struct.pack(">I", 3) + option(INFO, named(b"", count=1)), INVALID),
    ("INFO with bytes behind", struct.pack(">I", 3) + option(INFO, named(b"") + b"x"), INVALID),
    *((f"GO of {name!r}", struct.pack(">I", 3) + option(GO, named(name)), UNKNOWN)
      for name in (b"none", b"g", b"g32", b"g0p8", b"g0p", b"g0p4be", b"g0RT", b"g0rtp4", b"rt", b"G0", b"g0 ", b"\xff", b"g0p4\n", b"/", b"x" * 4096)),
    ("GO of a group that is not there", struct.pack(">I", 3) + option(GO, named(b"g9")), POLICY),
]
# Bad requests, each with its error; None if the connection ends.
BAD_REQUESTS = [
    ("no magic", request(READ, 0, SECTOR, magic=1), None),
    ("a write of more than 32 MiB", request(WRITE, 0, 32 * MIB + 1), None),
    ("a write of 2^32 - 1 bytes", request(WRITE, 0, 2**32 - 1), None),
    *((f"the command {kind}", request(kind, 0, SECTOR), EINVAL) for kind in (CACHE, BLOCK_STATUS, 8, 65_535)),
    ("a TRIM with a flag of zeros", request(TRIM, 0, SECTOR, flags=NO_HOLE), EINVAL),
    ("zeros with an unknown flag", request(WRITE_ZEROES, 0, SECTOR, flags=4), EINVAL),
    ("a TRIM of 0 bytes", request(TRIM, 0, 0), EINVAL),
    ("zeros of 0 bytes", request(WRITE_ZEROES, 0, 0), EINVAL),
    ("a TRIM past the end", request(TRIM, SIZE - SECTOR + 1, SECTOR), EINVAL),
    ("a TRIM across 2^64", request(TRIM, 2**64 - 1, 2), EINVAL),
    ("zeros past the end", request(WRITE_ZEROES, SIZE - SECTOR + 1, SECTOR), ENOSPC),
    ("an unknown flag", request(READ, 0, SECTOR, flags=2), EINVAL),
    ("a write with an unknown flag", request(WRITE, 0, SECTOR, bytes(SECTOR), flags=3), EINVAL),
    ("a read of 0 bytes", request(READ, 0, 0), EINVAL),
    ("a write of 0 bytes", request(WRITE, 0, 0), EINVAL),
    ("a read of more than 32 MiB", request(READ, 0, 32 * MIB + 1), EINVAL),
    ("a read past the end", request(READ, SIZE - SECTOR + 1, SECTOR), EINVAL),
    ("a read behind the end", request(READ, SIZE, 1), EINVAL),
    ("a read across 2^64", request(READ, 2**64 - 1, 2), EINVAL),
    ("a write past the end", request(WRITE, SIZE - SECTOR + 1, SECTOR, bytes(SECTOR)), ENOSPC),
    ("a write across 2^64", request(WRITE, 2**64 - SECTOR, 2 * SECTOR, bytes(2 * SECTOR)), ENOSPC),
    ("a flush with an offset", request(FLUSH, 1, 0), EINVAL),
    ("a flush with a length", request(FLUSH, 0, 1), EINVAL),
    ("a flush with an unknown flag", request(FLUSH, flags=2), EINVAL),
]


def bad_input(place):
    """The table of bad input. What is wrong with one request or option leaves the next one as it is, or ends the connection. The host hears
    nothing of it, and another client is served."""
    with place.bridge() as bridge:
        for name, data, wanted in BAD_OPTIONS:
            with bridge.connect() as nbd:
                nbd.take(18)
                nbd.send(data)
                if wanted is None:
                    nbd.ends()
                    continue
                number = struct.unpack_from(">I", data, 12)[0]
                same(name, nbd.reply_of_option(number)[0], wanted)
                same(f"what follows {name}", nbd.open().read(SECTOR, SECTOR), sector_of(1))
        for name, data, wanted in BAD_REQUESTS:
            with bridge.opened() as nbd:
                nbd.send(data)
                if wanted is None:
                    nbd.ends()
                    continue
                nbd.going[7] = struct.unpack_from(">H", data, 6)[0], 0
                same(name, nbd.reply(), (7, wanted, b""))
                same(f"what follows {name}", nbd.read(SECTOR, SECTOR), sector_of(1))
        goes_on(bridge)
        bridge.quiet()


def typos(place):
    """The refusal of a name tells which there are."""
    with place.bridge() as bridge, bridge.connect() as nbd:
        nbd.greet()
        for name in (b"g99", b"g1p9", b"G1"):
            kind, text = nbd.asks(GO, named(name))[0]
            same(f"GO of {name}", (kind, text.endswith(b", GROUP 0 to 31, PRIO 0 to 7, in lower case")), (UNKNOWN, True))


def session_bytes():
    """What a client sends that asks for an export and makes some requests."""
    parts = [struct.pack(">I", 3), option(LIST), option(INFO, named(b"", [3])), option(GO, named(b"g0p2", [3]))]
    parts += [request(WRITE, 20 * SECTOR, SECTOR, b"A" * SECTOR), request(READ, 20 * SECTOR, 2 * SECTOR, cookie=8),
              request(WRITE, 30 * SECTOR + 5, 10, b"B" * 10, FUA, 9), request(FLUSH, cookie=10), request(TRIM, 0, 512, cookie=11),
              request(WRITE_ZEROES, 700, 900, flags=FUA | NO_HOLE, cookie=12), request(DISC)]
    return b"".join(parts)


def played(bridge, data):
    """Sends bytes of a client whole, says no more, and takes what comes till the end."""
    with bridge.connect() as nbd, contextlib.suppress(ConnectionError):
        nbd.send(data)
        nbd.socket.shutdown(socket.SHUT_WR)
        while nbd.socket.recv(1 << 16):
            pass


def changed(data, dice):
    """A stream that is changed in one of some ways."""
    data = bytearray(data)
    for _ in range(dice.choice([1, 1, 1, 2, 5])):
        at = dice.randrange(len(data))
        way = dice.randrange(4)
        if way == 0:
            data[at] ^= 1 << dice.randrange(8)
        elif way == 1:
            data[at:at + dice.randrange(1, 9)] = dice.randbytes(dice.randrange(1, 9))
        elif way == 2:
            del data[at:at + dice.randrange(1, 30)]
        else:
            data[at:at] = data[dice.randrange(len(data)):][:dice.randrange(1, 60)]
        if not data:
            data = bytearray(1)
    return bytes(data)


def changed_streams(place, count):
    """Streams that were changed at random: each connection ends, and nobody else notices."""
    seed = random.SystemRandom().randrange(1 << 32)
    dice, whole = random.Random(seed), session_bytes()
    with place.bridge() as bridge:
        try:
            for _ in range(count // FEW):
                for _ in range(FEW):
                    played(bridge, changed(whole, dice))
                goes_on(bridge)
        except (Wrong, OSError) as fault:
            raise Wrong(f"seed {seed}: {fault}") from fault
    print(f"nbd: {count} changed streams of seed {seed}")


def cut_anywhere(place):
    """A session that is cut behind each byte of its handshake and its first requests, and at some of the data of a write. Each seat comes
    back."""
    whole = session_bytes()
    places = [at for at in range(len(whole)) if not whole.startswith(b"AA", at) or at % 97 == 0]
    with place.bridge() as bridge:
        for at in places:
            played(bridge, whole[:at])
        goes_on(bridge)
        with contextlib.ExitStack() as stack:
            for _ in range(4):
                stack.enter_context(bridge.opened())
        bridge.quiet()


def limit_of_frames(place):
    """The host answers only so many frames of a connection. The bridge makes another before that, here after some 36, and its client does
    not notice."""
    with place.bridge("--seats", "1", before="import bfqnbd_session; bfqnbd_session.MOST_FRAMES = 100") as bridge:
        with bridge.opened() as nbd:
            for at in range(200):
                nbd.begin(WRITE, at * SECTOR, data=bytes([at]) * SECTOR)
            while nbd.going:
                same("an error", nbd.reply()[1], 0)
            same("what was written", nbd.read(0, 200 * SECTOR), b"".join(bytes([at]) * SECTOR for at in range(200)))
            nbd.leave()
        attached = [answer for answer in (looked(place.host, f"show step {at}") for at in range(1, 900)) if answer.endswith(" attach 1 0 4")]
        same("whether it has attached more than 5 times", len(attached) > 5, True)
        bridge.quiet()


def many_connections(place):
    """64 connections at a time are answered, one more ends at once; as many as there are seats may go on, the others are told; and a seat
    that is left is another's."""
    with place.bridge(before="import bfqnbd; bfqnbd.TOLD_AGAIN = 3600") as bridge, contextlib.ExitStack() as stack:
        all64 = [stack.enter_context(bridge.connect()).greet() for _ in range(64)]
        for nbd in all64:
            same("INFO", nbd.asks(INFO, named(b""))[-1][0], ACK)
        with bridge.connect() as one_more:
            one_more.ends()
        for nbd in all64[:4]:
            nbd.open()
        for nbd in all64[4:10]:
            same("no seat", nbd.asks(GO, named(b""))[0][0], POLICY)
        # Of so many one line tells, here for longer than a second.
        bridge.says("no seat is free, of 4: a connection is refused")
        bridge.quiet()
        same("a seat", all64[1].read(SECTOR, SECTOR), sector_of(1))
        all64[2].leave()
        all64[2].socket.close()
        until = time.monotonic() + SECONDS
        while all64[5].asks(GO, named(b""))[-1][0] != ACK:
            if time.monotonic() > until:
                raise Wrong("a seat that was left does not come back")
            time.sleep(0.02)
        same("its seat", all64[5].read(SECTOR, SECTOR), sector_of(1))


def held(place):
    """While the host is held GO waits, and requests do; INFO, LIST and the export look do not. Who goes away in his handshake leaves no
    trace."""
    with place.bridge("--image", place.image) as bridge, bridge.opened() as before:
        before.write(0, b"A" * SECTOR)
        with place.host.operator() as operator:
            operator.asks((HOLD, moved(5, 5)))
            before.begin(READ, 0, SECTOR)
            with bridge.connect() as nbd, bridge.connect() as goes_away:
                nbd.greet()
                same("INFO", nbd.asks(INFO, named(b""))[-1][0], ACK)
                same("LIST", nbd.asks(LIST)[-1][0], ACK)
                nbd.send(option(GO, named(b"g0p1")))
                goes_away.greet().send(option(GO, named(b"")))
                nbd.waits()
                before.waits(0)
                with bridge.opened(b"look") as look:
                    same("by looks", look.read(0, 2 * SECTOR), b"A" * SECTOR + sector_of(1))
                goes_away.socket.close()
                operator.asks((RELEASE, DONE))
                same("GO", [nbd.reply_of_option(GO)[0] for _ in range(3)], [REP_INFO, REP_INFO, ACK])
                same("what waited", before.reply(), (2, 0, b"A" * SECTOR))
                same("the other one", nbd.read(SECTOR, SECTOR), sector_of(1))
                before.leave()
        for _ in range(8):
            goes_on(bridge)
        bridge.quiet()


def frozen_reader(place):
    """A client that asks and never reads is owed no more than 64 MiB, and nobody else notices. When it goes away its seat comes back."""
    with place.bridge("--seats", "0-1") as bridge, bridge.opened() as deaf:
        deaf.socket.settimeout(1)
        asked = 0
        with contextlib.suppress(socket.timeout):
            for _ in range(100_000):
                deaf.send(request(READ, 0, 64 * SECTOR))
                asked += 1
        same("whether it is heard no more at last", asked < 20_000, True)
        memory = max(resident(pid) for pid in processes_of(bridge.process.pid))
        same(f"whether {memory >> 20} MiB are few", memory < 160 * MIB, True)
        goes_on(bridge)
        deaf.socket.close()
        for _ in range(4):
            goes_on(bridge)


def processes_of(parent):
    """A process and those that it has started."""
    with open(f"/proc/{parent}/task/{parent}/children", encoding="ascii") as file:
        return [parent, *map(int, file.read().split())]


def resident(pid):
    """The bytes of memory that a process has."""
    with open(f"/proc/{pid}/statm", encoding="ascii") as file:
        return int(file.read().split()[1]) * os.sysconf("SC_PAGE_SIZE")


def under_way(bridge, host, count):
    """A client with requests that wait at a frozen host."""
    nbd = bridge.opened()
    host.operates((FREEZE, DONE))
    for at in range(count):
        nbd.begin(WRITE if at % 2 else READ, at * SECTOR, SECTOR, b"w" * SECTOR if at % 2 else b"")
    nbd.waits(0.2)
    return nbd


def host_ends(place, act):
    """The host stops or is killed: what is under way hears ESHUTDOWN, its connection ends, and the bridge ends with status 0."""
    with place.bridge() as bridge:
        with bridge.connect() as idle, under_way(bridge, place.host, 40) as nbd:
            idle.greet()
            act(place.host)
            errors = [nbd.reply()[1] for _ in range(40)]
            same("the errors", errors, [ESHUTDOWN] * 40)
            nbd.ends()
        bridge.says("the host: ")
        bridge.ended()


def stopped(place):
    """The operator stops the host."""
    def act(host):
        with host.operator() as operator:
            operator.send(STOP)
    host_ends(place, act)


def killed(place):
    """The host is killed; and an idle bridge ends with it, too."""
    host_ends(place, lambda host: host.process.kill())


def idle_end(place):
    """A bridge without a client ends with its host."""
    with place.bridge() as bridge:
        place.host.stop()
        bridge.ended()


def idle_end_without_looks(place):
    """So does one whose host has no socket for looks, also if that is killed and its sockets stay."""
    with place.bridge("--image", place.image) as bridge:
        place.host.stop()
        bridge.ended()
    place.host = Served(place.program, place.image, place.sockets, "--no-inspect", clients=4)
    with place.bridge("--image", place.image) as bridge:
        place.host.process.kill()
        bridge.ended()


def another_host(place):
    """Another host begins in the folder, whose device is longer, before the bridge sees that its own has ended, here for an hour: a client
    is not served with the old size, by looks neither, and the bridge ends."""
    for name in (b"", b"look"):
        with place.bridge("--image", place.image, before="import bfqnbd, bfqnbd_watch; bfqnbd.EACH = bfqnbd_watch.SELDOM = 3600") as bridge:
            place.host.stop()
            folder = tempfile.mkdtemp(dir=place.folder)
            with Served(place.program, image_of(folder, 2 * SECTORS), place.sockets, clients=4), bridge.connect() as nbd:
                same("a client", nbd.greet().asks(GO, named(name))[0], (SHUTDOWN, b"the host has ended"))
                bridge.ended()
        place.host = Served(place.program, place.image, place.sockets, clients=4)


def words(place):
    """Bad words are status 2, no host 3, a socket that cannot be had 7; a socket at which nobody listens is replaced, and others stay."""
    def ends(status, *given, says=""):
        ran = subprocess.run([sys.executable, BRIDGE, *given], capture_output=True, text=True, timeout=SECONDS, check=False,
                             env=ENVIRONMENT)
        same(f"the end of {given[2:]}", (ran.returncode, ran.stdout, says in ran.stderr), (status, "", True))

    where, path = ["--dir", place.sockets], os.path.join(place.folder, "nbd")
    odd = [["--depth", "33"], ["--depth", "0"], ["--seats", "3-1"], ["--seats", "0-16"], ["--seats", "x"], ["--after-undo", "go"], ["--read"],
           ["--image", os.path.join(place.folder, "none")], ["--log", place.image], ["--log", "/nowhere/log"]]
    with concurrent.futures.ThreadPoolExecutor(4) as pool:
        # What goes wrong there is raised here.
        collections.deque(pool.map(lambda given: ends(2, *where, "--socket", path, *given), odd), 0)
    ends(2, *where, "--socket", path, "--depth", "33", says="N is 1 to 32, and not '33'\n")
    ends(2, *where)
    ends(2, *where, "--socket", path, "--seats", "0-9", says="the host has no seat 4")
    with open(os.path.join(place.folder, "short"), "wb") as file:
        file.write(bytes(SECTOR))
    ends(2, *where, "--socket", path, "--image", file.name, says="512 bytes")
    ends(3, "--dir", place.folder, "--socket", path, says="no host serves there")
    ends(7, *where, "--socket", place.image)
    ends(7, *where, "--socket", "/nowhere/nbd")
    ends(7, *where, "--socket", place.folder + "/x" * 100)
    same("the image", os.path.getsize(place.image), SIZE)
    with place.bridge(path=path) as bridge:
        ends(7, *where, "--socket", path)
        goes_on(bridge)
        bridge.process.kill()
        bridge.process.wait()
    with place.bridge(path=path, wanted=f"bfqnbd: serving {path}, 512 sectors, seats 0 to 3") as bridge:
        goes_on(bridge)
        bridge.process.terminate()
        bridge.ended()


def not_allowed(place):
    """Who may not use the sockets is told so, and not that there is no host."""
    os.chmod(place.sockets, 0)
    # To root all is allowed, so it becomes another user, by a number that stands for nobody, once it needs no file of Python's any more.
    script = (f"import os, sys; sys.path.insert(0, {os.path.dirname(BRIDGE)!r}); import bfqnbd; given = bfqnbd.words(); "
              "os.getuid() or os.setuid(65534); bfqnbd.words = lambda: given; sys.exit(bfqnbd.main())")
    ran = subprocess.run([sys.executable, "-c", script, "--dir", place.sockets, "--socket", os.path.join(place.folder, "nbd")],
                         capture_output=True, text=True, timeout=SECONDS, check=False, env=ENVIRONMENT)
    os.chmod(place.sockets, 0o700)
    same("the end", (ran.returncode, ran.stderr), (3, f"bfqnbd: {place.sockets}/operator: Permission denied\n"))


def no_way_in(place):
    """At a seat where as many connections wait as the system lets wait a client is told so after a time, here after one second."""
    with open("/proc/sys/net/core/somaxconn", encoding="ascii") as file:
        many = int(file.read())
    # The files that this process and those that it starts have besides.
    if resource.getrlimit(resource.RLIMIT_NOFILE)[0] < many + 200:
        print(f"skipped: nbd: no_way_in: a process may not have {many + 200} files here")
        return
    with place.bridge("--seats", "1", before="import bfqnbd_session; bfqnbd_session.TO_CONNECT = 1") as bridge, contextlib.ExitStack() as stack:
        waiting = contextlib.ExitStack()
        stack.enter_context(waiting)
        with contextlib.suppress(BlockingIOError):
            for _ in range(2 * many):
                one = waiting.enter_context(socket.socket(socket.AF_UNIX))
                one.setblocking(False)
                one.connect(place.host.path("client1"))
        with bridge.connect() as nbd:
            kind, text = nbd.greet().asks(GO, named(b""))[0]
            same("a client", (kind, text.endswith(b"time limit has passed")), (SHUTDOWN, True))
        waiting.close()
        goes_on(bridge)


def without_looks(place):
    """A host without a socket for looks: the size is that of the image, there is no export look, and what was undone is noticed by what
    comes. Without an image no size is known."""
    ran = subprocess.run([sys.executable, BRIDGE, "--dir", place.sockets, "--socket", os.path.join(place.folder, "nbd")],
                         capture_output=True, text=True, timeout=SECONDS, check=False, env=ENVIRONMENT)
    same("the end", (ran.returncode, "give --image FILE" in ran.stderr), (3, True))
    # For an hour the bridge does not see by itself that the host has ended, so that a client is told first.
    with place.bridge("--image", place.image, before="import bfqnbd; bfqnbd.EACH = 3600") as bridge:
        with bridge.connect() as nbd:
            same("LIST", nbd.greet().asks(LIST), [(SERVER, b"\0\0\0\0"), (ACK, b"")])
            same("its size", nbd.open().size, SIZE)
            nbd.write(0, b"x" * 700)
            with place.host.operator() as operator:
                operator.send(HOLD)
                operator.reply()
                operator.send(undo(1))
                operator.reply()
                operator.asks((RELEASE, DONE))
            # Its last Reap was undone, so the next one hears of the same write again.
            nbd.send(request(READ, 0, 1))
            nbd.ends()
        bridge.says("steps were undone")
        place.host.kill()
        with bridge.connect() as nbd:
            same("no host", nbd.greet().asks(GO, named(b""))[0][0], SHUTDOWN)
        bridge.ended()


def told_whole(_):
    """A line for a person goes out in one write, whether Python buffers or not: connections say theirs at the same time."""
    script = f"import sys; sys.path.insert(0, {os.path.dirname(BRIDGE)!r}); import bfqnbd_line; bfqnbd_line.tell('a line')"
    for words in (["-E"], ["-E", "-u"]):
        # Each write to such a socket is a message of its own.
        ours, theirs = socket.socketpair(socket.AF_UNIX, socket.SOCK_SEQPACKET)
        with ours:
            with theirs:
                subprocess.run([sys.executable, *words, "-c", script], stderr=theirs, timeout=SECONDS, check=True)
            same("its first write", ours.recv(4096), b"bfqnbd: a line\n")
            same("its end", ours.recv(4096), b"")


class OfSize:
    """Answers looks at the sectors of a device of this size, as a host does of which nothing is stored."""

    def __init__(self, size):
        self.size, self.count = size, 0

    def looks(self, lines):
        self.count += 1
        return [f"{line} {'base' if int(line.split(' ')[1]) < self.size else 'none'}" for line in lines]


def sizes(place):
    """The size of a device is found by looks, whatever it is, up to 2^55 - 1 sectors; a host of 1,000 sectors tells its own."""
    for size in (0, 1, 2, 3, 4, 63, 64, 65, 1_000, 131_071, 2**32, 2**40 + 7, 2**55 - 2, 2**55 - 1):
        answers = OfSize(size)
        same("the size", size_of(answers), size)
        same(f"whether {answers.count} times are few", answers.count < 15, True)
    sockets = os.path.join(place.folder, "others")
    os.mkdir(sockets)
    with Served(place.program, image_of(place.folder, 1_000), sockets, clients=1), Bridge(sockets, path=os.path.join(place.folder, "nbd")) as bridge:
        with bridge.opened() as nbd:
            same("its size", nbd.size, 1_000 * SECTOR)
            same("its last byte", nbd.read(1_000 * SECTOR - 1, 1), sector_of(999)[:1])


def log(place):
    """The log has each write and each discard that is completed, with its bio and its bytes."""
    path = os.path.join(place.folder, "log")
    with place.bridge("--log", path) as bridge:
        for _ in range(2):
            with bridge.opened() as nbd:
                nbd.write(4 * SECTOR, b"A" * (65 * SECTOR))
                nbd.write(9 * SECTOR + 1, b"B")
                nbd.clear(TRIM, 40 * SECTOR, 65 * SECTOR)
                nbd.read(0, SIZE)
                nbd.leave()
    with open(path, "rb") as file:
        data = file.read()
    same("its mode", stat.S_IMODE(os.stat(path).st_mode), 0o600)
    found, copy = [], bytearray(content())
    while data:
        bio, start, count = struct.unpack_from(">QQI", data)
        found.append((start, count))
        copy[start * SECTOR:(start + count) * SECTOR] = data[20:20 + count * SECTOR]
        same("a bio that the host has", looked(place.host, f"show step {bio}").split(" ")[2:4],
             [str(bio), "discard" if start in (40, 104) else "write"])
        data = data[20 + count * SECTOR:]
    # A piece has 64 sectors at most. Both may be completed in either order.
    same("its writes", sorted(found), sorted([(4, 64), (68, 1), (9, 1), (40, 64), (104, 1)] * 2))
    with place.bridge() as bridge, bridge.opened() as nbd:
        same("what it comes to", nbd.read(0, SIZE), bytes(copy))


def log_ends(place):
    """The system takes a third record in part, or not at all, here by a limit of the length of a file. The log ends with the second one, for
    all connections, also where a shorter record had room. One line tells it, and writes go on."""
    whole = 20 + 64 * SECTOR
    for room, why in ((1_000, "not all was taken"), (0, "File too large")):
        path, limit = os.path.join(place.folder, f"log-{room}"), 2 * whole + room
        few = f"import bfqnbd, resource; resource.setrlimit(resource.RLIMIT_FSIZE, ({limit}, {limit}))"
        with place.bridge("--log", path, before=few) as bridge, bridge.opened() as one, bridge.opened() as two:
            one.write(0, b"A" * (64 * SECTOR))
            two.write(64 * SECTOR, b"B" * (64 * SECTOR))
            one.write(128 * SECTOR, b"C" * (64 * SECTOR))
            bridge.says("seat 0: the log ends before bio ", why)
            one.write(200 * SECTOR, b"D" * SECTOR)
            two.write(201 * SECTOR, b"E" * SECTOR)
            goes_on(bridge)
            bridge.quiet()
        with open(path, "rb") as file:
            data = file.read()
        found = [(*struct.unpack_from(">QI", data, at + 8), data[at + 20:at + whole]) for at in (0, whole)]
        same(f"the log with {room} bytes of room", (len(data), found),
             (2 * whole, [(0, 64, b"A" * (64 * SECTOR)), (64, 64, b"B" * (64 * SECTOR))]))


def goes_with_its_bridge(place):
    """A bridge that is killed leaves no process behind, also of a client that waits, and gives its seats back."""
    with place.bridge("--image", place.image) as bridge, bridge.opened() as one, bridge.opened(b"look") as look, bridge.connect() as other:
        other.greet()
        children = processes_of(bridge.process.pid)[1:]
        bridge.process.kill()
        one.ends()
        look.ends()
        other.socket.close()
        until = time.monotonic() + SECONDS
        while any(os.path.exists(f"/proc/{pid}/exe") for pid in children):
            if time.monotonic() > until:
                raise Wrong("a process is left")
            time.sleep(0.05)
    with place.bridge() as bridge:
        goes_on(bridge)


# The words of the host of a run, if it wants others.
HOSTS = {**{name: ("--history", "22") for name in ("full", "full_with_all_seats", "full_and_not_told")}, "bad_sectors": ("--bad", "100+8"),
         "without_looks": ("--no-inspect",), "idle_end_without_looks": ("--no-inspect",)}
RUNS = (handshake, any_byte, clears, long_ones, classes, bad_input, typos, cut_anywhere, limit_of_frames, many_connections, held, frozen_reader,
        stopped, killed, idle_end, idle_end_without_looks, another_host, *ERROR_RUNS, words, not_allowed, no_way_in, without_looks, told_whole,
        sizes, log, log_ends, goes_with_its_bridge, *UNDO_RUNS)


def nbd_runs(program, has_all):
    """The name of each run, and what was wrong with it."""
    runs = {act.__name__: act for act in RUNS}
    runs["changed_streams"] = lambda place: changed_streams(place, MANY if has_all else FEW)
    for name, act in runs.items():
        folder = tempfile.mkdtemp(prefix="bfq-")
        try:
            with Place(program, folder, *HOSTS.get(name, ())) as place:
                act(place)
            yield f"nbd: {name}", []
        except (Wrong, OSError, ValueError, LookupError, struct.error, subprocess.SubprocessError) as fault:
            yield f"nbd: {name}", [f"{type(fault).__name__}: {fault}"]
        finally:
            shutil.rmtree(folder)
