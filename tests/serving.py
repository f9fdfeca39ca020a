"""Runs of `bfqhost serve`, by its sockets: what it does, and what comes of each kind of bad input.

Each run has a folder of its own. The expected frames, texts and statuses come from the rules of frames, words and sockets
(docs/FORMATS.md), and not from the program's own output.
"""

import os
import re
import resource
import shutil
import signal
import socket
import stat
import subprocess
import sys
import tempfile
import time

from served import (ATTACH, BEST_EFFORT, CLOSED, DONE, FREEZE, FULL, HOLD, IDLE, LEAVE, LEFT, NOT_HELD, REAL_TIME, RELEASE, SECONDS, STOP, TAKEN,
                    THAW, VERSION, Served, Talk, Wrong, attached, discard, discarded, failed, fetch, image_of, moved, queued, read, reap, redo,
                    same, sector_of, store, undo, written)

CLIENT = os.path.join(os.path.dirname(os.path.dirname(os.path.abspath(__file__))), "clients", "bfqclient.py")
REFUSED = b"words: refused\n"
NO_IMAGE = b"image: cannot be read\n"
NO_SOCKET = b"socket: failed\n"
BAD_WORDS, SOCKET_FAULT, NO_MEMORY, DONE_STATUS = 6, 7, 5, 0

# Words of a run that is refused before it serves, and what it says; IMAGE and DIR are a good image and a good folder.
GOOD = ["serve", "--image", "IMAGE", "--dir", "DIR"]
WORDS = [
    ("no image", ["serve", "--dir", "DIR"], REFUSED),
    ("no folder", ["serve", "--image", "IMAGE"], REFUSED),
    ("sectors", [*GOOD, "--sectors", "10"], REFUSED),
    ("another option", [*GOOD, "--recorder", "x"], REFUSED),
    ("a record with no name", [*GOOD, "--record"], REFUSED),
    ("two records", [*GOOD, "--record", "x", "--record", "y"], REFUSED),
    ("a record of sim", ["sim", "--record", "x"], REFUSED),
    ("an option twice", [*GOOD, "--dir", "DIR"], REFUSED),
    ("clients with a leading zero", [*GOOD, "--clients", "04"], REFUSED),
    ("clients with a sign", [*GOOD, "--clients", "+4"], REFUSED),
    ("workers that are no number", [*GOOD, "--workers", "two"], REFUSED),
    ("workers past 2^64", [*GOOD, "--workers", str(2**64)], REFUSED),
    ("a word behind", [*GOOD, "now"], REFUSED),
    ("two dashes behind", [*GOOD, "--"], REFUSED),
    ("another scheduler", [*GOOD, "--scheduler", "kyber"], REFUSED),
    ("clients of sim", ["sim", "--clients", "4"], REFUSED),
    ("no path for looks, of sim", ["sim", "--no-inspect"], REFUSED),
    ("no path for looks, twice", [*GOOD, "--no-inspect", "--no-inspect"], REFUSED),
    ("no path for looks, with a value", [*GOOD, "--no-inspect=1"], REFUSED),
    ("a path for looks", [*GOOD, "--inspect"], REFUSED),
    ("a client's option with no path for looks", [*GOOD, "--no-inspect", "--clients", "0"], b"config: clients\n"),
    ("no clients", [*GOOD, "--clients", "0"], b"config: clients\n"),
    ("17 clients", [*GOOD, "--clients", "17"], b"config: clients\n"),
    ("2^64 - 1 clients", [*GOOD, "--clients", str(2**64 - 1)], b"config: clients\n"),
    ("257 clients", [*GOOD, "--clients", "257"], b"config: clients\n"),
    ("a delay of more than a second", [*GOOD, "--delay", "1000001"], b"config: delay\n"),
    ("2^32 microseconds", [*GOOD, "--delay", str(2**32)], b"config: delay\n"),
    ("2^64 - 1 microseconds", [*GOOD, "--delay", str(2**64 - 1)], b"config: delay\n"),
    ("a delay with a unit", [*GOOD, "--delay", "2ms"], REFUSED),
    ("a delay of sim", ["sim", "--delay", "1"], REFUSED),
    ("no runs", [*GOOD, "--bad", ""], REFUSED),
    ("a run with no count", [*GOOD, "--bad", "5"], REFUSED),
    ("a run with a sign more", [*GOOD, "--bad", "5++1"], REFUSED),
    ("runs and a comma more", [*GOOD, "--bad", "5+1,"], REFUSED),
    ("a run past 2^64", [*GOOD, "--bad", f"{2**64}+1"], REFUSED),
    ("a run of 2^32 sectors", [*GOOD, "--bad", f"0+{2**32}"], REFUSED),
    ("a run with a blank", [*GOOD, "--bad", "5 +1"], REFUSED),
    ("bad sectors of sim", ["sim", "--bad", "5+1"], REFUSED),
    ("a run of no sector", [*GOOD, "--bad", "5+1,6+0"], b"config: bad\n"),
    ("17 runs", [*GOOD, "--bad", ",".join(["5+1"] * 17)], b"config: bad\n"),
    ("the delay before bad sectors", [*GOOD, "--bad", "5+0", "--delay", "1000001"], b"config: delay\n"),
    ("bad sectors before the image", ["serve", "--image", "/nowhere", "--dir", "DIR", "--bad", "5+0"], b"config: bad\n"),
    ("clients before the delay", [*GOOD, "--delay", "1000001", "--clients", "0"], b"config: clients\n"),
    ("the delay before the image", ["serve", "--image", "/nowhere", "--dir", "DIR", "--delay", "1000001"], b"config: delay\n"),
    ("no workers", [*GOOD, "--workers", "0"], b"config: workers\n"),
    ("5 workers", [*GOOD, "--workers", "5"], b"config: workers\n"),
    ("257 workers", [*GOOD, "--workers", "257"], b"config: workers\n"),
    ("workers before clients", [*GOOD, "--clients", "0", "--workers", "0"], b"config: workers\n"),
    ("first-vtime before workers", [*GOOD, "--workers", "0", "--first-vtime", str(2**62 + 1)], b"config: first_vtime\n"),
    ("tags", [*GOOD, "--tags", "65"], b"config: tags\n"),
    ("no history", [*GOOD, "--history", "0"], b"config: history_max\n"),
    ("configuration before the image", ["serve", "--image", "/nowhere", "--dir", "DIR", "--clients", "0"], b"config: clients\n"),
    ("words before the configuration", [*GOOD, "--clients", "0", "--workers", "x"], REFUSED),
    ("no such image", ["serve", "--image", "/nowhere", "--dir", "DIR"], NO_IMAGE),
    ("a folder as image", ["serve", "--image", "/", "--dir", "DIR"], NO_IMAGE),
    ("a character device as image", ["serve", "--image", "/dev/zero", "--dir", "DIR"], NO_IMAGE),
    ("the image before the folder", ["serve", "--image", "/nowhere", "--dir", "/nowhere"], NO_IMAGE),
    ("no such folder", ["serve", "--image", "IMAGE", "--dir", "/nowhere"], NO_SOCKET),
    ("a file as folder", ["serve", "--image", "IMAGE", "--dir", "IMAGE"], NO_SOCKET),
    ("an empty folder name", ["serve", "--image", "IMAGE", "--dir", ""], NO_SOCKET),
] + [(f"{field} before all behind it", [*GOOD, *(f"{words} --clients 0 --workers 0").split()], f"config: {field}\n".encode())
     for field, words in [("nr_requests", "--nr-requests 0 --tags 0"), ("tags", "--tags 0 --max-budget 1"),
                          ("max_budget", "--max-budget 1 --first-budget 1"), ("first_budget", "--first-budget 1 --timeout 0"),
                          ("timeout", "--timeout 0 --history 0"), ("history_max", f"--history 0 --first-vtime {2**63}"),
                          ("first_vtime", f"--first-vtime {2**63}")]]


def refused(program, words, said, folder):
    """A run that must say so, do nothing, and leave nothing."""
    image, sockets = image_of(folder), os.path.join(folder, "sockets")
    os.mkdir(sockets)
    given = [word.replace("IMAGE", image).replace("DIR", sockets) for word in words]
    ended = subprocess.run([program, *given], stdin=subprocess.DEVNULL, capture_output=True, timeout=SECONDS, check=False)
    same("standard error", ended.stderr, said)
    same("standard output", ended.stdout, b"")
    same("the status", ended.returncode, SOCKET_FAULT if said == NO_SOCKET else BAD_WORDS)
    same("the folder", os.listdir(sockets), [])


def two_clients(host):
    """Two clients, each at its own socket, at once: one writes and reads back, the other reads the image. Then Stop."""
    with host.talk(0) as first, host.talk(1) as second:
        first.asks((ATTACH, attached(1)))
        second.asks((ATTACH, attached(2)))
        # A store of one sector with three bytes has a frame. Its call is refused, which takes no serial.
        first.asks(("00000016 03 0000000000000001 0000000000000005 0001 070707", "e0 0d"))
        first.send(store(1, 5, 1, 0x41))
        first.hears(queued(3))
        first.send(reap(1))
        first.hears(written(3))
        # Attach, Attach, Submit, Dispatch, Finish and Reap took six serials.
        first.asks((fetch(1, 5, 1), queued(7)))
        first.send(reap(1))
        first.hears(read(7, b"\x41" * 512))
        second.asks((fetch(2, 9, 2), queued(11)))
        second.send(reap(2))
        second.hears(read(11, sector_of(9) + sector_of(10)))
    host.stop()


def stepped(host):
    """The operator holds, undoes, redoes and releases while a client waits; then he undoes for good, and the client reads the image. A client
    that says nothing is in nobody's way, also at Stop."""
    with host.talk(1):
        with host.talk(0) as client, host.operator() as operator:
            client.asks((ATTACH, attached(1)), (store(1, 5, 1, 7), queued(2)), (reap(1), written(2)))
            operator.asks((RELEASE, NOT_HELD), (HOLD, moved(5, 5)), (undo(1), moved(4, 5)), (redo(1), moved(5, 5)), (FREEZE, "e1 29"))
            client.send(fetch(1, 5, 1))
            operator.asks((RELEASE, DONE))
            client.hears(queued(6))
            client.asks((reap(1), read(6, b"\x07" * 512)))
            # Undone are the store's Reap and Finish and all that came after.
            operator.asks((HOLD, moved(9, 9)), (undo(6), moved(3, 9)), (RELEASE, DONE))
            # The request in flight was Taken and answered before, so its worker takes it again.
            client.asks((reap(1), written(2)), (fetch(1, 6, 1), queued(12)), (reap(1), read(12, sector_of(6))))
        host.stop()


def by_bfqctl(host, bfqctl):
    """The operator's command meets the host: each call on a connection of its own."""
    for words, text, status in [(["freeze"], "done\n", 0), (["freeze"], "refused 22\n", 1), (["thaw"], "done\n", 0),
                                (["group-make", "0", "100"], "group 1\n", 0), (["hold"], "moved 3 3\n", 0), (["undo", "3"], "moved 0 3\n", 0),
                                (["thaw"], "notyet 41\n", 1), (["redo", "1"], "moved 1 3\n", 0), (["release"], "done\n", 0),
                                (["stop"], "closed\n", 0)]:
        ended = subprocess.run([bfqctl, "--socket", host.path("operator"), *words], stdin=subprocess.DEVNULL, capture_output=True, text=True,
                               timeout=SECONDS, check=False)
        same(" ".join(words), (ended.stdout, ended.stderr, ended.returncode), (text, "", status))
    host.ended()


def bad_frames(host):
    """Whatever a client sends that is no frame, it gets no answer to it and one Leave, and its path serves the next. So the serial of the
    next session is two higher each time. Another client does not notice."""
    with host.talk(1) as other:
        other.asks((ATTACH, attached(1)))
        serial = 2
        for bad in ["00000000", "00008014", "ffffffff", "00000001 14", "00000002 05 00", "00000001 70", VERSION, REAL_TIME, discard(2, 4, 2),
                    "00000003 01 00"]:
            with host.talk(0) as client:
                client.asks((ATTACH, attached(serial)))
                client.send(bad)
                if bad == "00000003 01 00":
                    client.socket.shutdown(socket.SHUT_WR)
                client.ends()
            serial += 2
        for size in range(23):
            # A peer that goes away between two frames, or inside one.
            with host.talk(0) as client:
                client.asks((ATTACH, attached(serial)))
                client.socket.sendall(bytes.fromhex(fetch(serial, 0, 1))[:size])
            serial += 2
        # Once the next is met the last Leave was made.
        with host.talk(0) as client:
            client.asks((ATTACH, attached(serial)))
            other.asks((fetch(1, 3, 1), queued(serial + 1)), (reap(1), read(serial + 1, sector_of(3))))
    with host.operator() as operator:
        operator.send("00000003 01 00 04")
        operator.ends()
    host.stop()


def discards(host):
    """A client of version 2 writes, discards and reads zeros. What says the version has no answer and no serial, and comes byte by byte, as the
    first calls do. After an undo a client of version 1 goes on with the session: it reaps the discard, and can make none."""
    with host.operator() as operator:
        # The operator was met, so his connection is counted.
        operator.asks((RELEASE, NOT_HELD))
        before = host.connections()
        with host.talk(0) as client:
            for byte in bytes.fromhex(VERSION + ATTACH + discard(1, 4, 2)):
                client.send(f"{byte:02x}")
            client.hears(attached(1), queued(2))
            client.asks((reap(1), discarded(2)), (store(1, 5, 2, 0x41), queued(6)), (reap(1), written(6)), (discard(1, 6, 1), queued(10)),
                        (reap(1), discarded(10)), (fetch(1, 3, 4), queued(14)),
                        (reap(1), read(14, sector_of(3) + bytes(512) + b"\x41" * 512 + bytes(512))))
        # Attach and four steps for each of four bios, and the Leave.
        host.lets_go(before)
        # What stands is the Attach, and the first discard up to its Finish.
        operator.asks((HOLD, moved(18, 18)), (undo(14), moved(4, 18)), (RELEASE, DONE))
        with host.talk(0) as client:
            client.asks((ATTACH, TAKEN), (reap(1), discarded(2)), (fetch(1, 4, 1), queued(20)), (reap(1), read(20, bytes(512))))
            client.send(discard(1, 4, 2))
            client.ends()
    host.stop()


def versions(host):
    """Each class by a frame, and what says no version: then nothing is answered, and the session that never was takes no serial."""
    with host.talk(0) as first, host.talk(1) as second, host.talk(2) as third:
        for serial, (talk, attach) in enumerate([(first, REAL_TIME), (second, IDLE), (third, ATTACH)], 1):
            talk.send(VERSION)
            talk.asks((attach, attached(serial)))
        with Talk(host.path("inspect")) as looks:
            for seat, name in enumerate(["rt", "idle", "be"]):
                look = f"class {seat} {name}\n".encode()
                looks.socket.sendall(f"class {seat}\n".encode())
                same(f"the class at seat {seat}", looks.take(len(look)), look)
        for bad in ["00000001 07", "00000002 07 01", "00000002 07 03", "00000003 07 02 00", REAL_TIME, discard(1, 4, 2), VERSION + VERSION,
                    VERSION + "00000001 07", VERSION + BEST_EFFORT, VERSION + "00000003 08 00 07", VERSION + "00000002 09 04"]:
            with host.talk(3) as client:
                client.send(bad)
                client.ends()
        for size in range(7):
            # A peer that goes away inside of what says the version, or behind it.
            with host.talk(3) as client:
                client.socket.sendall(bytes.fromhex(VERSION)[:size])
        with host.talk(3) as client:
            client.send(VERSION)
            client.asks((ATTACH, attached(4)))
    with host.operator() as operator:
        operator.send(VERSION)
        operator.ends()
    host.stop()


def peer_that_never_reads(host):
    """It stands still alone. Once it goes away there is one Leave, and its path serves the next."""
    with host.talk(0) as client, host.talk(1) as other:
        client.asks((ATTACH, attached(1)))
        client.socket.settimeout(0.5)
        sent = 0
        try:
            while sent < 1 << 24:
                sent += client.socket.send(4096 * bytes.fromhex(reap(9)))
        except TimeoutError:
            pass
        same("whether the socket is full", sent < 1 << 24, True)
        other.asks((ATTACH, attached(2)), (fetch(2, 3, 1), queued(3)), (reap(2), read(3, sector_of(3))))
        host.operates((FREEZE, DONE), (THAW, DONE))
        # Once the next client is met there, the one Leave of the first was made: serials 7 and 8 are the freeze and the thaw.
        client.socket.close()
        with host.talk(0) as after:
            after.asks((ATTACH, attached(10)))
    with host.talk(0) as client:
        client.send(ATTACH)
        client.reply()
        client.socket.settimeout(0.5)
        try:
            while True:
                client.socket.send(4096 * bytes.fromhex(reap(9)))
        except TimeoutError:
            pass
        host.stop()


def second_connection(host):
    """It waits until the first ends."""
    with host.talk(0) as first, host.talk(0) as second:
        second.send(ATTACH)
        first.asks((ATTACH, attached(1)))
        second.socket.settimeout(0.3)
        try:
            raise Wrong(f"the second connection was answered {second.reply().hex()}")
        except TimeoutError:
            second.socket.settimeout(SECONDS)
        first.asks((LEAVE, LEFT))
        first.socket.close()
        second.hears(attached(3))
    host.stop()


def bad_frame_while_held(host):
    """The connection closes at Release, as its Leave waits till then."""
    with host.talk(0) as client, host.operator() as operator:
        client.asks((ATTACH, attached(1)))
        operator.asks((HOLD, moved(1, 1)))
        client.send("00000000")
        client.socket.settimeout(0.3)
        try:
            raise Wrong(f"the connection ended while held: {client.take(1)!r}")
        except TimeoutError:
            client.socket.settimeout(SECONDS)
        operator.asks((RELEASE, DONE))
        client.ends()
    host.stop()


def stopped_with_clients(host):
    """Clients that wait when the host ends hear nothing more, and are let go."""
    with host.talk(0) as waiting, host.talk(1) as idle:
        waiting.asks((ATTACH, attached(1)), (fetch(1, 0, 1), queued(2)), (reap(1), read(2, sector_of(0))))
        host.operates((FREEZE, DONE))
        waiting.send(fetch(1, 1, 1))
        # Its bytes are to be read before the host ends: if a socket is closed before that, its peer hears of a reset, and of no end.
        waiting.waits()
        idle.asks((ATTACH, attached(7)))
        with host.operator() as operator:
            operator.asks((STOP, CLOSED))
            waiting.ends()
            idle.ends()
    host.ended()


def seats_of_their_paths(host):
    """Each path has the seat of its number. When many clients wait the seats are visited from seat 0 on, once the operator was answered."""
    with host.operator() as operator:
        operator.asks((HOLD, moved(0, 0)))
        talks = [host.talk(number) for number in range(4)]
        for talk in reversed(talks):
            talk.send(ATTACH)
        # Their calls are to be staged before the host goes on.
        time.sleep(0.2)
        operator.asks((RELEASE, DONE))
        for number, talk in enumerate(talks):
            talk.hears(attached(number + 1))
        with Talk(host.path("inspect")) as looks:
            for number in range(5):
                # The fourth client has the last seat that is taken.
                look = f"seat {number} {f'{number + 1} 0 4 0 0 here' if number < len(talks) else 'none'}\n".encode()
                looks.socket.sendall(f"show seat {number}\n".encode())
                same(f"who sits at seat {number}", looks.take(len(look)), look)
        for talk in talks:
            talk.socket.close()
    host.stop()


def peer_that_goes_while_its_call_waits(host):
    """Its path meets nobody until the call is answered; then the session is left, and the next connection can attach."""
    with host.operator() as operator:
        operator.asks((HOLD, moved(0, 0)))
        with host.talk(0) as gone:
            gone.send(ATTACH)
        with host.talk(0) as after:
            after.send(ATTACH)
            after.waits()
            operator.asks((RELEASE, DONE))
            # The Attach of who has gone took serial 1, and the Leave at the end of that connection 2.
            after.hears(attached(3))
            operator.asks((FREEZE, DONE))
            after.send(fetch(3, 5, 1))
        with host.talk(0) as last:
            last.send(ATTACH)
            last.waits()
            operator.asks((THAW, DONE))
            # The read is sent to the device, and the seat is taken till it is finished.
            until = time.monotonic() + SECONDS
            while (heard := last.reply().hex()) == TAKEN.replace(" ", "") and time.monotonic() < until:
                time.sleep(0.01)
                last.send(ATTACH)
            # Freeze, Thaw, the read's Submit, its Dispatch, the Leave and its Finish took 4 to 9.
            same("the next session", heard, attached(10).replace(" ", ""))
    host.stop()


def loaded_by_the_client(host):
    """The client's own command loads a host, with reads and writes, and tells how many were done and how long they took."""
    words = [sys.executable, CLIENT, host.path("client0"), "load", "--depth", "4", "--seconds", "0.5", "--sectors", "64", "--writes", "50"]
    ended = subprocess.run(words, stdin=subprocess.DEVNULL, capture_output=True, timeout=SECONDS, check=False, text=True)
    same("standard error and status", (ended.stderr, ended.returncode), ("", 0))
    told = re.fullmatch(r"([1-9]\d*) done in \d+\.\d s: \d+ a second, half within \d+ us, 99 of 100 within \d+ us\n", ended.stdout)
    same("what is told of the load", told is not None, True)
    count = int(told[1])
    with host.operator() as operator:
        operator.send(HOLD)
        steps = int.from_bytes(operator.reply()[1:5], "big")
    # Attach, Leave, and for each a submit and a reap; those that joined in one request have one dispatch and one finish.
    same(f"whether {steps} steps are those of {count}", 2 * count + 2 < steps <= 4 * count + 2, True)
    host.stop()


def restarted(program, image, folder):
    """Whoever hears that the host has ended may start another in the same folder."""
    for _ in range(20):
        host = Served(program, image, folder)
        with host.operator() as operator:
            operator.asks((STOP, CLOSED))
            with Served(program, image, folder) as after:
                after.stop()
        same("the status", host.process.wait(SECONDS), 0)
        host.kill()


def owner_alone(host):
    """Only the owner may use the sockets."""
    names = ["client0", "client1", "client2", "client3", "inspect", "operator"]
    for name in names:
        found = os.stat(host.path(name)).st_mode
        same(f"the mode of {name}", (stat.S_ISSOCK(found), stat.S_IMODE(found)), (True, 0o600))
    same("the folder", sorted(os.listdir(host.folder)), names)
    host.stop()


# What is done with a host of four clients and two workers.
DONE_WITH = [two_clients, stepped, bad_frames, discards, versions, peer_that_never_reads, peer_that_goes_while_its_call_waits,
             second_connection, bad_frame_while_held, stopped_with_clients, seats_of_their_paths, loaded_by_the_client, owner_alone]


def history_nearly_full(program, image, folder):
    """Nine tenths of 20 calls are 18. It says so once, and goes on till the history is full, which it says once, too; then even Hold is
    refused, and Stop is not. One worker is enough for a client that waits for each read."""
    with Served(program, image, folder, "--history", "20", workers=1) as host, host.talk(0) as client:
        client.asks((ATTACH, attached(1)))
        for serial in (2, 6, 10, 14):
            client.asks((fetch(1, 0, 1), queued(serial)), (reap(1), read(serial, sector_of(0))))
        client.asks((fetch(1, 0, 1), queued(18)))
        same("standard error", host.line(), "history: 18 of 20 calls")
        # The read is dispatched, and its Finish is the last call: the Reap waits for it.
        client.asks((reap(1), FULL))
        same("standard error", host.line(), "history: full, 20 calls")
        host.operates((HOLD, FULL))
        host.stop()


def sockets_left_behind(program, image, folder):
    """Those of a killed host are replaced, and those of a running one are not."""
    with Served(program, image, folder) as first:
        first.process.send_signal(signal.SIGTERM)
        same("the status after SIGTERM", first.process.wait(SECONDS), -signal.SIGTERM)
        same("the folder", sorted(os.listdir(folder)), ["client0", "client1", "client2", "client3", "inspect", "operator"])
    with Served(program, image, folder) as host, host.talk(0) as client:
        client.asks((ATTACH, attached(1)))
        fails(program, image, folder)
        client.asks((fetch(1, 1, 1), queued(2)), (reap(1), read(2, sector_of(1))))
        host.stop()


def fails(program, image, folder, *words, status=SOCKET_FAULT, said=NO_SOCKET, limits=None):
    """A run that must not come to serve."""
    words = ["serve", "--image", image, "--dir", folder, *words]
    ended = subprocess.run([program, *words], stdin=subprocess.DEVNULL, capture_output=True, timeout=SECONDS, check=False, preexec_fn=limits)
    same("the end", (ended.stdout, ended.stderr, ended.returncode), (b"", said, status))


def paths_of_the_user(program, image, folder):
    """A file, a folder, a link or a FIFO at a path stays as it is, and all sockets of the run are removed."""
    for name in ("operator", "client2", "inspect"):
        path = os.path.join(folder, name)
        with open(path, "w", encoding="ascii") as file:
            file.write("mine")
        fails(program, image, folder)
        same("the folder", os.listdir(folder), [name])
        with open(path, encoding="ascii") as file:
            same("the file", file.read(), "mine")
        os.unlink(path)
        os.mkdir(path)
        fails(program, image, folder)
        os.rmdir(path)
        os.symlink("nowhere", path)
        fails(program, image, folder)
        same("the link", os.readlink(path), "nowhere")
        os.unlink(path)
        os.mkfifo(path)
        fails(program, image, folder)
        same("the folder", os.listdir(folder), [name])
        os.unlink(path)


def clients_of_another(program, image, folder):
    """A host with more clients does not take the place of a running one. It meets the operator's path first, so it makes no connection to a
    client's path: that would end in a Leave, and free a seat whose session has none."""
    with Served(program, image, folder, clients=1) as host, host.operator() as operator:
        # The operator was met, so his connection is counted.
        operator.asks((RELEASE, NOT_HELD))
        before = host.connections()
        with host.talk(0) as client:
            client.asks((ATTACH, attached(1)), (LEAVE, LEFT))
        # Else the Leave at the end of the connection might come after the undo, and free the seat.
        host.lets_go(before)
        operator.asks((HOLD, moved(2, 2)), (undo(1), moved(1, 2)), (RELEASE, DONE))
        fails(program, image, folder, "--clients", "16")
        same("the folder", sorted(os.listdir(folder)), ["client0", "inspect", "operator"])
        with host.talk(0) as client:
            client.asks((ATTACH, TAKEN))
        operator.asks((STOP, CLOSED))
        host.ended()


def long_path(program, image, folder):
    """A path has at most 107 bytes: with a longer one there is no socket, and with one as long there is."""
    for size, is_good in [(107, True), (108, False)]:
        # The longest is DIR/operator.
        inner = os.path.join(folder, (size - len(os.path.join(folder, "", "operator")) - 1) * "x")
        os.mkdir(inner)
        if is_good:
            with Served(program, image, inner, clients=1) as host:
                host.stop()
        else:
            fails(program, image, inner)
        same("the folder", os.listdir(inner), [])
        os.rmdir(inner)


def no_threads(program, image, folder):
    """Under limits of its address space the host finds no memory, or not all of its threads can be started, or it serves. Whatever it
    finds wanting, it says so and no more, and leaves nothing behind."""
    found = set()
    for limit in range(24 << 20, 400 << 20, 8 << 20):
        words = ["serve", "--image", image, "--dir", folder, "--clients", "16", "--workers", "4"]
        with subprocess.Popen([program, *words], stdin=subprocess.DEVNULL, stdout=subprocess.PIPE, stderr=subprocess.PIPE,
                              preexec_fn=lambda: resource.setrlimit(resource.RLIMIT_AS, (limit, limit))) as process:
            said = process.stderr.readline()
            if said.startswith(b"serving "):
                found.add(DONE_STATUS)
                with Talk(os.path.join(folder, "operator")) as operator:
                    operator.asks((STOP, CLOSED))
            status = process.wait(SECONDS)
            found.add(status)
            same(f"with {limit} bytes what is said", (said, status) if status else status,
                 {SOCKET_FAULT: (NO_SOCKET, status), NO_MEMORY: (b"memory: none\n", status)}.get(status, DONE_STATUS))
            same("what is said after it", process.stderr.read(), b"")
        same("the folder", os.listdir(folder), [])
    same("the statuses that were met", {SOCKET_FAULT, DONE_STATUS} <= found, True)


def little_memory(program, image, folder):
    """There is none for the names of the greatest history; then nothing is left behind."""

    def limits():
        resource.setrlimit(resource.RLIMIT_AS, (1 << 25, 1 << 25))

    fails(program, image, folder, "--history", "16777216", status=NO_MEMORY, said=b"memory: none\n", limits=limits)
    same("the folder", os.listdir(folder), [])


# What starts hosts of its own.
STARTS = [history_nearly_full, sockets_left_behind, paths_of_the_user, clients_of_another, long_path, restarted, no_threads, little_memory]


def slow_device(program, image, folder):
    """With a delay each write and each read takes a worker so long at least, one after the other where there is one worker."""
    with Served(program, image, folder, "--delay", "50000", workers=1) as host, host.talk(0) as client:
        client.asks((ATTACH, attached(1)))
        began = time.monotonic()
        client.asks((store(1, 5, 1, 0x41), queued(2)), (reap(1), written(2)), (fetch(1, 5, 1), queued(6)), (reap(1), read(6, b"\x41" * 512)))
        took = time.monotonic() - began
        same(f"whether a write and a read took two delays: {took}", took >= 0.1, True)
        began = time.monotonic()
        for sector in (10, 20, 30, 40):
            client.send(fetch(1, sector, 1))
            client.reply()
        for sector in (10, 20, 30, 40):
            client.send(reap(1))
            same(f"sector {sector}", client.reply()[9:], sector_of(sector))
        took = time.monotonic() - began
        same(f"whether four reads took four delays: {took}", took >= 0.2, True)
        host.stop()


def bad_sectors(program, image, folder):
    """A read that has a bad sector fails, one beside it does not, and a write there does not either. So with as many runs as there may be, one
    of them past the end of the device and as far as numbers go."""
    runs = ",".join(["20+8", *["40+1"] * 13, f"{2**64 - 1}+{2**32 - 1}", "50+1"])
    with Served(program, image, folder, "--bad", runs) as host, host.talk(0) as client:
        client.asks((ATTACH, attached(1)))
        serial = 2
        for start, count, is_bad in ((19, 1, False), (19, 2, True), (27, 1, True), (28, 2, False), (40, 1, True), (16, 16, True), (50, 1, True), (51, 1, False)):
            client.asks((fetch(1, start, count), queued(serial)),
                        (reap(1), failed(serial) if is_bad else read(serial, b"".join(sector_of(start + at) for at in range(count)))))
            serial += 4
        client.asks((store(1, 20, 1, 7), queued(serial)), (reap(1), written(serial)))
        serial += 4
        client.asks((fetch(1, 20, 1), queued(serial)), (reap(1), failed(serial)))
        host.stop()


def idle(program, image, folder):
    """It uses less than one processor in a hundred: when nothing has come, after some load, held with calls that wait, and with a full
    history and a request in flight."""

    def rests(host, what):
        before = host.used()
        time.sleep(2)
        used = host.used() - before
        # The system counts in hundredths of a second.
        if used >= 0.02:
            raise Wrong(f"{what} it used {used:.2f} s of processor time in 2 s")

    with Served(program, image, folder) as host:
        rests(host, "fresh")
        with host.talk(0) as client, host.operator() as operator:
            client.asks((ATTACH, attached(1)))
            for serial in range(2, 2002, 4):
                client.asks((fetch(1, 0, 1), queued(serial)), (reap(1), read(serial, sector_of(0))))
            rests(host, "after load")
            operator.asks((HOLD, moved(2001, 2001)))
            waiting = [host.talk(number) for number in (1, 2, 3)]
            for talk in waiting:
                talk.send(ATTACH)
            client.send(fetch(1, 2, 1))
            rests(host, "held with four calls that wait")
            operator.asks((RELEASE, DONE))
            for talk in [*waiting, client]:
                talk.reply()
                talk.socket.close()
        host.stop()
    with Served(program, image, folder, "--history", "19") as host, host.talk(0) as client:
        client.asks((ATTACH, attached(1)))
        for serial in (2, 6, 10, 14):
            client.asks((fetch(1, 0, 1), queued(serial)), (reap(1), read(serial, sector_of(0))))
        client.asks((fetch(1, 0, 1), queued(18)))
        same("standard error", host.line(), "history: 17 of 19 calls")
        # The last call was its Dispatch.
        same("standard error", host.line(), "history: full, 19 calls")
        host.operates((HOLD, FULL))
        rests(host, "with a full history and a request in flight")
        host.stop()


def runs(program, bfqctl):
    """Each run's name, and the call that makes it in a new folder."""
    for name, words, said in WORDS:
        yield f"serve: {name}", lambda folder, words=words, said=said: refused(program, words, said, folder)
    for act in [*STARTS, slow_device, bad_sectors, idle]:
        yield f"serve: {act.__name__}", lambda folder, act=act: act(program, *image_and_folder(folder))
    for act in DONE_WITH:
        yield f"serve: {act.__name__}", lambda folder, act=act: with_host(program, act, folder)
    yield "serve: by_bfqctl", lambda folder: with_host(program, lambda host: by_bfqctl(host, bfqctl), folder)


def image_and_folder(folder):
    sockets = os.path.join(folder, "sockets")
    os.mkdir(sockets)
    return image_of(folder), sockets


def with_host(program, act, folder):
    """A host of four clients and two workers, with which this is done."""
    with Served(program, *image_and_folder(folder)) as host:
        act(host)


def serving(program, bfqctl):
    """The name of each run with what was wrong with it."""
    for name, run in runs(program, bfqctl):
        folder = tempfile.mkdtemp(prefix="bfq-")
        try:
            run(folder)
            yield name, []
        except (Wrong, OSError, subprocess.SubprocessError) as fault:
            yield name, [str(fault)]
        finally:
            shutil.rmtree(folder)
