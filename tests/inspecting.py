"""Looks at a host that serves, by its socket `inspect`: what it tells, also under load and while it is held, and whom it keeps out.

What a look must tell is what `bfqhost sim` prints for the same line after the same calls, and for some lines what docs/FORMATS.md has.
"""

import contextlib
import os
import shutil
import socket
import subprocess
import sys
import tempfile
import threading
import time

from served import (ATTACH, CLOSED, DONE, FREEZE, HOLD, LEAVE, LEFT, RELEASE, SECONDS, STOP, THAW, Served, Talk, Wrong, attached, fetch,
                    image_of, moved, queued, read, reap, redo, same, sector_of, store, undo, written)

CLIENT = os.path.join(os.path.dirname(os.path.dirname(os.path.abspath(__file__))), "clients", "bfqclient.py")
# Each kind of query once or more, at seats, groups and sectors that are there and that are not.
LOOKS = ["line", "sector 5", "sector 6", "sector 64", "queue 0", "queue 3", "vtime 0", "vtime 0 rt", "vtime 7 idle", "entity 0", "entity 17",
         "class 0", "class 16", "show seat 0", "show seat 1", "show outbox 0", "show queue 0", "show requeued", "show flight", "show service",
         "show tree 0", "show tree 1", "show host", "show state", "show stored 0", "show step 1", "show step 2", "show step 9"]
HOST = LOOKS.index("show host")
# Nobody may wait longer for those before him.
MOST_WAIT = 2.0
# A host that serves has no more than so many bytes for one connection, whatever it sends.
ROOM = 4 << 20


class Look(Talk):
    """A connection to `inspect`."""

    def __init__(self, host):
        super().__init__(host.path("inspect"))

    def line(self):
        """The next line that it tells, or what there is before its end."""
        found = b""
        while not found.endswith(b"\n") and (piece := self.socket.recv(1)):
            found += piece
        return found.decode()

    def tells(self, *pairs):
        """Each line must be answered so before the next is sent."""
        for line, wanted in pairs:
            self.socket.sendall(line.encode() + b"\n")
            same(f"what {line} tells", self.line(), wanted + "\n")

    def rest(self):
        """All that it tells up to its end. If it was sent more than was read, the end is a reset."""
        found = b""
        with contextlib.suppress(ConnectionResetError):
            while piece := self.socket.recv(65536):
                found += piece
        return found.decode()


def told(host, *lines):
    """What a connection of its own tells of these lines, sent at once."""
    with Look(host) as look:
        look.socket.sendall("".join(f"{line}\n" for line in lines).encode())
        look.socket.shutdown(socket.SHUT_WR)
        return look.rest().splitlines()


def printed(program, image, *lines):
    """What `sim` prints of a script over the image."""
    ended = subprocess.run([program, "sim", "--image", image], input="".join(f"{line}\n" for line in lines), capture_output=True, text=True,
                           timeout=SECONDS, check=True)
    return ended.stdout.splitlines()


# The calls of `work_of`, as a script has them.
SCRIPT = ["attach 0 0 4", "write 0 1 5 1 65", "dispatch", "finish 0 3 stored", "reap 0 1", "group 0 200", "read 0 1 6 1", "dispatch", "work 0 8",
          "freeze"]


def work_of(host, client):
    """A write that is reaped, a group, and a read that is not."""
    client.asks((ATTACH, attached(1)), (store(1, 5, 1, 65), queued(2)), (reap(1), written(2)))
    # A group under the root with weight 200.
    host.operates(("00000004 11 00 00c8", "91 01"))
    client.asks((fetch(1, 6, 1), queued(7)))
    waits_for(host, "line 9 9 9")
    host.operates((FREEZE, DONE))


def waits_for(host, wanted):
    """Waits till the host has made these steps."""
    until = time.monotonic() + SECONDS
    while (found := told(host, "line")) != [wanted]:
        if time.monotonic() > until:
            raise Wrong(f"the host stands at {found} and not at {wanted}")
        time.sleep(0.01)


def as_a_script(program, image, folder):
    """What each look tells is what a script prints after the same calls, held or not. What is undone is not seen, and is seen again once
    it is redone."""
    with Served(program, image, folder) as host, host.talk(0) as client:
        work_of(host, client)
        known = printed(program, image, *SCRIPT, *LOOKS)[len(SCRIPT):]
        same("the looks", told(host, *LOOKS), known)
        same("some of them", (known[0], known[1], known[HOST], known[LOOKS.index("show stored 0")]),
             ("line 10 10 10", "sector 5 overlay 41", "host bfq frozen free 15 10 10 10 10", "stored 5+1"))
        host.operates((HOLD, moved(10, 10)), (undo(8), moved(2, 10)))
        # The script's own `undo` is as long a way back.
        held = [*SCRIPT, "hold", "undo 8"]
        same("the looks, held", told(host, *LOOKS), printed(program, image, *held, *LOOKS)[len(held):])
        same("one of them", told(host, "line", "show stored 0", "show queue 0"), ["line 2 10 10", "stored none", "queue 0 store:5+1:2"])
        host.operates((redo(8), moved(10, 10)))
        again = [*held, "redo 8"]
        same("the looks, redone", told(host, *LOOKS), printed(program, image, *again, *LOOKS)[len(again):])
        host.operates((RELEASE, DONE), (THAW, DONE))
        client.asks((reap(1), read(7, sector_of(6))))
        host.stop()


def line_by_line(host):
    """Lines are answered one by one, and in pieces. An empty line and a comment print nothing, as in a script; and a last line needs no end."""
    with Look(host) as look:
        look.tells(("line", "line 0 0 0"), ("queue 0", "queue none"))
        for piece in ("li", "ne", "\nli"):
            look.socket.sendall(piece.encode())
            time.sleep(0.1)
        same("a line in pieces", look.line(), "line 0 0 0\n")
        look.socket.sendall(b"ne\n\n# a comment\n\nvtime 0")
        same("the second", look.line(), "line 0 0 0\n")
        look.socket.shutdown(socket.SHUT_WR)
        same("the last", look.rest(), "vtime 0 0\n")
    with Look(host) as look:
        look.socket.shutdown(socket.SHUT_WR)
        same("nothing", look.rest(), "")
    host.stop()


# Lines that are none there, whatever they are in a script.
BAD_LINES = ["hold", "release", "undo 1", "redo 1", "attach 0 0 4", "read 0 1 0 1", "write 0 1 0 1 65", "reap 0 1", "leave 0", "dispatch",
             "finish 0 3 stored", "work 0 3", "requeue 0 3", "group 0 200", "drop 1", "weight 1 2", "freeze", "thaw", "switch none", "tick",
             "attach 0 0 4 rt", "Line", "line ", " line", "line 1", "sector", "sector 05", "sector 18446744073709551616", "show", "show seat",
             "show  flight", "show seat 256", "queue 256", "vtime 0 bee", "class", "x" * 257, "#" + "x" * 256, "sector 5\r", "stop", "\t", "\0"]


def bad_lines(host):
    """Each is `bad line N` behind the answers of the lines before, and the connection ends. Nothing has changed."""
    with host.talk(0) as client:
        client.asks((ATTACH, attached(1)))
        for bad in BAD_LINES:
            same(f"what {bad!r} tells", told(host, "line", "# a comment", bad, "line"), ["line 1 1 1", "bad line 3"])
        with Look(host) as look:
            look.socket.sendall(b"show host\nsector \xff\xfe\nline\n")
            same("bytes that are no text", look.rest(), "host bfq running free 15 1 1 1 1\nbad line 2\n")
        with Look(host) as look:
            look.socket.sendall(b"x" * 257)
            same("a line that is too long, before its end", look.rest(), "bad line 1\n")
        with Look(host) as look:
            look.socket.sendall(b"#" * 256 + b"\n" + b"line\n")
            same("a line that is as long as one may be", look.line(), "line 1 1 1\n")
        same("the host", told(host, "show host"), ["host bfq running free 15 1 1 1 1"])
        client.asks((LEAVE, LEFT))
    host.stop()


def meets_next(host, what):
    """The next who looks is met soon."""
    began = time.monotonic()
    same(f"the look after {what}", len(told(host, "show host")), 1)
    took = time.monotonic() - began
    if took >= MOST_WAIT:
        raise Wrong(f"after {what} the next was met after {took:.2f} s")


def sends(look, text, seconds):
    """Sends so often, as long as it is taken, until the peer ends or the time is over."""
    until = time.monotonic() + seconds
    look.socket.settimeout(0.05)
    with contextlib.suppress(BrokenPipeError, ConnectionResetError):
        while time.monotonic() < until:
            with contextlib.suppress(TimeoutError):
                look.socket.send(text)


def reads(look):
    """Reads all that it tells, until it ends."""
    with contextlib.suppress(OSError):
        while look.socket.recv(1 << 16):
            pass


def memory_of(host):
    """How many bytes of memory a host has."""
    with open(f"/proc/{host.process.pid}/statm", encoding="ascii") as file:
        return int(file.read().split()[1]) * os.sysconf("SC_PAGE_SIZE")


@contextlib.contextmanager
def others(host, client, operator):
    """What is done meanwhile is not noticed by a client and the operator: each call is answered at once."""
    slowest, ended, failed = [0.0], threading.Event(), []

    def goes_on():
        try:
            while not ended.is_set():
                began = time.monotonic()
                operator.asks((FREEZE, DONE), (THAW, DONE))
                client.send(fetch(1, 3, 1))
                bio = client.reply()[1:].hex()
                client.asks((reap(1), f"83 {bio}" + sector_of(3).hex()))
                slowest[0] = max(slowest[0], time.monotonic() - began)
        except (OSError, Wrong) as fault:
            failed.append(fault)

    client.asks((ATTACH, attached(1)))
    before = memory_of(host)
    thread = threading.Thread(target=goes_on)
    thread.start()
    try:
        yield
    finally:
        ended.set()
        thread.join()
    if failed:
        raise Wrong(f"a client or the operator: {failed[0]}")
    if slowest[0] > 1:
        raise Wrong(f"a client and the operator waited {slowest[0]:.2f} s")
    steps = int(told(host, "line")[0].split()[2])
    # A call takes less than 1,500 bytes of the history, with those of a read.
    if memory_of(host) > before + ROOM + 1500 * steps:
        raise Wrong(f"it took {memory_of(host) - before} bytes, and {steps} steps were made")


def hostile(host):
    """Whoever never reads, sends without end, says nothing, says little or goes away keeps nobody out for long, and nobody else notices."""
    with host.talk(0) as client, host.operator() as operator, others(host, client, operator):
        with Look(host) as look:
            sends(look, b"show tree 0\n" * 4096, 0.5)
            meets_next(host, "one that never reads")
        with Look(host) as look:
            sends(look, b"show tree 0", 0.2)
            meets_next(host, "one that sends without end, and no line")
        with Look(host) as look:
            thread = threading.Thread(target=reads, args=(look,))
            thread.start()
            sending = threading.Thread(target=sends, args=(look, b"line\n" * 100, 3))
            sending.start()
            time.sleep(0.2)
            meets_next(host, "one that asks without end")
            sending.join()
            look.socket.shutdown(socket.SHUT_RDWR)
            thread.join()
        with Look(host):
            meets_next(host, "one that says nothing")
        with Look(host), Look(host), Look(host):
            meets_next(host, "three that say nothing")
        with Look(host) as look:
            late = threading.Thread(target=asks_late, args=(look,))
            late.start()
            time.sleep(0.5)
            meets_next(host, "one that asks as late as it may, and takes nothing")
            late.join()
        with Look(host) as look:
            dripping = threading.Thread(target=lambda: drips(look))
            dripping.start()
            meets_next(host, "one that says a byte now and then")
            dripping.join()
        with Look(host) as look:
            look.socket.sendall(b"line\nshow tr")
        meets_next(host, "one that goes away in a line")
        with Look(host) as look:
            look.socket.sendall(b"show tree 0\n" * 1000)
        meets_next(host, "one that goes away before it was answered")
    host.stop()


def asks_late(look):
    """Asks just before its half second is over, and then just before it would be let go, for more than the system takes of the answers."""
    time.sleep(0.45)
    look.socket.sendall(b"line\n")
    look.line()
    time.sleep(0.9)
    sends(look, b"show tree 0\n" * 4096, 1)


def drips(look):
    """Says a byte now and then, of no line, until it is let go."""
    with contextlib.suppress(OSError):
        for _ in range(40):
            look.socket.sendall(b"#")
            time.sleep(0.1)


def who_says_nothing(host):
    """It is let go after a second, and no earlier, also if it says bytes of no line; and what it had begun to say is not run."""
    for what, begun in (("nothing", b""), ("a front of a line", b"line\nsector 1")):
        with Look(host) as look:
            began = time.monotonic()
            look.socket.sendall(begun)
            same(f"what one that says {what} is told", look.rest(), "line 0 0 0\n" if begun else "")
            took = time.monotonic() - began
            same(f"whether {took:.2f} s are a second, for one that says {what}", 0.9 < took < MOST_WAIT, True)
    with Look(host) as look:
        began = time.monotonic()
        drips(look)
        same("what one that says a byte now and then is told", look.rest(), "")
        took = time.monotonic() - began
        same(f"whether {took:.2f} s are not long", 0.9 < took < 5, True)
    # Who asks within each second is met as long as he likes.
    with Look(host) as look:
        for _ in range(5):
            time.sleep(0.6)
            look.tells(("line", "line 0 0 0"))
    host.stop()


def many_that_wait(host):
    """Of some that wait each is met, and one that asks without end makes room for each."""
    with Look(host) as greedy:
        threads = [threading.Thread(target=reads, args=(greedy,)), threading.Thread(target=sends, args=(greedy, b"line\n" * 100, 3))]
        for thread in threads:
            thread.start()
        time.sleep(0.2)
        looks = [Look(host) for _ in range(5)]
        for look in looks:
            look.socket.sendall(b"line\n")
        for look in looks:
            same("what one that waits is told", look.line(), "line 0 0 0\n")
            look.socket.close()
        threads[1].join()
        greedy.socket.close()
        threads[0].join()
    host.stop()


def under_load(host):
    """While a client loads the host each look is answered, and by a keeper that has not gone back."""
    words = [sys.executable, CLIENT, host.path("client0"), "load", "--depth", "8", "--seconds", "1.5", "--sectors", "64", "--writes", "50"]
    with subprocess.Popen(words, stdin=subprocess.DEVNULL, stdout=subprocess.PIPE, stderr=subprocess.PIPE) as load:
        last, count, moving = 0, 0, set()
        while load.poll() is None:
            line, held, flight = told(host, "line", "show host", "show flight")
            _, cursor, length, serial = line.split()
            same("the line", (cursor, length), (serial, serial))
            same("whether it goes on", int(cursor) >= last, True)
            last = int(cursor)
            same("the words of the host", held.split()[:4], ["host", "bfq", "running", "free"])
            # The machine may have gone on between two looks, and so they are compared with themselves.
            same("the host's line", held.split()[5] == held.split()[6], True)
            same("the flight", flight.split()[0], "flight")
            moving.add(last)
            count += 1
        same("the load", (load.stderr.read(), load.returncode), (b"", 0))
    same(f"whether {count} looks at {len(moving)} places were many", count >= 20 and len(moving) >= 10, True)
    host.stop()


def held_under_load(host):
    """A host is held while a client has requests in flight. What is seen there is seen again after steps back and forth, and the client
    notices nothing."""
    words = [sys.executable, CLIENT, host.path("client0"), "load", "--depth", "16", "--seconds", "2", "--sectors", "64", "--writes", "50"]
    with subprocess.Popen(words, stdin=subprocess.DEVNULL, stdout=subprocess.PIPE, stderr=subprocess.PIPE) as load, host.operator() as operator:
        # First the client is to be at work.
        until = time.monotonic() + SECONDS
        while int(told(host, "line")[0].split()[1]) < 50 and time.monotonic() < until:
            time.sleep(0.01)
        operator.send(HOLD)
        steps = int.from_bytes(operator.reply()[1:5], "big")
        seen = told(host, *LOOKS)
        same("the line", seen[0].split()[1:3], [str(steps), str(steps)])
        time.sleep(0.1)
        same("the looks, later", told(host, *LOOKS), seen)
        operator.asks((undo(4), moved(steps - 4, steps)))
        back = told(host, *LOOKS)
        same("the line, undone", back[0].split()[1:3], [str(steps - 4), str(steps)])
        operator.asks((redo(4), moved(steps, steps)))
        # The last word of the host is its journal, which has the two calls.
        again = told(host, *LOOKS)
        same("the host, redone", again[HOST].split()[:-1], seen[HOST].split()[:-1])
        same("the looks, redone", again[:HOST] + again[HOST + 1:], seen[:HOST] + seen[HOST + 1:])
        operator.asks((RELEASE, DONE))
        same("the load", (load.wait(SECONDS), load.stderr.read()), (0, b""))
    host.stop()


def stopped_while_looked_at(host):
    """A connection ends with the host, and nothing is left. One that waits to be met is let go, too."""
    with Look(host) as look, Look(host) as waits:
        look.tells(("line", "line 0 0 0"))
        with host.operator() as operator:
            operator.asks((STOP, CLOSED))
        same("what it is told", look.rest(), "")
        same("what the one that waits is told", waits.rest(), "")
    host.ended()


def many_looks(host):
    """One connection may ask as often as it likes, in pieces as large as it likes."""
    with Look(host) as look:
        thread = threading.Thread(target=lambda: look.socket.sendall(b"line\n" * 20_000))
        thread.start()
        size, wanted = 0, 20_000 * len("line 0 0 0\n")
        while size < wanted and (piece := look.socket.recv(1 << 16)):
            size += len(piece)
        thread.join()
        same("the bytes that were told", size, wanted)
    host.stop()


def by_bfqctl(host, bfqctl):
    """The operator's command looks, too: what it prints is what the host tells."""
    with host.talk(0) as client:
        client.asks((ATTACH, attached(1)))
        for words, status in [(it, 0) for it in ["line", "show host", "show seat 0", "sector 5", "vtime 0 rt"]] + [("show nothing", 2)]:
            ended = subprocess.run([bfqctl, "--socket", host.path("operator"), *words.split()], stdin=subprocess.DEVNULL, capture_output=True,
                                   text=True, timeout=SECONDS, check=False)
            wanted = ("", "words: refused\n", 2) if status else (told(host, words)[0] + "\n", "", 0)
            same(words, (ended.stdout, ended.stderr, ended.returncode), wanted)
        client.asks((LEAVE, LEFT))
    host.stop()


def not_wanted(program, image, folder):
    """With --no-inspect there is no such socket, and what stands at its path is of no matter."""
    with open(os.path.join(folder, "inspect"), "w", encoding="ascii") as file:
        file.write("mine")
    with Served(program, image, folder, "--no-inspect", clients=1) as host:
        same("the folder", sorted(os.listdir(folder)), ["client0", "inspect", "operator"])
        with host.operator() as operator:
            operator.asks((STOP, CLOSED))
        same("the status", host.process.wait(SECONDS), 0)
    os.unlink(os.path.join(folder, "inspect"))
    with Served(program, image, folder, "--no-inspect") as host:
        same("the folder", sorted(os.listdir(folder)), ["client0", "client1", "client2", "client3", "operator"])
        host.stop()


# What is done with a host of four clients and two workers.
DONE_WITH = [line_by_line, bad_lines, hostile, who_says_nothing, many_that_wait, under_load, held_under_load, stopped_while_looked_at, many_looks]


def runs(program, bfqctl):
    """Each run's name, and the call that makes it in a new folder."""
    for act in (as_a_script, not_wanted):
        yield f"inspect: {act.__name__}", lambda folder, act=act: act(program, *image_and_folder(folder))
    for act in DONE_WITH:
        yield f"inspect: {act.__name__}", lambda folder, act=act: with_host(program, act, folder)
    yield "inspect: by_bfqctl", lambda folder: with_host(program, lambda host: by_bfqctl(host, bfqctl), folder)


def image_and_folder(folder):
    sockets = os.path.join(folder, "sockets")
    os.mkdir(sockets)
    return image_of(folder), sockets


def with_host(program, act, folder):
    """A host of four clients and two workers, with room for the calls of a load, with which this is done."""
    with Served(program, *image_and_folder(folder), "--history", "4194304") as host:
        act(host)


def inspecting(program, bfqctl):
    """The name of each run with what was wrong with it."""
    for name, run in runs(program, bfqctl):
        folder = tempfile.mkdtemp(prefix="bfq-")
        try:
            run(folder)
            yield name, []
        except (Wrong, OSError, ValueError, subprocess.SubprocessError) as fault:
            yield name, [str(fault)]
        finally:
            shutil.rmtree(folder)
