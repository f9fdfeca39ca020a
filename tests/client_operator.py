"""Runs of the client's Operator and of `serve`: the calls of the operator, looks, moments and states of a host that serves, and its start
and end.

What a host has no answer for is played. Looks are asked of the program if it has a socket for them, and of tests/standing_in.py.
"""

import contextlib
import os
import pathlib
import shutil
import signal
import socket
import subprocess
import sys
import tempfile
import threading
import time

from client import Played, framed, raises, taken
from served import SECONDS, SECTOR, Talk, image_of, same, sector_of

TOP = os.path.dirname(os.path.dirname(os.path.abspath(__file__)))
sys.path.insert(0, os.path.join(TOP, "clients"))
sys.dont_write_bytecode = True
from bfqclient import (Lost, Misuse, Moved, NoInspect, NotFound, NotServing, NotYet, Operator, Refused, TimedOut, serve)  # noqa: E402

STANDING_IN = os.path.join(TOP, "tests", "standing_in.py")
SECTORS = 64
SOON = 0.3


class Place:
    """A folder of a run, with an image, and the programs to be tried."""

    def __init__(self, program, folder):
        self.program = os.path.abspath(program)
        self.folder = folder
        self.image = image_of(folder, SECTORS)

    def serve(self, **given):
        """The program that is tested."""
        return serve(self.image, program=self.program, **given)

    @contextlib.contextmanager
    def looked_into(self, *options):
        """A host that can be looked into: the program, if it can, or what stands in for it."""
        with serve(self.image, program=self.able(), options=options) as host:
            yield host

    def able(self):
        """The program, if it can be looked into, or what stands in for it."""
        os.environ["BFQ_SIM"] = self.program
        return self.program if self.has_looks() else STANDING_IN

    def has_looks(self, option=b"--no-inspect"):
        """Whether the program has a socket for looks, or another option."""
        return option in subprocess.run([self.program, "--help"], capture_output=True, check=True).stdout


# The operator.

def commands(place):
    """Each command does what it says. The path may be that of the folder or of the socket, as a text, bytes or a PathLike."""
    with place.serve() as host:
        operator = Operator(host.folder)
        same("a group", operator.group_make(0, 300), 1)
        same("another", Operator(pathlib.Path(host.folder, "operator")).group_make(1, 7), 2)
        operator.set_weight(2, 1000)
        operator.group_drop(2)
        operator.freeze()
        Operator(os.fsencode(host.folder)).switch("none")
        operator.thaw()
        # Two groups, a weight, a drop, a freeze, a switch and a thaw.
        same("a hold", operator.hold(), Moved(7, 7))
        same("an undo", operator.undo(), Moved(6, 7))
        same("another undo", operator.undo(6), Moved(0, 7))
        same("a redo", operator.redo(), Moved(1, 7))
        same("another redo", operator.redo(5), Moved(6, 7))
        operator.release()
        with raises(Refused, code=26, kind="tick", name="NoneInService"):
            operator.tick()
        with operator.held() as moved:
            same("a block", (moved.cursor, moved.length), (6, 7))
            with raises(NotYet, code=41, kind="thaw", text="notyet 41", name="Held"):
                operator.thaw()
        with raises(KeyError), operator.held():
            raise KeyError
        with raises(Refused, code=28, kind="release"):
            operator.release()
        operator.thaw()
        with host.session() as session:
            same("a read", session.read(3, 1), sector_of(3))
        operator.stop()
        same("the sockets", os.listdir(host.folder) if os.path.exists(host.folder) else [], [])
        with raises(Lost, kind="hold"):
            operator.hold()
    same("the status", host.status, 0)


def refusals(place):
    """What the host refuses is told with its number, and nothing has changed; what fits no field is not asked."""
    with place.serve() as host:
        operator = host.operator
        for act, code in ((lambda: operator.group_make(7, 1), 5), (lambda: operator.group_make(0, 0), 7),
                          (lambda: operator.group_drop(0), 6), (lambda: operator.group_drop(255), 5),
                          (lambda: operator.set_weight(0, 1), 6),
                          (lambda: operator.set_weight(1, 65535), 5), (operator.thaw, 23), (lambda: operator.switch("none"), 23),
                          (operator.release, 28), (operator.undo, 28), (lambda: operator.redo(2**32 - 1), 28)):
            with raises(Refused, code=code):
                act()
        same("what stands", operator.hold(), Moved(0, 0))
        for act, code in ((operator.hold, 29), (lambda: operator.undo(0), 30), (operator.undo, 31), (operator.redo, 32)):
            with raises(Refused, code=code):
                act()
        operator.release()
    nobody = Operator(os.path.join(place.folder, "none"))
    for act in (lambda: nobody.group_make(-1, 1), lambda: nobody.group_make(0, 65536), lambda: nobody.group_drop(256),
                lambda: nobody.set_weight(256, 1), lambda: nobody.set_weight(1, -1), lambda: nobody.switch("cfq"), lambda: nobody.undo(-1),
                lambda: nobody.undo(2**32), lambda: nobody.redo(2**32), lambda: nobody.hold(timeout=0), lambda: Operator("x", timeout=-1)):
        with raises(Misuse):
            act()
    for act in (lambda: nobody.undo("1"), lambda: nobody.group_make(0.5, 1), lambda: Operator(5)):
        with raises(TypeError):
            act()
    with raises(Lost, kind="hold"):
        nobody.hold()


def in_turn(place):
    """While another one is connected a call waits, and no longer than it may. Then it is done once that one has gone."""
    with place.serve() as host:
        other = Talk(os.path.join(host.folder, "operator"))
        with raises(TimedOut, kind="hold"):
            host.operator.hold(timeout=SOON)
        with raises(TimedOut, kind="freeze"):
            Operator(host.folder, timeout=SOON).freeze()
        threading.Timer(SOON, other.socket.close).start()
        # The host finds the calls of those who have gone, and makes them, before it meets this one.
        with raises(Refused, code=29):
            host.operator.hold(timeout=SECONDS)


class Answers(Played):
    """A host that the test plays, for one call of an operator."""

    def __init__(self, folder, asked, answer, ends=False):
        super().__init__(folder, ends=ends)
        self.turns = [(asked, answer)]

    def __enter__(self):
        self.start()
        return Operator(self.path)


def other_replies(place):
    """What is no answer to the call is told, and the connection is left."""
    hold = "00000001 18"
    for answer, text in ((framed("92"), "another reply than was waited for: 92"), (framed("9f"), "the host has ended"),
                         (framed("81 0000000000000001"), "no frame for the operator: 810000000000000001"),
                         (framed("93 00000001"), "no frame for the operator: 9300000001"), ("00000000", "no frame: its length is 0")):
        with Answers(place.folder, hold, answer) as operator:
            with raises(Lost, kind="hold", text=text):
                operator.hold()
    with Answers(place.folder, hold, "000000", ends=True) as operator:
        with raises(Lost, kind="hold", text="the host closed the connection"):
            operator.hold()
    with Answers(place.folder, "00000005 1a 00000003", framed("93 00000002 00000005")) as operator:
        same("an undo", operator.undo(3), Moved(2, 5))


# Looks.

def looks(place):
    """Looks are answered as in a script, also while the host is held, one or many at a time, and what is none is told."""
    with place.looked_into() as host:
        with host.session() as session:
            session.write(5, b"A" * SECTOR)
            # Attach, Submit, Dispatch, Finish and Reap.
            same("a look", host.look("line"), "line 5 5 5")
            many = [f"sector {number % (SECTORS + 1)}" for number in range(3000)]
            answers = {5: "overlay 41", SECTORS: "none"}
            same("many", host.looks(many), [f"{line} {answers.get(int(line.split()[1]), 'base')}" for line in many])
            with host.operator.held():
                same("held", host.operator.looks(["show host", "show flight"]), ["host bfq running held 15 5 5 5 6", "flight"])
            same("none", host.looks([]), [])
            for line in ("hold", "release", "dispatch", "tick", "Line", "line 5", "sector x", "show"):
                with raises(Misuse, kind="look", text=f"the host knows no look {line!r}"):
                    host.look(line)
            for line in ("", "# one", "line\nline", "line\x00", "liné", "sector " + 300 * "1"):
                with raises(Misuse, kind=None, text=f"no line that is answered: {line[:256]!r}"):
                    host.looks(["line", line])
            with raises(Misuse):
                host.look("line", timeout=0)
            same("what stands", host.look("line"), "line 5 5 5")
            goes_on = session.read(5, 1)
        same("the client", goes_on, b"A" * SECTOR)


def no_looks(place):
    """A host without a socket for looks, or where none runs, is told."""
    os.environ["BFQ_SIM"] = place.program
    for program, options in ((STANDING_IN, ["--no-inspect"]), (place.program, ["--no-inspect"] * place.has_looks())):
        with serve(place.image, program=program, options=options) as host:
            with raises(NoInspect, kind="look"):
                host.look("line")
            with raises(NoInspect, kind="look"):
                host.until("stored sector 5")
            # It is not left held.
            host.operator.freeze()
    text = f"{place.folder}/inspect: No such file or directory: the host has no socket for looks, or none runs"
    with raises(NoInspect, kind="look", text=text):
        Operator(place.folder).look("line")


class Inspected(threading.Thread):
    """A socket for looks that the test plays. Of each connection it reads so many bytes, sends some, and closes, or waits for the client's
    end."""

    def __init__(self, folder, *connections):
        super().__init__(daemon=True)
        self.connections = connections
        self.path = os.path.join(folder, "inspect")
        self.listener = socket.socket(socket.AF_UNIX)
        self.listener.bind(self.path)
        self.listener.listen()

    def run(self):
        for size, answer, ends in self.connections:
            connection, _ = self.listener.accept()
            with connection:
                taken(connection, size)
                # Who has enough of it may have gone.
                with contextlib.suppress(OSError):
                    connection.sendall(answer)
                if not ends:
                    taken(connection, 1)

    def __enter__(self):
        self.start()

    def __exit__(self, *_):
        self.join(SECONDS)
        self.listener.close()
        os.unlink(self.path)


def odd_looks(place):
    """A host that closes, says nothing, or too much, is told. If it lets a connection go behind an answer, the others are asked anew."""
    operator = Operator(place.folder)
    for size, answer, ends, kind in ((10, b"line 1", True, Lost), (0, b"", True, Lost), (10, b"line 1 1 1\nline 1 1 1", False, TimedOut),
                                     (10, b"x" * (3 << 20), True, Lost)):
        with Inspected(place.folder, (size, answer, ends)), raises(kind, kind="look"):
            operator.looks(["line", "line"], timeout=SOON if kind is TimedOut else SECONDS)
    with Inspected(place.folder, (10, b"line 1 1 1\nline 2 2 2\n", False)):
        same("two", operator.looks(["line", "line"], timeout=SECONDS), ["line 1 1 1", "line 2 2 2"])
    with Inspected(place.folder, (15, b"line 1 1 1\n", True), (10, b"line 2 2 2\nli", True), (5, b"line 3 3 3\n", False)):
        same("three", operator.looks(3 * ["line"], timeout=SECONDS), [f"line {at} {at} {at}" for at in (1, 2, 3)])
    with Inspected(place.folder, (10, b"line 1 1 1\n", True), (5, b"", True)), raises(Lost, kind="look"):
        operator.looks(2 * ["line"], timeout=SECONDS)


# Moments and states.

def written(host):
    """What two clients have stored: sector 2 by the steps 4 and 8, of which the second has sector 3 too, and sector 9 by step 15."""
    with host.session() as session:
        session.write(2, b"A" * SECTOR)
        session.write(2, b"B" * 2 * SECTOR)
        session.read(0, 4)
        host.operator.hold()
        host.operator.release()
        with host.session(1) as other:
            other.write(9, b"C" * SECTOR)
        yield session


def moments(place):
    """The host is held, and goes back to the step by which a moment came; the same again goes on from there. Clients do not notice."""
    with place.looked_into() as host:
        for session in written(host):
            length = int(host.look("line").split()[2])
            same("the second write", host.until("stored sector 2")[:2], (8, 8))
            same("where it stands", host.looks(["line", "sector 2"]), [f"line 8 {length} {length}", "sector 2 overlay 42"])
            same("the first write", host.until("stored sector 2")[:2], (4, 4))
            same("what is stored", host.look("sector 2"), "sector 2 overlay 41")
            with raises(NotFound, kind="until", text="no step brings it: stored sector 2"):
                host.until("stored sector 2")
            same("where it stands", host.look("line"), f"line 4 {length} {length}")
            same("a serial ahead", host.until("serial 8").line, "finish 0 7 stored")
            same("before it", host.until("issued seat 0")[:2], (7, 7))
            same("what begins", host.until("sector 2 = sector 2 overlay 41")[:2], (4, 4))
            host.operator.redo(length - 4)
            host.operator.release()
            same("the client", session.read(2, 2), b"B" * 2 * SECTOR)
            # If there is none a host that was free is free.
            with raises(NotFound):
                host.until("stored sector 50")
            session.write(50, b"D" * SECTOR)
            same("the last write", host.until("stored sector 50", timeout=SECONDS).line[:7], "finish ")
            same("it is held", host.look("show host").split()[3], "held")
            for text in ("", "stored", "stored sector x", "serial", "issued seat -1", "stored sector 5 ", "hold = done", " = x"):
                with raises(Misuse, kind=None):
                    host.until(text)
            with raises(Misuse, kind="look"):
                host.until("show = x")
            host.operator.redo(int(host.look("line").split()[2]) - int(host.look("line").split()[1]))
            host.operator.release()


def states(place):
    """The device as each write that was stored has left it. At the end, or if they are left before, the host is as it was."""
    with open(place.image, "rb") as file:
        image = file.read()
    wanted = [{2: b"A"}, {2: b"B", 3: b"B"}, {2: b"B", 3: b"B", 9: b"C"}]
    with place.looked_into() as host:
        for session in written(host):
            line = host.look("line")
            found = list(host.states("stored"))
            same("what is stored", [{number: data[:1] for number, data in it.stored.items()} for it in found], wanted)
            same("whole sectors", all(data == SECTOR * data[:1] for it in found for data in it.stored.values()), True)
            same("what has changed", [sorted(it.changed) for it in found], [[2], [2, 3], [9]])
            same("the steps", [(it.step.place, it.step.serial) for it in found][:2], [(4, 4), (8, 8)])
            over = bytearray(image)
            over[2 * SECTOR:4 * SECTOR] = b"B" * 2 * SECTOR
            same("an image", found[1].over(image), bytes(over))
            same("a short one", found[2].over(image[:3 * SECTOR - 7]), bytes(over[:3 * SECTOR - 7]))
            with open(os.path.join(place.folder, "copy"), "w+b") as copy:
                copy.write(image)
                found[1].write(copy)
                copy.seek(0)
                same("a copy", copy.read(), bytes(over))
            same("where it stands", host.looks(["line", "show host"])[0], line)
            for state in host.states():
                same("the first", state.step.place, 4)
                break
            host.operator.freeze()
            host.operator.thaw()
            with raises(Misuse):
                host.states("read")
            host.operator.hold()
            same("held", (len(list(host.states())), host.look("show host").split()[3]), (3, "held"))
            host.operator.release()
            same("the client", session.read(9, 1), b"C" * SECTOR)


# A host that is started.

def started(place):
    """It serves in a folder of its own, which goes with it, or in a given one, which stays; the program is that of the variable BFQHOST."""
    with place.serve(clients=2, options=["--workers", "1"]) as host:
        same("what it says", host.said, [f"serving {host.folder}, 2 clients, 1 workers"])
        same("the sockets", {"client0", "client1", "operator"} <= {*os.listdir(host.folder)} and not os.path.exists(host.path(2)), True)
        with host.session(1, group=0, prio=7, timeout=SECONDS) as session:
            same("a read", session.read(1, 1), sector_of(1))
        same("it runs", host.status, None)
    same("the end", (host.status, os.path.exists(host.folder)), (0, False))
    host.stop()
    given = pathlib.Path(place.folder, "sockets")
    os.environ["BFQHOST"] = place.program
    try:
        with serve(pathlib.Path(place.image), given, options=["--history", "40"]) as host:
            same("the folder", (host.folder, host.path()), (str(given), str(given / "client0")))
            with raises(Refused, code=33), host.session() as session:
                for _ in range(20):
                    session.write(0, bytes(SECTOR))
            # It says so when the call that fills it has been answered, so the line may come later.
            until = time.monotonic() + SECONDS
            while len(host.said) < 3 and time.monotonic() < until:
                time.sleep(0.01)
            same("what it warns of", host.said[1:], ["history: 36 of 40 calls", "history: full, 40 calls"])
    finally:
        del os.environ["BFQHOST"]
    same("the folder after it", os.listdir(given), [])


def ends(place):
    """It ends with its block, also after an exception, while it is held and while a client waits. One that was killed is no fault; one that
    has ended by itself is, unless another exception comes."""
    with raises(KeyError):
        with place.serve() as host:
            raise KeyError
    same("after an exception", host.status, 0)
    with place.serve() as host:
        session = host.session()
        host.operator.hold()
        session.wire.send(bytes.fromhex("0000000904") + session.number.to_bytes(8, "big"))
    same("held", host.status, 0)
    with place.serve() as host:
        host.kill()
        same("killed", host.status, -signal.SIGKILL)
    with raises(NotServing, status=-signal.SIGTERM):
        with place.serve() as host:
            host.process.terminate()
            host.process.wait()
    with raises(KeyError):
        with place.serve() as host:
            host.process.terminate()
            host.process.wait()
            raise KeyError


def not_started(place):
    """A start that fails is told with the host's own line and status, and leaves nothing: no process, and no folder of its own."""
    before = {*os.listdir(tempfile.gettempdir())}
    for given, line, status in (({"options": ["--tags", "0"]}, "config: tags", 6), ({"options": ["--tags"]}, "words: refused", 6),
                                ({"clients": 17}, "config: clients", 6), ({"folder": place.image + "/x"}, "", None)):
        with raises(NotServing, line=line, status=status):
            place.serve(**given)
    with raises(NotServing, line="image: cannot be read", status=6, text="the host has ended with status 6: image: cannot be read"):
        serve(place.folder, program=place.program)
    with place.serve(folder=os.path.join(place.folder, "sockets")) as host:
        with raises(NotServing, line="socket: failed", status=7):
            place.serve(folder=host.folder)
        with host.session() as session:
            same("the one that was there", session.read(2, 1), sector_of(2))
    with raises(NotServing, line="", status=None, text="/nothing: No such file or directory"):
        serve(place.image, program="/nothing")
    path, os.environ["PATH"] = os.environ["PATH"], place.folder
    try:
        with raises(NotServing, status=None):
            serve(place.image)
    finally:
        os.environ["PATH"] = path
    slow = os.path.join(place.folder, "slow")
    with open(slow, "w", encoding="ascii") as file:
        file.write("#!/bin/sh\necho proving >&2\nexec sleep 60\n")
    os.chmod(slow, 0o755)
    began = time.monotonic()
    with raises(NotServing, line="proving", status=None):
        serve(place.image, program=slow, timeout=SOON)
    same("whether it is told in time", time.monotonic() - began < SECONDS, True)
    for timeout in (0, -1, float("nan")):
        with raises(Misuse):
            place.serve(timeout=timeout)
    left = [it for it in {*os.listdir(tempfile.gettempdir())} - before if it.startswith("bfq-") and not os.listdir(
        os.path.join(tempfile.gettempdir(), it))]
    same("folders that are left", left, [])


RUNS = [commands, refusals, in_turn, other_replies, looks, no_looks, odd_looks, moments, states, started, ends, not_started]


def operator_client_runs(program):
    """The name of each run with what was wrong with it."""
    for act in RUNS:
        folder = tempfile.mkdtemp(prefix="bfq-")
        try:
            act(Place(program, folder))
            yield f"the client's operator: {act.__name__}", []
        except Exception as fault:  # pylint: disable=broad-except
            # Whatever it raises that was not wanted is a fault of it.
            yield f"the client's operator: {act.__name__}", [f"{type(fault).__name__}: {fault}"]
        finally:
            shutil.rmtree(folder)
