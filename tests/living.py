"""Runs of tools/step, export and top with a host that serves: what they show, how they move it, and how they leave it.

The host is the program that is tested, if it can be looked into; else tests/standing_in.py. A client that has one read or write under way
at a time leaves a line of which each step is known.
"""

import contextlib
import os
import shutil
import signal
import subprocess
import tempfile
import termios
import threading
import time

from client_operator import STANDING_IN, Place
from served import SECONDS, SECTOR, Wrong, same, sector_of
from step_export_plot import INTERRUPT, PICTURE, PROMPT, QUIET, contents, end_of, ran, read_until, terminal, until_it_sleeps
from tools import BAD_INPUT, NO_PROGRAM, TOOLS, written
from bad_input import DONE, Skipped
from bfqclient import Io, serve

# The steps that `written` leaves.
SCRIPT = """\
attach 0 0 4
write 0 1 2 1 65
dispatch
finish 0 3 stored
reap 0 1
write 0 1 2 2 66
dispatch
finish 0 7 stored
reap 0 1
"""
STEPS = 9
# What is said of a line that is neither the operator's nor a look.
OTHERS = "a live host has its own clients and its own device"


class Live(Place):
    """A folder with an image, and the tools."""

    @contextlib.contextmanager
    def written(self):
        """A host with a client that has written sectors 2 and 3, and its session."""
        with self.looked_into() as host, host.session() as session:
            session.write(2, b"A" * SECTOR)
            session.write(2, b"B" * 2 * SECTOR)
            yield host, session

    def tool(self, name, host, *words, stdin=""):
        """What a tool prints to standard output and standard error, and its status."""
        folder = host if isinstance(host, str) else host.folder
        return ran([name, "--live", folder, *words], self.folder, self.program, stdin=stdin.encode())

    def steps(self, host, typed, *words):
        """The rows that tools/step tells of some lines, each picture in one row; it must end well."""
        stdout, stderr, status = self.tool("step", host, *words, stdin="".join(f"{line}\n" for line in typed))
        same(f"the end of {typed}", (stderr, status), ("", DONE))
        return PICTURE.sub(r"PICTURE \1\n", stdout).splitlines()[1:]


def stepped(place):
    """It holds the host, goes back to the moments, back and forth, and releases it: the client goes on, and what it wrote is there."""
    with place.written() as (host, session):
        same("to moments", place.steps(host, ["until stored sector 2", "until stored sector 2", "since stored sector 2", "f",
                                              "until serial 7", "b 99", "to 5", "f 99"]), [
            "hold -> moved 9 9", "step 8, serial 8: finish 0 7 stored", "PICTURE running, held; 8 of 9",
            "step 4, serial 4: finish 0 3 stored", "PICTURE running, held; 4 of 9", "no step brings it: stored sector 2",
            "redo 1 -> moved 5 9", "PICTURE running, held; 5 of 9", "step 7, serial 7: dispatch", "PICTURE running, held; 7 of 9",
            "undo 7 -> moved 0 9", "PICTURE running, held; 0 of 9", "redo 5 -> moved 5 9", "PICTURE running, held; 5 of 9",
            "redo 4 -> moved 9 9", "PICTURE running, held; 9 of 9", "release -> done"])
        same("the client", session.read(1, 3), sector_of(1) + 2 * SECTOR * b"B")
        length = int(host.look("line").split()[2])
        same("none", place.steps(host, ["until stored sector 5", "line"]),
             [f"hold -> moved {length} {length}", "no step brings it: stored sector 5", "release -> done",
              f"line {length} {length} {length}"])


def operated(place):
    """Lines of the operator are asked, those of clients and of the device are bad ones, also of a script; what was asked is saved."""
    with place.written() as (host, _):
        written(place.folder, "script", "group 0 300\nline\nweight 1 7\n")
        typed = ["drop 1", "tick", "dispatch", "work last", "attach 1 0 4", "freeze", "thaw", "switch none", "hold", "hold", "undo 3",
                 "release", "save it"]
        stdout, stderr, status = place.tool("step", host, "script", stdin="\n".join(typed))
        same("the end", (stderr, status), ("", BAD_INPUT))
        same("what is told", [row for row in PICTURE.sub("", stdout).splitlines() if row], [
            "group 0 300 -> group 1", "line -> line 10 10 10", "weight 1 7 -> done", "done", "refused 26 NoneInService",
            f"bad line 3: {OTHERS}: 'dispatch'", "there is no `last`: nothing was issued",
            f"bad line 5: {OTHERS}: 'attach'", "done", "done", "refused 23 NotFrozen",
            "moved 14 14", "refused 29 AlreadyHeld", "moved 11 14",
            "warning: once a client or the device goes on 3 undone steps are dropped, serials 12 to 14", "done", "it: 12 lines"])
        same("what is saved", (contents(place.folder, "it") or b"").decode().split("\n")[:4],
             ["group 0 300", "line", "weight 1 7", "drop 1"])
        written(place.folder, "bad", "line\ndispatch\n")
        same("a bad script", place.tool("step", host, "bad"),
             ("line -> line 11 14 14\n", f"bad: bad line 2: {OTHERS}: 'dispatch'\n", BAD_INPUT))


def shown(place):
    """The picture is that of a script of the same steps; so are the steps of the line."""
    written(place.folder, "script", SCRIPT)
    with place.written() as (host, _):
        for narrow in ([], ["--narrow"]):
            of_script = ran(["step", "script", *narrow, "--", "--image", "image"], place.folder, place.program, stdin=b"steps\n")
            found = place.tool("step", host, *narrow, stdin="steps\n")
            same(f"{narrow} the end", found[1:], of_script[1:])
            same(f"{narrow} the picture", found[0], of_script[0][of_script[0].index("\nbfq, ") + 1:])


def left_as_it_was(place):
    """At its end a host that it holds is released, if that drops nothing; else that is told, and it stays held. One that was held before
    stays so."""
    with place.written() as (host, session):
        same("released", place.steps(host, ["b", "f"])[-1], "release -> done")
        same("not its own hold", (host.operator.hold().cursor, place.steps(host, ["b", "f"])[-1]), (STEPS, "PICTURE running, held; 9 of 9"))
        same("held", host.look("show host").split()[3], "held")
        host.operator.release()
        same("steps undone", place.steps(host, ["b 2"])[-1],
             "the host stays held, as 2 undone steps would be dropped: `release` and `redo` are the operator's")
        same("held by it", host.look("line"), "line 7 9 9")
        host.operator.redo(2)
        host.operator.release()
        same("the client", session.read(2, 1), SECTOR * b"B")


def interrupted(place):
    """A signal ends it as it ends any program, and the host that it held is released; so it is with the end of a terminal's input."""
    with place.written() as (host, session):
        for number in (signal.SIGINT, signal.SIGTERM):
            words = [os.path.join(TOOLS, "step"), "--program", place.program, "--live", host.folder]
            with subprocess.Popen(words, stdin=subprocess.PIPE, stdout=subprocess.PIPE, stderr=subprocess.PIPE, env={**os.environ, **QUIET},
                                  preexec_fn=lambda: signal.signal(signal.SIGINT, signal.default_int_handler)) as run:
                run.stdin.write(b"b\nf\n")
                run.stdin.flush()
                until_held(host)
                while b"redo 1 -> moved" not in run.stdout.readline():
                    pass
                run.send_signal(number)
                _, stderr = run.communicate(timeout=SECONDS)
            same("the end", (stderr, run.returncode), (b"", -number))
            same("the host", host.look("show host").split()[3], "free")
        same("the client", session.read(2, 1), SECTOR * b"B")


def at_a_terminal(place):
    """At a terminal a release that would drop undone steps is asked when it is typed once more. An interrupt ends the tool, the terminal is
    as it was, and the host is released."""
    with place.written() as (host, session):
        with terminal(place.program, place.folder, "--live", host.folder) as (run, ours, its):
            before = termios.tcgetattr(its)
            told = [read_until(ours, PROMPT)]
            for line in ("b 2", "release", "f 2"):
                os.write(ours, line.encode() + b"\n")
                told.append(read_until(ours, PROMPT).decode().replace("\r", ""))
            same("a release", told[2], "release\nwarning: once a client or the device goes on 2 undone steps are dropped, serials 8 to 9\n"
                                       "type it once more\n> ")
            same("it is held", "redo 2 -> moved 9 9" in told[3], True)
            until_it_sleeps(run)
            os.write(ours, INTERRUPT)
            same("the end", end_of(run), -signal.SIGINT)
            same("the terminal", termios.tcgetattr(its), before)
        same("the host", host.look("show host").split()[3], "free")
        same("the client", session.read(2, 1), SECTOR * b"B")


def until_held(host):
    """Waits till somebody holds the host."""
    until = time.monotonic() + SECONDS
    while host.look("show host").split()[3] != "held":
        if time.monotonic() > until:
            raise Wrong("the host is not held")
        time.sleep(0.01)


@contextlib.contextmanager
def loaded(host):
    """A client loads the host meanwhile: what it reads at the end of each round must be what it wrote."""
    ended, faults = [], []

    def load():
        try:
            with host.session(1) as session:
                while not ended:
                    for _, io, data in session.run((it for at in range(50) for it in (Io.write(at, bytes([at]) * SECTOR), None)), 8):
                        same("a write", (data, io.count), (None, 1))
                    same("what was written", session.read(0, 50), b"".join(bytes([at]) * SECTOR for at in range(50)))
        except Exception as fault:  # pylint: disable=broad-except
            faults.append(f"{type(fault).__name__}: {fault}")

    thread = threading.Thread(target=load)
    thread.start()
    try:
        # Till it has begun.
        while int(host.look("line").split()[1]) < 10 and not faults:
            time.sleep(0.01)
        yield
    finally:
        ended.append(True)
        thread.join(SECONDS)
    same("the client", faults, [])


def under_load(place):
    """Under load the picture is whole, or it is told that the host goes on; what is held stands still, and the clients notice nothing."""
    with place.looked_into("--history", "1000000") as host:
        with loaded(host):
            for _ in range(3):
                stdout, stderr, status = place.tool("step", host, stdin="s\nuntil issued seat 1\nuntil issued seat 1\nf 99\ns\n")
                same("the end", (stderr, status), ("", DONE))
                pictures = PICTURE.findall(stdout)
                wanted = stdout.count("the host goes on: `hold` shows it as it stands then")
                # Two before it is held, one after each of five lines but the first.
                same("the pictures", len(pictures) + wanted, 6)
                same("while it is held", all(", held;" in it for it in pictures[-4:]), True)
                same("the last line", stdout.splitlines()[-1], "release -> done")
                time.sleep(0.2)


ALL_LOOKS = ["line", "show state", "show flight", "show requeued", "show service", *(f"show {what} {at}" for at in range(16) for what in
                                                                      ("seat", "queue", "outbox")), "show tree 0", "show stored 0",
             *(f"sector {number}" for number in range(64)), *(f"entity {number}" for number in range(17))]


def held_under_load(place):
    """A host under load is held: what is in flight is seen, four steps are undone, looked at and redone, and all is as it was. When it is
    released its client goes on, and finds what it wrote."""
    seen = 0
    with place.looked_into("--history", "1000000") as host:
        with loaded(host):
            for _ in range(20):
                with host.operator.held() as moved:
                    before = host.looks(ALL_LOOKS)
                    seen += before[1] != "flight"
                    same("four steps back", host.operator.undo(4), (moved.cursor - 4, moved.length))
                    same("whether it is another machine", host.looks(ALL_LOOKS) != before, True)
                    same("four steps forth", host.operator.redo(4), moved)
                    same("the machine", host.looks(ALL_LOOKS), before)
                time.sleep(0.02)
        # What stands in does the work at once, so nothing stays in flight.
        if not seen and place.able() != STANDING_IN:
            raise Wrong("nothing was in flight at any time")


def exported(place):
    """The device is written as it stands, of a host that is held, too, which stays so; the words must go together."""
    with open(place.image, "rb") as file:
        image = bytearray(file.read())
    with place.written() as (host, session):
        same("an image", place.tool("export", host, "--image", "image", "now"),
             ("now: 2 sectors stored over image, 9 of 9 steps stand\n", "", DONE))
        image[2 * SECTOR:4 * SECTOR] = 2 * SECTOR * b"B"
        same("what is written", contents(place.folder, "now"), bytes(image))
        same("the host", host.look("show host").split()[3], "free")
        session.write(2, SECTOR * b"C")
        host.operator.hold()
        host.operator.undo(9)
        same("another", place.tool("export", host, "image", "held"), ("held: 1 sectors stored over image, 4 of 13 steps stand\n", "", DONE))
        image[2 * SECTOR:4 * SECTOR] = SECTOR * b"A" + sector_of(3)
        same("what is written", contents(place.folder, "held"), bytes(image))
        same("the host", host.look("show host").split()[3], "held")
        host.operator.redo(9)
        host.operator.release()
        same("there already", place.tool("export", host, "image", "now"), ("", "now: File exists\n", BAD_INPUT))
        for words in (["image"], ["image", "out", "--at", "4"], ["image", "out", "--script", "x"], ["image", "--each=stored", "--into=x"],
                      ["image", "out", "--until", "serial 4"], ["image", "out", "--record", "x"]):
            same(f"{words}", place.tool("export", host, *words), ("", "--live goes with IMAGE and OUT alone\n", BAD_INPUT))
        same("too many", place.tool("export", host, "--image", "image", "out", "more"),
             ("", "more: a word too many, as --image has IMAGE\n", BAD_INPUT))
        same("no image", place.tool("export", host), ("", "there must be IMAGE\n", BAD_INPUT))
        same("the client", session.read(2, 1), SECTOR * b"C")


def counted(place):
    """tools/top tells the clients of each group, what they are owed, and the calls."""
    with place.looked_into() as host:
        for parent, weight in ((0, 300), (1, 7), (0, 50)):
            host.operator.group_make(parent, weight)
        with host.session(group=2) as session, host.session(1, group=2) as other, host.session(2):
            for number, to in ((0, session), (9, session), (20, other)):
                to.submit(Io.write(number, bytes(SECTOR)))
            until = time.monotonic() + SECONDS
            # Submits, dispatches and finishes.
            while host.look("line") != "line 15 15 15" and time.monotonic() < until:
                time.sleep(0.01)
            rows = ["bfq, running, free; 15 of 15 steps stand, last serial 15", "15 calls",
                    "             weight  clients  owed  queued  given back  in flight",
                    "all                        3     3       0           0          0",
                    "group 0                    1     0       0           0          0",
                    "  group 1       300        0     0       0           0          0",
                    "    group 2       7        2     3       0           0          0",
                    "  group 3        50        0     0       0           0          0", "", ""]
            same("a picture", place.tool("top", host), ("\n".join(rows), "", DONE))
            stdout, stderr, status = place.tool("top", host, "--count", "2", "--seconds", "0.1", "--history", "60")
            same("the end", (stderr, status), ("", DONE))
            same("the calls", [row for row in stdout.splitlines() if "calls" in row],
                 ["15 calls; 25% of the history is used", "15 calls, 0 a second; 25% of the history is used"])
        for words in (["--seconds", "0"], ["--seconds", "x"], ["--count", "0"], ["--history", "-1"], ["more"]):
            stdout, stderr, status = place.tool("top", host, *words)
            same(f"{words}", (stdout, status, stderr.startswith("usage: top --live DIR ")), ("", BAD_INPUT, True))
        same("options of sim", place.tool("top", host, "--", "--tags=1"), ("", "--live goes with no options of sim\n", BAD_INPUT))
        same("options of step", place.tool("step", host, "--record", "x"),
             ("", "--live goes with neither --record nor options of sim\n", BAD_INPUT))


def no_host(place):
    """Where no host serves, or one without a socket for looks, each tool says so."""
    text = "{0}: {0}/inspect: No such file or directory: the host has no socket for looks, or none runs\n"
    with serve(place.image, program=STANDING_IN, options=["--no-inspect"]) as host:
        for folder in (place.folder, host.folder):
            for tool, words in (("step", []), ("top", []), ("export", ["image", "out"])):
                same(tool, place.tool(tool, folder, *words), ("", text.format(folder), NO_PROGRAM))
        same("no image", contents(place.folder, "out"), None)


def host_ends(place):
    """A host that ends in the midst of it is told in one line."""
    with place.written() as (host, _):
        words = [os.path.join(TOOLS, "step"), "--program", place.program, "--live", host.folder]
        with subprocess.Popen(words, stdin=subprocess.PIPE, stdout=subprocess.PIPE, stderr=subprocess.PIPE,
                              env={**os.environ, **QUIET}) as run:
            run.stdin.write(b"hold\n")
            run.stdin.flush()
            while run.stdout.readline() not in (b"moved 9 9\n", b""):
                pass
            host.kill()
            stdout, stderr = run.communicate(b"line\n", timeout=SECONDS)
        same("the end", (stdout, run.returncode), (b"", NO_PROGRAM))
        same("what is told", (stderr.count(b"\n"), stderr.startswith(host.folder.encode())), (1, True))


RUNS = [stepped, operated, shown, left_as_it_was, interrupted, at_a_terminal, under_load, held_under_load, exported, counted, no_host,
        host_ends]


def live_runs(program):
    """The name of each run with what was wrong with it."""
    os.environ["BFQ_SIM"] = os.path.abspath(program)
    for act in RUNS:
        folder = tempfile.mkdtemp(prefix="bfq-")
        try:
            act(Live(program, folder))
            yield f"live: {act.__name__}", []
        except Skipped as lacking:
            print(f"skipped: live: {act.__name__}: {lacking}")
        except Exception as fault:  # pylint: disable=broad-except
            # Whatever is raised that was not wanted is a fault.
            yield f"live: {act.__name__}", [f"{type(fault).__name__}: {fault}"]
        finally:
            shutil.rmtree(folder)
