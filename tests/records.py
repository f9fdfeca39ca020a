"""Runs of the tools and of the client over what `bfqhost serve --record` has written, which `bfqhost replay` reads.

The program that is tested writes and reads the records, if it can; else tests/standing_in.py does. A client that has one read or write
under way at a time leaves a line of which each step is known. So a script of the same steps must give what the record gives.
"""

import os
import shutil
import tempfile

from bad_input import DONE, Skipped
from client import raises
from client_operator import SOON, STANDING_IN, Place
from record_bytes import another_order, states_of_ext4
from recording import OF_DISCARDS, record_of
from served import SECTOR, same
from step_export_plot import PICTURE, compared, contents, ran
from tools import BAD_INPUT, NO_PROGRAM, executable, written
from bfqclient import BadRecord, Misuse, NotFound, Refused, TimedOut, open_record, serve  # noqa: E402  tests/client.py has the path

# What the client does, as a script: the device does the work of each as soon as it is queued.
SCRIPT = """\
attach 0 0 4
write 0 1 2 1 65
dispatch
work 0 3
reap 0 1
write 0 1 2 2 66
dispatch
work 0 7
reap 0 1
read 0 1 0 4
dispatch
work 0 11
reap 0 1
"""
STEPS = 13
# The two states of the image: sectors with their bytes.
STATES = {4: {2: 65}, 8: {2: 66, 3: 66}}


class Recording(Place):
    """A folder of a run with an image. What is served there can be recorded."""

    def able(self):
        """The program, if it records what it does, or what stands in for it."""
        os.environ["BFQ_SIM"] = self.program
        return self.program if self.has_looks(b"--record") else STANDING_IN


class Recorded(Recording):
    """A folder with a record of that run; the host has undone so many steps then, and is held if there are some."""

    def __init__(self, program, folder, undone=0):
        super().__init__(program, folder)
        self.record = os.path.join(folder, "run.rec")
        with open(self.image, "rb") as file:
            self.data = file.read()
        with serve(self.image, program=self.able(), record=self.record, options=["--history", "100"]) as host:
            session = host.session()
            session.write(2, b"A" * SECTOR)
            session.write(2, b"B" * 2 * SECTOR)
            session.read(0, 4)
            if undone:
                host.operator.hold()
                host.operator.undo(undone)
            host.operator.stop()

    def over(self, sectors):
        """The image with these sectors stored over it."""
        data = bytearray(self.data)
        for sector, byte in sectors.items():
            data[sector * SECTOR:(sector + 1) * SECTOR] = bytes([byte]) * SECTOR
        return bytes(data)

    def tool(self, *words, stdin=""):
        """What a tool prints to standard output and standard error, and its status."""
        return ran([*words], self.folder, self.able(), stdin=stdin.encode())

    def is_so(self, words, stdin="", stdout="", stderr="", status=DONE):
        faults = [*compared(self.tool(*words, stdin=stdin), stdout, stderr, status)]
        same(f"{words}: faults", faults, [])


def stepped(program, folder):
    """tools/step begins where the record ends, goes back and forth in it, warns before its undone steps are dropped, and goes on."""
    place = Recorded(program, folder)
    typed = "line\nb 99\nuntil stored sector 2\nuntil stored sector 2\nsince issued seat 0\nto 13\nattach 1 0 4\nsave it\n"
    stdout, *rest = place.tool("step", "--record", "run.rec", stdin=typed)
    same("the end", rest, ["", DONE])
    same("what is told", PICTURE.sub(r"PICTURE \1\n", stdout).splitlines(), [
        "PICTURE running, free; 13 of 13", "line 13 13 13", "hold -> moved 13 13", "undo 13 -> moved 0 13", "release -> done",
        "PICTURE running, free; 0 of 13", "step 4, serial 4: finish 0 3 stored", "PICTURE running, free; 4 of 13",
        "step 8, serial 8: finish 0 7 stored", "PICTURE running, free; 8 of 13", "step 7, serial 7: dispatch",
        "PICTURE running, free; 7 of 13", "hold -> moved 7 13", "redo 6 -> moved 13 13", "release -> done",
        "PICTURE running, free; 13 of 13", "attached 14", "PICTURE running, free; 14 of 14", "it: 19 lines"])
    same("what is saved", (contents(folder, "it") or b"").decode().splitlines()[-2:], ["release", "attach 1 0 4"])
    # The last 5 steps are undone, and the host is held.
    undone = Recorded(program, tempfile.mkdtemp(dir=folder), 5)
    stdout, *rest = undone.tool("step", "--record", "run.rec", stdin="attach 1 0 4\nrelease\nattach 1 0 4\n")
    same("the warning", PICTURE.sub("", stdout).splitlines(),
         ["notyet 41 Held", "done", "warning: if this is accepted 5 undone steps are dropped, serials 9 to 13", "attached 14"])


def in_a_full_history(program, folder):
    """A history has as much room as is asked for; the reasons of dispatches know it, and the tags of the record."""
    place = Recorded(program, folder)
    lines = "read 0 1 9 1\ndispatch\n"
    stdout, stderr, status = place.tool("step", "--record", "run.rec", "--", "--history", "13", stdin=lines)
    same("a full one", (PICTURE.sub("", stdout), stderr, status), ("refused 33 HistoryFull\nrefused 17 NothingQueued\n", "", DONE))
    written(folder, "script", "attach 1 0 4\nread 1 14 9 1\ndispatch -> issued 0 16 fetch 9 1\n")
    stdout, stderr, status = place.tool("expect", "script", "--record", "run.rec", "--why", "--", "--history=16")
    same("the last line", (stdout.splitlines()[-1], stderr, status), ("3 lines asked, 1 answers as wanted", "", DONE))
    same("its reason", "dispatch -> issued 0 16 fetch 9 1\n    why: " in stdout and "!!!" not in stdout, True)


def exported(program, folder):
    """tools/export writes the image as the record leaves it, at a step, when a moment came, and after each write; a script goes on."""
    place = Recorded(program, folder)
    head = [["export", "image", "--record", "run.rec"], f" sectors stored over image, {{}} of {STEPS} steps stand\n"]
    for name, words, serial, stored in (("end", [], 13, STATES[8]), ("at", ["--at", "5"], 5, STATES[4]), ("start", ["--at", "1"], 1, {}),
                                        ("until", ["--until", "stored sector 3"], 8, STATES[8])):
        place.is_so([*head[0], name, *words], "", f"{name}: {len(stored)}{head[1].format(serial)}")
        same(name, contents(folder, name), place.over(stored))
    written(folder, "script", "write 0 1 9 1 67\ndispatch\nwork 0 15\n")
    place.is_so([*head[0], "--each", "stored", "--into", "states", "--script", "script"], "", "".join(
        f"states/after-{serial:08}.img: {len(stored)} sectors stored over image, {serial} of {steps} steps stand\n"
        for serial, stored, steps in ((4, STATES[4], 13), (8, STATES[8], 13), (16, {**STATES[8], 9: 67}, 16))))
    for serial, stored in ((4, STATES[4]), (8, STATES[8]), (16, {**STATES[8], 9: 67})):
        same(f"state {serial}", contents(folder, f"states/after-{serial:08}.img"), place.over(stored))
    same("how many", len(os.listdir(os.path.join(folder, "states"))), 3)
    # A write that the record's host has sent is completed by the script.
    written(folder, "later", "finish 0 3 stored\n")
    place.is_so([*head[0], "--each", "stored", "--into", "later-states", "--script", "later", "--", "--to", "4"], "",
                f"later-states/after-00000004.img: {len(STATES[4])} sectors stored over image, 4 of 4 steps stand\n")
    same("a write of the record, completed later", contents(folder, "later-states/after-00000004.img"), place.over(STATES[4]))
    stdout, stderr, status = place.tool(*head[0], "--each", "stored", "--into", "none", "--", "--history", "13")
    same("no room to go back", (stdout, "hold -> refused 33" in stderr, "-- --history N" in stderr, status), ("", True, True, 1))
    # The standard input is not read.
    place.is_so([*head[0], "again"], "Bad line", f"again: 2{head[1].format(13)}")


def plotted(program, folder):
    """tools/plot has of a record what it has of a script of the same steps, also where a script goes on behind both."""
    place = Recorded(program, folder)
    written(folder, "script", SCRIPT)
    written(folder, "more", "write 0 1 9 1 67\ndispatch\nwork 0 15\n")
    written(folder, "both", SCRIPT + "write 0 1 9 1 67\ndispatch\nwork 0 15\n")
    for words in ([], ["--service"], ["--lag"], ["--service", "--from", "7"]):
        for of_record, of_script in (([], ["script"]), (["more"], ["both"])):
            found = place.tool("plot", "--record", "run.rec", *of_record, *words)
            wanted = ran(["plot", *of_script, *words, "--", "--image", "image"], folder, place.program)
            same(f"{words} {of_record}", found, wanted)
            same("whether there are rows", len(found[0].splitlines()) > 3, True)
    place.is_so(["plot"], "", "", "there must be a SCRIPT, or --record FILE\n", BAD_INPUT)


def bad_records(program, folder):
    """A file that is none is told, and so is what the program finds; of a last entry that was cut nothing is lost but itself."""
    place = Recorded(program, folder)
    with open(place.record, "rb") as file:
        text = file.read()
    written(folder, "cut.rec", text[:-1])
    written(folder, "none.rec", b"line\n" + text)
    written(folder, "script", "line -> line 12 12 12\n")
    for tool, words in (("step", []), ("expect", ["script", "--why"])):
        place.is_so([tool, *words, "--record", "no.rec"], "", "", "no.rec: No such file or directory\n", BAD_INPUT)
        place.is_so([tool, *words, "--record", "none.rec"], "", "", "none.rec: no record: its first line is not that of one\n", BAD_INPUT)
    stdout, stderr, status = place.tool("expect", "script", "--record", "cut.rec")
    same("a cut one", (stdout, status), ("1 lines asked, 1 answers as wanted\n", DONE))
    same("what is told of it", stderr, "cut.rec: record: torn behind entry 12\n")
    for words in (["export", "image", "out"], ["plot"]):
        for name in ("no.rec", "none.rec"):
            stdout, stderr, status = place.tool(*words, "--record", name)
            same(f"{words} {name}", (stdout, status, " has ended with status 6 before it answered " in stderr), ("", NO_PROGRAM, True))
            same("the program's own line", stderr.rpartition(": record: ")[2] != stderr, True)
        same("no image", contents(folder, "out"), None)


def opened(program, folder):
    """The client opens a record: it asks lines, goes to a place, forth and back to moments, and has the states of the device."""
    place = Recorded(program, folder)
    with open_record(place.record, program=place.able(), history=1000) as record:
        same("an answer", record.ask("line"), "line 13 13 13")
        same("many", record.asks([f"sector {number}" for number in range(3000)])[2], "sector 2 overlay 42")
        found = list(record.states())
        same("the states", {it.step.serial: {number: data[0] for number, data in it.stored.items()} for it in found}, STATES)
        same("their images", [it.over(place.data) for it in found], [place.over(stored) for stored in STATES.values()])
        same("where it stands", record.ask("line"), "line 13 13 13")
        record.go(0)
        same("forth", [record.until("stored sector 2")[:2] for _ in range(2)], [(4, 4), (8, 8)])
        with raises(NotFound):
            record.until("stored sector 2")
        same("back", record.since("sector 2 = sector 2 overlay 41")[:2], (4, 4))
        for wrong in (-1, 14):
            with raises(Misuse):
                record.go(wrong)
        with raises(Misuse):
            record.until("hold = done")
        same("a refusal", record.ask("release"), "refused 28")
        same("held", (record.ask("hold"), record.until("serial 5")[:2], record.ask("show host").split()[3]), ("moved 4 13", (5, 5), "held"))
        same("another future", (record.ask("release"), record.ask("attach 1 0 4"), record.ask("line")),
             ("done", "attached 14", "line 6 6 14"))


def asked(program, folder):
    """What is no line is told; one that the program takes for none ends it. It may begin before an entry, and with room for some calls."""
    place = Recorded(program, folder)
    with open_record(place.record, program=place.able()) as record:
        for line in ("", "# one", "line\nline"):
            with raises(Misuse):
                record.asks(["line", line])
        with raises(Misuse):
            record.ask("Line")
        with raises(BadRecord, status=2):
            record.ask("line")
    same("the end", record.process.returncode, 2)
    with open_record(place.record, program=place.able(), to=6, image=place.image) as record:
        same("before an entry", record.ask("line"), "line 5 5 5")
        for state in record.states():
            same("the first", state.step.serial, 4)
            break
        same("where it stands", record.ask("line"), "line 5 5 5")
    same("the end", record.process.returncode, 0)
    with open_record(place.record, program=place.able(), history=14) as record:
        with raises(Refused, code=33, kind="undo"):
            record.go(1)


def not_opened(program, folder):
    """What cannot be opened is told with the program's own line and status, and nothing is left running."""
    place = Recorded(program, folder)
    with open(place.record, "rb") as file:
        text = file.read()
    written(folder, "none.rec", b"line\n" + text)
    for name, line in (("no.rec", "record: cannot be read"), ("none.rec", "record: bad entry 0")):
        with raises(BadRecord, line=line, status=6, text=f"the program has ended with status 6: {line}"):
            open_record(os.path.join(folder, name), program=place.able())
    with raises(BadRecord, line="", status=None):
        open_record(place.record, program="/nothing")
    with raises(Misuse):
        open_record(place.record, program=place.able(), timeout=0)
    written(folder, "cut.rec", text[:-1])
    with open_record(os.path.join(folder, "cut.rec"), program=place.able()) as record:
        same("a cut one", record.ask("line"), "line 12 12 12")
    same("what is said of it", record.said, ["record: torn behind entry 12"])
    slow = executable(folder, "slow", "#!/bin/sh\nread -r line\necho line 0 0 0\nread -r line\nexec sleep 60\n")
    with open_record(place.record, program=slow) as record:
        with raises(TimedOut, kind="record"):
            record.ask("line", timeout=SOON)
        with raises(BadRecord):
            record.ask("line")


def of_discards(place):
    """The tools and the client read a discard in a record: states, moments, images with holes and without, and dispatches."""
    written(place.folder, "run.rec", record_of(OF_DISCARDS))
    with open(place.image, "rb") as file:
        data = file.read()
    images = {4: bytearray(data), 9: bytearray(data)}
    images[4][5 * SECTOR:6 * SECTOR] = SECTOR * b"\x11"
    images[9][4 * SECTOR:7 * SECTOR] = bytes(3 * SECTOR)
    with open_record(os.path.join(place.folder, "run.rec"), program=place.program) as record:
        found = list(record.states())
        same("the states", [(it.step.serial, {number: held[0] for number, held in it.stored.items()}, sorted(it.changed)) for it in found],
             [(4, {5: 17}, [5]), (9, {4: 0, 5: 0, 6: 0}, [4, 5, 6])])
        same("their images", [it.over(data) for it in found], [bytes(image) for image in images.values()])
        record.go(0)
        same("moments", [record.until("stored sector 6")[:2], record.since("stored sector 5")[:2]], [(9, 9), (4, 4)])
    for words, told in (([], ("", "")), (["--holes"], (", 0 of them zeros that are not written", ", 3 of them zeros that are not written"))):
        into = f"states{len(words)}"
        stdout, *rest = ran(["export", "image", "--record", "run.rec", "--each", "stored", "--into", into, *words], place.folder, place.program)
        same("what is written", (stdout, *rest), ("".join(
            f"{into}/after-{serial:08}.img: {count} sectors stored over image{zeros}, {serial} of 11 steps stand\n"
            for serial, count, zeros in zip((4, 9), (1, 3), told)), "", DONE))
        same("the images", [contents(place.folder, f"{into}/after-{serial:08}.img") for serial in images], [*map(bytes, images.values())])
    # What was sent before the script is completed by it.
    written(place.folder, "later", "finish 0 8 stored\n")
    stdout, *rest = ran(["export", "image", "--record", "run.rec", "--each", "stored", "--into", "later-states", "--script", "later", "--", "--to", "9"],
                        place.folder, place.program)
    same("a discard of the record, completed later", contents(place.folder, "later-states/after-00000009.img"), bytes(images[9]))
    stdout, *rest = ran(["step", "--record", "run.rec"], place.folder, place.program, stdin=b"b 3\ndiscard 0 1 9 1\ndispatch\nfinish last stored\n")
    same("stepped", ("tag 0, issue 8: seat 0 discard 4+3 bio 5" in stdout, "outbox: 2 written, 12 discarded" in stdout,
                     "next is discard 9+1, from sector 7 on" in stdout, "!!!" in stdout, *rest), (True, True, True, False, "", DONE))
    stdout, *rest = ran(["plot", "--record", "run.rec", "--lag"], place.folder, place.program)
    # One sector of the write, and three of the discard, which was sent twice.
    same("plotted", (stdout.splitlines()[-1].split(",")[2], *rest), ("7", "", DONE))


def with_bytes(act):
    """A run with real bytes, which the program alone records."""
    def run(program, folder):
        place = Recording(program, folder)
        if place.able() == STANDING_IN:
            raise Skipped("the program records nothing")
        act(place)
    run.__name__ = act.__name__
    return run


def records_runs(program):
    """The name of each run with what was wrong with it. What cannot be had here is skipped, and a line is printed for it."""
    for act in (stepped, in_a_full_history, exported, plotted, bad_records, opened, asked, not_opened, with_bytes(states_of_ext4),
                with_bytes(another_order), with_bytes(of_discards)):
        folder = tempfile.mkdtemp(prefix="bfq-")
        try:
            act(program, folder)
            yield f"records: {act.__name__}", []
        except Skipped as lacking:
            print(f"skipped: records: {act.__name__}: {lacking}")
        except Exception as fault:  # pylint: disable=broad-except
            # Whatever is raised that was not wanted is a fault.
            yield f"records: {act.__name__}", [f"{type(fault).__name__}: {fault}"]
        finally:
            shutil.rmtree(folder)
