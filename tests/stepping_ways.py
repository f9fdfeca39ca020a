"""Runs of tools/step and tools/export along the line of a run: `until` and `since` a moment, `save`, warnings before steps are dropped, and
what a person may type at a terminal.

The expected texts come from the rules of the host (docs/FORMATS.md, docs/MODEL.md) and from what the tools say of themselves. Of random
scripts the steps that bring a moment are found by the answers that the script itself gets.
"""

import os
import re
import subprocess
import sys

from bad_input import DONE, Skipped
from random_scripts import random_script
from step_export_plot import (END_OF_INPUT, IMAGE, PICTURE, PROMPT, compared, contents, end_of, exported, faults_in, over, ran, read_until,
                              terminal)
from tools import BAD_INPUT, NO_PROGRAM, NOT_WANTED, TOOLS, differences, executable, written

sys.path.append(TOOLS)
from host import Host  # noqa: E402

# Two writes and a read: 4, 8 and 10 send a request of seat 0, 0 and 1, and 5 and 11 store what was written.
SCRIPT = """\
attach 0 0 4
write 0 1 5 2 65
read 0 1 100 1
dispatch
finish 0 4 stored
attach 1 0 4
write 1 6 6 1 66
dispatch
finish 0 8 fill 0
dispatch
work 0 10
"""
LAST = "work 0 10 -> finished 1\n"
# Another script, for an image that has fewer sectors.
ON_IMAGE = SCRIPT.replace("100", "7")


def none(way, moment):
    """What is told if no step brings a moment."""
    return f"no {'step before this one' if way == 'since' else 'undone step'} brings it: {moment}"


# What is typed behind the script, and what comes of it: the step that is arrived at, or None.
SEARCHED = [
    ("until", "stored sector 5", None), ("since", "stored sector 6", 5), ("since", "stored sector 6", None),
    ("until", "stored sector 7", None), ("until", "stored sector 6", 11), ("since", "stored sector 5", 5), ("since", "issued seat 0", 4),
    ("until", "issued seat 0", 8), ("until", "issued seat 1", 10), ("until", "issued seat 1", None), ("since", "issued seat 1", None),
    ("until", "serial 11", 11), ("since", "serial 1", 1), ("since", "serial 1", None), ("until", "sector 6 = sector 6 overlay 42", 11),
    ("since", "sector 6 = sector 6 overlay 41", 5), ("until", "show flight = flight", 9), ("until", "show flight = flight", 11),
    ("since", "show flight = flight", 9), ("since", "show seat 1 = seat 1 none", None), ("since", "class 1 = class 1 be", 6),
    ("until", "line = line 8 11 11", 8),
]


def tolds(rows, lines):
    """What is told of each row that is typed. The picture of a step follows it."""
    return "".join(f"{none(way, moment)}\n" if place is None else
                   f"step {place}, serial {place}: {lines[place - 1]}\nPICTURE running, free; {place} of {len(lines)}\n"
                   for way, moment, place in rows)


def to_moments(program, folder):
    """It goes forth and back to the steps that bring a moment, and stands where it stood if none does. A host that is held stays held."""
    written(folder, "script", SCRIPT)
    # The line of a step has the answer of the device.
    lines = SCRIPT.replace("work 0 10", "finish 0 10 stored").splitlines()
    for first, last in (("", ""), ("hold\n", "moved 11 11\n")):
        typed = first + "".join(f"{way} {moment}\n" for way, moment, _ in SEARCHED) + "line\n"
        stdout, *rest = ran(["step", "script"], folder, program, stdin=typed.encode())
        found = PICTURE.sub(r"PICTURE \1\n", stdout).partition("PICTURE running, free; 11 of 11\n")[2]
        wanted = tolds(SEARCHED, lines) + "line 8 11 11\n"
        yield from compared((found, *rest), last + (wanted.replace("free", "held") if first else wanted))


def to_the_ends(program, folder):
    """`b` and `f` go to the end if they are asked for more steps than there are."""
    written(folder, "script", SCRIPT)
    stdout, *rest = ran(["step", "script"], folder, program, stdin=b"b 99\nb 4294967295\nf 4294967295\nf 3\nb 3\nf 99\n")
    found = PICTURE.sub("", stdout).partition(LAST)[2]
    moves = [("undo 11", "moved 0 11"), ("undo 4294967295", "refused 31 NothingToUndo"), ("redo 11", "moved 11 11"),
             ("redo 3", "refused 32 NothingToRedo"), ("undo 3", "moved 8 11"), ("redo 3", "moved 11 11")]
    before = [11, 0, 0, 11, 11, 8]
    yield from compared((found, *rest), "".join(f"hold -> moved {at} 11\n{line} -> {answer}\nrelease -> done\n"
                                                for at, (line, answer) in zip(before, moves)))


def no_room(program, folder):
    """A history that is full is told, and the machine is shown as it stands then: 11 calls, the hold, and one way back."""
    written(folder, "script", SCRIPT)
    full = "-> refused 33 HistoryFull\n"
    for history, told in [("11", f"hold {full}"), ("12", f"undo 1 {full}release {full}"),
                          ("13", f"release {full}step 10, serial 10: dispatch\n")]:
        stdout, *rest = ran(["step", "script", "--", "--history", history], folder, program, stdin=b"since issued seat 1\n")
        yield from compared((PICTURE.sub("", stdout).partition(LAST)[2], *rest), told)


DROPS = "warning: if this is accepted "


def warnings(program, folder):
    """A line that may drop undone steps is told before, also one of a script; not while the host is held, when nothing can be dropped."""
    written(folder, "script", SCRIPT + "hold\nundo 3\ntick\nrelease\nsector 5\ndispatch\ndispatch\nhold\nundo 1\nrelease\n")
    typed = "attach 0 0 4\nattach 2 0 4\nattach 3 0 4\nb\nLine\nline\nwork last\n"
    stdout, *rest = ran(["step", "script"], folder, program, stdin=typed.encode())
    found = [row for row in PICTURE.sub("", stdout).partition(LAST)[2].splitlines() if row[:4] != "why:"]
    wanted = ["hold -> moved 11 11", "undo 3 -> moved 8 11", "tick -> notyet 41 Held", "release -> done",
              "sector 5 -> sector 5 overlay 41", f"{DROPS}3 undone steps are dropped, serials 9 to 11", "dispatch -> issued 1 12 store 6 1",
              "dispatch -> refused 17 NothingQueued", "hold -> moved 9 9", "undo 1 -> moved 8 9", "release -> done",
              # Of the lines that are typed the first is refused, so it has dropped nothing.
              f"{DROPS}1 undone step is dropped, serial 12", "refused 2 SeatTaken", f"{DROPS}1 undone step is dropped, serial 12",
              "attached 13", "attached 14", "hold -> moved 10 10", "undo 1 -> moved 9 10", "release -> done",
              "bad line 5: a capital letter: 'Line'", "line 9 10 14", f"{DROPS}1 undone step is dropped, serial 14",
              "work 1 12 -> refused 20 NotInFlight"]
    yield from differences("what is told", found, wanted)
    yield from compared(("", *rest), status=BAD_INPUT)


def saved(program, folder):
    """What was asked is written as a script, which brings a host to the same machine. A file that is there is not written, and a bad name
    is told, and the next line is taken."""
    written(folder, "script", SCRIPT)
    written(folder, "there", "there")
    typed = ("b 3\nuntil issued seat 1\nsince stored sector 5\nshow host\nrequeue 0 1\nattach 4 0 4\nsave it\ndispatch\nsave it\n"
             "save there\nsave no/folder\nsave two words\nsave\nshow host\nshow tree 0\n")
    stdout, *rest = ran(["step", "script", "--", "--tags", "2"], folder, program, stdin=typed.encode())
    yield from compared(("", *rest), status=BAD_INPUT)
    told = PICTURE.sub("", stdout)
    for wanted in ("it: 24 lines\n", "two words: 25 lines\n", "bad line 9: it: File exists\n", "bad line 10: there: File exists\n",
                   "bad line 11: no/folder: No such file or directory\n", "bad line 13: too few words: after 'save' comes FILE\n"):
        if wanted not in told:
            yield f"there is no {wanted!r} in {told[-900:]!r}"
    yield from differences("what was there", contents(folder, "there"), b"there")
    text = (contents(folder, "two words") or b"").decode()
    yield from differences("the first line", text.partition("\n")[0], "# The options: --tags 2")
    again = subprocess.run([program, "sim", "--tags", "2"], input=text + "show host\nshow tree 0\n", text=True, capture_output=True,
                           timeout=60, check=True)
    yield from differences("the machine that it makes", again.stdout.splitlines()[-2:], told.splitlines()[-2:])


BAD = [
    ("until", "too few words: after 'until' comes issued or serial or stored"),
    ("since", "too few words: after 'since' comes issued or serial or stored"),
    ("until stored 5", "an unknown word: '5'"), ("until stored sector x", "NUMBER is no number: 'x'"),
    ("until issued seat 256", "SEAT is at most 255: '256'"), ("until serial 01", "SERIAL has a 0 before its number: '01'"),
    ("until serial 1 2", "a word too many: '2'"), ("until dispatch = done", "no look stands before =: 'dispatch'"),
    ("since  = done", "a space too many: before the first word"), ("until line = ", "a space too many: after the last word"),
    ("until show = 1", "too few words: after 'show' comes flight or host or outbox or queue or requeued or seat or service or "
     "state or step or stored or tree"),
    ("until sector x = y", "NUMBER is no number: 'x'"),
]


def bad_moments(program, folder):
    """What names no moment is told, and nothing is asked; so is a bad one of export, before the script is read."""
    stdout, *rest = ran(["step"], folder, program, stdin="".join(f"{line}\n" for line, _ in BAD).encode())
    yield from compared((stdout, *rest), "".join(f"bad line {at}: {why}\n" for at, (_, why) in enumerate(BAD, 1)), status=BAD_INPUT)
    written(folder, "image", IMAGE)
    for text, why in (("issued 5", "an unknown word: '5'"), ("", "an unknown word: ''"),
                      ("hold = done", "no look stands before =: 'hold'")):
        yield from compared(ran(["export", "image", "out", "--script", "none", "--until", text], folder, program), "", f"{text}: {why}\n",
                            BAD_INPUT)


# What a script answers that brings a moment: of each accepted step, by its serial.

def events_of(host, lines):
    """Asks a script. Gives by its serial whose request each dispatch sent, and which sectors each finish stored."""
    issued, stored, requests = {}, {}, {}
    for line in lines:
        answer, at, flight = host.ask(line).split(" "), host.ask("line").split(" "), host.ask("show flight").split(" ")
        if answer[0] == "issued":
            _, tag, issue, operation, start, count = answer
            requests[issue] = operation, range(int(start), int(start) + int(count))
            issued[int(at[3])] = next(item.split(":")[2] for item in flight[1:] if item.startswith(f"{tag}:{issue}:"))
        if answer[0] == "finished" and requests[line.split(" ")[2]][0] != "fetch":
            stored[int(at[3])] = requests[line.split(" ")[2]][1]
    return issued, stored


def at_each_place(host, look):
    """The serials of the line, and what a look answers where so many steps stand, from none to all."""
    if host.ask("show host").split(" ")[3] == "free":
        host.ask("hold")
    _, cursor, length, _ = host.ask("line").split(" ")
    host.ask(f"undo {cursor}")
    answers = [host.ask(look)]
    for _ in range(int(length)):
        host.ask("redo 1")
        answers.append(host.ask(look))
    return [int(host.ask(f"show step {place}").split(" ")[2]) for place in range(1, int(length) + 1)], answers


MOST = 2**32 - 1


def in_random_scripts(program, folder):
    """Each moment of a random script is arrived at, forth from its start to its end and back: the steps are those of the script's own
    answers that are still in the line, and where a look begins to tell a text."""
    found = 0
    for seed in range(1, 13):
        script = random_script(seed, program, 150)
        # There must be room to go back and forth.
        options = [word for name, value in zip(script.options[::2], script.options[1::2]) if name != "--history" for word in (name, value)]
        options += ["--history", "1000000"]
        with Host(program, options) as host:
            issued, stored = events_of(host, script.lines)
            serials, services = at_each_place(host, "show service")
        sectors = sorted({sector for of in stored.values() for sector in (of[0], of[-1])})[:4]
        moments = {f"stored sector {sector}": [at for at in stored if sector in stored[at]] for sector in sectors}
        moments |= {f"issued seat {seat}": [at for at in issued if issued[at] == seat] for seat in sorted({*issued.values()})[:3]}
        wanted = {text: [place for place, serial in enumerate(serials, 1) if serial in of] for text, of in moments.items()}
        wanted["show service = service none"] = [place for place in range(1, len(services))
                                                 if (services[place - 1] != "service none") and services[place] == "service none"]
        written(folder, "script", "".join(f"{line}\n" for line in script.lines))
        for text, places in wanted.items():
            typed = [f"f {MOST}", f"b {MOST}", *[f"until {text}"] * (len(places) + 1), f"f {MOST}", *[f"since {text}"] * len(places)]
            stdout, _, _ = ran(["step", "script", "--narrow", "--", *options], folder, program, stdin="\n".join(typed).encode())
            arrived = [int(place) for place in re.findall(r"(?m)^step (\d+), serial", stdout)]
            # From the last step on those before it are found.
            back = [place for place in reversed(places) if place < len(serials)]
            found += len(places)
            yield from differences(f"seed {seed}, {text}", arrived, places + back)
    if found < 100:
        yield f"only {found} moments came"


def typed_twice(program, folder):
    """At a terminal a line that would drop steps is asked when it is typed once more, and an empty line is the last one again."""
    acts = [("", "> "), ("attach 0 0 4", "attached 1"), ("# one", ""), ("", "attach 0 0 4\nrefused 2 SeatTaken"),
            ("b", "undo 1 -> moved 0 1"),
            ("attach 1 0 4", f"{DROPS}1 undone step is dropped, serial 1\ntype it once more\n> "), ("line", "line 0 1 1"),
            ("attach 1 0 4", "type it once more"), ("", "attach 1 0 4\nattached 2"), ("b", "undo 1 -> moved 0 1"),
            ("steps", "- cursor: 0 of 1 steps"), ("attach 2 0 4", "serial 2\ntype it once more"), ("attach 2 0 4", "attached 3"),
            ("save it", "it: 11 lines"), ("", "attach 2 0 4\n")]
    with terminal(program, folder) as (run, ours, _):
        read_until(ours, PROMPT)
        for line, wanted in acts:
            os.write(ours, line.encode() + b"\n")
            told = read_until(ours, PROMPT).decode().replace("\r", "")
            if wanted not in told:
                yield f"{line!r} is told {told!r}, which has no {wanted!r}"
        os.write(ours, END_OF_INPUT)
        yield from differences("the status", end_of(run), DONE)


def export_until(program, folder):
    """The image as it was after the first step of the line that brings a moment, wherever the host stands then."""
    for moment, sectors, place in [("stored sector 5", {5: 65, 6: 65}, 5), ("sector 6 = sector 6 overlay 42", {5: 65, 6: 66}, 11),
                                   ("issued seat 1", {5: 65, 6: 65}, 10), ("serial 3", {}, 3)]:
        for script in (ON_IMAGE, ON_IMAGE + "hold\nundo 7\n"):
            name = f"out-{place}-{len(script)}"
            yield from exported(program, folder, script, [name, "--until", moment],
                                f"{name}: {len(sectors)} sectors stored over image, {place} of 11 steps stand\n",
                                {name: over(IMAGE, sectors)})
    yield from exported(program, folder, ON_IMAGE, ["out", "--until", "stored sector 4"], "", {"out": None},
                        "no step of the line brings it: stored sector 4\n", NOT_WANTED)
    yield from exported(program, folder, ON_IMAGE, ["out", "--until", "issued seat 1", "--", "--history=12"], "", {"out": None},
                        "undo 11 -> refused 33 (HistoryFull)\n", NOT_WANTED)


def odd_lines(program, folder):
    """A program that ends in the midst of a search is told."""
    dying = executable(folder, "dying", f"#!/bin/sh\nfor at in 1 2 3; do read -r line && echo \"$line\"; done | '{program}' sim\nexit 3\n")
    stdout, stderr, status = ran(["step"], folder, dying, stdin=b"until issued seat 0\n")
    yield from compared((stdout, "", status), "", status=NO_PROGRAM)
    if not stderr.startswith(f"{dying} has ended "):
        yield f"standard error is {stderr!r}"


FUNCTIONS = [to_moments, to_the_ends, no_room, warnings, saved, bad_moments, in_random_scripts, typed_twice, export_until, odd_lines]


def ways_runs(program):
    """The name of each run, and what was wrong with it. What cannot be had here is skipped, and a line is printed for it."""
    for function in FUNCTIONS:
        name = f"ways: {function.__name__.replace('_', ' ')}"
        try:
            yield name, faults_in(function, program)
        except Skipped as lacking:
            print(f"skipped: {name}: {lacking}")
