"""Runs of the tools step, export and plot: what they print and write, and how they end.

The expected texts come from the rules of the host (docs/FORMATS.md, docs/MODEL.md) and from what each tool says of itself, and not from
a run of a tool or of the program. Only the CSV of a longer script is compared with what older queries answer.
"""

import contextlib
import csv
import fcntl
import os
import re
import resource
import select
import shutil
import signal
import struct
import subprocess
import tempfile
import termios
import time

from bad_input import DONE, Skipped
from tools import (BAD_INPUT, NO_PROGRAM, NOT_WANTED, SECONDS, TOOLS, WRITE_FAULT, Run, differences, ends, executable, faults_of, shown,
                   started, written)

SECTOR = 512
COLUMNS = 80
# Python leaves no files beside the tools, and a terminal takes no commands and nobody's settings, so that nothing but text comes.
QUIET = {"PYTHONDONTWRITEBYTECODE": "1", "PYTHONUNBUFFERED": "", "PYTHONIOENCODING": "", "TERM": "dumb", "INPUTRC": "/dev/null"}
PROMPT = b"\r\n> "
END_OF_INPUT, INTERRUPT = b"\x04", b"\x03"


def ran(words, folder, program, *, stdin=b"", environment=None, **given):
    """What a tool that runs in a folder writes to standard output and standard error, and its status."""
    tool, *words = words
    ended = subprocess.run([os.path.join(TOOLS, tool), "--program", program, *words], cwd=folder, input=stdin, capture_output=True,
                           timeout=SECONDS, check=False, env={**os.environ, **QUIET, **(environment or {})}, **given)
    return ended.stdout.decode(), ended.stderr.decode(), ended.returncode


def compared(got, stdout="", stderr="", status=DONE):
    """Where a tool ended in another way than wanted."""
    for what, of_run, wanted in zip(("standard output", "standard error", "the status"), got, (stdout, stderr, status)):
        yield from differences(what, of_run, wanted)


def contents(folder, name):
    """The bytes of a file; None where there is none."""
    path = os.path.join(folder, name)
    if not os.path.exists(path):
        return None
    with open(path, "rb") as file:
        return file.read()


def answering(answers, default="none"):
    """A program that has these answers, and another one for every other line."""
    return ("#!/usr/bin/env python3\nimport sys\n"
            f"for line in sys.stdin:\n    print({answers!r}.get(line[:-1], {default!r}), flush=True)\n")


# The runs of step.

def told_with_whys(rows, whys):
    """What is told of lines with their answers, of which each dispatch that is done goes with the next reason."""
    reasons = iter(whys)
    return "".join(f"{line} -> {answer}\n" + (f"why: {next(reasons)}\n" if answer.startswith("issued ") else "") for line, answer in rows)


def step(name, stdin, stdout="", stderr="", status=DONE, words=(), **more):
    """A run whose lines come over a pipe."""
    return Run(f"step: {name}", ["step", *words], stdin=stdin.encode(), stdout=stdout, stderr=stderr, status=status, **more)


# A sector at weight 40 takes 2^22 / 40 = 104,857.6, and a budget of 1,024 of them 107,374,182.4; both are rounded down. The write is sent
# alone, so its queue expires for emptying in the step that sends it.
WHY_OF_A_WRITE = ("why: group 0: V 0.000, eligible seat 0 F 25.600: seat 0 is taken; next is store 5+1, from sector 0 on; seat 0 is empty "
                  "then, and expires for emptying, budget 1024 -> 256; seat 0: F' = S 0.000 + 1/40 = 0.025, idle")
A_WRITE = f"""\
attached 1
bfq, running, free; 1 of 1 steps stand, last serial 1, 1 calls
in service: none; round robin: seat 15
seat 0: session 1, group 0, priority 4, owed 0, head 0, here
dispatch list: none
in flight: none
group 0   state  weight  budget  start  finish  S/2^22  F/2^22
  V                                  0           0.000
  seat 0  idle       40    1024      0       0   0.000   0.000

queued 2
bfq, running, free; 2 of 2 steps stand, last serial 2, 2 calls
in service: none; round robin: seat 15
seat 0: session 1, group 0, priority 4, owed 1, head 0, here
  queue: store 5+1 bio 2
dispatch list: none
in flight: none
group 0   state   weight  budget  start     finish  S/2^22  F/2^22
  V                                   0              0.000
  seat 0  active      40    1024      0  107374182   0.000  25.600

issued 0 3 store 5 1
{WHY_OF_A_WRITE}
bfq, running, free; 3 of 3 steps stand, last serial 3, 3 calls
in service: none; round robin: seat 15
seat 0: session 1, group 0, priority 4, owed 1, head 6, here
dispatch list: none
in flight:
  tag 0, issue 3: seat 0 store 5+1 bio 2
group 0   state  weight  budget   start  finish  S/2^22  F/2^22
  V                              104857           0.025
  seat 0  idle       40     256  104857  104857   0.025   0.025

notyet 44 NotCompleted
work 0 3 -> finished 1
bfq, running, free; 4 of 4 steps stand, last serial 4, 4 calls
in service: none; round robin: seat 15
seat 0: session 1, group 0, priority 4, owed 1, head 6, here
  outbox: 2 written
dispatch list: none
in flight: none
group 0   state  weight  budget   start  finish  S/2^22  F/2^22
  V                              104857           0.025
  seat 0  idle       40     256  104857  104857   0.025   0.025

sector 5 overlay 41
"""

# A script with its answers, that leaves something at each place. Seat 3 is in group 2, which is in group 1. There are six tags.
FULL = [
    ("group 0 100", "group 1"), ("group 1 7", "group 2"), ("attach 0 0 4", "attached 3"), ("attach 3 2 7", "attached 4"),
    # The second joins the first at its end, and the third at its front.
    ("read 0 3 100 2", "queued 5"), ("read 0 3 102 2", "queued 6"), ("read 0 3 98 2", "queued 7"),
    ("write 0 3 200 1 65", "queued 8"), ("read 0 3 300 1", "queued 9"), ("read 0 3 400 1", "queued 10"),
    ("write 3 4 500 64 1", "queued 11"), ("write 3 4 600 1 2", "queued 12"), ("write 3 4 700 1 3", "queued 13"),
    ("read 3 4 900 1", "queued 14"),
    ("dispatch", "issued 0 15 fetch 98 6"), ("dispatch", "issued 1 16 store 200 1"), ("dispatch", "issued 2 17 fetch 300 1"),
    ("dispatch", "issued 3 18 fetch 400 1"), ("dispatch", "issued 4 19 store 500 64"), ("dispatch", "issued 5 20 store 600 1"),
    ("dispatch", "refused 18 NoTag"), ("finish 0 15 fill 7", "finished 3"), ("requeue 4 19", "requeued"), ("requeue 1 16", "requeued"),
    ("finish 2 17 short", "finished 1"), ("tick", "done"), ("weight 1 300", "done"), ("leave 3", "left"),
    ("reap 0 3", "completed 7 read 07 07"), ("freeze", "done"),
    ("show seat 16", "seat 16 none"), ("show tree 9", "tree 9 none"), ("show step 30", "step 30 none"), ("hold", "moved 29 29"),
]
# Why, of each dispatch that is done. 1,024 sectors take 25.6 by weight at 40 and 102.4 at 10, and 4,096 take 40.96 at 100 and 585.142 ..
# at 7. V is 9/140 of a sector when seat 0 has had its 9.
WHYS_OF_FULL = [
    "group 0: V 0.000, eligible seat 0 F 25.600, group 1 F 40.960: seat 0 is taken, the least F; next is fetch 98+6, from sector 0 on",
    "seat 0 is in service and goes on: 6 of 1024 sectors sent, 1 next, age 0 of 8; next is store 200+1, from sector 104 on",
    "seat 0 is in service and goes on: 7 of 1024 sectors sent, 1 next, age 0 of 8; next is fetch 300+1, from sector 201 on",
    "seat 0 is in service and goes on: 8 of 1024 sectors sent, 1 next, age 0 of 8; next is fetch 400+1, from sector 301 on; "
    "seat 0 is empty then, and expires for emptying, budget 1024 -> 256; seat 0: F' = S 0.000 + 9/40 = 0.225, idle",
    "group 0: V 0.064, eligible group 1 F 40.960: group 1 is taken; group 1: V 0.000, eligible group 2 F 585.143: group 2 is taken; "
    "group 2: V 0.000, eligible seat 3 F 102.400: seat 3 is taken; next is store 500+64, from sector 0 on",
    "seat 3 is in service and goes on: 64 of 1024 sectors sent, 1 next, age 0 of 8; next is store 600+1, from sector 564 on",
]
# Seat 0 sends 6, 1, 1 and 1 sectors, by which V grows 179,755 and three times 29,959 at a sum of weights of 140. It is idle then, at
# 9 * 2^22 / 40 = 943,718. Seat 3 sends 64: V grows 1,917,396 at 140 once more, as seat 0 has a finish above it, 38,347,922 at 7 in group 1
# and 26,843,545 at 10 in group 2. It sends 1: V grows 41,943 at 100, as it is past that finish, 599,186 at 7 and 419,430 at 10.
# A group's budget is 4,096 sectors: at weight 100 they take 171,798,691, and at weight 7 2,454,267,026.
PICTURE_OF_FULL = """\
bfq, frozen, held; 29 of 29 steps stand, last serial 29, 30 calls
in service: seat 3, 65 of 1024 sectors sent, age 1; round robin: seat 15
seat 0: session 3, group 0, priority 4, owed 5, head 401, here
  outbox: 5 read, 6 read, 9 short
seat 3: session 4, group 2, priority 7, owed 4, head 601, leaving
  queue: store 700+1 bio 13, fetch 900+1 bio 14
dispatch list:
  seat 3 store 500+64 bio 11
  seat 0 store 200+1 bio 8
in flight:
  tag 3, issue 18: seat 0 fetch 400+1 bio 10
  tag 5, issue 20: seat 3 store 600+1 bio 12
group 0       state      weight  budget     start      finish  S/2^22   F/2^22
  V                                       2228971               0.531
  seat 0      idle           40     256    943718      943718   0.225    0.225
  group 1     serving  100->300    4096         0   171798691   0.000   40.960
    V                                    38947108               9.286
    group 2   serving         7    4096         0  2454267026   0.000  585.143
      V                                  27262975               6.500
      seat 3  serving        10    1024         0   429496729   0.000  102.400

"""

# Where no step stands, and where an attach alone does.
PICTURE_OF_NOTHING = """\
{}, running, {}; {} of {} steps stand, last serial {}, {} calls
in service: none; round robin: seat 15
no seat is taken
dispatch list: none
in flight: none
group 0  state  weight  budget  start  finish  S/2^22  F/2^22
  V                                 0           0.000

"""
PICTURE_OF_AN_ATTACH = """\
bfq, running, {}; 1 of 1 steps stand, last serial 1, {} calls
in service: none; round robin: seat 15
seat 0: session 1, group 0, priority 4, owed 0, head 0, here
dispatch list: none
in flight: none
group 0   state  weight  budget  start  finish  S/2^22  F/2^22
  V                                  0           0.000
  seat 0  idle       40    1024      0       0   0.000   0.000

"""

# Nothing of this is accepted but what is asked by the stepper itself, so no picture comes.
REFUSALS = """\
dispatch -> refused 17 NothingQueued
thaw -> refused 23 NotFrozen
finish 4 1 stored -> refused 19 BadTag
undo 1 -> refused 28 NotHeld
reap 16 1 -> refused 1 BadSeat
line -> line 0 0 0
show seat 16 -> seat 16 none
show tree 31 -> tree 31 none
show step 1 -> step 1 none
hold -> moved 0 0
tick -> notyet 41 Held
release -> done
"""

BACK_AND_FORTH = """\
attach 0 0 4
write 0 1 5 1 65
dispatch
b 2
steps
write 0 1 6 1 66
steps
to 3
to 4
to 1
to 4
hold
b
f
f
undo 1
redo 1
dispatch
release
work last
dispatch
finish last stored
finish last fault
"""
# PICTURE stands for a picture, whose first line is told.
WENT = f"""\
attached 1
PICTURE running, free; 1 of 1
queued 2
PICTURE running, free; 2 of 2
issued 0 3 store 5 1
{WHY_OF_A_WRITE}
PICTURE running, free; 3 of 3
hold -> moved 3 3
undo 2 -> moved 1 3
release -> done
PICTURE running, free; 1 of 3
1 serial 1: attach 0 0 4
- cursor: 1 of 3 steps stand
2 serial 2: write 0 1 5 1 65
3 serial 3: dispatch
warning: if this is accepted 2 undone steps are dropped, serials 2 to 3
queued 4
PICTURE running, free; 2 of 2
1 serial 1: attach 0 0 4
2 serial 4: write 0 1 6 1 66
- cursor: 2 of 2 steps stand
no step of the line has serial 3
the step with serial 4 is the last that stands
hold -> moved 2 2
undo 1 -> moved 1 2
release -> done
PICTURE running, free; 1 of 2
hold -> moved 1 2
redo 1 -> moved 2 2
release -> done
PICTURE running, free; 2 of 2
moved 2 2
undo 1 -> moved 1 2
PICTURE running, held; 1 of 2
redo 1 -> moved 2 2
PICTURE running, held; 2 of 2
redo 1 -> refused 32 NothingToRedo
moved 1 2
PICTURE running, held; 1 of 2
moved 2 2
PICTURE running, held; 2 of 2
notyet 41 Held
done
work 0 3 -> refused 20 NotInFlight
issued 0 5 store 6 1
{WHY_OF_A_WRITE.replace("5+1", "6+1")}
PICTURE running, free; 3 of 3
finish 0 5 stored -> finished 1
PICTURE running, free; 4 of 4
finish 0 5 fault -> refused 20 NotInFlight
"""

RUNS_OF_STEP = [
    step("a write", "attach 0 0 4\nwrite 0 1 5 1 65\ndispatch\nreap 0 1\nwork last\n\n# one\nsector 5\n", A_WRITE),
    step("everything in the picture", "", told_with_whys(FULL, WHYS_OF_FULL) + PICTURE_OF_FULL,
         words=["script", "--", "--tags=6"], files={"script": "# one\n\n" + "".join(f"{line}\n" for line, _ in FULL)}),
    step("refusals", "".join(f"{row.split(' -> ')[0]}\n" for row in REFUSALS.splitlines()),
         "".join(f"{row.split(' -> ')[1]}\n" for row in REFUSALS.splitlines())),
    step("nothing to go back or forth to", "b\nf\nb 0\nto 0\nto 1\nsteps\nwork last\n",
         "hold -> moved 0 0\nundo 1 -> refused 31 NothingToUndo\nrelease -> done\nhold -> moved 0 0\nredo 1 -> refused 32 NothingToRedo\n"
         "release -> done\nhold -> moved 0 0\nundo 0 -> refused 30 ZeroCount\nrelease -> done\nno step of the line has serial 0\n"
         "no step of the line has serial 1\n- cursor: 0 of 0 steps stand\nthere is no `last`: nothing was issued\n"),
    step("the scheduler none, and the end by q", "s\nq\nattach 0 0 4\n", PICTURE_OF_NOTHING.format("none", "free", 0, 0, 0, 0),
         words=["--", "--scheduler", "none"]),
    # An attach and the hold fill it.
    step("no room to go back", "b\n", f"attach 0 0 4 -> attached 1\nhold -> moved 1 1\n{PICTURE_OF_AN_ATTACH.format('held', 2)}"
         "undo 1 -> refused 33 HistoryFull\n", words=["script", "--", "--history", "2"], files={"script": "attach 0 0 4\nhold"}),
    # There is no undo then, which would be refused as the host is not held.
    step("no room to hold", "b\n", f"attach 0 0 4 -> attached 1\n{PICTURE_OF_AN_ATTACH.format('free', 1)}hold -> refused 33 HistoryFull\n",
         words=["script", "--", "--history", "1"], files={"script": "attach 0 0 4"}),
    step("no room to release", "b\n", f"attach 0 0 4 -> attached 1\n{PICTURE_OF_AN_ATTACH.format('free', 1)}hold -> moved 1 1\n"
         f"undo 1 -> moved 0 1\nrelease -> refused 33 HistoryFull\n{PICTURE_OF_NOTHING.format('bfq', 'held', 0, 1, 1, 3)}",
         words=["script", "--", "--history", "3"], files={"script": "attach 0 0 4"}),
    step("no line", ""),
    step("a last line with no end", "line", "line 0 0 0\n"),
    Run("step: a script that is not there", ["step", "script"], stderr="script: No such file or directory\n", status=BAD_INPUT),
    Run("step: a folder", ["step", "."], stderr=".: Is a directory\n", status=BAD_INPUT),
    Run("step: a script from standard input", ["step", "-"], stdin=b"line\n", status=BAD_INPUT,
        stderr="-: a script is a file here, as the lines of standard input are taken as they come\n"),
]

# Bad lines of scripts, and why they are bad.
BAD_LINES = [
    ("a capital letter", "Dispatch", "a capital letter: 'Dispatch'"),
    ("a space before", " dispatch", "a space too many: before the first word"),
    ("a space behind", "dispatch ", "a space too many: after the last word"),
    ("two spaces", "undo  1", "a space too many: two in a row"),
    ("a carriage return", "dispatch\r", "a carriage return"),
    ("an unknown word", "submit 0 1 0 1", "an unknown word: 'submit'"),
    ("show with another word", "show all", "an unknown word: 'all'"),
    ("too few words of show", "show seat", "too few words: after 'seat' comes SEAT"),
    ("too many words of show", "show host 1", "a word too many: '1'"),
    ("a number past its type", "show seat 256", "SEAT is at most 255: '256'"),
    ("an answer", "hold -> moved 0 0", "a word too many: '->'"),
    ("a comment of 257 bytes", "#" + 256 * "x", "more than 256 bytes"),
    ("a byte of no text", b"line\xff", "a byte that stands in no word: 0xff"),
]
# Bad lines of what is typed besides.
BAD_WORDS_OF_STEP = [
    ("a count that is no number", "b x", "K is no number: 'x'"),
    ("a count below 0", "f -1", "K is no number: '-1'"),
    ("a count past its type", "b 4294967296", "K is at most 4294967295: '4294967296'"),
    ("two counts", "f 1 2", "a word too many: '2'"),
    ("no serial", "to", "too few words: after 'to' comes SERIAL"),
    ("a serial with a 0 before", "to 01", "SERIAL has a 0 before its number: '01'"),
    ("a serial past its type", f"to {2**64}", f"SERIAL is at most {2**64 - 1}: '{2**64}'"),
    ("a word behind s", "s 1", "a word too many: '1'"),
    ("a word behind q", "q 1", "a word too many: '1'"),
    ("a capital q", "Q", "a capital letter: 'Q'"),
    ("two spaces before last", "work  last", "a space too many: two in a row"),
    ("a last that has no place", "reap last 1", "SEAT is no number: 'last'"),
]


def with_bad(line, around):
    """A bad line between two good ones."""
    return around + b"\n" + (line.encode() if isinstance(line, str) else line) + b"\n" + around + b"\n"


BAD_RUNS = [
    # A bad line is told, and the next one is asked.
    *(Run(f"step: bad line: {name}", ["step"], stdin=with_bad(line, b"line"), stdout=f"line 0 0 0\nbad line 2: {why}\nline 0 0 0\n",
          status=BAD_INPUT) for name, line, why in [*BAD_LINES, *BAD_WORDS_OF_STEP]),
    *(Run(f"{tool}: bad line: {name}", [tool, *words], {"script": with_bad(line, b"line"), "image": 1024 * "A"},
          stdout="line -> line 0 0 0\n" if tool == "step" else "", stderr=f"script: bad line 2: {why}\n", status=BAD_INPUT)
      for tool, words in [("step", ["script"]), ("export", ["image", "out", "--script", "script"]), ("plot", ["script"])]
      for name, line, why in BAD_LINES),
    Run("export: a bad line of standard input", ["export", "image", "out"], {"image": 1024 * "A"}, stdin=b"line\nLine\n",
        stderr="-: bad line 2: a capital letter: 'Line'\n", status=BAD_INPUT),
    Run("plot: a bad line of standard input", ["plot", "-"], stdin=b"line\nundo\t1\n", stderr="-: bad line 2: a tab\n", status=BAD_INPUT),
]

PICTURE = re.compile(r"(?m)^(?:bfq|none), (\w+, \w+; \d+ of \d+) .*\n(?:.+\n)+\n")


def back_and_forth(program, folder):
    """It goes back and forth, holds and releases for it, and tells what it asks."""
    stdout, *rest = ran(["step"], folder, program, stdin=BACK_AND_FORTH.encode())
    yield from compared((PICTURE.sub(r"PICTURE \1\n", stdout), *rest), WENT)


def script_first(program, folder):
    """The `last` of a script is that of what is typed after it."""
    written(folder, "script", "attach 0 0 4\nwrite 0 1 5 1 65\n# one\ndispatch\nattach 0 0 4\n")
    stdout, *rest = ran(["step", "script"], folder, program, stdin=b"finish last short\nfinish last stored\nrequeue last")
    yield from compared((PICTURE.sub(r"PICTURE \1\n", stdout), *rest),
                        "attach 0 0 4 -> attached 1\nwrite 0 1 5 1 65 -> queued 2\ndispatch -> issued 0 3 store 5 1\n"
                        f"{WHY_OF_A_WRITE}\n"
                        "attach 0 0 4 -> refused 2 SeatTaken\nPICTURE running, free; 3 of 3\nfinish 0 3 short -> refused 21 BadOutcome\n"
                        "finish 0 3 stored -> finished 1\nPICTURE running, free; 4 of 4\nrequeue 0 3 -> refused 20 NotInFlight\n")


# Answers with the greatest numbers. 40 bios and nine groups, the last of which is deeper than any is.
MOST_VTIME, MOST_SERIAL = 2**62, 2**64 - 1
BIOS = [str(MOST_SERIAL - at) for at in range(40)]
WIDE = {
    "show host": f"host none frozen held 15 {2**32 - 1} {2**32 - 1} {MOST_SERIAL} 16777216",
    "show service": f"service 15 65536 {2**63} 65536",
    "show requeued": f"requeued 15:fetch:{MOST_SERIAL}+256:{','.join(BIOS)}",
    "show flight": f"flight 63:{MOST_SERIAL}:15:store:{MOST_SERIAL}+256:{','.join(BIOS)}",
    "show queue 15": f"queue 15 fetch:0+1:1 fetch:{MOST_SERIAL}+256:{','.join(BIOS)}",
    "show outbox 15": "outbox 15" + "".join(f" {bio}:fault" for bio in BIOS),
    "show tree 0": f"tree 0 - {MOST_VTIME} 17:serving:{MOST_VTIME}:{MOST_VTIME}:1000:1",
    "show tree 1": f"tree 1 0 {MOST_VTIME - 1} 15:active:0:{MOST_VTIME}:80:80:of-a-later-kind",
    **{f"show seat {seat}": f"seat {seat} none" for seat in range(15)},
    **{f"entity {entity}": f"entity {entity} idle 0 0 1 {budget} 0" for entity, budget in [(15, 256), (17, 65536)]},
    "show seat 15": f"seat 15 {MOST_SERIAL} 31 7 32 {MOST_SERIAL} leaving",
}
BIOS_OF_WIDE = f"bios {' '.join(BIOS)}"
# Its lines are joined where it does not end a part. 2^62 / 2^22 is 2^40.
PICTURE_OF_WIDE = f"""\
none, frozen, held; {2**32 - 1} of {2**32 - 1} steps stand, last serial {MOST_SERIAL}, 16777216 calls
in service: seat 15, 65536 of 65536 sectors sent, age {2**63}; round robin: seat 15
seat 15: session {MOST_SERIAL}, group 31, priority 7, owed 32, head {MOST_SERIAL}, leaving
queue: fetch 0+1 bio 1, fetch {MOST_SERIAL}+256 {BIOS_OF_WIDE}
outbox: {', '.join(f'{bio} fault' for bio in BIOS)}
dispatch list:
seat 15 fetch {MOST_SERIAL}+256 {BIOS_OF_WIDE}
in flight:
tag 63, issue {MOST_SERIAL}: seat 15 store {MOST_SERIAL}+256 {BIOS_OF_WIDE}
"""
TREE_OF_WIDE = """\
group 0      state     weight                start               finish
                       budget               S/2^22               F/2^22
  V                            4611686018427387904
                                 1099511627776.000
  group 1    serving  1000->1  4611686018427387904  4611686018427387904
                        65536    1099511627776.000    1099511627776.000
    V                          4611686018427387903
                                 1099511627776.000
    seat 15  active        80                    0  4611686018427387904
                          256                0.000    1099511627776.000
"""


def at_most_80_columns(program, folder):
    """The greatest numbers do not make the picture wider than 80 columns. All in it is what the program answers."""
    stdout, *rest = ran(["step"], folder, executable(folder, "program", answering(WIDE)), stdin=b"s\n")
    yield from compared((stdout[stdout.find("group 0"):], *rest), TREE_OF_WIDE + "\n")
    if wide := [line for line in stdout.splitlines() if len(line) > COLUMNS]:
        yield f"a line has {len(wide[0])} columns: {shown(wide[0])}"
    yield from differences("the text", " ".join(stdout[:stdout.find("group 0")].split()), " ".join(PICTURE_OF_WIDE.split()))


def read_until(descriptor, end):
    """What comes up to this text."""
    got = b""
    while not got.endswith(end):
        if not select.select([descriptor], [], [], SECONDS)[0]:
            raise ValueError(f"nothing comes after {got[-100:]!r}, where {end!r} is waited for")
        piece = os.read(descriptor, 1)
        if not piece:
            raise ValueError(f"the end comes after {got[-100:]!r}, where {end!r} is waited for")
        got += piece
    return got


def one_by_one(program, folder):
    """Over a pipe each line is answered, and its picture shown, before the next one comes. It ends at q, though the input stays open."""
    with started([os.path.join(TOOLS, "step"), "--program", program], folder, bufsize=0) as ran_step:
        for line, end in [(b"dispatch\n", b"refused 17 NothingQueued\n"), (b"attach 0 0 4\n", b"\n\n"), (b"Line\n", b"'Line'\n"),
                          (b"line\n", b"line 1 1 1\n"), (b"read 0 1 0 1\n", b"\n\n")]:
            ran_step.stdin.write(line)
            read_until(ran_step.stdout.fileno(), end)
        ran_step.stdin.write(b"q\n")
        try:
            status = ran_step.wait(timeout=SECONDS)
        except subprocess.TimeoutExpired:
            ran_step.kill()
            yield "it does not end at q"
        else:
            yield from differences("the status", status, BAD_INPUT)


@contextlib.contextmanager
def terminal(program, folder, *words):
    """The stepper at a terminal of 80 columns: the run, the terminal's other end, and its own end."""
    with contextlib.ExitStack() as stack:
        try:
            ours, its = os.openpty()
            stack.callback(os.close, ours)
            stack.callback(os.close, its)
            fcntl.ioctl(its, termios.TIOCSWINSZ, struct.pack("HHHH", 24, COLUMNS, 0, 0))
        except OSError as lacking:
            raise Skipped(f"no terminal can be had here: {lacking}") from None

        def owned():
            """The terminal is the one that interrupts come from."""
            fcntl.ioctl(0, termios.TIOCSCTTY, 0)
            signal.signal(signal.SIGINT, signal.default_int_handler)

        run = stack.enter_context(subprocess.Popen(
            [os.path.join(TOOLS, "step"), "--program", program, *words], cwd=folder, stdin=its, stdout=its, stderr=its,
            env={**os.environ, **QUIET}, start_new_session=True, preexec_fn=owned))
        stack.callback(run.kill)
        yield run, ours, its


def end_of(run):
    """The status of a run that must end."""
    try:
        return run.wait(timeout=SECONDS)
    except subprocess.TimeoutExpired:
        run.kill()
        return "none"


def on_a_terminal(program, folder):
    """At a terminal there is a prompt, no line but a reason is wider than 80 columns, and the end of the input ends it well."""
    with terminal(program, folder) as (run, ours, _):
        got = read_until(ours, PROMPT)
        for line in ("attach 0 0 4", "write 0 1 5 1 65", "Dispatch", "dispatch", "b", "steps", "help"):
            os.write(ours, line.encode() + b"\n")
            got += read_until(ours, PROMPT)
        os.write(ours, END_OF_INPUT)
        yield from differences("the status", end_of(run), DONE)
    text = got.decode().replace("\r", "")
    for wanted in ("> attach 0 0 4\nattached 1\nbfq, running, free; 1 of 1 steps stand",
                   "> Dispatch\nbad line 3: a capital letter: 'Dispatch'\n> ", f"> dispatch\nissued 0 3 store 5 1\n{WHY_OF_A_WRITE}\nbfq, ",
                   "> b\nhold -> moved 3 3\nundo 1 -> moved 2 3\nrelease -> done\nbfq, ",
                   "> steps\n1 serial 1: attach 0 0 4\n2 serial 2: write 0 1 5 1 65\n- cursor: 2 of 3 steps stand\n3 serial 3: dispatch\n"):
        if wanted not in text:
            yield f"there is no {shown(wanted)} in {shown(text)}"
    if wide := [line for line in text.splitlines() if len(line) > COLUMNS and line != WHY_OF_A_WRITE]:
        yield f"a line has {len(wide[0])} columns: {shown(wide[0])}"


def until_it_sleeps(run):
    """Waits until a run sleeps, as one does that waits for a key."""
    until = time.monotonic() + SECONDS
    while time.monotonic() < until:
        with open(f"/proc/{run.pid}/stat", encoding="utf-8") as file:
            if file.read().rpartition(")")[2].split()[0] == "S":
                return
        time.sleep(0.01)
    raise ValueError("it does not sleep, though nothing is typed")


def ends_at_a_terminal(program, folder):
    """At a terminal q ends it, and an interrupt ends it as it ends any program. The terminal is as it was before."""
    for typed, last, status in [(b"", b"q\n", DONE), (b"lin", INTERRUPT, -signal.SIGINT)]:
        with terminal(program, folder) as (run, ours, its):
            before = termios.tcgetattr(its)
            read_until(ours, PROMPT)
            os.write(ours, typed)
            read_until(ours, typed)
            # Python sees an interrupt that comes while it handles a key, or before it waits for the first, only at the next key.
            until_it_sleeps(run)
            os.write(ours, last)
            yield from differences(f"the status after {typed + last!r}", end_of(run), status)
            if termios.tcgetattr(its) != before:
                yield f"after {typed + last!r} the terminal is not as it was"


def program_ends_at_a_terminal(program, folder):
    """A program that is there no more is told in one line."""
    text = answering({**WIDE, "show tree 0": "tree 0 - 0"}).replace("print(", "line == 'line\\n' and exit(3)\n    print(")
    dying = executable(folder, "dying", text)
    with terminal(dying, folder) as (run, ours, _):
        read_until(ours, PROMPT)
        os.write(ours, b"line\n")
        got = read_until(ours, b"'line'\r\n")
        yield from differences("the status", end_of(run), NO_PROGRAM)
    yield from differences("the text", got.decode(), f"line\r\n{dying} has ended with status 3 before it answered 'line'\r\n")


def help_of_step(program, folder):
    """`help` has each line of the grammar, whole, and no line wider than 80 columns."""
    stdout, *rest = ran(["step"], folder, program, stdin=b"help\n")
    yield from compared(("", *rest))
    for wanted in ("to SERIAL ", "b [K]", "f [K]", "steps ", "work last", "finish last stored", "write SEAT SESSION START COUNT BYTE,",
                   "discard SEAT SESSION START COUNT,",
                   "finish TAG ISSUE fill BYTE,", "show state,", "show step K\n"):
        if wanted not in stdout:
            yield f"help has no {wanted!r}"
    yield from (f"too wide: {line!r}" for line in stdout.splitlines() if len(line) > COLUMNS)


# The runs of export.

IMAGE = b"".join(bytes([letter]) * SECTOR for letter in b"ABCDEFGH") + 100 * b"i"
# Two writes of three sectors, which are at the device together, and a read. The read asks for what is stored.
SCRIPT = """\
attach 0 0 4
write 0 1 1 2 65
write 0 1 5 1 66
dispatch
dispatch
finish 0 4 stored
work 1 5
read 0 1 5 1
dispatch
work 0 9
dispatch
"""
# Four steps are undone, and another one is made: of the serials 1 to 11 those from 7 to 10 are not in the line any more.
ANOTHER = SCRIPT + "hold\nundo 4\nrelease\nwrite 0 1 7 1 67\n"
ONCE_REFUSED = "the script met 1 x refused 17 (NothingQueued)\n"


def over(image, sectors):
    """An image with these sectors stored over it, each with its byte."""
    changed = bytearray(image)
    for sector, byte in sectors.items():
        changed[sector * SECTOR:(sector + 1) * SECTOR] = bytes([byte]) * SECTOR
    return bytes(changed)


AFTER_6 = over(IMAGE, {1: 65, 2: 65})
AFTER_7 = over(IMAGE, {1: 65, 2: 65, 5: 66})


def exported(program, folder, script, words, stdout, images, stderr="", status=DONE):
    """Runs a script over the image. Gives what is not as wanted: the texts, the status, or the images, of which None is not there."""
    written(folder, "image", IMAGE)
    got = ran(["export", "image", *words], folder, program, stdin=script.encode())
    faults = [*compared(got, stdout, stderr, status)]
    for name, image in {"image": IMAGE, **images}.items():
        faults += of_image(name, contents(folder, name), image)
    for fault in faults:
        yield f"{' '.join(words)}: {fault}"


def of_image(name, got, wanted):
    """Where an image is not as wanted."""
    if got != wanted and (got is None or wanted is None):
        yield f"{name} is {'not' * (got is None)} there"
    elif got != wanted:
        at = len(os.path.commonprefix([got, wanted]))
        yield f"{name} has {len(got)} bytes, and {got[at:at + 8]!r} at {at} where {wanted[at:at + 8]!r} is wanted of {len(wanted)}"


def export_at_the_end(program, folder):
    """The image as it is when the script has ended, with nothing stored over it too, and of a script in a file."""
    yield from exported(program, folder, SCRIPT, ["out"], f"out: 3 sectors stored over image, 10 of 10 steps stand\n{ONCE_REFUSED}",
                        {"out": AFTER_7})
    yield from exported(program, folder, "", ["base"], "base: 0 sectors stored over image, 0 of 0 steps stand\n", {"base": IMAGE})
    written(folder, "some.script", SCRIPT + "hold\nundo 9\nundo 1\ndispatch")
    yield from exported(program, folder, "Bad line", ["--script", "some.script", "held", "--", "--tags", "4"],
                        "held: 0 sectors stored over image, 0 of 10 steps stand\n"
                        "the script met 1 x notyet 41 (Held), 1 x refused 17 (NothingQueued)\n", {"held": IMAGE})


def export_at_a_serial(program, folder):
    """The image as it was after a step that stands, or is undone and in the line still."""
    for at, image, count in [(5, IMAGE, 0), (6, AFTER_6, 2), (7, AFTER_7, 3), (10, AFTER_7, 3), (1, IMAGE, 0)]:
        yield from exported(program, folder, SCRIPT, [f"out{at}", "--at", str(at)],
                            f"out{at}: {count} sectors stored over image, {at} of 10 steps stand\n{ONCE_REFUSED}", {f"out{at}": image})
    # On a held host too, forth as well as back, and in whatever order the words come.
    for name, undone in [("forth", "hold\nundo 10\n"), ("free", "hold\nundo 8\nrelease\n"), ("back", "hold\n")]:
        yield from exported(program, folder, SCRIPT + undone, ["--at", "6", name],
                            f"{name}: 2 sectors stored over image, 6 of 10 steps stand\n{ONCE_REFUSED}", {name: AFTER_6})
    yield from exported(program, folder, ANOTHER, ["--at=11", "another"],
                        f"another: 2 sectors stored over image, 7 of 7 steps stand\n{ONCE_REFUSED}", {"another": AFTER_6})


def export_of_a_serial_undone_away(program, folder):
    """A step that is not in the line any more, or that never was, is told, and nothing is written."""
    for serial in (7, 10, 12, 0, MOST_SERIAL):
        yield from exported(program, folder, ANOTHER, ["out", "--at", str(serial)], "", {"out": None},
                            f"no step of the line has serial {serial}\n", NOT_WANTED)
    # Ten steps fill it, so that the host cannot be held.
    yield from exported(program, folder, SCRIPT, ["out", "--at", "6", "--", "--history=10"], "", {"out": None},
                        "hold -> refused 33 (HistoryFull)\n", NOT_WANTED)
    yield from exported(program, folder, SCRIPT + "hold\n", ["out", "--at", "6", "--", "--history=11"], "", {"out": None},
                        "undo 4 -> refused 33 (HistoryFull)\n", NOT_WANTED)


def export_each(program, folder):
    """An image after each write that is completed: not after a read, nor after an undo or a redo, which make no new state."""
    stdout = ("{0}/after-00000006.img: 2 sectors stored over image, 6 of 6 steps stand\n"
              "{0}/after-00000007.img: 3 sectors stored over image, 7 of 7 steps stand\n")
    yield from exported(program, folder, SCRIPT, ["--each", "stored", "--into", "states"], stdout.format("states") + ONCE_REFUSED,
                        {"states/after-00000006.img": AFTER_6, "states/after-00000007.img": AFTER_7})
    yield from exported(program, folder, SCRIPT, ["out", "--each", "stored", "--into", "again"], stdout.format("again")
                        + f"out: 3 sectors stored over image, 10 of 10 steps stand\n{ONCE_REFUSED}",
                        {"again/after-00000006.img": AFTER_6, "again/after-00000007.img": AFTER_7, "out": AFTER_7})
    # Another future: the second write has its work done later, and a third one is stored over a part of the first.
    future = SCRIPT + ("hold\nundo 4\nredo 1\nundo 1\nrelease\n"
                       "write 0 1 2 1 67\ndispatch\nfinish 0 12 stored\nfinish 0 12 stored\nwork 1 5\n")
    yield from exported(
        program, folder, future, ["--into", "new/states", "--each=stored"],
        stdout.format("new/states") + "new/states/after-00000013.img: 2 sectors stored over image, 9 of 9 steps stand\n"
        "new/states/after-00000014.img: 3 sectors stored over image, 10 of 10 steps stand\n"
        "the script met 1 x refused 17 (NothingQueued), 1 x refused 20 (NotInFlight)\n",
        {"new/states/after-00000007.img": AFTER_7, "new/states/after-00000013.img": over(AFTER_6, {2: 67}),
         "new/states/after-00000014.img": over(AFTER_6, {2: 67, 5: 66})})
    if found := {*os.listdir(os.path.join(folder, "states"))} - {"after-00000006.img", "after-00000007.img"}:
        yield f"there are {found} besides"
    yield from exported(program, folder, SCRIPT, ["--into", "states", "--each=stored"], "",
                        {"states/after-00000006.img": AFTER_6}, "states/after-00000006.img: File exists\n", BAD_INPUT)
    yield from exported(program, folder, "line\n", ["--each", "stored", "--into", "empty"], "", {})
    yield from differences("what is in the folder", os.listdir(os.path.join(folder, "empty")), [])


def export_over_what_is_there(program, folder):
    """What is there already is not written: a file, IMAGE itself, a folder, or a link to nothing. Neither is where no folder is."""
    written(folder, "there", "there")
    os.mkdir(os.path.join(folder, "folder"))
    os.symlink("nothing", os.path.join(folder, "link"))
    for name in ("there", "image", "folder", "link"):
        yield from exported(program, folder, SCRIPT, [name], "", {"there": b"there", "nothing": None}, f"{name}: File exists\n", BAD_INPUT)
    yield from exported(program, folder, SCRIPT, ["nothing/out"], "", {}, "nothing/out: No such file or directory\n", BAD_INPUT)
    yield from exported(program, folder, SCRIPT, ["--each=stored", "--into=there"], "", {"there": b"there"}, "there: File exists\n",
                        BAD_INPUT)


def export_of_no_image(program, folder):
    """IMAGE must be a file or a block device, and the words must go together."""
    os.mkfifo(os.path.join(folder, "fifo"))
    for image, why in [("nothing", "No such file or directory"), (".", "neither a file nor a block device"),
                       ("fifo", "neither a file nor a block device")]:
        yield from compared(ran(["export", image, "out"], folder, program), "", f"{image}: {why}\n", BAD_INPUT)
    for words, stderr in [([], "there must be OUT, or --each stored and --into DIR\n"),
                          (["--at", "1"], "there must be OUT, or --each stored and --into DIR\n"),
                          (["out", "--into", "states"], "--each stored and --into DIR go together\n"),
                          (["out", "--each", "stored"], "--each stored and --into DIR go together\n"),
                          (["--each=stored", "--into=states", "--at=1"], "--each, --at and --until do not go together\n")]:
        yield from exported(program, folder, "", words, "", {"out": None, "states": None}, stderr, BAD_INPUT)
    written(folder, "image", IMAGE)
    for words, why in [(["--at", "x"], "argument --at: SERIAL is no number: 'x'"),
                       (["--at", str(2**64)], f"argument --at: SERIAL is at most {2**64 - 1}: '{2**64}'"),
                       (["--each", "queued"], "argument --each: invalid choice: 'queued'"), (["more"], "unrecognized arguments: more")]:
        stdout, stderr, status = ran(["export", "image", "out", *words], folder, program)
        yield from compared((stdout, "", status), status=BAD_INPUT)
        if why not in stderr or "Traceback" in stderr:
            yield f"{words}: standard error is {shown(stderr)}"


def export_of_holes(program, folder):
    """The new file has the holes of the image. What is stored in a hole is there, and so is the end that is one."""
    length, place, size = (64 << 20) + 100, 40 << 20, 4096
    path = os.path.join(folder, "sparse")
    with open(path, "wb") as file:
        file.write(size * b"a")
        file.seek(place)
        file.write(size * b"b")
        file.truncate(length)
    if os.stat(path).st_blocks * SECTOR > length // 2:
        raise Skipped("a file with holes: there are none here")
    script = "attach 0 0 4\nwrite 0 1 100000 2 7\ndispatch\nwork 0 3\n"
    yield from compared(ran(["export", "sparse", "out"], folder, program, stdin=script.encode()),
                        "out: 2 sectors stored over sparse, 4 of 4 steps stand\n")
    got = contents(folder, "out") or b""
    wanted = over(contents(folder, "sparse"), {100_000: 7, 100_001: 7})
    yield from [] if got == wanted else [f"of {len(got)} bytes those from {len(os.path.commonprefix([got, wanted]))} on are others"]
    if (used := os.stat(os.path.join(folder, "out")).st_blocks * SECTOR) > 1 << 20:
        yield f"the new file takes {used} bytes"


# Sectors that are written, two of which and the one behind them are discarded; and a write of zeros.
DISCARD = """\
attach 0 0 4
write 0 1 1 2 65
dispatch
finish 0 3 stored
discard 0 1 2 2
dispatch
work 0 6
write 0 1 6 1 0
dispatch
finish 0 9 stored
"""


def export_of_discards(program, folder):
    """What is discarded is zeros. With --holes the bytes are the same, also at a moment, after each write, and where only a part of a block
    of the file system is zeros."""
    first, second = over(IMAGE, {1: 65, 2: 65}), over(IMAGE, {1: 65, 2: 0, 3: 0})
    last = over(second, {6: 0})
    for words, told in (([], ["", "", ""]), (["--holes"], [f", {count} of them zeros that are not written" for count in (0, 2, 3)])):
        name = f"out{len(words)}"
        yield from exported(program, folder, DISCARD, [*words, name],
                            f"{name}: 4 sectors stored over image{told[2]}, 10 of 10 steps stand\n", {name: last})
        yield from exported(program, folder, DISCARD, [f"{name}-at", "--until", "stored sector 3", *words],
                            f"{name}-at: 3 sectors stored over image{told[1]}, 7 of 10 steps stand\n", {f"{name}-at": second})
        yield from exported(program, folder, DISCARD, ["--each", "stored", "--into", f"{name}-states", *words], "".join(
            f"{name}-states/after-{serial:08}.img: {count} sectors stored over image{zeros}, {serial} of {serial} steps stand\n"
            for serial, count, zeros in zip((4, 7, 10), (2, 3, 4), told)),
            {f"{name}-states/after-{serial:08}.img": image for serial, image in ((4, first), (7, second), (10, last))})


def export_with_holes(program, folder):
    """A file of data is smaller by what is discarded: 640 sectors of it in a row, of which whole blocks are holes."""
    data = bytes(range(1, 256)) * 5140
    written(folder, "image", data)
    with open(os.path.join(folder, "sparse"), "wb") as file:
        file.truncate(len(data))
    if os.stat(os.path.join(folder, "sparse")).st_blocks * SECTOR > len(data) // 2:
        raise Skipped("a file with holes: there are none here")
    script = "attach 0 0 4\n" + "".join(f"discard 0 1 {101 + 64 * at} 64\n" for at in range(10))
    # A request has at most 256 sectors, so there are three.
    script += 3 * "dispatch\n" + "".join(f"work {tag} {12 + tag}\n" for tag in range(3))
    used = {}
    for name, words, told in (("whole", [], ""), ("holed", ["--holes"], ", 640 of them zeros that are not written")):
        got = ran(["export", "image", name, *words], folder, program, stdin=script.encode())
        yield from compared(got, f"{name}: 640 sectors stored over image{told}, 17 of 17 steps stand\n")
        yield from of_image(name, contents(folder, name), over(data, dict.fromkeys(range(101, 741), 0)))
        used[name] = os.stat(os.path.join(folder, name)).st_blocks
    # With blocks of 64 KiB, or 128 sectors, three whole ones are within.
    if used["whole"] - used["holed"] < 3 * 128:
        yield f"the files take {used} times 512 bytes"


def export_of_unlike_bytes(program, folder):
    """A sector whose bytes are not all equal, and a run that another one follows after a gap."""
    block = bytes(range(256)) * 2
    answers = {"show stored 0": "stored 1+1", "show stored 2": "stored 4+2", "show stored 6": "stored none", "line": "line 3 9 9",
               "sector 1": f"sector 1 overlay {block.hex()}", "sector 4": "sector 4 overlay 00", "sector 5": "sector 5 overlay ff"}
    wanted = bytearray(over(IMAGE, {4: 0, 5: 255}))
    wanted[SECTOR:2 * SECTOR] = block
    yield from exported(executable(folder, "program", answering(answers)), folder, "", ["out"],
                        "out: 3 sectors stored over image, 3 of 9 steps stand\n", {"out": bytes(wanted)})


def export_to_a_full_disk(program, folder):
    """A file that cannot be written whole is told, and not left behind."""
    def limit_files():
        signal.signal(signal.SIGXFSZ, signal.SIG_IGN)
        resource.setrlimit(resource.RLIMIT_FSIZE, (1000, 1000))

    written(folder, "image", IMAGE)
    yield from compared(ran(["export", "image", "out"], folder, program, stdin=b"line\n", preexec_fn=limit_files), "",
                        "out: File too large\n", BAD_INPUT)
    yield from of_image("out", contents(folder, "out"), None)


# An ext4 of 8 MiB, and a file in it of so many sectors, with a byte that nothing else in it has for so long.
EXT4_BYTES, FILE_SECTORS, LETTER = 8 << 20, 64, b"\xa5"
# A sector that has the number by which an ext4 is known.
SUPERBLOCK = 2
# What e2fsck says of a clean one.
CLEAN = 0


def found(tool):
    """Where a program is that may stand where only root looks."""
    path = shutil.which(tool, path=f"{os.environ.get('PATH', os.defpath)}:/usr/sbin:/sbin")
    if path is None:
        raise Skipped(f"each state of an ext4: no {tool} here")
    return path


def export_each_state_of_an_ext4(program, folder):
    """The file of an ext4 is written over in four writes, of which each state is clean to e2fsck. Then the superblock is, which is not."""
    make, check = found("mkfs.ext4"), found("e2fsck")
    os.mkdir(os.path.join(folder, "in"))
    written(os.path.join(folder, "in"), "file", FILE_SECTORS * SECTOR * LETTER)
    with open(os.path.join(folder, "ext4"), "wb") as file:
        file.truncate(EXT4_BYTES)
    made = subprocess.run([make, "-q", "-F", "-d", "in", "ext4"], cwd=folder, stdin=subprocess.DEVNULL, capture_output=True, check=False)
    image = contents(folder, "ext4")
    first = image.find(FILE_SECTORS * SECTOR * LETTER) // SECTOR
    if made.returncode or first < 0:
        raise Skipped(f"each state of an ext4: mkfs.ext4 makes none with a file in one piece: {made.stderr.decode()!r}")
    writes = [(first + at, 16, byte) for at, byte in [(0, 1), (48, 2), (16, 3), (8, 4)]] + [(SUPERBLOCK, 1, 0)]
    script, states = "attach 0 0 4\n", {}
    for number, (start, count, byte) in enumerate(writes):
        # The attach has serial 1, and a write, its dispatch and its completion have three.
        issue = 3 * number + 3
        script += f"write 0 1 {start} {count} {byte}\ndispatch\nwork 0 {issue}\n"
        image = over(image, dict.fromkeys(range(start, start + count), byte))
        states[f"after-{issue + 1:08}.img"] = image
    got = ran(["export", "ext4", "--each", "stored", "--into", "states"], folder, program, stdin=script.encode())
    yield from compared(("", *got[1:]))
    for number, (name, wanted) in enumerate(states.items()):
        path = os.path.join("states", name)
        yield from of_image(name, contents(folder, path), wanted)
        checked = subprocess.run([check, "-fn", path], cwd=folder, stdin=subprocess.DEVNULL, capture_output=True, check=False)
        if (checked.returncode == CLEAN) != (number < len(states) - 1):
            yield f"{name}: e2fsck ends with status {checked.returncode} and says {shown(checked.stdout.decode(errors='replace'))}"
    if len(os.listdir(os.path.join(folder, "states"))) != len(states):
        yield f"there are {os.listdir(os.path.join(folder, 'states'))}"


# The runs of plot.

HEAD_OF_CSV = "serial,service,vtime,entity,state,start,finish,weight,pending\n"
# Two clients of weights 40 and 80, of which the second is served first, as its finish is less.
PLOTTED = """\
group 0 7
attach 0 0 4
attach 1 0 0
read 0 2 0 8
read 1 3 100 16
dispatch
weight 1 9
dispatch
dispatch
finish 1 8 short
"""
# 1,024 sectors at weight 40 take 107,374,182. 16 at weight 80, and 8 at weight 40, take 838,860: the finish of whoever has sent them. The
# sum of weights is 120: V grows 559,240 by 16 sectors, and 279,620 by 8.
OF_GROUP_1 = "17,idle,0,0,7"
ROWS = [
    "6,16,559240,0,active,0,107374182,40,40", "6,16,559240,1,idle,838860,838860,80,80", f"6,16,559240,{OF_GROUP_1},7",
    "8,24,838860,0,idle,838860,838860,40,40", "8,24,838860,1,idle,838860,838860,80,80", f"8,24,838860,{OF_GROUP_1},9",
    "9,24,838860,0,idle,838860,838860,40,40", "9,24,838860,1,idle,838860,838860,80,80", f"9,24,838860,{OF_GROUP_1},9",
]
# The finish, the second dispatch and the new weight are undone, and the second client has another read.
OTHER_PLOTTED = PLOTTED + "hold\nundo 3\nredo 1\nundo 1\nrelease\nread 1 3 300 32\ndispatch\ndispatch\n"
# It starts where it was finished, with a budget of 256 sectors, which take 13,421,772. That is past V, so the first client is served
# before. Then no finish of the first one is above V: it grows by 32 sectors at weight 80, 1,677,721, and so does the second one's time.
OTHER_ROWS = [
    "11,24,838860,0,idle,838860,838860,40,40", "11,24,838860,1,active,838860,14260632,80,80", f"11,24,838860,{OF_GROUP_1},7",
    "12,56,2516581,0,idle,838860,838860,40,40", "12,56,2516581,1,idle,2516581,2516581,80,80", f"12,56,2516581,{OF_GROUP_1},7",
]


def lines(rows):
    """The text of a CSV."""
    return HEAD_OF_CSV + "".join(f"{row}\n" for row in rows)


def plot(name, script, stdout="", stderr="", status=DONE, words=("script",), **more):
    """A run over a script in a file."""
    return Run(f"plot: {name}", ["plot", *words], {"script": script}, stdout=stdout, stderr=stderr, status=status, **more)


NO_SAMPLE = "group {} stands after no dispatch and no finish that is accepted\n"

RUNS_OF_PLOT = [
    plot("the root", PLOTTED, lines(ROWS)),
    plot("a group with no member", PLOTTED, lines(["6,16,0,,,,,,", "8,24,0,,,,,,", "9,24,0,,,,,,"]), words=["--group", "1", "script"]),
    plot("an undo takes service back", OTHER_PLOTTED, lines([*ROWS, *OTHER_ROWS])),
    Run("plot: standard input", ["plot", "-", "--csv", "-"], stdin=PLOTTED.encode(), stdout=lines(ROWS)),
    plot("a group that never stands", PLOTTED, "", NO_SAMPLE.format(31), NOT_WANTED, ["script", "--group=31"]),
    plot("no dispatch", "attach 0 0 4\ndispatch\n", "", NO_SAMPLE.format(0), NOT_WANTED),
    plot("no line", "", "", NO_SAMPLE.format(0), NOT_WANTED),
    plot("a file in no folder", PLOTTED, "", "nothing/csv: No such file or directory\n", BAD_INPUT, ["script", "--csv", "nothing/csv"]),
    Run("plot: no file", ["plot", "script"], stderr="script: No such file or directory\n", status=BAD_INPUT),
]


def csv_file(program, folder):
    """The CSV goes into a file, anew where it is there."""
    written(folder, "script", PLOTTED)
    for words, rows in [(["--csv", "csv"], ROWS), (["--group", "1", "--csv=csv"], ["6,16,0,,,,,,", "8,24,0,,,,,,", "9,24,0,,,,,,"])]:
        yield from compared(ran(["plot", "script", *words], folder, program))
        yield from differences("the CSV", (contents(folder, "csv") or b"").decode(), lines(rows))


# Clients of the root, of group 1 and of group 2, and what is a member of the first two.
MEMBERS = {0: [0, 17, 18], 1: [1, 2]}


def long_script():
    """A script with two groups and four clients, which read and write now and then."""
    script = ["group 0 300", "group 0 50", "attach 0 0 2", "attach 1 1 0", "attach 2 1 6", "attach 3 2 4"]
    serial = len(script)
    for turn in range(12):
        for seat in range(4):
            if (turn + seat) % 3 == 0:
                continue
            script.append(f"read {seat} {seat + 3} {100 * seat + 7 * turn} {1 + 5 * turn}")
            serial += 1
        script.append("dispatch")
        serial += 1
        script.append(f"work 0 {serial}")
        serial += 1
        if turn == 5:
            script += ["weight 1 20", "tick"]
            serial += 2
    return script


def like_queries(program, folder):
    """Each row of the CSV of a longer script has what the queries `line`, `vtime` and `entity` answer then, and the sectors sent so far."""
    script = long_script()
    written(folder, "script", "".join(f"{line}\n" for line in script))
    for group, entities in MEMBERS.items():
        queries = ["line", f"vtime {group}", *(f"entity {entity}" for entity in entities)]
        text = "".join("\n".join([line, *(queries if line == "dispatch" or line.startswith("work ") else []), ""]) for line in script)
        asked = subprocess.run([program, "sim"], input=text, text=True, capture_output=True, timeout=SECONDS, check=True)
        answers = iter(asked.stdout.splitlines())
        wanted, service = [], 0
        for line in script:
            answer = next(answers)
            if not line.startswith(("dispatch", "work ")):
                continue
            (_, _, _, serial), (_, _, vtime), *rows = (next(answers).split(" ") for _ in queries)
            if answer.startswith("issued "):
                service += int(answer.split(" ")[5])
            if answer.startswith(("issued ", "finished ")):
                wanted += [[serial, str(service), vtime, *row[1:6]] for row in rows]
        stdout, *rest = ran(["plot", "script", "--group", str(group)], folder, program)
        yield from compared(("", *rest))
        rows = [row[:-1] for row in csv.reader(stdout.splitlines())][1:]
        if len(wanted) < 20 * len(entities) or rows != wanted:
            odd = [pair for pair in zip(rows, wanted) if pair[0] != pair[1]]
            yield f"group {group}: {len(rows)} rows of {len(wanted)}, and {len(odd)} other ones: {odd[:1]}"


def no_matplotlib(program, folder):
    """With no matplotlib this is told in one line that names the Python, and no picture is written. A CSV needs none."""
    written(folder, "script", PLOTTED)
    os.mkdir(os.path.join(folder, "library"))
    written(os.path.join(folder, "library"), "matplotlib.py", "raise ImportError('nothing of the kind\\nand more of it')\n")
    lacking = {"PYTHONPATH": os.path.join(folder, "library"), "PYTHONDONTWRITEBYTECODE": "1"}
    python = subprocess.run(["python3", "-c", "import sys; print(sys.executable)"], capture_output=True, text=True, check=True).stdout.strip()
    told = f"--svg needs matplotlib, which {python} does not have (python3-matplotlib has it): nothing of the kind\n"
    yield from compared(ran(["plot", "script", "--svg", "svg", "--csv", "csv"], folder, program, environment=lacking), "", told, NO_PROGRAM)
    yield from differences("the CSV", (contents(folder, "csv") or b"").decode(), lines(ROWS))
    # The library is asked for before the script is read, if there is nothing else to write.
    yield from compared(ran(["plot", "none", "--svg", "svg"], folder, program, environment=lacking), "", told, NO_PROGRAM)
    yield from of_image("svg", contents(folder, "svg"), None)
    yield from compared(ran(["plot", "script"], folder, program, environment=lacking), lines(ROWS))


def svg_file(program, folder):
    """The picture names its members and their weights, and is the same each time."""
    if subprocess.run(["python3", "-c", "import matplotlib"], capture_output=True, check=False).returncode:
        raise Skipped("a picture: no matplotlib here")
    written(folder, "script", OTHER_PLOTTED)
    for name in ("one.svg", "two.svg"):
        yield from compared(ran(["plot", "script", "--svg", name, "--csv", "csv"], folder, program, environment={"MPLCONFIGDIR": folder}))
    text = (contents(folder, "one.svg") or b"").decode()
    for wanted in ("<svg ", "group 0 of script", ">V<", "seat 0, weight 40", "seat 1, weight 80", "group 1, weight 7", "sectors by weight"):
        if wanted not in text:
            yield f"the picture has no {wanted!r}"
    yield from of_image("two.svg", contents(folder, "two.svg"), text.encode())
    yield from differences("the CSV", (contents(folder, "csv") or b"").decode(), lines([*ROWS, *OTHER_ROWS]))
    yield from compared(ran(["plot", "script", "--svg", "nothing/svg"], folder, program), "", "nothing/svg: No such file or directory\n",
                        BAD_INPUT)


# Programs that end, or do not start; and words.

# The words of a run of each tool that asks the program the line `line`.
ASKING = {"step": [], "export": ["image", "out", "--script", "script"], "plot": ["script"]}


def no_program(name, program, stderr, words=()):
    """Runs of the three tools with another program."""
    for tool, asking in ASKING.items():
        yield Run(f"{tool}: {name}", [tool, *asking, *words], {"script": "line\n", "image": 1024 * "A"}, stdin=b"line\n", program=program,
                  stderr=stderr, status=NO_PROGRAM)


PROGRAMS = [
    *no_program("a program that ends at once", "#!/bin/sh\nexit 7\n", "PROGRAM has ended with status 7 before it answered 'line'\n"),
    *no_program("a program that ends by a signal", "#!/bin/sh\nread line\nkill -9 $$\n",
                "PROGRAM has ended by signal 9 before it answered 'line'\n"),
    *no_program("a program that ends in the midst of an answer", "#!/bin/sh\nread line\nprintf 'line 0'\n",
                "PROGRAM has ended with status 0 before it answered 'line'\n"),
    *no_program("a program that is none", "not a program", "PROGRAM does not start: Exec format error\n"),
    *no_program("bad options of sim", "#!/bin/sh\nexec PROGRAM \"$@\"\n",
                "PROGRAM has ended with status 6 before it answered 'line': config: tags\n", ["--", "--tags", "0"]),
    step("an older program", "s\n", "", "PROGRAM lacks a look: it was asked 'show host', and 'bad line 1' came\n", NO_PROGRAM,
         program="#!/bin/sh\nread line\necho bad line 1\nexit 2\n"),
    plot("an older program", "dispatch\n", "", "PROGRAM lacks a look: it was asked 'line', and 'bad line 2' came\n", NO_PROGRAM,
         program="#!/bin/sh\nread line\necho issued 0 1 fetch 0 1\nread line\necho bad line 2\nexit 2\n"),
]


def odd_answers(program, folder):
    """A program whose answers are none of bfqhost's is told in one line."""
    written(folder, "script", "dispatch\n")
    written(folder, "image", IMAGE)
    odd = executable(folder, "odd", answering({}, "issued 0 1 store 0 1"))
    for tool, asking in ASKING.items():
        stdout, stderr, status = ran([tool, *asking], folder, odd, stdin=b"s\n")
        yield from compared((stdout, "", status), status=NO_PROGRAM)
        lacks = "lacks a look: it was asked '(?:line|show host)', and 'issued 0 1 store 0 1' came"
        if not re.fullmatch(f"{re.escape(odd)} (?:gives an answer that bfqhost does not give: .*|{lacks})\n", stderr):
            yield f"{tool} says {shown(stderr)}"


def not_built(program, folder):
    """With no word of a program, and none built, each tool says so."""
    shutil.copytree(TOOLS, os.path.join(folder, "tools"))
    os.symlink(os.path.join(os.path.dirname(TOOLS), "clients"), os.path.join(folder, "clients"))
    written(folder, "script", "line\n")
    written(folder, "image", IMAGE)
    for tool, asking in ASKING.items():
        with started([os.path.join("tools", tool), *asking], folder) as ran_tool:
            yield from ends(ran_tool, "", f"there is no program: {folder}/bfqhost --help builds it, which takes minutes\n", NO_PROGRAM)


def helps(program, folder):
    """Each tool tells what it is for, and how it ends, with no program too. Bad words are told, with the words that there are."""
    for tool in ASKING:
        for words, status in [(["--help"], DONE), (["--wide", "file"], BAD_INPUT), (["--program"], BAD_INPUT)]:
            stdout, stderr, got = ran([tool, *words], folder, "nothing")
            yield from differences("the status", got, status)
            good = stdout.startswith(f"usage: {tool} ") and "Exit statuses: 0 " in stdout and not stderr if status == DONE else \
                not stdout and stderr.startswith(f"usage: {tool} ") and "Traceback" not in stderr
            if not good:
                yield f"{tool} {' '.join(words)} prints {shown(stdout)} and {shown(stderr)}"
    stdout, stderr, status = ran(["plot", "script", "--group", "256"], folder, "nothing")
    yield from compared((stdout, "", status), status=BAD_INPUT)
    if "argument --group: GROUP is at most 255: '256'" not in stderr:
        yield f"plot says {shown(stderr)}"


def output_that_takes_nothing(program, folder):
    """Nobody reads what is printed, or standard output is full: no trace."""
    written(folder, "image", IMAGE)
    written(folder, "script", PLOTTED)
    for tool, words in [("step", ["script"]), ("export", ["image", "out"]), ("export", ["image", "--each=stored", "--into=in"]),
                        ("plot", ["script"])]:
        reading, closed = os.pipe()
        os.close(reading)
        with open("/dev/full", "wb") as full:
            for stdout, stderr in [(closed, ""), (full, "standard output: No space left on device\n")]:
                shutil.rmtree(os.path.join(folder, "in"), ignore_errors=True)
                with contextlib.suppress(FileNotFoundError):
                    os.unlink(os.path.join(folder, "out"))
                with started([os.path.join(TOOLS, tool), "--program", program, *words], folder, stdout=stdout) as ran_tool:
                    ran_tool.stdin.write(SCRIPT.encode())
                    got = ran_tool.communicate(timeout=SECONDS)
                yield from differences(f"standard error of {tool}", got[1].decode(), stderr)
                yield from differences(f"the status of {tool}", ran_tool.returncode, WRITE_FAULT)
        os.close(closed)


RUNS = [*RUNS_OF_STEP, *RUNS_OF_PLOT, *BAD_RUNS, *PROGRAMS]
FUNCTIONS = [
    back_and_forth, script_first, at_most_80_columns, one_by_one, on_a_terminal, ends_at_a_terminal, program_ends_at_a_terminal,
    help_of_step,
    export_at_the_end, export_at_a_serial, export_of_a_serial_undone_away, export_each, export_over_what_is_there, export_of_no_image,
    export_of_holes, export_of_discards, export_with_holes, export_of_unlike_bytes, export_to_a_full_disk, export_each_state_of_an_ext4,
    csv_file, like_queries, no_matplotlib, svg_file, odd_answers, not_built, helps, output_that_takes_nothing,
]


def faults_in(function, program):
    """What was wrong with a run in a folder of its own."""
    faults = []
    with tempfile.TemporaryDirectory() as folder:
        try:
            faults.extend(function(program, folder))
        except (OSError, ValueError, subprocess.SubprocessError) as fault:
            faults.append(str(fault))
    return faults


def more_tool_runs(program):
    """The name of each run, and what was wrong with it. What cannot be had here is skipped, and a line is printed for it."""
    for run in RUNS:
        yield run.name, faults_of(run, program)
    for function in FUNCTIONS:
        name = f"tools: {function.__name__.replace('_', ' ')}"
        try:
            yield name, faults_in(function, program)
        except Skipped as lacking:
            print(f"skipped: {name}: {lacking}")
