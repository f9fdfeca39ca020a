"""Runs of the tools over scripts with classes: real time, best effort, idle.

The expected texts come from the rules of the host (docs/FORMATS.md, docs/MODEL.md) and from what each tool says of itself, and not from
a run of a tool or of the program. What the tools print of scripts without classes, tests/step_export_plot.py and tests/tools.py have.
"""

import os
import subprocess

from bad_input import Skipped
from step_export_plot import (HEAD_OF_CSV, IMAGE, MOST_VTIME, WIDE, answering, compared, contents, exported, faults_in, over, plot, ran,
                              step, told_with_whys)
from tools import BAD_INPUT, NOT_WANTED, Run, differences, executable, expect, faults_of, written

# A script with its answers. Group 1 has real time and best effort in it, and stands at the root beside idle and best effort.
LEVELS = [
    ("group 0 100", "group 1"), ("attach 0 1 4 rt", "attached 2"), ("attach 1 1 4", "attached 3"), ("attach 2 0 4 idle", "attached 4"),
    ("attach 3 0 4 be", "attached 5"), ("read 0 2 0 8", "queued 6"), ("read 0 2 100 8", "queued 7"), ("read 2 4 200 8", "queued 8"),
    ("read 3 5 300 8", "queued 9"), ("dispatch", "issued 0 10 fetch 300 8"), ("dispatch", "issued 1 11 fetch 0 8"),
    ("class 0", "class 0 rt"), ("class 17", "class 17 be"), ("vtime 0 idle", "vtime 0 idle 0"), ("vtime 1 rt", "vtime 1 rt 838860"),
]
# 8 sectors take 33,554,432 by weight: 838,860.8 at 40, and 239,674.5 by the sum 140 of seat 3 and group 1, twice, as the finish of seat 3
# is above V then. 1,024 sectors at 40 take 107,374,182.4, and 4,096 at 100 take 171,798,691.8. All are rounded down.
PICTURE_OF_LEVELS = """\
bfq, running, free; 11 of 11 steps stand, last serial 11, 11 calls
in service: seat 0, 8 of 1024 sectors sent, age 0; round robin: seat 15
seat 0: session 2, group 1, priority 4, owed 2, head 8, here
  queue: fetch 100+8 bio 7
seat 1: session 3, group 1, priority 4, owed 0, head 0, here
seat 2: session 4, group 0, priority 4, owed 1, head 0, here
  queue: fetch 200+8 bio 8
seat 3: session 5, group 0, priority 4, owed 1, head 308, here
dispatch list: none
in flight:
  tag 0, issue 10: seat 3 fetch 300+8 bio 9
  tag 1, issue 11: seat 0 fetch 0+8 bio 6
group 0     class  state    weight  budget   start     finish  S/2^22  F/2^22
  V         rt                                   0              0.000
  V         be                              479348              0.114
  V         idle                                 0              0.000
  seat 2    idle   active       40    1024       0  107374182   0.000  25.600
  seat 3    be     idle         40     256  838860     838860   0.200   0.200
  group 1   be     serving     100    4096       0  171798691   0.000  40.960
    V       rt                              838860              0.200
    V       be                                   0              0.000
    V       idle                                 0              0.000
    seat 0  rt     serving      40    1024       0  107374182   0.000  25.600
    seat 1  be     idle         40    1024       0          0   0.000   0.000

"""

# Where all of a group are best effort it has one time, though another group has classes.
BESIDE = "group 0 7\nattach 0 1 4\nattach 1 0 4 rt\n"
TREE_BESIDE = """\
group 0     class  state  weight  budget  start  finish  S/2^22  F/2^22
  V         rt                                0           0.000
  V         be                                0           0.000
  V         idle                              0           0.000
  seat 1    rt     idle       40    1024      0       0   0.000   0.000
  group 1   be     idle        7    4096      0       0   0.000   0.000
    V       be                                0           0.000
    seat 0  be     idle       40    1024      0       0   0.000   0.000

"""
# With an undo of the one that is not best effort there are no classes.
TREE_BEFORE = """\
group 0     state  weight  budget  start  finish  S/2^22  F/2^22
  V                                    0           0.000
  group 1   idle        7    4096      0       0   0.000   0.000
    V                                  0           0.000
    seat 0  idle       40    1024      0       0   0.000   0.000

"""

# The greatest times; 2^62 / 2^22 is 2^40.
WIDE_CLASSES = {
    **WIDE,
    "show tree 0": f"tree 0 - {MOST_VTIME} 15:active:0:{MOST_VTIME}:80:10:of-a-later-kind:idle",
    "vtime 0 rt": f"vtime 0 rt {2**22}", "vtime 0 idle": "vtime 0 idle 0",
}
TREE_OF_WIDE = """\
group 0    class  state   weight                start               finish
                          budget               S/2^22               F/2^22
  V        rt                                 4194304
                                                1.000
  V        be                     4611686018427387904
                                    1099511627776.000
  V        idle                                     0
                                                0.000
  seat 15  idle   active  80->10                    0  4611686018427387904
                             256                0.000    1099511627776.000

"""

# Why a line is a bad one.
REASONS = [
    ("a class by another name", "attach 0 0 4 real", "CLASS is rt, be or idle: 'real'"),
    ("a class in capitals", "attach 0 0 4 RT", "a capital letter: 'RT'"),
    ("a word behind a class", "attach 0 0 4 rt x", "a word too many: 'x'"),
    ("a time of no class", "vtime 0 xx", "CLASS is rt, be or idle: 'xx'"),
    ("a class of nobody", "class", "too few words: after 'class' comes N"),
    ("a class past its type", "class 256", "N is at most 255: '256'"),
]

# V of best effort is 8/140 after the first.
WHYS_OF_LEVELS = [
    "group 0 class be: V 0.000, eligible seat 3 F 25.600, group 1 F 40.960: seat 3 is taken, the least F; next is fetch 300+8, "
    "from sector 0 on; seat 3 is empty then, and expires for emptying, budget 1024 -> 256; seat 3: F' = S 0.000 + 8/40 = 0.200, idle",
    "group 0 class be: V 0.057, eligible group 1 F 40.960: group 1 is taken; group 1 class rt: V 0.000, eligible seat 0 F 25.600: "
    "seat 0 is taken; next is fetch 0+8, from sector 0 on",
]
WANTED = "".join(f"{line} -> {answer}\n" for line, answer in LEVELS)

# The best effort one is served, then real time, and at last idle. The one of real time comes after the first dispatch, and leaves before
# the last completion. Its requests are done then, so its seat is free.
PLOTTED = """\
attach 0 0 4
attach 1 0 0 idle
read 0 1 0 8
read 1 2 100 16
dispatch
attach 2 0 7 rt
read 2 6 200 8
dispatch
dispatch
finish 0 5 short
finish 1 8 short
leave 2
finish 2 9 short
"""
# 8 sectors at weight 40, and 16 at 80, take 838,860.8; 8 at 10 take 3,355,443.2; 1,024 at 80 take 53,687,091.2. All are rounded down.
FIRST, SECOND, THIRD = "0,idle,838860,838860,40,40,be", "1,active,0,53687091,80,80,idle", "2,idle,3355443,3355443,10,10,rt"
SECOND_SENT = "1,idle,838860,838860,80,80,idle"
ROWS = [
    *(f"5,8,838860,{member},,0" for member in (FIRST, SECOND)),
    *(f"8,16,838860,{member},3355443,0" for member in (FIRST, SECOND, THIRD)),
    *(f"{serial},32,838860,{member},3355443,838860" for serial in (9, 10, 11) for member in (FIRST, SECOND_SENT, THIRD)),
    *(f"13,32,838860,{member},,838860" for member in (FIRST, SECOND_SENT)),
]
# Group 1 has nothing but real time in it, which leaves: the last sample has no member.
PLOTTED_GROUP = """\
group 0 7
attach 0 1 4 rt
attach 1 0 4
read 0 2 0 8
dispatch
finish 0 5 short
leave 0
read 1 3 100 8
dispatch
"""
OF_REAL_TIME = "8,0,0,idle,838860,838860,40,40,rt,838860"


def csv_of(rows, *columns):
    """The text of a CSV with these columns behind the usual ones."""
    return ",".join([HEAD_OF_CSV[:-1], *columns]) + "\n" + "".join(f"{row}\n" for row in rows)


CSV = csv_of(ROWS, "class", "vtime_rt", "vtime_idle")

# In the place of matplotlib: a picture is a row for each line, with its label, its style and its virtual times.
STAND_IN = """\
class Figure:
    def __init__(self, **_):
        self.rows = []
    def add_subplot(self, *_):
        return self
    def plot(self, service, vtimes, label="", linestyle="-", **_):
        self.rows.append(" ".join([label, linestyle, *(f"{vtime * 2**22:.0f}" for vtime in vtimes)]))
        return [self]
    def savefig(self, file, **_):
        file.write("".join(row + chr(10) for row in self.rows).encode())
    def get_color(self):
        return "red"
    def nothing(self, *_, **__):
        pass
    axvspan = set_title = set_xlabel = set_ylabel = legend = grid = nothing
"""
# The rows of PLOTTED before its first dispatch, and at its six samples. A class has a time where it has a member, and a member its times
# where it is one.
DRAWN = """\
V - 0 838860 838860 838860 838860 838860 838860
V of class rt -. nan nan 3355443 3355443 3355443 3355443 nan
V of class idle : 0 0 0 838860 838860 838860 838860
seat 0, weight 40 - 107374182 838860 838860 838860 838860 838860 838860
 -- 0 838860 838860 838860 838860 838860 838860
seat 1, weight 80, class idle - 53687091 53687091 53687091 838860 838860 838860 838860
 -- 0 0 0 838860 838860 838860 838860
seat 2, weight 10, class rt - nan nan 3355443 3355443 3355443 3355443 nan
 -- nan nan 3355443 3355443 3355443 3355443 nan
"""

RUNS = [
    step("classes in the picture", "s\n", told_with_whys(LEVELS, WHYS_OF_LEVELS) + 2 * PICTURE_OF_LEVELS, words=["script"],
         files={"script": "".join(f"{line}\n" for line, _ in LEVELS)}),
    step("lines with classes", "class 0\nvtime 0 rt\nclass 16\nvtime 9 idle\nclass 255\n",
         "class 0 none\nvtime 0 rt 0\nclass 16 none\nvtime 9 idle none\nclass 255 none\n"),
    expect("classes", WANTED, f"{len(LEVELS)} lines asked, {len(LEVELS)} answers as wanted\n"),
    expect("another class", "attach 0 0 4 rt -> attached 1\nclass 0 -> class 0 idle\n",
           "line 2: class 0\n    wanted   class 0 idle\n    answered class 0 rt\n2 lines asked, 1 answers as wanted\n", status=NOT_WANTED),
    plot("classes", PLOTTED, CSV),
    plot("one class beside best effort", PLOTTED_GROUP, csv_of([f"5,{OF_REAL_TIME}", f"6,{OF_REAL_TIME}", "9,16,0" + 8 * ","],
                                                               "class", "vtime_rt"), words=["script", "--group", "1"]),
    *(step(f"bad line: {name}", f"line\n{line}\nline\n", f"line 0 0 0\nbad line 2: {why}\nline 0 0 0\n", status=BAD_INPUT)
      for name, line, why in REASONS),
    *(Run(f"{tool}: bad line: {name}", [tool, *words], {"script": f"{line}\n", "image": 1024 * "A"}, stderr=f"script: bad line 1: {why}\n",
          status=BAD_INPUT)
      for tool, words in [("expect", ["script"]), ("export", ["image", "out", "--script", "script"]), ("plot", ["script"])]
      for name, line, why in REASONS),
]


def tree_in(text):
    """The picture of the groups, which is the last in a text."""
    return text[text.rindex("group 0  "):]


def one_time_where_all_are_best_effort(program, folder):
    """A group of best effort alone has one virtual time, and a machine of best effort alone no classes."""
    for typed, wanted in ((BESIDE, TREE_BESIDE), (f"{BESIDE}b\n", TREE_BEFORE), (f"{BESIDE}b\nf\n", TREE_BESIDE)):
        stdout, *rest = ran(["step"], folder, program, stdin=typed.encode())
        yield from compared((tree_in(stdout), *rest), wanted)


def greatest_times(program, folder):
    """Classes and the greatest times have room in 80 columns. What a later kind of entity has besides is left out."""
    stdout, *rest = ran(["step"], folder, executable(folder, "program", answering(WIDE_CLASSES)), stdin=b"s\n")
    yield from compared((tree_in(stdout), *rest), TREE_OF_WIDE)


def steps_with_classes(program, folder):
    """An attach of best effort is told as one without a class."""
    stdout, *rest = ran(["step"], folder, program, stdin=b"attach 2 0 7 rt\nattach 1 0 4 be\nattach 0 0 0 idle\nattach 3 0 4\nb 2\nsteps\n")
    yield from compared((stdout[stdout.rindex("\n\n") + 2:], *rest), "1 serial 1: attach 2 0 7 rt\n2 serial 2: attach 1 0 4\n"
                        "- cursor: 2 of 4 steps stand\n3 serial 3: attach 0 0 0 idle\n4 serial 4: attach 3 0 4\n")


def help_has_classes(program, folder):
    """`help` has the lines with classes, and tells what a class is."""
    stdout, *rest = ran(["step"], folder, program, stdin=b"help\n")
    yield from compared(("", *rest))
    for wanted in ("CLASS is rt, be or idle:", "attach SEAT GROUP PRIO,", "attach SEAT GROUP PRIO CLASS,", "vtime GROUP CLASS,",
                   "class N,"):
        if wanted not in stdout:
            yield f"help has no {wanted!r}"


def export_by_class(program, folder):
    """Of two writes of one sector the last stays. The idle client's is the last, though it was the first to be queued."""
    script = ("attach 0 0 4 idle\nattach 1 0 4 rt\nwrite 0 1 1 1 65\nwrite 1 2 1 1 66\n"
              "dispatch\nwork 0 5\ndispatch\nwork 0 7\n")
    yield from exported(program, folder, script, ["end"], "end: 1 sectors stored over image, 8 of 8 steps stand\n",
                        {"end": over(IMAGE, {1: 65})})
    yield from exported(program, folder, script, ["first", "--at", "6"], "first: 1 sectors stored over image, 6 of 8 steps stand\n",
                        {"first": over(IMAGE, {1: 66})})


def lines_drawn(program, folder):
    """The lines that are to be drawn: the virtual time of each class in a style of its own, and what class a member is of."""
    library = os.path.join(folder, "matplotlib")
    os.mkdir(library)
    written(library, "__init__.py", "rcParams = {}\n")
    written(library, "figure.py", STAND_IN)
    written(folder, "script", PLOTTED)
    yield from compared(ran(["plot", "script", "--svg", "svg"], folder, program, environment={"PYTHONPATH": folder}))
    yield from differences("the picture", (contents(folder, "svg") or b"").decode(), DRAWN)


def drawn(program, folder):
    """The picture names the classes of members, and has a line for the virtual time of each class."""
    if subprocess.run(["python3", "-c", "import matplotlib"], capture_output=True, check=False).returncode:
        raise Skipped("a picture: no matplotlib here")
    written(folder, "script", PLOTTED)
    yield from compared(ran(["plot", "script", "--svg", "svg", "--csv", "csv"], folder, program, environment={"MPLCONFIGDIR": folder}))
    text = (contents(folder, "svg") or b"").decode()
    for wanted in (">V<", ">V of class rt<", ">V of class idle<", ">seat 0, weight 40<", ">seat 1, weight 80, class idle<",
                   ">seat 2, weight 10, class rt<"):
        if wanted not in text:
            yield f"the picture has no {wanted!r}"
    yield from differences("the CSV", (contents(folder, "csv") or b"").decode(), CSV)


FUNCTIONS = [one_time_where_all_are_best_effort, greatest_times, steps_with_classes, help_has_classes, export_by_class, lines_drawn,
             drawn]


def class_runs(program):
    """The name of each run, and what was wrong with it. What cannot be had here is skipped, and a line is printed for it."""
    for run in RUNS:
        yield run.name, faults_of(run, program)
    for function in FUNCTIONS:
        name = f"classes: {function.__name__.replace('_', ' ')}"
        try:
            yield name, faults_in(function, program)
        except Skipped as lacking:
            print(f"skipped: {name}: {lacking}")
