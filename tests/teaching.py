"""Runs of what a lecture needs: tools/expect with --all, --fill and --task, tools/step --narrow, and the exercises of the lecture.

The expected texts come from the rules of the host (docs/FORMATS.md, docs/MODEL.md) and from what each tool says of itself.
"""

import contextlib
import fcntl
import os
import struct
import subprocess
import termios

from bad_input import DONE, Skipped
from step_export_plot import COLUMNS, QUIET, compared, contents, end_of, faults_in, ran, read_until
from tools import BAD_INPUT, NOT_WANTED, TOOLS, TOP, Run, differences, faults_of, written

# Of four answers two are right: one is another one, and one is left out.
MARKED = "attach 0 0 4 -> attached 9\nread 0 1 0 1 -> queued 2\ndispatch -> ?\ndispatch -> refused 17\nreap 0 7\n"
TOLD_OF_MARKED = """\
line 1: attach 0 0 4
    wanted   attached 9
    answered attached 1
line 3: dispatch
    the answer is left out
5 lines asked, 2 answers as wanted, 1 refusals without ->: refused 4 (StaleSession) in line 5
2 of 4 marks
"""
TASK = "# Two marks.\nattach 0 0 4 -> attached 1\n\nread 0 1 0 1 -> ?\ndispatch -> ?\nline\n"
DONE_TASK = "attach 0 0 4 -> attached 1\nread 0 1 0 1 -> queued 2\n# mine\ndispatch -> issued 0 3 fetch 0 1\nline\n"


OF_OPTIONS = ["# The options: --tags 1 --timeout 9\nattach 0 0 4\nread 0 1 0 1\nread 0 1 9 1\ndispatch\ndispatch -> " + answer
              for answer in ("?\n", "refused 18\n")]


def task(name, text, stdout, status=NOT_WANTED, **more):
    """A student's file that is judged by the task."""
    return Run(f"expect: task: {name}", ["expect", "file", "--task", "task"], {"file": text, "task": TASK}, stdout=stdout, status=status,
               **more)


RUNS = [
    Run("expect: all", ["expect", "--all", "file"], {"file": MARKED}, stdout=TOLD_OF_MARKED, status=NOT_WANTED),
    Run("expect: all are right", ["expect", "--all", "file"], {"file": "line -> line 0 0 0\nline\n"},
        stdout="2 lines asked, 1 answers as wanted\n1 of 1 marks\n"),
    Run("expect: an answer left out", ["expect", "file"], {"file": "line\nline -> ?\nline\n"},
        stdout="line 2: line\n    the answer is left out\n2 lines asked, 0 answers as wanted\n", status=NOT_WANTED),
    task("done", DONE_TASK, "4 lines asked, 3 answers as wanted\n2 of 2 marks\n", DONE),
    task("one wrong", DONE_TASK.replace("queued 2", "queued 3"),
         "line 2: read 0 1 0 1\n    wanted   queued 3\n    answered queued 2\n4 lines asked, 2 answers as wanted\n1 of 2 marks\n"),
    task("an answer left as it was", DONE_TASK.replace("issued 0 3 fetch 0 1", "?"),
         "line 4: dispatch\n    the answer is left out\n4 lines asked, 2 answers as wanted\n1 of 2 marks\n"),
    task("no answer", DONE_TASK.replace(" -> issued 0 3 fetch 0 1", ""),
         "line 4: dispatch\n    the answer is left out\n4 lines asked, 2 answers as wanted\n1 of 2 marks\n"),
    # What a student has added earns no mark.
    task("more answers", DONE_TASK.replace("line\n", "line -> line 3 3 3\n"), "4 lines asked, 4 answers as wanted\n2 of 2 marks\n", DONE),
    task("another line", DONE_TASK.replace("read 0 1 0 1", "read 0 1 0 2"),
         "line 2 is read 0 1 0 2 and in the task, line 4, read 0 1 0 1\n0 of 2 marks, as the lines are not those of task\n"),
    task("a line less", DONE_TASK.replace("line\n", ""),
         "line 6 of the task is not there: line\n0 of 2 marks, as the lines are not those of task\n"),
    task("a line more", DONE_TASK + "tick\n", "line 6 is none of the task: tick\n0 of 2 marks, as the lines are not those of task\n"),
    task("a given answer is gone", DONE_TASK.replace(" -> attached 1", ""),
         "line 1 does not go on as in the task, line 2: attach 0 0 4 -> attached 1\n0 of 2 marks, as the lines are not those of task\n"),
    task("a bad line", DONE_TASK + "Line\n", "", BAD_INPUT, stderr="file: bad line 6: a capital letter: 'Line'\n"),
    # An answer that is not well written costs its mark, and no more; blanks behind an answer that the task gives cost nothing.
    *(task(f"an answer that is not well written: {why}", DONE_TASK.replace(" -> queued 2", written_so),
           f"line 2: read 0 1 0 1\n    the answer is not well written: {why}\n4 lines asked, 2 answers as wanted\n1 of 2 marks\n")
      for written_so, why in [(" -> queued 2 ", "after ->, a space too many: after the last word"),
                              (" -> queued 2\r", "after ->, a carriage return"), (" -> ", "it is empty"), (" ->", "it is empty"),
                              (" => queued 2", "the arrow is not ->"), (" \u2192 queued 2", "the arrow is not ->"),
                              ("->queued 2", "-> with no space before it or after it")]),
    task("all lines end in CRLF", DONE_TASK.replace("\n", "\r\n"),
         "".join(f"line {at}: {line}\n    the answer is not well written: after ->, a carriage return\n"
                 for at, line in [(2, "read 0 1 0 1"), (4, "dispatch")]) + "4 lines asked, 1 answers as wanted\n0 of 2 marks\n"),
    # With one tag, as the task has it, a second dispatch has none; with the two that are given it has one.
    Run("expect: the options of a task", ["expect", "file", "--task", "task"], {"file": OF_OPTIONS[1], "task": OF_OPTIONS[0]},
        stdout="5 lines asked, 1 answers as wanted\n1 of 1 marks\n"),
    Run("expect: other options than those of a task", ["expect", "file", "--task", "task", "--", "--tags=2"],
        {"file": OF_OPTIONS[1], "task": OF_OPTIONS[0]}, status=NOT_WANTED,
        stdout="the options are --tags=2, and those of the task are --tags 1 --timeout 9\nline 6: dispatch\n"
               "    wanted   refused 18\n    answered issued 1 5 fetch 9 1\n5 lines asked, 0 answers as wanted\n0 of 1 marks\n"),
    Run("expect: no marks", ["expect", "--all", "file"], {"file": "line\n"},
        stdout="1 lines asked, 0 answers as wanted\nno line may have a mark: none has -> ANSWER\n"),
    Run("expect: no task", ["expect", "file", "--task", "task"], {"file": "line\n"}, stderr="task: No such file or directory\n",
        status=BAD_INPUT),
    Run("expect: fill and all", ["expect", "file", "--all", "--fill", "out"], {"file": "line\n"},
        stderr="--fill judges nothing, so neither --all nor --task goes with it\n", status=BAD_INPUT),
]


def filled(program, folder):
    """Each line with its answer goes into a new file; and nothing if a line is bad, or the file is there."""
    written(folder, "file", "attach 0 0 4\n# one -> ?\n\nread 0 1 0 1 -> ?\nread 0 1 0 0 -> queued 7")
    yield from compared(ran(["expect", "file", "--fill", "out"], folder, program), "out: 3 lines, each with its answer\n")
    wanted = b"attach 0 0 4 -> attached 1\n# one -> ?\n\nread 0 1 0 1 -> queued 2\nread 0 1 0 0 -> refused 12\n"
    yield from differences("what is filled in", contents(folder, "out"), wanted)
    yield from compared(ran(["expect", "out"], folder, program), "3 lines asked, 3 answers as wanted\n")
    yield from compared(ran(["expect", "file", "--fill", "out"], folder, program), "", "out: File exists\n", BAD_INPUT)
    yield from differences("what was there", contents(folder, "out"), wanted)
    written(folder, "bad", "line\nLine\n")
    yield from compared(ran(["expect", "bad", "--fill", "other"], folder, program), "", "bad: bad line 2: a capital letter: 'Line'\n",
                        BAD_INPUT)
    yield from differences("the files", sorted(os.listdir(folder)), ["bad", "file", "out"])


# Three clients and two groups. 16 sectors of seat 1 take 0.4 at weight 40, and its group's V is two times 0.2, each rounded down, so both
# are told whole: 1,677,721 and 1,677,720. V of the root grows two times by 8 and once by 9 at a sum of 340, as the finish of group 2 is
# above it.
GROUPS = ["group 0 100", "group 0 200", "attach 0 1 4", "attach 1 2 4", "attach 2 0 4", "read 0 3 0 64", "read 1 4 0 8", "read 1 4 100 8",
          "read 2 5 0 9", "dispatch", "dispatch", "dispatch", "finish 2 12 short"]
NARROW = """\
bfq, running, free; 13 of 13 steps stand, last serial 13
                    weight budget       S       F       V queued sent done
  group 0                                           0.074
    seat 2   idle       40    256   0.225   0.225              0    0    1
    group 1  active    100   4096   0.000  40.960   0.000
      seat 0 active     40   1024   0.000  25.600              1    0    0
    group 2  idle      200   4096   0.080   0.080 1677720
      seat 1 idle       40    256 1677721 1677721              0    2    0
dispatch list: none
in flight: tag 0 seat 1 fetch 0+8, tag 1 seat 1 fetch 100+8
in service: none

"""
# The next one is told by what has changed: 64 sectors at weight 340 are 0.188 more.
NEXT = """\
issued 2 14 fetch 0 64
why: group 0: V 0.074, eligible group 1 F 40.960: group 1 is taken; group 1: V 0.000, eligible seat 0 F 25.600: seat 0 is taken; \
next is fetch 0+64, from sector 0 on; seat 0 is empty then, and expires for emptying, budget 1024 -> 256; \
seat 0: F' = S 0.000 + 64/40 = 1.600, idle; group 1: F' = S 0.000 + 64/100 = 0.640, idle
bfq, running, free; 14 of 14 steps stand, last serial 14
                  weight budget       S       F       V queued sent done
* group 0                                         0.262
    seat 2   idle     40    256   0.225   0.225              0    0    1
*   group 1  idle    100   4096   0.640   0.640   1.600
*     seat 0 idle     40    256   1.600   1.600              0    1    0
    group 2  idle    200   4096   0.080   0.080 1677720
      seat 1 idle     40    256 1677721 1677721              0    2    0
dispatch list: none
in flight: tag 0 seat 1 fetch 0+8, tag 1 seat 1 fetch 100+8, tag 2 seat 0 ..
in service: none

"""


def narrow(program, folder):
    """The picture for a small terminal, and what has changed in the next one."""
    written(folder, "script", "".join(f"{line}\n" for line in GROUPS))
    stdout, *rest = ran(["step", "--narrow", "script"], folder, program, stdin=b"dispatch\n")
    yield from compared((stdout[stdout.find("bfq, "):], *rest), NARROW + NEXT)


def narrow_examples(program, folder):
    """No line of a picture of any example has more than 80 columns. What is told between pictures may be longer: answers and reasons."""
    for name in sorted(name for name in os.listdir(os.path.dirname(LECTURE)) if name.endswith(".script")):
        path = os.path.join(os.path.dirname(LECTURE), name)
        words = []
        if os.path.exists(path.replace(".script", ".args")):
            with open(path.replace(".script", ".args"), encoding="ascii") as file:
                words = [os.path.join(TOP, word) if word.startswith("examples/") else word for word in file.read().split()[1:]]
        # A picture comes after each line that is typed.
        with open(path, "rb") as file:
            stdout, *rest = ran(["step", "--narrow", "--", *words], folder, program, stdin=file.read())
        lines = stdout.splitlines()
        pictures = [at for at, line in enumerate(lines) if "steps stand, last serial" in line]
        if not pictures:
            yield f"{name}: no picture: {rest}"
        for at in pictures:
            end = lines.index("", at) if "" in lines[at:] else len(lines)
            yield from (f"{name}: {len(line)} columns: {line}" for line in lines[at:end] if len(line) > COLUMNS)


def narrow_discards(program, folder):
    """A discard is named where a read and a write are: at the device, as the next one, and when it is given back."""
    stdout, *rest = ran(["step", "--narrow"], folder, program, stdin=b"attach 0 0 4\ndiscard 0 1 5 2\ndiscard 0 1 9 1\ndispatch\nrequeue last\n")
    yield from compared(("", *rest))
    for text in ("in flight: tag 0 seat 0 discard 5+2\n", "; next discard 9+1\n", "dispatch list: seat 0 discard 5+2\n"):
        yield from [] if text in stdout else [f"there is no {text!r}"]


ROWS = 24
# Each client reads in turn, and is served, so that there are exhaustion, ticks and undos on the way.
TYPED = ["dispatch", "dispatch", "work last", "tick", "dispatch", "read 0 3 400 64", "dispatch", "dispatch", "b", "f", "dispatch", "b 3",
         "dispatch"]
COLOURS = "\033["


def at_24_rows(program, folder):
    """With three clients and two groups the picture, which ends in the queue in service, has room above the prompt; and with 16 clients and
    31 groups. There are colours, but not if nobody wants them."""
    written(folder, "small", "".join(f"{line}\n" for line in [*GROUPS[:5], *(f"read {seat} {3 + seat} {at} 64" for seat in range(3)
                                                                            for at in (0, 100, 200))]))
    written(folder, "large", "".join(f"{line}\n" for line in [*31 * ["group 0 7"], *(f"attach {seat} {seat} 4" for seat in range(16)),
                                                             *(f"read {seat} {32 + seat} 0 8" for seat in range(16))]))
    for script, environment, is_coloured in (("small", {"TERM": "xterm"}, True), ("large", {"TERM": "xterm", "NO_COLOR": "1"}, False)):
        text = typed_at_terminal(program, folder, script, environment)
        if (COLOURS + "32m" in text) != is_coloured:
            yield f"{script}: the colours are not {is_coloured}"
        for shown in text.split("steps stand, last serial")[1:]:
            lines = shown.partition("> ")[0].split("\n")
            # Behind it stand an empty line, perhaps the greeting, and the prompt.
            if len(lines) > ROWS or not any("in service: " in line for line in lines[-4:]):
                yield f"{script}: a picture has {len(lines)} lines, of which the last are {lines[-4:]}"


def typed_at_terminal(program, folder, script, environment):
    """What is shown at a terminal of 80 columns and 24 rows."""
    with contextlib.ExitStack() as stack:
        try:
            ours, its = os.openpty()
        except OSError as lacking:
            raise Skipped(f"no terminal can be had here: {lacking}") from None
        stack.callback(os.close, ours)
        stack.callback(os.close, its)
        fcntl.ioctl(its, termios.TIOCSWINSZ, struct.pack("HHHH", ROWS, COLUMNS, 0, 0))
        run = stack.enter_context(subprocess.Popen(
            [os.path.join(TOOLS, "step"), "--program", program, "--narrow", script], cwd=folder, stdin=its, stdout=its, stderr=its,
            env={**{name: value for name, value in os.environ.items() if name != "NO_COLOR"}, **QUIET, **environment},
            start_new_session=True))
        stack.callback(run.kill)
        got = read_until(ours, b"\n> ")
        for line in TYPED:
            os.write(ours, line.encode() + b"\n")
            got += read_until(ours, b"\n> ")
        os.write(ours, b"q\n")
        end_of(run)
    return got.decode().replace("\r", "")


# The answers to the exercises of the lecture, worked out by the rules, and the options of each.
#
# Share: 256 sectors take 6.4 at weight 40 and 3.2 at weight 80, and V grows by 2.133 with each request. Seat 1 has the less finish. Then
# its start is past V, and seat 0 is served; then V is 4.267, and only seat 1 is eligible. When V is 6.4 the start of seat 1 is two times
# 3.2, rounded down, as V is rounded down three times; that of seat 0 is 6.4, rounded down once, and past V by one. So seat 1 sends its
# last, and then seat 0 is alone.
#
# Budgets: the two finishes are alike, so seat 0 is served. It expires for exhaustion, with a budget of 4 * 256, but 1,000 at most. Seat 1
# has its 8 sectors; then seat 0 sends 256 more of 1,000, one tick passes, and with the last 256 its queue is empty.
#
# Virtual time: 60 sectors at the sum 120 are half a sector by weight, 2,097,152. Seat 1 has 120 at weight 80, which are 1.5. That is above
# V, so its weight counts on when seat 0 sends 30: a quarter, 1,048,576.
#
# What if: a new weight counts from the next stamping on, so seat 0 is sent first again, and then seat 1, whose group's start is not past V
# like that of group 1. That group is stamped with 200 then, from 2.56 on, and has the less finish. The undone dispatch is dropped.
#
# Classes: real time at the root, then best effort by finishes: 25.6 of seat 1 and 40.96 of group 1, whatever is in it; then idle.
EXERCISES = {
    "share": (["--tags", "64", "--first-budget", "256", "--max-budget", "256", "--sectors", "2048"],
              ["issued 0 27 fetch 1024 256", "issued 1 28 fetch 0 256", "issued 2 29 fetch 1280 256", "issued 3 30 fetch 1536 256",
               "issued 4 31 fetch 256 256", "issued 5 32 fetch 512 256"]),
    "budgets": (["--tags", "64", "--first-budget", "256", "--max-budget", "1000"],
                ["service 0 256 0 256", "service none", "service 0 256 0 1000", "service 0 256 1 1000", "service none"]),
    "virtual-time": ([], ["vtime 0 2097152", "vtime 0 4194304", "entity 1 idle 6291456 6291456 80 256 0", "issued 2 9 fetch 0 30",
                          "vtime 0 5242880"]),
    "what-if": (["--tags", "64", "--first-budget", "256", "--max-budget", "256"],
                ["issued 0 21 fetch 0 256", "moved 20 21", "issued 0 23 fetch 0 256", "issued 1 24 fetch 512 256",
                 "issued 2 25 fetch 768 256", "refused 32"]),
    "classes": ([], ["class 17 be", "issued 0 10 fetch 200 8", "issued 1 11 fetch 100 8", "issued 2 12 fetch 300 8",
                     "issued 3 13 fetch 0 8"]),
}
LECTURE = os.path.join(TOP, "examples", "lecture")


def exercises(program, folder):
    """Each task has its options in a comment and in the guide, and the answers that were worked out get all marks."""
    yield from differences("the tasks", sorted(os.listdir(LECTURE)), sorted(f"{name}.task" for name in EXERCISES))
    with open(os.path.join(TOP, "docs", "GUIDE.md"), encoding="utf-8") as file:
        guide = file.read()
    for name, (options, answers) in EXERCISES.items():
        path = os.path.join(LECTURE, f"{name}.task")
        with open(path, encoding="ascii") as file:
            text = file.read()
        words = " ".join(options)
        if f"# The options: {words or 'none'}\n" not in text or f"| `{name}.task` | {f'`{words}` ' * bool(words)}|" not in guide:
            yield f"{name}: it does not say that its options are {words!r}"
        first, *parts = text.split("-> ?\n")
        if len(parts) != len(answers):
            yield f"{name}: it has {len(parts)} questions"
        written(folder, name, first + "".join(f"-> {answer}\n{part}" for answer, part in zip(answers, parts)))
        stdout, *rest = ran(["expect", name, "--task", path, "--why", "--", *options], folder, program)
        yield from compared((stdout.splitlines()[-1], *rest), f"{len(answers)} of {len(answers)} marks")


def teaching_runs(program):
    """The name of each run, and what was wrong with it. What cannot be had here is skipped, and a line is printed for it."""
    for run in RUNS:
        yield run.name, faults_of(run, program)
    for function in (filled, narrow, narrow_examples, narrow_discards, at_24_rows, exercises):
        name = f"teaching: {function.__name__.replace('_', ' ')}"
        try:
            yield name, faults_in(function, program)
        except Skipped as lacking:
            print(f"skipped: {name}: {lacking}")
