"""Runs of tools/why, and of the reasons that the other tools tell: each choice is worked out by the rules before the host makes it.

The texts are worked out by hand from docs/MODEL.md. Over all scripts of examples/ and tests/scripts, and over random ones, each choice and
the state after it must be as worked out; and a host that has another rule must be found out.
"""

import os
import sys
import tempfile

from bad_input import DONE
from random_scripts import options_of, random_lines
from script_rows import SCRIPTS, read_rows
from step_export_plot import answering, compared, ran
from tools import BAD_INPUT, NO_PROGRAM, NOT_WANTED, TOP, Run, faults_of, written

sys.path.append(os.path.join(TOP, "tools"))
from host import Host, Stop  # noqa: E402
from reasons import DEFAULTS, Choice, Machine, Queue, Reason, Reasons, Request  # noqa: E402

EXAMPLES = os.path.join(TOP, "examples")
# How many random scripts there are, of the seeds from 1 on; and with `./test --all`.
SCRIPTS_AT_RANDOM, MANY_AT_RANDOM = 60, 200
# Each must come to so many choices on average, or they do not reach what they are for.
LEAST_CHOICES = 20


def why(name, script, stdout="", stderr="", status=DONE, words=(), **more):
    """A run of tools/why over a script."""
    return Run(f"why: {name}", ["why", "script", *(["--", *words] if words else [])], {"script": script}, stdout=stdout, stderr=stderr,
               status=status, **more)


# Two of weight 40. 256 sectors take 6.4 by weight, and 1,024 take 25.6. V grows 3.2 by 256 sectors at a sum of 80, and 0.8 by 64.
EXHAUSTION = ("attach 0 0 4\nattach 1 0 4\n" + "".join(f"read 0 1 {65 * at} 64\n" for at in range(5)) + "read 1 2 500 64\n"
              + "".join(f"dispatch\nwork 0 {9 + 2 * at}\n" for at in range(6)))
WHYS_OF_EXHAUSTION = """\
dispatch -> issued 0 9 fetch 0 64
    why: group 0: V 0.000, eligible seat 0 F 6.400, seat 1 F 6.400: seat 0 is taken, of the same F as seat 1 and the lower number; \
next is fetch 0+64, from sector 0 on
dispatch -> issued 0 11 fetch 65 64
    why: seat 0 is in service and goes on: 64 of 256 sectors sent, 64 next, age 0 of 8; next is fetch 65+64, from sector 64 on
dispatch -> issued 0 13 fetch 130 64
    why: seat 0 is in service and goes on: 128 of 256 sectors sent, 64 next, age 0 of 8; next is fetch 130+64, from sector 129 on
dispatch -> issued 0 15 fetch 195 64
    why: seat 0 is in service and goes on: 192 of 256 sectors sent, 64 next, age 0 of 8; next is fetch 195+64, from sector 194 on
dispatch -> issued 0 17 fetch 500 64
    why: seat 0 expires for exhaustion: 256 sectors sent and 64 next pass its budget of 256, budget 256 -> 1024; \
seat 0: F' = S 0.000 + 256/40 = 6.400, waits with F 32.000; \
group 0: V 3.200, eligible seat 1 F 6.400, not eligible seat 0, S 6.400 is past V by 3.200: seat 1 is taken; \
next is fetch 500+64, from sector 0 on; seat 1 is empty then, and expires for emptying, budget 256 stays; \
seat 1: F' = S 0.000 + 64/40 = 1.600, idle
dispatch -> issued 0 19 fetch 260 64
    why: group 0: V jumps from 4.000 to 6.400, the least S, eligible seat 0 F 32.000: seat 0 is taken; \
next is fetch 260+64, from sector 259 on; seat 0 is empty then, and expires for emptying, budget 1024 -> 256; \
seat 0: F' = S 6.400 + 64/40 = 8.000, idle
6 choices, 0 otherwise than worked out
"""
# 8 sectors take 0.2 at weight 40, and 2,048 take 51.2. The head is at 108 then, so what begins at 0 comes last.
TIME = ("attach 0 0 4\nread 0 1 100 8\nread 0 1 0 8\nread 0 1 200 8\ndispatch\ntick\ntick\ndispatch\ndispatch\ndispatch\n")
WHYS_OF_TIME = """\
dispatch -> issued 0 5 fetch 0 8
    why: group 0: V 0.000, eligible seat 0 F 25.600: seat 0 is taken; next is fetch 0+8, from sector 0 on
dispatch -> issued 1 8 fetch 100 8
    why: seat 0 expires for time: its age is 2 of 2, budget 1024 -> 2048; seat 0: F' = S 0.000 + 8/40 = 0.200, waits with F 51.400; \
group 0: V 0.200, eligible seat 0 F 51.400: seat 0 is taken; next is fetch 100+8, from sector 8 on
dispatch -> issued 2 9 fetch 200 8
    why: seat 0 is in service and goes on: 8 of 2048 sectors sent, 8 next, age 0 of 2; next is fetch 200+8, from sector 108 on; \
seat 0 is empty then, and expires for emptying, budget 2048 -> 256; seat 0: F' = S 0.200 + 16/40 = 0.600, idle
dispatch -> refused 17 (NothingQueued)
    why: no request waits to be sent
4 choices, 0 otherwise than worked out
"""
TURNS = "attach 0 0 4\nattach 3 0 4\nread 0 1 0 1\nread 3 2 9 1\ndispatch\nrequeue 0 5\ndispatch\ndispatch\nhold\ndispatch\nrelease\n"
WHYS_OF_TURNS = """\
dispatch -> issued 0 5 fetch 0 1
    why: by turns: after seat 15 the next with a request is seat 0; its earliest is fetch 0+1
dispatch -> issued 0 7 fetch 0 1
    why: from the dispatch list, which goes first: seat 0, fetch 0+1
dispatch -> refused 18 (NoTag)
    why: each of the 1 tags bears a request in flight
dispatch -> notyet 41 (Held)
    why: the host is held, so no step is taken
4 choices, 0 otherwise than worked out
"""
# A class each: the real time one goes first, though it comes last; the idle one last. The head of seat 0 is at 9.
CLASSES = ("attach 0 0 4 idle\nattach 1 0 4\nattach 2 0 4 rt\nread 0 1 0 1\nread 1 2 10 1\nread 2 3 20 1\ndispatch\ndispatch\ndispatch\n")
WHYS_OF_CLASSES = "".join(f"""\
dispatch -> issued {at} {7 + at} fetch {start} 1
    why: group 0 class {name}: V 0.000, eligible seat {seat} F 25.600: seat {seat} is taken; next is fetch {start}+1, from sector 0 on; \
seat {seat} is empty then, and expires for emptying, budget 1024 -> 256; seat {seat}: F' = S 0.000 + 1/40 = 0.025, idle
""" for at, (seat, name, start) in enumerate([(2, "rt", 20), (1, "be", 10), (0, "idle", 0)])) + """\
3 choices, 0 otherwise than worked out
"""
# 64 sectors at weight 40 take 6,710,886.4, and 256 take 26,843,545.6. Both are rounded down, so V is one less than the start then, though
# both are 6.4 by weight.
ALIKE = "attach 0 0 4\n" + "".join(f"read 0 1 {65 * at} 64\n" for at in range(5)) + 5 * "dispatch\n"
WHY_OF_ALIKE = """\
dispatch -> issued 4 11 fetch 260 64
    why: seat 0 expires for exhaustion: 256 sectors sent and 64 next pass its budget of 256, budget 256 stays; \
seat 0: F' = S 0.000 + 256/40 = 6.400, waits with F 12.800; \
group 0: V jumps from 6.400 (26843544) to 6.400 (26843545), the least S, eligible seat 0 F 12.800: seat 0 is taken; \
next is fetch 260+64, from sector 259 on; seat 0 is empty then, and expires for emptying, budget 256 stays; \
seat 0: F' = S 6.400 + 64/40 = 8.000, idle
5 choices, 0 otherwise than worked out
"""
# Time goes before exhaustion: the budget of 256 doubles, and is not four times as great. 512 sectors take 12.8.
BOTH = "attach 0 0 4\n" + "".join(f"read 0 1 {65 * at} 64\n" for at in range(5)) + 4 * "dispatch\n" + "tick\ndispatch\n"
WHY_OF_BOTH = """\
dispatch -> issued 4 12 fetch 260 64
    why: seat 0 expires for time: its age is 1 of 1, budget 256 -> 512; seat 0: F' = S 0.000 + 256/40 = 6.400, waits with F 19.200; \
group 0: V jumps from 6.400 (26843544) to 6.400 (26843545), the least S, eligible seat 0 F 19.200: seat 0 is taken; \
next is fetch 260+64, from sector 259 on; seat 0 is empty then, and expires for emptying, budget 512 -> 256; \
seat 0: F' = S 6.400 + 64/40 = 8.000, idle
5 choices, 0 otherwise than worked out
"""
# 256 sectors take 26,843,545 at weight 40 and 107,374,182 at weight 10. From so far below 2^62 on the first finish is 2^62 itself, which
# may be. What is a budget of 1,024 later may not. Nor may 256 sectors at weight 10 when another one, who has left, has moved V before.
FULL_FINISH = ALIKE
WHY_OF_FULL_FINISH = """\
dispatch -> refused 27 (VtimeFull)
    why: seat 0 expires for exhaustion: 256 sectors sent and 64 next pass its budget of 256, budget 256 -> 1024; \
a virtual time would pass 2^62
5 choices, 0 otherwise than worked out
"""
JUST_FULL = "attach 0 0 7\nread 0 1 0 64\nread 0 1 64 64\nread 0 1 128 64\nread 0 1 192 64\n"
WHY_OF_JUST_FULL = """\
dispatch -> issued 0 6 fetch 0 256
    why: group 0: V 1099511627750.400, eligible seat 0 F 1099511627776.000: seat 0 is taken; next is fetch 0+256, from sector 0 on; \
seat 0 is empty then, and expires for emptying, budget 256 stays; \
seat 0: F' = S 1099511627750.400 + 256/10 = 1099511627776.000, idle
1 choices, 0 otherwise than worked out
"""
# 64 sectors at the sum of 90 take 2,982,616, which are 0.711.
FULL_CHARGE = JUST_FULL + "attach 1 0 0\nread 1 6 500 64\ndispatch\nfinish 0 8 short\nleave 1\ndispatch\n"
WHY_OF_FULL_CHARGE = """\
dispatch -> refused 27 (VtimeFull)
    why: group 0: V 1099511627751.111, eligible seat 0 F 1099511627776.000: seat 0 is taken; next is fetch 0+256, from sector 0 on; \
a virtual time would pass 2^62
2 choices, 0 otherwise than worked out
"""
THREE = "attach 0 0 4\nattach 1 0 4\nattach 2 0 4\nread 0 1 0 1\nread 1 2 10 1\nread 2 3 20 1\ndispatch\n"
WHY_OF_THREE = """\
dispatch -> issued 0 7 fetch 0 1
    why: group 0: V 0.000, eligible seat 0 F 25.600, seat 1 F 25.600, seat 2 F 25.600: seat 0 is taken, of the same F as seat 1 and \
seat 2 and the lower number; next is fetch 0+1, from sector 0 on; seat 0 is empty then, and expires for emptying, budget 1024 -> 256; \
seat 0: F' = S 0.000 + 1/40 = 0.025, idle
1 choices, 0 otherwise than worked out
"""
# The last choice of each script, with its words.
LAST = {
    "times that look alike": (ALIKE, WHY_OF_ALIKE, ["--tags=64", "--first-budget=256", "--max-budget=256"]),
    "time and exhaustion at once": (BOTH, WHY_OF_BOTH, ["--tags=8", "--timeout", "1", "--first-budget", "256"]),
    "a finish past 2^62": (FULL_FINISH, WHY_OF_FULL_FINISH, ["--tags=8", "--first-budget=256", f"--first-vtime={2**62 - 26843545}"]),
    "2^62 itself": (JUST_FULL + "dispatch\n", WHY_OF_JUST_FULL, ["--first-budget=256", f"--first-vtime={2**62 - 107374182}"]),
    "a charge past 2^62": (FULL_CHARGE, WHY_OF_FULL_CHARGE, ["--first-budget=256", f"--first-vtime={2**62 - 107374182}"]),
    "a tie of three": (THREE, WHY_OF_THREE, []),
}
NO_STEP = "attach 16 0 4\ndispatch\n# one\nline\n"
TOLD_OF_NO_STEP = "attach 16 0 4 -> refused 1 (BadSeat)\n"

NOTHING_TO_SEND = "dispatch -> refused 17 (NothingQueued)\n    why: no request waits to be sent\n"

RUNS = [
    why("exhaustion, a jump of V, a tie, emptying", EXHAUSTION, WHYS_OF_EXHAUSTION,
        words=["--tags", "1", "--first-budget", "256", "--max-budget=1024"]),
    why("time", TIME, WHYS_OF_TIME, words=["--timeout=2"]),
    why("turns, the dispatch list, refusals", TURNS, WHYS_OF_TURNS, words=["--tags=1", "--scheduler", "none"]),
    why("classes", CLASSES, WHYS_OF_CLASSES),
    why("a full history", "attach 0 0 4\nread 0 1 0 1\ndispatch\n",
        "dispatch -> refused 33 (HistoryFull)\n    why: the history has 2 calls, and there is room for 2\n"
        "1 choices, 0 otherwise than worked out\n", words=["--history", "2"]),
    # What came up to it is told.
    why("a bad line", "attach 0 0 4\ndispatch\nDispatch\n", NOTHING_TO_SEND,
        "script: bad line 3: a capital letter: 'Dispatch'\n", BAD_INPUT),
    why("no step", NO_STEP, NOTHING_TO_SEND + TOLD_OF_NO_STEP,
        "script: no step is accepted\n", BAD_INPUT),
    why("no line", "", "", "script: no step is accepted\n", BAD_INPUT),
    Run("why: no script", ["why", "script"], stderr="script: No such file or directory\n", status=BAD_INPUT),
    # A program that has no such look, or tells it in another way.
    why("a look that the program does not know", "dispatch\n", "",
        "PROGRAM lacks a look: it was asked 'show host', and 'bad line 1' came\n", NO_PROGRAM, program=answering({}, "bad line 1")),
    why("a look that is told otherwise", "dispatch\n", "",
        "PROGRAM lacks a look: it was asked 'show service', and 'none' came\n", NO_PROGRAM,
        program=answering({"show host": "host bfq running free 15 0 0 0 0"})),
    Run("expect: why", ["expect", "script", "--why"], {"script": "attach 0 0 4 -> attached 1\ndispatch -> refused 17\n"},
        stdout=f"{NOTHING_TO_SEND}2 lines asked, 2 answers as wanted\n"),
]

# A host of another rule: after one tick a queue expires, or a budget does not grow so far. The script has two queues.
OTHER = "#!/bin/sh\nexec PROGRAM \"$@\" {}\n"
TICKED = "attach 0 0 4\nattach 1 0 4\nread 0 1 0 1\nread 0 1 9 1\nread 1 2 5 1\ndispatch\ntick\ndispatch\n"
# What is told of the second dispatch, which must be that of seat 0 at sector 9.
OTHERWISE = "!!! THE HOST DID OTHERWISE: the answer is issued 1 8 fetch 5 1 and not issued 1 8 fetch 9 1"


def others(program):
    """A host that has another rule is told loudly, and the run counts as failed."""
    told = ("dispatch -> issued 0 6 fetch 0 1\n    why: group 0: V 0.000, eligible seat 0 F 25.600, seat 1 F 25.600: seat 0 is taken, "
            "of the same F as seat 1 and the lower number; next is fetch 0+1, from sector 0 on\n"
            f"dispatch -> issued 1 8 fetch 5 1\n    why: seat 0 is in service and goes on: 1 of 1024 sectors sent, 1 next, age 1 of 8; "
            "next is fetch 9+1, from sector 1 on; seat 0 is empty then, and expires for emptying, budget 1024 -> 256; "
            f"seat 0: F' = S 0.000 + 2/40 = 0.050, idle\n    {OTHERWISE}\n2 choices, 1 otherwise than worked out\n")
    of_timeout = OTHER.format("--timeout 1").replace("PROGRAM", program)
    yield why("a host of another timeout", TICKED, told, status=NOT_WANTED, program=of_timeout)
    # The same request is sent, but the budget is another one, and the finish with it.
    of_budget = OTHER.format("--max-budget 1030").replace("PROGRAM", program)
    yield Run("expect: a host of another budget", ["expect", "script", "--why"], {"script": AGED}, stdout=TOLD_OF_AGED, status=NOT_WANTED,
              program=of_budget)
    # Without --why answers alone are asked, which are as they must be.
    yield Run("expect: answers alone", ["expect", "script"], {"script": AGED}, stdout="14 lines asked, 0 answers as wanted\n",
              program=of_budget)


# A host that ticks when it refuses a dispatch; one that finds no memory for the second one; and one whose looks do not go together, or
# are not as they must be.
MEDDLING = """\
#!/usr/bin/env python3
import subprocess, sys
dispatches = 0
with subprocess.Popen(["PROGRAM", *sys.argv[1:]], stdin=subprocess.PIPE, stdout=subprocess.PIPE, text=True) as host:
    def ask(line):
        print(line, end="" if line.endswith("\\n") else "\\n", file=host.stdin, flush=True)
        return host.stdout.readline()
    for line in sys.stdin:
        dispatches += line == "dispatch\\n"
        {}
        print(answer, end="", flush=True)
"""
TICKS = 'answer = ask(line)\n        if answer == "refused 18\\n":\n            ask("tick")'
NO_MEMORY = 'answer = "refused 34\\n" if (line, dispatches) == ("dispatch\\n", 2) else ask(line)'
NOBODY_WAITS = 'answer = ask(line).replace(":active:", ":idle:")'
NO_SUCH_STATE = 'answer = ask(line).replace(":active:", ":waiting:")'
TWO_READS = "attach 0 0 4\nread 0 1 0 1\nread 0 1 9 1\ndispatch\ndispatch\n"
FIRST_OF_TWO = ("dispatch -> issued 0 4 fetch 0 1\n    why: group 0: V 0.000, eligible seat 0 F 25.600: seat 0 is taken; "
                "next is fetch 0+1, from sector 0 on\n")
TOLD_OF_TICKS = FIRST_OF_TWO + """\
dispatch -> refused 18 (NoTag)
    why: each of the 1 tags bears a request in flight
    !!! THE HOST DID OTHERWISE: the count of calls is 5 and not 4
    !!! THE HOST DID OTHERWISE: the last serial is 5 and not 4
    !!! THE HOST DID OTHERWISE: the queue in service is Service(seat=0, sent=1, age=1) and not Service(seat=0, sent=1, age=0)
2 choices, 1 otherwise than worked out
"""
TOLD_OF_NO_MEMORY = FIRST_OF_TWO + """\
dispatch -> refused 34 (OutOfMemory)
    why: seat 0 is in service and goes on: 1 of 1024 sectors sent, 1 next, age 0 of 8; next is fetch 9+1, from sector 1 on; \
seat 0 is empty then, and expires for emptying, budget 1024 -> 256; seat 0: F' = S 0.000 + 2/40 = 0.050, idle; \
no memory was found, which no look tells
2 choices, 0 otherwise than worked out, 1 without memory
"""
TOLD_OF_NOBODY = """\
dispatch -> issued 0 3 fetch 0 1
    why: nobody waits in group 0, though a request is queued
    !!! THE HOST DID OTHERWISE: its looks do not go together
1 choices, 1 otherwise than worked out
"""


def meddling(program):
    """A host that changes something on a refusal, one that finds no memory, and looks that cannot be."""
    def of(change):
        return MEDDLING.replace("{}", change).replace("PROGRAM", program)

    yield why("a host that ticks on a refusal", TWO_READS, TOLD_OF_TICKS, status=NOT_WANTED, words=["--tags=1"], program=of(TICKS))
    yield why("no memory", TWO_READS, TOLD_OF_NO_MEMORY, program=of(NO_MEMORY))
    one_read = "attach 0 0 4\nread 0 1 0 1\ndispatch\n"
    yield why("looks that do not go together", one_read, TOLD_OF_NOBODY, status=NOT_WANTED, program=of(NOBODY_WAITS))
    # 1,024 sectors at weight 40 take 107,374,182.
    yield why("a look with another rest", one_read, "", "PROGRAM lacks a look: it was asked 'show tree 0', and "
              "'tree 0 - 0 0:waiting:0:107374182:40:40' came\n", NO_PROGRAM, program=of(NO_SUCH_STATE))


# When 8 ticks are over the budget of 1,024 doubles, but to 1,030 at most by the words of the host. 8 sectors take 838,860 at weight 40;
# 2,048 take 214,748,364, and 1,030 take 108,003,328.
AGED = "attach 0 0 4\nread 0 1 0 8\nread 0 1 100 8\nread 0 1 200 8\ndispatch\n" + 8 * "tick\n" + "dispatch\n"
TOLD_OF_AGED = """\
dispatch -> issued 0 5 fetch 0 8
    why: group 0: V 0.000, eligible seat 0 F 25.600: seat 0 is taken; next is fetch 0+8, from sector 0 on
dispatch -> issued 1 14 fetch 100 8
    why: seat 0 expires for time: its age is 8 of 8, budget 1024 -> 2048; seat 0: F' = S 0.000 + 8/40 = 0.200, waits with F 51.400; \
group 0: V 0.200, eligible seat 0 F 51.400: seat 0 is taken; next is fetch 100+8, from sector 8 on
    !!! THE HOST DID OTHERWISE: seat 0 is serving with S 838860, F 108842188 and weight 40 and not serving with S 838860, F 215587224 \
and weight 40
    !!! THE HOST DID OTHERWISE: the budget of seat 0 is 1030 and not 2048
14 lines asked, 0 answers as wanted
"""


def scripts():
    """The words and the lines of each script of examples/ and tests/scripts. A bad line, and what stands behind it, is left out."""
    for name in sorted(os.listdir(EXAMPLES)):
        stem, extension = os.path.splitext(os.path.join(EXAMPLES, name))
        if extension == ".script":
            words = []
            if os.path.exists(stem + ".args"):
                with open(stem + ".args", encoding="ascii") as file:
                    words = [os.path.join(TOP, word) if word.startswith("examples/") else word for word in file.read().split()[1:]]
            with open(stem + ".script", encoding="ascii") as file:
                yield f"examples/{name}", words, file.read().splitlines()
    for name in sorted(os.listdir(SCRIPTS)):
        if name.endswith(".rows"):
            runs, lines, _ = read_rows(os.path.join(SCRIPTS, name))
            for words in runs:
                yield f"scripts/{name}: {' '.join(words)}", words[1:], lines


def reasoned(program, name, words, lines_by):
    """What a host does otherwise than worked out in one script, and how many choices it has."""
    faults = []
    with Host(program, words) as host:
        reasons = Reasons(host, words)

        def ask(line):
            got = reasons.ask(line)
            faults.extend(f"{name}: {line}: {fault}" for fault in got.faults)
            return got.answer

        lines_by(ask)
    return faults, reasons.choices


def all_as_worked_out(program, count_at_random):
    """Each choice of all scripts, and of the random ones."""
    for name, words, lines in scripts():
        good = [line for line in lines if line and not line.startswith("#")]
        faults, _ = reasoned(program, name, words, lambda ask, good=good: [ask(line) for line in good])
        yield f"why: {name}", faults
    told, choices = [], 0
    for seed in range(1, count_at_random + 1):
        faults, count = reasoned(program, f"seed {seed}", options_of(seed), lambda ask, seed=seed: random_lines(seed, ask))
        choices += count
        told += faults
    print(f"random scripts of the seeds 1 to {count_at_random}: {choices} choices")
    yield "why: random scripts", told
    yield "why: there are many choices", [] if choices >= LEAST_CHOICES * count_at_random else [f"there are {choices}"]


def last_choice(program, script, wanted, words):
    """What is told of the last dispatch of a script. Of those before it nothing else is told than of others."""
    with tempfile.TemporaryDirectory() as folder:
        written(folder, "script", script)
        stdout, *rest = ran(["why", "script", "--", *words], folder, program)
    return [*compared((stdout[stdout.rfind("dispatch -> "):], *rest), wanted)]


def no_turn():
    """A machine whose one request waits at a seat that the round robin does not know. It is told, and is no end of the tool."""
    machine = Machine("none", False, 0, 2, 2, queues={16: Queue(1, 0, 0, [Request("fetch", 0, 8)])})
    found, wanted = Choice(machine, DEFAULTS).reason(), Reason("a request is queued, but at no seat from 0 to 15", None, None)
    return [] if found == wanted else [f"{found} and not {wanted}"]


def why_runs(program, count_at_random):
    """The name of each run, and what was wrong with it."""
    yield "why: nobody's turn", no_turn()
    for name, case in LAST.items():
        yield f"why: {name}", last_choice(program, *case)
    for run in [*RUNS, *others(program), *meddling(program)]:
        yield run.name, faults_of(run, program)
    try:
        yield from all_as_worked_out(program, count_at_random)
    except (OSError, Stop) as fault:
        yield "why: all scripts", [str(fault)]
