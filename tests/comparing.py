"""Runs of tools/compare: the same logs through two programs, or with two sets of options.

The numbers are worked out by hand from docs/MODEL.md. Seat 0 has weight 80 and seat 1 weight 10, and both have ten reads of 64 sectors that
do not touch. By BFQ seat 0 is served 256 sectors, its budget, which take 3.2 by weight. V is 256/90 = 2.844 then, so seat 1 is served its
256, and then seat 0 to its end, and seat 1. By turns seat 0 has 640 sectors and is done before seat 1 begins.

A picture is read as XML, and what is drawn is brought back to sectors by its frame.
"""

import collections
import itertools
import os
import re
import subprocess
import tempfile
from xml.etree import ElementTree

from bad_input import DONE
from own_rule import variation
from tools import BAD_INPUT, NO_PROGRAM, NOT_WANTED, SECONDS, TOOLS, Run, differences, faults_of, head, started, written

FILES = {f"{name}.log": head(2) + "".join(f"/{name} read {65536 * at} 32768\n" for at in range(10)) for name in "ab"}
LOGS = ["a.log:prio=0", "b.log:prio=7"]
OPTIONS = ["--", "--tags", "1", "--first-budget", "256"]
# Reads of seat 0 are done at 64, 128, 192, 256, and from 576 to 896; the fifth of ten is at 576. It is entitled to 8/9 while both wait.
WHY = ("seat 0 expires for exhaustion: 256 sectors sent and 64 next pass its budget of 256, budget 256 -> 1024; seat 0: F' = S 0.000 + "
       "256/80 = 3.200, waits with F 16.000; group 0: V 2.844, eligible seat 1 F 25.600, not eligible seat 0, S 3.200 is past V by 0.356: "
       "seat 1 is taken; next is fetch 0+64, from sector 0 on")
HEAD = "                    sectors  half took  99% took    behind\n"
BY_BFQ = "     640        576       896  -199.111\n", "     640        960      1280   -28.444\n"
BY_TURNS = "     640        320       640     0.000\n", "     640        960      1280   -71.111\n"


def table(first, second):
    return HEAD + "".join(f"seat {seat} {name}.log /{name}  A {one}                 B {other}"
                          for seat, (name, one, other) in enumerate(zip("ab", first, second)))


SAME = table(BY_BFQ, BY_BFQ) + "all 20 dispatches are the same\n"
OTHERWISE = (f"{table(BY_BFQ, BY_TURNS)}dispatch 5 is the first that is another one:\n  A: seat 1, fetch 0+64\n    why: {WHY}\n"
             f"  B: seat 0, fetch 512+64\n    why: by a rule of its own; by BFQ it would be: {WHY}\n")
# Under `none` the seats take turns from the first dispatch on: the second one is of seat 1.
OF_NONE = "dispatch 2 is the first that is another one:\n"
BY_NONE = "    why: by turns: after seat 0 the next with a request is seat 1; its earliest is fetch 0+64\n"


def compare(name, words, stdout="", stderr="", status=DONE, files=None):
    return Run(f"compare: {name}", ["compare", *words], FILES if files is None else files, stdout=stdout, stderr=stderr, status=status)


def runs(program):
    """The runs whose whole output is known."""
    other = variation("deficit")
    yield compare("the host and itself", [*LOGS, "--a", program, "--b", program, *OPTIONS], SAME)
    yield compare("the host and the plain program", [*LOGS, "--a", program, "--b", variation("model"), *OPTIONS], SAME)
    yield compare("another rule", [*LOGS, "--a", program, "--b", other, *OPTIONS], OTHERWISE, status=NOT_WANTED)
    yield compare("options of each, of one program", [*LOGS, "--a=--first-budget 256 --tags 1", "--b=--tags=1 --first-budget=256"], SAME)
    yield compare("one log that is past the end", ["log", "--a=--sectors=8", "--b=--sectors=8"],
                  "                  sectors  half took  99% took  behind\nseat 0 log /b  A        0          -         -   0.000\n"
                  "               B        0          -         -   0.000\nall 0 dispatches are the same\n",
                  status=NOT_WANTED, files={"log": head(2) + "/b read 4096 512\n"})
    yield compare("standard input", ["-", "--a", program, "--b", program], stderr="-: a log is a file here, as it is read twice\n",
                  status=BAD_INPUT)
    yield compare("no program and no option", ["a.log", "--a=", "--b", program], status=BAD_INPUT,
                  stderr="--a and --b are each a program, options of sim, or both\n")
    yield compare("a quote too few", ["a.log", "--a", "'", "--b", program], stderr="': No closing quotation\n", status=BAD_INPUT)
    yield compare("a bad log", ["log", "--a", program, "--b", program], stderr="log: bad line 2: LENGTH is 0\n", status=BAD_INPUT,
                  files={"log": head(2) + "/b read 0 0\n"})
    yield compare("no such program", ["a.log", "--a", "./none", "--b", program], status=NO_PROGRAM,
                  stderr="FOLDER/none does not start: No such file or directory\n")
    yield compare("a program that takes no more", ["a.log", "b.log", "--a=--history=1", "--b", program], status=NOT_WANTED,
                  stderr="the host takes no more: 'attach 1 0 4' is answered 'refused 33'\n")


def ran(folder, *words):
    """What a run of the tool prints, and its status."""
    with started([os.path.join(TOOLS, "compare"), *words], folder) as tool:
        stdout, stderr = (text.decode() for text in tool.communicate(timeout=SECONDS))
    return stdout, stderr, tool.returncode


def none_and_bfq(program):
    """Two schedulers: the second dispatch is another one."""
    with tempfile.TemporaryDirectory() as folder:
        for name, text in FILES.items():
            written(folder, name, text)
        stdout, stderr, status = ran(folder, "--program", program, *LOGS, "--a=--scheduler bfq", "--b=--scheduler none", *OPTIONS)
        if OF_NONE not in stdout or not stdout.endswith(f"  B: seat 1, fetch 0+64\n{BY_NONE}") or stderr or status != NOT_WANTED:
            yield f"it ends with {status}, {stderr!r} and {stdout!r}"


# Pictures.

SVG = "{http://www.w3.org/2000/svg}"
# All that both send, and each of the two. What a client was sent is told by the turns that it had, each from so many sectors to so many.
WHOLE, OF_EACH = 1280, 640
TURNS = {"A": {0: [(0, 256), (512, 896)], 1: [(256, 512), (896, 1280)]}, "B": {0: [(0, 640)], 1: [(640, 1280)]}}
NUMBERS = {"A": {0: (576, 896, -199.111), 1: (960, 1280, -28.444)}, "B": {0: (320, 640, 0), 1: (960, 1280, -71.111)}}
# A file whose name has marks of XML, a byte that is no character, and one that XML has not.
ODD_FILE, ODD_NAME = b"/<&\"\xff\x01", "seat 0 log /<&\"\\udcff\\x01"
# What is read of a picture: its elements by their names, and what scales the numbers of its frame.
Picture = collections.namedtuple("Picture", "root by_id frame")


def picture_of(folder):
    """A picture that was written."""
    root = ElementTree.parse(os.path.join(folder, "out.svg")).getroot()
    frame = next(it for it in root.iter(f"{SVG}rect") if it.get("fill") == "none")
    return Picture(root, {it.get("id"): it for it in root.iter() if it.get("id")}, frame)


def sectors_of(picture, x, y=None):
    """A place of the picture in sectors of all, and those of a client if there is a height."""
    left, top, width, height = (float(picture.frame.get(name)) for name in ("x", "y", "width", "height"))
    across = round((float(x) - left) / width * WHOLE, 1)
    return across if y is None else (across, round((1 - (float(y) - top) / height) * OF_EACH, 1))


def corners(turns):
    """The corners of a client's line: requests of 64 sectors in its turns, and level lines between them."""
    sent, found = 0, [(0, 0)]
    for first, last in turns:
        found += [(at, sent + at - first) for at in range(first, last + 64, 64)]
        sent += last - first
    found.append((WHOLE, OF_EACH))
    return [(float(x), float(y)) for (x, y), _ in itertools.groupby(found)]


def lines_drawn(picture):
    """The line of each client in each run."""
    for name, seat in itertools.product("AB", (0, 1)):
        line = picture.by_id[f"line-{name}-{seat}"]
        found = [sectors_of(picture, *corner.split(",")) for corner in line.get("points").split(" ")]
        yield from differences(f"the line of seat {seat} by {name}", found, corners(TURNS[name][seat]))
        yield from differences(f"whether it has dashes by {name}", line.get("stroke-dasharray") is not None, name == "B")
        yield from differences("its name", line[0].text, f"{name}: seat {seat} {'ab'[seat]}.log /{'ab'[seat]}")
    colors = {picture.by_id[f"line-{name}-0"].get("stroke") for name in "AB"}, {picture.by_id[f"line-{name}-1"].get("stroke") for name in "AB"}
    yield from differences("how many colours a client has, and both", [len(colors[0]), len(colors[1]), len(colors[0] | colors[1])], [1, 1, 2])


def bars_drawn(picture, table):
    """The bar of each number of the table, and the number beside it."""
    rows = [re.split(" +", row.strip())[-3:] for row in table.splitlines()[1:5]]
    for place in range(3):
        scales = set()
        for (seat, name), row in zip(itertools.product((0, 1), "AB"), rows):
            width, number = float(picture.by_id[f"bar-{name}-{seat}-{place}"].get("width")), NUMBERS[name][seat][place]
            scales |= {round(width / abs(number), 2)} if number else set()
            yield from differences("the number of a bar", (picture.by_id[f"told-{name}-{seat}-{place}"].text, width > 0),
                                   (row[place], number != 0))
        yield from differences(f"how the bars of column {place} are scaled, by how many numbers", len(scales), 1)


def pictures(program):
    """What is drawn of two programs that part, and of two that do not."""
    with tempfile.TemporaryDirectory() as folder:
        for name, text in FILES.items():
            written(folder, name, text)
        words = [*LOGS, "--a", program, "--svg", "out.svg", "--b"]
        found = ran(folder, *words, variation("deficit"), *OPTIONS)
        yield "how it ends", differences("it", found, (OTHERWISE, "", NOT_WANTED))
        picture = picture_of(folder)
        yield "lines", [*lines_drawn(picture)]
        yield "bars", [*bars_drawn(picture, found[0])]
        parting = picture.by_id["parting"]
        texts = [it.text for it in picture.root.iter(f"{SVG}text")]
        yield "where they part", [
            *differences("its place", [sectors_of(picture, parting.get(end)) for end in ("x1", "x2")], [256.0, 256.0]),
            *differences("its reasons", f"{parting[0].text}\n", OTHERWISE.removeprefix(table(BY_BFQ, BY_TURNS))),
            *differences("its number", [text for text in texts if text.startswith("dispatch ")], ["dispatch 5"])]
        wanted = [f"B: {variation('deficit')} --tags 1 --first-budget 256"]
        # A long path is cut off.
        yield "its title", differences("it", [text for text in texts if text.startswith("B: ")], [wanted[0]] if len(wanted[0]) < 115 else [])
        found = ran(folder, *words, variation("model"), *OPTIONS)
        # 1,280 and 640 have steps of 200 and 100.
        numbers = [*range(0, 1280, 200), *range(0, 640, 100)]
        yield "its numbers", differences("they", [int(it.text) for it in picture_of(folder).root.iter(f"{SVG}text")
                                                  if it.text.isdigit() and not it.get("id")], numbers)
        yield "two that do the same", differences("it", (found, "parting" in picture_of(folder).by_id), ((SAME, "", DONE), False))


def odd_pictures(program):
    """A file of an odd name, of which nothing was sent; places that cannot be written; and a run that ends early."""
    with tempfile.TemporaryDirectory() as folder:
        written(folder, "log", head(2).encode() + ODD_FILE + b" read 4096 512\n")
        words = ["log", "--a", program, "--b", program]
        status = ran(folder, *words, "--svg", "out.svg", "--", "--sectors=8")[2]
        picture = picture_of(folder)
        yield "an odd name", differences("it", (status, picture.by_id["name-0"][0].text), (NOT_WANTED, ODD_NAME))
        yield "nothing is sent", differences("it", [picture.by_id[f"told-A-0-{place}"].text for place in range(3)], ["-", "-", "0.000"])
        yield "a folder that is not there", differences("it", ran(folder, *words, "--svg", "none/out.svg"),
                                                        ("", "none/out.svg: No such file or directory\n", BAD_INPUT))
        written(folder, "out.svg", "what was there before")
        # The second client finds the history full.
        status = ran(folder, "log", *words, "--svg", "out.svg", "--", "--history=1")[2]
        with open(os.path.join(folder, "out.svg"), encoding="ascii") as file:
            found = status, file.read(), sorted(os.listdir(folder))
        yield "a run that ends early", differences("it", found, (NOT_WANTED, "what was there before", ["log", "out.svg"]))


def compare_runs(program):
    """The name of each run, and what was wrong with it."""
    for run in runs(program):
        yield run.name, faults_of(run, program)
    yield "compare: two schedulers", [*none_and_bfq(program)]
    for function in (pictures, odd_pictures):
        try:
            for name, faults in function(program):
                yield f"compare: a picture: {name}", faults
        except (OSError, ValueError, LookupError, ElementTree.ParseError, subprocess.SubprocessError) as fault:
            yield f"compare: {function.__name__.replace('_', ' ')}", [repr(fault)]
