"""Runs of tools/plot on what each client was given: its CSV, what is drawn, and how it ends.

The numbers are worked out by hand from docs/MODEL.md and from what the tool says of itself.
"""

import os
import re
import shutil
import subprocess

from bad_input import Skipped
from classes import LEVELS
from step_export_plot import NO_SAMPLE, QUIET, compared, contents, faults_in, plot, ran
from tools import BAD_INPUT, NO_PROGRAM, NOT_WANTED, SECONDS, TOOLS, TOP, differences, faults_of, written

HEAD = "future,serial,service,seat,session,sent,entitled,lag,served\n"
# Two of the weights 40 and 80. The second has the less finish, and is sent 16 sectors, of which the first was entitled to a third. That is
# undone. In the other future 8 sectors more join the second's second request, so it is sent 24; then the first is alone, with 8.
TWO = ("attach 0 0 4\nattach 1 0 0\nread 0 1 0 8\nread 0 1 100 8\nread 1 2 200 16\nread 1 2 300 16\ndispatch\nhold\nundo 1\nrelease\n"
       "read 1 2 316 8\ndispatch\ndispatch\ndispatch\n")
FIRST = ["7,16,0,1,0,5.333,-5.333,0", "7,16,1,2,16,10.667,5.333,1"]
SECOND = ["9,16,0,1,0,5.333,-5.333,0", "9,16,1,2,16,10.667,5.333,1", "10,40,0,1,0,13.333,-13.333,0", "10,40,1,2,40,26.667,13.333,1",
          "11,48,0,1,8,21.333,-13.333,1", "11,48,1,2,40,26.667,13.333,0"]
# Of 8 sectors group 1 is entitled to 100/140, and in it the one of real time to all of that. Of the next 8 it is entitled to all.
OF_LEVELS = ["10,8,0,2,0,5.714,-5.714,0", "10,8,1,3,0,0.000,0.000,0", "10,8,2,4,0,0.000,0.000,0", "10,8,3,5,8,2.286,5.714,1",
             "11,16,0,2,8,13.714,-5.714,1", "11,16,1,3,0,0.000,0.000,0", "11,16,2,4,0,0.000,0.000,0", "11,16,3,5,8,2.286,5.714,0"]
# Under `none` two share alike. What is sent once more, as the device gave it back, nobody else waits for.
TURNS = "attach 0 0 4\nattach 3 0 0\nread 0 1 0 1\nread 3 2 9 1\ndispatch\nrequeue 0 5\ndispatch\nfinish 0 7 short\n"
OF_TURNS = ["5,1,0,1,1,0.500,0.500,1", "5,1,3,2,0,0.500,-0.500,0", "7,2,0,1,2,1.500,0.500,1", "7,2,3,2,0,0.500,-0.500,0",
            "8,2,0,1,2,1.500,0.500,0", "8,2,3,2,0,0.500,-0.500,0"]


def rows(*futures):
    """The text of a CSV of the rows of some futures."""
    return HEAD + "".join(f"{number},{row}\n" for number, of_one in enumerate(futures, 1) for row in of_one)


NOTHING = "no dispatch and no finish is accepted\n"
RUNS = [
    plot("service", TWO, rows(SECOND), words=["script", "--service"]),
    plot("lag", TWO, rows(SECOND), words=["script", "--lag"]),
    plot("futures", TWO, rows(FIRST, SECOND), words=["script", "--lag", "--futures"]),
    plot("a part", TWO, rows(SECOND[2:4]), words=["script", "--service", "--from", "10", "--to=10"]),
    plot("the part of one future", TWO, rows(FIRST), words=["script", "--service", "--futures", "--to=8"]),
    plot("groups and classes", "".join(f"{line}\n" for line, _ in LEVELS), rows(OF_LEVELS), words=["script", "--service"]),
    plot("turns", TURNS, rows(OF_TURNS), words=["script", "--service", "--", "--scheduler=none"]),
    plot("no part", TWO, HEAD, "no dispatch and no finish is accepted between these steps\n", NOT_WANTED,
         ["script", "--service", "--from", "12"]),
    plot("no service", "attach 0 0 4\n", HEAD, NOTHING, NOT_WANTED, ["script", "--service"]),
    plot("two pictures at a time", TWO, "", "--service and --lag do not go together\n", BAD_INPUT, ["script", "--service", "--lag"]),
    plot("a bad line after a dispatch", "dispatch\nDispatch\n", "", "script: bad line 2: a capital letter: 'Dispatch'\n", BAD_INPUT,
         ["script", "--lag"]),
    # What came up to a bad line is told all the same.
    plot("a bad line at last", TWO + "Dispatch\n", rows(SECOND), "script: bad line 15: a capital letter: 'Dispatch'\n", BAD_INPUT,
         ["script", "--lag"]),
    plot("a group that never stands, with futures", TWO, "", NO_SAMPLE.format(3), NOT_WANTED, ["script", "--group=3", "--futures"]),
]

# In the place of matplotlib: a picture is a row for each thing that is drawn.
STAND_IN = """\
class Figure:
    def __init__(self, **_):
        self.rows = []
    def add_subplot(self, *place):
        self.rows.append(f"panel {place}")
        return self
    def plot(self, service, values, label="", linestyle="-", color=None, **_):
        self.rows.append(" ".join([color, linestyle, label, "at", *(f"{x}:{y:.2f}" for x, y in zip(service, values))]))
        return [self]
    def axvspan(self, first, last, ymax, color, **_):
        self.rows.append(f"{color} band {first} to {last}")
    def axvline(self, at, label, **_):
        self.rows.append(f"{label}: {at}")
    def axhline(self, at, **_):
        self.rows.append(f"line at {at}")
    def savefig(self, file, format, **_):
        file.write("".join(row + chr(10) for row in [format, *self.rows]).encode())
    def set_title(self, title):
        self.rows.append(title)
    def nothing(self, *_, **__):
        pass
    set_xlabel = set_ylabel = legend = grid = nothing
"""
# The end of each line is the share that its legend tells: 16 of 16 and 0; then 8 and 40 of 48.
DRAWN_SERVICE = """\
png
panel (2, 1, 1)
C0 - seat 0, weight 40: 0 sectors, 0.0% at 0:0.00 16:0.00
C0 --  at 0:0.00 16:5.33
C1 - seat 1, weight 80: 16 sectors, 100.0% at 0:0.00 16:16.00
C1 --  at 0:0.00 16:10.67
C1 band 0 to 16
script, future 1 of 2
panel (2, 1, 2)
C0 - seat 0, weight 40: 8 sectors, 16.7% at 0:0.00 16:0.00 40:0.00 48:8.00
C0 --  at 0:0.00 16:5.33 40:13.33 48:21.33
C1 - seat 1, weight 80: 40 sectors, 83.3% at 0:0.00 16:16.00 40:40.00 48:40.00
C1 --  at 0:0.00 16:10.67 40:26.67 48:26.67
C1 band 0 to 16
C1 band 16 to 40
C0 band 40 to 48
another future from here on: 0
script, future 2 of 2
"""
# A client in a group goes by the weight of that, too, which becomes 7 when it is stamped anew.
GROUPED = "group 0 100\nattach 0 1 4\nread 0 2 0 8\ndispatch\nweight 1 7\nread 0 2 100 8\ndispatch\n"
DRAWN_GROUPED = """\
svg
panel (1, 1, 1)
C0 - seat 0, weight 40; in group 1, weight 100, 7: 16 sectors, 100.0% at 0:0.00 8:8.00 16:16.00
C0 --  at 0:0.00 8:8.00 16:16.00
C0 band 0 to 8
C0 band 8 to 16
script
"""
DRAWN_LAG = """\
svg
panel (1, 1, 1)
line at 0
C0 - seat 0, weight 40 at 0:0.00 16:-5.33 40:-13.33 48:-13.33
C1 - seat 1, weight 80 at 0:0.00 16:5.33 40:13.33 48:13.33
C1 band 0 to 16
C1 band 16 to 40
C0 band 40 to 48
script
"""


def standing_in(folder):
    """A folder with a script and a stand-in for matplotlib, and the environment in which it is found."""
    library = os.path.join(folder, "matplotlib")
    os.mkdir(library)
    written(library, "__init__.py", "rcParams = {}\n")
    written(library, "figure.py", STAND_IN)
    written(folder, "script", TWO)
    return {"PYTHONPATH": folder}


def what_is_drawn(program, folder):
    """What each client was given, with a band for whose requests were sent, and a panel for each future."""
    environment = standing_in(folder)
    written(folder, "grouped", GROUPED)
    for words, wanted in ((["script", "--service", "--futures", "--png", "out"], DRAWN_SERVICE),
                          (["script", "--lag", "--svg", "out"], DRAWN_LAG),
                          (["grouped", "--service", "--svg", "out"], DRAWN_GROUPED.replace("script\n", "grouped\n"))):
        yield from compared(ran(["plot", *words], folder, program, environment=environment))
        yield from differences(f"the picture of {words[:2]}", (contents(folder, "out") or b"").decode(), wanted)


def too_many_futures(program, folder):
    """More than twelve futures have no room in a picture. Their numbers have in a CSV."""
    environment = standing_in(folder)
    turns = "".join(f"dispatch\nhold\nundo 1\nrelease\nread 0 1 {500 + 2 * at} 1\n" for at in range(13))
    written(folder, "script", f"attach 0 0 4\nread 0 1 0 8\n{turns}dispatch\n")
    told = "there are 14 futures, and a picture has at most 12; --from and --to choose some\n"
    yield from compared(ran(["plot", "script", "--lag", "--futures", "--svg", "svg", "--csv", "csv"], folder, program,
                            environment=environment), "", told, BAD_INPUT)
    yield from differences("the picture", contents(folder, "svg"), None)
    yield from differences("the rows of the CSV", len((contents(folder, "csv") or b"").splitlines()), 15)


def no_library(program, folder):
    """With no matplotlib it is told which Python lacks it and what has it, and the CSV is written."""
    written(folder, "script", TWO)
    written(folder, "matplotlib.py", "raise ImportError('nothing of the kind')\n")
    python = subprocess.run(["python3", "-c", "import sys; print(sys.executable)"], capture_output=True, text=True,
                            check=True).stdout.strip()
    told = f"--png needs matplotlib, which {python} does not have (python3-matplotlib has it): nothing of the kind\n"
    yield from compared(ran(["plot", "script", "--lag", "--png", "png", "--csv", "csv"], folder, program,
                            environment={"PYTHONPATH": folder}), "", told, NO_PROGRAM)
    yield from differences("the CSV", (contents(folder, "csv") or b"").decode(), rows(SECOND))
    yield from differences("the picture", contents(folder, "png"), None)


def python_that_draws():
    """A Python that has matplotlib."""
    for name in ("python3", "/usr/bin/python3"):
        if shutil.which(name) and not subprocess.run([name, "-c", "import matplotlib"], capture_output=True, check=False).returncode:
            return name
    raise Skipped("pictures: no Python with matplotlib here")


def drawn(program, folder):
    """Each picture is a file of its kind, which names clients and shares."""
    python = python_that_draws()
    written(folder, "script", TWO)
    for words in (["--service"], ["--lag", "--futures"], ["--futures"], []):
        tool = os.path.join(TOOLS, "plot")
        ended = subprocess.run([python, tool, "--program", program, "script", *words, "--svg", "svg", "--png", "png"], cwd=folder,
                               capture_output=True, timeout=SECONDS, check=False,
                               env={**os.environ, **QUIET, "MPLCONFIGDIR": folder})
        yield from compared((ended.stdout.decode(), ended.stderr.decode(), ended.returncode))
        text = (contents(folder, "svg") or b"").decode()
        for wanted in ["<svg ", ">seat 0, weight 40", *([">seat 1, weight 80: 40 sectors, 83.3%<"] if words == ["--service"] else []),
                       *([">script, future 2 of 2<", ">script, future 1 of 2<"] if words == ["--lag", "--futures"] else [])]:
            if wanted not in text:
                yield f"{words}: the picture has no {wanted!r}"
        if not (contents(folder, "png") or b"").startswith(b"\x89PNG\r\n"):
            yield f"{words}: there is no PNG"


# The pictures of docs/, each with the command that draws it.
THREE = ["examples/three-weights.script", "--", "--tags", "1", "--first-budget", "256", "--max-budget", "256"]
OF_DOCS = {
    "three-weights": THREE,
    "three-shares": [THREE[0], "--service", *THREE[1:]],
    "three-lags": [THREE[0], "--lag", *THREE[1:]],
    "two-futures": ["examples/timeout.script", "--lag", "--futures", "--", "--timeout", "1"],
}
# A text of a picture with a letter in it. How far apart the numbers of an axis are is for the library to say.
TEXT = re.compile(r">([^<>]*[A-Za-z][^<>]*)</text>")


def pictures_of_docs(program, folder):
    """A picture of docs/ has the texts that its command draws now, and the guide shows this command with a CSV."""
    python = python_that_draws()
    with open(os.path.join(TOP, "docs", "GUIDE.md"), encoding="utf-8") as file:
        guide = file.read()
    for name, words in OF_DOCS.items():
        path = os.path.join(folder, name)
        at = words.index("--")
        command = [python, os.path.join(TOOLS, "plot"), "--program", program, *words[:at], "--svg", path, *words[at:]]
        ended = subprocess.run(command, cwd=TOP, capture_output=True, timeout=SECONDS, check=False,
                               env={**os.environ, **QUIET, "MPLCONFIGDIR": folder})
        yield from compared((ended.stdout.decode(), ended.stderr.decode(), ended.returncode))
        with open(os.path.join(TOP, "docs", f"{name}.svg"), encoding="utf-8") as file:
            of_docs = file.read()
        drawn_now = (contents(folder, name) or b"").decode()
        yield from differences(f"the texts of {name}", TEXT.findall(of_docs), TEXT.findall(drawn_now))
        if f"]({name}.svg)" not in guide or not re.search(
                re.escape(f"$ tools/plot {' '.join(words[:at])} --csv ") + r"\S+" + re.escape(f" {' '.join(words[at:])}\n"), guide):
            yield f"the guide does not show {name} with its command"


def picture_runs(program):
    """The name of each run, and what was wrong with it. What cannot be had here is skipped, and a line is printed for it."""
    for run in RUNS:
        yield run.name, faults_of(run, program)
    for function in (what_is_drawn, too_many_futures, no_library, drawn, pictures_of_docs):
        name = f"pictures: {function.__name__.replace('_', ' ')}"
        try:
            yield name, faults_in(function, program)
        except Skipped as lacking:
            print(f"skipped: {name}: {lacking}")
