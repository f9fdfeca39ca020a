"""Runs of tools/futures: how many states and contents there are, which fail, the shortest way to each, and bad input.

What is wanted was counted apart from the tool: by arithmetic or by hand, as told beside it, and by tests/futures_by_copies.py.
"""

import csv
import os
import resource
import signal
import subprocess
import tempfile
import time
from collections import namedtuple

from futures_by_copies import Bounds, counted
from futures_flight import CASES as FLIGHTS, flight_faults
from futures_keys import SCRIPTS, key_faults
from futures_records import record_runs
from futures_rows import NONE, ROWS, apart
from own_rule import variation
from state_pairs import ONE_SUM
from tools import BAD_INPUT, SECONDS, TOOLS, differences, faults_of, started, written
from tools_at_terminal import said_by

from host import Stop  # tools.py has made the path to it

TOP = os.path.dirname(os.path.dirname(os.path.abspath(__file__)))
TOY = os.path.join(TOP, "examples", "futures")
RECOVER = os.path.join(TOY, "recover.py")
# Of the cases that take long every so many are tried, and all of them with --all.
EVERY = 9

MERGE = "seat 0\nwrite 0 1 1\nwrite 1 1 2\nwrite 2 1 3\nwrite 10 1 4\n"
CLASH = "seat 0\nwrite 0 2 1\nwrite 1 2 2\nsync\nwrite 0 1 3\nseat 1\nwrite 1 1 4\nwrite 8 1 5\n"
READS = "seat 0\nwrite 0 1 1\nread 0 1\nreap\nwrite 1 1 2\nseat 3\nread 5 2\nread 7 1\nsync\nwrite 5 1 3\n"
FEW_READS = "seat 0\nwrite 0 1 1\nread 0 1\nreap\nwrite 1 1 2\nseat 3\nread 5 2\nsync\nwrite 5 1 3\n"
# One write twice, and the byte that stood there before.
TWICE = "seat 0\nwrite 0 1 5\nwrite 0 1 5\nwrite 0 1 0\nreap\nwrite 1 1 0\n"
# A write that is discarded in part, discards that merge, and a write over one.
DISCARDS = "seat 0\nwrite 0 2 1\ndiscard 1 2\ndiscard 3 1\nreap\nwrite 2 1 2\nseat 1\ndiscard 0 1\nread 2 1\n"
BFQ = ("--scheduler", "bfq")


def readers(count):
    """Two clients with so many reads each that do not touch."""
    return "".join(f"seat {seat}\n" + "".join(f"read {10_000 * seat + 200 * at} 64\n" for at in range(count)) for seat in (0, 1))


# Clients whose whole search has so many states, edges and contents. They were counted by a program of all rules in another language, by
# undo, and by another one, by copies. If nothing is merged there is arithmetic, too: with s writes called, i of them sent and any of these
# stored, n writes apart have the sum of 2^i over all s up to n and all i up to s.
Known = namedtuple("Known", "name text options words states edges contents")
KNOWN = [
    *(Known(f"{count} writes apart", apart(count), (*NONE, "--tags", "8"), [], sum(2**i for s in range(count + 1) for i in range(s + 1)),
            edges, 2**count) for count, edges in ((4, 124), (5, 315), (6, 762), (8, 4088))),
    # What is discarded was zeros before, so there is one content.
    Known("4 discards apart", apart(4, "discard {} 1"), (*NONE, "--tags", "8"), [], sum(2**i for s in range(5) for i in range(s + 1)), 124, 1),
    Known("4 writes apart by bfq", apart(4), BFQ, [], 219, 493, 16),
    Known("merges by none", MERGE, NONE, [], 80, 174, 16),
    Known("merges by bfq", MERGE, BFQ, [], 139, 281, 16),
    Known("a clash by none", CLASH, NONE, [], 547, 1250, 24),
    Known("one request given back", apart(4), NONE, ["--requeues", "1"], 181, 485, 16),
    Known("two requests given back", apart(4), NONE, ["--requeues", "2"], 383, 1078, 16),
    Known("two ticks", MERGE, BFQ, ["--ticks", "2"], 243, 513, 16),
]
KNOWN_LONG = [
    Known("a clash by bfq", CLASH, BFQ, [], 3143, 6743, 24),
    Known("reads by none", READS, NONE, [], 1096, 2816, 8),
    Known("reads by bfq", READS, BFQ, [], 10_251, 23_986, 8),
    Known("reads that fail", READS, NONE, ["--faults"], 3326, 11_408, 8),
]

# Cases in which the whole search must have the states of the count by copies, and the reduced one its contents, each with as few steps.
Case = namedtuple("Case", "name text options words bounds")
SETTINGS = [
    ("", (), [], Bounds(0, 0, False)),
    (", one tag", ("--tags", "1"), [], Bounds(0, 0, False)),
    (", little room", ("--tags", "2", "--nr-requests", "2"), [], Bounds(0, 0, False)),
    (", one given back", ("--tags", "2"), ["--requeues", "1"], Bounds(1, 0, False)),
    (", a tick and faults", ("--tags", "2", "--timeout", "1"), ["--ticks", "1", "--faults"], Bounds(0, 1, True)),
]
CASES = [Case(f"{name}, {options[1]}{setting}", text, (*options, *more), words, bounds)
         for setting, more, words, bounds in SETTINGS
         for name, text in (("4 writes", apart(4)), ("merges", MERGE), ("a clash", CLASH), ("reads", FEW_READS),
                            ("discards", DISCARDS))
         for options in (BFQ, NONE)]

# Scripts before the search, each with one that does the same without what was undone.
Opening = namedtuple("Opening", "name script plain text")
OPENINGS = [
    Opening("what is queued, in flight and stored",
            "attach 0 0 4\nwrite 0 1 5 1 9\ndispatch\nfinish 0 3 stored\nreap 0 1\nwrite 0 1 6 1 8\ndispatch\nwrite 0 1 30 1 7\n",
            "attach 0 0 4\nwrite 0 1 5 1 9\ndispatch\nfinish 0 3 stored\nreap 0 1\nwrite 0 1 6 1 8\ndispatch\nwrite 0 1 30 1 7\n",
            "seat 0\nwrite 5 1 1\nseat 2\nwrite 40 1 2\n"),
    Opening("what was undone",
            "# silent\n\nattach 2 0 4\nwrite 2 1 0 1 5\nhold\nundo 1\nrelease\nwrite 2 1 8 1 6\nsector 0\ndispatch\n",
            "attach 2 0 4\nwrite 2 1 8 1 6\ndispatch\n", "seat 2\nwrite 8 1 1\nwrite 9 1 2\n"),
    Opening("groups and classes", "group 0 300\nattach 1 1 4 rt\nattach 0 0 4 idle\n", "group 0 300\nattach 1 1 4 rt\nattach 0 0 4 idle\n",
            "seat 0\nwrite 0 1 1\nwrite 10 1 2\nseat 1\nwrite 20 1 3\n"),
    Opening("somebody who has left", "attach 0 0 4\nattach 1 0 4\nwrite 0 1 0 1 1\ndispatch\nleave 0\n",
            "attach 0 0 4\nattach 1 0 4\nwrite 0 1 0 1 1\ndispatch\nleave 0\n", "seat 1\nwrite 0 1 2\nwrite 8 1 3\n"),
    # Seat 0 gets free when both of its requests are finished.
    Opening("somebody who has left with two requests", "attach 0 0 4\nwrite 0 1 5 1 9\nwrite 0 1 50 1 8\ndispatch\nleave 0\n",
            "attach 0 0 4\nwrite 0 1 5 1 9\nwrite 0 1 50 1 8\ndispatch\nleave 0\n", "seat 1\nwrite 5 1 1\nreap\nseat 2\nwrite 40 1 2\n"),
    Opening("a frozen host", "attach 0 0 4\nwrite 0 1 5 1 9\nfreeze\n", "attach 0 0 4\nwrite 0 1 5 1 9\nfreeze\n", "seat 0\nwrite 0 1 1\n"),
]


def searched(program, folder, files, words):
    """What a run of the tool prints, its status, and the contents that it has written, each with its steps."""
    for name, text in files.items():
        written(folder, name, text)
    into = tempfile.mkdtemp(dir=folder)
    with started([os.path.join(TOOLS, "futures"), "--program", program, "clients", "--into", into, *words], folder) as ran:
        stdout, stderr = (text.decode() for text in ran.communicate(timeout=4 * SECONDS))
    with open(os.path.join(into, "contents.csv"), encoding="ascii") as file:
        rows = list(csv.DictReader(file))
    contents = {}
    for row in rows:
        content = set()
        for run in row["sectors"].split():
            place, byte = run.split("=")
            start, count = map(int, place.split("+"))
            content |= {(sector, int(byte, 16)) for sector in range(start, start + count)}
        contents[frozenset(content)] = int(row["steps"])
    return stdout, stderr, ran.returncode, contents


def line_of(states, edges, contents, steps):
    return f"states {states} edges {edges} contents {contents} steps {steps}: complete\n"


def known_faults(program, it):
    """A whole search has the known counts."""
    with tempfile.TemporaryDirectory() as folder:
        stdout, stderr, status, _ = searched(program, folder, {"clients": it.text}, ["--all-states", *it.words, "--", *it.options])
    begin = f"states {it.states} edges {it.edges} contents {it.contents} steps "
    return [] if stdout.startswith(begin) and stdout.endswith(": complete\n") and (stderr, status) == ("", 0) else [
        f"{stdout!r} and {stderr!r}, with status {status}, and not {begin!r}"]


def case_faults(program, it, script=None, opening=None):
    """A whole search is as the count by copies has it, and the reduced one has its contents with as few steps."""
    wanted = counted(it.text, it.options, opening, it.bounds)
    files = {"clients": it.text, **({"script": script} if script else {})}
    words = [*it.words, *(["--script", "script"] if script else []), "--", *it.options]
    with tempfile.TemporaryDirectory() as folder:
        stdout, stderr, _, whole = searched(program, folder, files, ["--all-states", *words])
        said, _, _, reduced = searched(program, folder, files, words)
    faults = differences("the whole search", stdout + stderr, line_of(wanted.states, wanted.edges, len(wanted.contents), wanted.steps))
    faults += [] if said.endswith(": complete\n") else [said]
    for name, found in (("whole", whole), ("reduced", reduced)):
        faults += [f"{name}: {sorted(content)} in {found.get(content)} steps and not {wanted.contents.get(content)}"
                   for content in {*found} | {*wanted.contents} if found.get(content) != wanted.contents.get(content)][:3]
    return faults


def opening_faults(program, it):
    """A search from the end of a script. Its clients that the script has not brought come with `attach`, and steps count behind it."""
    seats = [int(row.split()[1]) for row in it.text.splitlines() if row.startswith("seat")]
    come = [int(row.split()[1]) for row in it.plain.splitlines() if row.startswith("attach")]
    plain = it.plain + "".join(f"attach {seat} 0 4\n" for seat in seats if seat not in come)
    return case_faults(program, Case(it.name, it.text, (), [], Bounds(0, 0, False)), it.script, plain)


def toy_faults(program):
    """The toy writer. Each transaction has 3 + 1 + 3 + 1 new contents, and there is the first: 17. If the second one does not wait for its
    journal any of both sectors and the record may be there, 7 contents in place of 3 + 1: 20. Of these 3 have the record and no whole
    journal. The shortest has 20 steps of the first transaction (6 + 4 + 6 + 4, as both sectors merge), 3 writes, 2 dispatches and the
    completion of the record."""
    with tempfile.TemporaryDirectory() as folder:
        written(folder, "disk.img", bytes(64 * 512))
        for name, contents, wanted in (("writer", 17, []), ("forgets", 20, [26, 28, 28])):
            words = [os.path.join(TOOLS, "futures"), "--program", program, os.path.join(TOY, f"{name}.clients"), "--image", "disk.img",
                     "--check", RECOVER, "--into", name]
            with started(words, folder) as ran:
                stdout = ran.communicate(timeout=SECONDS)[0].decode()
            told = [int(row.split()[2]) for row in stdout.splitlines() if row.startswith("failure ")]
            line = f"\n{contents} contents checked: {len(wanted)} fail\n"
            if told != wanted or line not in f"\n{stdout}" or ran.returncode != bool(wanted):
                yield f"{name}: {stdout!r}, with status {ran.returncode}"
            for number in range(1, len(wanted) + 1):
                yield from played_faults(program, os.path.join(folder, name, f"fail-{number:04}"), stdout)


def played_faults(program, path, stdout):
    """A failure is as it was shown and whole, and the command fails again as it did."""
    with open(f"{path}.script", encoding="ascii") as file:
        rows = file.read().splitlines()
    if "".join(f"    {row}\n" for row in rows[1:]) not in stdout:
        yield f"{path}.script has not what was shown"
    yield from whole_faults(program, path, rows)
    with open(f"{path}.txt", encoding="ascii") as said:
        ran = subprocess.run([RECOVER, f"{path}.img"], capture_output=True, text=True, timeout=SECONDS, check=False)
        yield from differences("the check again", (ran.stdout, ran.returncode), (said.read(), 1))


def whole_faults(program, path, rows):
    """tools/expect plays a script, and tools/export writes the image beside it."""
    options = rows[0].partition(" -- ")[2].split()
    ran = subprocess.run([os.path.join(TOOLS, "expect"), "--program", program, f"{path}.script", "--", *options], capture_output=True,
                         text=True, timeout=SECONDS, check=False)
    yield from differences("tools/expect", ran.stdout + ran.stderr, f"{len(rows) - 1} lines asked, {len(rows) - 1} answers as wanted\n")
    disk, again = os.path.join(os.path.dirname(path), os.pardir, "disk.img"), f"{path}.again"
    lines = "".join(f"{row.partition(' -> ')[0]}\n" for row in rows)
    subprocess.run([os.path.join(TOOLS, "export"), "--program", program, disk, again], input=lines, capture_output=True, text=True,
                   timeout=SECONDS, check=True)
    with open(f"{path}.img", "rb") as image, open(again, "rb") as other:
        yield from [] if image.read() == other.read() else [f"{path}.img is not what tools/export writes"]


def one_sum_faults(program):
    """Four writes of one sector in turn of two kinds of bytes, which have one CRC-32. A search has as many states as if they had two."""
    clients = "seat 0\n" + 2 * "write 0 1 {0}\nwrite 0 1 {1}\n"
    wanted = counted(clients.format(0, 2), NONE)
    with tempfile.TemporaryDirectory() as folder:
        written(folder, "clients", clients.format("@0", "@1"))
        written(folder, "payload", b"".join(ONE_SUM))
        words = [os.path.join(TOOLS, "futures"), "--program", program, "clients", "--payload", "payload", "--all-states", "--", *NONE]
        with started(words, folder) as ran:
            stdout, stderr = (text.decode() for text in ran.communicate(timeout=SECONDS))
    return differences("bytes of one sum", stdout + stderr, line_of(wanted.states, wanted.edges, len(wanted.contents), wanted.steps))


def jobs_faults(program):
    """The checks of the toy writer as lines for a shell: of 20 contents the same 3 fail as where the tool runs the checks itself, with as few
    steps. Each content has its image and the shortest script to it."""
    with tempfile.TemporaryDirectory() as folder:
        written(folder, "disk.img", bytes(64 * 512))
        words = [os.path.join(TOOLS, "futures"), "--program", program, os.path.join(TOY, "forgets.clients"), "--image", "disk.img", "--check",
                 RECOVER, "--into", "all of them", "--jobs-file", "all of them/jobs"]
        with started(words, folder) as ran:
            stdout = ran.communicate(timeout=SECONDS)[0].decode()
        if not stdout.endswith(": complete\n20 checks written\n") or ran.returncode:
            yield f"{stdout!r}, with status {ran.returncode}"
        into = os.path.join(folder, "all of them")
        with open(os.path.join(into, "jobs"), encoding="utf-8") as file:
            jobs = file.read().splitlines()
        with open(os.path.join(into, "contents.csv"), encoding="ascii") as file:
            steps = [int(row["steps"]) for row in csv.DictReader(file)]
        names = [f"content-{number:06}" for number in range(20)]
        yield from differences("the files", sorted(os.listdir(into)),
                               sorted(["contents.csv", "jobs", *(f"{it}.{end}" for it in names for end in ("img", "script"))]))
        yield from differences("the jobs", jobs, [f"{RECOVER} '{os.path.join(into, it)}.img'" for it in names])
        failed = [at for at, job in enumerate(jobs) if subprocess.run(job, shell=True, capture_output=True, timeout=SECONDS, check=False).returncode]
        yield from differences("the steps of those that fail", [steps[at] for at in failed], [26, 28, 28])
        for at in failed:
            path = os.path.join(into, names[at])
            with open(f"{path}.script", encoding="ascii") as file:
                rows = file.read().splitlines()
            # Its first line tells how it is played, and the second is the attach.
            yield from differences("the steps of a script", len(rows) - 2, steps[at])
            yield from whole_faults(program, path, rows)


# Two clients with so many reads each, from the end of a script. None of them reaps, so with 64 tags no completion changes a lag.
Lag = namedtuple("Lag", "name count script weights options")
OF_BUDGET = ("--first-budget", "256", "--max-budget", "256", "--sectors", "65536")
GROUPS = "group 0 100\ngroup 0 300\nattach 0 1 4\nattach 1 2 4\n"
# Priorities 0 and 7 are the weights 80 and 10.
REAL_TIME = "attach 0 0 0 rt\nattach 1 0 7 rt\n"
LAGS = [Lag("two groups", 2, GROUPS, (100, 300), ("--tags", "64")), Lag("real time", 3, REAL_TIME, (80, 10), ("--tags", "1"))]
# A program of the rules in another language found these. The count by copies has those of 4 reads, too, without completions.
LAGS_LONG = {4: ["64.000", "192.000"], 5: ["80.000", "240.000"]}


def lag_faults(program, it, lags=None):
    """The worst lag of both clients is as the count by copies has it, or as given, and tools/expect plays the way to each."""
    if lags is None:
        options = it.options if it.options == ("--tags", "1") else ()
        lags = [f"{float(lag):.3f}" for lag in counted(readers(it.count), (*options, *OF_BUDGET), it.script, weights=it.weights).lags]
    with tempfile.TemporaryDirectory() as folder:
        written(folder, "clients", readers(it.count))
        written(folder, "script", it.script)
        words = [os.path.join(TOOLS, "futures"), "--program", program, "clients", "--script", "script", "--lag",
                 ",".join(map(str, it.weights)), "--into", "out", "--", *it.options, *OF_BUDGET]
        with started(words, folder) as ran:
            stdout = ran.communicate(timeout=10 * SECONDS)[0].decode()
        for seat, (weight, lag) in enumerate(zip(it.weights, lags)):
            if f"\nseat {seat}, weight {weight}: the worst lag is {lag} sectors\n" not in stdout:
                yield f"seat {seat} is not {lag} behind: {stdout!r}"
            played = subprocess.run([os.path.join(TOOLS, "expect"), "--program", program, os.path.join(folder, "out", f"lag-{seat}.script"),
                                     "--", *it.options, *OF_BUDGET], capture_output=True, text=True, timeout=SECONDS, check=False)
            if played.returncode or " answers as wanted\n" not in played.stdout:
                yield f"lag-{seat}.script: {played.stdout!r} and {played.stderr!r}"


def left_alone(program):
    """Bad input makes no folder; a file that cannot be written is told, and what was made for a time is gone, as it is after a signal."""
    with tempfile.TemporaryDirectory() as folder:
        written(folder, "clients", "seat 0\nwrite 0 1 1\n")
        written(folder, "bad", "seat 0\nreap\n")
        written(folder, "image", bytes(1 << 20))
        os.mkdir(os.path.join(folder, "tmp"))
        futures_of = [os.path.join(TOOLS, "futures"), "--program", program]
        environment = {**os.environ, "TMPDIR": os.path.join(folder, "tmp"), "PYTHONDONTWRITEBYTECODE": "1"}
        with started([*futures_of, "bad", "--into", "none"], folder) as ran:
            ran.communicate(timeout=SECONDS)
        yield from ["a bad file has made a folder"] if os.path.exists(os.path.join(folder, "none")) else []
        # What was found before a check is killed stays.
        words = ["--image", "image", "--jobs", "1", "--check", r"sh -c 'tr -d \\0 < $0 | grep -q . && kill -9 $$; exit 7'", "--into", "stays"]
        with started([*futures_of, "clients", *words], folder) as ran:
            ran.communicate(timeout=SECONDS)
        yield from differences("what stays", sorted(os.listdir(os.path.join(folder, "stays"))),
                               ["contents.csv", "fail-0001.img", "fail-0001.script", "fail-0001.txt"])
        # No file may be longer than this.
        ran = subprocess.run([*futures_of, "clients", "--image", "image", "--check", "true", "--into", "full"], cwd=folder, text=True,
                             capture_output=True, timeout=SECONDS, env=environment, check=False,
                             preexec_fn=lambda: resource.setrlimit(resource.RLIMIT_FSIZE, (1 << 16, 1 << 16)))
        if ran.returncode != BAD_INPUT or not ran.stderr.endswith("/content-000000.img: File too large\n"):
            yield f"a file too large: {ran.stdout!r} and {ran.stderr!r}, with status {ran.returncode}"
        yield from differences("the folder then", os.listdir(os.path.join(folder, "full")), ["contents.csv"])
        with subprocess.Popen([*futures_of, "clients", "--image", "image", "--check", "sh -c 'sleep 600; :'"], cwd=folder,
                              stdout=subprocess.DEVNULL, stderr=subprocess.PIPE, env=environment) as ran:
            until = time.monotonic() + SECONDS
            # Python tries its folder for a moment with a file of another name.
            while not any("content-000000.img" in files for _, _, files in os.walk(environment["TMPDIR"])) and time.monotonic() < until:
                time.sleep(0.05)
            ran.send_signal(signal.SIGTERM)
            said = ran.communicate(timeout=SECONDS)[1]
        yield from differences("after a signal", (said, ran.returncode), (b"", 128 + signal.SIGTERM))
        yield from differences("what is left", os.listdir(environment["TMPDIR"]), [])


def at_terminal(program):
    """A person at a terminal is told how far it is, and a program is not."""
    with tempfile.TemporaryDirectory() as folder:
        written(folder, "clients", apart(2))
        written(folder, "image", bytes(1 << 14))
        written(folder, "script", "dispatch\n")
        words = [os.path.join(TOOLS, "futures"), "--program", program, "clients", "--script", "script", "--image", "image", "--check",
                 "true"]
        found = said_by(words, "", folder, True)
        for text in (" states, ", " contents, 0 checked, 0 failures", "17 NothingQueued: no request waits to be sent\n"):
            yield from [] if text in found else [f"a terminal gets {found!r}, without {text!r}"]
        yield from differences("what a pipe gets", said_by(words, "", folder, False), "")


def runs_of(program, is_all):
    """The name of each run, with what gives its faults."""
    for run in ROWS:
        yield run.name, lambda run=run: faults_of(run, program)
    for it in [*KNOWN, *(KNOWN_LONG if is_all else [])]:
        yield f"futures: {it.name}", lambda it=it: known_faults(program, it)
    yield "futures: another program", lambda: known_faults(variation("model"), KNOWN[0])
    for it in CASES if is_all else CASES[::EVERY]:
        yield f"futures: {it.name}", lambda it=it: case_faults(program, it)
    yield "futures: one write twice", lambda: case_faults(program, Case("", TWICE, (), [], Bounds(0, 0, False)))
    for it in OPENINGS:
        yield f"futures: from {it.name}", lambda it=it: opening_faults(program, it)
    for name, run in record_runs(program, is_all):
        yield f"futures: from a record, {name}", run
    yield "futures: the toy writer", lambda: [*toy_faults(program)]
    yield "futures: bytes of one sum", lambda: one_sum_faults(program)
    yield "futures: checks as jobs", lambda: [*jobs_faults(program)]
    for it in LAGS:
        yield f"futures: the lag of {it.name}", lambda it=it: [*lag_faults(program, it)]
    for count, lags in LAGS_LONG.items() if is_all else []:
        it = LAGS[0]._replace(count=count)
        yield f"futures: the lag of {count} reads", lambda it=it, lags=lags: [*lag_faults(program, it, lags)]
    for name, given in SCRIPTS.items() if is_all else [*SCRIPTS.items()][:1]:
        yield f"futures: states that go on alike, {name}", lambda given=given: [*key_faults(program, *given)]
    for name, it in FLIGHTS.items():
        yield f"futures: what is in flight, {name}", lambda it=it: [*flight_faults(program, it)]
    yield "futures: what is left alone", lambda: [*left_alone(program)]
    yield "futures: at a terminal", lambda: [*at_terminal(program)]


def futures_runs(program, is_all):
    """The name of each run, and what it did in another way than wanted."""
    for name, run in runs_of(os.path.abspath(program), is_all):
        try:
            yield name, run()
        except (OSError, ValueError, Stop, subprocess.SubprocessError) as fault:
            yield name, [str(fault)]
