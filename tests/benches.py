"""Runs of the programs that measure, as rt ci builds them, and of bench/record.py, futures.py and served.py: what they print is compared, and not their
time.

The scripts of tests/rings are played on the seats of a host by the program of crates/ring_bench. What each must print was written by hand
from the rules of turns and seats; that of calls-of-three-seats, which has 2,700 lines, was made by a plain program of the same rules,
which was written apart from this host. rt ci builds each program with two compilers, and both builds are run.
"""

import os
import re
import subprocess
import sys
import tempfile
import time

from libraries import PROGRAMS
from served import ATTACH, LEAVE, LEFT, SECTOR, Talk, Wrong, attached, fetch, queued, read, reap, same, store, written

TOP = os.path.dirname(os.path.dirname(os.path.abspath(__file__)))
RINGS = os.path.join(TOP, "tests", "rings")
SECONDS = 120

# Scripts of two devices; the others are played on a host of one worker.
OF_TWO = ["calls-of-three-seats", "devices-by-number", "take-while-held", "work-of-two-devices"]
# Four clients ask so often for a seat, each in a thread of its own; then the core is stopped and every end settled. Each sits down once
# and is refused after that. So all calls are answered, 4 are accepted, none is left; what is not collected is the end, once at each of 16
# clients and 2 devices; the journal has 4 entries, each a client's; and the operator has heard of the end.
ASKS = [1_000, 10_000]
# A stream of 6,553 frames is fed twice.
FED = ("serve_bench", ["feed", "4096", "2"], "13106\n")
# The bounds of bench/record.py, in the order in which its parts tell them, of reads and of writes.
RECORD_BOUNDS = [["{} with a record", "{} looked at with pauses"], ["a record of {}"], ["calls a second of a replay of {} against sim"]]


def builds(name):
    """The builds of a program, where rt ci leaves them, and what each is called. If there is none by LLVM it is the one that ./bfqhost would
    run, which may be that of release/."""
    made = os.path.join(TOP, "crates", name, "out", name)
    if not os.path.exists(made) and name in PROGRAMS:
        words = [os.path.join(TOP, "tests", "launch"), "--which", name]
        ran = subprocess.run(words, stdin=subprocess.DEVNULL, stdout=subprocess.PIPE, text=True, check=False)
        if ran.returncode:
            # It has said why.
            sys.exit(ran.returncode)
        made = ran.stdout.rstrip("\n")
    return [(made, "")] + [(it, " (built by Rattle's own compiler)") for it in [f"{made}.by-rattle"] if os.path.exists(it)]


def lacking_programs(names):
    """Those of these programs that are not built."""
    return [it for it in names if not os.path.exists(builds(it)[0][0])]


def text(name):
    """The text of a file of tests/rings."""
    with open(os.path.join(RINGS, name), encoding="utf-8") as file:
        return file.read()


def faults_of(path, words, stdin, wanted):
    """What one run of a program did in another way than wanted."""
    try:
        ran = subprocess.run([path, *words], input=stdin, capture_output=True, text=True, timeout=SECONDS, check=False)
    except OSError as refused:
        return [f"the program does not run: {refused}"]
    except subprocess.TimeoutExpired:
        return [f"no end within {SECONDS} seconds"]
    got, want = ran.stdout.split("\n"), wanted.split("\n")
    other = next((at for at in range(max(len(got), len(want))) if got[at:at + 1] != want[at:at + 1]), None)
    faults = [] if other is None else [f"line {other + 1} is {got[other:other + 1]} and not {want[other:other + 1]}"]
    return faults + ([f"the status is {ran.returncode}, and standard error {ran.stderr!r}"] if ran.returncode or ran.stderr else [])


def cases():
    """The runs: a name, the program, its words, its input and what it must print."""
    for name in sorted(os.path.splitext(it)[0] for it in os.listdir(RINGS) if it.endswith(".script")):
        workers = "2" if name in OF_TWO else "1"
        yield f"tests/rings/{name}.script", "ring_bench", ["play", workers], text(f"{name}.script"), text(f"{name}.expected")
    for asks in ASKS:
        yield f"four clients of {asks} asks", "ring_bench", [str(asks)], "", f"{4 * asks} 4 0 18 4 0 true\n"
    yield "ring_bench floor", "ring_bench", ["floor"], "", "ring_bench floor DIR CLIENTS read|write\n"
    with tempfile.TemporaryDirectory(prefix="bfq-") as folder:
        yield "a floor of two clients, until its input ends", "ring_bench", ["floor", folder, "2", "read"], "", "ended\n"
    name, words, wanted = FED
    yield f"{name} {' '.join(words)}", name, words, "", wanted


def floor_answers(path, kind):
    """What a floor answers to two clients, one after the other: each call at once, by its kind."""
    submit, told = (fetch(1, 64, 8), read(2, bytes(8 * SECTOR))) if kind == "read" else (store(1, 64, 8, 7), written(2))
    with tempfile.TemporaryDirectory(prefix="bfq-") as folder:
        with subprocess.Popen([path, "floor", folder, "2", kind], stdin=subprocess.PIPE, stdout=subprocess.PIPE) as process:
            for client in (os.path.join(folder, name) for name in ("client0", "client1")):
                until = time.monotonic() + SECONDS
                while not os.path.exists(client) and time.monotonic() < until:
                    time.sleep(0.01)
                with Talk(client) as talk:
                    talk.asks((ATTACH, attached(1)), (submit, queued(2)), (reap(1), told), (LEAVE, LEFT))
            process.stdin.close()
            same("what is printed", process.stdout.read(), b"ended\n")


def floor_runs():
    """The answers of each build of the floor."""
    for path, which in builds("ring_bench"):
        for kind in ("read", "write"):
            try:
                floor_answers(path, kind)
                faults = []
            except (OSError, Wrong) as fault:
                faults = [str(fault)]
            yield f"what a floor answers to {kind}s{which}", faults


def judged(rows):
    """Each bound that the rows tell, with whether it was said to be kept, which must be by its numbers."""
    for row in rows:
        if told := re.fullmatch(r"(.+?) +(\d+(?:\.\d+)?)(?: KiB)? +wanted at (least|most) (\d+(?:\.\d+)?)(?: KiB)? +(kept|NOT KEPT)", row):
            what, found, side, bound, said = told.groups()
            same(row, said == "kept", float(found) >= float(bound) if side == "least" else float(found) <= float(bound))
            yield what, said == "kept"


def recorded(*words):
    """A run of bench/record.py with these words."""
    return subprocess.run([sys.executable, os.path.join(TOP, "bench", "record.py"), *words], stdin=subprocess.DEVNULL, capture_output=True,
                          text=True, timeout=SECONDS, check=False)


def short_record():
    """bench/record.py with one short round: each bound is judged by its numbers, and the status goes by all. What it measures so is no figure."""
    ran = recorded("--rounds", "1", "--seconds", "0.2")
    *rows, last = ran.stdout.splitlines()
    bounds = dict(judged(rows))
    same("the bounds", [*bounds], [text.format(kind) for texts in RECORD_BOUNDS for kind in ("reads", "writes") for text in texts])
    same("the end", (last, ran.returncode, ran.stderr), ("as it should be", 0, "") if all(bounds.values()) else ("not as it should be", 1, ""))
    refused = recorded("rate")
    same("a part that is none", (refused.stdout, refused.stderr, refused.returncode), ("", "bench: the parts are rates, memory, replay\n", 1))


def record_runs():
    """The script that measures records."""
    try:
        short_record()
        yield "bench/record.py", []
    except (OSError, ValueError, Wrong, subprocess.SubprocessError) as fault:
        yield "bench/record.py", [str(fault)]


def short_futures():
    """bench/futures.py with one round of a search whose counts tests/futures.py knows: both readers find them, and each figure is there."""
    words = [sys.executable, os.path.join(TOP, "bench", "futures.py"), "--rounds", "1", "--program", builds("bfqhost")[0][0]]
    ran = subprocess.run([*words, "none"], stdin=subprocess.DEVNULL, capture_output=True, text=True, timeout=SECONDS, check=False)
    same("the line", (re.sub(r"[\d,]+(?= by| written)", "N", ran.stdout), ran.stderr, ran.returncode), (
        "none: 547 states 1,250 edges 24 contents; edges a second: N by one look, N by 7 single looks, N written blindly\n", "", 0))
    refused = subprocess.run([*words, "nome"], stdin=subprocess.DEVNULL, capture_output=True, text=True, timeout=SECONDS, check=False)
    same("a case that is none", (refused.stdout, refused.returncode, refused.stderr[:25]), ("", 1, "bench: the cases are 'bfq"))


def futures_bench_runs():
    """The script that measures searches."""
    try:
        short_futures()
        yield "bench/futures.py", []
    except (OSError, ValueError, Wrong, subprocess.SubprocessError) as fault:
        yield "bench/futures.py", [str(fault)]


def short_costs(beside, *against):
    """bench/served.py --costs with one short round: the image is read once for a read of a host, and never by a floor."""
    words = [sys.executable, os.path.join(TOP, "bench", "served.py"), "--costs", "--rounds", "1", "--seconds", "0.2", *against]
    ran = subprocess.run(words, stdin=subprocess.DEVNULL, capture_output=True, text=True, timeout=SECONDS, check=False)
    head, *rows = [row.split() for row in ran.stdout.splitlines()]
    same("the end", (ran.returncode, ran.stderr), (0, ""))
    same("the lines", [(*row[:3], row[3]) for row in rows], [(clients, depth, kind, of) for clients, depth in (("1", "1"), ("1", "16"), ("4", "1"))
                                                            for kind in ("read", "write") for of in ("host", beside)])
    for clients, depth, kind, of, *figures in rows:
        told = dict(zip(head[4:], map(float, figures)))
        # Who attaches and what is under way when the counting begins and ends are no reads of these.
        is_near = abs(told["pread"] - (of != "floor" and kind == "read")) < 0.2
        # Memory is taken from one place, whose size changes seldom.
        is_steady = told["mprotect"] < 0.2
        same(f"{clients} {depth} {kind} {of}: {told}", (is_near, is_steady, told["send"] > 0, told["switches"] >= 0, told["us"] > 0), (True,) * 5)


def cost_runs():
    """The script that measures what reads and writes cost, if strace may look at a process."""
    try:
        with tempfile.TemporaryFile() as nothing, subprocess.Popen(["sleep", "60"]) as child:
            try:
                looked = subprocess.run(["timeout", "-s", "INT", "1", "strace", "-c", "-p", str(child.pid)], stdout=nothing, stderr=nothing, check=False)
            finally:
                child.kill()
        if looked.returncode not in (0, 124, 130):
            raise FileNotFoundError
    except FileNotFoundError:
        print("skipped: bench/served.py --costs: no strace here, or no leave to use it")
        return
    try:
        short_costs("floor")
        short_costs("other", "--against", builds("bfqhost")[0][0])
        yield "bench/served.py --costs", []
    except (OSError, ValueError, Wrong, subprocess.SubprocessError) as fault:
        yield "bench/served.py --costs", [str(fault)]


def bench_runs():
    """Each run of each build, with its faults."""
    files = {extension: {name for name, it in map(os.path.splitext, os.listdir(RINGS)) if it == extension} for extension in (".script", ".expected")}
    whole = files[".script"] == files[".expected"] and len(files[".script"]) > len(OF_TWO)
    yield "tests/rings", [] if whole else ["a script is missing, or what it must print"]
    for name, program, words, stdin, wanted in cases() if whole else ():
        for path, which in builds(program):
            yield f"{name}{which}", faults_of(path, words, stdin, wanted)
    yield from floor_runs()
    yield from record_runs()
    yield from futures_bench_runs()
    yield from cost_runs()
