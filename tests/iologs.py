"""Runs of tools/iolog with clients of groups, and what it writes: the script, the measure and the events of a run.

What is expected is worked out by hand from docs/MODEL.md, from what the tool says of itself, and from the kernel's struct blk_io_trace.
"""

import json
import os
import re
import shutil
import stat
import struct
import subprocess
import tempfile

from bad_input import DONE
from tools import BAD_INPUT, LOG, SECONDS, TOOLS, Run, executable, faults_of, head, started, totals, written

# Seat 0 has weight 80 at the root, beside a group of weight 50 with an idle client.
FAST = head(2) + "/b add\n/b open\n/b read 0 4096\n/b read 4096 4096\n/b write 65536 512\n/b close\n"
SLOW = head(3) + "0 /a add\n0 /a open\n1 /a read 0 40960\n2 /a read 655360 32768\n"
FILES = {"fast.log": FAST, "slow.log": SLOW}
WORDS = ["fast.log:prio=0", "slow.log:group=1:weight=50:class=idle"]
TOTALS = totals(2, reads=4, writes=1, read=81920, written=512, bios=6, sent=4, merged=2,
                met=["1 x refused 17 (NothingQueued)", "1 x refused 18 (NoTag)"])
# F of seat 0 is 1024/80, and that of the group 4096/50, so seat 0 is served until it is empty. A read of 80 sectors is two bios, of which
# the second joins the first. With one tag each request is done before the next is sent.
SCRIPT = """\
# sim --tags 1 --sectors 65536 --history 16777216
group 0 50
attach 0 0 0
attach 1 1 4 idle
read 0 2 0 8
read 1 3 0 64
read 0 2 8 8
read 1 3 64 16
write 0 2 128 1 1
read 1 3 1280 64
dispatch
dispatch
work 0 10
reap 0 2
reap 0 2
dispatch
work 0 14
reap 0 2
dispatch
work 0 17
reap 1 3
reap 1 3
dispatch
work 0 21
reap 1 3
dispatch
"""
# What seat 0 and group 1 are entitled to of the first 17 sectors is 80 and 50 parts of 130: seat 0 is 17 - 17 * 80/130 ahead. Then the
# other one waits alone.
AHEAD = round(17 * 50 / 130, 3)


def took(p50, p90, most):
    return {"p50": p50, "p90": p90, "p99": most, "max": most}


# All bios are queued before anything is sent: 16 sectors are sent then, 1, 80 and 64.
MEASURE = {"sectors": 161, "dispatches": 4, "clients": [
    {"seat": 0, "log": "fast.log", "file": "/b", "group": 0, "prio": 0, "class": "be", "bios": 3, "requests": 2, "sectors": 17,
     "latency": {"sectors": took(16, 17, 17), "dispatches": took(1, 2, 2)}, "lag": {"behind": 0.0, "ahead": AHEAD, "last": AHEAD}},
    {"seat": 1, "log": "slow.log", "file": "/a", "group": 1, "prio": 4, "class": "idle", "bios": 3, "requests": 2, "sectors": 144,
     "latency": {"sectors": took(97, 161, 161), "dispatches": took(3, 4, 4)}, "lag": {"behind": -AHEAD, "ahead": 0.0, "last": -AHEAD}}]}

# struct blk_io_trace of the kernel, of which a process's name may follow; the letters of its actions; and the bits of a read, of a write, and
# of a discard, which is a write too.
EVENT = struct.Struct("<IIQQIIIIIHH")
MAGIC, NOTICE = 0x65617407, 1 << 10
LETTERS = {1: "Q", 2: "M", 3: "F", 4: "G", 6: "R", 7: "D", 8: "C", 12: "I"}
KINDS = {1: "R", 2: "W", 2 | 1 << 13: "D"}
CLASS_OF = {"Q": 1 << 4, "M": 1 << 4, "F": 1 << 4, "G": 1 << 4, "I": 1 << 4, "R": 1 << 5, "D": 1 << 6, "C": 1 << 7}
EVENTS = [
    *((0, letter, "R", 0, 0, 8) for letter in "QGI"), *((0, letter, "R", 1, 0, 64) for letter in "QGI"),
    *((0, letter, "R", 0, 8, 8) for letter in "QM"), *((0, letter, "R", 1, 64, 16) for letter in "QM"),
    *((0, letter, "W", 0, 128, 1) for letter in "QGI"), *((0, letter, "R", 1, 1280, 64) for letter in "QGI"),
    (0, "D", "R", 0, 0, 16), (16_000, "C", "R", 0, 0, 16), (16_000, "D", "W", 0, 128, 1), (17_000, "C", "W", 0, 128, 1),
    (17_000, "D", "R", 1, 0, 80), (97_000, "C", "R", 1, 0, 80), (97_000, "D", "R", 1, 1280, 64), (161_000, "C", "R", 1, 1280, 64)]
# The second read ends where the first starts.
FRONT = head(2) + "/b read 4096 4096\n/b read 0 4096\n"
# A device that gives the first request back.
GIVES_BACK = "#!/bin/sh\nsed -u 's/^work 0 3$/requeue 0 3/' | PROGRAM \"$@\"\n"

# 10 sectors a millisecond and one tag. Two reads of 64 sectors come at 0, one of 8 at 1, and one of 8 at 9. The device takes the first one
# from 0 to 64, the second to 128, and then those of 8, that at sector 0 first, as the head is at 0. A tick is at each 10 sectors, and in
# the last 16 sectors there are two, at 130 and at 140.
OPEN = head(3) + ("0 /a add\n0 /a open\n0 /a read 0 32768\n0 /a read 65536 32768\n1 /b add\n1 /b read 655360 4096\n9 /b read 0 4096\n")
SCRIPT_OF_OPEN = "\n".join([
    "attach 0 0 4", "attach 1 0 4", "read 0 1 0 64", "read 0 1 128 64", "dispatch", "dispatch", "TICK", "read 1 2 1280 8", *5 * ["TICK"],
    "work 0 5", "reap 0 1", "dispatch", *3 * ["TICK"], "read 1 2 0 8", *3 * ["TICK"], "work 0 ISSUE", "reap 0 1", "dispatch", "TICK",
    "work 0 ISSUE", "reap 1 2", "dispatch", "TICK", "work 0 ISSUE", "reap 1 2", "dispatch"]) + "\n"
# From 10 to 144 and from 90 to 136 for the second client. It waits when the second request of 64 is sent, so half of that is its own.
LATENCIES_OF_OPEN = [{"p50": 64, "p90": 128, "p99": 128, "max": 128}, {"p50": 46, "p90": 134, "p99": 134, "max": 134}]


def bad(name, words, stderr, files=None):
    return Run(f"iolog: {name}", ["iolog", *words], files or FILES, stderr=stderr, status=BAD_INPUT)


RUNS = [
    Run("iolog: clients of a group", ["iolog", *WORDS, "--", "--tags", "1"], FILES, stdout=TOTALS),
    # Of ten bios one is ahead at a time, so none is merged.
    Run("iolog: a depth of one", ["iolog", "log", "--depth", "1", "--", "--tags=64"],
        {"log": head(2) + "".join(f"/b read {512 * at} 512\n" for at in range(10))},
        stdout=totals(reads=10, read=5120, bios=10, sent=10, met=["11 x refused 17 (NothingQueued)"])),
    Run("iolog: a file whose name has such words", ["iolog", "log:prio=9"], {"log:prio=9": head(2)},
        stdout=totals(0, met=["1 x refused 17 (NothingQueued)"])),
    bad("a priority past 7", ["fast.log:prio=8"], "fast.log:prio=8: a priority is 0 to 7: '8'\n"),
    bad("a priority of no number", ["fast.log:prio="], "fast.log:prio=: a priority is 0 to 7: ''\n"),
    bad("a group past 31", ["fast.log:group=32"], "fast.log:group=32: a group is 0 to 31: '32'\n"),
    bad("a group that is none", ["fast.log:group=2"],
        "fast.log:group=2: there is a group 2, and no group 1: they are numbered from 1 without a gap\n"),
    bad("a group past a gap", ["fast.log:group=1", "slow.log:group=3", "slow.log:group=3:prio=1"],
        "slow.log:group=3: there is a group 3, and no group 2: they are numbered from 1 without a gap\n"),
    bad("a weight of the root", ["fast.log:weight=5"], "fast.log:weight=5: a weight is that of a group, and the root has none\n"),
    bad("a weight of 0", ["fast.log:group=1:weight=0"], "fast.log:group=1:weight=0: a weight is 1 to 1000: '0'\n"),
    bad("two weights", ["fast.log:group=1:weight=5", "slow.log:group=1:weight=6"],
        "slow.log:group=1:weight=6: group 1 has the weight 5 already\n"),
    bad("a class of another name", ["fast.log:class=best"], "fast.log:class=best: CLASS is rt, be or idle: 'best'\n"),
    bad("a word twice", ["fast.log:prio=1:prio=2"], "fast.log:prio=1:prio=2: a word stands there twice\n"),
    bad("another word", ["fast.log:priority=1"], "fast.log:priority=1: No such file or directory\n"),
    bad("a log that is cut", ["cut.log:prio=0"], "cut.log: bad line 2: in version 2 stands FILE ACTION, or FILE ACTION OFFSET LENGTH\n",
        {"cut.log": head(2) + "/b read 40"}),
    # What is left of a number may be one, too.
    bad("a log that is cut in a number", ["cut.log"], "cut.log: bad line 3: it has no end, so the file is cut there\n",
        {"cut.log": head(2) + "/b read 0 4096\n/b read 4096 512"}),
    bad("a length of no sectors", ["log:group=1"], "log: bad line 2: LENGTH is no multiple of 512: 100\n",
        {"log": head(2) + "/b read 0 100\n"}),
    bad("times of no log", ["fast.log", "--open", "--rate", "5"], "fast.log: bad line 2: version 2 has no times, which --open needs\n"),
    bad("a time that falls", ["log", "--open", "--rate=5"], "log: bad line 3: TIME is before that of the line above: 4\n",
        {"log": head(3) + "5 /a add\n4 /a open\n"}),
    *(bad(f"{' '.join(words)} alone", ["slow.log", *words], "--open needs --rate N, and --rate and --ticks need --open\n")
      for words in (["--open"], ["--rate", "5"], ["--ticks"], ["--open", "--ticks"])),
    Run("iolog: a folder that is not there", ["iolog", "fast.log", "--json", "none/j"], FILES, stderr="none/j: No such file or directory\n",
        status=BAD_INPUT),
]


def ran(words, folder, program):
    """What a run of the tool prints, and its status."""
    with started([os.path.join(TOOLS, "iolog"), "--program", program, *words], folder) as tool:
        stdout, stderr = tool.communicate(timeout=SECONDS)
    return stdout.decode(), stderr.decode(), tool.returncode


def read(folder, name):
    with open(os.path.join(folder, name), "rb") as file:
        return file.read()


def events_of(data):
    """The events of a file, each as its time, its letter, what it does, its pid, and its sectors; and the names of pids."""
    found, names, at = [], {}, 0
    while at < len(data):
        magic, number, time, sector, size, action, pid, device, _, error, length = EVENT.unpack_from(data, at)
        more = data[at + EVENT.size:at + EVENT.size + length]
        at += EVENT.size + length
        bits = action >> 16
        if (magic, device, error) != (MAGIC, 8 << 20, 0):
            found.append(("a bad head", magic, device, error))
        elif bits == NOTICE:
            names[pid] = more.rstrip(b"\0").decode()
        else:
            letter = LETTERS[action & 0xffff]
            kind = {CLASS_OF[letter] | bit: name for bit, name in KINDS.items()}.get(bits)
            found.append((time, letter, kind, pid, sector, size // 512) if number == len(found) + 1 else ("a bad number", number))
    return found, names


def differs(found, wanted):
    return [] if found == wanted else [f"{found} and not {wanted}"]


def files_of_a_run(program):
    """The script, the measure and the events of one run, and no other file."""
    with tempfile.TemporaryDirectory() as folder:
        for name, text in FILES.items():
            written(folder, name, text)
        for name in ("s", "j", "e.blktrace.0"):
            written(folder, name, "what was there before")
        found = ran([*WORDS, "--script", "s", "--json", "j", "--events", "e", "--", "--tags", "1"], folder, program)
        yield "how it ends", differs(found, (TOTALS, "", DONE))
        yield "the files", differs(sorted(os.listdir(folder)), sorted([*FILES, "s", "j", "e.blktrace.0"]))
        yield "the script", differs(read(folder, "s").decode(), SCRIPT)
        yield "the measure", differs(json.loads(read(folder, "j")), MEASURE)
        yield "the events", differs(events_of(read(folder, "e.blktrace.0")), (EVENTS, {0: "seat0", 1: "seat1"}))
        if shutil.which("blkparse"):
            told = subprocess.run(["blkparse", "-q", "-i", "e", "-f", "%T.%t %a %d %p %S %n\n"], cwd=folder, capture_output=True, text=True,
                                  timeout=SECONDS, check=False)
            wanted = [f"0.{time:09} {letter} {kind} {seat} {sector} {count}" for time, letter, kind, seat, sector, count in EVENTS]
            yield "what blkparse prints", differs([row for row in told.stdout.splitlines() if row][:len(wanted)], wanted)
        else:
            print("skipped: iolog: no blkparse here")


def more_events(program):
    """A front merge; a trim; and a request that the device gives back, and is sent again."""
    with tempfile.TemporaryDirectory() as folder:
        written(folder, "log", FRONT)
        ran(["log", "--events", "e"], folder, program)
        yield "a front merge", differs([(it[1], *it[4:]) for it in events_of(read(folder, "e.blktrace.0"))[0]],
                                       [*((letter, 8, 8) for letter in "QGI"), *((letter, 0, 8) for letter in "QF"), ("D", 0, 16),
                                        ("C", 0, 16)])
        written(folder, "log", head(2) + "/b trim 4096 1024\n")
        ran(["log", "--events", "e"], folder, program)
        yield "a trim", differs([it[1:] for it in events_of(read(folder, "e.blktrace.0"))[0]], [(letter, "D", 0, 8, 2) for letter in "QGIDC"])
        written(folder, "log", head(2) + "/b read 0 512\n")
        path = executable(folder, "program", GIVES_BACK.replace("PROGRAM", program))
        found = ran(["log", "--events", "e", "--json", "j", "--", "--tags=1"], folder, path)
        yield "a request given back, how it ends", differs(found[1:], ("", DONE))
        yield "a request given back", differs([it[:2] for it in events_of(read(folder, "e.blktrace.0"))[0]],
                                              [(0, "Q"), (0, "G"), (0, "I"), (0, "D"), (1000, "R"), (1000, "D"), (2000, "C")])
        client, = json.loads(read(folder, "j"))["clients"]
        yield "a request given back, its latency and its lag", differs((client["latency"]["dispatches"]["max"], client["lag"]["last"]),
                                                                       (2, 0.0))


# What btt tells: how many bios were queued and how many requests were sent, and how often a bio went from the device to its end.
QUEUED_AND_SENT = re.compile(r"(?m)^ \(  8,  0\) \| +(\d+) +(\d+) +[\d.]+ \|")
TO_ITS_END = re.compile(r"(?m)^D2C( +[\d.]+){3} +(\d+)$")
NO_SKIPS = "Skips: 0 forward (0 -   0.0%)\n"


def by_btt(folder):
    """What blkparse and btt make of the events: the three numbers, or what they complain of."""
    complaints, told = [], {}
    for words in (["blkparse", "-i", "e", "-d", "e.bin"], ["btt", "-i", "e.bin"]):
        with started(words, folder) as tool:
            told[words[0]], stderr = (text.decode() for text in tool.communicate(timeout=SECONDS))
        complaints += [f"{words[0]} ends with {tool.returncode} and {stderr!r}"] if tool.returncode or stderr else []
    complaints += [] if NO_SKIPS in told["blkparse"] else [f"blkparse skips events: {told['blkparse'][-200:]!r}"]
    numbers, ends = QUEUED_AND_SENT.search(told["btt"]), TO_ITS_END.search(told["btt"])
    return complaints or [*map(int, (*numbers.groups(), ends[2]))]


def analysed(program):
    """blkparse and btt take the events, and count what was queued and sent. btt counts each bio of a request from the device to its end."""
    if lacking := [tool for tool in ("blkparse", "btt") if not shutil.which(tool)]:
        print(f"skipped: iolog: no {' and no '.join(lacking)} here to show that the events are counted as they were sent")
        return
    with tempfile.TemporaryDirectory() as folder:
        path = executable(folder, "program", GIVES_BACK.replace("PROGRAM", program))
        apart, ten = (head(2) + "".join(f"/b read {step * at} 512\n" for at in range(10)) for step in (1024, 512))
        for name, text, words, wanted in [("ten requests", apart, [], [10, 10, 10]), ("one of ten bios", ten, [], [10, 1, 10]),
                                          ("ten that are alone", ten, ["--depth", "1"], [10, 10, 10])]:
            written(folder, "log", text)
            ran(["log", "--events", "e", *words], folder, program)
            yield f"{name}, by btt", differs(by_btt(folder), wanted)
        written(folder, "log", head(2) + "/b read 0 512\n")
        ran(["log", "--events", "e", "--", "--tags=1"], folder, path)
        # It is sent twice and ends once. As what is queued btt counts it again when it is given back.
        yield "a request given back, by btt", differs(by_btt(folder)[1:], [2, 1])
        # Of bios at one sector btt knows one, so how often it tells their ends is not asked here.
        bios, sent = map(int, re.search(r"(\d+) bios, (\d+) requests sent", ran([LOG, "--events", "e"], folder, program)[0]).groups())
        yield "2,000 reads and writes, by btt", differs(by_btt(folder)[:2], [bios, sent])


def open_loop(program):
    """Reads that come when their time comes, with ticks and without."""
    with tempfile.TemporaryDirectory() as folder:
        written(folder, "log", OPEN)
        for words, tick in ((["--ticks"], "tick\n"), ([], "")):
            found = ran(["log", "--open", "--rate", "10", *words, "--script", "s", "--json", "j", "--", "--tags=1"], folder, program)
            told = totals(2, reads=4, read=73728, bios=4, sent=4, met=TOTALS.strip().split("; ")[1:])
            yield "an open loop, how it ends", differs(found, (told, "", DONE))
            script = read(folder, "s").decode().split("\n", 1)[1]
            issues = [line.split(" ")[2] for line in script.splitlines() if line.startswith("work ")]
            # A tick is a step and takes a serial.
            wanted = SCRIPT_OF_OPEN.replace("TICK\n", tick)
            for issue in issues[1:]:
                wanted = wanted.replace("ISSUE", issue, 1)
            yield "an open loop, its script", differs(script, wanted)
            clients = json.loads(read(folder, "j"))["clients"]
            yield "an open loop, latencies", differs([client["latency"]["sectors"] for client in clients], LATENCIES_OF_OPEN)
            yield "an open loop, lags", differs([client["lag"]["last"] for client in clients], [32.0, -32.0])


def nothing_half_written(program):
    """A run that ends early leaves the files as they were."""
    with tempfile.TemporaryDirectory() as folder:
        written(folder, "log", head(2) + "/b read 0 512\n")
        written(folder, "j", "what was there before")
        status = ran(["log", "--json", "j", "--script", "s", "--", "--history", "2"], folder, program)[2]
        yield "a run that ends early", differs((status, read(folder, "j"), sorted(os.listdir(folder))),
                                               (1, b"what was there before", ["j", "log"]))


def no_plain_files(program):
    """A pipe is written into, and what a link leads to is replaced: neither is replaced itself."""
    with tempfile.TemporaryDirectory() as folder:
        written(folder, "log", head(2) + "/b read 0 512\n")
        os.mkfifo(os.path.join(folder, "pipe"))
        written(folder, "end", "what was there before")
        os.symlink("end", os.path.join(folder, "link"))
        with subprocess.Popen(["cat", "pipe"], cwd=folder, stdout=subprocess.PIPE) as reader:
            try:
                found = ran(["log", "--json", "pipe", "--script", "link", "--", "--tags=1"], folder, program)
                told = reader.communicate(timeout=SECONDS)[0]
            finally:
                # It waits for ever for a pipe that nobody has opened.
                reader.kill()
        kept = stat.S_ISFIFO(os.lstat(os.path.join(folder, "pipe")).st_mode), os.path.islink(os.path.join(folder, "link"))
        yield "a pipe and a link", differs((found[1:], kept, sorted(os.listdir(folder))),
                                           (("", DONE), (True, True), ["end", "link", "log", "pipe"]))
        yield "what is read of a pipe", differs(json.loads(told)["sectors"], 1)
        yield "what a link leads to", differs(read(folder, "end").decode().splitlines()[1:],
                                              ["attach 0 0 4", "read 0 1 0 1", "dispatch", "dispatch", "work 0 3", "reap 0 1", "dispatch"])


def iolog_runs(program):
    """The name of each run, and what was wrong with it."""
    for run in RUNS:
        yield run.name, faults_of(run, program)
    for function in (files_of_a_run, more_events, analysed, open_loop, nothing_half_written, no_plain_files):
        try:
            for name, faults in function(program):
                yield f"iolog: {name}", faults
        except (OSError, ValueError, LookupError, struct.error, subprocess.SubprocessError) as fault:
            yield f"iolog: {function.__name__.replace('_', ' ')}", [str(fault)]
