"""Runs of the tools expect and iolog: what they print, what they ask the program, and how they end.

The expected texts come from the rules of the host (docs/FORMATS.md, docs/MODEL.md) and from what each tool says of itself, and not from
a run of a tool or of the program.
"""

import os
import re
import shutil
import signal
import subprocess
import sys
import tempfile
import time
from dataclasses import dataclass, field
from typing import Optional

from bad_input import BAD_LINES, DONE, GOOD_LINES
from iolog_of_jobs import log
from script_rows import SCRIPTS, read_rows

TOP = os.path.dirname(os.path.dirname(os.path.abspath(__file__)))
TOOLS = os.path.join(TOP, "tools")
FORMATS = os.path.join(TOP, "docs", "FORMATS.md")
LOG = os.path.join(TOP, "tests", "iolog-2000-of-4-jobs.log")
sys.path.append(TOOLS)
import grammar  # noqa: E402

SECONDS = 60

# Statuses of the tools.
NOT_WANTED, BAD_INPUT, NO_PROGRAM, WRITE_FAULT = 1, 2, 3, 4

# What refusals a run of iolog meets only to wait.
TO_WAIT = {"refused 17 (NothingQueued)", "refused 18 (NoTag)", "notyet 43 (RequestsFull)"}


@dataclass
class Run:
    """A run of a tool in a folder of its own. PROGRAM in a text is the program's path, and FOLDER that of the folder."""

    name: str
    words: list
    # The texts of files that stand in the folder.
    files: dict = field(default_factory=dict)
    stdin: bytes = b""
    stdout: str = ""
    stderr: str = ""
    status: int = DONE
    # A program in the place of the tested one, which PROGRAM is in it.
    program: Optional[str] = None
    # What the tool must have asked by its end; the program writes it into the file `asked`.
    asked: Optional[str] = None


def written(folder, name, text):
    """A new file with this text, or these bytes."""
    path = os.path.join(folder, name)
    with open(path, "wb") as file:
        file.write(text if isinstance(text, bytes) else text.encode())
    return path


def executable(folder, name, text):
    """A new program with this text."""
    path = written(folder, name, text)
    os.chmod(path, 0o755)
    return path


def shown(text):
    """A text on one line; of a long one the start and the end."""
    return repr(text if len(text) <= 400 else text[:250] + " .. " + text[-100:])


def differences(what, got, wanted):
    """Where what a run gave is not what was wanted."""
    return [] if got == wanted else [f"{what} is {shown(got) if isinstance(got, str) else got} and not "
                                     f"{shown(wanted) if isinstance(wanted, str) else wanted}"]


def started(words, folder, **given):
    """A tool that runs in a folder."""
    usual = {"stdin": subprocess.PIPE, "stdout": subprocess.PIPE, "stderr": subprocess.PIPE}
    # Python's own output is as it is where nobody says otherwise.
    environment = {**os.environ, "PYTHONDONTWRITEBYTECODE": "1", "PYTHONUNBUFFERED": "", "PYTHONIOENCODING": ""}
    return subprocess.Popen(words, cwd=folder, env=environment, **{**usual, **given})


def faults_of(run, program):
    """What a run did in another way than wanted."""
    with tempfile.TemporaryDirectory() as folder:
        for name, text in run.files.items():
            written(folder, name, text)
        if run.program is not None:
            program = executable(folder, "program", run.program.replace("PROGRAM", program))
        tool, *words = run.words
        with started([os.path.join(TOOLS, tool), "--program", program, *words], folder) as ran:
            try:
                stdout, stderr = ran.communicate(run.stdin, timeout=SECONDS)
            except subprocess.TimeoutExpired:
                ran.kill()
                return [f"no end within {SECONDS} seconds"]
        faults = []
        for what, got, wanted in [("standard output", stdout, run.stdout), ("standard error", stderr, run.stderr)]:
            faults += differences(what, got.decode(), wanted.replace("PROGRAM", program).replace("FOLDER", folder))
        faults += differences("the status", ran.returncode, run.status)
        if run.asked is not None:
            with open(os.path.join(folder, "asked"), encoding="ascii") as file:
                faults += differences("what was asked", file.read(), run.asked)
        return faults


# The runs of expect.

def expect(name, script, stdout="", stderr="", status=DONE, words=("script",), **more):
    """A run over a script in a file."""
    return Run(f"expect: {name}", ["expect", *words], {"script": script}, stdout=stdout, stderr=stderr, status=status, **more)


WRITTEN = """\
# A write, as the first lesson has it.
attach 0 0 4 -> attached 1
write 0 1 5 1 65 -> queued 2

# dispatch -> what is behind a comment's sign is a comment
# and a sign in it needs no space: 0->1
dispatch -> issued 0 3 store 5 1
reap 0 1 -> notyet 44
sector 5 -> sector 5 base
finish 0 3 stored -> finished 1
reap 0 1 -> completed 2 written
sector 5 -> sector 5 overlay 41
line -> line 5 5 5
"""

SCRIPTS_OF_EXPECT = [
    expect("each answer as wanted", WRITTEN, "9 lines asked, 9 answers as wanted\n"),
    expect("no newline at the end", WRITTEN[:-1], "9 lines asked, 9 answers as wanted\n"),
    expect("no line", "", "0 lines asked, 0 answers as wanted\n"),
    expect("silent lines", "\n# one\n\n", "0 lines asked, 0 answers as wanted\n"),
    expect("any answer where none is wanted", "attach 3 0 4\nline\nline -> line 1 1 1\n", "3 lines asked, 1 answers as wanted\n"),
    expect("another answer", "line -> line 0 0 0\n\ndispatch -> refused 18\nline -> line 1 1 1\n",
           "line 3: dispatch\n    wanted   refused 18\n    answered refused 17\n2 lines asked, 1 answers as wanted\n",
           status=NOT_WANTED),
    expect("more than the answer", "hold -> moved 0 0 0\n",
           "line 1: hold\n    wanted   moved 0 0 0\n    answered moved 0 0\n1 lines asked, 0 answers as wanted\n", status=NOT_WANTED),
    expect("the start of the answer", "hold -> moved\n",
           "line 1: hold\n    wanted   moved\n    answered moved 0 0\n1 lines asked, 0 answers as wanted\n", status=NOT_WANTED),
    expect("the first of two other answers", "hold -> done\nhold -> done\n",
           "line 1: hold\n    wanted   done\n    answered moved 0 0\n1 lines asked, 0 answers as wanted\n", status=NOT_WANTED),
    expect("refusals are counted", "dispatch\nattach 0 0 4\nreap 1 1\ndispatch\nread 0 1 0 1\nreap 0 1\n",
           "6 lines asked, 0 answers as wanted, 4 refusals without ->: refused 17 (NothingQueued) in lines 1, 4; "
           "refused 3 (NoSession) in line 3; notyet 44 (NotCompleted) in line 6\n"),
    expect("refusals that are wanted are not", "dispatch -> refused 17\n# one\nthaw\n",
           "2 lines asked, 1 answers as wanted, 1 refusals without ->: refused 23 (NotFrozen) in line 3\n"),
    expect("many refusals", 7 * "tick\n", "7 lines asked, 0 answers as wanted, 7 refusals without ->: "
           "refused 26 (NoneInService) in lines 1, 2, 3, 4, 5 and 2 more\n"),
    expect("refusals before another answer", "dispatch\nline -> line 0 0 1\n",
           "line 2: line\n    wanted   line 0 0 1\n    answered line 0 0 0\n2 lines asked, 0 answers as wanted, "
           "1 refusals without ->: refused 17 (NothingQueued) in line 1\n", status=NOT_WANTED),
    expect("options of sim", "finish 0 1 stored -> refused 20\nfinish 1 1 stored -> refused 19\nswitch bfq -> refused 23\n"
           "show host -> host none running free 15 0 0 0 0\n", "4 lines asked, 4 answers as wanted\n",
           words=["script", "--", "--tags=1", "--scheduler", "none"]),
    Run("expect: standard input", ["expect", "-"], stdin=WRITTEN.encode(), stdout="9 lines asked, 9 answers as wanted\n"),
    Run("expect: a bad line of standard input", ["expect", "-"], stdin=b"line\nLine\n",
        stderr="-: bad line 2: a capital letter: 'Line'\n", status=BAD_INPUT),
    Run("expect: no file", ["expect", "script"], stderr="script: No such file or directory\n", status=BAD_INPUT),
    Run("expect: a folder", ["expect", "."], stderr=".: Is a directory\n", status=BAD_INPUT),
    expect("as many lines as there may be", 1_048_575 * "\n" + "line -> line 0 0 0\n", "1 lines asked, 1 answers as wanted\n"),
    expect("a line too many", 1_048_577 * "\n", stderr="script: bad line 1048577: a script has at most 1048576 lines\n",
           status=BAD_INPUT),
]

# Bad rows, each between two good ones, and why they are bad.
BAD_ROWS = [
    expect(f"bad line: {name}", f"line -> line 0 0 0\n{row}\nline -> nothing\n" if isinstance(row, str) else b"line\n" + row + b"\nline\n",
           stderr=f"script: bad line 2: {why}\n", status=BAD_INPUT)
    for name, row, why in [
        ("a capital letter", "Dispatch", "a capital letter: 'Dispatch'"),
        ("a capital letter of a scheduler", "switch BFQ", "a capital letter: 'BFQ'"),
        ("a capital letter beside an answer", "Hold -> moved 0 0", "a capital letter: 'Hold'"),
        ("a space before", " dispatch", "a space too many: before the first word"),
        ("a space before a comment", " # one", "a space too many: before the first word"),
        ("a space behind", "dispatch ", "a space too many: after the last word"),
        ("a space alone", " ", "a space too many: before the first word"),
        ("two spaces", "attach 0  0 4", "a space too many: two in a row"),
        ("two spaces before the sign", "dispatch  -> refused 17", "a space too many: after the last word"),
        ("two spaces after the sign", "dispatch ->  refused 17", "after ->, a space too many: before the first word"),
        ("two spaces in an answer", "hold -> moved  0 0", "after ->, a space too many: two in a row"),
        ("a space behind an answer", "hold -> moved 0 0 ", "after ->, a space too many: after the last word"),
        ("a carriage return", "dispatch\r", "a carriage return"),
        ("a carriage return behind an answer", "hold -> moved 0 0\r", "after ->, a carriage return"),
        ("a carriage return alone", "\r", "a carriage return"),
        ("a tab", "undo\t1", "a tab"),
        ("an unknown word", "submit 0 1 0 1", "an unknown word: 'submit'"),
        ("a part of a word", "dispatc", "an unknown word: 'dispatc'"),
        ("an unknown outcome", "finish 0 1 lost", "an unknown word: 'lost'"),
        ("an unknown scheduler", "switch cfq", "an unknown word: 'cfq'"),
        ("show alone", "show", "too few words: after 'show' comes flight or host or outbox or queue or requeued or seat or service or "
         "state or step or stored or tree"),
        ("show and another word", "show all", "an unknown word: 'all'"),
        ("show with too few words", "show seat", "too few words: after 'seat' comes SEAT"),
        ("show with too many words", "show host 1", "a word too many: '1'"),
        ("a number of show past its type", "show seat 256", "SEAT is at most 255: '256'"),
        ("a step past its type", "show step 4294967296", "K is at most 4294967295: '4294967296'"),
        ("too few words", "attach 0 0", "too few words: after '0' comes PRIO"),
        ("no outcome", "finish 0 1", "too few words: after '1' comes fault or fill or short or stored"),
        ("too many words", "attach 0 0 4 be 0", "a word too many: '0'"),
        ("a number in the place of a class", "attach 0 0 4 0", "CLASS is rt, be or idle: '0'"),
        ("a class by another name", "attach 0 0 4 real", "CLASS is rt, be or idle: 'real'"),
        ("a class in capitals", "attach 0 0 4 RT", "a capital letter: 'RT'"),
        ("a class in the place of a priority", "attach 0 0 rt", "PRIO is no number: 'rt'"),
        ("a word behind a class", "attach 0 0 4 rt x", "a word too many: 'x'"),
        ("a time of no class", "vtime 0 xx", "CLASS is rt, be or idle: 'xx'"),
        ("a class of nobody", "class", "too few words: after 'class' comes N"),
        ("a class past its type", "class 256", "N is at most 255: '256'"),
        ("a class with a 0 before its number", "class 01", "N has a 0 before its number: '01'"),
        ("a class with a class", "class 0 rt", "a word too many: 'rt'"),
        ("a sign", "undo -1", "K is no number: '-1'"),
        ("a 0 before a number", "undo 01", "K has a 0 before its number: '01'"),
        ("a number past its type", "read 0 1 0 65536", "COUNT is at most 65535: '65536'"),
        ("a discard past its type", "discard 0 1 0 65536", "COUNT is at most 65535: '65536'"),
        ("a discard with a byte", "discard 0 1 0 1 0", "a word too many: '0'"),
        ("a discard of no count", "discard 0 1 0", "too few words: after '0' comes COUNT"),
        ("a number of 5,000 digits", "sector " + 5_000 * "1", "more than 256 bytes"),
        ("a number of 100 digits", "sector " + 100 * "1", f"NUMBER is at most {2**64 - 1}: '{100 * '1'}'"),
        ("a byte of no text", b"line\xff", "a byte that stands in no word: 0xff"),
        ("a letter of another script", "liné", "a byte that stands in no word: 0xc3"),
        ("a comment of 257 bytes", "#" + 256 * "x", "more than 256 bytes"),
        ("a comment of 257 bytes that are no text", b"#" + 256 * b"\xff", "more than 256 bytes"),
        ("a line longer than a pipe holds", "line" + 200_000 * "x", "more than 256 bytes"),
        ("no space before the sign", "hold-> moved 0 0", "-> with no space before it or after it"),
        ("no space after the sign", "hold ->moved 0 0", "-> with no space before it or after it"),
        ("no answer", "hold ->", "-> with no answer after it"),
        ("no answer, and a space", "hold -> ", "-> with no answer after it"),
        ("no line", "-> moved 0 0", "-> with no line before it"),
        ("an empty line", " -> moved 0 0", "-> with no line before it"),
    ]
]


# The runs of iolog.

def head(version):
    return f"fio version {version} iolog\n"


def totals(clients=1, *, reads=0, writes=0, syncs=0, read=0, written=0, bios=0, sent=0, merged=0, back=0, failed=0, refused=0, trims=0,
           trimmed=0, waits=0, met=()):
    """The line of totals. `met` has the refusals that were met."""
    return "; ".join([
        f"{clients} clients, {reads} reads, {writes} writes, {trims} trims, {syncs} syncs: {read} bytes read, {written} bytes written, "
        f"{trimmed} bytes discarded, {bios} bios, {sent} requests sent, {merged} bios merged, {back} requests given back, "
        f"{failed} bios failed, {refused} refused, {waits} waits left out", *met]) + "\n"


def no_request(count):
    """So often no request waited to be sent."""
    return f"{count} x refused 17 (NothingQueued)"


def iolog(name, rows, stdout="", stderr="", status=DONE, words=("log",), **more):
    """A run over a log in a file. Rows with no head are of version 2."""
    text = rows if rows.startswith("fio") else head(2) + rows
    return Run(f"iolog: {name}", ["iolog", *words], {"log": text}, stdout=stdout, stderr=stderr, status=status, **more)


PAST_THE_END = "1 x refused 14 (OutOfRange)"
# A program that says in a file what it is asked.
ASKED = "#!/bin/sh\ntee asked | PROGRAM \"$@\"\n"
# A program whose answers stand in a file.
ANSWERS = "#!/bin/sh\nwhile read -r line; do read -r answer <&3 && echo \"$answer\"; done 3<answers\n"

SHOWN = "dispatch\nshow flight\n"
FILES = "/b add\n/a add\n/b open\n/a open\n"

LOGS = [
    # Four reads that follow each other are one request. No request waits after it, nor after its work.
    iolog("reads that become one", FILES[:7] + "".join(f"/b read {at * 4096} 4096\n" for at in range(4)) + "/b close\n",
          totals(reads=4, read=16384, bios=4, sent=1, merged=3, met=[no_request(2)])),
    # A read of 200 sectors is 64, 64, 64 and 8.
    iolog("a read that is split", "/b read 512 102400\n", totals(reads=1, read=102400, bios=4, sent=1, merged=3, met=[no_request(2)]),
          program=ASKED, asked="attach 0 0 4\nread 0 1 1 64\nread 0 1 65 64\nread 0 1 129 64\nread 0 1 193 8\n" + 2 * SHOWN
          + "work 0 6\n" + 4 * "reap 0 1\n" + SHOWN),
    # The first 32 are a full request of 256 sectors; the others wait until these are reaped, and are one more.
    iolog("32 bios ahead", "".join(f"/b write {at * 4096} 4096\n" for at in range(64)),
          totals(writes=64, written=64 * 4096, bios=64, sent=2, merged=62, met=[no_request(3)])),
    # Seat 0 is served first: both have a weight of 40, and the tie goes to the lower number. Its head is at sector 0.
    iolog("two files in turn", FILES + "/b write 0 4096\n/b write 8192 512\n/a read 512 1024\n",
          totals(2, reads=1, writes=2, read=1024, written=4608, bios=3, sent=3, met=[no_request(4)]),
          program=ASKED, asked="attach 0 0 4\nattach 1 0 4\nwrite 0 1 0 8 1\nread 1 2 1 2\nwrite 0 1 16 1 1\n" + 4 * SHOWN
          + "work 0 6\nreap 0 1\n" + SHOWN + "work 1 7\nreap 0 1\n" + SHOWN + "work 2 8\nreap 1 2\n" + SHOWN),
    # With no sync the two are one request.
    iolog("two writes", "/b write 0 512\n/b write 512 512\n",
          totals(writes=2, written=1024, bios=2, sent=1, merged=1, met=[no_request(2)])),
    iolog("a sync between two writes", "/b sync 0 0\n/b write 0 512\n/b sync 0 0\n/b write 512 512\n/b datasync 0 0\n/b sync 0 0\n",
          totals(writes=2, syncs=4, written=1024, bios=2, sent=2, met=[no_request(3)])),
    # Two discards of one file merge, but not with the write of a sector between them.
    iolog("trims, and a wait that is left out", "/b trim 0 512\n/b wait 1000 0\n/b write 0 512\n/b trim 512 512\n",
          totals(writes=1, trims=2, written=512, trimmed=1024, bios=3, sent=2, merged=1, waits=1, met=[no_request(3)]),
          program=ASKED, asked="attach 0 0 4\ndiscard 0 1 0 1\nwrite 0 1 0 1 1\ndiscard 0 1 1 1\n" + 3 * SHOWN
          + "work 0 5\nreap 0 1\nreap 0 1\n" + SHOWN + "work 1 6\nreap 0 1\n" + SHOWN),
    # A trim of 70 sectors is 64 and 6.
    iolog("a trim that is split", "/b trim 512 35840\n", totals(trims=1, trimmed=35840, bios=2, sent=1, merged=1, met=[no_request(2)]),
          program=ASKED, asked="attach 0 0 4\ndiscard 0 1 1 64\ndiscard 0 1 65 6\n" + 2 * SHOWN + "work 0 4\n" + 2 * "reap 0 1\n" + SHOWN),
    iolog("a trim past the end of the device", f"/b trim {65_535 * 512} 1024\n",
          totals(trims=1, refused=1, met=[PAST_THE_END, no_request(1)]), status=NOT_WANTED),
    iolog("no read and no write", FILES, totals(2, met=[no_request(1)])),
    iolog("no file", head(2), totals(0, met=[no_request(1)])),
    # The last sector of the device is 65,535.
    iolog("the end of the device", f"/b read {65_535 * 512} 512\n", totals(reads=1, read=512, bios=1, sent=1, met=[no_request(2)])),
    iolog("past the end of the device", f"/b read {65_535 * 512} 1024\n/b read 0 512\n",
          totals(reads=2, read=512, bios=1, sent=1, refused=1, met=[PAST_THE_END, no_request(2)]), status=NOT_WANTED),
    # The first part is within the device, the second ends past it, and the third is dropped.
    iolog("past the end in its second part", f"/b write 0 {140 * 512}\n",
          totals(writes=1, written=64 * 512, bios=1, sent=1, refused=1, met=[PAST_THE_END, no_request(2)]),
          status=NOT_WANTED, words=["log", "--", "--sectors=100"]),
    iolog("the greatest offset and length", f"/b write {2**64 - 512} {2**64 - 512}\n",
          totals(writes=1, refused=1, met=[PAST_THE_END, no_request(1)]), status=NOT_WANTED),
    # An image has as many sectors as it has 512 bytes.
    Run("iolog: an image", ["iolog", "log", "--", "--image", "image"],
        {"log": head(2) + "/b read 0 1024\n/b read 1024 512\n", "image": 1024 * "A"},
        stdout=totals(reads=2, read=1024, bios=1, sent=1, refused=1, met=[PAST_THE_END, no_request(2)]), status=NOT_WANTED),
    # Two reads that do not touch, and one place: the second waits until the first is done.
    iolog("room for one request", "/b read 0 512\n/b read 8192 512\n",
          totals(reads=2, read=1024, bios=2, sent=2, met=["1 x notyet 43 (RequestsFull)", no_request(3)]),
          words=["log", "--", "--nr-requests", "1"]),
    # The first try with no free tag tells how many there are.
    iolog("one tag", "/b read 0 512\n/b read 8192 512\n",
          totals(reads=2, read=1024, bios=2, sent=2, met=[no_request(1), "1 x refused 18 (NoTag)"]), words=["log", "--", "--tags", "1"]),
    iolog("the scheduler none", FILES + "/b read 0 512\n/a read 0 512\n",
          totals(2, reads=2, read=1024, bios=2, sent=2, met=[no_request(3)]), words=["log", "--", "--scheduler=none"]),
    # An attach, a read and a dispatch fill it.
    iolog("a full history", "/b read 0 512\n", totals(reads=1, bios=1, sent=1, met=[no_request(1)]),
          "the host takes no more: 'work 0 3' is answered 'refused 33'\n", NOT_WANTED, ["log", "--", "--history", "3"]),
    iolog("a history too short for the clients", FILES, totals(2), "the host takes no more: 'attach 1 0 4' is answered 'refused 33'\n",
          NOT_WANTED, ["log", "--", "--history", "1"]),
    iolog("a request that is given back, and a read that fails", "/b read 0 4096\n",
          totals(reads=1, bios=1, sent=2, back=1, failed=1, met=[no_request(3)]), status=NOT_WANTED, program=ANSWERS),
    iolog("version 3", head(3) + "0 /b add\n0 /b open\n17 /b write 0 512\n18446744073709551615 /b sync 0 0\n0 /b close\n",
          totals(writes=1, syncs=1, written=512, bios=1, sent=1, met=[no_request(2)])),
    iolog("jobs that share a log write its head once each", head(2) + "/b add\n" + head(2) + "/a add\n/b write 0 512\n/a write 0 512\n",
          totals(2, writes=2, written=1024, bios=2, sent=2, met=[no_request(3)])),
    iolog("more spaces, empty lines and carriage returns", head(2) + "\n/b  write 0\t512\r\n\n",
          totals(writes=1, written=512, bios=1, sent=1, met=[no_request(2)])),
    Run("iolog: standard input", ["iolog", "-"], stdin=head(2).encode() + b"/b write 0 512",
        stdout=totals(writes=1, written=512, bios=1, sent=1, met=[no_request(2)])),
    # The same file of two logs is two clients, at seats 0 and 1.
    Run("iolog: two logs", ["iolog", "one", "two"], {"one": head(2) + "/b write 0 512\n", "two": head(3) + "0 /b write 0 512\n"},
        stdout=totals(2, writes=2, written=1024, bios=2, sent=2, met=[no_request(3)])),
    Run("iolog: the same log twice", ["iolog", "log", "log"], {"log": head(2) + "/b write 0 512\n"},
        stdout=totals(2, writes=2, written=1024, bios=2, sent=2, met=[no_request(3)])),
    iolog("16 files", "".join(f"/{number} write 0 512\n" for number in range(16)),
          totals(16, writes=16, written=16 * 512, bios=16, sent=16, met=[no_request(4), "1 x refused 18 (NoTag)"])),
    Run("iolog: no file", ["iolog", "log"], stderr="log: No such file or directory\n", status=BAD_INPUT),
    iolog("an older program", "/b read 0 512\n", "", "the program takes no line 'show flight': the program does not know it\n", NO_PROGRAM,
          program=ANSWERS),
]
# What the program answers in place of the tested one, in two of these runs. The requeue takes a serial too, so the issues are 3 and 5.
FLIGHT = "issued 0 {0} fetch 0 8\nflight 0:{0}:0:fetch:0+8:2\nrefused 17\nflight 0:{0}:0:fetch:0+8:2\n"
GIVEN = {
    "iolog: a request that is given back, and a read that fails":
        f"attached 1\nqueued 2\n{FLIGHT.format(3)}requeued\n{FLIGHT.format(5)}finished 1\ncompleted 2 error fault\nrefused 17\nflight\n",
    "iolog: an older program": "attached 1\nqueued 2\nissued 0 3 fetch 0 1\nbad line 4\n",
}
for given in LOGS:
    if given.name in GIVEN:
        given.files["answers"] = GIVEN[given.name]

# Bad rows behind a good one, and why they are bad.
BAD_LOGS = [
    iolog(f"bad line: {name}", f"{head(version)}{'0 ' * (version == 3)}/b add\n{row}\n", stderr=f"log: bad line 3: {why}\n",
          status=BAD_INPUT)
    for name, version, row, why in [
        ("an offset between sectors", 2, "/b read 100 512", "OFFSET is no multiple of 512: 100"),
        ("a length between sectors", 2, "/b write 512 4095", "LENGTH is no multiple of 512: 4095"),
        ("a trim between sectors", 2, "/b trim 1 512", "OFFSET is no multiple of 512: 1"),
        ("a length of 0", 2, "/b read 512 0", "LENGTH is 0"),
        ("a negative offset", 2, "/b read -512 512", "OFFSET is no number: '-512'"),
        ("a length with a unit", 2, "/b read 0 4k", "LENGTH is no number: '4k'"),
        ("a number of 5,000 digits", 2, f"/b read {5_000 * '5'} 512", f"OFFSET is no number: '{5_000 * '5'}'"),
        ("an unknown action", 2, "/b erase 0 512", "'erase' is no action of version 2"),
        ("an unknown action that stands alone", 2, "/b erase", "'erase' is no action of version 2"),
        ("a wait of version 3", 3, "5 /b wait 100 0", "'wait' is no action of version 3"),
        ("a time that is no number", 3, "x /b read 0 512", "TIME is no number: 'x'"),
        ("a line of version 2 in version 3", 3, "/b read 0 512", "TIME is no number: '/b'"),
        ("a line of version 3 in version 2", 2, "5 /b read 0 512", "in version 2 stands FILE ACTION, or FILE ACTION OFFSET LENGTH"),
        ("no length", 3, "5 /b read 0", "in version 3 stands TIME FILE ACTION, or TIME FILE ACTION OFFSET LENGTH"),
        ("a time alone", 3, "5", "in version 3 stands TIME FILE ACTION, or TIME FILE ACTION OFFSET LENGTH"),
        ("a read of nothing", 2, "/b read", "'read' has an OFFSET and LENGTH"),
        ("an open with a range", 2, "/b open 0 512", "'open' has no OFFSET and LENGTH"),
        ("another version behind", 2, "fio version 4 iolog", "version 4 of fio's logs, where 2 and 3 are known"),
    ]
] + [
    Run(f"iolog: bad line: {name}", ["iolog", "log"], {"log": text}, stderr=f"log: bad line {number}: {why}\n", status=BAD_INPUT)
    for name, text, number, why in [
        ("an empty log", "", 1, "there is none, and a log begins with `fio version 2 iolog`"),
        ("no head", "/b read 0 512\n", 1, "no `fio version 2 iolog` or `fio version 3 iolog`, with which a log begins"),
        ("version 1", "read, 0, 512\n", 1, "no `fio version 2 iolog` or `fio version 3 iolog`, with which a log begins"),
        ("version 9", head(9), 1, "version 9 of fio's logs, where 2 and 3 are known"),
        ("17 files", head(2) + "".join(f"/{number} add\n" for number in range(17)), 18, "'/16' is a file too many: there are 16 seats"),
        ("bytes of no text", head(2).encode() + b"/b \xff\xfe 0 512\n", 2, r"'\udcff\udcfe' is no action of version 2"),
    ]
]


# Programs that end, or do not start.

def no_program(name, program, stderr, words=()):
    """Runs of both tools with another program."""
    for tool, file, line in [("expect", "line\n", "line"), ("iolog", head(2) + "/b read 0 512\n", "attach 0 0 4")]:
        yield Run(f"{tool}: {name}", [tool, "file", *words], {"file": file}, program=program, stderr=stderr.replace("LINE", repr(line)),
                  status=NO_PROGRAM)


PROGRAMS = [
    *no_program("a program that ends at once", "#!/bin/sh\nexit 7\n", "PROGRAM has ended with status 7 before it answered LINE\n"),
    *no_program("a program that ends well at once", "#!/bin/sh\n", "PROGRAM has ended with status 0 before it answered LINE\n"),
    *no_program("a program that ends by a signal", "#!/bin/sh\nread line\nkill -9 $$\n",
                "PROGRAM has ended by signal 9 before it answered LINE\n"),
    *no_program("a program that ends in the midst of an answer", "#!/bin/sh\nread line\nprintf atta\n",
                "PROGRAM has ended with status 0 before it answered LINE\n"),
    *no_program("a program that says much on standard error", "#!/bin/sh\nseq 100000 >&2\nexit 5\n",
                "PROGRAM has ended with status 5 before it answered LINE: 100000\n"),
    *no_program("a program that cannot be built", "#!/bin/sh\necho 'bfqhost: proving one' >&2\necho 'no rt here' >&2\nexit 1\n",
                "bfqhost: proving one\nPROGRAM has ended with status 1 before it answered LINE: no rt here\n"),
    *no_program("a program that is none", "not a program", "PROGRAM does not start: Exec format error\n"),
    *no_program("bad options of sim", "#!/bin/sh\nexec PROGRAM \"$@\"\n",
                "PROGRAM has ended with status 6 before it answered LINE: config: tags\n", ["--", "--tags", "0"]),
    expect("bad options of sim, and no line", "", stderr="PROGRAM has ended with status 6: words: refused\n", status=NO_PROGRAM,
           words=["script", "--", "--tag", "4"]),
    expect("a program that ends after some answers", "hold -> moved 0 0\nline\n", status=NO_PROGRAM,
           stderr="PROGRAM has ended with status 5 before it answered 'line': memory: none\n",
           program="#!/bin/sh\nread line\necho moved 0 0\nread line\necho memory: none >&2\nexit 5\n"),
    expect("a line that an older program does not know", "show host\n", stderr="script: bad line 1: the program does not know it\n",
           status=BAD_INPUT, program="#!/bin/sh\nread line\necho bad line 1\nexit 2\n"),
]


def ends(ran, stdout, stderr, status):
    """How a tool ended in another way than wanted."""
    got = ran.communicate(timeout=SECONDS)
    return (differences("standard output", (got[0] or b"").decode(), stdout) + differences("standard error", got[1].decode(), stderr)
            + differences("the status", ran.returncode, status))


def helps(program, folder):
    """Each tool tells what it is for, and how it ends, with no program too. Bad words are told, with the words that there are."""
    for tool in ("expect", "iolog"):
        for words, start, status in [(["--help"], f"usage: {tool} ", DONE), ([], "", BAD_INPUT), (["--wide", "file"], "", BAD_INPUT)]:
            with started([os.path.join(TOOLS, tool), "--program", "nothing", *words], folder) as ran:
                stdout, stderr = (text.decode() for text in ran.communicate(timeout=SECONDS))
            yield from differences("the status", ran.returncode, status)
            if not stdout.startswith(start) or status == DONE and (stderr or "Exit statuses: 0 " not in stdout):
                yield f"{tool} {' '.join(words)} prints {shown(stdout)} and {shown(stderr)}"
            if status != DONE and (stdout or not stderr.startswith(f"usage: {tool} ") or "Traceback" in stderr):
                yield f"{tool} {' '.join(words)} prints {shown(stdout)} and {shown(stderr)}"


def program_not_there(program, folder):
    """A path at which no program is, and a folder, and a file that may not be run."""
    written(folder, "script", "line\n")
    os.mkdir(os.path.join(folder, "folder"))
    for name, why in [("nothing", "No such file or directory"), ("folder", "Permission denied"), ("script", "Permission denied")]:
        with started([os.path.join(TOOLS, "expect"), "--program", name, "script"], folder) as ran:
            yield from ends(ran, "", f"{folder}/{name} does not start: {why}\n", NO_PROGRAM)


def program_beside_the_tools(program, folder):
    """With no word of a program it is the launcher above the tools' folder, where a program is built or released."""
    shutil.copytree(TOOLS, os.path.join(folder, "tools"))
    written(folder, "script", "line -> line 0 0 0\n")
    os.symlink(program, os.path.join(folder, "bfqhost"))
    with started(["tools/expect", "script"], folder) as ran:
        yield from ends(ran, "", f"there is no program: {folder}/bfqhost --help builds it, which takes minutes\n", NO_PROGRAM)
    for path in ("crates/bfqhost/out", "release/x86_64-linux"):
        os.makedirs(os.path.join(folder, path))
        os.symlink(program, os.path.join(folder, path, "bfqhost"))
        with started(["tools/expect", "script"], folder) as ran:
            yield from ends(ran, "1 lines asked, 1 answers as wanted\n", "", DONE)
        os.unlink(os.path.join(folder, path, "bfqhost"))


def stops_before_the_end(program, folder):
    """At the first other answer it stops, though its input stays open."""
    with started([os.path.join(TOOLS, "expect"), "--program", program, "-"], folder) as ran:
        ran.stdin.write(b"hold\nhold -> done\n")
        ran.stdin.flush()
        try:
            ran.wait(timeout=SECONDS)
        except subprocess.TimeoutExpired:
            ran.kill()
            yield "it does not stop"
        yield from ends(ran, "line 2: hold\n    wanted   done\n    answered refused 29\n2 lines asked, 0 answers as wanted\n", "",
                        NOT_WANTED)


def closed_output(program, folder):
    """Nobody reads what it prints: no trace."""
    written(folder, "log", head(2) + "/b write 0 512\n")
    written(folder, "script", "line\n")
    for words in (["expect", "script"], ["expect", "--help"], ["iolog", "log"]):
        reading, writing = os.pipe()
        os.close(reading)
        with started([os.path.join(TOOLS, words[0]), "--program", program, *words[1:]], folder, stdout=writing) as ran:
            os.close(writing)
            yield from ends(ran, "", "", WRITE_FAULT)


def full_output(program, folder):
    """Standard output takes nothing."""
    written(folder, "script", "line\n")
    with open("/dev/full", "wb") as full:
        with started([os.path.join(TOOLS, "expect"), "--program", program, "script"], folder, stdout=full) as ran:
            yield from ends(ran, "", "standard output: No space left on device\n", WRITE_FAULT)


def interrupted(program, folder):
    """An interrupt in the midst of a run ends it as it ends any program, and says nothing."""
    noting = executable(folder, "program", ASKED.replace("PROGRAM", program))
    with started([os.path.join(TOOLS, "expect"), "--program", noting, "-"], folder,
                 preexec_fn=lambda: signal.signal(signal.SIGINT, signal.default_int_handler)) as ran:
        ran.stdin.write(b"line\n")
        ran.stdin.flush()
        limit, asked = time.monotonic() + SECONDS, os.path.join(folder, "asked")
        while not (os.path.exists(asked) and os.path.getsize(asked)) and time.monotonic() < limit:
            time.sleep(0.01)
        ran.send_signal(signal.SIGINT)
        yield from ends(ran, "", "", -signal.SIGINT)


# What the tools know of the grammar.

def reasons(program, folder):
    """Each bad line of the table of bad input has a reason, and no good line of the tables and the scripts has one."""
    bad = [case.stdin.split(b"\n")[1] for case in BAD_LINES if case.stdin.startswith(b"attach 0 0 4\n") and case.stdin.count(b"\n") == 3]
    for line in bad:
        if grammar.why_bad(line.decode(errors="surrogateescape")) is None:
            yield f"there is no reason why {line[:60]!r} is bad"
    good = [line for case in GOOD_LINES if len(case.stdin) < 10_000 for line in case.stdin.decode(errors="surrogateescape").split("\n")]
    for name in os.listdir(SCRIPTS):
        good += read_rows(os.path.join(SCRIPTS, name))[1] if name.endswith(".rows") else []
    for line in good:
        if why := grammar.why_bad(line):
            yield f"{line!r} is good, and said to be bad: {why}"
    if len(bad) < 100 or len(good) < 500:
        yield f"there are {len(bad)} bad lines and {len(good)} good ones"


def documented(program, folder):
    """The lines, the types of their words, and the refusals are those of docs/FORMATS.md."""
    with open(FORMATS, encoding="utf-8") as file:
        text = file.read()
    script = text[text.index("## The script"):text.index("## The output")]
    rows = re.findall(r"(?m)^\| (`[^|]*) \|", script)
    lines = {line for row in rows for line in re.findall(r"`([^`]*)`", row)}
    types = {name: int(bits) for names, bits in re.findall(r"(?m)^\| ([A-Z, ]+) \| u(\d+) \|", script) for name in names.split(", ")}
    refusals = {int(number): name for number, name in re.findall(r"(?m)^\| (\d+) \| ([A-Z]\w+) \|", text)}
    for what, known, wanted in [("lines", {" ".join(form) for form in grammar.FORMS}, lines),
                                ("types", grammar.BITS.items(), types.items()), ("refusals", grammar.NAMES.items(), refusals.items())]:
        if odd := sorted({*known} ^ {*wanted}):
            yield f"the {what} of tools/grammar.py are not those of docs/FORMATS.md, for one {odd[0]}"


# A log of four jobs.

def counted(text):
    """What a log of version 3 asks for: how many reads, writes, trims and syncs, how many bytes of the first three, and how many bios."""
    rows = [row.split() for row in text.splitlines()[1:]]
    count = {action: sum(row[2] == action for row in rows) for action in ("read", "write", "sync", "trim")}
    lengths = {action: [int(row[4]) for row in rows if row[2] == action] for action in ("read", "write", "trim")}
    bios = sum(-(-length // (64 * 512)) for of_action in lengths.values() for length in of_action)
    return count, {action: sum(of_action) for action, of_action in lengths.items()}, bios


def jobs(program, folder):
    """The log of 2,000 reads and writes of 4 jobs is done whole, and alike as a log of version 2. Each bio is merged, or has a request."""
    with open(LOG, encoding="ascii") as file:
        text = file.read()
    if text != log():
        yield "the log is not what tests/iolog_of_jobs.py makes"
    count, length, bios = counted(text)
    if count["read"] + count["write"] != 2_000:
        yield f"there are {count}"
    start, end = totals(4, reads=count["read"], writes=count["write"], syncs=count["sync"], read=length["read"], written=length["write"],
                        bios=bios, sent=-1, merged=-2, trims=count["trim"], trimmed=length["trim"])[:-1].split("-1 requests sent, -2 bios merged")
    second = written(folder, "second.log", head(2) + "".join(f"{row.split(' ', 1)[1]}\n" for row in text.splitlines()[1:]))
    lines = []
    for path in (LOG, second):
        with started([os.path.join(TOOLS, "iolog"), "--program", program, path], folder) as ran:
            stdout, stderr = ran.communicate(timeout=SECONDS)
        yield from differences("standard error", stderr.decode(), "") + differences("the status", ran.returncode, DONE)
        lines.append(stdout.decode())
    yield from differences("the line of version 2", lines[1], lines[0])
    found = re.fullmatch(rf"{re.escape(start)}(\d+) requests sent, (\d+) bios merged{re.escape(end)}((?:; \d+ x [^;]*)*)\n", lines[0])
    if not found:
        yield f"the line is {lines[0]!r}, and not {start!r} .. {end!r}"
    elif int(found[1]) + int(found[2]) != bios or not int(found[2]):
        yield f"{found[1]} requests and {found[2]} merged bios are not the {bios} bios"
    elif met := {*re.findall(r"x ([^;]+)", found[3])} - TO_WAIT:
        yield f"there are {met}"


FUNCTIONS = [helps, program_not_there, program_beside_the_tools, stops_before_the_end, closed_output, full_output, interrupted, reasons,
             documented, jobs]


def tool_runs(program):
    """The name of each run, and what was wrong with it."""
    for run in [*SCRIPTS_OF_EXPECT, *BAD_ROWS, *LOGS, *BAD_LOGS, *PROGRAMS]:
        yield run.name, faults_of(run, program)
    for function in FUNCTIONS:
        faults = []
        with tempfile.TemporaryDirectory() as folder:
            try:
                faults.extend(function(program, folder))
            except (OSError, ValueError, subprocess.SubprocessError) as fault:
                faults.append(str(fault))
        yield f"tools: {function.__name__.replace('_', ' ')}", faults
