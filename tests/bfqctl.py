"""Runs of the operator's program against a server that the test plays, on a socket in a new folder.

Each run has the words of the program, the frame that the server must read, and what it answers. The expected frames, texts and
statuses come from the rules of frames, texts and command words (docs/FORMATS.md), and not from the program's own output.
"""

import contextlib
import functools
import os
import resource
import socket
import subprocess
import tempfile
import threading
import time
from dataclasses import dataclass, field
from typing import Optional

from bad_input import DONE, REFUSED, VERSION, WRITE_FAULT

SECONDS = 20

# Statuses of `bfqctl` beside those of a host's run.
NOT_DONE = 1
BAD_WORDS = 2
NO_ANSWER = 3
NO_MEMORY = 5

SOCKET = b"socket: failed\n"
FRAME = b"frame: bad\n"

UNDO = bytes.fromhex("00000005 1a 00000002")
MOVED = bytes.fromhex("00000009 93 00000003 00000005")
DID = bytes.fromhex("00000001 92")
CLOSED = bytes.fromhex("00000001 9f")
STOP = bytes.fromhex("00000001 1c")


@dataclass
class Run:
    """One run. PATH among the words is the server's socket."""

    name: str
    words: list
    # What the server must read, and nothing more; None where it must meet nobody.
    asked: Optional[bytes] = None
    # What the server then sends, in so many writes.
    answer: list = field(default_factory=list)
    stdout: bytes = b""
    stderr: bytes = b""
    status: int = DONE
    # The server then ends what it sends. Otherwise it waits for the program's end, which may wait for nothing more.
    ends: bool = False
    # The server closes the connection without a read.
    hangs_up: bool = False
    # Standard output is only asked to begin with its text.
    begins: bool = False
    # Standard output is /dev/full, so that each write fails.
    writes_to_full: bool = False
    # The name of the server's socket, which stands in the folder of PATH.
    at: str = "operator"


def call(words, asked, answer=DID, text=b"done\n", status=DONE):
    """A command, its frame, and the answer in one write."""
    return Run(words, ["--socket", "PATH", *words.split()], bytes.fromhex(asked), [answer], text, b"", status)


# The frame of each command, at the least and the greatest numbers too.
COMMANDS = [
    call("group-make 0 100", "00000004 11 00 0064", bytes.fromhex("00000002 91 01"), b"group 1\n"),
    call("group-make 255 65535", "00000004 11 ff ffff", bytes.fromhex("00000002 e0 05"), b"refused 5\n", NOT_DONE),
    call("group-drop 1", "00000002 12 01"),
    call("group-drop 0", "00000002 12 00", bytes.fromhex("00000002 e0 06"), b"refused 6\n", NOT_DONE),
    call("set-weight 1 1000", "00000004 13 01 03e8"),
    call("set-weight 255 0", "00000004 13 ff 0000", bytes.fromhex("00000002 e0 07"), b"refused 7\n", NOT_DONE),
    call("freeze", "00000001 14"),
    call("thaw", "00000001 15", bytes.fromhex("00000002 e0 17"), b"refused 23\n", NOT_DONE),
    call("switch none", "00000002 16 00"),
    call("switch bfq", "00000002 16 01"),
    call("tick", "00000001 17", bytes.fromhex("00000002 e1 29"), b"notyet 41\n", NOT_DONE),
    call("hold", "00000001 18", bytes.fromhex("00000009 93 00000000 00000000"), b"moved 0 0\n"),
    call("release", "00000001 19"),
    call("undo 2", "00000005 1a 00000002", MOVED, b"moved 3 5\n"),
    call("undo 0", "00000005 1a 00000000", bytes.fromhex("00000002 e0 1e"), b"refused 30\n", NOT_DONE),
    call("redo 4294967295", "00000005 1b ffffffff", bytes.fromhex("00000009 93 ffffffff ffffffff"), b"moved 4294967295 4294967295\n"),
    call("stop", "00000001 1c", CLOSED, b"closed\n"),
]


def undo(name, answer, text=b"", stderr=b"", status=DONE):
    """What comes of such an answer to an Undo."""
    return Run(name, ["--socket", "PATH", "undo", "2"], UNDO, answer, text, stderr, status)


def bad(name, *answer):
    return undo(f"no reply: {name}", [bytes.fromhex(piece) for piece in answer], b"", FRAME, NO_ANSWER)


ANSWERS = [
    # The host has ended: what Stop asks is done, and what another call asks is not.
    undo("closed after undo", [CLOSED], b"closed\n", b"", NOT_DONE),
    Run("refused stop", ["--socket", "PATH", "stop"], STOP, [bytes.fromhex("00000002 e0 22")], b"refused 34\n", b"", NOT_DONE),
    Run("accepted stop", ["--socket", "PATH", "stop"], STOP, [DID], b"done\n"),
    undo("the least and the greatest code: 1", [bytes.fromhex("00000002 e0 01")], b"refused 1\n", b"", NOT_DONE),
    undo("the least and the greatest code: 35", [bytes.fromhex("00000002 e0 23")], b"refused 35\n", b"", NOT_DONE),
    undo("the greatest cause", [bytes.fromhex("00000002 e1 2d")], b"notyet 45\n", b"", NOT_DONE),
    # However the answer is cut.
    undo("byte by byte", [MOVED[at:at + 1] for at in range(len(MOVED))], b"moved 3 5\n"),
    undo("cut in its length", [MOVED[:2], MOVED[2:]], b"moved 3 5\n"),
    undo("a frame behind the answer", [MOVED + DID], b"moved 3 5\n"),
    undo("a fault behind the answer", [MOVED + bytes(8)], b"moved 3 5\n"),
    undo("a frame behind a refusal", [bytes.fromhex("00000002 e0 14") + MOVED], b"refused 20\n", b"", NOT_DONE),
    # The replies to clients have texts too. The longest frame of a host has 64 sectors.
    undo("attached", [bytes.fromhex("00000009 81 0000000000000001")], b"attached 1\n"),
    undo("a read of 64 sectors", [(9 + 64 * 512).to_bytes(4, "big") + b"\x83" + (7).to_bytes(8, "big") + bytes(64 * 512)],
         b"completed 7 read" + 64 * b" 00" + b"\n"),
    # No reply.
    bad("length 0", "00000000"),
    bad("length 0 and more", "00000000 92"),
    bad("length 32,788", "00008014"),
    bad("the greatest length", "ffffffff"),
    bad("a kind of nobody", "00000001 70"),
    bad("a kind of the operator", "00000001 14"),
    bad("a kind of a client", "00000003 01 00 04"),
    bad("a byte too many", "00000002 92 00"),
    bad("a byte too few", "00000001 91"),
    bad("code 0", "00000002 e0 00"),
    bad("code 36", "00000002 e0 24"),
    bad("cause 40", "00000002 e1 28"),
    bad("cause 46", "00000002 e1 2e"),
    bad("a fault before a reply", "00000001 70 00000001 92"),
    bad("a fault byte by byte", "00", "00", "00", "00"),
] + [Run(f"an end after {at} bytes of a frame", ["--socket", "PATH", "undo", "2"], UNDO, [MOVED[:at]] if at else [], b"", FRAME,
         NO_ANSWER, ends=True) for at in range(len(MOVED))]


def refused(name, *words):
    return Run(f"words: {name}", list(words), None, [], b"", REFUSED, BAD_WORDS)


def no_call(*words):
    """Words behind a good option that are no call."""
    return refused(" ".join(words) or "the empty word", "--socket", "PATH", *words)


WORDS = [
    refused("none"),
    refused("no command", "--socket", "PATH"),
    refused("no option", "undo", "2"),
    refused("no path", "--socket"),
    refused("the option behind the command", "undo", "2", "--socket", "PATH"),
    refused("the option twice", "--socket", "PATH", "--socket", "PATH", "undo", "2"),
    refused("the option on both sides", "--socket", "PATH", "undo", "2", "--socket", "PATH"),
    refused("another option", "--socket", "PATH", "--wide", "undo", "2"),
    refused("a part of the option", "--sock", "PATH", "undo", "2"),
    refused("the option in capitals", "--SOCKET", "PATH", "undo", "2"),
    refused("the option with one dash", "-socket", "PATH", "undo", "2"),
    refused("two dashes before the command", "--socket", "PATH", "--", "undo", "2"),
    refused("two dashes behind the command", "--socket", "PATH", "undo", "2", "--"),
    refused("a word behind the version", "--version", "hold"),
    refused("the version twice", "--version", "--version"),
    refused("the version behind the option", "--socket", "PATH", "--version"),
    refused("short version", "-V"),
    refused("a word that is no text", "--socket", "PATH", "undo", "\udcff"),
] + [no_call(*line.split(" ")) for line in [
    "", "undo", "undo x", "undo 2 3", "undo ", "undo +2", "undo -2", "undo 02", "undo 2 ", "undo 4294967296", "undo 0x2", "undo 1_0",
    "undo 2.0", "Undo 2", "UNDO 2", "undone 2", "und 2", " undo 2", "undo  2", "undo\t2", "redo", "redo -0", "redo 00", "redo 4294967296",
    "redo 99999999999999999999", "redo 2 2", "group-make", "group-make 0", "group-make 0 1 2", "group-make 256 1", "group-make 0 65536",
    "group-make 0 01", "group-make +0 1", "group-make 0 -1", "group 0 100", "groupmake 0 100", "group_make 0 100", "group-drop",
    "group-drop 256", "group-drop 1 1", "group-drop 01", "drop 1", "set-weight 1", "set-weight 256 1", "set-weight 1 65536",
    "set-weight 1 1 1", "weight 1 100", "freeze 1", "freeze ", "Freeze", "thaw 0", "thaws", "switch", "switch kyber", "switch Bfq",
    "switch bfq none", "switch 1", "tick 1", "ticks", "hold 1", "hold ", "holds", "release 1", "stop 1", "stop ", "stops", "attach 0 0 4",
    "read 0 1 0 1", "dispatch", "finish 0 1 stored", "help", "leave", "leave 0", "work 0 3", "line 1", "Line", "line ", "queue", "queue 256",
    "sector 05", "show", "show host 1", "show  host", "show seat", "vtime 0 bee", "# line",
]] + [refused("a look in one word", "--socket", "PATH", "show flight"), refused("a look of two lines", "--socket", "PATH", "line\nline")]

def look(words, answer, text, status=DONE, stderr=b"", **more):
    """A look, which is a line of its own, and what the server at `inspect` answers."""
    return Run(f"{words}: {answer}", ["--socket", "PATH", *words.split()], words.encode() + b"\n", answer, text, stderr, status, at="inspect", **more)


LOOKS = [look(words, [f"{words} is told\n".encode()], f"{words} is told\n".encode()) for words in [
    "sector 18446744073709551615", "queue 255", "vtime 0", "vtime 0 rt", "entity 3", "class 3", "line", "show seat 0", "show outbox 1",
    "show queue 2", "show requeued", "show flight", "show service", "show tree 31", "show host", "show state", "show stored 0", "show step 4294967295",
]] + [
    look("line", [b"line ", b"1 2 3", b"\n"], b"line 1 2 3\n"),
    look("line", [b"line 1 2 3\nline 4 5 6\n"], b"line 1 2 3\n"),
    look("sector 5", [b"sector 5 overlay " + 1024 * b"0" + b"\n"], b"sector 5 overlay " + 1024 * b"0" + b"\n"),
    look("show requeued", [b"requeued" + 10_000 * b" 0:store:5+1:2" + b"\n"], b"requeued" + 10_000 * b" 0:store:5+1:2" + b"\n"),
    look("show flight", [b"bad line 1\n"], b"bad line 1\n", NOT_DONE),
    look("line", [b"line 1 2"], b"", NO_ANSWER, FRAME, ends=True),
    look("line", [], b"", NO_ANSWER, FRAME, ends=True),
    look("show host", [b"host bfq\n"], b"", WRITE_FAULT, writes_to_full=True),
    Run("a look at a server that hangs up", ["--socket", "PATH", "line"], b"", [], b"", SOCKET, NO_ANSWER, hangs_up=True, at="inspect"),
    Run("a look where there is no inspect", ["--socket", "PATH", "line"], stderr=SOCKET, status=NO_ANSWER),
    Run("a look at a path in no folder", ["--socket", "operator", "line"], stderr=SOCKET, status=NO_ANSWER),
    Run("a look, by a path of another name", ["--socket=PATH-of-another", "line"], b"line\n", [b"line 0 0 0\n"], b"line 0 0 0\n", at="inspect"),
]

OTHERS = [
    Run("the path behind an equals sign", ["--socket=PATH", "undo", "2"], UNDO, [MOVED], b"moved 3 5\n"),
    Run("help", ["--help"], stdout=b"NAME\n    bfqctl", begins=True),
    Run("short help", ["-h"], stdout=b"NAME\n    bfqctl", begins=True),
    Run("version", ["--version"], stdout=b"bfqctl " + VERSION),
    Run("version with a full output", ["--version"], status=WRITE_FAULT, writes_to_full=True),
    Run("help with a full output", ["--help"], status=WRITE_FAULT, writes_to_full=True),
    Run("a full output", ["--socket", "PATH", "undo", "2"], UNDO, [MOVED], status=WRITE_FAULT, writes_to_full=True),
    Run("a full output and a refusal", ["--socket", "PATH", "undo", "2"], UNDO, [bytes.fromhex("00000002 e0 1f")], status=WRITE_FAULT,
        writes_to_full=True),
    Run("a server that hangs up", ["--socket", "PATH", "undo", "2"], b"", [], b"", SOCKET, NO_ANSWER, hangs_up=True),
    Run("no such path", ["--socket", "/nowhere", "undo", "2"], stderr=SOCKET, status=NO_ANSWER),
    Run("no such path and no call", ["--socket", "/nowhere", "undo", "x"], stderr=REFUSED, status=BAD_WORDS),
    Run("a folder", ["--socket", "/", "undo", "2"], stderr=SOCKET, status=NO_ANSWER),
    Run("a file", ["--socket", __file__, "undo", "2"], stderr=SOCKET, status=NO_ANSWER),
    Run("a path that is too long", ["--socket", "/" + 200 * "x", "undo", "2"], stderr=SOCKET, status=NO_ANSWER),
    Run("the empty path", ["--socket", "", "undo", "2"], stderr=SOCKET, status=NO_ANSWER),
]


class Server(threading.Thread):
    """Meets one program at the path, as a run has it, and keeps what it read."""

    def __init__(self, path, run):
        super().__init__(daemon=True)
        self.run_of = run
        self.read = None
        self.listener = socket.socket(socket.AF_UNIX)
        self.listener.bind(path)
        self.listener.listen()

    def run(self):
        with contextlib.suppress(OSError):
            connection, _ = self.listener.accept()
            with connection:
                connection.settimeout(SECONDS)
                self.read = b""
                if not self.run_of.hangs_up:
                    self.serve(connection)

    def serve(self, connection):
        """Reads so many bytes as are wanted, and answers."""
        while len(self.read) < len(self.run_of.asked or b" ") and (piece := connection.recv(4096)):
            self.read += piece
        for at, piece in enumerate(self.run_of.answer):
            # A pause, so that the program mostly reads the pieces one by one.
            time.sleep(0.002 if at else 0)
            connection.sendall(piece)
        if self.run_of.ends:
            connection.shutdown(socket.SHUT_WR)
        # Nothing more may come.
        while piece := connection.recv(4096):
            self.read += piece

    def end(self):
        """Ends a wait for a program that did not come."""
        with contextlib.suppress(OSError):
            self.listener.shutdown(socket.SHUT_RDWR)
        self.listener.close()
        self.join(SECONDS)


def meet(program, run, folder, limit=resource.RLIM_INFINITY):
    """What the program writes to standard output and standard error, its status, and what the server read; within so much memory."""
    path = os.path.join(folder, run.at)
    server = Server(path, run)
    server.start()
    words = [word.replace("PATH", os.path.join(folder, "operator")) for word in run.words]
    stdout = open("/dev/full", "wb") if run.writes_to_full else subprocess.PIPE
    try:
        ended = subprocess.run([program, *words], stdin=subprocess.DEVNULL, stdout=stdout, stderr=subprocess.PIPE, timeout=SECONDS,
                               preexec_fn=lambda: resource.setrlimit(resource.RLIMIT_AS, (limit, limit)), check=False)
    finally:
        server.end()
        os.unlink(path)
        if run.writes_to_full:
            stdout.close()
    return ended.stdout or b"", ended.stderr, ended.returncode, server.read


def faults_of(program, run, folder):
    """What a run did in another way than wanted."""
    stdout, stderr, status, read = meet(program, run, folder)
    faults = []
    if not (stdout.startswith(run.stdout) if run.begins else stdout == run.stdout):
        faults.append(f"standard output is {stdout[:80]!r} and not {run.stdout[:80]!r}")
    if stderr != run.stderr:
        faults.append(f"standard error is {stderr[:80]!r} and not {run.stderr!r}")
    if status != run.status:
        faults.append(f"the status is {status} and not {run.status}")
    if read != run.asked:
        faults.append(f"the server read {read!r} and not {run.asked!r}")
    return faults


def with_little_memory(program, folder):
    """Under a small limit the program does not start, and under a larger one it finds no memory; then it makes its call."""
    run, wanting = OTHERS[0], False
    for limit in range(1 << 20, 1 << 26, 1 << 14):
        stdout, stderr, status, read = meet(program, run, folder, limit)
        if status == NO_MEMORY:
            wanting = True
            if stdout or stderr != b"memory: none\n" or read not in (None, run.asked):
                return [f"with {limit} bytes stand {stdout!r} and {stderr!r}, and the server read {read!r}"]
        elif status == DONE:
            return [] if wanting and stdout == run.stdout else [f"with {limit} bytes stands {stdout!r}; met before: {wanting}"]
        elif wanting:
            return [f"with {limit} bytes the status is {status}"]
    return ["the program never makes its call"]


def operator_runs(program):
    """The name of each run with what was wrong with it."""
    with tempfile.TemporaryDirectory() as folder:
        runs = [(run.name, functools.partial(faults_of, program, run, folder)) for run in [*COMMANDS, *ANSWERS, *WORDS, *LOOKS, *OTHERS]]
        for name, faults in [*runs, ("little memory", functools.partial(with_little_memory, program, folder))]:
            try:
                yield f"bfqctl: {name}", faults()
            except (OSError, subprocess.SubprocessError) as fault:
                yield f"bfqctl: {name}", [str(fault)]
