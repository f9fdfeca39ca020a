"""tools/trace: what commands store becomes the client that is worked out by hand, byte for byte; what it refuses; and the traces of
examples/futures/transfer, whose futures have the known contents.

A trace needs strace, and leave to use it. Where one of them lacks these runs are skipped, but for those of the traces that are there.
"""

import os
import re
import shlex
import shutil
import subprocess
import sys
import tempfile
from collections import namedtuple

from tools import BAD_INPUT, NO_PROGRAM, NOT_WANTED, SECONDS, TOOLS, differences, started, written

TOP = os.path.dirname(os.path.dirname(os.path.abspath(__file__)))
FUTURES = os.path.join(TOP, "examples", "futures")
SECTOR = 512

# A trace: its words, what the command does with numbers f and g of open files x and y, and what comes of it. The payload is told by the
# byte of which each sector is full, up to where it is zeros.
Case = namedtuple("Case", "name words acts clients payload told")
OPENED = "import os; f = os.open('x', os.O_RDWR); g = os.open('y', os.O_RDWR | os.O_CREAT); "
# A file x of 600 bytes, and no y. With 2 sectors of room they have 4 and 2.
WORDS = ["file", "x", "y", "--into", "told", "--room", "2"]
CASES = [
    Case("a sector that is written twice is sent once", WORDS, "os.pwrite(f, b'a' * 512, 0); os.pwrite(f, b'b' * 512, 0); os.fsync(f)",
         "write 0 1 @0\n# sync 1, of x\nsync\n", b"b" * 512, "1 sectors written, 1 syncs\n"),
    Case("by their place in the file, not by time", WORDS, "os.pwrite(f, b'a' * 512, 1024); os.pwrite(f, b'b' * 512, 0); os.fdatasync(f)",
         "write 0 1 @0\nwrite 2 1 @1\n# sync 1, of x\nsync\n", b"b" * 512 + b"a" * 512, "2 sectors written, 1 syncs\n"),
    Case("parts of sectors", WORDS, "os.pwrite(f, b'a' * 100, 500); os.fsync(f)", "write 0 1 @0\nwrite 1 1 @1\n# sync 1, of x\nsync\n",
         b"\0" * 500 + b"a" * 100 + b"\0" * 424, "2 sectors written, 1 syncs\n"),
    Case("where a file stands", WORDS, "os.lseek(f, 512, 0); os.write(f, b'a' * 512); os.write(f, b'b' * 512); os.fsync(f)",
         "write 1 1 @0\nwrite 2 1 @1\n# sync 1, of x\nsync\n", b"a" * 512 + b"b" * 512, "2 sectors written, 1 syncs\n"),
    Case("two files, each synced by itself", WORDS, "os.pwrite(f, b'a' * 512, 0); os.pwrite(g, b'b' * 512, 512); os.fsync(g); os.fsync(f)",
         "write 5 1 @0\n# sync 1, of y\nsync\nwrite 0 1 @1\n# sync 2, of x\nsync\n", b"b" * 512 + b"a" * 512, "2 sectors written, 2 syncs\n"),
    Case("a sync of all", WORDS, "os.pwrite(f, b'a' * 512, 0); os.pwrite(g, b'b' * 512, 0); os.sync()",
         "write 0 1 @0\nwrite 4 1 @1\n# sync 1, of all files\nsync\n", b"a" * 512 + b"b" * 512, "2 sectors written, 1 syncs\n"),
    Case("what is not synced", WORDS, "os.pwrite(f, b'a' * 512, 0); os.fsync(f); os.pwrite(f, b'b' * 512, 512)",
         "write 0 1 @0\n# sync 1, of x\nsync\nwrite 1 1 @1\n", b"a" * 512 + b"b" * 512, "2 sectors written, 1 syncs\n"),
    Case("a sync that is forgotten", [*WORDS, "--forget", "1"],
         "os.pwrite(f, b'a' * 512, 0); os.fsync(f); os.pwrite(f, b'b' * 512, 512); os.fsync(f)",
         "write 0 1 @0\n# sync 1, of x, is forgotten\nwrite 1 1 @1\n# sync 2, of x\nsync\n", b"a" * 512 + b"b" * 512,
         "2 sectors written, 2 syncs\n"),
    Case("all of it late", [*WORDS, "--late"], "os.pwrite(f, b'a' * 512, 0); os.fsync(f); os.pwrite(f, b'b' * 512, 0); os.fsync(f)",
         "write 0 1 @0\n", b"b" * 512, "1 sectors written, 2 syncs\n"),
    Case("more than a client is owed", ["file", "x", "y", "--into", "told"], "os.pwrite(f, b'a' * 512 * 34, 0); os.fsync(f)",
         "".join(f"{'reap' + chr(10) if at >= 32 else ''}write {at} 1 @{at}\n" for at in range(34)) + "# sync 1, of x\nsync\n",
         b"a" * 512 * 34, "34 sectors written, 1 syncs\n"),
    Case("by a process of its own", WORDS, "os.fork() or (os.pwrite(f, b'a' * 512, 0), os.fsync(f)); os.getpid()",
         "write 0 1 @0\n# sync 1, of x\nsync\n", b"a" * 512, "1 sectors written, 1 syncs\n"),
]
# What a command does that no trace can tell, and the call that is named.
UNTOLD = [("os.ftruncate(f, 0)", "ftruncate"), ("os.truncate('x', 9)", "truncate"), ("os.unlink('x')", "unlink"), ("os.rename('x', 'z')", "rename"),
          ("os.writev(f, [b'a', b'b'])", "writev"), ("import mmap; mmap.mmap(f, 512)[0] = 7", "mmap"),
          ("os.open('x', os.O_WRONLY | os.O_SYNC)", "openat with O_SYNC"), ("os.open('x', os.O_WRONLY | os.O_TRUNC)", "openat with O_TRUNC")]
# Bad words, what is told of them, and the status.
BAD = [
    (["file", "x", "--into", "told"], "there is no command: it stands behind --\n", BAD_INPUT),
    (["sqlite", "x", "y", "--into", "told", "--", "true"], "sqlite has one DATABASE\n", BAD_INPUT),
    (["file", "x", "--into", ".", "--", "true"], ".: Directory not empty\n", BAD_INPUT),
    (["file", ".", "--into", "told", "--", "true"], ".: no regular file\n", BAD_INPUT),
    (["file", "x", "--into", "told", "--", "false"], "false has ended with status 1\n", NOT_WANTED),
    (["file", "x", "--into", "told", "--", "true"], "true has written nothing into x\n", NOT_WANTED),
    (["file", "x", "--forget", "1,3", "--into", "told", "--", sys.executable, "-c", OPENED + "os.pwrite(f, b'a', 0); os.fsync(f); os.fsync(f)"],
     "--forget 3: there are 2 syncs\n", BAD_INPUT),
    (["file", "x", "--room", "1", "--into", "told", "--", sys.executable, "-c", OPENED + "os.pwrite(f, b'a', 1536)"],
     "FOLDER/x: it grows past the 3 sectors that it has: give --room\n", BAD_INPUT),
]
# Traces that are there: the syncs that are left out, how many contents there are, and how many of them lose money. Other programs, which share
# no code with the tool, found them over a trace of the same calls.
Known = namedtuple("Known", "trace forgotten contents fail")
KNOWN = [Known("full", None, 41, 0), Known("full", 1, 63, 4), Known("full", 2, 48, 4), Known("full", 3, 47, 4), Known("full", 4, 41, 0),
         Known("off", None, 128, 64)]


def traced(folder, words, command=()):
    """A trace over a file x of 600 bytes: what it tells, and its status."""
    written(folder, "x", bytes(600))
    with started([os.path.join(TOOLS, "trace"), *words, *command], folder) as ran:
        stdout, stderr = (text.decode() for text in ran.communicate(timeout=SECONDS))
    return stdout, stderr, ran.returncode


def case_faults(it):
    with tempfile.TemporaryDirectory() as folder:
        found = traced(folder, it.words, ["--", sys.executable, "-c", OPENED + it.acts])
        yield from differences("what is told", found, (it.told, "", 0))
        told = {}
        for name in ("clients", "payload", "disk.img"):
            with open(os.path.join(folder, "told", name), "rb") as file:
                told[name] = file.read()
        yield from differences("clients", told["clients"].decode(), f"seat 0\n{it.clients}")
        yield from differences("payload", told["payload"], it.payload)
        yield from differences("whether the image is zeros", any(told["disk.img"]), False)


def untold_faults():
    for act, call in UNTOLD:
        with tempfile.TemporaryDirectory() as folder:
            found = traced(folder, WORDS, ["--", sys.executable, "-c", OPENED + act])
            wanted = f"{folder}/x: the command makes a call that a trace cannot tell: {call}\n"
            yield from differences(act, found, ("", wanted, NO_PROGRAM))
            yield from differences(f"{act}: whether something is made", os.path.exists(os.path.join(folder, "told")), False)


def bad_faults():
    for words, said, status in BAD:
        with tempfile.TemporaryDirectory() as folder:
            found = traced(folder, words)
            yield from differences(shlex.join(words), found, ("", said.replace("FOLDER", os.path.realpath(folder)), status))


def known_faults(program, it):
    """The futures of a trace that is there have the known contents, and the command finds the known failures."""
    with open(os.path.join(FUTURES, "transfer", f"{it.trace}.clients"), encoding="ascii") as file:
        text = file.read()
    if it.forgotten:
        text, count = re.subn(rf"(# sync {it.forgotten}, of .*)\nsync\n", r"\1, is forgotten\n", text)
        yield from differences("the sync", count, 1)
    with tempfile.TemporaryDirectory() as folder:
        written(folder, "clients", text)
        words = [os.path.join(TOOLS, "futures"), "--program", program, "clients", "--payload", os.path.join(FUTURES, "transfer", f"{it.trace}.payload"),
                 "--image", os.path.join(FUTURES, "transfer", f"{it.trace}.img"), "--check", os.path.join(FUTURES, "accounts.py")]
        with started([*words, "--", "--scheduler", "none", "--tags", "8"], folder) as ran:
            stdout, stderr = (text.decode() for text in ran.communicate(timeout=4 * SECONDS))
    line = f"\n{it.contents} contents checked: {it.fail} fail"
    yield from [] if line in stdout and ran.returncode == bool(it.fail) else [f"{stdout!r} and {stderr!r}, with status {ran.returncode}, and not {line!r}"]


def can_trace():
    """Whether strace is there, and may be used."""
    if not shutil.which("strace"):
        return False
    return subprocess.run(["strace", "-o", os.devnull, "true"], capture_output=True, check=False).returncode == 0


def trace_runs(program):
    """The name of each run, and what it did in another way than wanted."""
    for it in KNOWN:
        name = f"trace: {it.trace}{f' without sync {it.forgotten}' if it.forgotten else ''}"
        yield name, [*known_faults(os.path.abspath(program), it)]
    if not can_trace():
        print("skipped: traces of commands: no strace here, or no leave to use it")
        return
    for it in CASES:
        yield f"trace: {it.name}", [*case_faults(it)]
    yield "trace: what it cannot tell", [*untold_faults()]
    yield "trace: bad input", [*bad_faults()]
