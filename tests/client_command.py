"""The command of the client, and its page: how the command ends, and that what docs/CLIENT.md shows is what comes of it.

Expected texts and statuses come from docs/FORMATS.md and docs/CLIENT.md.
"""

import json
import os
import pty
import re
import shutil
import signal
import socket
import subprocess
import sys
import tempfile
import threading

from client import SECTORS, Host, taken
from lessons import DIFFERS, PATH, Shell, plain
from served import ATTACH, HOLD, RELEASE, SECONDS, SECTOR, VERSION, Wrong, same, sector_of

TOP = os.path.dirname(os.path.dirname(os.path.abspath(__file__)))
COMMAND = os.path.join(TOP, "clients", "bfqclient.py")
PAGE = os.path.join(TOP, "docs", "CLIENT.md")
DONE, NOT_DONE, BAD_WORDS, NO_CONNECTION = 0, 1, 2, 3
LOAD = re.compile(r"([1-9]\d*) done in \d+\.\d s: \d+ a second, half within \d+ us, 99 of 100 within \d+ us\n")
PLAIN = {**os.environ, "PYTHONDONTWRITEBYTECODE": "1"}
# How many reads a played host answers before it closes.
ANSWERED = 500


def command(path, *words, stdin=b"", before=()):
    """What a run of the command prints to standard output and standard error, and its status."""
    given = [sys.executable, COMMAND, *before, path, *words]
    ended = subprocess.run(given, input=stdin, capture_output=True, timeout=SECONDS, check=False, env=PLAIN)
    return ended.stdout, ended.stderr.decode(), ended.returncode


def ends_as_it_should(host):
    """The words of the command: what each prints, and its status."""
    path = host.path("client0")
    out_of_range = (b"", "bfqclient: refused 14\n", NOT_DONE)
    same("a write", command(path, "write", "5", stdin=b"x" * 100 * SECTOR), (b"", "", DONE))
    same("a read", command(path, "read", "4", "102"), (sector_of(4) + b"x" * 100 * SECTOR + sector_of(105), "", DONE))
    same("a read of nothing", command(path, "read", "4", "0"), (b"", "", DONE))
    same("a write of nothing", command(path, "write", "4"), (b"", "", DONE))
    same("a read behind the end", command(path, "read", str(SECTORS), "1"), out_of_range)
    same("a read across the end", command(path, "read", "0", str(SECTORS + 100)), out_of_range)
    same("a write across the end", command(path, "write", str(SECTORS - 1), stdin=bytes(2 * SECTOR)), out_of_range)
    same("no whole sectors", command(path, "write", "5", stdin=b"x"),
         (b"", "bfqclient: a write has whole sectors of 512 bytes\n", NOT_DONE))
    same("no group", command(path, "read", "4", "1", before=("--group", "3")), (b"", "bfqclient: refused 5\n", NOT_DONE))
    same("no priority", command(path, "read", "4", "1", before=("--prio", "8"))[2], NOT_DONE)
    for words in (("read", str(2**64), "1"), ("write", str(2**64)), ("discard", str(2**64), "1")):
        same(" ".join(words), command(path, *words), (b"", "bfqclient: a number does not fit its field\n", BAD_WORDS))
    for option in ("--group", "--prio"):
        same(option, command(path, "read", "4", "1", before=(option, "256")),
             (b"", "bfqclient: a number does not fit its field\n", BAD_WORDS))
    load = ("load", "--sectors", "64")
    for words in ((), ("read",), ("read", "1"), ("read", "-1", "1"), ("read", "x", "1"), ("erase",), ("load",), ("load", "--sectors", "7"),
                  (*load, "--depth", "33"), (*load, "--size", "65"), ("check",), ("discard",), ("discard", "1"), ("discard", "1", "x"),
                  (*load, "--discards", "101"), (*load, "--discards", "-1"), (*load, "--writes", "60", "--discards", "41")):
        same(" ".join(words), command(path, *words)[::2], (b"", BAD_WORDS))
    same("no class", command(path, "read", "4", "1", before=("--class", "best"))[::2], (b"", BAD_WORDS))
    same("no image", command(path, "check", "--image", "/nowhere")[::2], (b"", BAD_WORDS))
    same("nobody there", command(host.path("none"), "read", "4", "1")[::2], (b"", NO_CONNECTION))
    for words in (["--help"], *(["x", name, "--help"] for name in ("read", "write", "discard", "load", "check"))):
        stdout, stderr, status = command(*words)
        same(f"the help of {words}", (stdout.startswith(b"usage: bfqclient.py"), stderr, status), (True, "", DONE))
    for name in ("depth", "seconds", "size", "seed", "sectors", "writes", "discards", "json"):
        same(f"--{name} in the help", f"--{name}" in command("x", "load", "--help")[0].decode(), True)
    host.stop()


def loads_and_checks(host):
    """What is told of a load is the same in words and in JSON."""
    path = host.path("client0")
    words = ("load", "--depth", "4", "--seconds", "0.5", "--sectors", "64", "--writes", "50", "--seed", "3")
    stdout, stderr, status = command(path, *words)
    same("a load", (LOAD.fullmatch(stdout.decode()) is not None, stderr, status), (True, "", DONE))
    stdout, stderr, status = command(path, *words, "--json")
    told = json.loads(stdout)
    same("a load in JSON", (stderr, status, told["error"], told["reads"] + told["writes"]), ("", DONE, None, told["done"]))
    same("whether all are there", min(told[it] for it in ("reads", "writes", "half_within_us", "per_second")) > 0, True)
    same("the order of times", told["half_within_us"] <= told["99_of_100_within_us"] <= told["seconds"] * 1e6, True)
    stdout, stderr, status = command(path, "check", "--image", host.image, "--depth", "8", "--seconds", "0.5")
    same("a check", (re.fullmatch(r"\d+ done, all as they should be\n", stdout.decode()) is not None, stderr, status), (True, "", DONE))
    host.stop()


def discards(host):
    """The command `discard`, and shares of discards in a load and in a check, which knows the zeros."""
    path = host.path("client0")
    same("a discard", command(path, "discard", "5", "100"), (b"", "", DONE))
    same("a read", command(path, "read", "4", "102"), (sector_of(4) + bytes(100 * SECTOR) + sector_of(105), "", DONE))
    same("a discard of nothing", command(path, "discard", "4", "0"), (b"", "", DONE))
    same("a discard across the end", command(path, "discard", str(SECTORS - 1), "2"), (b"", "bfqclient: refused 14\n", NOT_DONE))
    same("what was before the end", command(path, "read", str(SECTORS - 1), "1"), (sector_of(SECTORS - 1), "", DONE))
    stdout, stderr, status = command(path, "load", "--depth", "4", "--seconds", "1", "--sectors", "64", "--writes", "30", "--discards", "40",
                                     "--seed", "3", "--json")
    told = json.loads(stdout)
    same("a load", (stderr, status, told["error"], told["reads"] + told["writes"] + told["discards"]), ("", DONE, None, told["done"]))
    same("whether all are there", min(told[it] for it in ("reads", "writes", "discards")) > 0, True)
    for share in ("20", "100"):
        stdout, stderr, status = command(path, "check", "--image", host.image, "--depth", "8", "--seconds", "1", "--discards", share)
        same("a check", (re.fullmatch(r"\d+ done, all as they should be\n", stdout.decode()) is not None, stderr, status), (True, "", DONE))
    host.stop()


def versions(folder):
    """Version 2 is used for a discard and for a class other than best effort alone."""
    path = os.path.join(folder, "client0")
    rt, idle, best = "00000004 08 00 04 01", "00000004 08 00 04 03", ATTACH
    image = os.path.join(folder, "image")
    with open(image, "wb") as file:
        file.write(bytes(64 * SECTOR))
    load, check = ("load", "--sectors", "64"), ("check", "--image", image)
    for before, words, begins in [((), ("read", "0", "1"), best), (("--class", "be"), ("write", "0"), best), ((), load, best),
                                  ((), (*load, "--discards", "0"), best), ((), check, best), ((), ("discard", "0", "1"), VERSION + best),
                                  ((), (*load, "--discards", "1"), VERSION + best), ((), (*check, "--discards", "50"), VERSION + best),
                                  (("--class", "rt"), ("read", "0", "1"), VERSION + rt),
                                  (("--class", "idle"), ("discard", "0", "1"), VERSION + idle)]:
        with socket.socket(socket.AF_UNIX) as listener:
            listener.bind(path)
            listener.listen()
            listener.settimeout(SECONDS)
            with subprocess.Popen([sys.executable, COMMAND, *before, path, *words], stdin=subprocess.DEVNULL, stdout=subprocess.PIPE,
                                  stderr=subprocess.PIPE, env=PLAIN) as process:
                connection, _ = listener.accept()
                with connection:
                    connection.settimeout(SECONDS)
                    wanted = bytes.fromhex(begins)
                    same(f"what {before + words} begins with", taken(connection, len(wanted)).hex(), wanted.hex())
                said = process.communicate(timeout=SECONDS)[1].decode()
        hint = "; perhaps the host does not know version 2 of the frames" if begins != best else ""
        same("the end", (said, process.returncode), (f"bfqclient: the host closed the connection{hint}\n", NO_CONNECTION))
        os.unlink(path)


class Answers(threading.Thread):
    """A host that the test plays: it answers an Attach and so many reads of 8 sectors, and closes."""

    def __init__(self, path):
        super().__init__(daemon=True)
        self.listener = socket.socket(socket.AF_UNIX)
        self.listener.bind(path)
        self.listener.listen()
        self.listener.settimeout(SECONDS)

    def run(self):
        connection, _ = self.listener.accept()
        with self.listener, connection:
            connection.settimeout(SECONDS)
            taken(connection, len(bytes.fromhex(ATTACH)))
            connection.sendall(bytes.fromhex("00000009 81 0000000000000001"))
            for bio in range(1, ANSWERED + 1):
                # A fetch and a Reap: 23 bytes and 13.
                taken(connection, 36)
                connection.sendall(bytes.fromhex(f"00000009 82 {bio:016x} {9 + 8 * SECTOR:08x} 83 {bio:016x}") + bytes(8 * SECTOR))
            taken(connection, 36)


def counts_survive(folder):
    """A host goes after 500 reads: the counts are told all the same, and what happened; the status is that of the fault."""
    path = os.path.join(folder, "client0")
    Answers(path).start()
    stdout, stderr, status = command(path, "load", "--sectors", "64", "--seconds", str(SECONDS), "--json")
    told = json.loads(stdout)
    same("what is counted", [told[it] for it in ("done", "reads", "writes", "discards")], [ANSWERED, ANSWERED, 0, 0])
    same("the error", [told["error"][it] for it in ("exception", "text", "kind", "code")],
         ["Lost", "the host closed the connection", "run", None])
    same("the end", (stderr, status), ("bfqclient: the host closed the connection\n", NO_CONNECTION))
    stdout, stderr, status = command(os.path.join(folder, "none"), "load", "--sectors", "64", "--json")
    told = json.loads(stdout)
    same("nobody there", (told["done"], told["error"]["exception"], told["error"]["kind"], status), (0, "Lost", "connect", NO_CONNECTION))


def interrupted(host):
    """An interrupt ends a load; what was done by then is told in JSON."""
    # Where this test runs in the background an interrupt may be ignored, which its children take over.
    words = [sys.executable, COMMAND, host.path("client0"), "load", "--sectors", "64", "--seconds", str(SECONDS), "--json"]
    with subprocess.Popen(words, stdout=subprocess.PIPE, stderr=subprocess.PIPE, env=PLAIN,
                          preexec_fn=lambda: signal.signal(signal.SIGINT, signal.default_int_handler)) as load:
        with host.operator() as operator:
            # Once ten steps stand it is loading.
            steps = 0
            while steps < 10:
                operator.send(HOLD)
                steps = int.from_bytes(operator.reply()[1:5], "big")
                operator.asks((RELEASE, "92"))
        load.send_signal(signal.SIGINT)
        stdout, stderr = load.communicate(timeout=SECONDS)
    told = json.loads(stdout)
    same("the end", (stderr, load.returncode, told["error"]["exception"], told["done"] > 0), (b"", 130, "KeyboardInterrupt", True))
    host.stop()


def on_terminal(*words):
    """What a run of the command shows on a terminal, and its status."""
    near, far = pty.openpty()
    with subprocess.Popen([sys.executable, COMMAND, *words], stdin=far, stdout=far, stderr=far, env=PLAIN) as process:
        os.close(far)
        shown = b""
        try:
            while piece := os.read(near, 4096):
                shown += piece
        except OSError:
            # So a terminal tells that nobody writes to it any more.
            pass
        os.close(near)
        return shown.replace(b"\r\n", b"\n"), process.wait(SECONDS)


def at_a_terminal(host):
    """What is read ends with a line end, and a refusal is told with its name and sentence."""
    same("a write", command(host.path("client0"), "write", "5", stdin=b"x" * SECTOR), (b"", "", DONE))
    same("a read", on_terminal(host.path("client0"), "read", "5", "1"), (b"x" * SECTOR + b"\n", DONE))
    same("a refusal", on_terminal(host.path("client0"), "read", "600", "1"),
         (b"bfqclient: refused 14\nbfqclient: OutOfRange: the last of these sectors is past the end of the device\n", NOT_DONE))
    host.stop()


def parts_of_page():
    """The page in pieces: what a shell is given, what that must print, and whether the numbers differ. A block of Python is a file."""
    with open(PAGE, encoding="utf-8") as file:
        parts = re.split(r"(?m)^(?=## )", file.read())
    for part in parts:
        pieces = []
        for block, row in re.findall(r"(?ms)^```python\n(.*?)^```$|^    (.*?)$", part):
            if block:
                pieces.append((f"cat > $D/block.py << 'EOF'\n{block}EOF\nPYTHONPATH=clients python3 $D/block.py", []))
            elif row.startswith("$ "):
                pieces.append((row[2:], []))
            elif pieces:
                pieces[-1][1].append(row)
        for given, rows in pieces:
            yield given, rows, DIFFERS in part


def shown_on_the_page(programs, folder):
    """What the page shows is what comes of it, from its first row to its last."""
    shell, count = Shell(programs, folder, PATH), 0
    try:
        for given, rows, differs in parts_of_page():
            same(given[-100:], plain(shell.run(given, len(rows)), differs), plain(rows, differs))
            count += 1
    finally:
        shell.end()
    same(f"whether {count} are enough", count >= 12, True)


def command_runs(program, operator):
    """The name of each run with what was wrong with it."""
    def with_host(act, folder):
        with Host(program, folder) as host:
            act(host)

    runs = [(act.__name__, lambda folder, act=act: with_host(act, folder))
            for act in (ends_as_it_should, loads_and_checks, discards, interrupted, at_a_terminal)]
    runs += [("versions", versions), ("counts_survive", counts_survive), ("docs/CLIENT.md", lambda folder: shown_on_the_page((program, operator), folder))]
    for name, run in runs:
        folder = tempfile.mkdtemp(prefix="bfq-")
        try:
            run(folder)
            yield f"the client's command: {name}", []
        except (Wrong, OSError, ValueError, KeyError, subprocess.SubprocessError) as fault:
            yield f"the client's command: {name}", [f"{type(fault).__name__}: {fault}"]
        finally:
            shutil.rmtree(folder)
