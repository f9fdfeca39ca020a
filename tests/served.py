"""A host that serves, started by a test, and plain connections to its sockets.

The frames stand here as bytes in hexadecimal, by the tables of docs/FORMATS.md, and not by a codec of the repository.
"""

import contextlib
import os
import select
import socket
import subprocess
import time

SECONDS = 30
SECTOR = 512

VERSION = "00000002 07 02"
ATTACH = "00000003 01 00 04"
REAL_TIME, IDLE, BEST_EFFORT = "00000004 08 00 07 01", "00000004 08 00 04 03", "00000004 08 00 04 02"
LEAVE = "00000001 05"
LEFT = "86"
FREEZE, THAW, HOLD, RELEASE, STOP = "00000001 14", "00000001 15", "00000001 18", "00000001 19", "00000001 1c"
DONE, CLOSED = "92", "9f"
TAKEN, NOT_HELD, FULL = "e0 02", "e0 1c", "e0 21"


def undo(k):
    return f"00000005 1a {k:08x}"


def redo(k):
    return f"00000005 1b {k:08x}"


def fetch(session, start, count):
    return f"00000013 02 {session:016x} {start:016x} {count:04x}"


def store(session, start, count, byte):
    return f"{19 + count * SECTOR:08x} 03 {session:016x} {start:016x} {count:04x}" + count * SECTOR * f"{byte:02x}"


def discard(session, start, count):
    return f"00000013 06 {session:016x} {start:016x} {count:04x}"


def reap(session):
    return f"00000009 04 {session:016x}"


def attached(session):
    return f"81 {session:016x}"


def queued(bio):
    return f"82 {bio:016x}"


def read(bio, data):
    return f"83 {bio:016x}" + data.hex()


def failed(bio):
    """A read of the device failed."""
    return f"85 {bio:016x} 02"


def written(bio):
    return f"84 {bio:016x}"


def discarded(bio):
    return f"87 {bio:016x}"


def moved(cursor, length):
    return f"93 {cursor:08x} {length:08x}"


class Wrong(Exception):
    """What a test found in another way than wanted."""


def same(what, found, wanted):
    """Bytes or texts that must be the same."""
    if found != wanted:
        raise Wrong(f"{what}: {str(found)[:160]} and not {str(wanted)[:160]}")


class Talk:
    """A connection to a path."""

    def __init__(self, path):
        self.socket = socket.socket(socket.AF_UNIX)
        self.socket.settimeout(SECONDS)
        self.socket.connect(path)

    def __enter__(self):
        return self

    def __exit__(self, *_):
        self.socket.close()

    def send(self, *frames):
        for frame in frames:
            self.socket.sendall(bytes.fromhex(frame))

    def take(self, size):
        """So many bytes, or fewer if the peer ends."""
        found = b""
        while len(found) < size and (piece := self.socket.recv(size - len(found))):
            found += piece
        return found

    def reply(self):
        """What follows the length of the next frame; nothing if the peer ends."""
        length = self.take(4)
        return self.take(int.from_bytes(length, "big")) if len(length) == 4 else length

    def asks(self, *pairs):
        """Each frame is sent, and must be answered so before the next is sent."""
        for frame, wanted in pairs:
            self.send(frame)
            self.hears(wanted)

    def hears(self, *wanted):
        for reply in wanted:
            same("a reply", self.reply().hex(), reply.replace(" ", ""))

    def waits(self, seconds=0.2):
        """Nothing may come for so long: what was sent waits."""
        if select.select([self.socket], [], [], seconds)[0]:
            raise Wrong(f"an answer to what is to wait: {self.reply().hex()}")

    def ends(self):
        """The peer must end, and send nothing before."""
        same("the end of a connection", self.take(1), b"")


class Served:
    """A run of `bfqhost serve` over an image, with its sockets in a folder. Standard error is read line by line."""

    def __init__(self, program, image, folder, *words, clients=4, workers=2, limits=None, env=None):
        self.folder = folder
        given = ["serve", "--image", image, "--dir", folder, "--clients", str(clients), "--workers", str(workers), *words]
        self.process = subprocess.Popen([program, *given], stdin=subprocess.DEVNULL, stdout=subprocess.PIPE, stderr=subprocess.PIPE,
                                        preexec_fn=limits, env=env)
        self.heard = b""
        wanted = f"serving {folder}, {clients} clients, {workers} workers"
        if (line := self.line()) != wanted:
            self.kill()
            raise Wrong(f"standard error has {line!r} and not {wanted!r}")

    def __enter__(self):
        return self

    def __exit__(self, *_):
        self.kill()

    def kill(self):
        if self.process.poll() is None:
            self.process.kill()
            self.process.wait()
        self.process.stdout.close()
        self.process.stderr.close()

    def line(self, seconds=SECONDS):
        """The next line of standard error; what there is of it if none comes in time."""
        until = time.monotonic() + seconds
        while b"\n" not in self.heard:
            left = until - time.monotonic()
            if left <= 0 or not select.select([self.process.stderr], [], [], left)[0]:
                break
            if not (piece := os.read(self.process.stderr.fileno(), 4096)):
                break
            self.heard += piece
        line, _, self.heard = self.heard.partition(b"\n")
        return line.decode()

    def path(self, name):
        return os.path.join(self.folder, name)

    def talk(self, number):
        """A connection to a client's path."""
        return Talk(self.path(f"client{number}"))

    def operator(self):
        return Talk(self.path("operator"))

    def operates(self, *pairs):
        """Calls of the operator on a connection of their own, each with its reply."""
        with self.operator() as operator:
            operator.asks(*pairs)

    def stop(self):
        """Stops the host, which must say that it has ended, and leave nothing behind."""
        with self.operator() as operator:
            operator.asks((STOP, CLOSED))
            operator.ends()
        self.ended()

    def ended(self, status=0, said=b""):
        """The run must end with this status, with this more said and no socket left."""
        try:
            found = self.process.wait(SECONDS)
        except subprocess.TimeoutExpired:
            raise Wrong("the host does not end") from None
        same("the status", found, status)
        same("standard output", self.process.stdout.read(), b"")
        same("standard error", self.heard + self.process.stderr.read(), said)
        same("the folder", [name for name in os.listdir(self.folder) if name != "image"], [])

    def connections(self):
        """How many files and sockets it has open."""
        return len(os.listdir(f"/proc/{self.process.pid}/fd"))

    def lets_go(self, count):
        """Waits till it has no more open than so many: then a connection that has ended was left, and its Leave is made."""
        until = time.monotonic() + SECONDS
        while (found := self.connections()) > count:
            if time.monotonic() > until:
                raise Wrong(f"{found} files and sockets are open, and {count} were")
            time.sleep(0.01)

    def used(self):
        """Seconds of processor time so far."""
        with open(f"/proc/{self.process.pid}/stat", encoding="ascii") as file:
            fields = file.read().rpartition(")")[2].split()
        return (int(fields[11]) + int(fields[12])) / os.sysconf("SC_CLK_TCK")


def image_of(folder, sectors=64):
    """An image in a folder: each sector has its own number, modulo 251, in all of its bytes."""
    path = os.path.join(folder, "image")
    with open(path, "wb") as file:
        file.write(b"".join(bytes([number % 251]) * SECTOR for number in range(sectors)))
    return path


def sector_of(number):
    """What such an image has in a sector."""
    return bytes([number % 251]) * SECTOR


@contextlib.contextmanager
def unended(process):
    """A process that is killed if it still runs at the end."""
    try:
        yield process
    finally:
        if process.poll() is None:
            process.kill()
        process.wait()
