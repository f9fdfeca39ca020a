"""A client of NBD for the tests, and a bridge that a test starts. Its numbers are those of the protocol's own document, and none of `clients/`."""

import contextlib
import os
import select
import signal
import socket
import struct
import subprocess
import sys
import tempfile
import time

from served import SECONDS, Talk, Wrong, same

TOP = os.path.dirname(os.path.dirname(os.path.abspath(__file__)))
BRIDGE = os.path.join(TOP, "clients", "bfqnbd.py")
GREETING = bytes.fromhex("4e42444d41474943 49484156454f5054 0003")
IHAVEOPT, REPLY_MAGIC, REQUEST_MAGIC, SIMPLE_MAGIC = 0x49484156454F5054, 0x3E889045565A9, 0x25609513, 0x67446698
EXPORT_NAME, ABORT, LIST, STARTTLS, INFO, GO, STRUCTURED, LIST_META, SET_META = 1, 2, 3, 5, 6, 7, 8, 9, 10
ACK, SERVER, REP_INFO = 1, 2, 3
UNSUP, POLICY, INVALID, UNKNOWN, SHUTDOWN = (0x80000000 + code for code in (1, 2, 3, 6, 7))
READ, WRITE, DISC, FLUSH, TRIM, CACHE, WRITE_ZEROES, BLOCK_STATUS = range(8)
FUA, NO_HOLE, FAST_ZERO = 1, 2, 16
EPERM, EIO, ENOMEM, EINVAL, ENOSPC, ESHUTDOWN = 1, 5, 12, 22, 28, 108
# A bridge is started often, so its modules are compiled once, in a folder of the tests' own.
CACHE_OF_PYTHON = tempfile.TemporaryDirectory(prefix="bfq-")
ENVIRONMENT = {**{name: value for name, value in os.environ.items() if name != "PYTHONDONTWRITEBYTECODE"},
               "PYTHONPYCACHEPREFIX": CACHE_OF_PYTHON.name}
# Flags of an export: those that each has, those of one that takes TRIM, WRITE_ZEROES and FAST_ZERO, and two more that some have.
USUAL, CLEARS, READ_ONLY, MULTI_CONN = 1 | 4 | 8, 32 | 64 | 2048, 2, 256


def option(number, data=b"", magic=IHAVEOPT, length=None):
    return struct.pack(">QII", magic, number, len(data) if length is None else length) + data


def named(name, infos=(), size=None, count=None):
    """The data of INFO and GO."""
    size = len(name) if size is None else size
    return struct.pack(">I", size) + name + struct.pack(">H", len(infos) if count is None else count) + b"".join(
        struct.pack(">H", info) for info in infos)


def request(kind, offset=0, length=0, data=b"", flags=0, cookie=7, magic=REQUEST_MAGIC):
    return struct.pack(">IHHQQI", magic, flags, kind, cookie, offset, length) + data


class Nbd:
    """A connection to a bridge."""

    def __init__(self, path, seconds=SECONDS):
        self.socket = socket.socket(socket.AF_UNIX)
        self.socket.settimeout(seconds)
        self.socket.connect(path)
        self.cookie = 0
        self.size = self.flags = None
        # The requests under way: each with its kind and its length.
        self.going = {}

    def __enter__(self):
        return self

    def __exit__(self, *_):
        self.socket.close()

    def send(self, data):
        self.socket.sendall(data)

    def take(self, count):
        """So many bytes, or fewer if the peer ends."""
        found = bytearray()
        while len(found) < count and (piece := self.socket.recv(count - len(found))):
            found += piece
        return bytes(found)

    def ends(self):
        """The peer must end, and send nothing before. A reset is an end too: what it has not read is lost."""
        with contextlib.suppress(ConnectionError):
            same("the end of a connection", self.take(1), b"")

    def waits(self, seconds=0.3):
        """Nothing may come for so long."""
        if select.select([self.socket], [], [], seconds)[0]:
            raise Wrong(f"something came, that was to wait: {self.take(1)!r}")

    def greet(self, flags=3):
        same("the greeting", self.take(18), GREETING)
        self.send(struct.pack(">I", flags))
        return self

    def reply_of_option(self, number):
        """The kind and the data of a reply to an option."""
        head = self.take(20)
        if len(head) != 20:
            raise Wrong(f"the end of the connection in a reply to option {number}")
        magic, told, kind, length = struct.unpack(">QIII", head)
        same("a reply to an option", (magic, told), (REPLY_MAGIC, number))
        return kind, self.take(length)

    def asks(self, number, data=b""):
        """An option: the replies to it, up to the last one."""
        self.send(option(number, data))
        found = [self.reply_of_option(number)]
        while found[-1][0] in (SERVER, REP_INFO):
            found.append(self.reply_of_option(number))
        return found

    def open(self, name=b"", number=GO):
        """Opens an export, which must go well. Gives this connection."""
        found = self.asks(number, named(name))
        same(f"the replies to GO of {name!r}", [kind for kind, _ in found], [REP_INFO, REP_INFO, ACK])
        self.size, self.flags = struct.unpack(">QH", found[0][1][2:])
        return self

    def begin(self, kind, offset=0, length=0, data=b"", flags=0):
        """Sends a request, and gives its cookie."""
        self.cookie += 1
        self.going[self.cookie] = kind, length
        self.send(request(kind, offset, length or len(data), data, flags, self.cookie))
        return self.cookie

    def reply(self):
        """The next reply: its cookie, its error and its data."""
        head = self.take(16)
        if len(head) != 16:
            raise Wrong("the end of the connection where a reply is waited for")
        magic, error, cookie = struct.unpack(">IIQ", head)
        same("the magic of a reply", magic, SIMPLE_MAGIC)
        kind, length = self.going.pop(cookie)
        data = self.take(length) if kind == READ and not error else b""
        return cookie, error, data

    def ask(self, kind, offset=0, length=0, data=b"", flags=0):
        """One request with its reply: its error and its data."""
        cookie = self.begin(kind, offset, length, data, flags)
        found, error, told = self.reply()
        same("the cookie of a reply", found, cookie)
        return error, told

    def read(self, offset, length):
        error, data = self.ask(READ, offset, length)
        same(f"the error of a read at {offset}", error, 0)
        return data

    def write(self, offset, data, flags=0):
        same(f"the error of a write at {offset}", self.ask(WRITE, offset, data=data, flags=flags)[0], 0)

    def clear(self, kind, offset, length, flags=0):
        """A TRIM, or zeros without bytes."""
        same(f"the error of command {kind} at {offset}", self.ask(kind, offset, length, flags=flags)[0], 0)

    def leave(self):
        """Says that it goes. The bridge must end the connection."""
        self.send(request(DISC))
        self.ends()


class Bridge:
    """A run of the bridge. Standard error is read line by line."""

    def __init__(self, folder, *words, path=None, before="", wanted=None):
        """`before` are lines of Python that run in it first; `wanted` is what it must say once it serves."""
        self.path = path or os.path.join(folder, f"nbd-{time.monotonic_ns()}")
        given = ["--dir", folder, "--socket", self.path, *words]
        if before:
            main = f"import sys; sys.path.insert(0, {os.path.dirname(BRIDGE)!r}); {before}; import bfqnbd; sys.exit(bfqnbd.main())"
            run = [sys.executable, "-c", main, *given]
        else:
            run = [sys.executable, BRIDGE, *given]
        self.heard = b""
        self.process = subprocess.Popen(run, stdin=subprocess.DEVNULL, stdout=subprocess.PIPE, stderr=subprocess.PIPE,
                                        env=ENVIRONMENT)
        line = self.line()
        while line.startswith("bfqnbd: the host has no socket for looks"):
            line = self.line()
        if not line.startswith(f"bfqnbd: serving {self.path}, ") or wanted not in (None, line):
            self.kill()
            raise Wrong(f"the bridge says {line!r} and not {wanted or 'that it serves'!r}")

    def __enter__(self):
        return self

    def __exit__(self, *_):
        self.kill()

    def kill(self):
        """Ends it, as it ends its processes."""
        if self.process.poll() is None:
            self.process.send_signal(signal.SIGTERM)
            with contextlib.suppress(subprocess.TimeoutExpired):
                self.process.wait(SECONDS)
        if self.process.poll() is None:
            self.process.kill()
            self.process.wait()
        self.process.stdout.close()
        self.process.stderr.close()

    def line(self, seconds=SECONDS):
        """The next line of standard error; what there is of it if none comes in time."""
        until = time.monotonic() + seconds
        while b"\n" not in self.heard:
            left = until - time.monotonic()
            if left <= 0 or not select.select([self.process.stderr], [], [], left)[0]:
                break
            if not (piece := os.read(self.process.stderr.fileno(), 4096)):
                break
            self.heard += piece
        line, _, self.heard = self.heard.partition(b"\n")
        return line.decode()

    def says(self, *texts):
        """The next line must have these texts."""
        line = self.line()
        for text in texts:
            if text not in line:
                raise Wrong(f"the bridge says {line!r}, which has no {text!r}")

    def quiet(self):
        """It must have said nothing more."""
        same("what the bridge says besides", self.line(0.3), "")

    def ended(self, status=0):
        """It must end by itself, with this status, and leave no socket."""
        try:
            same("the status of the bridge", self.process.wait(SECONDS), status)
        except subprocess.TimeoutExpired:
            raise Wrong("the bridge does not end") from None
        same("whether its socket is there", os.path.exists(self.path), False)

    def connect(self):
        return Nbd(self.path)

    def opened(self, name=b""):
        """A connection with an export open."""
        return Nbd(self.path).greet().open(name)


def looked(host, line):
    """What a host answers to a look."""
    with Talk(host.path("inspect")) as talk:
        talk.socket.sendall(f"{line}\n".encode())
        found = b""
        while not found.endswith(b"\n"):
            found += talk.take(1)
    return found.decode().rstrip("\n")
