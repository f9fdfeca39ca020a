#!/usr/bin/env python3
"""A host that serves with a socket for looks and a record, for trials of what stands on them: `bfqhost sim` behind the sockets of `bfqhost
serve`, and behind what `bfqhost replay` reads.

    BFQ_SIM=PROGRAM tests/standing_in.py serve --image FILE --dir DIR [--clients N] [--workers N] [--no-inspect] [--record FILE] [OPTION]...
    BFQ_SIM=PROGRAM tests/standing_in.py replay FILE [--image FILE] [--history N] [--to N]

It knows the frames of docs/FORMATS.md for a client and the operator, and each write has one byte, repeated. A read or write is dispatched
and done as soon as it is queued. `DIR/inspect` answers the lines of a script that ask and change nothing. A record has the accepted lines
as text.
"""

import argparse
import os
import signal
import socket
import struct
import sys
import threading
import time

TOP = os.path.dirname(os.path.dirname(os.path.abspath(__file__)))
sys.dont_write_bytecode = True
sys.path.append(os.path.join(TOP, "tools"))
import grammar  # noqa: E402
from host import Host  # noqa: E402

SECTOR = 512
# How long an inspector may ask nothing and take nothing: seconds.
PATIENCE = 1
# The operator's kinds: the form of the fields, and the line of a script.
CALLS = {0x11: (">BH", "group {} {}"), 0x12: (">B", "drop {}"), 0x13: (">BH", "weight {} {}"), 0x14: (">", "freeze"), 0x15: (">", "thaw"),
         0x16: (">B", "switch {}"), 0x17: (">", "tick"), 0x18: (">", "hold"), 0x19: (">", "release"), 0x1A: (">I", "undo {}"),
         0x1B: (">I", "redo {}")}
STOP, LEAVE = 0x1C, 0x05


class Machine:
    """The machine behind the sockets."""

    def __init__(self, host, record):
        self.host = host
        self.record = record
        self.lock = threading.Lock()

    def call(self, line):
        """The answer to a line. If it is a call that is accepted it is recorded."""
        answer = self.host.ask(line)
        if self.record and line.split(" ")[0] not in grammar.QUERIES and not grammar.is_refusal(answer):
            self.record.write(f"{line}\n")
            self.record.flush()
        return answer

    def ask(self, line, waits=False):
        """The answer to a line; of a client it waits while it is not yet to be had."""
        while True:
            with self.lock:
                answer = self.call(line)
                if not waits or not answer.startswith("notyet "):
                    if answer.startswith(("queued ", "done")):
                        self.work()
                    return answer
            time.sleep(0.001)

    def work(self):
        """Dispatches all that is queued, and does the work."""
        while (answer := self.call("dispatch")).startswith("issued "):
            self.call(f"work {' '.join(answer.split()[1:3])}")


def frames(connection):
    """The bodies of the frames that come."""
    with connection, connection.makefile("rb") as file:
        while len(length := file.read(4)) == 4:
            body = file.read(struct.unpack(">I", length)[0])
            yield body


def send(connection, kind, form="", *fields, rest=b""):
    body = struct.pack(">B" + form, kind, *fields) + rest
    connection.sendall(struct.pack(">I", len(body)) + body)


def refused(connection, answer):
    """Sends a refusal. Gives whether it is one."""
    word, number = answer.split(" ")[:2] if " " in answer else ("", "")
    if word in ("refused", "notyet"):
        send(connection, 0xE0 if word == "refused" else 0xE1, "B", int(number))
    return word in ("refused", "notyet")


def operate(machine, connection, path):
    """The operator's connection."""
    for body in frames(connection):
        if body[0] == STOP:
            for name in os.listdir(path):
                os.unlink(os.path.join(path, name))
            send(connection, 0x9F)
            os._exit(0)
        form, line = CALLS[body[0]]
        fields = [("none", "bfq")[it] if body[0] == 0x16 else it for it in struct.unpack(form, body[1:])]
        answer = machine.ask(line.format(*fields))
        if refused(connection, answer):
            continue
        word, *numbers = answer.split(" ")
        kind, of_kind = {"group": (0x91, "B"), "done": (0x92, ""), "moved": (0x93, "II")}[word]
        send(connection, kind, of_kind, *map(int, numbers))


def serve(machine, connection, seat):
    """A client's connection."""
    for body in frames(connection):
        answer = machine.ask(line_of(body, seat), waits=True)
        if refused(connection, answer):
            continue
        word, *told = answer.split(" ")
        if word == "completed" and told[1] == "read":
            held = [bytes.fromhex(it) for it in told[2:]]
            send(connection, 0x83, "Q", int(told[0]), rest=b"".join(it if len(it) == SECTOR else it * SECTOR for it in held))
        elif word == "left":
            send(connection, 0x86)
        else:
            send(connection, {"attached": 0x81, "queued": 0x82, "completed": 0x84}[word], "Q", int(told[0]))
    machine.ask(f"leave {seat}", waits=True)


def line_of(body, seat):
    """The line of a client's call."""
    if body[0] == 0x01:
        return f"attach {seat} {body[1]} {body[2]}"
    if body[0] in (0x02, 0x03):
        session, start, count = struct.unpack(">QQH", body[1:19])
        return f"read {seat} {session} {start} {count}" if body[0] == 0x02 else f"write {seat} {session} {start} {count} {body[19]}"
    return f"leave {seat}" if body[0] == LEAVE else f"reap {seat} {struct.unpack('>Q', body[1:])[0]}"


def inspect(machine, connection, _):
    """A connection that looks."""
    connection.settimeout(PATIENCE)
    with connection, connection.makefile("rb") as file:
        for number, row in enumerate(file, 1):
            line = row.decode(errors="replace").removesuffix("\n")
            is_look = line.split(" ")[0] in grammar.QUERIES and grammar.why_bad(line) is None
            connection.sendall(f"{machine.ask(line) if is_look else f'bad line {number}'}\n".encode())
            if not is_look:
                return


def meets(path, act, machine, what):
    """Meets one connection after the other at a path."""
    listener = socket.socket(socket.AF_UNIX)
    listener.bind(path)
    os.chmod(path, 0o600)
    listener.listen()

    def go():
        while True:
            connection, _ = listener.accept()
            try:
                act(machine, connection, what)
            except (OSError, TimeoutError):
                # Whoever was there has gone, or was too slow.
                continue
    threading.Thread(target=go, daemon=True).start()


DEFAULTS = {"--scheduler": "bfq", "--nr-requests": "64", "--tags": "4", "--first-budget": "1024", "--max-budget": "4096", "--timeout": "8",
            "--history": "65536", "--first-vtime": "0"}


def fails(text, status):
    print(text, file=sys.stderr)
    sys.exit(status)


def serving(words):
    """Serves until it is stopped."""
    parser = argparse.ArgumentParser()
    parser.add_argument("--image", required=True)
    parser.add_argument("--dir", required=True)
    parser.add_argument("--clients", type=int, default=4)
    parser.add_argument("--workers", type=int, default=2)
    parser.add_argument("--no-inspect", action="store_true")
    parser.add_argument("--record")
    given, options = parser.parse_known_args(words)
    if given.record and os.path.exists(given.record):
        fails("record: exists", 7)
    image = os.path.abspath(given.image)
    with Host(os.environ["BFQ_SIM"], ["--image", image, *options]) as host:
        record = open(given.record, "x", encoding="ascii") if given.record else None
        if record:
            of_options = {**DEFAULTS, **dict(zip(options[::2], options[1::2]))}
            record.write(f"bfqhost record 1 {' '.join(of_options.values())} {os.path.getsize(image) // SECTOR}\n{image}\n")
            record.flush()
        machine = Machine(host, record)
        for seat in range(given.clients):
            meets(os.path.join(given.dir, f"client{seat}"), serve, machine, seat)
        meets(os.path.join(given.dir, "operator"), operate, machine, given.dir)
        if not given.no_inspect:
            meets(os.path.join(given.dir, "inspect"), inspect, machine, None)
        print(f"serving {given.dir}, {given.clients} clients, {given.workers} workers", file=sys.stderr, flush=True)
        while True:
            signal.pause()


def replaying(words):
    """Asks what is recorded, and then each line of the input."""
    parser = argparse.ArgumentParser()
    parser.add_argument("file")
    parser.add_argument("--image")
    parser.add_argument("--history")
    parser.add_argument("--to", type=int)
    given = parser.parse_args(words)
    if not os.path.isfile(given.file):
        fails("record: cannot be read", 6)
    with open(given.file, encoding="ascii", errors="replace") as file:
        first, *rows = file.read().split("\n")
    # What stands behind the last end of a line is an entry that was cut.
    image, *entries = rows[:-1] or [""]
    if rows[-1:] != [""]:
        print(f"record: torn behind entry {len(entries)}", file=sys.stderr, flush=True)
    form = first.split(" ")
    if form[:3] != ["bfqhost", "record", "1"] or len(form) != 12:
        fails("record: bad entry 0", 6)
    options = dict(zip(DEFAULTS, form[3:]))
    if given.history:
        options["--history"] = given.history
    with Host(os.environ["BFQ_SIM"], ["--image", image, *(word for pair in options.items() for word in pair)]) as host:
        for number, line in enumerate(entries[:given.to and given.to - 1], 1):
            if grammar.is_refusal(host.ask(line)):
                fails(f"record: bad entry {number}", 6)
        for line in sys.stdin:
            if grammar.why_bad(line[:-1]):
                print("bad line 1", flush=True)
                sys.exit(2)
            if not grammar.is_silent(line[:-1]):
                print(host.ask(line[:-1]), flush=True)


if __name__ == "__main__":
    {"serve": serving, "replay": replaying}[sys.argv[1]](sys.argv[2:])
