"""The command of the client: reads, writes, discards, loads or checks a host that serves (`bfqhost serve`).

    bfqclient.py PATH read START COUNT           the sectors, to standard output
    bfqclient.py PATH write START                standard input, whole sectors of 512 bytes, from sector START on
    bfqclient.py PATH discard START COUNT        the sectors are zeros then
    bfqclient.py PATH load --sectors N ..        reads, writes or discards at random for some seconds, and tells how many and how long they
                                                 took
    bfqclient.py PATH check --image FILE ..      reads and writes at random, and compares what is read with a copy of its own

PATH is the socket of a client, DIR/client0 and so on. Each run attaches, does its work and leaves. `--group`, `--prio` and `--class`
choose the group, the priority and the class of its session. Discards, `--class rt` and `--class idle` need a host that knows version 2 of
the frames. It needs Python 3.9 alone. PATH COMMAND --help tells of a command.

Exit statuses: 0 done; 1 the host refused a call, a value is out of range, a read failed, or what was read is wrong; 2 bad words, or no
image; 3 no connection, or it ended.
"""

from __future__ import annotations

import argparse
import json
import random
import sys
import time
from typing import Dict, Iterator, List, Optional, Set

from bfqclient import MOST_BIOS, MOST_SECTORS, SECTOR, ClientError, Io, Lost, Refused, Session, TimedOut, __version__
from bfqclient_session import BEST_EFFORT, CLASSES, SECOND

DONE, NOT_DONE, BAD_WORDS, NO_CONNECTION, INTERRUPTED = 0, 1, 2, 3, 130


def chosen(sectors: int, writes: int, given: argparse.Namespace) -> Iterator[Io]:
    """Reads, writes and discards of so many sectors of a device at random, for as long as the words say; so many of a hundred are writes."""
    until, size, dice = time.monotonic() + given.seconds, min(given.size, sectors), random.Random(given.seed)
    while time.monotonic() < until:
        start = dice.randrange(sectors - size + 1)
        roll = dice.randrange(100)
        is_discard = writes <= roll < writes + given.discards
        yield Io(start, size, dice.randbytes(size * SECTOR) if roll < writes else None, is_discard)


class Load:
    """What a load has come to so far."""

    def __init__(self) -> None:
        self.began: Dict[int, float] = {}
        # How long each took, in seconds, and how many of each kind there were.
        self.took: List[float] = []
        self.kinds = {"read": 0, "write": 0, "discard": 0}
        self.seconds = 0.0

    def timed(self, ios: Iterator[Io]) -> Iterator[Io]:
        for io in ios:
            self.began[id(io)] = time.perf_counter()
            yield io

    def run(self, session: Session, given: argparse.Namespace) -> None:
        """Loads the host. What was done by then is counted, whatever ends it."""
        start = time.monotonic()
        ios = self.timed(chosen(given.sectors, given.writes, given))
        try:
            for _, io, _ in session.run(ios, given.depth):
                self.took.append(time.perf_counter() - self.began.pop(id(io)))
                self.kinds[io.kind] += 1
        finally:
            self.seconds = time.monotonic() - start

    def rate(self) -> float:
        return len(self.took) / self.seconds if self.seconds else 0.0

    def within(self, part: int) -> float:
        """The microseconds within which so many of a hundred were done; 0 if none was."""
        took = sorted(self.took)
        return took[min(len(took) - 1, len(took) * part // 100)] * 1e6 if took else 0.0

    def text(self) -> str:
        return (f"{len(self.took)} done in {self.seconds:.1f} s: {self.rate():.0f} a second, half within {self.within(50):.0f} us,"
                f" 99 of 100 within {self.within(99):.0f} us")

    def json(self, fault: Optional[BaseException]) -> str:
        """The same in JSON, with what ended it before its time, or null."""
        error: Optional[Dict[str, object]] = None
        if fault is not None:
            error = {"exception": type(fault).__name__, "text": text_of(fault)}
        if isinstance(fault, ClientError):
            error = {**(error or {}), "name": fault.name, "sentence": fault.sentence, "kind": fault.kind, "bios": list(fault.bios),
                     "sectors": [fault.sectors.start, len(fault.sectors)] if fault.sectors else None,
                     "code": fault.code if isinstance(fault, Refused) else None}
        return json.dumps({"done": len(self.took), **{f"{kind}s": count for kind, count in self.kinds.items()},
                           "seconds": round(self.seconds, 6), "per_second": round(self.rate(), 1),
                           "half_within_us": round(self.within(50), 1), "99_of_100_within_us": round(self.within(99), 1), "error": error})


def load(session: Session, given: argparse.Namespace, counts: Load) -> int:
    """Loads the host, and tells what came of it, unless that is told in JSON."""
    counts.run(session, given)
    if not given.json:
        print(counts.text())
    return DONE


class Copy:
    """What the sectors should be, and which of them are those of something that is under way."""

    def __init__(self, data: bytes) -> None:
        self.data = bytearray(data)
        self.busy: Set[int] = set()

    def clear(self, ios: Iterator[Io]) -> Iterator[Optional[Io]]:
        """Of these, those that meet nothing that is under way, so that what they read is certain; None in place of another."""
        for io in ios:
            if self.busy.isdisjoint(io.sectors):
                self.busy.update(io.sectors)
                yield io
            else:
                yield None

    def ended(self, io: Io, data: Optional[bytes]) -> bool:
        """Notes a write or a discard; of a read, whether it was right."""
        self.busy.difference_update(io.sectors)
        part = slice(io.start * SECTOR, (io.start + io.count) * SECTOR)
        if io.kind == "read":
            return data == bytes(self.data[part])
        self.data[part] = io.data or bytes(io.count * SECTOR)
        return True


def check(session: Session, given: argparse.Namespace, _counts: Load) -> int:
    """Reads, writes and discards at random, and compares. Nobody else may write meanwhile."""
    with open(given.image, "rb") as image:
        copy = Copy(image.read())
    sectors = len(copy.data) // SECTOR
    if sectors == 0:
        raise ValueError("the image has no sector")
    # What was written before stands in the host's overlay, so the copy begins with what the host has.
    copy.data[:sectors * SECTOR] = session.read(0, sectors)
    done = 0
    # Of what are no discards the half are writes.
    ios = copy.clear(chosen(sectors, (100 - given.discards) // 2, given))
    for _, io, data in session.run(ios, given.depth):
        done += 1
        if not copy.ended(io, data):
            print(f"wrong: sectors {io.start} to {io.start + io.count - 1}")
            return NOT_DONE
    print(f"{done} done, all as they should be")
    return DONE


def read(session: Session, given: argparse.Namespace, _counts: Load) -> int:
    """Writes the sectors to standard output. At a terminal a line end follows, so that the prompt stands on a line of its own."""
    sys.stdout.buffer.write(session.read(given.start, given.count))
    if sys.stdout.isatty():
        sys.stdout.buffer.write(b"\n")
    return DONE


def write(session: Session, given: argparse.Namespace, _counts: Load) -> int:
    """Writes what comes from standard input."""
    session.write(given.start, sys.stdin.buffer.read())
    return DONE


def discard(session: Session, given: argparse.Namespace, _counts: Load) -> int:
    """Discards the sectors."""
    session.discard(given.start, given.count)
    return DONE


COMMANDS = {"read": read, "write": write, "discard": discard, "load": load, "check": check}


def count(text: str) -> int:
    """A number that is not negative."""
    if not text.isdecimal():
        raise argparse.ArgumentTypeError(f"no number: {text!r}")
    return int(text)


def percent(text: str) -> int:
    """How many of a hundred."""
    if not text.isdecimal() or int(text) > 100:
        raise argparse.ArgumentTypeError(f"no number of 0 to 100: {text!r}")
    return int(text)


def add_commands(parser: argparse.ArgumentParser) -> None:
    """The commands with their own words."""
    commands = parser.add_subparsers(dest="command", required=True, metavar="COMMAND")
    about = {"read": "write sectors to standard output", "write": "write what comes from standard input, whole sectors of 512 bytes",
             "discard": "discard sectors, which are zeros then",
             "load": "read, write or discard at random for some seconds, and tell how many were done and how long they took",
             "check": "read and write at random for some seconds, and compare what is read; nobody else may write meanwhile"}
    made = {name: commands.add_parser(name, help=text, description=f"{text[0].upper()}{text[1:]}.") for name, text in about.items()}
    for name in ("read", "write", "discard"):
        made[name].add_argument("start", type=count, metavar="START", help="the first sector, from 0 on")
    for name in ("read", "discard"):
        made[name].add_argument("count", type=count, metavar="COUNT", help="how many sectors")
    for name in ("load", "check"):
        made[name].add_argument("--depth", type=int, default=1, choices=range(1, MOST_BIOS + 1), metavar="N",
                                help="reads, writes and discards at a time, 1 to 32 (1)")
        made[name].add_argument("--seconds", type=float, default=5, metavar="S", help="for how long, in seconds (5)")
        made[name].add_argument("--size", type=int, default=8, choices=range(1, MOST_SECTORS + 1), metavar="N",
                                help="sectors of each, 1 to 64 (8)")
        made[name].add_argument("--seed", type=int, default=None, help="a number by which the same sectors come again")
        made[name].add_argument("--discards", type=percent, default=0, metavar="PERCENT", help="how many of a hundred are discards (0)")
    made["load"].add_argument("--sectors", type=count, required=True, metavar="N", help="of the device, from 0 on, those that are used")
    made["load"].add_argument("--writes", type=percent, default=0, metavar="PERCENT", help="how many of a hundred are writes (0)")
    made["load"].add_argument("--json", action="store_true", help="tell it in JSON, also if it ends by a fault")
    made["check"].add_argument("--image", required=True, metavar="FILE", help="the host's image, to know how many sectors there are")


def words() -> argparse.Namespace:
    """What the words ask for."""
    parser = argparse.ArgumentParser(description=__doc__, formatter_class=argparse.RawDescriptionHelpFormatter)
    parser.add_argument("path", metavar="PATH", help="the socket of a client, as DIR/client0")
    parser.add_argument("--group", type=count, default=0, help="the group of the session, 0 to 31 (0)")
    parser.add_argument("--prio", type=count, default=4, help="its priority, 0 to 7; 0 has the greatest weight (4)")
    parser.add_argument("--class", dest="prio_class", choices=CLASSES, default=BEST_EFFORT, metavar="CLASS",
                        help="its class: rt (real time), be (best effort) or idle (be)")
    parser.add_argument("--version", action="version", version=f"bfqclient {__version__}")
    add_commands(parser)
    given = parser.parse_args()
    if given.command == "load" and given.sectors < given.size:
        parser.error(f"--sectors {given.sectors} is less than --size {given.size}")
    if given.command == "load" and given.writes + given.discards > 100:
        parser.error(f"--writes {given.writes} and --discards {given.discards} are more than 100 together")
    return given


def session_of(given: argparse.Namespace) -> Session:
    """The session that the words ask for. Version 2 of the frames is used only where it is needed."""
    has_discard = given.command == "discard" or getattr(given, "discards", 0) > 0
    return Session(given.path, given.group, given.prio, prio_class=given.prio_class, version=SECOND if has_discard else None)


def text_of(fault: BaseException) -> str:
    """What happened, in one line."""
    return fault.text if isinstance(fault, ClientError) else str(fault)


def status_of(fault: BaseException) -> int:
    """The status with which it ends for this."""
    if isinstance(fault, (Lost, TimedOut)):
        return NO_CONNECTION
    if isinstance(fault, (ClientError, ValueError)):
        return NOT_DONE
    return INTERRUPTED if isinstance(fault, KeyboardInterrupt) else BAD_WORDS


def tell(text: str) -> None:
    print(f"bfqclient: {text}", file=sys.stderr)


def main() -> int:
    """Does what the words ask for. Gives the exit status."""
    given = words()
    # A group and a priority have a byte in a frame, and a sector eight.
    if max(given.group, given.prio) >= 2**8 or getattr(given, "start", 0) >= 2**64:
        tell("a number does not fit its field")
        return BAD_WORDS
    counts, fault, status = Load(), None, DONE
    try:
        with session_of(given) as session:
            status = COMMANDS[given.command](session, given, counts)
    except (ClientError, ValueError, OSError, KeyboardInterrupt) as ending:
        fault, status = ending, status_of(ending)
    if getattr(given, "json", False):
        print(counts.json(fault), flush=True)
    if fault is not None and status != INTERRUPTED:
        tell(text_of(fault))
        # A person wants the name and the sentence too. A program has the one line.
        if isinstance(fault, Refused) and sys.stderr.isatty():
            tell(f"{fault.name}: {fault.sentence}")
    return status


if __name__ == "__main__":
    sys.exit(main())
