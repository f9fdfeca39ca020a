"""Sessions with a host that serves: reads, writes and discards, one at a time or many at once."""

from __future__ import annotations

import collections
import contextlib
import struct
from typing import Any, Callable, Deque, Dict, Generator, Iterable, Iterator, List, NamedTuple, Optional, Set, Tuple, Union

from bfqclient_base import (HOST_CLOSED, MOST_SECTORS, SECTOR, ClientError, Ended, Failed, Lost, Misuse, Path, Refused, Reply, Undone, Wire,
                            deadline, framed, in_range)

# A session has at most so many reads, writes and discards that are not reaped.
MOST_BIOS = 32
# Groups are numbered 0 to 31, priorities 0 to 7, and sectors below 2^64.
MOST_GROUP, MOST_PRIO, MOST_SECTOR = 31, 7, 2**64 - 1
NOTHING_OWED = 16
# The versions of the frames. The second has discards and classes.
FIRST, SECOND = 1, 2
# The classes of a session, and the number of each in an Attach; best effort is what an Attach without a class has.
BEST_EFFORT = "be"
CLASSES: Dict[str, Optional[int]] = {"rt": 1, BEST_EFFORT: None, "idle": 3}

Data = Union[bytes, bytearray, memoryview]


class Io(NamedTuple):
    """A read, a write or a discard: its first sector, how many sectors it has (1 to 64), the bytes of a write, 512 for each, and whether it
    is a discard. A read and a discard have None for bytes."""

    start: int
    # A tuple has a method of this name, which nobody calls here.
    count: int  # type: ignore[assignment]
    data: Optional[bytes]
    is_discard: bool = False

    @classmethod
    def read(cls, start: int, count: int) -> Io:
        """A read of so many sectors. Raises Misuse if it is none that a host can take."""
        return checked(cls(start, count, None))

    @classmethod
    def write(cls, start: int, data: Data) -> Io:
        """A write of these bytes, 1 to 64 whole sectors. Raises Misuse if it is none that a host can take."""
        given = bytes(data)
        return checked(cls(start, whole_sectors(given), given))

    @classmethod
    def discard(cls, start: int, count: int) -> Io:
        """A discard of so many sectors, which are zeros behind it. Raises Misuse if it is none that a host can take."""
        return checked(cls(start, count, None, True))

    @property
    def kind(self) -> str:
        """`read`, `write` or `discard`."""
        return "discard" if self.is_discard else "read" if self.data is None else "write"

    @property
    def sectors(self) -> range:
        """The numbers of its sectors."""
        return range(self.start, self.start + self.count)


END = object()
Result = Tuple[int, Io, Optional[bytes]]
Results = Generator[Result, None, None]


def whole_sectors(data: Data) -> int:
    """How many sectors these bytes are. Raises Misuse if they are not whole ones."""
    size = memoryview(data).nbytes
    if size % SECTOR:
        raise Misuse(f"a write has whole sectors of {SECTOR} bytes")
    return size // SECTOR


def checked(io: Io, version: int = SECOND) -> Io:
    """A read, a write or a discard as it is. Raises Misuse if it is none that a host can take, or the version has no frame for it."""
    in_range(f"the first sector of a {io.kind}", io.start, 0, MOST_SECTOR)
    in_range(f"the number of sectors of a {io.kind}", io.count, 1, MOST_SECTORS)
    in_range(f"the last sector of a {io.kind}", io.start + io.count - 1, 0, MOST_SECTOR)
    if io.is_discard:
        if io.data is not None:
            raise Misuse("a discard has no bytes")
        has_discards(version)
    if io.data is not None and whole_sectors(io.data) != io.count:
        raise Misuse(f"a write of {io.count} sectors has {io.count * SECTOR} bytes, and not {len(io.data)}")
    return io


def has_discards(version: int) -> None:
    """Raises Misuse if a version of the frames has no discard."""
    if version < SECOND:
        raise Misuse(f"version {version} of the frames has no discard: connect with `version=2`")


def version_of(given: Optional[int], prio_class: str) -> int:
    """The version of a session's frames: the given one, or else the least that has its class. Raises Misuse if there is none."""
    if prio_class not in CLASSES:
        raise Misuse(f"a class is {' or '.join(CLASSES)}, and not {prio_class!r}")
    least = FIRST if CLASSES[prio_class] is None else SECOND
    if given is None:
        return least
    in_range("a version of the frames", given, FIRST, SECOND)
    if given < least:
        raise Misuse(f"version {given} of the frames has no class {prio_class!r}: connect with `version=2`")
    return given


def opening(version: int) -> bytes:
    """What a stream begins with: nothing in version 1, else the frame that tells the version."""
    return b"" if version == FIRST else framed(0x07, "B", version)


def attach(group: int, prio: int, prio_class: str = BEST_EFFORT) -> bytes:
    """The frame of an Attach."""
    number = CLASSES[prio_class]
    return framed(0x01, "BB", group, prio) if number is None else framed(0x08, "BBB", group, prio, number)


def submit(session: int, io: Io) -> bytes:
    """The frame of a Submit of a discard, of a read, or of a write where there are bytes to be written."""
    if io.is_discard:
        return framed(0x06, "QQH", session, io.start, io.count)
    if io.data is None:
        return framed(0x02, "QQH", session, io.start, io.count)
    return framed(0x03, "QQH", session, io.start, io.count, rest=io.data)


def reap(session: int) -> bytes:
    """The frame of a Reap."""
    return framed(0x04, "Q", session)


LEAVE = framed(0x05)
ATTACHED, QUEUED, READ, WRITTEN, FAILED, LEFT, DISCARDED, REFUSED = 0x81, 0x82, 0x83, 0x84, 0x85, 0x86, 0x87, 0xE0
FORMS = {ATTACHED: "Q", QUEUED: "Q", WRITTEN: "Q", FAILED: "QB", LEFT: "", DISCARDED: "Q", REFUSED: "B", 0xE1: "B"}
# What answers a Reap.
RESULTS = (READ, WRITTEN, DISCARDED, FAILED)
KINDS = {"read": (READ, FAILED), "write": (WRITTEN,), "discard": (DISCARDED,)}


def reply_of(body: bytes) -> Reply:
    """What a frame of the host says, without its length. Raises Lost if a host says no such thing to a client."""
    kind, rest = body[0], bytes(body[1:])
    if kind == READ and len(rest) >= 8:
        return Reply(kind, (struct.unpack(">Q", rest[:8])[0], rest[8:]))
    if kind not in FORMS or len(rest) != struct.calcsize(">" + FORMS[kind]):
        raise Lost(f"no frame for a client: {body[:16].hex()}")
    return Reply(kind, struct.unpack(">" + FORMS[kind], rest))


def result_of(reply: Reply, io: Optional[Io]) -> Optional[bytes]:
    """What was read, or None for a write or a discard; `io` is what the reply is about, if that is known.

    Raises Failed if the read failed, and Lost if the reply does not answer this read, write or discard."""
    kinds = RESULTS if io is None else KINDS[io.kind]
    if reply.kind not in kinds or (io and reply.kind == READ and len(reply.fields[1]) != io.count * SECTOR):
        raise Lost(f"another reply than was waited for: {reply.kind:02x}")
    if reply.kind == FAILED:
        raise Failed(reply.fields[1]).about("read", io.sectors if io else None, reply.fields[:1])
    return reply.fields[1] if reply.kind == READ else None


class Flight:
    """The reads, writes and discards of one run that are under way, up to `depth` of them.

    `sent` has those whose Submit is not answered yet, in their order, and `going` those that the host has queued, by their bios."""

    def __init__(self, session: Session, ios: Iterator[Optional[Io]], depth: int) -> None:
        self.wire, self.session, self.version, self.dropped = session.wire, session.number, session.version, session.dropped
        self.ios, self.depth = ios, depth
        self.is_open = True
        self.sent: Deque[Io] = collections.deque()
        self.going: Dict[int, Io] = {}
        # Whether a Reap is sent that is not answered yet.
        self.is_asked = False
        # An exception after which it is certain which replies are still to come.
        self.certain: Optional[BaseException] = None

    def next_io(self) -> Optional[Io]:
        """The next that is to be sent; None if one that is under way is to end first, or there is no more.

        If the caller's own iterator raises an exception, or gives what cannot be sent, nothing was sent for it."""
        try:
            io: Any = next(self.ios, END)
            self.is_open = io is not END
            return checked(io, self.version) if self.is_open and io is not None else None
        except Exception as fault:
            self.certain = fault
            raise

    def fill(self) -> bool:
        """Sends as many as may be under way. Gives whether there is one to wait for; if there is none, none is left."""
        while True:
            while self.is_open and len(self.going) + len(self.sent) < self.depth:
                io = self.next_io()
                if io is None:
                    break
                self.wire.send(submit(self.session, io))
                self.sent.append(io)
            if self.going or self.sent or not self.is_open:
                return bool(self.going or self.sent)

    def ask(self) -> None:
        self.wire.send(reap(self.session))
        self.is_asked = True

    def next_result(self, until: Optional[float]) -> Result:
        """Waits for the next that ends."""
        while True:
            # The Reap is asked behind all Submits, so that the host need not wait for this client in between.
            self.ask()
            while self.sent:
                self.take_queued(until)
            if (result := self.take_reaped(until)) is not None:
                return result

    def refused(self, code: int, kind: str, sectors: Optional[range], bios: Iterable[int]) -> Refused:
        fault = Refused(code).about(kind, sectors, bios)
        self.certain = fault
        return fault

    def take_queued(self, until: Optional[float]) -> None:
        """The answer to the first Submit that waits for one."""
        reply = self.wire.reply(until)
        io = self.sent.popleft()
        if reply.kind == REFUSED:
            raise self.refused(reply.fields[0], io.kind, io.sectors, ())
        if reply.kind != QUEUED:
            raise Lost(f"another reply than was waited for: {reply.kind:02x}")
        self.going[reply.fields[0]] = io

    def take_reaped(self, until: Optional[float]) -> Optional[Result]:
        """The answer to the Reap; None if it tells of what an earlier call was to take, and could not."""
        reply = self.wire.reply(until)
        self.is_asked = False
        if reply.kind == REFUSED:
            raise self.refused(reply.fields[0], "reap", None, self.going)
        if reply.kind not in RESULTS:
            raise Lost(f"another reply than was waited for: {reply.kind:02x}")
        bio: int = reply.fields[0]
        if bio in self.dropped:
            self.dropped.remove(bio)
            return None
        if bio not in self.going:
            raise Undone(f"the host told of read, write or discard {bio}, which is not waited for: were steps undone?").about("reap", None, [bio])
        io = self.going[bio]
        try:
            data = result_of(reply, io)
        except Failed as fault:
            del self.going[bio]
            self.certain = fault
            raise
        del self.going[bio]
        return bio, io, data

    def drain(self, until: Optional[float]) -> List[ClientError]:
        """Takes all that is still to come, so that the next call hears its own replies. Gives what was refused or failed among it."""
        faults: List[ClientError] = []
        while self.sent or self.is_asked or self.going:
            if not (self.sent or self.is_asked):
                self.ask()
            try:
                if self.sent:
                    self.take_queued(until)
                else:
                    self.take_reaped(until)
            except Refused as fault:
                if fault.kind != "reap":
                    faults.append(fault)
                else:
                    # They were undone, or the host has no memory or no history for a Reap. If they come later they are nobody's.
                    self.dropped.update(self.going)
                    self.going.clear()
            except Failed as fault:
                faults.append(fault)
        return faults


class Session:
    """A session at the seat of a path, from its Attach on. Use it in a `with`: at the end it leaves.

    After Refused, Failed, Misuse, or what the iterator of a `run` raises, the session goes on: all that was on its way has been taken.
    After anything else (Lost, TimedOut, Undone, KeyboardInterrupt, a `run` that is left before its end) it has ended, and each later use
    raises Ended. It is for one thread at a time.

    A `timeout` is in seconds, above 0. If it is None a call waits as long as the host lets it wait: for ever, if the host stays held."""

    def __init__(self, path: Path, group: int = 0, prio: int = 4, timeout: Optional[float] = None, prio_class: str = BEST_EFFORT,
                 version: Optional[int] = None) -> None:
        """Connects to the socket of a client and attaches, to a group (0 to 31) with a priority (0 to 7; 0 has the greatest weight) and of a
        class: `rt`, `be` or `idle`.

        Discards need version 2 of the frames. If no version is given it is 2 for another class than `be`, else 1. The time limit is for both,
        and for the Leave at the end of a `with`. Raises Misuse, Lost, Refused and TimedOut."""
        in_range("a group", group, 0, MOST_GROUP)
        in_range("a priority", prio, 0, MOST_PRIO)
        self.version = version_of(version, prio_class)
        until = deadline(timeout)
        self._timeout = timeout
        # Why it has ended; empty while it stands.
        self._why = ""
        self._is_running = False
        # What `submit` has queued and `reap` has not taken yet, by its bio.
        self._owed: Dict[int, Io] = {}
        # What earlier calls could not reap.
        self.dropped: Set[int] = set()
        try:
            self.wire = Wire(path, until, reply_of)
        except ClientError as fault:
            raise fault.about("connect")
        try:
            self.number = self._attach(attach(group, prio, prio_class), until)
        except BaseException:
            self.wire.close()
            raise

    def _attach(self, frame: bytes, until: Optional[float]) -> int:
        """Begins the stream and attaches. Gives the number of the session."""
        try:
            number: int = self._ask("attach", opening(self.version) + frame, until, ATTACHED)[0]
        except Lost as fault:
            # A host that does not know the version ends the connection, as it does for any frame that it does not know.
            if self.version == FIRST or not (isinstance(fault.__cause__, OSError) or fault.text == HOST_CLOSED):
                raise
            raise Lost(f"{fault.text}; perhaps the host does not know version {self.version} of the frames").about("attach") from fault
        return number

    def __enter__(self) -> Session:
        return self

    def __exit__(self, kind: object, *_: object) -> None:
        # An exception must not wait for the host, which may be held. It leaves for a connection that ends.
        if kind is None:
            self.close(self._timeout)
        else:
            self._end("an exception ended its block")

    def close(self, timeout: Optional[float] = None) -> None:
        """Leaves, if the session still stands, and closes the connection. If the time limit passes the host leaves for it later."""
        until = deadline(timeout)
        if not self._why:
            if not self._is_running:
                with contextlib.suppress(ClientError):
                    self._ask("leave", LEAVE, until, LEFT)
            self._why = "it was closed"
        self.wire.close()

    def _end(self, why: object) -> None:
        """Ends it for this reason; an earlier reason stays."""
        self._why = self._why or str(why)
        self.wire.close()

    def _end_for(self, fault: BaseException, kind: str, sectors: Optional[range] = None, bios: Iterable[int] = ()) -> None:
        """Ends it as this was raised, in a call of this kind."""
        if isinstance(fault, ClientError):
            self._end(fault.about(kind, sectors, bios).text)
        elif isinstance(fault, GeneratorExit):
            self._end("a run was left before its end")
        else:
            self._end(f"{type(fault).__name__} came while the host was to answer")

    def _stands(self) -> None:
        """Raises Ended if it has ended."""
        if self._why:
            raise Ended(f"the session has ended: {self._why}")

    def _is_free(self) -> None:
        """Raises Ended if it has ended, and Misuse while a run is under way."""
        self._stands()
        if self._is_running:
            raise Misuse("a run is under way in this session: take its results to the end first")

    @contextlib.contextmanager
    def _one_call(self, kind: str, sectors: Optional[range] = None) -> Iterator[None]:
        """What is done to ask one call and hear its answer. A refusal and a failed read are answers too; anything else ends the session."""
        self._is_free()
        try:
            yield
        except (Refused, Failed) as fault:
            raise fault.about(kind, sectors)
        except BaseException as fault:
            self._end_for(fault, kind, sectors)
            raise

    def _expect(self, until: Optional[float], *kinds: int) -> Reply:
        """The next reply, which is of one of these kinds, or a refusal."""
        reply = self.wire.reply(until)
        if reply.kind == REFUSED:
            raise Refused(reply.fields[0])
        if reply.kind not in kinds:
            raise Lost(f"another reply than was waited for: {reply.kind:02x}")
        return reply

    def _ask(self, kind: str, frame: bytes, until: Optional[float], *kinds: int) -> Tuple[Any, ...]:
        """One call, and the fields of its answer."""
        with self._one_call(kind):
            self.wire.send(frame)
            return self._expect(until, *kinds).fields

    def submit(self, io: Io, timeout: Optional[float] = None) -> int:
        """Queues a read, a write or a discard, and gives its number at the host, the bio. Its result is taken by `reap`.

        Raises Misuse, Refused, Lost and TimedOut."""
        checked(io, self.version)
        until = deadline(timeout)
        with self._one_call(io.kind, io.sectors):
            self.wire.send(submit(self.number, io))
            bio: int = self._expect(until, QUEUED).fields[0]
        self._owed[bio] = io
        return bio

    def reap(self, timeout: Optional[float] = None) -> Tuple[int, Optional[bytes]]:
        """Waits for one of `submit` that is done. Gives its bio, and the bytes that were read, or None for a write or a discard.

        After steps were undone it may be one that was reaped before. Raises Refused (16 if none is to come), Failed, Lost and TimedOut."""
        until = deadline(timeout)
        with self._one_call("reap"):
            while True:
                self.wire.send(reap(self.number))
                reply = self._reaped(until)
                bio: int = reply.fields[0]
                if bio in self.dropped:
                    self.dropped.remove(bio)
                    continue
                return bio, result_of(reply, self._owed.pop(bio, None))

    def _reaped(self, until: Optional[float]) -> Reply:
        """The answer to a Reap."""
        try:
            return self._expect(until, *RESULTS)
        except Refused as fault:
            if fault.code == NOTHING_OWED:
                self._owed.clear()
            raise

    def run(self, ios: Iterable[Optional[Io]], depth: int = MOST_BIOS, timeout: Optional[float] = None) -> Results:
        """Does reads, writes and discards, up to `depth` at a time (1 to 32). Gives three values for each, in the order in which they end:
        its bio, the read, write or discard itself, and the bytes that were read, or None.

        If the next of `ios` is None, one that is under way is to end first. Each result must come within the time limit. If the run is left
        before its end the session has ended. Raises Misuse, Refused, Failed, Lost, Undone and TimedOut, and what `ios` raises."""
        self._is_free()
        in_range("a depth", depth, 1, MOST_BIOS)
        deadline(timeout)
        return self._results(iter(ios), depth, lambda: deadline(timeout), "run")

    def _results(self, ios: Iterator[Optional[Io]], depth: int, until: Callable[[], Optional[float]], kind: str,
                sectors: Optional[range] = None) -> Results:
        """The results of a run; `kind` and `sectors` tell what it is about if it ends the session."""
        self._is_free()
        if self._owed:
            raise Misuse(f"{len(self._owed)} reads, writes and discards of `submit` are not reaped: reap them first")
        self._is_running = True
        flight = Flight(self, ios, depth)
        try:
            while flight.fill():
                yield flight.next_result(until())
                # Whoever took that result may have closed the session.
                self._stands()
        except BaseException as fault:
            self._after(fault, flight, until, (kind, sectors))
            raise
        finally:
            self._is_running = False

    def _after(self, fault: BaseException, flight: Flight, until: Callable[[], Optional[float]],
               what: Tuple[str, Optional[range]]) -> None:
        """Takes what is still to come of a run that has raised this. Ends the session where that is not certain, or does not come."""
        if fault is not flight.certain:
            self._end_for(fault, *what, flight.going)
            return
        try:
            others = flight.drain(until())
        except BaseException as ending:
            self._end_for(ending, *what, flight.going)
            raise
        if isinstance(fault, ClientError):
            fault.also = tuple(others)

    def read(self, start: int, count: int, timeout: Optional[float] = None) -> bytes:
        """The bytes of `count` sectors from the sector `start` on, 512 for each.

        They are read by 64, up to 32 of these reads at a time, so another client may write in between. For 0 sectors nothing is asked.
        Raises Misuse, Refused, Failed, Lost, Undone and TimedOut."""
        sectors = span(start, count)
        until = deadline(timeout)
        found: Dict[int, bytes] = {}
        with contextlib.closing(self._results(pieces(sectors), MOST_BIOS, lambda: until, "read", sectors)) as results:
            for _, io, data in results:
                found[io.start] = data or b""
        return b"".join(found[at] for at in sorted(found))

    def write(self, start: int, data: Data, timeout: Optional[float] = None) -> None:
        """Writes whole sectors, of 512 bytes each, from the sector `start` on.

        They are written by 64, up to 32 of these writes at a time. If it raises an exception some of them may be done. For no bytes nothing
        is asked. Raises Misuse, Refused, Lost, Undone and TimedOut."""
        view = memoryview(data).cast("B")
        sectors = span(start, whole_sectors(view))
        until = deadline(timeout)
        ios = (io._replace(data=bytes(view[(io.start - start) * SECTOR:][:io.count * SECTOR])) for io in pieces(sectors))
        with contextlib.closing(self._results(ios, MOST_BIOS, lambda: until, "write", sectors)) as results:
            collections.deque(results, 0)

    def discard(self, start: int, count: int, timeout: Optional[float] = None) -> None:
        """Discards `count` sectors from the sector `start` on: they are zeros then. The session must be of version 2.

        They are discarded by 64: the last ones first and alone, so that sectors past the end of the device are refused before any is
        discarded, and then up to 32 of these discards at a time. If it raises another exception some of them may be done. For 0 sectors
        nothing is asked. Raises Misuse, Refused, Lost, Undone and TimedOut."""
        self._stands()
        has_discards(self.version)
        sectors = span(start, count)
        until = deadline(timeout)
        for part in last_first(sectors):
            ios = (io._replace(is_discard=True) for io in pieces(part))
            with contextlib.closing(self._results(ios, MOST_BIOS, lambda: until, "discard", sectors)) as results:
                collections.deque(results, 0)


def span(start: int, count: int) -> range:
    """The numbers of so many sectors. Raises Misuse if there are no such sectors on any device."""
    in_range("the first sector", start, 0, MOST_SECTOR)
    in_range("the number of sectors", count, 0, MOST_SECTOR + 1 - start)
    return range(start, start + count)


def last_first(sectors: range) -> Iterator[range]:
    """The sectors of the last piece, and then those before it, if there are any."""
    last = sectors.stop - ((sectors.stop - sectors.start - 1) % MOST_SECTORS + 1)
    if sectors.start < sectors.stop:
        yield range(last, sectors.stop)
    if sectors.start < last:
        yield range(sectors.start, last)


def pieces(sectors: range) -> Iterator[Io]:
    """Reads of these sectors, each as long as a read may be."""
    return (Io(at, min(MOST_SECTORS, sectors.stop - at), None) for at in range(sectors.start, sectors.stop, MOST_SECTORS))
