"""Sessions of `clients/bfqclient.py` with a host that serves: what a caller hears, and what the session is good for after an exception.

After a refusal, a failed read, a wrong value, or what the caller's own iterator raises, the replies that were on their way have been taken,
and the session goes on. After anything else it has ended, and says so. What a host does not do is done by one that the test plays.
"""

import contextlib
import os
import pathlib
import pickle
import shutil
import signal
import socket
import sys
import tempfile
import threading

TOP = os.path.dirname(os.path.dirname(os.path.abspath(__file__)))
sys.path.insert(0, os.path.join(TOP, "clients"))
sys.dont_write_bytecode = True
from bfqclient import (ClientError, Ended, Failed, Io, Lost, Misuse, Operator, Refused, Session, TimedOut, Undone)  # noqa: E402
from served import (ATTACH, DONE, HOLD, LEAVE, LEFT, RELEASE, SECONDS, SECTOR, VERSION, Served, Wrong, attached, discard,  # noqa: E402
                    discarded, fetch, image_of, moved, queued, read, reap, redo, same, sector_of, store, undo, written)

# The sectors of the image.
SECTORS = 512
# A limit that passes while a host is held, when an interrupt comes, and a limit within which a host attaches: seconds.
SOON, LATER, LONG_ENOUGH = 0.2, 1, 3
PASSED = "the time limit has passed"
NO_SESSION, OUT_OF_RANGE, NOTHING_OWED, HISTORY_FULL, OUT_OF_MEMORY = 3, 14, 16, 33, 34


class Own(Exception):
    """What a caller's iterator raises."""


@contextlib.contextmanager
def raises(exception, **wanted):
    """What is done here must raise this, with these attributes."""
    try:
        yield
    except exception as fault:
        same("the exception", type(fault), exception)
        for name, value in wanted.items():
            same(f"the {name} of {fault!r}", getattr(fault, name), value)
    else:
        raise Wrong(f"no {exception.__name__} is raised")


def goes_on(session, *sectors):
    """The session reads what the image has, sector by sector and many at once."""
    for number in sectors or (0, 7, 250):
        same(f"sector {number}", session.read(number, 1), sector_of(number))
    same("100 sectors", session.read(0, 100), b"".join(map(sector_of, range(100))))


def has_ended(session, why):
    """Each use of the session says that it has ended, and why."""
    for use in (lambda: session.read(0, 1), lambda: session.write(0, bytes(SECTOR)), lambda: next(session.run([Io.read(0, 1)])),
                lambda: session.submit(Io.read(0, 1)), session.reap, lambda: session.discard(0, 1)):
        with raises(Ended, sentence=f"the session has ended: {why}"):
            use()
    # Whoever leaves its block need not know.
    session.close()


class Host(Served):
    """A host that serves, with room for as many clients as a test has: of one that has ended a request may still be in flight."""

    def __init__(self, program, folder):
        sockets = os.path.join(folder, "sockets")
        os.mkdir(sockets)
        self.image = image_of(folder, SECTORS)
        # A fast machine fills the usual history within a second of load, and the host would warn of it.
        super().__init__(program, self.image, sockets, "--history", "16777216", clients=8)

    def session(self, number=0, **options):
        return Session(self.path(f"client{number}"), **options)


def refused_then_good(host):
    """Each read hears its own sectors, also after a refusal."""
    with host.session() as session:
        for number, byte in ((400, b"A"), (401, b"B"), (402, b"C")):
            session.write(number, byte * SECTOR)
        with raises(Refused, code=OUT_OF_RANGE, kind="read", sectors=range(10**6, 10**6 + 1), bios=(), also=()):
            session.read(10**6, 1)
        for number, byte in ((400, b"A"), (401, b"B"), (402, b"C")):
            same(f"sector {number}", session.read(number, 1), byte * SECTOR)
    host.stop()


def across_the_end(host):
    """Of a read across the end of the device the pieces before it are read, and those behind it are refused. So it goes with a write."""
    with host.session() as session:
        for _ in range(3):
            with raises(Refused, code=OUT_OF_RANGE, kind="read", sectors=range(464, 528)):
                session.read(400, 200)
            goes_on(session, 463, 511)
        try:
            session.read(400, 200)
        except Refused as fault:
            same("what was refused besides", [(it.code, it.sectors) for it in fault.also],
                 [(OUT_OF_RANGE, range(528, 592)), (OUT_OF_RANGE, range(592, 600))])
        with raises(Refused, code=OUT_OF_RANGE, kind="write", sectors=range(512, 513)):
            session.write(448, 65 * SECTOR * b"w")
        same("what was written before the end", session.read(448, 64), 64 * SECTOR * b"w")
        goes_on(session)
    host.stop()


def failed_then_good(host):
    """An image that shrank under the host: reads behind its end fail, and the others do not notice."""
    os.truncate(host.image, 300 * SECTOR)
    with host.session() as session:
        for _ in range(3):
            with raises(Failed, name="short", kind="read", sectors=range(300, 301), text="the device ended before the range"):
                session.read(300, 1)
            with raises(Failed, name="short", sentence="the device ended before the range"):
                session.read(200, 312)
            goes_on(session, 299)
        bio = session.submit(Io.read(300, 1))
        with raises(Failed, bios=(bio,), sectors=range(300, 301)):
            session.reap()
        goes_on(session)
    host.stop()


def one_by_one(host):
    """What `submit` queues is reaped before anything else is read, so that no result is taken for another."""
    with host.session() as session:
        bio = session.submit(Io.read(9, 2))
        with raises(Misuse):
            session.read(0, 1)
        same("a reap", session.reap(), (bio, sector_of(9) + sector_of(10)))
        with raises(Refused, code=NOTHING_OWED, kind="reap", name="NothingOwed"):
            session.reap()
        with raises(Refused, code=OUT_OF_RANGE, kind="read", sectors=range(600, 601)):
            session.submit(Io.read(600, 1))
        bio = session.submit(Io.write(9, SECTOR * b"x"))
        same("a reap of a write", session.reap(), (bio, None))
        same("sector 9", session.read(9, 1), SECTOR * b"x")
    host.stop()


def left_run(host):
    """A run that is left before its end has ended the session; one that was never begun, or came to its end, has not."""
    with host.session() as session:
        session.run([Io.read(0, 1)]).close()
        same("a whole run", len(list(session.run(Io.read(number, 1) for number in range(100)))), 100)
        goes_on(session)
        for _ in session.run([Io.read(number, 1) for number in range(100)], 8):
            break
        has_ended(session, "a run was left before its end")
    with host.session(1) as session:
        run = session.run([Io.read(number, 1) for number in range(100)], 8)
        bio, io, data = next(run)
        same("a result", (bio > 0, data), (True, sector_of(io.start)))
        # The next results are those of the run, so nobody else may ask for one meanwhile.
        for use in (lambda: session.read(0, 1), lambda: session.submit(Io.read(0, 1)), session.reap, lambda: list(session.run([]))):
            with raises(Misuse):
                use()
        same("the rest", sorted(io.start for _, io, _ in run), sorted({*range(100)} - {io.start}))
        goes_on(session)
    with host.session(2) as session:
        for _ in session.run([Io.read(number, 1) for number in range(100)], 8):
            session.close()
            with raises(Ended):
                session.read(0, 1)
            break
    with host.session(3) as session:
        run = session.run([Io.read(0, 1), Io.read(1, 1)], 1)
        next(run)
        session.close()
        with raises(Ended, sentence="the session has ended: it was closed"):
            next(run)
        has_ended(session, "it was closed")
    host.stop()


def own_iterator(host):
    """What the caller's iterator raises, or gives that is no read or write, comes out, and the session goes on."""

    def ios(last):
        yield from (Io.read(number, 1) for number in range(20))
        yield last()

    def own():
        raise Own

    with host.session() as session:
        for last, kind in ((own, Own), (lambda: Io(0, 65, None), Misuse), (lambda: Io(0, 2, bytes(SECTOR)), Misuse),
                           (lambda: (0, 1), AttributeError), (lambda: Io(0.5, 1, None), TypeError), (lambda: session.read(0, 1), Misuse)):
            with raises(kind):
                list(session.run(ios(last), 8))
            goes_on(session)
    host.stop()


@contextlib.contextmanager
def interrupted(seconds):
    """An interrupt comes after so long, as from the keyboard."""

    def interrupt(*_):
        raise KeyboardInterrupt

    before = signal.signal(signal.SIGALRM, interrupt)
    signal.setitimer(signal.ITIMER_REAL, seconds)
    try:
        yield
    finally:
        signal.setitimer(signal.ITIMER_REAL, 0)
        signal.signal(signal.SIGALRM, before)


def hold(operator):
    """Holds the host. Gives how many steps stand, and how many the line has."""
    operator.send(HOLD)
    reply = operator.reply()
    same("the kind of an answer", reply[:1].hex(), "93")
    return int.from_bytes(reply[1:5], "big"), int.from_bytes(reply[5:9], "big")


def hold_after(operator, count):
    """Holds the host once so many steps stand."""
    while (found := hold(operator)) != (count, count):
        operator.asks((RELEASE, DONE))
        if found[0] > count:
            raise Wrong(f"{found[0]} steps stand, and {count} were to")


def read_then_held(operator):
    """One read; then the host is held, and a fault raised."""
    yield Io.read(0, 1)
    hold(operator)
    raise Own


def read_then_interrupted():
    yield Io.read(0, 1)
    raise KeyboardInterrupt


def interrupt(host):
    """An interrupt ends the session: while a read waits, while other replies are waited for after a fault, and in the caller's iterator."""
    why = "KeyboardInterrupt came while the host was to answer"
    with host.operator() as operator:
        with host.session(0) as session:
            hold(operator)
            with interrupted(LATER), raises(KeyboardInterrupt):
                session.read(0, 1)
            has_ended(session, why)
            operator.asks((RELEASE, DONE))
        with host.session(1) as session:
            with interrupted(LATER), raises(KeyboardInterrupt):
                list(session.run(read_then_held(operator)))
            has_ended(session, why)
            operator.asks((RELEASE, DONE))
        with host.session(2) as session:
            with raises(KeyboardInterrupt):
                list(session.run(read_then_interrupted()))
            has_ended(session, why)
    host.stop()


def no_time(host):
    """A time limit is above 0; a path that serves another does not answer an attach in time. A call within its time is as any other."""
    with host.session() as session:
        for use in (lambda: session.read(0, 1, timeout=0), lambda: session.write(0, bytes(SECTOR), timeout=-1),
                    lambda: session.run([], timeout=0), lambda: session.reap(timeout=float("nan")), lambda: host.session(timeout=0)):
            with raises(Misuse):
                use()
        with raises(TimedOut, kind="attach", text=PASSED):
            host.session(timeout=SOON)
        session.write(3, sector_of(3), timeout=SECONDS)
        same("read in time", session.read(3, 2, timeout=SECONDS), sector_of(3) + sector_of(4))
        same("run in time", len(list(session.run([Io.read(0, 1)], timeout=float("inf")))), 1)
        goes_on(session)
    host.stop()


def time_limits(host):
    """A call that waits longer than it may ends the session, also where it waits for other replies after a fault."""
    acts = [("read", lambda it: it.read(5, 200, timeout=SOON)), ("write", lambda it: it.write(5, bytes(SECTOR), timeout=SOON)),
            ("run", lambda it: list(it.run([Io.read(0, 1)], timeout=SOON))), ("read", lambda it: it.submit(Io.read(0, 1), timeout=SOON)),
            ("reap", lambda it: it.reap(timeout=SOON)), ("discard", lambda it: it.discard(5, 200, timeout=SOON))]
    with host.operator() as operator:
        for number, (kind, act) in enumerate(acts):
            with host.session(number, version=2 if kind == "discard" else None) as session:
                hold(operator)
                with raises(TimedOut, kind=kind, text=PASSED):
                    act(session)
                has_ended(session, PASSED)
                operator.asks((RELEASE, DONE))
        with host.session(6) as session:
            try:
                list(session.run(read_then_held(operator), timeout=SOON))
            except TimedOut as fault:
                same("what it came after", type(fault.__context__), Own)
            has_ended(session, PASSED)
            operator.asks((RELEASE, DONE))
        # At the end of its block a session waits no longer than its attach was to wait.
        with host.session(7, timeout=LONG_ENOUGH) as session:
            hold(operator)
        has_ended(session, "it was closed")
        operator.asks((RELEASE, DONE))
    host.stop()


def undone(host):
    """A reap is undone, so the host tells of that read once more, which no run waits for any longer."""
    with host.session() as session, host.operator() as operator:
        run = session.run([Io.read(0, 1), Io.read(1, 1)], 1)
        same("the first result", next(run), (2, Io.read(0, 1), sector_of(0)))
        # Attach, Submit, Dispatch, Finish and Reap.
        operator.asks((HOLD, moved(5, 5)), (undo(1), moved(4, 5)), (RELEASE, DONE))
        with raises(Undone, bios=(2,), kind="reap"):
            next(run)
        has_ended(session, "the host told of read, write or discard 2, which is not waited for: were steps undone?")
    host.stop()


def read_then_undone(operator, fault, *more):
    """One read; then all after the attach is undone, more is done, and a fault raised, if there is one."""
    yield Io.read(0, 1)
    # Attach, Submit, Dispatch and Finish.
    hold_after(operator, 4)
    operator.asks((undo(3), moved(1, 4)), *more, (RELEASE, DONE))
    if fault:
        raise fault


def undone_while_drained(host):
    """A read is undone whose result is still to be taken after a fault. Its Reap is refused, and the session goes on. If it is redone later
    its result is nobody's."""
    with host.session() as session, host.operator() as operator:
        with raises(Own):
            list(session.run(read_then_undone(operator, Own)))
        # A refused Reap is no step, so the three can still be redone.
        operator.asks((HOLD, moved(1, 4)), (redo(3), moved(4, 4)), (RELEASE, DONE))
        goes_on(session)
    host.stop()


def undone_and_redone(host):
    """A client does not notice what is undone and redone."""
    with host.session() as session, host.operator() as operator:
        same("the read", list(session.run(read_then_undone(operator, None, (redo(3), moved(4, 4))))), [(2, Io.read(0, 1), sector_of(0))])
        goes_on(session)
    host.stop()


def undone_while_waited_for(host):
    """Where nothing else was raised the call itself hears that nothing is owed, and the session goes on."""
    with host.session() as session, host.operator() as operator:
        with raises(Refused, code=NOTHING_OWED, kind="reap", bios=(2,)):
            list(session.run(read_then_undone(operator, None)))
        goes_on(session)
    host.stop()


def attach_undone(host):
    """All is refused, and nothing waits."""
    with host.session() as session, host.operator() as operator:
        operator.asks((HOLD, moved(1, 1)), (undo(1), moved(0, 1)), (RELEASE, DONE))
        for _ in range(2):
            with raises(Refused, code=NO_SESSION, kind="read", sectors=range(64)):
                session.read(0, 200)
    host.stop()


def discards(host):
    """What is discarded is zeros, and its neighbours are as they were; also of many sectors, and among reads and writes."""
    with host.session(version=2) as session:
        session.write(4, 4 * SECTOR * b"w")
        same("a discard", session.discard(5, 2), None)
        same("sectors 4 to 7", session.read(4, 4), SECTOR * b"w" + bytes(2 * SECTOR) + SECTOR * b"w")
        session.discard(100, 200)
        same("sectors 99 to 300", session.read(99, 202), sector_of(99) + bytes(200 * SECTOR) + sector_of(300))
        bio = session.submit(Io.discard(400, 1))
        same("a reap of a discard", session.reap(), (bio, None))
        # All four are under way at once, in whatever order, so no sector is in two of them.
        ios = [Io.discard(0, 1), Io.write(1, SECTOR * b"x"), Io.read(70, 1), Io.discard(2, 64)]
        found = {io: data for _, io, data in session.run(ios, 4)}
        same("a run", found, {ios[0]: None, ios[1]: None, ios[2]: sector_of(70), ios[3]: None})
        same("sectors 0 to 2", session.read(0, 3), bytes(SECTOR) + SECTOR * b"x" + bytes(SECTOR))
        # The last piece of 64 sectors and less is the first that is asked for, so nothing is discarded.
        with raises(Refused, code=OUT_OF_RANGE, kind="discard", sectors=range(593, 600)):
            session.discard(401, 199)
        same("what is there still", session.read(401, 64), b"".join(map(sector_of, range(401, 465))))
    host.stop()


def discard_undone(host):
    """An undo of a discard gives the bytes from before it back; a redo makes zeros of them."""
    with host.session(version=2) as session, host.operator() as operator:
        session.write(5, SECTOR * b"a")
        session.discard(5, 1)
        # Attach; then Submit, Dispatch, Finish and Reap of both.
        operator.asks((HOLD, moved(9, 9)), (undo(4), moved(5, 9)), (redo(4), moved(9, 9)), (RELEASE, DONE))
        same("redone", session.read(5, 1), bytes(SECTOR))
        operator.asks((HOLD, moved(13, 13)), (undo(8), moved(5, 13)), (RELEASE, DONE))
        same("undone", session.read(5, 2), SECTOR * b"a" + sector_of(6))
    host.stop()


def classes(host):
    """The class of a session is seen by a look, with its group and priority; and each class reads and writes."""
    look = Operator(host.folder).look
    with host.operator() as operator:
        operator.asks(("00000004 11 00 0064", "91 01"))
    for number, (group, prio, name) in enumerate([(0, 4, "rt"), (1, 7, "idle"), (1, 0, "be"), (0, 3, "be")]):
        with host.session(number, group=group, prio=prio, prio_class=name, version=2 if number == 2 else None) as session:
            same(f"the class at seat {number}", look(f"class {number}"), f"class {number} {name}")
            same(f"seat {number}", look(f"show seat {number}").split()[3:5], [str(group), str(prio)])
            items = [item for item in look(f"show tree {group}").split()[4:] if item.startswith(f"{number}:")]
            same(f"the ends of {items}", [item.split(":")[6:] for item in items], [[] if name == "be" else [name]])
            session.write(number, SECTOR * b"c")
            same("a read", session.read(number, 1), SECTOR * b"c")
    host.stop()


# What is done with a host.
DONE_WITH = [refused_then_good, across_the_end, failed_then_good, one_by_one, left_run, own_iterator, interrupt, no_time, time_limits,
             undone, undone_while_drained, undone_and_redone, undone_while_waited_for, attach_undone, discards, discard_undone, classes]


class Played(threading.Thread):
    """A host that the test plays, for one client whose session has number 1: it reads some frames, and then sends some bytes, by turns.
    Then it waits for the client's end, or ends first. The client begins with `begins`, and its session has these options."""

    def __init__(self, folder, *turns, ends=False, begins=ATTACH, **options):
        super().__init__(daemon=True)
        self.path = os.path.join(folder, "played")
        self.listener = socket.socket(socket.AF_UNIX)
        self.listener.bind(self.path)
        self.listener.listen()
        self.listener.settimeout(SECONDS)
        self.turns = [(begins, framed(attached(1))), *turns]
        self.ends, self.options = ends, options
        self.fault = None

    def run(self):
        try:
            connection, _ = self.listener.accept()
            with connection:
                connection.settimeout(SECONDS)
                for wanted, answer in self.turns:
                    wanted = bytes.fromhex(wanted)
                    same("what the client sends", taken(connection, len(wanted)).hex(), wanted.hex())
                    connection.sendall(bytes.fromhex(answer))
                if not self.ends:
                    same("what the client sends behind", taken(connection, 1).hex(), "")
        except (Wrong, OSError) as fault:
            self.fault = str(fault)

    def __enter__(self):
        self.start()
        return Session(self.path, **self.options)

    def __exit__(self, kind, *_):
        self.join(SECONDS)
        self.listener.close()
        os.unlink(self.path)
        if kind is None and (self.fault or self.is_alive()):
            raise Wrong(f"the played host: {self.fault or 'it waits'}")


def taken(connection, size):
    """So many bytes, or fewer if the peer ends."""
    found = b""
    while len(found) < size and (piece := connection.recv(size - len(found))):
        found += piece
    return found


def framed(*replies):
    """Replies as frames."""
    return "".join(f"{len(bytes.fromhex(reply)):08x} {reply}" for reply in replies)


def refused(code):
    return f"e0 {code:02x}"


def another(kind):
    """What is said of such a reply."""
    return f"another reply than was waited for: {kind}"


def other_replies(folder):
    """A reply of another kind than is waited for ends the session, and so does what is no frame for a client."""
    for answer, why in [
            (framed(queued(2), written(2)), another("84")), (framed(queued(2), queued(3)), another("82")),
            (framed(read(2, sector_of(0)), queued(2)), another("83")), (framed(queued(2), attached(2)), another("81")),
            (framed(queued(2), LEFT), another("86")), (framed(queued(2), "e1 29"), another("e1")),
            (framed(queued(2), read(2, bytes(2 * SECTOR))), another("83")), (framed(queued(2), "92"), "no frame for a client: 92"),
            (framed(queued(2), discarded(2)), another("87")), (framed(queued(2), "87 00"), "no frame for a client: 8700"),
            (framed(queued(2), "83 00"), "no frame for a client: 8300"), (framed(queued(2)) + "00000000", "no frame: its length is 0"),
            (framed(queued(2)) + "00008010", "no frame: its length is 32784")]:
        with Played(folder, (fetch(1, 0, 1) + reap(1), answer)) as session:
            with raises(Lost, kind="read", sectors=range(1), text=why):
                session.read(0, 1)
            has_ended(session, why)
    for answer in (read(2, bytes(SECTOR)), discarded(2), "85 0000000000000002 01"):
        with Played(folder, (store(1, 0, 1, 7) + reap(1), framed(queued(2), answer))) as session:
            with raises(Lost, kind="write", sectors=range(1)):
                session.write(0, SECTOR * bytes([7]))
            has_ended(session, another(answer[:2]))


def other_replies_to_one_call(folder):
    """So it is with a single call, and with an attach."""
    with Played(folder, (fetch(1, 0, 1), framed(written(2)))) as session:
        with raises(Lost, kind="read", text=another("84")):
            session.submit(Io.read(0, 1))
        has_ended(session, another("84"))
    with Played(folder, (fetch(1, 0, 1), framed(queued(2))), (reap(1), framed(written(2)))) as session:
        session.submit(Io.read(0, 1))
        with raises(Lost, kind="reap", text=another("84")):
            session.reap()
        has_ended(session, another("84"))
    host = Played(folder)
    host.turns = [(ATTACH, framed(queued(1)))]
    with raises(Lost, kind="attach", text=another("82")), host:
        pass
    os.unlink(host.path)


def connection_ends(folder):
    """The host closes while a read is waited for, or after a refusal: then that is told, and what came before it."""
    closed = "the host closed the connection"
    with Played(folder, (fetch(1, 0, 1) + reap(1), framed(queued(2))), ends=True) as session:
        with raises(Lost, kind="read", sectors=range(1), bios=(2,), text=closed):
            session.read(0, 1)
        has_ended(session, closed)
    asked = fetch(1, 0, 64) + fetch(1, 64, 1) + reap(1)
    with Played(folder, (asked, framed(refused(OUT_OF_RANGE), queued(2))), ends=True) as session:
        try:
            session.read(0, 65)
            raise Wrong("nothing is raised")
        except Lost as fault:
            same("the text", fault.text, closed)
            same("what came before", getattr(fault.__context__, "code", None), OUT_OF_RANGE)
        has_ended(session, closed)


def no_reap(folder):
    """A Reap is refused as there is no history or no memory for it, while results are still owed. The session goes on, and a result that
    comes later is nobody's."""
    for code in (HISTORY_FULL, OUT_OF_MEMORY):
        with Played(folder, (fetch(1, 0, 1) + reap(1), framed(queued(2), refused(code))), (reap(1), framed(refused(code))),
                    (fetch(1, 1, 1) + reap(1), framed(queued(7), read(2, sector_of(0)))), (reap(1), framed(read(7, sector_of(1)))),
                    (LEAVE, framed(LEFT))) as session, session:
            with raises(Refused, code=code, kind="reap", bios=(2,)):
                session.read(0, 1)
            same("the next read", session.read(1, 1), sector_of(1))


def discarded_before(folder):
    """A discard that is told again, after steps were undone, is nobody's. Its bytes are not there, as those of a write."""
    with Played(folder, (reap(1), framed(discarded(2))), (reap(1), framed(written(3))), (LEAVE, framed(LEFT))) as session, session:
        same("reaps", (session.reap(), session.reap()), ((2, None), (3, None)))
    with Played(folder, (fetch(1, 0, 1) + reap(1), framed(queued(5), discarded(2)))) as session:
        with raises(Undone, kind="reap", bios=(2,)):
            session.read(0, 1)


# What a client of version 1 sends for a read of sectors 4 and 5, a write of sector 6, and at its end.
ONE_READ = "00000013 02 0000000000000001 0000000000000004 0002 00000009 04 0000000000000001"
ONE_WRITE = "00000213 03 0000000000000001 0000000000000006 0001" + 512 * "77" + "00000009 04 0000000000000001"
ONE_END = "00000001 05"


def version_1(folder):
    """Whoever asks for no discard and no class sends what version 1 has, and not one byte more."""
    for begins, options in (("00000003 01 00 04", {}), ("00000003 01 00 04", {"version": 1}), ("00000003 01 1f 07", {"group": 31, "prio": 7}),
                            ("00000003 01 02 00", {"group": 2, "prio": 0, "prio_class": "be", "version": 1})):
        turns = [(ONE_READ, framed(queued(2), read(2, bytes(2 * SECTOR)))), (ONE_WRITE, framed(queued(3), written(3))), (ONE_END, framed(LEFT))]
        with Played(folder, *turns, begins=begins, **options) as session, session:
            same("the version", session.version, 1)
            same("a read", session.read(4, 2), bytes(2 * SECTOR))
            session.write(6, SECTOR * b"w")


def version_2(folder):
    """Its stream begins with a frame of its own. A discard is answered by 87 alone."""
    begins = "00000002 07 02 00000003 01 00 04"
    one, two = "00000013 06 0000000000000001 0000000000000005 0040", "00000013 06 0000000000000001 0000000000000045 0024"
    turns = [(ONE_READ, framed(queued(2), read(2, bytes(2 * SECTOR)))), (ONE_WRITE, framed(queued(3), written(3))),
             (two + reap(1), framed(queued(4), discarded(4))), (one + reap(1), framed(queued(5), discarded(5))),
             (discard(1, 2**64 - 1, 1), framed(queued(6))), (reap(1), framed(discarded(6))), (ONE_END, framed(LEFT))]
    with Played(folder, *turns, begins=begins, version=2) as session, session:
        same("the version", session.version, 2)
        same("a read", session.read(4, 2), bytes(2 * SECTOR))
        session.write(6, SECTOR * b"w")
        session.discard(5, 100)
        same("a bio", session.submit(Io.discard(2**64 - 1, 1)), 6)
        same("a reap", session.reap(), (6, None))
    for answer in (written(2), read(2, bytes(SECTOR)), "85 0000000000000002 01"):
        with Played(folder, (discard(1, 0, 1) + reap(1), framed(queued(2), answer)), begins=begins, version=2) as session:
            with raises(Lost, kind="discard", sectors=range(1)):
                session.discard(0, 1)
            has_ended(session, another(answer[:2]))


def classes_are_version_2(folder):
    """A class other than best effort has an Attach of its own, and means version 2."""
    for begins, options in (("00000004 08 00 04 01", {"prio_class": "rt"}), ("00000004 08 02 07 03", {"prio_class": "idle", "group": 2, "prio": 7}),
                            ("00000004 08 1f 00 01", {"prio_class": "rt", "group": 31, "prio": 0, "version": 2})):
        with Played(folder, (LEAVE, framed(LEFT)), begins=VERSION + begins, **options) as session, session:
            same("the version", session.version, 2)


def no_discard_in_version_1(folder):
    """Then nothing is sent, and the session goes on. A class that the version does not have is refused before anything is connected."""
    text = "version 1 of the frames has no discard: connect with `version=2`"
    with Played(folder, (fetch(1, 0, 1) + reap(1), framed(queued(2), read(2, bytes(SECTOR)))), (LEAVE, framed(LEFT))) as session, session:
        for use in (lambda: session.discard(0, 1), lambda: session.discard(0, 0), lambda: session.submit(Io.discard(0, 1)),
                    lambda: list(session.run([Io.discard(0, 1)]))):
            with raises(Misuse, text=text):
                use()
        same("a read", session.read(0, 1), bytes(SECTOR))
    none = os.path.join(folder, "none")
    for name in ("rt", "idle"):
        with raises(Misuse, text=f"version 1 of the frames has no class {name!r}: connect with `version=2`"):
            Session(none, prio_class=name, version=1)
    for use in (lambda: Session(none, version=0), lambda: Session(none, version=3), lambda: Session(none, prio_class="best"),
                lambda: Session(none, prio_class=None), lambda: Io.discard(0, 65), lambda: Io.discard(0, 0), lambda: Io.discard(-1, 1),
                lambda: Io.discard(2**64 - 1, 2)):
        with raises(Misuse):
            use()
    with Played(folder, (LEAVE, framed(LEFT)), begins=VERSION + ATTACH, version=2) as session, session:
        for use in (lambda: session.discard(-1, 1), lambda: session.discard(0, -1), lambda: session.discard(2**64 - 1, 2),
                    lambda: session.submit(Io(0, 1, bytes(SECTOR), True)), lambda: session.submit(Io(0, 1, b"", True))):
            with raises(Misuse):
                use()
        with raises(TypeError):
            session.discard(0.5, 1)
        same("no sectors", session.discard(5, 0), None)


def older_host(folder):
    """A host that ends the connection at the frame of the version may not know it, and that is told. Of version 1 nothing is guessed."""
    closed, perhaps = "the host closed the connection", "; perhaps the host does not know version 2 of the frames"
    host = Played(folder, ends=True, version=2)
    host.turns = [(VERSION + ATTACH, "")]
    with raises(Lost, kind="attach", text=closed + perhaps), host:
        pass
    # If bytes were not read the system says more than that it has ended.
    os.unlink(host.path)
    host = Played(folder, ends=True, prio_class="idle")
    host.turns = [(VERSION, "")]
    try:
        with host:
            raise Wrong("it attached")
    except Lost as fault:
        same("the end of the text", fault.text.endswith(perhaps), True)
    os.unlink(host.path)
    for turns, version, text in (([(ATTACH, "")], 1, closed), ([(VERSION + ATTACH, framed(queued(1)))], 2, another("82"))):
        host = Played(folder, ends=True, version=version)
        host.turns = turns
        with raises(Lost, kind="attach", text=text), host:
            pass
        os.unlink(host.path)


def many_faults(folder):
    """Of what is refused and what fails in one call the first is raised, and the others stand beside it."""
    asked = "".join(fetch(1, 64 * number, 64) for number in range(3)) + fetch(1, 192, 1) + reap(1)
    with Played(folder, (asked, framed(refused(OUT_OF_MEMORY), queued(2), refused(OUT_OF_RANGE), queued(3), "85 0000000000000003 02")),
                (reap(1), framed("85 0000000000000002 01")), (LEAVE, framed(LEFT))) as session, session:
        try:
            session.read(0, 193)
            raise Wrong("nothing is raised")
        except Refused as fault:
            same("the first", (fault.code, fault.sectors), (OUT_OF_MEMORY, range(64)))
            same("the others", [(it.name, it.sectors, it.bios) for it in fault.also],
                 [("OutOfRange", range(128, 192), ()), ("fault", range(192, 193), (3,)), ("short", range(64, 128), (2,))])


def nothing_is_sent(folder):
    """Values out of range are refused before anything is sent."""
    with Played(folder, (LEAVE, framed(LEFT))) as session, session:
        for use in (lambda: session.read(-1, 1), lambda: session.read(2**64, 1), lambda: session.read(2**64 - 100, 200),
                    lambda: session.read(0, -1), lambda: session.write(-1, bytes(SECTOR)), lambda: session.write(0, bytes(SECTOR + 1)),
                    lambda: session.write(2**64, b""), lambda: session.run([], 0), lambda: session.run([], 33),
                    lambda: session.submit(Io(0, 0, None)), lambda: session.submit(Io(0, 65, None)),
                    lambda: session.submit(Io(2**64 - 1, 2, None)), lambda: session.submit(Io(0, 1, bytes(SECTOR - 1))),
                    lambda: Io.read(0, 65), lambda: Io.read(-1, 1), lambda: Io.write(0, b""), lambda: Io.write(0, b"x"),
                    lambda: Io.write(0, bytes(65 * SECTOR)), lambda: Session(folder, group=32), lambda: Session(folder, group=-1),
                    lambda: Session(folder, prio=8), lambda: Session(folder, prio=-1)):
            with raises(Misuse):
                use()
        for use in (lambda: session.read(0.5, 1), lambda: session.read("0", 1), lambda: session.write(0, "text"),
                    lambda: Session(folder, prio=None)):
            with raises(TypeError):
                use()
        same("no sectors", (session.read(5, 0), session.write(5, b"")), (b"", None))


def no_connection(folder):
    """Nobody is at the path, it is too long for a socket, or it is no path; a path may be any PathLike."""
    for path in (os.path.join(folder, "none"), pathlib.Path(folder, "none"), os.fsencode(os.path.join(folder, "none")), "x" * 200):
        with raises(Lost, kind="connect", sectors=None, bios=()):
            Session(path)
        with raises(Lost, kind="connect"):
            Session(path, timeout=SECONDS)
    with raises(TypeError):
        Session(5)
    # As many connections wait there as the system lets wait.
    with socket.socket(socket.AF_UNIX) as full, contextlib.ExitStack() as waiting:
        full.bind(os.path.join(folder, "full"))
        full.listen(0)
        for _ in range(2):
            with contextlib.suppress(OSError):
                one = waiting.enter_context(socket.socket(socket.AF_UNIX))
                one.setblocking(False)
                one.connect(os.path.join(folder, "full"))
        with raises(TimedOut, kind="connect", text=PASSED):
            Session(pathlib.Path(folder, "full"), timeout=SOON)


def exceptions(_):
    """All have one base. Of each the text, the name, the sentence and what it is about come through a pickle."""
    for kind in (Ended, Failed, Lost, Misuse, Refused, TimedOut, Undone):
        same(f"the base of {kind.__name__}", issubclass(kind, ClientError), True)
    same("an Ended is a Lost", issubclass(Ended, Lost), True)
    same("what Python knows of them", (issubclass(TimedOut, TimeoutError), issubclass(Misuse, ValueError)), (True, True))
    same("its text", str(Refused(OUT_OF_RANGE).about("read", range(7, 9))),
         "refused 14 (read of sectors 7 to 8): OutOfRange: the last of these sectors is past the end of the device")
    for fault in (Refused(OUT_OF_RANGE), Failed(1), Lost("x"), TimedOut("x"), Undone("x"), Misuse("x")):
        copy = pickle.loads(pickle.dumps(fault.about("read", range(7, 9), [4, 5])))
        for name in ("text", "name", "sentence", "kind", "sectors", "bios"):
            same(f"the {name} of a copy", getattr(copy, name), getattr(fault, name))
        same("a copy", str(copy), str(fault))


# What is done in a folder, most of it with a host that is played.
PLAYED = [other_replies, other_replies_to_one_call, connection_ends, no_reap, discarded_before, version_1, version_2, classes_are_version_2,
          no_discard_in_version_1, older_host, many_faults, nothing_is_sent, no_connection, exceptions]


def with_host(program, act, folder):
    with Host(program, folder) as host:
        act(host)


def client_runs(program):
    """The name of each run with what was wrong with it."""
    runs = [(act.__name__, lambda folder, act=act: with_host(program, act, folder)) for act in DONE_WITH]
    for name, run in [*runs, *((act.__name__, act) for act in PLAYED)]:
        folder = tempfile.mkdtemp(prefix="bfq-")
        try:
            run(folder)
            yield f"client: {name}", []
        except Exception as fault:  # pylint: disable=broad-except
            # Whatever a session raises that was not wanted is a fault of it.
            yield f"client: {name}", [f"{type(fault).__name__}: {fault}"]
        finally:
            shutil.rmtree(folder)
