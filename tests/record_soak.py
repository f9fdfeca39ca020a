"""A host under load that is recorded, and its record: what a replay shows is what the host showed before it was stopped.

The clients and the operator are those of tests/soak.py. Here the clients stand in three groups, and each leaves once and comes again. Then
the host is held while they go on, and looked at whole; some steps are undone, and it is looked at again and stopped. A replay must show
both, before and after all steps were undone and redone. With none of them it shows what a fresh host over the same image shows.

Host and replay could have the same fault. So each sector is also compared with what its client has written there, and each answer of the
record's list with what the client has heard.
"""

import os
import select
import subprocess
import tempfile
import threading
import time
import zlib

from bfqclient import Lost
from bfqclient_session import reply_of
from inspecting import printed, told
from served import DONE, LEFT, RELEASE, SECTOR, Served, Wrong, attached, discarded, image_of, queued, read, same, undo, written
from soak import CLIENTS, MOST_UNDONE, TO_BFQ, Client, Soak, at_work, placed

# How long the host is under load, in seconds; and with --all. It ends earlier if so many calls were accepted.
SECONDS, MANY_SECONDS = 10, 60
MOST_CALLS = 4_000_000
# What a host and a replay of so many calls may take at most, in bytes.
MOST_MEMORY = 6 << 30
# The sectors of a client begin so far behind those of the one before. So between them there are some that are never stored.
APART = 61
SECTORS = CLIENTS * APART
# Two groups, one in the other, with weights 200 and 100.
GROUPS = (("00000004 11 00 00c8", "91 01"), ("00000004 11 01 0064", "91 02"))
TICK, NONE_IN_SERVICE = "00000001 17", "e01a"
# The kind of an answer to a call that was not accepted.
REFUSED = 0xe0
# So many reads and writes are done between the last steps that are undone for good and the end.
LAST_IOS = 1_000
# So often at most the host is held again, until a request is in flight then.
TRIES = 100
# So many places of the line are looked at.
STEPS = 2_000
# A replay of so many calls must show something after so many seconds.
LONGEST = 600
# So many lines are asked at once, so that whoever is asked can take them all before it tells any.
AT_ONCE = 500

# All that a machine shows of each seat, group, entity and sector, and of one more that there is not.
MACHINE = [
    *(f"{what} {seat}" for what in ("show seat", "show outbox", "show queue", "queue") for seat in range(17)),
    "show requeued", "show flight", "show service", "show state",
    *(f"{what} {group}" for what in ("show tree", "vtime") for group in range(33)),
    *(f"vtime {group} {name}" for group in range(33) for name in ("rt", "be", "idle")),
    *(f"{what} {entity}" for what in ("entity", "class") for entity in range(49)),
    *(f"{what} {sector}" for what in ("show stored", "sector") for sector in range(SECTORS + 1)),
]


class RecordedClient(Client):
    """A client that leaves and comes again when half of the time is over, and stays until the host is stopped."""

    def __init__(self, host, number, soak):
        super().__init__(host, number, soak)
        # How many answers it has heard to calls that were accepted, and the sum of their bytes.
        self.heard = self.sum = 0
        self.listen()

    def listen(self):
        """From here on it takes note of each answer. The one by which the session has come was heard before."""
        self.note(bytes.fromhex(attached(self.session.number)))
        self.session.wire.reply_of = lambda body: reply_of(body if body[0] == REFUSED else self.note(body))

    def note(self, body):
        self.heard, self.sum = self.heard + 1, zlib.crc32(body, self.sum)
        return body

    def begin(self):
        self.load(self.soak.is_half)
        self.session.close()
        self.session = self.connected()
        self.listen()
        self.read_all()
        self.load(self.soak.is_over)

    def end(self):
        try:
            self.load(lambda: False)
        except Lost:
            if not self.soak.is_stopped:
                raise

    def finds(self, shown):
        """What is stored is what it wrote last, or, if it did not hear of a write or a discard any more, what that one has."""
        for at in self.sectors:
            texts = [overlay(at, data) if bio else f"sector {at} base" for bio, data in self.writes[at][-1:]]
            texts += [overlay(at, data) for data in [self.busy.get(at)] if data]
            if shown[f"sector {at}"] not in texts:
                raise Wrong(f"sector {at} is stored as {shown[f'sector {at}'][:40]}, and not as {' or '.join(text[:40] for text in texts)}")


def overlay(at, data):
    """What is shown of a sector that has these bytes; of zeros one is shown for all."""
    return f"sector {at} overlay {data.hex() if any(data) else '00'}"


class RecordedSoak(Soak):
    """The clients in their groups, and the operator."""

    GROUPS = 1 + len(GROUPS)
    APART = APART

    def __init__(self, host, seconds):
        super().__init__(host, seconds)
        host.operates(*GROUPS)
        self.half = time.monotonic() + seconds / 2
        self.clients = [RecordedClient(host, number, self) for number in range(CLIENTS)]
        self.calls = 0
        self.is_stopped = False

    def is_half(self):
        return time.monotonic() >= self.half or self.calls >= MOST_CALLS // 2

    def is_over(self):
        return time.monotonic() >= self.until or self.calls >= MOST_CALLS

    def kept(self):
        """Those by which the clients have come at last. A session's number is the serial of its Attach."""
        return max(client.session.number for client in self.clients)

    def back_and_forth(self, operator):
        super().back_and_forth(operator)
        operator.asks((f"00000004 13 01 {self.dice.randint(1, 1000):04x}", DONE))
        same("a tick", self.ask(operator, TICK) in (DONE, NONE_IN_SERVICE), True)
        # A look while the clients go on.
        self.calls = journal_of(told(self.host, "show host")[0])

    def goes_on(self, ios):
        """Waits till the clients have done so many more."""
        due, until = self.count + ios, time.monotonic() + LONGEST
        while self.count < due:
            if self.barrier.broken or time.monotonic() > until:
                raise Wrong(f"{due - self.count} reads and writes are not done: {'; '.join(it.fault for it in self.clients if it.fault)}")
            time.sleep(0.01)

    def held_amid(self, operator):
        """Holds the host while a request is in flight. Gives its place."""
        for _ in range(TRIES):
            place = self.held(operator)
            if told(self.host, "show flight") != ["flight"]:
                return place
            operator.asks((RELEASE, DONE))
            self.goes_on(1)
        raise Wrong("no request is in flight")

    def looks(self):
        """Holds the host amid its load, under bfq, and looks at it; undoes some steps, and looks again. Gives both, and how many were undone."""
        with self.host.operator() as operator:
            # A switch may be among the steps that were undone for good.
            if told(self.host, "show host")[0].split()[1] == "none":
                self.switch(operator, TO_BFQ)
            for _ in range(3):
                self.back_and_forth(operator)
            place = self.held_amid(operator)
            lines = ["line", "show host", *MACHINE, *(f"show step {self.dice.randint(0, place + 1)}" for _ in range(STEPS))]
            whole = shown_by(lambda some: told(self.host, *some), lines)
            k = self.dice.randint(1, min(place, MOST_UNDONE))
            same("the place after steps were undone", placed(self.ask(operator, undo(k))), (place - k, place))
            return whole, shown_by(lambda some: told(self.host, *some), lines), k


def journal_of(line):
    """How many calls were accepted, by what `show host` shows."""
    return int(line.split()[-1])


def shown_by(ask, lines):
    """What each of these lines shows, where so many at once can be asked."""
    shown = {}
    for first in range(0, len(lines), AT_ONCE):
        some = lines[first:first + AT_ONCE]
        found = ask(some)
        same("how many lines are shown", len(found), len(some))
        shown.update(zip(some, found))
    return shown


def peak_of(process):
    """The most memory that a process has had so far, in bytes."""
    with open(f"/proc/{process.pid}/status", encoding="ascii") as file:
        return 1024 * next(int(line.split()[1]) for line in file if line.startswith("VmHWM:"))


class Replay:
    """A run of `replay`, which is asked some lines, and then others."""

    def __init__(self, program, file, room):
        self.process = subprocess.Popen([program, "replay", file, "--history", str(room)], stdin=subprocess.PIPE, stdout=subprocess.PIPE,
                                        stderr=subprocess.PIPE)

    def __enter__(self):
        return self

    def __exit__(self, *_):
        self.process.kill()
        self.process.communicate()

    def tells(self, lines):
        """What it prints of these lines."""
        self.process.stdin.write("".join(f"{line}\n" for line in lines).encode())
        self.process.stdin.flush()
        found, count = [], 0
        while count < len(lines):
            if not select.select([self.process.stdout], [], [], LONGEST)[0]:
                raise Wrong(f"a replay tells nothing for {LONGEST} s")
            if not (piece := os.read(self.process.stdout.fileno(), 1 << 16)):
                raise Wrong(f"a replay has ended: {self.process.stderr.read().decode()!r}")
            found.append(piece)
            count += piece.count(b"\n")
        return b"".join(found).decode().splitlines()

    def shows(self, when, wanted, more=0):
        """Each line shows what it showed, but that so many calls more were accepted since."""
        found = shown_by(self.tells, [*wanted])
        for line, text in wanted.items():
            if line == "show host":
                front, _, journal = text.rpartition(" ")
                text = f"{front} {int(journal) + more}"
            same(f"{when}, {line}", found[line], text)

    def moves(self, line, cursor, length):
        same(line, self.tells([line]), [f"moved {cursor} {length}"])

    def ends(self):
        output, said = self.process.communicate(timeout=LONGEST)
        same("the end of a replay", (output, said, self.process.returncode), (b"", b"", 0))


def frame_of(answer):
    """The bytes of a client's answer, as the host sends them, from its text."""
    words = answer.split()
    if words == ["left"]:
        return bytes.fromhex(LEFT)
    number = int(words[1])
    if words[2:3] == ["read"]:
        # A sector whose bytes are all equal is told by one of them.
        return bytes.fromhex(read(number, b"".join(bytes.fromhex(text) * (2 * SECTOR // len(text)) for text in words[3:])))
    frames = {("attached",): attached, ("queued",): queued, ("completed", "written"): written, ("completed", "discarded"): discarded}
    return bytes.fromhex(frames[(words[0], *words[2:])](number))


def heard_again(program, file, clients):
    """By the list of a record the clients were answered what they have heard. The last answers may have come when one did not listen any more."""
    due = {f"client{number}": client.heard for number, client in enumerate(clients)}
    sums = dict.fromkeys(due, 0)
    with subprocess.Popen([program, "replay", file, "--list"], stdin=subprocess.DEVNULL, stdout=subprocess.PIPE, text=True) as listing:
        limit = threading.Timer(LONGEST, listing.kill)
        limit.start()
        for line in listing.stdout:
            who, _, call = line.split(" ", 2)[2].partition(" ")
            if due.get(who):
                due[who] -= 1
                sums[who] = zlib.crc32(frame_of(call.rpartition(" -> ")[2]), sums[who])
        limit.cancel()
    same("the end of a list", listing.returncode, 0)
    same("answers that are not on file", {who: left for who, left in due.items() if left}, {})
    same("the sums of the answers", sums, {f"client{number}": client.sum for number, client in enumerate(clients)})


def replayed(program, file, fresh, looks):
    """A replay shows what was shown when the host was stopped, before that, and before its first step. Gives its seconds and its memory."""
    whole, back, k = looks
    length, journal = int(whole["line"].split()[2]), journal_of(back["show host"])
    began = time.monotonic()
    # There is room for the four calls that are made here.
    with Replay(program, file, journal + 4) as replay:
        replay.shows("as it was stopped", {"line": back["line"]})
        took = time.monotonic() - began
        replay.shows("as it was stopped", back)
        replay.moves(f"redo {k}", length, length)
        replay.shows("as it was held", whole, 2)
        replay.moves(f"undo {length}", 0, length)
        replay.shows("before the first step", fresh)
        replay.moves(f"redo {length}", length, length)
        replay.shows("all redone", whole, 4)
        replay.moves(f"undo {k}", length - k, length)
        replay.shows("undone again", back, 4)
        same("no more room", replay.tells([f"redo {k}"]), ["refused 33"])
        peak = peak_of(replay.process)
        replay.ends()
    return took, peak


def record_soak(program, folder, seconds):
    """Gives what is told of the run."""
    sockets, file, image = os.path.join(folder, "sockets"), os.path.join(folder, "run"), image_of(folder, SECTORS)
    os.mkdir(sockets)
    with Served(program, image, sockets, "--history", "16777216", "--record", file, clients=CLIENTS, workers=4) as host:
        run = RecordedSoak(host, seconds)
        with at_work(run.clients):
            run.operate()
            run.goes_on(LAST_IOS)
            looks = run.looks()
            host_peak = peak_of(host.process)
            run.is_stopped = True
            host.stop()
    for client in run.clients:
        client.finds(looks[0])
    heard_again(program, file, run.clients)
    took, peak = replayed(program, file, shown_by(lambda some: printed(program, image, *some), MACHINE), looks)
    if min(run.rounds) == 0 or max(host_peak, peak) > MOST_MEMORY:
        raise Wrong(f"{run.rounds} rounds, and {host_peak} and {peak} bytes of memory")
    calls = journal_of(looks[1]["show host"])
    return (f"record-soak: {run.count} reads, writes and discards, {calls} calls, of which a replay makes {calls / took:,.0f} a second; a record of "
            f"{os.path.getsize(file) >> 20} MiB, a host of {host_peak >> 20} MiB, a replay of {peak >> 20} MiB")


def record_soaks(program, is_long):
    """The name of the run, and what was wrong with it. What it came to is told."""
    name = "a host that is recorded under load"
    try:
        with tempfile.TemporaryDirectory(prefix="bfq-") as folder:
            print(record_soak(program, folder, MANY_SECONDS if is_long else SECONDS))
        yield name, []
    except (Wrong, OSError, ValueError, LookupError, subprocess.SubprocessError) as fault:
        yield name, [str(fault)]
