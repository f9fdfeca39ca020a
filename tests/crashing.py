"""Runs of tools/crashes with a host that serves: which states it checks, what it tells, and how it leaves the host."""

import importlib.machinery
import importlib.util
import os
import shutil
import signal
import subprocess
import sys
import tempfile
import time

from nbd_client import looked
from served import DONE, FREEZE, HOLD, RELEASE, SECONDS, SECTOR, THAW, Served, Wrong, image_of, moved, redo, same, sector_of, undo

TOP = os.path.dirname(os.path.dirname(os.path.abspath(__file__)))
CRASHES = os.path.join(TOP, "tools", "crashes")
sys.path[:0] = [os.path.join(TOP, "clients"), os.path.join(TOP, "tools")]
from bfqclient import Session  # noqa: E402
from host import Host  # noqa: E402
from room import history_in  # noqa: E402
from ways import Line  # noqa: E402

# Four writes, one after the other: each is four steps behind the Attach. The third has two sectors.
WRITES = [(2, b"A"), (2, b"B"), (2, b"CD"), (9, b"E")]
# The steps that store them; and what the sectors 2, 3 and 9 begin with behind each, as 3 and 9 have their own number before.
STORES = [4, 8, 12, 16]
STATES = [b"A\x03\x09", b"B\x03\x09", b"CD\x09", b"CDE"]
STEPS = 17
# A way through all states takes a hold, an undo for each, a redo and a release.
WHOLE = 7
# A command that tells these three bytes, notes that it ran, changes its copy, and finds fault with a B.
JUDGE = """import sys
with open(sys.argv[-1], "r+b") as file:
    data = file.read()
    file.seek(0)
    file.write(b"changed")
found = data[1024:1025] + data[1536:1537] + data[4608:4609]
with open(sys.argv[1], "a") as notes:
    notes.write(found.hex() + " " + str(len(data)) + "\\n")
print("first line")
print(found.hex())
sys.exit(7 if found[:1] == b"B" else 0)
"""
# A command that goes back and forth by a step so many times, when it runs first.
MEDDLER = """import os, sys
sys.path.insert(0, sys.argv[1])
from bfqclient import Operator
if not os.path.exists(sys.argv[3]):
    open(sys.argv[3], "w").close()
    for _ in range(int(sys.argv[4])):
        Operator(sys.argv[2]).undo(1)
        Operator(sys.argv[2]).redo(1)
"""


class Place:
    """A host with four writes, and a command that judges."""

    def __init__(self, program, folder, history=100000):
        self.folder, self.sockets = folder, os.path.join(folder, "sockets")
        os.mkdir(self.sockets)
        self.image = image_of(folder)
        with open(self.path("judge.py"), "w", encoding="ascii") as file:
            file.write(JUDGE)
        self.check = f"{sys.executable} {self.path('judge.py')} {self.path('notes')}"
        self.host = Served(program, self.image, self.sockets, "--history", str(history))
        self.session = Session(self.host.path("client0"))
        for start, letters in WRITES:
            self.session.write(start, b"".join(bytes([letter]) * SECTOR for letter in letters))

    def path(self, name):
        return os.path.join(self.folder, name)

    def ran(self, *words, check=None):
        """What the tool prints, and its status."""
        given = [CRASHES, "--dir", self.sockets, "--image", self.image, "--check", check or self.check, *words]
        ended = subprocess.run(given, capture_output=True, text=True, timeout=SECONDS, check=False)
        return ended.stdout.splitlines(), ended.stderr, ended.returncode

    def notes(self):
        """The states that the command has seen since it was asked last, in no order."""
        with open(self.path("notes"), encoding="ascii") as file:
            found = sorted(file.read().splitlines())
        os.unlink(self.path("notes"))
        return found

    def stands(self, cursor, hold="free", steps=STEPS):
        """Where the host must stand."""
        told = looked(self.host, "show host").split(" ")
        same("where the host stands", (told[3], *told[5:8]), (hold, str(cursor), str(steps), str(steps)))

    def has(self, entries):
        """How many entries the history must have."""
        same("the entries of the history", looked(self.host, "show host").split(" ")[8], str(entries))

    def refuses(self, *words, says):
        """The tool must refuse, say all of this, and leave the host as it is."""
        before = looked(self.host, "show host")
        stdout, stderr, status = self.ran(*words)
        same("what it prints", (stdout, status), ([], 2))
        for part in says:
            same(f"{part!r} in {stderr!r}", part in stderr, True)
        same("the host", looked(self.host, "show host"), before)
        same("a command has run", os.path.exists(self.path("notes")), False)

    def meddled(self, times):
        """What the tool prints if its command makes so many ways back and forth meanwhile."""
        with open(self.path("meddler.py"), "w", encoding="ascii") as file:
            file.write(MEDDLER)
        words = [sys.executable, self.path("meddler.py"), os.path.join(TOP, "clients"), self.sockets, self.path("met"), str(times)]
        return self.ran("--jobs", "1", check=" ".join(words))


def seen(states):
    return sorted(f"{state.hex()} {64 * SECTOR}" for state in states)


def all_states(place):
    """Each state is checked, and one that fails is told; a host that is free is released again, and its client goes on."""
    same("what it prints", place.ran(), (["serial 8: status 7: 420309", "4 states checked: 1 fail"], "", 1))
    same("the states", place.notes(), seen(STATES))
    place.stands(STEPS)
    same("what it prints of good ones", place.ran("--last", "2", "--jobs", "1"), (["2 states checked: 0 fail"], "", 0))
    same("the last states", place.notes(), seen(STATES[2:]))
    same("the client", place.session.read(2, 2), b"C" * SECTOR + b"D" * SECTOR)
    same("the image", open(place.image, "rb").read(), b"".join(map(sector_of, range(64))))


def held_host(place):
    """Of a host that is held and has gone back the states up to where it stands are checked, and it stays there; what is undone can be
    redone."""
    place.host.operates((HOLD, moved(STEPS, STEPS)), (undo(STEPS - 9), moved(9, STEPS)))
    same("what it prints", place.ran(), (["serial 8: status 7: 420309", "2 states checked: 1 fail"], "", 1))
    same("the states", place.notes(), seen(STATES[:2]))
    place.stands(9, "held")
    place.host.operates((redo(STEPS - 9), moved(STEPS, STEPS)), (RELEASE, DONE))
    same("the client", place.session.read(9, 1), b"E" * SECTOR)


def files(place):
    """Of each state that fails the image and what was said are written into a folder that is new or empty."""
    into = place.path("into")
    place.ran("--into", into)
    same("the files", sorted(os.listdir(into)), ["after-00000008.img", "after-00000008.txt"])
    with open(os.path.join(into, "after-00000008.img"), "rb") as image:
        data = image.read()
    same("the image", data, b"".join(b"B" * SECTOR if at == 2 else sector_of(at) for at in range(64)))
    with open(os.path.join(into, "after-00000008.txt"), "rb") as text:
        same("what was said", text.read(), b"first line\n420309\n")
    stdout, stderr, status = place.ran("--into", into)
    same("a folder with files", (stdout, "not empty" in stderr, status), ([], True, 2))
    place.stands(STEPS)


def bad_words(place):
    """Bad words are status 2, no host and a command that judges nothing 3. The host stands where it stood."""
    for words, status, says in ((["--last", "0"], 2, "--last"), (["--jobs", "x"], 2, "--jobs"), (["more"], 2, "more"),
                                (["--into", place.image], 2, "exists"), (["--", "--tags=4"], 2, "of no use")):
        stdout, stderr, found = place.ran(*words)
        same(f"{words}", (stdout, found, says in stderr), ([], status, True))
    for check, status, says in (("", 2, "no command"), ("'", 2, "--check"), (place.path("none"), 3, "does not run"),
                                ("sh -c 'kill -9 $$'", 3, "killed by signal 9"), ("sh -c 'exit 126'", 3, "status 126")):
        stdout, stderr, found = place.ran(check=check or " ")
        same(f"the command {check}", (stdout, found, says in stderr), ([], status, True))
        place.stands(STEPS)
    given = [CRASHES, "--check", "true", "--dir", place.folder, "--image", place.image]
    ended = subprocess.run(given, capture_output=True, text=True, timeout=SECONDS, check=False)
    same("no host", (ended.stdout, ended.returncode), ("", 3))
    ended = subprocess.run([*given[:4], place.sockets, "--image", place.path("none")], capture_output=True, text=True, timeout=SECONDS,
                           check=False)
    same("no image", (ended.stdout, ended.returncode), ("", 2))


def signalled(place, number):
    """Sends a signal to the tool while it checks its first state. Gives how it ended, and what it printed."""
    notes = place.path("notes")
    # What a killed tool leaves lies in the folder of the test, and its command ends with that.
    check = f"sh -c 'echo x >> {notes}; while test -e {notes}; do sleep 0.1; done'"
    ran = subprocess.Popen([CRASHES, "--dir", place.sockets, "--image", place.image, "--check", check, "--jobs", "1"],
                           stdout=subprocess.PIPE, stderr=subprocess.PIPE, env={**os.environ, "TMPDIR": place.folder})
    until = time.monotonic() + SECONDS
    while not os.path.exists(notes):
        if time.monotonic() > until:
            raise Wrong("no command runs")
        time.sleep(0.02)
    ran.send_signal(number)
    stdout, stderr = ran.communicate(timeout=SECONDS)
    return ran.returncode, stdout, stderr


def a_signal(place):
    """A signal in the middle: the host goes forth again, is released, and the command that ran is ended."""
    same("the end", signalled(place, signal.SIGTERM), (-signal.SIGTERM, b"", b""))
    place.stands(STEPS)
    same("the client", place.session.read(9, 1), b"E" * SECTOR)


def killed(place):
    """After a kill the host is held, before the last write was stored. Redo and release bring it back."""
    same("the end", signalled(place, signal.SIGKILL), (-signal.SIGKILL, b"", b""))
    place.stands(STORES[3] - 1, "held")
    place.host.operates((redo(STEPS - STORES[3] + 1), moved(STEPS, STEPS)), (RELEASE, DONE))
    same("the client", place.session.read(9, 1), b"E" * SECTOR)


def too_little_room(place):
    """Of 29 entries 24 are used. All four states take 7 more, so nothing is begun. Two of them take the 5 that are left."""
    place.session.read(40, 1)
    place.host.operates((FREEZE, DONE), (THAW, DONE))
    with Session(place.host.path("client1")):
        place.has(24)
        place.refuses(says=("room for 5 more entries of its 29", "4 states", "takes 7", "--last 2 takes 5"))
        place.refuses("--last", "3", says=("3 states", "takes 6"))
        same("what it prints of two", place.ran("--last", "2"), (["2 states checked: 0 fail"], "", 0))
        same("the states", place.notes(), seen(STATES[2:]))
        place.stands(24, steps=24)
        place.has(29)
        place.refuses("--last", "1", says=("room for 0 more", "one takes 4"))


def just_room(place):
    """There is room for just what it takes."""
    same("what it prints", place.ran(), (["serial 8: status 7: 420309", "4 states checked: 1 fail"], "", 1))
    same("the states", place.notes(), seen(STATES))
    place.stands(STEPS)
    place.has(STEPS + WHOLE)


def one_too_few(place):
    """There is room for all but one."""
    place.refuses(says=("room for 6 more", "takes 7", "--last 3 takes 6"))


def room_of_a_holder(place):
    """Whoever holds the host, and has undone steps, can redo and release it afterwards."""
    place.host.operates((HOLD, moved(STEPS, STEPS)), (undo(STEPS - 9), moved(9, STEPS)))
    same("what it prints", place.ran("--last", "1"), (["serial 8: status 7: 420309", "1 states checked: 1 fail"], "", 1))
    place.notes()
    place.has(STEPS + 4)
    # Three are left of 24: a way back and forth would leave one, and he needs two.
    place.refuses("--last", "1", says=("room for 3 more", "takes 4"))
    place.host.operates((redo(STEPS - 9), moved(STEPS, STEPS)), (RELEASE, DONE))
    place.stands(STEPS)


def meddling(place):
    """Somebody else makes entries meanwhile, and leaves room for the way forth and the release alone."""
    stdout, stderr, status = place.meddled(2)
    same("what it prints", (stdout, "somebody else" in stderr, status), ([], True, 1))
    place.stands(STEPS)
    place.has(STEPS + 8)


def no_way_forth(place):
    """Somebody else leaves no room: the host is not released, so that nothing is dropped, and what is to be done is told."""
    stdout, stderr, status = place.meddled(3)
    same("what it prints", (stdout, status), ([], 1))
    for part in ("held, and 2 of its steps are undone", f"bfqctl --socket {place.sockets}/operator redo 2, and then", "redo 2 -> refused 33"):
        same(f"{part!r} in {stderr!r}", part in stderr, True)
    place.stands(STEPS - 2, "held")


def another_image(place):
    """An image of another size is refused. Bytes behind its last whole sector are of no matter."""
    size = 64 * SECTOR
    for length in (2 * size, size // 2, size - SECTOR, size + SECTOR, size - 1):
        os.truncate(place.image, length)
        whole = length // SECTOR * SECTOR
        place.refuses(says=(f"it has {whole} bytes in whole sectors, and the host's image {size}",))
    os.truncate(place.image, size + 1)
    same("what it prints of a part of a sector more", place.ran(check="true"), (["4 states checked: 0 fail"], "", 0))


def words_of_a_host(place):
    """What the words of a host say of its history; and words of the tool that say otherwise."""
    for words, wanted in (("x serve --dir a --history 29", 29), ("x serve --history=29 --dir a", 29), ("x serve --dir --history --image b", 65536),
                          ("x serve --no-inspect --history 7", 7), ("x serve --dir=--history --history 8", 8), ("x serve", 65536),
                          ("x sim --history 5", None)):
        same(words, history_in(words.split(" ")), wanted)
    place.refuses("--history", "99999", says=("the host has --history 100000",))
    same("what it prints", place.ran("--history", "100000", "--last", "1"), (["1 states checked: 0 fail"], "", 0))


class Unlimited:
    """A history with room for all."""

    def check_undo(self):
        pass


def discards(place):
    """A discard is a state too. Here is what finds the states, over a script that is held."""
    loader = importlib.machinery.SourceFileLoader("crashes", CRASHES)
    tool = importlib.util.module_from_spec(importlib.util.spec_from_loader("crashes", loader))
    loader.exec_module(tool)
    with Host(place.host.process.args[0], []) as host:
        for line in ("attach 0 0 4", "write 0 1 5 2 17", "dispatch", "finish 0 3 stored", "discard 0 1 6 3", "dispatch", "work 0 6", "hold"):
            host.ask(line)
        found = list(tool.Finder(host, Unlimited()).states(Line(host), None))
    same("the states", [(serial, {sector: block[0] for sector, block in content.items()}) for serial, content in found],
         [(7, {5: 17, 6: 0, 7: 0, 8: 0}), (4, {5: 17, 6: 17})])


# Each run, and how many entries the history of its host may have.
RUNS = [(all_states, 100000), (held_host, 100000), (files, 100000), (bad_words, 100000), (a_signal, 100000), (killed, 100000), (too_little_room, 29),
        (just_room, STEPS + WHOLE), (one_too_few, STEPS + WHOLE - 1), (room_of_a_holder, 24), (meddling, STEPS + 8),
        (no_way_forth, STEPS + 8), (another_image, 100000), (words_of_a_host, 100000),
        (discards, 100000)]


def crash_runs(program):
    """The name of each run, and what was wrong with it."""
    for act, history in RUNS:
        folder = tempfile.mkdtemp(prefix="bfq-")
        place = None
        try:
            place = Place(program, folder, history)
            act(place)
            yield f"tools/crashes: {act.__name__}", []
        except (Wrong, OSError, ValueError, LookupError, subprocess.SubprocessError) as fault:
            yield f"tools/crashes: {act.__name__}", [f"{type(fault).__name__}: {fault}"]
        finally:
            if place is not None:
                place.host.kill()
            shutil.rmtree(folder)
