"""A served run on file: what `serve --record` writes, and what `replay` makes of it, also of files that are cut, changed or none.

A record is read a second time by tests/record_file.py, which has nothing but docs/FORMATS.md. What a replay must show is what the host
showed at `inspect` before it was stopped.
"""

import os
import re
import resource
import shutil
import signal
import subprocess
import sys
import tempfile
import time

from inspecting import told
from record_file import BadEntry, read_record
from served import (ATTACH, CLOSED, DONE, FREEZE, HOLD, IDLE, LEAVE, LEFT, RELEASE, SECONDS, STOP, THAW, VERSION, Served, Wrong, attached, discard,
                    discarded, fetch, image_of, moved, queued, read, reap, redo, same, sector_of, store, undo, written)

CLIENT = os.path.join(os.path.dirname(os.path.dirname(os.path.abspath(__file__))), "clients", "bfqclient.py")
HEADER = b"bfqhost record 1 bfq 64 4 1024 4096 8 65536 0 64\n"
SHOWN = ["line", "show host", "show state", *(f"show seat {seat}" for seat in range(16)), *(f"show outbox {seat}" for seat in range(16)),
         *(f"show queue {seat}" for seat in range(16)), "show requeued", "show flight", "show service", *(f"show tree {group}" for group in range(3)),
         "show stored 0", *(f"vtime {group} {name}" for group in range(3) for name in ("rt", "be", "idle")), *(f"entity {number}" for number in range(20)),
         *(f"sector {number}" for number in range(64))]
REFUSED, NO_SOCKET = 6, 7


class Ended:
    """How a run of `replay` ended: its status, and both outputs."""

    def __init__(self, program, words, script=""):
        ended = subprocess.run([program, "replay", *words], input=script, capture_output=True, text=True, timeout=SECONDS, check=False)
        self.status, self.stdout, self.stderr = ended.returncode, ended.stdout, ended.stderr

    def is_refused(self, said):
        same("what a refused replay says", (self.stderr, self.stdout, self.status), (said + "\n", "", REFUSED))

    def lines(self, said=""):
        same("standard error and status", (self.stderr, self.status), (said, 0))
        return self.stdout.splitlines()


def recorded(program, folder, act, *words):
    """The file of a record of a host, with which this was done before it was stopped. `act` is given the host."""
    file, sockets = os.path.join(folder, "run"), os.path.join(folder, "sockets")
    os.makedirs(sockets, exist_ok=True)
    with Served(program, image_of(folder), sockets, "--record", file, *words, workers=1) as host:
        act(host)
        host.stop()
    return file


def bytes_of(file):
    with open(file, "rb") as opened:
        return opened.read()


def put_bytes(folder, data, name="changed"):
    file = os.path.join(folder, name)
    with open(file, "wb") as opened:
        opened.write(data)
    return file


def two_and_an_operator(host):
    """A client writes bytes that are not alike and reads; the operator steps back and forth, and takes another way; a client breaks its frame."""
    pattern = bytes(range(256)) * 2
    with host.talk(0) as client, host.operator() as operator:
        client.asks((ATTACH, attached(1)))
        client.send(f"{19 + 512:08x} 03 {1:016x} {5:016x} 0001" + pattern.hex())
        client.hears(queued(2))
        client.asks((reap(1), written(2)), (fetch(1, 5, 2), queued(6)), (reap(1), read(6, pattern + sector_of(6))))
        operator.asks((HOLD, moved(9, 9)), (undo(3), moved(6, 9)), (redo(2), moved(8, 9)), (RELEASE, DONE), (FREEZE, DONE), (THAW, DONE))
        client.asks((reap(1), read(6, pattern + sector_of(6))), (LEAVE, LEFT))
    with host.talk(1) as other:
        other.asks((ATTACH, attached(14)))
        other.send("00000002 ff ff")
        other.ends()


# What this leaves in a record, but for its first line: the bytes are those of docs/FORMATS.md.
FRAMES = [
    "00000004 00 01 00 04",
    f"{20 + 512:08x} 00 03 {1:016x} {5:016x} 0001" + (bytes(range(256)) * 2).hex(),
    "00000002 c0 31",
    f"0000000b 40 21 00 {3:016x}",
    f"0000000a 00 04 {1:016x}",
    f"00000014 00 02 {1:016x} {5:016x} 0002",
    "00000002 c0 31",
    f"{11 + 1024:08x} 40 22 00 {7:016x}" + (sector_of(5) + sector_of(6)).hex(),
    f"0000000a 00 04 {1:016x}",
    "00000002 80 18",
    "00000006 80 1a 00000003",
    "00000006 80 1b 00000002",
    "00000002 80 19",
    "00000002 80 14",
    "00000002 80 15",
    f"0000000a 00 04 {1:016x}",
    "00000002 00 05",
    "00000004 01 01 00 04",
    "00000003 01 09 04",
]


def as_the_format_says(program, folder):
    """The bytes of a record are the first line and a frame for each accepted call, in order."""
    file = recorded(program, folder, two_and_an_operator)
    same("the record", bytes_of(file).hex(), (HEADER + b"".join(bytes.fromhex(frame) for frame in FRAMES)).hex())
    same("the file's mode", os.stat(file).st_mode & 0o777, 0o600)


def listed(program, folder):
    """A list has a line for each entry: number, serial, seat, call and answer. A second reading of the file tells the same calls."""
    file = recorded(program, folder, two_and_an_operator)
    lines = Ended(program, [file, "--list"]).lines()
    _, entries, is_torn = read_record(bytes_of(file))
    same("is torn", is_torn, False)
    found = [re.fullmatch(r"(\d+) (\d+|-) (\w+) (.*) -> (.*)", line).groups() for line in lines]
    same("numbers", [int(line[0]) for line in found], list(range(1, len(FRAMES) + 1)))
    same("seats and calls", [line[2:4] for line in found], [entry[:2] for entry in entries])
    serials = ["1", "2", "3", "4", "5", "6", "7", "8", "9", "-", "-", "-", "-", "10", "11", "12", "13", "14", "15"]
    same("serials", [line[1] for line in found], serials)
    answers = ["attached 1", "queued 2", "issued 0 3 store 5 1", "finished 1", "completed 2 written", "queued 6", "issued 0 7 fetch 5 2", "finished 1",
               None, "moved 9 9", "moved 6 9", "moved 8 9", "done", "done", "done", None, "left", "attached 14", "left"]
    same("how many answers", len(found), len(answers))
    same("answers", [wanted and line[4] for line, wanted in zip(found, answers)], answers)
    same("a list of a pipe", piped(program, bytes_of(file)), ("".join(f"{line}\n" for line in lines), "", 0))
    for stop in (0, 1, 4, len(lines) + 1, 2**64 - 1):
        same(f"a list to {stop}", Ended(program, [file, "--list", "--to", str(stop)]).lines(), lines[:max(stop - 1, 0)])


def piped(program, data):
    """What a list of a record says that comes through a pipe, its first line byte by byte, and its status."""
    with subprocess.Popen([program, "replay", "/dev/stdin", "--list"], stdin=subprocess.PIPE, stdout=subprocess.PIPE, stderr=subprocess.PIPE) as process:
        for at in range(len(HEADER)):
            os.write(process.stdin.fileno(), data[at:at + 1])
            time.sleep(0.002)
        said = process.communicate(data[len(HEADER):], SECONDS)
    return said[0].decode(), said[1].decode(), process.returncode


def is_what_was_served(program, folder):
    """A replay shows what the host showed before it was stopped, and again after all was undone and redone."""
    shown = []

    def act(host):
        two_and_an_operator(host)
        with host.operator() as operator:
            operator.asks(("00000004 11 00 00c8", "91 01"), (HOLD, moved(15, 15)))
        shown.extend(told(host, *SHOWN))

    file = recorded(program, folder, act)
    same("what is shown", Ended(program, [file], "\n".join(SHOWN) + "\n").lines(), shown)
    script = "undo 15\nshow stored 0\nredo 15\n" + "\n".join(SHOWN) + "\n"
    lines = Ended(program, [file], script).lines()
    same("all undone", lines[:3], ["moved 0 15", "stored none", "moved 15 15"])
    # Going back and forth took two calls of the journal, which the last number of `show host` counts.
    same("all redone", [line.rpartition(" ")[0] if line.startswith("host ") else line for line in lines[3:]],
         [line.rpartition(" ")[0] if line.startswith("host ") else line for line in shown])


def goes_on_otherwise(program, folder):
    """A script takes the keeper of a record another way: with an image its device reads, and without one it is of zeros."""
    file = recorded(program, folder, two_and_an_operator)
    script = "attach 0 0 4\nread 0 16 9 1\ndispatch\nwork 0 18\nreap 0 16\n"
    for words, data in (([file, "--image", os.path.join(folder, "image")], "09"), ([file], "00")):
        same(f"another way of {len(words)} words", Ended(program, words, script).lines(),
             ["attached 16", "queued 17", "issued 0 18 fetch 9 1", "finished 1", f"completed 17 read {data}"])
    same("an entry before its end", Ended(program, [file, "--to", "4"], "line\nshow flight\n").lines(), ["line 3 3 3", "flight 0:3:0:store:5+1:2"])
    same("no entry", Ended(program, [file, "--to", "1"], "line\n").lines(), ["line 0 0 0"])
    same("a bad line", (Ended(program, [file], "line\nstrange\n").status, Ended(program, [file], "strange\n").stdout), (2, "bad line 1\n"))


def cut_everywhere(program, folder):
    """Cut at any byte of its last three entries, a record is that of the entries before, and says that it is torn."""
    data = bytes_of(recorded(program, folder, two_and_an_operator))
    _, entries, _ = read_record(data)
    lines = Ended(program, [put_bytes(folder, data), "--list"]).lines()
    for cut in range(entries[-4].end, len(data)):
        whole = sum(entry.end <= cut for entry in entries)
        said = "" if cut in [entry.end for entry in entries] else f"record: torn behind entry {whole}\n"
        file = put_bytes(folder, data[:cut])
        same(f"the list of the first {cut} bytes", Ended(program, [file, "--list"]).lines(said), lines[:whole])
        standing = Ended(program, [file], "line\n").lines(said)[0]
        same(f"the line of the first {cut} bytes", standing, "line " + {16: "11 11 12", 17: "12 12 13", 18: "13 13 14"}[whole])
    Ended(program, [put_bytes(folder, data[:len(HEADER) - 1])]).is_refused("record: bad entry 0")
    Ended(program, [put_bytes(folder, b"")]).is_refused("record: bad entry 0")
    same("a first line alone", Ended(program, [put_bytes(folder, HEADER)], "line\n").lines(), ["line 0 0 0"])


def short_record():
    """A record of a run with each kind of seat, in few bytes, made by hand."""
    frames = ["00000004 00 01 00 04", f"00000014 00 02 {1:016x} {5:016x} 0001", "00000002 c0 31", f"0000000c 40 23 00 {3:016x} 02",
              f"0000000a 00 04 {1:016x}", "00000005 01 08 00 07 01", "00000005 80 11 00 00c8", "00000005 80 13 01 0064", "00000003 80 12 01",
              "00000002 80 18", "00000006 80 1a 00000002", "00000006 80 1b 00000001", "00000002 80 19", "00000003 01 09 03"]
    return HEADER + b"".join(bytes.fromhex(frame) for frame in frames)


# A record of discards, made by hand, as no worker gives one back. Sector 5 is written, and then 4 to 6 are discarded; the device gives
# that back once.
OF_DISCARDS = ["00000004 00 01 00 04", f"{20 + 512:08x} 00 03 {1:016x} {5:016x} 0001" + 512 * "11", "00000002 c0 31",
               f"0000000b 40 21 00 {3:016x}", f"00000014 00 06 {1:016x} {4:016x} 0003", "00000002 c0 31", f"0000000b 40 24 00 {6:016x}",
               "00000002 c0 31", f"0000000b 40 21 00 {8:016x}", f"0000000a 00 04 {1:016x}", f"0000000a 00 04 {1:016x}"]
LIST_OF_DISCARDS = [
    "1 1 client0 attach 0 0 4 -> attached 1", "2 2 client0 write 0 1 5 1 17 -> queued 2", "3 3 core dispatch -> issued 0 3 store 5 1",
    "4 4 device0 finish 0 3 stored -> finished 1", "5 5 client0 discard 0 1 4 3 -> queued 5", "6 6 core dispatch -> issued 0 6 discard 4 3",
    "7 7 device0 requeue 0 6 -> requeued", "8 8 core dispatch -> issued 0 8 discard 4 3", "9 9 device0 finish 0 8 stored -> finished 1",
    "10 10 client0 reap 0 1 -> completed 2 written", "11 11 client0 reap 0 1 -> completed 5 discarded"]


def one_of_each_version(host):
    """An idle client of version 2 discards, and one of version 1 comes and leaves."""
    with host.talk(0) as client, host.talk(1) as other:
        client.send(VERSION)
        client.asks((IDLE, attached(1)), (discard(1, 4, 3), queued(2)), (reap(1), discarded(2)), (LEAVE, LEFT))
        other.asks((ATTACH, attached(7)), (LEAVE, LEFT))


# What this leaves, and its list: what says the version is no entry.
OF_VERSIONS = ["00000005 00 08 00 04 03", f"00000014 00 06 {1:016x} {4:016x} 0003", "00000002 c0 31", f"0000000b 40 21 00 {3:016x}",
               f"0000000a 00 04 {1:016x}", "00000002 00 05", "00000004 01 01 00 04", "00000002 01 05"]
LIST_OF_VERSIONS = [
    "1 1 client0 attach 0 0 4 idle -> attached 1", "2 2 client0 discard 0 1 4 3 -> queued 2", "3 3 core dispatch -> issued 0 3 discard 4 3",
    "4 4 device0 finish 0 3 stored -> finished 1", "5 5 client0 reap 0 1 -> completed 2 discarded", "6 6 client0 leave 0 -> left",
    "7 7 client1 attach 1 0 4 -> attached 7", "8 8 client1 leave 1 -> left"]


def both_versions(program, folder):
    """Clients of both versions are recorded as version 2 spells their calls."""
    file = recorded(program, folder, one_of_each_version)
    same("the record", bytes_of(file).hex(), record_of(OF_VERSIONS).hex())
    same("the list", Ended(program, [file, "--list"]).lines(), LIST_OF_VERSIONS)
    same("a replay", Ended(program, [file], "show stored 0\nshow step 1\n").lines(), ["stored 4+3", "step 1 1 attach 0 0 4 idle"])


def record_of(frames):
    """The bytes of a record of these frames."""
    return HEADER + b"".join(bytes.fromhex(frame) for frame in frames)


def discards(program, folder):
    """A discard in a record: its list, a second reading of it, what a replay shows, back and forth, and each byte of its frame changed."""
    data = record_of(OF_DISCARDS)
    file = put_bytes(folder, data)
    same("the list", Ended(program, [file, "--list"]).lines(), LIST_OF_DISCARDS)
    _, entries, _ = read_record(data)
    same("a second reading", [f"{it.who} {it.call}" for it in entries],
         [line.partition(" -> ")[0].split(" ", 2)[2] for line in LIST_OF_DISCARDS])
    looks = ["show stored 0", "sector 4", "sector 5", "sector 7", "show outbox 0"]
    script = "\n".join(["show step 5", *looks, "hold", "undo 3", *looks, "show flight", "undo 2", "show requeued", "redo 5", *looks]) + "\n"
    after = ["stored 4+3", "sector 4 overlay 00", "sector 5 overlay 00", "sector 7 base", "outbox 0"]
    same("a replay", Ended(program, [file], script).lines(), [
        "step 5 5 discard 0 1 4 3", *after, "moved 11 11", "moved 8 11", "stored 5+1", "sector 4 base", "sector 5 overlay 11", "sector 7 base",
        "outbox 0 2:written", "flight 0:8:0:discard:4+3:5", "moved 6 11", "requeued", "moved 11 11", *after])
    changed_bytes(program, folder, data, range(entries[3].end, entries[4].end))


def each_byte_changed(program, folder):
    """Whatever byte of a record is another one, it is refused, or is that of the entries that stand there then."""
    data = short_record()
    changed_bytes(program, folder, data, range(len(data)))


def changed_bytes(program, folder, data, places):
    """What a record is with each of these bytes changed."""
    refused = 0
    for place in places:
        for other in (data[place] ^ 1, data[place] ^ 0x80, 0, 0xff):
            changed = data[:place] + bytes([other]) + data[place + 1:]
            if changed == data:
                continue
            file = put_bytes(folder, changed)
            ended = Ended(program, [file, "--list"])
            if ended.status == REFUSED:
                refused += 1
                same(f"byte {place} as {other:02x}", (bool(re.fullmatch(r"record: bad entry \d+\n", ended.stderr)), ended.stdout), (True, ""))
                continue
            _, entries, is_torn = read_record(changed)
            said = f"record: torn behind entry {len(entries)}\n" if is_torn else ""
            found = [re.fullmatch(r"\d+ \S+ (\w+) (.*) -> .*", line).groups() for line in ended.lines(said)]
            same(f"byte {place} as {other:02x}", found, [entry[:2] for entry in entries])
    if not refused:
        raise Wrong("no change was refused")


# A record's first line otherwise, and each time the same: it is none.
FIRST_LINES = [line.encode() for line in (
    "bfqhost record 2 bfq 64 4 1024 4096 8 65536 0 64", "bfqhost record 1 bfq 64 4 1024 4096 8 65536 0", "bfqhost record 1 bfq 64 4 1024 4096 8 65536 0 64 ",
    "bfqhost record 1  bfq 64 4 1024 4096 8 65536 0 64", "bfqhost record 1 cfq 64 4 1024 4096 8 65536 0 64", "bfqhost record 1 bfq 064 4 1024 4096 8 65536 0 64",
    "bfqhost record 1 bfq 257 4 1024 4096 8 65536 0 64", "bfqhost record 1 bfq 64 65 1024 4096 8 65536 0 64", "bfqhost record 1 bfq 64 4 4097 4096 8 65536 0 64",
    "bfqhost record 1 bfq 64 4 1024 4096 1001 65536 0 64", "bfqhost record 1 bfq 64 4 1024 4096 8 16777217 0 64", "bfqhost record 1 bfq 64 4 1024 4096 8 0 0 64",
    f"bfqhost record 1 bfq 64 4 1024 4096 8 65536 {2**62 + 1} 64", f"bfqhost record 1 bfq 64 4 1024 4096 8 65536 0 {2**55}", "", "x" * 5000,
    "bfqhost record 1 bfq 64 4 1024 4096 8 65536 0 64" + " " * 300)] + [b"bfqhost record 1 bfq 64 4 1024 4096 8 65536 0 64\r", b"\xff\xfe"]

# Frames behind a good first line, and the number of the one that is bad.
BAD_FRAMES = [
    ("a length of 0", ["00000004 00 01 00 04", "00000000"], 2),
    ("a length that is too great", [f"{131_084:08x}"], 1),
    ("no such seat", ["00000004 10 01 00 04"], 1),
    ("no such device", [f"0000000b 44 21 00 {3:016x}"], 1),
    ("no kind", ["00000001 00"], 1),
    ("no such kind", ["00000002 00 77"], 1),
    ("an operator's kind at a client's seat", ["00000002 00 18"], 1),
    ("Stop", ["00000002 80 1c"], 1),
    ("best effort by the kind of the other classes", ["00000005 00 08 00 04 02"], 1),
    ("the client's end by the kind of the other causes", ["00000004 00 01 00 04", "00000003 00 09 01"], 2),
    ("a byte behind", ["00000003 80 18 00"], 1),
    ("a call that is refused", ["00000004 00 01 00 08"], 1),
    ("a call that waits", ["00000004 00 01 00 04", "00000002 80 14", f"00000014 00 02 {1:016x} {5:016x} 0001"], 3),
    ("a discard with a byte behind", ["00000004 00 01 00 04", f"00000015 00 06 {1:016x} {4:016x} 0001 00"], 2),
    ("a discard without a count", ["00000004 00 01 00 04", f"00000012 00 06 {1:016x} {4:016x}"], 2),
    ("a discard of no sector", ["00000004 00 01 00 04", f"00000014 00 06 {1:016x} {4:016x} 0000"], 2),
    ("a discard past the end", ["00000004 00 01 00 04", f"00000014 00 06 {1:016x} {63:016x} 0002"], 2),
    ("a discard by a device", [f"00000014 40 06 {1:016x} {4:016x} 0001"], 1),
    ("a discard that fails", ["00000004 00 01 00 04", f"00000014 00 06 {1:016x} {4:016x} 0001", "00000002 c0 31", f"0000000c 40 23 00 {3:016x} 02"], 4),
    ("a call on a held host", ["00000002 80 18", "00000004 00 01 00 04"], 2),
]


def refused_files(program, folder):
    """What is no record, or none that can be replayed, is refused, and nothing is printed."""
    for line in FIRST_LINES:
        Ended(program, [put_bytes(folder, line + b"\n"), "--list"]).is_refused("record: bad entry 0")
    for what, frames, number in BAD_FRAMES:
        data = HEADER + b"".join(bytes.fromhex(frame) for frame in frames)
        try:
            read_record(data)
        except BadEntry as bad:
            same(f"{what}, as the page has it", bad.args[0], number)
        for words in ([], ["--to", "1"], ["--list"], ["--list", "--to", "1"]):
            Ended(program, [put_bytes(folder, data), *words], "line\n").is_refused(f"record: bad entry {number}")
    for file in (os.path.join(folder, "none"), folder, os.path.join(folder, "none", "none")):
        Ended(program, [file]).is_refused("record: cannot be read")
    file = put_bytes(folder, short_record())
    for count in (63, 65):
        Ended(program, [file, "--image", put_bytes(folder, b"\0" * 512 * count, "other")], "line\n").is_refused("image: cannot be read")
    for words in ([], ["--list"]):
        Ended(program, [file, "--image", os.path.join(folder, "none"), *words], "line\n").is_refused("image: cannot be read")
    for history in ("13", "0", "16777217"):
        Ended(program, [file, "--history", history], "line\n").is_refused("config: history_max")
    same("room for all", Ended(program, [file, "--history", "14"], "line\ntick\n").lines()[1][:7], "refused")
    for words in ([], [file, file], [file, "--sectors", "4"], [file, "--history", "x"], [file, "--to"], [file, "--dir", folder], [file, "--list=1"]):
        Ended(program, words).is_refused("words: refused")


def full_history(program, folder):
    """A full history is recorded, and goes on in a replay with more room."""
    def act(host):
        with host.operator() as operator:
            operator.asks(*[pair for _ in range(4) for pair in ((FREEZE, DONE), (THAW, DONE))], (FREEZE, "e0 21"))
        host.line()
        host.line()

    file = recorded(program, folder, act, "--history", "8")
    same("no more room", Ended(program, [file], "freeze\n").lines(), ["refused 33"])
    same("more room", Ended(program, [file, "--history", "9"], "freeze\nthaw\n").lines(), ["done", "refused 33"])
    # No host has written more entries than its history holds.
    data = bytes_of(file).replace(b" 8 8 0 64\n", b" 8 7 0 64\n", 1)
    for words in ([], ["--history", "9"]):
        Ended(program, [put_bytes(folder, data), *words], "line\n").is_refused("record: bad entry 8")


def files_that_are_there(program, folder):
    """A record is a new file: one that is there, a folder and a link stay as they are, and where none can be made the host does not serve."""
    image, sockets = image_of(folder), os.path.join(folder, "sockets")
    os.mkdir(sockets)
    os.symlink(os.path.join(folder, "nowhere"), os.path.join(folder, "link"))
    there = put_bytes(folder, b"mine", "there")
    for file, said in ((there, "record: exists"), (folder, "record: exists"), (os.path.join(folder, "link"), "record: exists"),
                       (folder + "/", "record: exists"), (os.path.join(folder, "none", "run"), "record: failed"), ("", "record: failed")):
        ended = subprocess.run([program, "serve", "--image", image, "--dir", sockets, "--record", file], stdin=subprocess.DEVNULL,
                               capture_output=True, text=True, timeout=SECONDS, check=False)
        same(f"a record at {file}", (ended.stderr, ended.stdout, ended.returncode), (said + "\n", "", NO_SOCKET))
        same("the folder", os.listdir(sockets), [])
    same("the file that was there", bytes_of(there), b"mine")
    same("where the link points", os.path.exists(os.path.join(folder, "nowhere")), False)
    file = os.path.join(folder, "run")
    ended = subprocess.run([program, "serve", "--image", image, "--dir", os.path.join(folder, "none"), "--record", file], stdin=subprocess.DEVNULL,
                           capture_output=True, text=True, timeout=SECONDS, check=False)
    same("no folder for sockets", (ended.stderr, ended.returncode, os.path.exists(file)), ("socket: failed\n", NO_SOCKET, False))


def none_is_left(program, folder):
    """Of a host whose first line cannot be written, or that finds no memory for its history, no record is left, and the sockets are removed."""
    image, sockets, file = image_of(folder), os.path.join(folder, "sockets"), os.path.join(folder, "run")
    os.mkdir(sockets)
    # The first line cannot be written.
    ended = subprocess.run([program, "serve", "--image", image, "--dir", sockets, "--record", file], stdin=subprocess.DEVNULL, capture_output=True,
                           text=True, timeout=SECONDS, check=False, preexec_fn=lambda: small_files_alone(10))
    same("the end", (ended.stderr, ended.stdout, ended.returncode), ("record: failed\n", "", NO_SOCKET))
    same("what is left", (os.path.exists(file), os.listdir(sockets)), (False, []))
    little = 1 << 25
    # The names of a full history alone take 16 MB, and its journal more.
    ended = subprocess.run([program, "serve", "--image", image, "--dir", sockets, "--record", file, "--history", "16777216"], stdin=subprocess.DEVNULL,
                           capture_output=True, text=True, timeout=SECONDS, check=False,
                           preexec_fn=lambda: resource.setrlimit(resource.RLIMIT_AS, (little, little)))
    same("the end", (ended.stderr, ended.stdout, ended.returncode), ("memory: none\n", "", 5))
    same("what is left", (os.path.exists(file), os.listdir(sockets)), (False, []))


def small_files_alone(most=600):
    """No file may be longer than so many bytes, and a write past that fails and does not kill."""
    signal.signal(signal.SIGXFSZ, signal.SIG_IGN)
    resource.setrlimit(resource.RLIMIT_FSIZE, (most, most))


def full_disk(program, folder):
    """Where no more can be written the record ends, which is told once, and the host goes on. The file is a front of the record."""
    image, sockets, file = image_of(folder), os.path.join(folder, "sockets"), os.path.join(folder, "run")
    os.mkdir(sockets)
    with Served(program, image, sockets, "--record", file, workers=1, limits=small_files_alone) as host:
        with host.talk(0) as client:
            client.asks((ATTACH, attached(1)))
            for first in (2, 6, 10):
                client.asks((store(1, 5, 1, 7), queued(first)), (reap(1), written(first)))
            same("standard error", host.line(), "record: failed")
            with host.operator() as operator:
                operator.asks((HOLD, moved(13, 13)), (undo(13), moved(0, 13)), (STOP, CLOSED))
        host.ended()
    data = bytes_of(file)
    line, entries, _ = read_record(data)
    same("the first line", line + b"\n", HEADER)
    same("the entries", [entry.call for entry in entries][:2], ["attach 0 0 4", "write 0 1 5 1 7"][:len(entries)])
    if len(data) > 600 or not entries:
        raise Wrong(f"the record has {len(data)} bytes and {len(entries)} entries")


def killed(program, folder):
    """A host that is killed under load leaves a record up to a torn entry at most."""
    image, sockets, file = image_of(folder), os.path.join(folder, "sockets"), os.path.join(folder, "run")
    os.mkdir(sockets)
    with Served(program, image, sockets, "--record", file, "--history", "1048576") as host:
        load = subprocess.Popen([sys.executable, CLIENT, host.path("client0"), "load", "--sectors", "64", "--depth", "8", "--seconds", "30", "--writes", "50"], stdin=subprocess.DEVNULL,
                                stdout=subprocess.DEVNULL, stderr=subprocess.DEVNULL)
        try:
            while os.path.getsize(file) < 400_000:
                if load.poll() is not None:
                    raise Wrong("the load ended before the host was killed")
            host.process.kill()
            host.process.wait()
        finally:
            load.kill()
            load.wait()
    _, entries, is_torn = read_record(bytes_of(file))
    said = f"record: torn behind entry {len(entries)}\n" if is_torn else ""
    lines = Ended(program, [file, "--list"]).lines(said)
    same("seats and calls", [re.fullmatch(r"\d+ \S+ (\w+) (.*) -> .*", line).groups() for line in lines], [entry[:2] for entry in entries])


RUNS = [as_the_format_says, listed, is_what_was_served, goes_on_otherwise, cut_everywhere, discards, both_versions, each_byte_changed, refused_files,
        full_history, none_is_left, files_that_are_there, full_disk, killed]


def recording(program):
    """The name of each run with what was wrong with it."""
    for run in RUNS:
        folder = tempfile.mkdtemp(prefix="bfq-")
        try:
            run(program, folder)
            yield f"record: {run.__name__}", []
        except (Wrong, OSError, ValueError, AttributeError, subprocess.SubprocessError) as fault:
            yield f"record: {run.__name__}", [str(fault)]
        finally:
            shutil.rmtree(folder)
