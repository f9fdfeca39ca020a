"""tools/trace nbd: what a disk was sent becomes the client that is worked out by hand, byte for byte; what it refuses; its recorder, by a played
nbdkit; and the kernel's own ext4, on record in examples/futures/ext4 and mounted here.

The futures of a record are counted besides by tests/futures_by_copies.py, which shares no code with the tools. A mount needs root, FUSE and
loop devices, and each check of an ext4 needs e2fsck. What lacks here is told, and its runs are skipped.
"""

import csv
import errno
import lzma
import os
import re
import shlex
import shutil
import struct
import subprocess
import tempfile
from collections import namedtuple

from ext4_mounted import NEEDS as MOUNT_NEEDS, made, mounted
from futures_by_copies import counted
from lessons import PATH, can_mount, unmount_below
from played_nbdkit import Played, Refused
from served import Wrong
from tools import BAD_INPUT, NOT_WANTED, SECONDS, TOOLS, differences, started, written

TOP = os.path.dirname(os.path.dirname(os.path.abspath(__file__)))
FUTURES = os.path.join(TOP, "examples", "futures")
RECORDER, CHECK = os.path.join(FUTURES, "recorder.py"), os.path.join(FUTURES, "ext4.py")
CHECK_NEEDS = ["e2fsck", "debugfs"]
SECTOR = 512
MAGIC = b"bfqdisk1"
# What a commit record in the journal of an ext4 begins with: the magic of JBD2, and the kind 2.
COMMIT = bytes.fromhex("c03b399800000002")
NONE = ["--scheduler", "none"]


def sent(kind, offset=0, length=0, forced=0, data=b"", zeros=0):
    """Something that a disk was sent, as the record has it; worked out from docs/FUTURES.md."""
    return struct.pack("<BBHIQ", ord(kind), forced, zeros, length, offset) + data


def write(sector, data, forced=0):
    return sent("W", sector * SECTOR, len(data), forced, data)


def block(letter, count=1):
    return letter.encode() * SECTOR * count


FLUSH = sent("F")
# A record behind its magic, over an image of 200 sectors; the words of the tool; and what comes of it.
Case = namedtuple("Case", "name record words clients payload told")
CASES = [
    Case("two writes and a flush", write(3, block("a") + block("b")) + write(9, block("c")) + FLUSH, [],
         "write 3 2 @0\nwrite 9 1 @2\n# sync 1, of a flush\nsync\n", block("a") + block("b") + block("c"), "3 sectors written, 1 syncs\n"),
    Case("what is not flushed", FLUSH + write(0, block("a")), [], "# sync 1, of a flush\nsync\nwrite 0 1 @0\n", block("a"),
         "1 sectors written, 1 syncs\n"),
    Case("with FUA", write(1, block("a"), 1) + sent("Z", 0, SECTOR, 1) + sent("T", SECTOR, SECTOR, 1), [],
         "write 1 1 @0\n# sync 1, of a write with FUA\nsync\nwrite 0 1 0\n# sync 2, of a zeroing with FUA\nsync\n"
         "discard 1 1\n# sync 3, of a trim with FUA\nsync\n", block("a"), "2 sectors written, 1 discarded, 3 syncs\n"),
    Case("more than 64 sectors",
         write(0, block("a", 64) + block("b")) + sent("Z", 70 * SECTOR, 65 * SECTOR) + sent("T", 70 * SECTOR, 130 * SECTOR), [],
         "write 0 64 @0\nwrite 64 1 @64\nwrite 70 64 0\nwrite 134 1 0\ndiscard 70 64\ndiscard 134 64\ndiscard 198 2\n", block("a", 64) + block("b"),
         "130 sectors written, 130 discarded, 0 syncs\n"),
    Case("by three sectors",
         write(5, block("a", 3) + block("b", 3) + block("c")) + sent("Z", 0, 4 * SECTOR) + sent("T", 0, 4 * SECTOR), ["--split", "3"],
         "write 5 3 @0\nwrite 8 3 @3\nwrite 11 1 @6\nwrite 0 3 0\nwrite 3 1 0\ndiscard 0 3\ndiscard 3 1\n",
         block("a", 3) + block("b", 3) + block("c"),
         "11 sectors written, 4 discarded, 0 syncs\n"),
    Case("flushes that are forgotten", write(0, block("a")) + FLUSH + write(1, block("b"), 1) + FLUSH, ["--forget", "1,2"],
         "write 0 1 @0\n# sync 1, of a flush, is forgotten\nwrite 1 1 @1\n# sync 2, of a write with FUA, is forgotten\n# sync 3, of a flush\nsync\n",
         block("a") + block("b"), "2 sectors written, 3 syncs\n"),
    # A sync gives back all that is owed, and a reap one.
    Case("more than a client is owed", write(0, block("a", 34)) + FLUSH + write(0, block("b", 33)), ["--split", "1"],
         "".join(f"{'reap' + chr(10) if at >= 32 else ''}write {at} 1 @{at}\n" for at in range(34)) + "# sync 1, of a flush\nsync\n"
         + "".join(f"{'reap' + chr(10) if at >= 32 else ''}write {at} 1 @{34 + at}\n" for at in range(33)),
         block("a", 34) + block("b", 33), "67 sectors written, 1 syncs\n"),
    Case("its last sector", write(199, block("a")), [], "write 199 1 @0\n", block("a"), "1 sectors written, 0 syncs\n"),
]
# A file that is no good record, and why. Each has a good write in front, but for those that have no magic.
BAD = [
    (b"", "no record of a disk: it does not begin with bfqdisk1"),
    (b"bfqdisk2" + FLUSH, "no record of a disk: it does not begin with bfqdisk1"),
    (MAGIC, "no write, trim or zeroing is on record"),
    (MAGIC + FLUSH, "no write, trim or zeroing is on record"),
    *((MAGIC + write(0, block("a")) + more, f"bad record 2: {why}") for more, why in [
        (FLUSH[:15], "the file ends behind 15 of its first 16 bytes"),
        (write(0, block("a", 2))[:-1], "the file ends behind 1023 of the 1024 bytes that are written"),
        (sent("W", 0, 0xfffffe00)[:16], "past the end of the image, which has 200 sectors: bytes 0 to 4294966784"),
        (sent("R"), "its first byte is 0x52, and not W, T, Z or F"),
        (sent("F", forced=1), "a flush has zeros behind its first byte"),
        (sent("F", SECTOR), "a flush has zeros behind its first byte"),
        (sent("F", 0, SECTOR), "a flush has zeros behind its first byte"),
        (sent("T", 0, SECTOR, 2), "its second byte is 0 or 1, and the next two are 0"),
        (sent("T", 0, SECTOR, zeros=256), "its second byte is 0 or 1, and the next two are 0"),
        (sent("W", 1, SECTOR, data=block("a")), "OFFSET is no multiple of 512: 1"),
        (sent("W", 0, 511, data=block("a")[:511]), "LENGTH is no multiple of 512: 511"),
        (sent("T", 0, 0), "LENGTH is 0"),
        (write(199, block("a", 2)), "past the end of the image, which has 200 sectors: bytes 101888 to 102912"),
        (sent("Z", 2**64 - SECTOR, SECTOR), f"past the end of the image, which has 200 sectors: bytes {2**64 - SECTOR} to {2**64}"),
    ]),
]
# Bad words, and what is told of them. `log` is a good record.
GOOD = ["nbd", "log", "--image", "image", "--into", "told"]
BAD_WORDS = [
    ([*GOOD, "--", "true"], "nbd runs no command: nothing stands behind --\n"),
    (["nbd", "log", "log", "--image", "image", "--into", "told"], "nbd has one LOG\n"),
    (["nbd", "log", "--into", "told"], "nbd wants --image IMAGE, the disk before the first write\n"),
    ([*GOOD, "--late"], "nbd takes no --late\n"),
    ([*GOOD, "--room", "9"], "nbd takes no --room\n"),
    (["file", "image", "--split", "9", "--into", "told", "--", "true"], "file takes no --split\n"),
    (["sqlite", "image", "--image", "image", "--into", "told", "--", "true"], "sqlite takes no --image\n"),
    (["nbd", "none", "--image", "image", "--into", "told"], "none: No such file or directory\n"),
    (["nbd", ".", "--image", "image", "--into", "told"], ".: no regular file\n"),
    (["nbd", "log", "--image", "none", "--into", "told"], "none: No such file or directory\n"),
    (["nbd", "log", "--image", ".", "--into", "told"], ".: neither a file nor a block device\n"),
    (["nbd", "log", "--image", "image", "--into", "."], ".: Directory not empty\n"),
]
# What is on record in examples/futures/ext4: which sync is left out, how many sectors a line has at most, how many contents there are, and how
# many of them break a promise.
Known = namedtuple("Known", "forgotten split contents fail")
KNOWN = [Known(None, 64, 59, 0), Known(3, 64, 74, 1)]
KNOWN_LONG = [Known(4, 64, 62, 0), Known(5, 64, 62, 1), Known(None, 4, 352, 0), Known(3, 4, 562, 55)]


# What a crash has left in an ext4: the texts of files by their names, what debugfs is asked besides, and what the check says of it.
Left = namedtuple("Left", "files more said")
LEFT = [
    Left({}, [], "sound"), Left({"a": 3000 * "A"}, [], "sound"), Left({"a": 7 * "A"}, [], "sound"), Left({"a": ""}, [], "sound"),
    Left({"a": 3000 * "A", "b.tmp": 2999 * "B"}, [], "sound"), Left({"a": 3000 * "A", "b": 3000 * "B"}, [], "sound"),
    Left({"a": 3000 * "B"}, [], "a has bytes that nobody wrote"), Left({"a": 3001 * "A"}, [], "a has bytes that nobody wrote"),
    Left({"a": 3000 * "A", "b.tmp": "\0"}, [], "b.tmp has bytes that nobody wrote"),
    Left({"b": 3000 * "B"}, [], "a was synced before b.tmp came, and is not whole"),
    Left({"a": 2999 * "A", "b.tmp": ""}, [], "a was synced before b.tmp came, and is not whole"),
    Left({"a": 3000 * "A", "b": 2999 * "B"}, [], "b has its name, and is not whole, or has its old name too"),
    Left({"a": 3000 * "A", "b": 3000 * "B", "b.tmp": 3000 * "B"}, [], "b has its name, and is not whole, or has its old name too"),
    # A block that nobody has is marked; and block 1, the superblock, is zeros.
    Left({}, ["setb 2000"], "Block bitmap differences"), Left({}, ["zap_block -p 0 1"], "no replay of its journal"),
]


def tool(folder, *words):
    """What a run of a tool prints on both outputs, and its status."""
    name, *others = words
    with started([os.path.join(TOOLS, name), *others], folder) as ran:
        stdout, stderr = (text.decode() for text in ran.communicate(timeout=8 * SECONDS))
    return stdout, stderr, ran.returncode


def content_of(*path):
    with open(os.path.join(*path), "rb") as file:
        return file.read()


def case_faults(it):
    image = b"".join(bytes([at]) * SECTOR for at in range(200))
    with tempfile.TemporaryDirectory() as folder:
        written(folder, "image", image)
        written(folder, "log", MAGIC + it.record)
        yield from differences("what is told", tool(folder, "trace", *GOOD, *it.words), (it.told, "", 0))
        told = os.path.join(folder, "told")
        yield from differences("what is made", sorted(os.listdir(told)), ["clients", "disk.img", "payload"])
        yield from differences("clients", content_of(told, "clients").decode(), f"seat 0\n{it.clients}")
        yield from differences("whether the payload is right", content_of(told, "payload") == it.payload, True)
        yield from differences("whether the image is right", content_of(told, "disk.img") == image, True)


def bad_faults():
    for log, why in BAD:
        with tempfile.TemporaryDirectory() as folder:
            written(folder, "image", bytes(200 * SECTOR + 511))
            written(folder, "log", log)
            yield from differences(why, tool(folder, "trace", *GOOD), ("", f"log: {why}\n", BAD_INPUT))
            yield from differences(f"{why}: what is made", sorted(os.listdir(folder)), ["image", "log"])
    for words, said in BAD_WORDS:
        with tempfile.TemporaryDirectory() as folder:
            written(folder, "image", bytes(SECTOR))
            written(folder, "log", MAGIC + write(0, block("a")))
            yield from differences(shlex.join(words), tool(folder, "trace", *words), ("", said, BAD_INPUT))
            yield from differences(f"{shlex.join(words)}: what is made", sorted(os.listdir(folder)), ["image", "log"])


def recorder_faults():
    """The recorder stores and records what a played nbdkit asks of it, and what fails is told and not recorded."""
    with tempfile.TemporaryDirectory() as folder:
        disk, log = written(folder, "disk", bytes(range(256)) * 32), os.path.join(folder, "log")
        played = Played(RECORDER, image=disk, record=log)
        yield from differences("the size, the model and FUA", (played.size, played.model, played.fua), (8192, "SERIALIZE_ALL_REQUESTS", "NATIVE"))
        played.write(block("a", 2), SECTOR)
        played.flush()
        yield from differences("what is read", played.read(SECTOR + 2, 2 * SECTOR), block("a") + b"\0\1")
        played.write(b"of any byte", 5, fua=True)
        played.trim(100, 2000)
        played.zero(SECTOR, 4096, fua=True)
        wanted = bytearray(bytes(range(256)) * 32)
        for at, data in ((SECTOR, block("a", 2)), (5, b"of any byte"), (2000, bytes(100)), (4096, bytes(SECTOR))):
            wanted[at:at + len(data)] = data
        yield from differences("whether the disk is right", content_of(disk) == wanted, True)
        record = (MAGIC + write(1, block("a", 2)) + FLUSH + sent("W", 5, 11, 1, b"of any byte") + sent("T", 2000, 100) + sent("Z", 4096, SECTOR, 1))
        yield from differences("the record", content_of(log), record)
        yield from refused(lambda: played.read(1, 8192), errno.EIO)
        full = Played(RECORDER, image="/dev/full", record=os.path.join(folder, "other"))
        yield from refused(lambda: full.write(block("a"), 0), errno.ENOSPC)
        yield from differences("the record of a write that failed", content_of(folder, "other"), MAGIC)
        for given in ({"image": disk, "record": log}, {"image": disk}, {"image": disk, "record": log + "2", "size": "9"}):
            try:
                Played(RECORDER, **given)
                yield f"{given} is taken"
            except (OSError, ValueError):
                yield from differences("the record that was there", content_of(log), record)


def refused(act, number):
    """A request must fail with this error."""
    try:
        act()
        yield f"error {number} is not told"
    except Refused as fault:
        yield from differences("the error", fault.number, number)


def copies_of(folder):
    """The contents of a trace with the fewest steps to each, as a count by copies finds them. There each write has a byte of its own, which
    stands for what it writes."""
    image, payload = content_of(folder, "disk.img"), content_of(folder, "payload")
    rows, writes = [], [None]
    for row in content_of(folder, "clients").decode().splitlines():
        word, *words = row.split(" ")
        if word == "write":
            start, count, at = int(words[0]), int(words[1]), int(words[2].removeprefix("@"))
            row = f"write {start} {count} {len(writes)}"
            writes.append((start, payload[at * SECTOR:(at + count) * SECTOR]))
        rows.append(row)
    found = {}
    for content, steps in counted("\n".join(rows), [*NONE, "--sectors", str(len(image) // SECTOR)]).contents.items():
        blocks = {sector: writes[byte][1][(sector - writes[byte][0]) * SECTOR:][:SECTOR] for sector, byte in content}
        key = over_image(blocks, image)
        found[key] = min(steps, found.get(key, steps))
    return found


def over_image(blocks, image):
    """What of some blocks is otherwise than in the image."""
    return frozenset((sector, data) for sector, data in blocks.items() if data != image[sector * SECTOR:(sector + 1) * SECTOR])


def searched(folder, into):
    """The contents of contents.csv with the steps to each."""
    payload, found = content_of(folder, "payload"), {}
    image = content_of(folder, "disk.img")
    with open(os.path.join(into, "contents.csv"), encoding="ascii") as file:
        for row in csv.DictReader(file):
            blocks = {}
            for run in row["sectors"].split():
                start, count = map(int, run.replace("@", "=").split("=")[0].split("+"))
                for at in range(count):
                    value = run.replace("@", "=").split("=")[1]
                    blocks[start + at] = (payload[(int(value) + at) * SECTOR:][:SECTOR] if "@" in run else bytes([int(value, 16)]) * SECTOR)
            found[over_image(blocks, image)] = int(row["steps"])
    return found


def futures_of(program, folder):
    """A search of what is told in a folder, and the check of each content: what it prints, its status, and its folder."""
    into = tempfile.mkdtemp(dir=folder)
    clients, payload, image = (os.path.join(folder, "told", name) for name in ("clients", "payload", "disk.img"))
    words = [clients, "--payload", payload, "--image", image, "--into", into, "--check", CHECK, "--", *NONE]
    return tool(folder, "futures", "--program", program, *words), into


def check_faults():
    """The check finds what is wrong with an ext4, and nothing else."""
    for it in LEFT:
        with tempfile.TemporaryDirectory() as folder:
            image = written(folder, "image", lzma.decompress(content_of(FUTURES, "ext4", "disk.img.xz")))
            for at, (name, text) in enumerate(it.files.items()):
                debugfs(image, f"write {written(folder, f'file{at}', text)} {name}")
            for command in it.more:
                debugfs(image, command)
            ran = subprocess.run([CHECK, image], capture_output=True, text=True, timeout=SECONDS, check=False)
        yield from differences(f"the status of {it.said}", ran.returncode, 0 if it.said == "sound" else 1)
        yield from [] if it.said in ran.stdout else [f"{it.said} is not said, but {ran.stdout}"]


def debugfs(image, command):
    subprocess.run(["debugfs", "-w", "-R", command, image], capture_output=True, env={**os.environ, "PATH": PATH}, timeout=SECONDS, check=True)


def failing_faults(program, folder, into):
    """A failure's script is played, and the check finds its image bad once more."""
    script = os.path.join(into, "fail-0001.script")
    options = shlex.split(content_of(script).decode().splitlines()[0].partition(" -- ")[2])
    rows = content_of(script).decode().splitlines()
    lines = [row for row in rows if " -> " in row]
    yield from differences("tools/expect", tool(into, "expect", "--program", program, "fail-0001.script", "--", *options),
                           (f"{len(lines)} lines asked, {len(lines)} answers as wanted\n", "", 0))
    written(folder, "played", "".join(f"{row.partition(' -> ')[0]}\n" for row in rows))
    ran = tool(folder, "export", "--program", program, "told/disk.img", "made.img", "--script", "played", "--",
               *(it for it in options if not it.startswith("--image=")))
    yield from differences("tools/export", ran[1:], ("", 0))
    image = os.path.join(into, "fail-0001.img")
    yield from differences("whether the exported image is that of the failure", content_of(folder, "made.img") == content_of(image), True)
    yield from differences("the check of the failure", subprocess.run([CHECK, image], capture_output=True, check=False).returncode, 1)


def known_faults(program, it):
    """The futures of the record that is there are as the count by copies has them, and the check finds the known failures."""
    with tempfile.TemporaryDirectory() as folder:
        for name, packed in (("image", "disk.img.xz"), ("log", "disk.log.xz")):
            written(folder, name, lzma.decompress(content_of(FUTURES, "ext4", packed)))
        forget = ["--forget", str(it.forgotten)] if it.forgotten else []
        made_of_it = tool(folder, "trace", *GOOD, *forget, "--split", str(it.split))
        yield from differences("the trace", made_of_it, ("86 sectors written, 21 syncs\n", "", 0))
        (stdout, stderr, status), into = futures_of(program, folder)
        # Of many failures it is told behind a semicolon that they are not shown.
        found = stdout.rpartition("\n")[0].rpartition("\n")[2].partition(";")[0], stderr, status
        yield from differences("the search", found, (f"{it.contents} contents checked: {it.fail} fail", "", int(bool(it.fail))))
        copies, found = copies_of(os.path.join(folder, "told")), searched(os.path.join(folder, "told"), into)
        yield from differences("how many contents a count by copies has", len(copies), it.contents)
        yield from differences("whether they are the same, in as few steps", copies == found, True)
        if it.fail:
            yield from failing_faults(program, folder, into)


def mounted_faults(program, folder):
    """What the kernel's ext4 sends keeps its promises, but not if the flush before a commit record is forgotten."""
    mounted(folder, RECORDER)
    yield from differences("the trace", tool(folder, "trace", *GOOD)[1:], ("", 0))
    yield from end_faults(program, folder)
    (stdout, stderr, status), _ = futures_of(program, folder)
    yield from differences("the search", (stdout.endswith(" contents checked: 0 fail\n"), stderr, status), (True, "", 0))
    forgotten = before_commit(os.path.join(folder, "told"))
    shutil.rmtree(os.path.join(folder, "told"))
    yield from differences("the trace", tool(folder, "trace", *GOOD, "--forget", str(forgotten))[1:], ("", 0))
    (stdout, stderr, status), into = futures_of(program, folder)
    yield from differences(f"the status without sync {forgotten}, and what is said", (status, stderr), (NOT_WANTED, ""))
    if status == NOT_WANTED:
        yield from failing_faults(program, folder, into)


def made_faults(program, folder):
    """A new ext4 is made by writes, trims and zeroings, and the client has them all."""
    made(folder, RECORDER)
    yield from differences("the trace", tool(folder, "trace", *GOOD)[1:], ("", 0))
    rows = content_of(folder, "told", "clients").decode().splitlines()
    for what, form in (("trim", r"discard \d+ \d+"), ("zeroing", r"write \d+ \d+ 0"), ("write", r"write \d+ \d+ @\d+"), ("flush", "sync")):
        yield from [] if any(re.fullmatch(form, row) for row in rows) else [f"there is no {what}"]
    yield from end_faults(program, folder)


def end_faults(program, folder):
    """If each request of a client is done before the next one is made, the host has the disk that the recorder has at the end."""
    rows, serial = ["attach 0 0 4"], 1
    for row in content_of(folder, "told", "clients").decode().splitlines():
        word, _, words = row.partition(" ")
        if word in ("write", "discard"):
            # The request is the second step from here on, and is alone in the device.
            rows += [f"{word} 0 1 {words}", "dispatch", f"work 0 {serial + 2}", "reap 0 1"]
            serial += 4
    written(folder, "script", "".join(f"{row}\n" for row in rows))
    ran = tool(folder, "export", "--program", program, "told/disk.img", "end.img", "--script", "script", "--", *NONE, "--payload", "told/payload")
    yield from differences("tools/export", (ran[0].partition(", ")[2], *ran[1:]), (f"{serial} of {serial} steps stand\n", "", 0))
    yield from differences("whether its image is the disk", content_of(folder, "end.img") == content_of(folder, "disk.img"), True)


def in_a_folder(act, program):
    """The faults of a run with a disk that is mounted in a folder, which is gone at the end."""
    folder = tempfile.mkdtemp(prefix="bfq-")
    try:
        yield from act(program, folder)
    finally:
        unmount_below(folder)
        shutil.rmtree(folder, ignore_errors=True)


def before_commit(told):
    """The number of the sync before the first commit record that comes after the bytes of the file a."""
    payload, number, has_bytes = content_of(told, "payload"), 0, False
    for row in content_of(told, "clients").decode().splitlines():
        if row.startswith("# sync "):
            number = int(row.split(" ")[2].rstrip(","))
        elif row.startswith("write ") and "@" in row:
            at = int(row.partition("@")[2]) * SECTOR
            has_bytes = has_bytes or payload[at:at + 4] == b"AAAA"
            if has_bytes and payload[at:at + len(COMMIT)] == COMMIT:
                return number
    raise Wrong("no commit record comes after the bytes of a")


def lacking(needs, has_mounts):
    """What is not here."""
    return [it for it in needs if not shutil.which(it, path=PATH)] + ["root with FUSE and loop devices"] * (has_mounts and not can_mount())


def disk_trace_runs(program, has_all):
    """The name of each run, and what it did in another way than wanted."""
    program = os.path.abspath(program)
    for it in CASES:
        yield f"trace nbd: {it.name}", [*case_faults(it)]
    yield "trace nbd: bad input", [*bad_faults()]
    yield "trace nbd: the recorder", [*recorder_faults()]
    if lacks := lacking(CHECK_NEEDS, False):
        print(f"skipped: trace nbd: the record of an ext4: no {' and no '.join(lacks)} here")
        return
    yield "trace nbd: the check of an ext4", faults_of(check_faults())
    for it in [*KNOWN, *(KNOWN_LONG if has_all else [])]:
        name = f"an ext4 by {it.split}{f' without sync {it.forgotten}' if it.forgotten else ''}"
        yield f"trace nbd: {name}", faults_of(known_faults(program, it))
    if lacks := lacking(MOUNT_NEEDS, True):
        print(f"skipped: trace nbd: an ext4 that the kernel makes and mounts: no {' and no '.join(lacks)} here")
        return
    yield "trace nbd: an ext4 that is mounted", faults_of(in_a_folder(mounted_faults, program))
    yield "trace nbd: an ext4 that is made", faults_of(in_a_folder(made_faults, program))


def faults_of(found):
    """The faults of a run, and what has ended it early."""
    faults = []
    try:
        faults.extend(found)
    except (Wrong, OSError, ValueError, LookupError, subprocess.SubprocessError) as fault:
        faults.append(f"{type(fault).__name__}: {fault}")
    return faults
