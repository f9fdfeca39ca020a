"""Real bytes on file: an ext4 image is written through a host by the blocks of a real `debugfs -w`, and what was recorded has each of them.

Each state of the device that the record has is the one that is made here from the writes, and a checker of file systems finds the last one
clean. Where two writes are in flight at once the other one is finished first, in another future, and leaves another state.
"""

import os
import random
import shutil
import subprocess
import sys

from bad_input import DONE, Skipped
from lessons import PATH
from served import SECTOR, Wrong, same
from step_export_plot import ran

sys.path.insert(0, os.path.join(os.path.dirname(os.path.dirname(os.path.abspath(__file__))), "clients"))
from bfqclient import Io, open_record, serve  # noqa: E402

BLOCK = 1024
TOOLS_OF_EXT4 = ("mkfs.ext4", "debugfs", "e2fsck")
# How often it is tried to have two writes in flight at once.
TRIES = 10


def called(*words):
    """The status of a tool for file systems."""
    return subprocess.run([shutil.which(words[0], path=PATH), *words[1:]], capture_output=True, stdin=subprocess.DEVNULL, timeout=60,
                          check=False).returncode


def writes_of(folder):
    """An ext4 image, what debugfs makes of it, and the writes that lead from the one to the other."""
    for name in TOOLS_OF_EXT4:
        if not shutil.which(name, path=PATH):
            raise Skipped(f"an ext4 image: no {name} here")
    before, after, file = (os.path.join(folder, name) for name in ("disk.img", "after.img", "file"))
    with open(before, "wb") as image:
        image.truncate(4 << 20)
    same("mkfs.ext4", called("mkfs.ext4", "-q", "-F", "-b", str(BLOCK), before), 0)
    shutil.copy(before, after)
    with open(file, "wb") as written:
        written.write(random.Random(61).randbytes(20_000))
    same("debugfs", called("debugfs", "-w", "-R", f"write {file} file", after), 0)
    with open(before, "rb") as one, open(after, "rb") as other:
        old, new = one.read(), other.read()
    ios = [Io.write(at // SECTOR, new[at:at + BLOCK]) for at in range(0, len(new), BLOCK) if old[at:at + BLOCK] != new[at:at + BLOCK]]
    return before, old, new, ios


def over(image, *ios):
    """An image with these writes over it."""
    data = bytearray(image)
    for io in ios:
        data[io.start * SECTOR:(io.start + io.count) * SECTOR] = io.data
    return bytes(data)


def states_of_ext4(place):
    """The states that tools/export writes of a record are those of the writes, one after the other; the last is the whole, and clean."""
    image, old, new, ios = writes_of(place.folder)
    with serve(image, program=place.program, record=os.path.join(place.folder, "run.rec")) as host, host.session() as session:
        for io in ios:
            session.write(io.start, io.data)
    stdout, stderr, status = ran(["export", "disk.img", "--record", "run.rec", "--each", "stored", "--into", "states"], place.folder,
                                 place.program)
    same("the end", (len(stdout.splitlines()), stderr, status), (len(ios), "", DONE))
    names = sorted(os.listdir(os.path.join(place.folder, "states")))
    for at, name in enumerate(names, 1):
        with open(os.path.join(place.folder, "states", name), "rb") as file:
            same(name, file.read() == over(old, *ios[:at]), True)
    same("the whole", over(old, *ios) == new, True)
    checked = [called("e2fsck", "-fn", os.path.join(place.folder, "states", name)) for name in names]
    # In between the file system is not whole: its blocks are taken by nobody, or by nobody yet.
    same("what the checker says", (checked[-1], any(checked[:-1]), len(ios) > 5), (0, True, True))
    with open(image, "rb") as file:
        same("the image itself", file.read() == old, True)


def in_flight_at_once(record):
    """The last place of a record where two writes are in flight at once, and the line of each by which the device finishes it; or None."""
    for place in range(int(record.ask("line").split(" ")[2]), 0, -1):
        if record.ask(f"show step {place}").split(" ")[3] == "dispatch":
            record.go(place)
            flight = [item.split(":") for item in record.ask("show flight").split(" ")[1:]]
            if len(flight) > 1:
                return place, [(f"finish {tag} {issue} stored", sectors) for tag, issue, _, _, sectors, _ in flight[:2]]
    return None


def another_order(place):
    """Of two writes that are in flight at once each may be stored first: two futures of one record, with other bytes on the device."""
    image, old, _, ios = writes_of(place.folder)
    for number in range(TRIES):
        path = os.path.join(place.folder, f"{number}.rec")
        with serve(image, program=place.program, record=path, options=["--workers", "1"]) as host, host.session() as session:
            same("how many are done", len(list(session.run(ios, 16))), len(ios))
        with open_record(path, program=place.program, history=100_000) as record:
            if (found := in_flight_at_once(record)) is None:
                continue
            at, flight = found
            disks = []
            for line, _ in flight:
                record.go(at)
                same(line, record.ask(line)[:9], "finished ")
                disks.append(list(record.states())[-1].over(old))
        same("whether the states are two", disks[0] != disks[1], True)
        for disk, (_, sectors) in zip(disks, flight):
            start, count = map(int, sectors.split("+"))
            own = over(old, *ios)[start * SECTOR:(start + count) * SECTOR]
            same("the bytes of the one that is stored", disk[start * SECTOR:(start + count) * SECTOR] == own, True)
        return
    raise Wrong(f"in none of {TRIES} runs two writes are in flight at once")
