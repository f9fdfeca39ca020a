"""Runs over payloads: the bytes that a `write SEAT SESSION START COUNT @SECTOR` takes from the file of `--payload`, of `sim` and of `replay`.

The expected bytes are those that this program writes into the files, and what is a bad line follows from docs/FORMATS.md and a length.
"""

import os
import resource
import subprocess

from bad_input import BAD_LINE, BAD_WORDS, REFUSED, Case
from images import CANNOT_BE_READ, SECTOR_BYTES, sector_text, written

NO_PAYLOAD = b"payload: cannot be read\n"
NO_MEMORY = 5
MOST_BYTES = 1 << 26
# A record of no entry, by docs/FORMATS.md.
EMPTY_RECORD = b"bfqhost record 1 bfq 64 4 1024 4096 8 65536 0 1024\n"
# Under so much address space a host can run, and a payload as long as may be has no room.
ADDRESSES = 48 << 20
SECONDS = 20

A, B, COUNTED = b"A" * SECTOR_BYTES, b"B" * SECTOR_BYTES, bytes(range(256)) * 2
# Three sectors and a byte.
LETTERS = A + B + COUNTED + b"x"

# Lines that come behind an attach, and what they print over LETTERS; None for a bad line.
JUDGED = [
    ("write 0 1 9 1 @0", "queued 2"), ("write 0 1 9 1 @2", "queued 2"), ("write 0 1 9 3 @0", "queued 2"),
    # Past the end by a sector of which a byte is there, by one of which none is, and by far.
    ("write 0 1 9 1 @3", None), ("write 0 1 9 4 @0", None), ("write 0 1 9 2 @2", None), ("write 0 1 9 1 @4", None), ("write 0 1 9 64 @0", None),
    ("write 0 1 9 1 @18446744073709551615", None), ("write 0 1 9 1 @36028797018963968", None),
    # No sector is asked for, or too many for a bio: no bytes are brought, but SECTOR must not be past the end.
    ("write 0 1 9 0 @0", "refused 12"), ("write 0 1 9 0 @3", "refused 12"), ("write 0 1 9 0 @4", None),
    ("write 0 1 9 65 @0", "refused 12"), ("write 0 1 9 65 @3", "refused 12"), ("write 0 1 9 65 @4", None),
    ("write 0 1 9 65535 @3", "refused 12"), ("write 0 1 9 65535 @18446744073709551615", None),
    # Refusals of a write are those of any other.
    ("write 1 1 9 1 @0", "refused 3"), ("write 16 1 9 1 @0", "refused 1"), ("write 0 2 9 1 @0", "refused 4"), ("write 0 1 1023 2 @0", "refused 14"),
    ("write 0 1 9 1 65", "queued 2"),
    # No lines, whatever the payload is.
    ("write 0 1 9 1 @", None), ("write 0 1 9 1 @01", None), ("write 0 1 9 1 @+1", None), ("write 0 1 9 1 @18446744073709551616", None),
    ("write 0 1 9 1 @0 65", None), ("write 0 1 9 1 65 @0", None), ("write 0 1 9 @0", None), ("write 0 1 9 1 @ 0", None), ("read 0 1 9 1 @0", None),
    ("discard 0 1 9 1 @0", None), ("write 0 1 9 65536 @0", None),
]
# Lines of all three sectors, which are undone and redone, and another future. `{}` stands for each byte of COUNTED.
STORED = [
    ("attach 0 0 4", "attached 1"), ("write 0 1 9 3 @0", "queued 2"), ("write 0 1 20 1 @1", "queued 3"), ("dispatch", "issued 0 4 store 9 3"),
    ("work 0 4", "finished 1"), ("sector 8", "sector 8 base"), ("sector 9", "sector 9 overlay 41"), ("sector 10", "sector 10 overlay 42"),
    ("sector 11", "sector 11 overlay {}"), ("sector 12", "sector 12 base"), ("show step 2", "step 2 2 write 0 1 9 3 .."),
    ("show step 3", "step 3 3 write 0 1 20 1 66"), ("reap 0 1", "completed 2 written"), ("hold", "moved 6 6"), ("undo 2", "moved 4 6"),
    ("sector 11", "sector 11 base"), ("redo 1", "moved 5 6"), ("sector 11", "sector 11 overlay {}"), ("undo 5", "moved 0 6"),
    ("redo 6", "moved 6 6"), ("sector 9", "sector 9 overlay 41"), ("sector 11", "sector 11 overlay {}"), ("undo 6", "moved 0 6"),
    ("release", "done"), ("attach 0 0 4", "attached 7"), ("write 0 7 0 1 @2", "queued 8"), ("dispatch", "issued 0 9 store 0 1"),
    ("work 0 9", "finished 1"), ("sector 0", "sector 0 overlay {}"), ("reap 0 7", "completed 8 written"), ("read 0 7 0 1", "queued 12"),
    ("dispatch", "issued 0 13 fetch 0 1"), ("work 0 13", "finished 1"), ("reap 0 7", "completed 12 read {}"),
]


def script(name, words, rows):
    """A run of lines, each with what it prints; None for a bad line, which is the last."""
    lines = "".join(f"{line}\n" for line, _ in rows)
    texts = [text.format(sector_text(COUNTED)) if text else f"bad line {number}" for number, (_, text) in enumerate(rows, 1)]
    return Case(name, words, lines.encode(), "".join(f"{text}\n" for text in texts).encode(), b"", 0 if rows[-1][1] else BAD_LINE)


def refused(name, words, stderr):
    """A run that ends before its first line."""
    return Case(name, words, b"hold\n", b"", stderr, BAD_WORDS)


def sparse(folder, name, size, last=b""):
    """The path of a new file of so many bytes, which ends with these, and of which nothing else is stored."""
    path = os.path.join(folder, name)
    with open(path, "wb") as file:
        file.truncate(size - len(last))
        file.seek(0, os.SEEK_END)
        file.write(last)
    return path


def judged(run, payload):
    """Which lines are bad over a payload of three sectors and a byte, and what the others print."""
    for line, text in JUDGED:
        yield script(f"{run[0]}: {line}", [*run, "--payload", payload], [("attach 0 0 4", "attached 1"), (line, text)])
        # Without a payload a line that takes bytes from it is bad, and each other one is as it was.
        alone = None if "@" in line else text
        yield script(f"{run[0]} without a payload: {line}", run, [("attach 0 0 4", "attached 1"), (line, alone)])


def lengths(folder, run):
    """Payloads that are empty, of 64 sectors, and as long as may be."""
    attach = ("attach 0 0 4", "attached 1")
    empty = [*run, f"--payload={written(folder, 'empty', b'')}"]
    yield script("no sector of an empty payload", empty, [attach, ("write 0 1 9 1 @0", None)])
    yield script("no bytes of an empty payload", empty, [attach, ("write 0 1 9 0 @0", "refused 12"), ("write 0 1 9 0 @1", None)])
    many = [*run, "--payload", written(folder, "many", b"".join(bytes([number]) * SECTOR_BYTES for number in range(64)))]
    shown = [(f"sector {number}", f"sector {number} overlay {number - 100:02x}") for number in range(100, 164)]
    yield script("64 sectors", many, [attach, ("write 0 1 100 64 @0", "queued 2"), ("dispatch", "issued 0 3 store 100 64"),
                                      ("work 0 3", "finished 1"), *shown])
    yield script("64 sectors from the second on", many, [attach, ("write 0 1 100 64 @1", None)])
    yield script("63 sectors from the second on", many, [attach, ("write 0 1 100 63 @1", "queued 2")])
    most = [*run, "--payload", sparse(folder, "most", MOST_BYTES, B)]
    last = MOST_BYTES // SECTOR_BYTES - 1
    yield script("the last sectors of 64 MiB", most, [
        attach, (f"write 0 1 9 2 @{last - 1}", "queued 2"), ("dispatch", "issued 0 3 store 9 2"), ("work 0 3", "finished 1"),
        ("sector 9", "sector 9 overlay 00"), ("sector 10", "sector 10 overlay 42"), (f"write 0 1 9 2 @{last}", None)])
    link = os.path.join(folder, "linked")
    os.symlink(os.path.join(folder, "many"), link)
    yield script("a link to a file", [*run, "--payload", link], [attach, ("write 0 1 9 1 @63", "queued 2")])


def no_payloads(folder, run):
    """Files that are no payloads, and which fault is told first."""
    missing, pipe = os.path.join(folder, "missing"), os.path.join(folder, "pipe")
    if not os.path.exists(pipe):
        os.mkfifo(pipe)
    for name, path in [("a file that is not there", missing), ("a path that is empty", ""), ("a folder", folder), ("a FIFO", pipe),
                       ("a device", "/dev/zero"), ("64 MiB and a byte", sparse(folder, "longer", MOST_BYTES + 1)),
                       ("8 GiB", sparse(folder, "far-longer", 1 << 33))]:
        yield refused(f"{run[0]}: {name}", [*run, f"--payload={path}"], NO_PAYLOAD)
    yield refused(f"{run[0]}: the image's fault comes first", [*run, "--payload", missing, "--image", missing], CANNOT_BE_READ)
    yield refused(f"{run[0]}: two payloads", [*run, "--payload", missing, "--payload", missing], REFUSED)
    yield refused(f"{run[0]}: no file", [*run, "--payload"], REFUSED)


def over_an_image(folder, payload):
    """An image and a payload, of which neither is the other."""
    image = written(folder, "disk", b"D" * SECTOR_BYTES * 16)
    yield script("an image and a payload", ["sim", "--payload", payload, "--image", image], [
        ("attach 0 0 4", "attached 1"), ("write 0 1 3 1 @1", "queued 2"), ("dispatch", "issued 0 3 store 3 1"), ("work 0 3", "finished 1"),
        ("reap 0 1", "completed 2 written"), ("read 0 1 2 3", "queued 6"), ("dispatch", "issued 0 7 fetch 2 3"), ("work 0 7", "finished 1"),
        ("reap 0 1", "completed 6 read 44 42 44"), ("write 0 1 15 2 @0", "refused 14")])


def payloads(folder):
    """Makes the files in this folder, and gives the cases over them."""
    letters, record = written(folder, "letters", LETTERS), written(folder, "record", EMPTY_RECORD)
    for run in (["sim"], ["replay", record]):
        yield from judged(run, letters)
        yield script(f"{run[0]}: stored, undone and redone", [*run, "--payload", letters], STORED)
        yield from no_payloads(folder, run)
    yield from lengths(folder, ["sim"])
    yield from over_an_image(folder, letters)
    missing = os.path.join(folder, "missing")
    yield refused("the configuration comes before the payload", ["sim", "--tags", "0", "--payload", missing], b"config: tags\n")
    yield refused("the record comes before the payload", ["replay", missing, "--payload", missing], b"record: cannot be read\n")
    yield refused("a list of a record wants its payload too", ["replay", record, "--list", "--payload", missing], NO_PAYLOAD)
    yield Case("a list of a record beside a payload", ["replay", record, "--list", "--payload", letters])
    yield refused("a host that serves has no payload", ["serve", "--image", letters, "--dir", folder, "--payload", letters], REFUSED)


def no_memory(program, folder):
    """A payload for which there is no memory."""
    words = [program, "sim", "--payload", sparse(folder, "large", MOST_BYTES)]
    ran = subprocess.run(words, input=b"line\n", capture_output=True, timeout=SECONDS, check=False,
                         preexec_fn=lambda: resource.setrlimit(resource.RLIMIT_AS, (ADDRESSES, ADDRESSES)))
    if (ran.returncode, ran.stdout, ran.stderr) != (NO_MEMORY, b"", b"memory: none\n"):
        yield f"it ended with status {ran.returncode}, {ran.stdout!r} and {ran.stderr!r}"
