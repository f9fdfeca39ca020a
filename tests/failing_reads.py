"""Reads of an image file that fail, each in turn: `bfqhost sim` and `serve` behind tests/fail_read.c.

The shim lets no read give more than READ_AT_MOST bytes, so a fetch takes several reads. The Nth read of the file fails, for N from 1 to one
past the reads of a clean run. What must come is worked out from docs/FORMATS.md line by line, as is how many reads there are:

- The file is read once when it is opened, and once for each worker. If that fails the run is refused.
- A fetch is read until its range is full, also while the host is held. A store, a discard and any other line reads nothing. Where no read
  is cut short a fetch is one read, as each asks for all that is left.
- The system says that the read was interrupted, or that it would have to wait: then the request is given back, and the next `work` line
  reads it from its start. With any other error the read has failed, and that is what the client hears.
- A worker of a host waits before it tries again, twice as long each time.
"""

import contextlib
import errno
import os
import re
import subprocess
import tempfile
import time
from concurrent.futures import ThreadPoolExecutor

from bad_input import BAD_WORDS
from images import CANNOT_BE_READ, sector_text
from served import (ATTACH, CLOSED, HOLD, SECONDS, SECTOR, STOP, Served, Wrong, attached, fetch, image_of, moved, queued, read, reap, same,
                    sector_of, store, written)
from shims import NoShim, shim_in

# Not a part of a sector, nor of two: the last read of a fetch takes what is left.
READ_AT_MOST = 200
BUSY = ("EAGAIN", "EINTR")
# The last is said by a disk that does not answer.
FAILED = ("EIO", "ETIMEDOUT")
# In frames: a read that failed as the device did.
FAULT = "85 {:016x} 02"
STORED = 65
# How often an image is busy in a row: the last pause but for the longest one is 64 milliseconds.
BUSY_READS = 7
# So many reads are asked of two workers of which one is always busy. The second half may take so many seconds: if each waited for the longest
# pause it would take two.
READS_BESIDE, MOST_BESIDE = 40, 1


class Script:
    """Lines of a script, what each must print, and how many reads there were, if the Nth one fails with this error."""

    def __init__(self, nth, is_busy, at_most):
        self.nth, self.is_busy, self.at_most = nth, is_busy, at_most
        self.lines, self.texts, self.serial = [], [], 0
        # That of the opening.
        self.reads = 1
        self.takes("attach 0 0 4", "attached {}")
        self.session = self.serial

    def line(self, line, text):
        self.lines.append(line)
        self.texts.append(text)

    def takes(self, line, text):
        """A line whose step is accepted. Its text may name its serial."""
        self.serial += 1
        self.line(line, text.format(self.serial))

    def fails(self, count):
        """Reads a range till it is full. Gives whether a read failed, and then none came behind it."""
        pieces = -(-count * SECTOR // self.at_most) if self.at_most else 1
        has_failed = self.reads < self.nth <= self.reads + pieces
        self.reads = self.nth if has_failed else self.reads + pieces
        return has_failed

    def issues(self, what, start, count):
        self.takes("dispatch", f"issued 0 {{}} {what} {start} {count}")
        return f"work 0 {self.serial}"

    def fetches(self, start, count, data, is_held=False):
        """A read, asked for again if it has failed."""
        self.takes(f"read 0 {self.session} {start} {count}", "queued {}")
        bio, work = self.serial, self.issues("fetch", start, count)
        if is_held:
            # What is accepted now is the whole line of steps, and none is undone.
            self.line("hold", f"moved {self.serial} {self.serial}")
            self.fails(count)
            self.line(work, "notyet 41")
            self.line("release", "done")
        has_failed = self.fails(count)
        if has_failed and self.is_busy:
            self.takes(work, "requeued")
            work = self.issues("fetch", start, count)
            has_failed = self.fails(count)
        self.takes(work, "finished 1")
        sectors = " ".join(map(sector_text, data))
        self.takes(f"reap 0 {self.session}", f"completed {bio} " + ("error fault" if has_failed else f"read {sectors}"))
        if has_failed:
            self.fetches(start, count, data)

    def stores(self, start, count, byte):
        self.takes(f"write 0 {self.session} {start} {count} {byte}", "queued {}")
        bio, work = self.serial, self.issues("store", start, count)
        self.takes(work, "finished 1")
        self.takes(f"reap 0 {self.session}", f"completed {bio} written")

    def discards(self, start, count):
        self.takes(f"discard 0 {self.session} {start} {count}", "queued {}")
        bio, work = self.serial, self.issues("discard", start, count)
        self.takes(work, "finished 1")
        self.takes(f"reap 0 {self.session}", f"completed {bio} discarded")


def script(nth, is_busy, at_most=READ_AT_MOST):
    """The script of all runs of `sim`."""
    made = Script(nth, is_busy, at_most)
    made.fetches(0, 1, [sector_of(0)])
    made.fetches(5, 2, [sector_of(5), sector_of(6)])
    made.stores(9, 2, STORED)
    # The device reads what is stored, too, and what is stored goes over it.
    made.fetches(10, 2, [bytes([STORED]) * SECTOR, sector_of(11)])
    # So do the zeros of a discard.
    made.discards(10, 1)
    made.fetches(9, 2, [bytes([STORED]) * SECTOR, bytes(SECTOR)])
    made.fetches(62, 2, [sector_of(62), sector_of(63)], is_held=True)
    made.line("work 0 1", "refused 20")
    return made


class Shim:
    """The shim before a program, whose image is a file."""

    def __init__(self, path, image):
        self.path, self.image = path, os.path.realpath(image)

    def environment(self, nth, name, at_most=READ_AT_MOST, count=1, is_alone=False):
        return {**os.environ, "LD_PRELOAD": self.path, "FAIL_FILE": self.image, "READ_AT_MOST": str(at_most), "FAIL_NTH": str(nth),
                "FAIL_COUNT": str(count), "FAIL_ERRNO": str(getattr(errno, name, 0)), **({"FAIL_ALONE": "1"} if is_alone else {})}


def told(said):
    """What the shim counted, reads and failures, and what else stands on standard error."""
    found = re.search(rb"fail_read: (\d+) reads, (\d+) failed\n\Z", said)
    return (int(found[1]), int(found[2]), said[:found.start()]) if found else (0, 0, said)


def of_sim(program, shim, nth, name, at_most=READ_AT_MOST):
    """What a script did in another way than it must, if a read fails."""
    wanted = script(nth, name in BUSY, at_most)
    stdin = "".join(f"{line}\n" for line in wanted.lines).encode()
    ran = subprocess.run([program, "sim", "--image", shim.image], input=stdin, capture_output=True, timeout=SECONDS,
                         env=shim.environment(nth, name, at_most), check=False)
    reads, failed, said = told(ran.stderr)
    if nth == 1:
        found = [("standard output", ran.stdout, b""), ("standard error", said, CANNOT_BE_READ), ("the status", ran.returncode, BAD_WORDS),
                 ("what failed", (reads, failed), (1, 1))]
    else:
        lines, texts = ran.stdout.decode().splitlines(), wanted.texts
        at = next((at for at, text in enumerate(texts) if lines[at:at + 1] != [text]), 0)
        found = [(f"line {at + 1}, {wanted.lines[at]}", lines[at:at + 1], texts[at:at + 1]), ("the lines", lines, texts),
                 ("standard error", said, b""), ("the status", ran.returncode, 0),
                 ("the reads, and those that failed", (reads, failed), (wanted.reads, int(nth <= wanted.reads and nth > 0)))]
    for what, got, want in found:
        same(f"{name}, read {nth}: {what}", got, want)


def sims(program, shim):
    """The runs of `sim`: the name of each error, and what is wrong with its runs."""
    reads = script(0, False).reads
    for name in (*BUSY, *FAILED):
        with ThreadPoolExecutor(len(os.sched_getaffinity(0))) as pool:
            numbers = range(0, reads + 2)
            yield f"sim, each of {reads} reads fails with {name}", faults_in(pool.map(
                lambda nth, name=name: caught(of_sim, program, shim, nth, name), numbers))
    yield "sim, a fetch is one read", caught(of_sim, program, shim, 0, "", 0)


def caught(run, *given):
    """What is wrong with a run."""
    try:
        run(*given)
    except (Wrong, OSError, subprocess.SubprocessError) as fault:
        return [str(fault)]
    return []


def faults_in(found):
    """The first faults of many runs."""
    return [it for faults in found for it in faults][:3]


def ended(host, reads, failed):
    """Stops a host, which tells so many reads, and as many that failed."""
    host.operates((STOP, CLOSED))
    host.ended(said=f"fail_read: {reads} reads, {failed} failed\n".encode())


def of_served(program, shim, name, nth):
    """A host with one worker that serves one client: the Nth read of its first fetch fails."""
    # That of the opening, then two fetches of two sectors.
    pieces = -(-2 * SECTOR // READ_AT_MOST)
    with tempfile.TemporaryDirectory(prefix="bfq-") as folder, contextlib.ExitStack() as stack:
        host = stack.enter_context(Served(program, shim.image, folder, clients=1, workers=1, env=shim.environment(1 + nth, name)))
        client = stack.enter_context(host.talk(0))
        client.asks((ATTACH, attached(1)), (store(1, 9, 1, STORED), queued(2)), (reap(1), written(2)))
        # An Attach, a Submit, a Dispatch, a Finish and a Reap were the first five steps.
        client.asks((fetch(1, 5, 2), queued(6)))
        if name in BUSY:
            # The client sees nothing of it: the request is sent, given back, and sent again.
            client.asks((reap(1), read(6, sector_of(5) + sector_of(6))))
            steps = 11
        else:
            client.asks((reap(1), FAULT.format(6)))
            steps = 9
        client.asks((fetch(1, 9, 2), queued(steps + 1)), (reap(1), read(steps + 1, bytes([STORED]) * SECTOR + sector_of(10))))
        host.operates((HOLD, moved(steps + 4, steps + 4)))
        # A read that failed is not gone on with: what is read again is read from its start.
        ended(host, 1 + nth + pieces * (2 if name in BUSY else 1), 1)


def of_pauses(program, shim):
    """The image is busy at the first reads of a fetch, one after the other. Behind each the worker waits, 1 millisecond at first and then twice
    as long each time, so it takes 1 + 2 + 4 + .. of them. It may take longer, and not less."""
    with tempfile.TemporaryDirectory(prefix="bfq-") as folder, contextlib.ExitStack() as stack:
        env = shim.environment(2, "EAGAIN", 0, BUSY_READS)
        host = stack.enter_context(Served(program, shim.image, folder, clients=1, workers=1, env=env))
        client = stack.enter_context(host.talk(0))
        client.asks((ATTACH, attached(1)))
        began = time.monotonic()
        client.asks((fetch(1, 5, 2), queued(2)), (reap(1), read(2, sector_of(5) + sector_of(6))))
        took = time.monotonic() - began
        least = (2 ** BUSY_READS - 1) / 1000
        same(f"whether {took:.3f} seconds are less than {least}", took < least, False)
        # That of the opening, those that failed, and the one that did not.
        ended(host, 2 + BUSY_READS, BUSY_READS)


def of_one_busy(program, shim):
    """Of two workers one has an image that is always busy. It gives each read back, and waits. Meanwhile the other one answers: no read
    waits for a worker that does."""
    with tempfile.TemporaryDirectory(prefix="bfq-") as folder, contextlib.ExitStack() as stack:
        # The first two reads are those of the opening.
        env = shim.environment(3, "EAGAIN", 0, is_alone=True)
        host = stack.enter_context(Served(program, shim.image, folder, clients=1, workers=2, env=env))
        client = stack.enter_context(host.talk(0))
        client.asks((ATTACH, attached(1)))
        for number in range(READS_BESIDE):
            if number == READS_BESIDE // 2:
                began = time.monotonic()
            client.send(fetch(1, 5, 2) + reap(1))
            client.reply()
            # Behind its kind and the bio.
            same(f"read {number}", client.reply()[9:], sector_of(5) + sector_of(6))
        took = time.monotonic() - began
        same(f"whether {took:.3f} seconds are more than {MOST_BESIDE}", took > MOST_BESIDE, False)
        host.operates((STOP, CLOSED))


def of_opening(program, shim, nth):
    """A host of two workers, whose image cannot be read when one of them opens it."""
    with tempfile.TemporaryDirectory(prefix="bfq-") as folder:
        ran = subprocess.run([program, "serve", "--image", shim.image, "--dir", folder, "--workers", "2"], stdin=subprocess.DEVNULL,
                             capture_output=True, timeout=SECONDS, env=shim.environment(nth, "EIO"), check=False)
        reads, failed, said = told(ran.stderr)
        same("what it says", (ran.stdout, said, ran.returncode), (b"", CANNOT_BE_READ, BAD_WORDS))
        same("what failed", (reads, failed), (nth, 1))
        same("the folder", os.listdir(folder), [])


def serves(program, shim):
    """The runs of `serve`."""
    for name in (*BUSY, *FAILED):
        for which, nth in (("the first", 1), ("the third", 3)):
            yield f"serve, {which} read of a fetch fails with {name}", caught(of_served, program, shim, name, nth)
    for nth in (1, 2):
        yield f"serve, the image cannot be read by worker {nth}", caught(of_opening, program, shim, nth)
    yield f"serve, the image is busy {BUSY_READS} times", caught(of_pauses, program, shim)
    yield "serve, one of two workers is always busy", caught(of_one_busy, program, shim)


def shim_of(program, folder):
    """The shim and its image in a folder. A program without a read that it sees goes past it."""
    made = Shim(shim_in(folder, "fail_read"), image_of(folder))
    ran = subprocess.run([program, "sim", "--image", made.image], input=b"", capture_output=True, timeout=SECONDS,
                         env=made.environment(0, ""), check=False)
    if told(ran.stderr)[0] == 0:
        raise NoShim(f"{os.path.basename(program)} reads past the shim: another libc, or a static program")
    return made


def failing_reads(program):
    """The runs. They are skipped if a read cannot be made to fail here."""
    with tempfile.TemporaryDirectory(prefix="bfq-") as folder:
        try:
            shim = shim_of(program, folder)
        except NoShim as why:
            print(f"skipped: reads of an image file that fail: {why}")
            return
        yield from sims(program, shim)
        yield from serves(program, shim)
