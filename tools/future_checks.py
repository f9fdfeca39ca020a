"""What comes of a search: a user's command for each content, on an image of its own, and the files that tell of it."""

import concurrent.futures
import contextlib
import csv
import errno
import io
import os
import shlex
import shutil
import signal
import stat
import subprocess
import tempfile
import threading

import payload
from grammar import MOST_BYTES, SIGN
from host import BadInput, Ended, told_with
from image import stored, write_new
from measured import write_whole

# A status above it is a shell's, and says that a command cannot be run or was killed.
MOST_STATUS = 125
ARROW = " -> "
CSV_HEAD = ["content", "steps", "status", "sectors"]


class Unchecked(Ended):
    """A command has not judged an image."""


def must_be_there(command):
    """A command that is not there is told of before a long search, and not behind it."""
    if not shutil.which(command[0]):
        raise Unchecked(f"{command[0]} does not run: it is not there, or is no program")


def must_be_readable(path):
    """A file of bytes that the program is to read is one."""
    with told_with(path):
        if not stat.S_ISREG(os.stat(path).st_mode):
            raise BadInput(f"{path}: no regular file")
        with open(path, "rb"):
            pass


class Checks:
    """A command that judges images: status 0 says that one is good."""

    def __init__(self, command, image, jobs):
        self.command, self.image, self.jobs = command, image, jobs
        # The runs that go on; and whether there are to be no more.
        self.running, self.is_over, self.lock = set(), False, threading.Lock()

    def all(self, contents):
        """For each content the status of the command and what it said, in the order in which they are given."""
        with told_with("a folder for images"):
            images = tempfile.TemporaryDirectory(prefix="bfq-futures-")
        with images as folder, concurrent.futures.ThreadPoolExecutor(self.jobs) as pool:
            try:
                yield from pool.map(lambda it: self.of(folder, *it), enumerate(contents))
            finally:
                pool.shutdown(wait=False, cancel_futures=True)
                self.stop()

    def stop(self):
        """Ends what goes on, so that nobody waits for it."""
        with self.lock:
            self.is_over = True
            # One that has ended may have left its number to another process. What a command has started may have its output open.
            for ran in [it for it in self.running if it.returncode is None]:
                with contextlib.suppress(ProcessLookupError):
                    os.killpg(ran.pid, signal.SIGKILL)

    def of(self, folder, number, content):
        """What the command says of one content."""
        path = os.path.join(folder, f"content-{number:06}.img")
        write_new(path, self.image, content.items())
        try:
            with self.started(path) as ran:
                said, _ = ran.communicate()
        except OSError as fault:
            raise Unchecked(f"{self.command[0]} does not run: {fault.strerror}") from None
        finally:
            # The command may have taken it away.
            with contextlib.suppress(FileNotFoundError):
                os.unlink(path)
        self.running.discard(ran)
        if not 0 <= ran.returncode <= MOST_STATUS:
            how = f"was killed by signal {-ran.returncode}" if ran.returncode < 0 else f"has ended with status {ran.returncode}"
            raise Unchecked(f"{self.command[0]} {how}, which judges nothing")
        return ran.returncode, said

    def started(self, path):
        """A run of the command over an image."""
        with self.lock:
            if self.is_over:
                raise OSError(errno.ECANCELED, os.strerror(errno.ECANCELED))
            ran = subprocess.Popen([*self.command, path], stdin=subprocess.DEVNULL, stdout=subprocess.PIPE, stderr=subprocess.STDOUT,
                                   start_new_session=True)
            self.running.add(ran)
        return ran


class Folder:
    """The folder of the files that a search writes, or none."""

    def __init__(self, path):
        self.path, self.is_new = path, path is not None and not os.path.exists(path)
        if path is None:
            return
        with told_with(path):
            os.makedirs(path, exist_ok=True)
            if os.listdir(path):
                raise OSError(errno.ENOTEMPTY, os.strerror(errno.ENOTEMPTY))

    def abandon(self):
        """Takes it away, if it was made and nothing is in it."""
        if self.is_new:
            with contextlib.suppress(OSError):
                os.rmdir(self.path)

    def write(self, name, data):
        """Writes a file whole."""
        if self.path is not None:
            write_whole(os.path.join(self.path, name), data)

    def write_script(self, name, rows, words):
        """Writes a script with its answers, and how it is played: the words that tools/expect is given behind it."""
        told = f"# tools/expect {name}.script {shlex.join(words)}"
        rows = [told.encode(errors="surrogateescape")[:MOST_BYTES], *(row.encode(errors="surrogateescape") for row in rows)]
        self.write(f"{name}.script", b"".join(row + b"\n" for row in rows))

    def write_image(self, name, image, content):
        """Writes an image with a content over it. What a command may have changed is another copy."""
        if self.path is not None:
            write_new(os.path.join(self.path, f"{name}.img"), image, content.items())

    def write_contents(self, rows):
        """Writes what is stored in each content, as START+COUNT=BYTE, with the fewest steps to it and the status of the command."""
        text = io.StringIO()
        table = csv.writer(text, lineterminator="\n")
        table.writerow(CSV_HEAD)
        table.writerows(rows)
        self.write("contents.csv", text.getvalue().encode())


def runs_of(content, places):
    """What is stored in a content: each run of sectors of one byte, as START+COUNT=BYTE, or of sectors that follow each other in the payload, as
    START+COUNT@SECTOR, or in a write of the record, as START+COUNT#ENTRY.SECTOR. `places` has the first place of each block: what stands before
    its sector, and that."""
    found = []
    for sector, block in sorted(content.items()):
        # All bytes alike stand for themselves.
        sign, value = ("=", block[0]) if is_of_one_byte(block) else places[block]
        step = 0 if sign == "=" else 1
        if found and found[-1][2] == sign and sector == found[-1][0] + found[-1][1] and value == found[-1][3] + step * found[-1][1]:
            found[-1][1] += 1
        else:
            found.append([sector, 1, sign, value])
    return " ".join(f"{start}+{count}={value:02x}" if sign == "=" else f"{start}+{count}{sign}{value}" for start, count, sign, value in found)


def is_of_one_byte(block):
    """Whether all bytes of a block are alike."""
    return block == block[:1] * len(block)


def places_of(contents, options, record):
    """Where each block of some contents stands whose bytes are not alike: in the payload, or else in the record."""
    places = {block: (SIGN, sector) for block, sector in payload.places_in(options).items()}
    if record is not None:
        places |= record.places_of({block for content in contents for block in content.values() if not is_of_one_byte(block)} - places.keys())
    return places


def played(opening, lines, contents=None, number=None):
    """The lines of an opening and those behind it, each with the answer that a new host gives. What it stores must be the content of this
    number, if one is given."""
    lines = [*opening.lines, *lines]
    with opening.begun() as host:
        rows = [f"{line}{ARROW}{answer}" for line, answer in zip(lines, host.ask_each(lines))]
        if contents and contents.over_image(stored(host)) != contents.all[number]:
            last = f", if it is asked {lines[-1]!r} at last" if lines else ""
            raise Ended(f"{opening.program} does not store what the search has found{last}")
    return rows
