"""An image that a script is run over: its data without its holes, what is stored over it, and the writing of a new one."""

import contextlib
import errno
import os
import stat

from host import BadInput, told_with

SECTOR = 512
# A copy is made in pieces of at most so many bytes.
PIECE = 1 << 20


class Image:
    """The image that a script is run over."""

    def __init__(self, path):
        self.path = path
        with told_with(path):
            mode = os.stat(path).st_mode
            if not stat.S_ISREG(mode) and not stat.S_ISBLK(mode):
                raise BadInput(f"{path}: neither a file nor a block device")
            self.descriptor = os.open(path, os.O_RDONLY)
            self.length = os.lseek(self.descriptor, 0, os.SEEK_END)

    def extent(self, at):
        """Where the first data from a place on begins and ends. Both are the end where there is only a hole left."""
        try:
            begin = os.lseek(self.descriptor, at, os.SEEK_DATA)
            return begin, os.lseek(self.descriptor, begin, os.SEEK_HOLE)
        except OSError as fault:
            if fault.errno == errno.ENXIO:
                return self.length, self.length
            if fault.errno == errno.EINVAL:
                # A block device does not tell its holes.
                return at, self.length
            raise

    def pieces(self):
        """The data, each piece with its place."""
        at = end = 0
        while at < self.length:
            with told_with(self.path):
                if at == end:
                    at, end = self.extent(at)
                piece = os.pread(self.descriptor, min(PIECE, end - at), at)
            if not piece:
                return
            yield at, piece
            at += len(piece)


def stored(host):
    """What is stored: each sector with its bytes."""
    at = 0
    while (run_of := host.ask(f"show stored {at}").split(" ")[1]) != "none":
        start, count = map(int, run_of.split("+"))
        at = start + count
        for sector, answer in zip(range(start, at), host.ask_each(f"sector {sector}" for sector in range(start, at))):
            block = bytes.fromhex(answer.split(" ")[3])
            yield sector, block * (SECTOR // len(block))


def zeros_stored(host):
    """The stored sectors that are all zeros, as one that was discarded is."""
    return {sector for sector, block in stored(host) if not any(block)}


def write_new(path, image, blocks, holes=frozenset()):
    """Writes an image with blocks over it, each by its sector, as a new file: all of it or nothing. Nothing is written at sectors that are
    to be holes. Gives how many blocks there were."""
    with told_with(path):
        out = os.open(path, os.O_WRONLY | os.O_CREAT | os.O_EXCL, 0o666)
    try:
        count = fill(path, out, image, blocks, holes)
    except BaseException:
        with contextlib.suppress(OSError):
            os.unlink(path)
        raise
    finally:
        os.close(out)
    return count


def fill(path, out, image, blocks, holes):
    """Writes into a new file. Gives how many blocks there were."""
    count = 0
    with told_with(path):
        os.truncate(out, image.length)
    for at, piece in image.pieces():
        for place, part in around(holes, at, piece):
            write_at(path, out, part, place)
    for sector, block in blocks:
        if sector not in holes:
            write_at(path, out, block, SECTOR * sector)
        count += 1
    return count


def around(holes, at, piece):
    """The parts of a piece that are at no sector of these, each with its place."""
    begin, end = at, at + len(piece)
    # Mostly there are none, and an image is large.
    for sector in range(at // SECTOR, end // SECTOR + 1) if holes else ():
        if sector in holes:
            if begin < SECTOR * sector:
                yield begin, piece[begin - at:SECTOR * sector - at]
            begin = SECTOR * (sector + 1)
    if begin < end:
        yield begin, piece[begin - at:]


def write_at(path, out, data, at):
    """Writes all of some bytes."""
    while data:
        with told_with(path):
            count = os.pwrite(out, data, at)
        data, at = data[count:], at + count
