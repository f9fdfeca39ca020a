"""Runs over image files: what is read from them, what is refused, and that they are never written.

The expected bytes are those that this program writes into the files, or that `xxd` shows of them.
"""

import functools
import os
import shutil
import socket
import stat
import subprocess

from bad_input import BAD_WORDS, REFUSED, Case, Skipped

SECTOR_BYTES = 512
# The superblock of ext4 stands 1,024 bytes from the start and has 1,024 bytes: sectors 2 and 3.
SUPERBLOCK_SECTOR = 2
SUPERBLOCK_SECTORS = 2
EXT4_BYTES = 1 << 20
# Past the 65,536 sectors that a device of zeros has at most.
FAR_SECTOR = 70_000
# A file of which nearly nothing is stored may be far larger than memory.
SPARSE_BYTES = 1 << 40
# Larger files are not read whole to see whether they have changed.
MOST_BYTES = 1 << 26

# How long a tool may take.
SECONDS = 20

CANNOT_BE_READ = b"image: cannot be read\n"


def read_case(name, words, start, count, sectors):
    """A run that reads a range by the work of the device."""
    script, text = reading(start, count, sectors)
    return Case(name, ["sim", *words], script, text)


def refused(name, words, stderr):
    """A run that ends before its first line."""
    return Case(name, ["sim", *words], b"hold\n", b"", stderr, BAD_WORDS)


def sector_text(sector):
    """A sector as a script prints it: two digits where all bytes are equal, else all digits."""
    return sector[:1].hex() if sector == sector[:1] * SECTOR_BYTES else sector.hex()


def reading(start, count, sectors):
    """A script that reads a range by the work of the device, and what it prints."""
    lines = f"attach 0 0 4\nread 0 1 {start} {count}\ndispatch\nwork 0 3\nwork 0 3\nreap 0 1\n"
    read = " ".join(sector_text(sector) for sector in sectors)
    text = f"attached 1\nqueued 2\nissued 0 3 fetch {start} {count}\nfinished 1\nrefused 20\ncompleted 2 read {read}\n"
    return lines.encode(), text.encode()


def written(folder, name, content):
    """The path of a new file with this content."""
    path = os.path.join(folder, name)
    with open(path, "wb") as file:
        file.write(content)
    return path


def small_files(folder):
    """The runs over small files."""
    some = bytes(number * 7 % 251 for number in range(1000))
    path = written(folder, "thousand", some)
    yield read_case("1,000 bytes are one sector", ["--image", path], 0, 1, [some[:SECTOR_BYTES]])
    yield Case("no sector past the image's last", ["sim", "--image", path],
               b"attach 0 0 4\nread 0 1 1 1\nread 0 1 0 1\ndispatch\nwork 0 3\nwork 0 3\nsector 0\nsector 1\n",
               b"attached 1\nrefused 14\nqueued 2\nissued 0 3 fetch 0 1\nfinished 1\nrefused 20\nsector 0 base\nsector 1 none\n")
    yield read_case("the number of sectors is not used beside an image", ["--sectors", "70000", "--image", path],
                    0, 1, [some[:SECTOR_BYTES]])
    letters = b"A" * SECTOR_BYTES + b"B" * SECTOR_BYTES
    both = [letters[:SECTOR_BYTES], letters[SECTOR_BYTES:]]
    yield read_case("two sectors", [f"--image={written(folder, 'letters', letters)}"], 0, 2, both)
    yield Case("a store stays in memory", ["sim", "--image", os.path.join(folder, "letters")],
               b"attach 0 0 4\nwrite 0 1 0 1 67\ndispatch\nwork 0 3\nreap 0 1\nread 0 1 0 2\ndispatch\nwork 0 7\nreap 0 1\n",
               b"attached 1\nqueued 2\nissued 0 3 store 0 1\nfinished 1\ncompleted 2 written\n"
               b"queued 6\nissued 0 7 fetch 0 2\nfinished 1\ncompleted 6 read 43 42\n")
    yield Case("an empty file", ["sim", "--image", written(folder, "empty", b"")],
               b"attach 0 0 4\nread 0 1 0 1\n", b"attached 1\nrefused 14\n")
    far = written(folder, "far", b"")
    with open(far, "wb") as file:
        file.seek(FAR_SECTOR * SECTOR_BYTES)
        file.write(letters)
    yield read_case("more sectors than a device of zeros may have", ["--image", far], FAR_SECTOR, 2, both)
    link = os.path.join(folder, "linked")
    os.symlink(os.path.join(folder, "letters"), link)
    yield read_case("a link to a file", ["--image", link], 0, 2, both)


def no_files(folder):
    """The runs that have no image to read."""
    missing = os.path.join(folder, "missing")
    yield refused("a file that is not there", ["--image", missing], CANNOT_BE_READ)
    yield refused("a path that is empty", ["--image="], CANNOT_BE_READ)
    yield refused("a folder", ["--image", folder], CANNOT_BE_READ)
    link = os.path.join(folder, "dangling")
    os.symlink(missing, link)
    yield refused("a link to a file that is not there", ["--image", link], CANNOT_BE_READ)
    yield refused("the configuration comes before the image", ["--tags", "0", "--image", missing], b"config: tags\n")
    yield refused("the words come before the image", ["--tags", "x", "--image", missing], REFUSED)


def no_regular_files(folder):
    """What is neither a regular file nor a block device is refused at once. The FIFO has nothing at its other end."""
    pipe = os.path.join(folder, "pipe")
    os.mkfifo(pipe)
    yield refused("a FIFO", ["--image", pipe], CANNOT_BE_READ)
    link = os.path.join(folder, "link")
    os.symlink(pipe, link)
    yield refused("a link to a FIFO", ["--image", link], CANNOT_BE_READ)
    yield refused("standard input, which is a pipe", ["--image", "/dev/stdin"], CANNOT_BE_READ)
    for device in ("/dev/zero", "/dev/null", "/dev/full", "/dev/tty"):
        yield refused(device, ["--image", device], CANNOT_BE_READ)


def bound_socket(folder):
    """A socket is refused. It is bound under a short name of its folder, as no path of more than 107 bytes is taken there."""
    held = os.open(folder, os.O_RDONLY)
    try:
        with socket.socket(socket.AF_UNIX) as bound:
            bound.bind(f"/proc/self/fd/{held}/socket")
    except OSError as lacking:
        raise Skipped(f"a socket: {lacking}") from None
    finally:
        os.close(held)
    return [refused("a socket", ["--image", os.path.join(folder, "socket")], CANNOT_BE_READ)]


def closed_file(folder):
    """A file that may not be read is refused."""
    if os.geteuid() == 0:
        raise Skipped("a file that may not be read: root may read every file")
    path = written(folder, "closed", b"C" * SECTOR_BYTES)
    os.chmod(path, 0)
    return [refused("a file that may not be read", ["--image", path], CANNOT_BE_READ)]


def large_file(folder):
    """The last sector of a file of 1 TiB can be read, where the file system has such files."""
    letters, last = b"L" * SECTOR_BYTES, SPARSE_BYTES // SECTOR_BYTES - 1
    path = os.path.join(folder, "sparse")
    try:
        with open(path, "wb") as file:
            file.seek(last * SECTOR_BYTES)
            file.write(letters)
    except OSError as lacking:
        raise Skipped(f"a file of 1 TiB: {lacking}") from None
    return [read_case("a file of 1 TiB", ["--image", path], last - 1, 2, [bytes(SECTOR_BYTES), letters]),
            Case("past a file of 1 TiB", ["sim", "--image", path], f"sector {last}\nsector {last + 1}\n".encode(),
                 f"sector {last} base\nsector {last + 1} none\n".encode())]


def loop_device(path, stack):
    """A loop device over a file. It is detached at once, so it goes when the stack is closed or this process ends."""
    made = subprocess.run(["losetup", "--find", "--show", "--read-only", path], capture_output=True, text=True, timeout=SECONDS,
                          check=False)
    if made.returncode:
        raise Skipped(f"a block device: {made.stderr.strip()}")
    device = made.stdout.strip()
    try:
        file = stack.enter_context(open(device, "rb"))
    finally:
        # One that is open stays until nobody has it open any more.
        subprocess.run(["losetup", "--detach", device], timeout=SECONDS, check=True)
    if not stat.S_ISBLK(os.fstat(file.fileno()).st_mode):
        raise Skipped(f"a block device: {device} is none")
    return device


def block_device(stack, folder):
    """A block device is read like a file, where a loop device can be had."""
    both = [b"P" * SECTOR_BYTES, b"Q" * SECTOR_BYTES]
    try:
        device = loop_device(written(folder, "block", b"".join(both) * 4), stack)
    except (OSError, subprocess.SubprocessError) as lacking:
        raise Skipped(f"a block device: {lacking}") from None
    return [read_case("a block device", ["--image", device], 6, 2, both),
            Case("past a block device", ["sim", "--image", device], b"sector 7\nsector 8\n", b"sector 7 base\nsector 8 none\n")]


def ext4(folder):
    """A run that reads the superblock of a new ext4, whose bytes `xxd` shows."""
    lacking = [tool for tool in ("truncate", "mkfs.ext4", "xxd") if shutil.which(tool) is None]
    if lacking:
        raise Skipped(f"the superblock of an ext4: no {', '.join(lacking)} here")
    path = os.path.join(folder, "ext4")
    subprocess.run(["truncate", "-s", str(EXT4_BYTES), path], check=True)
    subprocess.run(["mkfs.ext4", "-q", "-F", path], check=True, stdout=subprocess.DEVNULL, stderr=subprocess.DEVNULL)
    shown = subprocess.run(["xxd", "-p", "-c", "32", "-s", str(SUPERBLOCK_SECTOR * SECTOR_BYTES),
                            "-l", str(SUPERBLOCK_SECTORS * SECTOR_BYTES), path], check=True, stdout=subprocess.PIPE).stdout
    block = bytes.fromhex("".join(shown.decode().split()))
    sectors = [block[at:at + SECTOR_BYTES] for at in range(0, len(block), SECTOR_BYTES)]
    return [read_case("the superblock of an ext4", ["--image", path], SUPERBLOCK_SECTOR, SUPERBLOCK_SECTORS, sectors)]


def files_of(folder):
    """The bytes of each file of a folder that can be read; of a large one its length and the time of its last change."""
    found = {}
    for name in os.listdir(folder):
        path = os.path.join(folder, name)
        if not os.path.isfile(path) or not os.access(path, os.R_OK):
            continue
        seen = os.stat(path)
        if seen.st_size > MOST_BYTES:
            found[name] = (seen.st_size, seen.st_mtime_ns)
            continue
        with open(path, "rb") as file:
            found[name] = file.read()
    return found


def images(folder, stack):
    """Makes the files in this folder: the cases over them, and what is skipped, a text for each. What the runs need besides is
    held by the stack."""
    cases, skipped = [*small_files(folder), *no_files(folder), *no_regular_files(folder)], []
    for more in (bound_socket, closed_file, large_file, functools.partial(block_device, stack), ext4):
        try:
            cases += more(folder)
        except Skipped as lacking:
            skipped.append(str(lacking))
    return cases, skipped
