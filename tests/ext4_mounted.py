"""An ext4 that the kernel mounts on a disk that is recorded: a loop device over tests/fuse_file.py, which stands in for nbdfuse and nbdkit.

The loop device takes no page cache (`losetup --direct-io=on`), so the disk is sent what the file system sends, in its order. It must keep
none: else the run fails. What was mounted is gone at the end, also after a fault.
"""

import contextlib
import os
import select
import shutil
import subprocess
import sys

from lessons import PATH, unmount_below
from served import Wrong

TESTS = os.path.dirname(os.path.abspath(__file__))
NEEDS = ["mkfs.ext4", "e2fsck", "debugfs", "losetup", "mount", "umount"]
SECONDS = 30
ENVIRONMENT = {**os.environ, "PATH": PATH, "PYTHONDONTWRITEBYTECODE": "1"}
# One block of journal has 1,024 bytes then, so that the smallest journal is 1 MiB.
SIZE, BLOCK = 2 << 20, 1024
# The file system must not write its own tables later on, at a time of its own.
OPTIONS = ["-q", "-F", "-b", str(BLOCK), "-E", "lazy_itable_init=0,lazy_journal_init=0"]
# What the writer does in its folder, as examples/futures/ext4.py wants it.
WRITER = """
import os, sys
os.chdir(sys.argv[1])
for name, letter in (("a", b"A"), ("b.tmp", b"B")):
    file = os.open(name, os.O_WRONLY | os.O_CREAT, 0o644)
    os.write(file, letter * 3000)
    os.fsync(file)
    os.close(file)
os.rename("b.tmp", "b")
os.fsync(os.open(".", os.O_RDONLY))
"""


class Served:
    """A disk as a file, by FUSE."""

    def __init__(self, folder, plugin):
        self.place = os.path.join(folder, "place")
        with open(self.place, "wb"):
            pass
        words = [os.path.join(TESTS, "fuse_file.py"), self.place, plugin, f"image={folder}/disk.img", f"record={folder}/log"]
        self.process = subprocess.Popen([sys.executable, *words], stdin=subprocess.DEVNULL, stdout=subprocess.PIPE, env=ENVIRONMENT)
        if not select.select([self.process.stdout], [], [], SECONDS)[0] or self.process.stdout.readline() != b"mounted\n":
            self.end()
            raise Wrong("the disk is not served")

    def run(self, *words):
        """What a command prints, which must end with status 0. One that does not end waits for the disk, which is then no more."""
        with subprocess.Popen(words, stdin=subprocess.DEVNULL, stdout=subprocess.PIPE, stderr=subprocess.STDOUT, env=ENVIRONMENT) as ran:
            try:
                said, _ = ran.communicate(timeout=SECONDS)
            except subprocess.TimeoutExpired:
                self.process.kill()
                ran.kill()
                raise
        if ran.returncode:
            raise Wrong(f"{words} ends with status {ran.returncode}: {said.decode(errors='replace')}")
        return said.decode().strip()

    def end(self):
        """The disk is gone. Who still waits for it is told an error."""
        subprocess.run(["umount", self.place], stderr=subprocess.DEVNULL, env=ENVIRONMENT, timeout=SECONDS, check=False)
        with contextlib.suppress(subprocess.TimeoutExpired):
            self.process.wait(5)
        self.process.kill()
        self.process.wait()
        self.process.stdout.close()
        unmount_below(os.path.dirname(self.place))


@contextlib.contextmanager
def looped(folder, plugin):
    """The disk `disk.img` of a folder as a loop device, with what serves it; all that it is sent is recorded as `log`. It is kept as it was
    before as `image`."""
    shutil.copyfile(os.path.join(folder, "disk.img"), os.path.join(folder, "image"))
    served, device = Served(folder, plugin), None
    try:
        device = served.run("losetup", "--show", "--find", "--direct-io=on", served.place)
        # 1 if nothing stands between the loop device and its file.
        if (told := served.run("losetup", "--noheadings", "--output", "DIO", device)) != "1":
            raise Wrong(f"the loop device has a cache: {told}")
        yield served, device
    finally:
        if device is not None:
            subprocess.run(["losetup", "--detach", device], env=ENVIRONMENT, timeout=SECONDS, check=False)
        served.end()
    left = subprocess.run(["losetup", "--associated", served.place], capture_output=True, env=ENVIRONMENT, timeout=SECONDS, check=False)
    if left.stdout:
        raise Wrong(f"a loop device is left: {left.stdout.decode()}")


def mounted(folder, plugin):
    """Writes to a new ext4 in a folder, which is then unmounted."""
    disk, tree = os.path.join(folder, "disk.img"), os.path.join(folder, "tree")
    os.mkdir(tree)
    with open(disk, "wb") as file:
        file.truncate(SIZE)
    subprocess.run(["mkfs.ext4", *OPTIONS, disk], env=ENVIRONMENT, timeout=SECONDS, check=True)
    with looped(folder, plugin) as (served, device):
        served.run("mount", device, tree)
        try:
            served.run(sys.executable, "-c", WRITER, tree)
        finally:
            served.run("umount", tree)


def made(folder, plugin):
    """Makes an ext4 on a disk that is full of other bytes, which it trims and zeroes."""
    with open(os.path.join(folder, "disk.img"), "wb") as file:
        file.write(b"\xee" * SIZE)
    with looped(folder, plugin) as (served, device):
        served.run("mkfs.ext4", *OPTIONS, device)
