"""Real clients of NBD on the bridge: those of libnbd, qemu, fio and nbdkit, and a mounted file system with a database on it.

What a run needs that this machine lacks is told, and the run is skipped. Mounts need root and FUSE.
"""

import contextlib
import hashlib
import os
import shlex
import shutil
import struct
import subprocess
import tempfile
import time

from nbd_client import ENVIRONMENT, TOP, looked
from nbd_undo import Operated
from nbd import Place
from lessons import PATH, can_mount, unmount_below
from served import SECTOR, Wrong, redo, same, undo

# The image of these runs: 8 MiB.
SECTORS = 16_384
SIZE = SECTORS * SECTOR
SECONDS = 120
# So many transactions are made of which each crash state is checked; and with --all.
FEW, MANY = 4, 20
# The words of the host: a history for all that they do, and seats for clients that make several connections.
HOST = ("--history", "16777216")


class Clients(Place):
    """A host with a bridge, and programs that use it."""

    def __init__(self, program, folder, transactions):
        super().__init__(program, folder, *HOST, sectors=SECTORS, clients=16)
        self.transactions = transactions
        self.served = self.bridge("--image", self.image)
        self.socket = self.served.path

    def __exit__(self, *_):
        self.served.kill()
        super().__exit__()

    def uri(self, name=""):
        return f"nbd+unix:///{name}?socket={self.socket}"

    def path(self, name):
        return os.path.join(self.folder, name)

    def run(self, *words, status=0, **more):
        """What a program prints. It must end with this status."""
        ended = subprocess.run(words, cwd=self.folder, stdout=subprocess.PIPE, stderr=subprocess.STDOUT, timeout=SECONDS, check=False,
                               env={**ENVIRONMENT, "PATH": PATH}, **more)
        text = ended.stdout.decode(errors="replace")
        same(f"the status of {' '.join(words)[:200]}, which says {text[-300:]!r}", ended.returncode, status)
        return text

    def random_file(self, name, size=SIZE):
        """A file of random bytes."""
        with open(self.path(name), "wb") as file:
            file.write(os.urandom(size))
        return self.path(name)

    def quiet(self):
        """The bridge must have had nothing to tell."""
        self.served.quiet()


def equal(one, other):
    """Two files must have the same bytes."""
    with open(one, "rb") as first, open(other, "rb") as second:
        same(f"whether {os.path.basename(one)} and {os.path.basename(other)} are the same", first.read() == second.read(), True)


def nbdinfo(place):
    """Sizes, the list of exports, and the refusal of a group that is not there."""
    same("the size", place.run("nbdinfo", "--size", place.uri()), f"{SIZE}\n")
    told = place.run("nbdinfo", "--list", place.uri())
    same("the exports", ['export=""' in told, 'export="look"' in told, told.count("export=")], [True, True, 2])
    same("a refusal", "opt_go" in place.run("nbdinfo", place.uri("g9"), status=1), True)


def nbdcopy(place):
    """Copies out and in, by one connection and by four, with requests of 32 MiB too; and the device by looks is the same."""
    place.run("nbdcopy", place.uri(), "out")
    equal(place.path("out"), place.image)
    for words in (["--connections=1"], ["--connections=4"], ["--request-size=33554432"], ["--synchronous"]):
        wanted = place.random_file("in")
        place.run("nbdcopy", *words, wanted, place.uri())
        place.run("nbdcopy", *words, place.uri(), "out")
        equal(place.path("out"), wanted)
    place.run("nbdcopy", place.uri("look"), "out")
    equal(place.path("out"), wanted)


def qemu_img(place):
    """Convert in and out, compare and check; a qcow2 file over the export."""
    wanted = place.random_file("in")
    place.run("qemu-img", "convert", "-n", "-f", "raw", "-O", "raw", wanted, place.uri())
    same("compare", "identical" in place.run("qemu-img", "compare", "-f", "raw", "-F", "raw", wanted, place.uri()), True)
    place.run("qemu-img", "convert", "-f", "raw", "-O", "qcow2", place.uri(), "out.qcow2")
    same("compare of a qcow2", "identical" in place.run("qemu-img", "compare", "out.qcow2", place.uri()), True)
    place.run("qemu-img", "create", "-q", "-f", "qcow2", "-b", place.uri(), "-F", "raw", "over.qcow2")
    same("compare over it", "identical" in place.run("qemu-img", "compare", "over.qcow2", place.uri()), True)


def qemu_io(place):
    """Patterns that are written and read, also of parts of sectors; a discard, and zeros without their bytes."""
    told = place.run("qemu-io", "-f", "raw", "-c", "write -P 0xaa 0 1M", "-c", "write -P 0xbb 1000 3000", "-c", "read -P 0xaa 0 1000",
                     "-c", "read -P 0xbb 1000 3000", "-c", "read -P 0xaa 4000 4096", "-c", "aio_write -P 0xcc 65536 65536", "-c", "aio_flush",
                     "-c", "read -P 0xcc 65536 65536", "-c", "write -z 8192 4096", "-c", "read -P 0 8192 4096", "-c", "discard 0 65536",
                     "-c", "read -P 0 0 8192",
                     "-c", "write -f -P 0xdd 0 512", "-c", "flush", "-c", "read -P 0xdd 0 512", place.uri())
    same(f"the patterns, of which it says {told[-300:]}", "failed" in told or "error" in told.lower(), False)


def fio_words(place, *more):
    return ["fio", "--name=job", "--ioengine=nbd", f"--uri={place.uri()}", "--bs=4k", "--iodepth=16", "--verify=crc32c", "--verify_fatal=1",
            *more]


def fio(place):
    """Random writes of four jobs at depth 16, each read again and verified."""
    place.run(*fio_words(place, "--rw=randwrite", "--numjobs=4", "--size=2m", "--offset_increment=4m"))
    place.run(*fio_words(place, "--rw=randrw", "--bsrange=512-65536", "--bs_unaligned", "--size=4m"))
    place.quiet()


def fio_held(place):
    """Under fio the host is held, goes back by 2,000 steps, forth again, and is released, five times: fio verifies, and the bridge has nothing
    to tell."""
    ran = subprocess.Popen(fio_words(place, "--rw=randwrite", "--size=16m", "--loops=3", "--rate_iops=2000"), cwd=place.folder,
                           stdout=subprocess.PIPE, stderr=subprocess.STDOUT)
    try:
        for _ in range(5):
            time.sleep(0.6)
            with Operated(place.host) as operator:
                count = min(2000, operator.cursor)
                if count:
                    operator.go(undo(count))
                    operator.go(redo(count))
        told, _ = ran.communicate(timeout=SECONDS)
    finally:
        ran.kill()
        ran.wait()
    same(f"the status of fio, which says {told[-300:]}", ran.returncode, 0)
    place.quiet()


def nbdkit_words(place, *filters, run):
    return ["nbdkit", "-U", "-", *(f"--filter={it}" for it in filters), "nbd", f"socket={place.socket}", "--run", run]


def nbdkit(place):
    """nbdkit in front, with other block sizes, delays and a log: what goes through it comes back."""
    wanted = place.random_file("in")
    place.run(*nbdkit_words(place, "blocksize", run=f"nbdcopy {wanted} \"$uri\" && nbdcopy \"$uri\" out"))
    equal(place.path("out"), wanted)
    place.run("nbdkit", "-U", "-", "--filter=log", "--filter=delay", "nbd", f"socket={place.socket}", "delay-read=1ms", f"logfile={place.path('log')}",
              "--run", "qemu-io -f raw -c 'read 0 4096' \"$uri\"")
    with open(place.path("log"), encoding="utf-8") as file:
        same("whether the log has the read", "Read" in file.read(), True)


def gone_back(place, *words):
    """A program that reads, sleeps for some seconds and reads again. Meanwhile the host goes back by its first read, so its connection ends. It
    must go on, and end well."""
    place.run("qemu-io", "-f", "raw", "-c", "write -P 5 1M 4k", place.uri())
    serial = int(looked(place.host, "line").split(" ")[3])
    ran = subprocess.Popen(words, cwd=place.folder, stdout=subprocess.PIPE, stderr=subprocess.STDOUT, env={**ENVIRONMENT, "PATH": PATH})
    try:
        until = time.monotonic() + SECONDS
        # Its Attach, and four steps of its read.
        while int(looked(place.host, "line").split(" ")[3]) < serial + 5:
            if time.monotonic() > until:
                raise Wrong("it does not read")
            time.sleep(0.05)
        with Operated(place.host) as operator:
            operator.go(undo(2))
        place.served.says("steps were undone", "the connection ends")
        told, _ = ran.communicate(timeout=SECONDS)
    finally:
        ran.kill()
        ran.wait()
    text = told.decode(errors="replace")
    same(f"the end of {words[0]}, which says {text[-300:]}", (ran.returncode, text.count("read 4096/4096")), (0, 2))


READS = "-c 'read -P 5 1M 4k' -c 'sleep 3000' -c 'read -P 5 1M 4k'"


def retry(place):
    """A client of `nbdkit --filter=retry` goes on after an undo."""
    gone_back(place, *nbdkit_words(place, "retry", run=f"qemu-io -f raw {READS} \"$uri\""))


def reconnect(place):
    """qemu with a reconnect-delay goes on after an undo."""
    image = f"driver=raw,file.driver=nbd,file.server.type=unix,file.server.path={place.socket},file.reconnect-delay=10"
    gone_back(place, "qemu-io", "--image-opts", *shlex.split(READS), image)


@contextlib.contextmanager
def mounted(place, bridge=None):
    """The device of a bridge as a file, by FUSE, and a file system on it that is mounted: the paths of both."""
    socket = (bridge or place.served).path
    os.makedirs(file := place.path("fuse"), exist_ok=True)
    os.makedirs(tree := place.path("tree"), exist_ok=True)
    fuse = subprocess.Popen(["nbdfuse", file, f"nbd+unix:///?socket={socket}"], env={**ENVIRONMENT, "PATH": PATH})
    try:
        device = os.path.join(file, "nbd")
        until = time.monotonic() + 20
        while not os.path.exists(device):
            if time.monotonic() > until or fuse.poll() is not None:
                raise Wrong("nbdfuse does not mount")
            time.sleep(0.05)
        place.run("mkfs.ext4", "-q", "-F", device)
        # A write of less than a sector, of one field of the superblock.
        place.run("debugfs", "-w", "-R", "ssv volume_name bfqhost", device)
        same("the field", "bfqhost" in place.run("dumpe2fs", "-h", device), True)
        place.run("mount", "-o", "loop", device, tree)
        try:
            yield device, tree
        finally:
            place.run("umount", tree)
        place.run("e2fsck", "-fn", device)
    finally:
        subprocess.run(["umount", file], check=False, timeout=SECONDS)
        with contextlib.suppress(subprocess.TimeoutExpired):
            fuse.wait(20)
        fuse.kill()
        fuse.wait()


def file_system(place):
    """An ext4 that is made, mounted, written by cp and sqlite, held and gone back and forth meanwhile, unmounted and checked."""
    with mounted(place) as (_, tree):
        os.makedirs(source := place.path("source"))
        for number in range(50):
            with open(os.path.join(source, str(number)), "wb") as file:
                file.write(os.urandom(1 + 733 * number))
        place.run("cp", "-a", source, tree)
        place.run("sync")
        with Operated(place.host) as operator:
            operator.go(undo(min(2000, operator.cursor)))
            operator.go(redo(operator.length - operator.cursor))
        place.run("diff", "-r", source, os.path.join(tree, "source"))
        script = "create table t(n); " + "".join(f"insert into t values({number}); " for number in range(50))
        place.run("sqlite3", os.path.join(tree, "db"), script)
        same("what sqlite counts", place.run("sqlite3", os.path.join(tree, "db"), "select count(*), sum(n) from t; pragma integrity_check"),
             f"50|{sum(range(50))}\nok\n")
    place.quiet()


# What judges a state of the device: its digest is noted, then the journal of the file system is replayed, which must be clean then; and the
# database, with its own journal, must be whole, and its rows are noted. If it is not there yet there are none.
JUDGE = """#!/bin/sh
digest=$(sha256sum < "$1" | cut -d' ' -f1)
e2fsck -fy "$1" > /dev/null 2>&1
e2fsck -fn "$1" > /dev/null 2>&1 || exit 9
rows=0
if debugfs -R 'dump /db '"$1.db" "$1" 2>&1 | grep -q 'not found'; then :
else
    debugfs -R 'dump /db-journal '"$1.db-journal" "$1" > /dev/null 2>&1
    [ -s "$1.db-journal" ] || rm -f "$1.db-journal"
    found=$(sqlite3 "$1.db" 'pragma integrity_check; select count(*) from t' 2>&1)
    case $found in
        ok*) rows=$(echo "$found" | tail -n 1) ;;
        *'no such table'*) rows=0 ;;
        *) echo "$found"; rm -f "$1".*; exit 8 ;;
    esac
    case $rows in *[!0-9]*) rows=0 ;; esac
fi
rm -f "$1".*
echo "$digest $rows" >> "${0%/*}/notes"
"""


def logged(path):
    """The writes of a log of the bridge: each with its first sector and its bytes."""
    with open(path, "rb") as file:
        data, found, at = file.read(), [], 0
    while at < len(data):
        _, start, count = struct.unpack_from(">QQI", data, at)
        found.append((start, data[at + 20:at + 20 + count * SECTOR]))
        at += 20 + count * SECTOR
    return found


def transactions(place, mode, count):
    """Makes an ext4 and transactions of sqlite on it, one read or write at a time. Gives the log's writes, how many there were before the mount,
    and after how many each transaction was committed."""
    log, marks = place.path(f"log-{mode}"), []
    with place.bridge("--seats", "15", "--depth", "1", "--log", log, path=place.path(f"nbd-{mode}")) as bridge:
        with mounted(place, bridge) as (_, tree):
            db = os.path.join(tree, "db")
            place.run("sqlite3", db, "create table t(n, bytes)")
            place.run("sync")
            before = len(logged(log))
            for number in range(count):
                place.run("sqlite3", db, f"pragma synchronous={mode}; insert into t values({number}, randomblob(700))")
                marks.append(len(logged(log)))
    return logged(log), before, marks


def lost_commits(place, mode, count):
    """Each state behind the making of the table in which a crash could have left the device: it is as the log has it, its file system is clean
    once its journal is replayed, and its database is whole. Gives how many states there are, and in how many a transaction is lost that
    was committed."""
    start = content_of(place)
    writes, before, marks = transactions(place, mode, count)
    judge = place.path("judge")
    with open(judge, "w", encoding="ascii") as file:
        file.write(JUDGE)
    os.chmod(judge, 0o755)
    told = place.run(os.path.join(TOP, "tools", "crashes"), "--dir", place.sockets, "--image", place.image, "--check", judge, "--last",
                     str(len(writes) - before))
    same("what tools/crashes tells", told, f"{len(writes) - before} states checked: 0 fail\n")
    with open(place.path("notes"), encoding="ascii") as file:
        found = [line.split(" ") for line in file.read().splitlines()]
    os.unlink(place.path("notes"))
    rows, device, lost = dict(found), bytearray(start), 0
    wanted = []
    for number, (sector, data) in enumerate(writes, 1):
        device[sector * SECTOR:sector * SECTOR + len(data)] = data
        if number > before:
            wanted.append(hashlib.sha256(device).hexdigest())
            lost += int(rows.get(wanted[-1], 0)) < sum(mark <= number for mark in marks)
    same(f"the states of {mode}", sorted(digest for digest, _ in found), sorted(wanted))
    return len(wanted), lost


def content_of(place):
    """The device as it stands, by looks."""
    place.run("nbdcopy", place.uri("look"), "start")
    with open(place.path("start"), "rb") as file:
        return file.read()


def crash_states(place):
    """sqlite on ext4 loses a transaction that was committed in some states if it is FULL, as the removal of its journal is not synced, and in
    none if it is EXTRA."""
    for mode, loses in (("full", True), ("extra", False)):
        states, lost = lost_commits(place, mode, place.transactions)
        print(f"nbd clients: {mode}: of {states} states {lost} have lost a committed transaction")
        same(f"whether {mode} loses commits", lost > 0, loses)


# Each run with the programs that it needs, and whether it needs root and FUSE.
RUNS = [(nbdinfo, ["nbdinfo"], False), (nbdcopy, ["nbdcopy"], False), (qemu_img, ["qemu-img"], False), (qemu_io, ["qemu-io"], False),
        (fio, ["fio"], False), (fio_held, ["fio"], False), (nbdkit, ["nbdkit", "nbdcopy", "qemu-io"], False),
        (retry, ["nbdkit", "qemu-io"], False), (reconnect, ["qemu-io"], False),
        (file_system, ["nbdfuse", "mkfs.ext4", "debugfs", "dumpe2fs", "e2fsck", "sqlite3", "mount"], True),
        (crash_states, ["nbdfuse", "nbdcopy", "mkfs.ext4", "debugfs", "dumpe2fs", "e2fsck", "sqlite3", "mount", "sha256sum"], True)]


def has_nbd_engine():
    """Whether fio was built with its engine for NBD."""
    told = subprocess.run(["fio", "--enghelp"], capture_output=True, text=True, timeout=SECONDS, check=False)
    return "nbd" in told.stdout.split()


def lacking(needs, has_mounts):
    """What a run needs that is not here."""
    found = [name for name in needs if not shutil.which(name, path=PATH)]
    if "fio" in needs and not found and not has_nbd_engine():
        found.append("fio with an engine for NBD")
    if has_mounts and not can_mount():
        found.append("root with FUSE and loop devices")
    return found


def nbd_client_runs(program, has_all):
    """The name of each run, and what was wrong with it."""
    for act, needs, has_mounts in RUNS:
        name = f"nbd clients: {act.__name__}"
        if lacks := lacking(needs, has_mounts):
            print(f"skipped: {name}: no {' and no '.join(lacks)} here")
            continue
        folder = tempfile.mkdtemp(prefix="bfq-")
        try:
            with Clients(program, folder, MANY if has_all else FEW) as place:
                act(place)
            yield name, []
        except (Wrong, OSError, ValueError, LookupError, subprocess.SubprocessError) as fault:
            yield name, [f"{type(fault).__name__}: {fault}"]
        finally:
            unmount_below(folder)
            shutil.rmtree(folder, ignore_errors=True)
