#!/usr/bin/env python3
"""A stand-in for nbdfuse with nbdkit behind it, where there is neither: one file, served over /dev/fuse by a plugin of nbdkit.

    tests/fuse_file.py PLACE PLUGIN KEY=VALUE ..

It mounts itself over the file PLACE, prints `mounted`, and serves until PLACE is unmounted. A read, a write and an fsync go to the plugin, and
so do a hole that is punched, as a trim, and a range that is zeroed. The kernel keeps no page of the file (FOPEN_DIRECT_IO), so the plugin is
sent what was written, in that order. It needs root. The forms are those of include/uapi/linux/fuse.h, version 7.31.
"""

import ctypes
import errno
import os
import stat
import struct
import sys

from played_nbdkit import Played, Refused

NOSUID, NODEV = 2, 4
MAJOR, MINOR = 7, 31
ROOT = 1
# What the kernel asks. To the first three there is no answer.
FORGET, INTERRUPT, BATCH_FORGET = 2, 36, 42
GETATTR, SETATTR, OPEN, READ, WRITE, STATFS, RELEASE, FSYNC, FLUSH = 3, 4, 14, 15, 16, 17, 18, 20, 25
INIT, ACCESS, DESTROY, FALLOCATE = 26, 34, 38, 43
HEAD, ANSWER = struct.Struct("<IIQQIIIHH"), struct.Struct("<IiQ")
RANGE = struct.Struct("<QQI")
# Where the bytes of a write begin, behind its head.
WRITTEN = 40
FALLOCATED = struct.Struct("<QQQI")
KEEP_SIZE, PUNCH_HOLE, ZERO_RANGE = 1, 2, 16
BIG_WRITES, MAX_PAGES = 1 << 5, 1 << 22
DIRECT_IO = 1
# The greatest write, and how many pages it has.
MOST_BYTES, PAGES = 1 << 20, 256


class Server:
    """Answers what the kernel asks of one file."""

    def __init__(self, played):
        self.played = played
        self.acts = {INIT: self.init, GETATTR: self.attributes, SETATTR: self.attributes, OPEN: self.open, READ: self.read, WRITE: self.write,
                     FSYNC: self.sync, FALLOCATE: self.fallocate, STATFS: self.statfs,
                     **dict.fromkeys((RELEASE, FLUSH, ACCESS, DESTROY), lambda body: b"")}

    def serve(self, device):
        """Answers until the file is unmounted."""
        while True:
            try:
                asked = os.read(device, MOST_BYTES + 4096)
            except InterruptedError:
                continue
            except OSError as fault:
                if fault.errno == errno.ENODEV:
                    return
                # One that was taken back before it was read.
                if fault.errno == errno.ENOENT:
                    continue
                raise
            _, code, unique, *_ = HEAD.unpack_from(asked)
            if code in (FORGET, INTERRUPT, BATCH_FORGET):
                continue
            error, body = self.answer(code, memoryview(asked)[HEAD.size:])
            try:
                os.writev(device, [ANSWER.pack(ANSWER.size + len(body), -error, unique), body])
            except OSError as fault:
                # Nobody waits any more, or it is unmounted.
                if fault.errno not in (errno.ENOENT, errno.ENODEV):
                    raise

    def answer(self, code, body):
        """An error of the system or 0, and what is answered."""
        if code not in self.acts:
            return errno.ENOSYS, b""
        try:
            return 0, self.acts[code](body)
        except Refused as fault:
            return fault.number, b""

    def init(self, body):
        _, _, ahead, _ = struct.unpack_from("<IIII", body)
        return struct.pack("<IIIIHHIIHHI28x", MAJOR, MINOR, ahead, BIG_WRITES | MAX_PAGES, 12, 9, MOST_BYTES, 1, PAGES, 0, 0)

    def attributes(self, body):
        size = self.played.size
        return struct.pack("<QII", 3600, 0, 0) + struct.pack("<QQQQQQIIIIIIIIII", ROOT, size, size // 512, 0, 0, 0, 0, 0, 0,
                                                            stat.S_IFREG | 0o600, 1, 0, 0, 0, 4096, 0)

    def open(self, body):
        return struct.pack("<QII", 1, DIRECT_IO, 0)

    def read(self, body):
        _, offset, count = RANGE.unpack_from(body)
        return self.played.read(max(0, min(count, self.played.size - offset)), offset)

    def write(self, body):
        _, offset, count = RANGE.unpack_from(body)
        if offset + count > self.played.size:
            raise Refused(errno.ENOSPC, "past the end")
        self.played.write(body[WRITTEN:WRITTEN + count], offset)
        return struct.pack("<II", count, 0)

    def sync(self, body):
        self.played.flush()
        return b""

    def fallocate(self, body):
        _, offset, count, mode = FALLOCATED.unpack_from(body)
        if mode == PUNCH_HOLE | KEEP_SIZE:
            self.played.trim(count, offset)
        elif mode in (ZERO_RANGE, ZERO_RANGE | KEEP_SIZE):
            self.played.zero(count, offset)
        else:
            raise Refused(errno.EOPNOTSUPP, "no such range")
        return b""

    def statfs(self, body):
        return struct.pack("<QQQQQIIII24x", self.played.size // 512, 0, 0, 1, 0, 512, 255, 512, 0)


def mounted(place, device):
    """Mounts a file of FUSE over a file."""
    words = f"fd={device},rootmode={stat.S_IFREG:o},user_id=0,group_id=0,max_read={MOST_BYTES}"
    libc = ctypes.CDLL(None, use_errno=True)
    if libc.mount(b"bfq-fuse-file", os.fsencode(place), b"fuse", ctypes.c_ulong(NOSUID | NODEV), words.encode()):
        raise OSError(ctypes.get_errno(), os.strerror(ctypes.get_errno()), place)


def main():
    place, plugin, *words = sys.argv[1:]
    played = Played(plugin, **dict(word.split("=", 1) for word in words))
    device = os.open("/dev/fuse", os.O_RDWR | os.O_CLOEXEC)
    mounted(place, device)
    print("mounted", flush=True)
    Server(played).serve(device)


if __name__ == "__main__":
    main()
