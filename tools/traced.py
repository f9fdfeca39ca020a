"""What a command stored in some files, as strace tells it: the calls that write and sync them, in their order."""

import os
import re
import subprocess
from collections import namedtuple

from host import BadInput, Ended

# The calls that are known: what they do to a file. Each other one that changes a file ends the trace.
WRITES, SYNCS = {"pwrite64", "write"}, {"fsync", "fdatasync"}
SYNCS_ALL = {"sync", "syncfs"}
SEEKS, READS = {"lseek"}, {"read"}
UNKNOWN = {"writev", "pwritev", "pwritev2", "ftruncate", "truncate", "fallocate", "unlink", "unlinkat", "rename", "renameat", "renameat2",
           "copy_file_range", "sendfile", "splice", "sync_file_range", "io_uring_enter", "io_submit"}
OPENS = {"open", "openat", "creat"}
# Flags of an open that make its writes something else: no page cache stands between, or their place is not known.
OTHER_OPENS = ("O_DIRECT", "O_SYNC", "O_DSYNC", "O_APPEND", "O_TRUNC")
TRACED = sorted(WRITES | SYNCS | SYNCS_ALL | SEEKS | READS | UNKNOWN | OPENS | {"mmap"})
# The greatest write whose bytes strace tells.
MOST_BYTES = 1 << 24

# What happened to a file: `write` of bytes at a place, or `sync`, of which the bytes are none. Of a sync of all files the file is None.
Event = namedtuple("Event", "what file at data")

CALL = re.compile(r"(\d+) +(\w+)\((.*)\) += (-?\d+)(.*)")
UNFINISHED = re.compile(r"(\d+) +(\w+\(.*) <unfinished \.\.\.>")
RESUMED = re.compile(r"(\d+) +<\.\.\. \w+ resumed>(.*)")
HEX = re.compile(r"\\x([0-9a-f]{2})")


def bytes_of(text):
    """The bytes of a text in which each is told in hexadecimal."""
    return bytes.fromhex("".join(HEX.findall(text)))


def run_traced(command, log):
    """Runs a command under strace. Gives its status."""
    words = ["strace", "-f", "-y", "-xx", "-s", str(MOST_BYTES), "-o", log, "-e", f"trace={','.join(f'?{it}' for it in TRACED)}", "--", *command]
    try:
        ran = subprocess.run(words, check=False)
    except FileNotFoundError:
        raise Ended("strace does not run: it is not there") from None
    except OSError as fault:
        raise Ended(f"strace does not run: {fault.strerror}") from None
    return ran.returncode


def calls_in(log):
    """Each call of a log, with what it returned. One that others came in between of is told where it ended."""
    begun = {}
    with open(log, encoding="ascii", errors="surrogateescape") as file:
        for row in file:
            row = row.rstrip("\n")
            if found := UNFINISHED.fullmatch(row):
                begun[found[1]] = f"{found[1]} {found[2]}"
                continue
            if (found := RESUMED.fullmatch(row)) and found[1] in begun:
                row = begun.pop(found[1]) + found[2]
            if found := CALL.fullmatch(row):
                yield found[2], found[3], int(found[4]), found[5]


class Files:
    """The files that are looked at, by their real paths."""

    def __init__(self, paths):
        self.paths = [os.path.realpath(path) for path in paths]
        # Where each of their open files stands, by its number and its path.
        self.places = {}

    def of(self, words):
        """The number and the file of the first argument, if it is one of these."""
        found = re.match(r"(\d+)<([^>]*)>", words)
        if found is None:
            return None, None
        path = os.fsdecode(bytes_of(found[2]))
        return int(found[1]), path if path in self.paths else None

    def named(self, words):
        """Which of these files some arguments name."""
        texts = [os.fsdecode(bytes_of(it)) for it in re.findall(r'["<]((?:\\x[0-9a-f]{2})+)[">]', words)]
        folder = texts[0] if words.startswith("AT_FDCWD<") else os.getcwd()
        return next((path for path in self.paths for text in texts if os.path.realpath(os.path.join(folder, text)) == path), None)

    def events(self, log):
        """What happened to them."""
        for call, words, told, more in calls_in(log):
            if told >= 0:
                yield from self.event(call, words, told, more)

    def event(self, call, words, told, more):
        """What a call did, if it is of one of these files. Raises Ended if a trace cannot tell it."""
        if call in SYNCS_ALL:
            yield Event("sync", None, 0, None)
            return
        if call in OPENS:
            self.opened(call, words, told, more)
            return
        number, path = self.of(words)
        if call in UNKNOWN or call == "mmap":
            path = self.mapped(words) if call == "mmap" else self.named(words)
            if path is not None:
                raise unknown(call, path)
        elif path is None:
            return
        elif call in SEEKS:
            self.places[number, path] = told
        elif call in READS:
            self.places[number, path] = self.places.get((number, path), 0) + told
        elif call in SYNCS:
            yield Event("sync", path, 0, None)
        else:
            yield self.written(call, words, number, path, told)

    def opened(self, call, words, told, more):
        """A file is open: at its start."""
        found = re.match(r"<([^>]*)>", more)
        path = os.fsdecode(bytes_of(found[1])) if found else None
        if path in self.paths:
            for flag in OTHER_OPENS:
                if flag in words or call == "creat":
                    raise unknown(f"{call} with {flag}" if call != "creat" else call, path)
            self.places[told, path] = 0

    def mapped(self, words):
        """The file of a map whose writes go to it."""
        found = re.search(r", (\d+)<([^>]*)>, ", words)
        path = os.fsdecode(bytes_of(found[2])) if found else None
        return path if path in self.paths and "PROT_WRITE" in words and "MAP_SHARED" in words else None

    def written(self, call, words, number, path, told):
        """A write, of as many bytes as were taken."""
        data = bytes_of(re.search(r'"((?:\\x[0-9a-f]{2})*)"', words)[1])[:told]
        if len(data) < told:
            raise unknown(f"{call} of {told} bytes", path)
        if call == "pwrite64":
            return Event("write", path, int(words.rpartition(", ")[2]), data)
        at = self.places.get((number, path), 0)
        self.places[number, path] = at + told
        return Event("write", path, at, data)


def unknown(call, path):
    return Ended(f"{path}: the command makes a call that a trace cannot tell: {call}")


def content_of(path):
    """The bytes of a file now; none if it is not there."""
    if not os.path.lexists(path):
        return b""
    try:
        if not os.path.isfile(path):
            raise BadInput(f"{path}: no regular file")
        with open(path, "rb") as file:
            return file.read()
    except OSError as fault:
        raise BadInput(f"{path}: {fault.strerror}") from None
