"""Clients of a host over sockets, each a process of its own, that read or write as fast as they are answered.

The processors are shared out: the last is the clients', and the others are that of whoever serves them. `bench/served.py` and
`bench/record.py` measure with them.
"""

import contextlib
import multiprocessing
import os
import sys
import tempfile
import time

from sim import PROGRAM, TOP

sys.path.insert(0, os.path.join(TOP, "tests"))
from served import ATTACH, Served, Talk, fetch, reap, store  # noqa: E402

SECTORS = 8
# The first of them, and the byte that a write has.
START, BYTE = 64, 7
# How many bytes the answer to a Submit has, and that to the Reap of a write.
QUEUED = 13
HISTORY = 16_777_216
# Up to how much of one processor may go to other machines in a round that counts as quiet, and how many times as many rounds are run at most.
QUIET, MOST_ROUNDS = 0.02, 3


class Host(Served):
    """A run of the host, with its sockets in a folder."""

    def __init__(self, folder, image, clients, *words):
        super().__init__(PROGRAM, image, folder, "--history", str(HISTORY), *words, clients=clients, workers=2)

    def path(self, name):
        return super().path(name if isinstance(name, str) else f"client{name}")

    def end(self):
        self.stop()


def frames_of(talk, depth, writes):
    """The frames of so many reads or writes at a time, and of their reaps, of a client that comes; and how many bytes answer them."""
    talk.send(ATTACH)
    session = int.from_bytes(talk.reply()[1:], "big")
    one = store(session, START, SECTORS, BYTE) if writes else fetch(session, START, SECTORS)
    return bytes.fromhex(depth * one + depth * reap(session)), depth * (QUEUED + (QUEUED if writes else QUEUED + SECTORS * 512))


def answered(talk, frames, buffer):
    """Sends the frames, and waits for as many bytes as the buffer holds."""
    talk.socket.sendall(frames)
    view = memoryview(buffer)
    while view:
        view = view[talk.socket.recv_into(view):]


def ask(path, depth, writes, seconds, told):
    """One client for so long. Tells how many reads or writes were done, and how long each round of them took."""
    with Talk(path) as talk:
        frames, due = frames_of(talk, depth, writes)
        buffer, took = bytearray(due), []
        until = time.perf_counter() + seconds
        while (began := time.perf_counter()) < until:
            answered(talk, frames, buffer)
            took.append(time.perf_counter() - began)
        told.put((len(took) * depth, took))


def of_clients(process):
    """Starts a process on the processor of the clients."""
    process.start()
    os.sched_setaffinity(process.pid, {max(os.sched_getaffinity(0))})


def measured(server, clients, depth, writes, seconds):
    """Reads or writes a second of all clients, and the times of all their rounds."""
    told = multiprocessing.Queue()
    asking = [multiprocessing.Process(target=ask, args=(server.path(number), depth, writes, seconds, told)) for number in range(clients)]
    for process in asking:
        of_clients(process)
    found = [told.get(timeout=60 + seconds) for _ in asking]
    for process in asking:
        process.join()
    return sum(done for done, _ in found) / seconds, [took for _, each in found for took in each]


@contextlib.contextmanager
def serving(make):
    """A host or a floor, which is made in a folder, on the processors that are left to it."""
    with tempfile.TemporaryDirectory(prefix="bfq-") as folder:
        whole = os.sched_getaffinity(0)
        os.sched_setaffinity(0, whole - {max(whole)})
        try:
            server = make(folder)
        finally:
            os.sched_setaffinity(0, whole)
        try:
            yield server
        finally:
            server.end()


def quietest(one_round, number):
    """So many rounds, those in which least was stolen, each behind how much of one processor that was; and how many were run for them."""
    found = []
    while len(found) < MOST_ROUNDS * number and sum(part <= QUIET for part, _ in found) < number:
        began, before = time.monotonic(), stolen()
        it = one_round()
        found.append(((stolen() - before) / (time.monotonic() - began), it))
    return sorted(found, key=lambda it: it[0])[:number], len(found)


def stolen():
    """How many seconds all processors of this machine were wanted here and had by others, since it came up."""
    with open("/proc/stat", encoding="utf-8") as file:
        return int(file.readline().split()[8]) / os.sysconf("SC_CLK_TCK")
