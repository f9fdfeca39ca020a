#!/usr/bin/env python3
"""Reads and writes of clients over sockets: `bfqhost serve` beside its floor.

    python3 bench/served.py [--rounds N] [--seconds S] [--costs [--against PROGRAM]]

The floor is `ring_bench floor` of crates/ring_bench: the same sockets, threads, rings, bells and frames, with a core that answers each call at
once by its kind, and no machine and no image. It has 16 seats of clients, as a host has. Each read and write has 8 sectors. A client sends
the frames of so many of them (the depth) and their reaps, and waits for all replies. Host and floor take turns, in rounds of 2 seconds. A
figure is the median of 7 rounds, in reads or writes a second of all clients. Beside it stands the host's part of the floor, and the floor's
second run of a round beside its first. At depth 1 stand the times, in microseconds, within which half and 99 of 100 are done.

The processors are shared out: the last is the clients', and the others are the host's or the floor's.

A machine may be one of several on the same processors, and what the others take makes its threads late. So a round is run again where more
than 0.02 of one processor was stolen meanwhile (by /proc/stat), but no more than three times as many rounds are run as count. Those in
which least was stolen count, whatever they show. How many were run, and the most that was stolen in those that count, stand in the line.

With one client at depth 1 the host must reach 0.8 of the floor, or come as near to it as the floor to itself; and its 99 of 100 must be
within 5 times its half, or within 1.5 times the floor's own ratio. The status is 1 where it is not so. Of the other cells nothing is asked.

With --costs it is told what a read and a write cost the host and the floor: system calls by `strace -c`, which slows both; and without it
how often a thread waits, processor time, and how many there are a second. Both take turns, and a figure is the median of the rounds. Of these
nothing is asked. With --against another `bfqhost` stands in the floor's place. Memory is taken as `./bfqhost` takes it, unless GLIBC_TUNABLES
says otherwise.
"""

import argparse
import os
import shutil
import statistics
import subprocess
import sys
import tempfile
import time
from dataclasses import dataclass

sys.dont_write_bytecode = True
import costs  # noqa: E402
from loads import HISTORY, PROGRAM, TOP, Host, measured, quietest, serving  # noqa: E402
from served import Served, image_of  # noqa: E402

FLOOR = os.path.join(TOP, "crates", "ring_bench", "out", "ring_bench")
# So many seats of clients has a host, however many come. A floor has as many, so that a turn of its core looks at them all.
SEATS = 16
LEAST_OF_FLOOR = 0.8
MOST_OF_HALF, MOST_OF_FLOORS_RATIO = 5, 1.5
# How many clients, at which depth, and whether they write.
CELLS = [(1, 1, False), (1, 1, True), (1, 16, False), (1, 16, True), (4, 1, False), (4, 1, True), (4, 16, False), (4, 16, True)]
# The cell of which something is asked: one client, at depth 1.
JUDGED = (1, 1)
# How `./bfqhost` has memory taken.
TUNABLES = "glibc.malloc.hugetlb=1:glibc.malloc.arena_max=1"
# Those whose costs are told.
COSTED = [it for it in CELLS if it[0] == 1 or it[1] == 1]


class Other(Host):
    """A run of another program of the same words."""

    def __init__(self, program, folder, image, clients):
        Served.__init__(self, program, image, folder, "--history", str(HISTORY), clients=clients, workers=2)


class Floor:
    """A run of the floor, with its sockets in a folder."""

    def __init__(self, folder, writes):
        self.folder = folder
        self.process = subprocess.Popen([FLOOR, "floor", folder, str(SEATS), "write" if writes else "read"], stdin=subprocess.PIPE,
                                        stdout=subprocess.DEVNULL)
        until = time.monotonic() + 10
        while not os.path.exists(self.path(SEATS - 1)) and time.monotonic() < until:
            time.sleep(0.01)
        # Its files are there a moment before its threads.
        time.sleep(0.1)

    def path(self, number):
        return os.path.join(self.folder, f"client{number}")

    def end(self):
        self.process.stdin.close()
        self.process.wait(10)


def run(make, clients, depth, writes, seconds):
    """One round of a host or a floor."""
    with serving(make) as server:
        return measured(server, clients, depth, writes, seconds)


def within(times, part):
    """The time within which so many of a hundred are done, in microseconds."""
    times = sorted(times)
    return 1e6 * times[min(len(times) - 1, len(times) * part // 100)]


def ratio(times):
    return within(times, 99) / within(times, 50)


@dataclass
class Round:
    """The floor, the host, and the floor again: reads or writes a second, and the times of all their rounds."""

    host: float
    host_times: list
    floor: float
    floor_times: list
    again: float


def one_round(image, clients, depth, writes, seconds):
    floor, floor_times = run(lambda at: Floor(at, writes), clients, depth, writes, seconds)
    host, host_times = run(lambda at: Host(at, image, clients), clients, depth, writes, seconds)
    again, _ = run(lambda at: Floor(at, writes), clients, depth, writes, seconds)
    return Round(host, host_times, floor, floor_times, again)


def told(cell, quiet, number):
    """Prints the line of a cell. Gives whether it is as it must be."""
    clients, depth, writes = cell
    most_stolen, rounds = quiet[-1][0], [it for _, it in quiet]
    part = statistics.median(it.host / it.floor for it in rounds)
    itself = statistics.median(min(it.again, it.floor) / max(it.again, it.floor) for it in rounds)
    host_times, floor_times = [took for it in rounds for took in it.host_times], [took for it in rounds for took in it.floor_times]
    shown = [f"{within(times, at):.0f}" for times in (host_times, floor_times) for at in (50, 99)] if depth == 1 else []
    print(f"{clients:7} {depth:5} {'write' if writes else 'read':>6} {statistics.median(it.host for it in rounds):8.0f}"
          f" {statistics.median(it.floor for it in rounds):8.0f} {part:5.2f} {itself:12.2f} {number:6} {most_stolen:6.3f}   {' '.join(shown)}",
          flush=True)
    if (clients, depth) != JUDGED:
        return True
    return part >= min(LEAST_OF_FLOOR, itself) and ratio(host_times) <= max(MOST_OF_HALF, MOST_OF_FLOORS_RATIO * ratio(floor_times))


def tell_costs(image, rounds, seconds, against):
    """What a read and a write cost the host, and the floor or another program, in each cell."""
    other = "other" if against else "floor"
    print(f"{'clients':>7} {'depth':>5} {'what':>6} {'of':>6} {costs.HEAD}")
    for clients, depth, writes in COSTED:
        found = {"host": [], other: []}
        for _ in range(rounds):
            found["host"].append(costs.cost(lambda at: Host(at, image, clients), clients, depth, writes, seconds))
            beside = (lambda at: Other(against, at, image, clients)) if against else (lambda at: Floor(at, writes))
            found[other].append(costs.cost(beside, clients, depth, writes, seconds))
        for name, rows in found.items():
            print(f"{clients:7} {depth:5} {'write' if writes else 'read':>6} {name:>6} {costs.row(costs.middle(rows))}", flush=True)
    return 0


def main():
    words = argparse.ArgumentParser(description=__doc__, formatter_class=argparse.RawDescriptionHelpFormatter)
    words.add_argument("--rounds", type=int, default=7)
    words.add_argument("--seconds", type=float, default=2)
    words.add_argument("--costs", action="store_true")
    words.add_argument("--against", metavar="PROGRAM", type=os.path.abspath)
    given = words.parse_args()
    if given.rounds < 1 or not given.seconds > 0:
        words.error("rounds and seconds are more than 0")
    if given.against and not given.costs:
        words.error("--against goes with --costs")
    if given.costs and not shutil.which("strace"):
        sys.exit("bench: --costs wants strace, which is not here")
    os.environ.setdefault("GLIBC_TUNABLES", TUNABLES)
    if given.against and not os.path.exists(given.against):
        sys.exit(f"bench: there is no {given.against}")
    for program in [PROGRAM] if given.against else [PROGRAM, FLOOR]:
        if not os.path.exists(program):
            sys.exit(f"bench: no program; `rt run` in {os.path.dirname(os.path.dirname(program))} builds it")
    if given.costs:
        with tempfile.TemporaryDirectory(prefix="bfq-") as folder:
            return tell_costs(image_of(folder, 4096), given.rounds, given.seconds, given.against)
    is_good = True
    print(f"{'clients':>7} {'depth':>5} {'what':>6} {'host':>8} {'floor':>8} {'part':>5} {'floor itself':>12} {'rounds':>6} {'stolen':>6}"
          "   half, 99 of 100 of host and floor")
    with tempfile.TemporaryDirectory(prefix="bfq-") as folder:
        image = image_of(folder, 4096)
        for cell in CELLS:
            is_good &= told(cell, *quietest(lambda: one_round(image, *cell, given.seconds), given.rounds))
    print("as it should be" if is_good else "not as it should be")
    return 0 if is_good else 1


if __name__ == "__main__":
    sys.exit(main())
