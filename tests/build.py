#!/usr/bin/env python3
"""Proves libraries side by side, if they are missing or older than what they are made of; and builds a program.

    tests/build.py [--llvm] [--program NAME] [CRATE..]

Proved are those of the crates that are named and all that they stand on; with no name, all that the program stands on, and then
the program, which is bfqhost where none is named. On standard error stand how long it may take, and each crate as it begins.
Rattle's own compiler makes the program, or LLVM if --llvm is given.
"""

import argparse
import contextlib
import fcntl
import hashlib
import os
import re
import shutil
import signal
import sys
import tempfile
import time
from concurrent.futures import FIRST_COMPLETED, ThreadPoolExecutor, wait
from pathlib import Path

from checkout import TOP, below, crate_lines, sources
from libraries import PROGRAMS, build_program, lanes, prove, stale

# What all crates may take, in minutes by the clock times processors, of which the longest chain of crates leaves some idle.
MINUTES_OF_ALL = 110
# What a crate costs whatever its size, as so much code: a check reads what was proved below first, and its library holds much of that.
CODE_OF_EACH = 6_000
# With more jobs than one each module is checked in a forked copy of the checker: `history` took 125 seconds of processor time with one job,
# 156 with two and 167 with three. So there are no more than two, or half of many processors, and only if the chain is among the longest or
# else processors were idle.
CODE_OF_A_JOB = 3_000
# The longest chain of crates sets the time. If a crate's chain is less than so much of the longest one, it gets one job, or what would be
# idle; and the shorter its chain is, the further it gives way to others. Chains are weighed as if each crate got all jobs it is worth.
LONG = 0.9
GIVES_WAY = 25
# Crates begin until there are so many jobs more than processors, since one leaves some idle while it reads and writes libraries.
MORE_JOBS = 3

# A check writes and reads thousands of small files, up to 0.3 GB of them. In memory that takes half of the system's time that it takes on
# a disk. If there is no room for them, half a gigabyte for each job beside 2 of its own, they go where they would go else.
MEMORY = Path("/dev/shm")
ROOM, OWN = 0.5, 2
GIGABYTE = 1 << 30


def tell(text):
    """Says what the build is at."""
    print(f"bfqhost: {text}", file=sys.stderr, flush=True)


def code(name):
    """How much code a crate has, in characters. Comments and clauses cost little."""
    lines = [line.strip() for it in sources(name) if it.suffix == ".rt" for line in it.read_text().splitlines()]
    return sum(len(it) for it in lines if not it.startswith(("//", "ghost", "requires", "ensures", "#", "use ")))


def jobs_of(name):
    """How many jobs a crate is worth."""
    return min(max(2, lanes() // 2), lanes(), 1 + code(name) // CODE_OF_A_JOB)


def prove_all(left, lines):
    """Proves crates, each once those below it are, and first those with the longest chain above. Gives what was said if one is not proved."""
    behind = {}
    for name in reversed(left):
        above = [behind[it] for it in behind if name in below(it, lines)]
        behind[name] = CODE_OF_EACH + code(name) / jobs_of(name) + max(above, default=0)
    number, most, running, jobs = len(left), lanes(MORE_JOBS, OWN), {}, {}
    with ThreadPoolExecutor(max(1, number)) as pool:
        while left or running:
            ready = [it for it in left if not {*below(it, lines)} & {*left, *jobs}]
            longest = max(behind[it] for it in [*left, *jobs])
            for place, name in enumerate(sorted(ready, key=lambda it: -behind[it]), 1):
                if (taken := sum(jobs.values())) < most:
                    tell(f"proving {name}; {number - len(left) - len(jobs)} of {number} are proved")
                    share = behind[name] / longest
                    # A crate of a shorter chain has what those behind it leave idle.
                    idle = most - 1 - taken - (len(ready) - place)
                    jobs[name] = jobs_of(name) if share >= LONG else max(1, min(jobs_of(name), idle))
                    running[pool.submit(prove, name, lines, jobs[name], min(19, round(GIVES_WAY * (1 - share))))] = name
                    left.remove(name)
            for ran in wait(running, return_when=FIRST_COMPLETED).done:
                del jobs[running.pop(ran)]
                if ran.result():
                    return ran.result()
    return None


@contextlib.contextmanager
def files_in_memory():
    """While it lasts checks have their files in memory, if there is room for them and TMPDIR names no other place. What an earlier build
    of this checkout left there, as it was killed, goes."""
    it = (TOP / "crates.txt").stat()
    mine = f"bfqhost-{hashlib.sha256(f'{TOP} {it.st_dev} {it.st_ino}'.encode()).hexdigest()[:16]}-"
    for left in MEMORY.glob(f"{mine}*"):
        shutil.rmtree(left, ignore_errors=True)
    free = int(re.search(r"MemAvailable:\s+(\d+)", Path("/proc/meminfo").read_text())[1]) << 10
    has_room = os.access(MEMORY, os.W_OK) and shutil.disk_usage(MEMORY).free >= lanes(MORE_JOBS, OWN) * ROOM * GIGABYTE
    has_room = has_room and free >= lanes(MORE_JOBS, OWN) * (OWN + ROOM) * GIGABYTE
    if "TMPDIR" in os.environ or not has_room:
        yield
        return
    os.environ["TMPDIR"] = folder = tempfile.mkdtemp(prefix=mine, dir=MEMORY)

    def end(number, _):
        shutil.rmtree(folder, ignore_errors=True)
        os._exit(128 + number)

    for number in (signal.SIGTERM, signal.SIGHUP):
        if signal.getsignal(number) == signal.SIG_DFL:
            signal.signal(number, end)
    try:
        yield
    finally:
        del os.environ["TMPDIR"]
        shutil.rmtree(folder, ignore_errors=True)


def build(given):
    """Proves and builds what is asked for. Gives what was said if it is not proved, or not built."""
    lines, began = crate_lines(), time.time()
    left = stale(given.crates or [given.program], lines)
    if left:
        minutes = MINUTES_OF_ALL * len(left) / len(lines) / lanes()
        tell(f"libraries to be proved first: {len(left)}, which may take {max(1, round(minutes))} minutes on {lanes()} processors")
    if (said := prove_all(left, lines)) or given.crates:
        return said
    tell(f"proving and building the program {given.program}")
    # Rattle's own compiler takes 21 seconds if LLVM takes 51, while one processor works.
    return build_program(given.program, lines, began, "llvm" if given.llvm else "rattle")


def take(lock):
    """Waits for a build of this checkout that is under way. If that takes more than a second, it says so."""
    until = time.monotonic() + 1
    while time.monotonic() < until:
        with contextlib.suppress(BlockingIOError):
            fcntl.flock(lock, fcntl.LOCK_EX | fcntl.LOCK_NB)
            return
        time.sleep(0.05)
    tell("another build of this checkout is under way; this one goes on when that has ended")
    fcntl.flock(lock, fcntl.LOCK_EX)


def main():
    words = argparse.ArgumentParser(description=__doc__, formatter_class=argparse.RawDescriptionHelpFormatter)
    words.add_argument("--llvm", action="store_true", help="LLVM makes the program, and not Rattle's own compiler")
    words.add_argument("--program", choices=PROGRAMS, default=PROGRAMS[0])
    words.add_argument("crates", nargs="*", metavar="CRATE")
    given = words.parse_args()
    if given.llvm and given.crates:
        words.error("with the names of crates no program is made")
    with open(TOP / "crates.txt", encoding="utf-8") as lock:
        # One build at a time.
        take(lock)
        with files_in_memory():
            return build(given)


if __name__ == "__main__":
    sys.exit(main())
