#!/usr/bin/env python3
"""Time of calls that clients ask of a host's core, each in a thread of its own, and of a host that waits.

    python3 bench/rings.py

The program of crates/ring_bench is run with one client and with 16: calls that are refused at once, and reads of one sector each with
two devices at work, of which each takes four calls more: a submit, a reap, a take and a finish. Beside them stand calls over the rings
of one seat with no keeper behind it. A figure is the median of 5 runs, by the clock and in user and system time, for a call or a read.
Then a held host with a call that waits is left alone for 3 seconds. In these it may use 1% of a processor, and the status is 1 where
it is more.
"""

import argparse
import os
import resource
import statistics
import subprocess
import sys
import time

sys.dont_write_bytecode = True
from sim import TOP, show  # noqa: E402

PROGRAM = os.path.join(TOP, "crates", "ring_bench", "out", "ring_bench")
ROUNDS = 10_000
RUNS = 5
# Words after the number of rounds, how many clients ask, and what it is.
KINDS = [
    (["0"], 1, "rings of one seat alone"),
    (["1"], 1, "calls of one client"),
    (["16"], 16, "calls of 16 clients"),
    (["1", "1"], 1, "reads of one client"),
    (["16", "1"], 16, "reads of 16 clients"),
]
IDLE_SECONDS = 3
MOST_IDLE = 0.01


def used():
    """User and system time of all runs that have ended."""
    it = resource.getrusage(resource.RUSAGE_CHILDREN)
    return it.ru_utime + it.ru_stime


def taken(words, clients):
    """Seconds by the clock and of processor time for each round of a run that must answer all."""
    before, began = used(), time.perf_counter()
    ran = subprocess.run([PROGRAM, str(ROUNDS), *words], stdin=subprocess.DEVNULL, stdout=subprocess.PIPE, text=True, check=True)
    took, cost = time.perf_counter() - began, used() - before
    if ran.stdout != f"{ROUNDS * clients}\n":
        sys.exit(f"bench: {ran.stdout!r} where {ROUNDS * clients} is due")
    return took / ROUNDS / clients, cost / ROUNDS / clients


def ticks(process):
    """User and system time that a running process has used, in seconds."""
    with open(f"/proc/{process.pid}/stat", encoding="ascii") as file:
        fields = file.read().rsplit(")", 1)[1].split()
    return (int(fields[11]) + int(fields[12])) / os.sysconf("SC_CLK_TCK")


def idle():
    """What part of a processor a held host uses while a call waits."""
    with subprocess.Popen([PROGRAM, "0"], stdin=subprocess.PIPE, stdout=subprocess.PIPE, text=True) as host:
        time.sleep(1)
        before = ticks(host)
        time.sleep(IDLE_SECONDS)
        part = (ticks(host) - before) / IDLE_SECONDS
        told, _ = host.communicate("")
    if told != "0\n" or host.returncode != 0:
        sys.exit(f"bench: {told!r} and status {host.returncode}, where 0 is due twice")
    return part


def main():
    argparse.ArgumentParser(description=__doc__, formatter_class=argparse.RawDescriptionHelpFormatter).parse_args()
    if not os.path.exists(PROGRAM):
        sys.exit("bench: no program; `rt run` in crates/ring_bench builds it")
    figures = {name: [] for _, _, name in KINDS}
    for _ in range(RUNS):
        for words, clients, name in KINDS:
            figures[name].append(taken(words, clients))
    print("| what | by the clock | processor time |\n|---|---|---|")
    for name, rows in figures.items():
        clock, cost = (statistics.median(it) for it in zip(*rows))
        print(f"| {name} | {clock * 1e6:.2f} us | {cost * 1e6:.2f} us |")
    part = idle()
    is_kept = show("a held host with a call that waits", f"{part:.2%} of a processor", f"at most {MOST_IDLE:.0%}", part <= MOST_IDLE)
    return 0 if is_kept else 1


if __name__ == "__main__":
    sys.exit(main())
