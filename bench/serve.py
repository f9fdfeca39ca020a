#!/usr/bin/env python3
"""Time of a client's session over memory, with few frames and with many.

    python3 bench/serve.py

The program of crates/serve_bench serves one session again and again over a keeper on one thread. Each frame of it is a Reap of a
session that does not sit there, so it is refused (4) and leaves nothing in the history. A session has 1,000 frames or 100,000. A
figure is the median of 11 runs of 1,000,000 frames each, in turn, in user and system time, with that of a run that serves nothing
taken off. A frame of the long session may take 1.2 times what one of the short does. The status is 1 where it is more.
"""

import argparse
import os
import resource
import statistics
import subprocess
import sys

sys.dont_write_bytecode = True
from sim import TOP, show  # noqa: E402

PROGRAM = os.path.join(TOP, "crates", "serve_bench", "out", "serve_bench")
FEW, MANY = 1_000, 100_000
FRAMES = 1_000_000
RUNS = 11
MOST_OF_MANY = 1.2
# The bytes of an Attached, and of a refusal.
ATTACHED, REFUSED = 13, 6


def taken(frames, rounds):
    """User and system time of a run of so many sessions, which must ask each call and write each answer."""
    before = resource.getrusage(resource.RUSAGE_CHILDREN)
    ran = subprocess.run([PROGRAM, str(frames), str(rounds)], stdin=subprocess.DEVNULL, stdout=subprocess.PIPE, text=True, check=True)
    after = resource.getrusage(resource.RUSAGE_CHILDREN)
    due = f"{rounds * (frames + 1)} {rounds * (ATTACHED + frames * REFUSED)}\n"
    if ran.stdout != due:
        sys.exit(f"bench: {ran.stdout!r} where {due!r} is due")
    return after.ru_utime + after.ru_stime - before.ru_utime - before.ru_stime


def main():
    argparse.ArgumentParser(description=__doc__, formatter_class=argparse.RawDescriptionHelpFormatter).parse_args()
    if not os.path.exists(PROGRAM):
        sys.exit("bench: no program; `rt run` in crates/serve_bench builds it")
    nothing, few, many = [], [], []
    for _ in range(RUNS):
        nothing.append(taken(FEW, 0))
        few.append(taken(FEW, FRAMES // FEW))
        many.append(taken(MANY, FRAMES // MANY))
    start = statistics.median(nothing)
    short, long = (statistics.median(it) - start for it in (few, many))
    print(f"{FRAMES:,} refused Reaps, medians of {RUNS} runs: {short / FRAMES * 1e9:.0f} ns a frame in sessions of {FEW:,}, "
          f"{long / FRAMES * 1e9:.0f} ns in sessions of {MANY:,}")
    is_kept = show(f"a frame of {MANY:,} against one of {FEW:,}", f"{long / short:.2f}", f"at most {MOST_OF_MANY}", long <= MOST_OF_MANY * short)
    return 0 if is_kept else 1


if __name__ == "__main__":
    sys.exit(main())
