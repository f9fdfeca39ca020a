#!/usr/bin/env python3
"""Time of a feeder for frames that come in one piece and in several.

    python3 bench/feed.py

The program of crates/serve_bench feeds 32 KiB of the operator's shortest frames, which have five bytes, again and again to a feeder
of its own: in one piece, or in pieces of 4,096 bytes. A figure is the median of 11 runs of 1,000 times each, in turn, in user and
system time, with that of a run that feeds nothing taken off. One piece may take 4 times what the pieces do, as a feed is to cost
its bytes and not the square of its frames. The status is 1 where it is more.
"""

import argparse
import os
import resource
import statistics
import subprocess
import sys

sys.dont_write_bytecode = True
from sim import TOP, show  # noqa: E402

PROGRAM = os.path.join(TOP, "crates", "serve_bench", "out", "serve_bench")
STREAM_BYTES = 32_768
PIECE_BYTES = 4_096
FRAMES = STREAM_BYTES // 5
ROUNDS = 1_000
RUNS = 11
MOST_OF_ONE_PIECE = 4


def taken(size, rounds):
    """User and system time of a run in pieces of this size, which must bring every value."""
    before = resource.getrusage(resource.RUSAGE_CHILDREN)
    ran = subprocess.run([PROGRAM, "feed", str(size), str(rounds)], stdin=subprocess.DEVNULL, stdout=subprocess.PIPE, check=True)
    after = resource.getrusage(resource.RUSAGE_CHILDREN)
    if int(ran.stdout) != rounds * FRAMES:
        sys.exit(f"bench: {ran.stdout!r} values of {rounds * FRAMES}")
    return after.ru_utime + after.ru_stime - before.ru_utime - before.ru_stime


def main():
    argparse.ArgumentParser(description=__doc__, formatter_class=argparse.RawDescriptionHelpFormatter).parse_args()
    if not os.path.exists(PROGRAM):
        sys.exit("bench: no program; `rt run` in crates/serve_bench builds it")
    nothing, whole, pieces = [], [], []
    for _ in range(RUNS):
        nothing.append(taken(PIECE_BYTES, 0))
        whole.append(taken(STREAM_BYTES, ROUNDS))
        pieces.append(taken(PIECE_BYTES, ROUNDS))
    start = statistics.median(nothing)
    one, several = statistics.median(whole) - start, statistics.median(pieces) - start
    print(f"{FRAMES:,} frames of five bytes, medians of {RUNS} runs: in one piece {one / ROUNDS * 1e6:.0f} us, {one / ROUNDS / FRAMES * 1e9:.0f} ns "
          f"a frame; in pieces of {PIECE_BYTES:,} bytes {several / ROUNDS * 1e6:.0f} us")
    is_kept = show("one piece against pieces", f"{one / several:.2f}", f"at most {MOST_OF_ONE_PIECE}", one <= MOST_OF_ONE_PIECE * several)
    return 0 if is_kept else 1


if __name__ == "__main__":
    sys.exit(main())
