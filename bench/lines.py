#!/usr/bin/env python3
"""Time of `bfqhost sim` for lines that come one by one through a pipe.

    python3 bench/lines.py

There are 50,000 lines, each of which is written when the answer to the one before was read. They are those of the dialogue of
tests/dialogues.py, each an accepted step under the scheduler bfq: one attach, and then again and again a read of sector 5, its
dispatch, its finish with all bytes 7 and its reap. This program writes them to `cat` too, whose answer to a line is the line.

A figure is the median of 5 runs by the clock, from the first line to the last answer, the runs of both in turn. This program
and the one that it drives are on one processor. The time of the host may be 2.5 times that of `cat`, and the status is 1 where
it is more.
"""

import argparse
import os
import select
import shutil
import statistics
import subprocess
import sys
import time

sys.dont_write_bytecode = True
from sim import PROGRAM, TOP, show  # noqa: E402

sys.path.insert(0, os.path.join(TOP, "tests"))
from dialogues import dialogue  # noqa: E402

LINES = 50_000
RUNS = 5
MOST_AGAINST_CAT = 2.5
# How long one answer may take.
SECONDS = 10


def read_answer(output, ready, wanted):
    """Reads just this answer, or stops."""
    got = b""
    while got != wanted:
        if not ready.poll(1000 * SECONDS):
            sys.exit(f"bench: {got!r} within {SECONDS} seconds, and not {wanted!r}")
        piece = os.read(output, 65_536)
        got += piece
        if not piece or not wanted.startswith(got):
            sys.exit(f"bench: the answer is {got!r} and not {wanted!r}")


def taken(words, pairs):
    """Seconds by the clock from the first line to the last answer of a program that answers each line as wanted."""
    with subprocess.Popen(words, stdin=subprocess.PIPE, stdout=subprocess.PIPE, bufsize=0) as driven:
        try:
            given, output, ready = driven.stdin.fileno(), driven.stdout.fileno(), select.poll()
            ready.register(output, select.POLLIN)
            began = time.perf_counter()
            for line, answer in pairs:
                os.write(given, line)
                read_answer(output, ready, answer)
            took = time.perf_counter() - began
            driven.stdin.close()
            if driven.wait(timeout=SECONDS) != 0:
                sys.exit(f"bench: {words[0]} did not end well")
        except (OSError, subprocess.SubprocessError) as fault:
            sys.exit(f"bench: {words[0]}: {fault}")
        finally:
            driven.kill()
    return took


def main():
    argparse.ArgumentParser(description=__doc__, formatter_class=argparse.RawDescriptionHelpFormatter).parse_args()
    if not os.path.exists(PROGRAM):
        sys.exit("bench: no program; tests/build.py --llvm builds it")
    cat = shutil.which("cat")
    if cat is None:
        sys.exit("bench: no cat")
    pairs = [*dialogue(LINES)]
    # What this program starts is on the same processor.
    os.sched_setaffinity(0, {max(os.sched_getaffinity(0))})
    by_host, by_cat = [], []
    for _ in range(RUNS):
        by_host.append(taken([PROGRAM, "sim"], pairs))
        by_cat.append(taken([cat], [(line, line) for line, _ in pairs]))
    host, least = statistics.median(by_host), statistics.median(by_cat)
    print(f"{LINES:,} lines one by one, medians of {RUNS} runs: bfqhost {host * 1e3:.0f} ms, {host / LINES * 1e6:.2f} us a line; "
          f"cat {least * 1e3:.0f} ms, {least / LINES * 1e6:.2f} us a line")
    is_kept = show("time against cat", f"{host / least:.2f}", f"at most {MOST_AGAINST_CAT}", host <= MOST_AGAINST_CAT * least)
    return 0 if is_kept else 1


if __name__ == "__main__":
    sys.exit(main())
