#!/usr/bin/env python3
"""Makes a log of fio, version 3: 2,000 reads and writes of 4 jobs that share the log, in the order of their times.

    tests/iolog_of_jobs.py > tests/iolog-2000-of-4-jobs.log

Nothing in it comes by chance: it is the same each time, with any version of Python.
"""

import itertools
import sys

IOS_OF_JOB = 500
PAGE = 4096
# A job's file has so many pages.
PAGES = 2048
# The mixed job makes a sync after so many reads and writes.
BETWEEN_SYNCS = 50
# The backup writes so much at a time, which is more than one bio.
BACKUP = 9 * PAGE


def numbers(seed):
    """Numbers that look like those of dice (a linear congruence with the constants of Knuth's MMIX)."""
    while True:
        seed = (seed * 6364136223846793005 + 1442695040888963407) % 2**64
        yield seed >> 33


def jobs(dice):
    """The file of each job, and what it does, without an end."""
    def page():
        return next(dice) % PAGES * PAGE

    def mixed():
        for count in itertools.count(1):
            yield f"{'write' if next(dice) % 3 == 0 else 'read'} {page()} {PAGE * (1 + next(dice) % 8)}"
            if count % BETWEEN_SYNCS == 0:
                yield "sync 0 0"

    return {
        "/data/seq-read.0.0": (f"read {at * PAGE} {PAGE}" for at in itertools.count()),
        "/data/rand-write.1.0": (f"write {page()} {PAGE}" for _ in itertools.count()),
        "/data/mixed.2.0": mixed(),
        "/data/backup.3.0": (f"write {at * BACKUP % (PAGES * PAGE)} {BACKUP}" for at in itertools.count()),
    }


def log():
    """The text of the log."""
    dice = numbers(2000)
    working, time = jobs(dice), 0
    left = dict.fromkeys(working, IOS_OF_JOB)
    rows = ["fio version 3 iolog", *(f"0 {file} {action}" for file in working for action in ("add", "open"))]
    while left:
        time += 20 + next(dice) % 180
        file = [*left][next(dice) % len(left)]
        action = next(working[file])
        rows.append(f"{time} {file} {action}")
        if not action.startswith("sync"):
            left[file] -= 1
        if left[file] == 0:
            rows += [f"{time} {file} trim 0 {PAGE}"] * file.startswith("/data/backup") + [f"{time} {file} close"]
            del left[file]
    return "".join(f"{row}\n" for row in rows)


if __name__ == "__main__":
    sys.stdout.write(log())
