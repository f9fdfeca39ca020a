"""Two jobs of fio in groups of weights 100 and 300, over the bridge, on a device that takes two milliseconds for each request.

A short run compares no shares, as a busy machine spoils them; a long one does.
"""

import json
import os
import shutil
import subprocess
import sys
import tempfile

from nbd import Place
from nbd_client import ENVIRONMENT, TOP
from nbd_clients import lacking
from served import Wrong, same

sys.path.insert(0, os.path.join(TOP, "clients"))
from bfqclient import Operator  # noqa: E402

# One request at a time, by one worker. The budgets are small, so that a round of both groups takes an eighth of a second.
SLOW = ["--history", "16777216", "--delay", "2000", "--tags", "1", "--first-budget", "256", "--max-budget", "256"]
WEIGHTS = (100, 300)
# So many seconds a run takes, and a long one.
FEW, MANY = 2, 20
# The shares are to be those of the weights within a tenth.
WITHIN = 0.1
# So many long runs are made at most.
TRIES = 4
SECTORS = 65_536


def jobs(place, socket, groups, seconds):
    """How many requests of each group were done, each by a job of its own; both begin at once."""
    told = [os.path.join(place.folder, f"{group}.json") for group in groups]
    runs = [subprocess.Popen(["fio", "--name=job", "--ioengine=nbd", f"--uri=nbd+unix:///g{group}?socket={socket}", "--rw=randwrite", "--bs=4k",
                              "--iodepth=16", "--size=32m", "--time_based", f"--runtime={seconds}", "--output-format=json", f"--output={file}"],
                             cwd=place.folder, stdin=subprocess.DEVNULL, stdout=subprocess.PIPE, stderr=subprocess.STDOUT, env=ENVIRONMENT)
            for group, file in zip(groups, told)]
    for run in runs:
        said = run.communicate(timeout=60 + 2 * seconds)[0]
        same(f"the status of fio, which says {said[-300:]!r}", run.returncode, 0)
    done = []
    for file in told:
        with open(file, encoding="utf-8") as text:
            # Before it fio may write a line of its own.
            done.append(json.loads("{" + text.read().partition("{")[2])["jobs"][0]["write"]["total_ios"])
    return done


def weights(program, folder, is_long):
    """Both jobs get on, and in a long run their shares are as their weights. A job that waits for a processor has less than its share, so a run
    is made again if other work has spoiled it."""
    with Place(program, folder, *SLOW, sectors=SECTORS, workers=1) as place:
        operator = Operator(place.sockets)
        groups = [operator.group_make(0, weight) for weight in WEIGHTS]
        with place.bridge("--image", place.image) as bridge:
            for _ in range(TRIES if is_long else 1):
                low, high = jobs(place, bridge.path, groups, MANY if is_long else FEW)
                print(f"nbd weights: weights of {WEIGHTS[0]} and {WEIGHTS[1]} had {low} and {high} requests done: 1 to {high / max(low, 1):.2f}")
                same("whether both have some", min(low, high) > 0, True)
                if abs(high / low - WEIGHTS[1] / WEIGHTS[0]) <= WITHIN * WEIGHTS[1] / WEIGHTS[0]:
                    return
    same("whether no long run had the shares of the weights", is_long, False)


def nbd_weight_runs(program, is_long):
    """The name of the run, and what was wrong with it."""
    name = "nbd weights"
    if lacks := lacking(["fio"], False):
        print(f"skipped: {name}: no {' and no '.join(lacks)} here")
        return
    folder = tempfile.mkdtemp(prefix="bfq-")
    try:
        weights(program, folder, is_long)
        yield name, []
    except (Wrong, OSError, ValueError, LookupError, subprocess.SubprocessError) as fault:
        yield name, [f"{type(fault).__name__}: {fault}"]
    finally:
        shutil.rmtree(folder, ignore_errors=True)
