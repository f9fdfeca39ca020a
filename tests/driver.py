"""Runs of ./test itself: what parts it tells, and what it says of one that there is not."""

import os
import subprocess
import sys

from launcher import launcher_runs

TOP = os.path.dirname(os.path.dirname(os.path.abspath(__file__)))
SECONDS = 300
BAD_WORDS = 2
NONE = "no-part-of-this-name"


def ran(*words):
    """What ./test prints with these words, and its status."""
    ended = subprocess.run([sys.executable, os.path.join(TOP, "test"), *words], stdin=subprocess.DEVNULL, capture_output=True, text=True,
                           timeout=SECONDS, check=False, env={**os.environ, "PYTHONDONTWRITEBYTECODE": "1"})
    return ended.stdout, ended.stderr, ended.returncode


def listed():
    """It lists its parts, a name a row, each once and nothing else."""
    stdout, stderr, status = ran("--list")
    names = stdout.splitlines()
    if (stderr, status) != ("", 0) or len({*names}) != len(names) or any(len(name.split()) != 1 for name in names):
        yield f"it prints {stdout!r} and {stderr!r}, with status {status}"
    yield from (f"there is no {name}" for name in ("examples", "serving", "manual", "launcher") if name not in names)


def unknown():
    """A name that is none is told with the list of names, and nothing is run, the parts beside it neither."""
    names = ran("--list")[0]
    for words in ([NONE], ["launcher", NONE]):
        stdout, stderr, status = ran("--only", *words)
        if (stdout, status) != ("", BAD_WORDS) or NONE not in stderr or not stderr.endswith(f"\n{names}"):
            yield f"--only {' '.join(words)} prints {stdout!r} and {stderr!r}, with status {status}"


def chosen():
    """A part is run though it is named twice, and no other one is."""
    stdout, stderr, status = ran("--only", "launcher", "launcher")
    wanted = f"{len([*launcher_runs()])} passed, 0 failed"
    if (stderr, status) != ("", 0) or stdout.splitlines()[-1:] != [wanted]:
        yield f"it prints {stdout!r} and {stderr!r}, with status {status}, and the last row is not {wanted!r}"


def driver_runs():
    """The name of each run, and what was wrong with it."""
    for name, run in (("./test --list", listed), ("./test --only, of a name that is none", unknown), ("./test --only", chosen)):
        try:
            yield name, [*run()]
        except (OSError, subprocess.SubprocessError) as fault:
            yield name, [str(fault)]
