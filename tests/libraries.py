"""The libraries and programs of this checkout: which stand as they are, and how one is proved and made."""

import os
import re
import shutil
import subprocess
import time
from pathlib import Path

from checkout import CRATES, below, command, kit, library

PROGRAMS = ["bfqhost", "bfqctl"]


def lanes(more=0, gigabytes=4):
    """How many checks run side by side: one for each processor and so many more, and no more than memory holds at so much each."""
    free = int(re.search(r"MemAvailable:\s+(\d+)", Path("/proc/meminfo").read_text())[1])
    return max(1, min(len(os.sched_getaffinity(0)) + more, free // (gigabytes << 20)))


def writer(rlib):
    """The build of the toolchain that wrote a library, by a line of its file `format`, or none."""
    lines = (rlib / "format").read_text().splitlines() if (rlib / "format").exists() else []
    return next((it for it in lines if it.startswith("rattle-build ")), None)


def made(name):
    """When the library of a crate was made, or 0 if there is none that the toolchain, as it is now, has written."""
    by = writer(library(name))
    return library(name).stat().st_mtime if by is not None and by == writer(kit() / "rlibs" / "std.rlib") else 0


def changed(name):
    """When a crate was last changed: the time of the latest of its files and folders, as a folder changes when a file comes or goes."""
    parts = [CRATES / name / part for part in ("src", "specs", "proofs")]
    return max(it.stat().st_mtime for part in parts if part.exists() for it in [part, *part.rglob("*")])


def stale(names, lines):
    """The libraries of these crates and below them that are missing, or older than their sources or than one below, lowest first."""
    found = []
    for name in dict.fromkeys(it for name in names for it in [*below(name, lines), name] if it not in PROGRAMS):
        newest = max([changed(name), *map(made, below(name, lines))])
        if made(name) < newest or any(it in found for it in below(name, lines)):
            found.append(name)
    return found


def is_proved(name, lines):
    """Whether a crate is proved as it stands: its library, or its program, is there, and is newer than what it is made of."""
    if name not in PROGRAMS:
        return not stale([name], lines)
    program = CRATES / name / "out" / name
    newest = max([changed(name), *map(made, below(name, lines))])
    return program.exists() and program.stat().st_mtime > newest and not stale([name], lines)


def run(words, folder):
    """Runs a command of the toolchain in a folder. Gives its status and what it said."""
    ran = subprocess.run(words, cwd=folder, stdin=subprocess.DEVNULL, stdout=subprocess.PIPE, stderr=subprocess.STDOUT, text=True,
                         errors="replace", check=False)
    return ran.returncode, ran.stdout


def prove(name, lines, jobs, gives_way):
    """Proves a crate, whose library then stands in the checkout. Gives what was said if it is not proved."""
    began = time.time()
    # What is there is stale, and by a stamp beside it rt would take this library for one of its own, with all proofs in it.
    shutil.rmtree(library(name).parent, ignore_errors=True)
    library(name).parent.mkdir(parents=True)
    words = [*command("build", name, lines), "--statements", "--jobs", str(jobs), "-o", library(name)]
    status, said = run(["nice", "-n", str(gives_way), *words], CRATES / name)
    if status:
        return f"{said}bfqhost: {name} is not proved"
    # What was made gets the time from before, so that a file that is changed meanwhile is seen to be newer.
    os.utime(library(name), (began, began))
    return None


def build_program(name, lines, began, backend):
    """Proves and builds a program over its libraries, which began at this time. Gives what was said if none results."""
    program, made_of = CRATES / name / "out" / name, CRATES / name / "out" / f"{name}.o"
    program.parent.mkdir(exist_ok=True)
    tools = ["--toolchain", kit() / "toolchain"]
    words = [*command("build", name, lines), *tools, "--backend", backend, "--jobs", str(lanes()), "-o", made_of]
    status, said = run(words, CRATES / name)
    if not status:
        words = ["--target", "x86_64-unknown-linux-gnu", *tools, "-o", program, made_of, kit() / "c/libos_c.a", kit() / "c/liblibc_c.a"]
        status, said = run([kit() / "bin/rattle-link", *words], CRATES / name)
    if status:
        return f"{said}bfqhost: no program was built"
    os.utime(program, (began, began))
    return None
