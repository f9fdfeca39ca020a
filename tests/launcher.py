"""Runs of the launcher, ./bfqhost and ./bfqctl, with stand-ins for the programs, for the build and for what the system tells of itself.

A program prints a setting of the C library, its words and its input; asked for its version it notes that, and that is how a test sees that
it was looked up. The build tells its own words, reads the input that it gets, and makes the program if it can.
"""

import contextlib
import fcntl
import io
import os
import shutil
import subprocess
import tempfile
import threading
from pathlib import Path

import build
import release

TOP = Path(__file__).resolve().parent.parent
PROGRAM = """#!/bin/sh
if [ "$1" = --version ]; then
    echo x >>"$(dirname "$0")/../looks"
    exit 0
fi
printf '%s\\n' "${GLIBC_TUNABLES-none}" "$@"
cat
exit 7
"""
# A program that says which it is, and else does the same.
RELEASED = PROGRAM.replace("printf", "echo released; printf")
# One that the system cannot start.
FOREIGN = """#!/bin/sh
echo "version GLIBC_2.34 not found" >&2
exit 1
"""
BUILD = """import shutil, sys
from pathlib import Path
top = Path(__file__).parent.parent
print(*sys.argv[1:], sys.stdin.read(), file=sys.stderr)
shutil.copy(top / "program", top / f"crates/{sys.argv[2]}/out/{sys.argv[2]}")
"""
WORDS, INPUT = ["sim", "two words", ""], "a line\n"
USUAL = "glibc.malloc.hugetlb=1:glibc.malloc.arena_max=1"
OUTPUT = f"{USUAL}\n" + "".join(f"{line}\n" for line in WORDS) + INPUT
FROM_RELEASE = "released\n" + OUTPUT
PROGRAMS = ["crates/bfqhost/out/bfqhost", "crates/bfqctl/out/bfqctl"]
# What the user has set, and what the program gets.
SETTINGS = [
    ("the launcher asks for huge pages, and for one place of memory", {}, USUAL),
    ("a setting of the user's own stands", {"GLIBC_TUNABLES": "glibc.malloc.arena_max=2"}, "glibc.malloc.arena_max=2"),
    ("an empty setting stands", {"GLIBC_TUNABLES": ""}, ""),
]
NOT_WHOLE = "release/ is not whole"
OTHER = "release/ is of other sources"
CHANGED = "the program of release/ is not the one that release/BUILT names, which 'git checkout release' brings back"
SEE = "see 'To build for yourself' in README.md"


def told(why, name="bfqhost"):
    """What the launcher and the build say if a program is built."""
    return f"{name}: {why}, so it is built here\n--program {name} \n"


# Which file is newer than the program, or gone (None), by which name the launcher is called, and what is told if it has to build. There
# is no release.
CHANGES = [
    ("a program is missing", PROGRAMS[0], None, "bfqhost", told(NOT_WHOLE)),
    ("the other program is missing, and a link is called", PROGRAMS[1], None, "link", told(NOT_WHOLE, "bfqctl")),
    ("the other program is missing", PROGRAMS[1], None, "bfqhost", ""),
    ("a source is newer", "crates/low/src/deep/part.rt", 2000, "bfqhost", told(NOT_WHOLE)),
    ("a source is gone", "crates/low/src/deep/part.rt", None, "bfqhost", told(NOT_WHOLE)),
    ("a definition is newer", "crates/low/specs/Low.antt", 2000, "bfqhost", told(NOT_WHOLE)),
    ("a proof is newer", "crates/low/proofs/low/Proof.antt", 2000, "bfqhost", told(NOT_WHOLE)),
    ("the list of crates is newer", "crates.txt", 2000, "bfqhost", told(NOT_WHOLE)),
    ("a wrong body is newer", "crates/low/wrong/low.edit", 2000, "bfqhost", ""),
    ("a document is newer", "README.md", 2000, "bfqhost", ""),
]
# Without a program that was built here: what a file of the checkout becomes (None: it goes), and what is told. Where nothing is told the
# released program runs.
RELEASES = [
    ("as it is", "README.md", "more", ""),
    ("a proof is another", "crates/low/proofs/low/Proof.antt", "more", ""),
    ("a file beside the sources", "crates/low/src/deep/part.rt.orig", "more", ""),
    ("a source of a crate that no program is made of", "crates/apart/src/lib.rt", "more", ""),
    ("a source is another", "crates/low/src/deep/part.rt", "more", told(OTHER)),
    ("a source is gone", "crates/low/src/deep/part.rt", None, told(OTHER)),
    ("a source more", "crates/low/src/deep/more.rt", "", told(OTHER)),
    ("the list of crates is another", "crates.txt", "more", told(OTHER)),
    ("one byte of the program is another", "release/x86_64-linux/bfqhost", RELEASED.replace("exit 7", "exit 8"), told(CHANGED)),
    ("the program is cut short", "release/x86_64-linux/bfqhost", RELEASED[:-2], told(CHANGED)),
    ("the program is empty", "release/x86_64-linux/bfqhost", "", told(CHANGED)),
    ("the program is missing", "release/x86_64-linux/bfqhost", None, told(NOT_WHOLE)),
    ("the other program is missing", "release/x86_64-linux/bfqctl", None, ""),
    ("BUILT is missing", "release/BUILT", None, told(NOT_WHOLE)),
    ("BUILT is empty", "release/BUILT", "", told(NOT_WHOLE)),
]
# Where the released program cannot be started: what the system tells of itself, and what the launcher says if there is nothing to build with.
SYSTEMS = [
    ("another system", {"uname": "echo Darwin", "getconf": "exit 1"}, "is for Linux on x86-64, and this is Darwin on Darwin"),
    ("another processor", {"uname": '[ "$1" = -s ] && echo Linux || echo aarch64', "getconf": "echo glibc 2.36"},
     "is for Linux on x86-64, and this is Linux on aarch64"),
    ("an old glibc", {"uname": '[ "$1" = -s ] && echo Linux || echo x86_64', "getconf": "echo glibc 2.31"},
     "does not run here: it needs glibc 2.34 or newer, and this system has glibc 2.31 (version GLIBC_2.34 not found)"),
    ("musl", {"uname": '[ "$1" = -s ] && echo Linux || echo x86_64', "getconf": "exit 1"},
     "does not run here: it needs glibc 2.34 or newer, and this system has another C library (version GLIBC_2.34 not found)"),
]


def write(folder, name, text):
    """Writes a file of a checkout, that can be run, and makes the folders that it needs."""
    path = Path(folder, name)
    path.parent.mkdir(parents=True, exist_ok=True)
    path.write_text(text)
    path.chmod(0o755)


def laid_out(folder):
    """Makes a checkout of stand-ins, in which the programs are newer than all else, and a link to one launcher."""
    for path in Path(folder).iterdir():
        shutil.rmtree(path) if path.is_dir() else path.unlink()
    for name in [*PROGRAMS, *(name for _, name, *_ in CHANGES), "crates/apart/src/lib.rt"]:
        write(folder, name, PROGRAM if name in PROGRAMS else "")
    write(folder, "program", PROGRAM)
    write(folder, "tests/build.py", BUILD)
    write(folder, "commands/rt", "")
    for name in ("bfqhost", "bfqctl", "tests/launch"):
        shutil.copy2(TOP / name, Path(folder, name))
    Path(folder, "elsewhere").mkdir()
    Path(folder, "elsewhere", "link").symlink_to("../bfqctl")
    for path in Path(folder).rglob("*"):
        time = 1001 if str(path.relative_to(folder)) in PROGRAMS else 1000
        os.utime(path, (time, time))


def released(folder, text=RELEASED):
    """The same with released programs and none that were built here."""
    laid_out(folder)
    for name in release.PROGRAMS:
        Path(folder, "crates", name, "out", name).unlink()
        write(folder, f"release/x86_64-linux/{name}", text)
    sources = release.digest(Path(folder), ["low"])
    with_sums = release.text_of(Path(folder, "release"), "a kit", ["low"], sources)
    Path(folder, "release", "BUILT").write_text(with_sums)


def run(folder, name="bfqhost", path=None, **given):
    """What a launcher writes to standard output and standard error, and its status."""
    others = {name: value for name, value in os.environ.items() if name != "GLIBC_TUNABLES"}
    others["PATH"] = path or f"{folder}/commands:{os.environ['PATH']}"
    ran = subprocess.run([Path(folder, "elsewhere" if name == "link" else "", name), *WORDS], env={**others, **given}, input=INPUT,
                         stdout=subprocess.PIPE, stderr=subprocess.PIPE, text=True, timeout=60, check=False)
    return ran.stdout, ran.stderr, ran.returncode


def looks(folder):
    """How often a released program was asked for its version."""
    path = Path(folder, "release", "looks")
    return path.read_text().count("x") if path.exists() else 0


def faults(got, wanted):
    return [] if got == wanted else [f"output, errors and status are {got} and not {wanted}"]


def bare(folder, stand_ins):
    """A path with what the launcher needs and these stand-ins alone: neither Python nor the toolchain."""
    for name in release.COMMANDS:
        Path(folder, "bare").mkdir(exist_ok=True)
        Path(folder, "bare", name).symlink_to(shutil.which(name))
    for name, line in stand_ins.items():
        write(folder, f"bare/{name}", f"#!/bin/sh\n{line}\n")
    return f"{folder}/bare"


def of_built_ones(folder):
    """Where a program was built here, and there is no release."""
    laid_out(folder)
    for name, given, wanted in SETTINGS:
        yield name, faults(run(folder, **given), (OUTPUT.replace(USUAL, wanted), "", 7))
    for what, name, time, called, said in CHANGES:
        laid_out(folder)
        os.utime(Path(folder, name), (time, time)) if time else Path(folder, name).unlink()
        yield what, faults(run(folder, called), (OUTPUT, said, 7))
    laid_out(folder)
    Path(folder, "crates.txt").touch()
    Path(folder, "tests", "build.py").write_text("import sys\nsys.exit(3)\n")
    yield "no program is run if none is built", faults(run(folder), ("", f"bfqhost: {NOT_WHOLE}, so it is built here\n", 1))


def of_released_ones(folder):
    """Where none was built here, and there is a release."""
    for what, name, text, said in RELEASES:
        released(folder)
        Path(folder, name).unlink() if text is None else write(folder, name, text)
        yield f"release/, {what}", faults(run(folder), (OUTPUT if said else FROM_RELEASE, said, 7))
    released(folder)
    as_released = (FROM_RELEASE, "", 7)
    yield "a released program runs", faults(run(folder), as_released)
    yield "it runs again", faults(run(folder), as_released)
    yield "it is looked up once", [] if looks(folder) == 1 else [f"it was {looks(folder)} times"]
    write(folder, "crates/low/src/deep/part.rt", "an edit")
    yield "a source is edited", faults(run(folder), (OUTPUT, told(OTHER), 7))
    yield "what was built runs again", faults(run(folder), (OUTPUT, "", 7))
    write(folder, "crates/low/src/deep/part.rt", "")
    yield "the edit is taken back", faults(run(folder), as_released)
    yield "a start after that", faults(run(folder), as_released)
    yield "it is looked up once more", [] if looks(folder) == 2 else [f"it was {looks(folder)} times"]
    released(folder)
    Path(folder, "release", ".checked-bfqhost").mkdir()
    yield "no stamp can be set", faults(run(folder), as_released)
    yield "nor at the second start", faults(run(folder), as_released)
    yield "it is looked up each time", [] if looks(folder) == 2 else [f"it was {looks(folder)} times"]
    laid_out(folder)
    write(folder, "release/x86_64-linux/bfqhost", RELEASED)
    yield "a program that was built here comes first", faults(run(folder), (OUTPUT, "", 7))


def of_bare_systems(folder):
    """Where there is nothing to build with."""
    released(folder)
    yield "neither Python nor a toolchain", faults(run(folder, path=bare(folder, {})), (FROM_RELEASE, "", 7))
    write(folder, "crates/low/src/deep/part.rt", "an edit")
    yield "nor a release of these sources", faults(
        run(folder, path=f"{folder}/bare"), ("", f"bfqhost: {OTHER}, and here is no rt and no python3 to build one with: {SEE}\n", 127))
    for what, stand_ins, said in SYSTEMS:
        released(folder, FOREIGN)
        wanted = ("", f"bfqhost: the program of release/ {said}, and here is no rt and no python3 to build one with: {SEE}\n", 126)
        yield what, faults(run(folder, path=bare(folder, stand_ins)), wanted)
        path = f"{folder}/bare:{folder}/commands:{os.environ['PATH']}"
        yield f"{what}, with a toolchain", faults(run(folder, path=path), (OUTPUT, told(f"the program of release/ {said}"), 7))


def waited(folder, seconds):
    """What a build says that begins when another one has so many seconds to go."""
    path = Path(folder, "crates.txt")
    path.touch()
    with path.open() as theirs, path.open() as ours, contextlib.redirect_stderr(io.StringIO()) as said:
        fcntl.flock(theirs, fcntl.LOCK_EX)
        timer = threading.Timer(seconds, fcntl.flock, [theirs, fcntl.LOCK_UN])
        timer.start()
        build.take(ours)
        timer.join()
        # Now it is ours, so nobody else may have it.
        with path.open() as third:
            try:
                fcntl.flock(third, fcntl.LOCK_EX | fcntl.LOCK_NB)
                return "a third build begins, too"
            except BlockingIOError:
                return said.getvalue()


def of_builds(folder):
    """Builds that wait for another one."""
    yield "a build waits for a short while", faults(waited(folder, 0.2), "")
    yield "a build waits for another one", faults(
        waited(folder, 1.5), "bfqhost: another build of this checkout is under way; this one goes on when that has ended\n")


def which(folder, wanted):
    """What `tests/launch --which bfqhost` prints."""
    ran = subprocess.run([Path(folder, "tests", "launch"), "--which", "bfqhost"], stdout=subprocess.PIPE, text=True, timeout=60, check=False)
    return faults((ran.stdout, ran.returncode), (f"{folder}/{wanted}\n", 0))


def launcher_runs():
    """The name of each run, and what it did in another way than wanted."""
    with tempfile.TemporaryDirectory() as folder:
        for part in (of_built_ones, of_released_ones, of_bare_systems, of_builds):
            for name, found in part(folder):
                yield f"the launcher: {name}", found
        released(folder)
        yield "the launcher: which is released", which(folder, "release/x86_64-linux/bfqhost")
        laid_out(folder)
        yield "the launcher: which was built here", which(folder, PROGRAMS[0])
