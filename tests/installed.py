"""Runs of `make install` and `make uninstall` into a folder, and of what was installed there."""

import contextlib
import os
import shutil
import subprocess
import tempfile
from pathlib import Path

from bad_input import Skipped
from launcher import INPUT, PROGRAM, SETTINGS, WORDS
from served import Wrong
from tools import head, no_request, totals

TOP = Path(__file__).resolve().parent.parent
VERSION = (TOP / "VERSION").read_text(encoding="ascii").strip()
SECONDS = 60
PREFIX = "usr"
COMMANDS = ["bfqclient", "bfqctl", "bfqhost", "bfqnbd"]
TOOLS = ["bfq-compare", "bfq-crashes", "bfq-expect", "bfq-export", "bfq-futures", "bfq-iolog", "bfq-page", "bfq-plot", "bfq-step", "bfq-top", "bfq-trace",
         "bfq-why"]
PAGES = ["man1/bfqctl.1", "man1/bfqhost.1", "man5/bfqhost-script.5", "man7/bfqhost-protocol.7", "man7/bfqhost-serve.7"]
# What the tools share.
MODULES = ("dials disk_record drawn driving future_checks future_clients future_contents future_observers future_records future_search future_states grammar host image "
           "live live_stepper logs measured narrow payload reasons recorded room sentences shares shown stepper traced ways").split()
# What must stand under PREFIX, but for the client's modules.
FILES = {*(f"bin/{name}" for name in [*COMMANDS, *TOOLS]), "libexec/bfqhost/bfqhost", "libexec/bfqhost/bfqctl",
         *(f"libexec/bfqhost/tools/{name}" for name in [*TOOLS, *(f"{name}.py" for name in MODULES)]),
         "libexec/bfqhost/web/bfqhost.html", *(f"share/man/{page}" for page in PAGES), *(f"share/bash-completion/completions/{name}" for name in COMMANDS)}
CLIENT = "libexec/bfqhost/clients/"
# A run of each tool, with the files that it finds, its words and input, and what it must print.
IMAGE = 1024 * b"A"
RUNS = {
    "bfq-compare": ({"log": head(2).encode()}, ["log", "--a=--tags=1", "--b=--tags=2"], b"",
                    b"    sectors  half took  99% took  behind\nall 0 dispatches are the same\n"),
    "bfq-expect": ({"script": b"line -> line 0 0 0\n"}, ["script"], b"", b"1 lines asked, 1 answers as wanted\n"),
    "bfq-export": ({"image": IMAGE}, ["image", "out"], b"", b"out: 0 sectors stored over image, 0 of 0 steps stand\n"),
    "bfq-futures": ({"clients": b"seat 0\n"}, ["clients"], b"", b"states 1 edges 0 contents 1 steps 0: complete\n"),
    "bfq-iolog": ({"log": head(2).encode()}, ["log"], b"", totals(0, met=[no_request(1)]).encode()),
    "bfq-page": ({"script": b"attach 0 0 4\n"}, ["script"], b"", b""),
    "bfq-plot": ({"script": b"attach 0 0 4\nread 0 1 0 1\ndispatch\n"}, ["script", "--csv", "csv"], b"", b""),
    "bfq-step": ({}, ["--", "--scheduler", "none"], b"line\n", b"line 0 0 0\n"),
    "bfq-why": ({"script": b"attach 0 0 4\n"}, ["script"], b"", b"0 choices, 0 otherwise than worked out\n"),
}


def made(target, folder, which=None, destdir="dest"):
    """A run of make that installs into a folder, or removes what it has installed there. The programs are those that `which` prints."""
    if not shutil.which("make"):
        raise Skipped("make install: no make here")
    # What a make above this one has set is nothing to this one.
    environment = {name: value for name, value in os.environ.items() if name not in ("MAKEFLAGS", "MFLAGS", "MAKELEVEL")}
    words = ["make", "-C", TOP, target, f"DESTDIR={folder}/{destdir}", f"PREFIX=/{PREFIX}", f"WHICH={which or 'false'} --which"]
    return subprocess.run(words, env=environment, capture_output=True, text=True, timeout=SECONDS, check=False)


def launcher_of(folder, programs):
    """A stand-in for the launcher, which prints the paths of these programs."""
    which = Path(folder, "which")
    cases = "".join(f"bfq{name}) echo '{path}' ;; " for name, path in zip(("host", "ctl"), programs))
    which.write_text(f"#!/bin/sh\n[ \"$1\" = --which ] || exit 9\ncase $2 in {cases}*) exit 9 ;; esac\n", encoding="ascii")
    which.chmod(0o755)
    return which


@contextlib.contextmanager
def installed(*programs):
    """The folder of the commands, where these programs are installed for a time."""
    with tempfile.TemporaryDirectory(prefix="bfq-") as folder:
        ran = made("install", folder, launcher_of(folder, programs))
        if ran.returncode:
            raise Wrong(f"make install ends with status {ran.returncode}: {ran.stderr}")
        yield Path(folder, "dest", PREFIX, "bin")


def files_under(folder):
    """The files of a folder, by their paths in it."""
    return {str(path.relative_to(folder)) for path in Path(folder).rglob("*") if not path.is_dir()}


def ran(words, folder, stdin=b"", **environment):
    """What a command prints, and its status."""
    got = subprocess.run(words, cwd=folder, input=stdin, capture_output=True, timeout=SECONDS, check=False,
                         env={**os.environ, "PYTHONDONTWRITEBYTECODE": "1", **environment})
    return got.stdout, got.stderr, got.returncode


def compared(what, got, wanted):
    return [] if got == wanted else [f"{what}: {got} and not {wanted}"]


def what_stands_there(programs):
    """Each file stands there and no other one, and the programs are those that the launcher runs."""
    with installed(*programs) as commands:
        there = commands.parent
        found = files_under(there)
        yield from compared("files", sorted(it for it in found if not it.startswith(CLIENT)), sorted(FILES))
        yield from [] if f"{CLIENT}bfqclient.py" in found else ["there is no client"]
        for name, path in zip(("bfqhost", "bfqctl"), programs):
            yield from [] if (there / "libexec/bfqhost" / name).read_bytes() == Path(path).read_bytes() else [f"{name} is another program"]
        for page in PAGES:
            text = (there / "share/man" / page).read_text(encoding="utf-8")
            yield from [] if f'"bfqhost {VERSION}"' in text and "@VERSION@" not in text else [f"{page} has no version, or not all of it"]


def commands_run(programs):
    """The commands run from any folder, and by a link; also when all was moved."""
    helped = ran([programs[0], "--help"], "/")
    with installed(*programs) as commands, tempfile.TemporaryDirectory() as folder:
        Path(folder, "link").symlink_to(commands / "bfqhost")
        yield from compared("bfqhost by a link", ran([Path(folder, "link"), "--help"], folder), helped)
        yield from compared("bfqctl", ran([commands / "bfqctl", "--help"], folder), ran([programs[1], "--help"], "/"))
        stdout, _, status = ran([commands / "bfqclient", "none", "read", "0", "1"], folder)
        yield from compared("bfqclient with no host", (stdout, status), (b"", 3))
        stdout, _, status = ran([commands / "bfqnbd", "--dir", folder, "--socket", "none"], folder)
        yield from compared("bfqnbd with no host", (stdout, status), (b"", 3))
        moved = commands.parent.rename(commands.parent.with_name("moved"))
        yield from compared("bfqhost that was moved", ran([moved / "bin/bfqhost", "--help"], folder), helped)
        yield from compared("a tool that was moved", ran([moved / "bin/bfq-step"], folder, b"line\n"), (b"line 0 0 0\n", b"", 0))


def tools_run(programs):
    """Each tool finds the program and its modules, and tells its own name."""
    with installed(*programs) as commands:
        for name, (files, words, stdin, stdout) in RUNS.items():
            with tempfile.TemporaryDirectory() as folder:
                for file, data in files.items():
                    Path(folder, file).write_bytes(data)
                yield from compared(name, ran([commands / name, *words], folder, stdin), (stdout, b"", 0))
        for name in TOOLS:
            stdout, _, status = ran([commands / name, "--help"], "/")
            yield from compared(f"{name} --help", (stdout.split()[:2], status, b"tools/" in stdout), ([b"usage:", name.encode()], 0, False))
        # A program that the user names is run in the place of the installed one.
        yield from compared("--program", ran([commands / "bfq-step", "--program", "/nothing"], "/")[1:],
                            (b"/nothing does not start: No such file or directory\n", 3))


def setting(_):
    """The programs get their words and their input as they are, and the setting of memory that the launcher gives."""
    with tempfile.TemporaryDirectory() as folder:
        program = Path(folder, "program")
        program.write_text(PROGRAM, encoding="ascii")
        program.chmod(0o755)
        lines = "".join(f"{line}\n" for line in WORDS) + INPUT
        with installed(program, program) as commands:
            for what, given, wanted in SETTINGS:
                for name in ("bfqhost", "bfqctl"):
                    words = ["env", *([] if given else ["-u", "GLIBC_TUNABLES"]), commands / name, *WORDS]
                    got = ran(words, folder, INPUT.encode(), **given)
                    yield from compared(f"{name}: {what}", got, (f"{wanted}\n{lines}".encode(), b"", 7))


def uninstalled(programs):
    """All that was installed goes, and nothing else does."""
    with installed(*programs) as commands:
        ran([commands / "bfq-step", "--help"], "/", PYTHONDONTWRITEBYTECODE="")
        (commands / "another").write_text("", encoding="ascii")
        folder = commands.parent.parent.parent
        for what in ("once", "twice"):
            yield from compared(f"uninstalled {what}", made("uninstall", folder).returncode, 0)
            yield from compared(f"left after {what}", files_under(commands.parent), {"bin/another"})


def no_place(programs):
    """If a place cannot be written make fails, and `make uninstall` takes away what is there."""
    with tempfile.TemporaryDirectory() as folder:
        which = launcher_of(folder, programs)
        Path(folder, "file").write_text("", encoding="ascii")
        got = made("install", folder, which, "file")
        yield from [] if got.returncode == 2 and "make: ***" in got.stderr else [f"a file for a folder: {got.returncode} {got.stderr!r}"]
        # The pages come last but one, so much is installed by then.
        Path(folder, "dest", PREFIX, "share", "man").mkdir(parents=True)
        Path(folder, "dest", PREFIX, "share", "man", "man5").write_text("", encoding="ascii")
        got = made("install", folder, which)
        yield from [] if got.returncode == 2 and "make: ***" in got.stderr else [f"a file for man5: {got.returncode} {got.stderr!r}"]
        there = Path(folder, "dest", PREFIX)
        yield from [] if (there / "bin/bfqhost").exists() else ["nothing was installed by then, so nothing is tried here"]
        yield from compared("uninstalled", made("uninstall", folder).returncode, 0)
        yield from compared("left", files_under(there), {"share/man/man5"})


def no_program(_):
    """If there are no programs make fails, and writes nothing."""
    with tempfile.TemporaryDirectory() as folder:
        for which in ("false", launcher_of(folder, 2 * ["/nothing"])):
            got = made("install", folder, which)
            yield from [] if got.returncode == 2 else [f"{which}: {got.returncode} {got.stderr!r}"]
            yield from [] if not Path(folder, "dest").exists() else [f"{which}: something is there"]


RUNS_OF_INSTALL = [what_stands_there, commands_run, tools_run, setting, uninstalled, no_place, no_program]


def install_runs(*programs):
    """The name of each run, and what it did in another way than wanted."""
    for run in RUNS_OF_INSTALL:
        name = f"make install: {run.__name__.replace('_', ' ')}"
        try:
            yield name, [*run([os.path.abspath(it) for it in programs])]
        except Skipped as lacking:
            print(f"skipped: {lacking}")
            return
        except (OSError, Wrong, subprocess.SubprocessError) as fault:
            yield name, [str(fault)]
