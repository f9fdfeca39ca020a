"""Which libraries and programs count as proved: those of stand-ins in a folder, with a stand-in for the toolchain, by tests/libraries.py."""

import os
import shutil
import tempfile
from pathlib import Path
from unittest import mock

import checkout
import libraries

LINES = {"low": "low: bytes", "high": "high: low", "bfqhost": "bfqhost: high"}
SOURCES = ["low/src/lib.rt", "low/wrong/low.edit", "high/src/lib.rt", "high/specs/High.antt", "high/proofs/high/Proof.antt", "bfqhost/src/main.rt"]
LOW, HIGH, PROGRAM = "low/out/rlib/low.rlib", "high/out/rlib/high.rlib", "bfqhost/out/bfqhost"
FORMAT = "rattle rlib\nrattle-build this\n"
# Sources were written first, and then each crate was made over those below.
TIMES = {LOW: 2000, HIGH: 2500, PROGRAM: 3000}
# What changes: which file or folder has another time, has gone (None), or has another text. And what is stale then.
CHANGES = [
    ("nothing", "low/src/lib.rt", 1000, []),
    ("a library is missing", LOW, None, ["low", "high"]),
    ("a library has no format", f"{HIGH}/format", None, ["high"]),
    ("a library's format is cut short", f"{HIGH}/format", "rattle rlib\n", ["high"]),
    ("a library is by another toolchain", f"{LOW}/format", FORMAT.replace("this", "another"), ["low", "high"]),
    ("a source is newer", "low/src/lib.rt", 4000, ["low", "high"]),
    ("a definition is newer", "high/specs/High.antt", 4000, ["high"]),
    ("a proof is newer", "high/proofs/high/Proof.antt", 4000, ["high"]),
    ("a proof is gone", "high/proofs/high/Proof.antt", None, ["high"]),
    ("the library below is newer", LOW, 4000, ["high"]),
    ("a wrong body is newer", "low/wrong/low.edit", 4000, []),
]
# The same, and whether a crate counts as proved then.
PROVED = [
    ("nothing", "low/src/lib.rt", 1000, "high", True),
    ("its library is missing", HIGH, None, "high", False),
    ("a source below is newer", "low/src/lib.rt", 4000, "high", False),
    ("nothing, and it is a program", "low/src/lib.rt", 1000, "bfqhost", True),
    ("the program is missing", PROGRAM, None, "bfqhost", False),
    ("the program's source is newer", "bfqhost/src/main.rt", 4000, "bfqhost", False),
    ("the library below the program is newer", HIGH, 3500, "bfqhost", False),
    ("a source below the program's libraries is newer", "low/src/lib.rt", 2200, "bfqhost", False),
]


def laid_out(crates):
    """Makes crates of stand-ins, in which all is proved as it stands."""
    shutil.rmtree(crates, ignore_errors=True)
    for name in [*SOURCES, f"{LOW}/format", f"{HIGH}/format", PROGRAM]:
        path = crates / name
        path.parent.mkdir(parents=True, exist_ok=True)
        path.write_text(FORMAT)
    for path in crates.rglob("*"):
        time = TIMES.get(str(path.relative_to(crates)), 1000)
        os.utime(path, (time, time))


def change(path, to):
    """Gives a file or a folder this time or this text, or takes it away. A library is as old as it was if its text changes."""
    if isinstance(to, int):
        os.utime(path, (to, to))
        return
    time = path.parent.stat().st_mtime
    if to:
        path.write_text(to)
    elif path.is_dir():
        shutil.rmtree(path)
    else:
        path.unlink()
    if path.name == "format":
        os.utime(path.parent, (time, time))


def stale_runs():
    """The name of each run, and what it did in another way than wanted."""
    runs = [(f"stale libraries: {what}", name, to, wanted, lambda: libraries.stale(["bfqhost"], LINES)) for what, name, to, wanted in CHANGES]
    runs += [(f"proved: {what}", name, to, wanted, lambda crate=crate: libraries.is_proved(crate, LINES)) for what, name, to, crate, wanted in PROVED]
    with tempfile.TemporaryDirectory() as folder:
        crates, kit = Path(folder, "crates"), Path(folder, "kit")
        theirs = kit / "rlibs" / "std.rlib" / "format"
        theirs.parent.mkdir(parents=True)
        theirs.write_text(FORMAT)
        with mock.patch.object(checkout, "CRATES", crates), mock.patch.multiple(libraries, CRATES=crates, kit=lambda: kit):
            for what, name, to, wanted, found in runs:
                laid_out(crates)
                change(crates / name, to)
                got = found()
                yield what, [] if got == wanted else [f"{got} and not {wanted}"]
