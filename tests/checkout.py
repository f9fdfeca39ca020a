"""The crates of this checkout, their libraries, and the toolchain's commands over them."""

import re
import shutil
from pathlib import Path

TOP = Path(__file__).resolve().parent.parent
CRATES = TOP / "crates"


def crate_lines():
    """The line of crates.txt for each crate."""
    lines = [line.partition("#")[0].strip() for line in (TOP / "crates.txt").read_text().splitlines()]
    return {re.split(r"[\s:]", line)[0]: line for line in lines if line}


def below(name, lines):
    """The crates that a crate stands on, directly or not, each after those that it stands on itself."""
    found = []
    for word in lines[name].partition(":")[2].split():
        if word in lines:
            found += [it for it in [*below(word, lines), word] if it not in found]
    return found


def sources(name):
    """The files that a crate is made of."""
    return [it for part in ("src", "specs", "proofs") for it in (CRATES / name / part).rglob("*") if it.is_file()]


def texts_of(name):
    """The texts of these files, by their paths in the crate."""
    return {str(it.relative_to(CRATES / name)): it.read_text() for it in sources(name)}


def definitions_below(name, lines):
    """The texts of the definitions of all crates that a crate stands on, by their paths from its folder: ../LOW/specs/FILE."""
    return {f"../{low}/{path}": text for low in below(name, lines) for path, text in texts_of(low).items() if path.startswith("specs/")}


def modules(path):
    """The modules of a file of src/, by its path in the crate."""
    return [it for it in path[len("src/"):-len(".rt")].split("/") if it not in ("lib", "main", "mod")]


def library(name):
    """Where rt ci and tests/build.py leave the library of a crate."""
    return CRATES / name / "out" / "rlib" / f"{name}.rlib"


def kit():
    """The folder of the toolchain, whose command rt is on the path."""
    return Path(shutil.which("rt")).resolve().parents[1]


def command(verb, name, lines, others=None):
    """The words by which rattle checks or builds a crate in the folder where it is run, over this checkout's libraries or these others."""
    at = {it: library(it) for it in lines} | (others or {})
    root = "src/main.rt" if (CRATES / name / "src" / "main.rt").exists() else "src/lib.rt"
    uses, lower = ["std", *lines[name].partition(":")[2].split()], below(name, lines)
    words = [f"{kit()}/bin/rattle", verb, "--crate-name", name, root, "-L", f"dependency={kit()}/rlibs"]
    words += [word for it in uses for word in ("--extern", f"{it}={at[it] if it in lines else f'{kit()}/rlibs/{it}.rlib'}")]
    words += [word for it in lower for word in ("-L", f"dependency={at[it].parent}")]
    return words + ["--antt-project", f"{kit()}/rattle/logic/antt-project.json", "--logic-built", f"{kit()}/logic_built"]
