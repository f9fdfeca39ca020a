#!/usr/bin/env python3
"""The programs of release/: that they are those of this checkout's sources, byte for byte as the gate has built them.

    tests/release.py             compares
    tests/release.py --renew     takes over what `./test` has built last, and writes release/BUILT; and makes web/bfqhost.html anew

release/BUILT has lines of a word and what it tells: `kit`, the toolchain by `rt version`; `crates`, those that the programs are made of;
`sources`, a digest of crates.txt and of the .rt files of these crates; and for each program its SHA-256. The digest is the SHA-256 of the
sorted lines that sha256sum prints for these files, as tests/launch computes it.
"""

import argparse
import hashlib
import shutil
import subprocess
import sys
import tempfile
from pathlib import Path

from checkout import TOP, below, crate_lines
from libraries import PROGRAMS, changed
from page import take_over

RELEASE = TOP / "release"
# What the launcher needs of the system; a system may have neither python3 nor rt.
COMMANDS = ["cat", "cut", "dirname", "echo", "find", "head", "mv", "readlink", "rm", "sh", "sha256sum", "sort", "tail"]
RENEW = "run ./test, and then tests/release.py --renew"


def sum_of(path):
    return hashlib.sha256(path.read_bytes()).hexdigest()


def parts_of(folder):
    """The .rt files of a folder and of those in it, but for hidden ones, which the shell's * leaves out."""
    return [it for it in folder.rglob("*.rt") if it.is_file() and not any(part.startswith(".") for part in it.relative_to(folder).parts)]


def digest(top, crates):
    """One digest of crates.txt and of all sources of these crates, in a checkout."""
    files = [top / "crates.txt", *(it for name in crates for it in parts_of(top / "crates" / name / "src"))]
    lines = sorted(f"{sum_of(it)}  {it.relative_to(top)}\n".encode() for it in files)
    return hashlib.sha256(b"".join(lines)).hexdigest()


def program(release, name):
    """Where release/ has a program."""
    return release / "x86_64-linux" / name


def crates_of_programs():
    """The crates that the programs are made of."""
    lines = crate_lines()
    return sorted({it for name in PROGRAMS for it in [name, *below(name, lines)]})


def text_of(release, kit, crates, sources):
    """What release/BUILT says of the programs that stand there."""
    rows = [("kit", kit), ("crates", " ".join(crates)), ("sources", sources), *((name, sum_of(program(release, name))) for name in PROGRAMS)]
    return "".join(f"{word} {told}\n" for word, told in rows)


def built(release):
    """The lines of release/BUILT."""
    return dict(line.split(" ", 1) for line in (release / "BUILT").read_text().splitlines())


def kit():
    return subprocess.run(["rt", "version"], capture_output=True, text=True, check=True).stdout.strip()


def by_gate(name):
    """The program as the gate builds it by Rattle's own compiler."""
    return TOP / "crates" / name / "out" / f"{name}.by-rattle"


def is_new(name, crates):
    """Whether the gate's program is there, and is newer than what it is made of."""
    return by_gate(name).exists() and by_gate(name).stat().st_mtime > max(map(changed, crates))


def stands(release=RELEASE):
    """What is wrong with a release by itself: its programs and its digest."""
    crates = crates_of_programs()
    try:
        told = built(release)
        if told["crates"].split() != crates or told["sources"] != digest(TOP, crates):
            return [f"the sources are others than those of release/BUILT: {RENEW}"]
        return [f"{name} is not the one that release/BUILT names: {RENEW}" for name in PROGRAMS if sum_of(program(release, name)) != told[name]]
    except (OSError, KeyError, ValueError) as fault:
        return [f"release/ is not whole, {fault!r}: {RENEW}"]


def compared(name):
    """What is wrong with a program of release/ beside the gate's, or None if they could not be compared, which is told."""
    if built(RELEASE)["kit"] != (here := kit()):
        print(f"skipped: release/ is of {built(RELEASE)['kit']}, and here is {here}: {name} could not be compared")
        return None
    if not is_new(name, crates_of_programs()):
        return [f"there is no new {by_gate(name).relative_to(TOP)} to compare with: run ./test"]
    same = by_gate(name).read_bytes() == program(RELEASE, name).read_bytes()
    return [] if same else [f"what was built of {name} is another program than that of release/: {RENEW}"]


def spoilt(release):
    """What is told of a copy of release/ in which a file has another byte, is cut short or is gone: something must be, each time."""
    for path in [release / "BUILT", *(program(release, name) for name in PROGRAMS)]:
        whole = path.read_bytes()
        half = len(whole) // 2
        another = whole[:half] + bytes([whole[half] ^ 1]) + whole[half + 1:]
        for what, left in [("has another byte", another), ("is cut short", whole[:half]), ("is gone", None)]:
            path.unlink() if left is None else path.write_bytes(left)
            yield f"{path.name} {what}", [] if stands(release) else ["nothing is told"]
        path.write_bytes(whole)
    yield "all is as it was", stands(release)


def fresh(folder):
    """What README's first command prints in a checkout on a system with neither Python nor the toolchain, where nothing was built."""
    for name in ["bfqhost", "crates.txt", "tests/launch", "examples/first-undo.script"]:
        (folder / name).parent.mkdir(exist_ok=True)
        shutil.copy(TOP / name, folder / name)
    for name in crates_of_programs():
        shutil.copytree(TOP / "crates" / name / "src", folder / "crates" / name / "src")
    shutil.copytree(RELEASE, folder / "release", ignore=shutil.ignore_patterns(".*"))
    (folder / "commands").mkdir()
    for name in COMMANDS:
        (folder / "commands" / name).symlink_to(shutil.which(name))
    words = ["sh", "-c", "./bfqhost sim --scheduler none < examples/first-undo.script"]
    ran = subprocess.run(words, cwd=folder, env={"PATH": str(folder / "commands")}, capture_output=True, timeout=60, check=False)
    wanted = (TOP / "examples" / "first-undo.expected").read_bytes()
    return [] if (ran.stdout, ran.stderr, ran.returncode) == (wanted, b"", 0) else [f"{ran} and not {wanted}"]


def release_runs(is_gate):
    """Whether release/ is whole, and after the gate whether it has the programs that were built there."""
    faults = stands()
    yield "release/ is of these sources", faults
    if not faults:
        with tempfile.TemporaryDirectory(prefix="bfq-") as folder:
            yield "release/ runs on a bare system", fresh(Path(folder))
            for name, found in spoilt(Path(folder) / "release"):
                yield f"release/ where {name}", found
    for name in PROGRAMS if is_gate and not faults else ():
        if (found := compared(name)) is not None:
            yield f"release/ has {name} as the gate has built it", found


def renew():
    """Takes over the programs that the gate has built last, and writes release/BUILT."""
    crates = crates_of_programs()
    if old := [name for name in PROGRAMS if not is_new(name, crates)]:
        return f"tests/release.py: there is no new {' and no '.join(str(by_gate(it).relative_to(TOP)) for it in old)}: run ./test first"
    program(RELEASE, PROGRAMS[0]).parent.mkdir(parents=True, exist_ok=True)
    for name in PROGRAMS:
        shutil.copyfile(by_gate(name), program(RELEASE, name))
        program(RELEASE, name).chmod(0o755)
    (RELEASE / "BUILT").write_text(text_of(RELEASE, kit(), crates, digest(TOP, crates)))
    return f"tests/release.py: {fault}" if (fault := take_over()) else None


def main():
    words = argparse.ArgumentParser(description=__doc__, formatter_class=argparse.RawDescriptionHelpFormatter)
    words.add_argument("--renew", action="store_true")
    if words.parse_args().renew:
        return renew()
    faults = [f"{name}: {it}" for name, found in release_runs(True) for it in found]
    print("\n".join(faults) if faults else "release/ has the programs of these sources")
    return min(len(faults), 1)


if __name__ == "__main__":
    sys.exit(main())
