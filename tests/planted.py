#!/usr/bin/env python3
"""Wrong bodies that no contract refuses, planted one by one: a test must fail with each, and pass without it.

    tests/planted.py [NAME..]    plants all, or those with these names; status 1 if the test of one does not fail

A file of tests/wrong/ is an edit, as those of crates/*/wrong are, with paths from the top of the checkout. Before it stand these lines.

    a sentence: what the body does
    makes: CRATE          the program that is made of the copy: a program of this repository, or that of a crate's tests
    fails: PART: TEXT     of a program the first case of this part of ./test whose name has this text
    fails: TEST           of a crate of tests this one of them, with or without its module
    fails: ROW            of refused_growth the row of tests/refused.py whose name begins so
    fails: making: TEXT   no program is made, and what is said has this text

Each is planted in a copy of crates/, of which a program is made without a proof (tests/unproved.py). What is to fail must pass with a
program that was made in the same way with no edit.
"""

import argparse
import contextlib
import io
import os
import re
import shutil
import subprocess
import sys
import tempfile
from concurrent.futures import ThreadPoolExecutor, as_completed
from importlib.machinery import SourceFileLoader
from importlib.util import module_from_spec, spec_from_loader
from pathlib import Path
from typing import NamedTuple

import refused
from benches import builds
from checkout import CRATES, TOP, crate_lines
from libraries import lanes
from shims import NoShim, shim_in
from twins import read_edit
from unproved import NotMade, make

FOLDER = TOP / "tests" / "wrong"
# How long a test of a crate may take; rt ci ends it then, too.
SECONDS = 60
# What the making of a program takes, in gigabytes.
GIGABYTES = 2
MAKING, GROWTH = "making", "refused_growth"
# Seconds under load, for parts that ask.
SOAK = 1


class Planted(NamedTuple):
    """A wrong body: its name, its text, which program is made, and what must fail."""

    name: str
    text: str
    makes: str
    fails: str


class Tools(NamedTuple):
    """What a trial needs: the parts of ./test, what names the programs to them, and the shim that refuses memory, or why there is none."""

    parts: dict
    built: type
    shim: object


def planted():
    """All wrong bodies of the folder. Raises ValueError if one does not say what it is to."""
    for path in sorted(FOLDER.glob("*.edit")):
        text = path.read_text(encoding="utf-8")
        makes, fails = (re.findall(rf"^{word}: (.+)$", text, re.M) for word in ("makes", "fails"))
        if len(makes) != 1 or len(fails) != 1:
            raise ValueError(f"{path.name} does not say once what is made, and once what fails")
        yield Planted(path.stem, text, makes[0], fails[0])


def sources():
    """The texts of the code of all crates, by their paths from the top of the checkout."""
    return {str(it.relative_to(TOP)): it.read_text(encoding="utf-8") for it in CRATES.glob("*/src/**/*.rt")}


def edited(one, texts):
    """The texts that change with a wrong body. Raises ValueError if it does not fit the code."""
    changed = {}
    for (path, at), line in read_edit(one.name, one.text, texts).lines.items():
        changed.setdefault(path, texts[path].split("\n"))[at] = line
    return {path: "\n".join(lines) for path, lines in changed.items()}


def fitting():
    """What is wrong with the edits, before any is planted. Each is told in docs/PROOF.md."""
    lines, texts = crate_lines(), sources()
    told = (TOP / "docs" / "PROOF.md").read_text(encoding="utf-8")
    told = told.partition("## Bodies planted for tests")[2].partition("## ")[0]
    try:
        for one in planted():
            if f"`{one.name}`" not in told:
                yield f"{one.name}: docs/PROOF.md does not name it among those that are planted"
            if one.makes not in lines:
                yield f"{one.name}: there is no crate {one.makes}"
            try:
                edited(one, texts)
            except ValueError as why:
                yield str(why)
    except ValueError as why:
        yield str(why)


def is_tests(name):
    """Whether a crate is one of tests."""
    return name.endswith("_tests")


def made(folder, name, makes, changed):
    """The program that is made of a copy of the crates with these texts, or what was said if there is none."""
    with tempfile.TemporaryDirectory(prefix="bfq-planted-") as place:
        copy, path = Path(place), Path(folder, name)
        for crate in crate_lines():
            for part in ("src", "specs"):
                if (CRATES / crate / part).exists():
                    shutil.copytree(CRATES / crate / part, copy / "crates" / crate / part)
        for changed_path, text in changed.items():
            (copy / changed_path).write_text(text, encoding="utf-8")
        try:
            make(makes, crate_lines(), copy / "crates", path, is_tests(makes))
        except NotMade as why:
            return why
        return path


def of_part(tools, program, makes, part, text):
    """The faults of the first case of a part whose name has a text."""
    # The other program is the one that ./test has.
    both = [str(program) if name == makes else builds(name)[0][0] for name in ("bfqhost", "bfqctl")]
    # What a part says of what it skips was said when it ran.
    with contextlib.redirect_stdout(io.StringIO()), contextlib.closing(tools.parts[part](tools.built(*both, SOAK))) as cases:
        return next((faults for name, faults in cases if text in name), None)


def of_test(program, name):
    """The faults of the test of a crate with this name, before which its module may be left out."""
    listed = subprocess.run([program, "--list"], stdin=subprocess.DEVNULL, capture_output=True, text=True, timeout=SECONDS, check=False)
    whole = next((it for it in re.findall(r"(?m)^(\S+): test$", listed.stdout) if f"::{it}".endswith(f"::{name}")), None)
    if whole is None:
        return None
    with tempfile.TemporaryDirectory(prefix="bfq-") as folder, tempfile.TemporaryFile() as said:
        with subprocess.Popen([program, whole], cwd=folder, stdin=subprocess.DEVNULL, stdout=said, stderr=said) as ran:
            with contextlib.suppress(subprocess.TimeoutExpired):
                ran.wait(SECONDS)
            ended = ran.poll()
            ran.kill()
        # A test that fails leaves its sockets.
        shutil.rmtree(f"/tmp/bfq-server-{ran.pid}", ignore_errors=True)
        said.seek(0)
        text = " ".join(said.read().decode(errors="replace").split())[-200:]
    return [] if ended == 0 else [f"no end within {SECONDS} seconds" if ended is None else f"status {ended}: {text}"]


def of_row(tools, program, name):
    """The faults of a row of calls under refused memory."""
    row = next((row for row in refused.rows() if row.name.startswith(name)), None)
    if row is None:
        return None
    told = {mode: refused.Told() for mode in (refused.ONCE, refused.ALWAYS)}
    with ThreadPoolExecutor(len(os.sched_getaffinity(0))) as pool:
        return refused.refuse_all(refused.Program(program, tools.shim), row, pool, told)


def faults_of(tools, program, one):
    """The faults of what is to fail with a wrong body, by this program. None if there is no such case, or no program."""
    part, _, text = one.fails.partition(": ")
    if part == MAKING:
        return [str(program)] if isinstance(program, NotMade) and text in str(program) else []
    if isinstance(program, NotMade):
        return None
    if text:
        return of_part(tools, program, one.makes, part, text)
    return of_row(tools, program, one.fails) if one.makes == GROWTH else of_test(program, one.fails)


def judged(tools, one, program, without):
    """What is wrong with a wrong body's trial, by its program and that without an edit."""
    if isinstance(without, NotMade):
        return [f"no program without it: {without}"]
    try:
        before, found = faults_of(tools, without, one), faults_of(tools, program, one)
    except (OSError, subprocess.SubprocessError, NoShim) as fault:
        return [f"not tried: {fault}"]
    if before:
        return [f"without it {one.fails} fails, too: {before[0]}"]
    if found:
        print(f"refused: wrong/{one.name}: {one.fails}: {' '.join(found[0].split())[:240]}", flush=True)
        return []
    if found is None:
        return [f"no program: {program}" if isinstance(program, NotMade) else f"nothing is called {one.fails}"]
    return [f"{one.fails} passes"]


def trials(tools, everything, folder):
    """Makes all programs, and tries what is to fail by each. Gives the name of each trial, and what is wrong with it."""
    texts = sources()
    with ThreadPoolExecutor(lanes(0, GIGABYTES)) as pool:
        plain = {name: pool.submit(made, folder, f"{name}.plain", name, {}) for name in dict.fromkeys(one.makes for one in everything)}
        runs = {pool.submit(made, folder, one.name, one.makes, edited(one, texts)): one for one in everything}
        for ran in as_completed(runs):
            one, program = runs[ran], ran.result()
            yield f"wrong/{one.name}", judged(tools, one, program, plain[one.makes].result())
            if not isinstance(program, NotMade):
                program.unlink()


def planted_runs(parts, built, only=()):
    """The trials, of all wrong bodies or of those with these names. They are skipped if nothing can be made here."""
    if not shutil.which("rt"):
        print("skipped: planted bodies: there is no toolchain")
        return
    everything = [one for one in planted() if not only or one.name in only]
    with tempfile.TemporaryDirectory(prefix="bfq-") as folder:
        try:
            shim = shim_in(folder, "refuse_nth")
        except NoShim as why:
            shim, everything = None, [one for one in everything if one.makes != GROWTH and not one.fails.startswith("failing-reads")]
            print(f"skipped: bodies planted under a shim: {why}")
        yield from trials(Tools(parts, built, shim), everything, folder)


def main():
    words = argparse.ArgumentParser(description=__doc__, formatter_class=argparse.RawDescriptionHelpFormatter)
    words.add_argument("named", nargs="*", metavar="NAME", choices=[[], *(one.name for one in planted())])
    named = words.parse_args().named
    # The parts are those of ./test, which is no module by its name.
    sys.dont_write_bytecode = True
    loader = SourceFileLoader("parts", str(TOP / "test"))
    parts = module_from_spec(spec_from_loader("parts", loader))
    loader.exec_module(parts)
    failed = 0
    for name, faults in planted_runs(parts.OF_PROGRAMS, parts.Built, named):
        failed += bool(faults)
        print("".join(f"failed: {name}: {fault}\n" for fault in faults), end="", flush=True)
    return min(failed, 1)


if __name__ == "__main__":
    sys.exit(main())
