#!/usr/bin/env python3
"""Tries wrong bodies, the files crates/NAME/wrong/*.edit: the prover must refuse each.

    tests/wrong_bodies.py [--all] [CRATE..]

Tried are those of the crates that are named, or of each that is not as tests/wrong_bodies.seen has it and of the one whose line is
oldest there, or with --all of every crate. A crate whose wrong bodies were all refused gets a line: how many, when, a hash, the kit.
"""

import argparse
import contextlib
import hashlib
import shutil
import subprocess
import sys
import tempfile
import time
from concurrent.futures import ThreadPoolExecutor, as_completed
from itertools import groupby, zip_longest
from pathlib import Path

from checkout import CRATES, TOP, below, command, crate_lines, definitions_below, texts_of
from libraries import is_proved, lanes, run
from twins import NOT_REFUSED, Crate, has_twin, holes, read_edit

SEEN = TOP / "tests" / "wrong_bodies.seen"


def hashes(lines):
    """For each crate a hash of what is read: its files and those below it as they stand, their lines of crates.txt, and these scripts."""
    paths = [TOP / "HANDLES", *(TOP / "tests" / name for name in ("wrong_bodies.py", "twins.py", "libraries.py", "checkout.py"))]
    paths += sorted(it for it in CRATES.rglob("*") if it.is_file() and it.relative_to(CRATES).parts[1] != "out")
    words, names = ["git", "hash-object", "--no-filters", "--stdin-paths"], "\n".join(map(str, paths))
    sums = subprocess.run(words, input=names, capture_output=True, text=True, check=True).stdout.split()
    rows = [f"{path.relative_to(TOP)} {row}" for path, row in zip(paths, sums)]
    parts = {it: [*below(it, lines), it] for it in lines}
    read = {name: [row for row in rows if row.startswith(("HANDLES", "tests/", *(f"crates/{it}/" for it in its)))] for name, its in parts.items()}
    return {name: hashlib.sha256("\n".join([*read[name], *map(lines.get, its)]).encode()).hexdigest() for name, its in parts.items()}


def wrong_bodies(name):
    """The names and texts of a crate's wrong bodies, those of one file together."""
    return sorted(((it.stem, it.read_text()) for it in (CRATES / name / "wrong").glob("*.edit")), key=lambda it: it[1])


def lows_of(edit):
    """The crates below whose definitions an edit changes."""
    return {path.split("/")[1] for path, _ in edit.lines if path.startswith("../")}


def made_anew(name, lows, changed, lines, folder):
    """Makes anew the crates below from some of them up, with these texts. Gives the words of a check over them, or what is wrong."""
    made = {}
    for low in [it for it in below(name, lines) if lows & {it, *below(it, lines)}]:
        # The folder is that of the edit before, so a check finds there what has not changed since.
        here, made[low] = Path(folder) / "below" / low, Path(folder) / "made" / low / f"{low}.rlib"
        for path, text in texts_of(low).items():
            (here / path).parent.mkdir(parents=True, exist_ok=True)
            (here / path).write_text(changed.get(f"../{low}/{path}", text))
        shutil.rmtree(made[low].parent, ignore_errors=True)
        made[low].parent.mkdir(parents=True)
        status, said = run([*command("build", low, lines, made), "--jobs", "1", "--incremental", "kept", "-o", made[low]], here)
        if status:
            return None, f"bad edit: {low} is not proved with it: {said.splitlines()[-1:]}"
    return command("check", name, lines, made), ""


def by_definition(crate, name, edits, lines, folder):
    """Tries wrong definitions of crates below. Gives for each edit whether it is refused, and its goal or what is wrong."""
    texts = definitions_below(name, lines)
    # With no change the crate must be proved over what was made anew, or else what is refused shows nothing.
    words, why = made_anew(name, {low for edit in edits for low in lows_of(edit)}, {}, lines, folder)
    control = crate.over(words) if words else (True, why)
    if control != (False, NOT_REFUSED):
        yield from ((edit, False, f"not tried, as with no change: {control[1]}") for edit in edits)
        return
    for edit in edits:
        changed = {path: "\n".join(edit.lines.get((path, at), it) for at, it in enumerate(texts[path].split("\n"))) for path, _ in edit.lines}
        words, why = made_anew(name, lows_of(edit), changed, lines, folder)
        yield edit, *(crate.over(words) if words else (False, why))


def trial(name, bodies, lines, keeps_on):
    """Tries wrong bodies of a crate. Gives those refused and those that failed, each with the reason; what is in neither waits."""
    refused, failed, edits = {}, {}, []
    with contextlib.suppress(TimeoutError), tempfile.TemporaryDirectory(prefix="wrong-bodies-") as folder:
        # The functions of a crate that is proved as it is stand by their contracts. Another is proved with the twins beside it.
        crate = Crate(texts := texts_of(name), Path(folder) / name, command("check", name, lines), keeps_on, holes(name, texts) if is_proved(name, lines) else {})
        for it, text in bodies.items():
            try:
                edits.append(read_edit(it, text, texts | definitions_below(name, lines)))
            except ValueError as why:
                failed[it] = f"bad edit: {why}"
        found = crate.together(twins := [it for it in edits if has_twin(it, texts)])
        if found is None and crate.check({})[0] != 0:
            return {}, {it: "not tried, as the crate is not proved without it" for it in bodies}
        refused.update(crate.in_halves(twins) if found is None else found)
        whose = lambda it: str(it.functions)
        of_methods = sorted((it for it in edits if len(it.functions) == 1 and all(of and of.trait is not None for of in it.functions)), key=whose)
        for some in zip_longest(*([*its] for _, its in groupby(of_methods, whose))):
            refused.update(crate.in_place([*filter(None, some)]))
        of_lows = [it for it in edits if lows_of(it)]
        for edit in [it for it in edits if it.name not in refused and it not in of_lows]:
            is_refused, told = crate.alone(edit)
            (refused if is_refused else failed)[edit.name] = told
        for edit, is_refused, told in by_definition(crate, name, of_lows, lines, folder) if of_lows else ():
            (refused if is_refused else failed)[edit.name] = told
    return refused, failed


def try_all(named=(), every=False, deadline=float("inf")):
    """Tries wrong bodies, and says of which it has not. Gives how many were refused, and what was told of each that failed."""
    lines, kit = crate_lines(), subprocess.run(["rt", "version"], capture_output=True, text=True, check=True).stdout.strip()
    now, bodies, goes_on = hashes(lines), {it: found for it in lines if (found := wrong_bodies(it))}, [True]
    rows = dict((it.split(" ", 1)[0], it.split(" ", 4)[1:]) for it in (SEEN.read_text().splitlines() if SEEN.exists() else []))
    as_seen = {it: row for it, row in rows.items() if it in bodies and row[2:] == [now[it], kit] and not every}
    # Those that are not as they were seen, the longest trials first, and then the one that was seen first.
    # A definition of a crate below takes as long as ten bodies in their twins.
    cost = lambda it: sum(10 if "file: ../" in text else 1 for _, text in bodies[it]) + len(below(it, lines))
    others = sorted(bodies.keys() - as_seen.keys(), key=lambda it: -cost(it))
    names = named or others + sorted(as_seen, key=lambda it: as_seen[it][1])[:1]
    tried = {it: ({}, {}) for it in names}
    if time.time() < deadline and (parts := {low for it in names for low in [*below(it, lines), it]}):
        subprocess.run([sys.executable, TOP / "tests" / "build.py", *parts], check=False)
    with ThreadPoolExecutor(lanes()) as pool:
        try:
            runs = {pool.submit(trial, it, dict(bodies[it]), lines, lambda: goes_on[0] and time.time() < deadline): it for it in names}
            for ran in as_completed(runs):
                results = tried[runs[ran]] = ({}, {"some of them": f"not tried: {ran.exception()!r}"}) if ran.exception() else ran.result()
                for word, found in zip(("refused", "failed"), results):
                    print("".join(f"{word}: {runs[ran]}/{it}: {why}\n" for it, why in found.items()), end="", flush=True)
        finally:
            goes_on[0] = False
    after = hashes(lines)
    for it, (refused, failed) in tried.items():
        if failed:
            rows.pop(it, None)
        elif len(refused) == len(bodies[it]) and now[it] == after[it]:  # nothing changed meanwhile
            rows[it] = [str(len(refused)), time.strftime("%Y-%m-%d"), now[it], kit]
    SEEN.write_text("".join(" ".join([it, *rows[it]]) + "\n" for it in sorted(bodies.keys() & rows.keys())))
    unseen = 0 if named else sum(len(bodies[it]) for it in bodies.keys() - names)
    waiting = sum(len(bodies[it]) - len(refused) - len(failed) for it, (refused, failed) in tried.items())
    print(f"{unseen} wrong bodies not tried: seen before\n" * bool(unseen) + f"{waiting} wrong bodies wait\n" * bool(waiting), end="")
    return sum(len(it[0]) for it in tried.values()), [f"failed: {name}/{it}: {why}" for name in tried for it, why in tried[name][1].items()]


def main():
    words = argparse.ArgumentParser(description=__doc__, formatter_class=argparse.RawDescriptionHelpFormatter)
    words.add_argument("--all", action="store_true", dest="every")
    words.add_argument("named", nargs="*", metavar="CRATE", choices=[[], *filter(wrong_bodies, crate_lines())])
    refused, failed = try_all(**vars(words.parse_args()))
    print(f"{refused} refused, {len(failed)} failed")
    return min(len(failed), 1)


if __name__ == "__main__":
    sys.exit(main())
