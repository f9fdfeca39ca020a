#!/usr/bin/env python3
"""The figures of README: a table between two marks, counted from the files of the repository. No figure in it is typed by hand.

    tests/figures.py           tells what is otherwise in README, with status 1 if anything is
    tests/figures.py --write   renews the table

README must also stay a page that is read in some minutes: it has so many lines, wrapped at so many columns, and so many words at most.
"""

import argparse
import re
import sys
from pathlib import Path

TOP = Path(__file__).resolve().parent.parent
README = TOP / "README.md"
BEGIN = "<!-- figures: tests/figures.py --write makes this table -->\n"
END = "<!-- end of figures -->\n"
MOST_LINES, COLUMNS, MOST_WORDS = 130, 120, 2000
# Crates that test or measure the others, and are in neither program.
OF_TESTS = re.compile(r".*_(tests|bench)|failing_io|refused_growth")
# What begins a contract, or what only the prover reads; it goes on to the end of its last brace.
CLAUSE = re.compile(r"(pub )?(requires|ensures|ghost)\b")
COMMENTS = {".rt": "//", ".antt": "--", ".py": "#"}
KIT = re.compile(r"rattle-kit-\S+ logic \S+")
# A row of a table of docs/TESTING.md on runs: the commit, and the last cell, with minutes by the clock and of processor time.
RUN = re.compile(r"(?m)^\| [0-9a-f]{7} \|(.*)\| (\d+\.\d), \d+\.\d \|$")


def written(folder, suffix):
    """The lines of the files below a folder that are neither empty nor a comment."""
    mark = COMMENTS[suffix]
    for path in sorted(folder.rglob(f"*{suffix}")):
        for line in path.read_text(encoding="utf-8").splitlines():
            if line.strip() and not line.strip().startswith(mark):
                yield line.strip()


def code_and_contracts(crate):
    """How many lines of a crate are code, how many are contracts, and how many clauses these have."""
    code = contracts = clauses = depth = 0
    for line in written(crate / "src", ".rt"):
        begins = depth == 0 and CLAUSE.match(line)
        if not begins and depth == 0:
            code += 1
            continue
        contracts += 1
        clauses += bool(begins and begins[2] != "ghost")
        depth = max(0, depth + line.count("{") - line.count("}"))
    return code, contracts, clauses


def trusted():
    """The toolchain's line as the last proofs have it, the libraries that are not of this repository, and the handles."""
    lines = [line.partition(": ") for line in (TOP / "crates.txt").read_text().splitlines() if not line.startswith("#")]
    own = {name.split()[0].rstrip(":") for name, _, _ in lines}
    libraries = sorted({it for _, _, below in lines for it in below.split()} - own)
    kits = sorted({*KIT.findall((TOP / "tests" / "wrong_bodies.seen").read_text())})
    handles = (TOP / "HANDLES").read_text().strip().partition(": ")[2].rstrip(".")
    return kits, libraries, handles


def minutes(part):
    """The least and the greatest time by the clock in a table of docs/TESTING.md, whole minutes, which follows a text."""
    text = (TOP / "docs" / "TESTING.md").read_text(encoding="utf-8")
    found = [round(float(minutes)) for _, minutes in RUN.findall(text[text.index(part):].split("\n\n")[1])]
    return f"{min(found)} to {max(found)}"


def sums(crates):
    """Lines of code and of contracts, and clauses, of these crates."""
    return [sum(column) for column in zip(*map(code_and_contracts, crates))]


def lines_of(crates, folder):
    """How many lines the definitions or the proofs of these crates have."""
    return sum(len([*written(crate / folder, ".antt")]) for crate in crates)


def listed(names):
    """Names as code, with commas between them."""
    return ", ".join(f"`{it}`" for it in names)


def table():
    """The rows of the table, as README has them."""
    crates = sorted(path for path in (TOP / "crates").iterdir() if (path / "src").is_dir())
    tests = [crate for crate in crates if OF_TESTS.fullmatch(crate.name)]
    others = [crate for crate in crates if crate not in tests]
    code, contracts, clauses = sums(others)
    test_lines = sum(sums(tests)[:2])
    python = len([*written(TOP / "tests", ".py")])
    wrong = len([*(TOP / "crates").glob("*/wrong/*.edit"), *(TOP / "crates").glob("*/must-fail/*.edit")])
    kits, libraries, handles = trusted()
    rows = [
        ("code", f"{code:,} lines in {len(others)} crates"),
        ("contracts", f"{clauses:,} clauses, with what else only the prover reads {contracts:,} lines"),
        ("definitions", f"{lines_of(crates, 'specs'):,} lines, all of `specs/`"),
        ("proofs", f"{lines_of(crates, 'proofs'):,} lines"),
        ("tests", f"{test_lines:,} lines in {len(tests)} more crates, {python:,} of Python"),
        ("wrong bodies", f"{wrong:,}, which the prover must refuse"),
        ("trusted", f"`rt version`: {listed(kits)}; {listed(['std', *libraries])}; {handles}"),
        ("a build of your own", f"{minutes('First builds')} minutes on 4 cores"),
    ]
    return "| what | how much |\n|---|---|\n" + "".join(f"| {what} | {how} |\n" for what, how in rows)


def parts():
    """README before the table, the table as it stands, and README after it."""
    before, begin, rest = README.read_text(encoding="utf-8").partition(BEGIN)
    found, end, after = rest.partition(END)
    if not (begin and end):
        raise ValueError(f"README.md lacks {BEGIN.strip()} or {END.strip()}")
    return before + begin, found, end + after


def faults():
    """What is otherwise in README than it must be."""
    _, found, _ = parts()
    wanted = table()
    for row in sorted({*found.splitlines()} ^ {*wanted.splitlines()}):
        yield f"README.md {'has' if row in found.splitlines() else 'lacks'} the row {row!r}; tests/figures.py --write renews it"
    if not found:
        yield "README.md has no table of figures"
    text = README.read_text(encoding="utf-8")
    # A row of a table cannot be wrapped in its file, and counts as it would be shown.
    lines = sum(max(1, -(-len(line) // COLUMNS)) for line in text.splitlines())
    if lines > MOST_LINES:
        yield f"README.md has {lines} lines of at most {COLUMNS} columns, and may have {MOST_LINES}"
    if (words := len(text.split())) >= MOST_WORDS:
        yield f"README.md has {words} words, and may have fewer than {MOST_WORDS}"


def main():
    words = argparse.ArgumentParser(description=__doc__, formatter_class=argparse.RawDescriptionHelpFormatter)
    words.add_argument("--write", action="store_true", help="renew the table")
    if words.parse_args().write:
        before, _, after = parts()
        README.write_text(before + table() + after, encoding="utf-8")
    told = [*faults()]
    print("".join(f"{fault}\n" for fault in told), end="", file=sys.stderr)
    return 1 if told else 0


if __name__ == "__main__":
    sys.exit(main())
