#!/usr/bin/env python3
"""Shows how the clauses of public functions, and the definitions, differ from those of an earlier commit.

    tests/public_clauses.py COMMIT CRATE..

Of each crate it compares the head of each public function (its name, types, `requires` and `ensures`) that lib.rt has or shows again, or
that is a method of such a type, and the files of specs/. What is new is listed, what is gone or changed is shown as a difference. The
status is 1 if anything is gone or changed.
"""

import difflib
import re
import subprocess
import sys
from pathlib import Path

TOP = Path(__file__).resolve().parent.parent
CLAUSE = re.compile(r"\s*(requires|ensures)\b")


def files_then(commit, folder):
    """The files under a folder at a commit, by their paths."""
    words = ["git", "-C", str(TOP), "ls-tree", "-r", "--name-only", commit, "--", f"{folder}/"]
    names = subprocess.run(words, capture_output=True, text=True, check=True).stdout.split()
    shown = lambda it: subprocess.run(["git", "-C", str(TOP), "show", f"{commit}:{it}"], capture_output=True, text=True, check=True).stdout
    return {it: shown(it) for it in names}


def files_now(folder):
    """The files under a folder as they stand, by their paths."""
    return {str(it.relative_to(TOP)): it.read_text() for it in sorted((TOP / folder).rglob("*")) if it.is_file()}


def public_heads(files):
    """The heads of the public functions of a crate, by their names, over the texts of its source files."""
    # A crate that was not there yet has none.
    lib = next((text for it, text in files.items() if it.endswith("/src/lib.rt")), "")
    shown = {*re.findall(r"^pub (?:struct|enum|trait) (\w+)", lib, re.M), *re.findall(r"\w+", " ".join(re.findall(r"^pub use ([^;]*);", lib, re.M)))}
    heads = {}
    for path, text in files.items():
        at_top, owner, lines = path.endswith("/src/lib.rt"), "", text.split("\n")
        for at, line in enumerate(lines):
            if found := re.match(r"impl(?:<.*?>)? (\w+)", line):
                owner = found[1]
            elif line == "}":
                owner = ""
            if not (found := re.match(r"\s*pub fn (\w+)", line)):
                continue
            end = next(it for it in range(at, len(lines)) if re.search(r"(^|\s)\{(.*\})?$", lines[it]) and not CLAUSE.match(lines[it]))
            if at_top or (owner or found[1]) in shown:
                heads[f"{owner}::{found[1]}".strip(":")] = "\n".join(lines[at:end + 1])
    return heads


def differences(what, then, now):
    """Prints what is new, and what is gone or changed. Gives how many of the second kind there are."""
    print("".join(f"new: {what} {it}\n" for it in now if it not in then), end="")
    # A file that names the others may have more lines.
    worse = [it for it in then if now.get(it) != then[it] and not (it.endswith("/Lib.antt") and {*then[it].split("\n")} <= {*now.get(it, "").split("\n")})]
    for it in worse:
        print(f"gone or changed: {what} {it}")
        print("\n".join(difflib.unified_diff(then[it].split("\n"), now.get(it, "").split("\n"), lineterm="", n=1)))
    print(f"{what}: {len(then) - len(worse)} the same, {len(worse)} gone or changed")
    return len(worse)


def main():
    if len(sys.argv) < 3:
        sys.exit(__doc__)
    worse = 0
    for name in sys.argv[2:]:
        src, specs = f"crates/{name}/src", f"crates/{name}/specs"
        worse += differences(f"{name}, heads of public functions", public_heads(files_then(sys.argv[1], src)), public_heads(files_now(src)))
        worse += differences(f"{name}, definitions", files_then(sys.argv[1], specs), files_now(specs))
    sys.exit(min(worse, 1))


if __name__ == "__main__":
    main()
