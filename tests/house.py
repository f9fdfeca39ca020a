#!/usr/bin/env python3
"""The house of what is believed: all that the headline rests on stands in one crate, and each definition there tells where it comes from.

    tests/house.py    lists the definitions under crates/plain/specs/Headline.antt, and what is wrong; status 1 if anything is

Under the headline are the definitions that it names, those that these name, and so on. Each must stand in crates/plain, or be a type of
crates/plain or crates/sector_core, or a word of the toolchain's library. So no file of the house may take a name from elsewhere, and none
may have a definition that is not `pub`, which this script would not see. A name is looked up by the `use` lines of its file, as the prover
does it; a name that a file both binds and could mean as a definition counts as one, so no definition is left out.

A definition, also a field of a record of the machine, has a sentence and an origin in the comment right above it. An origin is one of
ORIGINS, in round brackets, or first in the comment with a colon behind it.
"""

import re
import sys
from pathlib import Path
from typing import NamedTuple

from checkout import CRATES, below, crate_lines

HOUSE = CRATES / "plain" / "specs"
HEADLINE = ("MayCall", "MayRun", "replay")
# Whose types the definitions may speak of.
TYPES_OF = ("plain", "sector_core")
ORIGINS = ("blk-mq", "bfq", "B-WF2Q+", "our profile")
WITH_FIELDS = {"WholeRequest", "Flight", "Bfq", "Plain", "Limits", "State", "Service", "Classes"}
# Fewer words than these are a name and no sentence.
LEAST_WORDS = 3

# Crates that need definitions alone stand on no table, so that none of them is proved anew when a table changes.
ABOVE_DEFINITIONS = ("plain_laws", "bfq_laws", "host_calls", "session_proto", "operator_asking", "operator_words", "host_core", "host_paths",
                     "host_console", "device_engine", "bfqctl", "asking_tests")
TABLES = {"overlay", "request_pool", "tag_set", "process_queue", "soft_queue", "service_tree", "class_trees", "group_tree", "change_record",
          "bfq_select", "dispatch_core", "history"}

DEFINITION = re.compile(r"(?:(?:abbrev|unfoldable) pub|pub record) ([^\s:]+)|pub ([^\s:]+) :")
FIELD = re.compile(r"  pub (\S+) :")
# What begins a definition that no other file sees. Laws on numbers have lemmas of their own.
PRIVATE = re.compile(r"(?:abbrev|unfoldable) (?!pub )|record |[^\s:()-][^\s:()]* :")
WITH_LEMMAS = {Path("NumberLaws.antt")}
USE = re.compile(r"use Rattle\.([\w.]+?)\.(specs|proofs)\.([\w.]+?)(?:\.\{(.*)\}| as (\w+))")
NAME = re.compile(r"[\w-]+(?:\.[\w-]+)*", re.ASCII)
IN_BRACKETS = re.compile(r"\([^()]*\)")
# An origin is a word of its own: `bfq` is none in `is_bfq` and in `bfq-iosched`.
ORIGIN = re.compile("|".join(rf"(?<![\w-]){re.escape(word)}(?![\w-])" for word in ORIGINS))
FIRST = re.compile(rf"(?:{ORIGIN.pattern}):")


class Definition(NamedTuple):
    """A definition: its file, its line, its name, the comment right above it, and its own lines without comments."""
    path: Path
    line: int
    name: str
    comment: str
    lines: tuple[str, ...]

    def __str__(self):
        return f"{self.path}:{self.line}: {self.name}"


def comment_above(lines, at):
    """The comment lines right above a line, as one text."""
    first = at
    while first > 0 and lines[first - 1].lstrip().startswith("--"):
        first -= 1
    return " ".join(line.strip().removeprefix("--").strip() for line in lines[first:at])


def definitions(path, text):
    """The definitions of a file of specs/, those of fields behind their record's."""
    lines, found, record = text.split("\n"), [], ""
    begins = [at for at, line in enumerate(lines) if DEFINITION.match(line)]
    for at, until in zip(begins, [*begins[1:], len(lines)]):
        names = DEFINITION.match(lines[at])
        name = names[1] or names[2]
        own = tuple(line for line in lines[at:until] if line.strip() and not line.lstrip().startswith("--"))
        found.append(Definition(path, at + 1, name, comment_above(lines, at), own))
        record = name if lines[at].startswith("pub record") and name in WITH_FIELDS else ""
        for inner in range(at + 1, until) if record else []:
            if field := FIELD.match(lines[inner]):
                found.append(Definition(path, inner + 1, f"{record}.{field[1]}", comment_above(lines, inner), ()))
    return found


def missing(definition):
    """What the comment of a definition does not say."""
    first = FIRST.match(definition.comment)
    told = ([first.group()] if first else []) + [it for it in IN_BRACKETS.findall(definition.comment) if ORIGIN.search(it)]
    rest = definition.comment
    for text in told:
        rest = rest.replace(text, "")
    return ["no sentence"] * (len(re.findall(r"\w+", rest)) < LEAST_WORDS) + ["no origin"] * (not told)


def strangers(path, text):
    """The lines of a file of the house by which a name could come in, or be, that is told nowhere."""
    for number, line in enumerate(text.split("\n"), 1):
        if line.startswith(("use ", "pub use ")):
            use = USE.fullmatch(line)
            crate, module = (use[1], use[3]) if use else ("", "")
            if not (crate in ("std", "plain") or (crate in TYPES_OF and module.startswith("declared."))):
                yield f"{path}:{number}: {line}"
        elif PRIVATE.match(line) and path not in WITH_LEMMAS:
            yield f"{path}:{number}: {line}"


def imports(text):
    """Where the names of a file come from: the crate and the module of each, and of each short name of a module."""
    found = {}
    for line in text.split("\n"):
        if use := USE.match(line):
            crate, _, module, names, alias = use.groups()
            for name in names.split(",") if names else [alias]:
                own, _, other = name.strip().partition(" as ")
                found[other or own] = (crate, module, own)
    return found


def house():
    """The texts of the files of the house, by their paths in it."""
    return {path.relative_to(HOUSE): path.read_text(encoding="utf-8") for path in sorted(HOUSE.rglob("*.antt"))}


def under(headline, texts):
    """The definitions under those of the headline, these among them, and the names that stand in no right place."""
    files = {".".join(path.with_suffix("").parts): path for path in texts}
    of_file = {path: {it.name: it for it in definitions(path, text)} for path, text in texts.items()}
    uses = {path: imports(text) for path, text in texts.items()}
    found, astray, waiting = {}, [], [(files["Headline"], name) for name in headline]
    while waiting:
        path, name = waiting.pop()
        if (path, name) in found:
            continue
        if name not in of_file[path]:
            astray.append(f"{path} has no {name}")
            continue
        found[path, name] = definition = of_file[path][name]
        # Of `m.seat` the first word may be a name, and a short name of a module stands before a point.
        words = {part for line in definition.lines for word in NAME.findall(line) for part in (word, word.split(".")[0])}
        waiting += [(path, word) for word in words & of_file[path].keys()]
        for word in words & uses[path].keys() - of_file[path].keys():
            crate, module, own = uses[path][word]
            if crate == "plain" and module in files:
                waiting.append((files[module], own))
            elif crate != "std" and not (crate in TYPES_OF and module.startswith("declared.")):
                astray.append(f"{definition} names {own} of {crate}")
    return sorted(found.values()), sorted({*astray})


# Definitions of which one has no origin, and one no comment.
SAMPLE = """-- some words of a sentence
abbrev pub one : T
one = 1

-- bfq: a word of its own here
abbrev pub two : T

abbrev pub three : T
"""


# Lines of a file of the house: those that must be told, and those that must not.
ODD = ["use Rattle.sector_core.specs.Table.{AllTaken}", "abbrev hidden : T", "hidden : T", "use Rattle.plain.specs.Lists.{",
       "pub use Rattle.bytes.specs.Bytes.{bytes}"]
GOOD = ["use Rattle.plain.specs.Lists.{numbers}", "use Rattle.std.specs.FinMap as map", "hidden a = b", "abbrev pub seen : T", "-- a : b",
        "  a : b"]


def house_runs():
    """The name of each case, and what is wrong with it."""
    texts = house()
    rests, astray = under(HEADLINE, texts)
    yield "the headline rests on one crate", astray
    yield "no file takes a name from elsewhere", [it for path, text in texts.items() for it in strangers(path, text)]
    # Of the fourteen steps each is under it.
    steps = {path for path in texts if path.parts[0] == "Steps"} - {it.path for it in rests}
    yield "the headline rests on each step", [f"{path} is not under it" for path in steps]
    everything = [it for path, text in texts.items() for it in definitions(path, text)]
    yield "each definition has its origin", [f"{it}: {', '.join(missing(it))}" for it in everything if missing(it)]
    told = [missing(it) for it in definitions(Path("sample"), SAMPLE)]
    yield "what has no origin is told", [] if told == [["no origin"], [], ["no sentence", "no origin"]] else [f"told is {told}"]
    moved = {path: text.replace("use Rattle.plain.specs.Merge.", "use Rattle.process_queue.specs.Merge.") for path, text in texts.items()}
    away = {it.rpartition(" names ")[2] for it in under(HEADLINE, moved)[1]}
    wanted = {f"{name} of process_queue" for name in ("merge_of", "joins_at", "shape_of")}
    yield "a definition in another crate is told", [] if wanted <= away else [f"told is {sorted(away)}"]
    told = [it for line in [*ODD, *GOOD] for it in strangers(Path("sample"), line)]
    yield "a name from elsewhere is told", [] if [it.partition(": ")[2] for it in told] == ODD else [f"told is {told}"]
    lines = crate_lines()
    on_tables = {name: TABLES & {*below(name, lines)} for name in ABOVE_DEFINITIONS}
    yield "definitions are had without tables", [f"{name} stands on {', '.join(sorted(its))}" for name, its in on_tables.items() if its]


def main():
    rests, _ = under(HEADLINE, house())
    for definition in rests:
        print(definition)
    lines = sum(len(it.lines) for it in rests)
    print(f"{len(rests)} definitions under the headline, {lines} lines, in {len({it.path for it in rests})} files")
    faults = [f"{name}: {fault}" for name, found in house_runs() for fault in found]
    print(*faults, sep="\n", end="\n" * bool(faults))
    return min(len(faults), 1)


if __name__ == "__main__":
    sys.exit(main())
