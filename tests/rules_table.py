#!/usr/bin/env python3
"""The table of docs/OWN_RULE.md: what each of four clients gets by the host, by other budgets, and by the variations of examples/own_rule/.
No number in it is typed by hand: tools/compare prints them.

    tests/rules_table.py           tells what is otherwise in the page, with status 1 if anything is
    tests/rules_table.py --write   renews the table

The logs are those of the four jobs of tests/iolog-2000-of-4-jobs.log (tests/iolog_of_jobs.py makes it), each alone and with a weight.
"""

import argparse
import itertools
import os
import re
import shlex
import subprocess
import sys
import tempfile
from pathlib import Path

TOP = Path(__file__).resolve().parent.parent
PAGE = TOP / "docs" / "OWN_RULE.md"
BEGIN = "<!-- rules: tests/rules_table.py --write makes this table -->\n"
END = "<!-- end of rules -->\n"
LOG = TOP / "tests" / "iolog-2000-of-4-jobs.log"
# The jobs with their priorities, of which 8 less, times 10, is the weight.
JOBS = {"seq-read": 0, "rand-write": 4, "mixed": 7, "backup": 7}
# What is compared with the host as it is, as the page has it.
HOST = "./bfqhost"
RULES = [f"{HOST} --first-budget 256 --max-budget 256", *(f"examples/own_rule/{name}.py" for name in ("fixed_budgets", "other_tie", "deficit"))]
OPTIONS = ["--tags", "1"]
# A row of what tools/compare prints: whose it is by its run, and its numbers; and the line behind these rows.
ROW = re.compile(r"(?m)^(?:seat \d+ (\S+)\.log \S+)? +([AB]) +(\d+) +(\d+) +(\d+) +(-?\d+\.\d+)$")
OTHER = re.compile(r"(?m)^dispatch (\d+) is the first that is another one:$")
SECONDS = 120


def write_logs(folder):
    """Writes the log of each job."""
    head, *rows = LOG.read_text(encoding="ascii").splitlines()
    for job in JOBS:
        own = [row for row in rows if row.split(" ")[1].startswith(f"/data/{job}.")]
        Path(folder, f"{job}.log").write_text("".join(f"{row}\n" for row in [head, *own]), encoding="ascii")


def compared(program, rule, folder):
    """What a comparison of the host with a rule prints: the numbers of each job by each run, and the first other dispatch."""
    words = [f"{job}.log:prio={prio}" for job, prio in JOBS.items()]
    # A program is named from the top of the repository.
    path, *options = rule.split(" ")
    ours, other = (shlex.join(it) for it in ([program], [program if path == HOST else str(TOP / path), *options]))
    ran = subprocess.run([sys.executable, TOP / "tools" / "compare", *words, "--a", ours, "--b", other, "--", *OPTIONS], cwd=folder,
                         capture_output=True, text=True, timeout=SECONDS, check=False)
    rows, other = ROW.findall(ran.stdout), OTHER.search(ran.stdout)
    if [name for _, name, *_ in rows] != [*"AB" * len(JOBS)] or [job for job, *_ in rows[::2]] != [*JOBS] or ran.stderr:
        raise ValueError(f"tools/compare of {rule} prints {ran.stdout!r} and {ran.stderr!r}")
    return {name: [numbers for _, by, *numbers in rows if by == name] for name in "AB"}, other[1] if other else "none"


def row(*cells):
    return f"| {' | '.join(cells)} |\n"


def table(program):
    """The rows of the table, as the page has them."""
    with tempfile.TemporaryDirectory() as folder:
        write_logs(folder)
        found = [compared(program, rule, folder) for rule in RULES]
    ours = found[0][0]["A"]
    sectors = [numbers[0] for numbers in ours]
    if any(by["A"] != ours or [numbers[0] for numbers in by["B"]] != sectors for by, _ in found):
        raise ValueError("the host is not the same in each comparison, or a rule has not sent all")

    def told(rule, numbers, other):
        return row(f"`{rule}`", *(", ".join(of_job[1:]) for of_job in numbers), other)

    weights = [f"{job}, {(8 - prio) * 10}" for job, prio in JOBS.items()]
    return "".join([row("rule", *weights, "first other dispatch"), "|---" * (len(JOBS) + 2) + "|\n", row("sectors", *sectors, ""),
                    told(HOST, ours, ""), *itertools.starmap(told, ((rule, by["B"], other) for rule, (by, other) in zip(RULES, found)))])


def parts():
    """The page before the table, the table as it stands, and the page after it."""
    before, begin, rest = PAGE.read_text(encoding="utf-8").partition(BEGIN)
    found, end, after = rest.partition(END)
    if not (begin and end):
        raise ValueError(f"docs/OWN_RULE.md lacks {BEGIN.strip()} or {END.strip()}")
    return before + begin, found, end + after


def faults(program):
    """What is otherwise in the page than it must be."""
    found, wanted = parts()[1].splitlines(), table(program).splitlines()
    for it in [it for it in found if it not in wanted] + [it for it in wanted if it not in found]:
        yield f"docs/OWN_RULE.md {'has' if it in found else 'lacks'} the row {it!r}; tests/rules_table.py --write renews it"
    if sorted(found) == sorted(wanted) and found != wanted:
        yield "docs/OWN_RULE.md has the rows of its table in another order"


def main():
    words = argparse.ArgumentParser(description=__doc__, formatter_class=argparse.RawDescriptionHelpFormatter)
    words.add_argument("--write", action="store_true", help="renew the table")
    words.add_argument("--program", default=str(TOP / "bfqhost"), metavar="PATH", help="the host (../bfqhost, from this folder)")
    given = words.parse_args()
    program = os.path.abspath(given.program)
    try:
        if given.write:
            before, _, after = parts()
            PAGE.write_text(before + table(program) + after, encoding="utf-8")
        told = [] if given.write else [*faults(program)]
    except (OSError, ValueError, subprocess.SubprocessError) as fault:
        told = [str(fault)]
    print("".join(f"{fault}\n" for fault in told), end="", file=sys.stderr)
    return 1 if told else 0


if __name__ == "__main__":
    sys.exit(main())
