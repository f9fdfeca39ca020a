"""The plain program of the rules (examples/own_rule/), its variations, and what docs/OWN_RULE.md says of them.

The plain program must answer as the host does: scripts of examples/ and tests/scripts, and random ones of the seeds from 1 on, with all
looks after each 20th line. A rule that is changed in it must be found by that. What a variation sends is worked out by hand.
"""

import itertools
import os
import re
import shutil
import subprocess
import sys
import tempfile

import rules_table
from random_scripts import options_of, random_lines
from tools import DONE, TOP
from whys import scripts

sys.path.append(os.path.join(TOP, "tools"))
OWN_RULE = os.path.join(TOP, "examples", "own_rule")
sys.path.append(OWN_RULE)
from host import Host, Stop  # noqa: E402
from keeper import Keeper, limits_of  # noqa: E402
from model import Machine  # noqa: E402

# How many random scripts there are; and with `./test --all`.
SCRIPTS_AT_RANDOM, MANY_AT_RANDOM = 50, 500
# All looks are asked after each line of so many.
LOOK_AFTER = 20
SEATS, GROUPS, SECONDS = 16, 32, 30
LOOKS = [*(f"show {what} {seat}" for what in ("seat", "outbox", "queue") for seat in range(SEATS)), "show requeued", "show flight",
         "show service", *(f"show tree {group}" for group in range(GROUPS)), "show host", "show state", "show stored 0", "show stored 100",
         "show step 1", "show step 20"]

# Changes of one rule each, which must be found: a file, a text of it, and what stands in its place.
CHANGES = [
    ("a budget that ends grows twice", "rules.py", '"exhaustion": 4 * budget', '"exhaustion": 2 * budget'),
    ("a budget stays when time is over", "rules.py", '"time": 2 * budget', '"time": budget'),
    ("an empty queue keeps its budget", "rules.py", "max(sent, LEAST_BUDGET)", "budget"),
    ("a tie by the higher number", "rules.py", "return member.finish, member.entity", "return member.finish, -member.entity"),
    ("who may not start is picked", "rules.py", "if it.start <= self.vtimes[group, name])", "if True)"),
    ("the sum without who has just gone idle", "rules.py", ' or it.finish > vtime)', ")"),
    ("the sum of all classes", "rules.py", "for it in self.of_class(group, name) if it.state !=",
     "for it in self.members.values() if it.group == group and it.state !="),
    ("who comes back starts at V", "rules.py", "max(self.vtimes[it.group, it.class_name], it.finish)",
     "self.vtimes[it.group, it.class_name]"),
    ("a weight is never taken", "rules.py", "member.weight = member.pending", "pass"),
    ("idle goes first", "rules.py", "next(name for name in CLASSES if", "next(name for name in reversed(CLASSES) if"),
    ("the head stays behind", "rules.py", "it.start >= seat.head", "it.start > seat.head"),
    ("a front merge first", "model.py", "unless(back or front or", "back = None if front else back\n        unless(back or front or"),
    ("a request of 255 sectors at most", "model.py", "it.count + count <= MOST_OF_REQUEST", "it.count + count < MOST_OF_REQUEST"),
    ("a discard joins a write", "model.py", "it.operation == operation and", '(it.operation == "fetch") == (operation == "fetch") and'),
    ("what is discarded has a byte", "model.py", "bytes([bio.byte or 0])", "bytes([1 if bio.byte is None else bio.byte])"),
    ("the last one given back goes first", "model.py", "self.returned.pop(0)", "self.returned.pop()"),
    ("the greatest tag", "model.py", "tag = min(", "tag = max("),
    ("a switch keeps budgets", "model.py", "self.limits.first_budget if it.entity < SEATS else it.budget", "it.budget"),
    ("an undo keeps the machine", "keeper.py", "self.cursor += by\n        self.fold()", "self.cursor += by"),
    ("a full history before a step's own tests", "keeper.py", "next(made)\n        self.accept()\n", "self.accept()\n        next(made)\n"),
]

# Two of weight 40 that wait with one finish.
TIE = "attach 0 0 4\nattach 1 0 4\nread 0 1 0 8\nread 1 2 100 8\ndispatch\n"
TOLD_OF_TIE = "attached 1\nattached 2\nqueued 3\nqueued 4\nissued 0 5 fetch {} 8\n"
# Five times 64 sectors pass a budget of 256. 256 sectors take 26,843,545 at weight 40, and 1,024 take 107,374,182; the host has four times
# the budget then.
BUDGET = "attach 0 0 4\n" + "".join(f"read 0 1 {100 * at} 64\n" for at in range(6)) + 5 * "dispatch\n" + "entity 0\n"
ENTITY_OF_HOST, ENTITY_OF_FIXED = (f"entity 0 serving 26843545 {26_843_545 + more} 40 {budget} 64"
                                   for more, budget in ((107_374_182, 1024), (26_843_545, 256)))
# Weights 40 and 80, so turns of 320 and 640 sectors: 5 and 10 requests of 64. Seat 1 reads from sector 10,000 on.
TURNS = ("attach 0 0 4\nattach 1 0 0\n" + "".join(f"read 0 1 {100 * at} 64\n" for at in range(10))
         + "".join(f"read 1 2 {10_000 + 100 * at} 64\n" for at in range(15)) + 25 * "dispatch\n")
SEATS_BY_TURNS = 5 * "0" + 10 * "1" + 5 * "0" + 5 * "1"
# In requests of 256 sectors a turn of 320 is passed by 192, which seat 0 owes: it has 128 of its next turn, and one request.
DEBTS = ("attach 0 0 4\nattach 1 0 4\n" + "".join(f"read 0 1 {257 * at + 64 * part} 64\n" for at in range(4) for part in range(4))
         + "".join(f"read 1 2 {10_000 + 257 * at + 64 * part} 64\n" for at in range(4) for part in range(4)) + 8 * "dispatch\n")
SEATS_BY_DEBTS = "0011" + "01" + "01"


def answers_of(path, words, rows):
    """What a program answers to the lines of a script."""
    ran = subprocess.run([path, "sim", *words], input="".join(f"{row}\n" for row in rows), capture_output=True, text=True, timeout=SECONDS,
                         check=False)
    return [*ran.stdout.splitlines(), *ran.stderr.splitlines()]


def recorded(program, seed):
    """The lines of a random script with looks between, and what the host answers."""
    rows, count = [], itertools.count(1)
    with Host(program, options_of(seed)) as host:
        def ask(line):
            answer = host.ask(line)
            rows.append((line, answer))
            if next(count) % LOOK_AFTER == 0:
                rows.extend(zip(LOOKS, host.ask_all(LOOKS)))
            return answer
        random_lines(seed, ask)
    return rows


def difference(found, rows):
    """The first answer that is another one."""
    for at, ((line, wanted), answer) in enumerate(zip(rows, found)):
        if answer != wanted:
            return [f"line {at + 1}, {line!r}: the plain program says {answer!r}, and the host {wanted!r}"]
    return [] if len(found) == len(rows) else [f"{len(found)} answers and not {len(rows)}: {found[-1:]}"]


def as_host(program, count):
    """The plain program answers as the host, and each change of it is found by the first of the random scripts."""
    for name, words, lines in scripts():
        good = [line for line in lines if line and not line.startswith("#")]
        keeper = Keeper(Machine, limits_of(["sim", *words]))
        with Host(program, words) as host:
            yield f"own rule: {name}", difference([keeper.answer(line) for line in good], [(line, host.ask(line)) for line in good])
    kept, asked = [], 0
    for seed in range(1, count + 1):
        rows = recorded(program, seed)
        keeper = Keeper(Machine, limits_of(["sim", *options_of(seed)]))
        if faults := difference([keeper.answer(line) for line, _ in rows], rows):
            yield f"own rule: seed {seed}", faults
        asked += len(rows)
        kept += [(seed, rows)] if seed <= SCRIPTS_AT_RANDOM else []
    print(f"random scripts of the seeds 1 to {count}: {asked} lines and looks of the plain program")
    yield "own rule: random scripts", [] if asked >= 200 * count else [f"there are {asked} lines"]
    for change in CHANGES:
        yield f"own rule: a changed rule is found: {change[0]}", unfound(change, kept)


def unfound(change, kept):
    """That a change is not found, or was none."""
    name, file, old, new = change
    with tempfile.TemporaryDirectory() as folder:
        os.symlink(os.path.join(TOP, "tools"), os.path.join(folder, "tools"))
        changed = os.path.join(folder, "examples", "own_rule")
        shutil.copytree(OWN_RULE, changed, ignore=shutil.ignore_patterns("__pycache__"))
        path = os.path.join(changed, file)
        with open(path, encoding="utf-8") as source:
            text = source.read()
        if text.count(old) != 1:
            return [f"{file} has {old!r} {text.count(old)} times"]
        with open(path, "w", encoding="utf-8") as source:
            source.write(text.replace(old, new))
        for seed, rows in kept:
            found = answers_of(os.path.join(changed, "model.py"), options_of(seed), [line for line, _ in rows])
            if faults := difference(found, rows):
                # A change that ends the program would be found by any script.
                return [] if "Traceback" not in " ".join(found) else [f"{name}: the program ends: {found[-1]}"]
    return [f"no script of {len(kept)} shows it"]


def variation(name):
    return os.path.join(OWN_RULE, f"{name}.py")


def seats_of(answers):
    """Whose each request was, by where it begins."""
    return "".join(str(int(int(answer.split(" ")[4]) >= 10_000)) for answer in answers if answer.startswith("issued "))


def variations(program):
    """What each of them does otherwise than the host, and what not."""
    for path, start in ((program, 0), (variation("model"), 0), (variation("fixed_budgets"), 0), (variation("other_tie"), 100)):
        found = answers_of(path, [], TIE.splitlines())
        yield f"own rule: a tie by {os.path.basename(path)}", differs(found, TOLD_OF_TIE.format(start).splitlines())
    words = ["--first-budget", "256", "--tags=8"]
    for path, wanted in ((program, ENTITY_OF_HOST), (variation("other_tie"), ENTITY_OF_HOST),
                         (variation("fixed_budgets"), ENTITY_OF_FIXED)):
        yield f"own rule: a budget by {os.path.basename(path)}", differs(answers_of(path, words, BUDGET.splitlines())[-1:], [wanted])
    words = ["--tags", "64", "--sectors", "65536"]
    for script, wanted in ((TURNS, SEATS_BY_TURNS), (DEBTS, SEATS_BY_DEBTS)):
        found = seats_of(answers_of(variation("deficit"), words, script.splitlines()))
        yield "own rule: round robin by weight", differs(found, wanted)
        by_host = seats_of(answers_of(program, words, script.splitlines()))
        yield "own rule: the host is no round robin", [] if by_host != wanted and len(by_host) == len(wanted) else [by_host]
    for name in ("fixed_budgets", "other_tie", "deficit"):
        yield f"own rule: {name} after an undo", undone(variation(name))


def differs(found, wanted):
    return [] if found == wanted else [f"{found} and not {wanted}"]


def undone(path):
    """A variation goes back and forth as the host does: what is redone is what was."""
    lines = [*TURNS.splitlines(), "show tree 0", "show service", "hold", "undo 20", "redo 20", "show tree 0", "show service"]
    found = answers_of(path, ["--tags=64", "--sectors=65536"], lines)
    return differs(found[-2:], found[-7:-5]) + ([] if found[-5] == "moved 52 52" else [f"{found[-5]!r}"])


# A script that ends badly, with lines that print nothing.
BAD = "# a comment\n\nattach 0 0 4\nread 0 1 5 1\nread  0 1 5 1\nqueue 0\n"


def as_programs(program):
    """The plain program behind a pipe and in the place of the host in each tool."""
    for path in (program, variation("model")):
        ran = subprocess.run([path, "sim"], input=BAD, capture_output=True, text=True, timeout=SECONDS, check=False)
        yield f"own rule: a bad line by {os.path.basename(path)}", differs((ran.stdout, ran.stderr, ran.returncode),
                                                                            ("attached 1\nqueued 2\nbad line 5\n", "", 2))
    log = os.path.join(TOP, "tests", "iolog-2000-of-4-jobs.log")
    script = os.path.join(TOP, "examples", "weights.script")
    for words in (["iolog", log], ["step", script], ["plot", script, "--service"], ["why", script]):
        texts = [subprocess.run([sys.executable, os.path.join(TOP, "tools", words[0]), "--program", path, *words[1:]], text=True,
                                capture_output=True, stdin=subprocess.DEVNULL, timeout=SECONDS, check=False)
                 for path in (program, variation("model"))]
        found, wanted = ((it.stdout, it.stderr, it.returncode) for it in reversed(texts))
        yield f"own rule: tools/{words[0]} of the plain program", differs(found, wanted)
        yield f"own rule: tools/{words[0]} does well", [] if wanted[0] and not wanted[2] else [str(wanted)]


# Three of the four jobs of tests/iolog-2000-of-4-jobs.log, as clients of the weights 80 and 30 and, in a group of its own, 10.
THREE_LOGS = ["seq-read.log:prio=0", "backup.log:prio=5:class=rt", "mixed.log:prio=7:group=1:weight=300"]


def of_weights(program):
    """Three logs by the host and by the plain program: the lines that are asked, what each client got, and each choice."""
    def ran(tool, *words):
        found = subprocess.run([sys.executable, os.path.join(TOP, "tools", tool), *THREE_LOGS, *words], cwd=folder, text=True,
                               capture_output=True, stdin=subprocess.DEVNULL, timeout=SECONDS, check=False)
        return found.stdout, found.stderr, found.returncode

    with tempfile.TemporaryDirectory() as folder:
        rules_table.write_logs(folder)
        told = {}
        for name, path in (("host", program), ("model", variation("model"))):
            told[name] = [ran("iolog", "--program", path, "--script", "script", "--json", "json", "--", "--tags=2")]
            for file in ("script", "json"):
                with open(os.path.join(folder, file), encoding="ascii") as text:
                    told[name].append(text.read())
        yield "own rule: three logs with weights", differs(told["model"], told["host"])
        # 500 reads, 500 writes and a trim, and 500 of both with 9 syncs: tests/iolog_of_jobs.py makes them.
        yield "own rule: all of three logs", [] if re.match("3 clients, 843 reads, 657 writes, 1 trims, 9 syncs: ", told["host"][0][0]) else told["host"][:1]
        stdout, *rest = ran("compare", "--a", program, "--b", variation("model"), "--", "--tags=1")
        yield "own rule: each choice of three logs", differs((re.sub(r"\d+", "N", stdout.splitlines()[-1]), rest),
                                                             ("all N dispatches are the same", ["", DONE]))


def own_rule_runs(program, count):
    """The name of each run, and what was wrong with it."""
    try:
        yield from as_host(program, count)
        yield from variations(program)
        yield from as_programs(program)
        yield from of_weights(program)
        yield "own rule: the table of docs/OWN_RULE.md", [*rules_table.faults(program)]
    except (LookupError, OSError, ValueError, Stop, subprocess.SubprocessError) as fault:
        yield "own rule", [str(fault)]
