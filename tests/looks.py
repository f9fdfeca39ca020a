"""Every `show` line after every step of the scripts of tests/scripts, and again when that step is the last that stands. Beside the tree of
each group, which has the virtual time of best effort, stand those of the two other classes.

A script is given to the built program line by line. After each line that moved the cursor all `show` lines are asked. At the end the host
is held, and each step is undone in turn: what stands then must be shown as it was when the cursor was there last, by the steps that stand.
Of `show host` the scheduler, whether the host is frozen and the seat served last are compared, as the rest goes on with the calls.
"""

import contextlib
import os
import subprocess

from bad_input import Skipped
from script_rows import SCRIPTS, read_rows

SEATS, GROUPS = 16, 32
FULL = "refused 33"


class Ended(Exception):
    """The program took no more lines."""


class Asked:
    """A run of the program that is asked line by line."""

    def __init__(self, program, words):
        self.process = subprocess.Popen([program, *words], stdin=subprocess.PIPE, stdout=subprocess.PIPE, text=True)

    def __enter__(self):
        return self

    def __exit__(self, *_):
        self.process.stdout.close()
        with contextlib.suppress(BrokenPipeError):
            self.process.stdin.close()
        self.process.wait()

    def ask(self, *lines):
        """The answers to some lines, which are written at once."""
        try:
            self.process.stdin.write("".join(f"{line}\n" for line in lines))
            self.process.stdin.flush()
        except BrokenPipeError:
            raise Ended("the program has ended") from None
        answers = [self.process.stdout.readline().removesuffix("\n") for _ in lines]
        for line, answer in zip(lines, answers):
            if not answer or answer.startswith("bad line"):
                raise Ended(f"{line!r} is answered {answer!r}")
        return answers

    def cursor(self):
        """How many steps stand, and how many the line has."""
        return tuple(int(word) for word in self.ask("line")[0].split(" ")[1:3])

    def looks(self, length):
        """What each `show` line prints, without what of the host goes on with the calls."""
        seats = [f"show {what} {seat}" for what in ("seat", "outbox", "queue") for seat in range(SEATS)]
        steps = [f"show step {number}" for number in range(1, length + 1)]
        trees = self.ask(*(f"show tree {group}" for group in range(GROUPS)))
        vtimes = [f"vtime {group} {name}" for group, tree in enumerate(trees) if not tree.endswith(" none") for name in ("rt", "idle")]
        shown = self.ask(*seats, "show requeued", "show flight", "show service", "show state", *vtimes, *self.runs())
        host = self.ask("show host")[0].split(" ")
        return [*trees, *shown, f"{host[1]} {host[2]} {host[4]}"], self.ask(*steps)

    def runs(self):
        """The lines that show each run of stored sectors, the last of them with none."""
        lines, start = ["show stored 0"], 0
        while (answer := self.ask(lines[-1])[0]) != "stored none":
            first, count = answer.removeprefix("stored ").split("+")
            start = int(first) + int(count)
            lines.append(f"show stored {start}")
        return lines


def first_difference(found, wanted):
    """The first text that differs."""
    for one, other in zip(found, wanted):
        if one != other:
            return f"{one!r} and not {other!r}"
    return f"{len(found)} texts and not {len(wanted)}"


def faults_of(program, words, lines):
    """What one script shows in another way once its steps are undone."""
    with Asked(program, words) as host:
        seen = {0: host.looks(0)}
        for line in lines:
            if line and not line.startswith("#"):
                if host.ask(line) == [FULL]:
                    raise Skipped("its history is full")
                cursor, length = host.cursor()
                seen[cursor] = host.looks(length)
        # The script may have left it held.
        host.ask("hold")
        cursor, length = host.cursor()
        for place in range(cursor - 1, -1, -1):
            if (answer := host.ask("undo 1")[0]) != f"moved {place} {length}":
                return [f"undo 1 is answered {answer!r}"]
            (texts, steps), (wanted, steps_then) = host.looks(place), seen[place]
            if texts != wanted:
                return [f"after an undo to {place}: {first_difference(texts, wanted)}"]
            if steps != steps_then[:place]:
                return [f"of the steps up to {place}: {first_difference(steps, steps_then[:place])}"]
    return []


def looks(program):
    """What each script shows, with its faults; those whose history is full are left out."""
    for name in sorted(name for name in os.listdir(SCRIPTS) if name.endswith(".rows")):
        runs, lines, _ = read_rows(os.path.join(SCRIPTS, name))
        for words in runs:
            try:
                yield f"every look of scripts/{name}: {' '.join(words)}", faults_of(program, words, lines)
            except Skipped:
                continue
            except Ended as fault:
                yield name, [str(fault)]
