#!/usr/bin/env python3
"""Random scripts of all steps, groups and classes, each from a seed that is printed.

Each line is asked of a host while the script is written, and its answer says what stands then. So most names of sessions, issues and groups
are right, and a script gets far: queues expire, virtual times jump, hosts are drained and switched, steps are undone and redone. Nothing is
asked but the script's own lines. So any program that answers a script line by line will do.

    tests/random_scripts.py --seed 7 --program ./bfqhost
    tests/random_scripts.py --seed 1 --count 200 --lines 120 --into scripts

The first prints a script, whose first line is a comment with the seed and the options of sim. The second writes `random-SEED.script` and
`random-SEED.args`, one word a line, for each seed from 1 to 200.
"""

from __future__ import annotations

import argparse
import copy
import os
import random
import sys
from dataclasses import dataclass, field
from typing import Callable, Dict, List, NamedTuple, Set, Tuple

TOP = os.path.dirname(os.path.dirname(os.path.abspath(__file__)))
sys.path.append(os.path.join(TOP, "tools"))
import grammar  # noqa: E402
from host import Host  # noqa: E402

# A script has at most so many lines if nothing else is said.
LINES = 200
SEATS = 16
ROOT = 0
# How often a name is a right one, where one is known.
RIGHT = 0.95
# What no session, issue or group is ever called here.
STRANGE = 2**64 - 1
# The greatest time is 2^62. A host that begins so far below it refuses some step soon.
LATE = [2**62 - away for away in (0, 3 * 10**7, 10**8, 2 * 10**9)]

Ask = Callable[[str], str]


class Script(NamedTuple):
    """A random script: its seed, the options of sim that it is for, and its lines."""

    seed: int
    options: List[str]
    lines: List[str]


@dataclass
class Known:
    """What is known of a host by its answers."""

    sessions: Dict[int, int] = field(default_factory=dict)
    owed: Dict[int, int] = field(default_factory=dict)
    groups: Set[int] = field(default_factory=lambda: {ROOT})
    # The issue and the operation of what is in flight, by tag.
    flight: Dict[int, Tuple[int, str]] = field(default_factory=dict)
    is_frozen: bool = False
    scheduler: str = "bfq"


def options_of(seed: int) -> List[str]:
    """The options of sim for the script of a seed."""
    dice = random.Random(f"options {seed}")
    first = dice.choice([256, 256, 300, 512, 1024])
    given = {
        "--scheduler": dice.choice(["bfq"] * 6 + ["none"]),
        "--nr-requests": dice.choice([2, 8, 64, 64, 256]),
        "--tags": dice.choice([1, 2, 4, 4, 64]),
        "--first-budget": first,
        "--max-budget": max(first, dice.choice([256, 700, 4096, 4096, 65536])),
        "--timeout": dice.choice([1, 2, 3, 8]),
        "--history": dice.choice([65536] * 11 + [40]),
        "--first-vtime": dice.choice([0] * 10 + [12345, dice.choice(LATE)]),
        "--sectors": dice.choice([300, 1024, 5000, 5000, 65536]),
    }
    return [str(word) for pair in given.items() for word in pair]


class Writer:
    """Writes a script, and follows the host that answers it."""

    def __init__(self, seed: int, ask: Ask, options: List[str]) -> None:
        self.dice = random.Random(f"lines {seed}")
        self.ask = ask
        self.lines: List[str] = []
        of = dict(zip(options[::2], options[1::2]))
        self.sectors, self.timeout = int(of["--sectors"]), int(of["--timeout"])
        # What was known after each step of the line, by how many steps stood.
        self.past = [Known(scheduler=of["--scheduler"])]
        self.cursor = 0
        self.is_held = False
        # Whether the last dispatch found nothing to send.
        self.is_empty = True
        self.seats = self.dice.sample(range(SEATS), self.dice.choice([2, 3, 4, 6, 12]))
        self.counts = self.dice.choice([(1, 2, 3), (1, 8, 16, 64, 64), (64,), (60, 63, 64)])
        # Where the last read, write or discard has ended, and what it was.
        self.near, self.word = self.dice.randrange(self.sectors), "read"

    @property
    def known(self) -> Known:
        """What is known now."""
        return self.past[self.cursor]

    def write(self, line: str) -> str:
        """Asks a line, and takes in its answer."""
        answer = self.ask(line)
        self.lines.append(line)
        words = answer.split(" ")
        if answer == "refused 17":
            self.is_empty = True
        if words[0] == "moved":
            self.cursor = int(words[1])
            self.is_held, self.is_empty = True, False
        elif line == "release" and answer == "done":
            self.is_held = False
        elif grammar.is_step(line) and not grammar.is_refusal(answer):
            after = copy.deepcopy(self.known)
            note(after, line.split(" "), words)
            self.past[self.cursor + 1:] = [after]
            self.cursor += 1
            self.is_empty &= words[0] not in ("queued", "requeued")
        return answer

    # What a line is about.

    def is_right(self) -> bool:
        """Whether the next name is a right one."""
        return self.dice.random() < RIGHT

    def one_of(self, names: Dict[int, object]) -> int:
        """One of some numbers, or another one."""
        return self.dice.choice(sorted(names)) if names and self.is_right() else self.dice.choice([0, 5, SEATS, 255])

    def seat_and_session(self, of: Dict[int, object]) -> str:
        """A seat of some, with its session."""
        seat = self.one_of(of)
        right = self.known.sessions.get(seat, 1)
        return f"{seat} {right if self.is_right() else self.dice.choice([0, 1, STRANGE])}"

    def group(self) -> int:
        """A group that stands, or not."""
        return self.one_of(dict.fromkeys(self.known.groups))

    def tag_and_issue(self) -> Tuple[str, str]:
        """A request in flight, by its tag and its issue, and its operation."""
        tag = self.one_of(dict(self.known.flight))
        issue, operation = self.known.flight.get(tag, (1, "fetch"))
        return f"{tag} {issue if self.is_right() else STRANGE}", operation

    def weight(self) -> int:
        """A weight, seldom none."""
        return self.dice.choice([1, 7, 10, 40, 100, 100, 500, 1000]) if self.is_right() else self.dice.choice([0, 1001])

    # The lines.

    def attach(self) -> None:
        free = dict.fromkeys(seat for seat in self.seats if seat not in self.known.sessions)
        seat = self.one_of(free or dict.fromkeys(self.seats))
        priority = self.dice.randrange(8) if self.is_right() else 8
        name = self.dice.choice(["", "", " rt", " be", " idle"])
        self.write(f"attach {seat} {self.group()} {priority}{name}")

    def submit(self) -> None:
        who = self.seat_and_session(dict(self.known.sessions))
        count = self.dice.choice(self.counts) if self.is_right() else self.dice.choice([0, 65])
        # Half of them begin where another one has ended. Most of these do the same, and so may join it.
        is_near = self.dice.random() < 0.5
        start = self.near if is_near else self.dice.randrange(max(1, self.sectors - count + 1))
        self.near = start + count if start + 2 * count <= self.sectors else 0
        if not is_near or self.dice.random() < 0.4:
            self.word = self.dice.choices(["read", "write", "discard"], [6, 3, 1])[0]
        byte = f" {self.dice.randrange(256)}" if self.word == "write" else ""
        self.write(f"{self.word} {who} {start} {count}{byte}")

    def submits(self) -> None:
        """One client asks for much, so that its budget may end."""
        for _ in range(self.dice.randrange(3, 12)):
            self.submit()

    def dispatch(self) -> None:
        self.write("dispatch")

    def dispatches(self) -> None:
        """As many as there are tags, and what was sent is done."""
        for _ in range(self.dice.randrange(2, 10)):
            if self.write("dispatch") == "refused 17":
                return
            if self.dice.random() < 0.7:
                self.done()

    def done(self) -> None:
        """A request in flight comes to its end."""
        name, operation = self.tag_and_issue()
        good = ["stored"] if operation != "fetch" else [f"fill {self.dice.randrange(256)}", "short", "fault"]
        outcome = self.dice.choice(good) if self.is_right() else self.dice.choice(["stored", "short"])
        self.write(f"work {name}" if self.dice.random() < 0.6 else f"finish {name} {outcome}")

    def requeue(self) -> None:
        self.write(f"requeue {self.tag_and_issue()[0]}")

    def reap(self) -> None:
        owing = {seat: count for seat, count in self.known.owed.items() if count > 0}
        self.write(f"reap {self.seat_and_session(owing or dict(self.known.sessions))}")

    def leave(self) -> None:
        self.write(f"leave {self.one_of(dict(self.known.sessions))}")

    def make_group(self) -> None:
        self.write(f"group {self.group()} {self.weight()}")

    def drop(self) -> None:
        self.write(f"drop {self.group()}")

    def set_weight(self) -> None:
        self.write(f"weight {self.group()} {self.weight()}")

    def ticks(self) -> None:
        """Often as many as the queue in service may take."""
        for _ in range(self.dice.choice([1, self.timeout])):
            self.write("tick")

    def freeze(self) -> None:
        self.write("freeze")

    def thaw(self) -> None:
        self.write("thaw")

    def switch(self) -> None:
        other = "none" if self.known.scheduler == "bfq" else "bfq"
        self.write(f"switch {other if self.is_right() else self.known.scheduler}")

    def hold(self) -> None:
        self.write("hold")

    def release(self) -> None:
        self.write("release")

    def undo(self) -> None:
        most = self.cursor if self.dice.random() < 0.2 else min(self.cursor, 12)
        self.write(f"undo {self.dice.randrange(1, most + 1) if most and self.is_right() else self.cursor + 1}")

    def redo(self) -> None:
        most = len(self.past) - 1 - self.cursor
        self.write(f"redo {self.dice.randrange(1, most + 1) if most and self.is_right() else self.dice.choice([0, most + 1])}")

    def query(self) -> None:
        name, seat, group = self.dice.choice(grammar.CLASSES), self.one_of(dict.fromkeys(self.seats)), self.group()
        self.write(self.dice.choice([
            "line", f"entity {seat}", f"entity {16 + group % 32}", f"vtime {group}", f"vtime {group} {name}", f"queue {seat}",
            f"class {seat}", f"sector {self.near}"]))

    def shares(self) -> Dict[Callable[[], None], float]:
        """What may come next, and how often in proportion."""
        if self.is_held:
            return {self.undo: 4, self.redo: 3, self.release: 4, self.query: 0.5, self.dispatch: 0.3, self.hold: 0.2}
        if not self.known.sessions:
            return {self.attach: 8, self.make_group: 3, self.hold: 0.2, self.query: 0.3}
        usual = {self.reap: 2.0, self.requeue: 0.7, self.attach: 2, self.make_group: 0.8, self.drop: 0.3, self.set_weight: 0.7,
                 self.leave: 0.3, self.ticks: 0.8, self.hold: 0.6, self.query: 0.5, self.undo: 0.05}
        if self.known.is_frozen:
            is_drained = self.is_empty and not self.known.flight
            return {**usual, self.dispatches: 4, self.done: 3, self.thaw: 1, self.switch: 9 if is_drained else 0.3, self.submit: 0.5}
        return {**usual, self.submit: 5, self.submits: 2, self.dispatch: 5, self.dispatches: 2, self.done: 4,
                self.freeze: 0.4, self.thaw: 0.05, self.switch: 0.05}

    def write_all(self, most: int) -> List[str]:
        """All lines, and no more than so many."""
        while len(self.lines) < most:
            shares = self.shares()
            self.dice.choices([*shares], [*shares.values()])[0]()
        return self.lines[:most]


def note(known: Known, words: List[str], answer: List[str]) -> None:
    """Takes in a step that was accepted."""
    word, *places = words
    if word == "attach":
        known.sessions[int(places[0])] = int(answer[1])
        known.owed[int(places[0])] = 0
    elif word in ("read", "write", "discard"):
        known.owed[int(places[0])] += 1
    elif word == "reap":
        known.owed[int(places[0])] -= 1
    elif word == "leave":
        del known.sessions[int(places[0])], known.owed[int(places[0])]
    elif word == "dispatch":
        known.flight[int(answer[1])] = int(answer[2]), answer[3]
    elif word in ("finish", "work", "requeue"):
        del known.flight[int(places[0])]
    elif word == "group":
        known.groups.add(int(answer[1]))
    elif word == "drop":
        known.groups.discard(int(places[0]))
    elif word in ("freeze", "thaw"):
        known.is_frozen = word == "freeze"
    elif word == "switch":
        known.scheduler = places[0]


def random_lines(seed: int, ask: Ask, most: int = LINES) -> List[str]:
    """The lines of the script of a seed, by a new host that has the options of this seed and answers them."""
    return Writer(seed, ask, options_of(seed)).write_all(most)


def random_script(seed: int, program: str, most: int = LINES) -> Script:
    """The script of a seed, answered by a run of a program."""
    options = options_of(seed)
    with Host(program, options) as host:
        return Script(seed, options, random_lines(seed, host.ask, most))


def write_files(script: Script, folder: str) -> None:
    """Writes a script with its options into a folder, as those of examples/ stand there."""
    for extension, rows in (("script", script.lines), ("args", ["sim", *script.options])):
        path = os.path.join(folder, f"random-{script.seed}.{extension}")
        with open(f"{path}.new", "w", encoding="ascii") as file:
            file.write("".join(f"{row}\n" for row in rows))
        os.replace(f"{path}.new", path)


def main() -> None:
    words = argparse.ArgumentParser(description=__doc__, formatter_class=argparse.RawDescriptionHelpFormatter)
    words.add_argument("--seed", type=int, default=1, help="of the first script (1)")
    words.add_argument("--count", type=int, default=1, help="how many scripts, of this seed and the next ones (1)")
    words.add_argument("--lines", type=int, default=LINES, help=f"how many lines a script has ({LINES})")
    words.add_argument("--program", metavar="PATH", default=os.path.join(TOP, "bfqhost"), help="what answers (./bfqhost)")
    words.add_argument("--into", metavar="DIR", help="a folder for the files; without it they are printed")
    given = words.parse_args()
    if given.into:
        os.makedirs(given.into, exist_ok=True)
    for seed in range(given.seed, given.seed + given.count):
        script = random_script(seed, given.program, given.lines)
        if given.into:
            write_files(script, given.into)
            print(f"seed {seed}: {' '.join(script.options)}", flush=True)
        else:
            print(f"# seed {seed}: {' '.join(script.options)}", *script.lines, sep="\n")


if __name__ == "__main__":
    main()
