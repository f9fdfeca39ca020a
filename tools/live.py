"""A host that serves, as one that answers the lines of a script: looks over its socket `inspect`, and the operator's lines over `operator`.

Clients and workers go on beside it. So what several looks say goes together only if the host is held, or if nobody did anything meanwhile.
"""

import os
import signal
import sys

import grammar
from host import TOP, BadLine, Ended, program_of

sys.path.append(os.path.join(TOP, "clients"))
from bfqclient_base import ClientError, Refused  # noqa: E402
from bfqclient_operator import Operator, pieces  # noqa: E402

# For how long a host is waited for that does not answer, or whose operator is another one: seconds.
PATIENCE = 30
# What a tool says of a host that serves.
LIVE = ("--live", {"metavar": "DIR", "help": "the folder of a host that serves"})
# How often the machine is looked at of a host that goes on meanwhile.
TRIES = 5


def done(call):
    """The text of an answer that only says so."""
    def act(*numbers):
        call(*numbers)
        return "done"
    return act


def moved(call):
    """The text of where a host stands."""
    return lambda *numbers: "moved {} {}".format(*call(*numbers))


class Interrupted(BaseException):
    """A signal came that ends the tool, once the host is as it should be left."""

    def __init__(self, number, _):
        super().__init__(number)
        self.number = number


def interrupt(number, frame):
    raise Interrupted(number, frame)


class LiveHost:
    """A host that serves, by its folder. In its block an interrupt ends what is done like a fault, so that the host is not left held."""

    def __init__(self, folder, program=None):
        self.folder = folder
        # It tells what refusals say, if it is there.
        try:
            self.program = program_of(program)
        except Ended:
            self.program = folder
        self.operator = it = Operator(os.path.join(folder, "operator"), PATIENCE)
        self.calls = {
            "group": lambda parent, weight: f"group {it.group_make(parent, weight)}", "drop": done(it.group_drop),
            "weight": done(it.set_weight), "freeze": done(it.freeze), "thaw": done(it.thaw), "tick": done(it.tick),
            "switch": done(it.switch), "hold": moved(it.hold), "release": done(it.release), "undo": moved(it.undo), "redo": moved(it.redo)}

    def ask(self, line):
        """The answer to a line."""
        return self.ask_all([line])[0]

    def ask_all(self, lines):
        """The answers to looks, or to lines of which some are calls."""
        try:
            if all(line.split(" ")[0] in grammar.QUERIES for line in lines):
                return self.operator.looks(lines)
            return [self.call(line) for line in lines]
        except ClientError as fault:
            raise Ended(f"{self.folder}: {fault.text}") from None

    def ask_each(self, lines):
        """The answers to any number of looks."""
        for part in pieces(list(lines)):
            yield from self.ask_all(part)

    def call(self, line):
        """The answer to a line."""
        word, *numbers = line.split(" ")
        if word in grammar.QUERIES:
            return self.operator.look(line)
        if word not in self.calls:
            raise NoCall(line)
        try:
            return self.calls[word](*(int(it) if it.isdigit() else it for it in numbers))
        except Refused as fault:
            return fault.text

    def is_held(self):
        return self.ask("show host").split(" ")[3] == "held"

    def steady(self, make):
        """What is made of several looks, if the host did nothing meanwhile; None if it went on each time."""
        for _ in range(TRIES):
            before, made, fault = self.ask("show host"), None, None
            try:
                made = make()
            except (Ended, ValueError, LookupError) as odd:
                # What is asked of a seat may be gone from it.
                fault = odd
            if self.ask("show host") == before:
                if fault is not None:
                    raise fault
                return made
        return None

    def __enter__(self):
        # Whether there is one, before anything is told.
        self.ask("line")
        for number in (signal.SIGINT, signal.SIGTERM, signal.SIGHUP):
            if signal.getsignal(number) is not signal.SIG_IGN:
                signal.signal(number, interrupt)
        return self

    def __exit__(self, _, fault, __):
        """Ends the tool by the signal that came, as it ends any program. An answer that cannot be taken apart is told."""
        if isinstance(fault, Interrupted):
            signal.signal(fault.number, signal.SIG_DFL)
            signal.raise_signal(fault.number)
        if isinstance(fault, (ValueError, LookupError, TypeError, AttributeError, StopIteration)):
            raise Ended(f"{self.folder}: an answer that bfqhost does not give: {fault}") from None


class NoCall(BadLine):
    """A line of a client or of the device."""

    def __init__(self, line):
        super().__init__(line, "")
        self.why = why_no_call(line)


def why_no_call(line):
    """Why a good line is none that a live host is asked by; None if it is one."""
    word = line.split(" ")[0]
    if grammar.is_silent(line) or word in grammar.QUERIES or word in OPERATORS:
        return None
    return f"a live host has its own clients and its own device: {word!r}"


OPERATORS = {"group", "drop", "weight", "freeze", "thaw", "tick", "switch", "hold", "release", "undo", "redo"}
