"""Ways along the line of a host, to the step by which a moment comes. What a moment is, the client's library tells (bfqclient_moments)."""

import os
import sys

import grammar
from host import TOP, BadInput

sys.path.append(os.path.join(TOP, "clients"))
from bfqclient_moments import Line, NotMoved, Serial, Stored, moment_of, sectors_stored  # noqa: E402

__all__ = ["Line", "NotMoved", "Serial", "Stored", "moment_of", "moment_word", "sectors_stored", "stores", "while_held"]


def moment_word(text):
    """The moment that a word of a tool names."""
    if why := grammar.why_no_moment(text):
        raise BadInput(f"{text}: {why}")
    return moment_of(text)


def while_held(host, act, note=lambda line, answer: None, may_release=lambda: True):
    """Does something along the line of a host. One that is free is held for it, and released again, if it may be by then. Gives what that
    gives.

    Each line by which it is held, moved or released is noted, with its answer. Raises NotMoved, and what `act` raises."""
    is_ours = host.ask("show host").split(" ")[3] == "free"
    fault, line = None, None
    try:
        if is_ours and grammar.is_refusal(answer := noted(host, "hold", note)):
            is_ours = False
            raise NotMoved("hold", answer)
        line = Line(host)
        return act(line)
    except NotMoved as refused:
        fault = refused if line else None
        raise
    finally:
        # Whatever ends it, a host that is held here is released.
        for move in line.moves if line else []:
            note(move, f"moved {line.cursor} {line.length}")
        if fault is not None:
            note(fault.line, fault.answer)
        if is_ours and may_release():
            noted(host, "release", note)


def stores(line, last):
    """Goes along a line from its start, and stands behind each of the first steps that stored a write or a discard, which it gives. At the
    end it stands where it stood."""
    moment, origin = Stored(0), line.cursor
    for step in line.steps(range(1, last + 1)):
        if moment.may_come(step):
            line.go(step.place - 1)
            is_one = bool(sectors_stored(line, step))
            line.go(step.place)
            if is_one:
                yield step
    line.go(origin)


def noted(host, line, note):
    """The answer to a line, which is noted with it."""
    answer = host.ask(line)
    note(line, answer)
    return answer
