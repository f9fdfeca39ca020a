"""The lines of a script as docs/FORMATS.md has them, why a line is none of them, and the names of refusals and causes.

The program itself judges its lines. What stands here is for people: a bad line gets a reason.
"""

from __future__ import annotations

import re
from typing import Optional, Sequence

# A line has at most so many bytes, and a script so many lines.
MOST_BYTES = 256
MOST_LINES = 1_048_576

# Each line of the grammar. A word in capitals stands for a number of so many bits, or for one of a few words.
BITS = {"SEAT": 8, "GROUP": 8, "PARENT": 8, "PRIO": 8, "TAG": 8, "BYTE": 8, "N": 8, "COUNT": 16, "WEIGHT": 16, "K": 32,
        "SESSION": 64, "ISSUE": 64, "START": 64, "NUMBER": 64, "FROM": 64, "SECTOR": 64}
# What stands in words of the tools alone.
BITS_OF_TOOLS = {"SERIAL": 64, "ENTRY": 64}
# The classes, the first to be served first.
CLASSES = ("rt", "be", "idle")
CHOICES = {"CLASS": CLASSES}
FORMS = [form.split() for form in [
    "attach SEAT GROUP PRIO", "attach SEAT GROUP PRIO CLASS",
    "read SEAT SESSION START COUNT", "write SEAT SESSION START COUNT BYTE", "write SEAT SESSION START COUNT @SECTOR",
    "discard SEAT SESSION START COUNT", "dispatch",
    "finish TAG ISSUE stored", "finish TAG ISSUE fill BYTE", "finish TAG ISSUE short", "finish TAG ISSUE fault",
    "work TAG ISSUE", "requeue TAG ISSUE", "reap SEAT SESSION", "leave SEAT", "group PARENT WEIGHT", "drop GROUP",
    "weight GROUP WEIGHT", "freeze", "thaw", "switch none", "switch bfq", "tick", "hold", "release", "undo K", "redo K",
    "sector NUMBER", "queue SEAT", "vtime GROUP", "vtime GROUP CLASS", "class N", "entity N", "line",
    "show seat SEAT", "show outbox SEAT", "show queue SEAT", "show requeued", "show flight", "show service", "show tree GROUP",
    "show host", "show state", "show stored FROM", "show step K",
]]
# A number behind this sign is a sector of the payload. Without a payload no line has one.
SIGN = "@"
FORMS_WITHOUT_PAYLOAD = [form for form in FORMS if not form[-1].startswith(SIGN)]
# The first words of lines that are no steps. They take no serial.
NO_STEPS = {"hold", "release", "undo", "redo", "sector", "queue", "vtime", "class", "entity", "line", "show"}

# The first words of lines that ask and change nothing.
QUERIES = {"sector", "queue", "vtime", "class", "entity", "line", "show"}
# What an answer begins with that tells of a call which was not done.
REFUSALS = ("refused ", "notyet ")
# What names a moment of a line of steps; and what stands between a look and what it must answer, which names one too.
MOMENTS = [form.split() for form in ["stored sector NUMBER", "issued seat SEAT", "serial SERIAL"]]
EQUALS = " = "

NAMES = {
    1: "BadSeat", 2: "SeatTaken", 3: "NoSession", 4: "StaleSession", 5: "NoGroup", 6: "RootGroup", 7: "BadWeight", 8: "BadPrio",
    9: "TooDeep", 10: "GroupsFull", 11: "GroupInUse", 12: "BadCount", 13: "BadLength", 14: "OutOfRange", 15: "TooManyBios",
    16: "NothingOwed", 17: "NothingQueued", 18: "NoTag", 19: "BadTag", 20: "NotInFlight", 21: "BadOutcome", 22: "AlreadyFrozen",
    23: "NotFrozen", 24: "NotDrained", 25: "SameScheduler", 26: "NoneInService", 27: "VtimeFull", 28: "NotHeld", 29: "AlreadyHeld",
    30: "ZeroCount", 31: "NothingToUndo", 32: "NothingToRedo", 33: "HistoryFull", 34: "OutOfMemory",
    41: "Held", 42: "Frozen", 43: "RequestsFull", 44: "NotCompleted",
}


def is_silent(line: str) -> bool:
    """An empty line and a comment print nothing."""
    return not line or line.startswith("#")


def is_refusal(answer: str) -> bool:
    """The call was not done, as things stand or not yet."""
    return answer.startswith(REFUSALS)


def named(answer: str) -> str:
    """A refusal with its name beside its number."""
    return f"{answer} ({NAMES.get(int(answer.split()[1]), 'a number with no name here')})"


def told(answer: str) -> str:
    """An answer, with its name if it is a refusal."""
    return named(answer) if is_refusal(answer) else answer


def is_step(line: str) -> bool:
    """A good line that asks for a step, which takes a serial if it is accepted."""
    return not is_silent(line) and line.split(" ")[0] not in NO_STEPS


def takes_bytes(line: str) -> bool:
    """A good line that takes bytes from the payload, which may not have them."""
    return line.startswith("write ") and line.split(" ")[-1].startswith(SIGN)


def why_bad(line: str, forms: Sequence[Sequence[str]] = FORMS) -> Optional[str]:
    """Why a line is a bad one, of a script or of other forms; None if it is good. Bytes that are no text stand in it as `surrogateescape`
    has them."""
    if len(line.encode(errors="surrogateescape")) > MOST_BYTES:
        return f"more than {MOST_BYTES} bytes"
    if is_silent(line):
        return None
    return why_not_joined(line) or why_other_words(line.split(" "), forms)


def why_no_moment(text: str) -> Optional[str]:
    """Why a text names no moment; None if it names one."""
    look, equals, _ = text.partition(EQUALS)
    if (why := why_not_joined(text)) or not equals:
        return why or why_other_words(text.split(" "), MOMENTS)
    return why_bad(look) if look.split(" ")[0] in QUERIES else f"no look stands before =: {look!r}"


def why_not_joined(text: str) -> Optional[str]:
    """Why a text is not words of plain letters, digits and signs, joined by one space; None if it is."""
    for fault, reason in [("\r", "a carriage return"), ("\t", "a tab"), ("  ", "a space too many: two in a row")]:
        if fault in text:
            return reason
    if text.startswith(" "):
        return "a space too many: before the first word"
    if text.endswith(" "):
        return "a space too many: after the last word"
    if strange := re.search("[^ -~]", text):
        byte = strange[0].encode(errors="surrogateescape")[0]
        return f"a byte that stands in no word: {byte:#04x}"
    return None


def why_other_words(words: Sequence[str], forms: Sequence[Sequence[str]]) -> Optional[str]:
    """Why words have none of these forms; None if they have one."""
    for at, word in enumerate(words):
        forms = [form for form in forms if len(form) > at]
        if not forms:
            return f"a word too many: {word!r}"
        # A byte and a sector of the payload may stand at one place.
        forms = [form for form in forms if form[at].startswith(SIGN) == word.startswith(SIGN)] or forms
        name = forms[0][at]
        if name in CHOICES:
            reason = why_no_choice(name, word)
        elif name.isupper():
            reason = why_no_number(name, word)
        else:
            forms = [form for form in forms if form[at] == word]
            reason = None if forms else why_unknown(word)
        if reason:
            return reason
    if any(len(form) == len(words) for form in forms):
        return None
    return f"too few words: after {words[-1]!r} comes {' or '.join(sorted({form[len(words)] for form in forms}))}"


def why_unknown(word: str) -> str:
    """What is wrong with a word that stands in no form at this place."""
    return f"{'an unknown word' if word == word.lower() else 'a capital letter'}: {word!r}"


def why_no_choice(name: str, word: str) -> Optional[str]:
    """Why a word is none of the few that may stand at this place; None if it is one."""
    *others, last = CHOICES[name]
    if word in CHOICES[name]:
        return None
    return f"{name} is {', '.join(others)} or {last}: {word!r}" if word == word.lower() else why_unknown(word)


def why_no_number(name: str, word: str) -> Optional[str]:
    """Why a word is no number for this place; None if it is one. What stands behind the sign of a payload's sector is judged there."""
    if name.startswith(SIGN):
        return why_no_number(name.removeprefix(SIGN), word.removeprefix(SIGN))
    most = 2**(BITS | BITS_OF_TOOLS)[name] - 1
    if not re.fullmatch("[0-9]+", word):
        return f"{name} is no number: {word!r}"
    if word[0] == "0" and word != "0":
        return f"{name} has a 0 before its number: {word!r}"
    # The longest of all has 20 digits.
    if len(word) > 20 or int(word) > most:
        return f"{name} is at most {most}: {word!r}"
    return None
