"""The options of a run as a page takes them, which are those of `bfqhost sim` but for the image, and the first that is out of its limits.

docs/FORMATS.md has the same limits, and tests/page.py compares the two.
"""

from __future__ import annotations

import re
from typing import Dict, NamedTuple, Optional, Sequence, Union

# No number of an option is greater.
MOST = 2**64 - 1
SCHEDULER = "--scheduler"
SCHEDULERS = ("bfq", "none")


class Option(NamedTuple):
    """An option of a number: its field in a page, its limits, what it is if it is not given, and what it sets. A greatest number that is
    a field is what that one is."""

    name: str
    field: str
    least: int
    most: Union[int, str]
    usual: int
    says: str


# In the order in which the host looks at them.
OPTIONS = [
    Option("--nr-requests", "nrRequests", 1, 256, 64, "requests in the host"),
    Option("--tags", "tags", 1, 64, 4, "tags of the device"),
    Option("--max-budget", "maxBudget", 256, 65536, 4096, "greatest budget, in sectors"),
    Option("--first-budget", "firstBudget", 256, "maxBudget", 1024, "budget of a new queue"),
    Option("--timeout", "timeout", 1, 1000, 8, "ticks in service"),
    Option("--history", "history", 1, 16777216, 65536, "calls in the journal"),
    Option("--first-vtime", "firstVtime", 0, 2**62, 0, "first virtual time"),
    Option("--sectors", "sectors", 0, 65536, 1024, "sectors of the device"),
]


def why_bad(words: Sequence[str]) -> Optional[str]:
    """Why words are no options of a page, as `--tags 4` or `--tags=4`; None if they are."""
    parts = [part for word in words for part in word.split("=", 1)]
    given: Dict[str, str] = {}
    for at in range(0, len(parts), 2):
        name, *value = parts[at:at + 2]
        if name != SCHEDULER and name not in {option.name for option in OPTIONS}:
            return f"a page has no option {name!r}"
        if not value:
            return f"{name} has no value"
        if name in given:
            return f"{name} is given twice"
        given[name] = value[0]
    return why_no_value(given)


def why_no_value(given: Dict[str, str]) -> Optional[str]:
    """Why the values of some options are none, the first that is spelled otherwise or else the first out of its limits; None if all are."""
    for name, word in given.items():
        if name == SCHEDULER and word not in SCHEDULERS:
            return f"{name} is {' or '.join(SCHEDULERS)}: {word!r}"
        if name != SCHEDULER and (not re.fullmatch("0|[1-9][0-9]{0,19}", word, re.ASCII) or int(word) > MOST):
            return f"{name} is no number: {word!r}"
    numbers = {option.field: int(given.get(option.name, option.usual)) for option in OPTIONS}
    for option in OPTIONS:
        most = numbers[option.most] if isinstance(option.most, str) else option.most
        if not option.least <= numbers[option.field] <= most:
            return f"{option.name} is {option.least} to {most}, and not {numbers[option.field]}"
    return None
