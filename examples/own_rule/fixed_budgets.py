#!/usr/bin/env python3
"""A variation: the budget of a queue never changes. It is `--first-budget` from its first service to its last."""

from keeper import answer_all
from model import Machine


class FixedBudgets(Machine):
    """The host, but for the rule that an expiry changes the budget."""

    def next_budget(self, cause, budget, sent):
        return budget


if __name__ == "__main__":
    answer_all(FixedBudgets)
