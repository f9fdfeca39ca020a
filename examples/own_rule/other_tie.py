#!/usr/bin/env python3
"""A variation: of those that may be picked with the same finish, the one with the higher number is, and not the one with the lower."""

from keeper import answer_all
from model import Machine


class OtherTie(Machine):
    """The host, but for a tie."""

    def rank(self, member):
        return member.finish, -member.entity


if __name__ == "__main__":
    answer_all(OtherTie)
