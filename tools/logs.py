"""Logs of fio, whose files become clients: what each has to do, who it is, and what a run of them comes to."""

import argparse
import collections
import os
import re

import grammar
from host import BadInput, bad_line, read_lines

SECTOR = 512
STANDARD_INPUT = "-"
# A read, a write or a discard has at most so many sectors, and a client at most so many of them that are not reaped.
MOST_SECTORS = 64
AHEAD = 32
SEATS = 16
PRIO = 4
# The greatest number of a group, of a priority and of a weight; and the weight of a group of which none is said.
MOST_GROUP, MOST_PRIO, MOST_WEIGHT = 31, 7, 1000
GROUP_WEIGHT = 100

# The words of fio's logs.
HEADER = re.compile(r"fio version (\d+) iolog")
VERSIONS = ("2", "3")
NUMBER = re.compile(r"[0-9]{1,20}")
OF_FILES = {"add", "open", "close"}
# What a client does for each of these, by the word of its line.
IOS = {"read": "read", "write": "write", "trim": "discard"}
SYNCS = {"sync", "datasync", "sync_file_range"}
WAIT = "wait"

# The word of a sync among what a client does.
SYNC = "sync"

# Who the files of a log are.
Place = collections.namedtuple("Place", "prio class_name group")
PLACE = Place(PRIO, "be", 0)
# A LOG, and the words behind it.
WITH_PLACE = re.compile(r"(?s)(.*?)((?::(?:prio|class|group|weight)=[^:]*)*)")


class Client:
    """A file of a log: its seat, its session there, and what it has still to do."""

    def __init__(self, seat, log, file, place, depth):
        self.seat, self.log, self.file, self.place, self.depth = seat, log, file, place, depth
        self.session = None
        # Reads, writes and discards, as their word, first sector, number of sectors and time, and syncs.
        self.todo = collections.deque()
        # How many of its bios are not reaped.
        self.ahead = 0
        self.is_in_turn = False

    def may_go_on(self):
        """It has something to do, and room for it; a sync waits for all before."""
        return bool(self.todo) and (self.ahead == 0 if self.todo[0][0] == SYNC else self.ahead < self.depth)


class Account:
    """What a run has come to so far."""

    def __init__(self):
        self.ios = collections.Counter()
        self.bytes = collections.Counter()
        self.bios = self.sent = self.merged = self.given_back = self.failed = self.refused = 0
        # How often each refusal was met.
        self.refusals = collections.Counter()

    def told(self, clients):
        """The line of totals."""
        ios = self.ios
        text = (f"{clients} clients, {ios['read']} reads, {ios['write']} writes, {ios['trim']} trims, {ios['sync']} syncs: "
                f"{self.bytes['read']} bytes read, {self.bytes['write']} bytes written, {self.bytes['discard']} bytes discarded, "
                f"{self.bios} bios, {self.sent} requests sent, {self.merged} bios merged, {self.given_back} requests given back, "
                f"{self.failed} bios failed, {self.refused} refused, {ios[WAIT]} waits left out")
        return "; ".join([text, *(f"{count} x {grammar.named(answer)}" for answer, count in sorted(self.refusals.items()))])


# Logs.

class Log:
    """A log, whose files become clients."""

    def __init__(self, path, clients, account, place=PLACE, depth=AHEAD, is_open=False):
        self.path, self.place, self.depth, self.is_open = path, place, depth, is_open
        self.clients = clients
        self.account = account
        self.version = None
        # The clients that the files of this log are.
        self.files = {}
        # The time of the line, in milliseconds; None in version 2.
        self.time = None

    def read(self):
        """Reads each line, and gives the clients what they have to do."""
        # fio ends each line. What is written by hand, on standard input, may lack the last end.
        for number, row in read_lines(self.path, ends=self.path != STANDARD_INPUT):
            try:
                self.take(row)
            except ValueError as fault:
                raise bad_line(self.path, number, fault) from None
        if self.version is None:
            raise bad_line(self.path, 1, "there is none, and a log begins with `fio version 2 iolog`")

    def take(self, row):
        """Reads a line. Jobs that share a log write its head once each, so a head may stand anywhere."""
        words = row.split()
        if head := HEADER.fullmatch(" ".join(words)):
            if head[1] not in VERSIONS:
                raise ValueError(f"version {head[1]} of fio's logs, where {' and '.join(VERSIONS)} are known")
            self.version = head[1]
        elif self.version is None:
            raise ValueError("no `fio version 2 iolog` or `fio version 3 iolog`, with which a log begins")
        elif words:
            self.act(*self.parts(words))

    def parts(self, words):
        """A line's file, its action, and the numbers after it. In version 3 a time stands before them."""
        form = "FILE ACTION"
        if self.version == "3":
            form = f"TIME {form}"
            before, self.time = self.time, number_of("TIME", words[0])
            if self.is_open and before is not None and before > self.time:
                raise ValueError(f"TIME is before that of the line above: {self.time}")
            words = words[1:]
        elif self.is_open:
            raise ValueError("version 2 has no times, which --open needs")
        if len(words) not in (2, 4):
            raise ValueError(f"in version {self.version} stands {form}, or {form} OFFSET LENGTH")
        file, action, *numbers = words
        return file, action, [number_of(name, word) for name, word in zip(("OFFSET", "LENGTH"), numbers)]

    def act(self, file, action, numbers):
        """Gives the file's client what this action asks for."""
        if action not in {*OF_FILES, *IOS, *SYNCS} and (action, self.version) != (WAIT, "2"):
            raise ValueError(f"{action!r} is no action of version {self.version}")
        if (action in OF_FILES) == bool(numbers):
            raise ValueError(f"{action!r} has {'no' if numbers else 'an'} OFFSET and LENGTH")
        client = self.client_of(file)
        if action in IOS:
            client.todo.append((IOS[action], *sectors_of(*numbers), self.time))
        if action in SYNCS:
            action = SYNC
            client.todo.append((SYNC, 0, 0, self.time))
        self.account.ios[action] += 1

    def client_of(self, file):
        """The client that a file is, which gets the next seat where it appears first."""
        if file not in self.files:
            if len(self.clients) == SEATS:
                raise ValueError(f"{file!r} is a file too many: there are {SEATS} seats")
            self.files[file] = Client(len(self.clients), self.path, file, self.place, self.depth)
            self.clients.append(self.files[file])
        return self.files[file]


def number_of(name, word):
    """The number that a word is."""
    if not NUMBER.fullmatch(word):
        raise ValueError(f"{name} is no number: {word!r}")
    return int(word)


def sectors_of(offset, length):
    """The first sector of a range, and how many there are."""
    for name, number in (("OFFSET", offset), ("LENGTH", length)):
        if number % SECTOR:
            raise ValueError(f"{name} is no multiple of {SECTOR}: {number}")
    if not length:
        raise ValueError("LENGTH is 0")
    return offset // SECTOR, length // SECTOR


class Places:
    """What stands behind the LOGs: who their files are, and the weights of the groups."""

    def __init__(self):
        self.weights = {}
        # The LOG that has named a group first, by its number.
        self.named_by = {}

    def of(self, text):
        """The path and the place that a LOG is. A file that has such a name is a file."""
        path, words = WITH_PLACE.fullmatch(text).groups()
        if not words or os.path.exists(text):
            return text, PLACE
        try:
            place = self.place(words[1:].split(":"))
        except ValueError as fault:
            raise BadInput(f"{text}: {fault}") from None
        self.named_by.setdefault(place.group, text)
        return path, place

    def place(self, words):
        """The place that some words say."""
        said = dict(word.split("=", 1) for word in words)
        if len(said) < len(words):
            raise ValueError("a word stands there twice")
        class_name = said.get("class", PLACE.class_name)
        if class_name not in grammar.CLASSES:
            raise ValueError(grammar.why_no_choice("CLASS", class_name))
        group = within("a group", said.get("group", "0"), 0, MOST_GROUP)
        if "weight" in said:
            weight = within("a weight", said["weight"], 1, MOST_WEIGHT)
            if not group:
                raise ValueError("a weight is that of a group, and the root has none")
            if self.weights.setdefault(group, weight) not in (None, weight):
                raise ValueError(f"group {group} has the weight {self.weights[group]} already")
            self.weights[group] = weight
        elif group:
            self.weights.setdefault(group, None)
        return Place(within("a priority", said.get("prio", str(PRIO)), 0, MOST_PRIO), class_name, group)

    def lines(self):
        """The lines that make the groups, each with its number."""
        for number in sorted(self.weights):
            if number > 1 and number - 1 not in self.weights:
                raise BadInput(f"{self.named_by[number]}: there is a group {number}, and no group {number - 1}: they are numbered from 1 "
                               "without a gap")
        return [(f"group 0 {self.weights[number] or GROUP_WEIGHT}", number) for number in sorted(self.weights)]


def within(name, word, least, most):
    """The number that a word is, within its limits."""
    if not NUMBER.fullmatch(word) or not least <= int(word) <= most:
        raise ValueError(f"{name} is {least} to {most}: {word!r}")
    return int(word)


def number(name, most):
    """What reads a number from 1 on, as argparse wants it."""
    def of(word):
        try:
            return within(name, word, 1, most)
        except ValueError as fault:
            raise argparse.ArgumentTypeError(str(fault)) from None
    return of
