"""Runs of tools/futures from a record: from each entry the search is that from a script of the same calls.

The records are written here by docs/FORMATS.md, "A record", frame by frame, and each is read again by tests/record_file.py.
"""

import csv
import functools
import os
import random
import shlex
import subprocess
import tempfile
from typing import NamedTuple

from futures_rows import futures
from record_file import SECTOR, read_record
from state_pairs import ONE_SUM
from tools import BAD_INPUT, DONE, NOT_WANTED, NO_PROGRAM, SECONDS, TOOLS, differences, faults_of, started, written

from host import Host  # tools.py has made the path to it

HEADER = "bfqhost record 1 {} {} {} 1024 4096 8 65536 0 64\n"
OPERATOR, CORE, DEVICE = 0x80, 0xc0, 0x40
# Kinds of entries, and how long their numbers are.
OF_CLIENTS = {"read": (0x02, (8, 8, 2)), "write": (0x03, (8, 8, 2)), "discard": (0x06, (8, 8, 2)), "reap": (0x04, (8,)), "leave": (0x05, ())}
OF_OPERATOR = {"group": (0x11, (1, 2)), "freeze": (0x14, ()), "hold": (0x18, ()), "release": (0x19, ()), "undo": (0x1a, (4,)), "redo": (0x1b, (4,))}
CLASSES = {"rt": 1, "idle": 3}


class Of(NamedTuple):
    """What a host is that is recorded."""
    scheduler: str = "bfq"
    room: int = 64
    tags: int = 4

    def options(self):
        """The same as options of sim."""
        return ["--scheduler", self.scheduler, "--nr-requests", str(self.room), "--tags", str(self.tags), "--sectors", "64"]


def body_of(line, payload, counts):
    """The body of an entry. `counts` has how many sectors each issue has."""
    word, *words = line.split(" ")
    if word == "dispatch":
        return bytes([CORE, 0x31])
    if word == "attach":
        seat, group, prio, *of_class = words
        return bytes([int(seat), 0x08 if of_class else 0x01, int(group), int(prio), *(CLASSES[it] for it in of_class)])
    if word in ("finish", "requeue"):
        tag, issue, *outcome = words
        flight = bytes([int(tag)]) + int(issue).to_bytes(8, "big")
        kind = 0x24 if word == "requeue" else {"stored": 0x21, "fill": 0x22}.get(outcome[0], 0x23)
        rest = bytes([int(outcome[1])]) * SECTOR * counts[issue] if kind == 0x22 else bytes([["short", "fault"].index(outcome[0]) + 1]) if kind == 0x23 else b""
        return bytes([DEVICE, kind]) + flight + rest
    who, of_it = (int(words.pop(0)), OF_CLIENTS) if word in OF_CLIENTS else (OPERATOR, OF_OPERATOR)
    kind, sizes = of_it[word]
    numbers = b"".join(int(number).to_bytes(size, "big") for number, size in zip(words, sizes))
    return bytes([who, kind]) + numbers + (bytes_of(words[-1], int(words[-2]), payload) if word == "write" else b"")


def bytes_of(source, count, payload):
    """The bytes of a write."""
    begin = SECTOR * int(source[1:]) if source.startswith("@") else None
    return bytes([int(source)]) * SECTOR * count if begin is None else payload[begin:begin + SECTOR * count]


def record_of(*given):
    """The bytes of a record of a script."""
    return recorded(*given)[0]


def recorded(program, lines, host, payload):
    """The bytes of a record of a script, each of whose lines the program must take, and the answers."""
    with tempfile.TemporaryDirectory() as folder:
        with Host(program, [*host.options(), "--payload", written(folder, "payload", payload)]) as run:
            answers = [run.ask(line) for line in lines]
    assert not [it for it in answers if it.startswith(("refused", "notyet"))], answers
    counts = {words[2]: int(words[5]) for words in (it.split(" ") for it in answers) if words[0] == "issued"}
    bodies = [body_of(line, payload, counts) for line in lines]
    data = HEADER.format(*host).encode() + b"".join(len(body).to_bytes(4, "big") + body for body in bodies)
    _, entries, is_torn = read_record(data)
    assert not is_torn and [it.call.split(" ")[:5] for it in entries] == [line.split(" ")[:5] for line in lines]
    return data, answers


# Sectors whose bytes are not alike; in one of them stands a word.
PAYLOAD = bytearray(random.Random(7).randbytes(6 * SECTOR))
PAYLOAD[4 * SECTOR:4 * SECTOR + 6] = b"needle"
PAYLOAD = bytes(PAYLOAD)
# Writes of such bytes are queued, in flight, given back, stored, undone and done anew. A client leaves while its requests are in flight, and
# is gone at the end.
LINES = ["attach 0 0 4", "attach 2 0 4 rt", "write 0 1 5 2 @0", "write 0 1 20 1 @5", "dispatch", "write 2 2 6 2 @2", "read 2 2 5 3", "requeue 0 5",
         "dispatch", "dispatch", "finish 0 9 stored", "write 0 1 30 2 @4", "hold", "undo 2", "release", "discard 0 1 20 1", "dispatch",
         "finish 0 9 stored", "dispatch", "leave 2", "reap 0 1", "finish 1 10 stored", "finish 2 14 fill 3", "finish 0 16 stored",
         "attach 3 0 4 idle"]
# Before these the host is held. Of the others some are tried each time.
HELD, SOME = (14, 15), (0, 1, 4, 9, 12, 18, 22, len(LINES))
# One waits for all that it is owed, and one comes.
CLIENTS = "seat 0\nsync\nwrite 6 1 @1\nseat 1\n"
# Two writes whose bytes have one sum. A client has the same.
OF_ONE_SUM = ["attach 0 0 4", "write 0 1 0 1 @0", "write 0 1 0 1 @1", "dispatch"]
CLIENTS_OF_ONE_SUM = "seat 0\nwrite 0 1 @0\nwrite 0 1 @1\n"
# As many requests as there is room for, with one tag. A client has another one.
FULL = ["attach 0 0 4", "write 0 1 8 2 @3", "write 0 1 20 1 7", "dispatch"]
CLIENTS_OF_FULL = "seat 0\nwrite 6 1 @1\nsync\n"


def ran(program, folder, words, tool="futures"):
    """What a tool prints, what it says on standard error, and its status."""
    with started([os.path.join(TOOLS, tool), "--program", program, *words], folder) as run:
        return *(text.decode() for text in run.communicate(timeout=SECONDS)), run.returncode


def contents_in(folder, into, data, payload):
    """The contents that were written: the steps of each, and its sectors with their bytes."""
    entries, found = read_record(data)[1], []
    with open(os.path.join(folder, into, "contents.csv"), encoding="ascii") as file:
        for row in csv.DictReader(file):
            sectors = {}
            for run in row["sectors"].split():
                start, count, sign, place = run.replace("=", " = ").replace("@", " @ ").replace("#", " # ").replace("+", " ", 1).split(" ")
                for at in range(int(count)):
                    sectors[int(start) + at] = block_of(sign, place, at, entries, data, payload)
            found.append((row["steps"], sectors))
    return found


def block_of(sign, place, at, entries, data, payload):
    """The bytes of a sector that is told by a byte, by the payload, or by an entry."""
    if sign == "=":
        return bytes([int(place, 16)]) * SECTOR
    if sign == "@":
        begin = SECTOR * (int(place) + at)
        return payload[begin:begin + SECTOR]
    entry, sector = map(int, place.split("."))
    count = int(entries[entry - 1].call.split(" ")[4])
    begin = entries[entry - 1].end - SECTOR * (count - sector - at)
    return data[begin:begin + SECTOR]


def alike_faults(program, lines, clients, payload, words, entries, host=Of(), more=()):
    """From these entries, and from the end, a search is as one from the end of a script of the calls before. Lines may go on from there."""
    data, answers = recorded(program, lines, host, payload)
    with tempfile.TemporaryDirectory() as folder:
        for name, text in (("run.rec", data), ("clients", clients), ("payload", payload)):
            written(folder, name, text)
        for to in [*entries, None]:
            script = lines[:max(to - 1, 0)] if to is not None else lines
            written(folder, "script", "".join(f"{line}\n" for line in [*script, *more]))
            written(folder, "more", "".join(f"{line}\n" for line in more))
            head = ["clients", "--payload", "payload", *words, "--into"]
            by_record = ran(program, folder, [*head, f"record-{to}", "--record", "run.rec", "--script", "more", "--",
                                              *([] if to is None else ["--to", str(to)])])
            by_script = ran(program, folder, [*head, f"script-{to}", "--script", "script", "--", *host.options()])
            # A way from a script begins with its lines.
            told = "".join(f"    {line} -> {answer}\n" for line, answer in zip(script, answers))
            yield from differences(f"from entry {to}", by_record, (by_script[0].replace(told, "") if told else by_script[0], "", DONE))
            found = [contents_in(folder, f"{it}-{to}", data, payload) for it in ("record", "script")]
            yield from [] if found[0] == found[1] else [f"entry {to} has other contents than its script"]


def bytes_faults(program):
    """Without a payload the bytes of a record are told by its entries. Whatever is queued or in flight is stored as it stands there."""
    data = record_of(program, LINES, Of(), PAYLOAD)
    with tempfile.TemporaryDirectory() as folder:
        written(folder, "run.rec", data)
        written(folder, "clients", "seat 0\nsync\n")
        _, *ended = ran(program, folder, ["clients", "--record", "run.rec", "--into", "out", "--", "--to", "13"])
        yield from differences("how it ends", ended, ["", DONE])
        with open(os.path.join(folder, "out", "contents.csv"), encoding="ascii") as file:
            told = file.read().splitlines()
        found = [sectors for _, sectors in contents_in(folder, "out", data, b"")]
    block = [PAYLOAD[SECTOR * at:SECTOR * at + SECTOR] for at in range(6)]
    # Entry 11 has stored the first write. Of the others, of entries 4, 6 and 12, any may be stored.
    others = [{20: block[5]}, {6: block[2], 7: block[3]}, {30: block[4], 31: block[5]}]
    wanted = [{5: block[0], 6: block[1]}]
    for other in others:
        wanted += [content | other for content in wanted]
    yield from differences("what stands there at first", told[1], "0,0,,5+2#3.0")
    yield from [] if len(found) == 8 and all(it in found for it in wanted) else [f"the contents are {told}"]


def played_faults(program):
    """A failing way from an entry is the record to that entry, and then the lines: tools/expect, replay and tools/export play it."""
    data, to = record_of(program, LINES, Of(), PAYLOAD), ["--", "--to", "13"]
    with tempfile.TemporaryDirectory() as folder:
        for name, text in (("run.rec", data), ("disk.img", bytes(64 * SECTOR)), ("clients", "seat 0\nsync\n")):
            written(folder, name, text)
        words = ["clients", "--record", "run.rec", "--image", "disk.img", "--check", "sh -c '! grep -q needle $0'", "--into", "out", *to]
        stdout, *ended = ran(program, folder, words)
        yield from differences("how it ends", ended, ["", NOT_WANTED])
        with open(os.path.join(folder, "out", "fail-0001.script"), encoding="ascii") as file:
            head, *rows = file.read().splitlines()
        # The real time client is served first, the nearer sectors before the others.
        yield from differences("the way", rows, ["dispatch -> issued 0 13 fetch 5 3", "dispatch -> issued 2 14 store 6 2", "dispatch -> issued 3 15 store 30 2",
                                                 "finish 3 15 stored -> finished 1"])
        yield from [] if "".join(f"    {row}\n" for row in rows) in stdout else [f"another way is shown: {stdout!r}"]
        yield from differences("tools/expect", ran(program, os.path.join(folder, "out"), shlex.split(head)[2:], "expect"),
                               ("4 lines asked, 4 answers as wanted\n", "", DONE))
        script = "".join(f"{row.partition(' -> ')[0]}\n" for row in rows) + "sector 30\n"
        played = subprocess.run([program, "replay", "run.rec", *to[1:]], cwd=folder, input=script, capture_output=True, text=True, timeout=SECONDS,
                                check=False)
        yield from differences("replay", played.stdout.splitlines(), [*(row.partition(" -> ")[2] for row in rows),
                                                                      f"sector 30 overlay {PAYLOAD[4 * SECTOR:5 * SECTOR].hex()}"])
        written(folder, "script", script)
        ran(program, folder, ["disk.img", "again.img", "--record", "run.rec", "--script", "script", *to], "export")
        with open(os.path.join(folder, "again.img"), "rb") as one, open(os.path.join(folder, "out", "fail-0001.img"), "rb") as other:
            yield from [] if one.read() == other.read() else ["tools/export writes another image"]


def end_faults(program):
    """A way from the end of a record names the entry, so that it is played from there also when the record has grown."""
    data = record_of(program, LINES, Of(), PAYLOAD)
    with tempfile.TemporaryDirectory() as folder:
        for name, text in (("run.rec", data), ("disk.img", bytes(64 * SECTOR)), ("clients", "seat 0\nwrite 0 1 5\n")):
            written(folder, name, text)
        ran(program, folder, ["clients", "--record", "run.rec", "--image", "disk.img", "--check", "sh -c '! grep -q needle $0'", "--into", "passes"])
        ran(program, folder, ["clients", "--record", "run.rec", "--image", "disk.img", "--check", "false", "--into", "out"])
        yield from differences("what passes", os.listdir(os.path.join(folder, "passes")), ["contents.csv"])
        written(folder, "run.rec", data + bytes([0, 0, 0, 2, OPERATOR, 0x14]))
        with open(os.path.join(folder, "out", "fail-0002.script"), encoding="ascii") as file:
            words = shlex.split(file.readline())[2:]
        yield from differences("the entry", words[words.index("--to"):][:2], ["--to", str(len(LINES) + 1)])
        # The discard that is queued is sent, and done.
        yield from differences("tools/expect", ran(program, os.path.join(folder, "out"), words, "expect"), ("2 lines asked, 2 answers as wanted\n", "", DONE))


def refused(program):
    """What a search from a record refuses."""
    record, held = record_of(program, LINES, Of(), PAYLOAD), record_of(program, LINES[:14], Of(), PAYLOAD)

    def row(name, words, stderr, data=record, status=BAD_INPUT, clients="seat 0\n", **files):
        return futures(f"from a record, {name}", ["--into", "out", "--record", "run.rec", *words], clients, stderr=stderr, status=status,
                       files={"run.rec": data, **files})

    options = "with --record the options behind -- are --to, --history, --payload, --image: "
    ends = [it.end for it in read_record(record)[1]]
    return [
        row("held", [], "run.rec: behind entry 14 the host is held, so that it takes no step\n", held),
        row("held before an entry", ["--", "--to", "14"], "run.rec: behind entry 13 the host is held, so that it takes no step\n"),
        row("a script that ends held", ["--script", "script"], "script: bad line 2: the script ends here, and the host is held, so that it takes no step\n",
            script="attach 1 0 4\nhold\n"),
        row("a host that stays held", ["--script", "script"], "script: bad line 1: the script ends here, and the host is held, so that it takes no step\n",
            held, script="show host\n"),
        row("past the end", ["--", "--to", "26"], "--to 26: run.rec has 25 entries\n"),
        row("no entry", ["--", "--to=x"], "--to: ENTRY is no number: 'x'\n"),
        row("nothing behind --to", ["--", "--to"], "--to: ENTRY is no number: ''\n"),
        row("torn", [], f"run.rec: torn behind entry 24: `head -c {ends[-2]}` leaves out what was cut\n", record[:-1]),
        row("torn in a length", ["--", "--to", "3"], f"run.rec: torn behind entry 25: `head -c {ends[-1]}` leaves out what was cut\n", record + b"\0\0"),
        row("a bad entry", ["--", "--to", "3"], "run.rec: bad entry 26\n", record + b"\0\0\0\1\0"),
        row("no record", [], "run.rec: no record: its first line is not that of one\n", b"bfqdisk1"),
        row("none", ["--record", "none"], "none: No such file or directory\n"),
        row("a folder", ["--record", "."], ".: no record: it is no file\n"),
        row("another image", ["--image", "image"], "image: 63 sectors, and the host of run.rec had 64\n", image=bytes(63 * SECTOR)),
        row("a client that has left", ["--", "--to", "22"], "clients: bad line 1: whoever sat at seat 2 has left, and is not gone yet\n",
            clients="seat 2\n"),
        row("a client that owes", ["--", "--to", "12"], "clients: bad line 3: no result is owed here\n", clients="seat 0\nsync\nreap\n"),
        *(row(f"an option that is not for it: {it}", ["--", it, "1"], f"{options}{it!r}\n") for it in ("--tags", "--scheduler=none", "--list", "1")),
        row("a short history", ["--", "--history", "3"], "PROGRAM has ended with status 6 before it answered 'show host': config: history_max\n",
            status=NO_PROGRAM),
    ]


def record_runs(program, is_all):
    """The name of each run, with what gives its faults."""
    each = [it for it in range(len(LINES) + 1) if it not in HELD]
    alike = functools.partial(alike_faults, program)
    yield "from entries", lambda: [*alike(LINES, CLIENTS, PAYLOAD, [], each if is_all else SOME)]
    yield "whole searches", lambda: [*alike(LINES, CLIENTS, PAYLOAD, ["--all-states", "--requeues", "1"], each if is_all else SOME[3:4])]
    yield "the longest wait", lambda: [*alike(LINES, CLIENTS, PAYLOAD, ["--wait"], each if is_all else SOME[3:4])]
    # Both are of the record: what an undo brings back, and what it takes away.
    yield "a script goes back", lambda: [*alike(LINES, CLIENTS, PAYLOAD, [], SOME[5:6], more=["hold", "undo 4", "release", "write 0 1 50 1 5"])]
    yield "a full host", lambda: [*alike(FULL, CLIENTS_OF_FULL, PAYLOAD, [], range(len(FULL) + 1), Of("none", 2, 1))]
    yield "bytes of one sum", lambda: [*alike(OF_ONE_SUM, CLIENTS_OF_ONE_SUM, b"".join(ONE_SUM), ["--all-states"], range(len(OF_ONE_SUM) + 1))]
    yield "its bytes", lambda: [*bytes_faults(program)]
    yield "a failure that is played", lambda: [*played_faults(program)]
    yield "a record that grows", lambda: [*end_faults(program)]
    for run in refused(program):
        yield run.name.removeprefix("futures: from a record, "), lambda run=run: faults_of(run, program)
