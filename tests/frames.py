"""Frames and streams, as the program of crates/serve_bench reads and writes them (`serve_bench frames`).

The files of tests/frames have bytes, each with what is read of them. They were written by hand, or by a program of another language that
knows the format alone. A value that is read must have these bytes as its frame. Streams of the frames of each side are cut at every byte,
and come byte by byte: the values that come must be those of the frames, whatever the pieces. A client's are in both versions, `client2` is
version 2; a client's stream says its own.
"""

import os
import subprocess

from benches import builds

TOP = os.path.dirname(os.path.dirname(os.path.abspath(__file__)))
SECONDS = 120
# How many rows each side's file has, so that one that is cut short is told.
ROWS = {"client": 34, "client2": 47, "operator": 49, "host": 61}

SEVEN, SEVENS = "07", "\\x07"
READ = 'Host(Answer(Accepted(Completed {{ bio: {}, result: Read(b"{}") }})))'
STORE = 'Client(Submit {{ session: 1, op: Store, range: Range {{ start: 4, count: 64 }}, payload: b"{}" }})'
# The longest store, the shortest and the longest read; a read of 513 bytes, and one of 64 sectors and a byte. A discard with a sector.
LONG = [
    ("client", "00008013 03 0000000000000001 0000000000000004 0040" + SEVEN * 32_768, STORE.format(SEVENS * 32_768)),
    ("client2", "00008013 03 0000000000000001 0000000000000004 0040" + SEVEN * 32_768, STORE.format(SEVENS * 32_768)),
    ("host", "00000209 83 0000000000000000" + SEVEN * 512, READ.format(0, SEVENS * 512)),
    ("host", "00008009 83 ffffffffffffffff" + SEVEN * 32_768, READ.format(2**64 - 1, SEVENS * 32_768)),
    ("host", "0000020a 83 0000000000000005" + SEVEN * 513, "BadBody"),
    ("host", "0000800a 83 0000000000000005" + SEVEN * 32_769, "BadBody"),
    ("client2", "00000213 06 0000000000000001 0000000000000004 0001" + SEVEN * 512, "BadBody"),
]
# Four calls of the operator, and a frame of a kind that he has not.
CALLS = [("00000001 14", "Operator(Freeze)"), ("00000004 13 01 03e8", "Operator(SetWeight { group: 1, weight: 1000 })"),
         ("00000005 1a 00000002", "Operator(Undo { k: 2 })"), ("00000001 1c", "Operator(Stop)")]
NO_KIND = "00000001 04"
# A length is judged at its fourth byte: 0, and the first above that of a store of 64 sectors.
LENGTHS = [("000000", None), ("00000000", "BadLengthField"), ("00000001", None), ("00008013", None), ("00008014", "BadLengthField"),
           ("ffffffff", "BadLengthField")]
# After a fault it is what comes of everything: of nothing, and of a stream. The greatest length is 32,787.
STAY = [("00000000", "BadLengthField"), ("00008014", "BadLengthField"), ("01000001", "BadLengthField"), ("00000002 09 00", "BadKind"),
        ("00000002 14 00", "BadBody"), ("00000002 16 02 00 00", "BadBody")]
# What begins a client's stream of version 2. A first frame of its kind with another length or number is BadBody, and a later one BadKind.
VERSION = ("00000002 07 02", None)
NO_VERSIONS = ["00000001 07", "00000002 07 00", "00000002 07 01", "00000002 07 03", "00000002 07 ff", "00000003 07 02 00", "00000003 07 00 02",
               "00000009 07 0000000000000002"]
ATTACH = ("00000003 01 00 04", "Client(Attach { group: 0, prio: 4, class: BestEffort })")
IDLE = ("00000004 08 01 04 03", "Client(Attach { group: 1, prio: 4, class: Idle })")
DISCARD = ("00000013 06 0000000000000001 0000000000000004 0002",
           'Client(Submit { session: 1, op: Discard, range: Range { start: 4, count: 2 }, payload: b"" })')
# Frames of a client before one that is none, that one, and its fault.
FAULTS = [
    *(([], digits, "BadBody") for digits in NO_VERSIONS),
    *((before, digits, "BadKind") for digits in [VERSION[0], *NO_VERSIONS] for before in ([ATTACH], [VERSION], [VERSION, IDLE])),
    *((before, digits, "BadKind") for digits in (DISCARD[0], IDLE[0], "00000001 06", "00000004 08 00 04 02") for before in ([], [ATTACH])),
    *(([VERSION, DISCARD], digits, "BadBody") for digits in
      ("00000012 06 0000000000000001 0000000000000004 00", "00000014 06 0000000000000001 0000000000000004 0002 00", "00000004 08 00 07 00",
       "00000004 08 00 04 02", "00000004 08 00 07 04", "00000003 08 00 07", "00000005 08 00 07 01 00")),
    ([VERSION], "00000000", "BadLengthField"), ([VERSION], "00008014", "BadLengthField"), ([VERSION], "00000002 09 04", "BadKind"),
]
# A kind and a body are judged once the frame is whole.
NOT_YET = ["000000", "00008013", "00000002 09", "00000002 14"]


def rows_of(side):
    """The bytes of a side's file, each with what is read."""
    with open(os.path.join(TOP, "tests", "frames", f"{side}.txt"), encoding="utf-8") as file:
        rows = [line.rstrip("\n").partition(" | ") for line in file if not line.startswith("#")]
    return [(digits, wanted) for digits, _, wanted in rows]


def digits_of(text):
    """The digits of a text alone, two for each byte."""
    return text.replace(" ", "")


def told(pieces):
    """What is told of pieces: of each the values, the fault, and whether it ends between two frames."""
    return "".join("".join(f"{it} " for it in values) + (f"{fault} " if fault else "") + ("./" if is_between else "/")
                   for values, fault, is_between in pieces)


def fed(frames, cuts, fault=None):
    """A line of the stream of these frames, cut at these bytes, and what is told of it. Its last frame is one of a fault if there is one."""
    stream, ends = "".join(digits_of(it) for it, _ in frames), []
    for digits, _ in frames:
        ends.append((ends[-1] if ends else 0) + len(digits_of(digits)) // 2)
    places, pieces = [0, *cuts, len(stream) // 2], []
    for start, end in zip(places, places[1:]):
        values = [value for at, (_, value) in zip(ends, frames) if start < at <= end and value is not None]
        has_fault = fault is not None and end == ends[-1]
        pieces.append((values, fault if has_fault else None, (end == 0 or end in ends) and not has_fault))
    return "/".join(stream[2 * a:2 * b] for a, b in zip(places, places[1:])), told(pieces)


def cuts_of(frames):
    """A cut at each place of these frames, the ends too; and one behind each byte, all at once."""
    count = sum(len(digits_of(it)) // 2 for it, _ in frames)
    return [*([at] for at in range(count + 1)), range(1, count)]


def versions():
    """Lines of clients' streams of version 2, and of those whose version is none or is said too late."""
    good = [VERSION, *(it for it in rows_of("client2") if not it[1].startswith("Bad"))]
    for cuts in cuts_of(good):
        yield "a stream of version 2, in pieces", "client", *fed(good, cuts)
    for before, digits, fault in FAULTS:
        frames = [*before, (digits, None)]
        for cuts in cuts_of(frames):
            yield "faults of versions", "client", *fed(frames, cuts, fault)
    for side in ("operator", "host"):
        for cuts in cuts_of([VERSION]):
            yield "a version of another side", side, *fed([VERSION], cuts, "BadKind")
    # What is no version stays a fault, whatever comes behind it.
    for digits in NO_VERSIONS:
        yield ("no version, and a stream", "client", f"{digits}//{VERSION[0]}/{ATTACH[0]}", told([([], "BadBody", False)] * 4))
    # A call in each piece, and the frame of the version alone, or with the first of them.
    pieces = [([ATTACH[1]], None, True), ([DISCARD[1]], None, True), ([IDLE[1]], None, True)]
    yield ("calls of version 2", "client", f"{VERSION[0]}/{ATTACH[0]}/{DISCARD[0]}/{IDLE[0]}", told([([], None, True), *pieces]))
    yield ("calls of version 2", "client", f"{VERSION[0]}{ATTACH[0]}/{DISCARD[0]}/{IDLE[0]}", told(pieces))
    # The longest frame, of the version's kind: a fault at its last byte, and none before it.
    yield ("the longest version", "client", "00008013" + "/07" * 32_787, told([([], None, False)] * 32_787 + [([], "BadBody", False)]))


def streams():
    """Lines of streams, by the name of what they show, with what is told of each."""
    yield from versions()
    for side in ("client", "operator", "host"):
        frames = [it for it in rows_of(side) if not it[1].startswith("Bad")]
        if side == "host":
            frames.append(next((digits, wanted) for of, digits, wanted in LONG if of == side))
        for cuts in cuts_of(frames):
            yield f"a stream of the {side}, in pieces", side, *fed(frames, cuts)
        for digits, fault in LENGTHS:
            yield "a length", side, digits + "/", told([([], fault, False)] * 2)
    for cuts in [*([at] for at in range(33)), range(1, 32)]:
        yield "a fault behind four calls", "operator", *fed([*CALLS, (NO_KIND, None)], cuts, "BadKind")
    yield ("a fault after a call", "operator", "000000051a/00000002 00000000/",
           told([([], None, False), ([CALLS[2][1]], "BadLengthField", False), ([], "BadLengthField", False)]))
    stream = "".join(it for it, _ in CALLS)
    for digits, fault in STAY:
        yield "a fault that stays", "operator", f"{digits}//{stream}", told([([], fault, False)] * 3)
    for digits in NOT_YET:
        yield "no fault yet", "operator", f"{digits}/", told([([], None, False)] * 2)
    # The longest frame, of a kind that is not there: a fault at its last byte, and none before it.
    yield ("the longest frame", "operator", "00008013" + "/09" * 32_787, told([([], None, False)] * 32_787 + [([], "BadKind", False)]))


def frame_runs():
    """Each table and each kind of stream, of each build of the program, with its faults."""
    rows = [(f"tests/frames/{side}.txt", side, *row) for side in ROWS for row in rows_of(side)]
    yield "tests/frames", [f"{side}.txt has not {count} rows" for side, count in ROWS.items() if len(rows_of(side)) != count]
    rows += [("long frames", *row) for row in LONG] + list(streams())
    lines = "".join(f"{side} {digits}\n" for _, side, digits, _ in rows)
    for path, which in builds("serve_bench"):
        faults = {name: [] for name, _, _, _ in rows}
        try:
            ran = subprocess.run([path, "frames"], input=lines, capture_output=True, text=True, timeout=SECONDS, check=False)
            got, ended = ran.stdout.splitlines(), [ran.returncode, ran.stderr]
        except (OSError, subprocess.TimeoutExpired) as refused:
            got, ended = [], [str(refused)]
        for at, (name, side, digits, wanted) in enumerate(rows):
            if got[at:at + 1] != [wanted] and len(faults[name]) < 3:
                faults[name].append(f"of {side} {digits[:80]} comes {str(got[at:at + 1])[:160]} and not {wanted[:160]}")
        is_whole = ended == [0, ""] and len(got) == len(rows)
        yield f"serve_bench frames ends well{which}", [] if is_whole else [f"{len(got)} of {len(rows)} lines, {ended}"]
        yield from ((f"{name}{which}", found) for name, found in faults.items())
