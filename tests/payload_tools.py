"""Runs of the tools over a script that takes bytes from a payload: expect, step, export, why, futures and page.

What must come follows from docs/FORMATS.md and the bytes that this program writes into the files.
"""

import os

from payloads import A, B, COUNTED, LETTERS
from step_export_plot import BAD_INPUT, compared, contents, faults_in, ran
from tools import differences, written

SECTOR = 512
IMAGE = b"D" * SECTOR * 16
ROWS = [("attach 0 0 4", "attached 1"), ("write 0 1 9 3 @0", "queued 2"), ("dispatch", "issued 0 3 store 9 3"), ("work 0 3", "finished 1"),
        ("sector 10", "sector 10 overlay 42")]
SCRIPT = "".join(f"{line}\n" for line, _ in ROWS)
PAST = "attach 0 0 4\nwrite 0 1 9 1 @3\n"
OVER = ["--", "--payload", "letters"]
NO_BYTES = "there is no payload, or it has not so many bytes from there on: --payload FILE names one"


def files_in(folder):
    """The files of a run: a script, the same with its answers, one that asks for too many bytes, an image, and a payload."""
    written(folder, "script", SCRIPT)
    written(folder, "answered", "".join(f"{line} -> {answer}\n" for line, answer in ROWS))
    written(folder, "past", PAST)
    written(folder, "image", IMAGE)
    written(folder, "letters", LETTERS)


def expect_over_a_payload(program, folder):
    """Each line is answered as wanted, and it is told which line the payload has no bytes for."""
    files_in(folder)
    yield from compared(ran(["expect", "answered", *OVER], folder, program), "5 lines asked, 5 answers as wanted\n")
    yield from compared(ran(["expect", "answered"], folder, program), "", f"answered: bad line 2: {NO_BYTES}\n", BAD_INPUT)
    yield from compared(ran(["expect", "past", *OVER], folder, program), "", f"past: bad line 2: {NO_BYTES}\n", BAD_INPUT)


def step_over_a_payload(program, folder):
    """A line for which there are no bytes is not asked, and the next one is taken. What is saved says the payload."""
    files_in(folder)
    typed = "write 0 1 9 1 @3\nwrite 0 1 9 0 @4\nwrite 0 1 9 1 @\nwrite 0 1 9 65 @0\nwrite 0 1 12 1 @2\nsave saved\n".encode()
    told, said, status = ran(["step", "script", *OVER], folder, program, stdin=typed)
    yield from differences("standard error and status", (said, status), ("", BAD_INPUT))
    for text in ("write 0 1 9 3 @0 -> queued 2\n", "bad line 1: the payload has 1537 bytes, and not so many from @3 on as COUNT sectors have\n",
                 "bad line 2: the payload has 1537 bytes, and ends before @4\n", "bad line 3: SECTOR is no number: ''\n", "refused 12 BadCount\n",
                 "\nqueued 5\n", "saved: 7 lines\n"):
        if text not in told:
            yield f"step does not tell {text!r}"
    saved = f"# The options: --payload letters\n{SCRIPT}write 0 1 9 65 @0\nwrite 0 1 12 1 @2\n"
    yield from differences("what is saved", contents(folder, "saved").decode(), saved)
    told, _, _ = ran(["step"], folder, program, stdin=b"attach 0 0 4\nwrite 0 1 9 1 @0\n")
    if "bad line 2: there is no payload: --payload FILE names one\n" not in told:
        yield "step does not tell that there is no payload"


def export_over_a_payload(program, folder):
    """The image has the payload's bytes where they are stored."""
    files_in(folder)
    yield from compared(ran(["export", "image", "after", "--script", "script", *OVER], folder, program),
                        "after: 3 sectors stored over image, 4 of 4 steps stand\n")
    wanted = IMAGE[:9 * SECTOR] + A + B + COUNTED + IMAGE[12 * SECTOR:]
    if contents(folder, "after") != wanted:
        yield "the image has other bytes"
    yield from compared(ran(["export", "image", "none", "--script", "past", *OVER], folder, program), "", f"past: bad line 2: {NO_BYTES}\n", BAD_INPUT)
    if contents(folder, "none") is not None:
        yield "an image is written of a script with a bad line"


def why_over_a_payload(program, folder):
    """The choice of such a write is told as that of any other."""
    files_in(folder)
    told, said, status = ran(["why", "script", *OVER], folder, program)
    yield from differences("standard error and status", (said, status), ("", 0))
    if not told.startswith("dispatch -> issued 0 3 store 9 3\n") or not told.endswith("1 choices, 0 otherwise than worked out\n"):
        yield f"why tells {told!r}"


def futures_over_a_payload(program, folder):
    """Contents of which a write of the opening brings the payload's bytes: nothing or both sectors, with or without another write."""
    files_in(folder)
    written(folder, "opening", "attach 0 0 4\nwrite 0 1 9 2 @0\n")
    written(folder, "clients", "seat 0\nwrite 5 1 1\n")
    words = ["futures", "clients", "--script", "opening", "--image", "image", "--into", "found", "--check"]
    _, said, status = ran([*words, "true {}", *OVER], folder, program)
    yield from differences("standard error and status", (said, status), ("", 0))
    rows = contents(os.path.join(folder, "found"), "contents.csv").decode().splitlines()[1:]
    yield from differences("contents", {row.split(",")[3] for row in rows}, {"", "9+1=41 10+1=42", "5+1=01", "5+1=01 9+1=41 10+1=42"})
    # The script of a content that fails is whole by itself, wherever it is played.
    words[words.index("found")] = "failed"
    ran([*words, "false {}", *OVER], folder, program)
    head = contents(os.path.join(folder, "failed"), "fail-0004.script").decode().split("\n", 1)[0]
    if f"--payload {os.path.join(os.path.realpath(folder), 'letters')}" not in head.replace(folder, os.path.realpath(folder)):
        yield f"the script of a failure begins with {head!r}"


def page_of_a_payload(program, folder):
    """A page has no payload: the line is a bad one there, and the option none."""
    files_in(folder)
    yield from compared(ran(["page", "script"], folder, program), "", "script: bad line 2: BYTE is no number: '@0'\n", BAD_INPUT)
    yield from compared(ran(["page", "script", *OVER], folder, program), "", "a page has no option '--payload'\n", BAD_INPUT)


FUNCTIONS = [expect_over_a_payload, step_over_a_payload, export_over_a_payload, why_over_a_payload, futures_over_a_payload, page_of_a_payload]


def payload_tool_runs(program):
    """The name of each run, and what was wrong with it."""
    for function in FUNCTIONS:
        yield f"tools: {function.__name__.replace('_', ' ')}", faults_in(function, program)
