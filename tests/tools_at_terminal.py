"""Runs of the tools whose standard error is a terminal: a person is told what each refusal says, once, and a program is not.

The sentences are those of docs/FORMATS.md.
"""

import os
import re
import subprocess
import tempfile
from pathlib import Path

from tools import head

TOP = Path(__file__).resolve().parent.parent
SECONDS = 60
# Nothing is queued, and nobody sits at the seat.
SCRIPT = "dispatch\nreap 0 1\ndispatch\n"
SAID = [17, 3]
# Each tool with its words, its input, and the numbers that it tells in this order. Files are `script`, `expected`, `log` and `image`.
RUNS = [
    ("step", ["script"], "", SAID),
    ("step", [], SCRIPT + "b\nto 1\n", [*SAID, 31]),
    ("step", ["script"], "leave 1\nhold\nhold\ntick\n", [*SAID, 29, 41]),
    ("expect", ["script"], "", SAID),
    ("expect", ["expected"], "", [17]),
    # The last line has them in the order of their texts, and so are the sentences.
    ("export", ["image", "out", "--script", "script"], "", SAID),
    ("iolog", ["log"], "", [17]),
]
FILES = {"script": SCRIPT, "expected": "dispatch -> issued 0 1 fetch 0 1\n", "log": head(2), "image": 1024 * "A"}


def sentences():
    """The row of each refusal and cause, as a person is told it."""
    text = (TOP / "docs" / "FORMATS.md").read_text(encoding="utf-8")
    return {int(number): f"{number} {name}: {said.replace('`', '')}"
            for number, name, said in re.findall(r"(?m)^\| (\d+) \| ([A-Z]\w+) \| (.*) \|$", text)}


def said_by(words, stdin, folder, at_terminal):
    """What a run says on standard error, which is a terminal or a pipe. What it says is little, so it never waits for the reader."""
    ours, its = os.openpty() if at_terminal else os.pipe()
    try:
        with open(its, "wb", buffering=0) as error:
            subprocess.run(words, cwd=folder, input=stdin.encode(), stdout=subprocess.PIPE, stderr=error, timeout=SECONDS, check=False,
                           env={**os.environ, "PYTHONDONTWRITEBYTECODE": "1"})
            os.set_blocking(ours, False)
            try:
                return os.read(ours, 65_536).decode().replace("\r", "")
            except BlockingIOError:
                return ""
    finally:
        os.close(ours)


def faults_of(program, tool, words, stdin, numbers):
    """What a run says in another way than wanted."""
    with tempfile.TemporaryDirectory() as folder:
        for name, text in FILES.items():
            Path(folder, name).write_text(text, encoding="ascii")
        command = [TOP / "tools" / tool, "--program", program, *words]
        for at_terminal in (True, False):
            wanted = "".join(f"{sentences()[number]}\n" for number in numbers) if at_terminal else ""
            found = said_by(command, stdin, folder, at_terminal)
            if found != wanted:
                yield f"{'a terminal' if at_terminal else 'a pipe'} gets {found!r} and not {wanted!r}"
            Path(folder, "out").unlink(missing_ok=True)


def tools_at_terminal(program):
    """The name of each run, and what was wrong with it."""
    try:
        for end in os.openpty():
            os.close(end)
    except OSError as lacking:
        print(f"skipped: refusals at a terminal: none can be had here: {lacking}")
        return
    for tool, words, stdin, numbers in RUNS:
        name = f"{tool} {' '.join(words)} at a terminal, {numbers}"
        try:
            yield name, [*faults_of(os.path.abspath(program), tool, words, stdin, numbers)]
        except (OSError, subprocess.SubprocessError) as fault:
            yield name, [str(fault)]
