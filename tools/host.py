"""What the tools share: the program behind a pipe, the files that they read, and how they end.

A tool ends with one of these statuses. It never shows a trace of Python.

    0   it is done
    1   the program answers otherwise than wanted; each tool says when
    2   bad words, a file that cannot be read, or a bad line in it
    3   the program is not there, is not built, or has ended early
    4   standard output takes no more
"""

from __future__ import annotations

import argparse
import contextlib
import io
import os
import re
import signal
import subprocess
import sys
import threading
from typing import Any, Callable, Dict, Iterable, Iterator, List, Optional, Sequence, Tuple, Union

import grammar

NOT_WANTED, BAD_INPUT, NO_PROGRAM, WRITE_FAULT = 1, 2, 3, 4

TOP = os.path.dirname(os.path.dirname(os.path.realpath(__file__)))
# Starts a program that is there, and builds one first where that is needed, which takes minutes.
LAUNCHER = os.path.join(TOP, "bfqhost")
# One that was built here, and the released one.
PROGRAMS = [os.path.join(TOP, *path, "bfqhost") for path in (("crates", "bfqhost", "out"), ("release", "x86_64-linux"))]
# What a line begins with that a build says of itself on standard error.
BUILDING = "bfqhost: "
# Lines that are written together have at most so many bytes. A pipe takes them at once, so the two sides never wait for each other.
TOGETHER = 4_096
# So much of the answers is read at once.
MOST_READ = 1 << 16
# What stands before the name of a tool where it is installed.
INSTALLED = "bfq-"
# Why a line is bad that takes bytes from the payload.
NO_BYTES = "there is no payload, or it has not so many bytes from there on: --payload FILE names one"
# What the answer to a bad line begins with.
BAD_LINE = b"bad line "
# What the answers begin with that tell of a step that was not made.
REFUSALS = tuple(word.encode() for word in grammar.REFUSALS)
# How long a program may take to end when its input has ended.
SECONDS = 5


class Stop(Exception):
    """Ends a tool: a line for standard error, with a status."""

    status = NOT_WANTED


class BadInput(Stop):
    """A file cannot be read, or has a bad line."""

    status = BAD_INPUT


class Ended(Stop):
    """The program is not there, is not built, or has ended early."""

    status = NO_PROGRAM


class BadLine(Ended):
    """The program takes no such line, and has ended for it."""

    def __init__(self, line: str, answer: str) -> None:
        self.line, self.answer = line, answer
        other = NO_BYTES if grammar.takes_bytes(line) else "the program does not know it"
        self.why = grammar.why_bad(line) or other
        super().__init__(f"the program takes no line {line!r}: {self.why}")


class Refused(Ended):
    """The program has refused a line, which it should not."""

    def __init__(self, line: str, answer: str) -> None:
        super().__init__(f"{line!r} is answered {grammar.named(answer)}")


def bytes_of(lines: Sequence[str]) -> bytes:
    """Lines as they are written."""
    return "\n".join([*lines, ""]).encode(errors="surrogateescape")


def tell(text: object) -> None:
    """Says a line on standard error, where it takes one."""
    with contextlib.suppress(OSError):
        print(text, file=sys.stderr, flush=True)


def program_of(given: Optional[str]) -> str:
    """The path of the program: the given one, or else the launcher of this repository, where a program is there."""
    if given is not None:
        return os.path.abspath(given)
    if not any(map(os.path.exists, PROGRAMS)):
        raise Ended(f"there is no program: {LAUNCHER} --help builds it, which takes minutes")
    return LAUNCHER


class Host:
    """A run of `bfqhost sim`, which answers lines one at a time; or of `bfqhost replay`, behind what is recorded in a file."""

    def __init__(self, given: Optional[str], options: Sequence[str], record: Optional[str] = None) -> None:
        self.program = program_of(given)
        # The last line that the program said on standard error.
        self.said = ""
        self.record = record
        words = ["sim"] if record is None else ["replay", os.path.abspath(record)]
        try:
            self.process = subprocess.Popen([self.program, *words, *options], stdin=subprocess.PIPE, stdout=subprocess.PIPE,
                                            stderr=subprocess.PIPE)
        except OSError as fault:
            raise Ended(f"{self.program} does not start: {fault.strerror}") from None
        # Of pipes that were asked for none is lacking.
        assert self.process.stdin and self.process.stdout and self.process.stderr
        self.stdin, self.stdout, self.stderr = self.process.stdin, self.process.stdout, self.process.stderr
        # What the program has said beyond what it was asked.
        self.ahead = b""
        self.listener = threading.Thread(target=self.listen, daemon=True)
        self.listener.start()

    def listen(self) -> None:
        """Passes on what a build says while it goes on, and keeps what else the program says, which tells why it ends."""
        for line in self.stderr:
            text = line.decode(errors="replace").rstrip()
            if text.startswith(BUILDING):
                tell(text)
            elif text:
                self.said = text

    def ask(self, line: str) -> str:
        """The answer to a line, which must not be a silent one."""
        return self.ask_all([line])[0]

    def ask_all(self, lines: Sequence[str]) -> List[str]:
        """The answers to lines that are written together, of at most 4,096 bytes."""
        text = bytes_of(lines)
        assert len(lines) == 1 or len(text) <= TOGETHER
        return self.answers_in(self.told(text), lines)

    def ask_accepted(self, lines: Sequence[str]) -> List[str]:
        """The answers to any number of lines, none of which may be refused. It is the quickest way to ask many."""
        text = bytes_of(lines)
        parts: List[bytes] = []
        begin = 0
        while begin < len(text):
            # A line that is too long to be written with another one is written alone.
            end = text.rfind(b"\n", begin, begin + TOGETHER) + 1 or text.index(b"\n", begin) + 1
            parts.append(self.told(text[begin:end]))
            begin = end
        told = b"".join(parts)
        answers = self.answers_in(told, lines)
        # Answers are looked at one by one only if one of them can be a refusal.
        if told.startswith(REFUSALS) or any(b"\n" + word in told for word in REFUSALS):
            line, answer = next(it for it in zip(lines, answers) if grammar.is_refusal(it[1]))
            raise Refused(line, answer)
        return answers

    def told(self, text: bytes) -> bytes:
        """What the program says of lines that are written together: an answer to each, or less if it has ended."""
        try:
            os.write(self.stdin.fileno(), text)
        except BrokenPipeError:
            # The program has ended. What it answered before can still be read, and tells why.
            pass
        count = text.count(b"\n")
        told, missing = self.ahead, count - self.ahead.count(b"\n")
        while missing > 0 and (part := os.read(self.stdout.fileno(), MOST_READ)):
            told += part
            missing -= part.count(b"\n")
        self.ahead = b""
        if missing < 0 or not (missing or told.endswith(b"\n")):
            # What it was not asked is taken for the next answers.
            *answers, self.ahead = told.split(b"\n", count)
            told = b"\n".join([*answers, b""])
        return told

    def answers_in(self, told: bytes, lines: Sequence[str]) -> List[str]:
        """The answers to lines. All that is told is taken apart at once, as a search of futures reads some millions of them."""
        answers = told.decode(errors="replace").split("\n")
        if len(answers) <= len(lines) or BAD_LINE in told:
            *whole, rest = told.split(b"\n")
            texts = [*(text + b"\n" for text in whole), rest, *(b"" for _ in lines)]
            return [self.judged(line, text) for line, text in zip(lines, texts)]
        answers.pop()
        return answers

    def ask_each(self, lines: Iterable[str]) -> Iterator[str]:
        """The answers to any number of lines, of which each time as many are written together as may be."""
        together: List[str] = []
        size = 0
        for line in lines:
            if together and size + len(line) + 1 > TOGETHER:
                yield from self.ask_all(together)
                together, size = [], 0
            together.append(line)
            size += len(line) + 1
        yield from self.ask_all(together)

    def judged(self, line: str, text: bytes) -> str:
        """What was read of the answer to a line."""
        if not text.endswith(b"\n"):
            raise self.ended(f" before it answered {line!r}")
        answer = text[:-1].decode(errors="replace")
        if text.startswith(BAD_LINE):
            raise BadLine(line, answer)
        return answer

    def ended(self, when: str = "") -> Ended:
        """That the program has ended, how, and what it said."""
        try:
            status = self.process.wait(timeout=SECONDS)
        except subprocess.TimeoutExpired:
            return Ended(f"{self.program} has closed its output{when}")
        self.listener.join(timeout=SECONDS)
        how = f"with status {status}" if status >= 0 else f"by signal {-status}"
        return Ended(f"{self.program} has ended {how}{when}" + (f": {self.said}" if self.said else ""))

    def __enter__(self) -> Host:
        return self

    def __exit__(self, kind: object, fault: Optional[BaseException], _: object) -> None:
        """Ends the program's input, so that it ends too, and well if all went well so far. An answer that a tool could not take apart is
        told."""
        self.stdin.close()
        self.stdout.close()
        try:
            status = self.process.wait(timeout=SECONDS)
        except subprocess.TimeoutExpired:
            self.process.kill()
            status = self.process.wait()
        self.listener.join(timeout=SECONDS)
        if isinstance(fault, (ValueError, LookupError, TypeError, AttributeError, StopIteration)):
            raise Ended(f"{self.program} gives an answer that bfqhost does not give: {fault}") from None
        if fault is None and status:
            raise self.ended()
        if fault is None and self.record is not None and self.said:
            # The last entry of the file was cut, and is left out.
            tell(f"{self.record}: {self.said}")


def read_lines(path: str, ends: bool = False) -> Iterator[Tuple[int, str]]:
    """The lines of a file with their numbers, without their ends, as they come; of standard input where the path is `-`. If lines of such
    a file have `ends`, a last line with none is a bad one, as it may be cut in the middle of a number."""
    try:
        if path == "-" and sys.stdin is None:
            raise BadInput("standard input is closed")
        with sys.stdin.buffer if path == "-" else open(path, "rb") as file:
            for number, line in enumerate(file, 1):
                yield number, line.removesuffix(b"\n").decode(errors="surrogateescape")
                # What is bad in itself was told before.
                if ends and not line.endswith(b"\n"):
                    raise bad_line(path, number, "it has no end, so the file is cut there")
    except OSError as fault:
        raise BadInput(f"{path}: {fault.strerror}") from None


def bad_line(path: str, number: int, why: str) -> BadInput:
    """The fault of a file that has a bad line."""
    return BadInput(f"{path}: bad line {number}: {why}")


def answers_to(path: str, host: Host) -> Iterator[Tuple[str, str]]:
    """Asks the lines of a script, one after the other. Gives each that is not silent, with its answer."""
    for number, line in read_lines(path):
        why = grammar.why_bad(line)
        if number > grammar.MOST_LINES:
            why = f"a script has at most {grammar.MOST_LINES} lines"
        if why:
            raise bad_line(path, number, why)
        if grammar.is_silent(line):
            continue
        try:
            answer = host.ask(line)
        except BadLine as fault:
            raise bad_line(path, number, fault.why) from None
        yield line, answer


def on_line(host: Host) -> Tuple[int, int]:
    """How many steps stand, and how many the line has."""
    _, cursor, length, _ = host.ask("line").split(" ")
    return int(cursor), int(length)


def place_of(host: Host, serial: int, length: int) -> Optional[int]:
    """The place of the step with this serial in a line of this length, counted from 1; None where there is none. Serials rise along it."""
    first, last = 1, length
    while first <= last:
        middle = (first + last) // 2
        found = int(host.ask(f"show step {middle}").split(" ")[2])
        if found == serial:
            return middle
        first, last = (middle + 1, last) if found < serial else (first, middle - 1)
    return None


def way_to(host: Host, serial: int) -> Optional[str]:
    """The line that brings a host to where the step with this serial is the last that stands. It is empty where the host is there, and
    None where there is no such step."""
    cursor, length = on_line(host)
    place = place_of(host, serial, length)
    if place is None:
        return None
    if place == cursor:
        return ""
    return f"undo {cursor - place}" if place < cursor else f"redo {place - cursor}"


def moved(host: Host, move: str) -> Tuple[bool, List[Tuple[str, str]]]:
    """Asks an `undo K` or a `redo K`, for which a host that is free is held, and released again. Gives whether it was done, and all lines
    that were asked, each with its answer."""
    asked = []
    for line in ["hold", move, "release"] if host.ask("show host").split(" ")[3] == "free" else [move]:
        asked.append((line, host.ask(line)))
        if line == "hold" and grammar.is_refusal(asked[-1][1]):
            break
    return any(line == move and not grammar.is_refusal(answer) for line, answer in asked), asked


def number_for(name: str) -> Callable[[str], int]:
    """What reads a word that stands for a number, as argparse wants it."""
    def number_of(word: str) -> int:
        if why := grammar.why_no_number(name, word):
            raise argparse.ArgumentTypeError(why)
        return int(word)
    return number_of


@contextlib.contextmanager
def told_with(path: str) -> Iterator[None]:
    """What the system refuses is told with the path of the file."""
    try:
        yield
    except OSError as fault:
        raise BadInput(f"{path}: {fault.strerror}") from None


# What the tools say of a record.
RECORD: Tuple[str, Dict[str, Any]] = ("--record", {"metavar": "FILE", "help": "goes on behind what bfqhost serve --record has written"})


def words_of(description: Optional[str], usage: str, *places: Tuple[str, Dict[str, Any]],
             behind: Optional[str] = None) -> Tuple[argparse.Namespace, List[str]]:
    """The words of a tool: its own, with these places beside `--program`, and after `--` the options of sim, or of replay. A tool that
    runs no host says what stands behind `--`, and has no `--program`."""
    words = sys.argv[1:]
    own = os.path.basename(sys.argv[0])
    if own.startswith(INSTALLED):
        description = re.sub(r"\btools/(\w+)", rf"{INSTALLED}\1", description or "")
    at = words.index("--") if "--" in words else len(words)
    parser = argparse.ArgumentParser(description=description, usage=f"%(prog)s {usage} {behind or '[-- OPTION-OF-SIM ...]'}", allow_abbrev=False,
                                     formatter_class=argparse.RawDescriptionHelpFormatter)
    if behind is None:
        parser.add_argument("--program", metavar="PATH", help="the program (../bfqhost, from the tool's folder)")
    for name, given in places:
        parser.add_argument(name, **given)
    return parser.parse_intermixed_args(words[:at]), words[at + 1:]


def run(main: Callable[[], int]) -> None:
    """Runs a tool, and ends with its status. An interrupt ends it at once, as it ends any program."""
    if signal.getsignal(signal.SIGINT) is signal.default_int_handler:
        signal.signal(signal.SIGINT, signal.SIG_DFL)
    if sys.stdout is None:
        sys.exit(WRITE_FAULT)
    if isinstance(sys.stdout, io.TextIOWrapper):
        sys.stdout.reconfigure(errors="backslashreplace")
    status: Union[str, int, None] = NOT_WANTED
    try:
        try:
            status = main()
        except SystemExit as ended:
            status = ended.code
        except Stop as stop:
            sys.stdout.flush()
            tell(stop)
            status = stop.status
        sys.stdout.flush()
    except OSError as fault:
        if not isinstance(fault, BrokenPipeError):
            tell(f"standard output: {fault.strerror}")
        # What is left of the text goes nowhere, so that Python tells nothing of it at its end.
        os.dup2(os.open(os.devnull, os.O_WRONLY), sys.stdout.fileno())
        status = WRITE_FAULT
    sys.exit(status)
