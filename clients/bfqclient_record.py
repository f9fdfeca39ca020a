"""A served run that is on file: `with open_record("run.rec") as record:`. `bfqhost replay` reads it, and goes on behind it."""

from __future__ import annotations

import contextlib
import os
import queue
import subprocess
import threading
from typing import Iterator, List, Optional, Sequence

from bfqclient_base import BadRecord, Misuse, NotFound, Path, TimedOut, deadline, left
from bfqclient_moments import Line, NotMoved, State, Step, moment_of, states
from bfqclient_operator import BAD_LINE, check_line, pieces
from bfqclient_serve import program_of, unmoved

# For how long the program is waited for when its input has ended: seconds.
TO_END = 10.0


class Record:
    """The host of a served run, behind the last entry that is recorded. `open_record` makes one; use it in a `with`.

    said      the lines that the program has said on standard error so far: one tells if the last entry was cut, and is left out
    process   the process that was started"""

    def __init__(self, words: List[str], timeout: Optional[float]) -> None:
        self.timeout = timeout
        self.said: List[str] = []
        try:
            self.process = subprocess.Popen(words, stdin=subprocess.PIPE, stdout=subprocess.PIPE, stderr=subprocess.PIPE)
        except OSError as fault:
            raise BadRecord(f"{fault.filename}: {fault.strerror}") from None
        # What it has printed, line by line, and None behind the last.
        self._printed: queue.Queue[Optional[str]] = queue.Queue()
        self._threads = [threading.Thread(target=it, daemon=True) for it in (self._read, self._listen)]
        for thread in self._threads:
            thread.start()
        try:
            # A file that is none is told before the first line is answered.
            self.ask("line")
        except BaseException:
            self.close()
            raise

    def _read(self) -> None:
        assert self.process.stdout is not None
        for line in self.process.stdout:
            if line.endswith(b"\n"):
                self._printed.put(line[:-1].decode(errors="replace"))
        self._printed.put(None)

    def _listen(self) -> None:
        assert self.process.stderr is not None
        for line in self.process.stderr:
            self.said.append(line.decode(errors="replace").rstrip("\n"))

    def ask(self, line: str, timeout: Optional[float] = None) -> str:
        """The answer to a line of a script, a refusal too: `hold`, `undo 3`, `show flight`, or a step, by which another future begins.

        Raises Misuse if it is none; then the record is closed if the program, too, takes it for none. Raises BadRecord if the program has
        ended, TimedOut and Lost."""
        return self.asks([line], timeout)[0]

    def asks(self, lines: Sequence[str], timeout: Optional[float] = None) -> List[str]:
        """The answers to lines of a script, in their order."""
        for line in lines:
            check_line(line)
        until = deadline(self.timeout if timeout is None else timeout)
        found: List[str] = []
        for part in pieces(lines):
            # If it has ended it tells by what it printed.
            with contextlib.suppress(OSError, ValueError):
                assert self.process.stdin is not None
                self.process.stdin.write("".join(f"{line}\n" for line in part).encode())
                self.process.stdin.flush()
            for line in part:
                found.append(self._answer(line, until))
        return found

    def ask_all(self, lines: Sequence[str]) -> List[str]:
        """As `asks`, for a way along the line."""
        return self.asks(lines)

    def _answer(self, line: str, until: Optional[float]) -> str:
        try:
            answer = self._printed.get(timeout=left(until))
        except (queue.Empty, TimedOut):
            # Its answer would be taken for that to another line.
            self.close()
            raise TimedOut("the time limit has passed").about("record") from None
        if answer is None:
            self.close()
            raise self._ended()
        if answer.startswith(BAD_LINE):
            self.close()
            raise Misuse(f"the program knows no line {line!r}").about("record")
        return answer

    def _ended(self) -> BadRecord:
        """That it has ended, and why."""
        status = self.process.returncode
        last = self.said[-1] if self.said else ""
        how = f"with status {status}" if status >= 0 else f"by signal {-status}"
        return BadRecord(f"the program has ended {how}" + (f": {last}" if last else ""), last, status)

    def go(self, place: int) -> None:
        """Goes to where so many steps of the line stand. A host that is free is held for it, and released again."""
        with self._held() as line:
            if not 0 <= place <= line.length:
                raise Misuse(f"a place of this line is 0 to {line.length}, and not {place}")
            line.go(place)

    def until(self, moment: str) -> Step:
        """Goes forth to the next undone step by which a moment comes: `stored sector 2`, `issued seat 1`, `serial 312`, or `LOOK = TEXT`.

        Raises NotFound if there is none, and the host stands where it stood; Misuse if that is no moment; and what `ask` raises."""
        return self._search(moment, False)

    def since(self, moment: str) -> Step:
        """Goes back to the last step before this one by which a moment came. Raises what `until` raises."""
        return self._search(moment, True)

    def _search(self, moment: str, is_back: bool) -> Step:
        try:
            wanted = moment_of(moment)
        except ValueError as fault:
            raise Misuse(str(fault)) from None
        with self._held() as line:
            found = line.behind(wanted, False) if is_back else line.ahead(wanted)
        if found is None:
            raise NotFound(f"no {'step before this one' if is_back else 'undone step'} brings it: {moment}").about("record")
        return found

    @contextlib.contextmanager
    def _held(self) -> Iterator[Line]:
        """The line, while the host is held."""
        is_free = self.ask("show host").split(" ")[3] == "free"
        try:
            if is_free and not (answer := self.ask("hold")).startswith("moved "):
                raise NotMoved("hold", answer)
            yield Line(self)
        except NotMoved as fault:
            raise unmoved(fault) from None
        finally:
            if is_free and self.process.poll() is None:
                self.ask("release")

    def states(self, kind: str = "stored") -> Iterator[State]:
        """The state of the device after each write or discard that was stored, from the first step of the line on. At the end, or if it is left
        before, the host stands where it stood. Raises Misuse for another kind, and what `ask` raises."""
        if kind != "stored":
            raise Misuse(f"states are those after each write that is `stored`, and not {kind!r}")
        return self._states()

    def _states(self) -> Iterator[State]:
        with self._held() as line:
            yield from states(line)

    def __enter__(self) -> Record:
        return self

    def __exit__(self, *_: object) -> None:
        self.close()

    def close(self) -> None:
        """Ends the program. Once more, it does nothing."""
        assert self.process.stdin is not None and self.process.stdout is not None and self.process.stderr is not None
        with contextlib.suppress(OSError):
            self.process.stdin.close()
        try:
            self.process.wait(TO_END if self.process.poll() is None else None)
        except subprocess.TimeoutExpired:
            self.process.kill()
            self.process.wait()
        for thread, stream in zip(self._threads, (self.process.stdout, self.process.stderr)):
            thread.join(TO_END)
            if not thread.is_alive():
                stream.close()


def open_record(path: Path, *, program: Optional[Path] = None, image: Optional[Path] = None, history: Optional[int] = None,
                to: Optional[int] = None, timeout: Optional[float] = None) -> Record:
    """Opens what `bfqhost serve --record` has written, for a `with`.

    `program` is as in `serve`. `image` is for what the device reads from then on. With `history` there is room for so many calls, and
    with `to` the host stands before that entry. A `timeout` is in seconds, above 0, for this and for each line that is asked. Raises
    BadRecord, which has the program's own line and status, and Misuse."""
    deadline(timeout)
    options = [("--image", None if image is None else os.path.abspath(os.fsdecode(image))), ("--history", history), ("--to", to)]
    words = [word for name, value in options if value is not None for word in (name, str(value))]
    return Record([program_of(program), "replay", os.path.abspath(os.fsdecode(path)), *words], timeout)
