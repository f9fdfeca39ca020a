"""A host that serves, started and stopped by a program: `with serve("disk.img") as host:`."""

from __future__ import annotations

import contextlib
import os
import shutil
import subprocess
import tempfile
import threading
import time
from typing import Iterator, List, Optional, Sequence

from bfqclient_base import ClientError, Lost, Misuse, NotFound, NotServing, NotYet, Path, Refused
from bfqclient_moments import Line, NotMoved, Serial, State, Step, moment_of, states
from bfqclient_operator import Operator
from bfqclient_session import BEST_EFFORT, Session

# Where the program is if nobody says: in this variable, or of this name on the path.
VARIABLE, NAME = "BFQHOST", "bfqhost"
# What the host says once it serves.
SERVING = "serving "
# For how long, in seconds, a host is waited for that is to begin to serve, to stop, and to be dead.
TO_START, TO_STOP, TO_DIE = 30.0, 10.0, 5.0
# How often it is looked whether it serves: seconds.
AGAIN = 0.005
ALREADY_HELD = 29


def program_of(given: Optional[Path]) -> str:
    """The program: the given one, or that of the variable BFQHOST, or `bfqhost` on the path. Raises NotServing if there is none."""
    if given is not None:
        return os.fsdecode(given)
    found = os.environ.get(VARIABLE) or shutil.which(NAME)
    if not found:
        raise NotServing(f"no program: give `program=`, set {VARIABLE}, or have {NAME} on the path")
    return found


class Machine:
    """A host that serves, as one that answers the lines of a script: looks, and the calls by which it is held, moved and released."""

    def __init__(self, operator: Operator, timeout: Optional[float]) -> None:
        self.operator, self.timeout = operator, timeout

    def ask_all(self, lines: Sequence[str]) -> List[str]:
        """The answers to lines, which are all looks, or one call."""
        call, _, count = lines[0].partition(" ")
        if call not in ("undo", "redo"):
            return self.operator.looks(lines, self.timeout)
        try:
            moved = (self.operator.undo if call == "undo" else self.operator.redo)(int(count), self.timeout)
        except Refused as fault:
            return [fault.text]
        return [f"moved {moved.cursor} {moved.length}"]


class Served:
    """A host that serves. `serve` makes one; use it in a `with`.

    folder    the folder of its sockets
    image     the path of its image
    operator  its Operator
    process   the process that was started
    said      the lines that it has said on standard error so far"""

    def __init__(self, image: Path, folder: Optional[Path], program: Optional[Path], words: Sequence[str], timeout: float) -> None:
        self.image = os.path.abspath(os.fsdecode(image))
        self.said: List[str] = []
        self._own = tempfile.mkdtemp(prefix="bfq-") if folder is None else None
        self.folder = self._own or os.path.abspath(os.fsdecode(folder or ""))
        self.operator = Operator(os.path.join(self.folder, "operator"))
        # Whether its end was asked for.
        self._is_ending = False
        try:
            self._start([program_of(program), "serve", "--image", self.image, "--dir", self.folder, *words], timeout)
        except BaseException:
            self._remove()
            raise

    def _start(self, words: List[str], timeout: float) -> None:
        """Starts it, and waits for the line by which it says that it serves."""
        try:
            if self._own is None:
                os.makedirs(self.folder, exist_ok=True)
            self.process = subprocess.Popen(words, stdin=subprocess.DEVNULL, stdout=subprocess.DEVNULL, stderr=subprocess.PIPE)
        except OSError as fault:
            raise NotServing(f"{fault.filename}: {fault.strerror}") from None
        self._listener = threading.Thread(target=self._listen, daemon=True)
        self._listener.start()
        until = time.monotonic() + timeout
        try:
            while not any(line.startswith(SERVING) for line in self.said):
                if self.process.poll() is not None:
                    raise self._ended()
                if time.monotonic() > until:
                    raise NotServing(f"the host does not serve within {timeout} seconds", self.last_line)
                time.sleep(AGAIN)
        except BaseException:
            self.kill()
            raise

    def _listen(self) -> None:
        """Keeps what it says, and reads on, so that it never waits for a reader."""
        assert self.process.stderr is not None
        for line in self.process.stderr:
            self.said.append(line.decode(errors="replace").rstrip("\n"))

    @property
    def last_line(self) -> str:
        """The last line that it said on standard error."""
        return self.said[-1] if self.said else ""

    @property
    def status(self) -> Optional[int]:
        """Its exit status; below 0 the signal that ended it; None while it runs."""
        return self.process.poll()

    def _ended(self) -> NotServing:
        """That it has ended by itself."""
        self._listener.join(TO_DIE)
        status = self.process.returncode
        how = f"with status {status}" if status >= 0 else f"by signal {-status}"
        return NotServing(f"the host has ended {how}" + (f": {self.last_line}" if self.said else ""), self.last_line, status)

    def path(self, number: int = 0) -> str:
        """The path of the socket of a client."""
        return os.path.join(self.folder, f"client{number}")

    def session(self, number: int = 0, group: int = 0, prio: int = 4, timeout: Optional[float] = None, prio_class: str = BEST_EFFORT,
                version: Optional[int] = None) -> Session:
        """A Session at the socket of a client."""
        return Session(self.path(number), group, prio, timeout, prio_class, version)

    def look(self, line: str, timeout: Optional[float] = None) -> str:
        """What it answers to a look, as `Operator.look`."""
        return self.operator.look(line, timeout)

    def looks(self, lines: Sequence[str], timeout: Optional[float] = None) -> List[str]:
        """What it answers to looks, as `Operator.looks`."""
        return self.operator.looks(lines, timeout)

    def until(self, moment: str, timeout: Optional[float] = None) -> Step:
        """Holds the host, and goes back to the last step by which a moment came: `stored sector 2`, `issued seat 1`, `serial 312`, or
        `LOOK = TEXT`. The host stays held there. If it was held already, steps before the last that stands are looked at, so that the same
        call again goes on.

        Raises NotFound if there is no such step, and the host is as it was; Misuse if that is no moment; and what Operator raises."""
        try:
            wanted = moment_of(moment)
        except ValueError as fault:
            raise Misuse(str(fault)) from None
        was_held, found = self._hold(timeout), None
        try:
            line = Line(Machine(self.operator, timeout))
            found = line.behind(wanted, not was_held)
            if found is None and isinstance(wanted, Serial):
                found = line.ahead(wanted)
            if found is None:
                raise NotFound(f"no step brings it: {moment}").about("until")
            return found
        except NotMoved as fault:
            raise unmoved(fault) from None
        finally:
            if found is None and not was_held:
                self.operator.release(timeout)

    def _hold(self, timeout: Optional[float]) -> bool:
        """Holds the host, and gives whether it was held already."""
        try:
            self.operator.hold(timeout)
        except Refused as fault:
            if fault.code != ALREADY_HELD:
                raise
            return True
        return False

    def states(self, kind: str = "stored", timeout: Optional[float] = None) -> Iterator[State]:
        """The state of the device after each write or discard that was stored, from the first step of the line on. The host is held meanwhile. At the
        end, or if it is left before, the host is as it was. Raises Misuse for another kind, and what Operator raises."""
        if kind != "stored":
            raise Misuse(f"states are those after each write that is `stored`, and not {kind!r}")
        return self._states(timeout)

    def _states(self, timeout: Optional[float]) -> Iterator[State]:
        was_held = self._hold(timeout)
        try:
            yield from states(Line(Machine(self.operator, timeout)))
        except NotMoved as fault:
            raise unmoved(fault) from None
        finally:
            if not was_held:
                self.operator.release(timeout)

    def __enter__(self) -> Served:
        return self

    def __exit__(self, kind: object, *_: object) -> None:
        """Stops it. If it has ended by itself, and nothing else was raised, that is."""
        is_gone = not self._is_ending and self.process.poll() not in (None, 0)
        self.stop()
        if is_gone and kind is None:
            raise self._ended()

    def stop(self, timeout: float = TO_STOP) -> None:
        """Stops it as its operator does, and waits for its end. If it does not end in time it is killed. What it has left is removed from
        a folder that was made for it. Once more, it does nothing."""
        self._is_ending = True
        if self.process.poll() is None:
            with contextlib.suppress(ClientError):
                self.operator.stop(timeout)
            with contextlib.suppress(subprocess.TimeoutExpired):
                self.process.wait(timeout)
        self.kill()
        self._remove()

    def kill(self) -> None:
        """Kills it at once, if it runs, as a power cut would. Nothing else is killed."""
        self._is_ending = True
        if self.process.poll() is None:
            self.process.kill()
            self.process.wait()
        self._listener.join(TO_DIE)
        assert self.process.stderr is not None
        if not self._listener.is_alive():
            self.process.stderr.close()

    def _remove(self) -> None:
        """Removes the folder that was made for it."""
        if self._own is not None:
            shutil.rmtree(self._own, ignore_errors=True)


def unmoved(fault: NotMoved) -> ClientError:
    """What is raised if a host did not go where it was to go."""
    word, _, number = fault.answer.partition(" ")
    if word not in ("refused", "notyet") or not number.isdigit():
        return Lost(f"another answer than was waited for: {fault.answer}")
    return (Refused if word == "refused" else NotYet)(int(number)).about(fault.line.partition(" ")[0])


def serve(image: Path, folder: Optional[Path] = None, *, program: Optional[Path] = None, clients: int = 4,
          options: Sequence[str] = (), record: Optional[Path] = None, timeout: float = TO_START) -> Served:
    """Starts a host that serves an image, for a `with`: at its end the host is stopped.

    `folder` gets its sockets, and is made if it is not there; if it is None, one is made for it, and removed at the end. `program` is that
    of the host; if it is None the variable BFQHOST names it, or it is `bfqhost` on the path. `options` are more words of `bfqhost serve`.
    What is done is recorded in the new file `record`, if it is given. It must serve within the time limit, in seconds. Raises NotServing,
    which has the host's own line and status, and Misuse."""
    if not timeout > 0:
        raise Misuse(f"a time limit is more than 0 seconds, and not {timeout}")
    words = [] if record is None else ["--record", os.path.abspath(os.fsdecode(record))]
    return Served(image, folder, program, ["--clients", str(clients), *words, *options], timeout)
