"""Each request for memory refused in turn: the program of crates/refused_growth behind tests/refuse_nth.c.

The calls of a row are made while the Nth request for memory is refused, for N from 1 until a run meets no refusal, and then while each
request from the Nth on is. The program compares, and says which promise was broken. Here the two are held against each other:

- With one request refused one call at most finds no memory, and with none refused no call does.
- What stands before the calls of a script takes as many requests as the row `ready`. So a refusal among these, and no other, ends the run
  by the program's fixed line.
- What a script prints is what its row in tests/scripts says.
- If all calls of a script are accepted with ample memory, one of them tells of each refusal behind what stands before.

Elsewhere a request may be refused in a call that is not accepted anyway, as a Dispatch with nothing to send. No answer shows that. Such
refusals are counted, and told with the others in one line for each row.

Random scripts come from seeds. If one fails, its seed is printed. Of the first that does, lines are left out while it still fails, and the
shortest script is printed, too.
"""

import os
import random
import re
import subprocess
import tempfile
import time
from concurrent.futures import ThreadPoolExecutor
from dataclasses import dataclass, field
from typing import List, NamedTuple, Optional

from benches import builds
from random_scripts import grammar, random_script
from script_rows import SCRIPTS, ended, read_rows
from shims import NoShim, shim_in

SECONDS = 60
# The rows of tests/scripts whose calls are made: a write and its read, a queue that expires, merges, an undone store, an undone failure,
# the largest store, sectors of one page and of two, and a discard over sectors half of which are stored.
SCRIPT_ROWS = ["write_and_read_back", "exhaustion_undone", "merges_and_undo_of_a_merge", "stale_finish_after_undo",
               "failed_read_undone_and_redone", "full_store_undone_and_redone", "two_sectors_of_one_page",
               "stored_sectors_undone_and_redone",
               "discard_of_half_stored_sectors"]
# Of these the calls are also made by one run of the keeper.
RUN_ROWS = ["write_and_read_back", "failed_read_undone_and_redone"]
# Two stores, done and undone, and redone at once. The pages of the first are one node of the overlay's tree, and those of the second need
# more. So both steps of that redo take memory.
TWO_STORES = ["attach 0 0 4", "write 0 1 0 64 65", "write 0 1 100 64 66", "dispatch", "dispatch", "finish 0 4 stored", "finish 1 5 stored",
              "hold", "undo 2", "redo 2", "undo 1", "release"]
OF_TWO_STORES = ["attached 1", "queued 2", "queued 3", "issued 0 4 store 0 64", "issued 1 5 store 100 64", "finished 1", "finished 1",
                 "moved 7 7", "moved 5 7", "moved 7 7", "moved 6 7", "done"]
SHORT_ROWS = ["host", "turn", "work", "serve", "feed", "feed2", "operator", "record", "look"]
ONCE, ALWAYS = "once", "always"
UNPREPARED, KEPT, WANTING, HALF_WAY = "no memory before the row", "kept", "kept without memory", "kept half way"
# So many random scripts, each of so many calls.
RUNS, CALLS = 200, 100
# For so long lines are left out of a script that fails.
SHORTEN_SECONDS = 120


@dataclass
class Row:
    """What is made while memory is refused: a name, the program's word, the options of a script and its lines, and what these print."""

    name: str
    word: str
    options: List[str] = field(default_factory=list)
    lines: Optional[List[str]] = None
    texts: Optional[List[str]] = None


@dataclass
class Came:
    """What came of a run: requests and refusals, the last line and those before it, and the status."""

    requests: int
    refused: int
    last: str
    texts: List[str]
    status: int


class Before(NamedTuple):
    """How many requests stand before a row: so many at least, and so many at most, if that is known."""

    least: int
    most: Optional[int]


class Program:
    """A build of the program, with the shim before it."""

    def __init__(self, path, shim):
        self.path, self.shim = path, shim
        came = self.run(Row("nothing", "nothing"), ONCE, 0)
        if (came.last, came.status) != (KEPT, 0):
            raise OSError(f"it ends with status {came.status} and {came.last!r}")
        # How many requests the words of a short row take.
        self.of_words = came.requests
        if not self.of_words:
            raise NoShim(f"{os.path.basename(path)} asks for memory past the shim: another libc, or a static program")

    def run(self, row, mode, nth, word=None):
        """What comes of a row if the Nth request is refused, and in the mode `always` each behind it."""
        given = {**os.environ, "LD_PRELOAD": self.shim, "REFUSE_NTH": str(nth), **({"REFUSE_ALL": "1"} if mode == ALWAYS else {})}
        try:
            ran = subprocess.run([self.path, word or row.word, mode, *row.options], input=ended(row.lines or []),
                                 stdout=subprocess.PIPE, stderr=subprocess.PIPE, timeout=SECONDS, env=given, check=False)
        except subprocess.TimeoutExpired:
            return Came(0, 0, f"no end within {SECONDS} seconds", [], 1)
        told = re.fullmatch(rb"refuse_nth: (\d+) requests, (\d+) refused\n", ran.stderr)
        texts = ran.stdout.decode().splitlines()
        counts = (int(told[1]), int(told[2])) if told else (0, 0)
        return Came(*counts, texts[-1] if texts else "", texts[:-1], ran.returncode)


@dataclass
class Told:
    """How many runs of a row there were in which a request was refused: in all, before the row, met by a call, by a redo half way, and by
    none."""

    runs: int = 0
    before: int = 0
    wanting: int = 0
    half_way: int = 0
    hidden: int = 0

    def note(self, came, is_before):
        """Counts a run in which a request was refused, maybe one of those that are known to come before the row."""
        self.runs += 1
        self.before += came.last == UNPREPARED or is_before
        self.wanting += came.last in (WANTING, HALF_WAY)
        self.half_way += came.last == HALF_WAY
        self.hidden += came.last == KEPT and not is_before

    def add(self, other):
        """Adds what was counted elsewhere."""
        for name, count in vars(other).items():
            setattr(self, name, getattr(self, name) + count)

    def __str__(self):
        return f"{self.runs} N, {self.before} before the row, {self.wanting} met by a call, {self.hidden} by none"


def faults_of(came, mode, nth, before, texts):
    """What a run did in another way than it must."""
    faults = []
    if came.status != 0 or came.last not in (UNPREPARED, KEPT, WANTING, HALF_WAY):
        return [f"N {nth}, {mode}: {came.last or 'nothing was printed'}, with status {came.status}"]
    if mode == ONCE and came.refused > 1:
        faults.append(f"{came.refused} requests were refused")
    if came.refused == 0 and came.last != KEPT:
        faults.append(f"{came.last}, and no request was refused")
    # A growth before the row that need not succeed leaves no trace.
    if came.refused and nth <= before.least and came.last not in (UNPREPARED, KEPT):
        faults.append(f"{came.last}, and {before.least} requests stand before the row")
    if came.refused and before.most is not None and nth > before.most and came.last == UNPREPARED:
        faults.append(f"{came.last}, and only {before.most} requests stand before the row")
    if came.last != UNPREPARED and texts is not None and came.texts != texts:
        faults.append("the script prints something else")
    if came.last == KEPT and came.refused and nth > before.least and texts and not any(map(grammar.is_refusal, texts)):
        faults.append("no call found memory wanting, and each is one that is accepted")
    return [f"N {nth}, {mode}: {'; '.join(faults)}"] if faults else []


def requests_before(program, row):
    """How many requests stand before a row."""
    if row.lines is None:
        return Before(program.of_words, None)
    count = program.run(row, ONCE, 0, "ready").requests
    return Before(count, count)


def refuse_all(program, row, pool, told):
    """Refuses each request of a row in turn, alone and with all behind it. Gives what went wrong."""
    faults = []
    before = requests_before(program, row)
    for mode in (ONCE, ALWAYS):
        clean = program.run(row, mode, 0)
        faults += faults_of(clean, mode, 0, before, row.texts)
        numbers = range(1, clean.requests + 2)
        for nth, came in zip(numbers, pool.map(lambda nth, mode=mode: program.run(row, mode, nth), numbers)):
            faults += faults_of(came, mode, nth, before, row.texts)
            # Behind the last request there is nothing to refuse.
            if (came.refused > 0) != (nth <= clean.requests):
                faults.append(f"N {nth}, {mode}: {came.refused} requests were refused, of {clean.requests}")
            elif came.refused:
                told[mode].note(came, nth <= before.least)
    return faults[:3]


def script_rows_of_calls():
    """A row for each run of the scripts, and of some as one run of the keeper."""
    for name in SCRIPT_ROWS:
        runs, lines, texts = read_rows(os.path.join(SCRIPTS, f"{name}.rows"))
        for words in runs:
            for word in ("calls", "run") if name in RUN_ROWS else ("calls",):
                yield Row(f"{word} of {' '.join([name, *words[1:]])}", word, words[1:], lines, texts)
    yield Row("calls of a redo of two stores", "calls", [], TWO_STORES, OF_TWO_STORES)


def rows():
    """All rows but the random ones."""
    yield from script_rows_of_calls()
    for word in SHORT_ROWS:
        yield Row(word, word)


def words_take_none(program):
    """What is wrong with the operator's words: reading them takes no memory."""
    row = Row("words", "words")
    came = program.run(row, ONCE, 0)
    faults = faults_of(came, ONCE, 0, requests_before(program, row), None)
    return faults + ([] if came.requests == program.of_words else [f"{came.requests - program.of_words} requests for memory"])


def random_row(seed, host):
    """A random script without queries."""
    script = random_script(seed, host, CALLS + CALLS // 2)
    lines = [it for it in script.lines if it.split(" ")[0] not in grammar.QUERIES]
    return Row(f"random calls of seed {seed}", "calls", script.options, lines[:CALLS])


def accepted_of(row, texts):
    """The lines of a script that are accepted, alone. What the others change is nothing."""
    lines = [line for line, text in zip(row.lines, texts) if not grammar.is_refusal(text)]
    return Row(f"{row.name}, those accepted", row.word, row.options, lines)


def random_faults(program, row, clean, dice, told):
    """What went wrong with a script if a random request of its calls is refused, in each mode."""
    before, faults = requests_before(program, row), []
    for mode in (ONCE, ALWAYS) if clean.requests > before.most else ():
        nth = dice.randrange(before.most + 1, clean.requests + 1)
        came = program.run(row, mode, nth)
        faults += faults_of(came, mode, nth, before, clean.texts)
        told[mode].note(came, False)
    return faults


def random_run(program, seed, host):
    """A random script, what went wrong with it and with its accepted lines alone, and what was met."""
    told, dice = {ONCE: Told(), ALWAYS: Told()}, random.Random(f"refused {seed}")
    row = random_row(seed, host)
    clean = program.run(row, ONCE, 0)
    if faults := faults_of(clean, ONCE, 0, requests_before(program, row), None):
        return row, faults, told
    accepted = accepted_of(row, clean.texts)
    for it, came in ((row, clean), (accepted, program.run(accepted, ONCE, 0))):
        if faults := random_faults(program, it, came, dice, told):
            return it, faults, told
    return row, [], told


def fails(program, row, until):
    """Whether a script fails with some N, in some mode."""
    clean, before = program.run(row, ONCE, 0), requests_before(program, row)
    if faults_of(clean, ONCE, 0, before, None):
        return True
    for nth in range(before.most + 1, clean.requests + 1):
        for mode in (ONCE, ALWAYS):
            if time.monotonic() > until:
                return False
            if faults_of(program.run(row, mode, nth), mode, nth, before, clean.texts):
                return True
    return False


def shortest(program, row):
    """The lines of a script that fails, without those that it needs not: parts of half its length are left out, then of a quarter, and so
    on to single lines."""
    until, lines, size = time.monotonic() + SHORTEN_SECONDS, list(row.lines), len(row.lines) // 2
    while size and time.monotonic() < until:
        at = len(lines)
        while at > 0:
            left = lines[:max(0, at - size)] + lines[at:]
            if fails(program, Row(row.name, row.word, row.options, left), until):
                lines = left
            at -= size
        size //= 2
    return lines


def random_runs(program, which, host, pool):
    """Random scripts, each with its faults."""
    sums, has_failed = {ONCE: Told(), ALWAYS: Told()}, False
    for row, faults, told in pool.map(lambda seed: random_run(program, seed, host), range(1, RUNS + 1)):
        if faults:
            print(f"{row.name}, options {' '.join(row.options)}", flush=True)
        if faults and not has_failed:
            print("the shortest script that fails:", *shortest(program, row), sep="\n", flush=True)
            has_failed = True
        for mode, found in told.items():
            sums[mode].add(found)
        yield f"{row.name}{which}", faults
    print(f"refused: random scripts of the seeds 1 to {RUNS}{which}: alone {sums[ONCE]}; with all behind {sums[ALWAYS]}", flush=True)


def runs_of(program, which, host, pool):
    """All runs of a build, each with its faults."""
    for row in rows():
        told = {ONCE: Told(), ALWAYS: Told()}
        faults = refuse_all(program, row, pool, told)
        if row.lines is TWO_STORES and not faults and not told[ONCE].half_way:
            faults = ["no redo found memory wanting behind its first step"]
        if not faults and not told[ONCE].wanting:
            faults = ["no call found memory wanting"]
        print(f"refused: {row.name}{which}: alone {told[ONCE]}; with all behind {told[ALWAYS]}", flush=True)
        yield f"{row.name}, each request for memory refused{which}", faults
    yield f"words of the operator take no memory{which}", words_take_none(program)
    yield from random_runs(program, which, host, pool)


def refused_runs():
    """The runs of each build. They are skipped if memory cannot be refused here."""
    host = builds("bfqhost")[0][0]
    with tempfile.TemporaryDirectory(prefix="bfq-") as folder, ThreadPoolExecutor(len(os.sched_getaffinity(0))) as pool:
        for path, which in builds("refused_growth"):
            try:
                program = Program(path, shim_in(folder, "refuse_nth"))
            except OSError as refused:
                yield f"calls while memory is refused{which}", [f"the program does not run: {refused}"]
            except NoShim as why:
                print(f"skipped: calls while memory is refused{which}: {why}")
            else:
                yield from runs_of(program, which, host, pool)
