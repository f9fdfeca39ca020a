#!/usr/bin/env python3
"""Time and memory of `bfqhost sim`, for each accepted call.

    python3 bench/sim.py [--against PROGRAM] [--as-started] [WORKLOAD]...

There are six workloads, each of cycles after an opening, over 1,024 sectors of zeros but for the last two. With no
workload named all are run.

`writes` and `merging reads` run with the scheduler none, and open with one attach. A cycle of `writes` is one write of
one sector, its dispatch, its finish and its reap. A cycle of `merging reads` is 32 reads of 8 sectors in a row, which
become one request, its dispatch, its finish with all bytes 0, and 32 reaps.

`reads in groups` runs with the scheduler bfq. It opens with 31 groups in four levels, and with 16 sessions in the 16
groups of the fourth. A cycle is two reads of one sector by each session, which do not merge, 32 dispatches, each with
its finish with all bytes 0, and 32 reaps. The same calls run with the scheduler none beside it.

`all kinds of steps` begins with the scheduler bfq, and opens with one attach. A cycle has each kind of step: a group comes
and is weighed, a client attaches to it and reads, its request is given back and sent again, it leaves with another one
in flight, the group goes, the host is frozen, switched to none and back and thawed, and the first client writes.

`reads of an image` runs with the scheduler none over a file of 64 MiB, and opens with one attach. A cycle is a read of 8
sectors, all over the file, its dispatch, its work and its reap. How long `dd` takes for as many blocks of 4,096 bytes is
shown beside it, where there is a `dd`.

`stores over stored sectors` runs with the scheduler none over 65,536 sectors of zeros, all of which its opening stores, 64 in
a row at a time. A cycle is one more write of 64 sectors, all over them, its dispatch, its finish and its reap. The opening is its
first pass and has a figure of its own: it adds each block, where the cycles replace them. From the other figures it is taken off.

Each figure is the median of 25 rounds, in user plus system time of the process, with that of an empty script of the
same round taken off. In a round each script runs twice in a row, and the run that took less counts. Peak memory is that of the
process, by getrusage, with that of an empty script taken off. Beside each figure that has a bound stands the bound, and the status is 1
where one is not kept.

With `--against` another build of the program runs in the same rounds, and this one has two figures in each. The other build's memory,
and what it takes to undo and redo, are told. The time per call of 60,000 calls is divided by that of the other build. Beside it stands
the ratio of this build to itself, that is, of its two times the longer divided by the shorter. The bound of 1.05 is kept too where the
first ratio is not above the second.

The programs run with the environment as it is. With `--as-started` each has besides what the launcher of its checkout sets for it.
"""

import argparse
import ctypes
import os
import re
import resource
import shutil
import statistics
import subprocess
import sys
import tempfile
from collections import namedtuple

TOP = os.path.dirname(os.path.dirname(os.path.abspath(__file__)))
PROGRAM = os.path.join(TOP, "crates", "bfqhost", "out", "bfqhost")
WORDS = ["sim", "--history", "300000", "--scheduler"]

RUNS = 25
SECTORS = 1024
SECTOR_BYTES = 512
# How many calls the scripts have after the opening, and how many steps are undone: of a workload whose cycle does not
# divide these, as many whole cycles as they hold.
FEW = 6_000
MANY = 60_000
BACK = 30_000

MOST_GROWTH = 1.3
MOST_UNDO = 0.5
MOST_BYTES_PER_CALL = 400
MOST_AGAINST_NONE = 3
MOST_AGAINST_OTHER = 1.05

# The image that is read, and how many of its blocks of 8 sectors lie between one read and the next: all come once.
IMAGE_BYTES = 64 << 20
BLOCK_SECTORS = 8
BLOCK_BYTES = BLOCK_SECTORS * SECTOR_BYTES
BLOCKS = IMAGE_BYTES // BLOCK_BYTES
BLOCK_STRIDE = 4_099

# The sectors that are all stored before the cycles, how many a write has, and how many such runs lie between one write of a
# cycle and the next: all come before one comes again.
STORED_SECTORS = 65_536
RUN_SECTORS = 64
STORED_RUNS = STORED_SECTORS // RUN_SECTORS
RUN_STRIDE = 389

SEATS = 16
GROUPS = 31
# The number of the first group of the fourth level: 2 + 4 + 8 groups are above it.
FIRST_OF_FOURTH = 15

# The number of prctl's option that makes this process the parent of processes whose own parent has ended.
PR_SET_CHILD_SUBREAPER = 36


def write_cycle(cycle, first):
    """The lines of one cycle, each with what it prints by the rules of the script. Serials go on from `first`."""
    sector, issue = cycle % SECTORS, first + 1
    yield f"write 0 1 {sector} 1 {cycle % 256}", f"queued {first}"
    yield "dispatch", f"issued 0 {issue} store {sector} 1"
    yield f"finish 0 {issue} stored", "finished 1"
    yield "reap 0 1", f"completed {first} written"


def merging_read_cycle(cycle, first):
    """Likewise. 32 bios in one request of 256 sectors are the most that both of its limits allow."""
    start, issue = cycle * 256 % SECTORS, first + 32
    bios = range(first, issue)
    for place, bio in enumerate(bios):
        yield f"read 0 1 {start + 8 * place} 8", f"queued {bio}"
    yield "dispatch", f"issued 0 {issue} fetch {start} 256"
    yield f"finish 0 {issue} fill 0", "finished 32"
    for bio in bios:
        yield "reap 0 1", f"completed {bio} read" + " 00" * 8


ONE_ATTACH = [("attach 0 0 4", "attached 1")]


def groups_and_seats():
    """31 groups and 16 sessions: groups 2g + 1 and 2g + 2 stand in group g, as far as the fourth level, each of whose
    groups has one seat. The path of a seat has five entities. The last group has none, and stands in the root."""
    for group in range(1, GROUPS):
        yield f"group {(group - 1) // 2} {100 * (1 + group % 3)}", f"group {group}"
    yield "group 0 100", f"group {GROUPS}"
    for seat in range(SEATS):
        yield f"attach {seat} {FIRST_OF_FOURTH + seat} {seat % 8}", f"attached {GROUPS + 1 + seat}"


def grouped_read_cycle(cycle, first):
    """Likewise. Each session reads two sectors with one between them, and goes upwards from cycle to cycle, so that either
    scheduler serves a session's reads in order. Whose read a dispatch takes is the scheduler's choice; here they stand in
    order of the seats."""
    reads = [(seat, 64 * seat + 4 * (cycle % 16) + 2 * half) for half in range(2) for seat in range(SEATS)]
    for place, (seat, sector) in enumerate(reads):
        yield f"read {seat} {GROUPS + 1 + seat} {sector} 1", f"queued {first + place}"
    for place, (_, sector) in enumerate(reads):
        issue = first + len(reads) + 2 * place
        yield "dispatch", f"issued 0 {issue} fetch {sector} 1"
        yield f"finish 0 {issue} fill 0", "finished 1"
    for place, (seat, _) in enumerate(reads):
        yield f"reap {seat} {GROUPS + 1 + seat}", f"completed {first + place} read 00"


def all_steps_cycle(cycle, first):
    """Likewise. Each kind of step once at least; at the end of a cycle the machine is as before it, but for the sector."""
    session, sector = first + 2, 4 * cycle % SECTORS
    yield "group 0 100", "group 1"
    yield "weight 1 200", "done"
    yield "attach 1 1 4", f"attached {session}"
    yield f"read 1 {session} {sector} 1", f"queued {first + 3}"
    yield f"read 1 {session} {sector + 2} 1", f"queued {first + 4}"
    yield "dispatch", f"issued 0 {first + 5} fetch {sector} 1"
    yield "tick", "done"
    yield f"requeue 0 {first + 5}", "requeued"
    yield "dispatch", f"issued 0 {first + 8} fetch {sector} 1"
    yield f"finish 0 {first + 8} fill 0", "finished 1"
    yield f"reap 1 {session}", f"completed {first + 3} read 00"
    yield "dispatch", f"issued 0 {first + 11} fetch {sector + 2} 1"
    yield "leave 1", "left"
    yield f"finish 0 {first + 11} fill 0", "finished 1"
    yield "drop 1", "done"
    yield "freeze", "done"
    yield "switch none", "done"
    yield "switch bfq", "done"
    yield "thaw", "done"
    yield f"write 0 1 {sector + 1} 1 {cycle % 256}", f"queued {first + 19}"
    yield "dispatch", f"issued 0 {first + 20} store {sector + 1} 1"
    yield f"finish 0 {first + 20} stored", "finished 1"
    yield "reap 0 1", f"completed {first + 19} written"


def image_bytes():
    """The image that is read: each byte of a sector is the last one of the sector's number."""
    for sector in range(IMAGE_BYTES // SECTOR_BYTES):
        yield bytes([sector % 256]) * SECTOR_BYTES


def image_read_cycle(cycle, first):
    """Likewise."""
    start, issue = BLOCK_SECTORS * (cycle * BLOCK_STRIDE % BLOCKS), first + 1
    yield f"read 0 1 {start} {BLOCK_SECTORS}", f"queued {first}"
    yield "dispatch", f"issued 0 {issue} fetch {start} {BLOCK_SECTORS}"
    yield f"work 0 {issue}", "finished 1"
    yield "reap 0 1", f"completed {first} read" + "".join(f" {(start + place) % 256:02x}" for place in range(BLOCK_SECTORS))


def store_cycle(run, byte, first):
    """The lines of one write of a run of sectors, its dispatch, its finish and its reap, each with what it prints."""
    start, issue = RUN_SECTORS * run, first + 1
    yield f"write 0 1 {start} {RUN_SECTORS} {byte}", f"queued {first}"
    yield "dispatch", f"issued 0 {issue} store {start} {RUN_SECTORS}"
    yield f"finish 0 {issue} stored", "finished 1"
    yield "reap 0 1", f"completed {first} written"


def all_stored():
    """One attach, and then each run of sectors stored once."""
    yield from ONE_ATTACH
    for run in range(STORED_RUNS):
        yield from store_cycle(run, 255, 4 * run + 2)


def store_again_cycle(cycle, first):
    """Likewise. All sectors were stored before, so each block takes the place of one."""
    return store_cycle(cycle * RUN_STRIDE % STORED_RUNS, cycle % 256, first)


FIELDS = "name scheduler opening cycle calls payload_sectors most_bytes most_against_none has_image more_words has_first_pass"


class Workload(namedtuple("Workload", FIELDS)):
    """The lines before the cycles and what they print, a cycle, the calls that it has, the sectors that it writes or
    reads, the bounds on a call's bytes and on its time against that with the scheduler none, if any, whether it runs
    over an image file, the words that it has besides, and whether its opening is a first pass, which has a figure of its own."""

    def whole(self, calls):
        """The greatest number of calls up to `calls` that whole cycles have."""
        return calls // self.calls * self.calls

    def script(self, calls):
        """The opening and `calls` calls after it: the lines and what they print. No call is refused."""
        pairs = list(self.opening)
        first = len(pairs) + 1
        for cycle in range(calls // self.calls):
            pairs.extend(self.cycle(cycle, self.calls * cycle + first))
        return pairs

    def scripts(self):
        """The scripts to be timed with the workload's scheduler, by name."""
        many, back = self.whole(MANY), self.whole(BACK)
        length = len(self.opening) + many
        all_calls = self.script(many)
        held = all_calls + [("hold", f"moved {length} {length}")]
        undone = held + [(f"undo {back}", f"moved {length - back} {length}")]
        first_pass = {"nothing": []} if self.has_first_pass else {}
        return {
            **first_pass,
            "empty": list(self.opening) if self.has_first_pass else [],
            "few": self.script(self.whole(FEW)),
            "half": self.script(many - back),
            "many": all_calls,
            "held": held,
            "undone": undone,
            "redone": undone + [(f"redo {back}", f"moved {length} {length}")],
        }

    def runs(self, own, against):
        """The words that start the program, the scheduler and the script of each run to be timed, by name. Those that are to be
        compared with another build's stand side by side."""
        scripts, runs = self.scripts(), {}
        for name, pairs in scripts.items():
            runs[name] = (own, self.scheduler, pairs)
            if against is not None and name in ("nothing", "empty", "many"):
                runs[f"{name}, again"] = (own, self.scheduler, pairs)
            if against is not None and name in ("nothing", "empty", "many", "held", "undone", "redone"):
                runs[f"{name}, against"] = (against, self.scheduler, pairs)
        if self.most_against_none is not None:
            runs["empty, none"] = (own, "none", scripts["empty"])
            runs["many, none"] = (own, "none", scripts["many"])
        return runs


WORKLOADS = [
    Workload("writes", "none", ONE_ATTACH, write_cycle, 4, 1, MOST_BYTES_PER_CALL, None, False, [], False),
    # The bytes of a read stay for as long as its reap can be undone, so what a call leaves is mostly payload.
    Workload("merging reads", "none", ONE_ATTACH, merging_read_cycle, 66, 256, None, None, False, [], False),
    Workload("reads in groups", "bfq", list(groups_and_seats()), grouped_read_cycle, 128, 32, None, MOST_AGAINST_NONE, False, [], False),
    # With the scheduler none the first switch would be refused.
    Workload("all kinds of steps", "bfq", ONE_ATTACH, all_steps_cycle, 23, 3, None, None, False, [], False),
    Workload("reads of an image", "none", ONE_ATTACH, image_read_cycle, 4, BLOCK_SECTORS, MOST_BYTES_PER_CALL, None, True, [], False),
    Workload("stores over stored sectors", "none", list(all_stored()), store_again_cycle, 4, RUN_SECTORS, None, None, False,
             ["--sectors", str(STORED_SECTORS)], True),
]


def as_launched(program):
    """The words that start a program with the environment that the launcher of its checkout gives it."""
    launcher = os.path.normpath(os.path.join(program, "..", "..", "..", "..", "tests", "launch"))
    settings = {}
    if os.path.exists(launcher):
        with open(launcher, encoding="utf-8") as file:
            settings = dict(re.findall(r'^export (\w+)="\$\{\w+-(\S+)\}"$', file.read(), re.M))
    return ["env", *(f"{name}={os.environ.get(name, value)}" for name, value in settings.items()), program]


def spent(program, words, path):
    """Seconds of user plus system time and KiB of peak memory of one run on a script.

    A process that Python starts counts Python's own memory in its peak. So a shell starts the program and ends, and
    the program, whose parent it was, becomes a child of this process. It begins once the shell has ended, so that the
    shell does not wait for it in this process's place.
    """
    shell = 'exec 3<&0; { read -r go <&3; exec 3<&-; exec "$@" <"$script"; } >/dev/null & echo $!'
    started = subprocess.Popen(
        ["/bin/sh", "-c", shell, "sh", *program, *words],
        env={**os.environ, "script": path}, stdin=subprocess.PIPE, stdout=subprocess.PIPE)
    pid = int(started.stdout.read())
    if started.wait() != 0:
        sys.exit("bench: the program was not started")
    started.stdin.write(b"go\n")
    started.stdin.close()
    started.stdout.close()
    _, status, usage = os.wait4(pid, 0)
    if status != 0:
        sys.exit("bench: the program did not end well")
    return usage.ru_utime + usage.ru_stime, usage.ru_maxrss


def copied(image):
    """Seconds of user plus system time in which `dd` reads as many blocks as the longest script."""
    before = resource.getrusage(resource.RUSAGE_CHILDREN)
    subprocess.run(["dd", f"if={image}", "of=/dev/null", f"bs={BLOCK_BYTES}", f"count={MANY // 4}", "status=none"], check=True)
    after = resource.getrusage(resource.RUSAGE_CHILDREN)
    return after.ru_utime - before.ru_utime + after.ru_stime - before.ru_stime


def in_any_order(lines):
    """The lines, with the ranges issued between two other calls than dispatches and finishes in order: whom a dispatch
    serves is the scheduler's choice. Tags and issues stay where they are."""
    ordered, places = list(lines), []
    for place, line in enumerate([*lines, "end"]):
        word = line.split(" ")[0]
        if word == "issued":
            places.append(place)
        elif word != "finished":
            words = [ordered[issued].split(" ") for issued in places]
            ranges = sorted(issued[3:] for issued in words)
            for issued, old, new in zip(places, words, ranges):
                ordered[issued] = " ".join(old[:3] + new)
            places = []
    return ordered


def check(program, words, path, wanted):
    """Stops unless the script's output is as wanted: a call that is refused would cost less."""
    with open(path, "rb") as script:
        run = subprocess.run([*program, *words], stdin=script, stdout=subprocess.PIPE)
    if run.returncode != 0:
        sys.exit(f"bench: {program[-1]} did not end well as {' '.join(words)}")
    # The last line has its end too, so nothing stands behind it.
    if in_any_order(run.stdout.decode().split("\n")) != in_any_order([*wanted, ""]):
        sys.exit(f"bench: the answers of {program[-1]} are not those of accepted calls")


class Rounds:
    """What each run took in each round."""

    def __init__(self, runs, has_image, more_words):
        self.seconds = {name: [] for name in runs}
        self.peaks = {name: [] for name in runs}
        self.copied = []
        with tempfile.TemporaryDirectory() as folder:
            image = os.path.join(folder, "image")
            over = ["--image", image] if has_image else []
            if has_image:
                with open(image, "wb") as file:
                    file.writelines(image_bytes())
            words = {name: [*WORDS, scheduler, *more_words, *over] for name, (_, scheduler, _) in runs.items()}
            for name, (program, _, pairs) in runs.items():
                path = os.path.join(folder, name)
                with open(path, "w") as script:
                    script.writelines(line + "\n" for line, _ in pairs)
                check(program, words[name], path, [printed for _, printed in pairs])
            # One round after the other, so that a slow moment of the machine meets all scripts alike.
            for _ in range(RUNS):
                for name, (program, _, _) in runs.items():
                    # Of two runs in a row the one that took less: to the first a virtual machine may have to get memory from its host again.
                    time, peak = min(spent(program, words[name], os.path.join(folder, name)) for _ in range(2))
                    self.seconds[name].append(time)
                    self.peaks[name].append(peak)
                if has_image and shutil.which("dd"):
                    self.copied.append(copied(image))

    def peak(self, name):
        return statistics.median(self.peaks[name])

    def between(self, name, other):
        """How much longer one script takes than another, both in the same round."""
        return statistics.median(time - less for time, less in zip(self.seconds[name], self.seconds[other]))

    def per_call(self, name, calls, empty="empty"):
        return self.between(name, empty) / calls

    def bytes_per_call(self, name, calls, empty="empty"):
        return (self.peak(name) - self.peak(empty)) * 1024 / calls


def show(what, measured, bound, is_kept):
    print(f"{what:<44} {measured:>14}   wanted {bound:<18} {'kept' if is_kept else 'NOT KEPT'}")
    return is_kept


def compare(rounds, opening, many, back, payload):
    """Prints what a call takes by this build, by it again, and by the other one, and what a step undone or redone takes by the other
    one. Gives whether the bound is kept."""
    first, again, other = (rounds.per_call(f"many{build}", opening + many, f"empty{build}")
                           for build in ("", ", again", ", against"))
    ratio, own = first / other, max(first / again, again / first)
    print(f"{many:>7,} calls: {first * 1e6:6.3f} us, again {again * 1e6:6.3f} us, {other * 1e6:6.3f} us by the other build; "
          f"this build to itself: {own:.3f}")
    beyond = rounds.bytes_per_call("many, against", opening + many, "empty, against") - payload
    undo, redo = (rounds.between(f"{name}, against", f"{before}, against") for name, before in (("undone", "held"), ("redone", "undone")))
    print(f"by the other build: {beyond:6.0f} bytes per call beyond payload; {back:,} steps undone in {undo * 1e3:.2f} ms, "
          f"redone in {redo * 1e3:.2f} ms")
    bound = max(MOST_AGAINST_OTHER, own)
    return show("time per call against the other build", f"{ratio:.3f}", f"at most {bound:.3f}", ratio <= bound)


def show_first_pass(rounds, calls, against):
    """Prints what a call of the opening takes, by this build and by the other one."""
    size = (rounds.peak("empty") - rounds.peak("nothing")) * 1024 / calls
    other = ""
    if against is not None:
        other = f", {rounds.per_call('empty, against', calls, 'nothing, against') * 1e6:6.3f} us by the other build"
    print(f"{calls:>7,} calls of the first pass: {rounds.per_call('empty', calls, 'nothing') * 1e6:6.3f} us and {size:6.0f} bytes "
          f"per call{other}")


def run(workload, own, against):
    """Measures one workload and prints its figures. Gives whether each bound is kept."""
    few, many, back = workload.whole(FEW), workload.whole(MANY), workload.whole(BACK)
    # A first pass is taken off with the process, so it is none of the calls either.
    opening = 0 if workload.has_first_pass else len(workload.opening)
    payload = workload.payload_sectors * SECTOR_BYTES / workload.calls
    rounds = Rounds(workload.runs(own, against), workload.has_image, workload.more_words)

    alone = "nothing" if workload.has_first_pass else "empty"
    start = statistics.median(rounds.seconds[alone])
    print(f"{workload.name}: medians of {RUNS} runs; start of the process: {start * 1e3:.2f} ms, {rounds.peak(alone):.0f} KiB")
    if workload.has_first_pass:
        show_first_pass(rounds, len(workload.opening), against)
    for name, calls in (("few", few), ("many", many)):
        size = rounds.bytes_per_call(name, opening + calls)
        print(f"{calls:>7,} calls: {rounds.per_call(name, opening + calls) * 1e6:6.3f} us and {size:6.0f} bytes per call, "
              f"{size - payload:6.0f} bytes beyond payload")
    steps = rounds.between("many", "half")
    undo = rounds.between("undone", "held")
    redo = rounds.between("redone", "undone")
    print(f"{back:>7,} steps: {steps * 1e3:.2f} ms; undone in {undo * 1e3:.2f} ms, redone in {redo * 1e3:.2f} ms")

    if rounds.copied:
        print(f"{MANY // 4:>7,} blocks: dd bs={BLOCK_BYTES} reads them in {statistics.median(rounds.copied) * 1e3:.2f} ms")

    growth = rounds.per_call("many", opening + many) / rounds.per_call("few", opening + few)
    kept = [
        show(f"time per call at {many:,} against {few:,}", f"{growth:.2f}", f"at most {MOST_GROWTH}", growth <= MOST_GROWTH),
        show(f"undo {back:,} against its steps", f"{undo / steps:.2f}", f"at most {MOST_UNDO}", undo <= MOST_UNDO * steps),
        show(f"redo {back:,} against its steps", f"{redo / steps:.2f}", f"at most {MOST_UNDO}", redo <= MOST_UNDO * steps),
    ]
    if workload.most_against_none is not None:
        part = rounds.between("many", "empty") / rounds.between("many, none", "empty, none")
        kept.append(show("time per call against the scheduler none", f"{part:.2f}", f"at most {workload.most_against_none}",
                         part <= workload.most_against_none))
    if workload.most_bytes is not None:
        beyond = rounds.bytes_per_call("many", opening + many) - payload
        kept.append(show("peak memory per call beyond payload", f"{beyond:.0f} bytes", f"at most {workload.most_bytes}",
                         beyond <= workload.most_bytes))
    if against is not None:
        kept.append(compare(rounds, opening, many, back, payload))
    return all(kept)


def main():
    names = [workload.name for workload in WORKLOADS]
    words = argparse.ArgumentParser(description=__doc__, formatter_class=argparse.RawDescriptionHelpFormatter)
    words.add_argument("--against", metavar="PROGRAM")
    words.add_argument("--as-started", action="store_true")
    words.add_argument("workloads", nargs="*", metavar="WORKLOAD")
    given = words.parse_args()
    wanted = given.workloads or names
    if not set(wanted) <= set(names):
        sys.exit(f"bench: the workloads are {', '.join(repr(name) for name in names)}")
    if not os.path.exists(PROGRAM):
        sys.exit("bench: no program; tests/build.py --llvm builds it")
    against = given.against and os.path.abspath(given.against)
    if against and not os.access(against, os.X_OK):
        sys.exit(f"bench: no program {against}")
    if ctypes.CDLL(None).prctl(PR_SET_CHILD_SUBREAPER, 1, 0, 0, 0) != 0:
        sys.exit("bench: no prctl")
    started = as_launched if given.as_started else lambda program: [program]
    own, other = started(PROGRAM), against and started(against)
    kept = [run(workload, own, other) for workload in WORKLOADS if workload.name in wanted]
    return 0 if all(kept) else 1


if __name__ == "__main__":
    sys.exit(main())
