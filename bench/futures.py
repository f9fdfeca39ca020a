#!/usr/bin/env python3
"""How many edges a second a search of tools/futures has: by `show state`, and by single looks.

    python3 bench/futures.py [--program PATH] [--rounds N] [CASE]...

Each case is a whole search, or a reduced one as told beside its figures. With no case named all are run.

A case runs three times in each round. First by the reader of tools/futures, which asks `show state` for each edge. Then by a reader that asks
each part of a machine by a look of its own, as the tool did before; both must find as many states, edges and contents.
At last all lines that the first run has asked are written to a host at once, and of its answers nothing is looked at: so much time is the
host's own and that of the pipe.

A second is one of processor time, user and system, of the search and its hosts together, all on one processor. A figure is the median of
the rounds. At least twice as many edges are wanted by `show state` under BFQ where writes are searched, and the status is 1 if there are fewer.
"""

import argparse
import os
import resource
import statistics
import subprocess
import sys
import tempfile
import threading
from collections import namedtuple

sys.dont_write_bytecode = True
from sim import PROGRAM, TOP, show  # noqa: E402

sys.path.insert(0, os.path.join(TOP, "tools"))
import future_search  # noqa: E402
from driving import with_usual  # noqa: E402
from future_clients import Opening, read_clients  # noqa: E402
from future_contents import Contents, Ways  # noqa: E402
from future_search import Bounds, Live, Search  # noqa: E402
from future_states import Names, Reader  # noqa: E402
from image import stored  # noqa: E402
from single_looks import SingleLooks  # noqa: E402

ROUNDS = 5
LEAST = 2.0

# A search: its clients, the script before it, the options of sim, whether it has no reduction, and whether its ratio has a bound.
Case = namedtuple("Case", "name clients script options is_whole has_bound")
CLASH = "seat 0\nwrite 0 2 1\nwrite 1 2 2\nsync\nwrite 0 1 3\nseat 1\nwrite 1 1 4\nwrite 8 1 5\n"
# What is read is 32 KiB each time, which stays in an outbox: a line has the sum of all of it.
READS = "".join(f"seat {seat}\n" + "".join(f"read {10_000 * seat + 200 * at} 64\n" for at in range(3)) for seat in (0, 1))
OF_READS = ["--tags", "2", "--first-budget", "256", "--max-budget", "256"]
GROUPS = "group 0 100\ngroup 0 300\nattach 0 1 4\nattach 1 2 4\n"
SEATS = "attach 0 0 4\nattach 1 0 4\n"
CASES = [
    Case("bfq", CLASH, SEATS, ["--scheduler", "bfq"], True, True),
    Case("groups", CLASH, GROUPS, ["--scheduler", "bfq"], True, True),
    Case("groups, reduced", CLASH + "write 10 1 6\nwrite 12 1 7\n", GROUPS, ["--scheduler", "bfq"], False, True),
    Case("none", CLASH, SEATS, ["--scheduler", "none"], True, False),
    Case("reads in groups", READS, GROUPS, OF_READS, True, False),
]


def spent():
    """Seconds of processor time of this program, and of those that it has waited for."""
    both = [resource.getrusage(who) for who in (resource.RUSAGE_SELF, resource.RUSAGE_CHILDREN)]
    return sum(it.ru_utime + it.ru_stime for it in both)


class Noting(Live):
    """A host that is asked, with all that each host was asked."""

    asked_all = []

    def begin(self):
        """Another host is asked from the start."""
        super().begin()
        self.asked_all.append([*self.opening.lines])

    def answers(self):
        """The lines that it is asked now are noted."""
        self.asked_all[-1] += self.lines
        return super().answers()


def searched(case, program, reader_of, folder):
    """A search by one reader: it, its contents, and seconds."""
    paths = [os.path.join(folder, name) for name in ("clients", "script")]
    for path, text in zip(paths, (case.clients, case.script)):
        with open(path, "w", encoding="ascii") as file:
            file.write(text)
    clients, script = paths
    began = spent()
    opening = Opening(program, with_usual(case.options), script, read_clients(clients))
    names = Names(False)
    with opening.host() as host:
        reader, contents = reader_of(host, names, case.is_whole), Contents(None, stored(host))
    contents.name_all(names, opening)
    search = Search(opening, reader, contents, argparse.Namespace(all_states=case.is_whole, faults=False, requeues=0, ticks=0))
    ways = Ways(contents, Bounds())
    if search.run(Bounds(), ways, lambda _: None) is not None:
        sys.exit("bench: the search was cut")
    return search, len(ways.shortest), spent() - began


def lines_of(case, program, folder):
    """The lines that a search by `show state` asks of each host."""
    Noting.asked_all = []
    future_search.Live = Noting
    try:
        search, _, _ = searched(case, program, Reader, folder)
    finally:
        future_search.Live = Live
    return search.opening.options, ["".join(f"{line}\n" for line in lines).encode() for lines in Noting.asked_all]


def blindly(program, options, texts):
    """Seconds that hosts take for these lines, whose answers go nowhere."""
    began = spent()
    for text in texts:
        with subprocess.Popen([program, "sim", *options], stdin=subprocess.PIPE, stdout=subprocess.PIPE) as host:
            writer = threading.Thread(target=lambda host=host, text=text: (host.stdin.write(text), host.stdin.close()))
            writer.start()
            while host.stdout.read1(1 << 16):
                pass
            writer.join()
        if host.returncode:
            sys.exit(f"bench: a host ended with status {host.returncode}")
    return spent() - began


def measure(case, program, rounds):
    """Prints the figures of a case. Gives whether its bound is kept."""
    by_state, by_looks, blind = [], [], []
    with tempfile.TemporaryDirectory() as folder:
        options, texts = lines_of(case, program, folder)
        for _ in range(rounds):
            one, contents, took = searched(case, program, Reader, folder)
            by_state.append(took)
            other, same_contents, took = searched(case, program, SingleLooks, folder)
            by_looks.append(took)
            if (one.states, one.edges, contents) != (other.states, other.edges, same_contents):
                sys.exit(f"bench: {one.states} states {one.edges} edges, and {other.states} states {other.edges} edges by single looks")
            blind.append(blindly(program, options, texts))
    state, looks, host = (one.edges / statistics.median(it) for it in (by_state, by_looks, blind))
    print(f"{case.name}: {one.states:,} states {one.edges:,} edges {contents} contents{'' if case.is_whole else ', reduced'}; edges a second: "
          f"{state:,.0f} by one look, {looks:,.0f} by {len(other.reader.lines)} single looks, {host:,.0f} written blindly")
    if not case.has_bound:
        return True
    return show("edges against single looks", f"{state / looks:.2f}", f"at least {LEAST}", state >= LEAST * looks)


def main():
    words = argparse.ArgumentParser(description=__doc__, formatter_class=argparse.RawDescriptionHelpFormatter)
    words.add_argument("--program", metavar="PATH", default=PROGRAM)
    words.add_argument("--rounds", metavar="N", type=int, default=ROUNDS)
    words.add_argument("cases", nargs="*", metavar="CASE")
    given = words.parse_args()
    if not {*given.cases} <= {it.name for it in CASES}:
        sys.exit(f"bench: the cases are {', '.join(repr(it.name) for it in CASES)}")
    if not os.path.exists(given.program):
        sys.exit("bench: no program; tests/build.py --llvm builds it")
    # What this program starts is on the same processor.
    os.sched_setaffinity(0, {max(os.sched_getaffinity(0))})
    kept = [measure(it, os.path.abspath(given.program), given.rounds) for it in CASES if not given.cases or it.name in given.cases]
    return 0 if all(kept) else 1


if __name__ == "__main__":
    sys.exit(main())
