"""What a read or a write costs a host or its floor, in counts that noise hardly touches: system calls, by strace; and in a run beside without
strace the times that a thread gave its processor up, and processor time.
"""

import contextlib
import os
import re
import signal
import statistics
import subprocess
import tempfile
from typing import NamedTuple

from loads import measured, serving

# The calls that are told, each with the names that it may have.
CALLS = {"futex": ("futex",), "mprotect": ("mprotect",), "send": ("sendto", "sendmsg", "write", "writev"), "recv": ("recvfrom", "recvmsg", "read", "readv"),
         "pread": ("pread64", "preadv")}
# A row of `strace -c -U calls,name`.
ROW = re.compile(r" *(\d+) +(\w+)\n")
ATTACHED = "attached"


class Cost(NamedTuple):
    """Of a read or a write: each of CALLS, the times that a thread gave up, and processor time in microseconds; and how many there are a second."""

    calls: dict
    switches: float
    time: float
    rate: float


def tasks(number):
    """The folders of the threads of a process."""
    return [os.path.join(f"/proc/{number}/task", it) for it in os.listdir(f"/proc/{number}/task")]


def switches(number):
    """How often its threads gave up their processor so far, as they had to wait."""
    found = 0
    for task in tasks(number):
        with open(os.path.join(task, "status"), encoding="utf-8") as file:
            found += int(re.search(r"^voluntary_ctxt_switches:\s+(\d+)", file.read(), re.MULTILINE)[1])
    return found


def processor(number):
    """How many seconds of processor time a process took so far."""
    with open(f"/proc/{number}/stat", encoding="utf-8") as file:
        # The name of the program, in brackets, may have spaces.
        words = file.read().rpartition(")")[2].split()
    return (int(words[11]) + int(words[12])) / os.sysconf("SC_CLK_TCK")


@contextlib.contextmanager
def counted(number):
    """Counts the system calls of a process meanwhile. Gives a dict, which has them by name at the end."""
    found = {}
    with tempfile.NamedTemporaryFile("r") as rows:
        words = ["strace", "-f", "-c", "-U", "calls,name", "-o", rows.name, "-p", str(number)]
        with subprocess.Popen(words, stderr=subprocess.PIPE, text=True) as tracer:
            if ATTACHED not in tracer.stderr.readline():
                raise SystemExit("bench: strace cannot attach to a host")
            try:
                yield found
            finally:
                tracer.send_signal(signal.SIGINT)
                tracer.stderr.read()
        found.update((name, int(count)) for count, name in ROW.findall(rows.read()))


def cost(make, clients, depth, writes, seconds):
    """What one of those that a host or a floor serves costs it."""
    with serving(make) as server:
        number = server.process.pid
        with counted(number) as calls:
            each, _ = measured(server, clients, depth, writes, seconds)
        of_each = {name: sum(calls.get(it, 0) for it in names) / (each * seconds) for name, names in CALLS.items()}
        before, took = switches(number), processor(number)
        each, _ = measured(server, clients, depth, writes, seconds)
        done = each * seconds
        return Cost(of_each, (switches(number) - before) / done, 1e6 * (processor(number) - took) / done, each)


def middle(costs):
    """The median of each figure of several rounds."""
    return Cost({name: statistics.median(it.calls[name] for it in costs) for name in CALLS}, statistics.median(it.switches for it in costs),
                statistics.median(it.time for it in costs), statistics.median(it.rate for it in costs))


def row(it):
    """The figures of a line."""
    return " ".join(f"{it.calls[name]:8.2f}" for name in CALLS) + f" {it.switches:8.2f} {it.time:8.1f} {it.rate:9.0f}"


HEAD = " ".join(f"{name:>8}" for name in CALLS) + f" {'switches':>8} {'us':>8} {'a second':>9}"
