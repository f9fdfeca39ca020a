"""Want of memory: the program under limits of its address space.

A script of a kind stores 64 sectors, or reads them by the work of the device, in each of many cycles, with the query `line`
between two calls. Under a small limit there is no memory for the host. Under a larger one the run begins, and somewhere a
call finds none, or there is none for the bytes that are read. Whatever the limit:

- the answers before the first `refused 34` are those of a run with ample memory;
- a call that is not accepted leaves the cursor, the length and the last serial as they were, and an accepted one adds
  one to each;
- the status is 0 with nothing on standard error, or 5 with `memory: none`.

Between the limits at which there is no memory for the host and those at which it runs there may be a few, some 32 KiB in all, at which the
system gives no page for the stack to grow, and ends the process by SIGSEGV. No program can answer that. It may come at one limit in a row,
before anything is printed.

The expected texts come from the rules of scripts, and not from the program's own output.
"""

import resource
import signal
import subprocess
from dataclasses import dataclass
from typing import Callable

CYCLES = 300
CALLS = 4
# Some 230 KiB of limits let the process start and leave no memory for the host: a step is below that, so one is tried.
STEP = 1 << 17
MOST = 1 << 26
WORDS = ["sim", "--scheduler", "none", "--sectors", "65536"]


def storing(serial, start):
    """A cycle that stores."""
    return [
        (f"write 0 1 {start} 64 {start // 64 % 256}", f"queued {serial}"),
        ("dispatch", f"issued 0 {serial + 1} store {start} 64"),
        (f"finish 0 {serial + 1} stored", "finished 1"),
        ("reap 0 1", f"completed {serial} written"),
    ]


def working(serial, start):
    """A cycle that reads zeros by the work of the device."""
    return [
        (f"read 0 1 {start} 64", f"queued {serial}"),
        ("dispatch", f"issued 0 {serial + 1} fetch {start} 64"),
        (f"work 0 {serial + 1}", "finished 1"),
        ("reap 0 1", f"completed {serial} read{' 00' * 64}"),
    ]


@dataclass
class Kind:
    """Scripts of one kind: the calls of a cycle by its first serial and its first sector, each with its answer."""

    name: str
    cycle: Callable
    # One of these must be met: that a call is refused for want of memory, or that the run ends at it.
    wants: set

    def calls(self):
        """All calls, each with its answer where there is ample memory."""
        cycles = (self.cycle(CALLS * number + 2, 64 * number) for number in range(CYCLES))
        return [("attach 0 0 4", "attached 1"), *(call for cycle in cycles for call in cycle)]


KINDS = [
    Kind("stores", storing, {"write refused", "finish refused"}),
    Kind("device work", working, {"work refused", "work ended"}),
]


def limited(program, script, limit):
    """What the program writes to standard output and standard error, and its status, under a limit in bytes."""
    ended = subprocess.run([program, *WORDS], input=script, stdout=subprocess.PIPE, stderr=subprocess.PIPE, timeout=120,
                           preexec_fn=lambda: resource.setrlimit(resource.RLIMIT_AS, (limit, limit)), check=False)
    return ended.stdout.decode(), ended.stderr, ended.returncode


def faults_of_run(answers, stdout, stderr, status):
    """What a run that began did in another way than it must."""
    faults = []
    if (status, stderr) not in [(0, b""), (5, b"memory: none\n")]:
        faults.append(f"status {status} with standard error {stderr[:80]}")
    texts = stdout.splitlines()
    if stdout and not stdout.endswith("\n"):
        faults.append("a line of the output is not whole")
    if status == 0 and len(texts) != 2 * len(answers):
        faults.append(f"{len(texts)} lines, and not {2 * len(answers)}")
    cursor, wanting = 0, False
    for number, (answer, told) in enumerate(zip(texts[0::2], texts[1::2])):
        wanting = wanting or answer == "refused 34"
        if not wanting and answer != answers[number]:
            faults.append(f"answer {number + 1} is {answer!r} and not {answers[number]!r}")
        cursor += not answer.startswith(("refused ", "notyet "))
        if told != f"line {cursor} {cursor} {cursor}":
            faults.append(f"after answer {number + 1}, {answer!r}, stands {told!r} and not {cursor}")
    return faults[:3]


def without_memory(lines, texts, status):
    """How the calls of a run found no memory: those that were refused for it, and the one at which the run ended."""
    refused = {f"{line.split()[0]} refused" for line, text in zip(lines, texts) if text == "refused 34"}
    return refused | {f"{line.split()[0]} ended" for line in lines[len(texts):][:1] if status == 5}


def no_memory(program, kind):
    """Tries the limits in turn: what went wrong. No memory for the host, and one of what the kind wants, must be met."""
    lines = [text for line, _ in kind.calls() for text in (line, "line")]
    script = "".join(f"{line}\n" for line in lines).encode()
    answers = [answer for _, answer in kind.calls()]
    begun, at_start, without, has_no_stack = False, False, set(), False
    for limit in range(STEP, MOST, STEP):
        try:
            stdout, stderr, status = limited(program, script, limit)
        except (OSError, subprocess.SubprocessError):
            if begun:
                return [f"with {limit} bytes the program does not start, and with fewer it did"]
            continue
        begun = begun or status in (0, 5)
        if not begun:
            continue
        if not has_no_stack and (status, stdout, stderr) == (-signal.SIGSEGV, "", b""):
            has_no_stack = True
            continue
        faults = faults_of_run(answers, stdout, stderr, status)
        if faults:
            return [f"with {limit} bytes: {'; '.join(faults)}"]
        at_start = at_start or (status == 5 and not stdout)
        without |= without_memory(lines, stdout.splitlines(), status) if stdout else set()
        if status == 0 and "refused 34" not in stdout:
            break
    if not at_start:
        return ["never met: no memory for the host"]
    return [] if without & kind.wants else [f"never met: {' or '.join(sorted(kind.wants))}"]
