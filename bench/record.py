#!/usr/bin/env python3
"""What a record, and who looks, take of a host that serves; and how fast a record is replayed.

    python3 bench/record.py [--rounds N] [--seconds S] [PART]...

There are three parts, `rates`, `memory` and `replay`; with none named all are run. Each read and write has 8 sectors, and all bytes are
alike. A figure is the median of 7 rounds. In a round all that is compared is measured in turn.

`rates`: four clients read, or write, 16 at a time each, as in bench/served.py. A host serves them alone, one with a record, one at which
somebody looks as `tools/top --live` does, with a pause of 0.1 seconds behind each picture, one without a pause, and one alone again. In a
round each of them is loaded for 20 times 0.1 seconds in turn, so that what others do on the machine meets all alike. Who looks is on the
processor of the clients. A rate is divided by the mean of both rates alone. With a record it must reach 0.9, and with looks and pauses 1,
or come as near to it as the host alone to itself. Of looks without a pause nothing is asked. Rounds in which other machines took much of
the processors are run again, by the rule of bench/served.py. Beside each rate stands the processor time that the core's thread took for a
read or a write, of which nothing is asked.

`memory`: one client reads, or writes, 1,000 times, one after the other. What the host has of its own (RssAnon) is compared with and
without a record: it may be 96 KiB more. Beside it stands how far a second run without a record is from the first.

`replay`: a record of 60,000 calls of four clients, 16 reads or writes at a time each, is replayed; and `bfqhost sim` runs the same calls
from a script. Each answer must be the same. A figure is user plus system time, with that of a record or a script without calls taken off.
A replay must make at least half as many calls a second.

The status is 1 where a bound is not kept.
"""

import argparse
import contextlib
import ctypes
import multiprocessing
import os
import statistics
import subprocess
import sys
import tempfile
import time

sys.dont_write_bytecode = True
from loads import HISTORY, PROGRAM, Host, answered, frames_of, of_clients, quietest, serving  # noqa: E402
from inspecting import told  # noqa: E402
from served import Talk  # noqa: E402
from sim import PR_SET_CHILD_SUBREAPER, show, spent  # noqa: E402

CLIENTS, DEPTH = 4, 16
IMAGE_SECTORS = 4_096
RECORD = "run.rec"
KINDS = {"reads": False, "writes": True}
# What tools/top asks for a picture, and how a host is looked at: with such a pause behind each picture, or not at all.
LOOKS = ["show host", "show requeued", "show flight", *(f"show {what} {seat}" for seat in range(16) for what in ("seat", "queue")), "show tree 0"]
ALONE, AGAIN, RECORDED, LOOKED_AT, NO_PAUSE = "alone", "alone again", "with a record", "looked at with pauses", "looked at without a pause"
CORE_OF = "core of "
# In a round each host is loaded for so many short whiles.
SLICES = 20
PAUSES = {ALONE: None, RECORDED: None, LOOKED_AT: 0.1, NO_PAUSE: 0, AGAIN: None}
LEAST = {RECORDED: 0.9, LOOKED_AT: 1.0}
# How often a client reads or writes whose host's memory is compared, and how much more a host with a record may have.
TIMES, MOST_KIB = 1_000, 96
# How often four clients read or write, DEPTH at a time, of whose calls a record is replayed.
PIECES = 234
LEAST_OF_SIM = 0.5
# The words by which a script has a machine as the host's.
SIM = ["sim", "--history", str(HISTORY), "--sectors", str(IMAGE_SECTORS)]


def host_of(folder, image, clients, is_recorded):
    """A host in a folder, which has its sockets and, if there is to be one, its record."""
    sockets = os.path.join(folder, "sockets")
    os.mkdir(sockets)
    return Host(sockets, image, clients, *(["--record", os.path.join(folder, RECORD)] if is_recorded else []))


def looking(host, pause, is_on, ended, count):
    """Looks as tools/top does, with such a pause behind each picture, while it is to, until this ends. Counts the pictures."""
    while not ended.is_set():
        if is_on.wait(0.1):
            told(host, *LOOKS)
            count.value += 1
            ended.wait(pause)


class Looker:
    """Somebody who looks at a host, while it is to; nobody, if there is no pause."""

    def __init__(self, host, pause):
        self.is_on, self.ended, self.count = multiprocessing.Event(), multiprocessing.Event(), multiprocessing.Value("q", 0)
        self.process = None
        if pause is not None:
            self.process = multiprocessing.Process(target=looking, args=(host, pause, self.is_on, self.ended, self.count))
            of_clients(self.process)

    def end(self):
        self.ended.set()
        if self.process:
            self.process.join()


def load(paths, writes, seconds, barrier, rates):
    """A client of several hosts, who reads or writes at one after the other for a short while, when all clients do. Tells how many a second
    were done at each."""
    with contextlib.ExitStack() as stack:
        talks = [stack.enter_context(Talk(path)) for path in paths]
        frames, due = zip(*(frames_of(talk, DEPTH, writes) for talk in talks))
        done, took, buffer = [0] * len(talks), [0.0] * len(talks), bytearray(due[0])
        for _ in range(SLICES):
            for at, talk in enumerate(talks):
                barrier.wait()
                began = time.perf_counter()
                while time.perf_counter() < began + seconds / SLICES:
                    answered(talk, frames[at], buffer)
                    done[at] += DEPTH
                took[at] += time.perf_counter() - began
                barrier.wait()
        rates.put([number / long for number, long in zip(done, took)])


def core_time(host):
    """Seconds of processor time of the thread that took most so far, which is the core's."""
    folder = f"/proc/{host.process.pid}/task"
    found = []
    for thread in os.listdir(folder):
        with open(os.path.join(folder, thread, "schedstat"), encoding="ascii") as file:
            found.append(int(file.read().split()[0]) / 1e9)
    return max(found)


def in_turn(hosts, lookers, writes, seconds):
    """The rates of clients who load each host for a short while in turn, and again and again."""
    barrier, told_rates = multiprocessing.Barrier(CLIENTS + 1, timeout=60), multiprocessing.Queue()
    clients = [multiprocessing.Process(target=load, args=([host.path(number) for host in hosts], writes, seconds, barrier, told_rates))
               for number in range(CLIENTS)]
    for client in clients:
        of_clients(client)
    for _ in range(SLICES):
        for looker in lookers:
            barrier.wait()
            looker.is_on.set()
            barrier.wait()
            looker.is_on.clear()
    found = [told_rates.get(timeout=60) for _ in clients]
    for client in clients:
        client.join()
    return [sum(column) for column in zip(*found)]


def one_round(image, writes, seconds, counts):
    """Reads or writes a second of a host alone, in each other way, and alone again; and for each the time of the core, by names of their own."""
    with contextlib.ExitStack() as stack:
        hosts = [stack.enter_context(serving(lambda folder, way=way: host_of(folder, image, CLIENTS, way == RECORDED))) for way in PAUSES]
        before = [core_time(host) for host in hosts]
        lookers = [Looker(host, pause) for host, pause in zip(hosts, PAUSES.values())]
        try:
            rates = dict(zip(PAUSES, in_turn(hosts, lookers, writes, seconds)))
        finally:
            for looker in lookers:
                looker.end()
        for way, looker in zip(PAUSES, lookers):
            counts.setdefault(way, []).append(looker.count.value)
        cores = {CORE_OF + way: (core_time(host) - start) / (rates[way] * seconds) for way, host, start in zip(PAUSES, hosts, before)}
    return {**rates, **cores}


def of_alone(rounds, way, figure=""):
    """What a figure is, in each round, beside the mean of both alone; in order."""
    return sorted(2 * it[figure + way] / (it[figure + ALONE] + it[figure + AGAIN]) for it in rounds)


def show_rates(kind, quiet, number, seconds, counts):
    """Prints what was measured of reads or of writes. Gives whether each bound is kept."""
    rounds = [rates for _, rates in quiet]
    # A bound is judged by the figures that are told.
    itself = round(statistics.median(min(it[ALONE], it[AGAIN]) / max(it[ALONE], it[AGAIN]) for it in rounds), 3)
    itself_core = statistics.median(it[CORE_OF + AGAIN] / it[CORE_OF + ALONE] for it in rounds)
    alone, core_alone = (statistics.median(it[name] for it in rounds) for name in (ALONE, CORE_OF + ALONE))
    print(f"{kind}, {len(rounds)} of {number} rounds, of which at most {quiet[-1][0]:.3f} of a processor was stolen: {alone:.0f} a second alone, "
          f"core {core_alone * 1e6:.1f} us; to itself {itself:.3f}, core {itself_core:.3f}")
    kept = []
    for way in (RECORDED, LOOKED_AT, NO_PAUSE):
        parts = of_alone(rounds, way)
        part, least = round(statistics.median(parts), 3), min(LEAST.get(way, 0), itself)
        core, times = statistics.median(it[CORE_OF + way] for it in rounds), statistics.median(of_alone(rounds, way, CORE_OF))
        pictures = statistics.median(counts[way]) / seconds
        looks = f"; {pictures:.0f} pictures a second" if pictures else ""
        print(f"    {way}: {statistics.median(it[way] for it in rounds):.0f} a second, {parts[0]:.3f} to {parts[-1]:.3f}; "
              f"core {core * 1e6:.1f} us, {times:.3f}{looks}")
        if way in LEAST:
            kept.append(show(f"{kind} {way}", f"{part:.3f}", f"at least {least:.3f}", part >= least))
        else:
            print(f"{f'{kind} {way}':<44} {part:>14.3f}")
    return all(kept)


def rates(image, given):
    kept = []
    for kind, writes in KINDS.items():
        counts = {}
        quiet, number = quietest(lambda writes=writes, counts=counts: one_round(image, writes, given.seconds, counts), given.rounds)
        kept.append(show_rates(kind, quiet, number, given.seconds, counts))
    return all(kept)


def drive(host, clients, depth, writes, times):
    """Clients that come, and read or write so often, so many at a time each. They stay, and are given."""
    talks = [host.talk(number) for number in range(clients)]
    asked = [(talk, *frames_of(talk, depth, writes)) for talk in talks]
    for _ in range(times):
        for talk, frames, _ in asked:
            talk.socket.sendall(frames)
        for talk, _, due in asked:
            talk.take(due)
    return talks


def own_memory(image, writes, is_recorded):
    """What a host has of its own, in KiB, behind the reads or writes of one client."""
    with serving(lambda folder: host_of(folder, image, 1, is_recorded)) as host:
        talks = drive(host, 1, 1, writes, TIMES)
        with open(f"/proc/{host.process.pid}/status", encoding="ascii") as file:
            found = next(int(line.split()[1]) for line in file if line.startswith("RssAnon:"))
        for talk in talks:
            talk.socket.close()
    return found


def memory(image, given):
    kept = []
    for kind, writes in KINDS.items():
        rounds = [[own_memory(image, writes, is_recorded) for is_recorded in (False, True, False)] for _ in range(given.rounds)]
        more = sorted(recorded - alone for alone, recorded, _ in rounds)
        itself = statistics.median(abs(again - alone) for alone, _, again in rounds)
        print(f"memory of {TIMES:,} {kind}: {statistics.median(alone for alone, _, _ in rounds):.0f} KiB alone, again within {itself:.0f} KiB; "
              f"with a record {more[0]} to {more[-1]} KiB more")
        kept.append(show(f"a record of {kind}", f"{statistics.median(more):.0f} KiB", f"at most {MOST_KIB} KiB", statistics.median(more) <= MOST_KIB))
    return all(kept)


def run_of(words, script=""):
    """The lines that the program prints."""
    return subprocess.run([PROGRAM, *words], input=script, capture_output=True, text=True, check=True).stdout.splitlines()


def recorded(image, folder, writes):
    """The files of a record of four clients, of one without calls, of a script of the same calls, each of whose answers is as in the record,
    and of one without lines; and how many calls there are."""
    files = [os.path.join(folder, name) for name in (RECORD, "no-calls", "script", "empty")]
    with host_of(folder, image, CLIENTS, True) as host:
        for talk in drive(host, CLIENTS, DEPTH, writes, PIECES):
            talk.socket.close()
        host.stop()
    with open(files[0], "rb") as record, open(files[1], "wb") as none:
        none.write(record.readline())
    calls = [line.split(" ", 3)[3].partition(" -> ") for line in run_of(["replay", files[0], "--list"])]
    script = "".join(f"{call}\n" for call, _, _ in calls)
    if run_of(SIM, script) != [answer for _, _, answer in calls]:
        sys.exit("bench: the answers of a script are not those of the record")
    for path, text in zip(files[2:], (script, "")):
        with open(path, "w", encoding="ascii") as file:
            file.write(text)
    return files, len(calls)


def replay(image, given):
    kept = []
    for kind, writes in KINDS.items():
        with tempfile.TemporaryDirectory(prefix="bfq-") as folder:
            (record, no_calls, script, empty), calls = recorded(image, folder, writes)
            runs = {"replay": (["replay", record], empty), "no replay": (["replay", no_calls], empty), "sim": (SIM, script), "no sim": (SIM, empty)}
            # Of two runs in a row the one that took less, as in bench/sim.py.
            rounds = [{name: min(spent([PROGRAM], words, path) for _ in range(2)) for name, (words, path) in runs.items()}
                      for _ in range(given.rounds)]
            size = os.path.getsize(record)
        own, by_sim = (statistics.median(it[name][0] - it[f"no {name}"][0] for it in rounds) / calls for name in ("replay", "sim"))
        parts = sorted((it["sim"][0] - it["no sim"][0]) / (it["replay"][0] - it["no replay"][0]) for it in rounds)
        peaks = [statistics.median(it[name][1] for it in rounds) >> 10 for name in ("replay", "sim")]
        print(f"{calls:,} calls of {kind}, a record of {size >> 20} MiB: replay {own * 1e6:.2f} us a call and {peaks[0]} MiB, "
              f"sim {by_sim * 1e6:.2f} us and {peaks[1]} MiB; {parts[0]:.2f} to {parts[-1]:.2f}")
        part = round(statistics.median(parts), 2)
        kept.append(show(f"calls a second of a replay of {kind} against sim", f"{part:.2f}", f"at least {LEAST_OF_SIM}", part >= LEAST_OF_SIM))
    return all(kept)


PARTS = {"rates": rates, "memory": memory, "replay": replay}


def main():
    words = argparse.ArgumentParser(description=__doc__, formatter_class=argparse.RawDescriptionHelpFormatter)
    words.add_argument("--rounds", type=int, default=7)
    words.add_argument("--seconds", type=float, default=2)
    words.add_argument("parts", nargs="*", metavar="PART")
    given = words.parse_args()
    if not set(given.parts) <= set(PARTS):
        sys.exit(f"bench: the parts are {', '.join(PARTS)}")
    if not os.path.exists(PROGRAM):
        sys.exit("bench: no program; tests/build.py --llvm builds it")
    if ctypes.CDLL(None).prctl(PR_SET_CHILD_SUBREAPER, 1, 0, 0, 0) != 0:
        sys.exit("bench: no prctl")
    with tempfile.TemporaryDirectory(prefix="bfq-") as folder:
        image = os.path.join(folder, "image")
        with open(image, "wb") as file:
            file.truncate(IMAGE_SECTORS * 512)
        kept = [part(image, given) for name, part in PARTS.items() if name in (given.parts or PARTS)]
    print("as it should be" if all(kept) else "not as it should be")
    return 0 if all(kept) else 1


if __name__ == "__main__":
    sys.exit(main())
