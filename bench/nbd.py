#!/usr/bin/env python3
"""How fast the bridge from NBD is, beside other servers of NBD and beside its host alone.

    python3 bench/nbd.py [--rounds N] [--seconds S]

Each round measures each cell once, in turn, so that what others do on the machine meets all alike. A cell is random reads or writes of 4 KiB, at a
time 1 or 16, by fio's engine for NBD. A figure is the median of the rounds, in reads or writes a second. The servers, each over an image of 16
MiB of its own:

    bridge      clients/bfqnbd.py over bfqhost
    qemu-nbd    qemu-nbd -s, which keeps what is written in a file of its own
    nbdkit      nbdkit file with --filter=cow, which does so too
    frames      bfqhost alone, by bfqclient and the host's own frames

Behind each figure of the bridge stand its parts of the others. There is no bar: what is measured is mostly the host, and the client in Python.
A server that is not there is left out, and told.
"""

import argparse
import contextlib
import json
import os
import shutil
import statistics
import subprocess
import sys
import tempfile
import time

sys.dont_write_bytecode = True
from sim import TOP  # noqa: E402

sys.path.insert(0, os.path.join(TOP, "clients"))
from bfqclient import serve  # noqa: E402

SIZE = 16 << 20
BLOCK = 4096
CELLS = [(kind, depth) for depth in (1, 16) for kind in ("read", "write")]
# For how long a server is waited for: seconds.
PATIENCE = 20
PROGRAM = os.path.join(TOP, "bfqhost")
NEEDS = {"bridge": "fio", "qemu-nbd": "qemu-nbd", "nbdkit": "nbdkit"}


@contextlib.contextmanager
def started(words, path):
    """A server that makes the socket of this path, and is ended behind the block."""
    process = subprocess.Popen(words, stdin=subprocess.DEVNULL, stdout=subprocess.DEVNULL, stderr=subprocess.DEVNULL)
    try:
        until = time.monotonic() + PATIENCE
        while not os.path.exists(path):
            if time.monotonic() > until or process.poll() is not None:
                sys.exit(f"bench: {words[0]} does not serve")
            time.sleep(0.02)
        yield path
    finally:
        process.terminate()
        process.wait()


@contextlib.contextmanager
def served(name, folder):
    """A server of this name over an image of its own: its socket of NBD, or of a client's frames."""
    image, path = os.path.join(folder, f"{name}.img"), os.path.join(folder, name)
    with open(image, "wb") as file:
        file.write(os.urandom(SIZE))
    if name in ("bridge", "frames"):
        with serve(image, program=PROGRAM, options=["--history", "16777216"]) as host:
            if name == "frames":
                yield host.path(0)
                return
            with started([sys.executable, os.path.join(TOP, "clients", "bfqnbd.py"), "--dir", host.folder, "--socket", path], path) as made:
                yield made
    elif name == "qemu-nbd":
        with started(["qemu-nbd", "-s", "-f", "raw", "-t", "-e", "16", "-k", path, image], path) as made:
            yield made
    else:
        with started(["nbdkit", "-f", "-U", path, "--filter=cow", "file", image], path) as made:
            yield made


def rate_of(name, path, cell, seconds):
    """Reads or writes a second."""
    kind, depth = cell
    if name == "frames":
        words = [sys.executable, os.path.join(TOP, "clients", "bfqclient.py"), path, "load", "--sectors", str(SIZE // 512), "--size",
                 str(BLOCK // 512), "--depth", str(depth), "--seconds", str(seconds), "--writes", "100" if kind == "write" else "0", "--json"]
        return json.loads(subprocess.run(words, capture_output=True, check=True).stdout)["per_second"]
    words = ["fio", "--name=job", "--ioengine=nbd", f"--uri=nbd+unix:///?socket={path}", f"--rw=rand{kind}", f"--bs={BLOCK}",
             f"--iodepth={depth}", f"--size={SIZE}", "--time_based", f"--runtime={seconds}", "--output-format=json"]
    told = subprocess.run(words, capture_output=True, check=True, text=True).stdout
    return json.loads(told[told.index("{"):])["jobs"][0][kind]["iops"]


def main():
    words = argparse.ArgumentParser(description=__doc__, formatter_class=argparse.RawDescriptionHelpFormatter)
    words.add_argument("--rounds", type=int, default=5, metavar="N", help="how often each cell is measured (5)")
    words.add_argument("--seconds", type=int, default=2, metavar="S", help="for how long (2)")
    given = words.parse_args()
    names = [name for name in ("bridge", "qemu-nbd", "nbdkit", "frames") if shutil.which(NEEDS.get(name, sys.executable))]
    if "bridge" not in names:
        sys.exit("bench: no fio here")
    for name in {"qemu-nbd", "nbdkit"} - {*names}:
        print(f"left out: no {name} here")
    found = {(name, cell): [] for name in names for cell in CELLS}
    with tempfile.TemporaryDirectory() as folder, contextlib.ExitStack() as stack:
        paths = {name: stack.enter_context(served(name, folder)) for name in names}
        for _ in range(given.rounds):
            for cell in CELLS:
                for name in names:
                    found[name, cell].append(rate_of(name, paths[name], cell, given.seconds))
    for cell in CELLS:
        rates = {name: statistics.median(found[name, cell]) for name in names}
        beside = ", ".join(f"{rates['bridge'] / rate:.2f} of {name} ({rate:.0f})" for name, rate in rates.items() if name != "bridge")
        print(f"{cell[0]}s, {cell[1]} at a time: {rates['bridge']:.0f} a second, {beside}")


if __name__ == "__main__":
    main()
