#!/usr/bin/env python3
"""ext4.py IMAGE: whether an ext4 that a crash left in an image is sound, and has what its writer was promised.

First the journal is replayed, as a mount would do it; `e2fsck -fn` alone passes it by. Then the file system must be clean. The writer made
and synced a, then b.tmp, gave this the name b, and synced the folder. So each file has bytes that were written to it, from its start on. If b
or b.tmp is there, a is whole; b, if it is there, is whole, and b.tmp is gone.
"""

import os
import subprocess
import sys

WHOLE = {"a": b"A" * 3000, "b": b"B" * 3000}
# The status of e2fsck from which on it has left something as it was.
UNCORRECTED = 4
ENVIRONMENT = {**os.environ, "PATH": f"{os.environ.get('PATH', os.defpath)}:/usr/sbin:/sbin"}


def ran(*words):
    """The status of a command, and what it prints."""
    ended = subprocess.run(words, stdin=subprocess.DEVNULL, stdout=subprocess.PIPE, stderr=subprocess.STDOUT, env=ENVIRONMENT, check=False)
    return ended.returncode, ended.stdout


def content_of(image, name):
    """The bytes of a file; None if it is not there. Of one that is not there debugfs says so on standard error."""
    ended = subprocess.run(["debugfs", "-R", f"cat /{name}", image], stdin=subprocess.DEVNULL, capture_output=True, env=ENVIRONMENT, check=True)
    return None if b"File not found" in ended.stderr else ended.stdout


def why_bad(image):
    """What is wrong with a file system, or nothing."""
    # With -f it would go on and repair what is to be found.
    status, said = ran("e2fsck", "-y", "-E", "journal_only", image)
    if status >= UNCORRECTED:
        return f"no replay of its journal: {said.decode(errors='replace')}"
    status, said = ran("e2fsck", "-fn", image)
    if status:
        return said.decode(errors="replace")
    a, before, b = (content_of(image, name) for name in ("a", "b.tmp", "b"))
    for name, data, whole in (("a", a, WHOLE["a"]), ("b.tmp", before, WHOLE["b"]), ("b", b, WHOLE["b"])):
        if data is not None and not whole.startswith(data):
            return f"{name} has bytes that nobody wrote"
    if (before is not None or b is not None) and a != WHOLE["a"]:
        return "a was synced before b.tmp came, and is not whole"
    if b is not None and (b != WHOLE["b"] or before is not None):
        return "b has its name, and is not whole, or has its old name too"
    return ""


def main():
    why = why_bad(sys.argv[1])
    print(why or "sound", flush=True)
    return 1 if why else 0


if __name__ == "__main__":
    sys.exit(main())
