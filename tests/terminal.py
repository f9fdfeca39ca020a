"""What the programs say to a person: runs whose standard error is a terminal.

There each fault has a second line, and what `bfqctl` prints of a refusal has one. The first lines, standard output and the status are those
of a run whose standard error is a pipe (tests/bad_input.py, tests/serving.py, tests/bfqctl.py). The texts come from docs/FORMATS.md.
"""

import contextlib
import os
import pty
import socket
import subprocess
import tempfile
import threading

from served import DONE, FREEZE, Served, Wrong, image_of, same

SECONDS = 30
REFUSED, IMAGE, SOCKET = "words: refused", "image: cannot be read", "socket: failed"
HELP, OPERATORS_HELP = "; see bfqhost --help", "; see bfqctl --help"
BAD_WORDS, NO_SOCKET, NOT_DONE, OPERATORS_BAD_WORDS, NO_ANSWER = 6, 7, 1, 2, 3

# Words of bfqhost, the two lines and the status. IMAGE is a good image, DIR a good folder, and NONE a path at which nothing is.
SERVE = "serve --image IMAGE --dir DIR"
HOST = [
    ("", REFUSED, f"neither sim, serve nor replay is named{HELP}", BAD_WORDS),
    ("simulate", REFUSED, f"unexpected simulate{HELP}", BAD_WORDS),
    ("--version sim", REFUSED, f"unexpected --version{HELP}", BAD_WORDS),
    ("sim --client 4", REFUSED, f"unexpected --client{HELP}", BAD_WORDS),
    ("sim --tags four", REFUSED, f"--tags takes a whole number below 2^64, and not four{HELP}", BAD_WORDS),
    ("sim --scheduler kyber", REFUSED, f"--scheduler is bfq or none, and not kyber{HELP}", BAD_WORDS),
    ("serve --dir DIR", REFUSED, f"serve needs --image{HELP}", BAD_WORDS),
    ("serve --image IMAGE", REFUSED, f"serve needs --dir{HELP}", BAD_WORDS),
    ("sim --nr-requests 0", "config: nr_requests", f"--nr-requests is 1 to 256{HELP}", BAD_WORDS),
    ("sim --tags 65", "config: tags", f"--tags is 1 to 64{HELP}", BAD_WORDS),
    ("sim --max-budget 255", "config: max_budget", f"--max-budget is 256 to 65536{HELP}", BAD_WORDS),
    ("sim --max-budget 512", "config: first_budget", f"--first-budget is 256 to --max-budget{HELP}", BAD_WORDS),
    ("sim --timeout 0", "config: timeout", f"--timeout is 1 to 1000{HELP}", BAD_WORDS),
    ("sim --history 0", "config: history_max", f"--history is 1 to 16777216{HELP}", BAD_WORDS),
    (f"sim --first-vtime {2**62 + 1}", "config: first_vtime", f"--first-vtime is 0 to {2**62}{HELP}", BAD_WORDS),
    ("sim --sectors 65537", "config: sectors", f"--sectors is 0 to 65536{HELP}", BAD_WORDS),
    (f"{SERVE} --workers 5", "config: workers", f"--workers is 1 to 4{HELP}", BAD_WORDS),
    (f"{SERVE} --clients 17", "config: clients", f"--clients is 1 to 16{HELP}", BAD_WORDS),
    (f"{SERVE} --delay 1000001", "config: delay", f"--delay is 0 to 1000000{HELP}", BAD_WORDS),
    (f"{SERVE} --bad 5+0", "config: bad", f"--bad has at most 16 runs, each of a sector at least{HELP}", BAD_WORDS),
    (f"{SERVE} --bad 5", REFUSED, f"--bad takes START+COUNT, or several of these with commas between, and not 5{HELP}", BAD_WORDS),
    (f"{SERVE} --tags 0", "config: tags", f"--tags is 1 to 64{HELP}", BAD_WORDS),
    ("sim --image NONE", IMAGE, "NONE: No such file or directory (os error 2)", BAD_WORDS),
    ("sim --image IMAGE/x", IMAGE, "IMAGE/x: Not a directory (os error 20)", BAD_WORDS),
    ("sim --image DIR", IMAGE, "DIR: neither a regular file nor a block device", BAD_WORDS),
    ("serve --image /dev/zero --dir DIR", IMAGE, "/dev/zero: neither a regular file nor a block device", BAD_WORDS),
    ("serve --image NONE --dir DIR", IMAGE, "NONE: No such file or directory (os error 2)", BAD_WORDS),
    ("serve --image IMAGE --dir NONE", SOCKET, "NONE/operator: No such file or directory (os error 2)", NO_SOCKET),
    ("serve --image IMAGE --dir IMAGE", SOCKET, "IMAGE/operator: Not a directory (os error 20)", NO_SOCKET),
    ("serve --image IMAGE --dir=", SOCKET, "--dir names no folder", NO_SOCKET),
    ("serve --image IMAGE --dir SERVED", SOCKET, "SERVED/operator: another host serves there", NO_SOCKET),
    ("serve --image IMAGE --dir TAKEN", SOCKET, "TAKEN/client1: a file that is no socket stands there", NO_SOCKET),
    ("serve --image IMAGE --dir OTHERS", SOCKET, "OTHERS/inspect: a file that is no socket stands there", NO_SOCKET),
]
# Words of bfqctl behind the option, what it prints, the lines of standard error, and the status. The host is a new one, frozen once.
OPERATOR = [
    ("thaw now", "", [REFUSED, f"no command is spelled so: thaw now{OPERATORS_HELP}"], OPERATORS_BAD_WORDS),
    ("undo -1", "", [REFUSED, f"no command is spelled so: undo -1{OPERATORS_HELP}"], OPERATORS_BAD_WORDS),
    ("undo 1 --", "", [REFUSED, f"no command is spelled so: --{OPERATORS_HELP}"], OPERATORS_BAD_WORDS),
    ("release", "refused 28", ["28 NotHeld: the host is not held; release, undo and redo want a held host"], NOT_DONE),
    ("freeze", "refused 22", ["22 AlreadyFrozen: the host is frozen already"], NOT_DONE),
    ("hold", "moved 1 1", [], 0),
    ("thaw", "notyet 41", ["41 Held: the host is held; it takes no step, a completion neither, until it is released"], NOT_DONE),
    ("undo 2", "refused 31", ["31 NothingToUndo: fewer steps stand than are to be undone"], NOT_DONE),
    ("undo 1", "moved 0 1", [], 0),
    ("line", "line 0 1 1", [], 0),
    ("show flight now", "", [REFUSED, f"no command is spelled so: show flight now{OPERATORS_HELP}"], OPERATORS_BAD_WORDS),
]
NO_INSPECT = "inspect: there is no inspect: no host serves there, or it is an older one or has --no-inspect"
# And whole words of bfqctl.
OPERATORS_WORDS = [
    ("", [REFUSED, f"it takes --socket PATH, and then a command{OPERATORS_HELP}"], OPERATORS_BAD_WORDS),
    ("--sockets NONE hold", [REFUSED, f"it takes --socket PATH, and then a command{OPERATORS_HELP}"], OPERATORS_BAD_WORDS),
    ("--socket NONE hold", [SOCKET, "NONE: No such file or directory (os error 2)"], NO_ANSWER),
    ("--socket LEFT hold", [SOCKET, "LEFT: Connection refused (os error 111)"], NO_ANSWER),
    ("--socket DIR/operator show flight", [SOCKET, f"DIR/{NO_INSPECT}"], NO_ANSWER),
    ("--socket LEFT/operator line", [SOCKET, "LEFT/inspect: Not a directory (os error 20)"], NO_ANSWER),
]


def read_all(terminal, found):
    """All that comes at a terminal until its other end is closed, which Linux tells by an error."""
    with contextlib.suppress(OSError):
        while piece := os.read(terminal, 4096):
            found.append(piece)


def run(words, stdin=b""):
    """Standard output, the lines of standard error at a terminal, and the status."""
    ours, theirs = pty.openpty()
    found = []
    try:
        with subprocess.Popen(words, stdin=subprocess.PIPE, stdout=subprocess.PIPE, stderr=theirs) as process:
            os.close(theirs)
            reader = threading.Thread(target=read_all, args=(ours, found))
            reader.start()
            try:
                stdout, _ = process.communicate(stdin, timeout=SECONDS)
            finally:
                process.kill()
                reader.join(SECONDS)
    finally:
        os.close(ours)
    return stdout.decode(), b"".join(found).decode().replace("\r\n", "\n").splitlines(), process.returncode


def given(text, paths):
    """The words of a line, and its paths as they are here."""
    for name, path in paths.items():
        text = text.replace(name, path)
    return text


def host_runs(program, paths):
    for words, first, second, status in HOST:
        wanted = ("", [first, given(second, paths)], status)
        found = run([program, *given(words, paths).split()])
        yield f"words: {words or 'none'}", [] if found == wanted else [f"{found} and not {wanted}"]
    found = run([program, "sim"], b"attach 0 0 4\nundo 1\n")
    yield "a run that ends well", [] if found == ("attached 1\nrefused 28\n", [], 0) else [str(found)]


def operator_runs(operator, paths):
    path = os.path.join(paths["SERVED"], "operator")
    for words, printed, lines, status in OPERATOR:
        wanted = (printed and f"{printed}\n", lines, status)
        found = run([operator, "--socket", path, *words.split()])
        yield f"bfqctl: {words}", [] if found == wanted else [f"{found} and not {wanted}"]
    for words, lines, status in OPERATORS_WORDS:
        wanted = ("", [given(line, paths) for line in lines], status)
        found = run([operator, *given(words, paths).split()])
        yield f"bfqctl: words {words or 'none'}", [] if found == wanted else [f"{found} and not {wanted}"]


def left_socket(path):
    """A socket at which nobody listens any more."""
    with contextlib.closing(socket.socket(socket.AF_UNIX)) as it:
        it.bind(path)


def terminal_runs(program, operator):
    """The name of each run, and what it did in another way than wanted."""
    with tempfile.TemporaryDirectory(prefix="bfq-") as folder:
        paths = {"IMAGE": image_of(folder), **{name: os.path.join(folder, name.lower()) for name in ("NONE", "DIR", "SERVED", "TAKEN", "OTHERS", "LEFT")}}
        for name in ("DIR", "SERVED", "TAKEN", "OTHERS"):
            os.mkdir(paths[name])
        for name, file in (("TAKEN", "client1"), ("OTHERS", "inspect")):
            with open(os.path.join(paths[name], file), "w", encoding="utf-8"):
                pass
        left_socket(paths["LEFT"])
        try:
            with Served(program, paths["IMAGE"], paths["SERVED"]) as host:
                host.operates((FREEZE, DONE))
                for name, faults in [*host_runs(program, paths), *operator_runs(operator, paths)]:
                    yield f"terminal: {name}", faults
                same("what is left beside a file in the way", os.listdir(paths["TAKEN"]) + os.listdir(paths["OTHERS"]), ["client1", "inspect"])
                same("what a refused host leaves", os.listdir(paths["DIR"]), [])
                host.stop()
        except (OSError, Wrong, subprocess.SubprocessError) as fault:
            yield "terminal: a host that serves", [str(fault)]
