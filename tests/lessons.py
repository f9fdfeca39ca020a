"""The parts of some pages (PAGES) with commands for a shell: each is given to one, and must print what stands below it.

A command is a row that begins with four spaces, a dollar sign and a space; the rows below it, up to the next command or a text, are what
is printed from then on, also by what runs beside it. Empty rows count for nothing. A folder that `mktemp -d` has made may have another
name. Where a lesson says that its numbers differ from run to run, each number may be another. A lesson that needs a package which
is not there is left out, and that is told.
"""

import contextlib
import os
import re
import select
import shutil
import signal
import subprocess
import tempfile
import time

TOP = os.path.dirname(os.path.dirname(os.path.abspath(__file__)))
SECONDS = 30
# What `mktemp -d` makes in a folder: ten letters or digits behind these.
MADE = r"/tmp\.\w{10}"
# How the folder of a run is told, and that of a document.
SHOWN = "FOLDER"
PAGES = ("README.md", "docs/GUIDE.md", "docs/NBD.md", "docs/OWN_RULE.md", "docs/FUTURES.md")
DIFFERS = "The numbers differ from run to run."
# What not every machine has; some of it stands where only root looks. A mount needs root besides, and FUSE with loop devices.
NOT_EVERYWHERE = ("mkfs.ext4", "e2fsck", "debugfs", "nbdcopy", "nbdfuse", "nbdkit", "qemu-io", "fio", "sqlite3", "parallel", "xz")
# What a script of examples/ runs that not every machine has.
OF_EXAMPLES = {"futures/ext4": ("e2fsck", "debugfs")}
MOUNTS = "mount -o loop"
# A row that calls a program of this repository; and what tests/documents.py runs of such rows.
CALL = re.compile(r"(?:^|[\s|;])(?:\./bfq(?:host|ctl)|(?:clients|tests|tools)/\w[\w.]*)\s")
WITH_SCRIPT = re.compile(r"\./bfqhost .* < \S+")
PATH = f"{os.environ.get('PATH', os.defpath)}:/usr/sbin:/sbin"


def parts_of(path):
    """The parts of a document: each with its commands, what they print, and the other rows of its blocks."""
    with open(os.path.join(TOP, path), encoding="utf-8") as file:
        for part in re.split(r"(?m)^## ", file.read()):
            commands, others, in_session = [], [], False
            for row in part.splitlines():
                if row.startswith("    $ "):
                    commands.append((row[6:], []))
                    in_session = True
                elif row.startswith("    ") and in_session:
                    commands[-1][1].append(row[4:])
                elif row.startswith("    "):
                    others.append(row[4:])
                elif row:
                    in_session = False
            yield part, commands, others


def lessons():
    """The head of each part with such commands, these with what they print, and whether the numbers differ."""
    for path in PAGES:
        for part, commands, _ in parts_of(path):
            if commands:
                yield part.splitlines()[0], commands, DIFFERS in part


def not_run(path):
    """The rows of a document that call a program of this repository and that no test runs."""
    for _, _, others in parts_of(path):
        yield from (f"no test runs {row!r}" for row in others if CALL.search(f"{row} ") and not WITH_SCRIPT.fullmatch(row))


class Shell:
    """A shell that runs commands one by one. What they make for a time goes into a folder of this run."""

    def __init__(self, programs, folder, path):
        # In the folder of this run a launcher has the name of its program, without what may stand behind a dot of how it was built.
        here = os.path.join(folder, "here")
        os.mkdir(here)
        for linked in [*programs, *(os.path.join(TOP, name) for name in ("clients", "crates", "examples", "release", "tests", "web"))]:
            os.symlink(linked, os.path.join(here, os.path.basename(linked).partition(".")[0]))
        # A tool starts the program that stands beside its folder, wherever that really is.
        shutil.copytree(os.path.join(TOP, "tools"), os.path.join(here, "tools"), ignore=shutil.ignore_patterns("__pycache__"))
        self.process = subprocess.Popen(["bash"], cwd=here, stdin=subprocess.PIPE, stdout=subprocess.PIPE, stderr=subprocess.STDOUT,
                                        start_new_session=True,
                                        env={**os.environ, "PATH": path, "TMPDIR": folder, "PYTHONDONTWRITEBYTECODE": "1"})
        self.folder = folder
        self.text = ""

    def run(self, command, rows):
        """What a command and what runs beside it print, up to its end and to as many rows as are wanted."""
        self.process.stdin.write(f"{command}\necho @@\n".encode())
        self.process.stdin.flush()
        until = time.monotonic() + SECONDS
        # The last row may have no end of its own.
        while time.monotonic() < until and not ("@@\n" in self.text and self.rows_so_far() >= rows):
            if select.select([self.process.stdout], [], [], 0.1)[0]:
                self.text += os.read(self.process.stdout.fileno(), 4096).decode()
        text, self.text = self.text.replace("@@\n", "", 1), ""
        return re.sub(re.escape(self.folder) + MADE, SHOWN, text).splitlines()

    def rows_so_far(self):
        return len([row for row in self.text.replace("@@\n", "\n").splitlines() if row])

    def end(self):
        self.process.stdin.close()
        # What it left running is of its process group.
        with contextlib.suppress(ProcessLookupError):
            os.killpg(self.process.pid, signal.SIGKILL)
        self.process.wait()
        self.process.stdout.close()


def plain(rows, differs):
    """Rows as they are compared: a folder of a document has the name of none, and if numbers differ each is the same one."""
    told = [re.sub("/tmp" + MADE, SHOWN, row) for row in rows if row]
    return [re.sub(r"\d+", "N", row) if differs else row for row in told]


def faults_of(programs, commands, differs, path=PATH):
    """What commands print in another way than their document has it."""
    with tempfile.TemporaryDirectory(prefix="bfq-") as folder:
        shell = Shell(programs, folder, path)
        try:
            for command, rows in commands:
                if plain(found := shell.run(command, len(rows)), differs) != plain(rows, differs):
                    return [f"{command}: {found} and not {rows}"]
        finally:
            shell.end()
            unmount_below(folder)
    return []


def unmount_below(folder):
    """What is mounted below a folder is no more, the last that was mounted first."""
    with open("/proc/self/mounts", encoding="utf-8") as file:
        mounted = [row.split(" ")[1] for row in file if row.split(" ")[1].startswith(f"{folder}/")]
    for path in reversed(mounted):
        subprocess.run(["umount", "-l", path], check=False, timeout=SECONDS)


def can_mount():
    """Whether a file system can be mounted on a file that FUSE serves."""
    return os.geteuid() == 0 and os.access("/dev/fuse", os.R_OK | os.W_OK) and os.path.exists("/dev/loop-control")


def served_lessons(*programs):
    """The name of each part, and what was wrong with it."""
    found = list(lessons())
    if len(found) < 5:
        yield "documents: parts with commands for a shell", [f"there are {len(found)}"]
    for path in PAGES:
        yield f"documents: the command lines of {path}", [*not_run(path)]
    for head, commands, differs in found:
        text = " ".join(command for command, _ in commands)
        of_examples = {name for example, names in OF_EXAMPLES.items() if example in text for name in names}
        wanted = [it for it in NOT_EVERYWHERE if it in text or it in of_examples]
        lacking = [it for it in wanted if not shutil.which(it, path=PATH)]
        if MOUNTS in text and not can_mount():
            lacking.append("root with FUSE and loop devices")
        if lacking:
            print(f"skipped: documents: {head}: no {' and no '.join(lacking)} here")
            continue
        try:
            yield f"documents: {head}", faults_of(programs, commands, differs)
        except (OSError, subprocess.SubprocessError) as fault:
            yield f"documents: {head}", [str(fault)]
