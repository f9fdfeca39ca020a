"""What the documents show is what the program does: the refusals and causes, the sessions, and the program of the guide. What they name is
there: functions, definitions, pages, parts of ./test, and command lines (tests/commands.py)."""

import os
import re
import shlex
import signal
import subprocess
import sys
import tempfile
from pathlib import Path

import figures
from commands import command_faults

TOP = os.path.dirname(os.path.dirname(os.path.abspath(__file__)))
TOP_PATH = Path(TOP)
CRATES = TOP_PATH / "crates"
SECONDS = 20
MOST_FAULTS = 6
# What examples/drive.py prints: the work of the device reads two sectors of zeros.
DRIVEN = "finished 1 completed 2 read 00 00\n"
# Pages whose links, names and command lines are looked at.
PAGES = ["README.md", "docs/TESTING.md", "docs/PROOF.md"]
FOLDERS = "bench|clients|crates|docs|examples|man|release|tests|tools"
# A crate whose functions have no contracts of their own.
WITHOUT_CONTRACTS = {"host_options"}
# These are answered to a worker thread, and the program has none.
OF_WORKERS = {("35", "BadWorker"), ("45", "NothingToTake")}
# A command that gives a script to the program.
COMMAND = re.compile(r" {4}\./bfqhost (.*) < (\S+)")
# The head of a table that shows lines and what they print, and a row of it. The text may go on with words outside of the code.
HEAD = "| line | prints |"
ROW = re.compile(r"\| `(.*?)` \| `(.*?)`( [^|]+)? \|")


def read(*path):
    """The text of a file of the repository."""
    with open(os.path.join(TOP, *path), encoding="utf-8") as file:
        return file.read()


def output(words, script=""):
    """What a run of the program prints, which must end with status 0."""
    return subprocess.run(words, cwd=TOP, input=script, capture_output=True, text=True, timeout=SECONDS, check=True).stdout


def refusals(program):
    """The help and docs/FORMATS.md have the same refusals and causes, with the names and numbers of the definitions; and where
    another document has a number beside a name, it is that name's."""
    helped = re.findall(r"(?m)^ +(\d+) ([A-Z]\w+): (.*)$", output([program, "--help"]))
    table = [(number, name, text.replace("`", "")) for number, name, text in
             re.findall(r"(?m)^\| (\d+) \| ([A-Z]\w+) \| (.*) \|$", read("docs", "FORMATS.md"))]
    for row in sorted({*helped} ^ {*table}, key=lambda row: (int(row[0]), row)):
        yield f"{'the help' if row in helped else 'docs/FORMATS.md'} alone has {row}"
    names = [(number, name) for number, name, _ in helped]
    defined = [(number, name) for name, number in
               re.findall(r"(?m)^(?:code|cause)_number (\w+) = (\d+)$", read("crates", "plain", "specs", "Numbers.antt"))]
    if names != [pair for pair in defined if pair not in OF_WORKERS]:
        yield f"the definitions have {defined}, and the help {names}"
    for path in (["README.md"], ["docs", "GUIDE.md"], ["docs", "MODEL.md"]):
        for pair in re.findall(r"(\d+)(?:, |`\s\()([A-Z]\w+)", read(*path)):
            if pair not in names:
                yield f"{'/'.join(path)} has {pair}, and the help has not"


def shown(text):
    """Each command of a document that gives a script to the program: its words, the script, and the rows of the tables up to the
    next command. A script that is in no folder is the block above its command."""
    found, block, before, in_table = [], "", "", False
    for row in text.splitlines():
        in_table = row.startswith("|") and (in_table or row.startswith(HEAD))
        if command := COMMAND.fullmatch(row):
            words, name = command.groups()
            found.append((words, read(name) if "/" in name else block, []))
        elif row.startswith("    "):
            block = (block if before.startswith("    ") else "") + row[4:] + "\n"
        elif in_table and found and (cells := ROW.match(row)):
            found[-1][2].append(cells.groups())
        before = row
    return found


def sessions(program, *path):
    """What the rows of a document say is what the commands above them print, in the same order."""
    commands = shown(read(*path))
    if not any(rows for _, _, rows in commands):
        yield "there is no command with rows"
    for words, script, rows in commands:
        lines = [line for line in script.splitlines() if line and not line.startswith("#")]
        left = list(zip(lines, output([program, *shlex.split(words)], script).splitlines()))
        for line, text, more in rows:
            at = next((at for at, (given, printed) in enumerate(left)
                       if given == line and (printed.startswith(text + " ") if more else printed == text)), None)
            if at is None:
                yield f"{words}: {line!r} does not print {text!r} there"
            else:
                left = left[at + 1:]


def driven(program):
    """The program of the guide drives the host. In the folder of this run the launcher's name is that of the program."""
    guide = read("docs", "GUIDE.md")
    for text in (read("examples", "drive.py"), DRIVEN):
        if "".join(f"    {line}\n" for line in text.splitlines()) not in guide:
            yield f"docs/GUIDE.md does not have {text!r}"
    with tempfile.TemporaryDirectory() as folder:
        os.symlink(program, os.path.join(folder, "bfqhost"))
        with subprocess.Popen([sys.executable, os.path.join(TOP, "examples", "drive.py")], cwd=folder, stdin=subprocess.DEVNULL,
                              stdout=subprocess.PIPE, stderr=subprocess.PIPE, text=True, start_new_session=True) as ran:
            try:
                stdout, stderr = ran.communicate(timeout=SECONDS)
            except subprocess.TimeoutExpired:
                # The host that it started is of its session, and has its standard error.
                os.killpg(ran.pid, signal.SIGKILL)
                raise
    if (stdout, ran.returncode) != (DRIVEN, 0):
        yield f"examples/drive.py prints {stdout!r} and {stderr!r}, with status {ran.returncode}"


def served():
    """The bytes of the guide's session over bytes are those that a test runs."""
    rows = re.findall(r"(?m)^\| `([0-9a-f ]+)` \|[^|]*\| `([0-9a-f ]+)` \|", read("docs", "GUIDE.md"))
    test = re.sub("//.*", "", read("crates", "serve_tests", "src", "cut.rt"))
    for name, column in (("CALLS", 0), ("ANSWERS", 1)):
        run = re.search(rf"const {name}: &\[u8\] = &\[(.*?)\];", test, re.DOTALL)[1]
        if bytes.fromhex("".join(row[column] for row in rows)) != bytes(int(it, 0) for it in re.findall(r"\w+", run)):
            yield f"docs/GUIDE.md has other bytes than {name} of the test"


def proved():
    """Each function, clause and file of definitions that docs/PROOF.md names for a crate is there, and no crate is left out."""
    told, crate, source = set(), None, ""
    for row in read("docs", "PROOF.md").splitlines():
        if heading := re.match(r"##+ (?:`(\w+)`)?", row):
            crate = heading[1]
            told.add(crate)
            source = "".join(path.read_text() for path in sorted(CRATES.glob(f"{crate}/src/**/*.rt")))
        elif crate and row.startswith("| ") and "what is proved" not in row:
            _, contracts, definitions = row[1:row.rindex("|")].split("|")
            for name in re.findall(r"`(?:\w+::)?(\w+)`", contracts):
                if not re.search(rf"\b(fn|mod|struct|trait|enum|impl|ensures) {name}\b", source):
                    yield f"docs/PROOF.md: {crate} has no {name}"
            for name, other in re.findall(r"`(\w+)`(?: of `(\w+)`)?", definitions):
                if not (CRATES / (other or crate) / "specs" / f"{name}.antt").is_file():
                    yield f"docs/PROOF.md: {other or crate} has no definitions {name}"
    for name in sorted({path.name for path in CRATES.iterdir() if not figures.OF_TESTS.fullmatch(path.name)} - told - WITHOUT_CONTRACTS):
        yield f"docs/PROOF.md has no table of {name}"


def slugs(path):
    """What a link may name of a page behind `#`: its headings in small letters, with hyphens for spaces, without other marks."""
    headings = re.findall(r"(?m)^#+ (.*)$", (TOP_PATH / path).read_text(encoding="utf-8"))
    return {re.sub(r"[^\w\- ]", "", heading.lower()).replace(" ", "-") for heading in headings}


def links():
    """Each link of the pages leads to a page, and to a heading of it if it names one; each file that they name is there."""
    for page in PAGES:
        text = read(*page.split("/"))
        for path, _, anchor in (link.partition("#") for link in re.findall(r"\]\(([^):]+)\)", text)):
            # A link is read from the folder of its page.
            path = os.path.normpath(os.path.join(os.path.dirname(page), path)) if path else page
            if not (TOP_PATH / path).exists():
                yield f"{page} links {path}, which is not there"
            elif anchor and anchor not in slugs(path):
                yield f"{page} links {path}#{anchor}, and there is no such heading"
        for path in re.findall(rf"`((?:{FOLDERS})/[\w./*-]*)`", text):
            if not [*TOP_PATH.glob(path.rstrip("/"))]:
                yield f"{page} names {path}, which is not there"
    for path in sorted(TOP_PATH.glob("docs/*.md")):
        if f"](docs/{path.name})" not in read("README.md"):
            yield f"README.md does not link docs/{path.name}"


def tried():
    """The parts that docs/TESTING.md has are those of ./test."""
    rows = re.findall(r"(?m)^\| ((?:`[\w-]+`(?:, )?)+) \|", read("docs", "TESTING.md").partition("\n| part |")[2].partition("\n\n")[0])
    told = {name for row in rows for name in re.findall("[\\w-]+", row)}
    for name in sorted(told ^ {*output([os.path.join(TOP, "test"), "--list"]).split()}):
        yield f"{'docs/TESTING.md' if name in told else './test --list'} alone has the part {name}"


def documents(program):
    """The name of each look, and what was wrong with the documents."""
    looks = {"refusals and causes": refusals(program),
             "README.md": sessions(program, "README.md"), "README.md, its figures": figures.faults(),
             "docs/GUIDE.md": sessions(program, "docs", "GUIDE.md"), "examples/drive.py": driven(program), "a client's bytes": served(),
             "docs/PROOF.md": proved(), "links": links(), "parts of ./test": tried(), "command lines": command_faults(program)}
    for name, look in looks.items():
        faults = []
        try:
            faults.extend(look)
        except (OSError, ValueError, subprocess.SubprocessError) as fault:
            faults.append(str(fault))
        # Of many faults the first tell enough.
        yield f"documents: {name}", faults[:MOST_FAULTS] + [f"and {len(faults) - MOST_FAULTS} more"] * (len(faults) > MOST_FAULTS)
