"""The command lines of README.md and docs/TESTING.md: each is one that ./test runs, or one of which it is looked whether it can be run.

A command line is a row of a block (four spaces) that is not below a command for a shell, or code between backticks whose first word is a
program of this repository, `make` or the toolchain. One that nothing here knows how to run is a fault. How each kind is known:

    a row behind `$`                  tests/lessons.py gives it to a shell, and compares what it prints
    ./bfqhost, ./bfqctl               is run here, with the script behind `<` or no input; tests/documents.py compares the rows of a table
    ./test, tests/NAME.py, tools/NAME is not run, as the gate cannot run itself: it must know the options, and what stands behind them
    make TARGET                       `make -n` must find what the target needs
    rt, rattle                        are the toolchain's own; OF_THE_TOOLCHAIN has those that the pages may name
"""

import os
import re
import shlex
import shutil
import subprocess
import sys

from lessons import lessons

TOP = os.path.dirname(os.path.dirname(os.path.abspath(__file__)))
SECONDS = 60
PAGES = ["README.md", os.path.join("docs", "TESTING.md")]
FOR_SHELL = "$ "
PROGRAMS = ["./bfqhost", "./bfqctl"]
GATE = "./test"
FOLDERS = re.compile("(bench|clients|tests|tools)/")
OF_THE_TOOLCHAIN = {"rt", "rt ci", "rt version", "rattle check --incremental DIR"}
# This one tells no options, so it is run, and must compare some functions.
CLAUSES = "tests/public_clauses.py"
COMPARED = re.compile(r"heads of public functions: [1-9]\d* the same")


def is_program(word):
    """Whether a word is a program of this repository, by its path."""
    path = os.path.join(TOP, word)
    return "/" in word and os.path.isfile(path) and os.access(path, os.X_OK)


def is_command(code):
    """Whether code between backticks is a command line. One may also name a program that is not there."""
    first, *others = code.split()
    return first in ("make", "rt", "rattle") or first.startswith("./") or is_program(first) or bool(others and FOLDERS.match(first))


def command_lines(text):
    """Each command line of a page. One for a shell begins with `$`."""
    for paragraph in re.split(r"\n{2,}", text):
        in_session, words = False, []
        for row in paragraph.splitlines():
            if not row.startswith("    "):
                words.append(row)
            elif row[4:].startswith(FOR_SHELL):
                in_session = True
                yield row[4:]
            elif not in_session:
                yield row[4:]
        for code in re.findall(r"`([^`]+)`", " ".join(words)):
            if is_command(code):
                yield code


def run(words, stdin=subprocess.DEVNULL):
    """The status of a run in the folder of the repository, and all that it prints."""
    ended = subprocess.run(words, cwd=TOP, stdin=stdin, stdout=subprocess.PIPE, stderr=subprocess.STDOUT, text=True, timeout=SECONDS,
                           check=False, env={**os.environ, "PYTHONDONTWRITEBYTECODE": "1"})
    return ended.returncode, ended.stdout


def of_program(program, words):
    """Runs the host with the words of a line, and the script behind `<` or no input."""
    if words[0] != PROGRAMS[0]:
        return "only README's shell runs the operator's program"
    given, script = (words[1:-2], words[-1]) if words[-2] == "<" else (words[1:], os.devnull)
    if not os.path.exists(os.path.join(TOP, script)):
        return f"there is no {script}"
    with open(os.path.join(TOP, script), encoding="utf-8") as stdin:
        status, text = run([program, *given], stdin)
    return None if status == 0 else f"it ends with status {status} and {text!r}"


def of_script(words):
    """A script must know each option, and take what stands behind it: `--help` comes after all these."""
    status, text = run([sys.executable, os.path.join(TOP, words[0]), *words[1:], "--help"])
    if status != 0:
        return f"{words[0]} does not take these words: {text!r}"
    # A word that argparse does not know is told only if there is no --help.
    unknown = [word for word in words[1:] if word.startswith("-") and not re.search(rf"(?<![\w-]){re.escape(word)}(?![\w-])", text)]
    if names := words[words.index("--only") + 1:] if "--only" in words else []:
        unknown += {*names} - {*run([sys.executable, os.path.join(TOP, words[0]), "--list"])[1].split()}
    return f"{words[0]} knows no {', '.join(unknown)}" if unknown else None


def of_make(words):
    """`make` must know the target, and how all that it needs is made. A variable must be one of the Makefile's."""
    if not os.path.isfile(os.path.join(TOP, "Makefile")):
        return "there is no Makefile"
    with open(os.path.join(TOP, "Makefile"), encoding="utf-8") as file:
        text = file.read()
    known = {f"{name}=" for name in re.findall(r"\$\((\w+)\)", text)} | {*re.findall(r"(?m)^([\w-]+)\b.*:", text)}
    lacking = [word for word in words[1:] if re.match(r"\w+=|.*", word)[0] not in known]
    if lacking:
        return f"the Makefile has no {', '.join(lacking)}"
    if not shutil.which("make"):
        return None
    status, text = run(["make", "-n", *words[1:]])
    return None if status == 0 else f"it would end with status {status} and {text!r}"


def fault_of(program, line):
    """Why a command line cannot be run, or nothing if it can."""
    if line in OF_THE_TOOLCHAIN:
        return None
    words = shlex.split(line)
    # Other programs without words are named rather than called.
    if len(words) == 1 and is_program(words[0]) and words[0] != GATE:
        return None
    if words[0] in PROGRAMS:
        return of_program(program, words)
    if words[0] == CLAUSES:
        status, text = run(words)
        return None if COMPARED.search(text) else f"it ends with status {status} and {text!r}"
    if words[0] == "make":
        return of_make(words)
    if is_program(words[0]):
        return of_script(words)
    return "nothing here knows how to run it"


def command_faults(program):
    """What is wrong with the command lines of each page."""
    of_shell = {line for _, commands, _ in lessons() for line, _ in commands}
    for page in PAGES:
        with open(os.path.join(TOP, page), encoding="utf-8") as file:
            lines = [*dict.fromkeys(command_lines(file.read()))]
        if not lines:
            yield f"{page} has no command line"
        for line in lines:
            if line.startswith(FOR_SHELL):
                fault = None if line.removeprefix(FOR_SHELL) in of_shell else "tests/lessons.py does not run it"
            else:
                fault = fault_of(program, line)
            if fault:
                yield f"{page}: `{line}`: {fault}"
