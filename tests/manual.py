"""The pages of man/: their tables are those of the helps and of docs/FORMATS.md, and their examples are run as they stand.

A page is read as it is written: an item is a row `.TP`, a row with its tag, and the rows of its text.
"""

import os
import re
import shutil
import subprocess
from pathlib import Path

from bad_input import Skipped
from installed import PAGES, TOOLS, installed
from lessons import PATH, faults_of
from served import Wrong

TOP = Path(__file__).resolve().parent.parent
VERSION = (TOP / "VERSION").read_text(encoding="ascii").strip()
SECONDS = 60
MOST_FAULTS = 6
NAMES = [Path(page).name for page in PAGES]
# What each page must have, and what a command's page has besides.
HEADS = ["NAME", "SYNOPSIS", "DESCRIPTION", "EXAMPLES", "SEE ALSO"]
HEADS_OF_COMMANDS = ["OPTIONS", "EXIT STATUS"]
# A command whose input stands in the rows below it, up to this one.
UP_TO_END = "<<END"
# Options that only print, which the table of FORMATS has in one row.
PRINTING = {"--help, -h", "--version"}


def formats():
    return (TOP / "docs" / "FORMATS.md").read_text(encoding="utf-8")


def table(head, text):
    """The cells of each row of a table of a document that begins with this head."""
    rows = text[text.index(f"\n{head}"):].splitlines()[3:]
    cut = next((at for at, row in enumerate(rows) if not row.startswith("|")), len(rows))
    return [[cell.strip() for cell in row[1:-1].split("|")] for row in rows[:cut]]


def plain(text):
    """A text without its fonts, signs and ticks."""
    text = re.sub(r"\\f[BIR]|\\&", "", text).replace("\\(aq", "'").replace("\\(ha", "^").replace("\\(ti", "~").replace("\\-", "-")
    return text.replace("\\e", "\\").replace("`", "").replace("\\ ", " ")


def tag_of(row):
    """The words of a tag, such as `--tags N` of `.BI \\-\\-tags " N"`."""
    return plain("".join(quoted or word for quoted, word in re.findall(r'"([^"]*)"|(\S+)', row.split(" ", 1)[1])))


class Page:
    """A page of the manual, by its parts."""

    def __init__(self, name):
        self.name = name
        self.text = (TOP / "man" / name).read_text(encoding="utf-8")
        self.parts = dict(re.findall(r"(?ms)^\.SH (.*?)\n(.*?)(?=^\.SH |\Z)", self.text))

    def items(self, head):
        """The items of a part: each tag with its text, in one line."""
        found = re.findall(r"(?ms)^\.TP\n(.*?)\n(.*?)(?=^\.(?:TP|PP|SH|SS)|\Z)", self.parts.get(head, ""))
        return {tag_of(tag): plain(" ".join(row for row in text.splitlines() if row != ".br")) for tag, text in found}

    def examples(self):
        """The commands of a page for a shell, each with what it prints."""
        commands, rest = [], None
        for row in (row for block in re.findall(r"(?ms)^\.EX\n(.*?)^\.EE", self.text) for row in block.splitlines()):
            row = plain(row).replace("@VERSION@", VERSION)
            if rest is not None:
                rest.append(row)
                if row == "END":
                    commands[-1] = ("\n".join(rest), [])
                    rest = None
            elif row.startswith("$ "):
                commands.append((row[2:], []))
                rest = [row[2:]] if row.endswith(UP_TO_END) else None
            else:
                commands[-1][1].append(row)
        return commands


def differences(what, found, wanted):
    """Where two tables are not the same, or two sets, whose names have no text."""
    found, wanted = (it if isinstance(it, dict) else dict.fromkeys(it, "") for it in (found, wanted))
    yield from (f"{what}: {name!r} is {found.get(name)!r} and not {wanted.get(name)!r}"
                for name in sorted({*found, *wanted}) if found.get(name) != wanted.get(name))


def helped(program):
    return subprocess.run([program, "--help"], capture_output=True, text=True, timeout=SECONDS, check=True).stdout


def part(text, head):
    """A part of a help: the rows between its head and the next one."""
    return re.search(rf"(?ms)^{head}.*?\n(.*?)(?:^\S|\Z)", text)[1]


def statuses_of(text):
    """The exit statuses of a help, each with its text."""
    return dict(re.findall(r"(?m)(?:^| {4})(\d) (.*?)(?= {4}|$)", re.sub(r"(?m)^ +", "", part(text, "EXIT STATUS"))))


def options_of(text):
    """The options of a help as they are spelled."""
    # One with a long value leaves one space before its text, and so its value has to be told from that by its capitals.
    return set(re.findall(r"(?m)^    (--[a-z-]+(?:, -\w| [A-Z][A-Z+,.]*)?) +", text))


def forms():
    """Each page has its parts, takes its version from the file VERSION, and names the others."""
    for name in NAMES:
        page = Page(name)
        heads = HEADS + (HEADS_OF_COMMANDS if name.endswith(".1") else [])
        yield from (f"{name} has no {head}" for head in heads if head not in page.parts)
        if not re.match(r'\.TH [A-Z-]+ \d \d{4}-\d\d-\d\d "bfqhost @VERSION@"\n', page.text) or VERSION in page.text:
            yield f"{name} does not take its version from VERSION"
        # A reader would join such a row with the next one, with no space between them, and say nothing.
        yield from (f"{name} has the row {row!r}" for row in page.text.splitlines() if row.endswith("\\"))
        named = re.findall(r"\.BR (\S+) \((\d)\)", page.parts.get("SEE ALSO", "").replace("\\-", "-"))
        others = {f"{other}.{section}" for other, section in named}
        yield from differences(f"{name}, SEE ALSO", others, {*NAMES} - {name})
    yield from differences("man/", {*os.listdir(TOP / "man")}, {*NAMES})


def linted():
    """The readers of pages find no fault."""
    readers = {"mandoc": ["mandoc", "-Tlint"], "man": ["man", "--warnings", "-l"]}
    for reader in (it for it in readers if not shutil.which(it)):
        print(f"skipped: the manual: no {reader} here")
    for name in NAMES:
        for words in (words for reader, words in readers.items() if shutil.which(reader)):
            ran = subprocess.run([*words, TOP / "man" / name], capture_output=True, text=True, timeout=SECONDS, check=False,
                                 env={**os.environ, "LC_ALL": "C.UTF-8", "MANPAGER": "cat"})
            said = ran.stderr + (ran.stdout if words[0] == "mandoc" else "")
            if ran.returncode or said:
                yield f"{words[0]} {name}: status {ran.returncode}, {said}"


def of_bfqhost(program):
    """The options of bfqhost with their limits, its statuses, and what it says before a run."""
    text, page = helped(program), Page("bfqhost.1")
    yield from differences("options", {*page.items("OPTIONS")}, options_of(text))
    rows = table("| option | value | default |", formats())
    spelled = [re.findall(r"`(--[^`]*)`", row[0])[0] for row in rows]
    found = {tag for tag in page.items("OPTIONS") if tag not in PRINTING}
    yield from differences("options of FORMATS", found, {*spelled} - {*PRINTING, "--help"})
    for option, (_, value, default, _) in zip(spelled, rows):
        wanted = f"{plain(value).partition(' (')[0].replace(', ', ' or ')}"
        if default and not re.search(rf"{re.escape(wanted)}.*\({plain(default)}\)", page.items("OPTIONS").get(option, "")):
            yield f"{option} is not said to be {wanted} ({plain(default)})"
    yield from of_statuses(page, statuses_of(text), "| status | meaning | standard error |")
    yield from differences("TOOLS", {*page.items("TOOLS")}, {*TOOLS})
    wanted = {plain(line) for line, _ in table("| line | why |", formats())} | {"socket: failed"}
    yield from differences("DIAGNOSTICS", {*page.items("DIAGNOSTICS")}, wanted)


def of_statuses(page, wanted, head):
    """The statuses of a page begin as the help has them, and are those of the table of FORMATS."""
    found = page.items("EXIT STATUS")
    yield from differences(f"{page.name}, statuses", {*found}, {row[0] for row in table(head, formats())})
    for number, text in wanted.items():
        if not found.get(number, "").lower().startswith(text.lower()):
            yield f"{page.name}: status {number} is {found.get(number)!r} and not {text!r}"


def of_bfqctl(operator):
    """The options, the commands with what they do, the answers and the statuses of bfqctl."""
    text, page = helped(operator), Page("bfqctl.1")
    yield from differences("options", {*page.items("OPTIONS")}, options_of(text))
    commands = dict(re.split(r" {2,}", row.strip(), maxsplit=1) for row in part(text, "COMMANDS").splitlines() if row.strip())
    wanted = {spelled.replace("|", " | "): f"{what[0].upper()}{what[1:]}." for spelled, what in commands.items()}
    yield from differences("commands", page.items("COMMANDS"), wanted)
    of_formats = {it for row in table("| command | call |", formats()) for it in re.findall("`([^`]*)`", row[0])}
    yield from differences("commands of FORMATS", {re.sub("none . bfq", "none", it) for it in wanted}, of_formats - {"switch bfq"})
    answers = {it for row in re.findall(r"(?m)^    (.*?) {2,}", part(text, "ANSWERS")) for it in row.split(", ")}
    yield from differences("answers", {*page.items("ANSWERS")}, answers)
    yield from of_statuses(page, statuses_of(text), "| status | meaning | standard output | standard error |")


def of_scripts(program):
    """The lines of a script, the answers, the types of numbers, the refusals and the causes."""
    text, page = formats(), Page("bfqhost-script.5")
    for head, names in (("CALLS", ["| line | call |"]), ("ANSWERS", ["| answer | text |"]),
                        ("LOOKS", ["| line | prints |", "| line | prints |"])):
        rows, rest = [], text
        for name in names:
            rows += table(name, rest)
            rest = rest[rest.index(f"\n{name}") + len(name):]
        column = 1 if head == "ANSWERS" else 0
        wanted = {it for row in rows for it in re.findall("`([^`]*)`", row[column])}
        yield from differences(head, {*page.items(head)}, wanted)
    types = {words: f"{kind}, at most {most}" for words, kind, most in table("| word | type | greatest |", text)}
    yield from differences("NUMBERS", page.items("NUMBERS"), types)
    refusals = {f"{number} {name}": plain(said) for number, name, said in table("| number | name | what it says |", text)}
    yield from differences("refusals of FORMATS", page.items("REFUSALS AND CAUSES"), refusals)
    of_help = {f"{number} {name}": said for number, name, said in re.findall(r"(?m)^ +(\d+) ([A-Z]\w+): (.*)$", helped(program))}
    yield from differences("refusals of the help", page.items("REFUSALS AND CAUSES"), of_help)


def of_frames():
    """The kinds of frames with their fields and lengths."""
    text, page = formats(), Page("bfqhost-protocol.7")
    for head, part_head, name in (("WHAT A CLIENT SENDS", "### What a client sends", "| kind | call | fields | length |"),
                                  ("WHAT THE OPERATOR SENDS", "### What the operator sends", "| kind | call | fields | length |"),
                                  ("WHAT THE HOST SENDS", "### What the host sends", "| kind | answer | fields | length |")):
        rows = table(name, text[text.index(part_head):])
        wanted = {plain(kind): f"{what} Fields: {fields} Length: {length}" for kind, what, fields, length in rows}
        yield from differences(head, page.items(head), wanted)


def of_serving(program):
    """The sockets of a host that serves, its own options, and its statuses."""
    page = Page("bfqhost-serve.7")
    paths = {plain(path).replace(" and so on", "") for path, _ in table("| path | who is met there |", formats())}
    yield from differences("sockets", {*page.items("DESCRIPTION")}, paths)
    own = {re.match("--[a-z-]+", it)[0] for it in options_of(part(helped(program), "OPTIONS of serve"))}
    yield from differences("own options", {*re.findall(r"--[a-z-]+", plain(page.parts["OPTIONS"]))}, own)
    statuses = {row[0] for row in table("| status | meaning | standard error |", formats())}
    yield from (f"there is no status {it}" for it in page.items("EXIT STATUS") if it not in statuses)


def examples(name, programs):
    """What the commands of a page print, in a folder of their own, where all is installed."""
    with installed(*programs) as commands:
        page = Page(name)
        yield from [] if page.examples() else ["there is none"]
        yield from faults_of((), page.examples(), False, f"{commands}:{PATH}")


def manual_runs(*programs):
    """The name of each look, and what was wrong with the pages."""
    programs = [os.path.abspath(it) for it in programs]
    looks = {"forms": forms(), "readers": linted(), "bfqhost": of_bfqhost(programs[0]), "bfqctl": of_bfqctl(programs[1]),
             "scripts": of_scripts(programs[0]), "frames": of_frames(), "serving": of_serving(programs[0]),
             **{f"examples of {name}": examples(name, programs) for name in NAMES}}
    for name, look in looks.items():
        faults = []
        try:
            faults.extend(look)
        except Skipped as lacking:
            print(f"skipped: {lacking}")
            continue
        except (OSError, TypeError, ValueError, LookupError, Wrong, subprocess.SubprocessError) as fault:
            faults.append(f"{type(fault).__name__}: {fault}")
        # Of many faults the first tell enough.
        yield f"the manual: {name}", faults[:MOST_FAULTS] + [f"and {len(faults) - MOST_FAULTS} more"] * (len(faults) > MOST_FAULTS)
