"""What bash completes after some words of bfqhost, bfqctl, bfqclient and bfqnbd: the words are those of their helps."""

import os
import re
import subprocess
import sys
import tempfile
from pathlib import Path

TOP = Path(__file__).resolve().parent.parent
SECONDS = 20
# What the word under way is completed to. The words end with it, and it may be empty.
ASKS = 'source "$1"; name=$2; shift 2; COMP_WORDS=("$@"); COMP_CWORD=$(($# - 1)); "_$name"; printf "%s\\n" "${COMPREPLY[@]}"'
# What stands alone.
ALONE = {"--version"}
HELP = {"--help", "-h"}
# What is completed after these words of bfqhost: files, folders, or the words of a value. An equals sign is a word of its own to bash.
VALUES = [
    (["bfqhost", "sim", "--scheduler", ""], {"bfq", "none"}),
    (["bfqhost", "sim", "--scheduler", "="], {"bfq", "none"}),
    (["bfqhost", "sim", "--scheduler", "=", "n"], {"none"}),
    (["bfqhost", "serve", "--image", "d"], {"disk.img", "dir"}),
    (["bfqhost", "serve", "--dir", "d"], {"dir"}),
    (["bfqhost", "serve", "--dir", "=", "d"], {"dir"}),
    (["bfqhost", "serve", "--clients", ""], set()),
    (["bfqhost", "sim", "--sec"], {"--sectors"}),
    (["bfqhost", "serve", "--sec"], set()),
    (["bfqhost", "s"], {"sim", "serve"}),
    (["bfqctl", "--socket", "d"], {"disk.img", "dir"}),
    (["bfqctl", "--socket", "="], {"disk.img", "dir", "two words"}),
    (["bfqctl", "--socket", "t"], {"two words"}),
    (["bfqctl", "--socket", "dir/operator", "un"], {"undo"}),
    (["bfqctl", "--socket", "=", "dir/operator", "re"], {"redo", "release"}),
    (["bfqctl", "--socket", "dir/operator", "switch", ""], {"none", "bfq"}),
    (["bfqctl", "--socket", "dir/operator", "undo", ""], set()),
    (["bfqctl", "--socket", "dir/operator", "show", "f"], {"flight"}),
    (["bfqctl", "--socket", "dir/operator", "sector", ""], set()),
    (["bfqctl", "--help", ""], set()),
    (["bfqclient", "d"], {"disk.img", "dir"}),
    (["bfqclient", "--group", "1", "d"], {"disk.img", "dir"}),
    (["bfqclient", "--group", "=", "1", "dir/client0", "l"], {"load"}),
    (["bfqclient", "--prio", ""], set()),
    (["bfqclient", "--class", ""], {"rt", "be", "idle"}),
    (["bfqclient", "--class", "=", "i"], {"idle"}),
    (["bfqclient", "--class", "rt", "dir/client0", "dis"], {"discard"}),
    (["bfqclient", "dir/client0", "load", "--discards", ""], set()),
    (["bfqclient", "dir/client0", "load", "--depth", ""], set()),
    (["bfqclient", "dir/client0", "check", "--image", "di"], {"disk.img", "dir"}),
    (["bfqclient", "dir/client0", "read", "5", "--h"], {"--help"}),
    (["bfqnbd", "--dir", "d"], {"dir"}),
    (["bfqnbd", "--image", "=", "d"], {"disk.img", "dir"}),
    (["bfqnbd", "--socket", "t"], {"two words"}),
    (["bfqnbd", "--after-undo", ""], {"drop", "keep"}),
    (["bfqnbd", "--after-undo", "=", "k"], {"keep"}),
    (["bfqnbd", "--depth", ""], set()),
    (["bfqnbd", "--read-only", "--s"], {"--socket", "--seats"}),
]


def completed(words, folder):
    """What the last of these words is completed to."""
    name = words[0]
    ran = subprocess.run(["bash", "-c", ASKS, "bash", TOP / "completions" / name, name, *words], cwd=folder, capture_output=True, text=True,
                         timeout=SECONDS, check=False)
    if ran.returncode or ran.stderr:
        raise ValueError(f"{words}: status {ran.returncode}, {ran.stderr!r}")
    return {*ran.stdout.splitlines()} - {""}


def help_of(*words):
    """The help of a command."""
    return subprocess.run([*words, "--help"], capture_output=True, text=True, timeout=SECONDS, check=True,
                          env={**os.environ, "PYTHONDONTWRITEBYTECODE": "1"}).stdout


def part(text, head):
    """A part of a help: the rows between its head and the next one."""
    return re.search(rf"(?ms)^{head}\n(.*?)(?:^\S|\Z)", text)[1]


def options_in(text):
    """The options that rows begin with, as `    --help, -h  ..`."""
    rows = [row.strip() for row in text.splitlines() if row.strip().startswith("-")]
    return {option for row in rows for option in re.findall(r"(?:^|, )(--?[a-z][a-z-]*)", row)}


def differences(words, folder, wanted):
    found = completed(words, folder)
    return [] if found == wanted else [f"{' '.join(words)!r} is completed to {sorted(found)} and not {sorted(wanted)}"]


def of_bfqhost(program, folder):
    """The subcommands, and the options of each."""
    text = help_of(program)
    both, sim, serve, replay = (options_in(part(text, head)) - ALONE
                                for head in ("OPTIONS of sim and serve", "OPTIONS of sim$", "OPTIONS of serve", "OPTIONS of replay"))
    named = {*re.findall(r"(?m)^    bfqhost ([a-z-]+)", part(text, "SYNOPSIS"))} | options_in(text)
    yield from differences(["bfqhost", ""], folder, {it for it in named if it in {"sim", "serve", "replay"} | HELP | ALONE})
    yield from differences(["bfqhost", "sim", ""], folder, both | sim)
    yield from differences(["bfqhost", "serve", ""], folder, both | serve)
    yield from differences(["bfqhost", "replay", ""], folder, replay | HELP)


def of_bfqctl(operator, folder):
    """The options, and the commands of the operator."""
    text = help_of(operator)
    yield from differences(["bfqctl", ""], folder, options_in(text))
    commands = {row.split()[0] for row in part(text, "COMMANDS").splitlines() if row.strip()}
    looks = {*re.findall("[a-z]+", part(text, "LOOKS.*?"))}
    yield from differences(["bfqctl", "--socket", "dir/operator", ""], folder, commands | looks)


def of_bfqclient(folder):
    """The commands, and the options of each."""
    client = [sys.executable, TOP / "clients" / "bfqclient.py"]
    text = help_of(*client)
    commands = {"read", "write", "discard", "load", "check"}
    yield from (f"the help has no {command}" for command in commands if not re.search(rf"(?m)^ +{command} |PATH {command} ", text))
    yield from differences(["bfqclient", "-"], folder, options_in(text) | HELP)
    yield from differences(["bfqclient", "dir/client0", ""], folder, commands | (options_in(text) | HELP) - ALONE)
    for command in sorted(commands):
        wanted = options_in(help_of(*client, "dir/client0", command)) | HELP
        yield from differences(["bfqclient", "dir/client0", command, "-"], folder, wanted)


def of_bfqnbd(folder):
    """The options."""
    yield from differences(["bfqnbd", ""], folder, options_in(help_of(sys.executable, TOP / "clients" / "bfqnbd.py")) | HELP)


def of_values(folder):
    """What follows an option, and what is begun."""
    for words, wanted in VALUES:
        yield from differences(words, folder, wanted)


def completion_runs(program, operator):
    """The name of each look, and what was completed in another way than wanted."""
    with tempfile.TemporaryDirectory() as folder:
        Path(folder, "disk.img").touch()
        Path(folder, "two words").touch()
        Path(folder, "dir").mkdir()
        looks = {"bfqhost": of_bfqhost(program, folder), "bfqctl": of_bfqctl(operator, folder), "bfqclient": of_bfqclient(folder),
                 "bfqnbd": of_bfqnbd(folder), "values": of_values(folder)}
        for name, look in looks.items():
            faults = []
            try:
                faults.extend(look)
            except (OSError, TypeError, ValueError, subprocess.SubprocessError) as fault:
                faults.append(str(fault))
            yield f"completion in bash: {name}", faults
