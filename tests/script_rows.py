"""The rows of tests/scripts: scripts of which each line stands beside the text that it prints.

A file NAME.rows says in comments what it shows, and then has

    words: WORDS      the words of a run, joined by single spaces; with several such lines there is a run for each
    LINE -> TEXT      a line of the script, and the line that it prints

A run gives all lines to the program, and its whole output must be the texts. The texts come from the rules of scripts, and
not from the program's own output.
"""

import os

from bad_input import Case

SCRIPTS = os.path.join(os.path.dirname(os.path.abspath(__file__)), "scripts")
WORDS = "words: "
ARROW = " -> "


def read_rows(path):
    """The words of each run of a file, the lines of its script, and the texts that they print."""
    runs, lines, texts = [], [], []
    with open(path, encoding="ascii") as file:
        for number, row in enumerate(file.read().splitlines(), 1):
            if row.startswith("#"):
                continue
            if row.startswith(WORDS) and not lines:
                runs.append(row.removeprefix(WORDS).split(" "))
                continue
            line, arrow, text = row.partition(ARROW)
            if not arrow:
                raise ValueError(f"{path}: line {number} is no row: {row!r}")
            lines.append(line)
            texts.append(text)
    if not runs:
        raise ValueError(f"{path}: there are no words of a run")
    return runs, lines, texts


def ended(lines):
    """Lines, each with its end."""
    return "".join(f"{line}\n" for line in lines).encode()


def script_rows():
    """A case for each run of each file."""
    names = sorted(name for name in os.listdir(SCRIPTS) if name.endswith(".rows"))
    for name in names:
        runs, lines, texts = read_rows(os.path.join(SCRIPTS, name))
        for words in runs:
            yield Case(f"scripts/{name}: {' '.join(words)}", words, ended(lines), ended(texts))
