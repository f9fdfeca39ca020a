#!/usr/bin/env python3
"""Makes web/bfqhost.html: one file with the machine, its looks and the scripts of the menu in it.

    web/build/make.py --module bfq_page.wasm [-o PAGE.html]

The module is what web/build/module.py makes of the proved crate `bfq_page`. All else comes from this repository: the parts of the page in
web/, the forms of lines from tools/grammar.py, what refusals say from docs/FORMATS.md, and as a menu the scripts of examples/ and those
that the lessons of docs/GUIDE.md run. The same parts make the same bytes.
"""

import argparse
import base64
import hashlib
import html
import json
import re
import shlex
import sys
from pathlib import Path

TOP = Path(__file__).resolve().parents[2]
WEB = TOP / "web"
sys.path.append(str(TOP / "tools"))
import dials  # noqa: E402
import grammar  # noqa: E402

PAGE = WEB / "bfqhost.html"
# The parts of the script in the order in which they stand; each uses those above it.
PARTS = ["grammar", "dials", "machine", "looks", "reasons", "course", "shares", "elements", "parts", "axes", "track", "page"]
# The script that a page begins with if it is made with no other one.
FIRST = "three-weights"
# A page has no file to read, so scripts over an image cannot be chosen in it.
IMAGE = "--image"
# The parts of the menu.
LESSONS, OTHERS = "lessons", "more examples"
COMMAND = re.compile(r" {4}\./bfqhost sim(?: (.*))? < (\S+)")
# Nothing is loaded, sent or framed; the two hashes are those of the page's own script and style.
POLICY = "default-src 'none'; script-src {script} 'wasm-unsafe-eval'; style-src {style}; img-src data:; base-uri 'none'; form-action 'none'"


def read(*path):
    """The text of a file of the repository."""
    return TOP.joinpath(*path).read_text(encoding="utf-8")


def tables():
    """What the page knows of lines and refusals, as the tools and the documents have it."""
    rows = re.findall(r"(?m)^\| (\d+) \| [A-Z]\w+ \| (.*) \|$", read("docs", "FORMATS.md"))
    return {
        "forms": grammar.FORMS_WITHOUT_PAYLOAD, "bits": grammar.BITS, "choices": {name: list(words) for name, words in grammar.CHOICES.items()},
        "noSteps": sorted(grammar.NO_STEPS), "mostBytes": grammar.MOST_BYTES, "names": {str(number): name for number, name in grammar.NAMES.items()},
        # Numbers as texts, since one may have more digits than a number of a browser.
        "options": [{field: str(value) for field, value in option._asdict().items()} for option in dials.OPTIONS],
        "first": FIRST,
        "sentences": {number: text.replace("`", "") for number, text in rows},
    }


def options_of(path):
    """The options of an example: the words of its file NAME.args behind the first one."""
    words = path.with_suffix(".args")
    return words.read_text(encoding="utf-8").splitlines()[1:] if words.exists() else ["--scheduler", "none"]


def examples():
    """The scripts of examples/, each with its name, its text and its options."""
    for path in sorted((TOP / "examples").glob("*.script")):
        yield {"name": path.stem, "text": path.read_text(encoding="utf-8"), "options": options_of(path)}


def lessons():
    """The lessons of the guide by their headings, each with the scripts that it runs: those of a file, and those that stand in the block above."""
    found, runs, block, before = {}, [], "", ""
    for row in read("docs", "GUIDE.md").splitlines():
        if heading := re.match(r"## (\d+\. .*)", row):
            runs = found.setdefault(heading[1], [])
        elif row.startswith("## "):
            runs = []
        if command := COMMAND.fullmatch(row):
            words, name = command.groups()
            runs.append({"name": Path(name).stem, "text": read(name) if "/" in name else block, "options": shlex.split(words or "")})
        elif row.startswith("    "):
            block = (block if before.startswith("    ") else "") + row[4:] + "\n"
        before = row
    return found


def of_lesson(heading, runs, names):
    """The rows of the menu for a lesson. A run that an example is too has its name, and a lesson without a run has no text."""
    number, title = heading.split(". ", 1)
    if not runs:
        yield {"part": LESSONS, "label": f"{heading}, without a script of its own"}
    for run in runs:
        name, shown = names.get(key_of(run)), run["name"]
        if name is None and shown in names.values():
            shown += f" {' '.join(run['options']) or 'without options'}"
        yield {**run, "part": LESSONS, "label": f"{number}. {shown} ({title})", "name": name or f"lesson {number}, {shown}"}


def key_of(row):
    """What makes two rows of the menu the same."""
    return (row["text"], *row["options"]) if "text" in row else row["label"]


def menu():
    """The rows of the menu: the lessons with what they run, and then the other examples. A run that comes twice is in it once, and one over a
    file has no text, so it cannot be chosen."""
    names, found = {key_of(it): it["name"] for it in examples()}, {}
    for heading, runs in lessons().items():
        for row in of_lesson(heading, runs, names):
            found.setdefault(key_of(row), row)
    for it in examples():
        found.setdefault(key_of(it), {**it, "part": OTHERS, "label": it["name"]})
    return [row if IMAGE not in row.get("options", ()) else {"part": row["part"], "label": f"{row['label']}, over a file, which a page does not read"}
            for row in found.values()]


def in_json(value):
    """A value in JSON that can stand in an element `script`: nothing in it ends the element."""
    return json.dumps(value, ensure_ascii=True, separators=(",", ":"), sort_keys=True).replace("<", "\\u003c")


def script():
    """The script of the page."""
    parts = "".join((WEB / "js" / f"{name}.js").read_text(encoding="utf-8") for name in PARTS)
    return f"\n\"use strict\";\nconst TABLES = {in_json(tables())};\n{parts}"


def hashed(text):
    """What the policy says of an inline script or style."""
    return f"'sha256-{base64.b64encode(hashlib.sha256(text.encode()).digest()).decode()}'"


def page(module):
    """The whole page, with the bytes of a module."""
    rows = menu()
    first = next(it for it in rows if it.get("name") == FIRST)
    style, code = "\n" + read("web", "page.css"), script()
    parts = {
        "POLICY": POLICY.format(script=hashed(code), style=hashed(style)), "STYLE": style, "SCRIPT": code, "MENU": in_json(rows),
        "GIVEN": in_json({"name": "", "text": "", "options": []}), "TEXT": "\n" + html.escape(first["text"]),
        "MODULE": base64.b64encode(module).decode(),
    }
    text = read("web", "page.html")
    if missing := [name for name in parts if text.count(f"@{name}@") != 1]:
        sys.exit(f"web/build/make.py: web/page.html does not have once: {', '.join(missing)}")
    # One pass, so that no part is looked for in another one.
    return re.sub("@([A-Z]+)@", lambda it: parts[it[1]], text)


def main():
    words = argparse.ArgumentParser(description=__doc__, formatter_class=argparse.RawDescriptionHelpFormatter)
    words.add_argument("--module", required=True, type=Path, metavar="FILE")
    words.add_argument("-o", dest="to", default=PAGE, type=Path, metavar="PAGE")
    given = words.parse_args()
    try:
        given.to.write_text(page(given.module.read_bytes()), encoding="utf-8")
    except OSError as fault:
        return f"web/build/make.py: {fault.filename}: {fault.strerror}"
    return 0


if __name__ == "__main__":
    sys.exit(main())
