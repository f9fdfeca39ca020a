#!/usr/bin/env python3
"""The page web/bfqhost.html: that the module in it answers as the program does, that its reasons are those of tools/why, that undo is exact
there, what tools/page writes, and that the page is the one that its parts make.

    tests/page.py --renew         proves the crate, and makes the page anew of it and of the parts in web/ (tests/release.py --renew
                                  takes the module that `./test` has made)
    tests/page.py --parts         makes the page anew of the parts in web/, with the module that it has
    tests/page.py --screenshot    takes the picture docs/page.webp anew

The module and the page's script run in Node, if it is there. What a browser shows is in tests/page_shown.py.
"""

import argparse
import base64
import json
import os
import re
import shutil
import subprocess
import sys
import tempfile
from pathlib import Path

from bad_input import CASES, SIM
from checkout import TOP, below, crate_lines
from libraries import changed, lanes, made, stale
from random_scripts import options_of, random_lines
from script_rows import SCRIPTS, read_rows

sys.path += [str(TOP / "tools"), str(TOP / "web" / "build")]
import dials  # noqa: E402
import grammar  # noqa: E402
import make  # noqa: E402
import module  # noqa: E402
from host import BAD_INPUT, Host, Stop  # noqa: E402
from lower import MAGIC, Unknown, lowered  # noqa: E402
from reasons import Reasons  # noqa: E402
from shares import Run as Shares  # noqa: E402
from shown import SCALE  # noqa: E402

TASKS = TOP / "tests" / "page_tasks.js"
TOOL = TOP / "tools" / "page"
SECONDS = 600
MOST_FAULTS = 6
# How many random scripts there are, and of how many of them the reasons are worked out twice.
AT_RANDOM = 200
# Of a long future so many places are looked at.
MOST_PLACES = 40
# The device of a page is of zeros.
IMAGE = "--image"
DATA = re.compile(r'<script type="text/plain" id="module">(.*?)</script>', re.DOTALL)
RENEW = "run ./test, and then tests/release.py --renew"
# So many lines run before memory ends, where it is least.
LEAST_BEFORE = 100
# Shares are sums of parts of sectors, which differ in the last places.
NEAR = 1e-6


def scripts():
    """The name, the options and the bytes of each script of examples/ and tests/scripts, and of each case of bad lines."""
    for path in sorted((TOP / "examples").glob("*.script")):
        words = path.with_suffix(".args")
        yield f"examples/{path.name}", words.read_text().splitlines()[1:] if words.exists() else SIM[1:], path.read_bytes()
    for path in sorted(Path(SCRIPTS).glob("*.rows")):
        runs, lines, _ = read_rows(path)
        for words in runs:
            yield f"scripts/{path.name}: {' '.join(words)}", words[1:], "".join(f"{line}\n" for line in lines).encode()
    for case in CASES:
        if case.words[:1] == ["sim"] and dials.why_bad(case.words[1:]) is None and not case.reads_directory and not case.writes_to_full:
            yield f"bad input: {case.name}", case.words[1:], case.stdin


def for_page():
    """Those scripts that a page can run."""
    return [it for it in scripts() if not any(word.startswith(IMAGE) for word in it[1])]


def at_random(program, count):
    """Random scripts of the seeds from 1 on, as the program answers them."""
    for seed in range(1, count + 1):
        options = options_of(seed)
        with Host(program, options) as host:
            lines = random_lines(seed, host.ask)
        yield f"seed {seed}", options, "".join(f"{line}\n" for line in lines).encode()


def answers(path, tasks, *flags):
    """What a page does with tasks, in Node with these flags: an answer for each."""
    given = "".join(f"{json.dumps(task)}\n" for task in tasks)
    done = subprocess.run(["node", *flags, TASKS, path], input=given, capture_output=True, text=True, timeout=SECONDS, check=False)
    if done.returncode:
        raise ValueError(f"Node ends with status {done.returncode}: {done.stderr.strip()[-300:]}")
    return [json.loads(row) for row in done.stdout.splitlines()]


def task(kind, options, script, **more):
    return {"task": kind, "options": options, "script": base64.b64encode(script).decode(), **more}


def native(program, options, script):
    """What the program prints for a script, and its status."""
    done = subprocess.run([program, "sim", *options], input=script, stdout=subprocess.PIPE, stderr=subprocess.DEVNULL, timeout=SECONDS, check=False)
    return {"status": done.returncode, "text": done.stdout.decode(errors="replace")}


def same_texts(program, path, given):
    """Where the module prints another text than the program, or ends with another status."""
    for (name, options, script), got in zip(given, answers(path, [task("run", options, script) for _, options, script in given])):
        wanted = native(program, options, script)
        if got != wanted:
            rows = [*zip(got["text"].split("\n"), wanted["text"].split("\n"))]
            first = next((f"{one!r} and not {other!r}" for one, other in rows if one != other), "one is longer")
            yield f"{name}: status {got['status']} and not {wanted['status']}; {first}"


def why_bad(line):
    """Why a line is a bad one in a page, where there is no payload; None if it is good."""
    return grammar.why_bad(line, grammar.FORMS_WITHOUT_PAYLOAD)


def good_part(script):
    """The lines of a script up to a bad one."""
    lines = []
    for line in script.decode(errors="surrogateescape").split("\n"):
        if why_bad(line):
            break
        lines += [] if grammar.is_silent(line) else [line]
    return lines


def as_shown(why):
    """A reason of the tools as the page shows it: seven places of a time instead of the whole number of parts of 2^-22 that it has."""
    def places(found):
        parts = (int(found[1] or found[2]) * 10**7 + 2**(SCALE - 1)) >> SCALE
        return f"{parts // 10**7}.{parts % 10**7:07}"

    return re.sub(rf"\d+\.\d{{3}} \((\d+)\)|(\d+)/2\^{SCALE}\b", places, why)


def same_reasons(program, path, given):
    """Where the page gives another reason of a choice than tools/why, or finds that the machine did otherwise."""
    choices = raw = 0
    for (name, options, script), got in zip(given, answers(path, [task("reasons", options, script) for _, options, script in given])):
        with Host(program, options) as host:
            reasons = Reasons(host, options)
            wanted = [(grammar.told(asked.answer), asked.why) for line in good_part(script) if (asked := reasons.ask(line)).why is not None]
        found = [(it["answer"], "; ".join(it["parts"])) for it in got]
        choices += len(found)
        yield from (f"{name}: {one} and not {other}" for one, other in zip(found, wanted) if one != other)
        shown = ["; ".join(it["shown"]) for it in got]
        yield from (f"{name}: shown is {one!r} and not {as_shown(why)!r}" for one, (_, why) in zip(shown, wanted) if one != as_shown(why))
        raw += sum(as_shown(why) != why for _, why in wanted)
        yield from (f"{name}: {it['faults']}" for it in got if it["faults"])
        if len(found) != len(wanted):
            yield f"{name}: {len(found)} choices and not {len(wanted)}"
    print(f"reasons of a page: {choices} choices in {len(given)} scripts, {raw} of them with times of more than three places")
    if choices < len(given):
        yield f"there are {choices} choices"


def exact(path, given):
    """Where a page finds that undo gives another machine than the lines before it; and whether enough places were compared."""
    found = answers(path, [task("exactness", options, script, most=MOST_PLACES) for _, options, script in given])
    for (name, _, _), got in zip(given, found):
        yield from (f"{name}: {it}" for it in got["differences"])
    places, stuck = (sum(it[what] for it in found) for what in ("places", "stuck"))
    print(f"exactness in a page: {places} places in {len(given)} scripts, at {stuck} of which the history was full")
    if places - stuck < 10 * len(given):
        yield f"undo was compared at {places - stuck} places"


def same_shares(program, path, given):
    """Where a page tells that a client was given, or is entitled to, something else than tools/plot does."""
    for (name, options, script), got in zip(given, answers(path, [task("shares", options, script) for _, options, script in given])):
        with tempfile.TemporaryDirectory() as folder, Host(program, options) as host:
            file = Path(folder, "script")
            file.write_bytes("".join(f"{line}\n" for line in good_part(script)).encode())
            run = Shares(host, 0, True)
            run.play(str(file))
        sent = [(points[-1].sent, points[-1].entitled) for _, points in run.lines()]
        wanted = [sorted((client.seat, client.session, count, due[client]) for client, count in of.items()) for of, due in sent]
        found = [sorted(map(tuple, clients)) for clients in got]
        is_same = [[it[:3] for it in one] for one in found] == [[it[:3] for it in one] for one in wanted]
        pairs = [pair for one, other in zip(found, wanted) for pair in zip(one, other)]
        if not is_same or any(abs(one[3] - other[3]) > NEAR for one, other in pairs):
            yield f"{name}: {found} and not {wanted}"


# So many pages of 64 KiB the memory has at most, and so many writes of 32 KiB do not fit into it.
LITTLE, WRITES = (800, 1200, 1600, 2000), 3_000


def little_memory(path):
    """Where a run that memory does not hold neither ends with a word nor goes on with refusals, or a small one behind it is not answered."""
    lines = ["attach 0 0 4"]
    for at in range(WRITES):
        lines += [f"write 0 1 {64 * at % 65000} 64 {at % 256}", "dispatch", f"work 0 {4 * at + 3}", "reap 0 1"]
    large = task("end", ["--history=16777216", "--sectors=65536", "--tags=1"], "".join(f"{line}\n" for line in lines).encode())
    for pages in LITTLE:
        end, small = answers(path, [large, task("run", [], b"attach 0 0 4\n")], f"--wasm-max-mem-pages={pages}")
        word = "refused" if end["without"] else "ended" if end["fault"] and "no memory" in end["fault"]["why"] else "nothing"
        if word == "nothing" or end["rows"] <= LEAST_BEFORE or small != {"status": 0, "text": "attached 1\n"}:
            yield f"with {pages} pages: {end}, and then {small}"


# Lines that are bad, each in another way, and good ones.
LINES = ["", "# a", "attach 0 0 4", "attach 0 0 4 rt", "attach 0 0 4 RT", "attach 0 0 4 soon", "attach 256 0 4", "attach 00 0 4", "attach -1 0 4",
         "Attach 0 0 4", "attach 0 0", "attach", "dispatch now", "dispatch ", " dispatch", "dispatch\r", "dis\tpatch", "read  0 1 0 1", "tock", "discard 0 1 0 1", "discard 0 1 0 1 0",
         "it's", 'a"b\'c', "back\\slash", "write 0 1 0 1", "show", "show seat", "show moon 1", "undo 4294967296", f"sector {2**64}", "sector 1e3",
         "vtime 0 be", "caf\u00e9", "\u2192", "\x00", "#" + "x" * 255, "#" + "x" * 256, "# " + "\u00e9" * 127, "# " + "\u00e9" * 128, "finish 0 1 fill",
         "switch cfq", "line 1", "write 0 1 9 1 @0", "write 0 1 9 1 @", "write 0 1 9 @0", "@0"]
OPTIONS = [[], ["--tags", "1"], ["--tags=64"], ["--tags=65"], ["--tags=0"], ["--tags", "01"], ["--tags", "-1"], ["--tags"], ["--tags=1", "--tags=2"],
           ["--first-budget=4096"], ["--first-budget=4097"], ["--first-budget=255"], ["--max-budget=256", "--first-budget=256"], ["--max-budget=300"],
           ["--timeout=1001"], ["--history=0"], [f"--first-vtime={2**62}"], [f"--first-vtime={2**62 + 1}"], [f"--first-vtime={2**64}"],
           ["--sectors=65537"], ["--sectors=0"], ["--scheduler=none"], ["--scheduler", "cfq"], ["--image", "disk"], ["--payload", "bytes"], ["word"], ["--nr-requests=257"]]


def same_words(path):
    """Where a page says otherwise than the tools why a line or an option is bad."""
    lines, *options = answers(path, [{"task": "bad", "lines": LINES}, *({"task": "options", "options": words} for words in OPTIONS)])
    yield from (f"{line!r}: {got} and not {why_bad(line)}" for line, got in zip(LINES, lines) if got != why_bad(line))
    yield from (f"{words}: {got} and not {dials.why_bad(words)}" for words, got in zip(OPTIONS, options) if got != dials.why_bad(words))


# Requests as a look has them, and what a page shows of each.
BLOCKS = {"fetch:5+2:3": ["block fetch", "fetch 5+2, bios 3", "5+2"], "store:9+1:4,5": ["block store", "store 9+1, bios 4, 5", "W 9+1"],
          "discard:7+64:6": ["block discard", "discard 7+64, bios 6", "D 7+64"]}


def same_blocks(path):
    """Where a page shows another block of a request."""
    found, = answers(path, [{"task": "blocks", "requests": [*BLOCKS]}])
    yield from (f"{item}: {got} and not {wanted}" for (item, wanted), got in zip(BLOCKS.items(), found) if got != wanted)


def node_runs(program, path, is_first):
    """What the script and the module of a page do in Node. What does not differ by the build of the program is run with the first."""
    if shutil.which("node") is None:
        print("skipped: the module of the page was not compared with the program, as there is no node here")
        return
    given, random = for_page(), [*at_random(program, AT_RANDOM)]
    steady = [it for it in given if not it[0].startswith("bad input")]
    yield "page: texts and statuses", same_texts(program, path, given)
    yield f"page: texts and statuses of {AT_RANDOM} random scripts", same_texts(program, path, random)
    if not is_first:
        return
    yield "page: reasons", same_reasons(program, path, steady)
    yield f"page: reasons of {AT_RANDOM} random scripts", same_reasons(program, path, random)
    yield "page: undo is exact", exact(path, [*steady, *random])
    yield "page: shares", same_shares(program, path, [it for it in given if it[0].startswith("examples")])
    yield "page: why lines and options are bad", same_words(path)
    yield "page: blocks of requests", same_blocks(path)
    yield "page: little memory", little_memory(path)


def of_formats():
    """The limits of options are those of docs/FORMATS.md."""
    rows = re.findall(r"(?m)^\| `(--[\w-]+) N` \| (\d+) to (`--max-budget`|2\^62|\d+)[^|]* \| (\d+) \|", (TOP / "docs" / "FORMATS.md").read_text())
    wanted = {name: (int(least), {"`--max-budget`": "maxBudget", "2^62": 2**62}.get(most) or int(most), int(usual)) for name, least, most, usual in rows}
    found = {it.name: (it.least, it.most, it.usual) for it in dials.OPTIONS}
    for name in found:
        if found[name] != wanted.get(name):
            yield f"{name}: {found[name]} and not {wanted.get(name)}"


def of_menu():
    """Each lesson of the guide and each example is in the menu, no run twice, and what cannot be chosen has why."""
    rows = make.menu()
    lessons = re.findall(r"(?m)^## (\d+)\. (.*)", (TOP / "docs" / "GUIDE.md").read_text())
    for number, title in lessons:
        if not any(row["label"].startswith(f"{number}. ") and title in row["label"] for row in rows):
            yield f"lesson {number}, {title}, is not there"
    found = [(row["text"], row["options"]) for row in rows if "text" in row]
    for path in (TOP / "examples").glob("*.script"):
        if not any(text == path.read_text() for text, _ in found) and not any(path.stem in row["label"] for row in rows if "text" not in row):
            yield f"{path.name} is not there"
    yield from (f"{options} are there twice with {text[:60]!r}" for text, options in found if found.count((text, options)) > 1)
    for what in ("name", "label"):
        names = [row[what] for row in rows if what in row]
        yield from (f"{what} {it!r} is there twice" for it in names if names.count(it) > 1)
    yield from (f"{row['label']!r} does not say why it cannot be chosen" for row in rows
                if "text" not in row and not row["label"].endswith((", without a script of its own", ", over a file, which a page does not read")))


def tool(folder, *words, stdin=b""):
    """What tools/page writes to standard output and standard error, and its status."""
    done = subprocess.run([TOOL, *words], cwd=folder, input=stdin, capture_output=True, timeout=SECONDS, check=False)
    return done.stdout.decode(), done.stderr.decode(), done.returncode


# The words of the tool, what must be in a file, what it says, and its status. A script that holds the end of an element stays in its own.
SCRIPT = "attach 0 0 4\n# </script><b>&amp; \u00e9\nread 0 1 5 1\n"
TOOL_RUNS = [
    (["script"], SCRIPT.encode(), "run.html", "", 0),
    (["-", "-o", "out.html", "--", "--tags=1"], SCRIPT.encode(), "out.html", "", 0),
    (["script"], b"attach 0 0 4\nAttach\n", "run.html", "script: bad line 2: a capital letter: 'Attach'\n", BAD_INPUT),
    (["script", "--", "--tags=65"], SCRIPT.encode(), None, "--tags is 1 to 64, and not 65\n", BAD_INPUT),
    (["script", "--", "--image", "disk"], SCRIPT.encode(), None, "a page has no option '--image'\n", BAD_INPUT),
    (["script"], b"# \xff\n", None, "script: bad line 1: it is no text in UTF-8, as a page is\n", BAD_INPUT),
    (["no-script"], b"", None, "no-script: No such file or directory\n", BAD_INPUT),
    (["script", "-o", "no/run.html"], SCRIPT.encode(), None, "no/run.html: No such file or directory\n", BAD_INPUT),
]


def given_in(text):
    """The script and the options that a page was made with."""
    return json.loads(re.search(r'id="given">(.*?)</script>', text, re.DOTALL)[1])


def of_tool():
    """The tool writes the page with the script in it, and nothing else of the page is another."""
    whole = make.PAGE.read_text(encoding="utf-8")
    for words, script, name, said, status in TOOL_RUNS:
        with tempfile.TemporaryDirectory() as folder:
            Path(folder, "script").write_bytes(script)
            got = tool(folder, *words, stdin=script)
            if got != ("", said, status):
                yield f"{words}: {got}"
            left = {it.name for it in Path(folder).iterdir()} - {"script"}
            if left != ({name} if name else set()):
                yield f"{words}: the files are {sorted(left)}"
            if name and name in left:
                made = Path(folder, name).read_text(encoding="utf-8")
                if given_in(made)["text"] != script.decode() or len(made.split("</script>")) != len(whole.split("</script>")):
                    yield f"{words}: the page has {given_in(made)}"


# Modules that lower.py must refuse: no module, one that imports, one with two memories, and one with a vector.
TYPES = b"\1\4\1\x60\0\0"
FOREIGN = [b"\0asm\2\0\0\0", MAGIC + TYPES + b"\2\1\0" + b"\3\1\0", MAGIC + TYPES + b"\3\1\0" + b"\5\5\2\4\1\4\1",
           MAGIC + TYPES + b"\3\2\1\0" + b"\5\3\1\4\1" + b"\x0a\6\1\4\0\xfd\x0c\x0b"]


def of_lower():
    """A module that is not as the linker writes one is refused, and one of nothing but a memory is lowered."""
    for data in FOREIGN:
        try:
            yield f"{data!r} becomes {lowered(data)!r}"
        except Unknown:
            pass
    got, wanted = lowered(MAGIC + TYPES + b"\3\1\0" + b"\5\3\1\4\1"), MAGIC + TYPES + b"\3\1\0" + b"\5\3\1\0\1"
    if got != wanted:
        yield f"a memory becomes {got!r}"


def module_in(path):
    """The bytes of the module in a page."""
    return base64.b64decode(DATA.search(path.read_text(encoding="utf-8"))[1])


def of_parts():
    """The page is what its parts make with the module that it has."""
    if make.page(module_in(make.PAGE)) != make.PAGE.read_text(encoding="utf-8"):
        yield f"web/bfqhost.html is not what the parts in web/ make: tests/page.py --parts, or {RENEW}"


def of_crate():
    """The module in the page is what the crate makes as it stands."""
    try:
        if module.made(lanes()) != module_in(make.PAGE):
            yield f"the module in web/bfqhost.html is not what the crate bfq_page makes: {RENEW}"
    except module.Failed as fault:
        yield f"the module of the page cannot be made, though the page that is there works: {fault}"


def page_runs(program, is_first):
    """The name of each run with a build of the program, and what was wrong with it."""
    if is_first:
        yield from told([("page: limits of options", of_formats()), ("page: menu", of_menu()), ("tools/page", of_tool()), ("page: lowering", of_lower())])
    try:
        yield from told(node_runs(program, make.PAGE, is_first))
    except (OSError, Stop, ValueError, subprocess.SubprocessError) as fault:
        yield "page: Node", [str(fault)]


# LLVM modules that are not as the toolchain makes one: it calls more than the heap, or has no layout of data.
NO_MODULES = ['target datalayout = "e"\ntarget triple = "x86_64-unknown-linux-gnu"\ndeclare i32 @getpid()\ndefine i32 @f() #0 {\n'
              '  %1 = call i32 @getpid()\n  ret i32 %1\n}\nattributes #0 = { "target-cpu"="x86-64-v2" }\n',
              'target triple = "x86_64-unknown-linux-gnu"\ndefine i32 @f() {\n  ret i32 1\n}\n']


def of_others():
    """A module that the toolchain would make otherwise is refused, and no page is made of it."""
    for text in NO_MODULES:
        with tempfile.TemporaryDirectory() as folder:
            Path(folder, "module.ll").write_text(text, encoding="ascii")
            try:
                yield f"{module.retargeted(Path(folder, 'module.ll'), Path(folder))} is made of {text!r}"
            except module.Failed:
                pass


def made_runs(is_gate):
    """Whether the page is that of its parts; with the toolchain whether other modules are refused; and after the gate whether the module of
    the page is that of the crate."""
    runs = [("web/bfqhost.html is of its parts", of_parts())]
    runs += [("modules that are not for a page", of_others())] if shutil.which("rt") else []
    yield from told([*runs, *([("web/bfqhost.html is of its crate", of_crate())] if is_gate else [])])


def told(runs):
    """Each run with its first faults."""
    for name, faults in runs:
        found = [*faults]
        yield name, found[:MOST_FAULTS] + [f"and {len(found) - MOST_FAULTS} more"] * (len(found) > MOST_FAULTS)


def is_made():
    """Whether there is a module that was made of the crate and of the parts of web/build as they stand."""
    lows = below(module.CRATE, lines := crate_lines())
    parts = [it.stat().st_mtime for it in (TOP / "web" / "build").iterdir() if it.is_file()]
    newest = max(*parts, *map(changed, [module.CRATE, *lows]), *map(made, lows))
    return not stale(lows, lines) and module.MODULE.exists() and module.MODULE.stat().st_mtime > newest


def take_over():
    """Makes the page anew with the module that the gate has made last. Gives what was wrong, or None."""
    if not is_made():
        return f"there is no new {module.MODULE.relative_to(TOP)}: run ./test first"
    make.PAGE.write_text(make.page(module.MODULE.read_bytes()), encoding="utf-8")
    return None


def renew(is_of_crate):
    """Makes the page anew, with a new module or with the one that it has. Gives what was wrong, or None."""
    try:
        data = module.made(lanes()) if is_of_crate else module_in(make.PAGE)
    except (module.Failed, OSError) as fault:
        return f"tests/page.py: {fault}"
    make.PAGE.write_text(make.page(data), encoding="utf-8")
    return None


def main():
    words = argparse.ArgumentParser(description=__doc__, formatter_class=argparse.RawDescriptionHelpFormatter)
    one = words.add_mutually_exclusive_group(required=True)
    for name in ("renew", "parts", "screenshot"):
        one.add_argument(f"--{name}", action="store_true")
    given = words.parse_args()
    if given.screenshot:
        from page_shown import take_picture
        return take_picture()
    return renew(given.renew)


if __name__ == "__main__":
    os.environ["PYTHONDONTWRITEBYTECODE"] = "1"
    sys.exit(main())
