"""What a browser shows of the page: at places of some runs what the program's looks say, keys, lines that are typed, futures, bad input; and that
no request leaves it. It is Chromium, driven by its chromedriver, if both are there (tests/browser.py)."""

import collections
import contextlib
import os
import random
import subprocess
import sys
import tempfile
from pathlib import Path

from bad_input import Skipped
from browser import Failed, browser
from checkout import TOP
from page_layout import LAYOUT
from page_opened import STEP, TEXT, address, opened

sys.path.append(str(TOP / "tools"))
import grammar  # noqa: E402
from host import Host, Stop  # noqa: E402
from reasons import look  # noqa: E402
from shown import OF_GROUPS, ROOT, SCALE, by_weight, name_of  # noqa: E402

PICTURE = TOP / "docs" / "page.webp"
# The picture of docs: the script with which the page begins, with so many steps.
STEP_OF_PICTURE, QUALITY, MOST_BYTES = 52, 85, 150_000
SECONDS = 120
CLASS_NAMES = {"rt": "real time", "be": "best effort", "idle": "idle"}
# A long run: this seed, and so many steps.
SEED, STEPS = 7, 5_000
MANY_LINES = 100_000
AXES = "return [...document.querySelectorAll('#groups svg.axis')].map(it => [it.getAttribute('aria-label'), it.textContent])"
# A time is told to so many places if another one is the same to three: a unit of 2^-22 is more than two of the last place.
MORE_PLACES = 7


def word_of(it, vtime):
    """How a member stands to V."""
    return it.state if it.state != "active" else "may start" if it.start <= vtime else "S past V"


def told_by(vtimes):
    """How the page tells some virtual times: by weight, and to more places those that are alike then."""
    texts = collections.Counter(map(by_weight, set(vtimes)))
    alike = {it for it in vtimes if texts[by_weight(it)] > 1}

    def tell(vtime):
        parts = (vtime * 10**MORE_PLACES + 2**(SCALE - 1)) >> SCALE
        return f"{parts // 10**MORE_PLACES}.{parts % 10**MORE_PLACES:0{MORE_PLACES}}" if vtime in alike else by_weight(vtime)

    return tell


def axes_of(machine):
    """What the axes must say of a machine, and the texts that must stand in each drawing."""
    waiting = [ROOT]
    while waiting:
        group = waiting.pop(0)
        members = [*machine.members[group].values()]
        waiting += [it.entity - OF_GROUPS for it in members if it.entity >= OF_GROUPS]
        names = [name for name in grammar.CLASSES if any(it.class_name == name for it in members)]
        for name in names:
            own = [it for it in members if it.class_name == name]
            vtime = machine.vtimes[group, name]
            tell = told_by([vtime, *(time for it in own for time in ([it.start] if it.state == "idle" else [it.start, it.finish]))])
            head = "group 0, the root" if group == ROOT else f"group {group}, in group {machine.parents[OF_GROUPS + group]}"
            head += "" if names == ["be"] else f", class {CLASS_NAMES[name]}"
            said = [f"{name_of(it.entity)} {word_of(it, vtime)}, S {tell(it.start)}, F {tell(it.finish)}, weight {it.weight}" for it in own]
            texts = [f"V {tell(vtime)}", *(f"S {tell(it.start)}" for it in own), *(f"F {tell(it.finish)}" for it in own if it.state != "idle"),
                     *(f"budget {machine.budgets[it.entity]}" for it in own)]
            yield f"{head}: V {tell(vtime)}; {'; '.join(said)}", texts


def machine_after(program, options, lines):
    """The machine after some lines, by the program's looks, and the answer to the last line."""
    with Host(program, options) as host:
        answer = ""
        for line in lines:
            if not grammar.is_silent(line):
                answer = host.ask(line)
        return look(host), answer


def differences(it, machine, where):
    """Where a page that is open shows another machine than this one."""
    shown = it.run(AXES)
    wanted = [*axes_of(machine)] if machine.scheduler == "bfq" else []
    if [label for label, _ in shown] != [label for label, _ in wanted]:
        yield f"{where}: the axes are {[label for label, _ in shown]} and not {[label for label, _ in wanted]}"
    for (label, text), (_, texts) in zip(shown, wanted):
        yield from (f"{where}: {label} does not show {word!r}" for word in texts if word not in text)
    clients = it.run("return [...document.querySelectorAll('#clients article')].map(it => it.textContent)")
    if len(clients) != len(machine.queues):
        yield f"{where}: there are {len(clients)} clients and not {len(machine.queues)}"
    for text, (seat, queue) in zip(clients, machine.queues.items()):
        words = [f"seat {seat}", f"session {queue.session}, group {queue.group}", f"head at sector {queue.head}",
                 *(f"{request.start}+{request.count}" for request in queue.requests[:12])]
        yield from (f"{where}: seat {seat} does not show {word!r}" for word in words if word not in text)
    device = it.run(TEXT, "device")
    yield from (f"{where}: the device does not show tag {tag}" for tag, (seat, request) in machine.flight.items()
                if f"tag {tag}: seat {seat} {request.operation} {request.start}+{request.count}" not in device)
    if f"in flight: {len(machine.flight)} of" not in device:
        yield f"{where}: in flight are other than {len(machine.flight)}"
    if "gives the same" not in it.run(TEXT, "exact"):
        yield f"{where}: it tells {it.run(TEXT, 'exact')!r}"
    if "OTHERWISE" in it.run(TEXT, "why"):
        yield f"{where}: {it.run(TEXT, 'why')}"


def steps_of(program, options, lines):
    """The rows of a script at which a step is accepted, of one that undoes nothing."""
    with Host(program, options) as host:
        answers = [None if grammar.is_silent(line) else host.ask(line) for line in lines]
    return [row for row, (line, answer) in enumerate(zip(lines, answers)) if grammar.is_step(line) and not grammar.is_refusal(answer)]


def example(name):
    """The options and the lines of an example."""
    words = TOP / "examples" / f"{name}.args"
    options = words.read_text().splitlines()[1:] if words.exists() else ["--scheduler", "none"]
    return options, (TOP / "examples" / f"{name}.script").read_text().splitlines()


def places(it, program):
    """The page shows of three examples what the looks say, at the first places, at a choice and at the last one."""
    for name, until in (("three-weights", None), ("weights", "hold"), ("another-future", "hold")):
        options, lines = example(name)
        rows = steps_of(program, options, lines[:lines.index(until)] if until else lines)
        choice = next(at for at, row in enumerate(rows, 1) if lines[row] == "dispatch" and at > len(rows) / 2)
        for place in (0, 1, choice, len(rows)):
            # What was undone is the first future of a script that undoes.
            opened(it, address(run=name, step=place, **({"future": 1} if until else {})))
            machine, _ = machine_after(program, options, lines[:rows[place - 1] + 1] if place else [])
            yield from differences(it, machine, f"{name} at {place}")


def branches(it, program):
    """The future that stands at the end of a script that undoes, and the dropped one beside it."""
    options, lines = example("weights")
    opened(it, address(run="weights", step=61))
    machine, _ = machine_after(program, options, lines)
    yield from differences(it, machine, "weights at its end")
    if it.run("return document.getElementById('future').options.length") != 2:
        yield "weights has not two futures"
    it.press("b")
    it.until("return !document.getElementById('other').hidden")
    head = it.run("return document.querySelector('#other h2').textContent")
    if head != "future 1, which was dropped: 60 steps":
        yield f"beside lies {head!r}"
    it.press("up")
    it.until("return document.getElementById('future').value === '0'")
    if it.run(STEP) != "60":
        yield "the other future is not shown at its end"


def long_run(program):
    """The lines of a run of many steps of three clients, and its options."""
    dice = random.Random(SEED)
    options = ["--tags", "1", "--first-budget", "256", "--max-budget", "256", "--sectors", "65536"]
    lines = ["attach 0 0 6", "attach 1 0 4", "attach 2 0 0"]
    with Host(program, options) as host:
        for line in lines:
            host.ask(line)
        while len(lines) < STEPS:
            for seat in range(3):
                lines.append(f"read {seat} {seat + 1} {dice.randrange(65000)} {dice.choice([8, 32, 64])}")
                if grammar.is_refusal(host.ask(lines[-1])):
                    lines.append(f"reap {seat} {seat + 1}")
                    host.ask(lines[-1])
            lines.append("dispatch")
            answer = host.ask("dispatch").split(" ")
            if answer[0] == "issued":
                lines.append(f"finish {answer[1]} {answer[2]} fill 0")
                host.ask(lines[-1])
    return options, lines


def many_steps(it, program):
    """A run of many steps that tools/page has put into a page: at its begin, its end, and at a choice in the middle."""
    options, lines = long_run(program)
    rows = steps_of(program, options, lines)
    choice = next(at for at, row in enumerate(rows, 1) if lines[row] == "dispatch" and at > len(rows) / 2)
    with tempfile.TemporaryDirectory(prefix="bfq-") as folder:
        path = Path(folder, "run.html")
        made = subprocess.run([TOP / "tools" / "page", "-", "-o", path, "--", *options], input="".join(f"{line}\n" for line in lines), text=True,
                              timeout=SECONDS, check=False)
        if made.returncode:
            yield f"tools/page ends with status {made.returncode}"
            return
        for place in (0, 1, choice, len(rows)):
            opened(it, address(path, step=place))
            machine, _ = machine_after(program, options, lines[:rows[place - 1] + 1] if place else [])
            yield from differences(it, machine, f"{len(rows)} steps, at {place}")
        it.until("return document.querySelector('#shares table') !== null")
        if it.run("return document.querySelectorAll('#shares tbody tr').length") != 3:
            yield "not three clients have shares"


def keys(it, program):
    """Keys go steps and choices, and a line that is typed is asked, undone, and redone."""
    options, lines = example("three-weights")
    opened(it, address(run="three-weights", step=52))
    # The choices stand at every other step from 44 on.
    for pressed, shift, wanted in ((["left"], False, "51"), (["right", "right"], False, "53"), (["right"], True, "54"), (["left"], True, "52"),
                                   (["home"], False, "0"), (["end"], False, "99")):
        it.press(*pressed, shift=shift)
        if it.run(STEP) != wanted:
            yield f"after {pressed}{' with shift' if shift else ''} {it.run(STEP)} steps stand, and not {wanted}"
    # The second line is typed where the first was, as the focus stays there.
    it.press("t", *"attach 5 0 4", "enter")
    if it.run(STEP) != "100":
        yield f"after a typed line {it.run(STEP)} steps stand"
    it.press(*"read 5 7 7 1", "enter")
    if "refused 4 (StaleSession)" not in it.run(TEXT, "rows"):
        yield "a stale session is not told"
    machine, _ = machine_after(program, options, [*lines, "attach 5 0 4"])
    yield from differences(it, machine, "after a typed line")
    it.press("escape", "left")
    yield from differences(it, machine_after(program, options, lines)[0], "after it is undone")
    it.press("right")
    yield from differences(it, machine, "after it is redone")
    it.press("home", "t", *"tick", "enter")
    if "refused 26 (NoneInService): no queue is in service" not in it.run(TEXT, "typed-answer"):
        yield "a refusal is not told"
    it.press(*"Tick", "enter")
    if it.run(TEXT, "typed-answer") != "a capital letter: 'Tick'":
        yield f"a bad line is told as {it.run(TEXT, 'typed-answer')!r}"


def branch_by_typing(it, program):
    """A line that is typed where steps stand behind it makes another future, and each one before stays."""
    options, lines = example("timeout")
    fork = len(steps_of(program, options, lines[:lines.index("hold")])) - 2
    # Of both futures these steps are the same, and the line goes behind all lines in each.
    for future in (1, 2):
        opened(it, address(run="timeout", future=future, step=fork))
        it.press("t", *"dispatch", "enter")
        if it.run("return document.getElementById('future').options.length") != 3:
            yield f"there are {it.run('return document.getElementById(arguments[0]).options.length', 'future')} futures, and not 3"
        asked = [*lines, "hold", "undo 1", "release", "dispatch"]
        machine, answer = machine_after(program, options, asked)
        yield from differences(it, machine, "another future by a typed line")
        if answer not in it.run(TEXT, "told"):
            yield f"{answer!r} is not told"
        if it.run("return view.text") != "".join(f"{line}\n" for line in asked):
            yield f"the script is {it.run('return view.text')!r}"


def not_typed(it, _):
    """A line that cannot be asked is not, and nothing is lost of it and of the script: behind a bad line, and in a dropped future."""
    bad = "attach 0 0 4\nread 0 1 5 1\nDispatch\nread 0 1 9 1\n"
    timeout = (TOP / "examples" / "timeout.script").read_text()
    for words, script, why in (
            ({"script": bad}, bad, "Line 3 of the script is bad: mend it first (edit the script)."),
            ({"script": bad, "step": 1}, bad, "Line 3 of the script is bad: mend it first (edit the script)."),
            ({"run": "timeout", "future": 1}, timeout, "This future was dropped: go to the one that stands (2) to type, or back to a step of both.")):
        opened(it, address(**words))
        step = it.run(STEP)
        it.press("t", *"tick", "enter")
        shown = it.run("return [view.text, document.getElementById('typed').value, document.getElementById('typed-answer').textContent]")
        if shown != [script, "tick", why] or it.run(STEP) != step:
            yield f"{words}: after a line that is not asked there are {shown} at step {it.run(STEP)}"


# Bad scripts and options: the words of the address, and what must be told where.
BAD = [
    ({"script": "attach 0 0 4\nread 0 1 5 1\nDispatch\nline\n"}, "fault", "Line 3 is bad, so the run ends before it: a capital letter: 'Dispatch'.", "2"),
    ({"script": "attach 0 0 4\n# " + 300 * "x" + "\n"}, "fault", f"Line 2 is bad, so the run ends before it: more than 256 bytes. It is \u201c# {78 * 'x'}\u2026\u201d.", "1"),
    ({"script": "attach 0 0 4\n<b>attach</b>\n"}, "fault", "Line 2 is bad, so the run ends before it: an unknown word: '<b>attach</b>'.", "1"),
    ({"script": "attach 0 0 4\nwrite 0 1 9 1 256\n"}, "fault",
     "Line 2 is bad, so the run ends before it: BYTE is at most 255: '256'. It is \u201cwrite 0 1 9 1 256\u201d.", "1"),
    ({"script": "attach 0 0 4\n", "options": "--tags 99"}, "fault-of-options", "--tags is 1 to 64, and not 99. The options are as usual.", "1"),
    ({"script": ""}, "told", "No step stands, of 0.", "0"),
    ({"script": "line\n", "step": "9e9", "future": "-3", "beside": "x"}, "told", "No step stands, of 0.", "0"),
    ({"run": "no such run", "look": "<i>", "step": "-5"}, "told", "No step stands, of 99.", "0"),
    # A script of the menu begins at its first choice.
    ({}, "told", "Step 44 of 99, line 47: dispatch \u2192 issued 0 44 fetch 0 64", "44"),
]


def bad_input(it, _):
    """A bad line and options out of their limits are told, and what came before is shown."""
    for words, where, text, step in BAD:
        opened(it, address(**words))
        if it.run(TEXT, where) != text:
            yield f"{words}: {it.run(TEXT, where)!r} and not {text!r}"
        if it.run(STEP) != step:
            yield f"{words}: not {step} steps stand"
    opened(it, address(run="timeout"))
    it.run("let it = document.getElementById('tags'); it.value = '65'; it.dispatchEvent(new Event('change', {bubbles: true}))")
    if "--tags is 1 to 64, and not 65. What is shown is the run before." != it.run(TEXT, "fault-of-options"):
        yield f"an option out of its limits is told as {it.run(TEXT, 'fault-of-options')!r}"


def many_lines(it, _):
    """A script of very many lines: the page shows its end and goes a step, each within some seconds."""
    lines = ["attach 0 0 4", *(MANY_LINES // 5) * ["read 0 1 5 1", "dispatch", "finish 0 0 short", "line", "queue 0"]]
    with tempfile.TemporaryDirectory(prefix="bfq-") as folder:
        path = Path(folder, "run.html")
        subprocess.run([TOP / "tools" / "page", "-", "-o", path], input="".join(f"{line}\n" for line in lines), text=True, timeout=SECONDS, check=True)
        opened(it, address(path))
        step = it.run("return Number(document.documentElement.dataset.step)")
        it.press("left")
        it.until(f"return document.documentElement.dataset.step === '{step - 1}'")
        if "gives the same" not in it.run(TEXT, "exact"):
            yield f"it tells {it.run(TEXT, 'exact')!r}"


def without(it, _):
    """A browser that has no WebAssembly gets a paragraph that says so, and the script as text; so does one without scripting."""
    it.do("goog/cdp/execute", cmd="Page.addScriptToEvaluateOnNewDocument", params={"source": "delete globalThis.WebAssembly"})
    it.open(address())
    it.until("return document.getElementById('missing-why').textContent.includes('it has no WebAssembly')")
    if "attach 2 0 0" not in it.run("return document.getElementById('as-text').innerText"):
        yield "the script is not there as text"
    it.do("goog/cdp/execute", cmd="Emulation.setScriptExecutionDisabled", params={"value": True})
    it.open(address())
    it.do("goog/cdp/execute", cmd="Emulation.setScriptExecutionDisabled", params={"value": False})
    if "needs JavaScript and WebAssembly" not in it.run("return document.getElementById('missing').innerText"):
        yield "without scripting nothing is said"


def nothing_sent(it, _):
    """No page that was opened has asked for anything but itself."""
    asked = {url for url in it.requests() if not url.startswith(("file://", "data:", "about:"))}
    if asked:
        yield f"asked is {sorted(asked)}"
    opened(it, address())
    it.run("fetch('http://127.0.0.1:9/').catch(() => {}); new Image().src = 'http://127.0.0.1:9/x.png'")
    if sent := [url for url in it.requests() if url.startswith("http")]:
        yield f"the policy lets out {sent}"
    # What would be sent by a page without a policy is seen here, or the lines above show nothing.
    it.open("data:text/html,<img src='http://127.0.0.1:9/x.png'>")
    if not any(url.startswith("http") for url in it.requests()):
        yield "no request is seen of a page that makes one"


# In this order: the one before the last takes WebAssembly away.
SHOWN = {"places": places, "branches": branches, "many steps": many_steps, "keys": keys, "another future by typing": branch_by_typing,
         "a line that is not asked": not_typed, "bad input": bad_input, "many lines": many_lines, **LAYOUT, "nothing is sent": nothing_sent, "what is missing": without}


def shown_runs(program):
    """The name of each run in a browser, and what was wrong with it."""
    try:
        with browser() as it:
            for name, function in SHOWN.items():
                try:
                    yield f"page in a browser: {name}", [*function(it, program)][:6]
                except (Failed, Stop, subprocess.SubprocessError) as fault:
                    yield f"page in a browser: {name}", [str(fault)]
    except Skipped as lacking:
        print(f"skipped: the page was not shown: {lacking}")
    except (Failed, OSError) as fault:
        yield "page in a browser", [str(fault)]


def take_picture():
    """Takes the picture of docs. Gives what was wrong, or None."""
    with contextlib.suppress(KeyError):
        del os.environ["NO_COLOR"]
    try:
        with browser() as it:
            opened(it, address(step=STEP_OF_PICTURE))
            it.until("return document.querySelector('#shares table') !== null")
            data = it.picture(format="webp", quality=QUALITY)
    except (Skipped, Failed, OSError) as fault:
        return f"tests/page.py: {fault}"
    if len(data) > MOST_BYTES:
        return f"tests/page.py: the picture has {len(data)} bytes, which is more than {MOST_BYTES}"
    PICTURE.write_bytes(data)
    return None
