"""How the page is laid out in a browser, and what it does with a key or a text: at widths of telephones and of screens nothing passes the edge
or lies over another, and all can be read; what is told goes together; and nothing that was typed is lost."""

import base64
import json
import re

from browser import HIGH, WIDE
from checkout import TOP
from page_opened import STEP, TEXT, address, opened

# Width and height of what is looked at: telephones, a tablet, the narrowest window that is not one column, and a screen.
SIZES = ((320, 640), (360, 740), (413, 800), (768, 1024), (901, 700), (1280, 720))
# Up to this width all stands in one column.
ONE_COLUMN = 900
# Runs with groups in groups, classes, long numbers, and several futures.
RUNS = ("three-weights", "weights", "classes", "equal-finishes", "groups-and-virtual-times")
# Of each run so many steps lie between two looks at the layout.
STRIDE = 8
# No letter of a drawing is smaller, in pixels.
LEAST_PRINT = 10.9
LEAST_CONTRAST = 4.5
DEPTH = "return view.future.tip.depth"
SHOW = "show(arguments[0])"
IS_SEEN = "const it = document.getElementById(arguments[0]); return it.checkVisibility() && it.getBoundingClientRect().height > 0"
CHOOSE = "const it = document.getElementById('run'); it.value = arguments[0]; it.dispatchEvent(new Event('change'))"
PRESS_BUTTON = "document.getElementById(arguments[0]).click()"
HOST = "return document.querySelector('#device > p:last-child').textContent"
FOCUS = "return document.activeElement.id || document.activeElement.parentNode.id"

# What is wrong with the layout: what passes an edge, texts of a drawing that lie over each other or are small.
FAULTS = """
const found = [], root = document.documentElement, wide = innerWidth;
if (root.scrollWidth > wide) found.push(`the page is ${root.scrollWidth} wide, of ${wide}`);
const track = document.querySelector('.track').getBoundingClientRect(), slider = document.getElementById('slider').getBoundingClientRect();
if (track.left < slider.left - 1 || track.right > slider.right + 1) found.push(`the track goes from ${track.left} to ${track.right}`);
for (const svg of document.querySelectorAll('svg.axis, svg.ahead')) {
  const box = svg.getBoundingClientRect(), scale = box.width / svg.viewBox.baseVal.width;
  if (box.width === 0) continue;
  const texts = [...svg.querySelectorAll('text')].map((it) => [it.textContent, it.getBoundingClientRect(), it]);
  for (const [at, [text, one, it]] of texts.entries()) {
    const print = scale * parseFloat(getComputedStyle(it).fontSize);
    if (print < arguments[0]) found.push(`${text} has letters of ${print}`);
    if (one.left < box.left - 1 || one.right > box.right + 1 || one.bottom > box.bottom + 3) found.push(`${text} passes the edge of its drawing`);
    for (const [other, two] of texts.slice(at + 1)) {
      const across = Math.min(one.right, two.right) - Math.max(one.left, two.left), down = Math.min(one.bottom, two.bottom) - Math.max(one.top, two.top);
      if (across > 1 && down > 3 * scale) found.push(`${text} lies over ${other}`);
    }
  }
}
return found;
"""

# How far a panel that is opened, or what is in it, passes an edge; null if it does not.
OPEN = """
const panel = document.getElementById(arguments[0]);
for (const it of document.querySelectorAll('details')) it.open = it === panel;
const ends = [panel.querySelector('div'), ...panel.querySelectorAll('div *')].map((it) => it.getBoundingClientRect());
const left = Math.min(...ends.map((it) => it.left)), right = Math.max(...ends.map((it) => it.right));
return left < 0 || right > innerWidth || document.documentElement.scrollWidth > innerWidth ? `from ${left} to ${right}` : null;
"""

# The texts whose contrast to what lies behind them is less than the argument.
DIM = """
const found = new Set();
const parts = (colour) => { const [r, g, b, a = 1] = colour.match(/[\\d.]+/g).map(Number); return [r, g, b, a]; };
const over = ([r, g, b, a], [x, y, z]) => [a * r + (1 - a) * x, a * g + (1 - a) * y, a * b + (1 - a) * z, 1];
const light = ([r, g, b]) => {
  const [x, y, z] = [r, g, b].map((it) => (it / 255 <= 0.03928 ? it / 255 / 12.92 : ((it / 255 + 0.055) / 1.055) ** 2.4));
  return 0.2126 * x + 0.7152 * y + 0.0722 * z;
};
for (const it of document.querySelectorAll('body *')) {
  const own = [...it.childNodes].some((node) => node.nodeType === 3 && node.textContent.trim()) || it.matches('input[placeholder]');
  if (!own || !it.checkVisibility() || it.matches('option, script')) continue;
  const isDrawn = it instanceof SVGElement;
  const way = [];
  for (let at = it; at; at = at.parentElement) way.unshift(at);
  let behind = [255, 255, 255, 1], seen = 1;
  for (const at of way) {
    const style = getComputedStyle(at);
    if (!(at instanceof SVGElement)) behind = over(parts(style.backgroundColor), behind);
    seen *= Number(style.opacity);
  }
  if (isDrawn && it.closest('g.changed')) behind = over(parts(getComputedStyle(document.querySelector('.axis rect.row.changed')).fill), behind);
  const style = getComputedStyle(it, it.matches('input') ? '::placeholder' : null);
  const [r, g, b, a] = parts(isDrawn ? style.fill : style.color);
  const [one, other] = [light(over([r, g, b, a * seen], behind)), light(behind)].sort((x, y) => y - x);
  const ratio = (one + 0.05) / (other + 0.05);
  if (ratio < arguments[0]) found.add(`${it.tagName}.${it.getAttribute('class')} “${it.textContent.slice(0, 20)}”: ${ratio.toFixed(2)}`);
}
return [...found];
"""


def sized(it, wide, high):
    """Makes what is looked at so large."""
    it.do("goog/cdp/execute", cmd="Emulation.setDeviceMetricsOverride", params={"width": wide, "height": high, "deviceScaleFactor": 1, "mobile": False})


def at_sizes(it, sizes=SIZES, **words):
    """Opens a page at each size, and goes back to the usual one."""
    for wide, high in sizes:
        sized(it, wide, high)
        opened(it, address(**words))
        yield wide, high
    sized(it, WIDE, HIGH)


def widths(it, _):
    """At no width anything passes the edge, and in drawings no text lies over another or is small."""
    for run in RUNS:
        for wide, _ in at_sizes(it, run=run):
            for place in range(0, it.run(DEPTH) + 1, STRIDE):
                it.run(SHOW, place)
                yield from (f"{run} at step {place}, {wide} wide: {fault}" for fault in it.run(FAULTS, LEAST_PRINT))
    for words in ({"run": "weights", "step": 50, "beside": 1}, {"run": "three-weights", "step": 52, "print": "large"},
                  {"script": "attach 0 0 4\nread 0 1 5 1\nread 0 1 9 1\n", "options": f"--first-vtime {2**60 + 1}"}):
        for wide, _ in at_sizes(it, **words):
            yield from (f"{words}, {wide} wide: {fault}" for fault in it.run(FAULTS, LEAST_PRINT))
    for wide, _ in at_sizes(it, run="weights"):
        yield from (f"{panel} is open, {wide} wide: it goes {it.run(OPEN, panel)}" for panel in ("options", "about") if it.run(OPEN, panel))


def one_column(it, _):
    """In one column the reason and the buttons are seen together, the buttons stay, and the reason has no bar of its own."""
    spots = """const [told, controls] = ['told', 'controls'].map((id) => document.getElementById(id).getBoundingClientRect());
               return [told.top, told.bottom, controls.top, controls.bottom, innerHeight]"""
    for wide, _ in at_sizes(it, run="weights", step=61):
        if wide > ONE_COLUMN:
            continue
        above, below, top, bottom, high = it.run(spots)
        if not 0 <= above < below < top < bottom <= high:
            yield f"{wide} wide: the step is told from {above} to {below}, and the buttons are from {top} to {bottom}, of {high}"
        it.run("scrollTo(0, document.documentElement.scrollHeight)")
        top, bottom = it.run(spots)[2:4]
        if not 0 < top < bottom <= high:
            yield f"{wide} wide: at the end of the page the buttons are from {top} to {bottom}, of {high}"
        if it.run("const it = document.getElementById('reason'); return it.scrollHeight > it.clientHeight + 1 || getComputedStyle(it).overflowY !== 'visible'"):
            yield f"{wide} wide: the reason scrolls by itself"


# So many clients do not have room beside each other, and each has two requests that do not become one.
SEATS, APART = 12, 80


def in_sight(it, _):
    """The client in service is in sight, of more than have room."""
    lines = [f"attach {seat} 0 4" for seat in range(SEATS)]
    lines += [f"read {seat} {seat + 1} {APART * seat + at} 8" for seat in range(SEATS) for at in (0, APART // 2)]
    lines += [f"{line} {len(lines) + 1 + 2 * at}" if line == "work 0" else line for at in range(2 * SEATS) for line in ("dispatch", "work 0")]
    opened(it, address(script="".join(f"{line}\n" for line in lines), step=0))
    served = set()
    for place in range(it.run(DEPTH) + 1):
        it.run(SHOW, place)
        found = it.run("""const panel = document.getElementById('clients').getBoundingClientRect(), card = document.querySelector('#clients [aria-current]');
                          if (!card) return null;
                          const box = card.getBoundingClientRect();
                          return [card.querySelector('h3').textContent, box.top >= panel.top - 1 && box.bottom <= panel.bottom + 1]""")
        served |= {found[0]} if found else set()
        if found and not found[1]:
            yield f"at step {place} {found[0]!r} is not in sight"
    if len(served) != SEATS or not all("in service" in it for it in served):
        yield f"in service were {sorted(served)}"


# What no student reads as a number: a time as it is in memory, and a part of a power.
RAW = re.compile(r"\(\d{3,}\)|\d/2\^")
# The reason and the groups as a text, and apart from it why times have seven places.
TOLD = """
const note = document.querySelector('#groups .alike')?.textContent ?? '', of = (id) => document.getElementById(id).textContent;
return [`${of('reason')} ${of('groups').replace(note, '')}`, note];
"""
MEMBER = re.compile(r"(may start|S past V), S ([\d.]+), F")


def equal_times(it, _):
    """The times that are shown tell who may start, also where three places do not; and there is no raw number."""
    noted = set()
    for run in ("three-weights", "weights"):
        opened(it, address(run=run, step=0))
        # Each choice of both is at an even step.
        for place in range(0, it.run(DEPTH) + 1, 2):
            it.run(SHOW, place)
            for label in it.run("return [...document.querySelectorAll('#groups svg.axis')].map((it) => it.getAttribute('aria-label'))"):
                vtime = float(re.search(r": V ([\d.]+);", label)[1])
                yield from (f"{run} at {place}: {label}" for word, start in MEMBER.findall(label) if (float(start) <= vtime) != (word == "may start"))
            told, note = it.run(TOLD)
            if raw := RAW.search(told):
                yield f"{run} at {place}: {raw[0]} in {told[max(0, raw.start() - 60):raw.end()]!r}"
            if bool(note) != bool(re.search(r"\d\.\d{7}", told)):
                yield f"{run} at {place}: to times in {told!r} it is told {note!r}"
            if note:
                noted.add((run, place))
    if ("three-weights", 70) not in noted or ("three-weights", 0) in noted:
        yield f"why times have seven places is told at {sorted(noted)}"


def left_by_escape(it, _):
    """Escape closes a panel, and the editor with its text kept."""
    script = (TOP / "examples" / "timeout.script").read_text()
    opened(it, address(run="timeout"))
    for panel in ("options", "about"):
        it.run("document.getElementById(arguments[0]).open = true", panel)
        it.press("escape")
        if it.run("return document.getElementById(arguments[0]).open", panel):
            yield f"{panel} is open after Escape"
        if it.run(FOCUS) != panel:
            yield f"after {panel} the focus is at {it.run(FOCUS)!r}"
    text = "return document.getElementById('text').value"
    it.press("e", *"tick")
    written = it.run(text)
    it.press("escape")
    if it.run(IS_SEEN, "text") or it.run(TEXT, "edit") != "your text, not run yet":
        yield f"after Escape the editor is {'open' if it.run(IS_SEEN, 'text') else 'closed'}, and its button says {it.run(TEXT, 'edit')!r}"
    it.run(CHOOSE, "merges")
    it.press("e")
    if it.run(text) != written or "tick" not in written:
        yield f"of {written!r} Escape leaves {it.run(text)!r}"
    it.run(CHOOSE, "timeout")
    it.run(PRESS_BUTTON, "drop")
    it.press("e")
    if it.run(text) != script or it.run(TEXT, "edit") != "edit the script":
        yield f"the script is not taken back: {it.run(text)!r}"
    it.run("document.getElementById('text').value = 'attach 0 0 4\\n'")
    it.run(PRESS_BUTTON, "run-text")
    if it.run(TEXT, "told") != "Step 1 of 1, line 1: attach 0 0 4 \u2192 attached 1" or it.run(TEXT, "edit") != "edit the script":
        yield f"a text that runs is told as {it.run(TEXT, 'told')!r}, {it.run(TEXT, 'edit')!r}"


def large_print(it, _):
    """In large print the script and whether undo is exact are seen, a line can be typed, and the script edited."""
    opened(it, address(run="three-weights", step=52, print="large"))
    yield from (f"{part} is not seen" for part in ("rows", "exact", "told", "typed") if not it.run(IS_SEEN, part))
    if "\u2713" not in it.run(TEXT, "exact"):
        yield f"it tells {it.run(TEXT, 'exact')!r}"
    it.press("t", *"line", "enter")
    if it.run(FOCUS) != "typed" or not it.run(TEXT, "typed-answer").startswith("line \u2192 line 52 "):
        yield f"typed at {it.run(FOCUS)!r}, and the answer is {it.run(TEXT, 'typed-answer')!r}"
    it.press("escape", "e")
    if it.run(FOCUS) != "text" or not it.run(IS_SEEN, "text"):
        yield "the script cannot be edited"


def held(it, _):
    """Of a host that the script leaves held it is told that it is, and that a dispatch waits; of one that is held for a look alone it is not."""
    opened(it, address(script="attach 0 0 4\nread 0 1 5 1\nhold\n"))
    waits = "The host is held, so a dispatch now waits: notyet 41 (Held). Once it is released, a dispatch"
    for pressed, wanted in (("end", f"{waits} sends fetch 5+1 of seat 0: "), ("left", f"{waits}: refused 17 (NothingQueued), as ")):
        it.press(pressed)
        if not it.run(TEXT, "next").startswith(wanted) or not it.run(HOST).startswith("held; no queue in service"):
            yield f"of a held host after {pressed} it is told {it.run(TEXT, 'next')!r}, {it.run(HOST)!r}"
    # Here the answer is what was told.
    it.press("end", "t", *"dispatch", "enter")
    if "dispatch \u2192 notyet 41 (Held)" not in it.run(TEXT, "typed-answer"):
        yield f"a dispatch is answered {it.run(TEXT, 'typed-answer')!r}"
    it.press(*"release", "enter")
    for pressed, wanted in (("escape", "A dispatch now would send fetch 5+1 of seat 0: "), ("left", "A dispatch now: refused 17 (NothingQueued), as ")):
        it.press(pressed)
        if not it.run(TEXT, "next").startswith(wanted) or "held" in it.run(HOST):
            yield f"of a released host after {pressed} it is told {it.run(TEXT, 'next')!r}, {it.run(HOST)!r}"


def options_told(it, _):
    """Beside the script the options stand with which it runs, also while it is edited, and those that a script of one's own has from the run before."""
    opened(it, address(run="timeout"))
    told = ["with --timeout 1"]
    it.press("e")
    told.append(it.run(TEXT, "dials-told") if it.run(IS_SEEN, "dials-told") else None)
    it.run("document.getElementById('text').value = 'attach 0 0 4\\n'")
    it.run(PRESS_BUTTON, "run-text")
    told.append(it.run(TEXT, "dials-told"))
    it.run("let it = document.getElementById('timeout'); it.value = '1000'; it.dispatchEvent(new Event('change', {bubbles: true}))")
    it.run("let it = document.getElementById('scheduler'); it.value = 'none'; it.dispatchEvent(new Event('change', {bubbles: true}))")
    told.append(it.run(TEXT, "dials-told"))
    opened(it, address(script="attach 0 0 4\n"))
    told.append(it.run(TEXT, "dials-told"))
    if told != ["with --timeout 1", "with --timeout 1", "with --timeout 1", "with --scheduler none --timeout 1000", "with the usual options"]:
        yield f"the options are told as {told}"


OWN = """return [view.text, wordsOf(view.dials).join(' '), document.getElementById('run').selectedOptions[0].textContent,
  [...document.querySelectorAll('#run > option')].map((it) => it.value)]"""


def own_scripts(it, _):
    """A script of one's own comes back from the menu as it ran last, also behind another one that began with a run of the menu."""
    first = "attach 0 0 4\nread 0 1 5 1\n"
    opened(it, address(script=first, options="--tags 2"))
    it.press("t", *"dispatch", "enter")
    own = [f"{first}dispatch\n", "--tags 2", "a script of your own", ["own/1"]]
    if it.run(OWN) != own:
        yield f"a script that was typed is {it.run(OWN)}"
    it.run(CHOOSE, "timeout")
    it.press("end", "t", *"line", "enter")
    timeout = (TOP / "examples" / "timeout.script").read_text()
    other = [f"{timeout}line\n", "--timeout 1", "a script of your own, 2", ["own/1", "own/2"]]
    if it.run(OWN) != other:
        yield f"another script that was typed is {it.run(OWN)}"
    for value, wanted in (("own/1", own), ("own/2", other), ("own/1", own)):
        it.run(CHOOSE, "merges")
        it.run(CHOOSE, value)
        if it.run(OWN) != [*wanted[:3], other[3]]:
            yield f"{value} comes back from the menu as {it.run(OWN)}"


# How the browser prints a page, and what begins one in what it makes.
PRINTED = {"preferCSSPageSize": True, "printBackground": False}
PAGE_BEGINS = re.compile(rb"/Type /Page\b")


def slides(it, _):
    """What is shown is printed on one page, whatever the window, and in dark letters."""
    dark = {"run": "three-weights", "step": 52, "look": "dark"}
    for words in (dark, {**dark, "print": "large"}, {"run": "weights", "step": 50, "beside": 1}, {"run": "weights", "step": 50, "beside": 1, "print": "large"}):
        for wide, _ in at_sizes(it, (SIZES[0], SIZES[-1]), **words):
            count = len(PAGE_BEGINS.findall(base64.b64decode(it.do("goog/cdp/execute", cmd="Page.printToPDF", params=PRINTED)["data"])))
            if count != 1:
                yield f"{words}, {wide} wide: {count} pages"
    opened(it, address(**dark))
    it.do("goog/cdp/execute", cmd="Emulation.setEmulatedMedia", params={"media": "print"})
    yield from (f"in print: {dim}" for dim in it.run(DIM, LEAST_CONTRAST))
    if (paper := it.run("return getComputedStyle(document.body).backgroundColor")) != "rgb(255, 255, 255)":
        yield f"in print the paper is {paper}"
    it.do("goog/cdp/execute", cmd="Emulation.setEmulatedMedia", params={"media": ""})


def contrast(it, _):
    """All texts stand out from what is behind them, in light and dark, and in large print."""
    for words in ({"run": "weights", "step": 40, "look": "light"}, {"run": "weights", "step": 40, "look": "dark"}, {"run": "classes", "look": "light"},
                  {"run": "three-weights", "step": 70, "look": "dark", "print": "large"}, {"script": "attach 0 0 4\ntock\ntick\n", "look": "light"},
                  {"script": "attach 0 0 4\ntock\ntick\n", "look": "dark"}):
        opened(it, address(**words))
        yield from (f"{words}: {dim}" for dim in it.run(DIM, LEAST_CONTRAST))


# A script with three futures, of which two were dropped from the same step on.
FUTURES = "attach 0 0 4\nread 0 1 5 1\nread 0 1 9 1\nhold\nundo 1\nrelease\nread 0 1 13 1\nhold\nundo 1\nrelease\nread 0 1 17 1\nread 0 1 25 1\n"


def futures_by_name(it, _):
    """Each future has a name of its own, `b` lays one after the other beside and then none, and a struck line says why it is struck."""
    opened(it, address(script=FUTURES))
    names = it.run("return [...document.getElementById('future').options].map((it) => it.textContent)")
    wanted = ["1: step 3 dropped by line 7, read 0 1 13 1", "2: step 3 dropped by line 11, read 0 1 17 1", "3: the one that stands, 4 steps"]
    if names != wanted:
        yield f"the futures are {names}"
    seen = []
    for _ in range(3):
        it.press("b")
        seen.append(it.run("const it = document.getElementById('beside'); return [it.value, it.selectedOptions[0].textContent]"))
    if seen != [["0", wanted[0]], ["1", wanted[1]], ["", "none"]]:
        yield f"`b` lays beside {seen}"
    if it.run("return [...document.getElementById('beside').options].filter((it) => it.disabled).map((it) => it.value)") != ["2"]:
        yield "the future that is shown can be laid beside itself"
    struck = it.run("return [...document.querySelectorAll('#rows .elsewhere')].map((it) => [it.dataset.row, it.title])")
    if struck != [["2", "a step of future 1, which was dropped"], ["6", "a step of future 2, which was dropped"]]:
        yield f"struck are {struck}"
    if "Struck through: a step of another future" not in it.run(TEXT, "rows-legend"):
        yield f"the lines are explained by {it.run(TEXT, 'rows-legend')!r}"
    it.run("document.querySelector('#rows .elsewhere').click()")
    if it.run("return document.getElementById('future').value") != "0" or it.run(STEP) != "3":
        yield "a click at a struck line does not lead to its future"
    if it.run("return document.querySelector('#rows [aria-current] .step').textContent") != "step 3":
        yield "a line does not tell its step"


def answers_of_now(it, _):
    """What is told of a typed line goes when one goes elsewhere; and a host that was undone by typing is not told to be at its end."""
    opened(it, address(run="three-weights", step=99))
    it.press("t", *"Tick", "enter", "escape", "left")
    if it.run(TEXT, "typed-answer"):
        yield f"at another step {it.run(TEXT, 'typed-answer')!r} still stands"
    it.press("right", "t", *"hold", "enter", *"undo 2", "enter")
    told = it.run(TEXT, "exact")
    if not told.startswith("The script itself leaves the machine here: 97 of 99 steps stand, and the others are undone. \u2713") or it.run(STEP) != "97":
        yield f"after `hold` and `undo 2` it tells {told!r}, at step {it.run(STEP)}"
    it.press(*"redo 2", "enter")
    if not it.run(TEXT, "exact").startswith("The end of this run. \u2713"):
        yield f"after `redo 2` it tells {it.run(TEXT, 'exact')!r}"


def menu_in_page(it, _):
    """In the menu what a page cannot run is there and cannot be chosen, and what it runs can."""
    opened(it, address())
    found = it.run("return [...document.querySelectorAll('#run optgroup option')].map((it) => [it.textContent, it.disabled])")
    rows = json.loads(it.run(TEXT, "menu-scripts"))
    if found != [[row["label"], "text" not in row] for row in rows] or len({label for label, _ in found}) != len(found):
        yield f"the menu is {found}"
    opened(it, address(run="no such run"))
    if it.run(TEXT, "fault-of-options") != "There is no run \u201cno such run\u201d here. Shown is three-weights.":
        yield f"another name is told as {it.run(TEXT, 'fault-of-options')!r}"
    it.run(CHOOSE, "merges")
    if it.run(IS_SEEN, "fault-of-options"):
        yield "the word on a name stays when another one is chosen"
    # As who chose it by a key, with the focus in the menu.
    it.run("document.getElementById('run').focus()")
    it.run(CHOOSE, "timeout")
    for pressed, change in (("left", -1), ("right", 1), ("down", 0)):
        step = int(it.run(STEP))
        it.press(pressed)
        name, now = it.run("return document.getElementById('run').value"), int(it.run(STEP))
        if (name, now) != ("timeout", step + change):
            yield f"behind a choice in the menu {pressed} leads from step {step} to {now} of {name}"


LAYOUT = {"widths": widths, "one column": one_column, "who is in service is in sight": in_sight, "equal times": equal_times, "Escape": left_by_escape,
          "large print": large_print, "slides": slides, "contrast": contrast, "names of futures": futures_by_name, "answers of now": answers_of_now,
          "menu": menu_in_page, "scripts of one's own": own_scripts, "held": held,
          "options are told": options_told}
