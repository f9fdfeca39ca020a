"""The picture of a comparison, in SVG, which needs no library: what each client was sent by two runs, and a bar for each number of a table.

A client has a colour. What the first run did is a line and a full bar, what the second did a line of dashes and a pale bar.
"""

import collections
import html

# A client: its name, the corners of its line in each run, each as all sectors that were sent and its own, and its rows of the table.
Drawn = collections.namedtuple("Drawn", "name lines rows")
# Where the runs part: how many sectors were sent before, a word for it, and the lines that say why.
Parting = collections.namedtuple("Parting", "sectors name reasons")

WIDTH, MARGIN = 920, 20
# The service: where its frame begins, and how wide and how high it is.
LEFT, TOP, ACROSS, DOWN = 80, 70, 800, 320
# The bars: how much of a row is their client's name, how wide a column is, and of it the longest bar; the rest is for its number.
NAMES, COLUMN, LONGEST = 260, 210, 130
BAR, BETWEEN = 12, 6
# What is between the frame and the bars: its numbers, and the heads of the columns.
HEADS = 75
LETTER = 7
# How many numbers stand beside the frame at least.
STEPS = 5
# Colours that are told apart side by side, as tools/plot has them.
COLORS = ["#1f77b4", "#ff7f0e", "#2ca02c", "#d62728", "#9467bd", "#8c564b", "#e377c2", "#7f7f7f", "#bcbd22", "#17becf"]
# How the two runs look: a line, and a bar.
OF_LINES, OF_BARS = ({}, {"stroke_dasharray": "6 3"}), ({}, {"fill_opacity": 0.4})


def shown(text):
    """A text as XML has it. What is no character that is seen, as a byte of no letter, is told by its number."""
    return html.escape("".join(it if it.isprintable() else ascii(it)[1:-1] for it in text))


def cut(text, width):
    """A text that has room in so many pixels."""
    most = width // LETTER
    return text if len(text) <= most else f"{text[:most - 2]}.."


def element(kind, inner="", **words):
    """An element with its attributes, which have a hyphen for each `_`."""
    values = {name.replace("_", "-"): f"{value:.2f}" if isinstance(value, float) else shown(str(value)) for name, value in words.items()}
    given = "".join(f' {name}="{value}"' for name, value in values.items())
    return f"<{kind}{given}>{inner}</{kind}>\n"


def text(words, x, y, **more):
    """A text at a place."""
    return element("text", shown(words), x=float(x), y=float(y), **more)


def color_of(seat):
    return COLORS[seat % len(COLORS)]


def title_of(names):
    """What the two runs are, each with how it looks."""
    for at, (name, words) in enumerate(names.items()):
        y = float(MARGIN + 20 * at)
        yield element("line", x1=float(MARGIN), y1=y, x2=float(MARGIN + 40), y2=y, stroke="black", stroke_width=2, **OF_LINES[at])
        yield element("rect", x=float(MARGIN + 45), y=y - BAR / 2, width=float(BAR), height=float(BAR), **OF_BARS[at])
        yield text(cut(f"{name}: {words}", WIDTH - 2 * MARGIN - 65), MARGIN + 65, y + 4)


def steps(most):
    """Round numbers from 0 to at most this one, 5 to 12 of them above 0 if it is not less than 5."""
    step = max((digit * 10**zeros for zeros in range(len(str(most))) for digit in (1, 2, 5) if STEPS * digit * 10**zeros <= most), default=1)
    return range(0, most + 1, step)


def frame(whole, most):
    """The frame of the service, with numbers beside it."""
    yield element("rect", x=float(LEFT), y=float(TOP), width=float(ACROSS), height=float(DOWN), fill="none", stroke="black")
    for number in steps(whole):
        yield text(str(number), LEFT + ACROSS * number / whole, TOP + DOWN + 15, text_anchor="middle")
    for number in steps(most):
        yield text(str(number), LEFT - 5, TOP + DOWN * (1 - number / most) + 4, text_anchor="end")
    yield text("all sectors that were sent", LEFT + ACROSS / 2, TOP + DOWN + 32, text_anchor="middle")
    yield text("sectors of each client", LEFT, TOP - 6)


def service(clients, parting):
    """The lines of the clients, and where the two runs part."""
    ends = [line[-1] for client in clients for line in client.lines.values()]
    # Nothing may have been sent.
    whole, most = (max([1, *column]) for column in zip((0, 0), *ends))
    yield from frame(whole, most)
    for seat, client in enumerate(clients):
        for at, (name, line) in enumerate(client.lines.items()):
            points = " ".join(f"{LEFT + ACROSS * x / whole:.2f},{TOP + DOWN * (1 - y / most):.2f}" for x, y in line)
            yield element("polyline", element("title", shown(f"{name}: {client.name}")), id=f"line-{name}-{seat}", points=points,
                          fill="none", stroke=color_of(seat), stroke_width=1.5, **OF_LINES[at])
    if parting:
        x = LEFT + ACROSS * parting.sectors / whole
        yield element("line", element("title", "\n".join(map(shown, parting.reasons))), id="parting", x1=x, x2=x,
                      y1=float(TOP), y2=float(TOP + DOWN), stroke="black", stroke_dasharray="2 2")
        is_late = x > LEFT + ACROSS / 2
        yield text(parting.name, x - 4 if is_late else x + 4, TOP + 14, text_anchor="end" if is_late else "start")


def bars(clients, heads, top):
    """The table: a row of each client by each run, and a bar for each of its numbers."""
    for place, head in enumerate(heads):
        left = NAMES + COLUMN * place
        yield text(head, left, top - 8, font_weight="bold")
        most = max((abs(row[place]) for client in clients for row in client.rows.values() if row[place]), default=1)
        for seat, client in enumerate(clients):
            for at, (name, row) in enumerate(client.rows.items()):
                y = float(top + seat * (2 * BAR + BETWEEN) + at * BAR)
                length = LONGEST * abs(row[place] or 0) / most
                yield element("rect", id=f"bar-{name}-{seat}-{place}", x=float(left), y=y, width=float(length), height=float(BAR),
                              fill=color_of(seat), **OF_BARS[at])
                yield text(told(row[place]), left + length + 4, y + BAR - 2, id=f"told-{name}-{seat}-{place}")
    for seat, client in enumerate(clients):
        name = text(cut(client.name, NAMES - MARGIN), MARGIN, top + seat * (2 * BAR + BETWEEN) + BAR + 4, fill=color_of(seat))
        # What is cut off is told when the mouse rests on it.
        yield element("g", element("title", shown(client.name)) + name, id=f"name-{seat}")


def told(number):
    """A number of the table."""
    return "-" if number is None else f"{number:.3f}" if isinstance(number, float) else str(number)


def picture(names, clients, heads, parting):
    """The whole picture: what the two runs are by their names, the clients, the heads of their rows, and where the runs part, or None."""
    top = TOP + DOWN + HEADS
    height = top + len(clients) * (2 * BAR + BETWEEN) + MARGIN
    inner = "".join([*title_of(names), *service(clients, parting), *bars(clients, heads, top)])
    return ('<?xml version="1.0" encoding="utf-8"?>\n' + element(
        "svg", f"\n{element('rect', width='100%', height='100%', fill='white')}{inner}", xmlns="http://www.w3.org/2000/svg", width=WIDTH,
        height=height, viewBox=f"0 0 {WIDTH} {height}", font_family="sans-serif", font_size=12))
