"""A host that is stepped through: what is typed to look at it, to go back and forth, and to go on.

Each line that is asked is told with its answer. What was asked is kept, so that it can be saved as a script. Before a step is asked that
would take the place of undone steps this is told, as they cannot be had back.
"""

import errno
import os
import sys
import textwrap

import grammar
import payload
from host import answers_to, moved, on_line, way_to
from reasons import Looks, lines_of
from sentences import Sentences
from shown import COLUMNS, INDENT, picture
from ways import NotMoved, moment_of, while_held

QUIT = "q"
SAVE = "save "
SEARCHES = {"until", "since"}
FORMS = [*(form.split() for form in ("s", "b", "b K", "f", "f K", "to SERIAL", "steps", "help", "save FILE", QUIT)),
         *([word, *form] for word in sorted(SEARCHES) for form in grammar.MOMENTS), *grammar.FORMS]
HELP = f"""\
s           the picture          b [K]  f [K]  back and forth, one step or K
to SERIAL   to this step         steps         the steps of the line
until MOMENT, since MOMENT       forth, or back, to the step by which it comes:
            stored sector NUMBER, issued seat SEAT, serial SERIAL, LOOK = TEXT
work last, requeue last, finish last stored (and the like): what was issued last
save FILE   what was asked, as a script
help        this                 {QUIT}             the end
Lines of a script, where CLASS is rt, be or idle:"""

# Words before the tag and the issue of a request in flight, and what stands for those of the last `issued`.
OF_FLIGHT = {"work", "requeue", "finish"}
LAST = "last"
# A step that is accepted changes the machine, and so do these.
MOVES = {"undo", "redo"}
GREEN, BOLD, PLAIN = "\033[32m", "\033[1m", "\033[0m"


def named(answer):
    """An answer, where a refusal has its name beside its number."""
    if not grammar.is_refusal(answer):
        return answer
    return f"{answer} {grammar.NAMES.get(int(answer.split(' ')[1]), 'of no name')}"


def has_colours():
    """Whether the output is a terminal that has colours, and nobody wants it without."""
    return sys.stdout.isatty() and os.environ.get("TERM", "dumb") != "dumb" and not os.environ.get("NO_COLOR")


def painted(line, is_changed, is_serving):
    """A line of a picture in its colour."""
    look = (BOLD if is_changed else "") + (GREEN if is_serving else "")
    return f"{look}{line}{PLAIN}" if look and has_colours() else line


def tell_why(asked):
    """Tells why a dispatch did what it did. A refusal says so itself."""
    rows = [row for row in lines_of(asked) if asked.faults or not grammar.is_refusal(asked.answer)]
    print("".join(f"{row}\n" for row in rows), end="")


def is_in_service(line):
    """Whether a line of the picture is of what is in service."""
    return line.startswith("in service: seat") or " serving " in line


def why_bad(line):
    """Why a line is none that may be typed; None if it is one."""
    word, _, rest = line.partition(" ")
    # A name of a file may have any bytes.
    if line.startswith(SAVE) and rest:
        return None
    if word in SEARCHES and grammar.EQUALS in rest:
        return grammar.why_no_moment(rest)
    return grammar.why_bad(line, FORMS)


class Asker:
    """Asks a host, keeps each line that was asked, and knows how many undone steps are left."""

    def __init__(self, host, reasons):
        self.host = host
        self.reasons = reasons
        self.lines = []
        # Undone steps that would be dropped by another step; and whether that is told before a line is asked.
        self.undone = 0
        self.warns = True

    def ask(self, line):
        """Asks a line of a script. If it may drop undone steps, that is told first."""
        if self.warns and (text := self.warning(line)):
            print(text)
        asked = self.reasons.ask(line)
        self.note(line, asked.answer)
        return asked

    def look(self):
        """Looks how many undone steps there are, of a host that has gone some way."""
        cursor, length = on_line(self.host)
        self.undone = length - cursor

    def warning(self, line):
        """What is told before a line that drops undone steps, if it is accepted; None if it can drop none."""
        if not self.undone or not grammar.is_step(line):
            return None
        _, _, _, hold, _, cursor, length, *_ = self.host.ask("show host").split(" ")
        if hold == "held" or cursor == length:
            return None
        return f"warning: if this is accepted {self.dropped(int(cursor), int(length))}"

    def dropped(self, cursor, length):
        """What is said of the undone steps behind a place, which another step would drop."""
        first, last = (answer.split(" ")[2] for answer in self.host.ask_all([f"show step {cursor + 1}", f"show step {length}"]))
        count = length - cursor
        return f"{count} undone steps are dropped, serials {first} to {last}" if count > 1 else f"1 undone step is dropped, serial {first}"

    def note(self, line, answer):
        """Keeps a line that was asked, and what came of it."""
        self.lines.append(line)
        word, *rest = answer.split(" ")
        if word == "moved":
            self.undone = int(rest[1]) - int(rest[0])
        elif grammar.is_step(line) and not grammar.is_refusal(answer):
            self.undone = 0

    def move(self, line):
        """Goes back or forth. Gives whether it was done, and all that was asked for it with the answers."""
        is_done, asked = moved(self.host, line)
        for each, answer in asked:
            self.note(each, answer)
        return is_done, asked


class Stepper:
    """What is typed, and what comes of it."""

    def __init__(self, host, asker, narrow, options=()):
        self.host = host
        self.looks = Looks(host)
        self.asker = asker
        # What makes narrow pictures, or None.
        self.narrow = narrow
        self.options = options
        self.payload_size = payload.size_of(options)
        self.sentences = Sentences(host.program)
        # The tag and the issue of the last `issued`.
        self.last = None
        self.own = {"s": self.show, "b": self.back, "f": self.forth, "to": self.go, "steps": self.steps, "help": self.help}

    def take(self, typed):
        """Does what a line asks for. Gives why it is a bad one, or None."""
        line = self.with_last(typed)
        if line is None:
            print(f"there is no `{LAST}`: nothing was issued")
            return None
        if why := self.why_bad(line):
            return why
        word, *places = line.split(" ")
        if line.startswith(SAVE):
            return self.save(line.removeprefix(SAVE))
        if word in SEARCHES:
            self.search(word, line.removeprefix(f"{word} "))
        elif word in self.own:
            self.own[word](*places)
        elif not grammar.is_silent(line):
            self.ask(line, typed)
        return None

    def warning(self, typed):
        """What is told before a line is taken that may drop undone steps; None of any other line."""
        line = self.with_last(typed)
        # A word of the stepper's own asks for no step.
        is_own = typed.split(" ")[0] in {*self.own, *SEARCHES, QUIT} or typed.startswith(SAVE)
        return None if line is None or is_own or self.why_bad(line) else self.asker.warning(line)

    def why_bad(self, line):
        """Why a line is none that may be typed; None if it is one."""
        return why_bad(line) or payload.why_no_bytes(line, self.payload_size)

    def ask(self, line, typed):
        """Asks a line of a script, and shows the machine after a step or a way."""
        asked = self.asker.ask(line)
        answer = asked.answer
        self.tell(named(answer) if line == typed else f"{line} -> {named(answer)}", answer)
        tell_why(asked)
        self.note(line, answer)
        if (line.split(" ")[0] in MOVES or grammar.is_step(line)) and not grammar.is_refusal(answer):
            self.show()

    def tell(self, text, answer):
        """Tells an answer, and to a person at a terminal what a refusal says."""
        print(text)
        self.sentences.tell(answer)

    def with_last(self, line):
        """A line with the tag and the issue that `last` stands for. None where it stands for none."""
        word, *places = line.split(" ")
        if word not in OF_FLIGHT or places[:1] != [LAST]:
            return line
        return self.last and " ".join([word, *self.last, *places[1:]])

    def note(self, line, answer):
        """Keeps which request was issued last."""
        if line == "dispatch" and not grammar.is_refusal(answer):
            self.last = answer.split(" ")[1:3]

    def picture(self):
        """The lines of the picture, each with whether it has changed and whether it is of what is in service."""
        return self.narrow.picture() if self.narrow else [(line, False, is_in_service(line)) for line in picture(self.looks)]

    def show(self):
        """The picture, and an empty line."""
        self.show_lines(self.picture())

    def show_lines(self, lines):
        print(*(painted(*line) for line in lines), "", sep="\n")

    def back(self, k="1"):
        """Steps are undone; all that stand, if more are asked for."""
        cursor, _ = on_line(self.host)
        self.move(f"undo {min(int(k), cursor) if cursor else k}")

    def forth(self, k="1"):
        """Undone steps stand again; all of them, if more are asked for."""
        cursor, length = on_line(self.host)
        self.move(f"redo {min(int(k), length - cursor) if cursor < length else k}")

    def go(self, serial):
        """The step with this serial is the last that stands."""
        way = way_to(self.host, int(serial))
        if way is None:
            print(f"no step of the line has serial {serial}")
        elif not way:
            print(f"the step with serial {serial} is the last that stands")
        else:
            self.move(way)

    def move(self, line):
        """Goes back or forth, and tells all that is asked for it."""
        is_done, asked = self.asker.move(line)
        for each, answer in asked:
            self.tell(f"{each} -> {named(answer)}", answer)
        if is_done:
            self.show()

    def search(self, word, text):
        """Goes forth, or back, to the step by which a moment comes. If none brings it the host stands where it stood."""
        moment, is_back = moment_of(text), word == "since"
        try:
            # The last step that stands is the one that is seen.
            found = while_held(self.host, lambda line: line.behind(moment, False) if is_back else line.ahead(moment), self.keep)
        except NotMoved:
            # It was told, and the machine may stand in between.
            self.show()
            return
        if found is None:
            print(f"{'no step before this one' if is_back else 'no undone step'} brings it: {text}")
        else:
            print(f"step {found.place}, serial {found.serial}: {found.line}")
            self.show()

    def keep(self, line, answer):
        """Keeps a line that moved the host, and tells one that was refused."""
        self.asker.note(line, answer)
        if grammar.is_refusal(answer):
            self.tell(f"{line} -> {named(answer)}", answer)

    def steps(self):
        """The line, with the cursor in it."""
        cursor, length = on_line(self.host)
        width = len(str(length))
        cursor_row = f"{'-' * width} cursor: {cursor} of {length} steps stand"
        if cursor == 0:
            print(cursor_row)
        for answer in self.host.ask_each(f"show step {place}" for place in range(1, length + 1)):
            _, place, serial, step = answer.split(" ", 3)
            print(f"{place:>{width}} serial {serial}: {step}")
            if int(place) == cursor:
                print(cursor_row)

    def save(self, path):
        """Writes what was asked as a script, into a new file. Gives why it is not written, or None."""
        options = f"# The options: {' '.join(self.options)}"
        lines = [options] * bool(self.options and grammar.why_bad(options) is None) + self.asker.lines
        try:
            with open(path, "x", encoding="ascii", errors="surrogateescape") as file:
                file.write("".join(f"{line}\n" for line in lines))
        except (OSError, ValueError) as fault:
            return f"{path}: {os.strerror(errno.EINVAL) if isinstance(fault, ValueError) else fault.strerror}"
        print(f"{path}: {len(self.asker.lines)} lines")
        return None

    def help(self):
        """What may be typed."""
        print(HELP)
        # A line of the grammar is not broken.
        forms = ", ".join("\0".join(form) for form in grammar.FORMS)
        print(textwrap.fill(forms, COLUMNS, initial_indent=INDENT, subsequent_indent=INDENT).replace("\0", " "))

    def run(self, script):
        """Asks the lines of a script, and tells each with its answer."""
        for line, asked in answers_to(script, self.asker):
            self.tell(f"{line} -> {named(asked.answer)}", asked.answer)
            tell_why(asked)
            self.note(line, asked.answer)
