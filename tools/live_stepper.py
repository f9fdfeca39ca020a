"""Stepping through a host that serves, while its clients and its device wait: it is held for that, and stays held."""

import grammar
from host import on_line
from live import why_no_call
from reasons import Plain
from stepper import SAVE, SEARCHES, Asker, Stepper, named
from ways import Line, NotMoved, Serial, moment_of


class LiveAsker(Asker):
    """Asks a host that serves."""

    def __init__(self, host):
        super().__init__(host, Plain(host))
        # Whether it was held here, and not released since.
        self.is_ours = False

    def warning(self, line):
        """What is told before a line by which undone steps are dropped: clients and the device go on when the host is released."""
        if why_no_call(line):
            return None
        if line == "release" or grammar.is_step(line):
            self.look()
        if line != "release" or not self.undone:
            return super().warning(line)
        return f"warning: once a client or the device goes on {self.dropped(*on_line(self.host))}"

    def note(self, line, answer):
        """Keeps a line that was asked, and what came of it."""
        super().note(line, answer)
        if line in ("hold", "release") and not grammar.is_refusal(answer):
            self.is_ours = line == "hold"

    def hold(self):
        """Holds a host that is free. Gives what was asked for it, with the answer: nothing of one that is held."""
        if self.host.is_held():
            return []
        # If an interrupt comes before the answer it may be held all the same.
        self.is_ours = True
        answer = self.host.ask("hold")
        self.is_ours = not grammar.is_refusal(answer)
        self.note("hold", answer)
        return [("hold", answer)]

    def move(self, line):
        """Goes back or forth. The host stays held."""
        asked = self.hold()
        if asked and grammar.is_refusal(asked[0][1]):
            return False, asked
        answer = self.host.ask(line)
        self.note(line, answer)
        return not grammar.is_refusal(answer), [*asked, (line, answer)]


class LiveStepper(Stepper):
    """What is typed to step through a host that serves."""

    def __init__(self, host, narrow):
        super().__init__(host, LiveAsker(host), narrow)

    def why_bad(self, line):
        """Why a line is none that may be typed; None if it is one."""
        why = super().why_bad(line)
        own = line.split(" ")[0] in self.own or line.split(" ")[0] in SEARCHES or line.startswith(SAVE)
        return why if why or own else why_no_call(line)

    def show(self):
        """The picture, and an empty line; of a host that goes on meanwhile only that."""
        lines = self.host.steady(self.picture)
        if lines is None:
            lines = [("the host goes on: `hold` shows it as it stands then", False, False)]
        self.show_lines(lines)

    def back(self, k="1"):
        """Steps are undone; all that stand, if more are asked for."""
        self.tell_all(self.asker.hold())
        super().back(k)

    def go(self, serial):
        """The step with this serial is the last that stands."""
        self.tell_all(self.asker.hold())
        super().go(serial)

    def tell_all(self, asked):
        """Tells what was asked."""
        for line, answer in asked:
            self.tell(f"{line} -> {named(answer)}", answer)

    def search(self, word, text):
        """Goes back to the last step by which a moment came; of `until` the last one of all counts, if the host was not held before."""
        held = self.asker.hold()
        self.tell_all(held)
        if held and grammar.is_refusal(held[0][1]):
            return
        moment, found = moment_of(text), None
        line = Line(self.host)
        try:
            found = line.behind(moment, word == "until" and bool(held))
            if found is None and isinstance(moment, Serial):
                found = line.ahead(moment)
        except NotMoved as fault:
            self.tell(f"{fault.line} -> {named(fault.answer)}", fault.answer)
            self.show()
            return
        finally:
            for move in line.moves:
                self.keep(move, f"moved {line.cursor} {line.length}")
        if found is not None:
            print(f"step {found.place}, serial {found.serial}: {found.line}")
            self.show()
            return
        print(f"no step brings it: {text}")
        if held:
            self.tell_all([("release", self.asker.ask("release").answer)])

    def let_go(self):
        """Releases a host that is held here, if it drops nothing."""
        if not self.asker.is_ours or not self.host.is_held():
            return
        cursor, length = on_line(self.host)
        if cursor < length:
            print(f"the host stays held, as {length - cursor} undone steps would be dropped: `release` and `redo` are the operator's")
        else:
            self.tell_all([("release", self.host.ask("release"))])
