"""What a person at a terminal is told of a refusal: its number, its name and its sentence, as the help of the program has them."""

import re
import subprocess
import sys

import grammar
from host import SECONDS, tell


class Sentences:
    """The sentences of a program, and which were told. Each is told once, and none if standard error is no terminal."""

    def __init__(self, program):
        self.program = program
        self.is_wanted = sys.stderr is not None and sys.stderr.isatty()
        # By number; they are asked for when the first one is told.
        self.rows = None
        self.told = set()

    def tell(self, *answers):
        """Tells those of answers that are refusals. A name stands alone if the program's help has none for it."""
        for answer in answers if self.is_wanted else []:
            if grammar.is_refusal(answer) and answer not in self.told:
                self.told.add(answer)
                number = answer.split(" ")[1]
                if self.rows is None:
                    self.rows = self.asked()
                sys.stdout.flush()
                tell(self.rows.get(number) or f"{number} {grammar.NAMES.get(int(number), 'a number with no name here')}")

    def asked(self):
        """The rows of the help on refusals and causes, as `28 NotHeld: ..`."""
        try:
            ran = subprocess.run([self.program, "--help"], stdin=subprocess.DEVNULL, stdout=subprocess.PIPE, stderr=subprocess.DEVNULL,
                                 timeout=SECONDS, check=False)
        except (OSError, subprocess.SubprocessError):
            return {}
        return {row.split(" ")[0]: row for row in re.findall(r"(?m)^ +(\d+ \w+: .*)$", ran.stdout.decode(errors="replace"))}
