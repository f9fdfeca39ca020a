"""What a file says of itself that `bfqhost serve --record` has written: its first line has the configuration and the number of sectors."""

from host import BadInput, told_with

# The first words of that line, and the options whose values stand behind them, each in a place of its own.
FORM = ["bfqhost", "record", "1"]
OPTIONS = ["--scheduler", "--nr-requests", "--tags", "--first-budget", "--max-budget", "--timeout", "--history", "--first-vtime",
           "--sectors"]
MOST_BYTES = 256


def with_recorded(path, options):
    """The options of sim by which a host goes on: those of its record, if it has one, and the given ones, which win."""
    return options if path is None else [*options_of(path), *options]


def options_of(path):
    """The options that a host had whose run is recorded in a file."""
    with told_with(path), open(path, "rb") as file:
        words = file.readline(MOST_BYTES + 1).decode("ascii", errors="replace").rstrip("\n").split(" ")
    if words[:len(FORM)] != FORM or len(words) != len(FORM) + len(OPTIONS):
        raise BadInput(f"{path}: no record: its first line is not that of one")
    return [word for pair in zip(OPTIONS, words[len(FORM):]) for word in pair]
