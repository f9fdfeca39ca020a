"""Whether each wrong body still fits the code: a file of code that was changed may lack the text that an edit takes out of it."""

import planted
from checkout import CRATES, crate_lines, definitions_below, texts_of
from twins import read_edit


def edits():
    """The name of each crate with wrong bodies, and what is wrong with those that do not fit; and with those that tests alone refuse."""
    for name in (lines := crate_lines()):
        faults, texts = [], texts_of(name) | definitions_below(name, lines)
        paths = sorted((CRATES / name / "wrong").glob("*.edit"))
        for path in paths:
            try:
                read_edit(path.stem, path.read_text(), texts)
            except ValueError as why:
                faults.append(f"{path.stem}: {why}")
        if paths:
            yield f"{name}/wrong", faults
    yield "tests/wrong", [*planted.fitting()]
