#!/usr/bin/env python3
"""Runs the tests of a folder as pytest does, where there is no pytest: each gets the fixtures that its parameters name.

    tests/plain_pytest.py FOLDER BASE

What the tests write goes below BASE. It knows no more of pytest than the tests of examples/pytest need: `fixture`, `raises` and `tmp_path`.
"""

import contextlib
import importlib.util
import inspect
import sys
import types
from pathlib import Path


@contextlib.contextmanager
def raises(kind):
    """What is done here must raise this."""
    try:
        yield
    except kind:
        return
    raise AssertionError(f"no {kind.__name__} is raised")


def fixture(function):
    function.is_fixture = True
    return function


def loaded(path):
    """The names of a file of Python."""
    spec = importlib.util.spec_from_file_location(path.stem, path)
    module = importlib.util.module_from_spec(spec)
    spec.loader.exec_module(module)
    return vars(module)


def value_of(name, fixtures, made, stack):
    """The value of a fixture in one test. One that yields goes on behind the test."""
    if name not in made:
        function = fixtures[name]
        value = function(**{other: value_of(other, fixtures, made, stack) for other in inspect.signature(function).parameters})
        made[name] = stack.enter_context(contextlib.contextmanager(lambda: value)()) if inspect.isgenerator(value) else value
    return made[name]


def run_all(folder, base):
    """Runs the tests of a folder, and prints what pytest prints at least. Gives its status."""
    sys.modules["pytest"] = types.SimpleNamespace(fixture=fixture, raises=raises)
    counts = {"passed": 0, "failed": 0}
    common = loaded(folder / "conftest.py")
    for path in sorted(folder.glob("test_*.py")):
        names = {**common, **loaded(path)}
        fixtures = {name: it for name, it in names.items() if getattr(it, "is_fixture", False)}
        for name in (name for name in names if name.startswith("test_")):
            made = {"tmp_path": base / f"{name}0"}
            made["tmp_path"].mkdir(parents=True)
            try:
                with contextlib.ExitStack() as stack:
                    names[name](**{it: value_of(it, fixtures, made, stack) for it in inspect.signature(names[name]).parameters})
                counts["passed"] += 1
            except Exception as fault:  # pylint: disable=broad-except
                # Whatever a test raises is its failure.
                counts["failed"] += 1
                print(f"FAILED {path.name}::{name} - {type(fault).__name__}: {fault}")
    print(", ".join(f"{count} {what}" for what, count in counts.items() if count))
    return 1 if counts["failed"] else 0


if __name__ == "__main__":
    sys.exit(run_all(Path(sys.argv[1]), Path(sys.argv[2])))
