"""The tests of examples/pytest, which docs/PYTEST.md shows: they pass, one that is wrong fails, and a test that failed leaves its run on
file.

They are run by pytest, if this Python or that of the system has it; else by tests/plain_pytest.py.
"""

import os
import re
import shutil
import subprocess
import sys
import tempfile
from pathlib import Path

from records import Recording
from served import same
from bfqclient import open_record

TOP = Path(__file__).resolve().parent.parent
EXAMPLES, PAGE = TOP / "examples" / "pytest", TOP / "docs" / "PYTEST.md"
NAMES = ["conftest.py", "test_disk.py"]
TESTS = ["test_a_moment", "test_another_future", "test_each_crash"]
SECONDS = 120


def command_of(folder, base):
    """The command that runs the tests of a folder."""
    for python in (sys.executable, "/usr/bin/python3"):
        if os.path.exists(python) and not subprocess.run([python, "-c", "import pytest"], capture_output=True, check=False).returncode:
            return [python, "-m", "pytest", "-q", "-p", "no:cacheprovider", "--basetemp", str(base), str(folder)]
    return [sys.executable, str(TOP / "tests" / "plain_pytest.py"), str(folder), str(base)]


def tested(place, change=lambda name, text: text, program=None):
    """Runs the tests, whose files may be changed. Gives how many passed and failed, what was printed, and where they have written."""
    folder, base = Path(tempfile.mkdtemp(dir=place.folder)), Path(place.folder, "base")
    shutil.rmtree(base, ignore_errors=True)
    for name in NAMES:
        (folder / name).write_text(change(name, (EXAMPLES / name).read_text(encoding="utf-8")), encoding="utf-8")
    able = place.able()
    environment = {**os.environ, "PYTHONPATH": str(TOP / "clients"), "PYTHONDONTWRITEBYTECODE": "1", "BFQHOST": program or able}
    ran = subprocess.run(command_of(folder, base), cwd=folder, capture_output=True, text=True, timeout=SECONDS, check=False,
                         env=environment)
    found = dict((what, int(count)) for count, what in re.findall(r"(\d+) (passed|failed|error)", ran.stdout.splitlines()[-1]))
    return found, ran.stdout, base


def they_pass(place):
    found, text, _ = tested(place)
    same("the tests", (found, text if found != {"passed": len(TESTS)} else ""), ({"passed": len(TESTS)}, ""))


def wrong_ones_fail(place):
    """A test that is wrong fails, and what its host did stands on file, beside the image."""
    for name, change in (("test_another_future", ("read(100, 1) == A", "read(100, 1) == B")),
                         ("test_a_moment", ("overlay 41", "overlay 43")),
                         ("test_each_crash", ("(COPY, data), (RECORD, WHOLE)", "(RECORD, WHOLE), (COPY, data)"))):
        found, text, base = tested(place, lambda _, held, change=change: held.replace(*change))
        same(f"{name} changed: {text}", found, {"passed": len(TESTS) - 1, "failed": 1})
        same("which it is", re.findall(r"(?m)^FAILED .*::(\w+)", text), [name])
        with open_record(next(base.glob(f"{name}*/run.rec")), program=place.able()) as record:
            same("what is on file", int(record.ask("line").split()[2]) > 4, True)


def no_host(place):
    """Where there is no program, or none that serves, each test tells so."""
    for program, told in (("/nothing", "NotServing"), ("/bin/false", "the host has ended with status 1")):
        found, text, _ = tested(place, program=program)
        same("how many passed", found.get("passed", 0), 0)
        same("what is told", told in text, True)


def shown(place):
    """The page has the files as they are, and the names of the tests."""
    text = PAGE.read_text(encoding="utf-8")
    blocks = re.findall(r"(?ms)^```python\n(.*?)^```$", text)
    same("the blocks", blocks, [(EXAMPLES / name).read_text(encoding="utf-8") for name in NAMES])
    same("the tests", re.findall(r"(?m)^def (test_\w+)", blocks[1]), TESTS)


def pytest_runs(program):
    """The name of each run with what was wrong with it."""
    for act in (they_pass, wrong_ones_fail, no_host, shown):
        folder = tempfile.mkdtemp(prefix="bfq-")
        try:
            act(Recording(program, folder))
            yield f"pytest: {act.__name__}", []
        except Exception as fault:  # pylint: disable=broad-except
            # Whatever is raised that was not wanted is a fault.
            yield f"pytest: {act.__name__}", [f"{type(fault).__name__}: {fault}"]
        finally:
            shutil.rmtree(folder)
