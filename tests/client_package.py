"""The client as a package: what is built, that it installs offline, its types, and what it says of refusals and of its version.

What a tool is needed for that this machine lacks is skipped, and that is told.
"""

import ast
import base64
import hashlib
import importlib.util
import os
import re
import shutil
import subprocess
import sys
import tarfile
import tempfile
import zipfile

from served import Wrong, same

TOP = os.path.dirname(os.path.dirname(os.path.abspath(__file__)))
CLIENTS, TOOLS = os.path.join(TOP, "clients"), os.path.join(TOP, "tools")
sys.path.insert(0, CLIENTS)
sys.dont_write_bytecode = True
import bfqclient  # noqa: E402
import bfqclient_build  # noqa: E402

SECONDS = 300
# What others import: its types are those that it says.
TYPED = [(CLIENTS, [*bfqclient_build.SOURCES[:-1]]), (TOOLS, ["host.py", "grammar.py"])]
# A program that uses each call, with the types that it may count on.
USER = '''import pathlib
from typing import List, Optional

import bfqclient


def copied(path: pathlib.Path, count: int) -> bytes:
    found: List[bytes] = []
    with bfqclient.Session(path, group=0, prio=4, timeout=1.5) as session:
        session.write(0, bytearray(512), timeout=None)
        for bio, io, data in session.run([bfqclient.Io.read(0, 8), bfqclient.Io.write(8, bytes(512))], depth=2):
            number: int = bio + io.start + io.count
            if data is not None:
                found.append(data)
        operator = bfqclient.Operator(path.parent, timeout=2)
        moved: bfqclient.Moved = operator.hold()
        text: str = operator.look("line") + str(moved.cursor)
        with bfqclient.serve(path, program="bfqhost", options=[text]) as host:
            step: bfqclient.Step = host.until("stored sector 5")
            found += [state.over(b"") for state in host.states("stored") if state.step.serial < step.serial]
        try:
            return session.read(0, count, timeout=1) + b"".join(found)
        except bfqclient.Refused as refused:
            code: int = refused.code
            where: Optional[range] = refused.sectors
            return f"{code} {refused.name} {where}".encode()
'''
# Lines behind it that are wrong, each in its type.
WRONG = ["bfqclient.Session(5)", "bfqclient.Io.read('0', 8)", "bfqclient.Session('x').read(0, 1) + ''", "bfqclient.Refused('x')",
         "bfqclient.Operator('x').undo('1')", "bfqclient.serve('x').until(5)"]


def python_of_mypy():
    """The Python that has mypy; None if there is none."""
    for python in (sys.executable, "/usr/bin/python3"):
        found = subprocess.run([python, "-c", "import mypy"], capture_output=True, check=False) if os.path.exists(python) else None
        if found and found.returncode == 0:
            return python
    return None


def version_and_names(_):
    """The version is that of the file VERSION, and all names that the module gives are there, and told."""
    with open(os.path.join(TOP, "VERSION"), encoding="ascii") as file:
        same("VERSION", file.read(), f"{bfqclient.__version__}\n")
    same("the version of the build", bfqclient_build.version(), bfqclient.__version__)
    for name in bfqclient.__all__:
        value = getattr(bfqclient, name)
        same(f"whether {name} is told", isinstance(value, (int, dict)) or bool(value.__doc__), True)
    for kind in (bfqclient.Session, bfqclient.Io, bfqclient.Operator, bfqclient.Served, bfqclient.State):
        for name, value in vars(kind).items():
            if callable(value) and not name.startswith("_"):
                same(f"whether {name} is told", bool(value.__doc__), True)
    with open(os.path.join(TOP, "docs", "CLIENT.md"), encoding="utf-8") as file:
        told = re.findall(r"(?m)^\| `(\w+)`", file.read().partition("## Exceptions")[2].partition("Each exception")[0])
    kinds = [name for name, value in vars(bfqclient).items() if isinstance(value, type) and issubclass(value, Exception)]
    same("the exceptions of docs/CLIENT.md", sorted([*told, "ClientError"]), sorted(kinds))


def refusals(_):
    """Each number has the name and the sentence of docs/FORMATS.md."""
    with open(os.path.join(TOP, "docs", "FORMATS.md"), encoding="utf-8") as file:
        rows = re.findall(r"(?m)^\| (\d+) \| ([A-Z]\w+) \| (.*) \|$", file.read())
    same("whether the table is there", len(rows) > 30, True)
    same("refusals and causes", bfqclient.REFUSALS, {int(number): (name, text.replace("`", "")) for number, name, text in rows})


def size_of_files(_):
    """Each file stays short enough to be read."""
    for name in os.listdir(CLIENTS):
        if name.endswith(".py"):
            with open(os.path.join(CLIENTS, name), encoding="utf-8") as file:
                same(f"whether {name} is below 800 lines", len(file.readlines()) < 800, True)
            # The least version of Python that it promises.
            with open(os.path.join(CLIENTS, name), encoding="utf-8") as file:
                ast.parse(file.read(), name, feature_version=(3, 9))


def built_twice(folder):
    """The same sources give the same bytes; a wheel lists each of its files with its digest."""
    made = []
    for part in ("one", "two"):
        os.mkdir(into := os.path.join(folder, part))
        names = [bfqclient_build.build_wheel(into), bfqclient_build.build_sdist(into)]
        made.append([open(os.path.join(into, name), "rb").read() for name in names])
    same("whether both are the same", made[0] == made[1], True)
    stem = f"bfqclient-{bfqclient.__version__}"
    same("their names", names, [f"{stem}-py3-none-any.whl", f"{stem}.tar.gz"])
    with zipfile.ZipFile(os.path.join(into, names[0])) as wheel:
        rows = [row.rsplit(",", 2) for row in wheel.read(f"{stem}.dist-info/RECORD").decode().splitlines()]
        same("what RECORD lists", sorted(name for name, _, _ in rows), sorted(wheel.namelist()))
        for name, digest, size in rows:
            data = wheel.read(name)
            wanted = f"sha256={base64.urlsafe_b64encode(hashlib.sha256(data).digest()).decode().rstrip('=')}"
            same(f"RECORD of {name}", (digest, size), ("", "") if name.endswith("RECORD") else (wanted, str(len(data))))
        for name in ("METADATA", "WHEEL", "entry_points.txt"):
            same(f"whether {name} is there", f"{stem}.dist-info/{name}" in wheel.namelist(), True)
    with tarfile.open(os.path.join(into, names[1])) as archive:
        same("the sources", sorted(archive.getnames()), sorted(f"{stem}/{name}" for name in [*bfqclient_build.SOURCES, "PKG-INFO"]))


def run(words, folder, **given):
    """What a program prints, which must end well."""
    ended = subprocess.run(words, cwd=folder, capture_output=True, text=True, timeout=SECONDS, check=False, **given)
    same(f"the status of {' '.join(words)[-80:]} ({ended.stderr[-300:]})", ended.returncode, 0)
    return ended.stdout


def installs(folder):
    """pip installs it where nothing can be fetched, from the folder and from the archive. Then module, types and command are there."""
    # A place where no index is: whatever pip would fetch is a failure.
    bare = {"PATH": os.environ["PATH"], "HOME": folder, "PIP_INDEX_URL": "http://127.0.0.1:9/", "PIP_DISABLE_PIP_VERSION_CHECK": "1",
            "PIP_RETRIES": "0", "PIP_NO_CACHE_DIR": "1"}
    run([sys.executable, "-m", "venv", "venv"], folder)
    python, found = os.path.join(folder, "venv", "bin", "python"), []
    # A copy, as pip may leave files of its own beside the sources.
    shutil.copytree(CLIENTS, os.path.join(folder, "clients"), ignore=shutil.ignore_patterns("__pycache__"))
    archive = bfqclient_build.build_sdist(folder)
    for what in ("./clients", archive):
        run([python, "-m", "pip", "install", "--quiet", what], folder, env=bare)
        where = run([python, "-c", "import bfqclient; print(bfqclient.__version__, bfqclient.__file__)"], folder).split()
        same("the version", where[0], bfqclient.__version__)
        same("whether it is the installed one", where[1].startswith(os.path.join(folder, "venv")), True)
        same("whether its types are found", os.path.exists(os.path.join(os.path.dirname(where[1]), "py.typed")), True)
        for words in ([os.path.join(folder, "venv", "bin", "bfqclient")], [python, "-m", "bfqclient"]):
            same("the command", run([*words, "--version"], folder), f"bfqclient {bfqclient.__version__}\n")
            found.append(run([*words, "x", "load", "--help"], folder))
        same("the bridge", run([os.path.join(folder, "venv", "bin", "bfqnbd"), "--version"], folder), f"bfqnbd {bfqclient.__version__}\n")
        run([python, "-m", "pip", "uninstall", "--quiet", "--yes", "bfqclient"], folder, env=bare)
        same("what is left", subprocess.run([python, "-c", "import bfqclient"], cwd=folder, capture_output=True, check=False).returncode, 1)
    same("the help", len({text.split("\n\n", 1)[1] for text in found}), 1)


def typed(folder):
    """mypy --strict finds nothing in what others import, nor in a program that uses it as it should; it finds what is wrong."""
    def judged(where, names, path):
        words = [python_of_mypy(), "-m", "mypy", "--strict", "--cache-dir", os.path.join(folder, "cache"), *names]
        ended = subprocess.run(words, cwd=where, capture_output=True, text=True, timeout=SECONDS, check=False,
                               env={**os.environ, "MYPYPATH": path})
        return ended.stdout, ended.returncode

    for where, names in TYPED:
        stdout, status = judged(where, names, where)
        same(f"{' '.join(names)}: {stdout}", status, 0)
    with open(os.path.join(folder, "user.py"), "w", encoding="utf-8") as file:
        file.write(USER)
    stdout, status = judged(folder, ["user.py"], CLIENTS)
    same(f"a program: {stdout}", status, 0)
    with open(os.path.join(folder, "wrong.py"), "w", encoding="utf-8") as file:
        file.write("import bfqclient\n" + "".join(f"{line}\n" for line in WRONG))
    stdout, _ = judged(folder, ["wrong.py"], CLIENTS)
    found = {int(number) for number in re.findall(r"(?m)^wrong.py:(\d+): error", stdout)}
    same("the lines with a wrong type", sorted(found), list(range(2, 2 + len(WRONG))))


def lacking(name):
    """What a run needs that is not here; None if nothing is lacking."""
    if name == "typed" and python_of_mypy() is None:
        return "mypy"
    if name == "installs" and not all(importlib.util.find_spec(it) for it in ("venv", "ensurepip", "pip")):
        return "venv with pip"
    return None


def package_runs():
    """The name of each run with what was wrong with it."""
    for act in (version_and_names, refusals, size_of_files, built_twice, typed, installs):
        if lacks := lacking(act.__name__):
            print(f"skipped: the client's package: {act.__name__}: no {lacks} here")
            continue
        folder = tempfile.mkdtemp(prefix="bfq-")
        try:
            act(folder)
            yield f"the client's package: {act.__name__}", []
        except (Wrong, OSError, ValueError, SyntaxError, subprocess.SubprocessError) as fault:
            yield f"the client's package: {act.__name__}", [f"{type(fault).__name__}: {fault}"]
        finally:
            shutil.rmtree(folder)
