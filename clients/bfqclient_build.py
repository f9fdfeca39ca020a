"""Makes the wheel and the source archive of the client, for `pip install ./clients`. It needs Python alone.

It has the two calls that pip asks of a build backend, `build_wheel` and `build_sdist` (PEP 517). The same sources give the same bytes:
each file has the same time and mode, and a wheel is not compressed. In the wheel each module of the library becomes a package of one file,
since type hints of a module that is no package are not found by those who install it (PEP 561).
"""

import base64
import gzip
import hashlib
import io
import os
import re
import tarfile
import zipfile
from typing import Dict, Optional

HERE = os.path.dirname(os.path.abspath(__file__))
NAME, TAG = "bfqclient", "py3-none-any"
# What the library is made of; its command and the bridge from NBD, whose modules nobody imports; and what builds it.
LIBRARY = [NAME, *(f"{NAME}_{part}" for part in ("base", "moments", "operator", "record", "serve", "session"))]
COMMANDS = [f"{NAME}_command.py", "bfqnbd.py", *(f"bfqnbd_{part}.py" for part in (
    "connection", "handshake", "host", "line", "log", "look", "requests", "room", "session", "transmission", "watch", "wire"))]
SOURCES = [*(f"{module}.py" for module in LIBRARY), *COMMANDS, "bfqclient_build.py", "pyproject.toml"]
# A zip archive has no time before this one: 1980-01-01, in seconds since 1970 and by its parts.
SECONDS, PARTS = 315_532_800, (1980, 1, 1, 0, 0, 0)
MODE = 0o644
MAIN = '"""The command, as `python3 -m bfqclient`."""\n\nimport sys\n\nfrom bfqclient_command import main\n\nsys.exit(main())\n'


def source(name: str) -> str:
    """The text of a file of this folder."""
    with open(os.path.join(HERE, name), encoding="utf-8") as file:
        return file.read()


def version() -> str:
    """The version that the client says of itself."""
    found = re.search(r'(?m)^__version__ = "(.+)"$', source("bfqclient.py"))
    if found is None:
        raise ValueError("bfqclient.py has no __version__")
    return found[1]


def stem() -> str:
    return f"{NAME}-{version()}"


def metadata() -> str:
    """What an index or a person is told of the client."""
    about = source("bfqclient.py").split('"""')[1]
    return (f"Metadata-Version: 2.1\nName: {NAME}\nVersion: {version()}\nSummary: {about.splitlines()[0]}\nRequires-Python: >=3.9\n"
            f"Description-Content-Type: text/plain\n\n{about}")


def record(files: Dict[str, bytes], own: str) -> bytes:
    """The list of all files with their digests and sizes; its own row has neither."""
    rows = [f"{name},sha256={base64.urlsafe_b64encode(hashlib.sha256(data).digest()).rstrip(b'=').decode()},{len(data)}"
            for name, data in files.items()]
    return "".join(f"{row}\n" for row in [*rows, f"{own},,"]).encode()


def build_wheel(wheel_directory: str, config_settings: Optional[Dict[str, object]] = None, metadata_directory: Optional[str] = None) -> str:
    """Writes the wheel into a folder, and gives its name."""
    info = f"{stem()}.dist-info"
    texts = {**{f"{module}/__init__.py": source(f"{module}.py") for module in LIBRARY}, **{f"{module}/py.typed": "" for module in LIBRARY},
             f"{NAME}/__main__.py": MAIN, **{name: source(name) for name in COMMANDS}, f"{info}/METADATA": metadata(),
             f"{info}/WHEEL": f"Wheel-Version: 1.0\nGenerator: {stem()}\nRoot-Is-Purelib: true\nTag: {TAG}\n",
             f"{info}/entry_points.txt": "[console_scripts]\nbfqclient = bfqclient_command:main\nbfqnbd = bfqnbd:main\n"}
    files = {name: text.encode() for name, text in texts.items()}
    files[f"{info}/RECORD"] = record(files, f"{info}/RECORD")
    made = f"{stem()}-{TAG}.whl"
    with zipfile.ZipFile(os.path.join(wheel_directory, made), "w") as wheel:
        for name, data in files.items():
            entry = zipfile.ZipInfo(name, PARTS)
            # A zip archive of Unix has a file's mode here.
            entry.create_system, entry.external_attr = 3, MODE << 16
            wheel.writestr(entry, data)
    return made


def build_sdist(sdist_directory: str, config_settings: Optional[Dict[str, object]] = None) -> str:
    """Writes the archive of the sources into a folder, and gives its name."""
    texts = {**{name: source(name) for name in SOURCES}, "PKG-INFO": metadata()}
    packed = io.BytesIO()
    with tarfile.open(fileobj=packed, mode="w", format=tarfile.PAX_FORMAT) as archive:
        for name, text in texts.items():
            entry = tarfile.TarInfo(f"{stem()}/{name}")
            entry.size, entry.mtime, entry.mode = len(text.encode()), SECONDS, MODE
            archive.addfile(entry, io.BytesIO(text.encode()))
    made = f"{stem()}.tar.gz"
    with open(os.path.join(sdist_directory, made), "wb") as file:
        file.write(gzip.compress(packed.getvalue(), mtime=SECONDS))
    return made
