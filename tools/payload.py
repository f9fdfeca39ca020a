"""The payload of a script, which the options of sim or of replay name: a file, from which a write may take its bytes."""

from __future__ import annotations

import os
from typing import Dict, List, Optional, Sequence

import grammar
from host import BadInput, told_with

OPTION = "--payload"
SECTOR = 512
# A write of more sectors brings no bytes.
MOST_SECTORS = 64
# A longer payload the program does not read.
MOST_BYTES = 64 << 20


def path_of(options: Sequence[str]) -> Optional[str]:
    """The path of the payload that options name; None if they name none."""
    for at, word in enumerate(options):
        if word == OPTION and at + 1 < len(options):
            return options[at + 1]
        if word.startswith(f"{OPTION}="):
            return word.removeprefix(f"{OPTION}=")
    return None


def with_whole_path(options: Sequence[str]) -> List[str]:
    """The options, with the payload's path from the root on, so that they serve in any folder."""
    path = path_of(options)
    others = [word for at, word in enumerate(options)
              if word != OPTION and not word.startswith(f"{OPTION}=") and (at == 0 or options[at - 1] != OPTION)]
    return list(options) if path is None else [*others, OPTION, os.path.abspath(path)]


def size_of(options: Sequence[str]) -> Optional[int]:
    """How many bytes the payload has that options name; None if they name none. Whether it can be read the program tells."""
    path = path_of(options)
    try:
        return None if path is None else os.stat(path).st_size
    except OSError:
        return None


def why_no_bytes(line: str, size: Optional[int]) -> Optional[str]:
    """Why a payload of so many bytes has not those that a good line takes; None if it has, or if the line takes none."""
    if not grammar.takes_bytes(line):
        return None
    _, _, _, _, count, source = line.split(" ")
    return why_lacking(int(count), source, size)


def why_lacking(count: int, source: str, size: Optional[int]) -> Optional[str]:
    """Why a payload of so many bytes, or none, has not those of a write of so many sectors from a source on, as `@SECTOR`."""
    if size is None:
        return "there is no payload: --payload FILE names one"
    begin, brought = int(source.removeprefix(grammar.SIGN)), count if count <= MOST_SECTORS else 0
    if SECTOR * begin > size:
        return f"the payload has {size} bytes, and ends before {source}"
    if SECTOR * (begin + brought) > size:
        return f"the payload has {size} bytes, and not so many from {source} on as COUNT sectors have"
    return None


def places_in(options: Sequence[str]) -> Dict[bytes, int]:
    """Where in the payload that options name each block stands, the first time. Without one there is none."""
    path, places = path_of(options), {}
    if path is not None:
        with told_with(path), open(path, "rb") as file:
            for sector, block in enumerate(iter(lambda: file.read(SECTOR), b"")):
                places.setdefault(block, sector)
    return places


def block_at(options: Sequence[str], sector: int) -> bytes:
    """The bytes of a sector of the payload that options name, which must have it."""
    path = path_of(options)
    if path is None:
        raise BadInput(f"there is no payload, of which sector {sector} is wanted")
    with told_with(path), open(path, "rb") as file:
        return os.pread(file.fileno(), SECTOR, SECTOR * sector)
