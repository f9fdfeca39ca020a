"""Shims in C that stand before the C library, by LD_PRELOAD: how one is made, and why there may be none."""

import os
import shutil
import subprocess

from checkout import kit

TOP = os.path.dirname(os.path.dirname(os.path.abspath(__file__)))
COMPILING = ["-shared", "-fPIC", "-O2", "-fno-builtin", "-nostdlib"]


class NoShim(Exception):
    """A shim cannot be had here, or what a program asks for goes past it, and why."""


def shim_in(folder, name):
    """The shim of tests/NAME.c, made in a folder by a compiler that is there."""
    made, said = os.path.join(folder, f"{name}.so"), "there is no cc, and no clang of a toolchain"
    clang = str(kit() / "toolchain" / "bin" / "clang") if shutil.which("rt") else ""
    for words in ([shutil.which("cc") or ""], [clang, "--target=x86_64-unknown-linux-gnu", "-fuse-ld=lld"]):
        if os.path.exists(words[0]):
            # The toolchain's linker lies beside its clang.
            places = {**os.environ, "PATH": f"{os.path.dirname(words[0])}:{os.environ.get('PATH', '')}"}
            ran = subprocess.run([*words, *COMPILING, "-o", made, os.path.join(TOP, "tests", f"{name}.c")], stdin=subprocess.DEVNULL,
                                 capture_output=True, text=True, env=places, check=False)
            if ran.returncode == 0:
                return made
            said = f"{words[0]} does not make tests/{name}.c: {ran.stderr.strip()[:200]}"
    raise NoShim(said)
