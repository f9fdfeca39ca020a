#!/usr/bin/env python3
"""Makes the module of the page: the proved crate `bfq_page`, compiled to WebAssembly with a 32-bit memory.

    web/build/module.py -o bfq_page.wasm

The toolchain has no way for this by itself: for WebAssembly its compiler refuses what allocates. So its x86-64 static library is built, and
the LLVM module that it hands to its clang on the way is kept. That module is compiled anew, by the same clang, for WebAssembly with a 64-bit
memory. Three things of its text change: the layout of data, the name of the target, and what was asked of the processor and of its stack.
It is linked with heap.c, and lowered to a 32-bit memory by lower.py. Both targets have pointers of 64 bits and the same alignments. What
the module calls may be the heap and nothing else. The libraries below the crate must be proved: `tests/build.py bfq_page` does that.

No proof covers what is done here: clang, heap.c, lower.py. So what results is compared with the native program (tests/page.py).
"""

import argparse
import os
import re
import subprocess
import sys
import tempfile
from pathlib import Path

BUILD = Path(__file__).resolve().parent
sys.path += [str(BUILD), str(BUILD.parents[1] / "tests")]
from checkout import CRATES, command, crate_lines, kit  # noqa: E402
from lower import Unknown, lowered  # noqa: E402

CRATE = "bfq_page"
ARCHIVE = CRATES / CRATE / "out" / f"lib{CRATE}.a"
MODULE = CRATES / CRATE / "out" / f"{CRATE}.wasm"
WASM64 = "wasm64-unknown-unknown"
LAYOUT = "e-m:e-p:64:64-p10:8:8-p20:8:8-i64:64-i128:128-n32:64-S128-ni:1:10:20"
PROCESSOR = "lime1"
# The toolchain's own words to clang for this target.
WORDS = [f"--target={WASM64}", f"-mcpu={PROCESSOR}", "-mllvm", "-expand-div-rem-bits=64", "-mllvm", "-expand-fp-convert-bits=64",
         "-ffunction-sections", "-fdata-sections", "-mllvm", "-trap-unreachable", "--no-default-config", "-no-canonical-prefixes", "-O3", "-c"]
OF_MODULE = ["-mllvm", "-disable-machine-licm", "-mllvm", "-disable-postra-machine-licm", "-mllvm", "-sink-common-insts=false", "-x", "ir"]
OF_HEAP = ["-ffreestanding", "-nostdinc", "-x", "c"]
# In the text of a module: what changes, and what it may want of its surroundings.
CHANGES = [(r"(?m)^target datalayout = .*", f'target datalayout = "{LAYOUT}"'), (r"(?m)^target triple = .*", f'target triple = "{WASM64}"'),
           (r'(?m)(?<=^attributes)(.*?) "probe-stack"="[^"]*"', r"\1"), (r'(?m)(?<=^attributes)(.*?) "stack-probe-size"="[^"]*"', r"\1"),
           (r'(?m)(?<=^attributes)(.*?)"target-cpu"="[^"]*"', rf'\1"target-cpu"="{PROCESSOR}"')]
WANTED = re.compile(r"declare .*@(llvm\.|rattle_(alloc|realloc|dealloc)\()")
# Stands in clang's place. The toolchain starts it with no environment, in a folder of its own.
KEEPER = '#!/bin/bash\n[ -f module.bc ] && cp module.bc "{kept}"\nexec -a "{clang}" "{clang}" "$@"\n'


class Failed(Exception):
    """The module cannot be made, and why."""


def run(*words, cwd=None):
    """Runs a command. It raises Failed with what that said."""
    ran = subprocess.run(list(map(str, words)), cwd=cwd, stdin=subprocess.DEVNULL, stdout=subprocess.PIPE, stderr=subprocess.STDOUT, text=True,
                         errors="replace", check=False)
    if ran.returncode:
        raise Failed(f"{ran.stdout}{Path(words[0]).name} ended with status {ran.returncode}")


def toolchain(folder, kept):
    """Makes a toolchain in a folder, which is the kit's with a clang that keeps each module that it is given."""
    own = kit() / "toolchain"
    (folder / "bin").mkdir(parents=True)
    for it in own.iterdir():
        if it.name != "bin":
            (folder / it.name).symlink_to(it)
    for it in (own / "bin").iterdir():
        if it.name != "clang":
            (folder / "bin" / it.name).symlink_to(it)
    (folder / "bin" / "clang").write_text(KEEPER.format(kept=kept, clang=own / "bin" / "clang"))
    (folder / "bin" / "clang").chmod(0o755)


def proved_module(folder, jobs):
    """Proves the crate and builds its archive, and gives the path of the LLVM module that was made on the way."""
    kept = folder / "kept.bc"
    toolchain(folder / "toolchain", kept)
    ARCHIVE.parent.mkdir(exist_ok=True)
    run(*command("build", CRATE, crate_lines()), "--crate-type", "staticlib", "--toolchain", folder / "toolchain", "--backend", "llvm",
        "--jobs", jobs, "-o", ARCHIVE, cwd=CRATES / CRATE)
    if not kept.exists():
        raise Failed("the toolchain hands its clang no module.bc: it is another one than this way is for")
    return kept


def retargeted(module, folder):
    """The text of an LLVM module for another target, in a file of the folder."""
    text = folder / "x86.ll"
    run(kit() / "toolchain/bin/clang", "-S", "-emit-llvm", "-x", "ir", module, "-O0", "-Xclang", "-disable-llvm-passes", "-o", text)
    whole = text.read_text(encoding="utf-8", errors="surrogateescape")
    for old, new in CHANGES:
        whole, count = re.subn(old, new, whole)
        if not count and "stack-probe-size" not in old:
            raise Failed(f"the module has no {old}: it is another one than this way is for")
    if others := [row for row in whole.splitlines() if row.startswith("declare ") and not WANTED.match(row)]:
        raise Failed(f"the module calls more than the heap: {others[0]}")
    (folder / "wasm.ll").write_text(whole, encoding="utf-8", errors="surrogateescape")
    return folder / "wasm.ll"


def linked(text, folder):
    """The module over a 64-bit memory, linked with the heap, in a file of the folder."""
    tools = kit() / "toolchain"
    run(tools / "bin/clang", *WORDS, *OF_MODULE, text, "-o", folder / "module.o")
    run(tools / "bin/clang", *WORDS, *OF_HEAP, BUILD / "heap.c", "-o", folder / "heap.o")
    run(tools / "bin/llvm-ar", "rcs", "--format=gnu", "libpage.a", "module.o", "heap.o", cwd=folder)
    run(kit() / "bin/rattle-link", "--target", WASM64, "--toolchain", tools, "-o", folder / "page64.wasm", folder / "libpage.a")
    return folder / "page64.wasm"


def made(jobs=1):
    """The bytes of the module, which then stand in the file MODULE too. It raises Failed."""
    with tempfile.TemporaryDirectory(prefix="bfq-page-") as name:
        folder = Path(name)
        try:
            data = lowered(linked(retargeted(proved_module(folder, jobs), folder), folder).read_bytes())
        except Unknown as fault:
            raise Failed(f"lower.py does not read the module: {fault}") from None
    MODULE.write_bytes(data)
    return data


def main():
    words = argparse.ArgumentParser(description=__doc__, formatter_class=argparse.RawDescriptionHelpFormatter)
    words.add_argument("-o", dest="to", required=True, type=Path, metavar="FILE")
    given = words.parse_args()
    try:
        given.to.write_bytes(made(len(os.sched_getaffinity(0))))
    except (Failed, OSError) as fault:
        return f"web/build/module.py: {fault}"
    return 0


if __name__ == "__main__":
    sys.exit(main())
