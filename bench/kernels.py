#!/usr/bin/env python3
"""Times nine kernels (bench/native/) that are written in Cogent and built by `cogent build`, beside the same by hand in C: the sum of bytes,
insertion sort, the product of matrices, a record that is taken and put, CRC-32 bit by bit, four functions that share a fold, a wide record,
a look-up in a directory block, and the free bits of a bitmap.

By hand they are written twice: in plain C, and over the built-ins that a text has, with their tests of indices. For each kernel, compiler and
level of optimising there are two lines: with all functions of the text open to callers, and with all but the kernel's own static
(native/prototypes), so that the compiler may inline them. Each has the seconds of processor time by Cogent, by hand and by hand over the
built-ins, each the least of five, and the ratios of the first to the others.

usage: bench/kernels.py [--cc COMPILER ..] [--level LEVEL ..] [--only KERNEL ..] [--texts FOLDER] [--program PROGRAM WORD ..]
    --cc, --level     gcc and clang, and -O2 and -O3, where none are named; a compiler that isn't there is left out
    --only            some of the kernels
    --texts FOLDER    takes the C texts from a folder, NAME.c, and builds none
    --program         what `build FILE CFILE CERTFILE` is put behind (./cogent by default)
"""

import argparse
import shutil
import subprocess
import sys
import tempfile
from pathlib import Path

TOP = Path(__file__).resolve().parent.parent
SOURCES = TOP / "bench" / "native"
NATIVE = TOP / "native"

# Each kernel, and the C function that its own function is: its place among the signatures.
KERNELS = {
    "sum": "f1",
    "sort": "f2",
    "product": "f3",
    "record": "f1",
    "crc": "f2",
    "shared": "f4",
    "wide": "f2",
    "lookup": "f7",
    "bits": "f2",
}
ENTRIES = {"record": "run"}


def command(words, folder, **more):
    done = subprocess.run(words, cwd=folder, text=True, capture_output=True, **more)
    if done.returncode != 0:
        sys.exit(f"{' '.join(map(str, words))}: status {done.returncode}\n{done.stdout}{done.stderr}")
    return done.stdout


def text_of(kernel, folder, program, texts):
    """Puts the C text of a kernel into a folder."""
    if texts is not None:
        shutil.copy(Path(texts) / f"{kernel}.c", folder)
        return
    shutil.copy(SOURCES / f"{kernel}.cg", folder)
    command([*program, "build", f"{kernel}.cg", f"{kernel}.c", f"{kernel}.cert"], folder)


def header(kernel, folder, names):
    (folder / f"{kernel}.h").write_text(command([NATIVE / "prototypes", f"{kernel}.c", *names], folder))


def timed(kernel, folder, cc, level, static):
    """Seconds by Cogent, by hand, and by hand over the built-ins."""
    entry = f"{ENTRIES.get(kernel, kernel)}={KERNELS[kernel]}"
    flags = [cc, "-std=c11", level, "-I", NATIVE, "-I", SOURCES, "-I", folder]
    header(kernel, folder, [entry])
    command([*flags, "-c", SOURCES / f"{kernel}_main.c", "-o", "main.o"], folder)
    name, function = entry.split("=")
    if not static:
        header(kernel, folder, [])
    alone = [] if static else [f"-D{function}={name}"]
    command([*flags, *alone, "-w", "-DCG_TEXT", "-include", f"{kernel}.h", "-c", f"{kernel}.c", "-o", "text.o"], folder)
    for way in ("hand", "same"):
        command([*flags, "-c", SOURCES / f"{way}.c", "-o", f"{way}.o"], folder)
    command([cc, "main.o", "text.o", "hand.o", "same.o", "-o", "kernel"], folder)
    return tuple(map(float, command([folder / "kernel"], folder).split()))


def lines_of(kernel, program, texts, ways):
    """Prints the lines of a kernel."""
    with tempfile.TemporaryDirectory() as name:
        folder = Path(name)
        text_of(kernel, folder, program, texts)
        for cc, level in ways:
            for static in (False, True):
                cogent, hand, same = timed(kernel, folder, cc, level, static)
                print(
                    f"{kernel:<9}{cc:<7}{level:<5}{'static' if static else 'open':<8}{cogent:>9.4f}{hand:>9.4f}{same:>9.4f}"
                    f"{cogent / hand:>7.2f}{cogent / same:>7.2f}",
                    flush=True,
                )


def main():
    reader = argparse.ArgumentParser(usage=__doc__.split("usage: ")[1])
    reader.add_argument("--cc", nargs="+", default=["gcc", "clang"])
    reader.add_argument("--level", nargs="+", default=["-O2", "-O3"])
    reader.add_argument("--only", nargs="+", default=list(KERNELS))
    reader.add_argument("--texts")
    reader.add_argument("--program", nargs="+", default=[TOP / "cogent"])
    asked = reader.parse_args()
    ways = [(cc, level) for cc in asked.cc if shutil.which(cc) for level in asked.level]
    print(f"{'kernel':<9}{'by':<7}{'':<5}{'':<8}{'cogent':>9}{'hand':>9}{'same':>9}{'/hand':>7}{'/same':>7}")
    for kernel in asked.only:
        lines_of(kernel, asked.program, asked.texts, ways)


if __name__ == "__main__":
    main()
