#!/usr/bin/env python3
"""Times `run` on growing heap files, on one processor: seconds, megabytes, and the ratio at each doubling.

The heap files: an array whose elements are summed by a fold, an array of which one element is written, cells of which each has the address of
the next and that nobody reaches, and a record that is reached beside them. Each time is the least of three. Memory is what /usr/bin/time says.

usage: bench/heaps.py [PROGRAM]     PROGRAM is the built program (crates/cg_cli/out/cg_cli by default)
"""

import os
import resource
import subprocess
import sys
import tempfile
import time

TOP = os.path.dirname(os.path.dirname(os.path.abspath(__file__)))
PROGRAM = os.path.abspath(sys.argv[1] if len(sys.argv) > 1 else f"{TOP}/crates/cg_cli/out/cg_cli")
ELEMENTS = 1 << 20
CELLS = 1 << 16

SUM = """add : #{elem : U8, acc : U32, obsv : ()!} -> U32
add turn = turn.acc + upcast turn.elem

f : (WordArray U8)! -> U32
f bytes =
  let length = wordarray_length[U8] bytes
  in wordarray_fold[U8, U32, ()]
    #{arr = bytes, frm = 0, to = length, f = add, acc = 0, obsv = ()}
"""
PUT = "f : (WordArray U8, U32, U8) -> WordArray U8\nf (a, at, byte) = wordarray_put[U8] (a, at, byte)\n"
FIELD = "f : {x : U32} -> {x : U32}\nf r = let r {x = x} = r in r {x = x + 1}\n"


def elements(count):
    return ", ".join(str(i % 256) for i in range(count))


def summed(size):
    """An array of so many elements, for the fold."""
    return SUM, f"@1 = [{elements(size)}]\narg = @1\n"


def written(size):
    """An array of so many elements, of which one is written."""
    return PUT, f"@1 = [{elements(size)}]\narg = (@1, {size - 1}, 7)\n"


def linked(size):
    """So many cells, of which each has the address of the next."""
    cells = "".join(f"@{i} = {{n = {i}, next = @{i + 1}}}\n" for i in range(2, size))
    return FIELD, f"@1 = {{x = 41}}\n{cells}@{size} = {{n = 0, next = @2}}\narg = @1\n"


KINDS = {"array summed": (summed, ELEMENTS), "array written": (written, ELEMENTS), "linked cells": (linked, CELLS)}


def measure(source, heap):
    """Seconds and megabytes of one run, and what it printed, with its status."""
    with tempfile.TemporaryDirectory() as folder:
        for name, contents in (("a.cg", source), ("a.heap", heap)):
            with open(os.path.join(folder, name), "w") as file:
                file.write(contents)
        timed = ["/usr/bin/time", "-q", "-o", "memory", "-f", "%M", PROGRAM]
        begin = time.perf_counter()
        child = subprocess.run([*timed, "run", "a.cg", "f", "a.heap", "--steps", "1000000000"], stdout=subprocess.PIPE, cwd=folder)
        seconds = time.perf_counter() - begin
        with open(os.path.join(folder, "memory")) as file:
            megabytes = int(file.read()) / 1024
    return seconds, megabytes, child.stdout.decode(), child.returncode


def report(name, source, heap, before):
    seconds, megabytes, printed, status = min(measure(source, heap) for _ in range(3))
    ratio = f"{seconds / before:5.2f}" if before else "     "
    said = printed.strip()[:80]
    if status == 0:
        lines = dict(line.split(": ", 1) for line in printed.splitlines())
        said = f"cost {lines['cost']}, steps {lines['steps']}, kept {lines['kept']}"
        if lines["value"] != lines["c"]:
            sys.exit(f"{name}: the two runs differ")
    print(f"{name:>24} {len(heap):>9} bytes {seconds:8.3f} s {megabytes:8.1f} MB {ratio}  {status} {said}")
    return seconds


def main():
    resource.setrlimit(resource.RLIMIT_CORE, (0, 0))
    os.sched_setaffinity(0, {max(os.sched_getaffinity(0))})
    for name, (kind, most) in KINDS.items():
        before = None
        for part in (8, 4, 2, 1):
            source, heap = kind(most // part)
            before = report(f"{name} {most // part}", source, heap, before)


if __name__ == "__main__":
    main()
