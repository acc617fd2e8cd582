#!/usr/bin/env python3
"""Times `run` on growing sources, on one processor: seconds, megabytes, and the ratio at each doubling.

Each time is the least of three. Memory is what /usr/bin/time says.

usage: bench/run.py [PROGRAM]     PROGRAM is the built program (crates/cg_cli/out/cg_cli by default)
"""

import os
import resource
import subprocess
import sys
import tempfile
import time

TOP = os.path.dirname(os.path.dirname(os.path.abspath(__file__)))
PROGRAM = os.path.abspath(sys.argv[1] if len(sys.argv) > 1 else f"{TOP}/crates/cg_cli/out/cg_cli")


def calls(functions):
    """Functions of which each calls the one before it, adds, and binds a name; and the last one's name."""
    lines = []
    for i in range(functions):
        called = f"f{i - 1} x" if i else "x"
        lines.append(f"f{i} : U32 -> U32\nf{i} x = let y = {called} in y + {i} + x\n")
    return "".join(lines), f"f{functions - 1}"


def doubled(depth):
    """Functions of which each calls the one before it twice, down to a sum; and the last one's name."""
    lines = ["f0 : U32 -> U32\nf0 x = x + 1\n"]
    for i in range(1, depth + 1):
        lines.append(f"f{i} : U32 -> U32\nf{i} x = f{i - 1} (f{i - 1} x)\n")
    return "".join(lines), f"f{depth}"


def lets(count, sums):
    """One function of nested lets, each of so many sums, which are as many locals in C; and its name."""
    lines = ["f : U32 -> U32\nf x =\n"]
    before = "x"
    for i in range(count):
        lines.append(f" let y{i} = {' + '.join([before] * (sums + 1))} in\n")
        before = f"y{i}"
    lines.append(f" {before}\n")
    return "".join(lines), "f"


def measure(text, entry, words):
    """Seconds and megabytes of one run, and what it printed, with its status."""
    with tempfile.TemporaryDirectory() as folder:
        for name, contents in (("a.cg", text), ("a.heap", "arg = 41\n")):
            with open(os.path.join(folder, name), "w") as file:
                file.write(contents)
        timed = ["/usr/bin/time", "-q", "-o", "memory", "-f", "%M", PROGRAM]
        begin = time.perf_counter()
        child = subprocess.run([*timed, "run", "a.cg", entry, "a.heap", *words], stdout=subprocess.PIPE, cwd=folder)
        seconds = time.perf_counter() - begin
        with open(os.path.join(folder, "memory")) as file:
            megabytes = int(file.read()) / 1024
    return seconds, megabytes, child.stdout.decode(), child.returncode


def report(name, source, before, *words):
    text, entry = source
    seconds, megabytes, printed, status = min(measure(text, entry, words) for _ in range(3))
    ratio = f"{seconds / before:5.2f}" if before else "     "
    said = printed.strip()
    if status == 0:
        lines = dict(line.split(": ") for line in printed.splitlines())
        said = f"cost {lines['cost']}, steps {lines['steps']}"
        if lines["value"] != lines["c"]:
            sys.exit(f"{name}: the two runs differ")
    print(f"{name:>24} {len(text):>9} bytes {seconds:8.3f} s {megabytes:8.1f} MB {ratio}  {status} {said}")
    return seconds


def main():
    resource.setrlimit(resource.RLIMIT_CORE, (0, 0))
    os.sched_setaffinity(0, {max(os.sched_getaffinity(0))})
    before = None
    for functions in (64, 512, 1024, 2048, 4096):
        before = report(f"{functions} functions", calls(functions), before)
    before = None
    for depth in (14, 15, 16, 17):
        before = report(f"doubled {depth} times", doubled(depth), before)
    report("doubled 21 times", doubled(21), None, "--steps", "20000000")
    before = None
    for count in (60, 120, 240, 480):
        before = report(f"{count} lets", lets(count, 1), before)
    for sums in (2, 4, 8, 16):
        before = report(f"480 lets of {sums} sums", lets(480, sums), before)


main()
