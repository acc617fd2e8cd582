#!/usr/bin/env python3
"""Times lists of instances, on one processor: growing lists, of small and wide bodies and of wide types, and each limit passed. Seconds and
megabytes, and the ratio at each doubling.

The program is the one that goes through cases (docs/CASES.md), on files of one case each. What reading and checking the source takes is
told apart: it is measured by a case of `check`, and taken off. Each time is the least of three.

usage: bench/instances.py [PROGRAM]     PROGRAM is the built program (crates/cg_driver_cases/out/cg_driver_cases by default)
"""

import os
import resource
import subprocess
import sys
import tempfile
import time

TOP = os.path.dirname(os.path.dirname(os.path.abspath(__file__)))
PROGRAM = os.path.abspath(sys.argv[1] if len(sys.argv) > 1 else f"{TOP}/crates/cg_driver_cases/out/cg_driver_cases")


def chain(steps, name, ty, first, step, last):
    """Functions of one type, of which the first does this and each other mentions the one before it; and what mentions the last at U8."""
    lines = [f"{name}f : {last[0]}\n{name}f x = {last[1].replace('P', f'{name}{steps}')}\n{name}0 : {ty}\n{name}0 x = {first}\n"]
    for i in range(steps):
        lines.append(f"{name}{i + 1} : {ty}\n{name}{i + 1} x = {step.replace('P', f'{name}{i}')}\n")
    return "".join(lines)


def row(steps, first="x", last="P[U8] x"):
    """2^(n + 1) instances for n steps, half of them of the first function."""
    return chain(steps, "p", "all a. () -> ()", first, "let y = P[#{l : a}] x in P[#{m : a}] y", ("() -> ()", last))


def sums(count):
    return f"let y = (1 : U8){' + 1' * count} in (x : ())"


def wide_body(steps):
    """The same, and the first function has 505 nodes: 1,048,576 nodes at 11 steps, the most that there may be."""
    return row(steps, sums(250), "let y = P[U8] x and z = x in z")


def wide_types(steps):
    """2^n instances, half of them of a function of 1,007 nodes, of which nearly each has a type of 1,023 nodes."""
    synonyms = "type T0 = U8\n" + "".join(f"type T{k + 1} = (T{k}, T{k})\n" for k in range(8))
    first = "let t = mk[T8] () and t = (t, t)" + " and t = t" * 498 + " in x"
    return f"{synonyms}mk : all a. () -> a\n" + row(steps - 1, first)


def doubled(steps):
    """A type argument of 2^n nodes, which no node has as its type."""
    return chain(steps, "p", "all a. () -> ()", "x", "P[(a, a)] x", ("() -> ()", "P[U8] x"))


def large_types(steps):
    """A node whose type has more than 1,024 nodes from the ninth step on."""
    return chain(steps, "q", "all (a :< DS). a -> a", "x", "let y = P[(a, a)] (x, x) in x", ("U8 -> U8", "P[U8] x"))


GROWING = {
    "small bodies": (row, (8, 9, 10, 11)),
    "wide bodies": (wide_body, (8, 9, 10, 11)),
    "wide types": (wide_types, (8, 9, 10, 11)),
    "doubled arguments": (doubled, (15, 16, 17, 18)),
}

PASSED = {
    "instances": row(12),
    "instances, wide bodies": wide_body(12),
    "core": row(11, sums(250), "let y = P[U8] x and z = (x : ()) in z"),
    "type at the last": row(10, sums(500)) + large_types(9),
    "type of 2^1000 nodes": large_types(1000),
}


def measure(call, text):
    """Seconds and megabytes of one case, and what it was answered."""
    with tempfile.TemporaryDirectory() as folder:
        with open(os.path.join(folder, "x.cases"), "w") as file:
            file.write(f"{call}\n" + "".join(f"|{line}\n" for line in text.splitlines()) + "= ?\n")
        timed = ["/usr/bin/time", "-q", "-o", "memory", "-f", "%M", PROGRAM, "x.cases"]
        begin = time.perf_counter()
        child = subprocess.run(timed, stdout=subprocess.PIPE, cwd=folder)
        seconds = time.perf_counter() - begin
        with open(os.path.join(folder, "memory")) as file:
            megabytes = int(file.read()) / 1024
    answer = child.stdout.decode().splitlines()
    return seconds, megabytes, answer[0].partition("answered ")[2] if answer else f"status {child.returncode}"


def report(name, text, before=None):
    seconds, megabytes, answer = min(measure("% instances", text) for _ in range(3))
    checked = min(measure("$ check a.cg", text) for _ in range(3))[0]
    taken = max(seconds - checked, 0.0005)
    ratio = f"{taken / before:5.2f}" if before else "     "
    print(f"{name:>24} {len(text):>9} bytes {checked:8.3f} + {taken:8.3f} s {megabytes:8.1f} MB {ratio}  {answer}", flush=True)
    return taken


def main():
    resource.setrlimit(resource.RLIMIT_CORE, (0, 0))
    os.sched_setaffinity(0, {max(os.sched_getaffinity(0))})
    for name, (source, sizes) in GROWING.items():
        before = None
        for size in sizes:
            before = report(f"{name} {size}", source(size), before)
    for name, text in PASSED.items():
        report(name, text)


if __name__ == "__main__":
    main()
