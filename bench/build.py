#!/usr/bin/env python3
"""Times `build` beside `check` on growing sources, on one processor: those of bench/check.py that are accepted, functions whose calls go
through function values, and many instances of few functions. Seconds, what they are above those of `check` (instances, their copies, lowering,
both texts and their writes), megabytes, the ratio at each doubling, how many times the time of `check`, and the bytes that are written.

Each time is the least of three. Memory is what /usr/bin/time says.

usage: bench/build.py [PROGRAM]     PROGRAM is the built program (crates/cg_cli/out/cg_cli by default)
"""

import os
import resource
import subprocess
import tempfile
import time

from check import KINDS, MOST, PROGRAM, filled

ACCEPTED = [
    "4,096 small functions",
    "one deep function",
    "records of 64 fields",
    "matches of 64",
    "observers",
    "linear bindings",
    "type arguments, a 64th",
    "written type arguments",
]


def function_values(size):
    """Functions that are handed to one another, of 64 arrow types, and called as values."""
    first = "".join(f"type A{k} = #{{n{k} : U32}} -> U32\nh{k} : A{k}\nh{k} r = r.n{k} + {k}\n" for k in range(64))

    def one(i):
        k = i % 64
        call = f"let y = g #{{n{k} = x}} in y"
        bound = "".join(f" and y{j} = g #{{n{k} = y{j - 1}}}" for j in range(1, 8))
        return f"c{i} : #{{g : A{k}, x : U32}} -> U32\nc{i} r = let g = r.g and x = r.x and y0 = x{bound} in y7\nf{i} : U32 -> U32\nf{i} x = c{i} #{{g = h{k}, x = x}}\n"

    return filled(first, one, size)


def instances(size):
    """2,048 instances for each 1 MiB, of functions with bodies of 505 nodes."""
    steps = {MOST // 8: 8, MOST // 4: 9, MOST // 2: 10, MOST: 11}[size]
    body = f"let y = (1 : U8){' + 1' * 250} in (x : ())"
    lines = [f"f : () -> ()\nf x = p{steps}[U8] x\np0 : all a. () -> ()\np0 x = {body}\n"]
    for i in range(steps):
        lines.append(f"p{i + 1} : all a. () -> ()\np{i + 1} x = let y = p{i}[#{{l : a}}] x in p{i}[#{{m : a}}] y\n")
    return "".join(lines)


SOURCES = {**{name: KINDS[name] for name in ACCEPTED}, "function values": function_values, "instances of 505 nodes": instances}


def measure(words, folder):
    """Seconds and megabytes of one call, and what it printed, with its status."""
    timed = ["/usr/bin/time", "-q", "-o", "memory", "-f", "%M", PROGRAM]
    begin = time.perf_counter()
    child = subprocess.run([*timed, *words], stdout=subprocess.PIPE, cwd=folder)
    seconds = time.perf_counter() - begin
    with open(os.path.join(folder, "memory")) as file:
        megabytes = int(file.read()) / 1024
    return seconds, megabytes, child.stdout.decode().strip(), child.returncode


def report(name, text, before):
    with tempfile.TemporaryDirectory() as folder:
        with open(os.path.join(folder, "a.cg"), "w") as file:
            file.write(text)
        checked = min(measure(["check", "a.cg"], folder)[0] for _ in range(3))
        seconds, megabytes, printed, status = min(measure(["build", "a.cg", "a.c", "a.cert"], folder) for _ in range(3))
        written = [os.path.getsize(os.path.join(folder, name)) for name in ("a.c", "a.cert")] if status == 0 else [0, 0]
    above = seconds - checked
    ratio = f"{above / before:5.2f}" if before else "     "
    print(
        f"{name:>24} {len(text):>9} bytes {seconds:8.3f} s {above:8.3f} above check {megabytes:8.1f} MB {ratio}"
        f" {seconds / checked:6.2f} times check {written[0]:>10} + {written[1]} written  {status} {printed}"
    )
    return above


def main():
    resource.setrlimit(resource.RLIMIT_CORE, (0, 0))
    os.sched_setaffinity(0, {max(os.sched_getaffinity(0))})
    for name, source in SOURCES.items():
        before = None
        for size in (MOST // 8, MOST // 4, MOST // 2, MOST):
            before = report(name, source(size), before)


if __name__ == "__main__":
    main()
