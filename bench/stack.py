#!/usr/bin/env python3
"""How much stack each command needs, and whether 1 MB is enough for every input.

Sources of bench/deep.py, deep and wide up to the limits and beyond, go through `check`; those that are accepted through `build`, `recheck` of
what it wrote, and `run`. Each call is made twice, with as much stack as the system gives and with 1,024 KB (RLIMIT_STACK), and has to be
answered alike. With --least, the greatest need of each command is found by halving, and printed with its source.

usage: bench/stack.py [--least] [PROGRAM [SHAPE ..]]     PROGRAM is the built program (crates/cg_cli/out/cg_cli by default), SHAPE a name in
                                                         bench/deep.py

Status 1 where a call is answered otherwise or ended by a signal.
"""

import os
import resource
import subprocess
import sys
import tempfile

from deep import DEEP, SHAPES, heap_of, widths
from rows import PATIENCE, TOP

ENOUGH = 1024  # KB that every call has to manage with
GRAIN = 8      # KB, to which the least stack is found


def answer(program, words, folder, kilobytes):
    """The status and what is printed of a call with so much stack; as much as there may be where it is None."""

    def bounded():
        most = resource.getrlimit(resource.RLIMIT_STACK)[1]
        resource.setrlimit(resource.RLIMIT_STACK, (most if kilobytes is None else kilobytes * 1024, most))

    ran = subprocess.run([program, *words], cwd=folder, capture_output=True, timeout=PATIENCE, preexec_fn=bounded)
    return ran.returncode, ran.stdout, ran.stderr


def least(program, words, folder, wanted):
    """The least stack, in KB, with which a call is answered as wanted."""
    low, high = 0, ENOUGH
    while answer(program, words, folder, high) != wanted:
        low, high = high, 2 * high
    while high - low > GRAIN:
        middle = (low + high) // 2
        if answer(program, words, folder, middle) == wanted:
            high = middle
        else:
            low = middle
    return high


def calls_on(deep, program, folder):
    """The calls on a source, each with its answer where there is stack enough; only `check` where it isn't accepted."""
    with open(os.path.join(folder, "a.cg"), "w") as file:
        file.write(deep.source)
    with open(os.path.join(folder, "h"), "w") as file:
        file.write(heap_of(deep))
    words = ["check", "a.cg"]
    checked = answer(program, words, folder, None)
    yield words, checked
    if checked[0] == 0:
        for words in [["build", "a.cg", "a.c", "a.cert"], ["recheck", "a.cg", "a.cert"], ["run", "a.cg", deep.entry, "h"]]:
            yield words, answer(program, words, folder, None)


class Told:
    """What was seen: how many calls there were and how many differ, and each command's greatest need with its source."""

    def __init__(self, halve):
        self.halve, self.calls, self.differ, self.greatest = halve, 0, 0, {}

    def look(self, program, folder, name, words, wanted):
        """Makes a call with little stack, and finds its least one where that is asked for."""
        self.calls += 1
        got = answer(program, words, folder, ENOUGH)
        if wanted[0] < 0 or got != wanted:
            self.differ += 1
            print(f"{name}: {words[0]}: {wanted[0]}, and {got[0]} with {ENOUGH} KB", flush=True)
        if self.halve and wanted[0] >= 0:
            need, _ = self.greatest.get(words[0], (GRAIN, ""))
            if answer(program, words, folder, need) != wanted:
                self.greatest[words[0]] = least(program, words, folder, wanted), name


def main():
    given = [word for word in sys.argv[1:] if word != "--least"]
    program = os.path.abspath(given[0] if given else os.path.join(TOP, "crates", "cg_cli", "out", "cg_cli"))
    told = Told("--least" in sys.argv[1:])
    with tempfile.TemporaryDirectory() as folder:
        for shape in SHAPES:
            if given[1:] and shape.__name__ not in given[1:]:
                continue
            for width in widths(shape):
                for depth in DEEP:
                    name = f"{shape.__name__} {depth}" + (f" x {width}" if width > 1 else "")
                    for words, wanted in calls_on(shape(depth, width), program, folder):
                        told.look(program, folder, name, words, wanted)
    for command, (need, name) in told.greatest.items():
        print(f"{command}: {need} KB, {name}")
    print(f"{told.calls} calls, {told.differ} differ")
    sys.exit(1 if told.differ else 0)


if __name__ == "__main__":
    main()
