#!/usr/bin/env python3
"""Times calls of the store over an ordered map and of the flat store, on one processor: a million calls of each kind on a store of a million
cells, and fewer of each. Processor seconds of the map and of the flat store, and the first divided by the second.

The program is the one that goes through cases (docs/CASES.md), on files of one case each. What it takes to make the store is taken off, and
told in the rows of `nothing`. Each time is the least of three. Answers are read and popped at one list of as many answers; `write` and `fold`
go through one array of as many elements. The rows below `holes`, which are of stores with so many holes, make 1,000 cells each: `refill`
those that fit in the first hole, `misfit` those that fit in none. A flat store's `remove` only keeps the hole; the first cell that is made
behind it puts all of them in order, which the row of `holes` has in it.

usage: bench/store.py [PROGRAM]     PROGRAM is the built program (crates/cg_driver_cases/out/cg_driver_cases by default)
"""

import os
import resource
import subprocess
import sys
import tempfile

TOP = os.path.dirname(os.path.dirname(os.path.abspath(__file__)))
PROGRAM = os.path.abspath(sys.argv[1] if len(sys.argv) > 1 else f"{TOP}/crates/cg_driver_cases/out/cg_driver_cases")
STORES = ("store", "flat")
CALLS = ("add", "place", "len", "get", "set_field", "set_element", "answer", "pop", "remove", "write", "fold")
AMONG_HOLES = ("refill", "misfit")
COUNTS = (125_000, 250_000, 500_000, 1_000_000)


def spent():
    """Processor seconds of all programs that were run."""
    used = resource.getrusage(resource.RUSAGE_CHILDREN)
    return used.ru_utime + used.ru_stime


def expected(call, count):
    """What the program answers."""
    if call in ("nothing", "holes"):
        return 0
    return min(count, 1000) if call in AMONG_HOLES else count


def measure(store, call, count):
    """Seconds of one case, which has to be answered as expected."""
    with tempfile.TemporaryDirectory() as folder:
        with open(os.path.join(folder, "x.cases"), "w") as file:
            file.write(f"% {store} {call} {count}\n= {expected(call, count)}\n")
        begin = spent()
        child = subprocess.run([PROGRAM, "x.cases"], stdout=subprocess.PIPE, cwd=folder)
        seconds = spent() - begin
    if child.returncode != 0:
        sys.exit(f"{store} {call} {count}: {child.stdout.decode()[:200]}")
    return seconds


def least(store, call, count):
    return min(measure(store, call, count) for _ in range(3))


def bench(call, without):
    """A row for each count; gives the seconds of each store, which `without` takes off those of other calls."""
    taken = {}
    for count in COUNTS:
        for store in STORES:
            seconds = least(store, call, count) - without.get((store, count), 0)
            taken[store, count] = max(seconds, 0.0005)
        ordered, flat = (taken[store, count] for store in STORES)
        print(f"{call:12} {count:9} {ordered:9.3f} {flat:9.3f} {ordered / flat:9.2f}", flush=True)
    return taken


def main():
    os.sched_setaffinity(0, {max(os.sched_getaffinity(0))})
    print(f"{'call':12} {'count':>9} {'map s':>9} {'flat s':>9} {'map/flat':>9}")
    for without, calls in (("nothing", CALLS), ("holes", AMONG_HOLES)):
        made = bench(without, {})
        for call in calls:
            bench(call, made)


if __name__ == "__main__":
    main()
