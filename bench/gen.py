#!/usr/bin/env python3
"""Times `gen`, on one processor: seconds, megabytes, and the ratio at each step. Each time is the least of three.

usage: bench/gen.py [PROGRAM]     PROGRAM is the built program (crates/cg_cli/out/cg_cli by default)
"""

import os
import resource
import subprocess
import sys
import time

TOP = os.path.dirname(os.path.dirname(os.path.abspath(__file__)))
PROGRAM = os.path.abspath(sys.argv[1] if len(sys.argv) > 1 else f"{TOP}/crates/cg_cli/out/cg_cli")
NUMBERS = [64, 512, 4096]


def measure(number):
    """Seconds and megabytes of one run, and the lines that it printed."""
    began, before = time.perf_counter(), resource.getrusage(resource.RUSAGE_CHILDREN)
    ran = subprocess.run(["/usr/bin/time", "-f", "%M", PROGRAM, "gen", str(number)], capture_output=True, text=True)
    after = resource.getrusage(resource.RUSAGE_CHILDREN)
    assert ran.returncode == 0, ran
    seconds = after.ru_utime + after.ru_stime - before.ru_utime - before.ru_stime
    return seconds, int(ran.stderr.split()[-1]) / 1024, time.perf_counter() - began, ran.stdout.splitlines()


def main():
    os.sched_setaffinity(0, {0})
    print(f"{'N':>6} {'seconds':>8} {'ratio':>6} {'MB':>6}  cost and steps")
    last = None
    for number in NUMBERS:
        runs = [measure(number) for _ in range(3)]
        seconds, megabytes = min(run[0] for run in runs), max(run[1] for run in runs)
        lines = runs[0][3]
        ratio = f"{seconds / last:.1f}" if last else ""
        print(f"{number:>6} {seconds:>8.3f} {ratio:>6} {megabytes:>6.0f}  {lines[3]}, {lines[4]}")
        last = seconds


if __name__ == "__main__":
    main()
