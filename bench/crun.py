#!/usr/bin/env python3
"""Times C texts, on one processor: reading one, and running its functions. Seconds and megabytes, and the ratio at each doubling.

The program is the one that goes through cases (docs/CASES.md), on files of one case each. What a run's case costs without its run, with a
budget of no steps, is taken off; what reading costs is told whole. Each time is the least of three. The stack is of 8 MiB, as a program
has it: nothing that is read or run stands on it, but statements that stand in one another are let go one from within another.

usage: bench/crun.py [PROGRAM]     PROGRAM is the built program (crates/cg_driver_cases/out/cg_driver_cases by default)
"""

import os
import resource
import subprocess
import sys
import tempfile
import time

TOP = os.path.dirname(os.path.dirname(os.path.abspath(__file__)))
PROGRAM = os.path.abspath(sys.argv[1] if len(sys.argv) > 1 else f"{TOP}/crates/cg_driver_cases/out/cg_driver_cases")
HEAD = '#include <stdint.h>\n#include "cogent.h"\n'
LESS = "n = (uint32_t)((uint32_t)n - (uint32_t)1ull);"


def loop(turns, body, before="", declared=""):
    """A loop of so many turns with this body, in a function of a number and two pointers."""
    head = "uint32_t f(uint32_t n, struct SysState *q, struct W32 *w, struct R *r)"
    return f"struct R {{ uint32_t m; }};\n{before}{head} {{ {declared}while (n) {{ {body}{LESS} }} return 7ull; }}\n", f"{turns} @1 @2 @3", "7"


def numbers(size):
    return loop(size // 2, "")


def cells(size):
    body = "x = r->m; x = (uint32_t)((uint32_t)x + (uint32_t)1ull); r->m = x; cg_w32_put(w, 1ull, x); x = cg_w32_get(w, 1ull); "
    return loop(size // 7, body, declared="uint32_t x; ")


def calls(size):
    return loop(size // 4, "x = g(n); ", before="uint32_t g(uint32_t a) { return a; }\n", declared="uint32_t x; ")


def structs(size):
    body = "p = cg_new(q, sizeof(struct R)); cg_free(q, r); r = p; "
    return loop(size // 5, body, declared="struct R *p; ")


def deep(size):
    """Calls in one another, so many deep."""
    return f"uint32_t f(uint32_t n) {{ if (n) {{ {LESS} n = f(n); }} else {{ }} return n; }}\n", str(size), "0"


def nested(size):
    """A loop of branches in one another, 4,095 deep."""
    return loop(size // 4097, "if (n) { " * 4095 + "} else { } " * 4095)


def locals_of(size):
    """A function of so many locals, each of which is set from the one before."""
    declared = "".join(f"  uint32_t x{i};\n" for i in range(size))
    body = "  x0 = n;\n" + "".join(f"  x{i} = x{i - 1};\n" for i in range(1, size))
    return f"uint32_t f(uint32_t n) {{\n{declared}{body}  return x{size - 1};\n}}\n", "5", "5"


def functions(size):
    """So many functions, each of which calls the one before."""
    lines = ["uint32_t f0(uint32_t n) { return n; }\n"]
    lines += [f"uint32_t f{i}(uint32_t n) {{ n = f{i - 1}(n); return n; }}\n" for i in range(1, size)]
    return "".join(lines) + f"uint32_t f(uint32_t n) {{ n = f{size - 1}(n); return n; }}\n", "5", "5"


def held(size):
    """So many structs, each of which holds the one before."""
    lines = ["struct s0 { uint32_t m; };\n"] + [f"struct s{i} {{ struct s{i - 1} m; }};\n" for i in range(1, size)]
    return "".join(lines) + f"uint32_t f(struct s{size - 1} x, uint32_t n) {{ return n; }}\n", "4 5", "5"


def text_of(size):
    """A text of about so many bytes: functions of a few statements."""
    lines, bytes_made = [], 0
    while bytes_made < size:
        i = len(lines)
        name = f"struct s{i}"
        head = f"{name} {{ uint32_t m; uint8_t n; }};\nuint32_t f{i}({name} *p, uint32_t a) {{\n  uint32_t x;\n"
        body = "  x = p->m;\n  if (x) {\n    a = (uint32_t)((uint32_t)a + (uint32_t)x);\n    p->m = a;\n  } else {\n  }\n  return a;\n"
        lines.append(head + body + "}\n")
        bytes_made += len(lines[-1])
    return "".join(lines)


def measure(call, text):
    """Seconds and megabytes of one case, and what it was answered."""
    with tempfile.TemporaryDirectory() as folder:
        with open(os.path.join(folder, "x.cases"), "w") as file:
            file.write(f"% {call}\n" + "".join(f"|{line}\n" for line in (HEAD + text).splitlines()) + "= ?\n")
        timed = ["/usr/bin/time", "-q", "-o", "memory", "-f", "%M", PROGRAM, "x.cases"]
        begin = time.perf_counter()
        child = subprocess.run(timed, stdout=subprocess.PIPE, cwd=folder)
        seconds = time.perf_counter() - begin
        with open(os.path.join(folder, "memory")) as file:
            megabytes = int(file.read()) / 1024
    return seconds, megabytes, child.stdout.decode()


def least(call, text):
    return min((measure(call, text) for _ in range(3)), key=lambda m: m[0])


def row(name, size, steps, taken, megabytes, before):
    ratio = "" if before is None else f"{taken / before:6.2f}"
    print(f"{name:32} {size:9} {steps:>10} {taken:8.3f} s {megabytes:8.1f} MB {ratio}", flush=True)


def bench_read(size):
    before = None
    for part in (8, 4, 2, 1):
        text = text_of(size // part)
        seconds, megabytes, told = least("cread", text)
        if "answered ok\n" not in told:
            sys.exit(f"reading: {told[:200]}")
        row("a text", len(HEAD + text), "", seconds, megabytes, before)
        before = seconds


def run_words(argument, budget, answers):
    """The words of a run, on a list of answers, an array and a cell of one slot where pointers are handed in."""
    store = f" @1=<\\{answers}{{1,}}> @2=[0,0] @3={{1}}" if "@" in argument else ""
    return f"crun f {budget} {argument}{store}"


def bench(name, make, size, answers=0):
    before = None
    for part in (8, 4, 2, 1):
        text, argument, value = make(size // part)
        seconds, megabytes, told = least(run_words(argument, 1 << 40, answers), text)
        without, _, _ = least(run_words(argument, 0, answers), text)
        if f"\nvalue: {value}\n" not in told:
            sys.exit(f"{name}: {told[:200]}")
        steps = told.split("answered ok ")[1].split("\n")[0]
        taken = max(seconds - without, 0.0005)
        row(name, size // part, steps, taken, megabytes, before)
        before = taken


def main():
    resource.setrlimit(resource.RLIMIT_STACK, (8 << 20, 8 << 20))
    os.sched_setaffinity(0, {min(os.sched_getaffinity(0))})
    bench_read(1 << 20)
    bench("steps of a loop", numbers, 10_000_000)
    bench("steps of a loop over cells", cells, 10_000_000)
    bench("steps of a loop of calls", calls, 10_000_000)
    bench("steps of a loop that makes cells", structs, 1_000_000, 200_000)
    bench("calls in one another", deep, 10_000)
    bench("calls in one another", deep, 1_000_000)
    bench("steps in branches 4,095 deep", nested, 10_000_000)
    bench("locals", locals_of, 20_000)
    bench("functions", functions, 20_000)
    bench("structs in one another", held, 20_000)


if __name__ == "__main__":
    main()
