#!/usr/bin/env python3
"""Times evaluations, on one processor: seconds and megabytes, and the ratio at each doubling.

The program is the one that goes through cases (docs/CASES.md), on files of one case each; what a case costs without its evaluation,
with a budget that is too small, is taken off. Each time is the least of three.

usage: bench/eval.py [PROGRAM]     PROGRAM is the built program (crates/cg_driver_cases/out/cg_driver_cases by default)
"""

import os
import resource
import subprocess
import sys
import tempfile
import time

TOP = os.path.dirname(os.path.dirname(os.path.abspath(__file__)))
PROGRAM = os.path.abspath(sys.argv[1] if len(sys.argv) > 1 else f"{TOP}/crates/cg_driver_cases/out/cg_driver_cases")
BUDGET = 1 << 40


def over(lib, count):
    """`map` or `fold` over an array of so many bytes."""
    if lib == "map":
        turn = "turn : #{elem : U8, acc : U32, obsv : ()!} -> (U8, U32)\nturn x = (x.elem + 1, x.acc + 1)\n"
        body = "f a = let (a, n) = wordarray_map[U8, U32, ()] #{arr = a, frm = 0, to = 4294967295, f = turn, acc = 0, obsv = ()} in let m = wordarray_length[U8] a !a in (a, n, m)\n"
        return f"{turn}f : WordArray U8 -> (WordArray U8, U32, U32)\n{body}", f"[\\{count}{{0,}}]"
    turn = "turn : #{elem : U8, acc : U32, obsv : ()!} -> U32\nturn x = x.acc + upcast x.elem\n"
    body = "f a = wordarray_fold[U8, U32, ()] #{arr = a, frm = 0, to = 4294967295, f = turn, acc = 0, obsv = ()}\n"
    return f"{turn}f : (WordArray U8)! -> U32\n{body}", f"[\\{count}{{1,}}]"


def loop(lib, count, body="r.acc + 1", before=""):
    """A loop of so many turns, each of which evaluates this."""
    word = "U64" if lib == "seq64" else "U32"
    if lib == "seq32_break":
        turn = f"turn : #{{acc : U32, obsv : ()!, idx : U32}} -> (U32, <Break () | Iterate ()>)\nturn r = (r.acc + 1, Iterate ())\n"
        call = "let (n, b) = seq32_break[U32, (), ()] #{frm = 0, to = n, step = 1, f = turn, acc = 0, obsv = ()} in n"
    else:
        turn = f"turn : #{{acc : U32, obsv : ()!, idx : {word}}} -> U32\nturn r = {body}\n"
        call = f"{lib}[U32, ()] #{{frm = 0, to = n, step = 1, f = turn, acc = 0, obsv = ()}}"
    return f"{before}{turn}f : {word} -> U32\nf n = {call}\n", str(count)


FORMS = [
    ("sums", "r.acc + 1 + 2 + 3 + 4 + 5 + 6 + 7", ""),
    ("conditions", "if r.acc < 7 then r.acc + 1 else if r.acc == 9 then 3 else r.acc + 2", ""),
    ("records", "let x = #{a = r.acc, b = (1 : U32), c = True} in x.a + x.b", ""),
    ("takes and puts", "let x = #{a = r.acc, b = (1 : U32)} in let x {a = y} = x in let x = x {a = y + 1} in x.a", ""),
    ("matches", "(Some r.acc : <None | Some U32>) | None -> 0 | Some y -> y + 1", ""),
    ("calls", "g (g (g r.acc))", "g : U32 -> U32\ng x = x + 1\n"),
    ("calls at types", "id[U32] (id[U32] (id[U32] r.acc))", "id : all a. a -> a\nid x = x\n"),
]


def deep(functions):
    """Functions of which each has a loop of one turn that calls the one before it."""
    lines = ["t0 : #{acc : U32, obsv : ()!, idx : U32} -> U32\nt0 r = r.acc + 1\n"]
    for i in range(1, functions):
        call = f"seq32[U32, ()] #{{frm = 0, to = 1, step = 1, f = t{i - 1}, acc = r.acc, obsv = ()}}"
        lines.append(f"t{i} : #{{acc : U32, obsv : ()!, idx : U32}} -> U32\nt{i} r = {call}\n")
    lines.append(f"f : U32 -> U32\nf n = seq32[U32, ()] #{{frm = 0, to = 1, step = 1, f = t{functions - 1}, acc = n, obsv = ()}}\n")
    return "".join(lines), "1"


def measure(text, argument, budget):
    """Seconds and megabytes of one evaluation, and what it printed."""
    with tempfile.TemporaryDirectory() as folder:
        with open(os.path.join(folder, "x.cases"), "w") as file:
            file.write(f"% eval f {argument} {budget}\n" + "".join(f"|{line}\n" for line in text.splitlines()) + "= ?\n")
        timed = ["/usr/bin/time", "-q", "-o", "memory", "-f", "%M", PROGRAM, "x.cases"]
        begin = time.perf_counter()
        child = subprocess.run(timed, stdout=subprocess.PIPE, cwd=folder)
        seconds = time.perf_counter() - begin
        with open(os.path.join(folder, "memory")) as file:
            megabytes = int(file.read()) / 1024
    return seconds, megabytes, child.stdout.decode()


def cost_in(printed):
    """The cost in what a case was answered, or None."""
    for line in printed.splitlines():
        if line.startswith("cost: "):
            return int(line[6:])
    return None


def least(text, argument, budget):
    return min((measure(text, argument, budget) for _ in range(3)), key=lambda m: m[0])


def bench(name, make, size):
    before = None
    for part in (8, 4, 2, 1):
        text, argument = make(size // part)
        seconds, megabytes, printed = least(text, argument, BUDGET)
        without, _, _ = least(text, argument, 1)
        cost = cost_in(printed)
        if cost is None:
            sys.exit(f"{name}: answered {printed[:200]}")
        taken = seconds - without
        ratio = "" if before is None else f"{taken / before:6.2f}"
        before = taken
        print(f"{name:40} {size // part:9} {cost:10} {taken:8.3f} s {megabytes:8.1f} MB {ratio}", flush=True)


def main():
    resource.setrlimit(resource.RLIMIT_STACK, (1 << 20, 1 << 20))
    os.sched_setaffinity(0, {min(os.sched_getaffinity(0))})
    for lib in ("map", "fold"):
        bench(f"turns of {lib}", lambda size, lib=lib: over(lib, size), 1_000_000)
    for lib in ("seq32", "seq64", "seq32_break"):
        bench(f"turns of {lib}", lambda size, lib=lib: loop(lib, size), 1_000_000)
    for name, body, functions in FORMS:
        bench(f"a loop of {name}", lambda size, body=body, functions=functions: loop("seq32", size, body, functions), 100_000)
    bench("calls in one another", deep, 4_000)


main()
