#!/usr/bin/env python3
"""Times the typing of growing sources by `check`, on one processor: small and deep functions, records, matches, observers, type arguments,
and sources that a rule refuses at their end. Seconds, megabytes, and the ratio at each doubling, up to 1 MiB.

Each time is the least of three. Memory is what /usr/bin/time says.

usage: bench/check.py [PROGRAM]     PROGRAM is the built program (crates/cg_cli/out/cg_cli by default)
"""

import os
import resource
import subprocess
import sys
import tempfile
import time

TOP = os.path.dirname(os.path.dirname(os.path.abspath(__file__)))
PROGRAM = os.path.abspath(sys.argv[1] if len(sys.argv) > 1 else f"{TOP}/crates/cg_cli/out/cg_cli")
MOST = 1 << 20


def filled(first, piece, size, last=""):
    """An item, copies of a piece, numbered, up to a size, and a last item."""
    pieces, total = [first], len(first) + len(last)
    for i in range(4095 if last else 4096):
        text = piece(i)
        total += len(text)
        if total > size:
            break
        pieces.append(text)
    return "".join([*pieces, last])


def small_functions(size, last=""):
    """Functions of 256 bytes, of which each calls the one before it, adds, and binds a name; 4,096 of them are 1 MiB."""

    def one(i):
        called = f"f{i - 1} x" if i else "x"
        text = f"f{i} : U32 -> U32\nf{i} x = let y = {called} in y + {i} + x"
        return text + " + x + 4294967295" * ((255 - len(text)) // 17) + "\n"

    return filled("", one, size, last)


def nested(lets, terms):
    """One function of nested lets round a balanced sum of so many terms."""

    def balanced(first, past):
        if past - first == 1:
            return "x" if first % 2 else f"y{lets - 1}"
        middle = (first + past) // 2
        return f"({balanced(first, middle)} + {balanced(middle, past)})"

    bound = "".join(f" let y{i} = {f'y{i - 1}' if i else 'x'} + x in\n" for i in range(lets))
    return f"f : U32 -> U32\nf x =\n{bound} {balanced(0, terms)}\n"


def deep_function(size):
    """One function of 480 nested lets round as many terms as a size allows."""
    few, many = len(nested(480, 1000)), len(nested(480, 9000))
    return nested(480, 1000 + (size - few) * 8000 // (many - few) - 200)


def wide_records(size):
    """Functions that take the 64 fields of a record and put them back, each into the place of its neighbour."""
    first = "type R = {" + ", ".join(f"a{k} : U32" for k in range(64)) + "}\n"
    taken = ", ".join(f"a{k} = x{k}" for k in range(64))
    put = ", ".join(f"a{k} = x{(k + 1) % 64}" for k in range(64))
    return filled(first, lambda i: f"f{i} : R -> R\nf{i} r = let s {{{taken}}} = r in s {{{put}}}\n", size)


def wide_matches(size):
    """Functions that match on 64 alternatives."""
    first = "type V = <" + " | ".join(f"A{k} U32" for k in range(64)) + ">\n"
    alternatives = "".join(f"  | A{k} x -> x + {k}\n" for k in range(64))
    return filled(first, lambda i: f"f{i} : V -> U32\nf{i} v = v\n{alternatives}", size)


def observers(size):
    """Functions of 400 bindings, each of which observes two linear records."""
    first = "type R = {val : U32, tag : U8}\n"
    bound = "".join(f" and x{k + 1} = r.val + x{k} + q.val !r !q" for k in range(399))

    def one(i):
        return f"f{i} : (R, R) -> (R, R, U32)\nf{i} (r, q) = let x0 = r.val + {i} !r{bound}\n  in (r, q, x399)\n"

    return filled(first, one, size)


def linear_bindings(size, last=""):
    """Functions of 100 bindings, each of which hands two linear values on."""
    first = "step : (SysState, {x : U8}) -> (SysState, {x : U8})\n"
    bound = "".join(" and (s, r) = step (s, r)" for _ in range(99))

    def one(i):
        return f"f{i} : (SysState, {{x : U8}}) -> (SysState, {{x : U8}})\nf{i} (s, r) = let (s, r) = step (s, r){bound}\n  in step (s, r)\n"

    return filled(first, one, size, last)


def type_arguments(size):
    """Functions of 20 calls at a type of 511 nodes."""
    first = "type T0 = U32\n" + "".join(f"type T{k + 1} = (T{k}, T{k})\n" for k in range(8)) + "id : all a. a -> a\n"
    opened, closed = "id[T8] (" * 20, ")" * 20
    return filled(first, lambda i: f"f{i} : T8 -> T8\nf{i} x = {opened}x{closed}\n", size)


def written_arguments(size):
    """Functions of calls at written types of 60 nodes."""
    first = "swap : all (a, b). (a, b) -> (b, a)\n"
    pairs = ", ".join(["{x : U8, y : U64}!"] * 10)
    call = f"swap[({pairs}), <A U8 | B ({pairs})>]"
    return filled(first, lambda i: f"f{i} : () -> ()\nf{i} x = let y = {call} and z = {call} in x\n", size)


DOUBLED = "let a = (x, x)" + " and a = (a, a)" * 9

KINDS = {
    "4,096 small functions": small_functions,
    "one deep function": deep_function,
    "records of 64 fields": wide_records,
    "matches of 64": wide_matches,
    "observers": observers,
    "linear bindings": linear_bindings,
    # each call holds its type arguments, its function's type and its own as trees: half a megabyte
    "type arguments, a 64th": lambda size: type_arguments(size // 64),
    "written type arguments": written_arguments,
    "K3 at the end": lambda size: linear_bindings(size, "g : (SysState, {x : U8}) -> SysState\ng (s, r) = let (s, q) = step (s, r) in s\n"),
    "K4 at the end": lambda size: linear_bindings(size, "g : SysState -> (SysState, SysState)\ng s = (s, s)\n"),
    "T1 at the last": lambda size: small_functions(size, "g : U32 -> U32\ng x = f0 (f0 x + ())\n"),
    "limit: type at the last": lambda size: small_functions(size, f"g : U32 -> U32\ng x = {DOUBLED} in x\n"),
}


def measure(text):
    """Seconds and megabytes of one check, and what it printed, with its status."""
    with tempfile.TemporaryDirectory() as folder:
        with open(os.path.join(folder, "a.cg"), "w") as file:
            file.write(text)
        timed = ["/usr/bin/time", "-q", "-o", "memory", "-f", "%M", PROGRAM]
        begin = time.perf_counter()
        child = subprocess.run([*timed, "check", "a.cg"], stdout=subprocess.PIPE, cwd=folder)
        seconds = time.perf_counter() - begin
        with open(os.path.join(folder, "memory")) as file:
            megabytes = int(file.read()) / 1024
    return seconds, megabytes, child.stdout.decode().strip(), child.returncode


def report(name, text, before):
    seconds, megabytes, printed, status = min(measure(text) for _ in range(3))
    ratio = f"{seconds / before:5.2f}" if before else "     "
    print(f"{name:>24} {len(text):>9} bytes {seconds:8.3f} s {megabytes:8.1f} MB {ratio}  {status} {printed}")
    return seconds


def main():
    resource.setrlimit(resource.RLIMIT_CORE, (0, 0))
    os.sched_setaffinity(0, {max(os.sched_getaffinity(0))})
    for name, source in KINDS.items():
        before = None
        for size in (MOST // 8, MOST // 4, MOST // 2, MOST):
            before = report(name, source(size), before)


if __name__ == "__main__":
    main()
