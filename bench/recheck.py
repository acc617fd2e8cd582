#!/usr/bin/env python3
"""Times `recheck` beside `check` on growing sources, on one processor: small and deep functions and variables of large types with their
certificates, with marks that hand all variables to both sides, variables that are dropped at the end of many branches, certificates that
are refused at their end, and one as long as the limit of certificates allows. Seconds, megabytes, the ratio at each doubling, and how many
times the time of `check`.

Each time is the least of three. Memory is what /usr/bin/time says.

usage: bench/recheck.py [PROGRAM]     PROGRAM is the built program (crates/cg_cli/out/cg_cli by default)
"""

import functools
import operator
import os
import resource
import subprocess
import sys
import tempfile
import time

TOP = os.path.dirname(os.path.dirname(os.path.abspath(__file__)))
PROGRAM = os.path.abspath(sys.argv[1] if len(sys.argv) > 1 else f"{TOP}/crates/cg_cli/out/cg_cli")
MOST = 1 << 20
MOST_OF_CERTIFICATE = 67_108_864


# A term is the word of its node, the variables that occur in it as bits, its parts, and its text. A `let` binds in its second part.


def var(i, name):
    return ("var", 1 << i, (), name)


def lit(n):
    return ("lit", 0, (), str(n))


def add(a, b):
    return ("op", a[1] | b[1], (a, b), f"({a[3]} + {b[3]})")


def call(name, x):
    return ("app", x[1], (("fun", 0, (), name), x), f"({name} {x[3]})")


UNIT = ("unit", 0, (), "()")
TRUE = ("bool", 0, (), "True")


def applied(function, x):
    return ("app", function[1] | x[1], (function, x), f"{function[3]} {x[3]}")


def choice(condition, a, b):
    return ("if", condition[1] | a[1] | b[1], (condition, a, b), f"if {condition[3]} then {a[3]} else\n {b[3]}")


def let(count, name, value, body):
    """In a context of so many variables."""
    return ("let", value[1] | body[1] & ~(1 << count), (value, body), f"let {name} = {value[3]} in\n {body[3]}")


DIGITS = str.maketrans("01234567", "----RRLB")


def marks(count, present, first, rest):
    """The mark of each variable at a split, in order of binding."""
    wide = [int(format(bits & present, "b"), 16) for bits in (present, first, rest)]
    return format(4 * wide[0] + 2 * wide[1] + wide[2], f"0{count}x")[::-1].translate(DIGITS)


def lines(term, count, present, told, lavish):
    """The lines of a term in a context of so many variables, of which these are present. Where marks are lavish, each goes to both sides."""
    word, _, parts, _ = term
    if not parts:
        told.append(word)
        return
    first, *later = parts
    new = 1 if word == "let" else 0
    used = functools.reduce(operator.or_, (part[1] for part in later)) & ~(new << count)
    left, right = (present, present) if lavish else (first[1], used)
    told.append(f"{word} {marks(count, present, left, right)}")
    lines(first, count, present & left, told, lavish)
    for part in later:
        lines(part, count + new, present & ~(left & ~right) | new << count, told, lavish)


def written(functions, ty="U32 -> U32", first="", lavish=False):
    """A source of functions of one type, behind a first text, and its certificate."""
    source, told = [first], ["cogent certificate 1"]
    for name, body in functions:
        source.append(f"{name} : {ty}\n{name} x = {body[3]}\n")
        told.append(f"fun {name}")
        lines(body, 1, 1, told, lavish)
    return "".join(source), "\n".join([*told, "end", ""])


def small_functions(size):
    """Functions of 256 bytes, of which each calls the one before it, adds, and binds a name."""
    functions = []
    for i in range(size // 256):
        x, y = var(0, "x"), var(1, "y")
        body = add(add(y, lit(i)), x)
        while len(body[3]) < 160:
            body = add(add(body, x), lit(4294967295))
        functions.append((f"f{i}", let(1, "y", call(f"f{i - 1}", x) if i else x, body)))
    return written(functions)


def deep(lets, terms):
    """One function of nested lets round a balanced sum of so many terms."""

    def balanced(first, past):
        if past - first == 1:
            return var(0, "x") if first % 2 else var(lets, f"y{lets - 1}")
        middle = (first + past) // 2
        return add(balanced(first, middle), balanced(middle, past))

    body = balanced(0, terms)
    for i in reversed(range(lets)):
        before = var(i, f"y{i - 1}") if i else var(0, "x")
        body = let(i + 1, f"y{i}", add(before, var(0, "x")), body)
    return written([("f", body)])


def deep_function(size):
    """A deep function of 60 variables in about so many bytes."""
    return deep(60, size // 9)


LARGE = "type T0 a = a\n" + "".join(f"type T{k + 1} a = (T{k} a, T{k} a)\n" for k in range(8))


def large_types(lavish):
    """Functions of 400 variables, each of a type of 511 nodes that may be shared and dropped."""

    def made(size):
        body = var(400, "y399")
        for i in reversed(range(400)):
            body = let(i + 1, f"y{i}", var(0, "x"), body)
        functions = [(f"f{i}", body) for i in range(size // len(body[3]))]
        return written(functions, "all (a :< DSE). T8 a -> T8 a", LARGE, lavish)

    return made


def branches(size):
    """Functions of 280 variables, each of a type of 511 nodes that may only be dropped, and is at the end of each of 201 branches."""
    body = lit(200)
    for i in reversed(range(200)):
        body = choice(TRUE, lit(i), body)
    for i in reversed(range(280)):
        body = let(i + 1, f"y{i}", applied(var(0, "x"), UNIT), body)
    functions = [(f"f{i}", body) for i in range(-(-size // len(body[3])))]
    return written(functions, "all (a :< D). (() -> T8 a) -> U32", LARGE)


def a_part(most, kind):
    """The same of sources that are as many times shorter."""
    return lambda size: kind(size // most)


def as_long_as_may_be(_size):
    """A certificate of nearly as many bytes as may be, by marks of 480 variables at each node."""
    few, many = len(deep(480, 1000)[1]), len(deep(480, 3000)[1])
    source, text = deep(480, 1000 + (MOST_OF_CERTIFICATE - few) * 2000 // (many - few))
    assert MOST_OF_CERTIFICATE * 99 // 100 < len(text) <= MOST_OF_CERTIFICATE
    return source, text


def changed(kind, old, new):
    """The same with the last of these exchanged in the certificate."""

    def made(size):
        source, text = kind(size)
        at = text.rindex(old)
        return source, text[:at] + new + text[at + len(old) :]

    return made


KINDS = {
    "small functions": small_functions,
    "one deep function": deep_function,
    # each node holds its type as a tree
    "large types, a 16th": a_part(16, large_types(False)),
    "the same, all for both": a_part(16, large_types(True)),
    "dropped, a 16th": a_part(16, branches),
    "C2 at the last node": changed(small_functions, "lit\n", "unit\n"),
    "C3 behind the last node": changed(small_functions, "end\n", "var\nend\n"),
    "C1 at the last line": changed(small_functions, "end\n", "ent\n"),
}


def measure(words, files):
    """Seconds and megabytes of one call, and what it printed, with its status."""
    with tempfile.TemporaryDirectory() as folder:
        for name, text in files.items():
            with open(os.path.join(folder, name), "w") as file:
                file.write(text)
        timed = ["/usr/bin/time", "-q", "-o", "memory", "-f", "%M", PROGRAM]
        begin = time.perf_counter()
        child = subprocess.run([*timed, *words], stdout=subprocess.PIPE, cwd=folder)
        seconds = time.perf_counter() - begin
        with open(os.path.join(folder, "memory")) as file:
            megabytes = int(file.read()) / 1024
    return seconds, megabytes, child.stdout.decode().strip(), child.returncode


def report(name, source, text, before):
    files = {"a.cg": source, "a.cert": text}
    seconds, megabytes, printed, status = min(measure(["recheck", "a.cg", "a.cert"], files) for _ in range(3))
    checked = min(measure(["check", "a.cg"], files) for _ in range(3))[0]
    ratio = f"{seconds / before:5.2f}" if before else "     "
    print(
        f"{name:>24} {len(source):>9} and {len(text):>9} bytes {seconds:8.3f} s {megabytes:8.1f} MB {ratio}"
        f"  {seconds / checked:5.2f} times check  {status} {printed}"
    )
    return seconds


def main():
    resource.setrlimit(resource.RLIMIT_CORE, (0, 0))
    os.sched_setaffinity(0, {max(os.sched_getaffinity(0))})
    sys.setrecursionlimit(10_000)
    for name, kind in KINDS.items():
        before = None
        for size in (MOST // 8, MOST // 4, MOST // 2, MOST):
            before = report(name, *kind(size), before)
    report("as long as may be", *as_long_as_may_be(MOST), None)


if __name__ == "__main__":
    main()
