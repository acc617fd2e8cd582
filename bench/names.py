#!/usr/bin/env python3
"""Times the resolving of names of growing sources by `check`, on one processor: names of functions and types, scopes, patterns, circles
of mentions, takes, synonyms and kernels. Seconds, megabytes, and the ratio at each doubling, up to 1 MiB.

Each time is the least of three. Memory is what /usr/bin/time says.

usage: bench/names.py [PROGRAM]     PROGRAM is the built program (crates/cg_cli/out/cg_cli by default)
"""

from check import report
from read import MOST, filled

SIGNED = "f : U32 -> U32\nf x = "


def functions(call, size):
    """Functions with long names, as many as a source of 1 MiB may have at most, each of which calls another."""
    count = size // 256
    names = [f"function_{i}_".ljust(77, "n") for i in range(count)]
    lines = [f"{name} : U32 -> U32\n{name} x = {call(names, i)}\n" for i, name in enumerate(names)]
    return "".join(lines)


def before(names, i):
    return f"{names[i - 1]} x" if i else "x"


def behind(names, i):
    return f"{names[i + 1]} x" if i + 1 < len(names) else "x"


def around(names, i):
    return f"{names[(i + 1) % len(names)]} x"


def at_the_last(names, i):
    return f"{names[min(i + 1, len(names) - 1)]} x"


def dense(size):
    """Functions that each mention the 400 before them."""
    lines, total, i = [], 0, 0
    while True:
        values = "".join(f" and y{i} = f{i}" for i in range(max(0, i - 400), i))
        text = f"f{i} : U32 -> U32\nf{i} x = let y = x{values} in y\n"
        total += len(text)
        if total > size:
            return "".join(lines)
        lines.append(text)
        i += 1


def deep_patterns(size):
    """Functions whose parameters are tuples in tuples, 100 deep."""

    def one(i):
        variables = [f"x{k}" for k in range(100)]
        pattern = "".join(f"({variable}, " for variable in variables)
        return f"f{i} : U32 -> U32\nf{i} {pattern}x{')' * 100} = {' + '.join(variables)}\n"

    return filled(one, size)


def many_bindings(size):
    """Functions of 400 bindings, each of which mentions the first and the one before."""

    def one(i):
        values = "".join(f" and y{k + 1} = y{k} + y0" for k in range(400))
        return f"f{i} : U32 -> U32\nf{i} x = let y0 = x{values} in y400\n"

    return filled(one, size)


def many_arguments(size):
    """Functions that mention one with 60 type arguments."""
    variables = ", ".join(f"a{k}" for k in range(60))
    given = ", ".join(["U32", "{x : U8}"] * 30)
    return f"g : all ({variables}). U32\n" + filled(lambda i: f"f{i} : U32 -> U32\nf{i} x = g[{given}] x\n", size - 512)


def chain_from_behind(last, size):
    """Synonyms that each mention the one behind."""
    links = filled(lambda i: f"type T{i} = T{i + 1}\n", size - 32)
    return links + f"type T{links.count(chr(10))} = {last}\n"


def chain(first, link, size):
    """An item, and then items that each mention the one before."""
    return first + filled(link, size - len(first))


KINDS = {
    "functions": lambda size: functions(before, size),
    "functions from behind": lambda size: functions(behind, size),
    "a circle of all functions": lambda size: functions(around, size),
    "a circle at the last": lambda size: functions(at_the_last, size),
    "functions of many mentions": dense,
    "synonyms": lambda size: filled(lambda i: f"type T{i} = U8\n", size),
    "a chain of synonyms": lambda size: chain("type T0 = U8\n", lambda i: f"type T{i + 1} = T{i}\n", size),
    "a chain from behind": lambda size: chain_from_behind("U8", size),
    "a circle of synonyms": lambda size: chain_from_behind("T0", size),
    "synonyms with parameters": lambda size: chain("type T0 a = a\n", lambda i: f"type T{i + 1} a = T{i} a\n", size),
    "doubled synonyms": lambda size: chain("type T0 = U8\n", lambda i: f"type T{i + 1} = (T{i}, T{i})\n", size),
    "parameters in parameters": lambda size: chain("type T0 a = a\n", lambda i: f"type T{i + 1} a = T{i} (T{i} a)\n", size),
    "doubled parameters": lambda size: chain("type T0 a = (a, a)\n", lambda i: f"type T{i + 1} a = T{i} (T{i} a)\n", size),
    "takes of a chain": lambda size: chain("type T0 = {x : U8}\n", lambda i: f"type T{i + 1} = T{i} take (x)\n", size),
    "takes of parameters": lambda size: chain("type T0 a = a\n", lambda i: f"type T{i + 1} a = T{i} a\n", size - 64) + "f : T9 {x : U8} take (x)\n",
    "one long take": lambda size: "f : {x : U8, y : U8} take (x" + ", y" * ((size - 40) // 3) + ")\n",
    "records of 64 fields": lambda size: filled(lambda i: f"type T{i} = {{" + ", ".join(f"x{k} : U8" for k in range(64)) + "}\n", size),
    "the second of a name": lambda size: filled(lambda i: f"type T{i} = U8\n", size - 64) + "type T1 = U8\n",
    "type variables": lambda size: "f : all (" + filled(lambda i: f"a{i}, ", size - 16) + "a). a\n",
    "deep patterns": deep_patterns,
    "one wide pattern": lambda size: "f : U32\nf #{" + filled(lambda i: f"x{i}, ", size - 32) + "x} = x\n",
    "bindings": lambda size: SIGNED + "let y = x" + filled(lambda i: f" and y{i} = y", size - 48) + " in y\n",
    "bindings that hide": lambda size: SIGNED + "let x = x" + " and x = x + x" * ((size - 48) // 14) + " in x\n",
    "alternatives": lambda size: SIGNED + "x" + filled(lambda i: f" | A{i} y -> y", size - 48) + " | _ -> x\n",
    "observers": lambda size: SIGNED + "let y = x" + " !x" * ((size - 48) // 3) + " in y\n",
    "type arguments": many_arguments,
    "functions of 400 bindings": many_bindings,
    "wide sums": lambda size: filled(lambda i: f"f{i} : U32 -> U32\nf{i} x = " + " + ".join(["(x + x)"] * 400) + "\n", size),
    "kernels of medium size": lambda size: filled(
        lambda i: f"f{i} : #{{a : U32, b : <A U32 | B>}} -> U32\nf{i} #{{a, b}} = let c = a * {i} !a and (d, e) = (c, b) in\n"
        f"  if c < d && not (d == {i} + {' + '.join(['c'] * 40)}) then d else e\n    | A x -> x % 7\n    | B -> (let z = 1 in z : U32)\n",
        size,
    ),
}


def main():
    for name, source in KINDS.items():
        last = None
        for size in (MOST // 8, MOST // 4, MOST // 2, MOST):
            last = report(name, source(size), last)


if __name__ == "__main__":
    main()
