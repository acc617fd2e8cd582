#!/usr/bin/env python3
"""Times the reading of growing sources by `check`, on one processor: comments, items, types, patterns, expressions, bars, and deep
nesting. Seconds, megabytes, and the ratio at each doubling, up to 1 MiB.

Each time is the least of three. Memory is what /usr/bin/time says.

usage: bench/read.py [PROGRAM]     PROGRAM is the built program (crates/cg_cli/out/cg_cli by default)
"""

from check import report

MOST = 1 << 20


def filled(piece, size):
    """Copies of a piece, numbered, up to a size."""
    pieces, total = [], 0
    for i in range(size):
        text = piece(i)
        total += len(text)
        if total > size:
            break
        pieces.append(text)
    return "".join(pieces)


def within(opening, middle, closing, size):
    """One text that is opened as often as a size allows, and closed again."""
    count = (size - len(middle) - 64) // (len(opening) + len(closing))
    return opening * count + middle + closing * count


def medium(i):
    """A function of medium size."""
    return (
        f"f{i} : #{{a : U32, b : <A U32 | B>}} -> U32\n"
        f"f{i} #{{a, b}} = let c = a * {i} + (a .&. 0xff << 3) !a and (d, e) = g{i}[U32] (c, b) in\n"
        f"  if c < d && not (d == {i}) then h r {{val = c, tag}} e\n"
        "  else e\n    | A x -> x % 7\n    | B -> (let z = f 1 in z : U32)\n"
    )


def by_columns(size):
    """Matches in matches, each one column further to the right, and then a bar at each of these columns from the right."""
    lines, total, at = [], 0, 2
    while total + 2 * (at + 9) <= size - 16:
        lines.append(" " * at + "| A -> x\n")
        total += 2 * (at + 9)
        at += 1
    return "f x = x\n" + "".join(lines) + "".join(line.replace("A", "B") for line in reversed(lines))


KINDS = {
    "line comments": lambda size: filled(lambda i: f"-- a line, {i} {{- no block\n", size),
    "block comments": lambda size: filled(lambda i: f"{{- a {{- block {i} -}} - -}}\n", size),
    "nested comments": lambda size: within("{-", " ", "-}", size),
    "synonyms": lambda size: filled(lambda i: f"type T{i} a b = (a, {{x : b, y : U8}})\n", size),
    "signatures": lambda size: filled(lambda i: f"f{i} : all (a, b :< DS). #{{x : a}} -> T b U8!\n", size),
    "definitions": lambda size: filled(lambda i: f"f{i} (x, y {{a = z, b}}) = let w = x + z in w\n", size),
    "wide types": lambda size: "type T = (" + filled(lambda i: f"<A{i} (U8 -> T a!) | B> take (x, y), ", size - 20) + "U8)\n",
    "arrows": lambda size: "f : " + "U8 -> " * ((size - 16) // 6) + "U8\n",
    "deep types": lambda size: "f : " + within("(", "U8", ")", size - 8) + "\n",
    "deep patterns": lambda size: "f " + within("(", "x", ")", size - 16) + " = x\n",
    "bangs": lambda size: "f : a" + "!" * (size - 8) + "\n",
    "flat sum within the depth": lambda size: "f x = " + " + ".join(["x" * (size // 1024 - 4)] * 1000) + "\n",
    "sum beyond the depth": lambda size: "f x = x" + " + x" * ((size - 8) // 4) + "\n",
    "calls beyond the depth": lambda size: "f x = x" + " x" * ((size - 8) // 2) + "\n",
    "functions": lambda size: filled(medium, size),
    "alternatives on one line": lambda size: "f v = v" + filled(lambda i: f" | A{i} (x, _) -> x + {i}", size - 16) + "\n",
    "alternatives on lines": lambda size: "f v = v\n" + filled(lambda i: f"  | A{i} x -> g x {i}\n", size - 16),
    "observers": lambda size: "f x = let y = x" + " !x" * ((size - 32) // 3) + " in y\n",
    "bindings": lambda size: "f x = let y = x" + filled(lambda i: f" and y{i} = x .|. {i}", size - 32) + " in y\n",
    "conditions": lambda size: "f x = " + "if x then x else " * ((size - 16) // 17) + "x\n",
    "deep parentheses": lambda size: "f x = " + within("(", "x", ")", size - 16) + "\n",
    "parentheses left open": lambda size: "f x = " + "(" * (size - 16) + "\n",
    "deep bindings": lambda size: "f x = " + within("let y = ", "x", " !z in y", size - 16) + "\n",
    "deep conditions": lambda size: "f x = " + within("if x then ", "x", " else x", size - 16) + "\n",
    "deep matches": lambda size: "f x = " + within("(x | A -> ", "x", ")", size - 16) + "\n",
    "deep records": lambda size: "f x = " + within("#{a = ", "x", "}", size - 16) + "\n",
    "matches by columns": by_columns,
    "negations": lambda size: "f x = " + "not " * ((size - 16) // 4) + "x\n",
}


def main():
    for name, source in KINDS.items():
        before = None
        for size in (MOST // 8, MOST // 4, MOST // 2, MOST):
            before = report(name, source(size), before)


if __name__ == "__main__":
    main()
