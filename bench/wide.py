#!/usr/bin/env python3
"""Times `check` and `build` on sources whose nodes have wide types, on one processor: seconds and megabytes of each, with the status.

Each time is the least of three. Memory is what /usr/bin/time says.

usage: bench/wide.py [PROGRAM]     PROGRAM is the built program (crates/cg_cli/out/cg_cli by default)
"""

import os
import resource
import tempfile

from build import measure
from check import KINDS, MOST


def balanced(leaf, count):
    """A sum of so many leaves, no deeper than its logarithm."""
    if count == 1:
        return leaf
    return f"({balanced(leaf, count // 2)}+{balanced(leaf, count - count // 2)})"


def members(count):
    """So many times `q.b3.a5`, of a record of 15 records of 64 fields: 976 nodes of type."""
    inner = ", ".join(f"a{j} : U32" for j in range(64))
    outer = ", ".join(f"b{i} : #{{{inner}}}" for i in range(15))
    return f"type Q = #{{{outer}}}\nf : Q -> U32\nf q = {balanced('q.b3.a5', count)}\n"


def chain(steps, body, more):
    """Functions of one type variable, each of which calls the one before it at two types, and a plain one that calls the last."""
    lines = [more, f"f : () -> ()\nf x = p{steps}[U8] x\np0 : all a. () -> ()\np0 x = {body}\n"]
    for i in range(steps):
        lines.append(f"p{i + 1} : all a. () -> ()\np{i + 1} x = let y = p{i}[#{{l : a}}] x in p{i}[#{{m : a}}] y\n")
    return "".join(lines)


def alternatives(payload):
    return "< " + " | ".join(f"C{k} {payload}" for k in range(64)) + " >"


def match(value, result):
    return value + "\n" + "".join(f"  | C{k} p{k} -> {result(k)}\n" for k in range(64))


def matches_of_instances():
    """Some 2,000 instances, half of them of a function with two matches of 64 alternatives."""
    taken = match("(v", lambda k: f"p{k}").rstrip() + ")"
    return chain(10, f"let v = (C3 7 : V) and y = {taken} and z = {taken} in (x : ())", f"type V = {alternatives('U32')}\n")


def matches_of_records():
    """100 matches of 64 alternatives that are records of 14 fields."""
    record = "#{" + ", ".join(f"d{j} : U32" for j in range(14)) + "}"
    functions = (f"h{i} : V -> U32\nh{i} v = {match('v', lambda k: f'p{k}.d{i % 14}')}" for i in range(100))
    return f"type V = {alternatives(record)}\n" + "".join(functions)


SOURCES = {
    "5,000 members of a wide record": lambda: members(5000),
    "20,000 members of a wide record": lambda: members(20000),
    "94,000 members of a wide record": lambda: members(94000),
    "2,000 instances that match": matches_of_instances,
    "100 matches of records": matches_of_records,
    "records of 64 fields": lambda: KINDS["records of 64 fields"](MOST),
}


def main():
    resource.setrlimit(resource.RLIMIT_CORE, (0, 0))
    os.sched_setaffinity(0, {max(os.sched_getaffinity(0))})
    for name, source in SOURCES.items():
        text = source()
        with tempfile.TemporaryDirectory() as folder:
            with open(os.path.join(folder, "a.cg"), "w") as file:
                file.write(text)
            for words in (["check", "a.cg"], ["build", "a.cg", "a.c", "a.cert"]):
                seconds, megabytes, printed, status = min(measure(words, folder) for _ in range(3))
                print(f"{name:>32} {len(text):>9} bytes {words[0]:>6} {seconds:8.3f} s {megabytes:8.1f} MB  {status} {printed}", flush=True)


if __name__ == "__main__":
    main()
