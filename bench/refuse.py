#!/usr/bin/env python3
"""Refuses memory: calls on real files in which each request for memory of the program is refused in turn, one alone in each call.

A call whose k-th request is refused has to end with status 5, with nothing printed and files as docs/LANGUAGE.md, "Commands", says, or just as the
call without a refusal; and it gives back what it took, as that call does. Of each row the requests are counted first. Files that are to be
written are there before, with other contents, or they aren't. The program asks the C library for memory (malloc, realloc); bench/refuse.c stands
before these, compiled by gcc. Calls are made side by side on all processors that are given.

usage: bench/refuse.py [PROGRAM [ROW ..]]     PROGRAM is the built program (crates/cg_cli/out/cg_cli by default), ROW a beginning of rows' names

A call may take 60 seconds, or as many as the variable PATIENCE of the environment says. Status 1 where something differs.
"""

import multiprocessing
import os
import resource
import shutil
import subprocess
import sys
import tempfile
import time

from rows import (
    APPEND,
    APPEND_HEAP,
    APPEND_RAN,
    BUMP,
    BUMP_C,
    BUMP_CERT,
    BUMP_HEAP,
    BUMP_RAN,
    GEN_THREE,
    NEW_AND_FREE,
    TOP,
    Row,
    call,
    chain,
    changes,
    program_of,
    put,
    seven,
    shown,
    standing,
)

BUILD = ["build", "a.cg", "a.c", "a.cert"]
RUN = ["run", "a.cg"]
OLD = {"a.c": b"the C text of before\n", "a.cert": b"the certificate of before\n"}

ROWS = [
    Row("bump check", ["check", "a.cg"], 0, b"ok: 1 functions\n", {"a.cg": BUMP}),
    Row("bump build", BUILD, 0, b"ok: 1 functions, 1 instances\n", {"a.cg": BUMP}, {"a.c": BUMP_C, "a.cert": BUMP_CERT}),
    Row("bump build over files", BUILD, 0, b"ok: 1 functions, 1 instances\n", {"a.cg": BUMP, **OLD}, {"a.c": BUMP_C, "a.cert": BUMP_CERT}),
    Row("bump run", [*RUN, "bump", "h"], 0, BUMP_RAN, {"a.cg": BUMP, "h": BUMP_HEAP}),
    Row("bump run in few steps", [*RUN, "bump", "h", "--steps", "7"], 6, b"step limit 7 reached\n", {"a.cg": BUMP, "h": BUMP_HEAP}),
    Row("new and free, no", [*RUN, "f", "h"], 0, seven("<>", 12, 0, 0, 1), {"a.cg": NEW_AND_FREE, "h": b"@1 = <>\narg = @1\n"}),
    Row("new and free, yes", [*RUN, "f", "h"], 0, seven("<>", 18, 1, 1, 1), {"a.cg": NEW_AND_FREE, "h": b"@1 = <1>\narg = @1\n"}),
    Row("recheck", ["recheck", "a.cg", "a.cert"], 0, b"ok\n", {"a.cg": BUMP, "a.cert": BUMP_CERT}),
    Row(
        "recheck of another mark",
        ["recheck", "a.cg", "a.cert"],
        8,
        b"a.cert: C2 at node 2\n",
        {"a.cg": BUMP, "a.cert": BUMP_CERT.replace(b"take L", b"take R")},
    ),
    Row("append run", [*RUN, "append", "h"], 0, APPEND_RAN, {"a.cg": APPEND, "h": APPEND_HEAP}),
    Row("gen three", ["gen", "3"], 0, GEN_THREE),
    Row("200 functions build", BUILD, 0, b"ok: 200 functions, 200 instances\n", {"a.cg": chain(200)}, {"a.c": None, "a.cert": None}),
    Row("200 functions build over files", BUILD, 0, b"ok: 200 functions, 200 instances\n", {"a.cg": chain(200), **OLD}, {"a.c": None, "a.cert": None}),
]

# What each process that makes calls works with.
place = {}


def begin(program, shim, top):
    """Gives a process a folder of its own, and what all have."""
    resource.setrlimit(resource.RLIMIT_CORE, (0, 0))
    place.update(program=program, shim=shim, report=tempfile.mktemp(dir=top), folder=tempfile.mkdtemp(dir=top))


def refusing(number, row):
    """A call of a row with one request refused, and none where the number is 0: what it came to, what then stands, and the counts."""
    shutil.rmtree(place["folder"])
    os.mkdir(place["folder"])
    put(place["folder"], row.before)
    with open(place["report"], "w"):
        pass
    told = {"LD_PRELOAD": place["shim"], "REFUSE_NUMBER": str(number), "REFUSE_REPORT": place["report"]}
    ran = call(place["program"], row.words, place["folder"], env={**os.environ, **told})
    with open(place["report"]) as file:
        counts = [int(word) for word in file.read().split()]
    return ran, standing(place["folder"]), counts


def files_at_5(row, whole):
    """The ways in which files may stand after status 5: as before, with the first file written, or with both."""
    stand = dict(row.before)
    yield stand
    for name in row.written:
        stand = {**stand, name: whole[name]}
        yield stand


def refused(task):
    """One call with a refusal: whether a request was refused, which of the two answers came, and what differs from both."""
    number, row, whole, kept = task
    ran, stand, counts = refusing(number, row)
    if ran.status is None or ran.status < 0 or not counts:
        ended = "takes too long" if ran.status is None else f"ends with status {ran.status}"
        return True, None, [f"{ended}, printed {shown(ran.printed)}, {shown(ran.complained)}"]
    differs = [f"{counts[2]} blocks aren't given back, and {kept} without a refusal"] if counts[2] != kept else []
    if (ran.status, ran.printed, ran.complained) == (row.status, row.printed, b"") and stand == whole:
        return counts[1] == 1, row.status, differs
    if ran.status != 5 or ran.printed or ran.complained:
        differs.append(f"status {ran.status}, printed {shown(ran.printed)}, {shown(ran.complained)}")
    elif all(stand != allowed for allowed in files_at_5(row, whole)):
        differs.extend(["status 5 with files that stand otherwise", *changes(row.before, stand)])
    return counts[1] == 1, 5, differs


def counted(row):
    """A call without a refusal: what differs from the row, what stands afterwards, and the counts."""
    ran, stand, counts = refusing(0, row)
    if not counts:
        sys.exit(f"{row.name}: bench/refuse.c isn't loaded, or the program ended by {ran.status}: {ran.complained.decode()}")
    differs = []
    if (ran.status, ran.printed, ran.complained) != (row.status, row.printed, b""):
        differs.append(f"no refusal: status {ran.status}, printed {shown(ran.printed)}, {shown(ran.complained)}")
    written = {name: stand.get(name) if contents is None else contents for name, contents in row.written.items()}
    differs.extend(changes({**row.before, **written}, stand))
    return differs, stand, counts


def report(pool, row):
    """Goes through a row: how many calls, how many of them as the row, how many with status 5, and how many differ."""
    began = time.perf_counter()
    differs, whole, (requests, _, kept) = counted(row)
    for line in differs:
        print(f"{row.name}: {line}")
    tasks = ((number, row, whole, kept) for number in range(1, requests + 2))
    runs = same = fives = wrong = 0
    for number, (met, status, differs) in enumerate(pool.imap(refused, tasks, chunksize=8), 1):
        if not met:
            break
        runs, wrong = runs + 1, wrong + bool(differs)
        same, fives = same + (not differs and status == row.status), fives + (not differs and status == 5)
        for line in differs:
            print(f"{row.name}: request {number}: {line}")
    if runs != requests:
        print(f"{row.name}: {requests} requests were counted, and {runs} refused")
    seconds = time.perf_counter() - began
    print(f"{row.name:>31} {requests:>7} requests, {kept} kept {same:>6} as the row {fives:>7} with status 5 {wrong:>3} differ {seconds:8.1f} s", flush=True)
    return runs, same, fives, wrong + (not runs == requests) + bool(counted(row)[0])


def shim_of(program, top):
    """Compiles bench/refuse.c, after a look at how the program takes memory."""
    names = subprocess.run(["nm", "-D", "--undefined-only", program], capture_output=True, text=True).stdout.split()
    wanted = {name.split("@")[0] for name in names}
    if "malloc" not in wanted:
        sys.exit(f"{program}: doesn't take memory by the malloc of a C library that is loaded, so none can be refused in this way")
    others = wanted & {"calloc", "aligned_alloc", "posix_memalign", "memalign", "mmap", "sbrk", "brk"}
    if others:
        sys.exit(f"{program}: takes memory also by {', '.join(sorted(others))}, which bench/refuse.c doesn't refuse")
    shim = os.path.join(top, "refuse.so")
    subprocess.run(["gcc", "-O1", "-Wall", "-fPIC", "-shared", "-o", shim, f"{TOP}/bench/refuse.c"], check=True)
    return shim


def main():
    program = program_of(sys.argv[1:2])
    rows = [row for row in ROWS if not sys.argv[2:] or row.name.startswith(tuple(sys.argv[2:]))]
    totals = [0, 0, 0, 0]
    with tempfile.TemporaryDirectory() as top:
        shim = shim_of(program, top)
        begin(program, shim, top)
        with multiprocessing.Pool(len(os.sched_getaffinity(0)), begin, (program, shim, top)) as pool:
            for row in rows:
                totals = [sum(pair) for pair in zip(totals, report(pool, row))]
    print("{} runs, {} as the row, {} with status 5, {} differences".format(*totals))
    sys.exit(1 if totals[3] else 0)


if __name__ == "__main__":
    main()
