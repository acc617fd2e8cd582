"""Worked rows on real files, and how a call of the program is made on them: what bench/refuse.py and bench/outside.py share."""

import os
import re
import stat
import subprocess
import sys
from dataclasses import dataclass, field
from typing import NamedTuple

TOP = os.path.dirname(os.path.dirname(os.path.abspath(__file__)))
PATIENCE = int(os.environ.get("PATIENCE", "60"))  # seconds that a call may take

USAGE = b"""usage: cogent check FILE
       cogent build FILE CFILE CERTFILE
       cogent recheck FILE CERTFILE
       cogent run FILE ENTRY HEAPFILE [--steps N]
       cogent gen N
"""

BUMP = b"""type Cell = {val : U32, tag : U8}
bump : Cell -> Cell
bump c = let c' {val = v} = c in c' {val = v + 1}
"""

BUMP_HEAP = b"@5 = {val = 4294967295, tag = 7}\narg = @5\n"

BUMP_C = b"""#include <stdint.h>
#include "cogent.h"

struct s0 {
    uint32_t m0;
    uint8_t m1;
};

struct s0 *f0(struct s0 *a0) {
    uint32_t x0;
    uint32_t x1;
    x0 = a0->m0;
    x1 = (uint32_t)((uint32_t)x0 + (uint32_t)1ull);
    a0->m0 = x1;
    return a0;
}
"""

BUMP_CERT = b"""cogent certificate 1
fun bump
take L
var
put -LR
var
op --L
var
lit
end
"""

NEW_AND_FREE = b"""type R = {x : U32}
f : SysState -> SysState
f s = let (s, r) = new[R] s in r
  | None -> s
  | Some p -> free[R] (s, p)
"""

APPEND = b"""-- A super block with a buffer.
type Super = {magic : U32, used : U32, buf : WordArray U8}
type Err = <BadMagic U32 | Full>
type Res = (Super, <Error Err | Success U32>)

sumf : #{elem : U8, acc : U32, obsv : ()!} -> U32
sumf r = r.acc + upcast r.elem

total : Super! -> U32
total s = wordarray_fold[U8, U32, ()] #{arr = s.buf, frm = 0,
  to = wordarray_length[U8] (s.buf), f = sumf, acc = 0, obsv = ()}

append : (Super, U8) -> Res
append (s, b) = if s.magic /= 4096 !s
  then let m = s.magic !s in (s, Error (BadMagic m))
  else let n = wordarray_length[U8] (s.buf) !s
       and u = s.used !s
       in if u >= n
          then (s, Error Full)
          else let s1 {buf = w, used = k} = s
               and w = wordarray_put[U8] (w, k, b)
               and s2 = s1 {buf = w, used = k + 1}
               and t = total s2 !s2
               in (s2, Success t)
"""

APPEND_HEAP = b"@1 = {magic = 4096, used = 1, buf = @2}\n@2 = [5, 0, 0, 0]\narg = (@1, 7)\n"


def seven(value, cost, new, freed, kept):
    """What a run prints, with its steps left open as `known_steps` leaves them."""
    return f"value: {value}\nc: {value}\ncost: {cost}\nsteps: *\nnew: {new}\nfreed: {freed}\nkept: {kept}\n".encode()


def known_steps(printed):
    """What was printed, with `*` for a number of steps within the bound of its cost."""
    found = re.search(rb"^cost: (\d+)\nsteps: (\d+)$", printed, re.MULTILINE)
    if found and int(found[2]) <= 32 * int(found[1]) + 32:
        return printed[: found.start(2)] + b"*" + printed[found.end(2) :]
    return printed


BUMP_RAN = seven("{val = 0, tag = 7}", 8, 0, 0, 1)
APPEND_RAN = seven("({magic = 4096, used = 2, buf = [5, 7, 0, 0]}, Success 12)", 105, 0, 0, 2)
GEN_THREE = b"ok: 3 functions, 3 instances\n" + seven("{val = 18, tag = 0}", 34, 0, 0, 1)


def chain(functions):
    """A source of small functions of which each calls the one before it, as that of `gen`."""
    lines = ["type Cell = {val : U32, tag : U8}\n"]
    for i in range(1, functions + 1):
        called = f"f{i - 1} c" if i > 1 else "c"
        lines.append(f"f{i} : Cell -> Cell\nf{i} c = let c' {{val = v}} = {called} in c' {{val = v * 3 + {i}}}\n")
    return "".join(lines).encode()


@dataclass
class Row:
    """A call on files, and its answer: its words, the files that are there before, status, what is printed, and files that are written."""

    name: str
    words: list
    status: int
    printed: bytes
    before: dict = field(default_factory=dict)
    written: dict = field(default_factory=dict)


class Ran(NamedTuple):
    """What a call came to. The status is that of subprocess, below 0 for a signal; None where it didn't end in time."""

    status: int | None
    printed: bytes
    complained: bytes


def program_of(words):
    """The built program: the first word, or the one of this repository."""
    program = os.path.abspath(words[0] if words else f"{TOP}/crates/cg_cli/out/cg_cli")
    if not os.access(program, os.X_OK):
        sys.exit(f"{program}: no program there (./cogent --build makes it)")
    return program


def call(program, words, folder, started=lambda child: None, **how):
    """A call of the program in a folder, which is ended where it takes too long. `started` is told of the process."""
    how = {"stdin": subprocess.DEVNULL, "stdout": subprocess.PIPE, "stderr": subprocess.PIPE, "cwd": folder, **how}
    with subprocess.Popen([program, *words], **how) as child:
        started(child)
        try:
            printed, complained = child.communicate(timeout=PATIENCE)
        except subprocess.TimeoutExpired:
            child.kill()
            child.wait()
            return Ran(None, b"", b"")
    return Ran(child.returncode, known_steps(printed or b""), complained or b"")


def put(folder, files):
    """Writes files by their names."""
    for name, contents in files.items():
        with open(os.path.join(folder, name), "wb") as file:
            file.write(contents)


def standing(folder):
    """The regular files of a folder and of those in it with their contents, links not followed."""
    files = {}
    for where, _, names in os.walk(folder):
        for path in (os.path.join(where, name) for name in names):
            if stat.S_ISREG(os.lstat(path).st_mode):
                with open(path, "rb") as file:
                    files[os.path.relpath(path, folder)] = file.read()
    return files


def shown(contents):
    """A few of some bytes."""
    return repr(contents if len(contents) <= 200 else contents[:200]) + (f" .. {len(contents)} bytes" if len(contents) > 200 else "")


def changes(wanted, found):
    """A line for each file that isn't as it should be."""
    for name in sorted(wanted.keys() | found.keys()):
        if wanted.get(name) != found.get(name):
            yield " ".join(
                f"{name} {verb} {'absent' if contents is None else shown(contents)}"
                for verb, contents in (("should be", wanted.get(name)), ("and is", found.get(name)))
            )
