#!/usr/bin/env python3
"""The program among real files: pipes, folders, devices, names, permissions, sizes, outputs and limits of the system.

Each row says the words of a call, the status, the bytes printed, and what stands afterwards: every file of its folder that it doesn't name has to
stand as before, and nothing goes to standard error. Expected answers are those of docs/LANGUAGE.md, "Commands", and docs/PROMISES.md, "The real
outside". A row that the system may end in more ways has each of them, and what came is printed. Nothing waits for ever.

usage: bench/outside.py [PROGRAM [ROW ..]]     PROGRAM is the built program (crates/cg_cli/out/cg_cli by default), ROW a beginning of rows' names

A call may take 60 seconds, or as many as the variable PATIENCE of the environment says. Status 1 where something differs. Where root starts it, rows about permissions are of another user; else of the one that starts it.
"""

import os
import queue
import resource
import shutil
import signal
import socket
import sys
import tempfile
import threading
import time
from contextlib import ExitStack, contextmanager
from dataclasses import dataclass, field

from rows import (
    BUMP,
    BUMP_C,
    BUMP_CERT,
    BUMP_HEAP,
    BUMP_RAN,
    PATIENCE,
    USAGE,
    Row,
    call,
    chain,
    changes,
    known_steps,
    program_of,
    put,
    seven,
    shown,
    standing,
)

NOBODY = 65534
CHECK, BUILD, RUN = ["check", "a.cg"], ["build", "a.cg", "a.c", "a.cert"], ["run", "a.cg", "bump", "h"]
CHECKED, BUILT = b"ok: 1 functions\n", b"ok: 1 functions, 1 instances\n"
SOURCE, HEAP = {"a.cg": BUMP}, {"a.cg": BUMP, "h": BUMP_HEAP}
OLD = {"a.c": b"the C text of before\n" * 100, "a.cert": b"the certificate of before\n" * 100}
BOTH = {"a.c": BUMP_C, "a.cert": BUMP_CERT}
LONG_HEAP = b"@1 = [" + b", ".join([b"7"] * 65536) + b"]\narg = @1\n"
LONG = {"a.cg": b"f : WordArray U8 -> WordArray U8\nf w = w\n", "h": LONG_HEAP}
LONG_RAN = seven("[" + ", ".join(["7"] * 65536) + "]", 1, 0, 0, 1)


@dataclass
class Outside(Row):
    """A row with what stands round its call. `sides` are context managers over the folder, which give options of the call and, where they are
    the other side of a pipe, take note of what came through it; `others` are further answers, each a status, what is printed, and files."""

    sides: list = field(default_factory=list)
    others: list = field(default_factory=list)


# What stands round a call


def side(make):
    """A context manager over the folder and what has come through pipes, with its other arguments given first."""
    return lambda *given: lambda folder, taken: contextmanager(make)(folder, taken, *given)


@side
def made(folder, taken, make):
    """Something made in the folder beforehand."""
    make(folder)
    yield {}


@side
def child(folder, taken, do):
    """Something done in the process before the program begins."""
    yield {"child": do}


def let_go(fifo, thread):
    """Ends the other side of a pipe, also where the program never opened it."""
    thread.join(0.2)
    held = os.open(fifo, os.O_RDWR | os.O_NONBLOCK)
    thread.join(0.2)
    os.close(held)
    thread.join()


def write_pieces(open_end, pieces, pause=0.0):
    """Writes pieces to an end of a pipe until they are written or nobody reads."""
    try:
        with open_end() as end:
            for piece in pieces:
                end.write(piece)
                end.flush()
                time.sleep(pause)
    except BrokenPipeError:
        pass


@side
def fed(folder, taken, name, pieces, squeezed=None):
    """A named pipe that is fed pieces; before the first of them the program, which waits there, gets limits."""
    fifo, processes = os.path.join(folder, name), queue.Queue()
    os.mkfifo(fifo)

    def open_end():
        end = open(fifo, "wb")
        if squeezed:
            squeezed(processes.get(timeout=PATIENCE).pid)
        return end

    thread = threading.Thread(target=write_pieces, args=(open_end, pieces, 0.05), daemon=True)
    thread.start()
    yield {"started": processes.put}
    let_go(fifo, thread)


@side
def drained(folder, taken, name, most=-1):
    """A named pipe that is read to its end, or whose reader leaves after so many bytes."""
    fifo = os.path.join(folder, name)
    os.mkfifo(fifo)

    def read():
        with open(fifo, "rb", buffering=0) as end:
            taken[name] = end.readall() if most < 0 else end.read(most)

    thread = threading.Thread(target=read, daemon=True)
    thread.start()
    yield {}
    let_go(fifo, thread)


@side
def input_fed(folder, taken, pieces):
    """Standard input that is a pipe which is fed pieces."""
    front, back = os.pipe()
    thread = threading.Thread(target=write_pieces, args=(lambda: open(back, "wb"), pieces, 0.05), daemon=True)
    thread.start()
    yield {"stdin": front}
    os.close(front)
    thread.join()


@side
def output_to(folder, taken, name, mode="wb"):
    """Standard output that is a file or a device."""
    with open(os.path.join(folder, name), mode) as file:
        yield {"stdout": file}


@side
def output_read(folder, taken, pause, most=-1):
    """Standard output that is a pipe which is read after a pause, to its end or so far; with 0 bytes its reader has left before."""
    front, back = os.pipe()

    def read():
        time.sleep(pause)
        with open(front, "rb", buffering=0) as end:
            taken["output"] = b"" if most == 0 else end.read(most) if most > 0 else known_steps(end.readall())

    thread = threading.Thread(target=read, daemon=True)
    thread.start()
    if most == 0:
        thread.join()
    # The program alone holds the other end once it has begun, so that its reader sees the end.
    yield {"stdout": back, "started": lambda process: os.close(back)}
    thread.join()


@side
def output_stuck(folder, taken):
    """Standard output that is a pipe which doesn't wait for its reader, who comes when the program has ended."""
    front, back = os.pipe()
    os.set_blocking(back, False)
    yield {"stdout": back, "started": lambda process: os.close(back)}
    with open(front, "rb") as end:
        taken["output"] = end.read()


def as_nobody():
    """Goes on as a user whom permissions bind."""
    if os.getuid() == 0:
        os.setgroups([])
        os.setgid(NOBODY)
        os.setuid(NOBODY)


def closes(*numbers):
    """Closes descriptors in the process."""
    return child(lambda: [os.close(number) for number in numbers])


def limits(kind, value):
    """Sets a limit of the system in the process."""
    return child(lambda: resource.setrlimit(kind, (value, value)))


def ignores(number):
    """Lets the process ignore a signal."""
    return child(lambda: signal.signal(number, signal.SIG_IGN))


@side
def modes(folder, taken, *named):
    """Gives files and folders their modes for the call, and an owner whom these bind."""
    paths = [(os.path.join(folder, name), mode) for name, mode in named]
    for path, mode in paths:
        if os.getuid() == 0:
            os.chown(path, NOBODY, NOBODY)
        os.chmod(path, mode)
    yield {}
    for path, _ in paths:
        os.chmod(path, 0o700)


def folders(*names):
    return made(lambda folder: [os.mkdir(os.path.join(folder, name)) for name in names])


def linked(name, target, link=os.symlink):
    """A link in the folder: a symbolic one to a text, or another one to a file of the folder."""
    return made(lambda folder: link(target if link is os.symlink else os.path.join(folder, target), os.path.join(folder, name)))


def grown(name, size):
    """Makes a file as long as said, with zeros that take no room."""
    return made(lambda folder: os.truncate(os.path.join(folder, name), size))


def bound(folder):
    """A socket, which no file call opens."""
    with socket.socket(socket.AF_UNIX) as one:
        where = os.getcwd()
        os.chdir(folder)
        one.bind("socket")
        os.chdir(where)


def in_lost_folder():
    """Goes on in a folder that is gone."""
    os.mkdir("gone")
    os.chdir("gone")
    os.rmdir("../gone")


def no_more_files(pid):
    resource.prlimit(pid, resource.RLIMIT_NOFILE, (3, 3))


def no_more_memory(megabytes):
    """Leaves a process only so much more room for addresses."""

    def squeeze(pid):
        with open(f"/proc/{pid}/statm") as file:
            held = int(file.read().split()[0]) * resource.getpagesize()
        resource.prlimit(pid, resource.RLIMIT_AS, (held + (megabytes << 20),) * 2)

    return squeeze


# The rows


def row(name, words, status, printed, before, written=None, *sides, others=()):
    return Outside(name, words, status, printed, before, written or {}, list(sides), list(others))


def unread(name):
    return os.fsencode(name) + b": cannot be read\n"


def unwritten(name):
    return os.fsencode(name) + b": cannot be written\n"


def pipes():
    cut = BUMP[: BUMP.index(b"let") + 3]
    thousand = chain(1000)
    yield row("pipe as input", ["check", "/dev/stdin"], 0, CHECKED, {}, {}, input_fed([BUMP]))
    yield row("pipe as input in pieces", ["check", "/dev/stdin"], 0, CHECKED, {}, {}, input_fed([BUMP[:9], BUMP[9:40], BUMP[40:]]))
    yield row("pipe as FILE", ["check", "p"], 0, CHECKED, {}, {}, fed("p", [BUMP]))
    yield row("pipe as FILE of build", ["build", "p", "a.c", "a.cert"], 0, BUILT, OLD, BOTH, fed("p", [BUMP]))
    yield row("pipe as HEAPFILE", [*RUN[:3], "p"], 0, BUMP_RAN, SOURCE, {}, fed("p", [BUMP_HEAP[:3], BUMP_HEAP[3:]]))
    yield row("pipe as CERTFILE of recheck", ["recheck", "a.cg", "p"], 0, b"ok\n", SOURCE, {}, fed("p", [BUMP_CERT]))
    yield row("pipe without bytes", ["check", "p"], 0, b"ok: 0 functions\n", {}, {}, fed("p", []))
    yield row("pipe that ends early, between items", ["check", "p"], 0, b"ok: 0 functions\n", {}, {}, fed("p", [BUMP[: BUMP.index(b"bump")]]))
    yield row("pipe that ends early, in an item", ["check", "p"], 1, b"p:3:13: S3 unexpected token\n", {}, {}, fed("p", [cut[:30], cut[30:]]))
    yield row("pipe that is too long", ["check", "p"], 9, b"limit: source\n", {}, {}, fed("p", [b" " * (1 << 21)]))
    yield row("pipe as CFILE", ["build", "a.cg", "p", "a.cert"], 0, BUILT, SOURCE, {"p": BUMP_C, "a.cert": BUMP_CERT}, drained("p"))
    yield row("pipe as CERTFILE", ["build", "a.cg", "a.c", "p"], 0, BUILT, SOURCE, {"a.c": BUMP_C, "p": BUMP_CERT}, drained("p"))
    yield row(
        "pipe as CFILE whose reader leaves",
        ["build", "a.cg", "p", "a.cert"],
        4,
        unwritten("p"),
        {"a.cg": thousand},
        {"p": b"#"},
        drained("p", 1),
    )
    yield row("output as CFILE", ["build", "a.cg", "/dev/stdout", "a.cert"], 0, BUMP_C + BUILT, SOURCE, {"a.cert": BUMP_CERT})


def devices():
    yield row("null as FILE", ["check", "/dev/null"], 0, b"ok: 0 functions\n", {})
    yield row("null as CFILE", ["build", "a.cg", "/dev/null", "a.cert"], 0, BUILT, SOURCE, {"a.cert": BUMP_CERT})
    yield row("null as CERTFILE", ["build", "a.cg", "a.c", "/dev/null"], 0, BUILT, SOURCE, {"a.c": BUMP_C})
    yield row("null as HEAPFILE", [*RUN[:3], "/dev/null"], 7, b"/dev/null:1: H1 not in the heap grammar\n", SOURCE)
    yield row("null as CERTFILE of recheck", ["recheck", "a.cg", "/dev/null"], 8, b"/dev/null: C1 at byte 0\n", SOURCE)
    yield row("endless FILE", ["check", "/dev/zero"], 9, b"limit: source\n", {})
    yield row("endless HEAPFILE", [*RUN[:3], "/dev/zero"], 9, b"limit: heap\n", SOURCE)
    yield row("endless CERTFILE of recheck", ["recheck", "a.cg", "/dev/zero"], 9, b"limit: certificate\n", SOURCE)
    yield row("full CFILE", ["build", "a.cg", "/dev/full", "a.cert"], 4, unwritten("/dev/full"), {**SOURCE, **OLD})
    yield row("full CERTFILE", ["build", "a.cg", "a.c", "/dev/full"], 4, unwritten("/dev/full"), {**SOURCE, **OLD}, {"a.c": BUMP_C})
    yield row("file of the kernel, whose length is told as 0", ["check", "/proc/self/comm"], 1, b"/proc/self/comm:2:1: S3 unexpected token\n", {})
    yield row("file that can be opened and not read", ["check", "/proc/self/mem"], 3, unread("/proc/self/mem"), {})
    yield row("socket as FILE", ["check", "socket"], 3, unread("socket"), {}, {}, made(bound))
    yield row("socket as CFILE", ["build", "a.cg", "socket", "a.cert"], 4, unwritten("socket"), SOURCE, {}, made(bound))
    yield row("running program as CFILE", ["build", "a.cg", "../cogent", "a.cert"], 4, unwritten("../cogent"), SOURCE)


def directories():
    yield row("folder as FILE", ["check", "d"], 3, unread("d"), {}, {}, folders("d"))
    yield row("folder as CFILE", ["build", "a.cg", "d", "a.cert"], 4, unwritten("d"), {**SOURCE, **OLD}, {}, folders("d"))
    yield row("folder as CERTFILE", ["build", "a.cg", "a.c", "d"], 4, unwritten("d"), {**SOURCE, **OLD}, {"a.c": BUMP_C}, folders("d"))
    yield row("folder as HEAPFILE", [*RUN[:3], "d"], 3, unread("d"), SOURCE, {}, folders("d"))
    yield row("folder as CERTFILE of recheck", ["recheck", "a.cg", "d"], 3, unread("d"), SOURCE, {}, folders("d"))
    yield row("slash behind FILE", ["check", "a.cg/"], 3, unread("a.cg/"), SOURCE)
    yield row("slash behind CFILE", ["build", "a.cg", "a.c/", "a.cert"], 4, unwritten("a.c/"), SOURCE)
    yield row("name below a file", ["build", "a.cg", "a.c/b", "a.cert"], 4, unwritten("a.c/b"), {**SOURCE, **OLD})
    yield row("CFILE in no folder", ["build", "a.cg", "d/a.c", "a.cert"], 4, unwritten("d/a.c"), {**SOURCE, **OLD})
    yield row("folder that is gone", BUILD[:2] + ["a.c", "a.cert"], 3, unread("a.cg"), SOURCE, {}, child(in_lost_folder))


def names():
    for name, words in (
        ("FILE", ["check", b"a\xff.cg"]),
        ("CFILE", ["build", "a.cg", b"\xff", "a.cert"]),
        ("ENTRY", ["run", "a.cg", b"\xc3", "h"]),
        ("command", [b"\x80"]),
    ):
        yield row(f"{name} that isn't UTF-8", words, 2, USAGE, {**HEAP, **OLD, b"a\xff.cg".decode(errors="surrogateescape"): BUMP})
    yield row("name with a line feed", ["check", "a\nb"], 3, unread("a\nb"), {})
    yield row("names with spaces and letters", ["build", "a b.cg", "é.c", " "], 0, BUILT, {"a b.cg": BUMP}, {"é.c": BUMP_C, " ": BUMP_CERT})
    yield row("name of 255 bytes", ["check", "a" * 255], 0, CHECKED, {"a" * 255: BUMP})
    yield row("name of 256 bytes", ["check", "a" * 256], 3, unread("a" * 256), {})
    yield row("name of 256 bytes as CFILE", ["build", "a.cg", "a" * 256, "a.cert"], 4, unwritten("a" * 256), SOURCE)
    yield row("name of 100,000 bytes", ["check", "a" * 100000], 3, unread("a" * 100000), {})
    yield row("empty FILE", ["check", ""], 3, unread(""), {})
    yield row("empty CFILE", ["build", "a.cg", "", "a.cert"], 4, unwritten(""), {**SOURCE, **OLD})
    yield row("empty CERTFILE", ["build", "a.cg", "a.c", ""], 4, unwritten(""), {**SOURCE, **OLD}, {"a.c": BUMP_C})
    yield row("empty HEAPFILE", [*RUN[:3], ""], 3, unread(""), SOURCE)
    yield row("hyphen as a name", ["check", "-"], 0, CHECKED, {"-": BUMP}, {}, input_fed([b"f"]))
    yield row("names behind --", ["build", "--", "-x", "--", "--steps"], 0, BUILT, {"-x": BUMP}, {"--": BUMP_C, "--steps": BUMP_CERT})


def many_words():
    yield row("no words", [], 2, USAGE, SOURCE)
    yield row("10,000 words of check", ["check"] + ["a.cg"] * 10000, 2, USAGE, SOURCE)
    yield row("10,000 words of build", ["build"] + [f"{i}" for i in range(10000)], 2, USAGE, SOURCE)
    yield row("10,000 options", RUN + ["--steps", "8"] * 5000, 2, USAGE, HEAP)
    yield row("10,000 empty words", [""] * 10000, 2, USAGE, SOURCE)


def same_files():
    twice = {"a.c": BUMP_CERT}
    yield row("CFILE is FILE", ["build", "a.cg", "a.cg", "a.cert"], 2, USAGE, SOURCE)
    yield row("CERTFILE is CFILE", ["build", "a.cg", "a.c", "a.c"], 2, USAGE, {**SOURCE, **OLD})
    yield row("CFILE is FILE by another text", ["build", "a.cg", "./a.cg", "a.cert"], 0, BUILT, SOURCE, {"a.cg": BUMP_C, "a.cert": BUMP_CERT})
    yield row("CERTFILE is CFILE by another text", ["build", "a.cg", "a.c", ".//a.c"], 0, BUILT, SOURCE, twice)
    yield row("CFILE is a link to FILE", BUILD, 0, BUILT, SOURCE, {"a.cg": BUMP_C, "a.cert": BUMP_CERT}, linked("a.c", "a.cg"))
    yield row(
        "CFILE is FILE by a hard link",
        BUILD,
        0,
        BUILT,
        SOURCE,
        {"a.cg": BUMP_C, "a.c": BUMP_C, "a.cert": BUMP_CERT},
        linked("a.c", "a.cg", os.link),
    )
    yield row("CFILE is a link to no file", BUILD, 0, BUILT, SOURCE, {"b": BUMP_C, "a.cert": BUMP_CERT}, linked("a.c", "b"))
    yield row("CFILE is a link to itself", BUILD, 4, unwritten("a.c"), SOURCE, {}, linked("a.c", "a.c"))
    yield row("FILE is a link to itself", CHECK, 3, unread("a.cg"), {}, {}, linked("a.cg", "a.cg"))
    yield row("FILE as its certificate", ["recheck", "a.cg", "a.cg"], 8, b"a.cg: C1 at byte 0\n", SOURCE)
    yield row("FILE as its heap", [*RUN[:3], "a.cg"], 7, b"a.cg:1: H1 not in the heap grammar\n", SOURCE)
    yield row("longer files before", BUILD, 0, BUILT, {**SOURCE, **OLD}, BOTH)


def sizes():
    most, heap_most, certificate_most = 1 << 20, 1 << 24, 1 << 26
    heap = BUMP_HEAP + b" " * (heap_most - len(BUMP_HEAP))
    yield row("source of 1,048,576 bytes", CHECK, 0, b"ok: 0 functions\n", {"a.cg": b" " * most})
    yield row("source of 1,048,577 bytes", CHECK, 9, b"limit: source\n", {"a.cg": b" " * (most + 1)})
    yield row("source of 1,048,577 bytes, build", BUILD, 9, b"limit: source\n", {"a.cg": b" " * (most + 1), **OLD})
    yield row("heap of 16,777,216 bytes", RUN, 0, BUMP_RAN, {**SOURCE, "h": heap})
    yield row("heap of 16,777,217 bytes", RUN, 9, b"limit: heap\n", {**SOURCE, "h": heap + b" "})
    longest = {**SOURCE, "a.cert": bytes(certificate_most)}
    yield row("certificate of 67,108,864 bytes", ["recheck", "a.cg", "a.cert"], 8, b"a.cert: C1 at byte 0\n", longest)
    yield row(
        "certificate of 67,108,865 bytes",
        ["recheck", "a.cg", "a.cert"],
        9,
        b"limit: certificate\n",
        {**SOURCE, "a.cert": b""},
        {"a.cert": bytes(certificate_most + 1)},
        grown("a.cert", certificate_most + 1),
    )


def permissions():
    nobody = child(as_nobody)
    yield row("FILE that may not be read", CHECK, 3, unread("a.cg"), SOURCE, {}, modes(("a.cg", 0o200)), nobody)
    yield row("HEAPFILE that may not be read", RUN, 3, unread("h"), HEAP, {}, modes(("h", 0o200)), nobody)
    yield row("CFILE that may not be written", BUILD, 4, unwritten("a.c"), {**SOURCE, **OLD}, {}, modes(("a.c", 0o400), ("a.cert", 0o600)), nobody)
    yield row(
        "CERTFILE that may not be written",
        BUILD,
        4,
        unwritten("a.cert"),
        {**SOURCE, **OLD},
        {"a.c": BUMP_C},
        modes(("a.c", 0o600), ("a.cert", 0o400)),
        nobody,
    )
    yield row("CFILE that may only be written", BUILD, 0, BUILT, {**SOURCE, **OLD}, BOTH, modes(("a.c", 0o200), ("a.cert", 0o200)), nobody)
    below = ["build", "a.cg", "d/a.c", "d/a.cert"]
    yield row("folder that may be written", below, 0, BUILT, SOURCE, {"d/a.c": BUMP_C, "d/a.cert": BUMP_CERT}, folders("d"), modes(("d", 0o700)), nobody)
    yield row("folder that may only be read", below, 4, unwritten("d/a.c"), SOURCE, {}, folders("d"), modes(("d", 0o500)), nobody)
    yield row("folder that may not be entered", ["check", "d/a.cg"], 3, unread("d/a.cg"), {}, {}, folders("d"), modes(("d", 0o600)), nobody)
    # A file is written in place, so what is there can be written though its folder may not.
    in_place = modes(("a.c", 0o600), ("a.cert", 0o600), (".", 0o500))
    yield row("files in a folder that may only be read", BUILD, 0, BUILT, {**SOURCE, **OLD}, BOTH, in_place, nobody)


def outputs():
    closed, broken = closes(1), output_read(0, 0)
    for name, words, before, written in (
        ("check", CHECK, SOURCE, {}),
        ("build", BUILD, {**SOURCE, **OLD}, BOTH),
        ("run", RUN, HEAP, {}),
        ("gen", ["gen", "3"], {}, {}),
        ("refusal", ["check", "h"], HEAP, {}),
        ("usage text", [], SOURCE, {}),
    ):
        yield row(f"closed output, {name}", words, 4, b"", before, written, closed)
        yield row(f"full output, {name}", words, 4, b"", before, written, output_to("/dev/full"))
        yield row(f"output without a reader, {name}", words, 4, b"", before, {**written, "output": b""}, broken)
    yield row("output without a reader, signal ignored", BUILD, 4, b"", SOURCE, {**BOTH, "output": b""}, broken, ignores(signal.SIGPIPE))
    yield row("null as output", BUILD, 0, b"", SOURCE, BOTH, output_to("/dev/null"))
    yield row("file as output", CHECK, 0, b"", {**SOURCE, "o": b"old\n"}, {"o": b"old\n" + CHECKED}, output_to("o", "ab"))
    yield row("input as output, for reading alone", CHECK, 4, b"", {**SOURCE, "o": b"old\n"}, {}, output_to("o", "rb"))
    yield row("long output, slow reader", ["run", "a.cg", "f", "h"], 0, b"", LONG, {"output": LONG_RAN}, output_read(0.5))
    yield row("long output, reader leaves", ["run", "a.cg", "f", "h"], 4, b"", LONG, {"output": LONG_RAN[:1]}, output_read(0, 1))
    yield row("long output, reader comes too late", ["run", "a.cg", "f", "h"], 4, b"", LONG, {"output": LONG_RAN[: 1 << 16]}, output_stuck())


def limited():
    files, space = resource.RLIMIT_FSIZE, resource.RLIMIT_AS
    quiet, no_core = ignores(signal.SIGXFSZ), (-signal.SIGXFSZ, b"")
    small, none = {"a.c": BUMP_C[:100]}, {"a.c": b""}
    yield row("closed input", CHECK, 0, CHECKED, SOURCE, {}, closes(0))
    yield row("closed input as FILE", ["check", "/dev/stdin"], 3, unread("/dev/stdin"), SOURCE, {}, closes(0))
    yield row("closed input and error output", BUILD, 0, BUILT, SOURCE, BOTH, closes(0, 2))
    yield row("all closed", BUILD, 4, b"", SOURCE, BOTH, closes(0, 1, 2))
    yield row("files of 0 bytes, signal ignored", BUILD, 4, unwritten("a.c"), {**SOURCE, **OLD}, none, limits(files, 0), quiet)
    yield row("files of 100 bytes, signal ignored", BUILD, 4, unwritten("a.c"), {**SOURCE, **OLD}, small, limits(files, 100), quiet)
    yield row("files of 0 bytes", BUILD, 4, unwritten("a.c"), {**SOURCE, **OLD}, none, limits(files, 0), others=[(*no_core, none)])
    yield row("files of 100 bytes", BUILD, 4, unwritten("a.c"), {**SOURCE, **OLD}, small, limits(files, 100), others=[(*no_core, small)])
    yield row("output of 5 bytes", CHECK, 4, b"", SOURCE, {"o": CHECKED[:5]}, limits(files, 5), output_to("o"), others=[(*no_core, {"o": CHECKED[:5]})])
    yield row("no more files, CERTFILE of recheck", ["recheck", "p", "a.cert"], 3, unread("a.cert"), {"a.cert": BUMP_CERT}, {}, fed("p", [BUMP], no_more_files))
    yield row("no more files, HEAPFILE", ["run", "p", "bump", "h"], 3, unread("h"), HEAP, {}, fed("p", [BUMP], no_more_files))
    yield row("no more files, CFILE", ["build", "p", "a.c", "a.cert"], 4, unwritten("a.c"), OLD, {}, fed("p", [BUMP], no_more_files))
    many = chain(4000)
    whole, built = (0, b"ok: 4000 functions\n", {}), (0, b"ok: 4000 functions, 4000 instances\n", {})
    build = ["build", "p", "/dev/null", "/dev/../dev/null"]
    yield row("no more memory", ["check", "p"], 5, b"", {}, {}, fed("p", [many], no_more_memory(0)))
    for megabytes in (1, 4, 16, 64):
        squeezed = fed("p", [many], no_more_memory(megabytes))
        yield row(f"{megabytes} MiB more memory, check", ["check", "p"], 5, b"", {}, {}, squeezed, others=[whole])
        yield row(f"{megabytes} MiB more memory, build", build, 5, b"", {}, {}, squeezed, others=[built])
    yield row("room for 64 MiB, gen", ["gen", "4096"], 5, b"", {}, {}, limits(space, 64 << 20), others=[(0, None, {})])


GROUPS = [pipes, devices, directories, names, many_words, same_files, sizes, permissions, outputs, limited]


# Calls


def together(options):
    """The options of a call, joined: what is done in the process in the order given, and who is told of it."""
    joined, inside, told = {}, [], []
    for option in options:
        inside += [option.pop("child")] if "child" in option else []
        told += [option.pop("started")] if "started" in option else []
        joined.update(option)
    return {**joined, "preexec_fn": lambda: [do() for do in inside], "started": lambda process: [tell(process) for tell in told]}


def done(program, one, top):
    """Makes the call of a row in a new folder; what it came to, and what then stands or came through pipes."""
    folder = os.path.join(top, "folder")
    os.mkdir(folder)
    put(folder, one.before)
    taken = {}
    with ExitStack() as stack:
        options = together([stack.enter_context(each(folder, taken)) for each in one.sides])
        ran = call(program, one.words, folder, **options)
    found = {**standing(folder), **taken}
    shutil.rmtree(folder)
    return ran, found


def differences(one, answer, ran, found):
    """A line for each way in which a call isn't as an answer says. What is None isn't asked."""
    status, printed, written = answer
    if ran.status != status:
        yield f"status {ran.status} and not {status}"
    if printed is not None and ran.printed != printed:
        yield f"printed {shown(ran.printed)} and not {shown(printed)}"
    if ran.complained:
        yield f"on standard error {shown(ran.complained)}"
    yield from changes({**one.before, **written}, found)


def judged(program, one, top):
    """Whether a row differs; what differs, and which of several answers came, is printed."""
    ran, found = done(program, one, top)
    answers = [(one.status, one.printed, one.written), *one.others]
    lines = [list(differences(one, answer, ran, found)) for answer in answers]
    if [] not in lines:
        print(f"{one.name}: {'; '.join(lines[0])}", flush=True)
        return True
    if len(answers) > 1:
        print(f"{one.name}: came to {ran.status}", flush=True)
    return False


def main():
    resource.setrlimit(resource.RLIMIT_CORE, (0, 0))
    wanted = tuple(sys.argv[2:]) or ("",)
    rows = [one for group in GROUPS for one in group() if one.name.startswith(wanted)]
    with tempfile.TemporaryDirectory() as top:
        os.chmod(top, 0o755)
        program = shutil.copy(program_of(sys.argv[1:2]), os.path.join(top, "cogent"))
        os.chmod(program, 0o755)
        wrong = sum(judged(program, one, top) for one in rows)
    print(f"{len(rows)} rows, {wrong} differences")
    sys.exit(1 if wrong else 0)


if __name__ == "__main__":
    main()
