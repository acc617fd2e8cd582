#!/usr/bin/env python3
"""A campaign of differential tests, outside the gate: the program against a reference implementation, on random and changed inputs.

An input is a list of words with the files beside it. Sources, certificates, heap files and words are random, or valid ones with
bytes, tokens or lines changed; one source serves some twenty inputs of all commands. Of an input these are compared: what is
printed, the status, and the files afterwards. CFILE's bytes hang on the lowering, so that only its being written is compared,
and in one of twenty rounds the reference reads it and runs its functions. `steps:` need only stand within the bound.

An input whose answers differ is made small and kept in a folder of its own under DIR: its files, and difference.txt with the
words and both answers. Two of a kind are kept by each process, the others only counted; a kind is the command, the two statuses
and what differs. Each minute a line is printed, and last a table of inputs by command and status, and 'K inputs, D differences'.
The status is 1 where D > 0.

usage: bench/campaign.py --reference FOLDER [--minutes M] [--seed S] [--jobs N] [--keep DIR] [--cases PROGRAM] [PROGRAM]

M is 60 where it isn't given, S 1, N the number of processors, DIR out/campaign. --cases gives the built program of
crates/cg_driver_cases, which reads and runs C texts: those that `build` wrote are then changed and handed to it too. PROGRAM is the
built program (crates/cg_cli/out/cg_cli by default).

FOLDER is a reference implementation in Python: a package oracle and a folder tools, with these names:

    oracle.front                    load_kernel, check, Fault, Limit
    oracle.evaluate                 deep
    oracle.driver                   read_words, SHAPES, Stop, RealFiles, holds_closed, mono, lower
    oracle.ctext, oracle.cmachine   print_c, read_c, CFault; run_c, Stuck, Budget
    oracle.heap, oracle.heaptext    FlatStore; read_heap, HeapFault
    oracle.fuzz                     Source, Heap, spoil, changed, C_WORDS
    tools/compare                   Early, same, judge_c, judge_run, instances, mono
    tools/sources                   small, at_limits, mistaken, occurrences, any_splits, changed
"""

import argparse
import glob
import importlib
import multiprocessing
import os
import queue
import random
import re
import resource
import shlex
import shutil
import subprocess
import sys
import tempfile
import time
import traceback
from collections import Counter, namedtuple

import deep

TOP = os.path.dirname(os.path.dirname(os.path.abspath(__file__)))
USAGE = b"""usage: cogent check FILE
       cogent build FILE CFILE CERTFILE
       cogent recheck FILE CERTFILE
       cogent run FILE ENTRY HEAPFILE [--steps N]
       cogent gen N
"""
SHAPES = {"check": (1, 1), "build": (3, 3), "recheck": (2, 2), "run": (3, 3), "gen": (1, 1)}
STATUSES = [*range(10), None]
SECONDS = 20            # for a run of the program
REDUCE_SECONDS = 30     # for making one input small
KEPT = 2                # of each kind, by each process
LOOK = 20               # in one of so many rounds the C text is read and run
MOST_COST = 20000       # of a run that the reference is asked for
MOST_GEN = 64           # the greatest number for `gen` that it is asked for
DEEP_AND_WIDE = 6000    # of a deep source, the depth times the width at most

# Words, files by name, and whether the C text is looked at. Words that begin with `%` are a case for the cases program.
Input = namedtuple("Input", "words files look", defaults=(False,))
# What is printed, the status (None where there is no answer), and the files that changed, None for one that is gone.
Answer = namedtuple("Answer", "printed status files")


class Ended(Exception):
    """The time of the campaign is over."""


# The reference


def remembered(call):
    """The call, which gives its last answer again where it gets the same objects again."""
    last = []

    def inner(*given):
        if not last or len(last[0]) != len(given) or any(a is not b for a, b in zip(last[0], given)):
            last[:] = [given, call(*given)]
        return last[1]

    return inner


class Reference:
    """The reference, held in memory, with the commands and rules that this program has."""

    def __init__(self, folder):
        sys.path[:0] = [folder, os.path.join(folder, "tools")]
        self.compare, self.sources = importlib.import_module("compare"), importlib.import_module("sources")
        for name in ("cmachine", "ctext", "driver", "evaluate", "front", "fuzz", "heap", "heaptext"):
            setattr(self, name, importlib.import_module(f"oracle.{name}"))
        self.compare.Early.on_words = False
        self.driver.SHAPES = SHAPES
        self.driver.mono = self.compare.mono = remembered(self.driver.mono)
        self.driver.lower = remembered(self.driver.lower)
        self.ctext.print_c, self.ctext.read_c = remembered(self.ctext.print_c), remembered(self.ctext.read_c)

    def read_words(self, words):
        """The command, names and options that words call for, or None where they are out of order."""
        if any("\ud800" <= sign <= "\udfff" for word in words for sign in word):
            return None     # no UTF-8
        read = self.driver.read_words(list(words))
        return None if read is None or "opt" in read[2] else read

    def answer(self, words):
        """What is printed and the status, over the files of the current folder."""
        read = self.read_words(words)
        if read is None:
            return USAGE, 2
        command, names, options = read
        call = self.compare.Early({})
        call.files = self.driver.RealFiles()
        try:
            text, status = getattr(call, command)(names, options), 0
        except self.driver.Stop as stop:
            text, status = stop.text, stop.status
        return text if isinstance(text, bytes) else text.encode("utf-8", "surrogateescape"), status

    def checked(self, source):
        """The kernel of a source, or None, and the same checked, or None."""
        kernel = checked = None
        try:
            kernel = self.front.load_kernel(source)
            checked = self.front.check(kernel, False)
        except (self.front.Fault, self.front.Limit):
            pass
        return kernel, checked

    def case(self, words, text):
        """The lines that answer a case on a C text: `% cread`, or `% crun FUNCTION BUDGET ..`."""
        try:
            program = self.ctext.read_c(text)
        except self.ctext.CFault as fault:
            return [f"{fault.line}:{fault.col}" if words[1] == "cread" else "no program"]
        if words[1] == "cread":
            return ["ok"]
        return self.crun(program, words[2], int(words[3]), words[4:])

    def crun(self, program, function, budget, words):
        """How a function of a C program ends on the scalars and cells that words spell, and the cells afterwards."""
        store, cells = self.heap.FlatStore(), [word.split("=") for word in words if "=" in word]
        for address, cell in cells:
            store.place(int(address[1:]), read_cell(cell))
        top = store.top
        try:
            ran = self.cmachine.run_c(program, function, [read_scalar(word) for word in words if "=" not in word], store, budget)
            lines = [f"ok {ran.steps}", " ".join(["value:", *map(scalar_text, ran.value)])]
            lines += [" ".join([name, *(f"@{at}" for at in list_)]) for name, list_ in (("made:", ran.made), ("freed:", ran.freed))]
        except self.cmachine.Stuck as stuck:
            lines = [stuck.reason]
        except self.cmachine.Budget:
            lines = ["budget"]
        places = [int(address[1:]) for address, _ in cells] + list(range(top + 1, store.top + 1))
        return lines + [f"@{at}={cell_text(store, at)}" for at in places if store.len(at) is not None]


# Scalars and cells as words of a case (docs/CASES.md, "Cells")


def scalar_text(scalar):
    return "_" if scalar[0] == "unset" else f"@{scalar[1]}" if scalar[0] == "addr" else str(scalar[1])


def read_scalar(word):
    return ("unset",) if word == "_" else ("addr", int(word[1:])) if word[0] == "@" else ("word", int(word))


def read_cell(word):
    items = [item for item in word[1:-1].split(",") if item]
    if word[0] == "{":
        return "slots", [read_scalar(item) for item in items]
    return ("words", [int(item) for item in items]) if word[0] == "[" else ("answers", [item == "1" for item in items])


def cell_text(store, at):
    """The cell that stands at an address of a store."""
    form, places = store.form(at), range(store.len(at))
    if form == "answers":
        return "<" + ",".join(str(int(store.answer(at, i))) for i in places) + ">"
    held = ",".join(scalar_text(store.get(at, i)) for i in places)
    return "{" + held + "}" if form == "slots" else "[" + held + "]"


def given_cell(cell):
    """The word for a cell of a heap file that the reference has read."""
    form, items = cell[0], cell[1]
    if form == "slots":
        return "{" + ",".join(map(scalar_text, items)) + "}"
    return "[" + ",".join(map(str, items)) + "]" if form == "words" else "<" + ",".join(str(int(item)) for item in items) + ">"


def case_text(words, text, lines):
    """A case as the cases program reads it (docs/CASES.md)."""
    out = " ".join(words) + "\n"
    pieces = text.decode("latin-1").split("\n")
    for i, piece in enumerate(pieces):
        last = i + 1 == len(pieces)
        if piece or not last:
            shown = re.sub(r"[^!-\[\]-~ ]|\\| $", lambda found: f"\\x{ord(found[0]):02x}", piece)
            out += f"|{shown}{chr(92) if last else ''}\n"
    return (out + "= " + "\n> ".join(lines) + "\n").encode()


# Changed files


def a_byte(rng):
    return bytes([rng.choice(b" \n\t\r(){}[]<>|=:!.,+-*/_#'@~0123456789abzABZ\0\x7f\x80\xc3\xff") if rng.random() < 0.8 else rng.randrange(256)])


def byte_changed(rng, data):
    at = rng.randrange(len(data))
    return data[:at] + a_byte(rng) + data[at + 1:]


def bit_flipped(rng, data):
    at = rng.randrange(len(data))
    return data[:at] + bytes([data[at] ^ 1 << rng.randrange(8)]) + data[at + 1:]


def byte_dropped(rng, data):
    at = rng.randrange(len(data))
    return data[:at] + data[at + 1:]


def bytes_inserted(rng, data):
    at = rng.randrange(len(data) + 1)
    return data[:at] + rng.choice([a_byte(rng), a_byte(rng), b"\0", b"\xff\xfe", "é".encode(), b"\r\n", b"--", b"{-", b"-}"]) + data[at:]


def span_doubled(rng, data):
    at = rng.randrange(len(data))
    end = at + rng.randrange(1, 40)
    return data[:end] + data[at:]


def cut(rng, data):
    return data[:rng.randrange(len(data))]


def line_dropped(rng, data):
    lines = data.splitlines(keepends=True)
    del lines[rng.randrange(len(lines))]
    return b"".join(lines)


def exchanged(rng, parts):
    """Two of the parts exchanged, often near ones."""
    i = rng.randrange(len(parts))
    j = rng.choice([rng.randrange(len(parts)), min(len(parts) - 1, i + rng.randrange(1, 4))])
    parts[i], parts[j] = parts[j], parts[i]
    return b"".join(parts)


def lines_swapped(rng, data):
    return exchanged(rng, data.splitlines(keepends=True))


def tokens_of(data):
    return re.findall(rb"[A-Za-z0-9_']+|\s+|.", data, re.S)


def tokens_swapped(rng, data):
    return exchanged(rng, tokens_of(data))


def token_repeated(rng, data):
    """A token in the place of another one."""
    tokens = tokens_of(data)
    tokens[rng.randrange(len(tokens))] = rng.choice(tokens)
    return b"".join(tokens)


def long_line(rng, data):
    at = rng.randrange(len(data) + 1)
    return data[:at] + rng.choice([b" ", b"x", b"(", b"9", b"0", b"[", b"\t", b"-", b"!", b"x "]) * rng.choice([300, 2000, 30000]) + data[at:]


CHANGES = [byte_changed, bit_flipped, byte_dropped, bytes_inserted, span_doubled, cut, line_dropped, lines_swapped, tokens_swapped,
           token_repeated] * 6 + [long_line]


def spoiled(rng, data):
    """A file's bytes with one to three changes; rarely none are left."""
    for _ in range(rng.choice([1, 1, 1, 2, 3])):
        if data:
            data = rng.choice(CHANGES)(rng, data)
    return b"" if rng.random() < 0.01 else data


# Words

NAMES = ["", "-", "--", "-x", "none", "d", ".", "d/none", "none/a.c", "./a.cg", "a.cg ", "\u00e9.cg", "x" * 300, "a.cg", "a.c", "a.cert", "h",
         "-a.cg", "\udcff", "a\nb", "/dev/full", "%s{}", "--steps", "--opt", "-h", "--help", "-V", "--version"]
NUMBERS = ["0", "1", "2", "3", "00000000000000000005", "000000000000000000005", "1099511627776", "1099511627777", "18446744073709551616",
           "", "-1", "+5", "1.0", "0x10", "5 ", " 5", "\u0665", "1e3", "x", "--", "-", "1_0", "4096", "4097", "99999999999999999999", "64", "7"]
COMMANDS = ["", "Check", "checks", "chec", "check ", "help", "-h", "--help", "--", "-", "adopt", "bound", "--version", "gen", "check", "build",
            "recheck", "run", "\udcfe", "--steps"]


def steps_words(rng):
    number = rng.choice(NUMBERS)
    return rng.choice([["--steps", number], [f"--steps={number}"], ["--steps"], ["--step", number], ["--steps", number, f"--steps={number}"],
                       [f"-steps={number}"], [f"--STEPS={number}"]])


def spoiled_words(rng, words):
    """Words with one or two changes: dropped, doubled, exchanged, renamed, options put among them."""
    words = list(words)
    for _ in range(rng.choice([1, 1, 2])):
        at, kind = rng.randrange(len(words) + 1), rng.random()
        if kind < 0.25:
            words[at:at] = steps_words(rng)
        elif kind < 0.4:
            words.insert(at, rng.choice(NAMES))
        elif kind < 0.5:
            words.insert(at, "--")
        elif kind < 0.6 and words:
            words.insert(at, rng.choice(words))
        elif at == len(words):
            words = words[:rng.randrange(len(words) + 1)]
        elif kind < 0.7:
            del words[at]
        elif kind < 0.75:
            other = rng.randrange(len(words))
            words[at], words[other] = words[other], words[at]
        elif at == 0:
            words[0] = rng.choice(COMMANDS)
        else:
            words[at] = rng.choice(NAMES + NUMBERS)
    return words


# What an input is made small by


def fewer(parts, holds):
    """The parts without those that can be left out, in spans of halves down to one, so that `holds` of the rest."""
    size = len(parts)
    while size:
        at = 0
        while at < len(parts):
            rest = parts[:at] + parts[at + size:]
            if holds(rest):
                parts = rest
            else:
                at += size
        size //= 2
    return parts


def with_file(given, name, parts):
    return given._replace(files={**given.files, name: b"".join(parts)})


def small(given, differs):
    """A smaller input of which `differs` is true too, as far as the time for it goes."""
    end = time.monotonic() + REDUCE_SECONDS

    def holds(other):
        return time.monotonic() < end and differs(other)

    before = None
    while given != before:
        before = given
        if given.words[:1] != ["%"]:
            given = given._replace(words=fewer(given.words, lambda words: holds(given._replace(words=words))))
        for name in sorted(given.files):
            rest = {other: data for other, data in given.files.items() if other != name}
            if holds(given._replace(files=rest)):
                given = given._replace(files=rest)
        for split in (lambda data: data.splitlines(keepends=True), tokens_of, lambda data: [data[i:i + 1] for i in range(len(data))]):
            for name in sorted(given.files):
                parts = fewer(split(given.files[name]), lambda parts: holds(with_file(given, name, parts)))
                given = with_file(given, name, parts)
    return given


# Files of a call


def fill(folder, files):
    """A folder that holds these files and an empty folder `d`, and nothing else."""
    shutil.rmtree(folder, ignore_errors=True)
    os.makedirs(os.path.join(folder, "d"))
    for name, data in files.items():
        with open(os.path.join(folder, name), "wb") as file:
            file.write(data)


def changed_files(folder, files):
    """The files below a folder that are no more as they were, by name."""
    after = {}
    for path, _, names in os.walk(folder):
        for name in names:
            place = os.path.join(path, name)
            with open(place, "rb") as file:
                after[os.path.relpath(place, folder)] = file.read()
    changed = {name: data for name, data in after.items() if files.get(name) != data}
    return {**changed, **{name: None for name in files if name not in after}}


# A process of the campaign


class Process:
    """One of the processes: it plays rounds of inputs, counts them, and keeps what differs."""

    def __init__(self, options, end, folder):
        self.options, self.end, self.folder = options, end, folder
        self.reference = Reference(options.reference)
        self.counts, self.differences, self.kinds = Counter(), 0, Counter()
        self.other = b"cogent certificate 1\nend\n"     # the certificate of an earlier source
        self.rng, self.round, self.looks = None, 0, False
        self.examples = sorted(glob.glob(os.path.join(TOP, "examples", "*.cg")))

    # both answers

    def wanted(self, given):
        """The reference's answer."""
        fill(self.folder, given.files)
        os.chdir(self.folder)
        try:
            printed, status = self.reference.answer(given.words)
        except Exception as error:     # the reference errs, which is told as a difference
            printed, status = f"{type(error).__name__} {error}".encode("utf-8", "replace"), None
        return Answer(printed, status, changed_files(self.folder, given.files))

    def got(self, given):
        """The program's answer."""
        fill(self.folder, given.files)
        try:
            ran = subprocess.run([self.options.program, *given.words], cwd=self.folder, stdin=subprocess.DEVNULL, capture_output=True, timeout=SECONDS)
        except subprocess.TimeoutExpired:
            return Answer(f"no answer in {SECONDS} s".encode(), None, {})
        return Answer(ran.stdout + ran.stderr, ran.returncode, changed_files(self.folder, given.files))

    def case_answers(self, given):
        """Both answers on a case of a C text; the reference's is that the cases program finds no difference."""
        lines = self.reference.case(given.words, given.files["c"])
        fill(self.folder, {"x.cases": case_text(given.words, given.files["c"], lines)})
        try:
            ran = subprocess.run([self.options.cases, "x.cases"], cwd=self.folder, capture_output=True, timeout=SECONDS)
        except subprocess.TimeoutExpired:
            return Answer(b"1 cases, 0 differences\n", 0, {}), Answer(f"no answer in {SECONDS} s".encode(), None, {})
        return Answer(b"1 cases, 0 differences\n", 0, {}), Answer(ran.stdout + ran.stderr, ran.returncode, {})

    def c_name(self, given):
        """The name of the file that `build` writes its C text to, or None."""
        read = self.reference.read_words(given.words)
        return os.path.normpath(read[1][1]) if read and read[0] == "build" else None

    def judged(self, given, wanted, text):
        """What is wrong with the C text that `build` writes, on random arguments or on the heap of a run; or None."""
        compare = self.reference.compare
        if wanted.status or not given.look:
            return None
        try:
            if given.words[0] == "build":
                return compare.judge_c(random.Random(self.round), compare.Early.kept["checked"], text)
            text = self.got(Input(["build", "a.cg", "a.c", "a.cert"], given.files)).files["a.c"]
            return compare.judge_run(given.words, given.files, text, wanted.printed)
        except Exception as error:
            return f"no judgement: {type(error).__name__} {error}"

    def compared(self, given):
        """What differs, or None, and both answers."""
        if given.words[:1] == ["%"]:
            wanted, got = self.case_answers(given)
            return (None if wanted == got else "C text"), wanted, got
        wanted, got = self.wanted(given), self.got(given)
        if wanted.status != got.status:
            return "status", wanted, got
        if not self.reference.compare.same(wanted.printed, got.printed):
            return "printed", wanted, got
        c_file = self.c_name(given)
        text = got.files.get(c_file)
        there = {**wanted.files, c_file: text} if wanted.files.get(c_file) and text else wanted.files
        if there != got.files:
            return "files", wanted, got
        wrong = self.judged(given, wanted, text)
        return ("C text", wanted, got._replace(printed=got.printed + wrong.encode("utf-8", "replace"))) if wrong else (None, wanted, got)

    # one input

    def row(self, given):
        """The row of the table to which an input belongs."""
        if given.words[:1] == ["%"]:
            return "C text"
        return given.words[0] if given.words and given.words[0] in SHAPES else "no command"

    def put(self, words, files, look=False):
        """Plays an input, and answers what the reference said, and the files that the program changed."""
        if time.monotonic() > self.end:
            raise Ended
        given = Input(list(words), dict(files), look)
        why, wanted, got = self.compared(given)
        self.counts[self.row(given), wanted.status] += 1
        if why:
            self.differences += 1
            kind = self.row(given), wanted.status, got.status, why
            self.kinds[kind] += 1
            if self.kinds[kind] <= KEPT:
                self.keep(given, kind)
        return wanted, got.files

    def keep(self, given, kind):
        """Makes an input small and writes it, with both answers."""

        def alike(other):
            why, wanted, got = self.compared(other)
            return (self.row(other), wanted.status, got.status, why) == kind

        given = small(given, alike)
        why, wanted, got = self.compared(given)
        folder = os.path.join(self.options.keep, f"{self.options.seed}-{self.round}-{self.differences}")
        os.makedirs(folder, exist_ok=True)
        for name, data in given.files.items():
            with open(os.path.join(folder, name), "wb") as file:
                file.write(data)
        said = f"differs: {kind[3]} (seed {self.options.seed}, round {self.round})\nwords: {shlex.join(given.words)}\n"
        said += f"        {given.words!r}\n"
        for title, answer in (("the reference", wanted), ("the program", got)):
            shown = {name: data and data[:2000] for name, data in answer.files.items()}
            said += f"{title}: status {answer.status}\n{answer.printed[:4000].decode('latin-1')}\n    files {shown}\n"
        with open(os.path.join(folder, "difference.txt"), "w", encoding="utf-8", errors="backslashreplace") as file:
            file.write(said)

    # what is put in

    def source(self):
        """A source, and whether it stands at a limit, where inputs are slow."""
        rng, fuzz, sources = self.rng, self.reference.fuzz, self.reference.sources
        kind, sly = rng.random(), rng.choice([0] * 9 + [0.02])
        if kind < 0.006:
            return sources.at_limits(rng, True).encode("latin-1"), True
        if kind < 0.02:
            return self.deep_source(), True
        if kind < 0.12:
            text = sources.small(rng)
        elif kind < 0.3:
            text = fuzz.Source(rng, rng.randrange(4, 30), sly).words()
        elif kind < 0.95:
            text = fuzz.Source(rng, rng.randrange(3, 40), sly).whole()
        else:
            with open(rng.choice(self.examples), "rb") as file:
                text = file.read().decode("latin-1")
        data = text.encode("latin-1")
        return self.changed_source(data) if rng.random() < 0.2 else data, False

    def deep_source(self):
        """A source that is deep, or deep and wide, up to the limits and beyond."""
        shape = self.rng.choice(deep.SHAPES)
        width = self.rng.choice(deep.widths(shape))
        return shape(self.rng.randrange(1, min(1100, DEEP_AND_WIDE // width)), width).source.encode()

    def changed_source(self, data):
        """A source with changed bytes, with changed tokens, or with mistakes at places of its kernel."""
        rng, kind, text = self.rng, self.rng.random(), data.decode("latin-1")
        if kind < 0.4 or not text.strip():
            return spoiled(rng, data)
        if kind < 0.7:
            return self.reference.fuzz.spoil(rng, text, 0.1).encode("latin-1")
        return self.reference.sources.mistaken(rng, text).encode("latin-1")

    def play(self, number):
        """A round: a source, and inputs by all commands on it."""
        self.rng, self.round = random.Random(f"{self.options.seed} {number}"), number
        self.looks = self.rng.random() < 1 / LOOK
        source, slow = self.source()
        files = {"a.cg": source}
        if self.rng.random() < 0.5:
            files.update({"a.c": b"old\n" * self.rng.randrange(3000), "a.cert": b"old\n" * self.rng.randrange(3000)})
        self.put(["check", "a.cg"], files)
        built, written = self.put(["build", "a.cg", "a.c", "a.cert"], files, self.looks and not slow)
        certificate = built.files.get("a.cert") or b"cogent certificate 1\nend\n"
        if slow:
            self.put(["recheck", "a.cg", "a.cert"], {**files, "a.cert": certificate})
            return
        kernel, checked = self.reference.checked(source)
        self.put_sources(source)
        self.put_certificates(files, certificate, kernel, checked)
        runs = self.put_runs(files, checked)
        self.put_words(files, certificate, runs)
        if self.options.cases and checked and written.get("a.c"):
            self.put_c_texts(written["a.c"], checked, runs)

    def put_sources(self, source):
        """Changed sources; now and then it is cut after each of many numbers of bytes."""
        rng = self.rng
        for _ in range(3):
            self.put(["check", "a.cg"], {"a.cg": self.changed_source(source)})
        if rng.random() < 0.03:
            for end in range(rng.randrange(20), len(source), rng.randrange(1, 40)):
                self.put(["check", "a.cg"], {"a.cg": source[:end]})
        if rng.random() < 0.3:
            self.put(["build", "a.cg", "a.c", "a.cert"], {"a.cg": self.changed_source(source), "a.c": b"old"})

    def put_certificates(self, files, certificate, kernel, checked):
        """The certificate that `build` writes, others that spell a derivation too, and changed ones."""
        rng, sources = self.rng, self.reference.sources
        first = [certificate]
        if checked:
            first.append(sources.any_splits(rng, checked))
        elif kernel:
            first = [sources.occurrences(kernel)]
        texts = first + [sources.changed(rng, rng.choice(first), self.other) for _ in range(4 if kernel else 1)]
        texts += [spoiled(rng, rng.choice(first)) for _ in range(2)]
        if rng.random() < 0.02:
            texts += [first[0][:end] for end in range(rng.randrange(9), len(first[0]), rng.randrange(1, 30))]
        for text in texts:
            self.put(["recheck", "a.cg", "a.cert"], {**files, "a.cert": text})
        if checked:
            self.other = certificate

    def heap_of(self, function):
        """A heap file for a function, valid or nearly so."""
        driver, rng = self.reference.driver, self.rng
        if function is None or function.vars or driver.holds_closed(function.ty[1]):
            return b"arg = ()\n"
        return self.reference.fuzz.Heap(rng).text(function.ty[1]).encode("latin-1")

    def put_runs(self, files, checked):
        """Runs of some functions on valid and changed heap files. Answers (words, files) of those that end soon."""
        rng, soon = self.rng, []
        functions = checked.kernel.funs if checked else []
        for function in rng.sample(functions, min(5, len(functions))) + [None]:
            name = function.name if function else "zz"
            heap = self.heap_of(function)
            words = ["run", "a.cg", name, "h", "--steps", str(MOST_COST)]
            said, _ = self.put(words, {**files, "h": heap}, self.looks)
            if said.status == 6 or said.status == 1:
                continue
            soon.append((["run", "a.cg", name, "h"], {**files, "h": heap}))
            if said.status == 0:
                cost = int(re.search(rb"^cost: (\d+)$", said.printed, re.M)[1])
                near = max(1, cost + rng.choice([-1, 0, 1, -cost // 2]))
                self.put(["run", "a.cg", name, "h", f"--steps={near}"], {**files, "h": heap})
            for _ in range(2):
                self.put(words, {**files, "h": spoiled(rng, heap)})
        return soon

    def put_words(self, files, certificate, runs):
        """Words that are out of order or nearly so, and names of files that aren't there."""
        rng = self.rng
        calls = [(["check", "a.cg"], files), (["build", "a.cg", "a.c", "a.cert"], files),
                 (["recheck", "a.cg", "a.cert"], {**files, "a.cert": certificate}), (["gen", str(rng.choice([1, 2, 3, 9]))], {}), *runs]
        for _ in range(4):
            words, held = rng.choice(calls)
            words = spoiled_words(rng, words)
            if self.bounded(words, runs):
                self.put(words, held)
        if rng.random() < 0.05:
            self.put(["gen", str(rng.choice([1, 2, 5, 16, 40]))], {})
        if rng.random() < 0.05:
            words, held = rng.choice(calls)
            self.put(words, {name: data for name, data in held.items() if rng.random() < 0.5})

    def bounded(self, words, runs):
        """Whether words call for nothing that takes the reference long."""
        read = self.reference.read_words(words)
        if read is None or read[0] not in ("gen", "run"):
            return True
        if read[0] == "gen":
            return read[2]["n"] <= MOST_GEN
        return read[2].get("steps", MOST_COST + 1) <= MOST_COST or ["run", *read[1]] in [words for words, _ in runs]

    def put_c_texts(self, text, checked, runs):
        """The C text that `build` wrote, changed, for the cases program: read, and where it is a program run on the heaps of runs."""
        rng, fuzz = self.rng, self.reference.fuzz
        starts = [start for start in (self.crun_words(checked, *run) for run in runs) if start]
        for _ in range(3):
            self.put(["%", "cread"], {"c": rng.choice([spoiled(rng, text), fuzz.changed(rng, text, fuzz.C_WORDS)])})
        for function, rest in rng.sample(starts, min(3, len(starts))):
            changed = text
            for other in [fuzz.changed(rng, text, fuzz.C_WORDS) for _ in range(12)]:
                if self.reference.case(["%", "cread"], other) == ["ok"]:
                    changed = other
            self.put(["%", "crun", function, str(rng.choice([0, 1, 5, 30, 400])), *rest], {"c": changed})

    def crun_words(self, checked, words, files):
        """A function's name in C, and the scalars and cells of a heap file as words; or None where it isn't one for it."""
        reference = self.reference
        place = [i for i, function in enumerate(checked.kernel.funs) if function.name == words[2]][0]
        try:
            start = reference.heaptext.read_heap(files["h"], checked.kernel.funs[place].ty[1])
        except reference.heaptext.HeapFault:
            return None
        instances = reference.compare.instances(checked)
        cells = [f"@{at}={given_cell(cell)}" for at, cell in start.cells]
        return f"f{instances.find(('user', place), ())}", [*map(scalar_text, start.arg), *cells]


# The campaign


def work(options, number, end, told):
    """The work of one process: rounds of its own until the end; what it counted so far goes to the queue."""
    resource.setrlimit(resource.RLIMIT_CORE, (0, 0))
    with tempfile.TemporaryDirectory() as folder:
        process = Process(options, end, os.path.join(folder, "a"))

        def rounds():
            at = number
            while time.monotonic() < end:
                try:
                    process.play(at)
                except Ended:
                    pass
                except Exception:       # an error of this script or of the reference's makers of inputs
                    traceback.print_exc()
                    process.counts["broken", None] += 1
                told.put((number, Counter(process.counts), process.differences, Counter(process.kinds)))
                at += options.jobs

        process.reference.evaluate.deep(rounds)
        os.chdir("/")
    told.put((number, None, None, None))


def read_options():
    parser = argparse.ArgumentParser(usage=__doc__[__doc__.index("bench/campaign.py"):].split("\n")[0])
    parser.add_argument("--reference", required=True, type=os.path.abspath)
    parser.add_argument("--minutes", type=float, default=60)
    parser.add_argument("--seed", type=int, default=1)
    parser.add_argument("--jobs", type=int, default=os.cpu_count())
    parser.add_argument("--keep", type=os.path.abspath, default=f"{TOP}/out/campaign")
    parser.add_argument("--cases", type=os.path.abspath)
    parser.add_argument("program", nargs="?", type=os.path.abspath, default=f"{TOP}/crates/cg_cli/out/cg_cli")
    options = parser.parse_args()
    for program in filter(None, (options.program, options.cases)):
        if not os.access(program, os.X_OK):
            sys.exit(f"{program}: no program")
    return options


def gather(options, told, processes, begin):
    """What the processes counted, when all have ended; a line each minute."""
    last, running, minute = {}, set(range(options.jobs)), 1
    while running:
        try:
            number, counts, differences, kinds = told.get(timeout=1)
            if counts is None:
                running.discard(number)
            else:
                last[number] = counts, differences, kinds
        except queue.Empty:
            running -= {number for number in running if not processes[number].is_alive()}
        if time.monotonic() >= begin + 60 * minute:
            inputs, seconds = sum(counts.total() for counts, _, _ in last.values()), time.monotonic() - begin
            found = sum(differences for _, differences, _ in last.values())
            print(f"{minute:>4} min {inputs:>8} inputs {inputs / seconds:7.1f} a second {found:>4} differences", flush=True)
            minute = int(seconds // 60) + 1
    return last.values()


def print_table(counts):
    """Inputs by command and by the reference's status, which is none where it erred."""
    print(f"{'':>10}" + "".join(f"{'none' if status is None else status:>8}" for status in STATUSES) + f"{'all':>9}")
    for row in [*SHAPES, "no command", "C text"]:
        cells = [counts[row, status] for status in STATUSES]
        if sum(cells):
            print(f"{row:>10}" + "".join(f"{cell or '':>8}" for cell in cells) + f"{sum(cells):>9}")


def main():
    options, begin = read_options(), time.monotonic()
    told = multiprocessing.Queue()
    end = begin + 60 * options.minutes
    processes = [multiprocessing.Process(target=work, args=(options, number, end, told)) for number in range(options.jobs)]
    for process in processes:
        process.start()
    counts, differences, kinds = Counter(), 0, Counter()
    for inputs, found, these in gather(options, told, processes, begin):
        counts, differences, kinds = counts + inputs, differences + found, kinds + these
    for process in processes:
        process.join()
    print_table(counts)
    for (row, wanted, got, why), count in kinds.most_common():
        print(f"{count:>8} times {row}: {why}, status {wanted} and {got}")
    fallen = sum(process.exitcode != 0 for process in processes) + counts.pop(("broken", None), 0)
    if fallen:
        print(f"{fallen} rounds or processes broke off")
    print(f"{counts.total()} inputs, {differences} differences")
    sys.exit(1 if differences or fallen else 0)


if __name__ == "__main__":
    main()
