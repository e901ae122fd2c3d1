#!/usr/bin/env python3
"""Measures the time and the memory of the commands over a folder, as LLVM builds the program. It stands apart from the gate.

usage: bench/measure.py [--rounds N] [--part N] [--program FILE] [GROUP..]        with the program built (./indri builds it)

The inputs are made in a temporary folder, the same ones each time, and so are the collections: a folder in which `create` and
`add` were run. Without a group all of these are measured:

    newswire      text in the usual newswire form, 24 MiB: a scan for a word, two windows and a word in a field; `add`; and
                  queries over the collection; the exponent of the cost from 8, 16 and 32 MiB, which is the slope of the
                  logarithm of the time over that of the size, by least squares
    thin          documents of 300 words and no field, 32 and 64 MiB: a scan, `add`, and a query of a word that each has, with
                  how many times those of the half the whole takes
    hostile       one document of 8 MiB that is plain text, or one mark again and again: a scan and `add`
    pieces        one document that comes through a pipe, in pieces of 64 KiB at most: a scan and `add`
    large         one document of 16 MiB: with no word, with as many words as it may have, with more, and with words that
                  are all different: a scan and `add`
    many          30,000 documents of 25 words: `add`, against a scan of one word; and the same `add` with little address
                  space, for room that is reserved and never used
    segments      63,488 documents of 25 words in 1, 4, 16 and 64 segments: opening and a query
    matches       131,072 documents of 20 words: queries of a word, of three words, of a phrase and of a window, of which 128 to
                  131,072 documents have each
    delete        60,000 documents of 25 words, of which one, a tenth or all are deleted, and a query behind it
    merge         60,000 documents of 25 words, and 6,000 of 300 words, in ten segments, all of them live or every second one:
                  `merge`, against an `add` of all of them, and MB of segments that are read in a second
    turns         a merge of 60,000 documents of 25 words in a session, by turns of 64 documents to all of them at once; and the
                  exponent of the cost by turns of 64 documents, from 15,000 to 60,000 documents
    steps         sixteen queries over 60,000 documents of 25 words in a session, by steps of 64 documents: one open at a time, and
                  all open at once and each stepped in turn, which is the same work; and a query that finds nothing by steps of one
                  document, against one step
    again         three words over 6,000 documents of 25 words, asked twice in one session: what the second query reads of the
                  folder, in bytes
    session       sessions of 2,500, 5,000 and 10,000 lines: three of four lines add a document of 25 words, the others delete, flush,
                  merge in turns, and ask queries of which some stay open; and the exponent of their cost
    prior         100,000 rows of a prior, and a query with it, against the same query without
    windows       one document of 1,000,000 tokens, half of which are words of the windows: scans and queries; and a scan for any of
                  500 words
    fields        65,535 fields of distinct names, one inside the other; as many of one name, one inside the other and one
                  behind the other, for what lies in them and for windows over them: scans, `add` and queries
    parts         passages of one document of 1,000,000 tokens, against the query of whole documents; and 65,535 fields as
                  results, nested and in a row, with a context and without, in seconds
    evidence      24 MiB of newswire text: a query with the prior of lengths, and with filters that no document or every
                  document passes, against the same query without; and filters that are windows over nested fields, of
                  which the first extent is taken from an iterator
    passed        63,666 documents of 25 words, for words that no document has; and 200,000 documents of 5 words, for 40 words:
                  what each word costs beyond a query of one word that no document has
    instructions  machine instructions a byte of a scan and of `add`, counted by cachegrind of valgrind, which must be
                  installed, on 1/4 MiB of newswire and of thin text; and one document of twice the size; and those of opening and
                  closing a query in a session over 64 segments; and how often a query of a word that none has calls the system for
                  each segment; those of a filter of eight windows, each inside the next, for each of 4,096 documents; and the
                  bytes of memory that a `merge` of documents of 300 words asks for, for each document. They are the same in each run

A row of text has the processor time, its ratio to that of `LC_ALL=C wc -w` on the same file, and the peak of memory, with the
bounds of these two. That of an `add` has MB of text and documents in a second of processor time too, and the size of the
files, of which the segments and the manifest are counted, as a ratio to that of the text. A row of a query has the processor
time of the whole run, which opens the folder each time, in milliseconds. A time is the best of the rounds, and times of which
a ratio is printed are taken in the same rounds, one after the other. An exponent, and the ratio of a size to its half, is the
median of those of the rounds. The peak is that of the whole process, so what it holds
of the text is counted in it. Below some 5 MiB it can't be told, since the small process that starts the program has as much.
The disk isn't measured: what a run waits for it is no processor time.

The status is 1 where a row is beyond a bound or the program ends with a status that isn't expected. With --part N each size
is divided by N, and no bound is looked at: so the rows are tried. Another program than that of ./indri is measured by
--program.

A filter takes the first of an expression's extents, one by one. No command takes all of them so: the program extent_table
does, and compares them with the list that these commands take; what they cost isn't measured here.
"""
import argparse
import math
import os
import random
import re
import shutil
import statistics
import subprocess
import sys
import tempfile
from collections.abc import Callable
from dataclasses import dataclass
from pathlib import Path

import inputs
from inputs import PLAIN, VOCABULARY

PROGRAM = Path(__file__).resolve().parent.parent / "crates/indri/out/indri"
COUNT = ["wc", "-w"]
MIB = 1 << 20
MEGA = 10**6


@dataclass(frozen=True)
class Bound:
    """The most times of `wc -w` and the most MiB of a row."""

    times: float
    peak: float


@dataclass(frozen=True)
class AddBound:
    """The same of an `add`, and the most bytes of files for each byte of text."""

    times: float
    peak: float
    files: float


# The slope of a linear body scatters, since its times are tenths of a second: it was 0.86 to 1.16. Of a body that looks at its text again and
# again it is near 2.
EXPONENT = 1.2

TEXTS = ("rain", "#1(the launch)", "#uw8(the launch)", "launch.head")
NEWSWIRE_SCAN = Bound(4.5, 12)
NEWSWIRE_ADD = AddBound(8, 250, 3)
NEWSWIRE_SPEED = 20
NEWSWIRE_QUERY = Bound(3, 160)

THIN_SCAN = Bound(4.5, 12)
THIN_ADD = AddBound(8, 600, 2.5)
THIN_QUERY = Bound(3, 400)
THIN_TO_HALF = 2.2

# The bounds of a scan and of `add`.
MARKS = {
    PLAIN: (Bound(5, 56), Bound(6, 80)),
    "<": (Bound(3.5, 32), Bound(3.5, 32)),
    "<!--": (Bound(3.5, 32), Bound(3.5, 32)),
    "&": (Bound(4, 32), Bound(4, 32)),
    "<a ": (Bound(6, 64), Bound(6, 64)),
    "</doc ": (Bound(6.5, 64), Bound(6.5, 64)),
    "<!": (Bound(4, 32), Bound(4, 32)),
    "<a>": (Bound(10, 180), Bound(10, 180)),
}
PIECES = {PLAIN: (Bound(5, 56), Bound(6, 80)), "</doc ": (Bound(6.5, 64), Bound(6.5, 64))}

# A text of more than 14 bytes lies behind a pointer, in two allocations: these words have 15.
LARGE = (Bound(4, 128), Bound(5, 128))
DISTINCT = (Bound(4.5, 128), Bound(20, 500))

ADD_TO_SCAN = 5
BYTES_A_TOKEN = 80
MANY_SPACE = 80

# Times of a query over one segment, and the most milliseconds that a further segment costs.
SEGMENTS = (1, 4, 16, 64)
SEGMENT_QUERIES = ("nowhere", "rain", "#1(the launch)")
SEGMENTS_TO_ONE = 3

# Queries of what n documents have, and the most that each further document costs, in microseconds.
MATCHES = (128, 1024, 8192, 131_072)
MATCHED = {"one{n}": 8, "one{n} two{n} three{n}": 16, "#1(one{n} two{n})": 16, "#uw8(one{n} three{n})": 16}

# What each line of `delete` costs beyond the first, in microseconds; a query behind it against one before.
DELETE_MICROSECONDS = 8
LIVE_TO_ALL = 1.2

# A merge against an `add` of the documents of its segments, which holds them in memory as parts: the most times of its time and its
# peak. A merge reads what is dead too, so these are all documents, whether they are live or not.
MERGED = ((60_000, 25), (6_000, 300))
MERGE_PARTS = 10
MERGE_TO_ADD = 3
MERGE_PEAK_TO_ADD = 2
MERGE_SPEED = 8

# A merge by many turns against one turn, both beyond a session without a merge; its peak in MiB.
TURN_DOCUMENTS = 60_000
TURN_SIZES = (64, 640, 6_400, TURN_DOCUMENTS)
TURNS_TO_ONE = 2
TURNS_EXPONENT = 1.2
TURNS_PEAK = 160

# Sixteen queries that are open at once against one at a time; the peak in MiB. What a step costs that finds nothing, in microseconds.
STEP_QUERIES = 16
STEP_SIZE = 64
OPEN_TO_ONE = 1.5
STEPS_PEAK = 160
STEP_MICROSECONDS = 12

# Sessions: the most milliseconds a line of the longest one, its peak in MiB, and the exponent of the cost. A longer session asks more queries over
# more documents, so that is between 1 and 2 by itself.
SESSION_LINES = (2_500, 5_000, 10_000)
SESSION_LINE_MILLISECONDS = 0.3
SESSION_EXPONENT = 1.8
SESSION_PEAK = 120

# What a row of `prior` costs, in microseconds; a query with the prior against the same without.
PRIOR_ROWS = 100_000
PRIOR_MICROSECONDS = 8
WITH_PRIOR = 3

WINDOWS = ("a", "#uw8(a b c)", "#1(a b)")
WINDOW = Bound(12, 80)
ANY_WORDS = 500
WINDOW_QUERY = Bound(12, 160)

MOST_FIELDS = 65_535
DISTINCT_NAMES = ("x.f9",)
ONE_NAME = ("x.f", "#any:f", "#uw200000(#any:f y)", "#od200000(#any:f y)", "#od200000(#any:f #any:f)")
FIELDS = Bound(18, 48)
FIELDS_ADD = Bound(24, 96)
FIELDS_QUERY = Bound(18, 96)

# Beliefs in passages, against the same in whole documents; and in fields.
PASSAGES = ("a b", "w17 w42", "#1(a b) #uw8(a c)")
PASSAGES_TO_WHOLE = 6
IN_FIELDS = ("x", "x y", "x.(f)")
FIELDS_SECONDS = 1

# A query, and what stands round or beside it: the most times of the query alone.
ASKED = "#combine(rain launch)"
EVIDENCE = {
    "#combine(rain launch #prior(length))": 1.4,
    "#filreq(nowhere #combine(rain launch))": 1.1,
    "#filrej(nowhere #combine(rain launch))": 1.2,
    "#filreq(the #combine(rain launch))": 1.8,
}
FILTERS = ("#filreq(#uw200000(#any:f y) x)", "#filreq(#od200000(#any:f y) x)", "#filrej(#od200000(#any:f #any:f) x)")

# Words that no document has, in milliseconds a word; and 40 words of many short documents, against one that none has.
NO_WORD_MILLISECONDS = 2
FORTY_TO_ONE = 15

# Those of a scan and those of `add`.
INSTRUCTIONS = {"newswire": (240, 400), "thin": (245, 400)}
INSTRUCTIONS_TO_HALF = 2.1
# Those of opening and closing a query over the most segments, by sessions of so many openings.
OPENINGS = (100, 300)
OPENING_INSTRUCTIONS = 60_000
# How often the system is called for each segment that is opened.
SEGMENT_CALLS = 7.5
# Those of a filter of so many windows, each inside the next, for each of so many documents that pass it.
WINDOWS_INSIDE, FILTERED = 8, 4096
FILTER_INSTRUCTIONS = 18_700
# The bytes that a merge asks for, for each document of so many words, by merges of so many documents.
MERGED_WORDS, MERGES = 300, (200, 400)
MERGE_BYTES = 61_000


# One run.

# The greatest memory of a process counts from before it took up its program, so a small process starts it. Its first
# argument is the most address space of the program, in bytes; 0 is no limit.
LAUNCHER = """
import os, resource, sys
space = int(sys.argv[1])
child = os.fork()
if child == 0:
    os.dup2(os.open(os.devnull, os.O_WRONLY), 1)
    if space:
        resource.setrlimit(resource.RLIMIT_AS, (space, space))
    os.execvp(sys.argv[2], sys.argv[2:])
_, status, usage = os.wait4(child, 0)
print(os.waitstatus_to_exitcode(status), usage.ru_utime + usage.ru_stime, usage.ru_maxrss)
"""


@dataclass(frozen=True)
class Run:
    """How a run ended, its processor time, and its peak in MiB."""

    status: int
    seconds: float
    peak: float


def launched(command, source, space=0):
    """A run on this open file, with so many MiB of address space; 0 is no limit."""
    launcher = [sys.executable, "-I", "-S", "-c", LAUNCHER, str(space * MIB)]
    environment = {**os.environ, "LC_ALL": "C"}
    done = subprocess.run([*launcher, *command], stdin=source, stdout=subprocess.PIPE, check=True, env=environment)
    status, seconds, peak = done.stdout.split()
    return Run(int(status), float(seconds), int(peak) / 1024)


def run_file(command, path, space=0):
    with open(path, "rb") as source:
        return launched(command, source, space)


def run_pipe(command, path):
    with subprocess.Popen(["cat", path], stdout=subprocess.PIPE) as feeder:
        return launched(command, feeder.stdout)


def copied(source, target):
    """Makes a folder anew that has the files of another. They are shared, since no command changes one in its place."""
    shutil.rmtree(target, ignore_errors=True)
    shutil.copytree(source, target, copy_function=os.link)


@dataclass(frozen=True)
class Job:
    """What is run on which file, how the file gets there, and the statuses with which that may end.

    Where a job changes the folder `changed`, it is made like the folder `begun` before each run.
    """

    command: list
    path: Path = Path(os.devnull)
    way: Callable = run_file
    statuses: tuple = (0,)
    begun: Path | None = None
    changed: Path | None = None

    def run(self):
        if self.changed:
            copied(self.begun, self.changed)
        run = self.way(self.command, self.path)
        if run.status not in self.statuses:
            sys.exit(f"{' '.join(self.command)} ended with status {run.status}")
        return run


def instructions(command, path):
    """How many instructions of the machine a run takes."""
    counted = ["valgrind", "--tool=cachegrind", "--cache-sim=no", "--cachegrind-out-file=/dev/null", *command]
    with open(path, "rb") as source:
        done = subprocess.run(counted, stdin=source, stdout=subprocess.DEVNULL, stderr=subprocess.PIPE, text=True)
    found = re.search(r"I +refs: +([\d,]+)", done.stderr)
    if done.returncode or not found:
        sys.exit(f"{' '.join(counted)} ended with status {done.returncode}")
    return int(found[1].replace(",", ""))


def system_calls(command):
    """How often a run calls the system."""
    traced = ["valgrind", "--tool=none", "--trace-syscalls=yes", *command]
    done = subprocess.run(traced, stdin=subprocess.DEVNULL, capture_output=True, text=True)
    # (where a call ends later, a second line without its name says so)
    found = len(re.findall(r"SYSCALL\[[\d,]+\]\( *\d+\) \w", done.stderr))
    if done.returncode or not found:
        sys.exit(f"{' '.join(traced)} ended with status {done.returncode}")
    return found


def bytes_asked_for(command):
    """How many bytes of memory a run asks for, all together."""
    traced = ["valgrind", "--tool=memcheck", "--leak-check=no", "--undef-value-errors=no", *command]
    done = subprocess.run(traced, stdin=subprocess.DEVNULL, capture_output=True, text=True)
    found = re.search(r"total heap usage: .* ([\d,]+) bytes allocated", done.stderr)
    if done.returncode or not found:
        sys.exit(f"{' '.join(traced)} ended with status {done.returncode}")
    return int(found[1].replace(",", ""))


# Rows.


class Table:
    """Measures this program by so many rounds, in this folder, with sizes divided by `part`, and prints rows."""

    def __init__(self, program, rounds, part, folder):
        self.program = program
        self.rounds = rounds
        self.part = part
        self.folder = folder
        self.is_within = True
        self.empty = folder / "empty"
        self.empty.mkdir()
        self.make(self.empty, "create")

    def sized(self, count):
        return max(count // self.part, 1)

    # Collections.

    def words(self, folder, *words):
        return [str(self.program), str(folder), *words]

    def make(self, folder, *words, path=os.devnull):
        """Does a command that isn't measured."""
        run = run_file(self.words(folder, *words), path)
        if run.status not in (0, 3):
            sys.exit(f"{' '.join(words)} ended with status {run.status}")

    def collection(self, name, *paths):
        """A folder of this name with the documents of these files, each of them added by a run of its own."""
        folder = self.folder / name
        copied(self.empty, folder)
        for path in paths:
            self.make(folder, "add", path=path)
        return folder

    # Jobs.

    def scan(self, text, path, way=run_file, statuses=(0,)):
        return Job(self.words(".", "scan", text), path, way, statuses)

    def add(self, path, way=run_file, statuses=(0,)):
        """Adds to a folder that is new in each run."""
        folder = self.folder / "added"
        return Job(self.words(folder, "add"), path, way, statuses, self.empty, folder)

    def session(self, folder, name, script, statuses=(0,)):
        """Does a script, which is kept under this name, over a copy of a folder."""
        path, changed = self.folder / f"{name}.script", self.folder / f"{name} done"
        path.write_text(script)
        return Job(self.words(changed, "session"), path, run_file, statuses, folder, changed)

    def query(self, folder, text, *options):
        return Job(self.words(folder, "query", *options, text))

    # Cells.

    def runs(self, *jobs):
        """The runs of these jobs, one behind the other, in each round."""
        return [[job.run() for job in jobs] for _ in range(self.rounds)]

    def best(self, *jobs):
        """The least time of each of these jobs and its greatest peak."""
        return best_of(self.runs(*jobs))

    def at_most(self, shown, value, bound):
        """What is shown of a value, with its bound."""
        if value <= bound or self.part > 1:
            return f"{shown} (at most {bound})"
        self.is_within = False
        return f"{shown} above the bound {bound}"

    def at_least(self, shown, value, bound):
        if value >= bound or self.part > 1:
            return f"{shown} (at least {bound})"
        self.is_within = False
        return f"{shown} below the bound {bound}"

    def row(self, name, *cells):
        print(f"{name:<56}", "   ".join(cells), flush=True)

    def measure(self, job, bound, text=None):
        """The time of a job, and the cells of that time, of its ratio to the time of `wc -w` on its text, and of its peak."""
        (count, _), (taken, peak) = self.best(Job(COUNT, text or job.path), job)
        times = taken / max(count, 0.0001)
        return taken, (
            f"{taken:7.3f} s",
            self.at_most(f"{times:6.2f} times wc -w", times, bound.times),
            self.at_most(f"peak {peak:4.0f} MiB", peak, bound.peak),
        )

    def measure_add(self, path, documents, bound):
        """The same of an `add`, with its speed and the size of the files that it leaves."""
        job = self.add(path)
        taken, cells = self.measure(job, bound)
        size = path.stat().st_size
        files = sum(file.stat().st_size for file in job.changed.iterdir()) / size
        return taken, (
            *cells,
            f"{size / MEGA / taken:6.1f} MB/s",
            f"{documents / taken:7.0f} documents/s",
            self.at_most(f"files {files:4.2f} times the text", files, bound.files),
        )

    def milliseconds(self, *jobs):
        return [1000 * taken for taken, _ in self.best(*jobs)]


def best_of(rounds):
    """The least time and the greatest peak of each job of these rounds."""
    return [(min(run.seconds for run in same), max(run.peak for run in same)) for same in zip(*rounds)]


def slope_of(sizes, times):
    """The slope of log time over log size, by least squares."""
    xs, ys = [math.log(size) for size in sizes], [math.log(max(taken, 0.0001)) for taken in times]
    x, y = sum(xs) / len(xs), sum(ys) / len(ys)
    return sum((a - x) * (b - y) for a, b in zip(xs, ys)) / sum((a - x) ** 2 for a in xs)


def exponent(sizes, rounds):
    """The median of the slopes of these rounds, each of one job for each size."""
    return statistics.median(slope_of(sizes, [run.seconds for run in runs]) for runs in rounds)


# Groups.


def measure_newswire(table):
    paths = {size: table.folder / f"newswire{size}" for size in (8, 16, 24, 32)}
    documents = {size: inputs.newswire(path, table.sized(size * MIB)) for size, path in paths.items()}
    path = paths.pop(24)

    def slope(jobs):
        found = exponent(paths, table.runs(*jobs))
        return table.at_most(f"exponent {found:4.2f}", found, EXPONENT)

    for text in TEXTS:
        _, cells = table.measure(table.scan(text, path), NEWSWIRE_SCAN)
        table.row(f"scan {text}, newswire 24 MiB", *cells, slope([table.scan(text, other) for other in paths.values()]))
    taken, cells = table.measure_add(path, documents[24], NEWSWIRE_ADD)
    speed = path.stat().st_size / MEGA / taken
    fast = table.at_least(f"{speed:4.0f} MB/s", speed, NEWSWIRE_SPEED)
    table.row("add, newswire 24 MiB", *cells, fast, slope([table.add(other) for other in paths.values()]))
    folders = {size: table.collection(f"folder{size}", other) for size, other in [*paths.items(), (24, path)]}
    folder = folders.pop(24)
    for text in TEXTS:
        _, cells = table.measure(table.query(folder, text), NEWSWIRE_QUERY, path)
        table.row(f"query {text}, newswire 24 MiB", *cells, slope([table.query(other, text) for other in folders.values()]))


def measure_thin(table):
    sizes = (32, 64)
    paths = [table.folder / f"thin{size}" for size in sizes]
    documents = [inputs.thin(path, table.sized(size * MIB)) for size, path in zip(sizes, paths)]
    folders = [table.collection(f"folder of {path.name}", path) for path in paths]
    scans = [table.scan("rain", path) for path in paths]
    queries = [table.query(folder, "rain") for folder in folders]
    measured = (
        ("scan rain", scans, [table.measure(job, THIN_SCAN) for job in scans]),
        ("add", [table.add(path) for path in paths], [table.measure_add(*it, THIN_ADD) for it in zip(paths, documents)]),
        ("query rain", queries, [table.measure(job, THIN_QUERY, path) for job, path in zip(queries, paths)]),
    )
    for name, jobs, ((_, half_cells), (_, cells)) in measured:
        table.row(f"{name}, thin 32 MiB", *half_cells)
        grown = statistics.median(whole.seconds / half.seconds for half, whole in table.runs(*jobs))
        table.row(f"{name}, thin 64 MiB", *cells, table.at_most(f"{grown:4.2f} times 32 MiB", grown, THIN_TO_HALF))


def measure_marks(table, marks, way, in_pieces):
    path = table.folder / "marks"
    for mark, (scan, add) in marks.items():
        inputs.one_document(path, inputs.repeated(mark, table.sized(8 * MIB)))
        shown = "plain text" if mark == PLAIN else f"'{mark}'"
        for name, job, bound in (
            ("scan rain", table.scan("rain", path, way, (0, 3)), scan),
            ("add", table.add(path, way, (0, 3)), add),
        ):
            _, cells = table.measure(job, bound)
            table.row(f"{name}, 8 MiB of {shown}{in_pieces}", *cells)


def measure_hostile(table):
    measure_marks(table, MARKS, run_file, "")


def measure_pieces(table):
    measure_marks(table, PIECES, run_pipe, " in pieces")


def measure_large(table):
    size = table.sized(16 * MIB) - 40
    statuses = (3,) if table.part == 1 else (0,)
    path = table.folder / "large"
    documents = (
        ("no word", inputs.repeated(". ", size), (0,), LARGE),
        ("1,048,574 words", inputs.repeated("a" * 15 + " ", size), (0,), LARGE),
        ("too many words", inputs.repeated("a ", size), statuses, LARGE),
        ("1,048,573 distinct words", "".join(f"w{i:014} " for i in range(size // 16)), (0,), DISTINCT),
    )
    for shown, text, ends, (scan, add) in documents:
        inputs.one_document(path, text)
        for name, job, bound in (
            ("scan rain", table.scan("rain", path, statuses=ends), scan),
            ("add", table.add(path, statuses=ends), add),
        ):
            _, cells = table.measure(job, bound)
            table.row(f"{name}, 16 MiB with {shown}", *cells)


def measure_many(table):
    documents, words = table.sized(30_000), 25
    path = table.folder / "many"
    inputs.short_documents(path, 0, documents, words)
    add = table.add(path)
    (scan, _), (taken, peak) = table.best(table.scan("rain", path), add)
    ratio = taken / scan
    token = peak * MIB / (documents * words)
    copied(add.begun, add.changed)
    status = run_file(add.command, path, MANY_SPACE).status
    table.row(
        "add, 30,000 documents of 25 words",
        f"{taken:7.3f} s",
        f"{documents / taken:7.0f} documents/s",
        table.at_most(f"{ratio:5.2f} times scan rain", ratio, ADD_TO_SCAN),
        f"peak {peak:4.0f} MiB",
        table.at_most(f"{token:4.1f} bytes a token", token, BYTES_A_TOKEN),
        table.at_most(f"status {status} in {MANY_SPACE} MiB of address space", status, 0),
    )


def measure_segments(table):
    """The same documents in more and more segments."""
    documents = table.sized(63_488)
    folders = {}
    for segments in SEGMENTS:
        each = documents // segments
        paths = [table.folder / f"short{i}" for i in range(segments)]
        for i, path in enumerate(paths):
            inputs.short_documents(path, i * each, each, 25)
        folders[segments] = table.collection(f"segments{segments}", *paths)
    for text in SEGMENT_QUERIES:
        taken = table.milliseconds(*(table.query(folder, text) for folder in folders.values()))
        ratio = taken[-1] / taken[0]
        cells = [f"{one:7.1f} ms of {segments}" for segments, one in zip(SEGMENTS, taken)]
        shown = table.at_most(f"{ratio:4.2f} times that of one segment", ratio, SEGMENTS_TO_ONE)
        table.row(f"query {text}, 63,488 documents in segments", *cells, shown)


def measure_matches(table):
    """Queries of what more and more documents have. What opening costs is that of a query of a word that none has."""
    counts = [table.sized(count) for count in MATCHES]
    path = table.folder / "matched"
    inputs.matched_documents(path, counts[-1], counts)
    folder = table.collection("matches", path)
    for text, bound in MATCHED.items():
        queries = [table.query(folder, text.replace("{n}", str(n))) for n in counts]
        opened, *taken = table.milliseconds(table.query(folder, "nowhere"), *queries)
        each = 1000 * (taken[-1] - opened) / counts[-1]
        cells = [f"{one:7.1f} ms of {n}" for n, one in zip(counts, taken)]
        shown = table.at_most(f"{each:5.2f} us a document beyond {opened:5.1f} ms", each, bound)
        table.row(f"query {text}, of as many documents", *cells, shown)


def measure_delete(table):
    documents = table.sized(60_000)
    path, docnos = table.folder / "short", table.folder / "docnos"
    inputs.short_documents(path, 0, documents, 25)
    whole, changed = table.collection("whole", path), table.folder / "deleted"
    job = Job(table.words(changed, "delete"), docnos, begun=whole, changed=changed)
    times = {}
    for shown, every in (("one", documents), ("a tenth", 10), ("all", 1)):
        docnos.write_text("".join(f"d{i}\n" for i in range(0, documents, every)))
        count = len(range(0, documents, every))
        [times[shown]] = table.milliseconds(job)
        before, after = table.milliseconds(table.query(whole, "rain"), table.query(changed, "rain"))
        manifest = (changed / "manifest").stat().st_size
        asked = table.at_most(f"then a query of {after:6.1f} ms, {after / before:4.2f} times", after / before, LIVE_TO_ALL)
        each = 1000 * (times[shown] - times["one"]) / count
        cell = table.at_most(f"{each:5.2f} us a line beyond one", each, DELETE_MICROSECONDS)
        table.row(f"delete {shown} of 60,000 documents", f"{times[shown]:7.1f} ms of {count}", cell, f"manifest {manifest} bytes", asked)


def measure_merge(table):
    joined, docnos = table.folder / "joined", table.folder / "docnos"
    whole, begun, changed = table.folder / "whole", table.folder / "begun", table.folder / "merged"
    merge = Job(table.words(changed, "merge"), begun=begun, changed=changed)
    for most, words in MERGED:
        documents = table.sized(most)
        each = documents // MERGE_PARTS
        paths = [table.folder / f"part{i}" for i in range(MERGE_PARTS)]
        for i, path in enumerate(paths):
            inputs.short_documents(path, i * each, each, words)
        joined.write_text("".join(part.read_text() for part in paths))
        table.collection(whole.name, *paths)
        for shown, dead in (("all live", range(0)), ("every second dead", range(0, each * MERGE_PARTS, 2))):
            docnos.write_text("".join(f"d{i}\n" for i in dead))
            count = each * MERGE_PARTS - len(dead)
            copied(whole, begun)
            table.make(begun, "delete", path=docnos)
            read = sum(file.stat().st_size for file in begun.glob("seg-*")) / MEGA
            (added, held), (taken, peak) = table.best(table.add(joined), merge)
            table.row(
                f"merge, {most:,} documents of {words} words, {shown}",
                f"{taken:7.3f} s",
                f"{count / taken:7.0f} documents/s",
                table.at_least(f"{read / taken:4.0f} MB/s", read / taken, MERGE_SPEED),
                table.at_most(f"{taken / added:5.2f} times add", taken / added, MERGE_TO_ADD),
                f"peak {peak:4.0f} MiB",
                table.at_most(f"{peak / held:4.2f} times that of add", peak / held, MERGE_PEAK_TO_ADD),
            )


def short_collection(table, documents):
    """A folder with so many documents of 25 words in ten segments."""
    each = max(documents // MERGE_PARTS, 1)
    paths = [table.folder / f"part{i}" for i in range(MERGE_PARTS)]
    for i, path in enumerate(paths):
        inputs.short_documents(path, i * each, each, 25)
    return table.collection(f"short{documents}", *paths), each * MERGE_PARTS


def merge_in_turns(documents, size):
    """The script of a merge of so many documents by turns of this size."""
    return "merge\n" + f"turn {size}\n" * -(-documents // size) + "end\n"


def measure_turns(table):
    def turned(folder, documents, size):
        return table.session(folder, f"turns{documents}-{size}", merge_in_turns(documents, size))

    folder, documents = short_collection(table, table.sized(TURN_DOCUMENTS))
    sizes = [size for size in TURN_SIZES[:-1] if size < documents] + [documents]
    jobs = [turned(folder, documents, size) for size in sizes]
    (opened, _), *found = table.best(table.session(folder, "nothing", "end\n"), *jobs)
    whole = found[-1][0] - opened
    for size, (taken, peak) in zip(sizes, found):
        turns = -(-documents // size)
        ratio = (taken - opened) / max(whole, 0.0001)
        table.row(
            f"session, a merge of 60,000 documents by turns of {size:,}",
            f"{taken:7.3f} s",
            f"{1000 * (taken - opened) / turns:9.3f} ms a turn",
            table.at_most(f"{ratio:4.2f} times one turn", ratio, TURNS_TO_ONE),
            table.at_most(f"peak {peak:4.0f} MiB", peak, TURNS_PEAK),
        )
    counts = [table.sized(TURN_DOCUMENTS // part) for part in (4, 2, 1)]
    smaller = [short_collection(table, count) for count in counts]
    rounds = table.runs(*(turned(other, count, STEP_SIZE) for other, count in smaller))
    slope = exponent(counts, rounds)
    table.row("session, merges by turns of 64", table.at_most(f"exponent {slope:4.2f}", slope, TURNS_EXPONENT))


def stepped(name, documents, size):
    return f"step {name} {size}\n" * -(-documents // size) + f"show {name}\n"


def one_at_a_time(documents, texts):
    rounds = (f"open q 10 {text}\n{stepped('q', documents, STEP_SIZE)}close q\n" for text in texts)
    return "".join(rounds)


def all_at_once(documents, texts):
    names = [f"q{i}" for i in range(len(texts))]
    opened = "".join(f"open {name} 10 {text}\n" for name, text in zip(names, texts))
    steps = "".join(f"step {name} {STEP_SIZE}\n" for name in names) * -(-documents // STEP_SIZE)
    return opened + steps + "".join(f"show {name}\n" for name in names)


def measure_steps(table):
    folder, documents = short_collection(table, table.sized(60_000))
    texts = [f"w{i} w{i + 1} {word}" for i, word in enumerate(["the", "of", "rain", "launch"] * (STEP_QUERIES // 4))]
    one = table.session(folder, "one at a time", one_at_a_time(documents, texts))
    open_at_once = table.session(folder, "all at once", all_at_once(documents, texts))
    (opened, _), (alone, held), (taken, peak) = table.best(table.session(folder, "nothing", "end\n"), one, open_at_once)
    ratio = (taken - opened) / max(alone - opened, 0.0001)
    steps = STEP_QUERIES * -(-documents // STEP_SIZE)
    table.row(
        "session, 16 queries over 60,000 documents, one open",
        f"{alone:7.3f} s",
        f"{1e6 * (alone - opened) / steps:7.1f} us a step of 64",
        table.at_most(f"peak {held:4.0f} MiB", held, STEPS_PEAK),
    )
    table.row(
        "session, the same with 16 open",
        f"{taken:7.3f} s",
        f"{1e6 * (taken - opened) / steps:7.1f} us a step of 64",
        table.at_most(f"{ratio:4.2f} times one open", ratio, OPEN_TO_ONE),
        table.at_most(f"peak {peak:4.0f} MiB", peak, STEPS_PEAK),
    )
    at_once = table.session(folder, "one step", f"open q 10 nowhere\nstep q {documents}\nshow q\n")
    many = table.session(folder, "steps of one", f"open q 10 nowhere\n{stepped('q', documents, 1)}")
    (whole, _), (taken, _) = table.best(at_once, many)
    each = 1e6 * (taken - whole) / documents
    shown = table.at_most(f"{each:5.2f} us a step", each, STEP_MICROSECONDS)
    table.row("session, 60,000 steps of one document that find nothing", f"{taken:7.3f} s", shown, f"{whole:7.3f} s by one step")


def file_bytes_of(process, lines, last):
    """How many bytes a session reads beside these lines, until it writes a line that begins with `last`."""
    def all_bytes():
        counts = dict(line.split(": ") for line in Path(f"/proc/{process.pid}/io").read_text().splitlines())
        return int(counts["rchar"])

    before = all_bytes()
    process.stdin.write(lines)
    process.stdin.flush()
    while (line := process.stdout.readline()) and not line.startswith(last):
        pass
    if not line:
        sys.exit(f"the session ended with status {process.wait()}")
    return all_bytes() - before - len(lines)


def measure_again(table):
    folder, documents = short_collection(table, table.sized(6_000))
    lines = f"open q 10 the of rain\nstep q {documents}\nshow q\nclose q\n"
    with subprocess.Popen(table.words(folder, "session"), stdin=subprocess.PIPE, stdout=subprocess.PIPE, text=True) as process:
        first, second = (file_bytes_of(process, lines, "closed q") for _ in range(2))
    table.row("session, three words over 6,000 documents", f"{first:7,} bytes read")
    table.row("session, the same query asked again", table.at_most(f"{second:7,} bytes read", second, 0))


def session_lines(count):
    """A script of so many lines. Each hundredth of it adds 75 documents, and asks, deletes, flushes and merges in turns."""
    pick = random.Random(7)
    lines, added = [], 0
    while len(lines) < count:
        at = len(lines) % 100
        if at % 4:
            text = f"<DOC><DOCNO>s{added}</DOCNO>{' '.join(pick.choices(VOCABULARY, k=25))}</DOC>"
            lines.append(f"add {len(text)}\n{text}")
            added += 1
        elif at == 0:
            lines.append("flush")
        elif at in (4, 8, 12):
            lines.append(f"open q{len(lines) % 500}x{at} 10 w{at} rain")
        elif at in (16, 20, 24):
            lines.append(f"step q{(len(lines) - at) % 500 + at - 12}x{at - 12} 1000000")
        elif at == 28:
            lines.append("merge" if len(lines) % 1000 < 100 else f"delete s{pick.randrange(added)}")
        elif at < 60:
            lines.append(f"turn {max(added // 6, 1)}")
        elif at in (60, 64, 68):
            lines.append(f"close q{(len(lines) - at) % 500 + at - 56}x{at - 56}")
        else:
            lines.append(f"delete s{pick.randrange(added)}")
    return "\n".join(lines) + "\nend\n"


def measure_session(table):
    counts = [table.sized(count) for count in SESSION_LINES]
    jobs = [table.session(table.empty, f"lines{count}", session_lines(count), (0, 3)) for count in counts]
    rounds = table.runs(*jobs)
    found, slope = best_of(rounds), exponent(counts, rounds)
    for count, (taken, peak) in zip(counts, found):
        each = 1000 * taken / count
        table.row(
            f"session of {count:,} lines",
            f"{taken:7.3f} s",
            table.at_most(f"{each:6.3f} ms a line", each, SESSION_LINE_MILLISECONDS),
            table.at_most(f"peak {peak:4.0f} MiB", peak, SESSION_PEAK),
        )
    table.row("sessions of these lengths", table.at_most(f"exponent {slope:4.2f}", slope, SESSION_EXPONENT))


def measure_prior(table):
    documents = table.sized(PRIOR_ROWS)
    path, rows = table.folder / "ranked", table.folder / "rows"
    inputs.short_documents(path, 0, documents, 5)
    rows.write_text("".join(f"d{i} {1 + i % 97}/100\n" for i in range(documents)))
    whole, changed = table.collection("without", path), table.folder / "with"
    set_rows = Job(table.words(changed, "prior", "home"), rows, begun=whole, changed=changed)
    opened, taken = table.milliseconds(table.query(whole, "nowhere"), set_rows)
    each = 1000 * taken / documents
    shown = table.at_most(f"{each:5.2f} us a row", each, PRIOR_MICROSECONDS)
    table.row("prior, 100,000 rows", f"{taken:7.1f} ms", shown, f"opening {opened:5.1f} ms")
    texts = ("rain launch", "rain launch #prior(home)")
    alone, beside = table.milliseconds(*(table.query(changed, text) for text in texts))
    shown = table.at_most(f"{beside / alone:4.2f} times the query alone", beside / alone, WITH_PRIOR)
    table.row(f"query {texts[1]}, 100,000 documents", f"{beside:7.1f} ms", shown)


def measure_texts(table, texts, path, bounds, shown):
    """A row for each of these texts, of a scan of one file and of a query over its collection."""
    folder = table.collection("folder", path)
    for text in texts:
        for name, job, bound in (("scan", table.scan(text, path), bounds[0]), ("query", table.query(folder, text), bounds[1])):
            _, cells = table.measure(job, bound, path)
            table.row(f"{name} {text}, {shown}", *cells)


def measure_windows(table):
    path = table.folder / "windows"
    tokens = table.sized(1_000_000)
    for words, shown in ((inputs.mixed(tokens), "mixed"), (inputs.in_runs(tokens), "in runs")):
        inputs.one_document(path, inputs.in_lines(words))
        measure_texts(table, WINDOWS, path, (WINDOW, WINDOW_QUERY), f"1,000,000 tokens {shown}")
    inputs.one_document(path, inputs.in_lines(inputs.mixed(tokens)))
    any_words = f"#syn({' '.join(f'w{i}' for i in range(ANY_WORDS))})"
    _, cells = table.measure(table.scan(any_words, path), WINDOW)
    table.row(f"scan for any of {ANY_WORDS} words, 1,000,000 tokens mixed", *cells)


def measure_fields(table):
    path = table.folder / "fields"
    fields = table.sized(MOST_FIELDS)
    documents = (
        (inputs.distinct_fields(fields, in_order=False), DISTINCT_NAMES, "65,535 names, closed last first"),
        (inputs.distinct_fields(fields, in_order=True), DISTINCT_NAMES, "65,535 names, closed as opened"),
        (inputs.nested_fields(fields), ONE_NAME, "65,535 fields nested"),
        (inputs.flat_fields(fields), ONE_NAME, "65,535 fields in a row"),
    )
    for document, texts, shown in documents:
        inputs.one_document(path, document)
        _, cells = table.measure(table.add(path), FIELDS_ADD)
        table.row(f"add, {shown}", *cells)
        measure_texts(table, texts, path, (FIELDS, FIELDS_QUERY), shown)


def measure_parts(table):
    path = table.folder / "parts"
    inputs.one_document(path, inputs.in_lines(inputs.mixed(table.sized(1_000_000))))
    folder = table.collection("passages", path)
    for beliefs in PASSAGES:
        asked = (f"#combine({beliefs})", f"#combine[passage100:50]({beliefs})")
        (whole, _), (taken, peak) = table.best(*(table.query(folder, text) for text in asked))
        ratio = table.at_most(f"{taken / whole:5.2f} times {asked[0]}", taken / whole, PASSAGES_TO_WHOLE)
        table.row(f"query {asked[1]}", f"{taken:7.3f} s", ratio, f"peak {peak:4.0f} MiB")
    fields = table.sized(MOST_FIELDS)
    for document, shown in ((inputs.nested_fields(fields), "nested"), (inputs.flat_fields(fields), "in a row")):
        inputs.one_document(path, document)
        folder = table.collection("in fields", path)
        for beliefs in IN_FIELDS:
            text = f"#combine[f]({beliefs})"
            [(taken, peak)] = table.best(table.query(folder, text))
            seconds = table.at_most(f"{taken:7.3f} s", taken, FIELDS_SECONDS)
            table.row(f"query {text}, 65,535 fields {shown}", seconds, f"peak {peak:4.0f} MiB")


def measure_evidence(table):
    path = table.folder / "evidence"
    inputs.newswire(path, table.sized(24 * MIB))
    folder = table.collection("evidence folder", path)
    for text, bound in EVIDENCE.items():
        (alone, _), (taken, _) = table.best(*(table.query(folder, asked) for asked in (ASKED, text)))
        ratio = taken / alone
        table.row(f"query {text}", f"{taken:7.3f} s", table.at_most(f"{ratio:5.2f} times {ASKED}", ratio, bound))
    inputs.one_document(path, inputs.nested_fields(table.sized(MOST_FIELDS)))
    folder = table.collection("nested folder", path)
    for text in FILTERS:
        _, cells = table.measure(table.query(folder, text), FIELDS_QUERY, path)
        table.row(f"query {text}, 65,535 fields nested", *cells)


def measure_passed(table):
    path = table.folder / "passed"
    absent = [f"nowhere{i}" for i in range(41)]
    inputs.short_documents(path, 0, table.sized(63_666), 25)
    folder = table.collection("absent", path)
    one, all_absent = table.milliseconds(*(table.query(folder, text) for text in (absent[0], " ".join(absent))))
    each = (all_absent - one) / 40
    table.row(
        "query of words that none of 63,666 documents has",
        table.at_most(f"{each:7.3f} ms a word", each, NO_WORD_MILLISECONDS),
        f"{one:7.1f} ms for one",
    )
    inputs.short_documents(path, 0, table.sized(200_000), 5)
    folder = table.collection("forty", path)
    forty = " ".join(VOCABULARY[:40])
    (one, _), (taken, peak) = table.best(*(table.query(folder, text) for text in (absent[0], forty)))
    table.row(
        "query of 40 words, 200,000 documents of 5 words",
        f"{taken:7.3f} s",
        table.at_most(f"{taken / one:5.2f} times one that none has", taken / one, FORTY_TO_ONE),
        f"peak {peak:4.0f} MiB",
    )


def counted(table, path):
    """The instructions of a scan and of an `add`."""
    add = table.add(path)
    copied(add.begun, add.changed)
    return instructions(table.scan("rain", path).command, path), instructions(add.command, path)


def measure_instructions(table):
    if not shutil.which("valgrind"):
        sys.exit("valgrind isn't installed, and the group instructions needs it")
    size = table.sized(MIB // 4)
    paths = {name: table.folder / name for name in INSTRUCTIONS}
    inputs.newswire(paths["newswire"], size)
    inputs.thin(paths["thin"], size)
    for shown, path in paths.items():
        for name, found, most in zip(("scan rain", "add"), counted(table, path), INSTRUCTIONS[shown]):
            each = found / path.stat().st_size
            cell = table.at_most(f"{each:7.1f} instructions a byte", each, most)
            table.row(f"{name}, {shown} 1/4 MiB", cell)
    halves = [table.folder / "half of a document", table.folder / "whole document"]
    for path, one in zip(halves, (size, 2 * size)):
        inputs.one_document(path, inputs.repeated(PLAIN, one))
    for name, half, whole in zip(("scan rain", "add"), *(counted(table, path) for path in halves)):
        cell = table.at_most(f"{whole / half:4.2f} times those of 1/4 MiB", whole / half, INSTRUCTIONS_TO_HALF)
        table.row(f"{name}, one document of 1/2 MiB", cell)
    measure_openings(table)
    measure_filter(table)
    measure_merge_bytes(table)


def measure_filter(table):
    """What a filter of windows inside one another takes for each document, beyond the same query without."""
    path = table.folder / "filtered"
    inputs.matched_documents(path, FILTERED, [FILTERED])
    folder, word = table.collection("filtered folder", path), f"one{FILTERED}"
    window = word
    for _ in range(WINDOWS_INSIDE):
        window = f"#uw8({window} two{FILTERED})"
    texts = word, f"#filreq({window} {word})"
    alone, found = (instructions(table.query(folder, text).command, os.devnull) for text in texts)
    each = (found - alone) / FILTERED
    table.row(f"filter of {WINDOWS_INSIDE} windows", table.at_most(f"{each:7.0f} instructions a document", each, FILTER_INSTRUCTIONS))


def measure_merge_bytes(table):
    """What a merge asks for, for each document more."""
    found = []
    for documents in MERGES:
        paths = [table.folder / f"half{i} of {documents}" for i in range(2)]
        for i, path in enumerate(paths):
            inputs.short_documents(path, i * documents // 2, documents // 2, MERGED_WORDS)
        found.append(bytes_asked_for(table.words(table.collection(f"merged {documents}", *paths), "merge")))
    each = (found[1] - found[0]) / (MERGES[1] - MERGES[0])
    cell = table.at_most(f"{each:7.0f} bytes a document", each, MERGE_BYTES)
    table.row(f"merge, documents of {MERGED_WORDS} words", cell)


def measure_openings(table):
    """What a query takes that is opened and closed in a session, beyond a session of fewer; and what a segment more takes."""
    paths = [table.folder / f"small{i}" for i in range(SEGMENTS[-1])]
    for i, path in enumerate(paths):
        inputs.short_documents(path, 5 * i, 5, 25)
    folder, found = table.collection("small", *paths), []
    for openings in OPENINGS:
        session = table.session(folder, "openings", "open q 5 nowhere\nclose q\n" * openings + "end\n")
        copied(session.begun, session.changed)
        found.append(instructions(session.command, session.path))
    each = (found[1] - found[0]) / (OPENINGS[1] - OPENINGS[0])
    cell = table.at_most(f"{each:7.0f} instructions", each, OPENING_INSTRUCTIONS)
    table.row(f"open and close a query over {SEGMENTS[-1]} segments", cell)
    few, many = (system_calls(table.query(one, "nowhere").command) for one in (table.collection("one small", paths[0]), folder))
    each = (many - few) / (len(paths) - 1)
    cell = table.at_most(f"{each:4.2f} calls of the system a segment", each, SEGMENT_CALLS)
    table.row(f"query nowhere, {SEGMENTS[-1]} segments", cell)


GROUPS = {
    "newswire": measure_newswire,
    "thin": measure_thin,
    "hostile": measure_hostile,
    "pieces": measure_pieces,
    "large": measure_large,
    "many": measure_many,
    "segments": measure_segments,
    "matches": measure_matches,
    "delete": measure_delete,
    "merge": measure_merge,
    "turns": measure_turns,
    "steps": measure_steps,
    "again": measure_again,
    "session": measure_session,
    "prior": measure_prior,
    "windows": measure_windows,
    "fields": measure_fields,
    "parts": measure_parts,
    "evidence": measure_evidence,
    "passed": measure_passed,
    "instructions": measure_instructions,
}


def options():
    parser = argparse.ArgumentParser(description="Measures the time and the memory of the commands over a folder.")
    parser.add_argument("--rounds", type=int, default=3, help="a time is the best of so many (3)")
    parser.add_argument("--part", type=int, default=1, help="each size is divided by this, to try the rows (1)")
    parser.add_argument("--program", type=Path, default=PROGRAM, help="the program that is measured (that of ./indri)")
    parser.add_argument("groups", nargs="*", metavar="GROUP", help=", ".join(GROUPS))
    chosen = parser.parse_args()
    unknown = [group for group in chosen.groups if group not in GROUPS]
    if unknown or chosen.rounds < 1 or chosen.part < 1:
        parser.error(f"no group {unknown[0]}" if unknown else "no round, or no part")
    return chosen


def main():
    chosen = options()
    if not os.access(chosen.program, os.X_OK):
        sys.exit("the program isn't built: run ./indri once")
    is_within = True
    for group in chosen.groups or GROUPS:
        with tempfile.TemporaryDirectory() as folder:
            table = Table(chosen.program.resolve(), chosen.rounds, chosen.part, Path(folder))
            GROUPS[group](table)
            is_within &= table.is_within
    sys.exit(0 if is_within else 1)


if __name__ == "__main__":
    main()
