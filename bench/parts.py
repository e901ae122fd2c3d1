#!/usr/bin/env python3
"""Measures the opening of a segment, and counts and searches over it, as LLVM builds the calls. It stands apart from the gate.

usage: bench/parts.py [--rounds N] [--mega N] [--documents N] [--program FILE] [--instructions]

The program that is measured is file_counts. It opens the segment of a folder, or counts the leaves of a query, makes the tables of its
ranges or searches for it, once for each line that it is sent. `rt run` in crates/file_counts builds it, and proves it first.

    usual words     a segment of 20 MB, which --mega changes; the word n comes about one n-th as often as the word 1
    documents       60,000 short documents, which --documents changes
    searched        as many, with three words of a tenth of them each and one of 500
    alike, mixed,   as many, with three words of a tenth of them each: once in 16 words; up to four times in 16 to 64 words, in no
    early           order; and in 16 words four times in the first thousand documents, and once in the others
    held            as many as mixed ones, with all three words in each of them

A row of an opening has MB of what is read in a second of processor time, the best of the rounds, and the peak of memory for
each byte of that. Only the header, the documents and the dictionary may be read, and one page beside them: the store reads its
files by pages. A row of a word has how many bytes are read where it is counted first, at most a page for each of its blocks, and how
many where it is counted again, which must be none, and take a millisecond at most, since its sums are kept. What the system counted for the
process is compared, less the line that it was sent.

A row of a search has the time of the best of the rounds in five processes, once its words are counted and its blocks are kept, by one step of all
documents and by steps of one. The exponent is the logarithm of how much more time a word of 500 documents takes among four times as
many documents, over that of 4. Below it stands the same with the tables of the ranges, which are made for each search, and what they
take. These searches are for 1,000 results.

A search for 10 results has two rows: what the opening, the first counts and the search take without tables; and with tables, what these
and the search take, and how many times as much this is as the search without. Both have the exponent, by a quarter of the documents.
With tables no search may take more than a tenth more instructions than without, and a fifth more time, and the tables no more than a tenth of it; but where there are fewer
than 1,000 results of 1,000 the row only says what they take, since the program makes none then. For the documents of
`early` the tables and the search may take half of it at most. Where documents are alike, or their counts and lengths vary in no order,
few ranges have no document that may be among the first 10 by what is known of the range, or none: there the tables are made for little
or for nothing.

Of the documents of `searched` nearly all that have one of the three words have one of three beliefs, so that the first 10 are told by
their ids. There a search for 10 may take at most 1.6 times as long as where documents are alike, and 1.4 times as many instructions.

Where each of the three words stands three times in the query, a search for 10 documents alike may take at most twice as many instructions
as where it stands once: a leaf that stands in the query before is looked up once in a document.

--instructions measures nothing but how many instructions a search takes, by valgrind: for 1,000 results by one step and by steps of one,
for 10 results with tables and without, what the tables take, a search for 10 of `searched`, and one with each word three times. These numbers are the same on a machine that does other things meanwhile,
where times aren't. The bounds are those of the times but where another is named. Where nothing is found one step passes all documents at once, so there it is bounded
what it takes by itself, and what a step of one takes. What a search for 10 takes without tables is bounded by itself too, for each document: where terms aren't found by their first bytes it is a seventh more.

A row of memory has how much more the peak is of a search for thousands of results than of one for 10, for each result more and each
leaf of the query. The search is the first of its process, and a peak is the least of five processes. The numbers of results stand on both sides of those at which its list is moved.
There the C library gives blocks of 32 KiB and more back as soon as they are freed (MALLOC_MMAP_THRESHOLD_): by itself it keeps more and larger ones
the larger the first ones were, and the peak would tell what it keeps, not what a search holds.

The status is 1 where a row is beyond its bound, or where the program reads or says something else than it must.
"""
import argparse
import math
import os
import random
import re
import struct
import subprocess
import sys
import tempfile
from collections import defaultdict
from contextlib import contextmanager
from dataclasses import dataclass
from pathlib import Path

from files import COLLECTIONS, MEGA, PROGRAM, Program

OPENED = 50
# What the store of a folder reads at once.
PAGE = 16 * 1024
PEAK = 4
NAME = "seg-0000000000000001"
COMMON, WORDS = 97, 5003
TOKENS = 8

TENTHS, RARE, FEW = (1, 2, 3), 4, 500
ALL_TENTHS = " ".join(f"w{word}" for word in TENTHS)
SEARCHED = {"absent": 0.1, f"w{RARE}": 3, ALL_TENTHS: 60}
STEPS, SEARCH_EXPONENT = 1.3, 0.3
# The queries that find something, and how many instructions a step of one document may take where nothing is found.
FOUND, STEP = (f"w{RARE}", ALL_TENTHS), 20
# How many instructions one step of all documents may take there, and a search for 10 results without tables for each document.
NOWHERE, FOR_TEN = 1_500_000, 1_450
MANY, TEN, HALF = 1000, 10, 0.5
# In how many processes a search is timed and its peak is looked at: one may take twice what another does, by where its memory lies.
PROCESSES = 5
# How many times what it takes without tables a search may take with them, in time and in instructions, and what part of it the tables.
DEARER, DEARER_INSTRUCTIONS, TABLES = 1.2, 1.1, 0.1
# How many times what a search takes of documents alike one may take where few different beliefs tie, in time and in instructions.
TIED, TIED_INSTRUCTIONS = 1.6, 1.4
# How many seconds a word may take that was counted before.
AGAIN = 0.001
# How often each word stands in a query that repeats its words, and how many times what it takes once it may take then.
OFTEN, REPEATED = 3, 2
# Blocks from this size on are given back once they are freed.
KEPT = "MALLOC_MMAP_THRESHOLD_"
HELD, MOST_HELD = 200, (5_000, 9_000, 10_000, 12_000, 20_000)


@dataclass(frozen=True)
class Reads:
    """How often the process read, and how many bytes."""

    calls: int
    size: int


class Reader(Program):
    """A run of the program whose reads are counted."""

    def reads(self):
        counts = dict(line.split(": ") for line in (self.proc / "io").read_text().splitlines())
        return Reads(int(counts["syscr"]), int(counts["rchar"]))

    def reads_of(self, line):
        """What the program says to a line, and its reads but those of the line, which it reads byte by byte."""
        line_bytes = len(line) + 1
        before = self.reads()
        spent = self.ask(line)
        after = self.reads()
        return spent, Reads(after.calls - before.calls - line_bytes, after.size - before.size - line_bytes)


@contextmanager
def given_back():
    """Programs that are run meanwhile give large blocks back once they are freed."""
    os.environ[KEPT] = str(32 * 1024)
    try:
        yield
    finally:
        del os.environ[KEPT]


def exponent(times):
    """By which power the time goes up, where four times as much takes so many times as long."""
    return math.log(times) / math.log(4)


def number(width, value):
    return value.to_bytes(width, "little")


def tokens_of(document):
    """The words of a document: one that all have, some that many have, and some that few have."""
    return [0, *(1 + (document * k) % COMMON for k in range(1, 4)), *(COMMON + 1 + (document * k) % WORDS for k in range(1, TOKENS - 3))]


def searched_tokens(documents):
    """The same of documents for searches."""
    def tokens_of(document):
        tokens = [word for word in TENTHS if (document * 7919 + word * 104729) // 16 % 10 == 0]
        tokens += [RARE] if document % max(documents // FEW, 1) == 0 else []
        return tokens + [100 + (document * k) % WORDS for k in range(1, TOKENS - len(tokens) + 1)]
    return tokens_of


# Of each shape: how often a document has a word that it has, and how many words it has.
SHAPES = {
    "alike": lambda document, dice: (1, 16),
    "mixed": lambda document, dice: (dice.choice((1, 1, 1, 1, 2, 2, 3, 4)), dice.randint(16, 64)),
    "early": lambda document, dice: (4 if document < 1000 else 1, 16),
}


def shaped_tokens(shape, share=0.1):
    """The words of a document, of which each of three is in such a share of all."""
    def tokens_of(document):
        dice = random.Random(document)
        times, length = shape(document, dice)
        tokens = [word for word in TENTHS if dice.random() < share for _ in range(times)]
        return tokens + [100 + (document * k) % WORDS for k in range(1, length - len(tokens) + 1)]
    return tokens_of


def postings_of(documents):
    """Of each word the places in each document, by documents. These are given by their words."""
    found = defaultdict(dict)
    for document, tokens in enumerate(documents):
        for at, word in enumerate(tokens):
            found[b"w%d" % word].setdefault(document, []).append(at)
    return found


def blocks_of(postings):
    """The ranges of a word, each with its block."""
    ranges = defaultdict(list)
    for document, places in postings.items():
        entry = number(1, document % 64) + number(4, len(places)) + b"".join(number(4, at) for at in places)
        ranges[document // 64].append(entry)
    return {key: number(1, len(entries)) + b"".join(entries) for key, entries in sorted(ranges.items())}


def segment(documents, tokens_of=tokens_of):
    """The segment of so many documents, and of each word how often it occurs and its blocks."""
    words = [tokens_of(document) for document in range(documents)]
    names = [b"d%d" % document for document in range(documents)]
    outlines = b"".join(number(1, len(name)) + name + number(4, len(tokens)) + number(2, 0) for name, tokens in zip(names, words))
    found = {word: (sum(map(len, postings.values())), blocks_of(postings)) for word, postings in sorted(postings_of(words).items())}
    dictionary_at = 64 + len(outlines)
    blocks_at = dictionary_at + sum(1 + len(word) + 4 + 16 * len(blocks) for word, (_, blocks) in found.items())
    place, dictionary, content = blocks_at, [], []
    for word, (_, blocks) in found.items():
        dictionary.append(number(1, len(word)) + word + number(4, len(blocks)))
        for key, block in blocks.items():
            dictionary.append(number(4, key) + number(8, place) + number(4, len(block)))
            content.append(block)
            place += len(block)
    header = b"indriseg" + number(4, 1) + number(4, documents) + number(8, sum(map(len, words))) + number(4, len(found)) + number(4, 0)
    for at in (64, dictionary_at, blocks_at, place):
        header += number(8, at)
    return header + outlines + b"".join(dictionary) + b"".join(content), found


class Table:
    def __init__(self, program, rounds, folder):
        self.program, self.rounds, self.folder = program, rounds, folder
        self.is_within = True

    def wanted(self, what, found, wanted):
        if found != wanted:
            self.is_within = False
            print(f"   {what}: {found}, not {wanted}")

    def allowed(self, what, found, is_allowed):
        if not is_allowed:
            self.is_within = False
            print(f"   {what}: {found}")

    def bounded(self, shown, is_within, bound):
        self.is_within &= is_within
        return f"{shown} ({bound})" if is_within else f"{shown} BEYOND {bound}"

    def made(self, name):
        folder = self.folder / name
        folder.mkdir()
        return folder

    def opening(self, name, folder, documents):
        """The segment of the folder is opened again and again."""
        with (folder / NAME).open("rb") as file:
            blocks_at = struct.unpack("<Q", file.read(64)[48:56])[0]
        spent = []
        with Reader(self.program, "open", folder, documents) as run:
            for _ in range(self.rounds):
                one, reads = run.reads_of("")
                self.wanted("said", one.said, f"{documents} documents")
                self.allowed("bytes read", reads.size, abs(reads.size - blocks_at) <= PAGE)
                spent.append(one)
        speed = blocks_at / MEGA / min(one.seconds for one in spent)
        peak = spent[0].peak / blocks_at
        cells = (
            f"{blocks_at / MEGA:5.1f} MB of {(folder / NAME).stat().st_size / MEGA:5.1f} MB",
            self.bounded(f"{speed:4.0f} MB/s", speed >= OPENED, f"at least {OPENED}"),
            self.bounded(f"peak {peak:4.2f} times what is read", peak <= PEAK, f"at most {PEAK}"),
        )
        print(f"{'open, ' + name:<24}", "   ".join(cells), flush=True)

    def word(self, run, word, count, total, blocks):
        """A word is counted twice."""
        said = f"{count} of {total}"
        first, reads = run.reads_of(word)
        self.wanted("said", first.said, said)
        few = reads.calls <= len(blocks) and reads.size <= PAGE * reads.calls
        self.allowed("reads of the first count", reads, few)
        second, again = run.reads_of(word)
        self.wanted("said", second.said, said)
        self.wanted("reads of the second count", again, Reads(0, 0))
        cells = (
            f"{count} times in {total} words",
            f"{reads.size} bytes in {reads.calls} reads, then {again.size} in {again.calls}",
            f"{1000 * first.seconds:5.2f} ms",
            self.bounded(f"then {1000 * second.seconds:5.2f} ms", second.seconds <= AGAIN, f"at most {1000 * AGAIN:.0f}"),
        )
        print(f"{'count, ' + word:<24}", "   ".join(cells), flush=True)

    def best(self, query, *words):
        """What is said of a query, and the best time of the rounds in some processes, once its words are counted and its blocks are kept."""
        spent = [one for _ in range(PROCESSES) for one in self.again(query, *words)]
        for one in spent:
            self.wanted("said", one.said, spent[0].said)
        return spent[0].said, min(one.seconds for one in spent)

    def again(self, query, *words):
        """What a process says of a query and takes for it in each round, behind a first one."""
        with Reader(self.program, *words) as run:
            run.ask(query)
            return [run.ask(query) for _ in range(self.rounds)]

    def first_times(self, query, folder, documents):
        """The time until the segment is open, and that of the first counts of a query."""
        with Reader(self.program, "count", folder, documents) as run:
            opening = run.seconds()
            return opening, run.ask(query).seconds

    def steps(self, command, folder, documents, query, bound=None, most=None, behind=()):
        """A row of a search by one step and by steps of one; what it says of the results, and its time."""
        said, whole = self.best(query, command, folder, documents, MANY, documents)
        said_by_one, by_one = self.best(query, command, folder, documents, MANY, 1)
        self.wanted("said by steps of one", said_by_one, said)
        ratio = by_one / whole
        shown, steps = f"{1000 * whole:6.3f} ms", f"{1000 * by_one:6.2f} ms by steps of one, {ratio:4.2f} times"
        cells = (
            said,
            self.bounded(shown, 1000 * whole <= bound, f"at most {bound} ms") if bound else shown,
            self.bounded(steps, ratio <= most, f"at most {most}") if most else steps,
            *behind,
        )
        print(f"{command + ', ' + query:<24}", "   ".join(cells), flush=True)
        return said, whole

    def searched(self, documents):
        folders = {}
        for count in (documents, documents // 4):
            folders[count] = self.made(f"searched {count}")
            (folders[count] / NAME).write_bytes(segment(count, searched_tokens(count))[0])
        for query, bound in SEARCHED.items():
            folder = folders[documents]
            said, whole = self.steps("search", folder, documents, query, bound, STEPS if query == ALL_TENTHS else None)
            shown = self.tables_shown(query, folder, documents, whole, said.split()[0] == str(MANY))
            said_with, _ = self.steps("skip", folder, documents, query, behind=[shown])
            self.wanted("said with tables", said_with, said)
        times = [self.best(f"w{RARE}", "search", folders[count], count, MANY, count)[1] for count in (documents, documents // 4)]
        power = exponent(times[0] / times[1])
        print(f"{'search, exponent':<24}", self.bounded(f"{power:4.2f}", power <= SEARCH_EXPONENT, f"at most {SEARCH_EXPONENT}"), flush=True)

    def ten_of(self, name, documents):
        """The folder of so many documents of a shape, and the times of searches for ten of them without tables and with them."""
        folder = self.made(f"{name} {documents}")
        (folder / NAME).write_bytes(segment(documents, shaped_tokens(SHAPES[name]))[0])
        said, without = self.best(ALL_TENTHS, "search", folder, documents, TEN, documents)
        said_with, both = self.best(ALL_TENTHS, "skip", folder, documents, TEN, documents)
        self.wanted("said with tables", said_with, said)
        return folder, without, both

    def few_beliefs(self, found, alike, unit, most):
        """A search for ten where few different beliefs tie, beside one where documents are alike."""
        times = self.bounded(f"{found / alike:5.3f} times documents alike", found <= most * alike, f"at most {most}")
        print(f"{'10 of few beliefs':<24}", f"{found:6.2f} {unit}", " ", times, flush=True)

    def first_ten(self, name, documents):
        """The first ten of documents of a shape, without tables and with them. Gives the seconds without."""
        _, fewer_without, fewer_both = self.ten_of(name, documents // 4)
        folder, without, both = self.ten_of(name, documents)
        opening, counts = self.first_times(ALL_TENTHS, folder, documents)
        cells = (
            f"opening {1000 * opening:6.2f} ms",
            f"counts {1000 * counts:6.2f} ms",
            f"search {1000 * without:6.2f} ms",
            f"exponent {exponent(without / fewer_without):4.2f}",
        )
        print(f"{'10 of them, ' + name:<24}", "   ".join(cells), flush=True)
        most = HALF if name == "early" else DEARER
        cells = (
            self.tables_shown(ALL_TENTHS, folder, documents, without),
            f"exponent {exponent(both / fewer_both):4.2f}",
            self.bounded(f"with the search {1000 * both:6.2f} ms, {both / without:4.2f} times", both <= most * without, f"at most {most}"),
        )
        print(f"{'  with tables':<24}", "   ".join(cells), flush=True)
        return without

    def instructions_of(self, query, *words):
        """How many instructions a query takes once its words are counted and its blocks are kept: those of a second one."""
        counts = []
        for lines in (1, 2):
            command = ["valgrind", "--tool=callgrind", "--callgrind-out-file=/dev/null", self.program, *map(str, words)]
            run = subprocess.run(command, input=f"{query}\n" * lines, capture_output=True, text=True, check=True)
            counts.append(int(re.search(r"Collected : (\d+)", run.stderr)[1]))
        return counts[1] - counts[0]

    def instructions_of_steps(self, folder, documents, query):
        """A search by one step and by steps of one, in instructions."""
        whole, by_one = (self.instructions_of(query, "search", folder, documents, MANY, step) for step in (documents, 1))
        each = (by_one - whole) / documents
        shown, steps = f"{whole / 1e6:6.2f} million", f"by steps of one {by_one / 1e6:6.2f}"
        if query in FOUND:
            cells = shown, self.bounded(f"{steps}, {by_one / whole:5.3f} times", by_one <= STEPS * whole, f"at most {STEPS}")
        else:
            most = f"at most {NOWHERE / 1e6}"
            cells = self.bounded(shown, whole <= NOWHERE, most), self.bounded(f"{steps}, {each:4.1f} a step more", each <= STEP, f"at most {STEP}")
        print(f"{'instructions, ' + query:<24}", "   ".join(cells), flush=True)

    def instructions(self, name, documents):
        """The first ten of documents of a shape, in instructions. Gives those of the search without tables."""
        folder = self.made(f"{name} {documents}")
        (folder / NAME).write_bytes(segment(documents, shaped_tokens(SHAPES[name]))[0])
        search, both = (self.instructions_of(ALL_TENTHS, command, folder, documents, TEN, documents) for command in ("search", "skip"))
        tables = self.instructions_of(ALL_TENTHS, "table", folder, documents)
        most, for_ten = HALF if name == "early" else DEARER_INSTRUCTIONS, FOR_TEN * documents
        cells = (
            self.bounded(f"{search / 1e6:6.2f} million", search <= for_ten, f"at most {for_ten / 1e6:.1f}"),
            self.bounded(f"with tables {both / 1e6:6.2f}, {both / search:5.3f} times", both <= most * search, f"at most {most}"),
            self.bounded(f"tables {tables / 1e6:5.2f}, {tables / search:5.3f} times", tables <= TABLES * search, f"at most {TABLES}"),
        )
        print(f"{'instructions, ' + name:<24}", "   ".join(cells), flush=True)
        return search

    def repeated(self, once, documents):
        """A search for ten of documents alike with each word several times, beside one with each of them once."""
        query = " ".join([ALL_TENTHS] * OFTEN)
        found = self.instructions_of(query, "search", self.folder / f"alike {documents}", documents, TEN, documents)
        times = self.bounded(f"{found / once:5.3f} times those of each word once", found <= REPEATED * once, f"at most {REPEATED}")
        print(f"{f'each word {OFTEN} times':<24}", f"{found / 1e6:6.2f} million instructions", " ", times, flush=True)

    def tables_shown(self, query, folder, documents, search, is_bounded=True):
        """What the tables take, beside a search without them."""
        tables = self.best(query, "table", folder, documents)[1]
        share = tables / search
        shown = f"tables {1000 * tables:6.3f} ms, {share:5.3f} of the search without"
        return self.bounded(shown, share <= TABLES, f"at most {TABLES}") if is_bounded else shown

    def peak(self, query, folder, documents, most):
        """The peak of the first search of a process, for so many results, where freed blocks are given back: the least of some processes."""
        peaks = []
        for _ in range(PROCESSES):
            with given_back(), Reader(self.program, "search", folder, documents, most, documents) as run:
                first = run.ask(query)
            self.wanted("results", first.said.split()[0], str(most))
            peaks.append(first.peak)
        return min(peaks)

    def held(self, documents):
        """What a search holds for each result and leaf."""
        folder = self.made("held")
        (folder / NAME).write_bytes(segment(documents, shaped_tokens(SHAPES["mixed"], 1))[0])
        for leaves in (1, len(TENTHS)):
            query = " ".join(f"w{word}" for word in TENTHS[:leaves])
            few = self.peak(query, folder, documents, TEN)
            for most in sorted({min(most, documents) for most in MOST_HELD}):
                self.held_for(query, leaves, few, most, self.peak(query, folder, documents, most))

    def held_for(self, query, leaves, few, most, many):
        """A row of what a search for so many results holds beyond one for ten."""
        each = (many - few) / (most - TEN) / leaves
        cells = (
            f"peak {few / MEGA:5.2f} MB for {TEN}, {many / MEGA:5.2f} MB for {most:6}",
            self.bounded(f"{each:4.0f} bytes a result and leaf", each <= HELD, f"at most {HELD}"),
        )
        print(f"{'memory, ' + query:<24}", "   ".join(cells), flush=True)

    def usual_words(self, size):
        spread, each = COLLECTIONS["usual words"]
        folder, documents = self.made("usual"), size // each
        with Program(self.program, "write", documents, spread) as run:
            run.ask(str(folder / NAME))
        self.opening("usual words", folder, documents)

    def documents(self, documents):
        folder = self.made("documents")
        content, found = segment(documents)
        (folder / NAME).write_bytes(content)
        self.opening("documents", folder, documents)
        with Reader(self.program, "count", folder, documents) as run:
            for word in ("w0", "w1", f"w{COMMON}", f"w{COMMON + 1}", f"w{COMMON + WORDS}", "absent"):
                count, blocks = found.get(word.encode(), (0, {}))
                self.word(run, word, count, documents * TOKENS, blocks)


def main():
    parser = argparse.ArgumentParser(description="Measures the opening of a segment, and counts and searches over it.")
    parser.add_argument("--rounds", type=int, default=5, help="a time is the best of so many (5)")
    parser.add_argument("--mega", type=int, default=20, help="the size of the segment of usual words in MB (20)")
    parser.add_argument("--documents", type=int, default=60_000, help="how many short documents there are (60,000)")
    parser.add_argument("--program", type=Path, default=PROGRAM, help="the program that is measured")
    parser.add_argument("--instructions", action="store_true", help="count instructions of searches for 10 results, by valgrind")
    chosen = parser.parse_args()
    if min(chosen.rounds, chosen.mega, chosen.documents) < 1:
        parser.error("a number is below 1")
    if not os.access(chosen.program, os.X_OK):
        sys.exit("the program isn't built: `rt run` in crates/file_counts builds it")
    with tempfile.TemporaryDirectory() as folder:
        table = Table(chosen.program.resolve(), chosen.rounds, Path(folder))
        if chosen.instructions:
            folder = table.made("searched")
            (folder / NAME).write_bytes(segment(chosen.documents, searched_tokens(chosen.documents))[0])
            for query in SEARCHED:
                table.instructions_of_steps(folder, chosen.documents, query)
            counts = {name: table.instructions(name, chosen.documents) for name in SHAPES}
            found = table.instructions_of(ALL_TENTHS, "search", folder, chosen.documents, TEN, chosen.documents)
            table.few_beliefs(found / 1e6, counts["alike"] / 1e6, "million instructions", TIED_INSTRUCTIONS)
            table.repeated(counts["alike"], chosen.documents)
            sys.exit(0 if table.is_within else 1)
        table.usual_words(chosen.mega * MEGA)
        table.documents(chosen.documents)
        table.searched(chosen.documents)
        times = {name: table.first_ten(name, chosen.documents) for name in SHAPES}
        found = table.best(ALL_TENTHS, "search", table.folder / f"searched {chosen.documents}", chosen.documents, TEN, chosen.documents)[1]
        table.few_beliefs(1000 * found, 1000 * times["alike"], "ms", TIED)
        table.held(chosen.documents)
    sys.exit(0 if table.is_within else 1)


if __name__ == "__main__":
    main()
