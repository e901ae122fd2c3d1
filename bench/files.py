#!/usr/bin/env python3
"""Measures the time and the memory of writing and reading a segment, as LLVM builds the calls. It stands apart from the gate.

usage: bench/files.py [--rounds N] [--mega N] [--program FILE]

The program that is measured is file_counts. It makes documents and writes their segment, or reads a file as a segment, once
for each line that it is sent. `rt run` in crates/file_counts builds it, and proves it first.

The segments have 20 MB, which --mega changes, and 10 MB:

    usual words     the word n comes about one n-th as often as the word 1, as it is in texts
    even words      32,768 words that are as likely as one another

A row has MB in a second of processor time, the best of the rounds; the exponent, which is the logarithm of how much more
time the larger segment takes over that of how much larger it is; and the peak of memory beside the file for each byte of it,
which is the most of the first round over what the program had before it. What a program gave back before and has still from
the system may be used again, and isn't counted then.

The hostile files have 1 MB and the greatest counts. Each is refused at the place that it was made for. A row has the time and
the peak.

The status is 1 where a row is beyond its bound, or where the program says something else than it must. A token takes 16
bytes of memory in a document, and some 13 of a file of usual words.
"""
import argparse
import math
import os
import subprocess
import sys
import tempfile
import time
from dataclasses import dataclass
from pathlib import Path

PROGRAM = Path(__file__).resolve().parent.parent / "crates/file_counts/out/file_counts"
MEGA = 1_000_000
MIB = 1 << 20

# Of each collection: the spread of its words, and how many bytes of the segment a document has, nearly.
COLLECTIONS = {"usual words": (16, 5300), "even words": (1, 8300)}
WRITTEN, READ = 100, 60
EXPONENT = 1.1
WRITE_PEAK, READ_PEAK = 2, 2

HOSTILE_SIZE = MEGA
HOSTILE_SECONDS, HOSTILE_PEAK = 0.010, 8 * MIB


@dataclass(frozen=True)
class Spent:
    """What the program said of a line, the processor time in seconds, and the peak in bytes over what it had before."""

    said: str
    seconds: float
    peak: int


class Program:
    """A run of the program, which waits for lines."""

    def __init__(self, program, *words):
        command = [str(program), *map(str, words)]
        self.run = subprocess.Popen(command, stdin=subprocess.PIPE, stdout=subprocess.PIPE, text=True)
        self.proc = Path(f"/proc/{self.run.pid}")
        self.begins = self.line()

    def __enter__(self):
        return self

    def __exit__(self, *_):
        self.run.stdin.close()
        self.run.wait()

    def line(self):
        said = self.run.stdout.readline().strip()
        if not said:
            sys.exit(f"the program ended with status {self.run.wait()}")
        return said

    def memory(self, name):
        for line in (self.proc / "status").read_text().splitlines():
            if line.startswith(name):
                return int(line.split()[1]) * 1024
        sys.exit(f"the system tells no {name}")

    def seconds(self):
        """The processor time so far. It is exact once the program waits for a line."""
        while (self.proc / "stat").read_text().rpartition(")")[2].split()[0] != "S":
            time.sleep(0.0002)
        return int((self.proc / "schedstat").read_text().split()[0]) / 1e9

    def ask(self, line=""):
        started = self.seconds()
        (self.proc / "clear_refs").write_text("5")
        before = self.memory("VmRSS")
        self.run.stdin.write(line + "\n")
        self.run.stdin.flush()
        said = self.line()
        return Spent(said, self.seconds() - started, self.memory("VmHWM") - before)


@dataclass
class Table:
    program: Path
    rounds: int
    folder: Path
    is_within: bool = True

    def bounded(self, shown, is_within, bound):
        """What is shown of a value, with its bound."""
        self.is_within &= is_within
        return f"{shown} ({bound})" if is_within else f"{shown} BEYOND {bound}"

    def wanted(self, said, wanted):
        if said != wanted:
            self.is_within = False
            print(f"   '{said}', not '{wanted}'")

    def measured(self, words, wanted):
        """The best time of the rounds, and the peak of the first."""
        with Program(self.program, *words) as run:
            spent = [run.ask() for _ in range(self.rounds)]
        for one in spent:
            self.wanted(one.said, wanted)
        return min(one.seconds for one in spent), spent[0].peak

    def made(self, documents, spread):
        """The file of a segment of so many documents, and what must be said of it."""
        path = self.folder / f"{documents}-{spread}"
        with Program(self.program, "write", documents, spread) as run:
            written = run.ask(str(path))
            self.wanted(written.said, f"{path.stat().st_size} bytes")
            return path, run.begins

    def row(self, name, least, most, small, large):
        """Of two sizes: the size, the time and the peak beside the file of each."""
        speed = large[0] / MEGA / large[1]
        slope = math.log(large[1] / small[1]) / math.log(large[0] / small[0])
        peak = large[2] / large[0]
        cells = (
            f"{large[0] / MEGA:5.1f} MB",
            self.bounded(f"{speed:4.0f} MB/s", speed >= least, f"at least {least}"),
            self.bounded(f"exponent {slope:4.2f}", slope <= EXPONENT, f"at most {EXPONENT}"),
            self.bounded(f"peak {peak:4.2f} times the file beside it", peak <= most, f"at most {most}"),
        )
        print(f"{name:<24}", "   ".join(cells), flush=True)

    def collection(self, name, size):
        spread, each = COLLECTIONS[name]
        writes, reads = [], []
        for documents in (size // 2 // each, size // each):
            path, counts = self.made(documents, spread)
            length = path.stat().st_size
            seconds, peak = self.measured(("write", documents, spread), f"{length} bytes")
            writes.append((length, seconds, peak - length))
            reads.append((length, *self.measured(("read", path), counts)))
            path.unlink()
        self.row(f"write, {name}", WRITTEN, WRITE_PEAK, *writes)
        self.row(f"read, {name}", READ, READ_PEAK, *reads)

    def hostile(self, name, made):
        content, fault = made
        path = self.folder / "hostile"
        path.write_bytes(content)
        seconds, peak = self.measured(("read", path), fault)
        cells = (
            f"{len(content) / MEGA:5.1f} MB",
            self.bounded(f"{1000 * seconds:5.2f} ms", seconds <= HOSTILE_SECONDS, f"at most {1000 * HOSTILE_SECONDS:.0f}"),
            self.bounded(f"peak {peak / MIB:4.1f} MiB", peak <= HOSTILE_PEAK, f"at most {HOSTILE_PEAK // MIB}"),
            fault,
        )
        print(f"{'hostile, ' + name:<24}", "   ".join(cells), flush=True)


# Hostile files, each with its fault.


def number(width, value):
    return value.to_bytes(width, "little")


def segment(documents, dictionary, blocks, docs=1, tokens=1, terms=2**32 - 1):
    """A file of these parts, whose header tells so many documents, tokens and terms."""
    dictionary_at = 64 + len(documents)
    blocks_at = dictionary_at + len(dictionary)
    header = b"indriseg" + number(4, 1) + number(4, docs) + number(8, tokens) + number(4, terms) + number(4, 0)
    for place in (64, dictionary_at, blocks_at, blocks_at + len(blocks)):
        header += number(8, place)
    return header + documents + dictionary + blocks


def document(tokens):
    return b"\1d" + number(4, tokens) + number(2, 0)


def term(i, range_of, place, length, blocks=1):
    """A term of four bytes, with one block."""
    return b"\4" + i.to_bytes(4, "big") + number(4, blocks) + number(4, range_of) + number(8, place) + number(4, length)


def block(places, count):
    """A block with the document 0 and these places, which tells so many."""
    return b"\1\0" + number(4, count) + b"".join(number(4, place) for place in places)


def many_documents(size):
    """As many of the smallest documents as there is room for, of as many as there may be."""
    content = segment(document(0) * ((size - 64) // 8), b"", b"", docs=2**20, tokens=2**26)
    return content, f"Documents {len(content)}"


def many_terms(size):
    """Terms whose blocks have no bytes."""
    count = (size - 72) // 25
    end = 72 + 25 * count
    content = segment(document(1), b"".join(term(i, 0, end, 0) for i in range(count)), b"")
    return content, f"Dictionary {end}"


def many_blocks(size):
    """A term with very many blocks, of which there are as many as there are ranges."""
    count = (size - 64 - 9) // (64 * 8 + 16)
    documents = document(0) * (64 * count - 1) + document(1)
    end = 64 + len(documents) + 9 + 16 * count
    places = b"".join(number(4, i) + number(8, end) + number(4, 0) for i in range(count))
    content = segment(documents, b"\4\0\0\0\1" + number(4, 2**32 - 1) + places, b"", docs=64 * count)
    return content, f"Dictionary {len(content)}"


def many_places(size):
    """A block that tells very many places, and has as many as there is room for."""
    tokens = 2**20
    count = (size - 72 - 25 - 6) // 4
    content = block(range(count), 2**32 - 1)
    return segment(document(tokens), term(1, 0, 97, len(content)), content, tokens=tokens, terms=1), f"Block {97 + len(content)}"


def same_place(size):
    """Terms that all stand at one place."""
    count = (size - 72) // 35
    blocks_at = 72 + 25 * count
    terms = b"".join(term(i, 0, blocks_at + 10 * i, 10) for i in range(count))
    return segment(document(1), terms, block([0], 1) * count, terms=count), f"Block {blocks_at + 16}"


HOSTILE = {
    "documents": many_documents,
    "terms": many_terms,
    "blocks of a term": many_blocks,
    "places": many_places,
    "terms at one place": same_place,
}


def main():
    parser = argparse.ArgumentParser(description="Measures the time and the memory of writing and reading a segment.")
    parser.add_argument("--rounds", type=int, default=5, help="a time is the best of so many (5)")
    parser.add_argument("--mega", type=int, default=20, help="the size of the larger segment in MB (20)")
    parser.add_argument("--program", type=Path, default=PROGRAM, help="the program that is measured")
    chosen = parser.parse_args()
    if chosen.rounds < 1 or chosen.mega < 1:
        parser.error("a number is below 1")
    if not os.access(chosen.program, os.X_OK):
        sys.exit("the program isn't built: `rt run` in crates/file_counts builds it")
    with tempfile.TemporaryDirectory() as folder:
        table = Table(chosen.program.resolve(), chosen.rounds, Path(folder))
        for name in COLLECTIONS:
            table.collection(name, chosen.mega * MEGA)
        for name, make in HOSTILE.items():
            table.hostile(name, make(HOSTILE_SIZE))
    sys.exit(0 if table.is_within else 1)


if __name__ == "__main__":
    main()
