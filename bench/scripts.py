#!/usr/bin/env python3
"""Measures the time and the memory of reading a session script, as LLVM builds the reader. It stands apart from the gate.

usage: bench/scripts.py [--rounds N] [--mega N] [--program FILE] [ROW..]

The program that is measured is script_counts: it reads the script at its standard input item by item, keeps none, and
writes how many there are. `rt run <stdin` in crates/script_counts builds it, and proves it first.

The scripts are made in a temporary folder, the same ones each time, of 20 MB, which --mega changes. Without a row all of these
are measured:

    one add             documents of some 60 bytes in one `add`
    large documents     documents of some 30 KB in one `add`
    many adds           an `add` of one document again and again
    refused adds        an `add` of a byte that begins no document, again and again
    refused at once     one `add` whose first byte begins no document
    short lines         `merge` again and again
    queries             lines `open` with a query of some 60 bytes
    bad lines           lines of one byte that isn't in the table
    empty lines         nothing but LF
    one endless line    one line that is too long
    returns             one line of CR

Each comes as a file, and once more through a pipe, in pieces of 64 KiB at most. A row has the processor time, the best of the
rounds, the peak of memory of the process once the program runs in it, and how much more time twice as much of the script
takes. It is compared with its bounds: one second and 3 MB of memory for 20 MB, and 2.3 times the time for twice as much. The
counts that the program writes are compared with those that the script was made with. The status is 1 where one differs or a
row is above a bound. A bound on the time stands for 20 MB alone.
"""
import argparse
import os
import subprocess
import sys
import tempfile
import time
from collections.abc import Callable
from dataclasses import dataclass
from pathlib import Path

PROGRAM = Path(__file__).resolve().parent.parent / "crates/script_counts/out/script_counts"
MEGA = 1_000_000

SECONDS = 1
PEAK_MEGA = 3
TO_HALF = 2.3

# Scripts: each is written to a file, and answers how many documents, other events and refusals it has.


def document(i, words):
    return f"<DOC><DOCNO>d{i}</DOCNO>{'rain launch ' * words}</DOC>".encode()


def repeated(path, piece, size):
    """Writes as many whole pieces as make this size, and answers how many they are."""
    count = max(size // len(piece), 1)
    path.write_bytes(piece * count)
    return count


def one_add(path, size, words):
    pieces, written = [], 0
    while written < size:
        pieces.append(document(len(pieces), words))
        written += len(pieces[-1])
    path.write_bytes(b"add %d\n" % written + b"".join(pieces))
    return len(pieces), 0, 0


def many_adds(path, size):
    pieces, written = [], 0
    while written < size:
        text = document(len(pieces), 2)
        pieces.append(b"add %d\n%s" % (len(text), text))
        written += len(pieces[-1])
    path.write_bytes(b"".join(pieces))
    return len(pieces), 0, 0


def refused_at_once(path, size):
    path.write_bytes(b"add %d\n" % size + b"x" * size)
    return 0, 0, 1


def empty_lines(path, size):
    path.write_bytes(b"\n" * size)
    return 0, 0, 0


def one_line(path, size, byte):
    path.write_bytes(byte * size)
    return 0, 0, 1


def queries(path, size):
    count = repeated(path, b"open q 10 #combine(rain #1(launch pad) #uw8(heavy rain) storm)\n", size)
    return 0, count, 0


SCRIPTS = {
    "one add": lambda path, size: one_add(path, size, 2),
    "large documents": lambda path, size: one_add(path, size, 2500),
    "many adds": many_adds,
    "refused adds": lambda path, size: (0, 0, repeated(path, b"add 1\nx", size)),
    "refused at once": refused_at_once,
    "short lines": lambda path, size: (0, repeated(path, b"merge\n", size), 0),
    "queries": queries,
    "bad lines": lambda path, size: (0, 0, repeated(path, b"x\n", size)),
    "empty lines": empty_lines,
    "one endless line": lambda path, size: one_line(path, size, b"x"),
    "returns": lambda path, size: one_line(path, size, b"\r"),
}

# One run.


def peak_of(process):
    """The peak of memory of a process so far, in bytes, or 0 where it has ended."""
    try:
        for line in Path(f"/proc/{process}/status").read_text().splitlines():
            if line.startswith("VmHWM:"):
                return int(line.split()[1]) * 1024
    except (FileNotFoundError, ProcessLookupError):
        pass
    return 0


@dataclass(frozen=True)
class Run:
    """What a run wrote, its processor time in seconds, and its peak in bytes."""

    said: str
    seconds: float
    peak: int


def run(program, source, peak):
    """A run on this open file. Its peak is looked at a thousand times a second where it is wanted, and is 0 else."""
    with subprocess.Popen([program], stdin=source, stdout=subprocess.PIPE, text=True) as started:
        greatest = 0
        while peak and os.waitid(os.P_PID, started.pid, os.WEXITED | os.WNOHANG | os.WNOWAIT) is None:
            greatest = max(greatest, peak_of(started.pid))
            time.sleep(0.001)
        said = started.stdout.read().strip()
        _, status, usage = os.wait4(started.pid, 0)
        started.returncode = os.waitstatus_to_exitcode(status)
    if started.returncode:
        sys.exit(f"{program} ended with status {started.returncode}")
    return Run(said, usage.ru_utime + usage.ru_stime, greatest)


def run_file(program, path, peak=False):
    with open(path, "rb") as source:
        return run(program, source, peak)


def run_pipe(program, path, peak=False):
    with subprocess.Popen(["cat", path], stdout=subprocess.PIPE) as feeder:
        return run(program, feeder.stdout, peak)


WAYS = {"": run_file, ", in pieces": run_pipe}

# Rows.


@dataclass
class Table:
    program: Path
    rounds: int
    size: int
    folder: Path
    is_within: bool = True

    def at_most(self, shown, value, bound):
        """What is shown of a value, with its bound."""
        if value <= bound:
            return f"{shown} (at most {bound})"
        self.is_within = False
        return f"{shown} above the bound {bound}"

    def best(self, way, paths):
        """The best time of each file. They are taken in the same rounds, one after the other."""
        rounds = [[way(self.program, path).seconds for path in paths] for _ in range(self.rounds)]
        return [min(times) for times in zip(*rounds)]

    def counted(self, said, counts):
        """What is shown where the counts aren't these."""
        wanted = "{} documents, {} other events, {} refused".format(*counts)
        if said == wanted:
            return ""
        self.is_within = False
        return f"   '{said}', not '{wanted}'"

    def row(self, name, make: Callable):
        whole, twice = self.folder / "whole", self.folder / "twice"
        counts = make(whole, self.size)
        make(twice, 2 * self.size)
        for shown, way in WAYS.items():
            looked_at = way(self.program, whole, peak=True)
            peak = looked_at.peak / MEGA
            seconds, longer = self.best(way, (whole, twice))
            grown = longer / seconds
            cells = (
                self.at_most(f"{seconds:6.3f} s", seconds, SECONDS),
                self.at_most(f"peak {peak:4.2f} MB", peak, PEAK_MEGA),
                self.at_most(f"{grown:4.2f} times for twice as much", grown, TO_HALF),
            )
            print(f"{name + shown:<30}", "   ".join(cells) + self.counted(looked_at.said, counts), flush=True)


def main():
    parser = argparse.ArgumentParser(description="Measures the time and the memory of reading a session script.")
    parser.add_argument("--rounds", type=int, default=3, help="a time is the best of so many (3)")
    parser.add_argument("--mega", type=int, default=20, help="the size of a script in MB (20)")
    parser.add_argument("--program", type=Path, default=PROGRAM, help="the program that is measured")
    parser.add_argument("rows", nargs="*", metavar="ROW", help="a row that is measured: " + ", ".join(SCRIPTS))
    chosen = parser.parse_args()
    unknown = [name for name in chosen.rows if name not in SCRIPTS]
    if unknown:
        parser.error(f"no row '{unknown[0]}'")
    if chosen.rounds < 1 or chosen.mega < 1:
        parser.error("a number is below 1")
    if not os.access(chosen.program, os.X_OK):
        sys.exit("the program isn't built: `rt run <stdin` in crates/script_counts builds it")
    with tempfile.TemporaryDirectory() as folder:
        table = Table(chosen.program.resolve(), chosen.rounds, chosen.mega * MEGA, Path(folder))
        for name in chosen.rows or SCRIPTS:
            table.row(name, SCRIPTS[name])
    sys.exit(0 if table.is_within else 1)


if __name__ == "__main__":
    main()
