#!/usr/bin/env python3
"""Tries `gen` over a folder, and measures it. It stands apart from the gate.

usage: bench/generated.py [--program FILE] [N ..]        with the program built (./indri builds it)

For each N, and for some up to the greatest where none is given, `gen N` is run in a folder of its own. What it writes must be the lines that
are worked out here by the definitions of bench/rankings.py, which shares no code with the program. Then `query` must have the same result
lines over the folder, a second `gen` must find the collection and change no file, and `delete` of a docno must tell how many are live.

The documents of one number modulo 15 have the same words and the same length, so each of these classes has one key. The lines are those of
the first class by its key, then of the next, and within one by docno.

Printed is how long each `gen` took, how much processor time and memory it used, and how large the folder is. The status is 1 where something
isn't as it must be.
"""
import argparse
import os
import resource
import subprocess
import sys
import tempfile
import time
from pathlib import Path

import rankings

PROGRAM = Path(__file__).resolve().parent.parent / "crates/indri/out/indri"
QUERY = "w0 #1(w1 w2)"
NUMBERS = (1, 2, 3, 7, 999, 1000, 1001, 2500, 30_000, 100_000)
RESULTS = 10
CLASSES = 15
MU = 2500


def document(number):
    words = [f"w{(number + place) % 5}" for place in range(2 + number % 3)]
    return rankings.Document(f"g{number}", words, set())


def checked_query():
    query = rankings.Reader(QUERY).query()
    return rankings.Query(query.filters, query.ranked, rankings.reduced(query.tree))


def sums_of(leaf, live):
    """How often the leaf occurs in the live documents, and in how many positions it is counted, class by class."""
    cf = total = 0
    for number, count in live.items():
        whole = document(number)
        window = 0, len(whole.tokens)
        cf += count * rankings.occurrences(leaf, whole, window)
        total += count * rankings.positions(leaf, whole, window)
    return cf, total


def classes(query, live):
    """The classes with a result, each with its key, its fractions and its representative, in the order of their keys."""
    leaves = rankings.leaves_of(query.tree)
    sums = [sums_of(leaf, live) for leaf in leaves]
    found = []
    for number in live:
        whole = document(number)
        window = 0, len(whole.tokens)
        if any(rankings.occurrences(leaf, whole, window) for leaf in leaves):
            fractions = [rankings.fraction_of(leaf, whole, window, both, MU, {}) for leaf, both in zip(leaves, sums)]
            key = rankings.key(query.tree, iter([rankings.digits(p, q) for p, q in fractions]))
            found.append((key, number, fractions))
    return sorted(found, key=lambda one: one[0])


def first_results(query, live, count):
    """The first results as (key, docno, length, fractions)."""
    found = []
    for key, number, fractions in classes(query, live):
        members = (f"g{i}".encode() for i in range(number, count, CLASSES))
        found += [(key, docno, len(document(number).tokens), fractions) for docno in sorted(members)[:RESULTS]]
    return sorted(found, key=lambda one: one[:2])[:RESULTS]


def mark(above, line, scale):
    if above is None:
        return "-"
    same = all(rankings.Fraction(*x) == rankings.Fraction(*y) for x, y in zip(above[3], line[3]))
    return "=" if same else ">" if line[0] - above[0] > 2 * scale else "~"


def result_lines(live, count):
    query = checked_query()
    scale = rankings.scale(query.tree)
    lines = first_results(query, live, count)
    for rank, (above, line) in enumerate(zip([None, *lines], lines), 1):
        score = line[0] * rankings.MILLION // (scale << rankings.LEVEL)
        shown = f"-{score // rankings.MILLION}.{score % rankings.MILLION:06}"
        yield f"{rank} {mark(above, line, scale)} {shown} {line[1].decode()} 0 {line[2]}"


def worked(count):
    """How many documents stay live, the first line, and those of the results."""
    live = {number: len(range(number, count, CLASSES)) for number in range(min(count, CLASSES)) if number % 3 != 1}
    documents = sum(live.values())
    tokens = sum(members * (2 + number % 3) for number, members in live.items())
    return documents, f"gen {count} live {documents} tokens {tokens}", list(result_lines(live, count))


def contents(folder):
    return {path.name: path.read_bytes() for path in folder.iterdir()}


def run(program, folder, *words, text=""):
    done = subprocess.run([program, folder, *words], input=text, stdout=subprocess.PIPE, text=True, check=False)
    return done.returncode, done.stdout.splitlines()


def tried(program, folder, count):
    """What is wrong, and what the run of `gen` took."""
    documents, first, results = worked(count)
    before, begun = resource.getrusage(resource.RUSAGE_CHILDREN), time.monotonic()
    made = run(program, folder, "gen", str(count))
    seconds, after = time.monotonic() - begun, resource.getrusage(resource.RUSAGE_CHILDREN)
    files = contents(folder)
    wrong = []
    if made != (0, [first, *results]):
        wrong.append(f"it wrote {made}, and not {[first, *results]}")
    if run(program, folder, "query", QUERY) != (0, results):
        wrong.append("`query` has other lines")
    if run(program, folder, "gen", str(count)) != (8, ["exists"]) or contents(folder) != files:
        wrong.append("a second `gen` doesn't leave the collection")
    if run(program, folder, "delete", text="g0\n") != (0, ["deleted g0", f"flushed {documents - 1}"]):
        wrong.append("`delete` tells another number of documents")
    used = after.ru_utime + after.ru_stime - before.ru_utime - before.ru_stime
    size = sum(map(len, files.values()))
    return wrong, f"gen {count:6}  {seconds:7.2f} s  {used:7.2f} s of processor time  {size / 2**20:7.2f} MiB in {len(files)} files"


def options():
    parser = argparse.ArgumentParser()
    parser.add_argument("--program", type=Path, default=PROGRAM)
    parser.add_argument("numbers", metavar="N", type=int, nargs="*", default=NUMBERS)
    return parser.parse_args()


def main():
    asked = options()
    if not asked.program.exists():
        sys.exit(f"{asked.program} isn't built")
    is_right = True
    with tempfile.TemporaryDirectory(dir=os.environ.get("TMPDIR")) as top:
        for count in asked.numbers:
            folder = Path(top) / f"gen{count}"
            wrong, line = tried(asked.program, folder, count)
            print(line, flush=True)
            for fault in wrong:
                print(f"    {fault}")
            is_right = is_right and not wrong
    peak = resource.getrusage(resource.RUSAGE_CHILDREN).ru_maxrss
    print(f"the greatest peak of memory of a run was {peak / 1024:.0f} MiB")
    sys.exit(0 if is_right else 1)


if __name__ == "__main__":
    main()
