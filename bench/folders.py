#!/usr/bin/env python3
"""Tries the program on folders as users do, and stops it at random moments. It stands apart from the gate.

usage: bench/folders.py [--size MB] [--stops N] [--seed N] [--program FILE] [days|stops ..]     with the program built

Without a name both are tried:

    days    a collection of 20 MB of newswire text, which --size changes, is made, queried, grown, partly deleted, merged, given a
            prior, and grown again. Behind each change a folder is made anew to which the live documents alone are added, in
            their order, and each query must have the same answer over both. Behind a merge the segments must be the same too
    stops   `add`, `delete`, `prior` and `merge` are killed at random moments, --stops of each (50). The folder must then answer as
            before the command or as behind it, which is the same for `merge`. Then the command is run again to its end, and the
            folder must answer as behind it and have no file that its manifest doesn't list

Half of the moments are spread over the time that the command takes when it isn't stopped, and half over the time that is left once
its last line but one is written, in which it writes files. Printed is how many answers were compared, and how often a stop left the
old collection and the new one. The status is 1 where something isn't as it must be.
"""
import argparse
import os
import random
import shutil
import struct
import subprocess
import sys
import tempfile
import time
from dataclasses import dataclass, field
from pathlib import Path

from inputs import newswire_document

PROGRAM = Path(__file__).resolve().parent.parent / "crates/indri/out/indri"
MEGA = 10**6
QUERIES = (
    ["query", "--k", "1000", "rain"],
    ["query", "w17 w42 launch"],
    ["query", "--k", "50", "--mu", "90", "#1(the launch) #uw8(rain of)"],
    ["query", "--topic", "7", "--run", "tried", "--k", "1000", "w1 w2 w3"],
    ["query", "#weight(0.7 rain.head 0.3 #max(w5 #syn(w6 w7)))"],
    ["query", "#filreq(#band(rain launch) #filrej(w9 #combine(the w10)))"],
    ["query", "#combine[head](launch rain)"],
    ["query", "--k", "100", "#combine[passage50:25](rain #prior(length))"],
    ["query", "launch.(head) rain.(text) w11.(nothing)"],
    ["explain", "1", "rain #1(the launch) w12.(head)"],
    ["explain", "77", "#combine[passage50:25](rain #uw6(of the))"],
    ["explain", "1000", "w13"],
)


def written(output):
    """The lines that a file has by now."""
    size = os.fstat(output.fileno()).st_size
    return os.pread(output.fileno(), size, 0).decode().splitlines()


class Program:
    """The program, and how often two of its answers were compared and differed."""

    def __init__(self, program):
        self.program = program
        self.compared = self.differed = 0

    def start(self, output, folder, *words, text=b""):
        """A run that writes to a file."""
        with tempfile.TemporaryFile() as given:
            given.write(text)
            given.seek(0)
            return subprocess.Popen([self.program, folder, *words], stdin=given, stdout=output, stderr=subprocess.STDOUT)

    def told(self, folder, *words, text=b""):
        """The lines and the status of a command."""
        with tempfile.TemporaryFile() as output:
            status = self.start(output, folder, *words, text=text).wait()
            return written(output), status

    def do(self, folder, *words, text=b"", statuses=(0,)):
        lines, status = self.told(folder, *words, text=text)
        if status not in statuses:
            sys.exit(f"{' '.join(words)} ended with status {status}: {lines[-1:]}")
        return lines

    def answers(self, folder, queries=QUERIES):
        return [self.told(folder, *words) for words in queries]

    def is_same(self, shown, found, wanted):
        self.compared += 1
        if found == wanted:
            return True
        self.differed += 1
        print(f"differs: {shown}", f"  found:  {found}"[:400], f"  wanted: {wanted}"[:400], sep="\n")
        return False


def repository(program, folder):
    folder.mkdir()
    program.do(folder, "create")
    return folder


# Days.


@dataclass
class Day:
    """A folder and the live documents that it must have, by docno in the order of their additions."""

    program: Program
    place: Path
    folder: Path
    live: dict = field(default_factory=dict)
    rows: bytes = b""
    fresh: int = 0

    def add(self, documents):
        text = "".join(document for _, document in documents).encode()
        lines = self.program.do(self.folder, "add", text=text, statuses=(0, 3))
        wanted = []
        for docno, document in documents:
            wanted.append(f"refused Repeated {docno}" if docno in self.live else f"added {docno}")
            self.live.setdefault(docno, document)
        wanted.append(f"flushed {len(self.live)}")
        found = [line.rpartition(" ")[0] if line.startswith("added ") else line for line in lines]
        self.program.is_same("the lines of add", found, wanted)

    def delete(self, docnos):
        wanted = []
        for docno in docnos:
            wanted.append(f"deleted {docno}" if self.live.pop(docno, None) else f"refused NoSuchDoc {docno}")
        wanted.append(f"flushed {len(self.live)}")
        text = "".join(f"{docno}\n" for docno in docnos).encode()
        self.program.is_same("the lines of delete", self.program.do(self.folder, "delete", text=text, statuses=(0, 3)), wanted)

    def set_prior(self, rows):
        self.rows = "".join(f"{docno} {p}/{q}\n" for docno, p, q in rows).encode()
        wanted = [f"prior home {sum(docno != '*' for docno, _, _ in rows)}"]
        self.program.is_same("the line of prior", self.program.do(self.folder, "prior", "home", text=self.rows), wanted)

    def merge(self):
        self.program.is_same("the line of merge", self.program.do(self.folder, "merge"), [f"merged {len(self.live)}"])

    def compare(self, shown, is_merged=False):
        """The same answers come from a new folder with the live documents alone, and behind a merge it has the same segments."""
        self.fresh += 1
        folder = repository(self.program, self.place / f"fresh{self.fresh}")
        if self.live:
            self.program.do(folder, "add", text="".join(self.live.values()).encode())
        queries = list(QUERIES)
        if self.rows:
            self.program.do(folder, "prior", "home", text=self.rows)
            queries += [["query", "rain #prior(home)"], ["explain", "2", "#weight(2 rain 1 #prior(HOME) 1 #prior(length))"]]
        if is_merged:
            self.program.is_same(f"{shown}: the segments", segments(self.folder), segments(folder))
        pairs = zip(queries, self.program.answers(self.folder, queries), self.program.answers(folder, queries))
        same = sum(self.program.is_same(f"{shown}: {' '.join(words)}", found, wanted) for words, found, wanted in pairs)
        files = sum(file.stat().st_size for file in self.folder.iterdir())
        print(f"{shown:<44} {len(self.live):7} live   {files / MEGA:6.1f} MB   {same} of {len(queries)} answers the same", flush=True)
        shutil.rmtree(folder)


def segments(folder):
    """The bytes of the segments, by their numbers."""
    return [file.read_bytes() for file in sorted(folder.glob("seg-*"))]


def docno_of(document):
    return document.split("<DOCNO>", 1)[1].split("</DOCNO>", 1)[0].strip()


def newswire_documents(pick, size):
    """Documents of so many bytes together, each with its docno."""
    found, written = [], 0
    while written < size:
        document = newswire_document(pick, len(found))
        found.append((docno_of(document), document))
        written += len(document)
    return found


def try_days(program, place, pick, chosen):
    documents = newswire_documents(pick, chosen.size * MEGA)
    count = len(documents)
    first, second, third = documents[: count * 6 // 10], documents[count * 6 // 10 : count * 9 // 10], documents[count * 9 // 10 :]
    day = Day(program, place, repository(program, place / "day"))
    day.compare("created")
    day.add(first)
    day.compare("added six tenths")
    day.add(second + pick.sample(first, min(20, len(first))))
    day.compare("added three tenths, and some again")
    gone = pick.sample(documents[: count * 9 // 10], count // 3)
    day.delete([docno for docno, _ in gone] + ["nothing", gone[0][0]])
    day.compare("deleted a third")
    day.merge()
    day.compare("merged", is_merged=True)
    ranked = pick.sample(list(day.live), min(500, len(day.live) // 2))
    day.set_prior([("*", 1, 3), *((docno, 1 + i % 9, 10) for i, docno in enumerate(ranked))])
    day.compare("set a prior")
    day.add([(docno, document.replace("rain", "storm", 3)) for docno, document in gone[:100]] + third)
    day.compare("added a tenth, and changed documents")
    day.delete([docno for docno, _ in first if docno in day.live])
    day.compare("deleted what is left of the six tenths")
    day.merge()
    day.compare("merged", is_merged=True)
    day.delete(list(day.live))
    day.compare("deleted all")
    day.merge()
    day.compare("merged", is_merged=True)


# Stops.


def listed(folder):
    """The names of the files that the manifest lists, and its own."""
    manifest = (folder / "manifest").read_bytes()
    (segments,) = struct.unpack_from("<I", manifest, 20)
    at, names = 24, {"manifest"}
    for _ in range(segments):
        number, _, marks = struct.unpack_from("<QII", manifest, at)
        names.add(f"seg-{number:016x}")
        at += 16 + 4 * marks
    (stale,) = struct.unpack_from("<Q", manifest, at)
    at += 8 + 8 * stale
    for _ in range(manifest[at]):
        at += 1
        at += 1 + manifest[at]
        names.add(f"pri-{struct.unpack_from('<Q', manifest, at)[0]:016x}")
        at += 7
    return names


STOP_QUERIES = (*QUERIES[:4], ["query", "rain #prior(home)"])


def wait_for_lines(run, output, lines):
    """Waits until so many lines are written, or the run has ended."""
    while run.poll() is None and len(written(output)) < lines:
        time.sleep(0.001)


@dataclass
class Moments:
    """How many lines a command writes before its last one, how long it takes, and how long behind those lines."""

    lines: int
    whole: float
    rest: float

    def pick(self, pick):
        """So many lines, and so many seconds behind them."""
        if pick.random() < 0.5:
            return 0, pick.uniform(0, 1.05 * self.whole)
        return self.lines, pick.uniform(0, 1.05 * self.rest)


def moments_of(program, folder, words, text):
    """Runs a command to its end."""
    lines = len(program.do(shutil.copytree(folder, folder.with_name("counted")), *words, text=text)) - 1
    with tempfile.TemporaryFile() as output:
        began = time.monotonic()
        run = program.start(output, folder, *words, text=text)
        wait_for_lines(run, output, lines)
        reached = time.monotonic()
        run.wait()
        ended = time.monotonic()
    shutil.rmtree(folder.with_name("counted"))
    return Moments(lines, ended - began, ended - reached)


def stopped(program, folder, words, text, lines, seconds):
    """A command that is killed so many seconds behind so many lines. The answer is whether it was still running."""
    with tempfile.TemporaryFile() as output:
        run = program.start(output, folder, *words, text=text)
        wait_for_lines(run, output, lines)
        time.sleep(seconds)
        is_running = run.poll() is None
        run.kill()
        run.wait()
    return is_running


def try_stops_of(program, place, pick, stops, begun, words, text):
    """Stops a command on copies of a folder."""
    done, folder = place / "done", place / "stopped"
    shutil.copytree(begun, done)
    moments = moments_of(program, done, words, text)
    old, new = program.answers(begun, STOP_QUERIES), program.answers(done, STOP_QUERIES)
    left = {"the old one": 0, "the new one": 0, "neither": 0}
    running = 0
    for _ in range(stops):
        shutil.rmtree(folder, ignore_errors=True)
        shutil.copytree(begun, folder)
        running += stopped(program, folder, words, text, *moments.pick(pick))
        found = program.answers(folder, STOP_QUERIES)
        left["the old one" if found == old else "the new one" if found == new else "neither"] += 1
        program.is_same("a collection behind a stop", found in (old, new), True)
        program.told(folder, *words, text=text)
        program.is_same("the collection once the command was run again", program.answers(folder, STOP_QUERIES), new)
        program.is_same("files beside the listed ones", {file.name for file in folder.iterdir()} - {".new"}, listed(folder))
    shutil.rmtree(done)
    shutil.rmtree(folder)
    counts = "   ".join(f"{count} left {shown}" for shown, count in left.items())
    print(f"{words[0]:<8} {stops} stops within {moments.whole:5.2f} s, {running} while it ran   {counts}", flush=True)


def text_of(documents):
    return "".join(document for _, document in documents).encode()


def lines_of(docnos):
    return "".join(f"{docno}\n" for docno in docnos).encode()


def try_stops(program, place, pick, chosen):
    documents = newswire_documents(pick, chosen.size * MEGA // 2)
    quarter, half = len(documents) // 4, len(documents) // 2
    begun = repository(program, place / "begun")
    docnos = [docno for docno, _ in documents[:half]]
    program.do(begun, "add", text=text_of(documents[:quarter]))
    program.do(begun, "add", text=text_of(documents[quarter:half]))
    program.do(begun, "delete", text=lines_of(docnos[1::6]))
    program.do(begun, "prior", "home", text="".join(f"{docno} 1/2\n" for docno in docnos[::2]).encode())
    added = text_of(documents[half:])
    rows = "".join(f"{docno} {1 + i % 7}/9\n" for i, docno in enumerate(docnos)).encode()
    deleted = lines_of(docnos[::3])
    for words, text in ((["add"], added), (["delete"], deleted), (["prior", "home"], rows), (["merge"], b"")):
        try_stops_of(program, place, pick, chosen.stops, begun, words, text)


TRIED = {"days": try_days, "stops": try_stops}


def options():
    parser = argparse.ArgumentParser(description="Tries the program on folders as users do, and stops it at random moments.")
    parser.add_argument("--size", type=float, default=20, help="MB of text of the collection (20)")
    parser.add_argument("--stops", type=int, default=50, help="how often each command is stopped (50)")
    parser.add_argument("--seed", type=int, default=1, help="which documents and moments are picked (1)")
    parser.add_argument("--program", type=Path, default=PROGRAM, help="the program (that of ./indri)")
    parser.add_argument("names", nargs="*", metavar="NAME", help=", ".join(TRIED))
    chosen = parser.parse_args()
    if unknown := [name for name in chosen.names if name not in TRIED]:
        parser.error(f"nothing is called {unknown[0]}")
    return chosen


def main():
    chosen = options()
    if not os.access(chosen.program, os.X_OK):
        sys.exit("the program isn't built: run ./indri once")
    program = Program(chosen.program.resolve())
    for name in chosen.names or TRIED:
        with tempfile.TemporaryDirectory() as folder:
            TRIED[name](program, Path(folder), random.Random(chosen.seed), chosen)
    print(f"{program.compared} compared, {program.differed} differ")
    sys.exit(1 if program.differed else 0)


if __name__ == "__main__":
    main()
