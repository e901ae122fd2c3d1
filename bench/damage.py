#!/usr/bin/env python3
"""Tries the program on damaged folders and on input that is cut. It stands apart from the gate.

usage: bench/damage.py [--folders N] [--seed N] [--step N] [--program FILE] [folders|worked|cut ..]     with the program built

Without a name all three are tried:

    folders  1,000 folders, which --folders changes, are damaged at random: a byte is changed, a file is cut, is removed, has bytes
             appended, has its bytes twice or those of another file, or two files are exchanged. Each is asked by `query`, `explain`,
             `add`, `delete`, `merge`, `prior` and `session`
    worked   the files of docs/FORMATS.md and some more are made by the program itself; then each front of each of them, and each of
             them with one byte raised by one modulo 256, takes its place in the folder, and the same commands are run
    cut      each front of TREC text is scanned and added, each front of a script is run by `session`, each front of a list of docnos
             is deleted, and each front of rows is set as a prior

What each command must write and leave is worked out by bench/answers.py, apart from the program: where the files are still in the
grammar the answer of the collection that they stand for, and else the line of the first field that breaks its rule, with status 7,
and files that stay as they were. Of a session the live documents that its files stand for are compared, of the other commands all
bytes of the folder. A run that isn't done after 20 seconds, and one that ends by a signal, counts as wrong too.

With --step N only every N-th of the fronts and bytes is tried. Printed is how many commands ended how. The status is 1 where one
was wrong.
"""
import argparse
import random
import re
import sys
import tempfile
from collections import Counter
from dataclasses import dataclass, field
from pathlib import Path

import answers
import stored
from runs import FIRST, SECOND, PROGRAM, Runner, stop_unless_built

TOP = Path(__file__).resolve().parent.parent
SHOWN = 20
THIRD = b"<DOC><DOCNO>d3</DOCNO>a a</DOC>"


# Runs and what is found of them.


@dataclass
class Tried(Runner):
    """What was found of the runs."""

    counts: Counter = field(default_factory=Counter)
    wrong: int = 0

    def tell(self, shown, words, found, wanted):
        self.wrong += 1
        if self.wrong <= SHOWN:
            print(f"wrong: {shown}: {' '.join(words)}", f"  found:  {found}"[:600], f"  wanted: {wanted}"[:900], sep="\n", flush=True)

    def ask(self, shown, files, words, text=b""):
        """Runs a command over these files and compares it with the outcomes that it may have."""
        folder = self.folder("asked", files)
        lines, status = self.run(folder, words, text)
        outcomes = answers.outcomes(files, words, text)
        fitting = [outcome for outcome in outcomes if (outcome.lines, outcome.status) == (lines, status)]
        if not fitting:
            self.tell(shown, words, (lines, status), [(outcome.lines, outcome.status) for outcome in outcomes][:3])
            return
        left = stored.files_of(folder)
        if not any(is_left(outcome, left) for outcome in fitting):
            self.tell(shown, words, told_of(left), [told_of(outcome.files or {}) or outcome.live for outcome in fitting])
            return
        self.counts[ending(files, lines, status)] += 1


def is_left(outcome, left):
    """Whether the files are as they must be behind a command."""
    if outcome.files is not None:
        return outcome.files == left
    try:
        found = stored.Stored(left)
    except stored.Fault:
        return False
    live = [(segment.documents[identity].docno.decode(), segment.documents[identity].length) for segment, identity in found.live()]
    return live == outcome.live


def told_of(files):
    return {name: len(data) for name, data in sorted(files.items())}


def ending(files, lines, status):
    """How a command ended, in the words of the table that is printed."""
    if status == 7:
        words = lines[-1].split()
        return f"malformed, {words[2]}" if words[0] == "malformed" else "missing"
    return f"status {status}"


# Folders that are damaged at random.

WORDS = ("a", "b", "c", "rain", "storm", "harbor", "ferry", "x1")
QUERIES = (
    "rain",
    "a b",
    "#1(rain storm)",
    "#weight(2 ferry 1 #uw4(a b)) #prior(home)",
    "#filreq(harbor #combine(a rain))",
    "#combine[f](rain a)",
    "a.(f) x1",
    "#combine[passage3:2](storm #prior(length))",
    "#syn(ferry c).f",
)


def small_document(pick, docno):
    words = [pick.choice(WORDS) for _ in range(pick.randrange(0, 7))]
    if len(words) > 2 and pick.random() < 0.5:
        at = pick.randrange(len(words) - 1)
        words[at] = f"<{pick.choice('fg')}>{words[at]}"
        words[at + 1] = f"{words[at + 1]}</{'f' if '<f>' in words[at] else 'g'}>"
    return f"<DOC><DOCNO>{docno}</DOCNO>{' '.join(words)}</DOC>\n".encode()


def small_documents(pick, first, count):
    return b"".join(small_document(pick, f"n{i}") for i in range(first, first + count))


def with_stale_files(files):
    """The files of a session that was broken off behind a merge: those that it has replaced are still listed."""
    manifest = stored.read_manifest(files[stored.MANIFEST])
    number = manifest.take_number()
    manifest.stale.append(number)
    left = {stored.segment_name(number): files[stored.segment_name(manifest.segments[0].number)]}
    return {**files, **left, stored.MANIFEST: manifest.bytes()}


def whole_folders(tried, pick):
    """The folders that are damaged, as files."""
    rows = "".join(f"n{i} {1 + i % 3}/4\n" for i in range(0, 60, 7)).encode() + b"* 1/3\n"
    some = tried.make((["add"], FIRST + SECOND), (["prior", "home"], b"d1 1/2\n"))
    parts = tried.make(
        (["add"], small_documents(pick, 0, 70)),
        (["add"], small_documents(pick, 70, 9)),
        (["delete"], "".join(f"n{i}\n" for i in range(3, 79, 5)).encode()),
        (["add"], small_documents(pick, 79, 4)),
        (["prior", "home"], rows),
        (["prior", "work"], b"n1 1/9\n"),
    )
    merged = tried.make((["add"], small_documents(pick, 0, 20)), (["add"], small_documents(pick, 20, 9)), (["merge"], b""))
    return [some, parts, with_stale_files(parts), merged]


def changed_byte(pick, files, name):
    data = bytearray(files[name])
    at = pick.randrange(len(data))
    data[at] = (data[at] + pick.randrange(1, 256)) % 256
    return f"byte {at} of {name}", {name: bytes(data)}


def cut_file(pick, files, name):
    size = pick.randrange(len(files[name]))
    return f"{name} of {size} bytes", {name: files[name][:size]}


def removed_file(pick, files, name):
    return f"{name} removed", {name: None}


def exchanged_files(pick, files, name):
    other = pick.choice(sorted(files))
    return f"{name} and {other} exchanged", {name: files[other], other: files[name]}


def doubled_file(pick, files, name):
    other = pick.choice(sorted(files))
    if other == name:
        return f"{name} twice", {name: files[name] * 2}
    return f"{name} in place of {other}", {other: files[name]}


def longer_file(pick, files, name):
    more = bytes(pick.randrange(256) for _ in range(pick.choice((1, 1, 4, 33))))
    return f"{len(more)} bytes behind {name}", {name: files[name] + more}


DAMAGES = [changed_byte] * 6 + [cut_file, removed_file, exchanged_files, doubled_file, longer_file]


def damaged(pick, files):
    """What is damaged, and the files behind it."""
    names = sorted(files)
    name = stored.MANIFEST if pick.random() < 0.2 else pick.choice(names)
    shown, changes = pick.choice(DAMAGES)(pick, files, name)
    return shown, {name: data for name, data in {**files, **changes}.items() if data is not None}


def random_commands(pick):
    """A command of each kind, with its input."""
    yield ["query", "--mu", str(pick.choice((1, 90, 2500))), "--k", str(pick.choice((3, 100))), pick.choice(QUERIES)], b""
    yield ["query", pick.choice(WORDS)], b""
    yield ["explain", "--mu", "7", str(pick.randrange(1, 4)), pick.choice(QUERIES)], b""
    yield ["add"], FIRST + small_document(pick, "new1") + small_document(pick, f"n{pick.randrange(80)}")
    yield ["delete"], f"n{pick.randrange(80)}\nnobody\nn{pick.randrange(80)}\nd2\n".encode()
    yield ["merge"], b""
    yield ["prior", pick.choice(("home", "fresh"))], b"d1 1/5\n* 1/2\nn4 3/3\n"
    yield ["session", "--mu", "9"], random_script(pick)


def random_script(pick):
    added = small_document(pick, "s1") + small_document(pick, "s2")
    lines = [
        f"open p 4 {pick.choice(QUERIES)}",
        f"add {len(added)}\n{added.decode()}",
        f"delete n{pick.randrange(80)}",
        pick.choice(("flush", "merge", "delete nobody")),
        f"step p {pick.choice((5, 1000))}",
        "merge",
        f"turn {pick.choice((3, 40, 1000))}",
        "delete s1",
        "turn 1000",
        f"open q 3 {pick.choice(WORDS)}",
        "step p 1000",
        "show p",
        "step q 1000",
        f"explain q {pick.randrange(1, 3)}",
        "end",
    ]
    return "\n".join(lines[: pick.choice((2, 6, 9, len(lines)))]).encode()


def try_folders(tried, chosen):
    pick = random.Random(chosen.seed)
    folders = whole_folders(tried, pick)
    for files in folders:
        for words, text in random_commands(pick):
            tried.ask("a whole folder", files, words, text)
    for _ in range(chosen.folders):
        shown, files = damaged(pick, pick.choice(folders))
        for words, text in random_commands(pick):
            tried.ask(shown, files, words, text)


# The worked files.

USUAL = b"""<DOC>
<DOCNO> AP880212-0001 </DOCNO>
<FILEID>AP-NR-02-12-88 2344EST</FILEID>
<HEAD>Rain Delays Launch</HEAD>
<TEXT>
   Rain delayed the launch. The launch is now set for Monday.
</TEXT>
</DOC>
"""
SCRIPT = b"open q 5 a\nstep q 1\nadd 29\n<DOC><DOCNO>d4</DOCNO>b</DOC>\nmerge\nturn 9\nstep q 9\nshow q\ndelete d1\nend\n"
WORKED_COMMANDS = (
    (["query", "--mu", "1", "a"], b""),
    (["query", "--mu", "1", "b"], b""),
    (["query", "launch rain.(head)"], b""),
    (["query", "#1(a b)"], b""),
    (["query", "a #prior(home)"], b""),
    (["explain", "--mu", "1", "1", "a"], b""),
    (["add"], b"<DOC><DOCNO>d5</DOCNO>a c</DOC>" + FIRST),
    (["delete"], b"d1\nAP880212-0001\n"),
    (["merge"], b""),
    (["prior", "home"], b"d1 1/3\n"),
    (["session", "--mu", "1"], SCRIPT),
)


def dumps_of_formats():
    """The bytes that docs/FORMATS.md shows, one after the other for each run of lines of hexadecimal digits."""
    found, is_open = [], False
    for line in (TOP / "docs/FORMATS.md").read_text().splitlines():
        if is_hex := bool(re.fullmatch(r"    ([0-9a-f]{2} +)*[0-9a-f]{2}", line)):
            found += [] if is_open else [b""]
            found[-1] += bytes.fromhex(line)
        is_open = is_hex
    return found


def worked_folders(tried):
    """The folders whose files are taken one after the other, by what is shown of them."""
    two = tried.make((["add"], FIRST + SECOND))
    return {
        "empty": tried.make(),
        "two": two,
        "prior without rows": tried.make((["add"], FIRST + SECOND), (["prior", "home"], b"* 1/2\n")),
        "prior": tried.make((["add"], FIRST + SECOND), (["prior", "home"], b"d1 1/2\n* 1/4\n")),
        "twice": tried.make((["add"], THIRD)),
        "usual": tried.make((["add"], USUAL)),
        "dead": tried.make((["add"], FIRST + SECOND), (["add"], THIRD), (["delete"], b"d2\n")),
    }


def look_at_dumps(tried, folders):
    """The files of the worked folders are those that docs/FORMATS.md shows."""
    empty, one, prior, *segment = dumps_of_formats()
    segment_file = stored.segment_name(1)
    for shown, found, wanted in (
        ("the empty manifest", folders["empty"][stored.MANIFEST], empty),
        ("the manifest of one segment", folders["two"][stored.MANIFEST], one),
        ("the segment of d1 and d2", folders["two"][segment_file], b"".join(segment)),
        ("the prior without rows", folders["prior without rows"][stored.prior_name(2)], prior),
    ):
        if found == wanted:
            tried.counts["as docs/FORMATS.md shows it"] += 1
        else:
            tried.tell(shown, ["in docs/FORMATS.md"], found.hex(" "), wanted.hex(" "))


def changed_files(data, step):
    """Each front of some bytes, and each byte raised by one."""
    for size in range(0, len(data), step):
        yield f"{size} bytes", data[:size]
    for at in range(0, len(data), step):
        yield f"byte {at} raised", data[:at] + bytes([(data[at] + 1) % 256]) + data[at + 1 :]


def try_worked(tried, chosen):
    folders = worked_folders(tried)
    look_at_dumps(tried, folders)
    for shown, files in folders.items():
        for words, text in WORKED_COMMANDS:
            tried.ask(shown, files, words, text)
        for name in files:
            for change, data in changed_files(files[name], chosen.step):
                for words, text in WORKED_COMMANDS:
                    tried.ask(f"{shown}, {name}: {change}", {**files, name: data}, words, text)


# Input that is cut.

MARKED = b"""<DOC id="7" lang=en>
<DocNo> X-1 </DocNo><Title lang="en">Caf&eacute; au Lait</title></b><Text>one &amp; two</doc >
 <doc/><docno/>x2</docno/><!-- a <b>comment</b> --><a>p <a>q</a><br/> r<?page 2?>s<!x>t &amp u < v</DOC>
<DOC><DOCNO>d.3</DOCNO></DOC><DOC><DOCNO>x2</DOCNO><!-->a-->b<!--c</DOC>
"""
TEXTS = (FIRST + SECOND, MARKED, FIRST + b"\n" + SECOND + b"x", b"<DOC><HEAD>a</HEAD><DOCNO>d1</DOCNO></DOC>", b"<DOC><DOCNO> d 1</DOCNO>a</DOC>")
CUT_SCRIPTS = (
    b"add 31\r\n" + FIRST + b"\nflush\ndelete d1\nadd 29\n<DOC><DOCNO>d1</DOCNO>c</DOC>\nopen q 5 a c\nstep q 1\nshow q\nend\nadd 1\n",
    b"add 60\n" + FIRST + SECOND + b"\nmerge\nturn 1\ndelete d1\nadd 29\n<DOC><DOCNO>d1</DOCNO>a</DOC>\nmerge\nturn 1\nturn 2\n"
    b"open Q 5 #1(a b)\nopen q 12 a\nstep q 20\nexplain q 10\nshow q\nscan #1(a b)\n\nscan  a\nclose q\nclose q\nend\n",
    b"delete x\nadd 62\n" + FIRST + FIRST + b"\nopen q 5 a\nopen q 5 a\nstep z 1\nturn 1\nsing\nadd 33\n" + SECOND + b" x  add 2\nadd 9\n<DOC><DO",
)
CUT_DOCNOS = b"d1\n\n  d3 \r\nd1 d2\nd1\n\td2\nD2"
CUT_ROWS = b"d1 1/2\r\n\nd1 0.5\n  d2 003/4 \nd2 1/4\n* 1/3\nd3 3/2\n* 1/2\nd3 123456789012345678/999999999999999999"


def try_cut(tried, chosen):
    empty = tried.make()
    three = tried.make((["add"], FIRST + SECOND + THIRD))
    whole = [(files, ["scan", text], data) for files, text in ((empty, "a"), (empty, "#any:text")) for data in TEXTS]
    whole += [(empty, ["add"], data) for data in TEXTS] + [(three, ["add"], FIRST + SECOND + MARKED)]
    whole += [(files, ["session", "--mu", "1"], script) for files in (empty, three) for script in CUT_SCRIPTS]
    whole += [(three, ["delete"], CUT_DOCNOS), (three, ["prior", "home"], CUT_ROWS)]
    for files, words, data in whole:
        for size in range(len(data), -1, -chosen.step):
            tried.ask(f"{size} bytes of {data[:20]}", files, words, data[:size])


TRIED = {"folders": try_folders, "worked": try_worked, "cut": try_cut}


def options():
    parser = argparse.ArgumentParser(description="Tries the program on damaged folders and on input that is cut.")
    parser.add_argument("--folders", type=int, default=1000, help="how many folders are damaged at random (1000)")
    parser.add_argument("--seed", type=int, default=1, help="which damages are picked (1)")
    parser.add_argument("--step", type=int, default=1, help="every so many fronts and bytes are tried (1)")
    parser.add_argument("--program", type=Path, default=PROGRAM, help="the program (that of ./indri)")
    parser.add_argument("names", nargs="*", metavar="NAME", help=", ".join(TRIED))
    chosen = parser.parse_args()
    if unknown := [name for name in chosen.names if name not in TRIED]:
        parser.error(f"nothing is called {unknown[0]}")
    return chosen


def main():
    chosen = options()
    stop_unless_built(chosen.program)
    wrong = 0
    for name in chosen.names or TRIED:
        with tempfile.TemporaryDirectory(prefix="damage-") as room:
            tried = Tried(chosen.program.resolve(), Path(room))
            TRIED[name](tried, chosen)
        ends = ", ".join(f"{end} {count}" for end, count in sorted(tried.counts.items()))
        print(f"{name}: {sum(tried.counts.values())} commands as they must be ({ends}), {tried.wrong} wrong", flush=True)
        wrong += tried.wrong
    sys.exit(1 if wrong else 0)


if __name__ == "__main__":
    main()
