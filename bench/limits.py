#!/usr/bin/env python3
"""Tries each limit at its number and one past it, through the commands. It stands apart from the gate.

usage: bench/limits.py [--large] [--program FILE] [WORD..]     with the program built

A row is a limit with an input that is within it and one that isn't. Each is given to a command, over a folder that was made for it, and
the lines and the status must be those that stand in the row, which were worked out by hand. With words only rows are tried in whose
name one of them stands. Rows of `gen` are skipped where the program has no such command.

Some limits can't be reached within seconds: how many documents and tokens a collection holds, and how many documents and names of
fields a segment has. They are tried with --large, which makes inputs of up to 200 MB. What these take isn't measured here.

Printed is each row that is wrong, and last how many rows are as they must be. The status is 1 where one was wrong.
"""
import argparse
import sys
import tempfile
from collections.abc import Callable
from dataclasses import dataclass
from pathlib import Path

import stored
from runs import FIRST, SECOND, PROGRAM, Runner, stop_unless_built

USAGE = "usage: indri DIR scan|create|add|delete|merge|prior|query|explain|session|gen"
MEGA = 1 << 20


@dataclass
class Try:
    """A command with its input, and the lines and the status that it must have. The lines may be asked by a function."""

    words: list
    text: bytes
    lines: list | Callable
    status: int

    def is_as(self, lines, status):
        holds = self.lines(lines) if callable(self.lines) else self.lines == lines
        return holds and status == self.status


@dataclass
class Row:
    """A limit, the commands that make its folder, and what is tried one after the other in it."""

    shown: str
    before: tuple
    tries: tuple


TWO = ((["add"], FIRST + SECOND),)
A_LINES = ["1 - -0.263034 d2 0 1", "2 > -0.847996 d1 0 2"]


def begins(*lines):
    return lambda found: found[: len(lines)] == list(lines)


def ends(*lines):
    return lambda found: found[-len(lines) :] == list(lines)


def query(text, lines, status=0, *options):
    return Try(["query", "--mu", "1", *options, text], b"", lines, status)


def scan(expr, text, lines, status=0):
    return Try(["scan", expr], text, lines, status)


def usage(*words):
    return Try(list(words), b"", [USAGE], 1)


def document(docno, text):
    return b"<DOC><DOCNO>%s</DOCNO>%s</DOC>" % (docno.encode(), text)


def fields(count):
    return document("d1", b"<f>x</f>" * count)


# Query text.


def deep(count):
    return "#max(" * count + "a" + ")" * count


def words(count):
    return " ".join(["a"] * count)


def passages(text):
    return f"#combine[passage{text}](a)"


def nested_weights(first, second):
    return f"#weight({first} #weight({second} a 0.000000001 b) 0.000000001 c)"


def query_rows():
    yield Row("32 operators in one another", TWO, (query(deep(32), A_LINES), query(deep(33), ["refused Query TooDeep 160"], 2)))
    yield Row(
        "1,000 nodes of a query",
        TWO,
        (query(words(1000), lambda found: len(found) == 2), query(words(1001), ["refused Query TooManyNodes 2000"], 2)),
    )
    for name in ("#", "#od", "#uw"):
        yield Row(
            f"{name}1048576(..)",
            TWO,
            (
                query(f"{name}1048576(a b)", lambda found: [line.split()[3] for line in found] == ["d1"]),
                query(f"{name}1048577(a b)", [f"refused Query BadNumber {len(name)}"], 2),
                query(f"{name}0(a b)", [f"refused Query BadNumber {len(name)}"], 2),
            ),
        )
    yield Row(
        "numbers of passages",
        TWO,
        (
            query(passages("1048576:1048576"), A_LINES),
            query(passages("1048577:1"), ["refused Query BadNumber 16"], 2),
            query(passages("1:1048577"), ["refused Query BadNumber 18"], 2),
            query(passages("0:1"), ["refused Query BadNumber 16"], 2),
        ),
    )
    yield Row(
        "digits of a weight",
        TWO,
        (
            query("#weight(999999.123456789 a)", A_LINES),
            query("#weight(1000000 a)", ["refused Query WeightTooLong 8"], 2),
            query("#weight(1.1234567891 a)", ["refused Query WeightTooLong 8"], 2),
        ),
    )
    yield Row(
        "a scale below 2^60",
        TWO,
        (
            query(nested_weights("1.073741824", "1.073741822"), lambda found: len(found) == 2),
            query(nested_weights("1.073741823", "1.073741823"), ["refused Check ScaleTooLarge"], 2),
        ),
    )
    yield Row(
        "128 bytes of a quoted word",
        TWO,
        (
            query(f'"{"x" * 128}"', []),
            query(f'"{"x" * 129}"', ["refused Query EmptyTerm 0"], 2),
            query('""', ["refused Query EmptyTerm 0"], 2),
        ),
    )
    yield Row(
        "32 letters of a field in a query",
        TWO,
        (
            query(f"#any:{'f' * 32}", []),
            query(f"#any:{'f' * 33}", ["refused Query BadField 5"], 2),
            query(f"a.{'f' * 33}", ["refused Query BadField 2"], 2),
            query(f"a.({'f' * 33})", ["refused Query BadField 3"], 2),
            query(f"#prior({'f' * 33})", ["refused Query BadField 7"], 2),
        ),
    )


# Words of the command line.


def word_rows():
    yield Row(
        "1,000 results, --k",
        ((["add"], b"".join(document(f"d{i}", b"a") for i in range(1001))),),
        (
            query("a", lambda found: len(found) == 1000, 0, "--k", "1000"),
            query("a", lambda found: len(found) == 10),
            usage("query", "--k", "1001", "a"),
            usage("query", "--k", "0", "a"),
        ),
    )
    yield Row(
        "1,000 ranks, explain",
        ((["add"], b"".join(document(f"d{i}", b"a") for i in range(1001))),),
        (
            Try(["explain", "1000", "a"], b"", begins("result 1000 d998 0 1"), 0),
            usage("explain", "1001", "a"),
            usage("explain", "0", "a"),
        ),
    )
    yield Row(
        "--mu",
        TWO,
        (
            Try(["query", "--mu", "1000000", "a"], b"", lambda found: len(found) == 2, 0),
            usage("query", "--mu", "1000001", "a"),
            usage("query", "--mu", "0", "a"),
            Try(["session", "--mu", "1000000"], b"", ["ended 2"], 0),
            usage("session", "--mu", "1000001"),
        ),
    )
    long = "t" * 64
    yield Row(
        "64 bytes of a topic and of a run",
        TWO,
        (
            query("a", begins(f"{long} Q0 d2 1 -0.263034 {long}"), 0, "--topic", long, "--run", long),
            usage("query", "--topic", long + "t", "--run", long, "a"),
            usage("query", "--topic", long, "--run", long + "t", "a"),
            usage("query", "--topic", "", "--run", long, "a"),
        ),
    )
    yield Row(
        "32 letters of a prior's name",
        TWO,
        (Try(["prior", "P" * 32], b"", [f"prior {'p' * 32} 0"], 0), usage("prior", "p" * 33)),
    )
    yield Row("gen, 1 to 100,000", (), (usage("gen", "0"), usage("gen", "100001"), usage("gen", "01")))


# Documents.


def document_rows():
    yield Row(
        "255 bytes of a docno",
        (),
        (
            Try(["add"], document("d" * 255, b"a"), [f"added {'d' * 255} 1", "flushed 1"], 0),
            Try(["add"], document("d" * 256, b"a"), ["refused DocnoLong 12", "flushed 1"], 3),
            Try(["delete"], b"d" * 255 + b"\n" + b"d" * 256, [f"deleted {'d' * 255}", "refused BadEvent 256", "flushed 0"], 3),
        ),
    )
    yield Row(
        "1,048,576 tokens of a document",
        (),
        (
            Try(["add"], document("d1", b"a " * MEGA), [f"added d1 {MEGA}", "flushed 1"], 0),
            Try(["add"], document("d2", b"a " * (MEGA + 1)), ["refused TooManyTokens d2", "flushed 1"], 3),
            query("a", [f"1 - -0.000000 d1 0 {MEGA}"]),
        ),
    )
    yield Row(
        "65,535 fields of a document",
        (),
        (
            Try(["add"], fields(65535), ["added d1 65535", "flushed 1"], 0),
            Try(["add"], fields(65536).replace(b"d1", b"d2"), ["refused TooManyFields d2", "flushed 1"], 3),
            query("#any:f", ["1 - -0.000000 d1 0 65535"]),
        ),
    )
    size = 16 * MEGA - len(document("d1", b""))
    yield Row(
        "16,777,216 bytes of a document",
        (),
        (
            Try(["add"], document("d1", b" " * size) + SECOND, ["added d1 0", "added d2 1", "flushed 2"], 0),
            Try(["add"], document("d3", b" " * (size + 1)) + SECOND, ["refused DocTooLarge 0", "flushed 2"], 3),
        ),
    )
    text = document("d1", b"a %s b %s c" % (b"x" * 128, b"y" * 129))
    yield Row("128 bytes of a word", (), (scan("c", text, ["d1 3 4"]), scan("b", text, ["d1 2 3"])))
    text = document("d1", b"&%s;&%s; <%s>a</%s> <%s>b</%s>" % (b"x" * 32, b"y" * 33, *[b"f" * 32] * 2, *[b"g" * 33] * 2))
    yield Row(
        "32 letters of a field and of an entity reference",
        (),
        (
            scan(f"#any:{'f' * 32}", text, ["d1 1 2"]),
            scan("y" * 33, text, ["d1 0 1"]),
            scan("x" * 32, text, []),
            scan("b", text, ["d1 2 3"]),
            scan(f"#any:{'g' * 32}", text, []),
        ),
    )


# Scripts.


def script(lines, found, status=0, before=()):
    return Try(["session"], "".join(f"{line}\n" for line in lines).encode(), [*before, *found], status)


def opened(count):
    return [f"open q{i} 1 a" for i in range(1, count + 1)]


def long_line(size):
    """Lines of a script of which the second has so many bytes."""
    return b"flush\nscan #syn(zz" + b" " * (size - 15) + b"zz)\nflush\n"


def script_rows():
    first = [f"opened q{i} 2" for i in range(1, 17)]
    yield Row(
        "16 open queries",
        TWO,
        (
            script(opened(16), [*first, "ended 2"]),
            script(opened(17), [*first, "refused DeskFull q17", "ended 2"], 3),
            script([*opened(16), "close q3", "open q17 1 a"], [*first, "closed q3", "opened q17 2", "ended 2"]),
            script([*opened(16), "open q3 1 a", "open q17 1 #1("], [*first, "refused NameTaken q3", "refused Query Expected 3", "ended 2"], 3),
        ),
    )
    yield Row(
        "65,536 bytes of a line",
        TWO,
        (
            Try(["session"], long_line(65536), ["flushed 2", "scanned 0", "flushed 2", "ended 2"], 0),
            Try(["session"], long_line(65536).replace(b"zz)\n", b"zz)\r\n"), ["flushed 2", "scanned 0", "flushed 2", "ended 2"], 0),
            Try(["session"], long_line(65537), ["flushed 2", "refused LineTooLong 6", "flushed 2", "ended 2"], 3),
            Try(["delete"], b" " * 65534 + b"dx\nd9\n", ["refused NoSuchDoc dx", "refused NoSuchDoc d9", "flushed 2"], 3),
            Try(["delete"], b" " * 65535 + b"dx\nd9\n", ["refused LineTooLong 0", "refused NoSuchDoc d9", "flushed 2"], 3),
            Try(["prior", "home"], b" " * 65530 + b"d1 1/2\n* 1/3", ["prior home 1"], 0),
            Try(["prior", "home"], b" " * 65531 + b"d1 1/2\n* 1/3", ["refused LineTooLong 0", "prior home 0"], 3),
        ),
    )
    yield Row(
        "numbers of a script",
        TWO,
        (
            script(["open q 1000 a", "step q 4294967295"], ["opened q 2", "stepped q 2 of 2", "ended 2"]),
            script(["open q 1001 a"], ["refused BadEvent 0", "ended 2"], 3),
            script(["open q 0 a"], ["refused BadEvent 0", "ended 2"], 3),
            script(["step q 4294967296"], ["refused BadEvent 0", "ended 2"], 3),
            script(["step q 0"], ["refused BadEvent 0", "ended 2"], 3),
            script(["merge", "turn 4294967295"], ["merging 2", "merged 2", "ended 2"]),
            script(["turn 4294967296", "turn 0"], ["refused BadEvent 0", "refused BadEvent 16", "ended 2"], 3),
            script(["explain q 1000", "explain q 1001"], ["refused NoSuchName q", "refused BadEvent 15", "ended 2"], 3),
            Try(["session"], b"add 1073741824\n", ["refused ShortAdd 0", "ended 2"], 3),
            Try(["session"], b"add 1073741825\n", ["refused BadEvent 0", "ended 2"], 3),
            Try(["session"], b"add 0\n", ["refused BadEvent 0", "ended 2"], 3),
        ),
    )
    yield Row(
        "32 letters of a query's name",
        TWO,
        (
            script([f"open {'Q' * 32} 1 a", f"close {'q' * 32}"], [f"opened {'q' * 32} 2", f"closed {'q' * 32}", "ended 2"]),
            script([f"open {'q' * 33} 1 a"], ["refused BadEvent 0", "ended 2"], 3),
        ),
    )
    many = b"".join(document(f"d{i}", b"a") for i in range(1001))
    yield Row(
        "1,000 results of an open query",
        ((["add"], many),),
        (
            Try(
                ["session"],
                b"open q 1000 a\nstep q 1001\nshow q\nexplain q 1000\n",
                lambda found: found[2] == "results q 1000" and "result 1000 d998 0 1" in found and len(found) == 1009,
                0,
            ),
        ),
    )


# Priors.


def rows_of(count):
    return b"".join(b"d%d 1/2\n" % i for i in range(count))


def prior_rows():
    names = [f"p{i}" for i in range(1, 9)]
    eight = tuple((["prior", name], b"d1 1/2\n") for name in names)
    yield Row(
        "8 priors",
        (*TWO, *eight[:7]),
        (
            Try(["prior", "p8"], b"d1 1/2\n", ["prior p8 1"], 0),
            Try(["prior", "p9"], b"d1 1/2\n", ["refused PriorsFull p9"], 3),
            Try(["prior", "P1"], b"d1 1/2\n", ["prior p1 1"], 0),
            Try(["prior", "length"], b"d1 1/2\n", ["refused Fixed length"], 3),
        ),
    )
    digits = b"9" * 18
    yield Row(
        "18 digits of a row",
        TWO,
        (
            Try(["prior", "home"], b"d1 %s/%s\n" % (digits, digits), ["prior home 1"], 0),
            Try(["prior", "home"], b"d1 1/1%s\n" % digits, ["refused BadRow 0", "prior home 0"], 3),
            Try(["prior", "home"], b"d1 0%s/%s\n" % (digits, digits), ["refused BadRow 0", "prior home 0"], 3),
            Try(["prior", "home"], b"d1 0/1\nd1 1/0\nd1 2/1\n", ["refused BadRow 0", "refused BadRow 7", "refused BadRow 14", "prior home 0"], 3),
        ),
    )
    full = rows_of(MEGA)
    yield Row(
        "1,048,576 rows of a prior",
        TWO,
        (
            Try(["prior", "home"], full + b"* 1/3\n", [f"prior home {MEGA}"], 0),
            Try(
                ["prior", "home"],
                full + b"more 1/2\nd7 1/3\n",
                [f"refused TooManyRows {len(full)}", "refused RepeatedRow d7", f"prior home {MEGA}"],
                3,
            ),
        ),
    )


# Files. They are written here, since no command makes one past a limit.


@dataclass
class Filed:
    """A limit of a file: the files that are within it and those that aren't, each with what `query a` must answer."""

    shown: str
    files: tuple


def with_segment(data, documents):
    return {stored.MANIFEST: stored.Manifest(2, [stored.Entry(1, documents, [])]).bytes(), stored.segment_name(1): data}


@dataclass
class Plain:
    """A document of a segment."""

    docno: str
    tokens: list
    fields: list


def segment_of(*documents):
    return with_segment(stored.segment_bytes(documents), len(documents))


def with_priors(count, name):
    manifest = stored.Manifest(20, [], [], [(name(i), i) for i in range(1, count + 1)])
    return {stored.MANIFEST: manifest.bytes(), **{stored.prior_name(i): stored.Prior().bytes() for i in range(1, count + 1)}}


def file_rows():
    segment = stored.segment_name(1)
    dictionary = stored.HEADER + len(b"\x02d1") + 6
    yield Filed(
        "128 bytes of a term",
        (
            (segment_of(Plain("d1", ["a" * 128], [])), [], 0),
            (segment_of(Plain("d1", ["a" * 129], [])), [f"malformed {segment} Dictionary {dictionary}"], 7),
        ),
    )
    yield Filed(
        "32 bytes of a field's name",
        (
            (segment_of(Plain("d1", ["b"], [("f" * 32, 0, 1)])), [], 0),
            (segment_of(Plain("d1", ["b"], [("f" * 33, 0, 1)])), [f"malformed {segment} Documents 64"], 7),
        ),
    )
    bare = stored.segment_bytes([Plain("d1", [], [])])
    within, over = (with_segment(bare[:16] + tokens.to_bytes(8, "little") + bare[24:], 1) for tokens in (1 << 26, 1 + (1 << 26)))
    yield Filed(
        "67,108,864 tokens in a header",
        (
            (within, [f"malformed {segment} Documents {len(bare)}"], 7),
            (over, [f"malformed {segment} Header 16"], 7),
        ),
    )
    yield Filed(
        "8 priors of a manifest",
        (
            (with_priors(8, lambda i: b"p%d" % i), [], 0),
            (with_priors(9, lambda i: b"p%d" % i), ["malformed manifest Manifest 32"], 7),
        ),
    )
    yield Filed(
        "32 bytes of a prior's name in a manifest",
        (
            (with_priors(1, lambda i: b"p" * 32), [], 0),
            (with_priors(1, lambda i: b"p" * 33), ["malformed manifest Manifest 33"], 7),
        ),
    )


# Large ones.


def segment_counts(folder):
    """How many documents the listed segments have, in their order."""
    return [entry.documents for entry in stored.read_manifest((folder / stored.MANIFEST).read_bytes()).segments]


def empty_documents(first, count):
    return b"".join(b"<DOC><DOCNO>e%d</DOCNO></DOC>" % i for i in range(first, first + count))


def named_fields(docno, first, count):
    return document(docno, b"".join(b"<f%d>x</f%d>" % (i, i) for i in range(first, first + count)))


def try_large(runner, tell):
    """The limits of a collection and of a segment."""
    folder = runner.folder("large", {})
    runner.run(folder, ["create"])

    def wanted(shown, words, text, lines, status, counts=None):
        found, ended = runner.run(folder, words, text)
        tell(shown, found[-len(lines) :] == lines and ended == status, (found[-3:], ended))
        if counts is not None:
            tell(f"{shown}: segments", segment_counts(folder) == counts, segment_counts(folder)[:9])

    quarter = 1 << 20
    wanted("1,048,576 documents of a segment", ["add"], empty_documents(0, quarter), [f"flushed {quarter}"], 0, [quarter])
    added = empty_documents(quarter, quarter + 1)
    wanted("one document more", ["add"], added, [f"flushed {2 * quarter + 1}"], 0, [quarter, quarter, 1])
    rest = empty_documents(2 * quarter + 1, 2 * quarter - 1)
    wanted("4,194,304 documents of a collection", ["add"], rest, [f"flushed {4 * quarter}"], 0)
    wanted("one document more", ["add"], document("more", b"a"), ["refused CollectionFull more", f"flushed {4 * quarter}"], 3)
    wanted("one is deleted", ["delete"], b"e7\n", ["deleted e7", f"flushed {4 * quarter - 1}"], 0)
    wanted("it is held", ["add"], document("more", b"a"), ["refused CollectionFull more", f"flushed {4 * quarter - 1}"], 3)
    wanted("a merge", ["merge"], b"", [f"merged {4 * quarter - 1}"], 0, [quarter] * 3 + [quarter - 1])
    wanted("it is taken behind a merge", ["add"], document("more", b"a"), ["added more 1", f"flushed {4 * quarter}"], 0)
    folder = runner.folder("large", {})
    runner.run(folder, ["create"])
    for i in range(8):
        text = b"".join(document(f"t{8 * i + j}", b"a " * quarter) for j in range(8))
        wanted("67,108,864 tokens of a collection", ["add"], text, [f"flushed {8 * i + 8}"], 0)
    text = document("more", b"a") + document("none", b"")
    wanted("one token more", ["add"], text, ["refused CollectionFull more", "added none 0", "flushed 65"], 3)
    folder = runner.folder("large", {})
    runner.run(folder, ["create"])
    text = named_fields("d1", 0, 65535) + named_fields("d2", 65535, 1) + named_fields("d3", 0, 2)
    wanted("65,536 names of fields of a segment", ["add"], text, ["flushed 3"], 0, [3])
    wanted("two names more", ["add"], named_fields("d4", 0, 65535) + named_fields("d5", 65535, 2), ["flushed 5"], 0, [3, 1, 1])
    wanted("a merge of these", ["merge"], b"", ["merged 5"], 0, [4, 1])


ROWS = (query_rows, word_rows, document_rows, script_rows, prior_rows)


@dataclass
class Limits:
    """What was tried, and what was wrong."""

    runner: Runner
    rows: int = 0
    wrong: int = 0

    def tell(self, shown, holds, found):
        self.rows += 1
        if not holds:
            self.wrong += 1
            print(f"wrong: {shown}: {str(found)[:300]}", flush=True)

    def row(self, row):
        folder = self.runner.folder("row", self.runner.make(*row.before))
        for one in row.tries:
            lines, status = self.runner.run(folder, one.words, one.text)
            self.tell(f"{row.shown}: {' '.join(one.words)[:60]}", one.is_as(lines, status), (lines[:3], status))

    def filed(self, filed):
        for files, lines, status in filed.files:
            found = self.runner.run(self.runner.folder("filed", files), ["query", "a"])
            self.tell(filed.shown, found == (lines, status), found)


def options():
    parser = argparse.ArgumentParser(description="Tries each limit at its number and one past it, through the commands.")
    parser.add_argument("--large", action="store_true", help="the limits of a collection and of a segment too")
    parser.add_argument("--program", type=Path, default=PROGRAM, help="the program (that of ./indri)")
    parser.add_argument("names", nargs="*", metavar="WORD", help="rows in whose name one of these stands")
    return parser.parse_args()


def main():
    chosen = options()
    stop_unless_built(chosen.program)
    with tempfile.TemporaryDirectory(prefix="limits-") as room:
        limits = Limits(Runner(chosen.program.resolve(), Path(room), seconds=600))

        def is_chosen(row):
            return not chosen.names or any(name in row.shown for name in chosen.names)

        for group in ROWS:
            for row in filter(is_chosen, group()):
                limits.row(row)
        for row in filter(is_chosen, file_rows()):
            limits.filed(row)
        if chosen.large:
            try_large(limits.runner, limits.tell)
    print(f"{limits.rows - limits.wrong} limits as they must be, {limits.wrong} wrong")
    sys.exit(1 if limits.wrong else 0)


if __name__ == "__main__":
    main()
