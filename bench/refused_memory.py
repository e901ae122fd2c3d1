#!/usr/bin/env python3
"""Runs commands in which each of their allocations is refused in turn. It stands apart from the gate.

usage: bench/refused_memory.py [--most N] [--step N] [--program FILE] [WORD..]     with the program built; it needs cc

A row is a command over a folder with its input: sessions that flush, merge in turns and ask, `gen 3`, and each of the other commands.
For N = 1, 2, 3 .. the N-th call by which the program asks for memory has no answer, and once more that call and all behind it, until a
run asks less often. A small library that is compiled here stands before malloc and realloc for this; what the C library asks for
itself isn't refused.

A run must end with status 9, and its lines must be a front of those of the row, or as the row does where it can do without; or with
status 6 and `fault store` behind such a front, where the store in the folder was refused memory: to its caller that is a call that fails. The files
must then stand for the documents and the priors of the last flush that is told or of the one under way, and a query over the folder,
with memory, must have the answer that bench/answers.py works out for these files.

Printed is for each row how many numbers were tried and how they ended. The status is 1 where a run was wrong. With words only rows are
tried in whose name one of them stands. --step tries every so many numbers, and --most ends a row behind so many. Rows of `gen` are
skipped where the program has no such command.
"""
import argparse
import os
import re
import subprocess
import sys
import tempfile
from collections import Counter
from dataclasses import dataclass
from pathlib import Path

import answers
import stored
from runs import FIRST, SECOND, PROGRAM, SECONDS, Runner, stop_unless_built

MEMORY = 9
STORE_FAULT = 6
LIBRARY = r"""
#define _GNU_SOURCE
#include <dlfcn.h>
#include <errno.h>
#include <link.h>
#include <stdlib.h>
#include <unistd.h>

static unsigned long calls, refused, low, high;
static int all, told = -1;

/* The program itself is the first of all that is loaded. */
static int note(struct dl_phdr_info *info, size_t size, void *none) {
    for (int i = 0; i < info->dlpi_phnum; i++) {
        const ElfW(Phdr) *part = &info->dlpi_phdr[i];
        unsigned long begin = info->dlpi_addr + part->p_vaddr;
        if (part->p_type != PT_LOAD) continue;
        if (!low || begin < low) low = begin;
        if (begin + part->p_memsz > high) high = begin + part->p_memsz;
    }
    return 1;
}

__attribute__((constructor)) static void begin(void) {
    const char *number = getenv("REFUSED"), *end = getenv("REFUSED_TOLD");
    all = getenv("REFUSED_ALL") != NULL;
    dl_iterate_phdr(note, NULL);
    if (end) told = atoi(end);
    if (number) refused = strtoul(number, NULL, 10);
}

static int is_refused(void *caller) {
    unsigned long place = (unsigned long)caller;
    if (!refused || place < low || place >= high) return 0;
    calls++;
    if (calls != refused && !(all && calls > refused)) return 0;
    if (calls == refused && told >= 0 && write(told, "x", 1) != 1) _exit(99);
    errno = ENOMEM;
    return 1;
}

void *__libc_malloc(size_t size);
void *__libc_calloc(size_t count, size_t size);
void *__libc_realloc(void *old, size_t size);

void *malloc(size_t size) {
    return is_refused(__builtin_return_address(0)) ? NULL : __libc_malloc(size);
}

void *calloc(size_t count, size_t size) {
    return is_refused(__builtin_return_address(0)) ? NULL : __libc_calloc(count, size);
}

void *realloc(void *old, size_t size) {
    return is_refused(__builtin_return_address(0)) ? NULL : __libc_realloc(old, size);
}
"""

# Rows.

FLUSHED = b"add 31\n" + FIRST + b"\nflush\ndelete d1\nadd 29\n<DOC><DOCNO>d1</DOCNO>c</DOC>\nopen q 5 a c\nstep q 1\nshow q\nend\n"
MERGED = (
    b"add 60\n" + FIRST + SECOND + b"\nmerge\nturn 1\ndelete d1\nadd 29\n<DOC><DOCNO>d1</DOCNO>a</DOC>\nturn 1\nopen q 5 a\nstep q 2\nshow q\nend\n"
)
OVER_FILES = MERGED.replace(b"d1", b"e1").replace(b"d2", b"e2").replace(b"turn 1\nopen", b"turn 9\nopen")
MANY = (
    b"delete x\nadd 62\n" + FIRST + FIRST + b"\nopen q 5 a #prior(length)\nopen q 5 a\nstep z 1\nturn 1\nsing\nadd 29\n" + SECOND
    + b"\nflush\nopen p 3 #1(a b) a\nmerge\nstep q 9\ndelete d2\nturn 1\nshow q\nexplain q 1\nturn 5\nscan a\nstep p 2\nshow p\nclose p\n"
)
HELD = ((["add"], FIRST), (["add"], SECOND + b"<DOC><DOCNO>d3</DOCNO>b <f>a c</f></DOC>"), (["prior", "home"], b"d1 1/2\n* 1/3\n"))


@dataclass
class Row:
    """A command and its input, and the commands before it, or none where there is no folder."""

    shown: str
    before: tuple | None
    words: list
    text: bytes = b""


ROWS = (
    Row("session that flushes", (), ["session", "--mu", "1"], FLUSHED),
    Row("session that merges", (), ["session", "--mu", "1"], MERGED),
    Row("session that merges over files", HELD, ["session", "--mu", "1"], OVER_FILES),
    Row("session with refusals", (), ["session", "--mu", "1"], MANY),
    Row("gen", None, ["gen", "3"]),
    Row("create", None, ["create"]),
    Row("add", HELD, ["add"], FIRST + b"<DOC><DOCNO>d4</DOCNO><f>a</f> b c</DOC>\n"),
    Row("delete", HELD, ["delete"], b"d1\nd7\n d3\n"),
    Row("merge", (*HELD, (["delete"], b"d2\n")), ["merge"]),
    Row("prior", HELD, ["prior", "home"], b"d3 2/3\nd1 1/1\nd1 1/2\n"),
    Row("query", HELD, ["query", "--mu", "1", "#weight(2 a 1 #1(a c)) #prior(home) b.(f)"]),
    Row("explain", HELD, ["explain", "--mu", "1", "2", "a #prior(home)"]),
    Row("scan", None, ["scan", "#uw2(a b)"], FIRST + SECOND),
)
GENERATED = ["gen 3 live 2 tokens 6", "1 - -2.585251 g0 0 2", "2 > -2.586403 g2 0 4"]
FLUSH_LINE = re.compile(r"created|(flushed|merged|ended|prior [a-z0-9]+) \d+|gen .*")


@dataclass
class Whole:
    """How a row ends with memory, and what its files stand for before it and behind each of its lines that tell of the disk.

    Each of these is the docnos and the lengths of the live documents, and the rows of the priors; none is no collection. Where `gen`
    writes to the disk is told by no line, so each of its moments may be left until its line is written.
    """

    lines: list
    status: int
    moments: list
    is_told: bool = True

    def may_be_left(self, lines):
        told = sum(bool(FLUSH_LINE.fullmatch(line)) for line in lines)
        if not self.is_told:
            return self.moments[-1:] if told else self.moments
        return self.moments[told : told + 2]


def moment(files):
    """What files stand for. They must be in the grammar."""
    if stored.MANIFEST not in files:
        return None
    opened = answers.Opened(files)
    live = [(held.document.docno, len(held.document.tokens)) for held in opened.live]
    return live, opened.tables()


def generated():
    """What `gen 3` does: of three documents the second is deleted, and the others are merged."""
    documents = [("g0", 2), ("g1", 3), ("g2", 4)]
    lists = ([], documents, [documents[0], documents[2]])
    return Whole(GENERATED, 0, [None, *((live, {}) for live in lists)], is_told=False)


def whole_of(row, files):
    if row.words[0] == "gen":
        return generated()
    if row.words[0] == "session":
        opened = answers.Opened(files)
        desk = answers.Desk(opened, opened.tables(), int(row.words[-1]))
        answers.run_script(desk, row.text)
        lines = [line for answer in desk.answers for line in answer]
        moments = [(live, opened.tables()) for live in [desk.flushed[0], *desk.flushes]]
        return Whole(lines, answers.status_of(lines), moments)
    [outcome] = answers.outcomes(files, row.words, row.text)
    return Whole(outcome.lines, outcome.status, [moment(files), moment(outcome.files)])


# Runs.


@dataclass
class Refusing(Runner):
    """Runs in which memory is refused, over copies of a folder."""

    library: Path | None = None

    def compile(self):
        source = self.place / "refused.c"
        source.write_text(LIBRARY)
        self.library = self.place / "refused.so"
        subprocess.run(["cc", "-shared", "-fPIC", "-O1", "-o", self.library, source], check=True)

    def refused(self, folder, row, number, is_all):
        """The lines, the status, and whether a call was refused."""
        with tempfile.TemporaryFile() as given, tempfile.TemporaryFile() as noted:
            given.write(row.text)
            given.seek(0)
            environment = {"LD_PRELOAD": str(self.library), "REFUSED": str(number), "REFUSED_TOLD": str(noted.fileno())}
            if is_all:
                environment["REFUSED_ALL"] = "1"
            done = subprocess.run(
                [self.program, folder, *row.words],
                stdin=given,
                stdout=subprocess.PIPE,
                env={**os.environ, **environment},
                pass_fds=[noted.fileno()],
                timeout=SECONDS,
                check=False,
            )
            return done.stdout.decode("latin-1").splitlines(), done.returncode, os.fstat(noted.fileno()).st_size > 0


def is_front(lines, whole):
    return lines == whole[: len(lines)]


def fault_of(runner, folder, row, whole, lines, status):
    """What is wrong of a run in which memory was refused, if something is."""
    if status == MEMORY:
        if not is_front(lines, whole.lines):
            return f"status 9 behind {lines}"
    elif status == STORE_FAULT and lines[-1:] == ["fault store"]:
        if not is_front(lines[:-1], whole.lines):
            return f"status 6 behind {lines}"
        lines = lines[:-1]
    elif (lines, status) != (whole.lines, whole.status):
        return f"status {status} behind {lines}"
    files = stored.files_of(folder)
    try:
        found = moment(files)
    except stored.Fault as fault:
        return f"status {status}, and the folder is left with {fault.line()}"
    if found not in whole.may_be_left(lines):
        return f"status {status} behind {lines}, and the folder is left with {found}"
    asked = ["query", "--mu", "1", "a b"]
    [wanted] = answers.outcomes(files, asked)
    found = runner.run(folder, asked)
    return None if found == (wanted.lines, wanted.status) else f"status {status}, and then the query has {found}"


def try_row(runner, row, step, most):
    """How the runs of a row ended, how many numbers were tried, and how many were wrong."""
    begun = {} if row.before is None else runner.make(*row.before)
    whole = whole_of(row, begun)
    counts, wrong, tried = Counter(), 0, 0
    for is_all in (False, True):
        for number in range(1, most + 1, step):
            folder = runner.folder("refused", begun)
            try:
                lines, status, is_refused = runner.refused(folder, row, number, is_all)
            except subprocess.TimeoutExpired:
                lines, status, is_refused = ["not done in time"], -1, True
            if fault := fault_of(runner, folder, row, whole, lines, status):
                wrong += 1
                if wrong <= 5:
                    print(f"wrong: {row.shown}, number {number}{' and all behind it' if is_all else ''}: {fault}"[:400], flush=True)
            if not is_refused:
                break
            tried += 1
            counts[f"status {status}"] += 1
    ends = ", ".join(f"{end} {count}" for end, count in sorted(counts.items()))
    print(f"{row.shown}: {tried} numbers tried ({ends}), {wrong} wrong", flush=True)
    return tried, wrong


def has_gen(runner):
    _, status = runner.run(runner.folder("generated", {}), ["gen", "3"])
    return status != 1


def options():
    parser = argparse.ArgumentParser(description="Runs commands in which each of their allocations is refused in turn.")
    parser.add_argument("--most", type=int, default=1_000_000, help="a row ends behind so many numbers")
    parser.add_argument("--step", type=int, default=1, help="every so many numbers are tried (1)")
    parser.add_argument("--program", type=Path, default=PROGRAM, help="the program (that of ./indri)")
    parser.add_argument("names", nargs="*", metavar="WORD", help="rows in whose name one of these stands")
    return parser.parse_args()


def main():
    chosen = options()
    stop_unless_built(chosen.program)
    tried = wrong = 0
    with tempfile.TemporaryDirectory(prefix="refused-") as room:
        runner = Refusing(chosen.program.resolve(), Path(room))
        runner.compile()
        for row in ROWS:
            if chosen.names and not any(name in row.shown for name in chosen.names):
                continue
            if row.words[0] == "gen" and not has_gen(runner):
                print("gen: skipped, the program has no such command")
                continue
            found = try_row(runner, row, chosen.step, chosen.most)
            tried, wrong = tried + found[0], wrong + found[1]
    print(f"{tried} numbers tried, {wrong} wrong")
    sys.exit(1 if wrong else 0)


if __name__ == "__main__":
    main()
