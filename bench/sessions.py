#!/usr/bin/env python3
"""Tries sessions as users do, over a folder. It stands apart from the gate.

usage: bench/sessions.py [--lines N] [--seed N] [--program FILE]     with the program built

A session of some 10,000 lines, which --lines changes, is drawn at random: newswire documents are added in parts, a tenth of them is
deleted, what is in memory is flushed, merges go on in turns, and as many as sixteen queries are open and go on in steps. For each
`show` a folder is made anew to which the documents that were live at the query's opening are added, in their order, and `query` must
have the same result lines over it. At the end the folder must answer as one made of the live documents, and each reply must be the
one that a plain list of docnos tells.

Printed is how many answers were compared, and how long the session took. The status is 1 where something isn't as it must be.
"""
import argparse
import random
import shutil
import subprocess
import sys
import tempfile
import time
from dataclasses import dataclass
from pathlib import Path

from inputs import newswire_document

PROGRAM = Path(__file__).resolve().parent.parent / "crates/indri/out/indri"
MOST_OPEN = 16
QUERIES = (
    "rain",
    "w17 w42 launch",
    "#1(the launch) #uw8(rain of)",
    "#weight(0.7 rain.head 0.3 #max(w5 #syn(w6 w7)))",
    "#filreq(#band(rain launch) #filrej(w9 #combine(the w10)))",
    "#combine[passage50:25](rain w3)",
    "launch.(head) rain.(text) w11.(nothing)",
)


@dataclass
class Open:
    """An open query: how many results it shows, its text, the docnos of its opening, and how many of these it has passed."""

    results: int
    text: str
    live: list
    credit: int = 0


class Session:
    """The lines of a session, the replies that a list of docnos tells, and where the result lines of an open query belong."""

    def __init__(self, pick, documents):
        self.pick, self.documents = pick, documents
        self.script, self.replies, self.shown = [], [], {}
        self.added, self.live, self.open = 0, [], {}
        self.merge = None

    def say(self, line, *replies):
        self.script.append(line)
        self.replies.extend(replies)

    def add(self):
        part = self.documents[self.added : self.added + self.pick.randrange(1, 6)]
        self.added += len(part)
        text = "".join(document for _, document, _ in part)
        self.say(f"add {len(text.encode())}\n{text}", *(f"added {docno} {length}" for docno, _, length in part))
        self.live.extend(docno for docno, _, _ in part)

    def delete(self):
        if self.live and self.pick.random() < 0.4:
            docno = self.live.pop(self.pick.randrange(len(self.live)))
            self.say(f"delete {docno}", f"deleted {docno}")
        else:
            self.say("delete nobody", "refused NoSuchDoc nobody")

    def flush(self):
        self.say("flush", f"flushed {len(self.live)}")

    def begin(self):
        if self.merge is None:
            self.merge = [0, len(self.live)]
            self.say("merge", f"merging {len(self.live)}")
        else:
            self.say("merge", "refused MergeOpen")

    def turn(self):
        count = self.pick.choice((1, 3, 64, 100, 1000))
        if self.merge is None:
            self.say(f"turn {count}", "refused NoMerge")
            return
        self.merge[0] += count
        credit, size = self.merge
        if credit >= size:
            self.merge = None
            self.say(f"turn {count}", f"merged {len(self.live)}")
        else:
            self.say(f"turn {count}", f"turned {credit} of {size}")

    def begin_query(self):
        name = f"q{self.pick.randrange(20)}"
        results, text = self.pick.choice((1, 5, 10, 100)), self.pick.choice(QUERIES)
        if name in self.open:
            reply = f"refused NameTaken {name}"
        elif len(self.open) == MOST_OPEN:
            reply = f"refused DeskFull {name}"
        else:
            self.open[name] = Open(results, text, list(self.live))
            reply = f"opened {name} {len(self.live)}"
        self.say(f"open {name} {results} {text}", reply)

    def step(self):
        name, count = f"q{self.pick.randrange(20)}", self.pick.choice((1, 7, 64, 500, 4000))
        if name not in self.open:
            self.say(f"step {name} {count}", f"refused NoSuchName {name}")
            return
        query = self.open[name]
        query.credit = min(query.credit + count, len(query.live))
        self.say(f"step {name} {count}", f"stepped {name} {query.credit} of {len(query.live)}")

    def show(self):
        name = f"q{self.pick.randrange(20)}"
        if name not in self.open:
            self.say(f"show {name}", f"refused NoSuchName {name}")
        elif self.open[name].credit < len(self.open[name].live):
            self.say(f"show {name}", f"refused NotYet {name}")
        else:
            self.shown[len(self.replies)] = self.open[name]
            self.say(f"show {name}", f"results {name} ")

    def close(self):
        name = f"q{self.pick.randrange(20)}"
        known = self.open.pop(name, None)
        self.say(f"close {name}", f"closed {name}" if known else f"refused NoSuchName {name}")

    def end(self):
        self.say("end", f"ended {len(self.live)}")


def drawn(pick, documents, lines):
    session = Session(pick, documents)
    acts = [Session.add] * 4 + [Session.delete] * 4 + [Session.flush, Session.begin] + [Session.turn] * 4
    acts += [Session.begin_query] * 3 + [Session.step] * 8 + [Session.show] * 2 + [Session.close]
    while len(session.script) < lines and session.added < len(documents):
        pick.choice(acts)(session)
    session.end()
    return session


def ran(program, folder, words, text=""):
    done = subprocess.run([program, folder, *words], input=text, stdout=subprocess.PIPE, text=True, check=False)
    return done.returncode, done.stdout.splitlines()



def made(program, place, texts, docnos):
    """A folder of just these documents."""
    folder = place / "anew"
    shutil.rmtree(folder, ignore_errors=True)
    folder.mkdir()
    ran(program, folder, ["create"])
    ran(program, folder, ["add"], "".join(texts[docno] for docno in docnos))
    return folder


def compared(program, place, session, lines):
    """How many answers were compared, and what differs first, if something does."""
    texts = {docno: document for docno, document, _ in session.documents}
    at, answers = 0, 0
    for i, reply in enumerate(session.replies):
        if i not in session.shown:
            if lines[at : at + 1] != [reply]:
                return answers, f"line {at}: {lines[at:at + 1]} in place of {reply}"
            at += 1
            continue
        query = session.shown[i]
        count = int(lines[at].removeprefix(reply))
        results = lines[at + 1 : at + 1 + count]
        fresh = made(program, place, texts, query.live)
        if ran(program, fresh, ["query", "--k", str(query.results), query.text])[1] != results:
            return answers, f"line {at}: {query.text} over {len(query.live)} documents"
        at, answers = at + 1 + count, answers + 1
    if at != len(lines):
        return answers, f"{len(lines) - at} lines too many"
    fresh = made(program, place, texts, session.live)
    for text in QUERIES:
        if ran(program, fresh, ["query", text]) != ran(program, place / "session", ["query", text]):
            return answers, f"{text} behind the session"
        answers += 1
    return answers, None


def main():
    words = argparse.ArgumentParser(description=__doc__.splitlines()[0])
    words.add_argument("--lines", type=int, default=10_000)
    words.add_argument("--seed", type=int, default=1)
    words.add_argument("--program", default=str(PROGRAM))
    chosen = words.parse_args()
    pick = random.Random(chosen.seed)
    with tempfile.TemporaryDirectory(prefix="sessions-") as room:
        place = Path(room)
        (place / "all").mkdir()
        texts = [newswire_document(pick, i) for i in range(chosen.lines // 3)]
        ran(chosen.program, place / "all", ["create"])
        added = [line.split() for line in ran(chosen.program, place / "all", ["add"], "".join(texts))[1][:-1]]
        documents = [(docno, text, int(length)) for text, (_, docno, length) in zip(texts, added, strict=True)]
        session = drawn(pick, documents, chosen.lines)
        (place / "session").mkdir()
        ran(chosen.program, place / "session", ["create"])
        begun = time.monotonic()
        status, lines = ran(chosen.program, place / "session", ["session"], "\n".join(session.script) + "\n")
        seconds = time.monotonic() - begun
        answers, wrong = compared(chosen.program, place, session, lines)
        print(f"{len(session.script)} lines in {seconds:.2f} s, status {status}; {session.added} documents added, {len(session.live)} live at the end")
        print(f"{answers} answers compared")
        if wrong or status != 3:
            print(f"differs: {wrong}")
            return 1
    return 0


if __name__ == "__main__":
    sys.exit(main())
