"""What the commands must answer over the files of a collection, worked out apart from the program.

The files are read by bench/stored.py, and what is ranked, counted and explained is worked out by the definitions of bench/rankings.py.
TREC text, scripts, docnos and rows are read here by the rules of docs/FORMATS.md, whole or cut anywhere. Limits on sizes are left out.
An answer may be one of several where the formats leave open which of two faults of one range is met first.
"""
import copy
import re
from dataclasses import dataclass, field, replace

import rankings
import stored
from rankings import Collection, Leaf, Query
from stored import Fault, Manifest, Stored

# TREC text.

WHITE = re.compile(rb"[\t\n\f\r ]*")
TAG = re.compile(rb"<(/?)([A-Za-z][^<>]*)>")
OPEN_TAG = re.compile(rb"<(/?([A-Za-z][^<>]*)?)?\Z")
DOC_END = re.compile(rb"</doc(?:[\t\n\f\r />][^<>]*)?>", re.IGNORECASE)
DOCNO = re.compile(rb"[!-;=-~]*")
BREAK = re.compile(rb"<!--.*?-->|<[!?][^<>]*>|&[A-Za-z0-9#]{1,32};", re.DOTALL)
WORD = re.compile(rb"[A-Za-z0-9]+")


def name_of(tag):
    return re.match(rb"[^\t\n\f\r />]+", tag[2])[0].lower()


class Refused(Exception):
    """The kind and the place of a refusal."""


def tag_at(text, at, begin, else_refused):
    """The tag that begins here. Where it isn't finished the document is open."""
    if at == len(text) or OPEN_TAG.match(text, at):
        raise Refused("DocOpen", begin)
    found = TAG.match(text, at)
    if not found:
        raise Refused(*else_refused)
    return found


def docno_at(text, at, begin):
    """The docno that begins here, and where its end tag ends."""
    run = DOCNO.match(text, at)
    mark = WHITE.match(text, run.end()).end()
    if mark < len(text) and text[mark : mark + 1] != b"<":
        raise Refused("DocnoBad", run.end())
    tag = tag_at(text, mark, begin, ("DocnoBad", mark))
    if not run[0]:
        raise Refused("DocnoEmpty", mark)
    if not tag[1] or name_of(tag) != b"docno":
        raise Refused("DocnoBad", mark)
    if len(run[0]) > 255:
        raise Refused("DocnoLong", at)
    return run[0].decode(), tag.end()


def content(docno, text):
    """The document of a docno and the text behind it, whose words are runs of letters and digits of ASCII."""
    tokens, opened, fields, at = [], [], set(), 0
    while at < len(text):
        if found := BREAK.match(text, at) or WORD.match(text, at):
            at = found.end()
            if found.re is WORD:
                tokens.append(found[0].decode().lower())
        elif found := TAG.match(text, at):
            at = found.end()
            note_tag(found, len(tokens), opened, fields)
        else:
            at += 1
    fields.update((name, begin, len(tokens)) for name, begin in opened)
    return rankings.Document(docno, tokens, {f for f in fields if f[1] < f[2]})


def note_tag(tag, at, opened, fields):
    name = name_of(tag).decode("latin-1")
    if not re.fullmatch(r"[a-z][a-z0-9]{0,31}", name) or (not tag[1] and tag[0].endswith(b"/>")):
        return
    if not tag[1]:
        opened.append((name, at))
    elif begins := [i for i, (other, _) in enumerate(opened) if other == name]:
        fields.add((*opened.pop(begins[-1]), at))


def document_at(text, begin):
    tag = TAG.match(text, begin)
    if not tag or tag[1] or name_of(tag) != b"doc":
        raise Refused("NotADoc", begin)
    at = WHITE.match(text, tag.end()).end()
    tag = tag_at(text, at, begin, ("NoDocno", at))
    if tag[1] or name_of(tag) != b"docno":
        raise Refused("NoDocno", at)
    docno, at = docno_at(text, WHITE.match(text, tag.end()).end(), begin)
    end = DOC_END.search(text, at)
    if not end:
        raise Refused("DocOpen", begin)
    return content(docno, text[at : end.start()]), end.end()


def trec(text):
    """The documents of a text, and the line of its refusal if it has one."""
    documents = []
    at = WHITE.match(text).end()
    while at < len(text):
        try:
            document, at = document_at(text, at)
        except Refused as refused:
            return documents, ["refused {} {}".format(*refused.args)]
        documents.append(document)
        at = WHITE.match(text, at).end()
    return documents, []


# Documents of a collection.


class Words(frozenset):
    """What stands at a position: the terms that have it. A token of a document that was added is one word."""

    def __eq__(self, word):
        return word in self

    __hash__ = frozenset.__hash__


@dataclass
class Held:
    """A live document, and the segment and the id that it has there, where it is in a file."""

    document: rankings.Document
    segment: stored.Segment | None = None
    identity: int = 0


@dataclass
class BadBlock:
    segment: stored.Segment
    range: int
    term: bytes
    fault: Fault


class Opened:
    """The live documents of files as they are read, their priors, and the blocks in ranges of live documents that are damaged."""

    def __init__(self, files):
        self.files = files
        self.stored = Stored(files)
        self.ranges = self.stored.live_ranges()
        self.bad = []
        self.terms = {}
        for segment, number in self.ranges:
            self.read_range(segment, number)
        self.live = [self.held(segment, identity) for segment, identity in self.stored.live()]

    def read_range(self, segment, number):
        for term in segment.terms:
            block = segment.block_of(term, number)
            try:
                found = segment.postings(block) if block else {}
            except Fault as fault:
                self.bad.append(BadBlock(segment, number, term, fault))
                continue
            for identity, positions in found.items():
                for position, _ in positions:
                    self.terms.setdefault((segment.file, identity, position), set()).add(term.decode("latin-1"))

    def held(self, segment, identity):
        kept = segment.documents[identity]
        found = [self.terms.get((segment.file, identity, i), ()) for i in range(kept.length)]
        tokens = [next(iter(one)) if len(one) == 1 else Words(one) for one in found]
        return Held(rankings.Document(kept.docno.decode(), tokens, set(kept.fields)), segment, identity)

    def tables(self):
        """The rows of the priors as the definitions take them. It fails where a file isn't in the grammar."""
        found = {}
        for name, prior in self.stored.priors(self.files).items():
            found[name] = {docno.decode(): belief for docno, belief in prior.rows.items() if docno != b"*"}
            if prior.rest:
                found[name]["*"] = prior.rest
        return found

    def merge_faults(self):
        """The faults of which a merge may tell: those of the first range of live documents that has any."""
        return next((faults for segment, number in self.ranges if (faults := segment.faults_of(number))), [])


# Queries.


def words_of(expr):
    if expr[0] == "word":
        return {expr[1].encode()}
    return {word for part in expr[1:] if isinstance(part, tuple) for word in words_of(part)}


def may_be_in(expr, segment, number):
    """Whether the dictionary lets an extent be in the range, for expressions of words alone; else it isn't known."""
    if expr[0] == "word":
        return segment.block_of(expr[1].encode(), number) is not None
    parts = [may_be_in(part, segment, number) for part in expr[1:] if isinstance(part, tuple)]
    if expr[0] in ("any", "in") or None in parts:
        return None
    return any(parts) if expr[0] == "syn" else all(parts)


@dataclass
class Asked:
    """A query, and the faults of the blocks that it may meet and those that it must meet."""

    query: Query
    may: list
    must: list


def asked(text, bad, ranges):
    query = rankings.Reader(text).query()
    query = Query(query.filters, query.ranked, rankings.reduced(query.tree))
    leaves = [leaf for leaf in rankings.leaves_of(query.tree) if isinstance(leaf, Leaf)]
    exprs = [leaf.expr for leaf in leaves] + [wanted.expr for wanted in query.filters]
    may = [one for one in bad if (one.segment, one.range) in ranges and any(one.term in words_of(expr) for expr in exprs)]
    must = [
        one
        for one in may
        if any(
            leaf.context is None and one.term in words_of(leaf.expr) and may_be_in(leaf.expr, one.segment, one.range)
            for leaf in leaves
        )
    ]
    return Asked(query, [one.fault.line() for one in may], [one.fault.line() for one in must])


def result_lines(query, collection, mu, most):
    e = rankings.scale(query.tree)
    lines = sorted(rankings.candidates(query, collection, mu), key=rankings.Candidate.order)[:most]
    for i, (line, mark) in enumerate(zip(lines, rankings.marks(lines, e))):
        score = line.key * rankings.MILLION // (e << rankings.LEVEL)
        place = f"{line.document.docno} {line.window[0]} {line.window[1]}"
        yield f"{i + 1} {mark} -{score // rankings.MILLION}.{score % rankings.MILLION:06} {place}"


def check_line(text, priors):
    """The line of a text that is refused, if it is."""
    if text in QUERY_FAULTS:
        return ["refused Query {} {}".format(*QUERY_FAULTS[text])]
    found = rankings.fault(rankings.Reader(text).query(), priors)
    return [f"refused Check {found}"] if found else []


# Texts that aren't read, each with its fault. They are fronts of the texts that bench/damage.py cuts, and were worked out by hand.
QUERY_FAULTS = {
    "": ("Expected", 0),
    " ": ("Expected", 1),
    "#": ("UnknownOperator", 0),
    "#1": ("Expected", 2),
    "#1(": ("Expected", 3),
    "#1(a": ("Expected", 4),
    "#1(a ": ("Expected", 5),
    "#1(a b": ("Expected", 6),
}

# Commands.


@dataclass
class Outcome:
    """What a command writes, its status, and the files behind it, or else the docnos and lengths of the live documents in them."""

    lines: list
    status: int
    files: dict | None = None
    live: list | None = None


def broken(fault, files, before=()):
    return Outcome([*before, fault if isinstance(fault, str) else fault.line()], 7, files)


def status_of(lines):
    return 3 if any(line.startswith("refused ") for line in lines) else 0


def absent(files, words):
    if stored.MANIFEST in files:
        return [Outcome(["exists"], 8, files)] if words[0] == "create" else []
    if words[0] == "create":
        return [Outcome(["created"], 0, {**files, stored.MANIFEST: Manifest().bytes()})]
    return [Outcome(["norepository"], 8, files)]


def swept(files, manifest):
    """The files once the stale ones are removed, with the manifest that says so."""
    gone = {name for number in manifest.stale for name in (stored.segment_name(number), stored.prior_name(number))}
    manifest.stale = []
    kept = {name: data for name, data in files.items() if name not in gone}
    return {**kept, stored.MANIFEST: manifest.bytes()}


def documents_added(live, text):
    """The documents of a text that are taken, and the lines of all of them and of the refusal of the text."""
    documents, refusal = trec(text)
    docnos = {held.document.docno for held in live}
    taken, lines = [], []
    for document in documents:
        if document.docno in docnos:
            lines.append(f"refused Repeated {document.docno}")
            continue
        docnos.add(document.docno)
        taken.append(document)
        lines.append(f"added {document.docno} {len(document.tokens)}")
    return taken, lines + refusal


def do_add(opened, words, text):
    taken, lines = documents_added(opened.live, text)
    manifest, files = copy.deepcopy(opened.stored.manifest), dict(opened.files)
    if taken:
        number = manifest.take_number()
        files[stored.segment_name(number)] = stored.segment_bytes(taken)
        manifest.segments.append(stored.Entry(number, len(taken), []))
    lines.append(f"flushed {len(opened.live) + len(taken)}")
    return [Outcome(lines, status_of(lines), swept(files, manifest))]


def do_delete(opened, words, text):
    documents = {held.document.docno: held for held in opened.live}
    lines = list(rankings.deletions(documents, text.decode("latin-1")))
    manifest = copy.deepcopy(opened.stored.manifest)
    for held in opened.live:
        if held.document.docno not in documents:
            at = opened.stored.segments.index(held.segment)
            manifest.segments[at].dead = sorted({*manifest.segments[at].dead, held.identity})
    lines.append(f"flushed {len(documents)}")
    return [Outcome(lines, status_of(lines), swept(dict(opened.files), manifest))]


def do_merge(opened, words, text):
    if faults := opened.merge_faults():
        return [broken(fault, opened.files) for fault in faults]
    manifest, files = copy.deepcopy(opened.stored.manifest), dict(opened.files)
    stale = [entry.number for entry in manifest.segments]
    entries = []
    if opened.live:
        number = manifest.take_number()
        files[stored.segment_name(number)] = stored.segment_bytes([held.document for held in opened.live])
        entries = [stored.Entry(number, len(opened.live), [])]
    manifest.segments = entries
    manifest.stale = sorted({*manifest.stale, *stale})
    return [Outcome([f"merged {len(opened.live)}"], 0, swept(files, manifest))]


def do_prior(opened, words, text):
    name = words[1].lower()
    manifest, files = copy.deepcopy(opened.stored.manifest), dict(opened.files)
    names = [known.decode() for known, _ in manifest.priors]
    if name not in names and len(names) == stored.MOST["priors"]:
        return [Outcome([f"refused PriorsFull {name}"], 3, files)]
    table, lines = rankings.table_of(name, text.decode("latin-1"))
    rows = {docno.encode(): belief for docno, belief in table.items() if docno != "*"}
    number = manifest.take_number()
    files[stored.prior_name(number)] = stored.Prior(table.get("*"), rows).bytes()
    if name in names:
        manifest.stale = sorted([*manifest.stale, manifest.priors[names.index(name)][1]])
        manifest.priors[names.index(name)] = name.encode(), number
    else:
        manifest.priors.append((name.encode(), number))
    return [Outcome(lines, status_of(lines), swept(files, manifest))]


def option(words, name, usual):
    return int(words[words.index(name) + 1]) if name in words else usual


def do_question(opened, words, text):
    priors = opened.tables()
    query_text, mu = words[-1], option(words, "--mu", 2500)
    if lines := check_line(query_text, priors):
        return [Outcome(lines, 2, opened.files)]
    found = asked(query_text, opened.bad, opened.ranges)
    outcomes = [broken(fault, opened.files) for fault in found.may]
    if not found.must:
        collection = Collection([held.document for held in opened.live], priors)
        if words[0] == "query":
            lines = list(result_lines(found.query, collection, mu, option(words, "--k", 10)))
        else:
            lines = rankings.explanation(found.query, collection, mu, int(words[-2]))
        outcomes.append(Outcome(lines, status_of(lines), opened.files))
    return outcomes


def do_scan(files, words, text):
    documents, refusal = trec(text)
    if words[1] in QUERY_FAULTS:
        return [Outcome(["refused Query {} {}".format(*QUERY_FAULTS[words[1]])], 2, files)]
    expr = rankings.Reader(words[1]).expr()
    lines = [f"{d.docno} {b} {e}" for d in documents for b, e in sorted(rankings.extents(expr, d))] + refusal
    return [Outcome(lines, 3 if refusal else 0, files)]


# Sessions.


@dataclass
class Question:
    text: str
    most: int
    live: list
    credit: int = 0
    event: int = 0
    asked: Asked = None


@dataclass
class Risk:
    """Faults of which a session may tell in place of the answers of these events, and whether it must tell of one."""

    first: int
    last: int
    faults: list
    must: bool


@dataclass
class Desk:
    """A session: the live documents, the open queries and the merge, and what is answered to each event."""

    opened: Opened
    priors: dict
    mu: int
    live: list = field(default_factory=list)
    questions: dict = field(default_factory=dict)
    merge: tuple | None = None
    answers: list = field(default_factory=list)
    flushed: list = field(default_factory=list)
    flushes: list = field(default_factory=list)
    risks: list = field(default_factory=list)

    def __post_init__(self):
        self.live = list(self.opened.live)
        self.flushed = [self.told()]

    def told(self):
        return [(held.document.docno, len(held.document.tokens)) for held in self.live]

    def ranges(self, live):
        return {(held.segment, held.identity // 64) for held in live if held.segment}

    def answer(self, lines, is_flush=False):
        self.answers.append(lines)
        self.flushed.append(self.told() if is_flush else self.flushed[-1])
        self.flushes += [self.told()] if is_flush else []

    def add(self, text):
        taken, lines = documents_added(self.live, text)
        self.live += [Held(document) for document in taken]
        return lines

    def delete(self, docno):
        kept = [held for held in self.live if held.document.docno != docno]
        if len(kept) == len(self.live):
            return self.answer([f"refused NoSuchDoc {docno}"])
        self.live = kept
        return self.answer([f"deleted {docno}"])

    def flush(self):
        self.answer([f"flushed {len(self.live)}"], is_flush=True)

    def end(self):
        self.answer([f"ended {len(self.live)}"], is_flush=True)

    def begin_merge(self):
        if self.merge:
            return self.answer(["refused MergeOpen"])
        self.merge = 0, len(self.live), len(self.answers), self.ranges(self.live)
        return self.answer([f"merging {len(self.live)}"])

    def turn(self, count):
        if not self.merge:
            return self.answer(["refused NoMerge"])
        credit, size, begun, ranges = self.merge
        credit += count
        faults = [fault.line() for segment, number in ranges for fault in segment.faults_of(number)]
        if faults:
            self.risks.append(Risk(begun, len(self.answers), faults, credit >= size))
        if credit < size:
            self.merge = credit, size, begun, ranges
            return self.answer([f"turned {credit} of {size}"])
        self.merge = None
        return self.answer([f"merged {len(self.live)}"], is_flush=True)

    def open(self, name, most, text):
        if lines := check_line(text, self.priors):
            return self.answer(lines)
        if name in self.questions:
            return self.answer([f"refused NameTaken {name}"])
        if len(self.questions) == 16:
            return self.answer([f"refused DeskFull {name}"])
        found = asked(text, self.opened.bad, self.ranges(self.live))
        self.questions[name] = Question(text, most, list(self.live), 0, len(self.answers), found)
        if found.may:
            self.risks.append(Risk(len(self.answers), len(self.answers), found.may, False))
        return self.answer([f"opened {name} {len(self.live)}"])

    def known(self, name):
        if name not in self.questions:
            self.answer([f"refused NoSuchName {name}"])
        return self.questions.get(name)

    def risk(self, question):
        if question.asked.may:
            self.risks.append(Risk(question.event, len(self.answers), question.asked.may, bool(question.asked.must)))

    def step(self, name, count):
        if question := self.known(name):
            question.credit = min(question.credit + count, len(question.live))
            self.risk(question)
            self.answer([f"stepped {name} {question.credit} of {len(question.live)}"])

    def collection(self, question):
        return Collection([held.document for held in question.live], self.priors)

    def ready(self, name):
        question = self.known(name)
        if question and question.credit < len(question.live):
            self.answer([f"refused NotYet {name}"])
            return None
        return question

    def show(self, name):
        if question := self.ready(name):
            self.risk(question)
            lines = list(result_lines(question.asked.query, self.collection(question), self.mu, question.most))
            self.answer([f"results {name} {len(lines)}", *lines])

    def explain(self, name, rank):
        if question := self.ready(name):
            self.risk(question)
            refusal = [f"refused NoSuchRank {name}"]
            if rank > question.most:
                return self.answer(refusal)
            lines = rankings.explanation(question.asked.query, self.collection(question), self.mu, rank)
            self.answer(refusal if lines[0].startswith("refused ") else lines)

    def scan(self, text):
        if text in QUERY_FAULTS:
            return self.answer(["refused Query {} {}".format(*QUERY_FAULTS[text])])
        expr = rankings.Reader(text.strip()).expr()
        ranges = self.ranges(self.live)
        faults = [b.fault.line() for b in self.opened.bad if (b.segment, b.range) in ranges and b.term in words_of(expr)]
        if faults:
            self.risks.append(Risk(len(self.answers), len(self.answers), faults, False))
        documents = [held.document for held in self.live]
        lines = [f"{d.docno} {b} {e}" for d in documents for b, e in sorted(rankings.extents(expr, d))]
        return self.answer([*lines, f"scanned {len(lines)}"])

    def close(self, name):
        if self.known(name):
            del self.questions[name]
            self.answer([f"closed {name}"])


NUMBER = r"([1-9]\d*)"
NAME = r"([A-Za-z][A-Za-z0-9]{0,31})"
EVENTS = [
    (r"delete ([!-;=-~]{1,255})", lambda desk, docno: desk.delete(docno)),
    (r"flush", Desk.flush),
    (r"merge", Desk.begin_merge),
    (rf"turn {NUMBER}", lambda desk, count: desk.turn(int(count))),
    (rf"open {NAME} {NUMBER} (.*)", lambda desk, name, most, text: desk.open(name.lower(), int(most), text)),
    (rf"step {NAME} {NUMBER}", lambda desk, name, count: desk.step(name.lower(), int(count))),
    (rf"show {NAME}", lambda desk, name: desk.show(name.lower())),
    (rf"explain {NAME} {NUMBER}", lambda desk, name, rank: desk.explain(name.lower(), int(rank))),
    (r"scan (.*)", lambda desk, text: desk.scan(text)),
    (rf"close {NAME}", lambda desk, name: desk.close(name.lower())),
]
LIMITS = {"add": 1 << 30, "turn": (1 << 32) - 1, "open": 1000, "step": (1 << 32) - 1, "explain": 1000}


def numbers_fit(line):
    word = line.split(" ", 1)[0]
    numbers = [int(part) for part in line.split(" ")[1:3] if part.isascii() and part.isdigit()]
    return word not in LIMITS or not numbers or numbers[0] <= LIMITS[word]


def run_add(desk, script, at, behind, count):
    """The event of an `add` line at `at`, whose bytes begin behind it. The answer is where the next line begins."""
    text = script[behind : behind + count]
    lines = desk.add(text)
    if len(text) < count:
        lines.append(f"refused ShortAdd {at}")
    desk.answer(lines)
    return behind + len(text)


def run_script(desk, script):
    at = 0
    while at < len(script):
        found = script.find(b"\n", at)
        behind = len(script) if found < 0 else found + 1
        line = script[at : len(script) if found < 0 else found].removesuffix(b"\r")
        shown = line.decode("latin-1")
        if line == b"end":
            break
        if len(line) > 65536:
            desk.answer([f"refused LineTooLong {at}"])
        elif (adds := re.fullmatch(rf"add {NUMBER}", shown)) and numbers_fit(shown):
            behind = run_add(desk, script, at, behind, int(adds[1]))
        elif line:
            event = next(((found, act) for form, act in EVENTS if (found := re.fullmatch(form, shown))), None)
            if event and numbers_fit(shown):
                event[1](desk, *event[0].groups())
            else:
                desk.answer([f"refused BadEvent {at}"])
        at = behind
    desk.end()


def do_session(opened, words, text):
    desk = Desk(opened, opened.tables(), option(words, "--mu", 2500))
    run_script(desk, text)
    outcomes = []
    for risk in desk.risks:
        for event in range(risk.first, risk.last + 1):
            before = [line for lines in desk.answers[:event] for line in lines]
            outcomes += [replace(broken(fault, None, before), live=desk.flushed[event]) for fault in risk.faults]
    if not any(risk.must for risk in desk.risks):
        lines = [line for answer in desk.answers for line in answer]
        outcomes.append(Outcome(lines, status_of(lines), live=desk.flushed[-1]))
    return outcomes


DO = {
    "add": do_add,
    "delete": do_delete,
    "merge": do_merge,
    "prior": do_prior,
    "query": do_question,
    "explain": do_question,
    "session": do_session,
}


def outcomes(files, words, text=b""):
    """The outcomes that a command over these files may have."""
    if words[0] == "scan":
        return do_scan(files, words, text)
    if found := absent(files, words):
        return found
    try:
        return DO[words[0]](Opened(files), words, text)
    except Fault as fault:
        return [broken(fault, files)]
