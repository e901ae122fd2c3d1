"""The files of a collection, read and written by the grammar of docs/FORMATS.md and apart from the program.

bench/damage.py and bench/limits.py compare what the program does with what is read here. Files are bytes by
their names. What isn't in the grammar is a `Fault` at the first field that breaks its rule.
"""
import struct
from bisect import bisect_left
from dataclasses import dataclass, field

MANIFEST = "manifest"
PRIOR_LIMIT = 10**18
HEADER = 64
MOST = {
    "documents of a segment": 1 << 20,
    "tokens": 1 << 26,
    "held documents": 1 << 22,
    "names": 1 << 16,
    "tokens of a document": 1 << 20,
    "rows": 1 << 20,
    "priors": 8,
}


class Fault(Exception):
    """A file isn't in the grammar: its name, the part and the place."""

    def line(self):
        return "malformed {} {} {}".format(*self.args)


class Missing(Fault):
    """A listed file isn't there: its name."""

    def line(self):
        return f"missing {self.args[0]}"


def segment_name(number):
    return f"seg-{number:016x}"


def prior_name(number):
    return f"pri-{number:016x}"


def is_field_name(name):
    return 1 <= len(name) <= 32 and name.isalnum() and name.isascii() and name[:1].isalpha() and name == name.lower()


def is_docno(docno):
    return 1 <= len(docno) <= 255 and all(33 <= byte <= 126 and byte != ord("<") for byte in docno)


class Fields:
    """The fields of a part, one behind the other, from a place up to an end."""

    def __init__(self, file, part, data, at, end):
        self.file, self.part, self.data, self.at, self.end = file, part, data, at, end

    def fault(self, place):
        return Fault(self.file, self.part, place)

    def bytes(self, count, holds=lambda found: True):
        begin = self.at
        found = self.data[begin : begin + count]
        if begin + count > self.end or len(found) < count or not holds(found):
            raise self.fault(begin)
        self.at += count
        return found

    def number(self, size, holds=lambda found: True):
        return int.from_bytes(self.bytes(size, lambda found: holds(int.from_bytes(found, "little"))), "little")

    def text(self, most, holds):
        return self.bytes(self.number(1, lambda count: 1 <= count <= most), holds)

    def close(self, holds=True):
        """Nothing stands behind the last field, and the rules of the whole part hold."""
        if self.at < self.end or not holds:
            raise self.fault(self.at)


# The manifest.


@dataclass
class Entry:
    """A segment in a manifest: its number, how many documents it has, and the ids of the dead ones."""

    number: int
    documents: int
    dead: list


@dataclass
class Manifest:
    next: int = 1
    segments: list = field(default_factory=list)
    stale: list = field(default_factory=list)
    priors: list = field(default_factory=list)

    def numbers(self):
        return {entry.number for entry in self.segments} | set(self.stale) | {number for _, number in self.priors}

    def bytes(self):
        parts = [b"indriman", struct.pack("<IQI", 1, self.next, len(self.segments))]
        for entry in self.segments:
            parts.append(struct.pack(f"<QII{len(entry.dead)}I", entry.number, entry.documents, len(entry.dead), *entry.dead))
        parts.append(struct.pack(f"<Q{len(self.stale)}Q", len(self.stale), *self.stale))
        parts.append(bytes([len(self.priors)]))
        parts += [bytes([len(name)]) + name + struct.pack("<Q", number) for name, number in self.priors]
        return b"".join(parts)

    def take_number(self):
        """The number of a new file."""
        if self.next < (1 << 64) - 1:
            self.next += 1
            return self.next - 1
        return next(number for number in range(1, 1 << 64) if number not in self.numbers())


def read_manifest(data):
    fields = Fields(MANIFEST, "Manifest", data, 0, len(data))
    fields.bytes(8, b"indriman".__eq__)
    fields.number(4, (1).__eq__)
    found = Manifest(fields.number(8, lambda number: number >= 1))
    used = set()

    def number(low=0):
        taken = fields.number(8, lambda n: max(low, 1) <= n < found.next and n not in used)
        used.add(taken)
        return taken

    for _ in range(fields.number(4)):
        entry = Entry(number(), fields.number(4, lambda n: 1 <= n <= MOST["documents of a segment"]), [])
        for _ in range(fields.number(4)):
            low = entry.dead[-1] + 1 if entry.dead else 0
            entry.dead.append(fields.number(4, lambda mark: low <= mark < entry.documents))
        found.segments.append(entry)
    for _ in range(fields.number(8)):
        found.stale.append(number(found.stale[-1] + 1 if found.stale else 0))
    for _ in range(fields.number(1, lambda n: n <= MOST["priors"])):
        names = {name for name, _ in found.priors} | {b"length"}
        name = fields.text(32, lambda text: is_field_name(text) and text not in names)
        found.priors.append((name, number()))
    fields.close()
    return found


# The rows of a prior.


@dataclass
class Prior:
    """The belief of the documents without a row, if there is one, and the rows by docno. Beliefs are pairs."""

    rest: tuple | None = None
    rows: dict = field(default_factory=dict)

    def bytes(self):
        parts = [b"indripri", b"\0" if self.rest is None else b"\1" + struct.pack("<QQ", *self.rest)]
        parts.append(struct.pack("<I", len(self.rows)))
        for docno in sorted(self.rows):
            parts.append(bytes([len(docno)]) + docno + struct.pack("<QQ", *self.rows[docno]))
        return b"".join(parts)


def read_prior(file, data):
    fields = Fields(file, "Prior", data, 0, len(data))
    fields.bytes(8, b"indripri".__eq__)

    def belief():
        p = fields.number(8, lambda n: 1 <= n < PRIOR_LIMIT)
        return p, fields.number(8, lambda q: p <= q < PRIOR_LIMIT)

    found = Prior(belief() if fields.number(1, lambda n: n <= 1) else None)
    last = b""
    for _ in range(fields.number(4, lambda n: n <= MOST["rows"])):
        last = fields.text(255, lambda docno: is_docno(docno) and docno > last)
        found.rows[last] = belief()
    fields.close()
    return found


# Segments.


@dataclass
class Kept:
    """A document of a segment: its docno, the place of that, how many tokens it has, and its fields as (name, begin, end)."""

    docno: bytes
    place: int
    length: int
    fields: list


@dataclass
class Block:
    """Where the block of a range of ids stands."""

    range: int
    place: int
    length: int


class Segment:
    """A segment as it is opened: its documents and the blocks of its terms. The blocks are read one by one."""

    def __init__(self, file, data, documents):
        self.file, self.data = file, data
        header = self.read_header(documents)
        self.tokens, self.term_count, self.name_count, self.dictionary, self.blocks = header
        self.documents = self.read_documents(documents)
        self.terms = self.read_terms()

    def read_header(self, documents):
        fields = Fields(self.file, "Header", self.data, 0, HEADER)
        fields.bytes(8, b"indriseg".__eq__)
        fields.number(4, (1).__eq__)
        fields.number(4, documents.__eq__)
        tokens = fields.number(8, lambda n: n <= MOST["tokens"])
        terms, names = fields.number(4), fields.number(4, lambda n: n <= MOST["names"])
        fields.number(8, HEADER.__eq__)
        dictionary = fields.number(8, lambda place: place >= HEADER)
        blocks = fields.number(8, lambda place: place >= dictionary)
        fields.number(8, lambda length: length == len(self.data) and length >= blocks)
        return tokens, terms, names, dictionary, blocks

    def read_documents(self, count):
        fields = Fields(self.file, "Documents", self.data, HEADER, self.dictionary)
        names = []
        for _ in range(self.name_count):
            last = names[-1] if names else b""
            names.append(fields.text(32, lambda name: is_field_name(name) and name > last))
        found = [self.read_document(fields, names) for _ in range(count)]
        used = {name for document in found for name, _, _ in document.fields}
        fields.close(sum(document.length for document in found) == self.tokens and used == {name.decode() for name in names})
        return found

    @staticmethod
    def read_document(fields, names):
        place = fields.at
        docno = fields.text(255, is_docno)
        length = fields.number(4, lambda n: n <= MOST["tokens of a document"])
        found = Kept(docno, place, length, [])
        last = None
        for _ in range(fields.number(2)):
            name = fields.number(2, lambda n: n < len(names))
            begin = fields.number(4, lambda n: last is None or n >= last[0])
            end = fields.number(4, lambda n: begin < n <= length and (last is None or (begin, n, name) > last))
            last = begin, end, name
            found.fields.append((names[name].decode(), begin, end))
        return found

    def read_terms(self):
        fields = Fields(self.file, "Dictionary", self.data, self.dictionary, self.blocks)
        found, last, place = {}, b"", self.blocks
        for _ in range(self.term_count):
            last = fields.text(128, lambda term: not found or term > last)
            blocks = found[last] = []
            for _ in range(fields.number(4, lambda n: n >= 1)):
                low = blocks[-1].range + 1 if blocks else 0
                number = fields.number(4, lambda n: n >= low and 64 * n < len(self.documents))
                blocks.append(Block(number, fields.number(8, place.__eq__), fields.number(4)))
                place += blocks[-1].length
        fields.close(place == len(self.data))
        return found

    def postings(self, block):
        """The positions of a block by the ids of the documents, each position with its place."""
        fields = Fields(self.file, "Block", self.data, block.place, block.place + block.length)
        found, low = {}, 0
        for _ in range(fields.number(1, lambda n: 1 <= n <= 64)):
            first = 64 * block.range
            inner = fields.number(1, lambda n: low <= n < 64 and first + n < len(self.documents))
            low = inner + 1
            positions = found[first + inner] = []
            for _ in range(fields.number(4, lambda n: n >= 1)):
                least = positions[-1][0] + 1 if positions else 0
                place = fields.at
                positions.append((fields.number(4, lambda n: least <= n < self.documents[first + inner].length), place))
        fields.close()
        return found

    def block_of(self, term, number):
        blocks = self.terms.get(term, [])
        at = bisect_left(blocks, number, key=lambda block: block.range)
        return blocks[at] if at < len(blocks) and blocks[at].range == number else None

    def faults_of(self, number):
        """The faults of which a merge may tell for a range of ids: those of its blocks, else those of what stands across them."""
        blocks = [block for term in self.terms if (block := self.block_of(term, number))]
        faults, seen, twice = [], set(), []
        for block in blocks:
            try:
                for identity, positions in self.postings(block).items():
                    for position, place in positions:
                        if (identity, position) in seen:
                            twice.append(Fault(self.file, "Block", place))
                        seen.add((identity, position))
            except Fault as fault:
                faults.append(fault)
        ids = range(64 * number, min(64 * number + 64, len(self.documents)))
        if not faults and not twice and len(seen) < sum(self.documents[i].length for i in ids):
            faults.append(Fault(self.file, "Block", blocks[-1].place if blocks else self.blocks))
        return faults + twice

    def tokens_of(self, identity):
        """The tokens of a document. All of its blocks must be in the grammar."""
        found = [None] * self.documents[identity].length
        for term in self.terms:
            if block := self.block_of(term, identity // 64):
                for position, _ in self.postings(block).get(identity, []):
                    found[position] = term
        return found


def segment_bytes(documents):
    """The segment of documents, each with a docno, tokens and fields, whose texts have a character for each byte."""
    names = sorted({name for document in documents for name, _, _ in document.fields})
    kept = [text_field(name) for name in names]
    places = {}
    for identity, document in enumerate(documents):
        fields = sorted((begin, end, names.index(name)) for name, begin, end in document.fields)
        kept.append(text_field(document.docno) + struct.pack("<IH", len(document.tokens), len(fields)))
        kept += [struct.pack("<HII", name, begin, end) for begin, end, name in fields]
        for position, token in enumerate(document.tokens):
            ranges = places.setdefault(token.encode("latin-1"), {})
            ranges.setdefault(identity // 64, {}).setdefault(identity % 64, []).append(position)
    terms, blocks = [], []
    entries = sum(len(places[term]) for term in places)
    dictionary = HEADER + sum(map(len, kept))
    at = start = dictionary + sum(5 + len(term) for term in places) + 16 * entries
    for term in sorted(places):
        terms.append(bytes([len(term)]) + term + struct.pack("<I", len(places[term])))
        for number, inside in sorted(places[term].items()):
            block = bytes([len(inside)]) + b"".join(
                struct.pack(f"<BI{len(at_token)}I", inner, len(at_token), *at_token) for inner, at_token in sorted(inside.items())
            )
            terms.append(struct.pack("<IQI", number, at, len(block)))
            blocks.append(block)
            at += len(block)
    tokens = sum(len(document.tokens) for document in documents)
    header = struct.pack("<8sIIQIIQQQQ", b"indriseg", 1, len(documents), tokens, len(places), len(names), HEADER, dictionary, start, at)
    return b"".join([header, *kept, *terms, *blocks])


def text_field(text):
    return bytes([len(text)]) + text.encode("latin-1")


# All files of a collection.


class Stored:
    """The files of a collection as a command opens them. The priors are read where the command reads them."""

    def __init__(self, files):
        self.manifest = read_manifest(files[MANIFEST])
        self.segments = [self.segment(files, entry) for entry in self.manifest.segments]
        self.look_at_sums()
        self.look_at_docnos()

    @staticmethod
    def segment(files, entry):
        name = segment_name(entry.number)
        if name not in files:
            raise Missing(name)
        return Segment(name, files[name], entry.documents)

    def look_at_sums(self):
        documents = tokens = 0
        for segment in self.segments:
            documents += len(segment.documents)
            tokens += segment.tokens
            if documents > MOST["held documents"]:
                raise Fault(segment.file, "Header", 12)
            if tokens > MOST["tokens"]:
                raise Fault(segment.file, "Header", 16)

    def look_at_docnos(self):
        seen = set()
        for segment, identity in self.live():
            document = segment.documents[identity]
            if document.docno in seen:
                raise Fault(segment.file, "Documents", document.place)
            seen.add(document.docno)

    def live(self):
        """The segment and the id of each live document, in their order."""
        for segment, entry in zip(self.segments, self.manifest.segments):
            dead = set(entry.dead)
            yield from ((segment, i) for i in range(len(segment.documents)) if i not in dead)

    def live_ranges(self):
        return list(dict.fromkeys((segment, identity // 64) for segment, identity in self.live()))

    def priors(self, files):
        found = {}
        for name, number in self.manifest.priors:
            file = prior_name(number)
            if file not in files:
                raise Missing(file)
            found[name.decode()] = read_prior(file, files[file])
        return found


def files_of(folder):
    """The bytes of the files of a folder by their names."""
    return {path.name: path.read_bytes() for path in folder.iterdir()}
