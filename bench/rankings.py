#!/usr/bin/env python3
"""What the commands on a collection must print for a table of rankings, worked out apart from the program.

usage: bench/rankings.py

It reads the cases in bench/rankings.cases and writes their lines to bench/rankings.lines; those of bench/rankings.windows,
which have ranges and contexts, to bench/rankings.windows.lines; and those of bench/rankings.changes, which delete documents
and set priors, to bench/rankings.changes.lines. `.ci/examples` runs the program on the cases and compares what it writes with
these lines.

A case is some lines, in this order, and the line `query` ends it:

    # what the case shows
    mu 7                                              where it isn't 2500
    explain 2                                         where the result of this rank is explained, and none is ranked
    text <DOC><DOCNO>d1</DOCNO>a b</DOC>              TREC text for `add`, as many lines as wanted
    delete d1                                         a line for `delete`, as many as wanted
    prior home d1 1/2                                 a row for `prior home`, as many as wanted; several names may have rows
    query #combine(a b)

A line of input has a line feed behind it. The case begins with a folder in which `create` was run. Then come `add`,
`delete` where it has lines, `prior` once for each name, in the order in which the names are met first, and `query` or
`explain`. Each line of the case is written as it stands. Before the line `query` stand the lines that the program must write
for the commands that change the folder, behind each command its exit status, and behind the line `query` those for the query.
Texts and queries are read by small readers of their own, which stop at a form that no case needs. Printed is how many cases
there are, and how many statements were checked of them.

How the figures were computed. Everything is by the definitions, in exact whole numbers. No code is shared with the
program, and nothing was taken from it or its output:

- The collection: a list of documents. `add` appends, `delete` takes away, a prior is a table of its accepted rows.
- Extents: all positions, all chains and all windows are tried. Counts are sums over all live documents, also those that a
  filter leaves out. A filter passes where the set of its expression's extents isn't empty, or where it is.
- Windows: of all pairs of places those that are the whole document, a field of the name, or a passage. Of a leaf in a
  window tf is how many positions begin an extent that lies inside it, len how many positions it has. With a context only
  extents inside some field of that name count, and only positions in such a field. The sums cf and total are those of
  tf and len over all documents as wholes, with the same context.
- A leaf's fraction is p = 2 W tf + mu B over q = 2 W (len + mu), not reduced, with B = max(2 cf, 1) and
  W = max(total, 1). That of the prior of lengths is one of three, that of another prior stands in the row of the docno, or in
  its row `*`, or is 1/1. A prior makes no candidate.
- Scales by least common multiples; weights without those of 0, divided by their greatest common divisor.
- Digits by the recurrence, 40 squarings from floor(q 2^62 / (p 2^e)). Keys are weighted sums, of `#max` the least.
- The order of the lines is key, docno, begin, end; the score is the floor of key 10^6 / (scale 2^40).

What the order means is then checked without digits and keys, on products of whole-number powers. Two products are equal
where their prime factors are. Else they are compared by bounds of some hundred bits, rounded outwards, which are made
sharper until they lie apart, so each statement is decided, whatever the scale. Where the products have up to some million
bits they are multiplied out as well. With product P/Q and scale E, these statements are checked:

- 2^c p^(2^40) <= q^(2^40) < 2^(c+2) p^(2^40) of each leaf with the digits c.
- A line above a `>` has a greater product than each line below that mark and each candidate without a line.
- `=` stands where all fractions are equal, leaf by leaf, and `~` where some aren't. In both cases the two products are
  near: as 2^40-th powers neither is more than 2^(4 E) times the other.
- A candidate without a line has no greater product than a line, or is near to it.
- 2^(s E) P^(10^6) <= Q^(10^6) < 2^((s+2) E) P^(10^6) of each score of s millionths.
"""
import itertools
import re
import sys
from collections import Counter
from dataclasses import dataclass, field
from fractions import Fraction
from functools import cache
from math import gcd, lcm, prod
from pathlib import Path

BENCH = Path(__file__).resolve().parent
TABLES = (
    ("rankings.cases", "rankings.lines"),
    ("rankings.windows", "rankings.windows.lines"),
    ("rankings.changes", "rankings.changes.lines"),
)
LEVEL = 40
MOST_LINES = 10
MILLION = 10**6
BILLION = 10**9
SMALL_BITS = 6_000_000
checked = Counter()


def check(statement, holds):
    checked[statement] += 1
    if not holds:
        sys.exit(f"not so: {statement}")


# Cases.


@dataclass
class Case:
    mu: int = 2500
    text: str = ""
    rank: int | None = None
    deleted: str = ""
    rows: dict = field(default_factory=dict)


def status_of(replies):
    refused = any(reply.startswith("refused ") for reply in replies)
    return f"status {3 if refused else 0}"


# TREC text: start and end tags without attributes, comments, entity references and words of ASCII.


@dataclass
class Document:
    docno: str
    tokens: list
    fields: set


SPACE = re.compile(r"[\t\n\f\r ]*")
DOC_TAG = re.compile(r"<doc>", re.IGNORECASE)
DOCNO_TAG = re.compile(r"<docno>", re.IGNORECASE)
DOCNO = re.compile(r"[!-;=-~]+")
DOCNO_END = re.compile(r"</docno>", re.IGNORECASE)
DOC_END = re.compile(r"</doc>", re.IGNORECASE)
PIECE = re.compile(r"(?P<break><!--.*?-->|&[A-Za-z0-9#]{1,32};)|<(?P<end>/?)(?P<name>[A-Za-z][A-Za-z0-9]{0,31})>"
                   r"|(?P<word>[A-Za-z0-9]+)|(?P<gap>[\t\n\f\r -]+)")


class Refused(Exception):
    """The kind and the place of a refusal of TREC text."""


def content(docno, text):
    """The document of a docno and the text behind it."""
    tokens, opened, fields = [], [], set()
    at = 0
    while at < len(text):
        found = PIECE.match(text, at)
        assert found, f"a form of TREC text that isn't read here: {text[at:]}"
        at = found.end()
        name = (found["name"] or "").lower()
        if found["word"]:
            tokens.append(found["word"].lower())
        elif name and not found["end"]:
            opened.append((name, len(tokens)))
        elif name:
            begins = [i for i, (other, _) in enumerate(opened) if other == name]
            if begins:
                fields.add((*opened.pop(begins[-1]), len(tokens)))
    fields.update((name, begin, len(tokens)) for name, begin in opened)
    return Document(docno, tokens, {f for f in fields if f[1] < f[2]})


def docno_at(text, at):
    """The docno that begins here, and where its end tag ends."""
    run = DOCNO.match(text, at)
    behind = run.end() if run else at
    mark = SPACE.match(text, behind).end()
    assert behind - at <= 255 and mark < len(text), "a docno that isn't read here"
    if not run and text.startswith("<", mark):
        raise Refused("DocnoEmpty", mark)
    if not text.startswith("<", mark):
        raise Refused("DocnoBad", behind)
    end = DOCNO_END.match(text, mark)
    if not end:
        raise Refused("DocnoBad", mark)
    return run[0], end.end()


def document_at(text, begin):
    """The document that begins here, and where it ends."""
    tag = DOC_TAG.match(text, begin)
    if not tag:
        raise Refused("NotADoc", begin)
    at = SPACE.match(text, tag.end()).end()
    tag = DOCNO_TAG.match(text, at)
    if not tag:
        raise Refused("NoDocno", at)
    docno, at = docno_at(text, SPACE.match(text, tag.end()).end())
    end = DOC_END.search(text, at)
    if not end:
        raise Refused("DocOpen", begin)
    return content(docno, text[at:end.start()]), end.end()


def added(text):
    """The documents by docno, each docno once, and what is told of each document and of the refusal that ends the text."""
    documents, replies = {}, []
    at = SPACE.match(text).end()
    while at < len(text):
        try:
            document, at = document_at(text, at)
        except Refused as refused:
            replies.append("refused {} {}".format(*refused.args))
            break
        if document.docno in documents:
            replies.append(f"refused Repeated {document.docno}")
        else:
            documents[document.docno] = document
            replies.append(f"added {document.docno} {len(document.tokens)}")
        at = SPACE.match(text, at).end()
    return documents, replies


# The lines of `delete` and of `prior`. The place of a line is the offset of its first byte.


def placed_lines(text):
    """The lines that have more than white space, without that at their ends, each with its place."""
    at = 0
    for line in text.splitlines(keepends=True):
        if line.strip("\t\n\f\r "):
            yield at, line.strip("\t\n\f\r ")
        at += len(line)


def deletions(documents, text):
    """What is told of the lines of docnos, which are taken out of the documents."""
    for place, line in placed_lines(text):
        if not DOCNO.fullmatch(line):
            yield f"refused BadEvent {place}"
        elif documents.pop(line, None):
            yield f"deleted {line}"
        else:
            yield f"refused NoSuchDoc {line}"


ROW = re.compile(r"([!-;=-~]+) (\d{1,18})/(\d{1,18})")


def table_of(name, text):
    """The fractions of a prior by docno, that of `*` among them, and what is told of its rows."""
    table, replies = {}, []
    for place, line in placed_lines(text):
        found = ROW.fullmatch(line)
        p, q = (int(found[2]), int(found[3])) if found else (0, 0)
        if not 0 < p <= q:
            replies.append(f"refused BadRow {place}")
        elif found[1] in table:
            replies.append(f"refused RepeatedRow {found[1]}")
        else:
            table[found[1]] = p, q
    return table, [*replies, f"prior {name} {len(table) - ('*' in table)}"]


@dataclass
class Collection:
    """The live documents in the order of their additions, and the tables of the priors by their names."""

    documents: list
    priors: dict


def begun(case):
    """The collection of a case, and what the commands that make it write."""
    documents, replies = added(case.text)
    replies.append(f"flushed {len(documents)}")
    lines = [*replies, status_of(replies)]
    if case.deleted:
        replies = list(deletions(documents, case.deleted))
        replies.append(f"flushed {len(documents)}")
        lines += [*replies, status_of(replies)]
    priors = {}
    for name, text in case.rows.items():
        priors[name.lower()], replies = table_of(name.lower(), text)
        lines += [*replies, status_of(replies)]
    return Collection(list(documents.values()), priors), lines


# Query text: expressions are tuples, an operator's name first; beliefs are of these classes.


@dataclass
class Leaf:
    """An expression, perhaps with the name of the fields in which alone it is counted."""

    expr: tuple
    context: str | None = None


@dataclass
class Prior:
    """The prior of this name: `length` is that of a document's length."""

    name: str


@dataclass
class Sum:
    """A `#weight`, or a `#combine`, whose weights are all 1. The weights are whole numbers of billionths."""

    weights: list
    arguments: list


@dataclass
class Greatest:
    arguments: list


@dataclass
class Filter:
    """Keeps the documents with an extent of the expression, or those without."""

    keep: bool
    expr: tuple


@dataclass
class Query:
    """Filters from the outermost inwards, what is ranked (a kind first, as of an expression), and the tree of the beliefs."""

    filters: list
    ranked: tuple
    tree: Sum


WHOLE = ("whole",)


class Reader:
    """Reads a query from the front. It stops at a form that isn't read here."""

    def __init__(self, text):
        self.text = text
        self.at = 0

    def take(self, pattern):
        found = re.compile(pattern).match(self.text, self.at)
        if found:
            self.at = found.end()
        return found

    def need(self, pattern):
        found = self.take(pattern)
        assert found, f"a form of query text that isn't read here: {self.text[self.at:]}"
        return found

    def many(self, one):
        """What stands before the `)` that closes an operator."""
        self.take(SPACE)
        found = [one()]
        self.take(SPACE)
        while not self.take(r"\)"):
            found.append(one())
            self.take(SPACE)
        return found

    def atom(self):
        if self.take(r'"'):
            return ("word", self.need(r'((?:[^"]|"")+)"')[1].replace('""', '"'))
        if self.take(r"#any:"):
            return ("any", self.need(r"[A-Za-z][A-Za-z0-9]*")[0].lower())
        if found := self.take(r"#(band|syn)\("):
            return (found[1], *self.many(self.expr))
        if found := self.take(r"#(od|uw|)(\d+)\("):
            return ("uw" if found[1] == "uw" else "od", int(found[2]), *self.many(self.expr))
        terms = self.need(r"[A-Za-z0-9]+(?:-[A-Za-z0-9]+)*")[0].lower().split("-")
        words = [("word", term) for term in terms]
        return words[0] if len(words) == 1 else ("od", 1, *words)

    def expr(self):
        atom = self.atom()
        if found := self.take(r"\.([A-Za-z][A-Za-z0-9]*)"):
            return ("in", atom, found[1].lower())
        return atom

    def weighted(self):
        text = self.need(r"(\d{1,6}(\.\d{0,9})?|\.\d{1,9})(?![\d.])")[0]
        value = Fraction(f"0{text}0" if "." in text else text)
        self.take(SPACE)
        return int(value * BILLION), self.belief()

    def belief(self):
        if self.take(r"#combine\("):
            arguments = self.many(self.belief)
            return Sum([1] * len(arguments), arguments)
        if self.take(r"#weight\("):
            pairs = self.many(self.weighted)
            return Sum([weight for weight, _ in pairs], [argument for _, argument in pairs])
        if self.take(r"#max\("):
            return Greatest(self.many(self.belief))
        if found := self.take(r"#prior\(([A-Za-z][A-Za-z0-9]*)\)"):
            return Prior(found[1].lower())
        return self.leaf()

    def leaf(self):
        expr = self.expr()
        context = self.take(r"[\t\n\f\r ]*\.\(([A-Za-z][A-Za-z0-9]*)\)")
        return Leaf(expr, context and context[1].lower())

    def ranked(self):
        if not self.take(r"#combine\["):
            return WHOLE
        if found := self.take(r"passage(\d+):(\d+)\]\("):
            return ("passage", int(found[1]), int(found[2]))
        return ("field", self.need(r"([A-Za-z][A-Za-z0-9]*)\]\(")[1].lower())

    def filters(self):
        found = []
        self.take(SPACE)
        while keeps := self.take(r"#fil(req|rej)\("):
            self.take(SPACE)
            found.append(Filter(keeps[1] == "req", self.expr()))
            self.take(SPACE)
        return found

    def query(self):
        self.text += ")"
        filters = self.filters()
        ranked = self.ranked()
        arguments = self.many(self.belief)
        assert len(arguments) == 1 or not filters or ranked != WHOLE, "more than one belief in a filter"
        for _ in range(len(filters) + (ranked != WHOLE)):
            self.take(SPACE)
            self.need(r"\)")
        assert self.at == len(self.text), "something behind the query"
        return Query(filters, ranked, Sum([1] * len(arguments), arguments))


# The check of a query.


def has_weights(tree):
    if isinstance(tree, (Leaf, Prior)):
        return True
    return (isinstance(tree, Greatest) or any(tree.weights)) and all(map(has_weights, tree.arguments))


def reduced(tree):
    """The tree without what has the weight 0, whose weights have no common divisor."""
    if isinstance(tree, (Leaf, Prior)):
        return tree
    if isinstance(tree, Greatest):
        return Greatest([reduced(argument) for argument in tree.arguments])
    kept = [(w, reduced(argument)) for w, argument in zip(tree.weights, tree.arguments) if w]
    divisor = gcd(*(w for w, _ in kept))
    return Sum([w // divisor for w, _ in kept], [argument for _, argument in kept])


def leaves_of(tree):
    if isinstance(tree, (Leaf, Prior)):
        return [tree]
    return [leaf for argument in tree.arguments for leaf in leaves_of(argument)]


def scale(tree):
    if isinstance(tree, (Leaf, Prior)):
        return 1
    common = lcm(*map(scale, tree.arguments))
    return common if isinstance(tree, Greatest) else sum(tree.weights) * common


# Extents of an expression in a document, as a set of pairs.


def chains(n, sets):
    """All rows of one extent of each set, where each begins at or behind the end before it, within n - 1 tokens."""
    for chain in itertools.product(*sets):
        if all(a[1] <= b[0] <= a[1] + n - 1 for a, b in itertools.pairwise(chain)):
            yield chain


def least_ends(pairs):
    """Of the pairs with one begin that with the least end."""
    least = {}
    for begin, end in pairs:
        least[begin] = min(end, least.get(begin, end))
    return set(least.items())


def is_inside(inner, outer):
    return outer[0] <= inner[0] and inner[1] <= outer[1]


def is_window(window, sets):
    inside = [[x for x in extents if is_inside(x, window)] for extents in sets]
    return all(inside) and any(x[0] == window[0] for extents in inside for x in extents)


def extents(expr, document):
    kind, *rest = expr
    length = len(document.tokens)
    if kind == "word":
        return {(i, i + 1) for i, token in enumerate(document.tokens) if token == rest[0]}
    if kind == "any":
        return {(begin, end) for name, begin, end in document.fields if name == rest[0]}
    if kind == "in":
        spans = extents(("any", rest[1]), document)
        return {x for x in extents(rest[0], document) if any(is_inside(x, span) for span in spans)}
    sets = [extents(argument, document) for argument in rest if isinstance(argument, tuple)]
    if kind == "syn":
        return set().union(*sets)
    if kind == "band":
        return {(0, length)} if all(sets) else set()
    if kind == "od":
        return least_ends((chain[0][0], chain[-1][1]) for chain in chains(rest[0], sets))
    places = range(length + 1)
    windows = ((b, e) for b in places for e in places if b < e <= b + rest[0])
    return least_ends(window for window in windows if is_window(window, sets))


def passes(document, wanted):
    return bool(extents(wanted.expr, document)) == wanted.keep


# Fractions, digits and keys.

# Windows of a document, and what is counted of a leaf in one.


def is_ranked(pair, ranked, document):
    """Whether the pair of places is one of those that are ranked."""
    kind, *rest = ranked
    begin, end = pair
    length = len(document.tokens)
    if kind == "whole":
        return pair == (0, length)
    if kind == "field":
        return (rest[0], begin, end) in document.fields
    width, every = rest
    return begin % every == 0 and (end - begin == width or end == length and end - begin < width)


def windows(ranked, document):
    places = range(len(document.tokens) + 1)
    return [(b, e) for b in places for e in places if b < e and is_ranked((b, e), ranked, document)]


def is_in_context(x, context, document):
    return context is None or any(is_inside(x, span) for span in extents(("any", context), document))


def occurrences(leaf, document, window):
    """At how many positions of the window an extent of the leaf begins that counts. A prior has none."""
    if isinstance(leaf, Prior):
        return 0
    found = [x for x in extents(leaf.expr, document) if is_inside(x, window)]
    return len({x[0] for x in found if is_in_context(x, leaf.context, document)})


def positions(leaf, document, window):
    """How many positions of the window count for the leaf."""
    return sum(is_in_context((i, i + 1), leaf.context, document) for i in range(*window))


# A document of at least so many tokens has the fraction behind it by its length. The first row that fits decides.
LENGTH_STEPS = ((1000, (1, 1)), (100, (1, 2)), (0, (1, 4)))


def prior_fraction(name, document, priors):
    if name == "length":
        return next(fraction for least, fraction in LENGTH_STEPS if len(document.tokens) >= least)
    table = priors[name]
    return table.get(document.docno, table.get("*", (1, 1)))


@cache
def digits(p, q):
    c = max(e for e in range(64) if p << e <= q)
    y = (q << 62) // (p << c)
    for _ in range(LEVEL):
        z = y * y
        c, y = (2 * c, z >> 62) if z < 1 << 125 else (2 * c + 1, z >> 63)
    turns = 1 << LEVEL
    low, high = Counter({p: turns, 2: c}), Counter({p: turns, 2: c + 2})
    if p == 2:
        low, high = Counter({2: turns + c}), Counter({2: turns + c + 2})
    check("the digits of a leaf enclose its logarithm", compare(low, {q: turns}) <= 0 < compare(high, {q: turns}))
    return c


def key(tree, values):
    """The key of a tree. `values` gives the digits of its leaves one after the other."""
    if isinstance(tree, (Leaf, Prior)):
        return next(values)
    common = lcm(*map(scale, tree.arguments))
    keys = [common // scale(argument) * key(argument, values) for argument in tree.arguments]
    return min(keys) if isinstance(tree, Greatest) else sum(w * k for w, k in zip(tree.weights, keys))


def product(tree, fractions):
    """The product of a tree, as how often each fraction is a factor of it."""
    if isinstance(tree, (Leaf, Prior)):
        return Counter([next(fractions)])
    common = lcm(*map(scale, tree.arguments))
    parts = [raised(product(argument, fractions), common // scale(argument)) for argument in tree.arguments]
    if isinstance(tree, Greatest):
        greatest = parts[0]
        for part in parts[1:]:
            if compare_products(part, greatest) > 0:
                greatest = part
        return greatest
    return sum((raised(part, w) for w, part in zip(tree.weights, parts)), Counter())


def raised(powers, n):
    return Counter({base: n * exponent for base, exponent in powers.items()})


# Products of whole-number powers. They are kept as their bases with their exponents.


@cache
def factors(n):
    """The prime factors of a number, each with its exponent."""
    found, prime = Counter(), 2
    while prime * prime <= n:
        while n % prime == 0:
            found[prime] += 1
            n //= prime
        prime += 1
    if n > 1:
        found[n] += 1
    return found


def cut(mantissa, shift, bits, up):
    """A number of so many bits times 2^shift: this one, or a neighbour below or above it."""
    excess = mantissa.bit_length() - bits
    if excess <= 0:
        return mantissa << -excess, shift + excess
    short = mantissa >> excess
    if up and short << excess != mantissa:
        short += 1
    if short.bit_length() > bits:
        return short >> 1, shift + excess + 1
    return short, shift + excess


def bound(powers, bits, up):
    """A number that isn't above the product, or isn't below it, as (shift, mantissa)."""
    whole = cut(1, 0, bits, up)
    for base, exponent in powers.items():
        power = cut(1, 0, bits, up)
        for digit in bin(exponent)[2:]:
            power = cut(power[0] * power[0], 2 * power[1], bits, up)
            if digit == "1":
                power = cut(power[0] * base, power[1], bits, up)
        whole = cut(whole[0] * power[0], whole[1] + power[1], bits, up)
    return whole[1], whole[0]


def multiplied(powers):
    return prod(base**exponent for base, exponent in powers.items())


def size(powers):
    return sum(exponent * base.bit_length() for base, exponent in powers.items())


def sign(upper, lower):
    bits = 256
    while True:
        if bound(upper, bits, False) > bound(lower, bits, True):
            return 1
        if bound(upper, bits, True) < bound(lower, bits, False):
            return -1
        bits *= 2


def compare(left, right):
    """1, 0 or -1 where the left product of powers is greater than the right one, equal, or smaller."""
    exponents = Counter()
    for powers, side in ((left, 1), (right, -1)):
        for base, exponent in powers.items():
            for prime, times in factors(base).items():
                exponents[prime] += side * exponent * times
    upper = {prime: e for prime, e in exponents.items() if e > 0}
    lower = {prime: -e for prime, e in exponents.items() if e < 0}
    found = sign(upper, lower) if upper or lower else 0
    if size(upper) + size(lower) < SMALL_BITS:
        above, below = multiplied(upper), multiplied(lower)
        check("products multiplied out compare the same", found == (above > below) - (above < below))
    return found


def crossed(left, right):
    """The products P1 Q2 and P2 Q1 of two products P1/Q1 and P2/Q2 of fractions."""
    above, below = Counter(), Counter()
    for powers, ps, qs in ((left, above, below), (right, below, above)):
        for (p, q), exponent in powers.items():
            ps[p] += exponent
            qs[q] += exponent
    return above, below


def compare_products(left, right):
    return compare(*crossed(left, right))


# Rankings.


@dataclass
class Candidate:
    document: Document
    window: tuple
    fractions: list
    key: int
    powers: Counter = field(repr=False)

    def order(self):
        return self.key, self.document.docno.encode(), *self.window


def sums_of(leaf, documents):
    """How often the leaf occurs in the documents as wholes, and in how many positions it is counted."""
    if isinstance(leaf, Prior):
        return 0, 0
    wholes = [(document, (0, len(document.tokens))) for document in documents]
    return sum(occurrences(leaf, *whole) for whole in wholes), sum(positions(leaf, *whole) for whole in wholes)


def fraction_of(leaf, document, window, sums, mu, priors):
    if isinstance(leaf, Prior):
        return prior_fraction(leaf.name, document, priors)
    cf, total = sums
    width = 2 * max(total, 1)
    tf = occurrences(leaf, document, window)
    return width * tf + mu * max(2 * cf, 1), width * (positions(leaf, document, window) + mu)


def found_windows(query, document):
    """The windows in which some leaf occurs, of a document that passes all filters."""
    if not all(passes(document, wanted) for wanted in query.filters):
        return []
    leaves = leaves_of(query.tree)
    return [w for w in windows(query.ranked, document) if any(occurrences(leaf, document, w) for leaf in leaves)]


def candidates(query, collection, mu):
    """Those of the documents that pass all filters, each with the windows in which some leaf occurs."""
    leaves = leaves_of(query.tree)
    sums = [sums_of(leaf, collection.documents) for leaf in leaves]
    found = []
    for document in collection.documents:
        for window in found_windows(query, document):
            fractions = [
                fraction_of(leaf, document, window, both, mu, collection.priors) for leaf, both in zip(leaves, sums)
            ]
            value = key(query.tree, iter([digits(p, q) for p, q in fractions]))
            found.append(Candidate(document, window, fractions, value, product(query.tree, iter(fractions))))
    return found


def is_same(left, right):
    return all(Fraction(*x) == Fraction(*y) for x, y in zip(left.fractions, right.fractions))


def is_near(left, right, e):
    turns = 1 << LEVEL
    above, below = crossed(left.powers, right.powers)
    above, below = raised(above, turns), raised(below, turns)
    room = Counter({2: 4 * e})
    return compare(above, below + room) <= 0 and compare(below, above + room) <= 0


def is_greater(left, right):
    return compare_products(left.powers, right.powers) > 0


def marks(lines, e):
    found = []
    for above, line in zip([None, *lines], lines):
        if above is None:
            found.append("-")
        elif is_same(above, line):
            found.append("=")
        else:
            found.append(">" if line.key - above.key > 2 * e else "~")
    return found


def check_order(lines, shown, rest, e):
    """What the marks say of these lines and of the candidates that have no line."""
    for i, (line, mark) in enumerate(zip(lines, shown)):
        if mark == ">":
            for above, below in itertools.product(lines[:i], lines[i:] + rest):
                check("what stands above a > has the greater product than each below it", is_greater(above, below))
        elif mark != "-":
            above = lines[i - 1]
            check("= stands where all fractions are equal, ~ where some are not", is_same(above, line) == (mark == "="))
            check("the products on both sides of = and ~ are near", is_near(above, line, e))
        for other in rest:
            holds = not is_greater(other, line) or is_near(other, line, e)
            check("what has no line is no greater than a line, or near to it", holds)


def check_score(line, score, e):
    ps, qs = crossed(raised(line.powers, MILLION), Counter())
    low, high = ps + Counter({2: score * e}), ps + Counter({2: (score + 2) * e})
    check("a score encloses the logarithm of the product", compare(low, qs) <= 0 < compare(high, qs))


def ranking(query, collection, mu):
    e = scale(query.tree)
    ordered = sorted(candidates(query, collection, mu), key=Candidate.order)
    lines, rest = ordered[:MOST_LINES], ordered[MOST_LINES:]
    shown = marks(lines, e)
    check_order(lines, shown, rest, e)
    for i, (line, mark) in enumerate(zip(lines, shown)):
        score = line.key * MILLION // (e << LEVEL)
        check_score(line, score, e)
        shown_score = f"-{score // MILLION}.{score % MILLION:06}"
        yield f"{i + 1} {mark} {shown_score} {line.document.docno} {line.window[0]} {line.window[1]}"


def printed(expr):
    """An expression as it is printed: words between quotes, one space between arguments."""
    kind, *rest = expr
    if kind == "word":
        return '"{}"'.format(rest[0].replace('"', '""'))
    if kind == "any":
        return f"#any:{rest[0]}"
    if kind == "in":
        return f"{printed(rest[0])}.{rest[1]}"
    name = {"od": "#", "uw": "#uw"}.get(kind)
    arguments = " ".join(map(printed, rest if name is None else rest[1:]))
    return f"#{kind}({arguments})" if name is None else f"{name}{rest[0]}({arguments})"


def leaf_lines(number, leaf, candidate, documents, fraction):
    """A leaf with its counts in the window and in the collection and its belief, and the extents behind its counts."""
    belief = "{}/{}".format(*fraction)
    if isinstance(leaf, Prior):
        return [f"prior {number} {leaf.name} belief {belief}"]
    document, window = candidate.document, candidate.window
    context = "" if leaf.context is None else f".({leaf.context})"
    counts = occurrences(leaf, document, window), positions(leaf, document, window), *sums_of(leaf, documents)
    shown = "tf {} len {} cf {} total {}".format(*counts)
    found = sorted(x for x in extents(leaf.expr, document) if is_inside(x, window) and is_in_context(x, leaf.context, document))
    return [f"leaf {number} {printed(leaf.expr)}{context} {shown} belief {belief}", *(f"at {b} {e}" for b, e in found)]


def explanation(query, collection, mu, rank):
    """Why the result of a rank has its score."""
    e = scale(query.tree)
    ordered = sorted(candidates(query, collection, mu), key=Candidate.order)
    if rank > len(ordered):
        return ["refused NoSuchRank q"]
    line = ordered[rank - 1]
    lines = [f"result {rank} {line.document.docno} {line.window[0]} {line.window[1]}", f"scale {e}"]
    for i, (leaf, fraction) in enumerate(zip(leaves_of(query.tree), line.fractions)):
        lines += leaf_lines(i + 1, leaf, line, collection.documents, fraction)
    score = line.key * MILLION // (e << LEVEL)
    check_score(line, score, e)
    return [*lines, f"score -{score // MILLION}.{score % MILLION:06}"]


def fault(query, priors):
    """What the check of a query finds first, if anything."""
    if not has_weights(query.tree):
        return "NoWeight"
    tree = reduced(query.tree)
    if all(isinstance(leaf, Prior) for leaf in leaves_of(tree)):
        return "NoLeaf"
    if scale(tree) >= 1 << 60:
        return "ScaleTooLarge"
    named = [leaf.name for leaf in leaves_of(query.tree) if isinstance(leaf, Prior)]
    return next((f"UnknownPrior {name}" for name in named if name != "length" and name not in priors), None)


def answer(query, collection, case):
    """What is written for the query of a case, and its status."""
    if found := fault(query, collection.priors):
        return [f"refused Check {found}", "status 2"]
    query = Query(query.filters, query.ranked, reduced(query.tree))
    if case.rank is None:
        return [*ranking(query, collection, case.mu), "status 0"]
    lines = explanation(query, collection, case.mu, case.rank)
    return [*lines, status_of(lines)]


def worked(case, line, text):
    """The line of the query of a case, with what is written before it and behind it."""
    collection, replies = begun(case)
    return [*replies, line, *answer(Reader(text).query(), collection, case)]


def lines_of(text):
    """The lines of all cases, each with what is to be written."""
    case = Case()
    for line in text.removesuffix("\n").split("\n"):
        word, _, rest = line.partition(" ")
        if word == "query":
            yield from worked(case, line, rest)
            checked["cases"] += 1
            case = Case()
            continue
        yield line
        if word == "mu":
            case.mu = int(rest)
        elif word == "explain":
            case.rank = int(rest)
        elif word == "text":
            case.text += rest + "\n"
        elif word == "delete":
            case.deleted += rest + "\n"
        elif word == "prior":
            name, _, row = rest.partition(" ")
            case.rows[name] = case.rows.get(name, "") + row + "\n"
        else:
            assert word in ("", "#"), f"no line of a case: {line}"


def main():
    for cases, written in TABLES:
        lines = list(lines_of((BENCH / cases).read_text()))
        (BENCH / written).write_text("\n".join(lines) + "\n")
    for statement, count in checked.items():
        print(f"{count:6} {statement}")


if __name__ == "__main__":
    main()
