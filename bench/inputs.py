"""The texts that bench/measure.py, bench/folders.py and bench/sessions.py measure and try, the same ones each time."""
import random

VOCABULARY = [f"w{i}" for i in range(5000)] + ["the", "of", "rain", "launch"] * 50
PLAIN = "several documents contain considerable sentences "


def newswire_document(pick, i):
    """A document in the usual form: a few fields, sentences with points and commas, lines of some 70 bytes."""
    lines = []
    for _ in range(20):
        line = pick.choices(VOCABULARY, k=11)
        line[3] += ","
        line[-1] += "."
        lines.append("   " + " ".join(line))
    head = " ".join(pick.choices(VOCABULARY, k=5))
    body = "\n".join(lines)
    return (
        f"<DOC>\n<DOCNO> AP{880000 + i % 1000}-{i:06} </DOCNO>\n<FILEID>AP-NR-02-12-88 2344EST</FILEID>\n"
        f"<HEAD>{head}</HEAD>\n<TEXT>\n{body} AT&amp;T.\n</TEXT>\n</DOC>\n"
    )


def newswire(path, size):
    """Newswire documents of so many bytes together. The answer is how many they are."""
    pick = random.Random(7)
    with open(path, "w") as out:
        i = written = 0
        while written < size:
            written += out.write(newswire_document(pick, i))
            i += 1
    return i


def thin(path, size):
    """Documents of one text and no field. The answer is how many they are."""
    text = " ".join(random.Random(7).choices(VOCABULARY, k=300))
    with open(path, "w") as out:
        i = written = 0
        while written < size:
            written += out.write(f"<DOC><DOCNO>d{i}</DOCNO>{text}</DOC>\n")
            i += 1
    return i


def short_documents(path, first, documents, words):
    """So many documents of so many words, the first of which has the docno of this number."""
    pick = random.Random(7 + first)
    with open(path, "w") as out:
        for i in range(first, first + documents):
            text = " ".join(pick.choices(VOCABULARY, k=words))
            out.write(f"<DOC><DOCNO>d{i}</DOCNO>{text}</DOC>\n")


def matched_documents(path, documents, counts):
    """Documents of 20 words. For each of these counts n so many have `one_n two_n three_n`, evenly among all."""
    pick = random.Random(7)
    with open(path, "w") as out:
        for i in range(documents):
            words = pick.choices(VOCABULARY, k=20)
            found = [f"one{n} two{n} three{n}" for n in counts if i % (documents // n) == 0]
            out.write(f"<DOC><DOCNO>d{i}</DOCNO>{' '.join(words + found)}</DOC>\n")


def one_document(path, text):
    path.write_text(f"<DOC><DOCNO>d1</DOCNO>{text}</DOC>\n")


def repeated(piece, size):
    return (piece * (size // len(piece) + 1))[:size]


def distinct_fields(count, in_order):
    """Fields, each opened inside the one before, with a word in each; and as many end tags."""
    names = [f"f{i}" for i in range(count)]
    ends = names if in_order else reversed(names)
    return "".join(f"<{name}>x " for name in names) + "".join(f"</{name}>" for name in ends)


def nested_fields(count):
    """Fields of one name, each opened inside the one before; a word behind each start tag and each end tag."""
    return "<f>x " * count + "</f> y" * count


def flat_fields(count):
    """Fields of one name, one behind the other; a word in each and between them."""
    return "<f>x</f> x y" * count


def mixed(tokens):
    """Half of the tokens are a, b and c, the others one of 5,000 words, in a random order."""
    pick = random.Random(1)
    words = pick.choices("abc", k=tokens // 2) + [f"w{pick.randrange(5000)}" for _ in range(tokens // 2)]
    pick.shuffle(words)
    return words


def in_runs(tokens):
    """As many of each, with each of the three words in one run."""
    third = tokens // 6
    others = [f"w{i % 5000}" for i in range(tokens - 3 * third)]
    return ["a"] * third + ["b"] * third + ["c"] * third + others


def in_lines(words):
    return "".join(" ".join(words[i : i + 12]) + "\n" for i in range(0, len(words), 12))
