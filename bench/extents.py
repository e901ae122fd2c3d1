#!/usr/bin/env python3
"""What extent_table must print for its cases, worked out apart from the program.

usage: bench/extents.py
       bench/extents.py random COUNT SEED

The first form reads the cases in crates/extent_table/stdin and writes their lines to crates/extent_table/stdout. These
two files are what the program extent_table is run on and what it must print, so `rt ci` compares the program with them.
Where the file is there already, it says which lines it has changed. The second form prints so many different random cases,
of at most nine tokens and operators at most three deep. The cases are 81 that were worked out by hand, three long ones,
and what `random 6000 7` prints.

A case is a line `TOKENS | FIELDS | EXPRESSION`: words, fields `name:begin:end`, and an expression with its operators
behind their arguments (`od:N:COUNT`, `uw:N:COUNT`, `syn:COUNT`, `band:COUNT`, `in:NAME`, `any:NAME`). A word `a*3` stands
for `a a a`. The line that is printed has the extents behind it, or their number where they are more than a hundred.

Everything is by the definition, and no code is shared with the program: a set of extents is found by trying all pairs of
a begin and an end, a chain by trying all extents behind one another, a window by looking at all extents inside. Cases of
more than a hundred tokens are too long for that. Of these it knows one form: as many `a` as `b` as `c`, one behind the
other, under an expression that has one extent for each `a`.
"""
import random
import sys
from pathlib import Path

TABLE = Path(__file__).resolve().parent.parent / "crates/extent_table"
LONG = 100


def read_tokens(text):
    tokens = []
    for word in text.split():
        name, _, count = word.partition("*")
        tokens += [name] * (int(count) if count else 1)
    return tokens


def read_fields(text):
    parts = (word.split(":") for word in text.split())
    return [(name, int(begin), int(end)) for name, begin, end in parts]


def has_chain(n, sets, begin, end):
    """Whether extents of the sets, one of each and in their order, go from begin to end with gaps below n."""
    first, others = sets[0], sets[1:]
    if not others:
        return (begin, end) in first
    ends = [e for b, e in first if b == begin]
    return any(has_chain(n, others, start, end) for e in ends for start in range(e, min(e + n, end)))


def has_window(n, sets, begin, end):
    """Whether the window has an extent of each set inside, and one of these begins where it does."""
    if end - begin > n:
        return False
    inside = [[x for x in xs if begin <= x[0] and x[1] <= end] for xs in sets]
    return all(inside) and any(x[0] == begin for xs in inside for x in xs)


def least_ends(found):
    """Of the extents of one begin the shortest."""
    return {(begin, min(e for b, e in found if b == begin)) for begin, _ in found}


def apply(step, arguments, tokens, fields):
    """The set of an operator over the sets of its arguments."""
    pairs = [(b, e) for b in range(len(tokens)) for e in range(b + 1, len(tokens) + 1)]
    kind, *rest = step.split(":")
    if kind == "od":
        return least_ends({x for x in pairs if has_chain(int(rest[0]), arguments, *x)}) if arguments else set()
    if kind == "uw":
        return least_ends({x for x in pairs if has_window(int(rest[0]), arguments, *x)})
    if kind == "syn":
        return {x for x in pairs if any(x in xs for xs in arguments)}
    if kind == "band":
        return {x for x in pairs if x == (0, len(tokens)) and all(arguments)}
    if kind == "in":
        spans = [(b, e) for name, b, e in fields if name == rest[0]]
        return {x for x in arguments[0] if any(b <= x[0] and x[1] <= e for b, e in spans)}
    if kind == "any":
        return {(b, e) for name, b, e in fields if name == rest[0]}
    return {(i, i + 1) for i, token in enumerate(tokens) if token == step}


def argument_count(step):
    kind, *rest = step.split(":")
    if kind in ("od", "uw", "syn", "band"):
        return int(rest[-1])
    return 1 if kind == "in" else 0


def extents(tokens, fields, steps):
    stack = []
    for step in steps:
        count = argument_count(step)
        stack, arguments = stack[: len(stack) - count], stack[len(stack) - count :]
        stack.append(apply(step, arguments, tokens, fields))
    (whole,) = stack
    return sorted(whole)


def shown(line):
    """A case with its extents."""
    tokens, fields, steps = line.split("|")
    tokens = read_tokens(tokens)
    if len(tokens) > LONG:
        count = len(tokens) // 3
        if tokens != [word for word in "abc" for _ in range(count)]:
            sys.exit(f"too long to work out: {line}")
        return f"{line} | {count} extents"
    found = extents(tokens, read_fields(fields), steps.split())
    return f"{line} |" + "".join(f" {begin}-{end}" for begin, end in found)


def random_steps(numbers, depth):
    if depth == 0 or numbers.random() < 0.25:
        return ["any:" + numbers.choice("tu")] if numbers.random() < 0.2 else [numbers.choice("abc")]
    if numbers.random() < 0.15:
        return random_steps(numbers, depth - 1) + ["in:" + numbers.choice("tu")]
    count = numbers.randint(1, 3)
    steps = [step for _ in range(count) for step in random_steps(numbers, depth - 1)]
    n = numbers.randint(1, 6)
    kinds = [f"syn:{count}"] * 2 + [f"band:{count}"] + [f"od:{n}:{count}"] * 3 + [f"uw:{n}:{count}"] * 2
    return steps + [numbers.choice(kinds)]


def random_case(numbers):
    length = numbers.randint(0, 9)
    pairs = [(b, e) for b in range(length) for e in range(b + 1, length + 1)]
    chosen = sorted(numbers.sample(pairs, min(len(pairs), numbers.choice([0, 1, 2, 2, 3, 4, 6]))))
    tokens = " ".join(numbers.choice("abc") for _ in range(length))
    fields = " ".join(f"{numbers.choice('tu')}:{b}:{e}" for b, e in chosen)
    return f"{tokens} | {fields} | " + " ".join(random_steps(numbers, 3))


def main(words):
    if words[:1] == ["random"] and len(words) == 3:
        numbers, cases = random.Random(int(words[2])), {}
        while len(cases) < int(words[1]):
            cases[random_case(numbers)] = None
        print(*cases, sep="\n")
        return
    if words:
        sys.exit(__doc__.split("\n\n")[1])
    cases = (TABLE / "stdin").read_text().splitlines()
    lines = [shown(case) for case in cases]
    before = (TABLE / "stdout").read_text().splitlines() if (TABLE / "stdout").exists() else []
    changed = [line for line, old in zip(lines, before) if line != old]
    (TABLE / "stdout").write_text("".join(line + "\n" for line in lines))
    print(*changed, f"{len(lines)} cases, {len(changed)} other than before", sep="\n")


main(sys.argv[1:])
