#!/usr/bin/env python3
"""random_rows.py FILE [SEED] [ROWS]: writes a table of random rows of tokens (6000, seed 777), with the trees that `reading.py` gives.

In the place of `crates/test_patterns/src/table.rt` it is what the test of that crate runs through the parser, and `compare/trees`
does that. It fails where a pattern has two trees.
"""
import random
import sys

sys.dont_write_bytecode = True
from reading import parses, show  # noqa: E402

TOKENS = (
    "a b k s K 1 2 0 ( ( (?: (?= (?! (?<= (?<! (?<n> (?<m> ) ) ) | * + ? { } {1} {2,} {1,2} {2,1} {,1} \\ \\1 \\2 \\k<n> \\k<m> \\k \\b \\B \\d \\W "
    "\\s \\x41 \\x4 \\u0042 \\ud83d\\ude00 \\ud83d \\u{41} \\u{110000} \\0 \\c \\- \\] [ [^ ] ] - ^ $ . && -- & < > \u212a \u017f , é"
).split()
MEMBERS = "a z - - ] ^ [ \\d \\W \\b \\- \\] && -- k s \\x41 \\u{41} \\ud83d\\ude00 0 9 \u212a \\B é".split()
OPENINGS = "( (?: (?= (?<= (?<n>".split()


def random_class(r):
    return "[" + ("^" if r.random() < 0.3 else "") + "".join(r.choice(MEMBERS) for _ in range(r.randint(0, 4))) + "]"


def random_group(r):
    return r.choice(OPENINGS) + "".join(r.choice(TOKENS) for _ in range(r.randint(0, 3))) + ")"


def random_piece(r):
    if r.random() < 0.15:
        return random_class(r)
    return random_group(r) if r.random() < 0.2 else r.choice(TOKENS)


def random_pattern(r):
    """The letters of flags, and a pattern."""
    flags = "".join(f for f in "imsuv" if r.random() < 0.3)
    return flags, "".join(random_piece(r) for _ in range(r.randint(1, 9)))


def rows(seed, count):
    """So many rows, each once: the flags, the pattern and its trees. Of those that are refused about half are left out."""
    r = random.Random(seed)
    seen = set()
    while count > 0:
        flags, pattern = row = random_pattern(r)
        if row in seen:
            continue
        seen.add(row)
        trees = parses(flags, [ord(c) for c in pattern])
        if trees or r.random() >= 0.55:
            count -= 1
            yield flags, pattern, trees


def line(flags, pattern, trees):
    """The line of a row in a table."""
    return f"{flags}:{pattern}" + (f" → {show(trees[0])}" if trees else "")


def write_table(file, lines, name="PATTERNS"):
    with open(file, "w", encoding="utf-8") as out:
        out.write(f'//! The table of patterns.\n\n// Rows.\npub(crate) const {name}: &str = r"' + "\n".join(lines) + '\n";\n')


def main():
    seed, count = int((sys.argv[2:] or [777])[0]), int((sys.argv[3:] or [6000])[0])
    made = list(rows(seed, count))
    write_table(sys.argv[1], [line(*row) for row in made])
    print(sum(1 for _, _, trees in made if trees), "patterns of", count, "rows")
    two = [f"{flags}:{pattern}" for flags, pattern, trees in made if len(trees) > 1]
    sys.exit("\n".join(["two trees:", *two]) if two else 0)


if __name__ == "__main__":
    main()
