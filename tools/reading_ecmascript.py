#!/usr/bin/env python3
"""reading_ecmascript.py [SEED] [COUNT]: compares the grammar of the whole language with V8.

It is `EcmaGrammarWithAnnexB`, `EcmaClasses` and `EcmaEscapesAndNames` of `crates/regex_meaning` once more, constructor
by constructor, as `reading.py` is the profile's grammar: each function gives all ends and values, so every derivation
is tried. It makes COUNT patterns of random tokens (20,000; seed 1), and prints each that only one of the two refuses,
that has another number of groups (DIFF), other groups than the scan of `GroupOpeningScanWithoutParsing` finds (GROUPS)
or two trees (TWO). Then it does the same with the rows of `ecmascript_rows.txt`, whose trees it compares (TREE). It
fails where there is one.
"""
import json
import os
import random
import subprocess
import sys

sys.dont_write_bytecode = True
from reading import CTRL, D, S, W, arm, digits, hexn, isin, isq, isrange, quant, show, uesc, word  # noqa: E402

# a few names of properties: the tables themselves are compared by rows that compute
PROPERTIES = {"L", "Lu", "Any", "ASCII", "Alphabetic", "Alpha", "ASCII_Hex_Digit", "White_Space", "space"}
VALUES = {("sc", "Grek"), ("Script", "Greek"), ("scx", "Grek"), ("gc", "L"), ("General_Category", "Lu")}
LETTERS = {"d": D, "s": S, "w": W}


def octal(t):
    at = lambda k: len(t) > k and 48 <= t[k] <= 55
    if at(0) and not at(1): yield t[1:], t[0] - 48
    if at(0) and t[0] <= 51 and at(1) and not at(2): yield t[2:], 8 * (t[0] - 48) + t[1] - 48
    if at(0) and t[0] >= 52 and at(1): yield t[2:], 8 * (t[0] - 48) + t[1] - 48
    if at(0) and t[0] <= 51 and at(1) and at(2): yield t[3:], 64 * (t[0] - 48) + 8 * (t[1] - 48) + t[2] - 48


def is_letter(c): return 65 <= c <= 90 or 97 <= c <= 122
def is_digit(c): return 48 <= c <= 57


def proper_escape(u, t):
    if t and t[0] in CTRL: yield t[1:], CTRL[t[0]]
    for a in word("c", t):
        if a and is_letter(a[0]): yield a[1:], a[0] % 32
    for a in word("0", t):
        if not (a and is_digit(a[0])): yield a, 0
    for a in word("x", t): yield from hexn(2, a)
    for a in word("u", t): yield from uesc(u, a)
    if not u: yield from octal(t)


def is_identity(u, named, c):
    return isin(c, "^$\\.*+?()[]{}|/") if u else not isin(c, "c") and not (named and isin(c, "k"))


def character_escape(u, named, t):
    yield from proper_escape(u, t)
    if t and is_identity(u, named, t[0]) and not list(proper_escape(u, t)): yield t[1:], t[0]


def property_expression(t):
    text = "".join(map(chr, t))
    if text.startswith("{") and "}" in text:
        name = text[1:text.index("}")]
        if name in PROPERTIES or "=" in name and tuple(name.split("=", 1)) in VALUES: yield t[len(name) + 2:], name


def class_escape(F, t):
    if t and chr(t[0]) in "dDsSwW": yield t[1:], ("letter", chr(t[0]))
    if "u" in F:
        for invert, letter in ((False, "p"), (True, "P")):
            for a in word(letter, t):
                for there, p in property_expression(a): yield there, ("property", invert, p)


def is_start(c): return not 0xD800 <= c <= 0xDFFF and (chr(c).isidentifier() or c == 36)
def is_part(c): return not 0xD800 <= c <= 0xDFFF and (("a" + chr(c)).isidentifier() or c in (36, 0x200C, 0x200D))


def name_character(test, t):
    if t and test(t[0]): yield t[1:], t[0]
    for a in word("\\u", t):
        for there, c in uesc(True, a):
            if test(c): yield there, c
    if len(t) > 1 and 0xD800 <= t[0] <= 0xDBFF and 0xDC00 <= t[1] <= 0xDFFF:
        c = 0x10000 + (t[0] - 0xD800) * 0x400 + t[1] - 0xDC00
        if test(c): yield t[2:], c


def name_rest(t):
    for a in word(">", t): yield a, ()
    for a, c in name_character(is_part, t):
        for there, name in name_rest(a): yield there, (c,) + name


def group_name(t):
    for a, c in name_character(is_start, t):
        for there, name in name_rest(a): yield there, (c,) + name


def simple_class_escape(F, t):
    for a in word("b", t): yield a, 8
    if "u" in F:
        for a in word("-", t): yield a, 45
    else:
        for a in word("c", t):
            if a and (is_digit(a[0]) or a[0] == 95): yield a[1:], a[0] % 32


def escape_in_class(F, named, t):
    simple, classes = list(simple_class_escape(F, t)), list(class_escape(F, t))
    for there, c in simple: yield there, ("character", c)
    yield from classes
    if not simple and not classes:
        for there, c in character_escape("u" in F, named, t): yield there, ("character", c)


def class_atom(F, named, t):
    if t and not isin(t[0], "\\]"): yield t[1:], ("character", t[0])
    for a in word("\\", t):
        escapes = list(escape_in_class(F, named, a))
        yield from escapes
        if "u" not in F and list(word("c", a)) and not escapes: yield a, ("character", 92)


def class_members(F, named, t):
    for a, m in class_atom(F, named, t):
        if not isrange(a): yield a, [m]
        for b in word("-", a):
            for there, n in class_atom(F, named, b):
                if m[0] == "character" == n[0]:
                    if m[1] <= n[1]: yield there, [("range", m[1], n[1])]
                elif "u" not in F: yield there, [m, ("character", 45), n]


def class_ranges(F, named, t):
    for there in word("]", t): yield there, ()
    for a, ms in class_members(F, named, t):
        for there, others in class_ranges(F, named, a): yield there, tuple(ms) + others


def intervals(F, ms):
    """The set of members, or the members themselves where case or a property counts."""
    if "i" in F or any(m[0] == "property" for m in ms): return ms
    edges = {0, 0x110000}
    tests = []
    for m in ms:
        low_high = [(m[1], m[-1])] if m[0] != "letter" else LETTERS[m[1].lower()]
        inverted = m[0] == "letter" and m[1].isupper()
        edges.update(c for a, b in low_high for c in (a, b + 1))
        tests.append(lambda c, s=low_high, i=inverted: any(a <= c <= b for a, b in s) != i)
    out = []
    for a, b in zip(sorted(edges), sorted(edges)[1:]):
        if any(test(a) for test in tests):
            if out and out[-1][1] + 1 == a: out[-1] = (out[-1][0], b - 1)
            else: out.append((a, b - 1))
    return tuple(out)


def character_class(F, named, t):
    if not list(word("^", t)):
        for there, ms in class_ranges(F, named, t): yield there, ("bracket", False, intervals(F, ms))
    for a in word("^", t):
        for there, ms in class_ranges(F, named, a): yield there, ("bracket", True, intervals(F, ms))


def group_number(w, t):
    if not list(word("0", t)):
        for there, n in digits(10, t):
            if n <= len(w[1]): yield there, n


def has_named_groups(w): return "u" in w[0] or any(w[1])


def class_node(F, m):
    if m[0] == "property": return "bracket", False, (m,)
    return "bracket", m[1].isupper(), intervals(F, (("letter", m[1].lower()),))


def atom_escape(w, t):
    F, groups = w
    numbers, classes = list(group_number(w, t)), list(class_escape(F, t))
    for there, n in numbers: yield there, ("ref", n, "i" in F)
    for there, m in classes: yield there, class_node(F, m)
    if not numbers and not classes:
        for there, c in character_escape("u" in F, has_named_groups(w), t): yield there, ("char", c)
    if has_named_groups(w):
        for a in word("k<", t):
            for there, name in group_name(a):
                if name in groups: yield there, ("ref", groups.index(name) + 1, "i" in F)


def simple_atom(w, t):
    F = w[0]
    if t and not isin(t[0], "^$\\.*+?()[]{}|"): yield t[1:], ("char", t[0])
    if t and isin(t[0], "{}]") and "u" not in F and not isq(t): yield t[1:], ("char", t[0])
    for there in word(".", t): yield there, ("any",) if "s" in F else ("dot",)
    for a in word("\\", t):
        if not list(word("b", a)) and not list(word("B", a)): yield from atom_escape(w, a)
        if "u" not in F and list(word("c", a)) and not list(character_escape(False, has_named_groups(w), a)): yield a, ("char", 92)
    for a in word("[", t): yield from character_class(F, has_named_groups(w), a)


def disjunction(w, b, p):
    for q, ts in alternative(w, b, p):
        yield q, arm(b, ts)
        for x in word("|", q[0]):
            for s, r in disjunction(w, b, (x, q[1])): yield s, ("alt", arm(b, ts), r)


def alternative(w, b, p):
    yield p, []
    for q, n in term(w, b, p):
        for r, ns in alternative(w, b, q): yield r, [n] + ns


def repeated(p, q, n):
    for there, k in quant(q[0]): yield (there, q[1]), ("loop", k, len(p[1]), len(q[1]), n)


def term(w, b, p):
    for q, n in assertion(w, p):
        if not isq(q[0]): yield q, n
        if n[0] == "look" and "u" not in w[0] and not n[2]: yield from repeated(p, q, n)
    for q, n in atom(w, b, p):
        if not isq(q[0]): yield q, n
        yield from repeated(p, q, n)


LOOKS = ((False, False, "(?="), (True, False, "(?!"), (False, True, "(?<="), (True, True, "(?<!"))


def assertion(w, p):
    F, (t, o) = w[0], p
    for x in word("^", t): yield (x, o), ("start", "m" in F)
    for x in word("$", t): yield (x, o), ("end", "m" in F)
    for invert, s in ((False, "\\b"), (True, "\\B")):
        for x in word(s, t): yield (x, o), ("boundary", invert, "i" in F and "u" in F)
    for negate, backwards, s in LOOKS:
        for x in word(s, t):
            for r, n in disjunction(w, backwards, (x, o)):
                for y in word(")", r[0]): yield (y, r[1]), ("look", negate, backwards, len(o), len(r[1]), n)


def atom(w, b, p):
    t, o = p
    for there, n in simple_atom(w, t): yield (there, o), n
    opened = [(x, ()) for x in word("(", t) if not list(word("?", x))] + [g for x in word("(?<", t) for g in group_name(x)]
    for x, name in opened:
        for r, n in disjunction(w, b, (x, o + (name,))):
            for y in word(")", r[0]): yield (y, r[1]), ("group", len(o), name, n)
    for x in word("(?:", t):
        for r, n in disjunction(w, b, (x, o)):
            for y in word(")", r[0]): yield (y, r[1]), n


def opened_groups(t):
    """The names of the groups that the scan's parentheses open, or none where one opens nothing."""
    names, in_class, i = [], False, 0
    while i < len(t):
        after = t[i + 1:]
        if t[i] == 92: i += 1
        elif t[i] == 91: in_class = True
        elif t[i] == 93: in_class = False
        elif t[i] == 40 and not in_class:
            if not list(word("?", after)): names.append(())
            elif not any(list(word(s, t[i:])) for s in ("(?:", "(?=", "(?!", "(?<=", "(?<!")):
                named = [g for x in word("?<", after) for g in group_name(x)]
                if len(named) != 1: return None
                names.append(named[0][1])
        i += 1
    return tuple(names)


def parses(F, pattern):
    """The trees, and the groups by the scan."""
    t = tuple(map(ord, pattern))
    groups = opened_groups(t)
    named = [n for n in groups or () if n]
    if groups is None or len(set(named)) != len(named): return [], groups
    ends = [(q[1], n) for q, n in disjunction((F, groups), False, (t, ())) if q[0] == ()]
    if any(o != groups for o, n in ends): raise SystemExit(f"GROUPS {F}:{pattern}")
    return [("cat", (n, ("goal",))) for n in dict.fromkeys(n for o, n in ends)], groups


TOKENS = (
    r"a b 1 8 0 \ \1 \2 \8 \18 \08 \0 \00 \012 \377 \400 \k \k<a> \k< \c \cA \c1 \c_ \x \x4 \x41 \u \u0041 \u{41} \u{ \uD83D\uDE00 \d \D \w \S \b \B "
    r"\- \p \p{L} \P{Lu} \p{sc=Grek} \p{foo} \/ \] \} \a \t \v ( (?: (?= (?! (?<= (?<! (?<a> (?<b> (?<\u0061> (?<\u{61}> (?<é> (? (?< ) ) ) ) [ [^ ] ] - "
    r"[a- [\d- [\ * + ? { } {1} {1, {1,2} {2,1} {,1} {a} | ^ $ . ,"
).split()
JUDGE = (
    "const lines = require('fs').readFileSync(0, 'utf8').split('\\n').filter(x => x).map(x => JSON.parse(x));"
    "const groups = ([f, p]) => { try { new RegExp(p, f); return new RegExp(p + '|', f).exec('').length - 1 } catch { return -1 } };"
    "console.log(JSON.stringify(lines.map(groups)))"
)


def judged(cases):
    lines = "\n".join(map(json.dumps, cases))
    return json.loads(subprocess.run(["node", "-e", JUDGE], input=lines, capture_output=True, text=True, check=True).stdout)


def main(seed, count):
    r = random.Random(seed)
    cases = [(r.choice(["", "u", "i", "iu"]), "".join(r.choice(TOKENS) for _ in range(r.randint(1, 9)))) for _ in range(count)]
    rows = [line.rstrip("\n") for line in open(os.path.join(os.path.dirname(os.path.abspath(__file__)), "ecmascript_rows.txt"))]
    wanted = [row.partition(" → ") for row in rows if row and not row.startswith("#")]
    cases += [tuple(row.split(":", 1)) for row, _, _ in wanted]
    trees, bad = {}, 0
    for (F, pattern), number in zip(cases, judged(cases)):
        found, groups = parses(F, pattern)
        trees[F, pattern] = found
        for wrong, word_of in ((len(found) > 1, "TWO"), ((len(groups) if found else -1) != number, "DIFF")):
            if wrong: bad += 1; print(word_of, f"{F}:{pattern}", number)
    for row, _, tree in wanted:
        found = trees[tuple(row.split(":", 1))]
        got = show(found[0]) if found else ""
        if got != tree: bad += 1; print("TREE", row, got)
    print(len(cases), "patterns,", sum(map(bool, trees.values())), "read,", bad, "wrong")
    sys.exit(bad > 0)


if __name__ == "__main__":
    sys.setrecursionlimit(100000)
    main(*(int(x) for x in sys.argv[1:] + ["1", "20000"][len(sys.argv) - 1:]))
