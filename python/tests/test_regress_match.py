"""Tests of each call. The expected results are those of V8 (stored rows) or of `re`, or were computed by hand."""

import copy
import doctest
import gc
import json
import os
import pathlib
import pickle
import re
import resource
import subprocess
import sys
import threading
import unittest
from unittest import mock

import regress_match
from regress_match import PROFILE, I, M, S, U, V
from regress_match._library import MEMORY, Handle, RawReply

HERE = pathlib.Path(__file__).resolve().parent
JUDGED = HERE.parent.parent / "crates" / "test_trials" / "data"
LETTERS = {"i": I, "m": M, "s": S, "u": U, "v": V}


def rows(path):
    with path.open() as file:
        for line in file:
            yield json.loads(line)


def flags_of(letters):
    """The flags of these letters. Other letters are none of the pattern's."""
    return sum(LETTERS.get(letter, 0) for letter in set(letters))


def spans(matches):
    """The spans of matches, and of their groups."""
    return [[match.span(number) for number in range(match.re.groups + 1)] for match in matches]


def live_handles():
    gc.collect()
    return sum(isinstance(thing, Handle) for thing in gc.get_objects())


def load_tests(loader, tests, pattern):
    """The examples of the pages are tests, too."""
    tests.addTests(doctest.DocTestSuite(regress_match))
    tests.addTests(doctest.DocFileSuite(str(HERE.parent / "README.md"), module_relative=False))
    return tests


class Judged(unittest.TestCase):
    def test_cases_that_v8_judged_in_bytes(self):
        self.assertEqual(self.agreeing("v8.jsonl", PROFILE), 1469)

    def test_cases_of_the_whole_language_that_v8_judged_in_bytes(self):
        self.assertEqual(self.agreeing("es2018.jsonl", 0), 840)

    def agreeing(self, file, syntax):
        """Compares the cases of a file, and returns their number."""
        count = 0
        for row in rows(JUDGED / file):
            count += 1
            pattern, flags, text = row["pattern"], flags_of(row["flags"]) | syntax, row["text"]
            with self.subTest(**row):
                if row["status"] == 2:
                    self.assertRaises(regress_match.error, regress_match.compile, pattern, flags)
                    continue
                places = {str(len(text[:index].encode())): index for index in range(len(text) + 1)}
                places["-"] = -1
                printed = [line.replace("-", "-..-").split() for line in row["stdout"].splitlines()]
                wanted = [[tuple(places[end] for end in range.split("..")) for range in line] for line in printed]
                self.assertEqual(spans(regress_match.finditer(pattern, text, flags)), wanted)
                first = regress_match.search(pattern, text, flags)
                self.assertEqual(spans([first] if first else []), wanted[:1])
        return count

    def test_cases_that_v8_judged_in_units_of_16_bits(self):
        for row in rows(HERE / "v8.jsonl"):
            text = row["text"]
            with self.subTest(**row):
                # No match begins or ends at the second unit of a character.
                places, unit = {"-": -1}, 0
                for index, character in enumerate(text + "."):
                    places[unit] = index
                    unit += 1 if ord(character) < 0x10000 else 2
                units = [[group or ("-", "-") for group in match] for match in row["matches"]]
                wanted = [[tuple(places[end] for end in group) for group in match] for match in units]
                compiled = regress_match.compile(row["pattern"], flags_of(row["flags"]))
                self.assertEqual(spans(compiled.finditer(text)), wanted)
                for [(start, end), *_] in wanted:
                    self.assertEqual(compiled.match(text, start).span(), (start, end))
                    self.assertEqual(compiled.search(text, start).span(), (start, end))


class AsInRe(unittest.TestCase):
    """Patterns that mean the same in both."""

    PATTERNS = [
        "a", "(a)|(b)", "(a)(b)?", "x*", "", r"\d+", "[^ab]", "(?:ab)+", "(a|ab)(c|bcd)(d*)", "^", "$", r"\bb",
        "(.)\\1", "(?<!a)b",
    ]  # fmt: skip
    TEXTS = ["", "a", "ab", "abab", "b a", "xaxbx", "12 a3", "abcd", "aa bb", "éa b", "😀a😀b"]

    def each(self):
        for pattern in self.PATTERNS:
            for text in self.TEXTS:
                with self.subTest(pattern=pattern, text=text):
                    yield regress_match.compile(pattern), re.compile(pattern), text

    def test_searches(self):
        for ours, theirs, text in self.each():
            for call in ["search", "match", "fullmatch"]:
                found = [getattr(module, call)(text) for module in (ours, theirs)]
                self.assertEqual(*[spans([match] if match else []) for match in found])
            self.assertEqual(spans(ours.finditer(text)), spans(theirs.finditer(text)))
            self.assertEqual(ours.findall(text), theirs.findall(text))
            self.assertEqual(ours.split(text), theirs.split(text))
            self.assertEqual(ours.split(text, 1), theirs.split(text, 1))
            self.assertEqual(ours.split(text, -1), theirs.split(text, -1))
            self.assertEqual(ours.subn(r"<\g<0>>", text), theirs.subn(r"<\g<0>>", text))
            self.assertEqual(ours.sub("-", text, 2), theirs.sub("-", text, 2))
            self.assertEqual(ours.sub(lambda m: m.group().upper(), text), theirs.sub(lambda m: m.group().upper(), text))

    def test_places(self):
        for ours, theirs, text in self.each():
            for pos in range(-1, len(text) + 2):
                for endpos in range(-1, len(text) + 2):
                    for call in ["search", "match", "fullmatch"]:
                        wanted = getattr(theirs, call)(text, pos, endpos)
                        if call == "match" and max(0, min(pos, len(text))) > max(0, endpos):
                            # The documentation of `re` says that there is no match, but it finds empty ones.
                            wanted = None
                        found = getattr(ours, call)(text, pos, endpos)
                        self.assertEqual(found and found.span(), wanted and wanted.span(), (call, pos, endpos))
                        if found:
                            self.assertEqual((found.pos, found.endpos, found.string), (wanted.pos, wanted.endpos, text))
                    self.assertEqual(spans(ours.finditer(text, pos, endpos)), spans(theirs.finditer(text, pos, endpos)))

    def test_matches(self):
        ours = regress_match.compile("(?<one>a)(b)?(?<three>c)?")
        theirs = re.compile("(?P<one>a)(b)?(?P<three>c)?")
        self.assertEqual((ours.groups, dict(ours.groupindex)), (theirs.groups, dict(theirs.groupindex)))
        for text in ["ab", "abc", "ac", "xéa"]:
            m, n = ours.search(text), theirs.search(text)
            self.assertEqual((m.groups(), m.groups("-")), (n.groups(), n.groups("-")))
            self.assertEqual((m.groupdict(), m.groupdict(0)), (n.groupdict(), n.groupdict(0)))
            for group in [0, 1, 2, 3, "one", "three"]:
                self.assertEqual((m[group], m.group(group)), (n[group], n.group(group)))
                self.assertEqual((m.start(group), m.end(group)), (n.start(group), n.end(group)))
                self.assertEqual(m.span(group), n.span(group))
            self.assertEqual((m.group(), m.group(1, "three")), (n.group(), n.group(1, "three")))
            for group in [4, -1, "two", b"one", None, 1.0]:
                for call in [m.group, m.span, m.start, m.end, m.__getitem__]:
                    self.assertRaises(IndexError, call, group)

    def test_long_names(self):
        name = "n" * 1000
        self.assertEqual(regress_match.search(f"(?<{name}>a)", "a").groupdict(), {name: "a"})

    def test_templates(self):
        ours = regress_match.compile("(?<word>a)(b)?")
        theirs = re.compile("(?P<word>a)(b)?")
        templates = [
            "", "x", r"\1", r"\2", r"[\1\2]", r"\g<0>", r"\g<1>0", r"\g<word>", r"\\", r"\\1", r"\n\t\a\b\f\r\v", r"\0",
            r"\01", r"\012", r"\0123", r"\101", r"\1011", r"\-\&", "$1", "é\\1😀", "\\\n", r"\3", r"\10", r"\18", r"\99",
            r"\400", r"\777", r"\g", r"\g<", r"\g<>",
            r"\g<3>", r"\g<other>", r"\q", r"\z", "\\", r"a\1\\" + "\\", r"\g<word", r"\é",
        ]  # fmt: skip
        for template in templates:
            with self.subTest(template=template):
                answers = []
                for compiled, refusal in [(ours, regress_match.error), (theirs, re.error)]:
                    try:
                        answers.append((compiled.sub(template, "ab a"), compiled.search("ab").expand(template)))
                    except IndexError:
                        answers.append("no such name")
                    except refusal as error:
                        answers.append((error.msg, error.pos))
                self.assertEqual(*answers)
                if template.isascii():
                    binary = template.encode()
                    if isinstance(answers[0], tuple) and isinstance(answers[0][1], str):
                        there = regress_match.sub(b"(?<word>a)(b)?", binary, b"ab a")
                        self.assertEqual(there, answers[0][0].encode("latin-1"))


class Differences(unittest.TestCase):
    """What README.md lists. The wanted answers are V8's."""

    def test_syntax(self):
        self.assertEqual(regress_match.search("(?<year>\\d+)", "in 18")["year"], "18")
        for pattern in ["(?P<year>a)", "(?i)a", "(?i:a)", "(?#x)a", "(?>a)"]:
            self.assertRaises(regress_match.error, regress_match.compile, pattern)
        self.assertEqual(regress_match.search(r"\A\Z", "AZ").span(), (0, 2))
        self.assertRaises(regress_match.error, regress_match.compile, r"\A", U)
        self.assertEqual(regress_match.search(r"\s", "a\u2003").span(), (1, 2))
        self.assertEqual(regress_match.search("[^]+", "a\nb").group(), "a\nb")
        self.assertIsNone(regress_match.search("[]", "a"))
        self.assertIsNone(regress_match.search("a$", "a\n"))
        self.assertEqual(regress_match.findall(r"\w", "aé1"), ["a", "1"])
        self.assertEqual(regress_match.search("(?<=(?:a+))b", "aab").span(), (2, 3))
        self.assertEqual(regress_match.search(r"(b)?\1a", "a").span(), (0, 1))
        self.assertEqual(regress_match.findall("(?:(a)|b)*", "ab"), ["", ""])

    def test_the_whole_language_is_the_default(self):
        for pattern in [r"\101|(?=a)*b", r"(?<\u0061>b)", "\\cA", b"\\8"]:
            regress_match.compile(pattern)
            self.assertRaises(regress_match.error, regress_match.compile, pattern, PROFILE)
        self.assertEqual(regress_match.findall(r"\p{Lu}", "aÉB", U), ["É", "B"])
        for flags, wanted in [(I, (0, 1)), (I | PROFILE, None)]:
            found = regress_match.search("é", "É", flags)
            self.assertEqual(found and found.span(), wanted)
        self.assertEqual(regress_match.compile("a", PROFILE).fullmatch("a").span(), (0, 1))
        shown = repr(regress_match.compile("a", I | PROFILE))
        self.assertEqual(shown, "regress_match.compile('a', regress_match.I|regress_match.PROFILE)")
        with self.assertRaises(regress_match.error) as raised:
            regress_match.compile("a\\p{x}", U)
        self.assertEqual(raised.exception.pos, 1)

    def test_empty_matches(self):
        self.assertEqual(regress_match.findall("|a", "a"), ["", ""])
        self.assertEqual(re.findall("|a", "a"), ["", "a", ""])

    def test_flags(self):
        for flags, wanted in [(I, []), (I | M, []), (I | M | S, ["b\n"])]:
            self.assertEqual(regress_match.findall("^B.", "a\nb\n", flags), wanted)
        self.assertRaises(regress_match.error, regress_match.compile, "\\-a{", U)
        self.assertEqual(regress_match.search("\\u{1F600}", "😀", U).span(), (0, 1))
        self.assertEqual(regress_match.search("a", "A", re.I | re.M | re.S | re.U).span(), (0, 1))
        rows = [(re.X, "0x40"), (re.A, "0x100"), (re.L, "0x4"), (1 << 40, "0x10000000000"), (-1, "-0x63b")]
        for flag, unknown in rows:
            self.assertRaisesRegex(ValueError, f"^unknown flags {unknown}$", regress_match.compile, "a", flag)

    def test_fullmatch_looks_for_the_end(self):
        for pattern, text, wanted in [
            ("a|ab", "ab", [(0, 2)]), ("a|ab", "abc", None), ("a*?", "aaa", [(0, 3)]), ("a$|b", "b", [(0, 1)]),
            ("(a)|(ab)", "ab", [(0, 2), (-1, -1), (0, 2)]), ("(a)\\1", "aa", [(0, 2), (0, 1)]), ("", "", [(0, 0)]),
            ("", "a", None), ("a\n?", "a\n", [(0, 2)]),
            ("(?<n>a|ab)(?:c)?", "abc", [(0, 3), (0, 2)]), ("a|b", "ba", None),
        ]:  # fmt: skip
            with self.subTest(pattern=pattern, text=text):
                match = regress_match.fullmatch(pattern, text)
                self.assertEqual(spans([match])[0] if match else None, wanted)
        self.assertEqual(regress_match.compile("(?:a|ab)").fullmatch("xaby", 1, 3).span(), (1, 3))
        self.assertEqual(regress_match.compile("a|ab", M).fullmatch("ab\n", 0, 2).span(), (0, 2))
        self.assertIsNone(regress_match.compile("ab$", M).fullmatch("ab\n"))


class Characters(unittest.TestCase):
    def test_offsets_are_those_of_the_string(self):
        text = "é😀\x00a\u2028b" * 40
        for unit in ["é", "😀", "\x00", "a", "\u2028", "b"]:
            wanted = [(at, at + 1) for at, character in enumerate(text) if character == unit]
            self.assertEqual([match.span() for match in regress_match.finditer(unit, text)], wanted)
            backwards = regress_match.compile(f"(?<=({unit})(.*))$", S).search(text)
            self.assertEqual(backwards.span(1), wanted[0])
        for at in range(len(text)):
            self.assertEqual(regress_match.compile("[^]").match(text, at).group(), text[at])

    def test_lone_surrogates_are_characters(self):
        text = "a\udc00é\ud83d"
        self.assertEqual([m.span() for m in regress_match.finditer(".", text)], [(0, 1), (1, 2), (2, 3), (3, 4)])
        self.assertEqual(regress_match.search("\\ud83d", text).span(), (3, 4))
        self.assertEqual(regress_match.search("\ud83d", text).span(), (3, 4))
        self.assertEqual(regress_match.sub("[\\udc00-\\udfff]", "?", text), "a?é\ud83d")
        self.assertIsNone(regress_match.search("\\ud83d", "😀"))
        with self.assertRaises(regress_match.error) as caught:
            regress_match.compile("😀\ud800(")
        self.assertEqual(caught.exception.pos, 2)

    def test_halves_in_a_row_are_one_character(self):
        halves = "a\ud83d\ude00b"
        self.assertEqual([m.span() for m in regress_match.finditer(".", halves)], [(0, 1), (1, 3), (3, 4)])
        self.assertEqual(regress_match.search("😀", halves).span(), (1, 3))
        compiled = regress_match.compile("b")
        self.assertEqual(compiled.search(halves, 3).span(), (3, 4))
        for call in [compiled.search, compiled.match, compiled.fullmatch, compiled.finditer, compiled.findall]:
            self.assertRaises(ValueError, call, halves, 2)
        self.assertEqual(regress_match.compile(".").findall(halves, 0, 2), ["a", "\ud83d"])

    def test_bytes_are_characters(self):
        every = bytes(range(256))
        self.assertEqual([m.span() for m in regress_match.finditer(b"[^]", every)], [(at, at + 1) for at in range(256)])
        self.assertEqual(regress_match.findall(rb"[\x80-\xff]+", b"a\xc3\xa9b"), [b"\xc3\xa9"])
        self.assertEqual(regress_match.search(b"\xe9+", b"\xe9\xe9").group(), b"\xe9\xe9")
        self.assertEqual(regress_match.search(rb"(?<n>\w)", b"-a")["n"], b"a")
        self.assertEqual(regress_match.search(b"\xe9", b"\xc9", I).span(), (0, 1))
        self.assertIsNone(regress_match.search(b"\xe9", b"\xc9", I | PROFILE))
        self.assertEqual(regress_match.fullmatch(b"a|ab", b"ab").span(), (0, 2))
        self.assertEqual(regress_match.split(b"(,)", b"a,b"), [b"a", b",", b"b"])
        self.assertEqual(regress_match.sub(b"(b)", rb"<\1>", b"abc"), b"a<b>c")
        for kind in (bytearray, memoryview):
            self.assertEqual(regress_match.compile(kind(b"b")).search(kind(b"abc")).group(), b"b")
            self.assertEqual(regress_match.sub(b"b", b"", kind(b"abc")), b"ac")
            self.assertEqual(regress_match.split(b"b", kind(b"abc")), [b"a", b"c"])
            self.assertEqual(regress_match.findall(b"(a)|b", kind(b"ab")), [b"a", b""])

    def test_texts_are_escaped(self):
        latin = bytes(range(256)).decode("latin-1")
        for text in ["", "a.b*c", "^$\\.*+?()[]{}|", "/-# é😀", "\ud800.\udc00\ud83d\ude00*", "\n.\n", latin]:
            for flags in (0, U):
                match = regress_match.fullmatch(regress_match.escape(text), text, flags)
                self.assertEqual(match.span(), (0, len(text)))
        self.assertEqual(regress_match.escape("a.b\ud800*"), "a\\.b\ud800\\*")
        every = bytes(range(256))
        self.assertTrue(regress_match.fullmatch(regress_match.escape(every), every))
        self.assertEqual(regress_match.escape(b"a.\xff"), b"a\\.\xff")


class Refusals(unittest.TestCase):
    def test_errors_say_what_and_where(self):
        for pattern, msg, pos, line, column in [
            ("é(a", "unclosed group", 1, 1, 2), ("a)", "unopened group", 1, 1, 2),
            ("a**", "nothing to repeat", 2, 1, 3), ("a\n😀b)", "unopened group", 4, 2, 3),
            (b"\xff(", "unclosed group", 1, 1, 2), (b"\n\n[", "unclosed class", 2, 3, 1),
        ]:  # fmt: skip
            with self.subTest(pattern=pattern), self.assertRaises(regress_match.error) as caught:
                regress_match.compile(pattern)
            error = caught.exception
            self.assertEqual((error.msg, error.pattern, error.pos), (msg, pattern, pos))
            self.assertEqual((error.lineno, error.colno), (line, column))
            place = f" (line {line}, column {column})" if line > 1 else ""
            self.assertEqual(str(error), f"{msg} at position {pos}{place}")
            again = pickle.loads(pickle.dumps(error))
            self.assertEqual((again.args, again.pos), (error.args, pos))
        with self.assertRaises(regress_match.PatternError) as caught:
            regress_match.compile("()" * 65_536)
        self.assertEqual((str(caught.exception), caught.exception.pos), ("too many groups (at most 65535)", None))

    def test_wrong_types(self):
        for pattern, text in [("a", b"a"), (b"a", "a"), ("a", 1), (b"a", 1), ("a", None), ("a", ["a"])]:
            for call in ["search", "match", "fullmatch", "finditer", "findall", "split"]:
                self.assertRaises(TypeError, getattr(regress_match, call), pattern, text)
        for pattern in [1, None, ["a"]]:
            self.assertRaises(TypeError, regress_match.compile, pattern)
        self.assertRaises(TypeError, regress_match.sub, "a", 1, "a")
        self.assertRaises(TypeError, regress_match.sub, "a", b"x", "a")
        self.assertRaises(TypeError, regress_match.sub, "a", lambda m: 1, "a")
        self.assertRaises(ValueError, regress_match.compile, regress_match.compile("a"), I)

    def test_steps_are_limited(self):
        light = regress_match.compile("[b]c")
        self.assertEqual(spans(light.finditer("aabbc", steps=5)), [[(3, 5)]])
        with self.assertRaises(regress_match.StepLimitError):
            list(light.finditer("aabbc", steps=4))
        heavy = regress_match.compile("b|(?:a|a)*c")
        search = heavy.finditer("b" + "a" * 60, steps=100_000)
        self.assertEqual(next(search).span(), (0, 1))
        self.assertRaises(regress_match.StepLimitError, next, search)
        self.assertRaises(StopIteration, next, search)
        self.assertEqual(len(list(light.finditer("é" + "bc" * 100, steps=1 << 70))), 100)
        self.assertEqual(len(list(regress_match.compile(b"bc").finditer(b"\xff" + b"bc" * 100, steps=1 << 70))), 100)
        for text, steps, reason in [("a", -1, "negative"), ("\ud800", 5, "surrogates"), ("\ud800", -1, "negative")]:
            self.assertRaisesRegex(ValueError, reason, light.finditer, text, steps=steps)

    def test_work_is_limited_for_each_pattern(self):
        twice = regress_match.compile(r"([ab])\1")
        self.assertEqual(spans(twice.finditer("aabbc", work=1000)), [[(0, 2), (0, 1)], [(2, 4), (2, 3)]])
        # The least work that suffices gives all matches, and each smaller number the first ones.
        counts = []
        for work in range(1000):
            counts.append(0)
            try:
                for _ in twice.finditer("aabbc", work=work):
                    counts[-1] += 1
            except regress_match.WorkLimitError:
                pass
        self.assertEqual(counts, sorted(counts))
        self.assertEqual(sorted(set(counts)), [0, 1, 2])
        self.assertEqual(counts[0], 0)
        heavy = regress_match.compile("b|(?:a|a)*c")
        search = heavy.finditer("b" + "a" * 60, work=100_000)
        self.assertEqual(next(search).span(), (0, 1))
        self.assertRaises(regress_match.WorkLimitError, next, search)
        self.assertRaises(StopIteration, next, search)
        self.assertEqual(len(list(twice.finditer("é" + "aa" * 100, work=1 << 70))), 100)
        self.assertEqual(spans(twice.finditer("\ud800aa", work=1000)), [[(1, 3), (1, 2)]])
        self.assertRaises(regress_match.WorkLimitError, next, twice.finditer("\ud800aa", work=1))
        for text in ["a", "\ud800"]:
            self.assertRaisesRegex(ValueError, "negative", twice.finditer, text, work=-1)
        self.assertRaisesRegex(ValueError, "either", twice.finditer, "a", steps=1, work=1)

    def test_memory_that_is_refused_is_a_memory_error(self):
        pattern = regress_match.compile("a")
        refused = mock.Mock(return_value=RawReply(MEMORY, 0))
        for call in ["find", "match_at", "compile"]:
            answer = mock.Mock(return_value=MEMORY) if call == "compile" else refused
            with mock.patch(f"regress_match._texts.Ascii.{call}", answer, create=True):
                use = {"find": pattern.search, "match_at": pattern.match, "compile": regress_match.Pattern}[call]
                self.assertRaises(MemoryError, use, "a")
        with mock.patch.object(Handle, "next", refused):
            self.assertRaises(MemoryError, pattern.findall, "a")

    def test_a_missing_library_is_told_in_a_line(self):
        for folder, reason in [("/nowhere", "cannot open"), (str(HERE), "")]:
            env = dict(os.environ, REGRESS_C_LIB=folder, PYTHONPATH=str(HERE.parent))
            command = [sys.executable, "-c", "import regress_match"]
            run = subprocess.run(command, env=env, capture_output=True, text=True)
            self.assertEqual(run.returncode, 1)
            last = run.stderr.splitlines()[-1]
            self.assertIn("ImportError", last)
            self.assertIn("set REGRESS_C_LIB", last)
            self.assertIn(reason, last)


class Lives(unittest.TestCase):
    """What is held, and for how long."""

    def test_handles_are_freed(self):
        regress_match.purge()
        before = live_handles()
        pattern = regress_match.Pattern("(?<a>a)|b")
        pattern.fullmatch("a")
        self.assertEqual(live_handles(), before + 2)
        match, search = pattern.match("a"), pattern.finditer("ab")
        next(search)
        del pattern
        self.assertEqual(live_handles(), before + 2)
        del match, search
        self.assertEqual(live_handles(), before)

    def test_exceptions_leave_no_handle(self):
        regress_match.purge()
        before = live_handles()

        def fail(match):
            raise KeyError(match.group())

        def search_without_end():
            list(regress_match.Pattern("(?:a|a)*b").finditer("a" * 99, steps=9))

        for call, refusal in [
            (lambda: regress_match.Pattern("("), regress_match.error),
            (lambda: regress_match.Pattern("()" * 65_536), regress_match.error),
            (lambda: regress_match.Pattern("a", 1), ValueError),
            (lambda: regress_match.Pattern("a").search(b"a"), TypeError),
            (lambda: regress_match.Pattern("a").sub(fail, "a"), KeyError),
            (lambda: regress_match.Pattern("a").sub("\\2", "a"), regress_match.error),
            (search_without_end, regress_match.StepLimitError),
            (lambda: regress_match.Pattern("a").search("\ud83d\ude00", 1), ValueError),
        ]:  # fmt: skip
            for _ in range(3):
                self.assertRaises(refusal, call)
            self.assertEqual(live_handles(), before)

    def test_memory_is_given_back(self):
        large = "(?:" + "|".join(f"w{number}(x)" for number in range(500)) + ")"

        def compile_often(count):
            for _ in range(count):
                regress_match.Pattern(large).search("w499x")
                self.assertRaises(regress_match.error, regress_match.Pattern, large + "(")
            return resource.getrusage(resource.RUSAGE_SELF).ru_maxrss

        # The first rounds show how much a few patterns take. Twenty times as many would take far more than twice that.
        before = resource.getrusage(resource.RUSAGE_SELF).ru_maxrss
        few = compile_often(5)
        many = compile_often(100)
        self.assertLess(many - few, max(2 * (few - before), 4096))

    def test_a_search_keeps_its_text(self):
        def searches():
            return [regress_match.finditer("a", "é" + "a" * 100 + str(number)) for number in range(50)]

        kept = searches()
        gc.collect()
        junk = [bytes([number]) * 300 for number in range(256)]
        for search in kept:
            self.assertEqual([m.start() for m in search], list(range(1, 101)))
        self.assertEqual(len(junk), 256)

    def test_searches_go_on_within_one_another(self):
        pattern = regress_match.compile("a")
        self.assertEqual(sum(1 for _ in pattern.finditer("a" * 100) for _ in pattern.finditer("aa")), 200)
        self.assertEqual(pattern.sub(lambda m: pattern.sub("b", "xa"), "aa"), "xbxb")

    def test_threads_share_a_pattern(self):
        pattern = regress_match.compile(r"(?<word>\w+) (\d+)")
        text = "é one 1, two 22, three 333; " * 200
        wanted, answers = spans(pattern.finditer(text)), []
        # A search that takes long, so that those of other threads begin meanwhile.
        long, far = "one," * 50_000 + "two 2", 4 * 50_000

        def work():
            for _ in range(5):
                same = spans(pattern.finditer(text)) == wanted
                answers.append(same and pattern.search(long).start() == far and pattern.fullmatch("one 1") is not None)

        threads = [threading.Thread(target=work) for _ in range(4)]
        for thread in threads:
            thread.start()
        for thread in threads:
            thread.join()
        self.assertEqual(answers, [True] * 20)

    def test_patterns_are_values(self):
        pattern = regress_match.compile("(?<n>é)", I | U)
        self.assertIs(regress_match.compile("(?<n>é)", I | U), pattern)
        self.assertIs(regress_match.compile(pattern), pattern)
        regress_match.purge()
        again = regress_match.compile("(?<n>é)", I | U)
        self.assertIsNot(again, pattern)
        self.assertEqual((again, hash(again)), (pattern, hash(pattern)))
        for other in [regress_match.compile("(?<n>é)"), regress_match.compile(b"a"), "(?<n>é)"]:
            self.assertNotEqual(other, pattern)
        self.assertNotEqual(regress_match.compile("a"), regress_match.compile(b"a"))
        self.assertIs(copy.copy(pattern), pattern)
        self.assertIs(copy.deepcopy(pattern), pattern)
        self.assertEqual(pickle.loads(pickle.dumps(pattern)), pattern)
        self.assertEqual(repr(pattern), "regress_match.compile('(?<n>é)', regress_match.I|regress_match.U)")
        self.assertEqual(eval(repr(pattern)), pattern)
        self.assertEqual(repr(pattern.search("xé")), "<regress_match.Match object; span=(1, 2), match='é'>")
        with self.assertRaises(TypeError):
            pattern.groupindex["n"] = 2

    def test_versions(self):
        numbers = [int(number) for number in regress_match.__version__.split(".")]
        self.assertEqual(regress_match.library_version(), 10_000 * numbers[0] + 100 * numbers[1] + numbers[2])


if __name__ == "__main__":
    unittest.main()
