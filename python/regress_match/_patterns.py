"""Compiled patterns and matches."""

import enum
import sys
from ctypes import c_size_t, c_uint64
from types import MappingProxyType

from . import _library as lib
from ._errors import StepLimitError, WorkLimitError, error
from ._templates import pieces_of
from ._texts import text_of

# The maximum number of matches that one call of the library is asked for.
_MOST_AT_ONCE = 32


class RegexFlag(enum.IntFlag):
    """Flags of a pattern. Their numbers are those of `re`, except V and PROFILE, which `re` does not have."""

    NOFLAG = 0
    I = IGNORECASE = 2
    M = MULTILINE = 8
    S = DOTALL = 16
    U = UNICODE = 32
    V = UNICODESETS = 512
    PROFILE = 1024


_LETTERS = {RegexFlag.I: b"i", RegexFlag.M: b"m", RegexFlag.S: b"s", RegexFlag.U: b"u", RegexFlag.V: b"v"}


def _letters(flags):
    """Returns the letters of flags. PROFILE has none."""
    unknown = int(flags) & ~int(sum(_LETTERS)) & ~int(RegexFlag.PROFILE)
    if unknown:
        raise ValueError(f"unknown flags {unknown:#x}")
    return b"".join(letter for flag, letter in _LETTERS.items() if flags & flag)


def _syntax(flags):
    """Returns the number of the language of a pattern with these flags."""
    return lib.PROFILE if flags & RegexFlag.PROFILE else lib.ES2018


def _compiled(pattern, flags):
    """Compiles a pattern and returns its handle."""
    if not isinstance(pattern, (str, bytes)):
        raise TypeError(f"a pattern is str or bytes, not {type(pattern).__name__}")
    source, letters, syntax, handle = text_of(pattern), _letters(flags), _syntax(flags), lib.Handle()
    code = handle.compile(source.compile, source.data, source.units, letters, syntax)
    if code == lib.SYNTAX:
        raise _diagnosis(pattern, source, letters, syntax)
    if code == lib.MEMORY:
        raise MemoryError(lib.message(code))
    if code != lib.DONE:
        raise error(lib.message(code), pattern)
    return handle


def _diagnosis(pattern, source, letters, syntax):
    """Returns the exception for a pattern with a syntax error."""
    at = c_size_t()

    def write(room, length):
        return source.diagnose(source.data, source.units, letters, len(letters), syntax, at, room, length)

    reason = lib.written(128, write, lib.SYNTAX).decode()
    return error(reason, pattern, source.index(at.value))


class Pattern:
    """A compiled pattern.

    `pattern` and `flags` are those that were given, `groups` is the number of groups, and `groupindex` maps the names
    of groups to their numbers. Threads may share a pattern. Threads that search with it at the same time wait for one
    another.
    """

    __slots__ = ("pattern", "flags", "groups", "groupindex", "_handle", "_whole", "__weakref__")

    def __init__(self, pattern, flags=0):
        self._handle = _compiled(pattern, flags)
        self._whole = None
        self.pattern = pattern
        self.flags = RegexFlag(flags)
        self.groups = self._handle.range_count - 1
        names = {self._handle.group_name(number): number for number in range(1, self.groups + 1)}
        names.pop("", None)
        self.groupindex = MappingProxyType(names)

    def search(self, string, pos=0, endpos=sys.maxsize):
        """Returns the first match from `pos` on, or None.

        The string is searched as if it ended at `endpos`. The text before `pos` is part of it, so `^` does not match
        at `pos`.
        """
        place = _Place(self, string, pos, endpos)
        return place.match(self._handle.find(place.text.find, *place.arguments))

    def match(self, string, pos=0, endpos=sys.maxsize):
        """Returns the match that begins at `pos`, or None."""
        place = _Place(self, string, pos, endpos)
        return place.match(self._handle.find(place.text.match_at, *place.arguments))

    def fullmatch(self, string, pos=0, endpos=sys.maxsize):
        """Returns the match that begins at `pos` and ends at `endpos` or at the end of the string, or None."""
        place = _Place(self, string, pos, endpos)
        return place.match(self._whole_handle().find(place.text.match_at, *place.arguments))

    def _whole_handle(self):
        """Returns the handle of the pattern followed by the end of the text."""
        if self._whole is None:
            before, behind = ("(?:", ")(?![^])") if isinstance(self.pattern, str) else (b"(?:", b")(?![^])")
            self._whole = _compiled(before + self.pattern + behind, self.flags)
        return self._whole

    def finditer(self, string, pos=0, endpos=sys.maxsize, *, steps=None, work=None):
        """Returns an iterator over the matches from `pos` on.

        `steps` limits the steps of the search for all matches together. If more are needed, StepLimitError is raised
        after the matches that were found. `work` limits the work in the same way, and WorkLimitError is raised: a unit
        is an operation, a character that a loop tries, a code unit that a backreference compares or a search skips,
        or a resumed choice point. Neither number depends on time. Steps are not counted in a string with surrogates,
        and a call takes one of the two.
        """
        place = _Place(self, string, pos, endpos)
        if steps is not None and work is not None:
            raise ValueError("a search limits either steps or work")
        limit = None
        if steps is not None:
            limit = (lib.library.regress_c_next_within, _left(steps, "steps"))
            if not place.text.counts_steps:
                raise ValueError("steps are not counted in a str with surrogates")
        if work is not None:
            limit = (lib.library.regress_c_next_in_work, _left(work, "work"))
        text, search = place.text, lib.closed_search()
        lib.check(text.open(search, *place.arguments))
        return map(place.match, self._spans(place, search, limit))

    def _spans(self, place, search, limit):
        """Yields the ranges of each match as a list of numbers. `place` keeps the text of the search alive."""
        width, at_once, code = 2 * self._handle.range_count, 1, lib.DONE
        while code == lib.DONE:
            spans = (c_size_t * (at_once * width))()
            reply = self._handle.next(search, limit, spans)
            code = reply.code
            for at in range(0, reply.count * width, width):
                yield spans[at : at + width]
            at_once = min(2 * at_once, _MOST_AT_ONCE)
        if code == lib.STEP_LIMIT:
            raise StepLimitError(lib.message(code))
        if code == lib.WORK_LIMIT:
            raise WorkLimitError(lib.message(code))
        if code != lib.NO_MATCH:
            lib.check(code)

    def findall(self, string, pos=0, endpos=sys.maxsize):
        """Returns a list of the texts of all matches.

        If the pattern has one group, the list has the texts of the group, and if it has several, tuples of their
        texts. The text of a group that did not match is empty.
        """
        empty = _empty(string)
        if self.groups == 0:
            return [match.group() for match in self.finditer(string, pos, endpos)]
        if self.groups == 1:
            return [match.groups(empty)[0] for match in self.finditer(string, pos, endpos)]
        return [match.groups(empty) for match in self.finditer(string, pos, endpos)]

    def split(self, string, maxsplit=0):
        """Splits the string at the matches and returns the parts.

        The texts of the groups of each match are parts, too. If `maxsplit` is not 0, the string is split at that many
        matches at most.
        """
        parts, end = [], 0
        for match in self._first_matches(string, maxsplit):
            parts.append(_part(string, end, match.start()))
            parts.extend(match.groups())
            end = match.end()
        parts.append(_part(string, end, len(string)))
        return parts

    def sub(self, repl, string, count=0):
        """Replaces the matches, or the first `count` if that is not 0, and returns the new string.

        `repl` is a template (see `Match.expand`), or a function that takes a match and returns its replacement.
        """
        return self.subn(repl, string, count)[0]

    def subn(self, repl, string, count=0):
        """Like `sub`, but returns the new string and the number of replacements."""
        make = repl if callable(repl) else _Template(self, repl).expand
        parts, end, replaced = [], 0, 0
        for match in self._first_matches(string, count):
            parts.append(_part(string, end, match.start()))
            parts.append(make(match))
            end, replaced = match.end(), replaced + 1
        parts.append(_part(string, end, len(string)))
        return _empty(string).join(parts), replaced

    def _first_matches(self, string, count):
        """Yields the first `count` matches: all if `count` is 0, and none if it is negative."""
        for number, match in enumerate(self.finditer(string)):
            if count and number >= count:
                return
            yield match

    def __repr__(self):
        flags = "" if not self.flags else f", {_shown(self.flags)}"
        return f"regress_match.compile({self.pattern!r}{flags})"

    def __eq__(self, other):
        if not isinstance(other, Pattern):
            return NotImplemented
        return (self.pattern, self.flags) == (other.pattern, other.flags)

    def __hash__(self):
        return hash((self.pattern, self.flags))

    def __copy__(self):
        return self

    def __deepcopy__(self, memo):
        return self

    def __reduce__(self):
        return Pattern, (self.pattern, int(self.flags))


def _shown(flags):
    """Returns flags as they are written in code."""
    return "|".join(f"regress_match.{flag.name}" for flag in [*_LETTERS, RegexFlag.PROFILE] if flags & flag)


def _left(limit, what):
    """Returns the number of `what` that a search may take."""
    if limit < 0:
        raise ValueError(f"{what} must not be negative")
    return c_uint64(min(limit, 2**64 - 1))


def _part(string, start, end):
    """Returns a part of a string as str, or of a bytes-like object as bytes."""
    part = string[start:end]
    return part if isinstance(part, str) else bytes(part)


def _empty(string):
    return "" if isinstance(string, str) else b""


class _Place:
    """A string with the range in which a pattern searches it, and its encoded text."""

    __slots__ = ("pattern", "string", "pos", "endpos", "text", "arguments")

    def __init__(self, pattern, string, pos, endpos):
        of_text = isinstance(pattern.pattern, str)
        if not isinstance(string, str):
            memoryview(string)  # a TypeError, unless there are bytes
        if isinstance(string, str) != of_text:
            kinds = ("string", "bytes-like object") if of_text else ("bytes", "string")
            raise TypeError(f"cannot use a {kinds[0]} pattern on a {kinds[1]}")
        self.pattern = pattern
        self.string = string
        self.endpos = max(0, min(endpos, len(string)))
        self.pos = max(0, min(pos, len(string)))
        part = _part(string, 0, self.endpos)
        self.text = text_of(part)
        # There is no match from past the end.
        start = self.text.offset(self.pos) if self.pos <= self.endpos else self.text.units + 1
        # The arguments of the functions of the library.
        self.arguments = (self.text.data, self.text.units, start)

    def match(self, spans):
        """Returns the match with these ranges of the text, or None."""
        if spans is None:
            return None
        index = self.text.index
        return Match(self, [-1 if offset == lib.UNMATCHED else index(offset) for offset in spans])


class Match:
    """A match of the pattern `re` in `string`, which was searched from `pos` to `endpos`."""

    __slots__ = ("re", "string", "pos", "endpos", "_ends")

    def __init__(self, place, ends):
        self.re = place.pattern
        self.string = place.string
        self.pos = place.pos
        self.endpos = place.endpos
        # The start and end of the whole match and of each group. Both are -1 for a group that did not match.
        self._ends = ends

    def _number(self, group):
        """Returns the number of a group, which is given by its number or name."""
        if isinstance(group, str):
            number = self.re.groupindex.get(group, -1)
        else:
            number = group.__index__() if hasattr(group, "__index__") else -1
        if not 0 <= number <= self.re.groups:
            raise IndexError(f"no such group: {group!r}")
        return number

    def _text(self, number, default=None):
        start, end = self._ends[2 * number : 2 * number + 2]
        if start < 0:
            return default
        return _part(self.string, start, end)

    def group(self, *groups):
        """Returns the text of a group, which is given by its number or name, or a tuple of the texts of several groups.

        Without an argument, returns the text of the whole match. The text of a group that did not match is None.
        """
        texts = tuple(self._text(self._number(group)) for group in groups or (0,))
        return texts[0] if len(texts) == 1 else texts

    def __getitem__(self, group):
        return self._text(self._number(group))

    def groups(self, default=None):
        """Returns a tuple of the texts of all groups, with `default` for groups that did not match."""
        return tuple(self._text(number, default) for number in range(1, self.re.groups + 1))

    def groupdict(self, default=None):
        """Returns a dict of the texts of the named groups, with `default` for groups that did not match."""
        return {name: self._text(number, default) for name, number in self.re.groupindex.items()}

    def start(self, group=0):
        """Returns the index at which a group begins, or -1 if it did not match."""
        return self._ends[2 * self._number(group)]

    def end(self, group=0):
        """Returns the index at which a group ends, or -1 if it did not match."""
        return self._ends[2 * self._number(group) + 1]

    def span(self, group=0):
        """Returns the start and the end of a group, or (-1, -1) if it did not match."""
        number = self._number(group)
        return self._ends[2 * number], self._ends[2 * number + 1]

    def expand(self, template):
        """Replaces the escapes of groups in a template by their texts: `\\1`, `\\g<1>` and `\\g<name>`, as in `re`.

        The text of a group that did not match is empty.
        """
        return _Template(self.re, template).expand(self)

    def __repr__(self):
        return f"<regress_match.Match object; span={self.span()}, match={self.group()!r}>"

    def __copy__(self):
        return self

    def __deepcopy__(self, memo):
        return self


class _Template:
    """A template for matches of a pattern."""

    def __init__(self, pattern, template):
        self._pieces = pieces_of(template, pattern.groupindex, pattern.groups)
        self._empty = _empty(template)

    def expand(self, match):
        texts = (match._text(piece, self._empty) if isinstance(piece, int) else piece for piece in self._pieces)
        return self._empty.join(texts)
