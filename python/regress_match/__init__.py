"""Regular expressions of ECMAScript 2018, with the names of the module `re`. The match engine is formally verified.

    >>> import regress_match
    >>> match = regress_match.search(r"(?<year>\\d{4})-\\d\\d", "from 2018-06 on")
    >>> match.span(), match["year"]
    ((5, 12), '2018')

The library that this module calls (`crates/regress_c`) is proved; the module itself is not. README.md lists the
differences from `re`.
"""

import functools
import itertools

from ._errors import StepLimitError, WorkLimitError, error
from ._library import library as _calls
from ._library import written as _written
from ._patterns import Match, Pattern, RegexFlag

__version__ = "0.2.0"

__all__ = [
    "DOTALL", "I", "IGNORECASE", "M", "MULTILINE", "Match", "NOFLAG", "PROFILE", "Pattern", "PatternError",
    "RegexFlag", "S", "StepLimitError", "U", "UNICODE", "UNICODESETS", "V", "WorkLimitError", "compile", "error",
    "escape", "findall", "finditer", "fullmatch", "library_version", "match", "purge", "search", "split", "sub", "subn",
]  # fmt: skip

PatternError = error

# Show and pickle these classes by the names that users import.
for _public in (Match, Pattern, RegexFlag, StepLimitError, WorkLimitError, error):
    _public.__module__ = __name__

NOFLAG = RegexFlag.NOFLAG
I = IGNORECASE = RegexFlag.IGNORECASE
M = MULTILINE = RegexFlag.MULTILINE
S = DOTALL = RegexFlag.DOTALL
U = UNICODE = RegexFlag.UNICODE
V = UNICODESETS = RegexFlag.UNICODESETS
PROFILE = RegexFlag.PROFILE

_kept = functools.lru_cache(maxsize=512, typed=True)(Pattern)


def compile(pattern, flags=0):
    """Compiles a pattern. Raises `error` if it has a syntax error or is too large."""
    if isinstance(pattern, Pattern):
        if flags:
            raise ValueError("cannot process flags argument with a compiled pattern")
        return pattern
    if isinstance(pattern, (bytearray, memoryview)):
        pattern = bytes(pattern)
    return _kept(pattern, int(flags))


def search(pattern, string, flags=0):
    """Returns the first match in the string, or None."""
    return compile(pattern, flags).search(string)


def match(pattern, string, flags=0):
    """Returns the match at the beginning of the string, or None."""
    return compile(pattern, flags).match(string)


def fullmatch(pattern, string, flags=0):
    """Returns the match of the whole string, or None."""
    return compile(pattern, flags).fullmatch(string)


def finditer(pattern, string, flags=0):
    """Returns an iterator over the matches in the string."""
    return compile(pattern, flags).finditer(string)


def findall(pattern, string, flags=0):
    """Returns a list of the texts of all matches, or of their groups."""
    return compile(pattern, flags).findall(string)


def split(pattern, string, maxsplit=0, flags=0):
    """Splits the string at the matches and returns the parts."""
    return compile(pattern, flags).split(string, maxsplit)


def sub(pattern, repl, string, count=0, flags=0):
    """Replaces the matches in the string and returns the new string."""
    return compile(pattern, flags).sub(repl, string, count)


def subn(pattern, repl, string, count=0, flags=0):
    """Like `sub`, but returns the new string and the number of replacements."""
    return compile(pattern, flags).subn(repl, string, count)


def escape(pattern):
    """Returns a pattern that matches exactly the text: each syntax character gets a backslash."""
    if isinstance(pattern, str):
        return _escaped(pattern)
    return _escaped(bytes(pattern).decode("latin-1")).encode("latin-1")


def _escaped(string):
    try:
        data = string.encode()
    except UnicodeEncodeError:
        # UTF-8 has no surrogates, and these are no syntax characters, so only the parts between them are escaped.
        parts = itertools.groupby(string, lambda character: "\ud800" <= character <= "\udfff")
        return "".join("".join(part) if is_surrogate else _escaped("".join(part)) for is_surrogate, part in parts)

    def write(room, length):
        return _calls.regress_c_escape_utf8(data, len(data), room, length)

    return _written(2 * len(data), write).decode()


def purge():
    """Clears the cache of compiled patterns."""
    _kept.cache_clear()


def library_version():
    """Returns the version of the library as a number: 10203 for 1.2.3."""
    return _calls.regress_c_version()
