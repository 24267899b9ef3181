"""The functions of the shared library, as c/regress_c.h declares them.

This file meets the conditions of the header: a text is a `bytes` object that lives as long as the call or the search,
one call at a time uses a handle, which is freed once, and a buffer has the length that is passed.
"""

import ctypes
import os
import pathlib
import threading
from ctypes import POINTER, Structure, c_char_p, c_size_t, c_uint32, c_uint64, c_void_p

DONE = 0
NO_MATCH = 1
NOT_UTF8 = 4
NOT_BOUNDARY = 5
SHORT_BUFFER = 6
MEMORY = 7
STEP_LIMIT = 8
SYNTAX = 9
WORK_LIMIT = 20

# The languages of patterns.
PROFILE = 0
ES2018 = 1

# Both ends of the range of a group that did not match.
UNMATCHED = c_size_t(-1).value

# The version of these declarations, without the patch.
VERSION = 2

NAME = "libregress_c.so"


class RawPattern(Structure):
    _fields_ = [("held", c_void_p)]


class RawBounds(Structure):
    _fields_ = [("length", c_size_t), ("nesting", c_size_t)]


# The bounds that every pattern is within.
_NO_BOUNDS = RawBounds(UNMATCHED, UNMATCHED)


class RawReply(Structure):
    _fields_ = [("code", c_uint32), ("count", c_size_t)]


class RawSearch(Structure):
    _fields_ = [
        ("bytes", c_void_p),
        ("bytes_len", c_size_t),
        ("units", c_void_p),
        ("units_len", c_size_t),
        ("next", c_size_t),
        ("encoding", c_size_t),
    ]


# A search that is not open points to this.
_NOTHING = c_uint64(0)


def closed_search():
    """Returns a search that is not open."""
    nothing = ctypes.addressof(_NOTHING)
    return RawSearch(nothing, 0, nothing, 0, 0, 0)


_PATTERN = POINTER(RawPattern)
_SEARCH = POINTER(RawSearch)
_TEXT = [c_char_p, c_size_t]
_ROOM = [POINTER(c_size_t), c_size_t]
_FIND = (RawReply, [_PATTERN, *_TEXT, c_size_t, *_ROOM])
_NEXT_LIMITED = (RawReply, [_PATTERN, _SEARCH, POINTER(c_uint64), *_ROOM])
_OPEN = (c_uint32, [_SEARCH, *_TEXT, c_size_t])
_COMPILE = (c_uint32, [_PATTERN, *_TEXT, *_TEXT, c_uint32, POINTER(RawBounds)])
_DIAGNOSE = (RawReply, [*_TEXT, *_TEXT, c_uint32, POINTER(c_size_t), c_char_p, c_size_t])

# The result and the parameters of each function. A text of 16-bit units is passed as bytes. The contents of a `bytes`
# object begin at a multiple of 8, so they are aligned.
_CALLS = {
    "version": (c_uint32, []),
    "compile_utf8_with_syntax": _COMPILE,
    "compile_utf16_with_syntax": _COMPILE,
    "diagnose_utf8_with_syntax": _DIAGNOSE,
    "diagnose_utf16_with_syntax": _DIAGNOSE,
    "free": (None, [_PATTERN]),
    "range_count": (RawReply, [_PATTERN]),
    "group_name": (RawReply, [_PATTERN, c_size_t, c_char_p, c_size_t]),
    "find_utf8": _FIND,
    "find_utf16": _FIND,
    "match_at_utf8": _FIND,
    "match_at_utf16": _FIND,
    "search_utf8": _OPEN,
    "search_utf16": _OPEN,
    "next": (RawReply, [_PATTERN, _SEARCH, *_ROOM]),
    "next_within": _NEXT_LIMITED,
    "next_in_work": _NEXT_LIMITED,
    "escape_utf8": (RawReply, [*_TEXT, c_char_p, c_size_t]),
    "message_utf8": (RawReply, [c_uint32, c_char_p, c_size_t]),
}


def _path():
    """Returns the path of the library. README.md says where it is searched for."""
    folder = os.environ.get("REGRESS_C_LIB")
    if folder is not None:
        return str(pathlib.Path(folder) / NAME)
    here = pathlib.Path(__file__).resolve().parent
    for place in (here / NAME, here.parent.parent / "c" / "out" / NAME):
        if place.is_file():
            return str(place)
    return NAME + ".0"


def _open():
    try:
        library = ctypes.CDLL(_path())
        for name, (answer, takes) in _CALLS.items():
            call = getattr(library, "regress_c_" + name)
            call.restype, call.argtypes = answer, takes
    except (OSError, AttributeError) as failure:
        todo = f"run `make -C c` in the repository of regress_match, or set REGRESS_C_LIB to the folder of {NAME}"
        raise ImportError(f"{failure}: {todo}") from None
    version = library.regress_c_version()
    if version // 100 != VERSION:
        found = f"{version // 10000}.{version // 100 % 100}.{version % 100}"
        raise ImportError(f"{NAME} has version {found}, and this module needs {VERSION // 100}.{VERSION % 100}")
    return library


library = _open()


def message(code):
    """Returns the text of a code."""
    return written(128, lambda room, length: library.regress_c_message_utf8(code, room, length)).decode()


def written(length, write, done=DONE):
    """Returns the bytes that a call writes. The first buffer has `length` bytes. `done` is the code of success."""
    while True:
        room = ctypes.create_string_buffer(max(length, 1))
        reply = write(room, length)
        if reply.code != SHORT_BUFFER:
            if reply.code != done:
                check(reply.code)
            return room.raw[: reply.count]
        length = reply.count


def check(code):
    """Raises the exception of a code. Does nothing for DONE."""
    if code == MEMORY:
        raise MemoryError(message(code))
    if code in (NOT_UTF8, NOT_BOUNDARY):
        raise ValueError(message(code))
    if code != DONE:
        raise RuntimeError(message(code))


class Handle:
    """A compiled pattern, which is freed with this object.

    The lock lets one call at a time use the handle. It is reentrant, so that a signal handler of the same thread can
    search: it runs between two calls of the library and never within one.
    """

    __slots__ = ("_raw", "_lock", "range_count")

    def __init__(self):
        self._raw = RawPattern(None)
        self._lock = threading.RLock()
        self.range_count = 0

    def compile(self, call, text, units, flags, syntax):
        """Compiles a pattern into this handle, which is empty. Returns the code."""
        code = call(self._raw, text, units, flags, len(flags), syntax, _NO_BOUNDS)
        if code == DONE:
            self.range_count = library.regress_c_range_count(self._raw).count
        return code

    def __del__(self, free=library.regress_c_free):
        free(self._raw)

    def group_name(self, number):
        """Returns the name of a group. The name of an unnamed group is empty."""
        with self._lock:
            name = written(32, lambda room, length: library.regress_c_group_name(self._raw, number, room, length))
        return name.decode()

    def find(self, call, text, units, start):
        """Returns the ranges of a match as a list of numbers, or None. `call` is a function of the type `_FIND`."""
        spans = (c_size_t * (2 * self.range_count))()
        with self._lock:
            reply = call(self._raw, text, units, start, spans, self.range_count)
        if reply.code == NO_MATCH:
            return None
        check(reply.code)
        return spans[:]

    def next(self, search, limit, spans):
        """Writes the next matches to `spans`. Returns the reply.

        `limit` is None, or a function of the type `_NEXT_LIMITED` and the number that it limits and changes.
        """
        ranges = len(spans) // 2
        with self._lock:
            if limit is None:
                return library.regress_c_next(self._raw, search, spans, ranges)
            call, left = limit
            return call(self._raw, search, left, spans, ranges)
