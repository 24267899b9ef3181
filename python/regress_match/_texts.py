"""Encodes strings for the library, and converts offsets.

A text has `data` and `units`, which are passed to the library. `offset(index)` converts an index of the string to an
offset in the encoded text, and `index(offset)` converts back.
"""

import sys
from bisect import bisect_left
from itertools import accumulate

from ._library import library

_UTF16 = "utf-16-le" if sys.byteorder == "little" else "utf-16-be"


class _Text:
    counts_steps = False

    def __init__(self, data, units):
        self.data = data
        self.units = units

    def offset(self, index):
        return index

    def index(self, offset):
        return offset


class _Utf8(_Text):
    counts_steps = True
    find = library.regress_c_find_utf8
    match_at = library.regress_c_match_at_utf8
    open = library.regress_c_search_utf8
    compile = library.regress_c_compile_utf8_with_syntax
    diagnose = library.regress_c_diagnose_utf8_with_syntax


class _Utf16(_Text):
    find = library.regress_c_find_utf16
    match_at = library.regress_c_match_at_utf16
    open = library.regress_c_search_utf16
    compile = library.regress_c_compile_utf16_with_syntax
    diagnose = library.regress_c_diagnose_utf16_with_syntax


class Ascii(_Utf8):
    """An ASCII string: one byte for each character."""

    def __init__(self, string):
        super().__init__(string.encode("ascii"), len(string))


class Characters(_Utf8):
    """A string without surrogates, in UTF-8.

    `index` counts from the offset of the previous call. Converting the offsets of all matches in order takes linear
    time.
    """

    def __init__(self, string):
        data = string.encode()
        super().__init__(data, len(data))
        self._string = string
        self._offset = 0
        self._index = 0

    def offset(self, index):
        return len(self._string[:index].encode())

    def index(self, offset):
        if offset >= self._offset:
            self._index += len(self.data[self._offset : offset].decode())
        else:
            self._index -= len(self.data[offset : self._offset].decode())
        self._offset = offset
        return self._index


class Surrogates(_Utf16):
    """A string with surrogates, in UTF-16. A high surrogate followed by a low surrogate is one character there."""

    def __init__(self, string):
        data = string.encode(_UTF16, "surrogatepass")
        super().__init__(data, len(data) // 2)
        self._offsets = [0, *accumulate(1 if character <= "\uffff" else 2 for character in string)]

    def offset(self, index):
        return self._offsets[index]

    def index(self, offset):
        return bisect_left(self._offsets, offset)


def text_of(string):
    """Returns the text of a string, or of bytes, where each byte is the character with its number."""
    if isinstance(string, bytes):
        string = string.decode("latin-1")
    if string.isascii():
        return Ascii(string)
    try:
        return Characters(string)
    except UnicodeEncodeError:
        return Surrogates(string)
