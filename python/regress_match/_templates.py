"""Templates for replacements, with the escapes of `re`: `\\1`, `\\g<1>`, `\\g<name>`, `\\n`, `\\\\` and so on."""

from ._errors import error

_CONTROLS = {"a": "\a", "b": "\b", "f": "\f", "n": "\n", "r": "\r", "t": "\t", "v": "\v", "\\": "\\"}
_DIGITS = frozenset("0123456789")
_OCTAL = frozenset("01234567")


class _Reader:
    """Splits a template into pieces: texts, and numbers of groups."""

    def __init__(self, template, groupindex, groups):
        self.template = template
        self.groupindex = groupindex
        self.groups = groups
        self.at = 0
        self.pieces = []

    def refuse(self, reason, at):
        raise error(reason, self.template, at)

    def take(self, allowed, most):
        """Reads at most `most` characters as long as they are in `allowed`, and returns them."""
        start = self.at
        while self.at < len(self.template) and self.at - start < most and self.template[self.at] in allowed:
            self.at += 1
        return self.template[start : self.at]

    def group(self, number, at):
        if number > self.groups:
            self.refuse(f"invalid group reference {number}", at)
        self.pieces.append(number)

    def octal(self, digits, at):
        if int(digits, 8) > 0o377:
            self.refuse(f"octal escape value \\{digits} outside of range 0-0o377", at)
        self.pieces.append(chr(int(digits, 8)))

    def named(self):
        """Reads `<name>` or `<1>` after `\\g`."""
        if not self.template.startswith("<", self.at):
            self.refuse("missing <", self.at)
        place = self.at + 1
        name, closed, _ = self.template[place:].partition(">")
        if not name:
            self.refuse("missing group name", place)
        if not closed:
            self.refuse("missing >, unterminated name", place)
        self.at = place + len(name) + 1
        if _DIGITS.issuperset(name):
            self.group(int(name), place)
        elif name in self.groupindex:
            self.pieces.append(self.groupindex[name])
        else:
            raise IndexError(f"unknown group name {name!r}")

    def numbered(self, at):
        """Reads the digits after a backslash: three octal digits of a character, or one or two of a group."""
        start = self.at
        digits = self.take(_OCTAL, 3)
        if len(digits) == 3:
            return self.octal(digits, at)
        self.at = start
        self.group(int(self.take(_DIGITS, 2)), start)

    def escape(self):
        """Reads the escape after a backslash."""
        at = self.at - 1
        if self.at == len(self.template):
            self.refuse("bad escape (end of pattern)", at)
        letter = self.template[self.at]
        if letter in _DIGITS and letter != "0":
            return self.numbered(at)
        self.at += 1
        if letter == "0":
            self.octal("0" + self.take(_OCTAL, 2), at)
        elif letter == "g":
            self.named()
        elif letter in _CONTROLS:
            self.pieces.append(_CONTROLS[letter])
        elif letter.isascii() and letter.isalpha():
            self.refuse(f"bad escape \\{letter}", at)
        else:
            self.pieces.append("\\" + letter)

    def read(self):
        while self.at < len(self.template):
            end = self.template.find("\\", self.at)
            end = len(self.template) if end < 0 else end
            self.pieces.append(self.template[self.at : end])
            self.at = end + 1
            if end < len(self.template):
                self.escape()
        return self.pieces


def pieces_of(template, groupindex, groups):
    """Returns the pieces of a template (str or bytes): texts of its type, and numbers of groups."""
    if isinstance(template, str):
        return _Reader(template, groupindex, groups).read()
    pieces = _Reader(bytes(template).decode("latin-1"), groupindex, groups).read()
    return [piece if isinstance(piece, int) else piece.encode("latin-1") for piece in pieces]
