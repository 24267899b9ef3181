"""The exceptions of this module."""


class error(Exception):
    """An error in a pattern or in a template.

    `msg` is the reason, and `pattern` the pattern or template. `pos` is the index at which the error begins, or None
    for an error of the whole pattern. `lineno` and `colno` are the line and the column of `pos`, from 1 on.
    """

    def __init__(self, msg, pattern=None, pos=None):
        self.msg = msg
        self.pattern = pattern
        self.pos = pos
        self.lineno = self.colno = None
        text = msg
        if pattern is not None and pos is not None:
            newline = "\n" if isinstance(pattern, str) else b"\n"
            self.lineno = pattern.count(newline, 0, pos) + 1
            self.colno = pos - pattern.rfind(newline, 0, pos)
            text = f"{msg} at position {pos}"
            if newline in pattern:
                text += f" (line {self.lineno}, column {self.colno})"
        super().__init__(text)

    def __reduce__(self):
        return error, (self.msg, self.pattern, self.pos)


class StepLimitError(Exception):
    """The step limit of a search is reached."""


class WorkLimitError(Exception):
    """The work limit of a search is reached."""
