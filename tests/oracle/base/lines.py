"""Texts of lines: each ends with a line feed, its parts are parted by one space, numbers have no needless zeros."""
import re

DECIMAL = re.compile(rb"0|[1-9][0-9]*")
WORD = re.compile(rb"[0-9a-fA-F]{8}")


class LineFault(Exception):
    """The first line that isn't of the format, counted from 1."""

    def __init__(self, line):
        super().__init__(line)
        self.line = line


class Lines:
    """The lines of a text, one after the other. What stands after the last line feed is a faulty line, unless it is empty."""

    def __init__(self, text):
        *self.lines, self.rest = text.split(b"\n")
        self.taken = 0

    def are_left(self):
        return self.taken < len(self.lines) or bool(self.rest)

    def next(self):
        self.taken += 1
        if self.taken > len(self.lines):
            self.refuse()
        return self.lines[self.taken - 1]

    def refuse(self):
        raise LineFault(self.taken)

    def end(self):
        """Refuses a line that is left."""
        if self.are_left():
            raise LineFault(self.taken + 1)

    def number(self, part, low, high):
        """The number that a part spells."""
        negative = low < 0 and part[:1] == b"-"
        digits = part[1:] if negative else part
        if len(digits) > 20 or not DECIMAL.fullmatch(digits) or part == b"-0":
            self.refuse()
        value = -int(digits) if negative else int(digits)
        if not low <= value <= high:
            self.refuse()
        return value

    def keyed(self, key, low, high):
        """The number of a line that is a key and a number."""
        parts = self.next().split(b" ")
        if len(parts) != 2 or parts[0] != key:
            self.refuse()
        return self.number(parts[1], low, high)

    def words(self, parts):
        """The words that the parts spell, each by eight hexadecimal digits."""
        if not all(WORD.fullmatch(part) for part in parts):
            self.refuse()
        return [int(part, 16) for part in parts]

    def arguments(self, count):
        """The words of a line `args` with exactly so many."""
        parts = self.next().split(b" ")
        if parts[0] != b"args" or len(parts) - 1 != count:
            self.refuse()
        return self.words(parts[1:])
