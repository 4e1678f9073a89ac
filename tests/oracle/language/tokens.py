"""Tokens of a source: the longest one is taken, blanks and comments part them."""
import re
from collections import namedtuple

KEYWORDS = (
    "layout exception fun and let if else unpack pack raise try handle sram sdram scratch word bool packed unpacked overlay true false _"
).split()
SIGNS = "+ - & | ^ ~ << >> <<< == != < <= > >= && || ! <- = ; : , . ( ) { } [ ] ##".split()
LONGEST_NAME = 64
GREATEST = 0xFFFFFFFF
PARTS = re.compile(
    rb"(?P<blank>[ \t\r\n]+|//[^\n]*)|(?P<name>[A-Za-z_][A-Za-z0-9_]*)|(?P<number>0x[0-9a-fA-F]+|[0-9]+)|(?P<sign>"
    + b"|".join(re.escape(sign.encode()) for sign in sorted(SIGNS, key=len, reverse=True))
    + rb")"
)

# `kind` is NAME, NUMBER, or the keyword or sign itself.
Token = namedtuple("Token", "kind value first after")


class TextFault(Exception):
    """The first fault of a text: char, number, name, syntax or deep, and its byte."""

    def __init__(self, kind, at):
        super().__init__(kind, at)
        self.kind, self.at = kind, at


def tokens(text):
    found, at = [], 0
    while at < len(text):
        match = PARTS.match(text, at)
        if not match:
            raise TextFault("char", at)
        part, at = match[0].decode("latin-1"), match.end()
        if match["name"]:
            if len(part) > LONGEST_NAME:
                raise TextFault("name", match.start())
            found.append(Token(part if part in KEYWORDS else "NAME", part, match.start(), at))
        elif match["number"]:
            value = int(part, 16) if part.startswith("0x") else int(part[-11:]) if not part[:-11].strip("0") else GREATEST + 1
            if value > GREATEST:
                raise TextFault("number", match.start())
            found.append(Token("NUMBER", value, match.start(), at))
        elif match["sign"]:
            found.append(Token(part, part, match.start(), at))
    return found
