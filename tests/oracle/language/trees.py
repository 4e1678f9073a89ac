"""Syntax trees.

Layouts as written: ("named", name), ("gap", bits), ("record", fields), ("joined", layouts). A field is a name with
("bits", number), ("inner", layout) or ("overlay", fields).
Types as written: ("word", number), ("bool",), ("packed", name), ("unpacked", name), ("tuple", types), ("record", fields).
Patterns: ("name", name), ("any",), ("tuple", patterns).
"""
from dataclasses import dataclass, field

COMPARISONS = ("==", "!=", "<", "<=", ">", ">=")
MEMORIES = ("sram", "sdram", "scratch")


@dataclass
class Expression:
    """`parts` by kind: number (value), truth (value), variable (name), brackets (e), tuple (es), record (fields), dot (e, name),
    invert (e), negate (e), binary (sign, e, e), shift (sign, e, count), call (name, es), unpack (layout, e), pack (layout, e),
    raise (exception, es), if (e, e, e), try (body, exception, patterns, handler), fetch (memory, count, address),
    block (statements, tail)."""

    kind: str
    parts: tuple
    first: int
    after: int
    # These three by the check of types: the type, None without a value; what the name of a call, a layout or an exception stands for;
    # and whether a call stays in its own group.
    type: object = None
    named: object = None
    is_own: bool = False

    def children(self):
        """The direct subexpressions, of a block those of its statements and its tail."""
        kind, parts = self.kind, self.parts
        if kind == "block":
            return [child for statement in parts[0] for child in statement.children()] + [parts[1]]
        if kind == "record":
            return [child for _, child in parts[0]]
        found = []
        for part in parts:
            several = part if isinstance(part, list) else [part]
            found += [it for it in several if isinstance(it, Expression)]
        return found


@dataclass
class Let:
    pattern: tuple
    value: Expression
    first: int
    after: int

    def children(self):
        return [self.value]


@dataclass
class Store:
    memory: str
    address: Expression
    value: Expression
    first: int
    after: int

    def children(self):
        return [self.address, self.value]


@dataclass
class Function:
    name: str
    parameters: list
    result: tuple
    body: Expression
    first: int
    after: int


@dataclass
class LayoutDeclaration:
    name: str
    layout: tuple
    first: int
    after: int


@dataclass
class ExceptionDeclaration:
    name: str
    types: list
    first: int
    after: int


@dataclass
class Group:
    functions: list


@dataclass
class Program:
    declarations: list
    length: int
    exceptions: list = field(default_factory=list)


def pattern_names(pattern):
    """The names that a pattern binds, in order."""
    if pattern[0] == "name":
        return [pattern[1]]
    return [name for part in pattern[1] for name in pattern_names(part)] if pattern[0] == "tuple" else []
