"""The program of a text, by recursive descent, with the exact place of its first fault.

A tree has at most 100 levels. A text is too deep at the first token with which each program that it begins is too high. So
`level` is how many nodes of its tree stand above a node, and each token that makes a node of some least height necessary is tried
against the limit before it is taken."""
from oracle.language.tokens import TextFault, tokens
from oracle.language.trees import (
    COMPARISONS, MEMORIES, ExceptionDeclaration, Expression, Function, Group, LayoutDeclaration, Let, Program, Store,
)

MOST_LEVELS = 100
LEVELS = (("||",), ("&&",), COMPARISONS, ("|",), ("^",), ("&",), ("<<", ">>", "<<<"), ("+", "-"))


class Parser:
    def __init__(self, text):
        self.tokens, self.length, self.at = tokens(text), len(text), 0
        # Where a memory's name may begin a statement instead of a fetch: that token, and the least height then.
        self.either = (-1, 0)

    def kind(self, ahead=0):
        return self.tokens[self.at + ahead].kind if self.at + ahead < len(self.tokens) else None

    def place(self):
        return self.tokens[self.at].first if self.at < len(self.tokens) else self.length

    def behind(self):
        return self.tokens[self.at - 1].after

    def refuse(self):
        raise TextFault("syntax", self.place())

    def need(self, height):
        """The current token, which can stand here, makes this height necessary."""
        if height > MOST_LEVELS:
            raise TextFault("deep", self.place())

    def take(self, kind):
        if self.kind() != kind:
            self.refuse()
        self.at += 1
        return self.tokens[self.at - 1].value

    def listed(self, read, end):
        """What `read` reads, once or more with commas between, or nothing, up to an end."""
        found = []
        if self.kind() != end:
            found.append(read())
            while self.kind() == ",":
                self.take(",")
                found.append(read())
        self.take(end)
        return found

    # ---- declarations

    def program(self):
        declarations = []
        while self.at < len(self.tokens):
            declarations.append(self.declaration())
        return Program(declarations, self.length, [it for it in declarations if isinstance(it, ExceptionDeclaration)])

    def declaration(self):
        first, kind = self.place(), self.kind()
        if kind == "layout":
            self.take("layout")
            name = self.take("NAME")
            self.take("=")
            layout, _ = self.layout(0)
            self.take(";")
            return LayoutDeclaration(name, layout, first, self.behind())
        if kind == "exception":
            self.take("exception")
            name = self.take("NAME")
            self.take("[")
            types = self.listed(lambda: self.type(0), "]")
            self.take(";")
            return ExceptionDeclaration(name, types, first, self.behind())
        if kind == "fun":
            self.take("fun")
            functions = [self.function()]
            while self.kind() == "and":
                self.take("and")
                functions.append(self.function())
            return Group(functions)
        return self.refuse()

    def function(self):
        first, name = self.place(), self.take("NAME")
        self.take("[")
        parameters = self.listed(lambda: self.typed_name(0), "]")
        self.take(":")
        result = self.type(0)
        self.take("{")
        body, _ = self.expression(0)
        self.take("}")
        return Function(name, parameters, result, body, first, self.behind())

    def typed_name(self, level):
        name = self.take("NAME")
        self.take(":")
        return name, self.type(level)

    # ---- types, layouts and patterns

    def type(self, level):
        kind = self.kind()
        if kind not in ("word", "bool", "packed", "unpacked", "(", "{"):
            self.refuse()
        self.need(level + (2 if kind == "{" else 1))
        self.take(kind)
        if kind == "word":
            if self.kind() != "[":
                return ("word", 1)
            self.take("[")
            count = self.take("NUMBER")
            self.take("]")
            return ("word", count)
        if kind == "bool":
            return ("bool",)
        if kind in ("packed", "unpacked"):
            self.take("(")
            name = self.take("NAME")
            self.take(")")
            return (kind, name)
        if kind == "(":
            return ("tuple", self.two_or_none(lambda: self.type(level + 1)))
        return ("record", self.one_or_more(lambda: self.typed_name(level + 1), "}"))

    def one_or_more(self, read, end):
        if self.kind() == end:
            self.refuse()
        return self.listed(read, end)

    def two_or_none(self, read):
        """None, or two and more, up to a closing bracket."""
        if self.kind() == ")":
            self.take(")")
            return []
        found = [read()]
        self.take(",")
        return found + self.one_or_more(read, ")")

    def layout(self, level):
        """A layout and its height."""
        layout, height = self.layout_atom(level)
        if self.kind() != "##":
            return layout, height
        parts = [layout]
        while self.kind() == "##":
            self.need(level + 1 + height)
            self.take("##")
            layout, other = self.layout_atom(level + 1)
            parts.append(layout)
            height = max(height, other)
        return ("joined", parts), 1 + height

    def layout_atom(self, level):
        if self.kind() == "NAME":
            self.need(level + 1)
            return ("named", self.take("NAME")), 1
        if self.kind() != "{":
            self.refuse()
        self.need(level + 1)
        self.take("{")
        if self.kind() == "NUMBER":
            bits = self.take("NUMBER")
            self.take("}")
            return ("gap", bits), 1
        if self.kind() != "NAME":
            self.refuse()
        self.need(level + 2)
        found = self.listed(lambda: self.field(level, True), "}")
        return ("record", [it for it, _ in found]), 1 + max(height for _, height in found)

    def field(self, level, may_overlay):
        """A field or an alternative under a node at the level, and its height."""
        name = self.take("NAME")
        self.take(":")
        if self.kind() == "NUMBER":
            self.need(level + 2)
            return (name, ("bits", self.take("NUMBER"))), 1
        if may_overlay and self.kind() == "overlay":
            self.need(level + 3)
            self.take("overlay")
            self.take("{")
            found = [self.field(level + 1, False)]
            self.take("|")
            found.append(self.field(level + 1, False))
            while self.kind() == "|":
                self.take("|")
                found.append(self.field(level + 1, False))
            self.take("}")
            return (name, ("overlay", [it for it, _ in found])), 1 + max(height for _, height in found)
        if self.kind() not in ("NAME", "{"):
            self.refuse()
        layout, height = self.layout(level + 1)
        return (name, ("inner", layout)), height

    def pattern(self, level):
        kind = self.kind()
        if kind not in ("NAME", "_", "("):
            self.refuse()
        self.need(level + 1)
        value = self.take(kind)
        if kind == "(":
            return ("tuple", self.two_or_none(lambda: self.pattern(level + 1)))
        return ("name", value) if kind == "NAME" else ("any",)

    # ---- expressions, each with its height

    def expression(self, level):
        first, statements, height = self.place(), [], 0
        while self.kind() == "let" or self.kind() in MEMORIES:
            if self.kind() == "let":
                self.need(level + 3)
                statement, other = self.let(level + 2)
            else:
                tail_level = level + 1 if statements else level
                self.either = (self.at, level + 3)
                if self.kind(1) == "[":
                    break
                self.need(min(tail_level + 2, level + 3))
                statement, other = self.store(level)
            statements.append(statement)
            height = max(height, 1 + other)
        if not statements:
            return self.tail(level)
        tail, other = self.tail(level + 1)
        return self.made("block", (statements, tail), first), 1 + max(height, other)

    def made(self, kind, parts, first):
        return Expression(kind, parts, first, self.behind())

    def let(self, level):
        first = self.place()
        self.take("let")
        pattern = self.pattern(0)
        self.take("=")
        value, height = self.tail(level)
        self.take(";")
        return Let(pattern, value, first, self.behind()), height

    def store(self, level):
        first, memory = self.place(), self.take(self.kind())
        if self.kind() != "(":
            self.refuse()
        self.need(level + 3)
        self.take("(")
        address, height = self.expression(level + 2)
        self.take(")")
        self.take("<-")
        value, other = self.tail(level + 2)
        self.take(";")
        return Store(memory, address, value, first, self.behind()), max(height, other)

    def tail(self, level):
        first, kind = self.place(), self.kind()
        if kind == "if":
            return self.choice(first, level)
        if kind == "raise":
            self.need(level + 1)
            self.take("raise")
            name = self.take("NAME")
            arguments, height = self.arguments(level + 1)
            return self.made("raise", (name, arguments), first), 1 + height
        if kind == "try":
            return self.handled(first, level)
        return self.binary(0, level)

    def choice(self, first, level):
        self.need(level + 2)
        self.take("if")
        self.take("(")
        condition, height = self.expression(level + 1)
        self.take(")")
        one, second = self.expression(level + 1)
        self.take("else")
        other, third = self.expression(level + 1)
        return self.made("if", (condition, one, other), first), 1 + max(height, second, third)

    def handled(self, first, level):
        self.need(level + 2)
        self.take("try")
        self.take("{")
        body, height = self.expression(level + 1)
        self.take("}")
        self.take("handle")
        name = self.take("NAME")
        self.take("[")
        patterns = self.listed(lambda: self.pattern(0), "]")
        self.take("{")
        handler, other = self.expression(level + 1)
        self.take("}")
        return self.made("try", (body, name, patterns, handler), first), 1 + max(height, other)

    def arguments(self, level):
        self.take("[")
        found = self.listed(lambda: self.expression(level), "]")
        return [it for it, _ in found], max((height for _, height in found), default=0)

    def binary(self, group, level):
        """Operators of one precedence group to the left; a comparison has no second one after it."""
        if group == len(LEVELS):
            return self.unary(level)
        first = self.place()
        left, height = self.binary(group + 1, level)
        while self.kind() in LEVELS[group]:
            sign = self.kind()
            self.need(level + 1 + height)
            self.take(sign)
            if sign in ("<<", ">>", "<<<"):
                left, height = self.made("shift", (sign, left, self.take("NUMBER")), first), 1 + height
                continue
            right, other = self.binary(group + 1, level + 1)
            left, height = self.made("binary", (sign, left, right), first), 1 + max(height, other)
            if sign in COMPARISONS:
                break
        return left, height

    def unary(self, level):
        first, kind = self.place(), self.kind()
        if kind not in ("~", "!"):
            return self.dotted(level)
        self.need(level + 2)
        self.take(kind)
        inner, height = self.unary(level + 1)
        return self.made("invert" if kind == "~" else "negate", (inner,), first), 1 + height

    def dotted(self, level):
        first = self.place()
        inner, height = self.atom(level)
        while self.kind() == ".":
            self.need(level + 1 + height)
            self.take(".")
            inner, height = self.made("dot", (inner, self.take("NAME")), first), 1 + height
        return inner, height

    def atom(self, level):
        first, kind = self.place(), self.kind()
        if kind == "(":
            return self.bracketed(first, level)
        if kind == "{":
            return self.record(first, level)
        if kind in ("unpack", "pack"):
            self.need(level + 2)
            self.take(kind)
            self.take("[")
            name = self.take("NAME")
            self.take("]")
            inner, height = self.in_brackets(level)
            return self.made(kind, (name, inner), first), 1 + height
        if kind in MEMORIES:
            return self.fetch(first, level)
        if kind not in ("NUMBER", "true", "false", "NAME"):
            self.refuse()
        self.need(level + 1)
        value = self.take(kind)
        if kind == "NUMBER":
            return self.made("number", (value,), first), 1
        if kind != "NAME":
            return self.made("truth", (kind == "true",), first), 1
        if self.kind() != "[":
            return self.made("variable", (value,), first), 1
        arguments, height = self.arguments(level + 1)
        return self.made("call", (value, arguments), first), 1 + height

    def in_brackets(self, level):
        self.take("(")
        inner, height = self.expression(level + 1)
        self.take(")")
        return inner, height

    def bracketed(self, first, level):
        self.need(level + 1)
        self.take("(")
        if self.kind() == ")":
            self.take(")")
            return self.made("tuple", ([],), first), 1
        found = [self.expression(level + 1)]
        while self.kind() == ",":
            self.take(",")
            found.append(self.expression(level + 1))
        self.take(")")
        height = 1 + max(it for _, it in found)
        if len(found) == 1:
            return self.made("brackets", (found[0][0],), first), height
        return self.made("tuple", ([it for it, _ in found],), first), height

    def record(self, first, level):
        self.need(level + 2)
        self.take("{")
        found = self.one_or_more(lambda: self.valued(level + 1), "}")
        return self.made("record", ([(name, it) for name, it, _ in found],), first), 1 + max(height for _, _, height in found)

    def valued(self, level):
        name = self.take("NAME")
        self.take("=")
        return name, *self.expression(level)

    def fetch(self, first, level):
        least, (at, height) = level + 2, self.either
        self.need(min(least, height) if at == self.at else least)
        memory = self.take(self.kind())
        if self.kind() != "[":
            self.refuse()
        self.need(least)
        self.take("[")
        count = self.take("NUMBER")
        self.take("]")
        address, height = self.in_brackets(level)
        return self.made("fetch", (memory, count, address), first), 1 + height


def parse(text):
    """The program of a text, or its first fault."""
    return Parser(text).program()
