"""Texts near a source: with other tokens, with other parts in the place of some, and about as deep as is allowed."""
from oracle.language.parser import parse
from oracle.language.tokens import KEYWORDS, SIGNS, TextFault, tokens
from oracle.language.trees import Group

OTHER_NAMES = ("x", "n", "main", "E1", "f1", "l1", "l2", "nowhere", "hi")
OTHER_NUMBERS = ("0", "1", "2", "3", "5", "8", "9", "31", "32", "33", "511", "512", "1024", "1025", "4294967295")
OTHER_TOKENS = (*KEYWORDS, *SIGNS, *OTHER_NAMES, *OTHER_NUMBERS)
# Tokens at their limits.
EDGE_TOKENS = ("4294967295", "4294967296", "0xffffffff", "0x100000000", "004294967295", "0x", "00", "0b1", "a" * 64, "a" * 65)
OTHER_BYTES = b" \t\r\n/_0x9a#<>=!&\x00\x7f\x80\xff\"'@"
BINARY = ("+", "-", "&", "|", "^", "==", "<", "&&", "||")
OTHER_PARTS = (
    *("1", "true", "()", "(1, 2)", "(1, true)", "{hi = 1}", "{hi = 1, hi = 2}", "nowhere", "n", "f1[1]", "f1[]", "main[]"),
    *("a.hi", "1 << 32", "!1", "~true"),
    *("raise E1[]", "raise E1[1]", "raise E2[(1, 2)]", "if (true) 1 else false", "if (1) 1 else 2", "let (a, a) = (1, 2); a", "let (a, b) = 1; a"),
    *("sram[9](0)", "sdram[3](0)", "sram[1025](0)", "scratch[1](n)", "scratch[8](505)", "sram(0) <- true; 1", "scratch(511) <- (1, 2); 1"),
    *("pack[l9]({x = {a = 1}})", "pack[l9]({x = {a = 1, b = {hi = 1, lo = 2}}})", "pack[l9]({x = {b = {hi = 1}}})", "pack[l9]({x = {hi = 1}})"),
    *("unpack[l1](1)", "unpack[l9](n).x.b.hi", "pack[l1](1)", "pack[nowhere](1)", "try { 1 } handle E1[] { 2 }", "try { 1 } handle E1[a] { true }"),
    *("try { raise E1[1] } handle E2[(a, a)] { 1 }", "try { 1 } handle nowhere[] { 2 }"),
)
OTHER_TYPES = (
    *("word", "bool", "()", "(word, bool)", "word[0]", "word[9]", "word[1024]", "word[1025]", "packed(l1)", "unpacked(l1)", "packed(nowhere)"),
    "{a: word, a: word}",
)
OTHER_DECLARATIONS = (
    *("layout l1 = {a: 33};", "layout l3 = {a: 1, a: 2};", "layout l3 = nowhere;", "layout l3 = {1};", "layout l3 = {x: overlay {a: 1 | b: 2}};"),
    *("layout l3 = {x: overlay {a: 1 | a: 2}};", "layout l3 = {a: 0};", "layout l3 = {1024} ## {a: 1};", "layout E1 = {a: 8};"),
    *("exception E1[word[9]];", "exception E9[bool];", "fun f1[n: word]: word { n }", "fun g[a: word, a: word]: word { 1 }"),
    *("fun g[a: (word[1000], word[25])]: word { 1 }", "fun g[]: word { g[] + 1 }"),
)
OVERLAY = b"layout l9 = {x: overlay {a: 8 | b: {hi: 3, lo: 5}}}; "
OPERATIONS = ("+", "-", "&", "|", "^")


def near(random, text):
    """The text with a few tokens left out, doubled, exchanged or replaced, or with another byte."""
    for _ in range(random.choice((1, 1, 1, 2, 3))):
        if random.random() < 0.1:
            at = random.randrange(len(text) + 1)
            text = text[:at] + bytes([random.choice(OTHER_BYTES)]) + text[at + random.randint(0, 1) :]
            continue
        try:
            found = tokens(text)
        except TextFault:
            return text
        if not found:
            return text
        token, other = random.choice(found), random.choice(found)
        others = EDGE_TOKENS if random.random() < 0.15 else OTHER_TOKENS
        copied = random.choice((text[other.first : other.after], random.choice(others).encode()))
        new = random.choice((b"", copied, copied, copied + b" " + text[token.first : token.after]))
        text = replaced(text, token, new)
    return text


def replaced(text, part, new):
    return text[: part.first] + new + text[part.after :]


def expressions(node):
    """An expression with all below it."""
    return [node] + [it for child in node.children() for it in expressions(child)]


def retyped(random, text):
    """The text of a program with a few parts in the place of which others stand, so that it mostly still is a program."""
    text = OVERLAY + text if random.random() < 0.5 else text
    for _ in range(random.choice((1, 1, 1, 2, 3))):
        try:
            text = with_another_part(random, text)
        except TextFault:
            return text
    return text


def with_another_part(random, text):
    found, draw = tokens(text), random.random()
    if draw < 0.1:
        place = random.choice([0] + [it.first for it in found if it.kind in ("layout", "exception", "fun")])
        return text[:place] + random.choice(OTHER_DECLARATIONS).encode() + b" " + text[place:]
    if draw < 0.2:
        types = [it for it in found if it.kind in ("word", "bool")]
        return replaced(text, random.choice(types or found), random.choice(OTHER_TYPES).encode())
    if draw < 0.45:
        token = random.choice(found)
        others = {"NAME": OTHER_NAMES, "NUMBER": OTHER_NUMBERS}.get(token.kind, BINARY if token.kind in BINARY else (token.kind,))
        names = [it.value for it in found if it.kind == "NAME"]
        return replaced(text, token, random.choice((*others, *(names if token.kind == "NAME" else ()))).encode())
    groups = [it for it in parse(text).declarations if isinstance(it, Group)]
    every = [it for group in groups for function in group.functions for it in expressions(function.body)]
    part, other = random.choice(every), random.choice(every)
    copied = random.choice((text[other.first : other.after], random.choice(OTHER_PARTS).encode(), random.choice(OTHER_PARTS).encode()))
    return replaced(text, part, b"(" + copied + b")" if random.random() < 0.8 else copied)


def reoperated(random, text):
    """The text with another operation or number somewhere."""
    found = [it for it in tokens(text) if it.kind in OPERATIONS or it.kind == "NUMBER"]
    if not found:
        return text
    token = random.choice(found)
    return replaced(text, token, random.choice(("0", "1", "2") if token.kind == "NUMBER" else OPERATIONS).encode())


# What stands before and behind the part inside it.
NESTED_EXPRESSIONS = (
    ("(", ")"), ("~", ""), ("!", ""), ("f[", "]"), ("if (a) ", " else 1"), ("a + (", ")"), ("(a, ", ")"), ("{x = ", "}"), ("let b = 1; ", ""),
    ("sram[1](", ")"), ("sram(0) <- 1; (", ")"), ("try { ", " } handle E[] { 1 }"), ("a.b + (", ")"), ("raise E[", "]"), ("pack[l](", ")"),
    ("", " + a"), ("", " << 1"), ("", " && a"), ("", ".x"), ("let b = (", "); 1"), ("(", ", a)"), ("(1, ", ", a)"),
)
NESTED_TYPES = (("(word, ", ")"), ("{x: ", "}"))
NESTED_LAYOUTS = (("{x: ", "}"), ("{x: overlay {a: 1 | b: ", "}}"), ("{1} ## {x: ", "}"))


def deep(random):
    """A text whose trees, types or layouts are about as high as is allowed."""
    count, draw = random.choice((random.randint(20, 101), random.randint(94, 101))), random.random()

    def nested(around, core):
        """The part in two kinds of others, one kind within the other."""
        inner = random.choice((0, count, random.randint(0, count)))
        for times in (inner, count - inner):
            opened, closed = random.choice(around)
            core = opened * times + core + closed * times
        return core

    if draw < 0.5:
        core = random.choice(("a", "1", "()", "a.b", "a < b", "sram[1](0)", "f[]"))
        text = f"fun main[a: word]: word {{ {nested(NESTED_EXPRESSIONS, core)} }}"
    elif draw < 0.6:
        text = f"fun main[a: {nested(NESTED_TYPES, 'word')}]: word {{ 1 }}"
    elif draw < 0.75:
        body = "let b = (a, 1); let c = {x = b}; let d = ((c, 1), 1); 1"
        text = f"fun f[a: {nested(NESTED_TYPES, 'word')}]: word {{ {body} }} fun main[]: word {{ 1 }}"
    elif draw < 0.85:
        text = f"layout l = {nested(NESTED_LAYOUTS, '{x: 1}')}; fun main[]: word {{ 1 }}"
    else:
        named = "".join(f"layout l{number + 1} = {{x: l{number}}}; " for number in range(count))
        text = f"layout l0 = {{x: 1}}; {named}fun main[]: word {{ 1 }}"
    return text.encode()
