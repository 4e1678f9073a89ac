"""Makes a case that shows a difference smaller, and writes it as a row of tests/."""
import re
import shlex
from bisect import bisect_left
from dataclasses import replace

from oracle.language.parser import parse
from oracle.language.tokens import TextFault, tokens
from oracle.language.trees import Group
from oracle.machine import assembly, objects
from oracle.machine.objects import Code, Object, ObjectFault

MOST_TRIES = 2000
SOURCES = ("s", "t")
OBJECT = "o"
# Weights, without which a compilation is one too.
OPTIONAL = "w"


def decoded(data):
    try:
        return objects.decode(data)
    except ObjectFault:
        return None


def pieces(name, data):
    """The parts of a file that may be left out, and how the others are put together: tokens, instructions or lines."""
    if name == OBJECT:
        found = decoded(data)
        return (list(range(len(found.code.instructions))), lambda kept: without(found, kept)) if found else ([], None)
    if name in SOURCES:
        try:
            return [data[token.first : token.after] + b" " for token in tokens(data)], b"".join
        except TextFault:
            pass
    lines = data.splitlines(True)
    return (lines if len(lines) > 1 else [bytes([byte]) for byte in data]), b"".join


def without(found, kept):
    """The object with the instructions of these places alone; what led to one that is left out leads to the next."""
    last = max(0, len(kept) - 1)
    code = [found.code.instructions[place] for place in kept]
    code = [(*it[:2], min(last, bisect_left(kept, it[2]))) if it[0] == "br" else it for it in code]
    starts = [min(last, bisect_left(kept, start)) for start in found.starts]
    return objects.encode(Object(found.version, Code(found.code.parameters, code), found.exceptions, starts))


def signature(differences):
    """What stays the same while a case gets smaller: the statuses of the first difference, or else its text without numbers."""
    statuses = re.findall(r"\((\d+), b", differences[0]) if differences else None
    return statuses or differences and re.sub(r"\d", "", differences[0])


def expressions(node):
    return [node] + [it for child in node.children() for it in expressions(child)]


def simpler(text):
    """Sources that have less than this one: a declaration or a statement is left out, or a part of an expression stands in its place."""
    try:
        declarations = parse(text).declarations
    except TextFault:
        return []
    found = []
    for declaration in declarations:
        if not isinstance(declaration, Group):
            found.append((declaration, b""))
            continue
        functions = declaration.functions
        if len(functions) == 1:
            found.append((functions[0], b""))
        for node in (it for function in functions for it in expressions(function.body)):
            found += [(statement, b"") for statement in node.parts[0]] if node.kind == "block" else []
            found += [(node, b"1")] + [(node, b"(" + text[it.first : it.after] + b")") for it in node.children()]
    replaced = [text[: node.first] + new + text[node.after :] for node, new in found]
    # The keyword of a function that is left out.
    return sorted((re.sub(rb"fun\s*(?=fun|exception|layout|$)", b"", it) for it in replaced if len(it) < len(text)), key=len)


def smaller(case, differences_of):
    """The case with as many parts of its files left out as still show such a difference."""
    left, wanted = MOST_TRIES, signature(differences_of(case))

    def shows(name, data):
        nonlocal case, left
        left -= 1
        tried = replace(case, files={**case.files, name: data})
        if signature(differences_of(tried)) != wanted:
            return False
        case = tried
        return True

    if OPTIONAL in case.files:
        tried = replace(case, files={name: data for name, data in case.files.items() if name != OPTIONAL})
        case = tried if signature(differences_of(tried)) == wanted else case
    for name in case.files:
        if name in SOURCES:
            while left > 0 and any(left > 0 and shows(name, it) for it in simpler(case.files[name])):
                pass
        parts, joined = pieces(name, case.files[name])
        size = max(1, len(parts) // 2)
        while size and left > 0:
            at = 0
            while at < len(parts) and left > 0:
                kept = parts[:at] + parts[at + size :]
                if shows(name, joined(kept)):
                    parts = kept
                else:
                    at += size
            size //= 2
    return case


def spelled(data):
    text = data.decode("latin-1").replace("\\", "\\\\").replace("\r", "\\r").replace("\t", "\\t")
    return "".join(it if it == "\n" or " " <= it <= "~" else f"\\x{ord(it):02x}" for it in text)


def file_lines(name, data):
    if name != OBJECT:
        *whole, last = spelled(data).split("\n")
        return [f"{name}:", *(f"| {line}" for line in whole)] + ([f"\\ {last}"] if last else [])
    found = decoded(data)
    listing = assembly.listing(found).decode().splitlines() if found else []
    return [f"{name}: %hex {data.hex()}", *(f"# {line}" for line in listing)]


def row(kind, case):
    """The files in the form of a row, and the numbers."""
    lines = [f"== a difference of {kind}"] + [line for name, data in case.files.items() for line in file_lines(name, data)]
    numbers = [f"# {name} {shlex.join(value) if isinstance(value, list) else value}" for name, value in case.numbers.items()]
    return "\n".join(lines + numbers)
