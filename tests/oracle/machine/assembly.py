"""Assembly texts, and the listing of an object."""
import re

from oracle.base.lines import LineFault, Lines
from oracle.machine import instructions as machine
from oracle.machine.instructions import NOWHERE, Code

NAME = re.compile(rb"[A-Za-z][A-Za-z0-9_]{0,63}")
MOST_TARGET = 2**32 - 1


class LabelFault(LineFault):
    """The first line with a label that is there twice, or a target that is nowhere."""


class LawFault(LineFault):
    """The first line whose instruction breaks a rule, and that rule."""

    def __init__(self, line, rule):
        super().__init__(line)
        self.rule = rule


def register_text(register):
    return "none" if register == NOWHERE else f"{register[0]}{register[1]}"


def instruction_text(instruction):
    kind, *parts = instruction
    if kind == "br":
        parts[1] = f"@{parts[1]}"
    if kind == "un":
        target, function, count, source = parts
        parts = [target, function, *([count] if function in machine.SHIFTS else []), source]
    return " ".join([kind, *(register_text(part) if isinstance(part, tuple) else str(part) for part in parts)])


def listing(object_):
    """The instructions, in version 2 with a line for each label that starts at a place."""
    lines = [f"params {object_.code.parameters}"]
    for place, instruction in enumerate(object_.code.instructions):
        lines += [f"L{label}:" for label, start in enumerate(object_.starts) if start == place]
        lines.append(instruction_text(instruction))
    return "".join(f"{line}\n" for line in lines).encode()


def register_table(banks, has_nowhere=False):
    found = {register_text(it).encode(): it for it in machine.registers(banks)}
    return found | ({b"none": NOWHERE} if has_nowhere else {})


def words_table(words):
    return {word.encode(): word for word in words}


TARGETS, SOURCES = register_table(machine.TARGETS, True), register_table(machine.SOURCES)
ADDRESSES, MEMORIES = register_table(machine.ADDRESSES), words_table(machine.MEMORIES)
OPERATIONS, FUNCTIONS = words_table(machine.OPERATIONS), words_table(machine.FUNCTIONS)
CONDITIONS = words_table(machine.CONDITIONS)
BYTE, HALF = (0, 255), (0, 65535)
# What stands behind the first word of an instruction: tables, or limits of numbers.
FORMS = {
    b"alu": (TARGETS, OPERATIONS, SOURCES, SOURCES),
    b"immed": (TARGETS, HALF, BYTE),
    b"read": (MEMORIES, BYTE, BYTE, ADDRESSES, BYTE),
    b"write": (MEMORIES, BYTE, BYTE, ADDRESSES, BYTE),
    b"halt": (HALF, BYTE),
}


class Assembler:
    def __init__(self, text):
        self.lines = Lines(text)
        # Each instruction with its line, and the lines and places of labels.
        self.found, self.labels = [], []

    def part(self, part, form):
        if isinstance(form, tuple):
            if len(part) > 10:
                self.lines.refuse()
            return self.lines.number(part, *form)
        if part not in form:
            self.lines.refuse()
        return form[part]

    def parts(self, parts, forms):
        if len(parts) != len(forms):
            self.lines.refuse()
        return [self.part(part, form) for part, form in zip(parts, forms)]

    def instruction(self, key, parts):
        if key == b"br":
            if len(parts) != 2 or parts[1][:1] != b"@" and not NAME.fullmatch(parts[1]):
                self.lines.refuse()
            condition = self.part(parts[0], CONDITIONS)
            return "br", condition, self.part(parts[1][1:], (0, MOST_TARGET)) if parts[1][:1] == b"@" else parts[1]
        if key == b"un":
            is_shift = len(parts) > 1 and parts[1].decode("latin-1") in machine.SHIFTS
            found = self.parts(parts, (TARGETS, FUNCTIONS, *([BYTE] if is_shift else []), SOURCES))
            return "un", found[0], found[1], found[2] if is_shift else 0, found[-1]
        if key not in FORMS:
            self.lines.refuse()
        return key.decode(), *self.parts(parts, FORMS[key])

    def line(self):
        line = self.lines.next()
        if line.endswith(b":") and NAME.fullmatch(line[:-1]):
            self.labels.append((self.lines.taken, line[:-1], len(self.found)))
        else:
            key, *parts = line.split(b" ")
            self.found.append((self.lines.taken, self.instruction(key, parts)))

    def code(self):
        parameters = self.lines.keyed(b"params", 0, machine.MOST_ARGUMENTS)
        while self.lines.are_left():
            self.line()
        if not self.found:
            raise LineFault(self.lines.taken + 1)
        places = {}
        for _, name, place in self.labels:
            places.setdefault(name, place)
        wrong = [line for at, (line, name, _) in enumerate(self.labels) if name in {it[1] for it in self.labels[:at]}]
        wrong += [line for line, it in self.found if it[0] == "br" and isinstance(it[2], bytes) and it[2] not in places]
        if wrong:
            raise LabelFault(min(wrong))
        code = Code(parameters, [(*it[:2], places[it[2]]) if it[0] == "br" and it[2] in places else it for _, it in self.found])
        unlawful = machine.first_unlawful(code)
        if unlawful:
            raise LawFault(self.found[unlawful[0]][0], unlawful[1])
        return code


def assemble(text):
    """The lawful code of a text, or its first fault."""
    return Assembler(text).code()
