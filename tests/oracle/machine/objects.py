"""Objects: the bytes of code, in version 2 with the source's exceptions and the places where labels start."""
import string
from dataclasses import dataclass

from oracle.machine import instructions as machine
from oracle.machine.instructions import NOWHERE, Code

BANK_BYTES = {"A": 0x00, "B": 0x10, "L": 0x20, "LD": 0x30, "S": 0x40, "SD": 0x50}
NOWHERE_BYTE = 0x60
MOST_INSTRUCTIONS, MOST_EXCEPTIONS, MOST_STARTS, MOST_NAME = 2**31 - 1, 65535, 1048576, 64
LETTERS = (string.ascii_letters + "_").encode()
NAME_BYTES = LETTERS + string.digits.encode()


class ObjectFault(Exception):
    """The first byte such that no object begins with the bytes up to it."""

    def __init__(self, at):
        super().__init__(at)
        self.at = at


@dataclass
class Object:
    version: int
    code: Code
    # Pairs of a line and a name.
    exceptions: list
    starts: list


def register_byte(register):
    return NOWHERE_BYTE if register == NOWHERE else BANK_BYTES[register[0]] + register[1]


def register_table(banks, has_nowhere=False):
    found = {register_byte(register): register for register in machine.registers(banks)}
    return found | ({NOWHERE_BYTE: NOWHERE} if has_nowhere else {})


SOURCES, ADDRESSES = register_table(machine.SOURCES), register_table(machine.ADDRESSES)
TARGETS = register_table(machine.TARGETS, True)


def encoded(instruction):
    kind, *parts = instruction
    if kind == "alu":
        target, operation, x, y = parts
        found = [0, machine.OPERATIONS.index(operation), *map(register_byte, (target, x, y)), 0, 0, 0]
    elif kind == "un":
        target, function, count, x = parts
        found = [1, machine.FUNCTIONS.index(function), register_byte(target), register_byte(x), count, 0, 0, 0]
    elif kind == "immed":
        target, number, shift = parts
        found = [2, shift, register_byte(target), 0, *number.to_bytes(2, "little"), 0, 0]
    elif kind == "br":
        found = [3, machine.CONDITIONS.index(parts[0]), 0, 0, *parts[1].to_bytes(4, "little")]
    elif kind == "halt":
        found = [6, parts[1], *parts[0].to_bytes(2, "little"), 0, 0, 0, 0]
    else:
        memory, first, count, address, offset = parts
        found = [4 if kind == "read" else 5, machine.MEMORIES.index(memory), first, count, register_byte(address), offset, 0, 0]
    return bytes(found)


def encode(object_):
    code = object_.code
    found = b"NVO%d" % object_.version + bytes([code.parameters, 0, 0, 0]) + len(code.instructions).to_bytes(4, "little")
    if object_.version == 2:
        found += len(object_.exceptions).to_bytes(4, "little") + len(object_.starts).to_bytes(4, "little")
    found += b"".join(map(encoded, code.instructions))
    for line, name in object_.exceptions:
        found += line.to_bytes(4, "little") + bytes([len(name)]) + name
    return found + b"".join(start.to_bytes(4, "little") for start in object_.starts)


class Decoder:
    """Takes the bytes one by one, and refuses at the first that can't stand there, or at the end."""

    def __init__(self, data):
        self.data, self.at = data, 0

    def byte(self, known=range(256)):
        """A byte that is known."""
        if self.at >= len(self.data) or self.data[self.at] not in known:
            raise ObjectFault(self.at)
        self.at += 1
        return self.data[self.at - 1]

    def zeros(self, count):
        for _ in range(count):
            self.byte((0,))

    def among(self, table):
        return table[self.byte(table)]

    def number(self, low, high, width=4):
        """A number, the lowest byte first; refused at the first byte after which no number within the limits is left."""
        value = 0
        for place in range(width):
            value |= self.byte() << (8 * place)
            step = 256 ** (place + 1)
            least = value + max(0, -(-(low - value) // step)) * step
            if least > high or least >= 256**width:
                raise ObjectFault(self.at - 1)
        return value

    def object(self):
        for letter in b"NVO":
            self.byte((letter,))
        version = int(chr(self.byte(b"12")))
        parameters = self.byte(range(machine.MOST_ARGUMENTS + 1))
        self.zeros(3)
        length = self.number(1, MOST_INSTRUCTIONS)
        exceptions = self.number(0, MOST_EXCEPTIONS) if version == 2 else 0
        starts = self.number(0, MOST_STARTS) if version == 2 else 0
        code = Code(parameters, [self.instruction() for _ in range(length)])
        found = Object(version, code, [self.exception() for _ in range(exceptions)], [self.number(0, length - 1) for _ in range(starts)])
        if self.at < len(self.data):
            raise ObjectFault(self.at)
        return found

    def exception(self):
        line = self.number(0, 2**32 - 1)
        length = self.byte(range(1, MOST_NAME + 1))
        return line, bytes(self.byte(NAME_BYTES if place else LETTERS) for place in range(length))

    def instruction(self):
        kind = self.byte(range(7))
        return (self.alu, self.un, self.immed, self.br, lambda: self.memory("read"), lambda: self.memory("write"), self.halt)[kind]()

    def alu(self):
        operation = machine.OPERATIONS[self.byte(range(5))]
        found = ("alu", self.among(TARGETS), operation, self.among(SOURCES), self.among(SOURCES))
        self.zeros(3)
        return found

    def un(self):
        function = machine.FUNCTIONS[self.byte(range(5))]
        target, source = self.among(TARGETS), self.among(SOURCES)
        count = self.byte(range(256) if function in machine.SHIFTS else (0,))
        self.zeros(3)
        return "un", target, function, count, source

    def immed(self):
        shift, target = self.byte(), self.among(TARGETS)
        self.zeros(1)
        number = self.number(0, 65535, 2)
        self.zeros(2)
        return "immed", target, number, shift

    def br(self):
        condition = machine.CONDITIONS[self.byte(range(5))]
        self.zeros(2)
        return "br", condition, self.number(0, 2**32 - 1)

    def memory(self, kind):
        memory = machine.MEMORIES[self.byte(range(3))]
        found = (kind, memory, self.byte(), self.byte(), self.among(ADDRESSES), self.byte())
        self.zeros(2)
        return found

    def halt(self):
        count, number = self.byte(), self.number(0, 65535, 2)
        self.zeros(4)
        return "halt", number, count


def decode(data):
    return Decoder(data).object()
