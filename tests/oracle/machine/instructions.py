"""Instructions of the microengine, and what one step of it does.

A register is a bank and a number; `NOWHERE` is the target of a result that is dropped. Instructions are
    ("alu", target, operation, x, y)     ("un", target, operation, count, x)     ("immed", target, number, shift)
    ("br", condition, place)             ("read" or "write", memory, first, count, address, offset)
    ("halt", number, count)
A read or a write has `count` registers from `first` on, and the address is a register and an offset."""
from dataclasses import dataclass

from oracle.base.memories import MASK, Log, is_own
from oracle.middle.meaning import binary, unary

MEMORIES = ("sram", "sdram", "scratch")
OPERATIONS = ("ADD", "SUB", "AND", "OR", "XOR")
FUNCTIONS = ("COPY", "NOT", "SHL", "SHR", "ROL")
SHIFTS = ("SHL", "SHR", "ROL")
CONDITIONS = ("ALWAYS", "Z", "NZ", "C", "NC")
BANKS = {"A": 16, "B": 16, "L": 8, "LD": 8, "S": 8, "SD": 8}
SOURCES, TARGETS, ADDRESSES = ("A", "B", "L", "LD"), ("A", "B", "S", "SD"), ("A", "B")
NOWHERE = ("none", 0)
MOST_ARGUMENTS = 8
# B15 has the address of the first spill slot, one of these.
SPILL_BASE = ("B", 15)
BASES = (512, 896)
SPILL_WORDS = 128
STRAIGHT = ("alu", "un", "immed")


@dataclass
class Code:
    parameters: int
    instructions: list


def registers(banks):
    return [(bank, number) for bank in banks for number in range(BANKS[bank])]


# ---- lawful code


def is_end(instruction):
    """The engine doesn't go on to the place after it."""
    return instruction[0] == "halt" or instruction[:2] == ("br", "ALWAYS")


def broken_rule(instruction, is_last, length):
    """The least rule that an instruction of code of this length breaks, or None."""
    kind = instruction[0]
    if kind == "alu":
        banks = [register[0].replace("LD", "L") for register in instruction[3:]]
        if banks[0] == banks[1]:
            return 1
    if kind in ("read", "write"):
        _, memory, first, count, _, offset = instruction
        if count < 1 or first + count > 8:
            return 2
        if memory == "sdram" and (first % 2 or count % 2):
            return 3
        if offset > 127:
            return 4
    if kind == "immed" and instruction[3] not in (0, 8, 16) or kind == "un" and instruction[2] in SHIFTS and not 1 <= instruction[3] <= 31:
        return 4
    if kind == "br" and instruction[2] >= length:
        return 5
    if kind == "halt" and instruction[2] > MOST_ARGUMENTS:
        return 6
    return 7 if is_last and not is_end(instruction) else None


def first_unlawful(code):
    """The first place whose instruction breaks a rule, and that rule, or None."""
    length = len(code.instructions)
    for place, instruction in enumerate(code.instructions):
        rule = broken_rule(instruction, place == length - 1, length)
        if rule:
            return place, rule
    return None


# ---- the engine


class Engine:
    """Registers, two flags and a place. `fill` gives what is in the registers and flags of which code may know nothing."""

    def __init__(self, arguments, base, fill=lambda: 0):
        self.values = {register: fill() for register in registers(BANKS)}
        self.values |= {("A", number): word for number, word in enumerate(arguments)}
        self.values[SPILL_BASE] = base
        self.zero, self.carry, self.place = bool(fill() & 1), bool(fill() & 1), 0

    def put(self, target, word):
        if target != NOWHERE:
            self.values[target] = word

    def holds(self, condition):
        return {"ALWAYS": True, "Z": self.zero, "NZ": not self.zero, "C": self.carry, "NC": not self.carry}[condition]

    def step(self, code, memories):
        """None, a write (memory, address, words), or an outcome."""
        instruction = code.instructions[self.place]
        kind = instruction[0]
        if kind == "halt":
            words = [self.values["A", number] for number in range(instruction[2])]
            return ("raised", instruction[1], words) if instruction[1] else ("ended", words)
        if kind in ("read", "write"):
            return self.access(instruction, memories)
        if kind == "br":
            self.place = instruction[2] if self.holds(instruction[1]) else self.place + 1
            return None
        if kind == "immed":
            self.put(instruction[1], instruction[2] << instruction[3] & MASK)
        elif kind == "alu":
            self.two_words(*instruction[1:])
        else:
            _, target, function, count, source = instruction
            word = self.values[source]
            word = word if function == "COPY" else unary(function, count, word)
            self.zero, self.carry = word == 0, False
            self.put(target, word)
        self.place += 1
        return None

    def two_words(self, target, operation, first, second):
        x, y = self.values[first], self.values[second]
        word = binary(operation, x, y)
        self.zero, self.carry = word == 0, x + y > MASK if operation == "ADD" else operation == "SUB" and x >= y
        self.put(target, word)

    def access(self, instruction, memories):
        kind, memory, first, count, source, offset = instruction
        address = self.values[source] + offset
        run = run_registers(instruction)
        if kind == "write":
            words = [self.values[register] for register in run]
            if not memories.write(memory, address, words):
                return "fault", memory, address
            self.place += 1
            return memory, address, words
        words = memories.read(memory, address, count)
        if words is None:
            return "fault", memory, address
        self.values.update(zip(run, words))
        self.place += 1
        return None


def run_registers(instruction):
    """The registers of a read or a write."""
    kind, memory, first, count = instruction[:4]
    bank = {"read": ("L", "LD"), "write": ("S", "SD")}[kind][memory == "sdram"]
    return [(bank, number) for number in range(first, first + count)]


def address_of(engine, instruction):
    return engine.values[instruction[4]] + instruction[5]


def run(code, engine, memories, steps, most=64, watch=None):
    """The outcome after at most so many steps, and the log, in which what the compiler writes for itself isn't. `watch` is called before
    each step, with its instruction, and after the last that didn't end the run, with None."""
    log = Log(most)
    for _ in range(steps):
        if watch:
            watch(engine, code.instructions[engine.place])
        result = engine.step(code, memories)
        if result and result[0] in ("ended", "raised", "fault"):
            return result, log
        if result and not is_own(*result[:2]):
            log.note(*result)
    if watch:
        watch(engine, None)
    return ("going",), log


# ---- what moves cost


def weight(instruction):
    """A copy between banks weighs 1, but for A15; an access to scratch at B15, the spill base, weighs 16."""
    if instruction[:1] + instruction[2:3] == ("un", "COPY"):
        target, source = instruction[1], instruction[4]
        return int(target != NOWHERE and target[0] != source[0] and ("A", 15) not in (target, source))
    return 16 if instruction[0] in ("read", "write") and instruction[1] == "scratch" and instruction[4] == SPILL_BASE else 0


def move_cost(code, starts=(), weight_of=lambda label: 1):
    """Each instruction's weight times that of the last label that starts at its place or before; before the first label it counts once."""
    cost = 0
    for place, instruction in enumerate(code.instructions):
        labels = [label for label, start in enumerate(starts) if start <= place]
        cost += weight(instruction) * (weight_of(labels[-1]) if labels else 1)
    return cost
