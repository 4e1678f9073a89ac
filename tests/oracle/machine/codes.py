"""Code, objects, assembly texts and schedules made at random, and near misses of them."""
from oracle.machine import assembly, objects
from oracle.machine import instructions as machine
from oracle.machine.instructions import NOWHERE, Code
from oracle.machine.objects import Object

EDGES = (0, 1, 2, 3, 7, 8, 0xFF, 0x100, 0xFFFF, 0x10000, 0x7FFFFFFF, 0x80000000, 0xFFFFFFFE, 0xFFFFFFFF)
REGISTER_EDGES = (0x10, 0x20, 0x28, 0x2F, 0x38, 0x48, 0x50, 0x58, 0x60, 0x61)
BYTE_EDGES = (0, 1, 2, 7, 8, 9, 15, 16, 31, 32, 127, 128, 255)
LETTERS = "abcxyzABCXYZ"
ADDRESS_REGISTERS = [("A", 12), ("B", 12)]


def word(random):
    return random.choice((random.choice(EDGES), random.randrange(2**32)))


def register(random, banks):
    bank = random.choice(banks)
    return bank, random.choice((random.randrange(4), random.randrange(machine.BANKS[bank])))


def target(random):
    return NOWHERE if random.random() < 0.08 else register(random, ("A", "A", "B", "B", "S", "SD"))


def straight(random):
    """A lawful instruction that computes."""
    kind = random.choice(("alu", "alu", "un", "un", "immed"))
    if kind == "immed":
        return "immed", target(random), random.choice((0, 0, 1, 65535, random.randrange(65536))), random.choice((0, 0, 8, 16))
    if kind == "un":
        function = random.choice(("COPY", *machine.FUNCTIONS))
        count = random.randint(1, 31) if function in machine.SHIFTS else 0
        return "un", target(random), function, count, register(random, machine.SOURCES)
    while True:
        operands = register(random, machine.SOURCES), register(random, machine.SOURCES)
        found = ("alu", target(random), random.choice(machine.OPERATIONS), *operands)
        if machine.broken_rule(found, False, 1) is None:
            return found


def access(random):
    """An address that mostly lies inside, and a read or a write there."""
    memory = random.choice(machine.MEMORIES)
    first = random.choice((0, 2, 4, 6)) if memory == "sdram" else random.randrange(8)
    count = random.choice([it for it in range(1, 9 - first) if memory != "sdram" or it % 2 == 0])
    edges = (508, 510, 511, 512, 512, 513, 1016, 1020, 1023) if memory == "scratch" else (600, 65535)
    address = random.choice((random.randrange(8), random.randrange(24), random.choice(edges)))
    source = random.choice(ADDRESS_REGISTERS)
    kind = random.choice(("read", "write"))
    if random.random() < 0.2:
        address = random.choice((register(random, machine.ADDRESSES), machine.SPILL_BASE))
        return [(kind, memory, first, count, address, random.randrange(128))]
    return [("immed", source, address, 0), (kind, memory, first, count, source, random.choice((0, 0, 1, 127)))]


def near_duplicate(random, code):
    """One of the instructions before again, or a test or a copy back of one: needless ones, if nothing else stands between."""
    last = code[-1] if code else straight(random)
    found = random.choice(code[-3:] or [last])
    if last[0] == "un" and last[1] != NOWHERE and last[1][0] in "AB" and random.random() < 0.7:
        return "un", last[4] if last[4][0] in "AB" else NOWHERE, "COPY", 0, last[1]
    if last[0] == "immed" and last[1] != NOWHERE and last[1][0] == "B":
        return "alu", NOWHERE, "SUB", ("A", random.randrange(4)), last[1]
    if last[0] == "alu" and last[1] != NOWHERE and last[1][0] in "AB":
        return "un", NOWHERE, "COPY", 0, last[1]
    return found if found[0] in machine.STRAIGHT else straight(random)


def loop(random, first):
    """Accesses that are made so many times, at places from this one on."""
    counter, one = ("B", 14), ("A", 14)
    body = [instruction for _ in range(random.randint(1, 2)) for instruction in access(random)]
    before = [("immed", counter, random.choice((3, 20, 64, 65, 70)), 0), ("immed", one, 1, 0)]
    return [*before, *body, ("alu", counter, "SUB", counter, one), ("br", "NZ", first + len(before))]


def lawful_code(random):
    found = loop(random, 0) if random.random() < 0.2 else []
    for _ in range(random.randint(0, 24)):
        draw = random.random()
        if draw < 0.45:
            found.append(straight(random))
        elif draw < 0.65:
            found.append(near_duplicate(random, found))
        elif draw < 0.85:
            found += access(random)
        elif draw < 0.97:
            found.append(("br", random.choice(machine.CONDITIONS), None))
        else:
            found.append(end(random))
    found.append(end(random) if random.random() < 0.9 else ("br", "ALWAYS", None))
    last = len(found) - 1
    # Mostly a later place, so that most runs end.
    branched = [
        (*it[:2], random.choice((min(last, place + random.randint(1, 5)), random.randint(0, last)))) if it[-1] is None else it
        for place, it in enumerate(found)
    ]
    return Code(random.choice((0, 1, 2, 8)), branched)


def end(random):
    return "halt", random.choice((0, 0, 0, 1, 2, 300)), random.randint(0, 8)


def unlawful_code(random):
    """Lawful code with an instruction that mostly breaks a rule."""
    code = lawful_code(random)
    edge = lambda: random.choice(BYTE_EDGES)
    made = random.choice((
        ("alu", target(random), "ADD", register(random, machine.SOURCES), register(random, machine.SOURCES)),
        (random.choice(("read", "write")), random.choice(machine.MEMORIES), edge(), edge(), register(random, machine.ADDRESSES), edge()),
        ("immed", target(random), random.randrange(65536), edge()),
        ("un", target(random), random.choice(machine.SHIFTS), edge(), register(random, machine.SOURCES)),
        ("br", random.choice(machine.CONDITIONS), random.choice((0, len(code.instructions), 2**32 - 1))),
        ("halt", random.randrange(65536), edge()),
    ))
    code.instructions[random.randrange(len(code.instructions))] = made
    return code


def any_code(random):
    return random.choice((lawful_code, lawful_code, unlawful_code))(random)


def made_object(random, code, is_shaped=False):
    """An object of either version. `is_shaped`: its starts begin with 0, rise, and are run into from nowhere."""
    if random.random() < 0.4:
        return Object(1, code, [], [])
    exceptions = [(random.choice((0, 1, 300, 2**32 - 1)), name(random).encode()) for _ in range(random.randint(0, 3))]
    places = range(len(code.instructions))
    if is_shaped:
        possible = [place for place in places if place == 0 or machine.is_end(code.instructions[place - 1])]
        starts = [place for place in possible if place == 0 or random.random() < 0.6]
    else:
        starts = [random.choice(places) for _ in range(random.randint(0, 4))]
        starts = sorted(starts) if random.random() < 0.5 else starts
    return Object(2, code, exceptions, starts)


def name(random):
    return random.choice(LETTERS) + "".join(random.choice(LETTERS + "019_") for _ in range(random.choice((0, 1, 5, 62, 63))))


def near_object(random, data):
    """The bytes with some of them changed, taken out or put in, or with another count in the head."""
    data = bytearray(data)
    if random.random() < 0.15:
        at, count = random.choice((8, 12, 16)), len(data) // 8
        edges = (0, 1, count, count + 1, 65535, 65536, 2**20, 2**20 + 1, 2**31 - 1, 2**31, 2**32 - 1)
        data[at : at + 4] = random.choice(edges).to_bytes(4, "little")
        return bytes(data[: random.choice((len(data), 20, 12, 10))])
    for _ in range(random.choice((1, 1, 2))):
        at = random.choice((random.randrange(len(data)), random.randrange(min(24, len(data)))))
        draw = random.random()
        if draw < 0.7:
            data[at] = random.choice((*range(10), *REGISTER_EDGES, 0x80, 0xFF, random.randrange(256)))
        elif draw < 0.8:
            del data[at:]
        elif draw < 0.9:
            data.insert(at, random.choice((0, 1, 255)))
        else:
            del data[at]
        if not data:
            return bytes(data)
    return bytes(data)


def assembly_text(random, code):
    """The listing, with labels for some of its targets."""
    lines = assembly.listing(Object(1, code, [], [])).decode().splitlines()
    names = {place: name(random) for place in range(len(code.instructions) + 1)}
    used = {it[2] for it in code.instructions if it[0] == "br" and it[2] in names and random.random() < 0.6}
    for place, instruction in enumerate(code.instructions):
        if instruction[0] == "br" and instruction[2] in used:
            lines[place + 1] = f"br {instruction[1]} {names[instruction[2]]}"
    for place in sorted(used, reverse=True):
        lines.insert(place + 1, f"{names[place]}:")
    return "".join(f"{line}\n" for line in lines).encode()


NEAR_WORDS = (
    *"0 00 01 -1 +1 -0 -2 8 9 31 32 127 128 255 256 65535 65536 65537 4294967295 4294967296 99999999999".split(),
    *"x A16 B15 L8 S0 LD0 SD7 none a0 COPY SHL ADD Z ALWAYS @0 @ x: halt br sram sdram scratch args run".split(),
    *"00000000 0000000g FFFFFFFF ffffFFFF 0:1 1:-1 c r d k o b l".split(), "",
)


def near_text(random, text, words=NEAR_WORDS):
    """A text of lines with a line, a word or a byte that is changed, taken out, doubled or put in."""
    for _ in range(random.choice((1, 1, 1, 2))):
        lines = text.split(b"\n")
        at = random.randrange(len(lines))
        draw = random.random()
        if draw < 0.45:
            parts = lines[at].split(b" ")
            place = random.randrange(len(parts))
            new = [random.choice((random.choice(words).encode(), random.choice(parts)))]
            parts[place : place + random.choice((0, 1, 1, 1))] = random.choice((new, new, new, []))
            lines[at] = b" ".join(parts)
        elif draw < 0.6:
            lines.insert(at, random.choice(lines))
        elif draw < 0.7:
            del lines[at]
        elif draw < 0.8:
            other = random.randrange(len(lines))
            lines[at], lines[other] = lines[other], lines[at]
        else:
            place = random.randrange(len(text) + 1)
            inserted = bytes([random.choice(b" \n\r\t0189afxLAB:@-.\x00\xff")])
            return text[:place] + random.choice((b"", inserted)) + text[place + random.randint(0, 1) :]
        text = b"\n".join(lines)
    return text


def schedule(random, parameters):
    count = random.randint(1, 4)
    lines = [f"contexts {count}"] + ["args" + "".join(f" {word(random):08x}" for _ in range(parameters)) for _ in range(count - 1)]
    lines += [f"run {random.randrange(count)} {random.choice((1, 1, 2, 3, 5, 10, 100))}" for _ in range(random.randint(0, 12))]
    return "".join(f"{line}\n" for line in lines).encode()


def memory(random, parameters):
    """A memory text for such code."""
    sizes = random.choice(((0, 0), (24, 12), (24, 12), (9, 4), (600, 70), (65536, 1), (1, 65536)))
    lines = [f"memory {sizes[0]} {sizes[1]}", "args" + "".join(f" {word(random):08x}" for _ in range(parameters))]
    for kind, size in zip(machine.MEMORIES, (*sizes, 512)):
        for _ in range(random.randint(0, 2)):
            count = random.choice((2, 4, 8)) if kind == "sdram" else random.randint(1, 8)
            most = size - (count // 2 if kind == "sdram" else count)
            if most >= 0:
                words = "".join(random.choice((f" {it:08x}", f" {it:08X}")) for it in (word(random) for _ in range(count)))
                lines.append(f"{kind} {random.choice((0, most, random.randint(0, most)))}{words}")
    return "".join(f"{line}\n" for line in lines).encode()
