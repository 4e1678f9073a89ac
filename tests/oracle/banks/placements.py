"""Placements: where each value of a form is kept, how each use is served, which of them fit, and what they cost.

A place is a bank and a number: A and B, the read registers L and LD, the write registers S and SD, or Slot."""
import itertools
from dataclasses import dataclass

from oracle.banks.program import first_registers, name_of

HOME_BANKS = ("A", "B", "Slot")
READ_BANKS, WRITE_BANKS = ("L", "LD"), ("S", "SD")
BANK_OF_HOME = {"A": "A", "B": "B", "M": "Slot"}
# A15 is the compiler's own.
OWN = ("A", 15)
GENERAL_REGISTERS = 15
SLOT_ACCESS, COPY_AND_ACCESS, SLOT_TO_SLOT = 16, 17, 33


@dataclass
class Home:
    """Where a value is first put, and where it is copied directly after its definition: to A, B, a slot, then to write registers."""

    defined: tuple
    copied: list

    def lasting(self):
        """The places from which uses are served."""
        return [place for place in (self.defined, *self.copied) if place[0] not in WRITE_BANKS]


@dataclass
class Placement:
    """`homes` by variable, `firsts` by the point of an access, `serves` by the name of a use: from which place, and where it is wanted.
    `read_passes` and `write_passes` are the registers through which slots are read and written, by point."""

    homes: dict
    firsts: dict
    serves: dict
    read_passes: dict
    write_passes: dict


def read_register(value, first):
    return ("LD" if value.point.node.memory == "sdram" else "L"), first + value.position


def write_register(use, first):
    return ("SD" if use.point.node.memory == "sdram" else "S"), first + use.position


def housed(form):
    """The values that have a home: all but read ones that nothing uses."""
    return [value for value in form.values if value.kind != "read" or value.uses]


def is_early(placement, use):
    """The word was put into its write register directly after its value's definition."""
    return use.role == "written" and placement.serves[name_of(use)][0][0] in WRITE_BANKS


def parameter_of(form, use):
    return form.labels[use.point.node.number].parameters[use.position]


# ---- from vectors and to them


class VectorReader:
    """Reads the placement that a vector of the bank program says. Registers and slots are numbered in the order of the values: each gets
    the least number that no value has which is live behind its definition."""

    def __init__(self, banks, chosen):
        self.form, self.banks = banks.form, banks
        self.on = {banks.columns[column] for column in chosen}
        self.numbers = {}
        self.firsts = {name[1]: name[2] for name in self.on if name[0] == "first"}
        passes = sorted(name for name in self.on if name[0] in ("pasL", "pasS"))
        self.read_passes, self.write_passes = {}, {}
        for kind, point, register in passes:
            (self.read_passes if kind == "pasL" else self.write_passes).setdefault(point, register)

    def placement(self):
        for value in self.form.values:
            self.number(value)
        homes = {value.variable: self.home(value) for value in housed(self.form)}
        serves = {name_of(use): self.serve(use, homes) for use in self.form.uses}
        return Placement(homes, self.firsts, serves, self.read_passes, self.write_passes)

    def number(self, value):
        behind = value.point.before if value.point.is_entry() else value.point.next[0].before
        for home, bank in BANK_OF_HOME.items():
            if ("def", value.variable, home) in self.on or ("fill", value.variable, home) in self.on:
                taken = {self.numbers.get((bank, other)) for other in behind}
                self.numbers[bank, value.variable] = next(it for it in itertools.count() if it not in taken)

    def place(self, variable, home):
        bank = BANK_OF_HOME[home]
        return bank, self.numbers[bank, variable]

    def early_first(self, kind, use):
        return next((name[2] for name in self.on if name[:2] == (kind, name_of(use))), None)

    def home(self, value):
        copied = [self.place(value.variable, home) for home in BANK_OF_HOME if ("fill", value.variable, home) in self.on]
        ears = [(use, self.early_first("ear", use)) for use in value.uses]
        copied += [write_register(use, first) for use, first in ears if first is not None]
        if value.kind == "read":
            return Home(read_register(value, self.firsts[value.point.number]), copied)
        for use in value.uses:
            first = self.early_first("dir", use)
            if first is not None:
                return Home(write_register(use, first), copied)
        return Home(next(self.place(value.variable, home) for home in BANK_OF_HOME if ("def", value.variable, home) in self.on), copied)

    def serve(self, use, homes):
        for kind in ("dir", "ear"):
            first = self.early_first(kind, use)
            if first is not None:
                return (write_register(use, first),) * 2
        _, _, home, place = next(name for name in self.on if name[:2] == ("srv", name_of(use)))
        source = homes[use.value.variable].defined if home == "T" else self.place(use.value.variable, home)
        if use.role == "written":
            return source, write_register(use, self.firsts[use.point.number])
        if use.role == "end":
            return source, ("A", use.position)
        if use.role == "argument":
            return source, homes[parameter_of(self.form, use)].defined
        return source, OWN if place == "A15" else ("L", self.read_passes[use.point.number]) if place == "L" else source


def of_vector(banks, chosen):
    return VectorReader(banks, chosen).placement()


class NoColumn(Exception):
    """A placement has something for which there is no column."""


def home_letter(place):
    return {"A": "A", "B": "B", "Slot": "M", "L": "T", "LD": "T"}.get(place[0])


def to_vector(banks, placement):
    """The columns that are 1 in the vector that the placement stands for."""
    form, found = banks.form, set()

    def choose(*name):
        if name not in banks.numbers:
            raise NoColumn(name)
        found.add(banks.numbers[name])

    for kind, by_point in (("first", placement.firsts), ("pasL", placement.read_passes), ("pasS", placement.write_passes)):
        for point, register in by_point.items():
            choose(kind, point, register)
    for value in housed(form):
        home, early = placement.homes[value.variable], [use for use in value.uses if is_early(placement, use)]
        if home.defined[0] in WRITE_BANKS:
            choose("dir", *direct(placement, home, early.pop(0) if early else None))
        elif value.kind != "read":
            choose("def", value.variable, home_letter(home.defined))
        for place in home.copied:
            if place[0] in HOME_BANKS:
                choose("fill", value.variable, home_letter(place))
        for use in early:
            choose("ear", name_of(use), placement.firsts[use.point.number])
    for use in form.uses:
        source, at = placement.serves[name_of(use)]
        if not is_early(placement, use):
            home = home_letter(source)
            choose("srv", name_of(use), home, service_place(use, home, at))
            if home == "T":
                choose("stay", use.value.variable, placement.firsts[use.value.point.number])
    return found


def direct(placement, home, use):
    """The name of the word that a value is put into."""
    if use is None or home.defined != write_register(use, placement.firsts[use.point.number]):
        raise NoColumn(home)
    return name_of(use), placement.firsts[use.point.number]


def service_place(use, home, at):
    if use.role == "written":
        return "W"
    if at == OWN and use.role in ("operand", "address"):
        return "A15"
    return "L" if home == "M" and use.role == "operand" else home_letter(at)


# ---- which fit


class Fitting:
    """The rules that a placement breaks, one by one."""

    def __init__(self, form, slots, placement):
        self.form, self.slots, self.placement = form, slots, placement
        self.early = [use for use in form.uses if is_early(placement, use)]
        # The values that stay in their read register until some use.
        self.staying = {use.value.variable for use in form.uses if placement.serves[name_of(use)][0][0] in READ_BANKS}

    def faults(self):
        accesses = [point for point in self.form.points if point.node and point.node.access()]
        found = [f"the access at {it.number}" for it in accesses if self.first(it) not in first_registers(*it.node.access())]
        found += [f"the home of {value.variable}" for value in housed(self.form) if not self.is_home(value)]
        found += [f"the use {name_of(use)}" for use in self.form.uses if not self.is_served(use)]
        return found + [fault for point in self.form.points for fault in self.point_faults(point)]

    def first(self, point):
        return self.placement.firsts[point.number]

    def is_general(self, place):
        """A register or a slot that can be a home."""
        return place[0] in HOME_BANKS and 0 <= place[1] < (self.slots if place[0] == "Slot" else GENERAL_REGISTERS)

    def is_home(self, value):
        home = self.placement.homes[value.variable]
        early = [write_register(use, self.first(use.point)) for use in value.uses if use in self.early]
        if home.defined[0] in WRITE_BANKS:
            return value.kind == "result" and len(value.uses) == 1 and early == [home.defined] and not home.copied
        if value.kind == "read":
            is_defined = home.defined == read_register(value, self.first(value.point))
        else:
            is_defined = self.is_general(home.defined) and not (home.copied and home.defined[0] == "Slot")
        copies = [place for place in home.copied if place[0] not in WRITE_BANKS]
        banks = [place[0] for place in copies]
        in_order = banks == [bank for bank in HOME_BANKS if bank in banks and bank != home.defined[0]]
        is_copied = in_order and all(map(self.is_general, copies)) and home.copied == copies + early
        return is_defined and is_copied and (value.uses or not home.copied)

    def is_served(self, use):
        source, at = self.placement.serves[name_of(use)]
        if use in self.early:
            return source == at == write_register(use, self.first(use.point))
        if source not in self.placement.homes[use.value.variable].lasting():
            return False
        if use.role == "written":
            return at == write_register(use, self.first(use.point))
        if use.role == "end":
            return at == ("A", use.position)
        if use.role == "argument":
            return at == self.placement.homes[parameter_of(self.form, use)].defined
        if at == OWN:
            return source[0] != "A" and (use.role == "operand" or source[0] != "B")
        if source[0] == "Slot":
            return use.role == "operand" and at == ("L", self.placement.read_passes.get(use.point.number))
        return at == source and (use.role == "operand" or source[0] not in READ_BANKS)

    def point_faults(self, point):
        owners = self.owners(point)
        found = [f"{place} is wanted twice at {point.number}" for place in {it for it in owners if owners.count(it) > 1}]
        if point.node and point.node.kind in ("binary", "if"):
            groups = [self.placement.serves[name_of(use)][1][0].replace("LD", "L") for use in point.uses]
            found += [f"two operands of one bank at {point.number}"] * (groups[0] == groups[1])
        return found + self.read_faults(point) + self.pass_faults(point)

    def owners(self, point):
        """Each register and slot as often as something wants it at the point."""
        placement, number = self.placement, point.number
        held = self.form.held(point.before)
        found = [place for value in held for place in placement.homes[value.variable].lasting() if place[0] in HOME_BANKS]
        found += [placement.homes[value.variable].defined for value in held if value.variable in self.staying]
        found += [("L", register) for it, register in placement.read_passes.items() if it == number]
        found += [("S", register) for it, register in placement.write_passes.items() if it == number]
        if point.node and point.node.kind == "write":
            memory, count = point.node.access()
            found += [("SD" if memory == "sdram" else "S", self.first(point) + it) for it in range(count)]
        for use in self.early:
            is_defined = use.value.point is point or use.value.point.is_above(point)
            found += [write_register(use, self.first(use.point))] * (is_defined and point.is_above(use.point))
        return found

    def read_faults(self, point):
        """A read fills no register in which another value stays that is live after it."""
        if not point.node or point.node.kind != "read":
            return []
        memory, count = point.node.access()
        run = [("LD" if memory == "sdram" else "L", self.first(point) + it) for it in range(count)]
        others = [value for value in self.form.held(point.after()) if value.point is not point and value.variable in self.staying]
        return [f"{it.variable} is read over at {point.number}" for it in others if self.placement.homes[it.variable].defined in run]

    def pass_faults(self, point):
        """Registers for slots are named where slots are read and written, and only where there is a use, or a value that is used."""
        placement, number = self.placement, point.number
        reads = any(placement.serves[name_of(use)][0][0] == "Slot" for use in point.uses)
        used = [value for value in point.values if value.uses]
        writes = any(
            "Slot" in [place[0] for place in placement.homes[value.variable].copied]
            or value.kind == "result" and placement.homes[value.variable].defined[0] == "Slot"
            for value in used
        )
        found = []
        for passes, is_wanted, may_be in ((placement.read_passes, reads, point.uses), (placement.write_passes, writes, used)):
            register = passes.get(number)
            is_right = not is_wanted if register is None else register in range(8) and may_be
            found += [] if is_right else [f"the register for slots at {number}"]
        return found


def faults(form, slots, placement):
    return Fitting(form, slots, placement).faults()


# ---- what they cost


def served_cost(source, at):
    if source[0] == "Slot":
        if at[0] == "Slot":
            return SLOT_TO_SLOT
        return SLOT_ACCESS if at[0] == "L" or at == OWN else COPY_AND_ACCESS
    return COPY_AND_ACCESS if at[0] == "Slot" else int(source[0] != at[0])


def definition_cost(value, place):
    if value.kind == "parameter" and value.point.label == 0:
        return {"A": 0, "Slot": COPY_AND_ACCESS}.get(place[0], 1)
    return SLOT_ACCESS if value.kind == "result" and place[0] == "Slot" else 0


def cost(form, placement, weight=lambda label: 1):
    """What the copies and the accesses to slots weigh that a placement asks for, each by the weight of its label."""
    found = 0
    for value in housed(form):
        home = placement.homes[value.variable]
        copies = sum(COPY_AND_ACCESS if place[0] == "Slot" else 1 for place in home.copied)
        found += (definition_cost(value, home.defined) + copies) * weight(value.point.label)
    return found + sum(served_cost(*placement.serves[name_of(use)]) * weight(use.point.label) for use in form.uses)


def near(random, form, placement):
    """The placement with one thing of it changed."""
    homes = {name: Home(home.defined, list(home.copied)) for name, home in placement.homes.items()}
    found = Placement(homes, dict(placement.firsts), dict(placement.serves), dict(placement.read_passes), dict(placement.write_passes))
    places = [(bank, random.randrange(4)) for bank in ("A", "B", "Slot", "L", "LD", "S", "SD")] + [OWN]
    change = random.randrange(7)
    if change == 0 and homes:
        home = homes[random.choice(list(homes))]
        home.defined = random.choice(places)
    elif change == 1 and homes:
        home = homes[random.choice(list(homes))]
        home.copied = random.choice((home.copied[1:], home.copied + [random.choice(places)], [random.choice(places)] + home.copied))
    elif change == 2 and found.firsts:
        found.firsts[random.choice(list(found.firsts))] = random.randrange(8)
    elif change in (3, 4) and found.serves:
        use = random.choice(form.uses)
        source, at = found.serves[name_of(use)]
        home = homes[use.value.variable]
        source = random.choice((source, home.defined, *home.copied, random.choice(places)))
        found.serves[name_of(use)] = source, random.choice((at, source, OWN, random.choice(places)))
    else:
        passes = random.choice((found.read_passes, found.write_passes))
        point = random.choice(form.points).number
        if point in passes and random.random() < 0.5:
            del passes[point]
        else:
            passes[point] = random.randrange(8)
    return found
