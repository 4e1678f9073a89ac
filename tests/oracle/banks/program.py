"""The bank program of a single-use form: a column for each way to keep a value or to serve a use, and rows that say which go together.

A column is a name with what it is for: ("def", variable, home), ("dir", use, first), ("fill", variable, home), ("stay", variable, first),
("ear", use, first), ("first", point, first), ("srv", use, home, place), ("pasL", point, register), ("pasS", point, register). A use is
named by its point and operand. A home is A, B, M (a slot) or, of a read value, T: the register into which it was read.

def is where a value is first put, fill a copy made directly after its definition, dir and ear a word put early into its write register,
srv how a use is served, pasL and pasS a register through which slots are read and written."""
from oracle.zo.programs import Program, Row

HOMES = ("A", "B", "M")
REGISTERS = range(8)
BANK_SIZES = (("A", 15), ("B", 15))
FIRST_PARAMETER_COSTS, PARAMETER_COSTS, RESULT_COSTS, FILL_COSTS = (0, 1, 17), (0, 0, 0), (0, 0, 16), (1, 1, 17)
EAR_COST = 1
# How a use of each role is served: from a home, at a place, at a cost.
SERVICES = {
    "operand": [("A", "A", 0), ("B", "B", 0), ("T", "T", 0), ("M", "L", 16), ("M", "A15", 16), ("B", "A15", 1), ("T", "A15", 1)],
    "address": [("A", "A", 0), ("B", "B", 0), ("T", "A15", 1), ("M", "A15", 16)],
    "written": [("A", "W", 1), ("B", "W", 1), ("T", "W", 1), ("M", "W", 17)],
    "argument": [
        ("A", "A", 0), ("A", "B", 1), ("A", "M", 17), ("B", "A", 1), ("B", "B", 0), ("B", "M", 17), ("T", "A", 1), ("T", "B", 1),
        ("T", "M", 17), ("M", "A", 17), ("M", "B", 17), ("M", "M", 33),
    ],
    "end": [("A", "A", 0), ("B", "A", 1), ("T", "A", 1), ("M", "A", 17)],
}
# Operands of one instruction come from different ones of these groups.
OPERAND_GROUPS = (("A", "A15"), ("B",), ("L", "T"))


def first_registers(memory, count):
    """The registers at which a run of so many words may begin."""
    return [first for first in REGISTERS if first + count <= 8 and (memory != "sdram" or first % 2 == 0)]


def read_bank(memory):
    return "LD" if memory == "sdram" else "L"


def name_of(use):
    return use.point.number, use.operand


class BankProgram:
    def __init__(self, form, slots, weight=lambda label: 1):
        self.form, self.slots, self.weight = form, slots, weight
        # The number of each column, and the columns in order.
        self.numbers, self.columns, self.costs, self.rows = {}, [], [], []
        self.used = [value for value in form.values if value.uses]
        self.written = [use for use in form.uses if use.role == "written"]
        self.accesses = [point for point in form.points if point.node and point.node.access()]
        self.add_columns()
        self.add_choices()
        self.add_covers()
        self.add_operand_groups()
        self.add_capacities()
        self.add_owners()
        self.add_adjacencies()
        self.add_passes()

    def program(self):
        return Program(self.costs, self.rows)

    # ---- columns, family by family

    def column(self, point, cost, *name):
        """A column costs by the weight of its point's label."""
        self.numbers[name] = len(self.costs)
        self.columns.append(name)
        self.costs.append(cost * self.weight(point.label))

    def add_columns(self):
        form = self.form
        for value in form.values:
            for home, cost in self.definition_costs(value):
                self.column(value.point, cost, "def", value.variable, home)
        for use in self.written:
            if use.value.kind == "result":
                for first in first_registers(*use.point.node.access()):
                    self.column(use.point, 0, "dir", name_of(use), first)
        for value in self.used:
            for home, cost in zip(HOMES, FILL_COSTS):
                self.column(value.point, cost, "fill", value.variable, home)
        for value in self.used:
            if value.kind == "read":
                for first in first_registers(*value.point.node.access()):
                    self.column(value.point, 0, "stay", value.variable, first)
        for use in self.written:
            for first in first_registers(*use.point.node.access()):
                self.column(use.point, EAR_COST, "ear", name_of(use), first)
        for point in self.accesses:
            for first in first_registers(*point.node.access()):
                self.column(point, 0, "first", point.number, first)
        for use in form.uses:
            for home, place, cost in self.services(use):
                self.column(use.point, cost, "srv", name_of(use), home, place)
        for kind, points in (("pasL", [it for it in form.points if it.uses]), ("pasS", self.defining_points())):
            for point in points:
                for register in REGISTERS:
                    self.column(point, 0, kind, point.number, register)

    def definition_costs(self, value):
        if value.kind == "read":
            return []
        if value.kind == "result":
            return list(zip(HOMES, RESULT_COSTS))
        return list(zip(HOMES, PARAMETER_COSTS if value.point.label else FIRST_PARAMETER_COSTS))

    def defining_points(self):
        """The points that define a value which is used."""
        return [point for point in self.form.points if any(value.uses for value in point.values)]

    def services(self, use):
        return [it for it in SERVICES[use.role] if it[0] != "T" or use.value.kind == "read"]

    # ---- names of columns; those that aren't there are left out of rows

    def definitions(self, variable):
        return [("def", variable, home) for home in HOMES]

    def at_home(self, variable, home):
        return [("def", variable, home), ("fill", variable, home)]

    def served(self, use, homes=None, places=None):
        return [
            ("srv", name_of(use), home, place)
            for home, place, _ in SERVICES[use.role]
            if (homes is None or home in homes) and (places is None or place in places)
        ]

    def early(self, kind, use):
        return [(kind, name_of(use), first) for first in REGISTERS]

    def firsts(self, point):
        return [("first", point.number, first) for first in REGISTERS]

    def passing(self, kind, point):
        return [(kind, point.number, register) for register in REGISTERS]

    # ---- rows

    def row(self, least, plus, minus=()):
        terms = {}
        for sign, names in ((1, plus), (-1, minus)):
            for name in names:
                if name in self.numbers:
                    number = self.numbers[name]
                    terms[number] = terms.get(number, 0) + sign
        self.rows.append(Row(least, sorted((number, term) for number, term in terms.items() if term)))

    def at_most(self, most, names):
        self.row(-most, [], names)

    def exactly_one(self, names):
        self.row(1, names)
        self.at_most(1, names)

    def covers(self, left, right):
        """The left sum is at least the right one."""
        self.row(0, left, right)

    def add_choices(self):
        """Each parameter, each result, each access and each use is dealt with in one way."""
        for value in self.form.values:
            if value.kind == "parameter":
                self.exactly_one(self.definitions(value.variable))
        for value in self.form.values:
            if value.kind == "result":
                self.exactly_one(self.definitions(value.variable) + [it for use in value.uses for it in self.early("dir", use)])
        for point in self.accesses:
            self.exactly_one(self.firsts(point))
        for use in self.form.uses:
            is_early = use.role == "written"
            self.exactly_one(self.served(use) + (self.early("dir", use) + self.early("ear", use) if is_early else []))

    def add_covers(self):
        """A use is served from a home that its value has; what is copied is somewhere first; an argument goes where its parameter is."""
        for use in self.form.uses:
            for home in HOMES:
                self.covers(self.at_home(use.value.variable, home), self.served(use, homes=home))
            if use.value.kind == "read":
                self.covers([("stay", use.value.variable, first) for first in REGISTERS], self.served(use, homes="T"))
        for value in self.used:
            if value.kind == "read":
                continue
            variable, in_register = value.variable, [("def", value.variable, "A"), ("def", value.variable, "B")]
            for home in HOMES:
                self.at_most(1, self.at_home(variable, home))
            for home in HOMES:
                self.covers(in_register, [("fill", variable, home)])
            for use in value.uses:
                if use.role == "written":
                    self.covers(in_register, self.early("ear", use))
        for use in self.form.uses:
            if use.role == "argument":
                parameter = self.form.labels[use.point.node.number].parameters[use.position]
                for home in HOMES:
                    self.covers([("def", parameter, home)], self.served(use, places=(home,)))

    def add_operand_groups(self):
        for point in self.form.points:
            if point.node and point.node.kind in ("binary", "if"):
                for places in OPERAND_GROUPS:
                    self.at_most(1, [it for use in point.uses for it in self.served(use, places=places)])

    def add_capacities(self):
        """The values that are live at a point have registers and slots of their own."""
        for point in self.form.points:
            for home, most in (*BANK_SIZES, ("M", self.slots)):
                self.at_most(most, [it for value in self.form.held(point.before) for it in self.at_home(value.variable, home)])

    def staying(self, values, bank, register):
        """The columns by which a read value stays in the register."""
        return [
            ("stay", value.variable, register - value.position)
            for value in values
            if value.kind == "read" and read_bank(value.point.node.memory) == bank
        ]

    def run_over(self, point, register):
        """The columns by which the run of an access covers the register."""
        memory, count = point.node.access()
        return [("first", point.number, first) for first in first_registers(memory, count) if first <= register < first + count]

    def waiting(self, point):
        """The written words whose value is defined at the point or above, and whose write is below."""
        return [
            use
            for use in self.written
            if point.is_above(use.point) and (use.value.point is point or use.value.point.is_above(point))
        ]

    def add_owners(self):
        """Each read register and each write register has one owner at a time."""
        for point in self.form.points:
            held = self.form.held(point.before)
            for register in REGISTERS:
                self.at_most(1, self.staying(held, "L", register) + [("pasL", point.number, register)])
            for register in REGISTERS:
                self.at_most(1, self.staying(held, "LD", register))
        for point in self.accesses:
            if point.node.kind == "read":
                others = [value for value in self.form.held(point.after()) if value.point is not point]
                for register in REGISTERS:
                    self.at_most(1, self.staying(others, read_bank(point.node.memory), register) + self.run_over(point, register))
        for point in self.form.points:
            waiting = self.waiting(point)
            for bank in ("L", "LD"):
                for register in REGISTERS:
                    self.at_most(1, self.write_owners(point, waiting, bank, register))

    def write_owners(self, point, waiting, bank, register):
        """The owners of a write register, by the bank of read registers beside its own."""
        found = [
            (kind, name_of(use), register - use.position)
            for use in waiting
            if read_bank(use.point.node.memory) == bank
            for kind in ("dir", "ear")
        ]
        if bank == "L":
            found.append(("pasS", point.number, register))
        if point.node and point.node.kind == "write" and read_bank(point.node.memory) == bank:
            found += self.run_over(point, register)
        return found

    def add_adjacencies(self):
        """What stays or is put early stands where its access has its run."""
        for point in self.accesses:
            firsts = first_registers(*point.node.access())
            for value in point.values:
                if value.uses:
                    for first in firsts:
                        self.covers([("first", point.number, first)], [("stay", value.variable, first)])
            for use in point.uses:
                if use.role == "written":
                    for first in firsts:
                        self.covers([("first", point.number, first)], [("dir", name_of(use), first), ("ear", name_of(use), first)])

    def add_passes(self):
        """What comes from a slot or goes to one has a register to go through."""
        for use in self.form.uses:
            for name in self.served(use, homes="M"):
                self.covers(self.passing("pasL", use.point), [name])
        for value in self.used:
            self.covers(self.passing("pasS", value.point), [("fill", value.variable, "M")])
            if value.kind == "result":
                self.covers(self.passing("pasS", value.point), [("def", value.variable, "M")])
