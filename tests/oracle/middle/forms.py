"""The single-use form as it is printed: its labels, and its points in order with what is live at each.

A point is the entry of a label or a node. Points are numbered label by label, an entry before its nodes, the nodes in preorder with the
first arm of a choice first."""
import re
from dataclasses import dataclass, field

SIGNS = {"+": "ADD", "-": "SUB", "&": "AND", "|": "OR", "^": "XOR", "<<": "SHL", ">>": "SHR", "rol": "ROL"}
# What a node of each kind defines has its value from the node itself.
RESULTS = ("literal", "unary", "binary")


@dataclass
class Node:
    """`operation` is that of an instruction, of a choice its comparison; `count` is the count of a shift; `number` a literal, the label of
    a jump or the exception of an end. A choice has two arms, each a list of nodes."""

    kind: str
    defines: list = field(default_factory=list)
    uses: list = field(default_factory=list)
    operation: str = ""
    memory: str = ""
    count: int = 0
    number: int = 0
    arms: list = field(default_factory=list)

    def access(self):
        """The memory and the number of words of a read or a write."""
        if self.kind == "read":
            return self.memory, len(self.defines)
        return (self.memory, len(self.uses) - 1) if self.kind == "write" else None


@dataclass
class Label:
    parameters: list
    nodes: list


def names(text):
    return [it for it in text.split(", ") if it]


def read_node(line):
    if match := re.fullmatch(r"jump (\d+)\((.*)\)", line):
        return Node("jump", number=int(match[1]), uses=names(match[2]))
    if match := re.fullmatch(r"end (?:raised (\d+) )?\((.*)\)", line):
        return Node("end", number=int(match[1] or 0), uses=names(match[2]))
    if match := re.fullmatch(r"(.+) = (sram|sdram|scratch)\[\d+\]\((\S+)\)", line):
        return Node("read", names(match[1]), [match[3]], memory=match[2])
    if match := re.fullmatch(r"(sram|sdram|scratch)\((\S+)\) <- (.+)", line):
        return Node("write", uses=[match[2], *names(match[3])], memory=match[1])
    if match := re.fullmatch(r"(.+) = clone (v\d+)", line):
        return Node("clone", names(match[1]), [match[2]])
    target, what = line.split(" = ")
    first, *rest = what.split(" ")
    if first.startswith("~"):
        return Node("unary", [target], [first[1:]], "NOT")
    if not rest:
        return Node("literal", [target], number=int(first, 0))
    if rest[0] in ("<<", ">>", "rol"):
        return Node("unary", [target], [first], SIGNS[rest[0]], count=int(rest[1]))
    return Node("binary", [target], [first, rest[1]], SIGNS[rest[0]])


class Reader:
    """Reads the lines of a printed form."""

    def __init__(self, text):
        stripped = (re.sub(r"  # .*", "", line).strip() for line in text.splitlines())
        self.lines = [line for line in stripped if line and not line.startswith("#")]
        self.at = 0

    def labels(self):
        found = []
        while self.at < len(self.lines):
            parameters = re.fullmatch(r"label \d+\((.*)\)", self.lines[self.at])[1]
            self.at += 1
            found.append(Label(names(parameters), self.nodes()))
        return found

    def nodes(self):
        """The nodes up to the end of an arm or of a label."""
        found = []
        while self.at < len(self.lines) and not self.lines[self.at].startswith("label "):
            line = self.lines[self.at]
            self.at += 1
            if line == "}":
                break
            if line.startswith("if "):
                first, sign, second = re.fullmatch(r"if (\S+) (\S+) (\S+) \{", line).groups()
                found.append(Node("if", uses=[first, second], operation=sign, arms=[self.nodes(), self.nodes()]))
                break
            found.append(read_node(line))
        return found


@dataclass
class Point:
    number: int
    label: int
    node: Node
    parent: object
    # The last point below it, and those that directly follow it.
    last: int = 0
    next: list = field(default_factory=list)
    # The variables that it defines as values, and its uses.
    values: list = field(default_factory=list)
    uses: list = field(default_factory=list)
    before: set = field(default_factory=set)

    def after(self):
        return set().union(*(it.before for it in self.next))

    def is_entry(self):
        return self.node is None

    def is_above(self, other):
        return self.number < other.number <= self.last


@dataclass
class Value:
    """A variable that an entry, a result or a read defines. `kind` is parameter, result or read."""

    variable: str
    kind: str
    point: Point
    position: int
    uses: list = field(default_factory=list)


@dataclass
class Use:
    """`role` is operand, address, written, argument or end; `position` that among the written words, the arguments or the words."""

    point: Point
    operand: int
    value: Value
    role: str
    position: int


class Form:
    """The points, values and uses of labels. A clone is a copy of its value, and no value by itself."""

    def __init__(self, labels):
        self.labels, self.points, self.values, self.uses, self.value_of = labels, [], [], [], {}
        for number, label in enumerate(labels):
            entry = self.add_point(number, None, None)
            self.add_values(entry, "parameter", label.parameters)
            self.add_nodes(number, label.nodes, entry)
            entry.last = len(self.points) - 1
        self.find_live()

    def add_point(self, label, node, parent):
        point = Point(len(self.points), label, node, parent)
        self.points.append(point)
        if parent:
            parent.next.append(point)
        return point

    def add_values(self, point, kind, variables):
        for position, variable in enumerate(variables):
            value = Value(variable, kind, point, position)
            self.value_of[variable] = value
            self.values.append(value)
            point.values.append(value)

    def add_nodes(self, label, nodes, parent):
        first = len(self.points)
        for node in nodes:
            parent = self.add_point(label, node, parent)
            self.add_uses(parent, node)
            if node.kind == "clone":
                self.value_of |= {it: self.value_of[node.uses[0]] for it in node.defines}
            else:
                self.add_values(parent, "read" if node.kind == "read" else "result", node.defines)
            for arm in node.arms:
                self.add_nodes(label, arm, parent)
        for point in self.points[first : first + len(nodes)]:
            point.last = len(self.points) - 1

    def add_uses(self, point, node):
        if node.kind == "clone":
            return
        for operand, variable in enumerate(node.uses):
            role, position = "operand", operand
            if node.kind in ("read", "write"):
                role, position = ("address", 0) if operand == 0 else ("written", operand - 1)
            elif node.kind in ("jump", "end"):
                role = "argument" if node.kind == "jump" else "end"
            use = Use(point, operand, self.value_of[variable], role, position)
            self.uses.append(use)
            point.uses.append(use)
            use.value.uses.append(use)

    def find_live(self):
        """A value is live at a node below its definition where a copy of it is used at the node or below; a parameter also at its entry."""
        for value in self.values:
            if value.kind == "parameter":
                value.point.before.add(value.variable)
            for use in value.uses:
                point = use.point
                while point is not value.point and value.variable not in point.before:
                    point.before.add(value.variable)
                    point = point.parent

    def held(self, variables):
        """The values of variables, in the order of the form."""
        return [value for value in self.values if value.variable in variables]

    def peak(self):
        return max(len(point.before) for point in self.points)

    def size(self):
        return len(self.points) + len(self.values) + len(self.uses)


def read_form(text):
    return Form(Reader(text).labels())
