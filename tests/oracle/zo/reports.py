"""Reports: a program, a verdict with a vector and a tree; their texts, and when one is true."""
from dataclasses import dataclass

from oracle.base.lines import Lines
from oracle.zo import certificates, programs

MOST_SLOTS = 128
MOST_BUDGET = 1_000_000
MOST_NUMBER = 2**32 - 1
MOST_INDEX = 2**26 - 1


@dataclass
class Report:
    slots: int
    budget: int
    program: programs.Program
    # optimal, feasible, infeasible or spent; the first two have a vector, given as the columns that are 1.
    verdict: str
    chosen: list
    tree: list

    def has_vector(self):
        return self.verdict in ("optimal", "feasible")

    def cost(self):
        return self.program.cost(self.chosen)

    def claim(self):
        return self.cost() if self.has_vector() else None

    def verdict_line(self):
        return f"{self.verdict} {self.cost()}" if self.has_vector() else self.verdict

    def is_true(self):
        count = certificates.branches(self.program, self.tree)
        if count is None or self.has_vector() and not self.program.is_feasible(set(self.chosen)):
            return False
        if self.verdict in ("optimal", "infeasible"):
            return certificates.proves(self.program, self.tree, self.claim())
        return count == self.budget and ("left",) in self.tree

    def search_faults(self):
        return certificates.search_faults(self.program, self.tree, self.claim())

    def text(self):
        lines = ["novareport 1", f"slots {self.slots}", f"budget {self.budget}", *self.program.text().splitlines()]
        lines.append(f"verdict {self.verdict_line()}")
        if self.has_vector():
            lines.append("x" + "".join(f" {column}" for column in self.chosen))
        lines += [f"tree {len(self.tree)}", *map(node_line, self.tree)]
        return "".join(f"{line}\n" for line in lines).encode()


def node_line(node):
    pairs = "".join(f" {row}:{multiplier}" for row, multiplier in certificates.multipliers(node))
    if node[0] == "branch":
        return f"b {node[1]}"
    if node[0] == "bound":
        return f"d {node[1]}" + pairs
    return "k" + pairs if node[0] == "clash" else "o"


def read_node(lines):
    key, *parts = lines.next().split(b" ")
    if key == b"b" and len(parts) == 1:
        return ("branch", lines.number(parts[0], 0, MOST_INDEX))
    limits = (0, MOST_INDEX), (1, MOST_NUMBER)
    if key == b"d" and parts:
        denominator = lines.number(parts[0], 1, MOST_NUMBER)
        return ("bound", denominator, programs.rising_pairs(lines, parts[1:], *limits))
    if key == b"k":
        return ("clash", programs.rising_pairs(lines, parts, *limits))
    if key == b"o" and not parts:
        return ("left",)
    return lines.refuse()


def read_chosen(lines, columns):
    """The columns that are 1, rising."""
    key, *parts = lines.next().split(b" ")
    if key != b"x":
        lines.refuse()
    found = []
    for part in parts:
        column = lines.number(part, 0, columns - 1)
        if found and column <= found[-1]:
            lines.refuse()
        found.append(column)
    return found


def read_report(text):
    """The report. A cost that isn't that of the vector is a fault of the verdict's line."""
    lines = Lines(text)
    if lines.next() != b"novareport 1":
        lines.refuse()
    slots, budget = lines.keyed(b"slots", 0, MOST_SLOTS), lines.keyed(b"budget", 1, MOST_BUDGET)
    program = programs.read_from(lines)
    key, *parts = lines.next().split(b" ")
    verdict_line, chosen = lines.taken, []
    if key != b"verdict" or parts not in ([b"infeasible"], [b"spent"]) and parts[:1] not in ([b"optimal"], [b"feasible"]):
        lines.refuse()
    if parts[0] in (b"optimal", b"feasible"):
        if len(parts) != 2:
            lines.refuse()
        cost = lines.number(parts[1], 0, 10**20)
        chosen = read_chosen(lines, len(program.costs))
        if cost != program.cost(chosen):
            lines.taken = verdict_line
            lines.refuse()
    count = lines.keyed(b"tree", 1, MOST_NUMBER)
    tree = [read_node(lines) for _ in range(count)]
    lines.end()
    return Report(slots, budget, program, parts[0].decode(), chosen, tree)
