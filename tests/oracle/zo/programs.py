"""0-1 programs: the least cost of the columns that are 1, where the sum of each row is at least its least; and their texts."""
from dataclasses import dataclass

MOST = 2**26
MOST_COST = 2**20 - 1
COEFFICIENTS = (-(2**15), 2**15 - 1)
LEASTS = (-(2**30), 2**30)


@dataclass
class Row:
    least: int
    # Pairs of a column and a coefficient, by rising column.
    terms: list


@dataclass
class Program:
    costs: list
    rows: list

    def cost(self, chosen):
        """What the columns that are 1 cost."""
        return sum(self.costs[column] for column in chosen)

    def is_met(self, row, chosen):
        return sum(coefficient for column, coefficient in row.terms if column in chosen) >= row.least

    def is_feasible(self, chosen):
        return all(self.is_met(row, chosen) for row in self.rows)

    def text(self):
        lines = [f"columns {len(self.costs)}", f"rows {len(self.rows)}", *(f"c {cost}" for cost in self.costs)]
        lines += [f"r {row.least}" + "".join(f" {column}:{coefficient}" for column, coefficient in row.terms) for row in self.rows]
        return "".join(f"{line}\n" for line in lines)


def rising_pairs(lines, parts, indices, values):
    """Pairs `I:V`, by rising index, within these limits. The values are never 0."""
    found = []
    for part in parts:
        pair = part.split(b":")
        if len(pair) != 2:
            lines.refuse()
        index, value = lines.number(pair[0], *indices), lines.number(pair[1], *values)
        if value == 0 or found and index <= found[-1][0]:
            lines.refuse()
        found.append((index, value))
    return found


def read_from(lines):
    columns, rows = lines.keyed(b"columns", 0, MOST), lines.keyed(b"rows", 0, MOST)
    costs = [lines.keyed(b"c", 0, MOST_COST) for _ in range(columns)]
    return Program(costs, [read_row(lines, columns) for _ in range(rows)])


def read_row(lines, columns):
    parts = lines.next().split(b" ")
    if parts[0] != b"r" or len(parts) < 2:
        lines.refuse()
    return Row(lines.number(parts[1], *LEASTS), rising_pairs(lines, parts[2:], (0, columns - 1), COEFFICIENTS))
