"""Small 0-1 programs made at random, and reports on them, true ones and others."""
import itertools

from oracle.zo import certificates
from oracle.zo.programs import Program, Row
from oracle.zo.reports import Report

LARGE = 2**32 - 1


def program(random):
    columns = random.choice((0, 1, 2, 3, 4, 5, 6))
    costs = [random.choice((0, 0, 1, 1, 2, 16, 33, 2**20 - 1)) for _ in range(columns)]
    rows = []
    for _ in range(random.choice((0, 1, 2, 3, 5))):
        chosen = sorted(random.sample(range(columns), random.randint(0, columns)))
        terms = [(column, random.choice((1, 1, 1, -1, 2, -2, 5, -(2**15), 2**15 - 1))) for column in chosen]
        rows.append(Row(random.choice((-2, -1, 0, 0, 1, 1, 2, 3, 40000, -(2**30))), terms))
    return Program(costs, rows)


def vectors(program):
    """All vectors that meet the rows, the cheapest first."""
    columns = range(len(program.costs))
    every = [list(itertools.compress(columns, it)) for it in itertools.product((0, 1), repeat=len(columns))]
    return sorted((it for it in every if program.is_feasible(set(it))), key=program.cost)


def some_rows(random, program):
    chosen = sorted(random.sample(range(len(program.rows)), random.randint(0, len(program.rows))))
    return [(row, random.choice((1, 1, 2, 3, 7, random.choice((LARGE, 1000))))) for row in chosen]


def closed_leaf(random, program, fixed, claim):
    """A leaf that is closed, found by trying some, or None."""
    tried = [("bound", random.choice((1, 1, 2, 3, LARGE)), []), ("clash", [])]
    for _ in range(6):
        rows = some_rows(random, program)
        tried.append(random.choice((("clash", rows), ("bound", random.choice((1, 1, 2, 3, 7)), rows))))
    tried += [("clash", [(number, 1)]) for number in range(len(program.rows))]
    closed = [it for it in tried if certificates.is_closed(program, it, fixed, claim)]
    return random.choice(closed) if closed else None


def tree(random, program, claim, budget):
    """A tree that proves a claim which holds, or has something left where so many branches don't suffice."""
    left = budget

    def grown(fixed):
        nonlocal left
        free = [column for column in range(len(program.costs)) if column not in fixed]
        leaf = closed_leaf(random, program, fixed, claim)
        if leaf and not (free and left and random.random() < 0.2):
            return [leaf]
        if not free or left == 0:
            return [("left",)]
        left -= 1
        column = random.choice(free)
        return [("branch", column)] + grown({**fixed, column: 0}) + grown({**fixed, column: 1})

    return grown({})


def report(random):
    made = program(random)
    every = vectors(made)
    slots = random.choice((0, 1, 128))
    if random.random() < 0.4:
        chosen = random.choice(every) if every and random.random() < 0.7 else None
        claim = made.cost(chosen) if chosen is not None else None
        nodes = tree(random, made, claim, random.randint(0, 5))
        count = sum(node[0] == "branch" for node in nodes)
        return Report(slots, max(1, count), made, "spent" if chosen is None else "feasible", chosen or [], nodes)
    claim = made.cost(every[0]) if every else None
    nodes = tree(random, made, claim, 2**9)
    return Report(slots, random.choice((1, 2000, 10**6)), made, "optimal" if every else "infeasible", every[0] if every else [], nodes)


def near_report(random, report):
    """The report with one thing of it changed."""
    nodes, at = list(report.tree), random.randrange(len(report.tree))
    node, rows = nodes[at], list(certificates.multipliers(nodes[at]))
    change = random.randrange(9)
    if change == 0 and rows:
        place = random.randrange(len(rows))
        rows[place] = (rows[place][0], max(1, min(LARGE, rows[place][1] + random.choice((-1, 1, 2, LARGE)))))
        nodes[at] = (*node[:-1], rows)
    elif change == 1 and rows:
        rows.pop(random.randrange(len(rows)))
        nodes[at] = (*node[:-1], rows)
    elif change == 2 and node[0] == "bound":
        nodes[at] = ("bound", max(1, min(LARGE, node[1] + random.choice((-1, 1, LARGE)))), rows)
    elif change == 3:
        nodes[at] = random.choice((("left",), ("clash", rows), ("bound", 1, rows), ("branch", random.randint(0, 6))))
    elif change == 4:
        nodes.insert(at, random.choice((("left",), ("clash", []), ("branch", 0))))
    elif change == 5 and len(nodes) > 1:
        nodes.pop(at)
    elif change == 6 and report.has_vector() and report.program.costs:
        column = random.randrange(len(report.program.costs))
        report.chosen = sorted(set(report.chosen) ^ {column})
    elif change == 7:
        report.budget = max(1, report.budget + random.choice((-1, 1)))
    elif change == 8:
        report.verdict = random.choice(("optimal", "feasible", "infeasible", "spent"))
    report.tree = nodes
    return report
