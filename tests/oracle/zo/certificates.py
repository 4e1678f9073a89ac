"""Certificates: trees of branches on columns, whose leaves are closed by sums of rows.

A node is ("branch", column), ("bound", denominator, multipliers), ("clash", multipliers) or ("left",); a tree is the list of its nodes
in preorder, the arm in which the column is 0 first. A claim is the least cost that every vector has, or None: there is no vector."""


class NoTree(Exception):
    """The list is no tree over the program."""


def walk(nodes):
    """Each node with the columns that are fixed above it."""
    fixed, pending = {}, []
    is_over = False
    for node in nodes:
        if is_over:
            raise NoTree
        yield node, dict(fixed)
        if node[0] == "branch":
            if node[1] in fixed:
                raise NoTree
            fixed[node[1]] = 0
            pending.append(node[1])
            continue
        while pending and fixed[pending[-1]] == 1:
            del fixed[pending.pop()]
        if pending:
            fixed[pending[-1]] = 1
        else:
            is_over = True
    if not is_over:
        raise NoTree


def multipliers(node):
    return node[-1] if node[0] in ("bound", "clash") else []


def branches(program, nodes):
    """How many branches the tree has, or None where the nodes are no tree over the program's columns and rows."""
    count = 0
    try:
        for node, _ in walk(nodes):
            count += node[0] == "branch"
            if node[0] == "branch" and node[1] >= len(program.costs) or any(row >= len(program.rows) for row, _ in multipliers(node)):
                return None
    except NoTree:
        return None
    return count


def bound(program, node, fixed):
    """The least that the weighted sum of the node's rows leaves, over all vectors with the columns that are fixed."""
    denominator = node[1] if node[0] == "bound" else 0
    weights, least = {}, 0
    for number, multiplier in multipliers(node):
        row = program.rows[number]
        least += multiplier * row.least
        for column, coefficient in row.terms:
            weights[column] = weights.get(column, 0) + multiplier * coefficient
    for column in {*weights, *fixed}:
        reduced = denominator * program.costs[column] - weights.get(column, 0)
        least += fixed[column] * reduced if column in fixed else min(0, reduced)
    return least


def is_closed(program, node, fixed, claim):
    if node[0] == "clash":
        return bound(program, node, fixed) > 0
    return node[0] == "bound" and claim is not None and node[1] * (claim - 1) < bound(program, node, fixed)


def proves(program, nodes, claim):
    if branches(program, nodes) is None:
        return False
    return all(node[0] == "branch" or is_closed(program, node, fixed, claim) for node, fixed in walk(nodes))


# ---- how a search goes


def reach(row, fixed):
    """The most that the row's sum can be."""
    return sum(coefficient * fixed[column] if column in fixed else max(0, coefficient) for column, coefficient in row.terms)


def search_faults(program, nodes, claim):
    """What shows that the tree isn't that of a depth-first search which found a vector of the claim's cost, or none."""
    found = []
    for at, (node, fixed) in enumerate(walk(nodes)):
        ones = {column for column, value in fixed.items() if value}
        is_met = program.is_feasible(ones)
        if node[0] in ("branch", "left") and (is_met or any(reach(row, fixed) < row.least for row in program.rows)):
            found.append(f"node {at} is met, or a row is out of reach there")
        if is_met and (claim is None or claim > program.cost(ones)):
            found.append(f"node {at} is met at a lower cost")
        if node[0] in ("bound", "clash") and not is_closed(program, node, fixed, claim):
            found.append(f"node {at} isn't closed")
    return found + depth_faults(nodes)


def depth_faults(nodes):
    """Of the two arms of a branch one is left or has nothing left."""
    found, arms = [], []
    for at, node in reversed(list(enumerate(nodes))):
        if node[0] != "branch":
            arms.append("left" if node[0] == "left" else "closed")
            continue
        one, other = arms.pop(), arms.pop()
        if one == other == "open":
            found.append(f"both arms of node {at} were begun")
        arms.append("closed" if one == other == "closed" else "open")
    return found
