"""What a single-use form does: runs from label 0, which end, fault or take a number of jumps."""
from oracle.base.memories import MASK, Log


OPERATIONS = {
    "ADD": lambda x, y: x + y, "SUB": lambda x, y: x - y, "AND": lambda x, y: x & y, "OR": lambda x, y: x | y, "XOR": lambda x, y: x ^ y,
}


def binary(operation, first, second):
    return OPERATIONS[operation](first, second) & MASK


def unary(operation, count, word):
    if operation == "NOT":
        return ~word & MASK
    return {"SHL": word << count, "SHR": word >> count, "ROL": word << count | word >> (32 - count)}[operation] & MASK


def holds(sign, first, second):
    return {"==": first == second, "!=": first != second, "<": first < second, ">=": first >= second}[sign]


def run(form, arguments, memories, jumps, most=64):
    """The outcome, the log, and how often each label was entered. The memories are changed."""
    log, entered = Log(most), [0] * len(form.labels)
    label, words = 0, arguments
    while True:
        entered[label] += 1
        scope = dict(zip(form.labels[label].parameters, words))
        outcome = run_nodes(form.labels[label].nodes, scope, memories, log)
        if outcome[0] != "jump":
            return outcome, log, entered
        if jumps == 0:
            return ("going",), log, entered
        jumps -= 1
        _, label, words = outcome


def run_nodes(nodes, scope, memories, log):
    """What the nodes come to: an outcome, or ("jump", label, words)."""
    at = 0
    while True:
        node = nodes[at]
        at += 1
        words = [scope[it] for it in node.uses]
        if node.kind == "if":
            nodes, at = node.arms[0 if holds(node.operation, *words) else 1], 0
        elif node.kind == "jump":
            return "jump", node.number, words
        elif node.kind == "end":
            return ("raised", node.number, words) if node.number else ("ended", words)
        elif node.kind == "read":
            found = memories.read(node.memory, words[0], len(node.defines))
            if found is None:
                return "fault", node.memory, words[0]
            scope.update(zip(node.defines, found))
        elif node.kind == "write":
            if not memories.write(node.memory, words[0], words[1:]):
                return "fault", node.memory, words[0]
            log.note(node.memory, words[0], words[1:])
        else:
            scope.update({it: computed(node, words) for it in node.defines})


def computed(node, words):
    if node.kind == "literal":
        return node.number
    if node.kind == "clone":
        return words[0]
    return unary(node.operation, node.count, words[0]) if node.kind == "unary" else binary(node.operation, *words)
