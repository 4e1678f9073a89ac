"""Whether a form is in single use, rule by rule, and the bounds on its size and on the length of its code."""
from oracle.base.memories import SOURCE_SCRATCH
from oracle.middle.forms import RESULTS

MOST_PASSED = 8
# The bounds of a source: so many times its expanded size times its room and 8.
BOUND = 48


def faults(form):
    """The rules that a form breaks."""
    found = []
    if len(form.labels[0].parameters) > MOST_PASSED:
        found.append("label 0 has too many parameters")
    defined = [it for label in form.labels for it in label.parameters]
    defined += [it for point in form.points if point.node for it in point.node.defines]
    if len(set(defined)) < len(defined):
        found.append("a variable is defined twice")
    for number, label in enumerate(form.labels):
        found += [f"label {number}: {it}" for it in label_faults(form, label)]
    return found


def label_faults(form, label):
    """The paths of a label are tried one by one, with what is known on each."""
    found = []
    pending = [(label.nodes, set(label.parameters), set(), set(label.parameters), {})]
    while pending:
        nodes, known, used, fresh, numbers = pending.pop()
        known, used, numbers = set(known), set(used), dict(numbers)
        for node in nodes:
            found += node_faults(form, node, numbers)
            found += [f"{it} isn't defined above its use" for it in node.uses if it not in known]
            repeated = used & set(node.uses) or len(set(node.uses)) < len(node.uses)
            found += [f"{node.uses} are used twice on a path"] * bool(repeated)
            used |= set(node.uses)
            known |= set(node.defines)
            if node.kind == "clone":
                found += [f"clones of {it} don't stand directly after it" for it in node.uses if it not in fresh]
                numbers |= {it: numbers.get(node.uses[0]) for it in node.defines}
            elif node.kind in RESULTS or node.kind == "read":
                fresh = set(node.defines)
                numbers |= {it: node.number if node.kind == "literal" else None for it in node.defines}
            else:
                fresh = set()
            found += [f"{it} isn't used" for it in node.defines if node.kind in RESULTS and not form.value_of[it].uses]
            pending += [(arm, known, used, set(), numbers) for arm in node.arms]
    return found


def node_faults(form, node, numbers):
    found = []
    if node.kind == "literal" and not any(node.number % 2**shift == 0 and node.number >> shift < 2**16 for shift in (0, 8, 16)):
        found.append("a wide literal")
    if node.kind == "unary" and node.operation != "NOT" and not 1 <= node.count <= 31:
        found.append("a shift's count")
    if node.access():
        memory, count = node.access()
        if count not in ((2, 4, 6, 8) if memory == "sdram" else range(1, 9)):
            found.append("an access's words")
        address = numbers.get(node.uses[0])
        if memory == "scratch" and (address is None or address + count > SOURCE_SCRATCH):
            found.append("an address of scratch")
    if node.kind == "end" and len(node.uses) > MOST_PASSED:
        found.append("an end's words")
    if node.kind == "jump":
        is_there = 1 <= node.number < len(form.labels)
        if not is_there or len(form.labels[node.number].parameters) != len(node.uses):
            found.append("a jump's label or words")
    return found


def code_bound(form):
    """The most instructions that the form's code has: each node's own, those that put values into places, and those that bring words."""
    own = {"literal": 1, "unary": 1, "binary": 1, "clone": 0, "read": 1, "write": 1, "if": 2, "jump": 1, "end": 1}
    kept = {"parameter": 3, "result": 3, "read": 4}
    brought = {"operand": 2, "address": 2, "written": 2, "argument": 5, "end": 3}
    bound = sum(own[point.node.kind] for point in form.points if point.node)
    bound += sum(kept[value.kind] for value in form.values) + sum(brought[use.role] for use in form.uses)
    return bound + 3 * len(form.labels[0].parameters)


def bound_faults(form, expanded, room):
    """The bounds by the sizes of the source that a form breaks."""
    most = BOUND * expanded * (room + 8)
    found = [f"{form.peak()} values are live at once, with a room of {room}"] * (form.peak() > room)
    found += [f"a size of {form.size()}, above {most}"] * (form.size() > most)
    return found + [f"a code bound of {code_bound(form)}, above {most}"] * (code_bound(form) > most)


def contraction_faults(form):
    """What the passes before have to have done: two jumps lead to each label but the first, none of these is just an end or a jump to
    another, and label 0 leads to each."""
    jumps = [(point.label, point.node.number) for point in form.points if point.node and point.node.kind == "jump"]
    found = []
    for number, label in enumerate(form.labels[1:], 1):
        leading = sum(target == number for _, target in jumps)
        found += [f"{leading} jumps lead to label {number}"] * (leading < 2)
        first = next(node for node in label.nodes if node.kind not in ("clone", "literal"))
        is_hop = first.kind == "end" or first.kind == "jump" and first.number != number
        found += [f"label {number} is just a jump or an end"] * is_hop
    reached, before = {0}, None
    while reached != before:
        before = set(reached)
        reached |= {target for label, target in jumps if label in reached}
    return found + [f"label {it} isn't led to" for it in range(len(form.labels)) if it not in reached]
