"""What the code of a form has to be besides right: the operations of its nodes in order, and slots by the spill base alone."""
from oracle.machine.instructions import SPILL_BASE, run_registers
from oracle.machine.windows import reads, writes

# A comparison is a difference and a branch where it fails.
FAILING = {"==": "NZ", "!=": "Z", "<": "C", ">=": "NC"}
OPPOSITE = {"NZ": "Z", "Z": "NZ", "C": "NC", "NC": "C"}
COMPUTATIONS = ("immediate", "unary", "binary")


def node_operations(node):
    """What a node does, whatever registers it has."""
    if node.kind == "clone":
        return []
    if node.kind == "literal":
        return [("immediate",)]
    if node.kind in ("unary", "binary"):
        return [(node.kind, node.operation, node.count)]
    if node.kind == "if":
        return [("binary", "SUB", 0), ("branch", FAILING[node.operation])]
    if node.kind == "jump":
        return [("branch", "ALWAYS")]
    return [("end", node.number, len(node.uses))] if node.kind == "end" else [(node.kind, *node.access())]


def form_operations(form):
    return [it for point in form.points if point.node for it in node_operations(point.node)]


def instruction_operations(instruction):
    """None for a move: a copy, or an access to a slot."""
    kind = instruction[0]
    if kind == "immed":
        return [("immediate",)]
    if kind == "alu":
        return [("binary", instruction[2], 0)]
    if kind == "un":
        return [] if instruction[2] == "COPY" else [("unary", instruction[2], instruction[3])]
    if kind == "br":
        return [("branch", instruction[1])]
    if kind == "halt":
        return [("end", *instruction[1:])]
    return [] if instruction[4] == SPILL_BASE else [(kind, instruction[1], instruction[3])]


def operation_faults(form, code):
    """The operations of the code are those of the form in order, but for computations that are left out and for branches that are turned."""
    wanted = form_operations(form)
    for instruction in code.instructions:
        for operation in instruction_operations(instruction):
            while wanted and wanted[0] != operation and wanted[0][0] in COMPUTATIONS:
                wanted.pop(0)
            if operation[0] == "branch" and wanted and wanted[0] == ("branch", OPPOSITE.get(operation[1])):
                # This branch and the jump behind it stand as the one branch on the opposite condition.
                wanted.pop(0)
                while wanted and wanted[0][0] in COMPUTATIONS:
                    wanted.pop(0)
                operation = ("branch", "ALWAYS")
            if not wanted or wanted.pop(0) != operation:
                return [f"{instruction} is no operation of the form that is left"]
    return [f"{wanted} aren't in the code"] * any(it[0] not in COMPUTATIONS for it in wanted)


def base_faults(code, slots):
    """B15 is never written, and read only as the address of slots."""
    found = []
    for place, instruction in enumerate(code.instructions):
        is_access = instruction[0] in ("read", "write")
        read = reads(instruction)
        if is_access and instruction[4] == SPILL_BASE:
            read = set(run_registers(instruction))
            is_slot = instruction[1] == "scratch" and instruction[5] + instruction[3] <= slots
            found += [] if is_slot else [f"place {place} reaches no slot"]
        if SPILL_BASE in read | writes(instruction):
            found.append(f"place {place} has the spill base")
    return found
