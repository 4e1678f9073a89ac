"""The expanded size of a program, and the room that its values need at once."""
from oracle.language.trees import Let, pattern_names
from oracle.language.types import words

GREATEST = 0xFFFFFFFF
SPARE_ROOM = 8


def value_words(expression):
    return words(expression.type) if expression.type is not None else 0


class Sizes:
    """The sizes of groups, each after those that it may call."""

    def __init__(self, typed):
        self.expanded, self.needs = {}, {}
        for group in typed.groups:
            number = group[0].group
            passed = [sum(words(it) for it in signature.parameters) for signature in group]
            bodies = [signature.function.body for signature in group]
            self.expanded[number] = min(GREATEST, sum(1 + passed[at] + self.expanded_size(body) for at, body in enumerate(bodies)))
            self.needs[number] = max(passed[at] + self.need(body) for at, body in enumerate(bodies))

    def expanded_size(self, expression):
        """1 and its words, with its children; a layout counts 4 a bit field, a call of another group that group, a statement 1."""
        size = 1 + value_words(expression) + sum(self.expanded_size(child) for child in expression.children())
        if expression.kind == "block":
            size += len(expression.parts[0])
        if expression.kind in ("unpack", "pack"):
            size += 4 * expression.named.field_count()
        if expression.kind == "call" and not expression.is_own:
            size += self.expanded[expression.named.group]
        return min(size, GREATEST)

    def need(self, expression):
        """The words that may be wanted at once: those of the value and of its children, beside the neediest child's."""
        if expression.kind == "block":
            return self.block_need(expression)
        children = expression.children()
        needs = [self.need(child) for child in children]
        if expression.kind == "call" and not expression.is_own:
            needs.append(self.needs[expression.named.group])
        need = 2 + value_words(expression) + sum(map(value_words, children)) + max(needs, default=0)
        if expression.kind == "try":
            need += sum(words(it) for it in expression.named[1])
        return need

    def block_need(self, block):
        """At each part, what it needs beside the words of earlier lets of which a name occurs in it or later."""
        statements, tail = block.parts
        parts = statements + [tail]
        named = [variables(part) for part in parts]
        most = 0
        for at, part in enumerate(parts):
            later = set().union(*named[at:])
            pending = sum(
                value_words(let.value) for let in statements[:at] if isinstance(let, Let) and later & set(pattern_names(let.pattern))
            )
            most = max(most, pending + self.part_need(part))
        return 2 + most

    def part_need(self, part):
        if isinstance(part, Let):
            return value_words(part.value) + self.need(part.value)
        if hasattr(part, "memory"):
            return 2 + value_words(part.address) + value_words(part.value) + max(self.need(part.address), self.need(part.value))
        return self.need(part)


def variables(node):
    """The names of variables that are written in an expression or a statement."""
    found = {node.parts[0]} if getattr(node, "kind", "") == "variable" else set()
    return found.union(*(variables(child) for child in node.children()))


def sizes(typed):
    """The expanded size and the room."""
    found = Sizes(typed)
    main = typed.functions["main"].group
    return found.expanded[main], found.needs[main] + SPARE_ROOM
