"""What a program does: evaluation by recursion on expressions, with a number of calls that a run may make.

A value is a number, a truth, a tuple or a dictionary by name. A run also notes for each write the place of its store statement and the
names of the functions in progress."""
from oracle.base.memories import MASK, Log
from oracle.language import layouts
from oracle.language.trees import Let
from oracle.language.types import BOOL, WORD

ARITHMETIC = {
    "+": lambda x, y: x + y & MASK, "-": lambda x, y: x - y & MASK, "&": lambda x, y: x & y, "|": lambda x, y: x | y,
    "^": lambda x, y: x ^ y, "==": lambda x, y: x == y, "!=": lambda x, y: x != y, "<": lambda x, y: x < y,
    "<=": lambda x, y: x <= y, ">": lambda x, y: x > y, ">=": lambda x, y: x >= y,
}
SHIFTS = {
    "<<": lambda x, count: x << count & MASK, ">>": lambda x, count: x >> count,
    "<<<": lambda x, count: (x << count | x >> (32 - count)) & MASK,
}


class Raised(Exception):
    def __init__(self, number, values):
        super().__init__(number)
        self.number, self.values = number, values


class Faulted(Exception):
    def __init__(self, memory, address):
        super().__init__(memory, address)
        self.memory, self.address = memory, address


class OutOfCalls(Exception):
    pass


def to_words(type_, value):
    if type_ in (WORD, BOOL):
        return [int(value)]
    if type_[0] == "tuple":
        return [word for at, part in enumerate(type_[1]) for word in to_words(part, value[at])]
    return [word for name, part in type_[1] for word in to_words(part, value[name])]


def from_words(type_, words):
    """A value of the type from an iterator of words."""
    if type_ == WORD:
        return next(words)
    if type_ == BOOL:
        return next(words) != 0
    if type_[0] == "tuple":
        return tuple(from_words(part, words) for part in type_[1])
    return {name: from_words(part, words) for name, part in type_[1]}


def matched(pattern, value):
    """What a pattern binds."""
    if pattern[0] == "name":
        return {pattern[1]: value}
    found = {}
    for at, part in enumerate(pattern[1] if pattern[0] == "tuple" else []):
        found |= matched(part, value[at])
    return found


class Run:
    def __init__(self, memories, log, calls):
        self.memories, self.log, self.calls = memories, log, calls
        # The names of the functions in progress, and the group of the last one.
        self.chain, self.group = (), 0

    def call(self, signature, arguments):
        """Its body, with the function in the chain: in the place of the last one where that is of its group. A tail call is the next
        round of the loop, so that a loop of the source takes no stack."""
        outside = self.chain, self.group
        try:
            while True:
                kept = self.chain[:-1] if self.group == signature.group else self.chain
                self.chain, self.group = (*kept, signature.function.name), signature.group
                scope = {name: arguments[at] for at, (name, _) in enumerate(signature.function.parameters)}
                node, scope = self.to_tail(signature.function.body, scope)
                if node.kind != "call":
                    return self.value(node, scope)
                arguments = [self.value(it, scope) for it in node.parts[1]]
                self.take_call()
                signature = node.named
        finally:
            self.chain, self.group = outside

    def to_tail(self, node, scope):
        """The call or the other expression whose value is that of one in tail position."""
        while True:
            if node.kind == "brackets":
                node = node.parts[0]
            elif node.kind == "if":
                node = node.parts[1] if self.value(node.parts[0], scope) else node.parts[2]
            elif node.kind == "block":
                scope = self.statements(node.parts[0], scope)
                node = node.parts[1]
            elif node.kind == "try":
                body, _, patterns, handler = node.parts
                try:
                    result = self.value(body, scope)
                except Raised as raised:
                    if raised.number != node.named[0]:
                        raise
                    scope = {**scope, **matched(("tuple", patterns), raised.values)}
                    node = handler
                    continue
                return Known(result), scope
            else:
                return node, scope

    def take_call(self):
        if self.calls == 0:
            raise OutOfCalls
        self.calls -= 1

    def statements(self, statements, scope):
        scope = dict(scope)
        for statement in statements:
            if isinstance(statement, Let):
                scope |= matched(statement.pattern, self.value(statement.value, scope))
                continue
            address = self.value(statement.address, scope)
            words = to_words(statement.value.type, self.value(statement.value, scope))
            if not self.memories.write(statement.memory, address, words):
                raise Faulted(statement.memory, address)
            self.log.note(statement.memory, address, words, statement.first, self.chain)
        return scope

    def value(self, node, scope):
        return getattr(self, "of_" + node.kind)(node, scope, *node.parts)

    def of_known(self, node, scope, value):
        return value

    def of_number(self, node, scope, value):
        return value

    def of_truth(self, node, scope, value):
        return value

    def of_variable(self, node, scope, name):
        return scope[name]

    def of_brackets(self, node, scope, inner):
        return self.value(inner, scope)

    def of_tuple(self, node, scope, parts):
        return tuple(self.value(it, scope) for it in parts)

    def of_record(self, node, scope, fields):
        return {name: self.value(it, scope) for name, it in fields}

    def of_dot(self, node, scope, inner, name):
        return self.value(inner, scope)[name]

    def of_invert(self, node, scope, inner):
        return self.value(inner, scope) ^ MASK

    def of_negate(self, node, scope, inner):
        return not self.value(inner, scope)

    def of_binary(self, node, scope, sign, left, right):
        first = self.value(left, scope)
        if sign in ("&&", "||"):
            return self.value(right, scope) if first == (sign == "&&") else first
        return ARITHMETIC[sign](first, self.value(right, scope))

    def of_shift(self, node, scope, sign, inner, count):
        return SHIFTS[sign](self.value(inner, scope), count)

    def of_call(self, node, scope, name, arguments):
        values = [self.value(it, scope) for it in arguments]
        self.take_call()
        return self.call(node.named, values)

    def of_unpack(self, node, scope, name, inner):
        return layouts.unpacked(node.named, layouts.bits_of(to_words(inner.type, self.value(inner, scope))))

    def of_pack(self, node, scope, name, inner):
        words = layouts.words_of(layouts.packed(node.named, self.value(inner, scope)))
        return words[0] if len(words) == 1 else tuple(words)

    def of_raise(self, node, scope, name, arguments):
        raise Raised(node.named[0], [self.value(it, scope) for it in arguments])

    def of_if(self, node, scope, condition, one, other):
        return self.value(one if self.value(condition, scope) else other, scope)

    def of_try(self, node, scope, body, name, patterns, handler):
        try:
            return self.value(body, scope)
        except Raised as raised:
            if raised.number != node.named[0]:
                raise
            return self.value(handler, {**scope, **matched(("tuple", patterns), raised.values)})

    def of_fetch(self, node, scope, memory, count, address):
        place = self.value(address, scope)
        words = self.memories.read(memory, place, count)
        if words is None:
            raise Faulted(memory, place)
        return words[0] if count == 1 else tuple(words)

    def of_block(self, node, scope, statements, tail):
        return self.value(tail, self.statements(statements, scope))


class Known:
    """An expression whose value is known."""

    kind = "known"

    def __init__(self, value):
        self.parts = (value,)


def run(typed, arguments, memories, calls, most=64):
    """The outcome with so many calls, and the log of its writes, of which each has its place and the names of the functions in progress.
    The memories are changed."""
    log = Log(most)
    machine, main = Run(memories, log, calls), typed.functions["main"]
    words = iter(arguments)
    try:
        value = machine.call(main, [from_words(it, words) for it in main.parameters])
    except OutOfCalls:
        return ("going",), log
    except Faulted as fault:
        return ("fault", fault.memory, fault.address), log
    except Raised as raised:
        types = next(types for number, types in typed.exceptions.values() if number == raised.number)
        return ("raised", raised.number, to_words(("tuple", tuple(types)), raised.values)), log
    return ("ended", to_words(main.result, value)), log


def plain(log):
    """The log without places and names."""
    found = Log(log.most)
    found.count, found.kept = log.count, [write[:3] for write in log.kept]
    return found
