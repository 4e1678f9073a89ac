"""The first fault of a program's types, in the order of a walk; at one node the least kind.

The walk goes through the declarations in order. Within one it takes the name, then types and layouts as written, then bodies: children
from left to right before their node, a pattern when it is reached. A part that has another type than is wanted, or no value, is a fault
of that part."""
from dataclasses import dataclass, field

from oracle.language import layouts, sizes
from oracle.language.layouts import LayoutFault, is_repeated
from oracle.language.trees import ExceptionDeclaration, LayoutDeclaration, Let, pattern_names
from oracle.language.types import (
    BOOL, WORD, has_bool, is_large, is_packable, is_stored, packed_type, unpacked_type, word_tuple, words,
)

# The kinds of faults; those from 3 to 7 are of layouts.
NO_MAIN, DECLARED, NO_LAYOUT = 1, 2, 3
BAD_TYPE, VARIABLE_TWICE, NO_VARIABLE, NO_FUNCTION, NOT_IN_TAIL, OTHER_NUMBER, OTHER_TYPE, NO_FIELD = range(8, 16)
BAD_PATTERN, NO_EXCEPTION, FIELD_TWICE, BAD_COUNT, BAD_SCRATCH, BAD_SHIFT, NO_VALUE, TOO_MANY_WORDS, LARGE_TYPE = range(16, 25)
MOST_PASSED = 8
MOST_EXPANDED = 4096
SCRATCH = 512
# The type of an expression whose type isn't known, since it has a fault.
UNKNOWN = object()


class TypeFault(Exception):
    def __init__(self, kind, first, after):
        super().__init__(kind, first, after)
        self.kind, self.first, self.after = kind, first, after


class SizeFault(Exception):
    def __init__(self, expanded):
        super().__init__(expanded)
        self.expanded = expanded


class TypeText(Exception):
    """A type as written that is no type."""

    def __init__(self, kind):
        super().__init__(kind)
        self.kind = kind


@dataclass
class Signature:
    function: object
    group: int
    parameters: list = field(default_factory=list)
    result: tuple = ()


@dataclass
class Typed:
    """A program without a fault."""

    program: object
    layouts: dict = field(default_factory=dict)
    # By name: the number from 1, and the types.
    exceptions: dict = field(default_factory=dict)
    functions: dict = field(default_factory=dict)
    groups: list = field(default_factory=list)
    expanded: int = 0
    room: int = 0

    def parameter_words(self):
        return sum(words(it) for it in self.functions["main"].parameters)


def refuse(faults):
    """The least kind of the faults at one node, the first of several."""
    if faults:
        kind, node = min(faults, key=lambda it: it[0])
        raise TypeFault(kind, node.first, node.after)


def bound(pattern, type_):
    """The names that a pattern binds with their types, or None where it doesn't fit."""
    if pattern[0] == "name":
        return [(pattern[1], type_)]
    if pattern[0] == "any":
        return []
    if type_[0] != "tuple" or len(type_[1]) != len(pattern[1]):
        return None
    parts = [bound(part, type_[1][at]) for at, part in enumerate(pattern[1])]
    return None if None in parts else [it for part in parts for it in part]


# What may be wanted of a part: a test of its type.
def exactly(wanted):
    return lambda type_: type_ == wanted


def anything(_type):
    return True


class Checker:
    def __init__(self, program):
        self.typed = Typed(program)
        self.scope = {}
        self.group = 0

    # ---- declarations

    def run(self):
        for declaration in self.typed.program.declarations:
            if isinstance(declaration, LayoutDeclaration):
                self.declare_layout(declaration)
            elif isinstance(declaration, ExceptionDeclaration):
                self.declare_exception(declaration)
            else:
                self.declare_group(declaration)
        if "main" not in self.typed.functions:
            length = self.typed.program.length
            raise TypeFault(NO_MAIN, length, length)

    def declare_layout(self, declaration):
        if declaration.name in self.typed.layouts:
            refuse([(DECLARED, declaration)])
        try:
            self.typed.layouts[declaration.name] = layouts.outline(self.typed.layouts, declaration.layout)
        except LayoutFault as fault:
            refuse([(fault.kind, declaration)])

    def declare_exception(self, declaration):
        if declaration.name in self.typed.exceptions:
            refuse([(DECLARED, declaration)])
        types = self.types(declaration.types, declaration)
        if sum(map(words, types)) > MOST_PASSED:
            refuse([(TOO_MANY_WORDS, declaration)])
        self.typed.exceptions[declaration.name] = (len(self.typed.exceptions) + 1, types)

    def declare_group(self, declaration):
        """All names of a group, then all types as written, then all bodies."""
        self.group += 1
        signatures = []
        for function in declaration.functions:
            if function.name in self.typed.functions:
                refuse([(DECLARED, function)])
            signatures.append(Signature(function, self.group))
            self.typed.functions[function.name] = signatures[-1]
        for signature in signatures:
            self.sign(signature)
        self.typed.groups.append(signatures)
        for signature in signatures:
            function = signature.function
            self.scope = {name: signature.parameters[at] for at, (name, _) in enumerate(function.parameters)}
            self.visit(function.body, True, exactly(signature.result), may_lack=True)

    def sign(self, signature):
        function = signature.function
        *signature.parameters, signature.result = self.types([it for _, it in function.parameters] + [function.result], function)
        faults = [(VARIABLE_TWICE, function)] * is_repeated([name for name, _ in function.parameters])
        if function.name == "main":
            passed = sum(map(words, signature.parameters))
            is_wide = passed > MOST_PASSED or words(signature.result) > MOST_PASSED
            faults += [(TOO_MANY_WORDS, function)] * (is_wide or any(map(has_bool, signature.parameters)))
        refuse(faults)

    def types(self, written, node):
        try:
            return [self.type(it) for it in written]
        except TypeText as fault:
            return refuse([(fault.kind, node)])

    def type(self, written):
        kind, *what = written
        if kind == "word":
            found = word_tuple(what[0]) if 1 <= what[0] <= 1024 else None
        elif kind == "bool":
            found = BOOL
        elif kind == "tuple":
            found = ("tuple", tuple(self.type(it) for it in what[0]))
        elif kind == "record":
            fields = tuple((name, self.type(it)) for name, it in what[0])
            found = None if is_repeated([name for name, _ in fields]) else ("record", fields)
        else:
            outline = self.typed.layouts.get(what[0])
            found = outline and (packed_type(outline) if kind == "packed" else unpacked_type(outline))
        if found is None:
            raise TypeText(BAD_TYPE)
        if is_large(found):
            raise TypeText(LARGE_TYPE)
        return found

    # ---- expressions

    def visit(self, node, in_tail, wanted=anything, may_lack=False):
        """The type of a part, None without a value. Its own faults are tried with whether it is what is wanted."""
        faults = []
        type_ = getattr(self, "check_" + node.kind)(node, in_tail, faults, *node.parts)
        if type_ is None:
            faults += [] if may_lack else [(NO_VALUE, node)]
        elif type_ is not UNKNOWN:
            faults += [] if wanted(type_) else [(OTHER_TYPE, node)]
            faults += [(LARGE_TYPE, node)] * is_large(type_)
        refuse(faults)
        node.type = type_
        return type_

    def check_number(self, node, in_tail, faults, value):
        return WORD

    def check_truth(self, node, in_tail, faults, value):
        return BOOL

    def check_variable(self, node, in_tail, faults, name):
        if name in self.scope:
            return self.scope[name]
        faults.append((NO_VARIABLE, node))
        return UNKNOWN

    def check_brackets(self, node, in_tail, faults, inner):
        return self.visit(inner, in_tail)

    def check_tuple(self, node, in_tail, faults, parts):
        return ("tuple", tuple(self.visit(it, False) for it in parts))

    def check_record(self, node, in_tail, faults, fields):
        found = tuple((name, self.visit(it, False)) for name, it in fields)
        faults += [(FIELD_TWICE, node)] * is_repeated([name for name, _ in fields])
        return ("record", found)

    def check_dot(self, node, in_tail, faults, inner, name):
        type_ = self.visit(inner, False)
        fields = dict(type_[1]) if type_[0] == "record" else {}
        if name in fields:
            return fields[name]
        faults.append((NO_FIELD, node))
        return UNKNOWN

    def check_invert(self, node, in_tail, faults, inner):
        self.visit(inner, False, exactly(WORD))
        return WORD

    def check_negate(self, node, in_tail, faults, inner):
        self.visit(inner, False, exactly(BOOL))
        return BOOL

    def check_binary(self, node, in_tail, faults, sign, left, right):
        operand = BOOL if sign in ("&&", "||") else WORD
        self.visit(left, False, exactly(operand))
        self.visit(right, False, exactly(operand))
        return WORD if sign in ("+", "-", "&", "|", "^") else BOOL

    def check_shift(self, node, in_tail, faults, sign, inner, count):
        self.visit(inner, False, exactly(WORD))
        faults += [(BAD_SHIFT, node)] * (count > 31)
        return WORD

    def check_arguments(self, arguments, types):
        """Where the number differs, no type is wanted of an argument."""
        for at, argument in enumerate(arguments):
            self.visit(argument, False, exactly(types[at]) if types is not None and len(types) == len(arguments) else anything)

    def check_call(self, node, in_tail, faults, name, arguments):
        signature = self.typed.functions.get(name)
        self.check_arguments(arguments, signature and signature.parameters)
        if not signature:
            faults.append((NO_FUNCTION, node))
            return UNKNOWN
        node.named, node.is_own = signature, signature.group == self.group
        faults += [(NOT_IN_TAIL, node)] * (node.is_own and not in_tail)
        faults += [(OTHER_NUMBER, node)] * (len(signature.parameters) != len(arguments))
        return signature.result

    def check_unpack(self, node, in_tail, faults, name, inner):
        node.named = self.typed.layouts.get(name)
        self.visit(inner, False, exactly(packed_type(node.named)) if node.named else anything)
        if node.named:
            return unpacked_type(node.named)
        faults.append((NO_LAYOUT, node))
        return UNKNOWN

    def check_pack(self, node, in_tail, faults, name, inner):
        node.named = outline = self.typed.layouts.get(name)
        self.visit(inner, False, (lambda type_: is_packable(outline, type_)) if outline else anything)
        if outline:
            return packed_type(outline)
        faults.append((NO_LAYOUT, node))
        return UNKNOWN

    def check_raise(self, node, in_tail, faults, name, arguments):
        node.named = self.typed.exceptions.get(name)
        types = node.named and node.named[1]
        self.check_arguments(arguments, types)
        if types is None:
            faults.append((NO_EXCEPTION, node))
        elif len(types) != len(arguments):
            faults.append((OTHER_NUMBER, node))

    def check_second(self, node, in_tail, first):
        """The second arm or the handler, where the first has this type or no value."""
        second = self.visit(node, in_tail, anything if first is None else exactly(first), may_lack=True)
        return second if first is None else first

    def check_if(self, node, in_tail, faults, condition, one, other):
        self.visit(condition, False, exactly(BOOL))
        return self.check_second(other, in_tail, self.visit(one, in_tail, may_lack=True))

    def check_try(self, node, in_tail, faults, body, name, patterns, handler):
        type_ = self.visit(body, False, may_lack=True)
        node.named = self.typed.exceptions.get(name)
        mine = [(VARIABLE_TWICE, node)] * is_repeated([it for pattern in patterns for it in pattern_names(pattern)])
        pairs = bound(("tuple", patterns), ("tuple", tuple(node.named[1]))) if node.named else []
        if not node.named:
            mine.append((NO_EXCEPTION, node))
        elif len(node.named[1]) != len(patterns):
            mine.append((OTHER_NUMBER, node))
        elif pairs is None:
            mine.append((BAD_PATTERN, node))
        refuse(mine)
        outside, self.scope = self.scope, {**self.scope, **dict(pairs)}
        type_ = self.check_second(handler, in_tail, type_)
        self.scope = outside
        return type_

    def check_access(self, node, faults, memory, count, address):
        if count is not None and count not in ((2, 4, 6, 8) if memory == "sdram" else range(1, 9)):
            faults.append((BAD_COUNT, node))
        if memory == "scratch" and (address.kind != "number" or count is not None and address.parts[0] + count > SCRATCH):
            faults.append((BAD_SCRATCH, node))

    def check_fetch(self, node, in_tail, faults, memory, count, address):
        self.visit(address, False, exactly(WORD))
        self.check_access(node, faults, memory, count, address)
        # A type of more words than a type has is wanted nowhere.
        return word_tuple(min(count, 1025))

    def check_block(self, node, in_tail, faults, statements, tail):
        outside, self.scope = self.scope, dict(self.scope)
        for statement in statements:
            if isinstance(statement, Let):
                self.check_let(statement)
            else:
                self.check_store(statement)
        type_ = self.visit(tail, in_tail, may_lack=True)
        self.scope = outside
        return type_

    def check_let(self, let):
        type_ = self.visit(let.value, False)
        pairs = bound(let.pattern, type_)
        refuse([(VARIABLE_TWICE, let)] * is_repeated(pattern_names(let.pattern)) + [(BAD_PATTERN, let)] * (pairs is None))
        self.scope.update(pairs)

    def check_store(self, store):
        faults = []
        self.visit(store.address, False, exactly(WORD))
        type_ = self.visit(store.value, False, is_stored)
        self.check_access(store, faults, store.memory, words(type_), store.address)
        refuse(faults)


def check(program):
    """The typed program with its sizes, or its first fault."""
    checker = Checker(program)
    checker.run()
    typed = checker.typed
    typed.expanded, typed.room = sizes.sizes(typed)
    if typed.expanded > MOST_EXPANDED:
        raise SizeFault(typed.expanded)
    return typed
