"""Sources made at random: programs without a fault that run through most of themselves."""
from oracle.language import layouts, types
from oracle.language.parser import parse
from oracle.language.types import BOOL, WORD, word_tuple, words

EDGES = (0, 1, 2, 7, 8, 31, 32, 255, 256, 0xFFFF, 0x10000, 0x7FFFFFFF, 0x80000000, 0xFFFFFFFF, 0xFF000000, 0x00FF0000, 0x12345678)
NAMES = "a b c d e f g p q r s t u v w x y z a1 b2 _k long_name".split()
FIELDS = "hi lo src dst f0 f1 f2 f3 f4 f5 f6 f7".split()
# How tightly the signs of an expression bind; what stands inside something tighter has brackets.
BLOCK, TAIL, OR, AND, COMPARISON, BIT_OR, BIT_XOR, BIT_AND, SHIFT, SUM, UNARY, DOTTED, ATOM = range(13)
ARITHMETIC = (("+", SUM), ("-", SUM), ("&", BIT_AND), ("|", BIT_OR), ("^", BIT_XOR))
SRAM, SDRAM = 24, 8
ROUNDS = 3


class Maker:
    def __init__(self, random):
        self.random, self.count = random, 0
        self.layouts, self.exceptions, self.functions = {}, [], []
        self.left = 0

    def chance(self, probability):
        return self.random.random() < probability

    def fresh(self, start):
        self.count += 1
        return f"{start}{self.count}"

    def gap(self):
        """What stands between two parts."""
        return self.random.choice((" ", " ", "\n", "\n  ", " // c\n"))

    def literal(self):
        number = self.random.choice((self.random.randrange(10), self.random.choice(EDGES), self.random.randrange(2**32)))
        return self.random.choice((str(number), hex(number)))

    # ---- declarations

    def program(self):
        parts = [self.layout() for _ in range(self.random.choice((0, 1, 1, 2)))]
        parts += [self.exception() for _ in range(self.random.choice((0, 1, 1, 2)))]
        for _ in range(self.random.choice((0, 1, 1, 2, 3))):
            parts.append(self.group(self.random.choice((1, 1, 2))))
        parts.append(self.main())
        return self.gap().join(parts)

    def record_layout(self, bits):
        fields = []
        for name in self.random.sample(FIELDS, self.random.randint(1, 6)):
            size = min(bits, self.random.choice((1, 3, 4, 8, 11, 16, 24, 32)))
            if size:
                fields.append(f"{name}: {self.field(size)}")
            bits -= size
        return "{" + ", ".join(fields) + "}"

    def field(self, bits):
        """What a field of so many bits has: a number, an inner layout or an overlay."""
        if bits < 2 or self.chance(0.7):
            return str(bits)
        cut = self.random.randint(1, bits - 1)
        inner = f"{{hi: {cut}, lo: {bits - cut}}}"
        return inner if self.chance(0.5) else f"overlay {{a: {bits} | b: {inner}}}"

    def outline(self, text):
        return layouts.outline(self.layouts, parse(f"layout x = {text};".encode()).declarations[0].layout)

    def layout(self):
        text = self.record_layout(self.random.choice((8, 32, 40, 64, 96)))
        if self.chance(0.3):
            text = f"{{{self.random.randint(1, 40)}}} ## {text}"
        name = self.fresh("l")
        self.layouts[name] = self.outline(text)
        return f"layout {name} = {text};"

    def type(self, most=4):
        """A type of at most so many words."""
        choices = [WORD, WORD, WORD, BOOL, word_tuple(2), word_tuple(3), ("tuple", ()), ("tuple", (WORD, BOOL))]
        choices.append(("record", (("hi", WORD), ("lo", WORD))))
        choices += [make(it) for it in self.layouts.values() for make in (types.packed_type, types.unpacked_type)]
        return self.random.choice([it for it in choices if words(it) <= most])

    def spelled(self, type_):
        names = [f"packed({name})" for name, it in self.layouts.items() if types.packed_type(it) == type_]
        names += [f"unpacked({name})" for name, it in self.layouts.items() if types.unpacked_type(it) == type_]
        if names and self.chance(0.5):
            return self.random.choice(names)
        if type_ in (WORD, BOOL):
            return type_[0]
        if type_[0] == "tuple":
            if len(type_[1]) > 1 and set(type_[1]) == {WORD} and self.chance(0.5):
                return f"word[{len(type_[1])}]"
            return "(" + ", ".join(map(self.spelled, type_[1])) + ")"
        return "{" + ", ".join(f"{name}: {self.spelled(it)}" for name, it in type_[1]) + "}"

    def exception(self):
        name, passed = self.fresh("E"), [self.type(3) for _ in range(self.random.choice((0, 1, 1, 2)))]
        self.exceptions.append((name, passed))
        return f"exception {name}[{', '.join(map(self.spelled, passed))}];"

    def group(self, count):
        """Functions that count their first parameter down and call one another in tail position."""
        result = self.type()
        mine = []
        for _ in range(count):
            parameters = [("n", WORD)] + [(name, self.type(3)) for name in self.random.sample(NAMES, self.random.randint(0, 2))]
            mine.append((self.fresh("f"), parameters, result))
        bodies = []
        for name, parameters, _ in mine:
            self.left = self.random.randint(4, 20)
            scope = dict(parameters)
            last = self.operand(result, scope, 3, BLOCK)
            before = self.statements(scope, 2, self.random.randint(0, 2))
            called, passed, _ = self.random.choice(mine)
            again = self.call(called, passed, scope, "n - 1")
            bodies.append(f"{name}[{self.shown(parameters)}]: {self.spelled(result)} {{ if (n == 0) {last} else {before}{again} }}")
        self.functions += mine
        return "fun " + (self.gap() + "and ").join(bodies)

    def main(self):
        self.left = self.random.randint(10, 45)
        names = self.random.sample(NAMES, self.random.randint(0, 4))
        parameters = [(name, self.random.choice((WORD, WORD, word_tuple(2)))) for name in names]
        result, scope = self.type(4), dict(parameters)
        before = self.statements(scope, 4, self.random.randint(1, 4))
        tail = self.operand(result, scope, 3, BLOCK)
        return f"fun main[{self.shown(parameters)}]: {self.spelled(result)} {{{self.gap()}{before}{tail} }}"

    def shown(self, parameters):
        return ", ".join(f"{name}: {self.spelled(it)}" for name, it in parameters)

    # ---- expressions: a text, and how tightly it binds

    def inside(self, made, least):
        text, level = made
        return f"({text})" if level < least or self.chance(0.03) else text

    def operand(self, type_, scope, depth, least=ATOM):
        return self.inside(self.expression(type_, scope, depth), least)

    def call(self, name, parameters, scope, rounds):
        arguments = [rounds] + [self.operand(it, scope, 1, BLOCK) for _, it in parameters[1:]]
        return f"{name}[{', '.join(arguments)}]"

    def paths(self, text, type_, wanted):
        """The ways to a part of a variable."""
        found = [text] * (type_ == wanted)
        for name, part in type_[1] if type_[0] == "record" else ():
            found += self.paths(f"{text}.{name}", part, wanted)
        return found

    def simple(self, type_, scope):
        paths = [path for name, it in scope.items() for path in self.paths(name, it, type_)]
        if paths and self.chance(0.8):
            path = self.random.choice(paths)
            return path, DOTTED if "." in path else ATOM
        if type_ == WORD:
            return self.literal(), ATOM
        if type_ == BOOL:
            return self.random.choice(("true", "false")), ATOM
        if type_[0] == "tuple":
            return "(" + ", ".join(self.simple(it, scope)[0] for it in type_[1]) + ")", ATOM
        return "{" + ", ".join(f"{name} = {self.simple(it, scope)[0]}" for name, it in type_[1]) + "}", ATOM

    def expression(self, type_, scope, depth):
        self.left -= 1
        if depth <= 0 or self.left <= 0:
            return self.simple(type_, scope)
        draw = self.random.random()
        if draw < 0.12:
            return self.choice(type_, scope, depth - 1), TAIL
        if draw < 0.22 and self.exceptions:
            return self.handled(type_, scope, depth - 1), TAIL
        if draw < 0.32:
            scope = dict(scope)
            statements = self.statements(scope, depth - 1, self.random.randint(1, 2))
            return statements + self.operand(type_, scope, depth - 1, BLOCK), BLOCK
        calls = [it for it in self.functions if it[2] == type_]
        if calls and draw < 0.5:
            name, parameters, _ = self.random.choice(calls)
            return self.call(name, parameters, scope, str(self.random.randint(0, ROUNDS))), ATOM
        if draw < 0.62:
            found = self.by_layout(type_, scope, depth - 1)
            if found:
                return found
        return self.by_type(type_, scope, depth - 1)

    def choice(self, type_, scope, depth):
        """Of the two arms one may raise."""
        condition = self.operand(BOOL, scope, depth, BLOCK)
        arms = [self.operand(type_, scope, depth, BLOCK) for _ in range(2)]
        if self.exceptions and self.chance(0.3):
            arms[self.random.randrange(2)] = self.raised(scope, depth)
        return f"if ({condition}) {arms[0]} else {arms[1]}"

    def raised(self, scope, depth):
        name, passed = self.random.choice(self.exceptions)
        return f"raise {name}[{', '.join(self.operand(it, scope, depth - 1, BLOCK) for it in passed)}]"

    def handled(self, type_, scope, depth):
        name, passed = self.random.choice(self.exceptions)
        inner = dict(scope)
        patterns = ", ".join(self.pattern(it, inner) for it in passed)
        condition = self.operand(BOOL, scope, depth - 1, BLOCK)
        body = f"if ({condition}) {self.raised(scope, depth)} else {self.operand(type_, scope, depth, BLOCK)}"
        return f"try {{{self.gap()}{body} }} handle {name}[{patterns}] {{ {self.operand(type_, inner, depth, BLOCK)} }}"

    def by_layout(self, type_, scope, depth):
        choices = []
        for name, outline in self.layouts.items():
            if types.packed_type(outline) == type_:
                choices.append(lambda name=name, outline=outline: (f"pack[{name}]({self.record(outline, scope, depth)})", ATOM))
            if type_ == WORD or types.unpacked_type(outline) == type_:
                choices.append(lambda name=name, outline=outline: self.unpacked(name, outline, type_, scope, depth))
        return self.random.choice(choices)() if choices else None

    def unpacked(self, name, outline, type_, scope, depth):
        text = f"unpack[{name}]({self.operand(types.packed_type(outline), scope, depth, BLOCK)})"
        path = self.random.choice(self.paths(text, types.unpacked_type(outline), type_) or [None])
        return path and (path, DOTTED)

    def record(self, outline, scope, depth):
        """A record that `pack` takes."""
        if outline.kind == "bits":
            return self.operand(WORD, scope, depth - 1, BLOCK)
        fields = [self.random.choice(outline.parts)] if outline.kind == "overlay" else outline.named()
        return "{" + ", ".join(f"{name} = {self.record(it, scope, depth - 1)}" for name, it in fields) + "}"

    def by_type(self, type_, scope, depth):
        if type_ == WORD:
            return self.word(scope, depth)
        if type_ == BOOL:
            return self.truth(scope, depth)
        if type_[0] == "record":
            return "{" + ", ".join(f"{name} = {self.operand(it, scope, depth, BLOCK)}" for name, it in type_[1]) + "}", ATOM
        if 2 <= len(type_[1]) <= 8 and set(type_[1]) == {WORD} and self.chance(0.4):
            return self.fetch(len(type_[1]), scope, depth), ATOM
        return "(" + ", ".join(self.operand(it, scope, depth, BLOCK) for it in type_[1]) + ")", ATOM

    def word(self, scope, depth):
        draw = self.random.random()
        if draw < 0.55:
            sign, level = self.random.choice(ARITHMETIC)
            return f"{self.operand(WORD, scope, depth, level)} {sign} {self.operand(WORD, scope, depth, level + 1)}", level
        if draw < 0.7:
            count = self.random.choice((0, 1, 8, 16, 31, self.random.randrange(32)))
            return f"{self.operand(WORD, scope, depth, SHIFT)} {self.random.choice(('<<', '>>', '<<<'))} {count}", SHIFT
        if draw < 0.8:
            return f"~{self.operand(WORD, scope, depth, UNARY)}", UNARY
        return (self.fetch(1, scope, depth), ATOM) if draw < 0.93 else self.simple(WORD, scope)

    def truth(self, scope, depth):
        draw = self.random.random()
        if draw < 0.6:
            sign = self.random.choice(("==", "!=", "<", "<=", ">", ">="))
            first = self.operand(WORD, scope, depth, BIT_OR)
            second = first if self.chance(0.2) else self.operand(WORD, scope, depth, BIT_OR)
            return f"{first} {sign} {second}", COMPARISON
        if draw < 0.75:
            return f"!{self.operand(BOOL, scope, depth, UNARY)}", UNARY
        sign, level = self.random.choice((("&&", AND), ("||", OR)))
        return f"{self.operand(BOOL, scope, depth, level)} {sign} {self.operand(BOOL, scope, depth, level + 1)}", level

    # ---- memories and statements

    def address(self, count, scope, depth):
        """A memory and an address at which an access mostly lies inside."""
        memory = self.random.choice(("sram", "sram", "scratch") + ("sdram",) * (count % 2 == 0))
        if memory == "scratch":
            return memory, str(self.random.choice((0, 1, 5, 512 - count)))
        most = SRAM - count if memory == "sram" else SDRAM - count // 2
        if self.chance(0.5):
            return memory, str(self.random.randint(0, most))
        if self.chance(0.06):
            return memory, self.operand(WORD, scope, depth, BLOCK)
        return memory, f"{self.operand(WORD, scope, depth, BIT_AND)} & {3 if memory == 'sdram' else 7}"

    def fetch(self, count, scope, depth):
        memory, address = self.address(count, scope, depth - 1)
        return f"{memory}[{count}]({address})"

    def pattern(self, type_, scope):
        if type_[0] == "tuple" and self.chance(0.7):
            return "(" + ", ".join(self.pattern(it, scope) for it in type_[1]) + ")"
        if self.chance(0.1):
            return "_"
        name = self.fresh("v")
        scope[name] = type_
        return name

    def statements(self, scope, depth, count):
        return "".join(self.statement(scope, depth) + self.gap() for _ in range(count))

    def statement(self, scope, depth):
        if self.chance(0.35):
            count = self.random.choice((1, 1, 2, 2, 3, 4, 6, 8))
            memory, address = self.address(count, scope, depth - 1)
            return f"{memory}({address}) <- {self.operand(word_tuple(count), scope, depth - 1, TAIL)};"
        type_ = self.random.choice((self.type(), self.type(), word_tuple(self.random.choice((2, 4, 8)))))
        value = self.operand(type_, scope, depth - 1, TAIL)
        if self.chance(0.1):
            name = self.random.choice(NAMES)
            scope[name] = type_
            return f"let {name} = {value};"
        return f"let {self.pattern(type_, scope)} = {value};"


def made_source(random):
    return Maker(random).program().encode()


def writing_source(count):
    """A source that writes so many times."""
    loop = "fun f[n: word]: word { if (n == 0) 0 else\nsram(n & 7) <- n; f[n - 1] }"
    return f"{loop} fun main[]: word {{ f[{count}] }}".encode()


def memory_for(random, count):
    """A memory text for the sources made here."""
    arguments = "".join(f" {random.choice((random.randrange(8), random.choice(EDGES), random.randrange(2**32))):08x}" for _ in range(count))
    lines = [f"memory {random.choice((SRAM, SRAM, SRAM - 1, 8))} {random.choice((SDRAM, SDRAM, 3))}", f"args{arguments}"]
    for kind in ("sram", "sdram"):
        if random.random() < 0.7:
            given = (random.choice((random.randrange(4), random.randrange(2**32))) for _ in range(random.choice((2, 6))))
            lines.append(f"{kind} 0" + "".join(f" {word:08x}" for word in given))
    return ("\n".join(lines) + "\n").encode()
