"""Kinds of cases that only read a source: its faults, its sizes, its outcome, and made sources."""
from oracle import expected
from oracle.base.memories import Memories
from oracle.cases import Case, Kind, compared
from oracle.expected import Refusal, answered
from oracle.language import generator, meaning, near_sources, sources
from oracle.language.parser import parse
from oracle.language.typing import check

SIZE_STATUS = 8


def typed_source(random):
    """A source without a fault, with how many words its main takes. What is made has none but, seldom, its size."""
    while True:
        text = sources.made_source(random)
        try:
            return text, expected.typed_of(text).parameter_words()
        except Refusal as refusal:
            if refusal.status != SIZE_STATUS:
                raise


class Sources(Kind):
    """Sources without a fault: their outcomes."""

    def make(self, random):
        if random.random() < 0.05:
            text, words = sources.writing_source(random.choice((63, 64, 65, 70))), 0
        else:
            text, words = typed_source(random)
        return Case({"s": text, "m": sources.memory_for(random, words)}, {"steps": random.choice((1, 3, 10, 100_000))})

    def differences(self, case, programs):
        steps = case.numbers["steps"]
        wanted = answered(expected.exec_answer, case.files["s"], case.files["m"], steps)
        return compared(programs.call(case.files, "exec", "s", "m", f"steps={steps}"), wanted)


class Types(Sources):
    """Sources in which other parts stand in the place of some: mostly the first fault of their types."""

    def make(self, random):
        case = super().make(random)
        case.files["s"] = near_sources.retyped(random, case.files["s"])
        return case


class Texts(Sources):
    """Sources with other tokens, and texts whose trees are about as high as is allowed."""

    def make(self, random):
        if random.random() < 0.5:
            case = super().make(random)
        else:
            case = Case({"s": near_sources.deep(random), "m": b"memory 8 4\nargs 00000001\n"}, {"steps": 100})
        if random.random() < 0.6:
            case.files["s"] = near_sources.near(random, case.files["s"])
        return case


class Sizes(Kind):
    """The expanded size and the room of a source."""

    def make(self, random):
        return Case({"s": typed_source(random)[0]})

    def differences(self, case, programs):
        try:
            typed = expected.typed_of(case.files["s"])
        except Refusal:
            return []
        told = programs.sizes_text(case.files["s"])
        wanted = f"expanded size {typed.expanded}", f"room {typed.room}"
        return [f"{told!r}, expected {it}" for it in wanted if it not in told]


class Generated(Kind):
    """What `gen` tells of its text: its length, its compilation, and the word that it means."""

    def make(self, random):
        return Case({}, {"seed": random.choice((0, 1, random.randrange(2**32))), "size": random.randint(1, 60)})

    def differences(self, case, programs):
        seed, size = case.numbers["seed"], case.numbers["size"]
        text = generator.made_text(seed, size).encode()
        outcome, _ = meaning.run(check(parse(text)), [1, 2], Memories(0, 0), 0)
        compiled = programs.call({"s": text}, "compile", "s", "o", "r", "budget=2000", "store=1048576").output.decode().split()
        wanted = f"gen {seed} {size} source {len(text)} length {' '.join(compiled[1:])} outcome {outcome[1][0]:08x}\n"
        return compared(programs.call({}, "gen", str(seed), str(size)), (0, wanted.encode()))
