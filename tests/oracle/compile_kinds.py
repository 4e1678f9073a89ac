"""Kinds of cases that compile a source, or run its form."""
from random import Random

from oracle import expected
from oracle.banks import placements
from oracle.banks.program import BankProgram
from oracle.cases import Case, Kind, compared
from oracle.compiled import Compilation
from oracle.expected import answered
from oracle.language import near_sources, sources
from oracle.machine import codes
from oracle.source_kinds import Sources, typed_source
from oracle.zo import reports

LOOP = b"fun f[n: word]: word { if (n == 0) 1 else f[n - 1] } fun main[x: word]: word { f[x & 3] + x }"
COUNTS = (0, 1, 2, 7, 1023, 1024, 5000, 2**32 - 1)


def weights_text(random, most):
    counts = [random.choice(COUNTS) for _ in range(random.randint(0, most))]
    return f"weights {len(counts)}\n".encode() + b"".join(b"l %d\n" % count for count in counts)


class Compiled(Kind):
    """What is compiled: its object, its report, its form, and runs of all three."""

    slots = (128, 128, 40, 3)
    budgets = (1, 1, 4)

    def make(self, random):
        numbers = {"slots": random.choice(self.slots), "budget": random.choice(self.budgets)}
        case = Case({"s": typed_source(random)[0]}, numbers, random.randrange(2**32))
        if random.random() < 0.4:
            case.files["w"] = weights_text(random, 12)
        return case

    def compilation(self, case, programs):
        return Compilation(programs, case.files["s"], case.numbers["slots"], case.numbers["budget"], case.files.get("w"))

    def differences(self, case, programs):
        return self.compilation(case, programs).differences(Random(case.seed))


class Banks(Compiled):
    """Forms with many live values, few slots and weights."""

    slots = (0, 1, 2, 5, 17, 128)
    budgets = (1, 3)

    def make(self, random):
        case = super().make(random)
        if random.random() < 0.6:
            case.files["s"] = crowded(random).encode()
        return case


def crowded(random):
    """A source that has many words at once."""
    names = [f"v{number}" for number in range(random.choice((2, 9, 16, 20, 34, 45)))]
    parts = []
    for first in range(0, len(names), 8):
        part = names[first : first + 8]
        pattern = part[0] if len(part) == 1 else f"({', '.join(part)})"
        parts.append(f"let {pattern} = sram[{len(part)}]({first});")
    for _ in range(random.randint(0, 3)):
        parts.append(f"sram({random.randrange(9)}) <- {random.choice(names)} + {random.choice(names)};")
    random.shuffle(names)
    return f"fun main[]: word {{ {' '.join(parts)} {' + '.join(names)} }}"


class Placements(Banks):
    """The placement that a report's vector says, and placements near it: those that fit have vectors that meet the rows and cost the
    same, and what such a vector says fits."""

    changes = 25

    def differences(self, case, programs):
        compilation = self.compilation(case, programs)
        if compilation.refusal or "r" not in compilation.answer.saved:
            return []
        report = reports.read_report(compilation.answer.saved["r"])
        if not report.has_vector():
            return []
        form, random = compilation.form, Random(case.seed)
        banks = BankProgram(form, report.slots, compilation.weight)
        placement = placements.of_vector(banks, report.chosen)
        found = placements.faults(form, report.slots, placement)
        least = placements.cost(form, placement, compilation.weight)
        found += [f"the placement costs {least}, above {report.cost()}"] * (least > report.cost())
        found += self.faults(banks, report, placement)
        for _ in range(self.changes):
            changed = placements.near(random, form, placement)
            found += self.faults(banks, report, changed)
            placement = placement if placements.faults(form, report.slots, changed) else changed
        return found[:3]

    def faults(self, banks, report, placement):
        """Where the module's placements and the printed rows differ."""
        form, weight = banks.form, banks.weight
        fits = not placements.faults(form, report.slots, placement)
        try:
            chosen = placements.to_vector(banks, placement)
        except placements.NoColumn as fault:
            return [f"it fits and has no column: {fault}"] * fits
        cost, own_cost = report.program.cost(chosen), placements.cost(form, placement, weight)
        if not report.program.is_feasible(chosen):
            return ["it fits and doesn't meet the rows"] * fits
        again = placements.of_vector(banks, chosen)
        found = [f"its vector says a placement that doesn't fit: {it}" for it in placements.faults(form, report.slots, again)]
        found += ["its vector says a dearer placement"] * (placements.cost(form, again, weight) > cost)
        found += [f"it costs {own_cost}, its vector {cost}"] * (fits and own_cost != cost)
        return found + [f"it costs {cost}, below {report.cost()}"] * (report.verdict == "optimal" and cost < report.cost())


class Weights(Compiled):
    """Texts of weights that are near one."""

    def make(self, random):
        case = super().make(random)
        text = weights_text(random, 5)
        case.files |= {"s": LOOP, "w": codes.near_text(random, text) if random.random() < 0.7 else text}
        return case


class Counts(Sources):
    """How often a run of the form enters each label."""

    def differences(self, case, programs):
        steps = case.numbers["steps"]
        form_text = lambda: programs.form_text(case.files["s"])
        answer = answered(expected.counts_answer, case.files["s"], case.files["m"], steps, form_text)
        saved = {"f": answer[2]} if len(answer) == 3 else {}
        return compared(programs.call(case.files, "counts", "s", "m", "f", f"steps={steps}"), answer, saved)


class Traces(Kind):
    """Which statement made each write: of a source beside its own code, or beside that of a source near it."""

    def make(self, random):
        if random.random() < 0.1:
            text, words = sources.writing_source(random.choice((64, 1023, 1024, 1025, 1100))), 0
        else:
            text, words = typed_source(random)
        other = near_sources.reoperated(random, text) if random.random() < 0.6 else text
        numbers = {"steps": random.choice((10, 100_000)), "calls": random.choice((1, 3, 100_000)), "line": random.choice((0, 0, 1, 3, 9))}
        return Case({"s": text, "t": other, "m": sources.memory_for(random, words)}, numbers)

    def differences(self, case, programs):
        compiled = programs.call({"t": case.files["t"]}, "compile", "t", "o", "r", "budget=1", "store=1048576").saved.get("o")
        if compiled is None:
            return []
        steps, calls, line = (case.numbers[it] for it in ("steps", "calls", "line"))
        files = {"s": case.files["s"], "o": compiled, "m": case.files["m"]}
        words = ["trace", "s", "o", "m", f"steps={steps}", f"calls={calls}"] + [f"line={line}"] * bool(line)
        wanted = answered(expected.trace_answer, files["s"], compiled, files["m"], steps, calls, line or None)
        return compared(programs.call(files, *words), wanted)
