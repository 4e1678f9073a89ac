"""What `compile` has to have done where it ends with 0, and what its report says where it ends with 9 or 10."""
from oracle.banks import code as bank_code
from oracle.banks.program import BankProgram
from oracle.base.memories import SOURCE_SCRATCH, Memories
from oracle.expected import Refusal, memory_of, object_of, typed_of, weights_of
from oracle.language import meaning
from oracle.machine import instructions as machine
from oracle.machine import traces, windows
from oracle.machine.instructions import SPILL_BASE, SPILL_WORDS, Engine
from oracle.middle import forms, single_use
from oracle.middle import meaning as form_meaning
from oracle.zo import reports

CALLS, STEPS, JUMPS = 5_000, 200_000, 50_000
# A check of how a search went reads each row at each node: so many terms at most.
MOST_SEARCHED = 3_000_000
MOST_COPIED_PEAK = 15


class Compilation:
    """A source, the numbers of the command, and what novac answered. `memory` is a memory text for its runs."""

    def __init__(self, programs, source, slots, budget, weights=None, memory=None):
        self.source, self.slots, self.budget, self.memory = source, slots, budget, memory
        files, words = {"s": source}, ["compile", "s", "o", "r", f"slots={slots}", f"budget={budget}", "store=1048576"]
        if weights is not None:
            files["w"] = weights
            words.append("weights=w")
        self.answer = programs.call(files, *words)
        self.refusal = None
        try:
            self.typed = typed_of(source)
            self.weight = weights_of(weights) if weights is not None else lambda label: 1
        except Refusal as refusal:
            self.refusal = refusal
            return
        self.form = forms.read_form(programs.form_text(source))

    def differences(self, random):
        answer = self.answer
        if self.refusal:
            return [] if answer.plain() == self.refusal.answer() else [f"{answer.plain()}, expected {self.refusal.answer()}"]
        found = single_use.faults(self.form) + single_use.contraction_faults(self.form)
        found += single_use.bound_faults(self.form, self.typed.expanded, self.typed.room)
        if answer.status in (9, 10):
            return found + self.report_faults() + self.no_room_faults()
        if answer.status or set(answer.saved) != {"o", "r"}:
            return [*found, f"status {answer.status} {answer.output!r}, saved {list(answer.saved)}"]
        return found + self.report_faults() + self.code_faults() + self.run_faults(random)

    # ---- the report

    def report_faults(self):
        report = reports.read_report(self.answer.saved["r"])
        found = [] if report.text() == self.answer.saved["r"] else ["the report isn't spelled in the one way"]
        found += [] if (report.slots, report.budget) == (self.slots, self.budget) else ["the report has other numbers"]
        found += [] if report.is_true() else ["the report isn't true"]
        size = len(report.tree) * sum(len(row.terms) + 1 for row in report.program.rows)
        found += report.search_faults() if size <= MOST_SEARCHED else []
        banks = BankProgram(self.form, self.slots, self.weight).program()
        if banks != report.program:
            pairs = zip(banks.text().splitlines(), report.program.text().splitlines())
            found.append(f"the bank program: {next((it for it in pairs if it[0] != it[1]), 'its length')}")
        if report.has_vector() and self.form.peak() <= MOST_COPIED_PEAK:
            most = max(self.weight(label) for label in range(len(self.form.labels)))
            found += ["the vector costs too much"] * (report.cost() > most * (2 * len(self.form.values) + len(self.form.uses)))
        return found

    def no_room_faults(self):
        verdict = {9: "infeasible", 10: "spent"}[self.answer.status]
        report = reports.read_report(self.answer.saved["r"])
        found = [] if report.verdict == verdict and set(self.answer.saved) == {"r"} else ["another verdict"]
        return found + ["there is room"] * (self.form.peak() <= max(MOST_COPIED_PEAK, self.slots) or self.slots >= self.typed.room)

    # ---- the code

    def code_faults(self):
        compiled, report = object_of(self.answer.saved["o"]), reports.read_report(self.answer.saved["r"])
        code, starts = compiled.code, compiled.starts
        length = len(code.instructions)
        said = f"compiled {length} {report.verdict_line()}\n".encode()
        unlawful = machine.first_unlawful(code)
        if unlawful:
            return [f"unlawful: {unlawful}"]
        found = [] if self.answer.output == said else [f"{self.answer.output!r}, expected {said!r}"]
        declared = [(traces.line_of(self.source, it.first), it.name.encode()) for it in self.typed.program.exceptions]
        found += [] if compiled.version == 2 and compiled.exceptions == declared else [f"the exceptions {compiled.exceptions}"]
        found += ["another number of starts"] * (len(starts) != len(self.form.labels))
        found += windows.start_faults(code, starts) + windows.needless(code, starts)
        found += bank_code.operation_faults(self.form, code) + bank_code.base_faults(code, self.slots)
        needed = {("A", number) for number in range(code.parameters)} | {SPILL_BASE}
        found += [f"{it} is read before it is written" for it in windows.live(code)[0] - needed]
        moves = machine.move_cost(code, starts, self.weight)
        found += [f"the moves cost {moves}, above {report.cost()}"] * (moves > report.cost())
        return found + ["more instructions than the bound"] * (length > single_use.code_bound(self.form))

    # ---- runs

    def run_faults(self, random, times=3):
        compiled = object_of(self.answer.saved["o"])
        if compiled.code.parameters != self.typed.parameter_words():
            return ["another number of parameters"]
        found = []
        for _ in range(times):
            found += self.run_fault(random, compiled)
        return found

    def starting(self, random):
        """The memories and the arguments of a run: random ones, or those of the text with a few words changed."""
        count = self.typed.parameter_words()
        if self.memory:
            memories, arguments = memory_of(self.memory, count)
            for words in memories.words.values():
                if words and random.random() < 0.3:
                    words[random.randrange(len(words))] ^= 1 << random.randrange(32)
            return memories, arguments
        memories = Memories(random.choice((24, 23, 8)), random.choice((8, 3)))
        for words in memories.words.values():
            words[:] = [random.choice((random.randrange(4), random.randrange(2**32))) for _ in words]
        return memories, [random.choice((random.randrange(6), random.randrange(2**32))) for _ in range(count)]

    def run_fault(self, random, compiled):
        """One run of the source, of the form and of the code, which may know nothing of the other registers and of scratch."""
        memories, arguments = self.starting(random)
        base = random.choice((*machine.BASES, 700))
        source, of_form, of_code = memories.copy(), memories.copy(), memories.copy()
        outcome, log = meaning.run(self.typed, arguments, source, CALLS)
        written = meaning.plain(log)
        form_outcome, form_log, entered = form_meaning.run(self.form, arguments, of_form, JUMPS)
        visits, engine = [0] * len(compiled.starts), Engine(arguments, base, lambda: random.randrange(2**32))

        def watch(engine, _instruction):
            for label, start in enumerate(compiled.starts):
                visits[label] += engine.place == start

        code_outcome, code_log = machine.run(compiled.code, engine, of_code, STEPS, watch=watch)
        if outcome == ("going",):
            # Only the writes so far can be compared.
            is_same = all(one == other for one, other in zip(written.kept, code_log.kept))
            return [] if is_same else [f"another write on {arguments}"]
        seen = (outcome, written.count, written.kept, source.seen())
        by_code = code_outcome, code_log.count, code_log.kept, of_code.seen()
        by_form = form_outcome, form_log.count, form_log.kept, of_form.seen()
        found = [] if seen == by_code else [f"the code's run on {arguments}: {code_outcome}, the source's: {outcome}"]
        found += [] if seen == by_form else [f"the form's run on {arguments}: {form_outcome}, the source's: {outcome}"]
        found += [] if visits == entered else [f"the starts were visited {visits}, the labels entered {entered}"]
        own = range(base, base + min(self.slots, SPILL_WORDS))
        kept = all(of_code.words["scratch"][it] == memories.words["scratch"][it] for it in range(SOURCE_SCRATCH, 1024) if it not in own)
        return found + ["words of scratch other than the slots were written"] * (not kept)
