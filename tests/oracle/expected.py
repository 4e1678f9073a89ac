"""What the commands that only read have to answer, put together from the modules of the rooms: a status and an output."""
from oracle.base import memory_text
from oracle.base.lines import LineFault
from oracle.banks import weights
from oracle.language import meaning
from oracle.language.parser import parse
from oracle.language.tokens import TextFault
from oracle.language.typing import SizeFault, TypeFault, check
from oracle.machine import assembly, contexts, objects, traces
from oracle.machine import instructions as machine
from oracle.machine.instructions import Engine
from oracle.machine.objects import Object, ObjectFault
from oracle.middle import forms
from oracle.middle import meaning as form_meaning
from oracle.zo import reports


class Refusal(Exception):
    def __init__(self, status, line):
        super().__init__(status, line)
        self.status, self.line = status, line

    def answer(self):
        return self.status, f"{self.line}\n".encode()


def typed_of(source):
    try:
        return check(parse(source))
    except TextFault as fault:
        raise Refusal(6, f"syntax {fault.kind} at {fault.at}") from None
    except TypeFault as fault:
        raise Refusal(7, f"type {fault.kind} at {fault.first} {fault.after}") from None
    except SizeFault as fault:
        raise Refusal(8, f"too large {fault.expanded}") from None


def object_of(data):
    try:
        return objects.decode(data)
    except ObjectFault as fault:
        raise Refusal(12, f"object {fault.at}") from None


def lawful_of(data):
    found = object_of(data)
    unlawful = machine.first_unlawful(found.code)
    if unlawful:
        raise Refusal(18, f"unlawful place {unlawful[0]} rule {unlawful[1]}")
    return found


def memory_of(text, count):
    try:
        return memory_text.read_memory(text, count)
    except memory_text.TooLarge as fault:
        raise Refusal(8, f"too large {fault.size}") from None
    except LineFault as fault:
        raise Refusal(13, f"memory line {fault.line}") from None


def weights_of(text):
    try:
        return weights.read_weights(text)
    except LineFault as fault:
        raise Refusal(21, f"weights line {fault.line}") from None


def answered(command, *given):
    try:
        return command(*given)
    except Refusal as refusal:
        return refusal.answer()


def of_outcome(outcome, memories, log, name=None):
    return memory_text.STATUSES[outcome[0]], memory_text.outcome_text(outcome, memories, log, name)


def exec_answer(source, memory, calls):
    typed = typed_of(source)
    memories, arguments = memory_of(memory, typed.parameter_words())
    outcome, log = meaning.run(typed, arguments, memories, calls)
    return of_outcome(outcome, memories, meaning.plain(log))


def run_answer(data, memory, steps):
    found = lawful_of(data)
    memories, arguments = memory_of(memory, found.code.parameters)
    outcome, log = machine.run(found.code, Engine(arguments, machine.BASES[0]), memories, steps)
    named = outcome[0] == "raised" and outcome[1] <= len(found.exceptions)
    return of_outcome(outcome, memories, log, found.exceptions[outcome[1] - 1] if named else None)


def asm_answer(text):
    """The answer, and the object that is saved."""
    try:
        code = assembly.assemble(text)
    except assembly.LabelFault as fault:
        raise Refusal(6, f"syntax label line {fault.line}") from None
    except assembly.LawFault as fault:
        raise Refusal(18, f"unlawful line {fault.line} rule {fault.rule}") from None
    except LineFault as fault:
        raise Refusal(6, f"syntax text line {fault.line}") from None
    return 0, f"assembled {len(code.instructions)}\n".encode(), objects.encode(Object(1, code, [], []))


def dis_answer(data):
    return 0, assembly.listing(object_of(data))


def lint_answer(data):
    return 0, f"lawful {len(lawful_of(data).code.instructions)}\n".encode()


def check_answer(text):
    try:
        found = reports.read_report(text)
    except LineFault as fault:
        raise Refusal(17, f"report line {fault.line}") from None
    if not found.is_true():
        raise Refusal(17, "report refused")
    return 0, f"{found.verdict_line()}\n".encode()


def contexts_answer(data, memory, schedule):
    code = lawful_of(data).code
    memory_of(memory, code.parameters)
    try:
        return contexts.contexts_text(code, memory, schedule)
    except LineFault as fault:
        raise Refusal(22, f"schedule line {fault.line}") from None


def trace_answer(source, data, memory, steps, calls, line=None):
    typed, code = typed_of(source), lawful_of(data).code
    memory_of(memory, typed.parameter_words())
    return traces.trace_text(source, typed, code, memory, steps, calls, line)


def counts_answer(source, memory, jumps, form_text):
    """The answer, and the counts that are saved, by the printed form of the source."""
    typed = typed_of(source)
    memories, arguments = memory_of(memory, typed.parameter_words())
    outcome, log, entered = form_meaning.run(forms.read_form(form_text()), arguments, memories, jumps)
    return *of_outcome(outcome, memories, log), weights.counts_text(entered)
