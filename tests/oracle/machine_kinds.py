"""Kinds of cases on code, reports and command lines."""
from random import Random

from oracle import expected, peeped
from oracle.base import commands
from oracle.cases import Case, Kind, compared
from oracle.expected import Refusal, answered
from oracle.machine import codes, objects
from oracle.zo import made

OTHER_WORDS = (
    *commands.COMMANDS, "gen", *"a b c".split(),
    *"steps=1 steps=0 steps=100000000 steps=100000001 steps=01 steps= steps calls=5 line=1 line=0".split(),
    *"slots=128 slots=129 slots=0 budget=1 budget=0 store=1048576 store=1048577 weights=w weights= weights=a".split(),
    *"1 500 501 0 -1 4294967295 4294967296 x=1 STEPS=1".split(), "", " steps=1", "steps=1 ",
)


# Numbers at the limits of reports.
REPORT_WORDS = (
    *"129 1000000 1000001 1048575 1048576 32767 32768 -32768 -32769 67108863 67108864 67108865 1073741824 1073741825 -1073741824".split(),
    *"-1073741825 0:32767 0:32768 0:-32768 0:-32769 0:4294967295 0:4294967296".split(),
)


def made_code(random):
    """Lawful code, and its object."""
    code = codes.lawful_code(random)
    return code, objects.encode(codes.made_object(random, code))


class Runs(Kind):
    """Runs of random code."""

    def make(self, random):
        code, data = made_code(random)
        return Case({"o": data, "m": codes.memory(random, code.parameters)}, {"steps": random.choice((1, 5, 50, 3000))})

    def differences(self, case, programs):
        steps = case.numbers["steps"]
        wanted = answered(expected.run_answer, case.files["o"], case.files["m"], steps)
        return compared(programs.call(case.files, "run", "o", "m", f"steps={steps}"), wanted)


class Memory(Runs):
    """Memory texts near one."""

    def make(self, random):
        case = super().make(random)
        case.files["m"] = codes.near_text(random, case.files["m"])
        return case


class Objects(Kind):
    """Objects near one: their listing and their first unlawful place."""

    def make(self, random):
        data = objects.encode(codes.made_object(random, codes.any_code(random)))
        return Case({"o": codes.near_object(random, data) if random.random() < 0.7 else data})

    def differences(self, case, programs):
        data = case.files["o"]
        found = compared(programs.call(case.files, "dis", "o"), answered(expected.dis_answer, data))
        return found or compared(programs.call(case.files, "lint", "o"), answered(expected.lint_answer, data))


class Assembly(Kind):
    """Assembly texts near one."""

    def make(self, random):
        text = codes.assembly_text(random, codes.any_code(random))
        return Case({"a": codes.near_text(random, text) if random.random() < 0.7 else text})

    def differences(self, case, programs):
        wanted = answered(expected.asm_answer, case.files["a"])
        return compared(programs.call(case.files, "asm", "a", "o"), wanted, {"o": wanted[2]} if len(wanted) == 3 else {})


class Peep(Kind):
    """What `peep` leaves of random code."""

    def make(self, random):
        found = codes.made_object(random, codes.lawful_code(random), is_shaped=random.random() < 0.7)
        return Case({"o": objects.encode(found)}, {}, random.randrange(2**32))

    def differences(self, case, programs):
        answer = programs.call(case.files, "peep", "o", "p")
        try:
            old = expected.lawful_of(case.files["o"])
        except Refusal as refusal:
            return compared(answer, refusal.answer())
        if set(answer.saved) != {"p"}:
            return [f"{answer.plain()}, saved {list(answer.saved)}"]
        new = objects.decode(answer.saved["p"])
        said = f"peeped {len(old.code.instructions)} {len(new.code.instructions)}\n".encode()
        found = [] if answer.plain() == (0, said) else [f"{answer.plain()}, expected {said}"]
        return found + peeped.faults(old, new, Random(case.seed))


class Contexts(Kind):
    """Random code in contexts by a random schedule."""

    def make(self, random):
        code, data = made_code(random)
        return Case({"o": data, "m": codes.memory(random, code.parameters), "h": codes.schedule(random, code.parameters)})

    def differences(self, case, programs):
        wanted = answered(expected.contexts_answer, *(case.files[it] for it in "omh"))
        return compared(programs.call(case.files, "contexts", "o", "m", "h"), wanted)


class Schedules(Contexts):
    """Schedules near one."""

    def make(self, random):
        case = super().make(random)
        case.files["h"] = codes.near_text(random, case.files["h"])
        return case


class Reports(Kind):
    """Reports, true ones, others, and texts near one."""

    def make(self, random):
        found = made.report(random)
        if random.random() < 0.6:
            found = made.near_report(random, found)
        text = found.text()
        return Case({"r": codes.near_text(random, text, (*codes.NEAR_WORDS, *REPORT_WORDS)) if random.random() < 0.3 else text})

    def differences(self, case, programs):
        return compared(programs.call(case.files, "check", "r"), answered(expected.check_answer, case.files["r"]))


class Words(Kind):
    """Command lines: those that are none, and which file a command reads first."""

    def make(self, random):
        words = [random.choice((*commands.COMMANDS, "gen"))]
        files, needed, possible = commands.COMMANDS.get(words[0], ((), (), ()))
        words += random.sample("abcdef", len(files)) + [f"{it}={random.choice((1, 7))}" for it in needed]
        words += [f"{it}={'w' if it == 'weights' else 1}" for it in possible if random.random() < 0.5]
        words += [random.choice(("1", "4294967295", "4294967296")), random.choice(("1", "2", "501"))] if words[0] == "gen" else []
        for _ in range(random.choice((0, 1, 1, 2))):
            at = random.randrange(len(words) + 1)
            words[at : at + random.choice((0, 1))] = random.choice(([], [random.choice(OTHER_WORDS)], [random.choice(OTHER_WORDS)]))
        return Case({}, {"words": words})

    def differences(self, case, programs):
        words = case.numbers["words"]
        answer, names = programs.call({}, *words), commands.inputs(words)
        if names is None:
            return compared(answer, (2, b"usage\n"))
        if not names:
            return ["it is a command"] if answer.status == 2 else []
        return compared(answer, (3, f"cannot read {names[0]}\n".encode()))
