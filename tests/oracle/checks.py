"""Rows on the second implementation: a fixed part of what `fuzz` tries, the examples, that changed code is noticed, and that
docs/ORACLES.md has each file of definitions of the headline."""
import os
import re
import subprocess
import sys
from random import Random

from rows import BESIDE

from oracle.compiled import Compilation
from oracle.kinds import KINDS
from oracle.machine import objects
from oracle.machine.instructions import SPILL_BASE
from oracle.programs import Programs

# How many inputs of each kind are tried, the same each time.
INPUTS = {
    "sources": 120, "types": 250, "texts": 250, "sizes": 40, "generated": 6, "compiled": 10, "banks": 12, "placements": 5, "weights": 12, "counts": 40,
    "trace": 30, "runs": 200, "memory": 120, "objects": 200, "assembly": 200, "peep": 150, "contexts": 80, "schedules": 100, "reports": 250, "words": 200,
}
CHANGED = "mend"
HEADLINE = ("novac_commands/Headline:KeepsItsPromise", "novac_commands/Compiling:IsCompiled")


class OracleRow:
    where = "tests/oracle"

    def __init__(self, name, body, wants=("novac", "nova")):
        self.name, self.body, self.wants = name, body, wants

    def differences(self, novac, _folder):
        sys.setrecursionlimit(200_000)
        return self.body(Programs(novac, BESIDE["nova"]) if self.wants else None)


def fixed(kind, count):
    """The first inputs of a kind."""

    def differences(programs):
        for seed in range(count):
            found = KINDS[kind].differences(KINDS[kind].make(Random(f"{kind} {seed}")), programs)
            if found:
                return [f"tests/oracle/fuzz {kind} 1 --seed {seed}", *found]
        return []

    return differences


def compilation(top, name, programs):
    with open(os.path.join(top, "examples", name + ".nova"), "rb") as it:
        source = it.read()
    with open(os.path.join(top, "examples", name + ".mem"), "rb") as it:
        return Compilation(programs, source, 128, 2000, memory=it.read())


def example(top, name):
    return lambda programs: compilation(top, name, programs).differences(Random(name))


def changed(code, starts):
    """Objects that are wrong: an instruction is in the place of each, a needless one is put in, a start is moved."""
    others = [("un", ("B", 13), "COPY", 0, ("A", 0)), ("immed", ("none", 0), 0, 0), ("un", SPILL_BASE, "COPY", 0, SPILL_BASE)]
    for place in range(len(code)):
        for other in others:
            yield f"{other} at {place}", [*code[:place], other, *code[place + 1 :]], starts
        later = [(*it[:2], it[2] + (it[2] > place)) if it[0] == "br" else it for it in code]
        idle = ("un", ("A", 14), "COPY", 0, ("A", 14))
        yield f"a needless copy at {place}", [*later[:place], idle, *later[place:]], [it + (it > place) for it in starts]
    for at, start in enumerate(starts):
        yield f"label {at} one later", code, [*starts[:at], start + 1, *starts[at + 1 :]]


def notices(top):
    """Each change of an example's code is noticed."""

    def differences(programs):
        found, unnoticed = compilation(top, CHANGED, programs), []
        good = objects.decode(found.answer.saved["o"])
        verdict = found.answer.output.split(b" ", 2)[2]
        for name, code, starts in changed(good.code.instructions, good.starts):
            wrong = objects.Object(2, objects.Code(good.code.parameters, code), good.exceptions, starts)
            found.answer.saved["o"] = objects.encode(wrong)
            found.answer.output = b"compiled %d %s" % (len(code), verdict)
            if not found.code_faults() and not found.run_faults(Random(name)):
                unnoticed.append(name)
        return unnoticed

    return differences


def listed(top):
    """The page has the files that the headline rests on, and no other."""

    def differences(_programs):
        ran = subprocess.run([os.path.join(top, "bench", "believed"), *HEADLINE], capture_output=True, text=True, timeout=60)
        with open(os.path.join(top, "docs", "ORACLES.md"), encoding="utf-8") as it:
            found = set(re.findall(r"\w+/specs/\w+\.antt", it.read()))
        wanted = set(re.findall(r"\w+/specs/\w+\.antt", ran.stdout))
        return [f"no module reads {it}" for it in sorted(wanted - found)] + [f"the headline has no {it}" for it in sorted(found - wanted)]

    return differences


def all_rows(top):
    rows = [(f"{count} inputs of {kind}", fixed(kind, count)) for kind, count in INPUTS.items()]
    names = sorted(it[:-5] for it in os.listdir(os.path.join(top, "examples")) if it.endswith(".nova"))
    rows += [(f"the object and the report of {it}", example(top, it)) for it in names]
    rows += [(f"each change of the code of {CHANGED} is noticed", notices(top))]
    page = OracleRow("docs/ORACLES.md has each file of definitions of the headline", listed(top), ())
    return [OracleRow(name, body) for name, body in rows] + [page]
