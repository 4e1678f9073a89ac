"""What `peep` has to have made of an object."""
from oracle.base.memories import Memories
from oracle.machine import instructions as machine
from oracle.machine import windows
from oracle.machine.instructions import NOWHERE, Engine

STEPS = 400
GREATEST_WEIGHT = 1023


def faults(old, new, random):
    """`old` is lawful."""
    found = [] if (old.version, old.exceptions) == (new.version, new.exceptions) else ["another version or other exceptions"]
    found += ["another number of parameters"] * (old.code.parameters != new.code.parameters)
    found += ["another number of starts"] * (len(old.starts) != len(new.starts))
    unlawful = machine.first_unlawful(new.code)
    if found or unlawful:
        return found + [f"unlawful: {unlawful}"]
    found += windows.needless(new.code, new.starts)
    is_kept = (old.code, old.starts) == (new.code, new.starts)
    found += [] if is_kept or windows.needless(old.code, old.starts) else ["nothing was needless, and yet it was changed"]
    found += [] if windows.start_faults(old.code, old.starts) else windows.start_faults(new.code, new.starts)
    found += [] if is_without(old.code.instructions, new.code.instructions) else ["more was changed than straight code"]
    found += ["the moves cost more under some weights"] * costs_more(old, new)
    for _ in range(3):
        found += run_faults(old, new, random)
    return found


def is_without(old, new):
    """Whether the new code is the old one without some straight instructions, and with copies that test in the place of comparisons."""
    # How much of the new code may stand at the end of what was looked at of the old one.
    reached = {0}
    for instruction in old:
        possible = reached if instruction[0] in machine.STRAIGHT else set()
        reached = possible | {at + 1 for at in reached if at < len(new) and is_kept(instruction, new[at])}
    return len(new) in reached


def is_kept(old, new):
    if old[0] == "br":
        return old[:2] == new[:2]
    return old == new or old[:3] == ("alu", NOWHERE, "SUB") and new == ("un", NOWHERE, "COPY", 0, old[3])


def costs_more(old, new):
    """Weights that give a label much and the others little show a label in which the moves cost more."""
    labels = range(len(old.starts))
    tried = [lambda label: 1] + [lambda label, it=it: GREATEST_WEIGHT if label == it else 1 for it in labels]
    return any(machine.move_cost(new.code, new.starts, it) > machine.move_cost(old.code, old.starts, it) for it in tried)


def run_faults(old, new, random):
    """The two runs have the same outcome, accesses and visits of the starts; of runs that go on one's are the first of the other's."""
    sizes, base = random.choice(((0, 0), (24, 12), (600, 300))), random.choice(machine.BASES)
    arguments = [random.choice((0, 1, 2, random.randrange(2**32))) for _ in range(old.code.parameters)]
    memories = Memories(*sizes)
    for words in memories.words.values():
        words[:] = [random.choice((0, 1, random.randrange(2**32))) for _ in words]
    # The shorter code needs fewer steps, but how many fewer isn't known.
    first, second = (Traced(it, arguments, base, memories.copy(), steps) for it, steps in ((old, 4 * STEPS), (new, STEPS)))
    if not first.goes_on() and not second.goes_on():
        return [] if first.seen() == second.seen() else [f"another run on {arguments}: {first.outcome}, {second.outcome}"]
    is_same = all(one == other for one, other in zip(first.events, second.events))
    # A run that is over has done all that there is.
    ended, going = (first, second) if second.goes_on() else (second, first)
    is_same = is_same and (ended.goes_on() or len(going.events) <= len(ended.events))
    return [] if is_same else ["a run that goes on does something else"]


class Traced:
    """A run, with its accesses and its visits of the starts in order."""

    def __init__(self, object_, arguments, base, memories, steps):
        self.events, self.memories = [], memories

        def watch(engine, instruction):
            self.events += [label for label, start in enumerate(object_.starts) if start == engine.place]
            if instruction and instruction[0] in ("read", "write"):
                self.events.append((*instruction[:2], machine.address_of(engine, instruction), instruction[3]))

        self.outcome, self.log = machine.run(object_.code, Engine(arguments, base), memories, steps, watch=watch)

    def goes_on(self):
        return self.outcome == ("going",)

    def seen(self):
        return self.outcome, self.events, self.log.count, self.log.kept, self.memories.words
