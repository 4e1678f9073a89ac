"""Up to four contexts that run one code over one packet, in turns by a schedule."""
from oracle.base import memory_text
from oracle.base.lines import Lines
from oracle.base.memories import KINDS
from oracle.machine import instructions as machine
from oracle.machine.instructions import Engine, address_of

MOST_CONTEXTS = 4
MOST_TURNS = 100_000_000
FIRST_BASE = 512


def read_schedule(text, parameters):
    """The arguments of the contexts but the first, and the turns: pairs of a context and a number of steps."""
    lines = Lines(text)
    count = lines.keyed(b"contexts", 1, MOST_CONTEXTS)
    arguments = [lines.arguments(parameters) for _ in range(count - 1)]
    turns, total = [], 0
    while lines.are_left():
        parts = lines.next().split(b" ")
        if len(parts) != 3 or parts[0] != b"run":
            lines.refuse()
        turns.append((lines.number(parts[1], 0, count - 1), lines.number(parts[2], 1, MOST_TURNS)))
        total += turns[-1][1]
        if total > MOST_TURNS:
            lines.refuse()
    return arguments, turns


def base_of(context):
    return FIRST_BASE + machine.SPILL_WORDS * context


def covered(memory, address, count):
    """The words of an access."""
    first = 2 * address if memory == "sdram" else address
    return {(KINDS.index(memory), word) for word in range(first, first + count)}


def footprint(code, arguments, base, memories, steps):
    """The words that a context reads and those that it writes when it runs alone."""
    read, written, pending = set(), set(), []

    def watch(engine, instruction):
        # An access has come about where the engine goes on behind it.
        for kind, words in pending:
            (read if kind == "read" else written).update(words)
        pending.clear()
        if instruction and instruction[0] in ("read", "write"):
            pending.append((instruction[0], covered(instruction[1], address_of(engine, instruction), instruction[3])))

    machine.run(code, Engine(arguments, base), memories, steps, watch=watch)
    return read, written


def shared(footprints):
    """The first word that one context writes and another reads or writes, or None."""
    found = set()
    for at, (_, written) in enumerate(footprints):
        for other, (read, also_written) in enumerate(footprints):
            if at != other:
                found |= written & (read | also_written)
    if not found:
        return None
    kind, word = min(found)
    return KINDS[kind], word // 2 if KINDS[kind] == "sdram" else word


def contexts_text(code, memory, schedule):
    """The status and the text of a schedule's run."""
    memories, first = memory_text.read_memory(memory, code.parameters)
    others, turns = read_schedule(schedule, code.parameters)
    arguments = [first, *others]
    alone = memories.copy()
    engines = [Engine(words, base_of(context)) for context, words in enumerate(arguments)]
    outcomes, logs = [("going",)] * len(engines), [machine.Log() for _ in engines]
    for context, steps in turns:
        if outcomes[context] == ("going",):
            outcomes[context], log = machine.run(code, engines[context], memories, steps)
            for write in log.kept:
                logs[context].note(*write)
            logs[context].count += log.count - len(log.kept)
    lines = []
    for context, outcome in enumerate(outcomes):
        lines += [f"context {context}", memory_text.outcome_line(outcome), *memory_text.log_lines(logs[context])]
    steps = [sum(count for it, count in turns if it == context) for context in range(len(engines))]
    word = shared([footprint(code, words, base_of(it), alone.copy(), steps[it]) for it, words in enumerate(arguments)])
    lines += [f"shared {word[0]} {word[1]}" if word else "disjoint", *memory_text.memory_lines(memories)]
    status = next((memory_text.STATUSES[it[0]] for it in outcomes if it[0] != "ended"), 0)
    return status, memory_text.joined(lines)
