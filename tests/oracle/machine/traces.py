"""The first writes of a source beside those of code: which statement made each, and through which calls."""
from oracle.base import memory_text
from oracle.language import meaning
from oracle.machine import instructions as machine
from oracle.machine.instructions import Engine

MOST_WRITES = 1024
DIFFERENT = 23


def line_of(text, place):
    return 1 + text[:place].count(b"\n")


def trace_text(source, typed, code, memory, steps, calls, last_line=None):
    """The status and the text. `last_line` ends the text behind the first write of a statement that begins there."""
    words = typed.parameter_words()
    memory_text.read_memory(memory, words)
    if code.parameters != words:
        return DIFFERENT, b"trace params %d %d\n" % (code.parameters, words)
    memories, arguments = memory_text.read_memory(memory, words)
    _, made = meaning.run(typed, arguments, memories.copy(), calls, MOST_WRITES)
    _, log = machine.run(code, Engine(arguments, machine.BASES[0]), memories, steps, MOST_WRITES)
    pairs = list(zip(made.kept, log.kept))
    for place, (write, other) in enumerate(pairs):
        if write[:3] != other:
            return DIFFERENT, b"trace write %d\n" % place
    lines = []
    for (kind, address, written, first, chain), _ in pairs:
        line = line_of(source, first)
        lines.append(f"write {kind} {address}{memory_text.spelled(written)} line {line} in {' '.join(chain)}")
        if line == last_line:
            break
    return 0, memory_text.joined([*lines, f"traced {len(lines)}"])
