"""Memory texts, and the texts of outcomes.

An outcome is ("ended", words), ("raised", number, words), ("fault", kind, address) or ("going",)."""
from oracle.base.lines import Lines
from oracle.base.memories import SOURCE_SCRATCH, Memories

LARGEST = 65536
MOST_NUMBER = 9_999_999_999
STATUSES = {"ended": 0, "raised": 14, "fault": 15, "going": 16}
# How many writes an outcome text shows.
SHOWN = 64


class TooLarge(Exception):
    """The first size that is over the limit."""

    def __init__(self, size):
        super().__init__(size)
        self.size = size


def read_memory(text, count):
    """The memories and the arguments, of which there have to be so many."""
    lines = Lines(text)
    parts = lines.next().split(b" ")
    if len(parts) != 3 or parts[0] != b"memory":
        lines.refuse()
    sizes = [lines.number(part, 0, MOST_NUMBER) for part in parts[1:]]
    for size in sizes:
        if size > LARGEST:
            raise TooLarge(size)
    arguments = lines.arguments(count)
    memories = Memories(*sizes)
    while lines.are_left():
        read_stretch(lines, memories)
    return memories, arguments


def read_stretch(lines, memories):
    """A line that puts words into a memory."""
    kind, *parts = lines.next().split(b" ")
    kind = kind.decode("latin-1")
    if kind not in memories.words or not 2 <= len(parts) <= 9:
        lines.refuse()
    address = lines.number(parts[0], 0, MOST_NUMBER)
    words = lines.words(parts[1:])
    if kind == "sdram" and len(words) % 2:
        lines.refuse()
    if kind == "scratch" and address + len(words) > SOURCE_SCRATCH:
        lines.refuse()
    if not memories.write(kind, address, words):
        lines.refuse()


def spelled(words):
    return "".join(f" {word:08x}" for word in words)


def outcome_line(outcome):
    kind, *rest = outcome
    if kind == "ended":
        return "ended" + spelled(rest[0])
    if kind == "raised":
        return f"raised {rest[0]}" + spelled(rest[1])
    return f"fault {rest[0]} {rest[1]}" if kind == "fault" else "going"


def log_lines(log):
    return [f"writes {log.count}"] + [f"write {kind} {address}" + spelled(words) for kind, address, words in log.kept[:SHOWN]]


def memory_lines(memories):
    """The sizes, and each stretch of eight words that aren't all zero."""
    lines = [f"memory {memories.size('sram')} {memories.size('sdram')}"]
    for kind, words in memories.seen().items():
        for first in range(0, len(words), 8):
            if any(words[first : first + 8]):
                lines.append(f"{kind} {first // 2 if kind == 'sdram' else first}" + spelled(words[first : first + 8]))
    return lines


def joined(lines):
    return "".join(f"{line}\n" for line in lines).encode()


def outcome_text(outcome, memories, log, name=None):
    """The text of an outcome; `name` is the line of a raised exception's declaration and its name, where it has one."""
    named = [f"exception {name[1].decode()} line {name[0]}"] if name and outcome[0] == "raised" else []
    return joined([outcome_line(outcome), *named, *log_lines(log), *memory_lines(memories)])
