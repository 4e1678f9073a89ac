"""The memories of a packet, and the log of a run's writes."""

MASK = 0xFFFFFFFF
KINDS = ("sram", "sdram", "scratch")
SCRATCH_WORDS = 1024
# Scratch words from here on are the compiler's own: a source reaches none of them, and no outcome shows them.
SOURCE_SCRATCH = 512


class Memories:
    """SRAM words, SDRAM words, of which an address has two, and scratch words."""

    def __init__(self, sram, sdram):
        self.words = {"sram": [0] * sram, "sdram": [0] * (2 * sdram), "scratch": [0] * SCRATCH_WORDS}

    def size(self, kind):
        """How many addresses the memory has."""
        return len(self.words[kind]) // (2 if kind == "sdram" else 1)

    def stretch(self, kind, address, count):
        """The place of the first of so many words, or None where they reach past the memory."""
        first = 2 * address if kind == "sdram" else address
        return first if first + count <= len(self.words[kind]) else None

    def read(self, kind, address, count):
        """The words, or None."""
        first = self.stretch(kind, address, count)
        return None if first is None else self.words[kind][first : first + count]

    def write(self, kind, address, words):
        """Whether the words were written; if not, nothing is changed."""
        first = self.stretch(kind, address, len(words))
        if first is None:
            return False
        self.words[kind][first : first + len(words)] = words
        return True

    def copy(self):
        other = Memories(0, 0)
        other.words = {kind: list(words) for kind, words in self.words.items()}
        return other

    def seen(self):
        """What a source can see of them."""
        return {**self.words, "scratch": self.words["scratch"][:SOURCE_SCRATCH]}


class Log:
    """Counts all writes of a run and keeps the first ones."""

    def __init__(self, most=64):
        self.most, self.count, self.kept = most, 0, []

    def note(self, *write):
        self.count += 1
        if len(self.kept) < self.most:
            self.kept.append(write)


def is_own(kind, address):
    """Whether a write at the address is one of the compiler's own, which no log has."""
    return kind == "scratch" and address >= SOURCE_SCRATCH
