"""Texts of weights: a count for each label, raised to 1 or lowered to 1,023."""
from oracle.base.lines import Lines

MOST_LABELS = 1048576
MOST_COUNT = 2**32 - 1
WEIGHTS = (1, 1023)


def read_weights(text):
    """The weight of a label: past the list it is 1."""
    lines = Lines(text)
    count = lines.keyed(b"weights", 0, MOST_LABELS)
    counts = [lines.keyed(b"l", 0, MOST_COUNT) for _ in range(count)]
    lines.end()
    low, high = WEIGHTS
    return lambda label: min(high, max(low, counts[label])) if label < len(counts) else 1


def counts_text(counts):
    kept = counts[:MOST_LABELS]
    return f"weights {len(kept)}\n".encode() + b"".join(b"l %d\n" % count for count in kept)
