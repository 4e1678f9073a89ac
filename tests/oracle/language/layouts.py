"""Layouts: their bits and their fields. A packed value is one list of bits, the highest bit of word 0 first."""
from dataclasses import dataclass

MOST_BITS = 1024
MOST_FIELD_BITS = 32
MOST_HEIGHT = 100

UNKNOWN_LAYOUT, BAD_BITS, TWICE, UNEQUAL_ALTERNATIVES, BAD_LAYOUT = 3, 4, 5, 6, 7


class LayoutFault(Exception):
    def __init__(self, kind):
        super().__init__(kind)
        self.kind = kind


@dataclass
class Outline:
    """A layout with its names written out. `kind` is bits, gap, record, overlay or joined; `parts` are pairs of a name and an outline, of
    joined layouts outlines."""

    kind: str
    bits: int
    height: int
    parts: list

    def named(self):
        """The fields of the one record that the layout is."""
        if self.kind == "joined":
            return [field for part in self.parts for field in part.named()]
        return self.parts if self.kind == "record" else []

    def field_count(self):
        if self.kind == "bits":
            return 1
        return sum((part[1] if isinstance(part, tuple) else part).field_count() for part in self.parts)


def compound(kind, parts):
    inner = parts if kind == "joined" else [part for _, part in parts]
    bits = inner[0].bits if kind == "overlay" else sum(it.bits for it in inner)
    return Outline(kind, bits, 1 + max(it.height for it in inner), parts)


def refuse(kinds):
    """The least of the faults of one node."""
    if kinds:
        raise LayoutFault(min(kinds))


def is_repeated(names):
    return len(set(names)) < len(names)


def outline(known, layout, is_whole=True):
    """The outline of a layout as written. A declared layout and an inner one are whole: they have a field and limits."""
    kind, what = layout
    kinds = []
    if kind == "named":
        if what not in known:
            refuse([UNKNOWN_LAYOUT])
        found = known[what]
    elif kind == "gap":
        if not 1 <= what <= MOST_BITS:
            refuse([BAD_BITS])
        found = Outline("gap", what, 1, [])
    elif kind == "record":
        found = compound("record", [(name, field_outline(known, it)) for name, it in what])
        kinds += [TWICE] * is_repeated([name for name, _ in what])
    else:
        found = compound("joined", [outline(known, it, False) for it in what])
        kinds += [TWICE] * is_repeated([name for name, _ in found.named()])
    if is_whole and (found.field_count() == 0 or found.bits > MOST_BITS or found.height > MOST_HEIGHT):
        kinds.append(BAD_LAYOUT)
    refuse(kinds)
    return found


def field_outline(known, field):
    kind, what = field
    if kind == "bits":
        if not 1 <= what <= MOST_FIELD_BITS:
            refuse([BAD_BITS])
        return Outline("bits", what, 1, [])
    if kind == "inner":
        return outline(known, what)
    alternatives = [(name, field_outline(known, it)) for name, it in what]
    kinds = [TWICE] * is_repeated([name for name, _ in what])
    kinds += [UNEQUAL_ALTERNATIVES] * (len({it.bits for _, it in alternatives}) > 1)
    refuse(kinds)
    return compound("overlay", alternatives)


def bits_of(words):
    return [word >> (31 - place) & 1 for word in words for place in range(32)]


def number_of(bits):
    return int("".join(map(str, bits)) or "0", 2)


def words_of(bits):
    """The words of a list of bits, with zeros behind it."""
    bits = bits + [0] * (-len(bits) % 32)
    return [number_of(bits[first : first + 32]) for first in range(0, len(bits), 32)]


def unpacked(layout, bits):
    """The value of a layout whose bits come first: of a field its number, else a dictionary by name."""
    if layout.kind == "bits":
        return number_of(bits[: layout.bits])
    if layout.kind == "overlay":
        return {name: unpacked(part, bits) for name, part in layout.parts}
    found, at = {}, 0
    for part in layout.parts:
        name, part = part if isinstance(part, tuple) else (None, part)
        if name:
            found[name] = unpacked(part, bits[at:])
        elif part.kind != "gap":
            found |= unpacked(part, bits[at:])
        at += part.bits
    return found


def packed(layout, value):
    """The bits of a value, of an overlay those of the alternative that is there."""
    if layout.kind == "bits":
        return [value >> (layout.bits - 1 - place) & 1 for place in range(layout.bits)]
    if layout.kind == "gap":
        return [0] * layout.bits
    if layout.kind == "overlay":
        name, inner = next(iter(value.items()))
        return packed(dict(layout.parts)[name], inner)
    if layout.kind == "joined":
        return [bit for part in layout.parts for bit in packed(part, value)]
    return [bit for name, part in layout.parts for bit in packed(part, value[name])]
