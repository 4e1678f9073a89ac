"""Types: ("word",), ("bool",), ("tuple", types), ("record", pairs of a name and a type). Equal types are equal values."""
from functools import lru_cache

WORD, BOOL = ("word",), ("bool",)
MOST_WORDS = 1024
MOST_HEIGHT = 100


def word_tuple(count):
    return WORD if count == 1 else ("tuple", (WORD,) * count)


def parts(type_):
    if type_[0] == "tuple":
        return type_[1]
    return tuple(part for _, part in type_[1]) if type_[0] == "record" else ()


@lru_cache(None)
def words(type_):
    """The number of words of a type."""
    return 1 if type_ in (WORD, BOOL) else sum(words(part) for part in parts(type_))


@lru_cache(None)
def height(type_):
    return 1 + max((height(part) for part in parts(type_)), default=0)


@lru_cache(None)
def has_bool(type_):
    return type_ == BOOL or any(has_bool(part) for part in parts(type_))


def is_large(type_):
    return words(type_) > MOST_WORDS or height(type_) > MOST_HEIGHT


def packed_type(outline):
    return word_tuple((outline.bits + 31) // 32)


def unpacked_type(outline):
    """The record that `unpack` gives."""
    if outline.kind == "bits":
        return WORD
    fields = outline.parts if outline.kind == "overlay" else outline.named()
    return ("record", tuple((name, unpacked_type(it)) for name, it in fields))


def is_packable(outline, type_):
    """Whether `pack` takes values of the type: the record of the fields, at each overlay that of exactly one alternative."""
    if outline.kind == "bits":
        return type_ == WORD
    if type_[0] != "record":
        return False
    if outline.kind == "overlay":
        known = dict(outline.parts)
        return len(type_[1]) == 1 and type_[1][0][0] in known and is_packable(known[type_[1][0][0]], type_[1][0][1])
    fields = outline.named()
    return [name for name, _ in fields] == [name for name, _ in type_[1]] and all(
        is_packable(it, type_[1][at][1]) for at, (_, it) in enumerate(fields)
    )


def is_stored(type_):
    """A word, or a tuple of words alone."""
    return type_ == WORD or type_[0] == "tuple" and all(part == WORD for part in type_[1])
