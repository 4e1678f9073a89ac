"""Command lines: which lists of words are a command, and which files it reads, in order."""
import re

HUNDRED_MILLION = 100_000_000
LIMITS = {
    "slots": (0, 128), "budget": (1, 1_000_000), "store": (1, 1_048_576), "steps": (1, HUNDRED_MILLION), "calls": (1, HUNDRED_MILLION),
    "line": (1, 1_000_000),
}
# Each command: its inputs and its outputs in the order of the words, True for an input; the options that have to be there, and those
# that may be.
COMMANDS = {
    "compile": ((True, False, False), (), ("slots", "budget", "store", "weights")),
    "run": ((True, True), ("steps",), ()),
    "exec": ((True, True), ("steps",), ()),
    "asm": ((True, False), (), ()),
    "peep": ((True, False), (), ()),
    "dis": ((True,), (), ()),
    "lint": ((True,), (), ()),
    "check": ((True,), (), ()),
    "counts": ((True, True, False), ("steps",), ()),
    "contexts": ((True, True, True), (), ()),
    "trace": ((True, True, True), ("steps", "calls"), ("line",)),
}
GENERATED = ((0, 2**32 - 1), (1, 500))


def is_number(text, low, high):
    return re.fullmatch("0|[1-9][0-9]*", text) is not None and len(text) <= 20 and low <= int(text) <= high


def is_option(word, name):
    key, _, value = word.partition("=")
    return key == name and "=" in word and (name == "weights" or is_number(value, *LIMITS[name]))


def inputs(words):
    """The names of the files that the command reads, in order; None where the words are no command."""
    if words[:1] == ["gen"]:
        return [] if len(words) == 3 and all(is_number(word, *limits) for word, limits in zip(words[1:], GENERATED)) else None
    if not words or words[0] not in COMMANDS:
        return None
    files, needed, possible = COMMANDS[words[0]]
    names, options = words[1 : 1 + len(files)], words[1 + len(files) :]
    found = [name for name, is_input in zip(names, files) if is_input]
    if len(names) < len(files) or len(options) < len(needed):
        return None
    if not all(is_option(word, name) for word, name in zip(options, needed)):
        return None
    options = options[len(needed) :]
    for name in possible:
        if options and is_option(options[0], name):
            if name == "weights":
                names.append(options[0].removeprefix("weights="))
                found.append(names[-1])
            options = options[1:]
    return None if options or "" in names or len(set(names)) < len(names) else found
