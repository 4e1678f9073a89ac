"""What is live at each place of code, and the windows at which one of six rules finds a needless instruction."""
from oracle.machine.instructions import NOWHERE, STRAIGHT, run_registers

ZERO, CARRY = "zero", "carry"
FLAGS = {ZERO, CARRY}
CONDITION_FLAGS = {"ALWAYS": set(), "Z": {ZERO}, "NZ": {ZERO}, "C": {CARRY}, "NC": {CARRY}}
GENERAL = ("A", "B")
LONGEST = 4


def reads(instruction):
    """The registers and flags on which an instruction depends."""
    kind = instruction[0]
    if kind == "alu":
        return set(instruction[3:])
    if kind == "un":
        return {instruction[4]}
    if kind == "br":
        return CONDITION_FLAGS[instruction[1]]
    if kind == "halt":
        return {("A", number) for number in range(instruction[2])}
    if kind == "immed":
        return set()
    return {instruction[4], *(run_registers(instruction) if kind == "write" else [])}


def writes(instruction):
    kind = instruction[0]
    if kind == "read":
        return set(run_registers(instruction))
    if kind in STRAIGHT:
        return {instruction[1], *(FLAGS if kind != "immed" else [])} - {NOWHERE}
    return set()


def next_places(code, place):
    instruction = code.instructions[place]
    if instruction[0] == "halt":
        return []
    if instruction[0] != "br":
        return [place + 1]
    return [instruction[2]] + ([] if instruction[1] == "ALWAYS" else [place + 1])


def live(code):
    """For each place what some path from there reads before it writes it."""
    found = [set() for _ in code.instructions]
    is_stable = False
    while not is_stable:
        is_stable = True
        for place in reversed(range(len(found))):
            instruction = code.instructions[place]
            behind = set().union(*(found[it] for it in next_places(code, place)))
            here = reads(instruction) | behind - writes(instruction)
            is_stable = is_stable and here == found[place]
            found[place] = here
    return found


def windows(code, starts):
    """The places and lengths of the windows."""
    entered = {it[2] for it in code.instructions if it[0] == "br"}
    starts = set(starts)
    for place in range(len(code.instructions)):
        for length in range(1, LONGEST + 1):
            behind = place + length
            if behind > len(code.instructions) or code.instructions[behind - 1][0] not in STRAIGHT:
                break
            if length > 1 and behind - 1 in entered | starts:
                break
            if behind in (starts | entered if place in starts else starts if place == 0 else ()):
                continue
            yield place, length


def is_test(instruction):
    """A copy that only sets the flag zero."""
    return instruction[:3] == ("un", NOWHERE, "COPY")


def is_copy(instruction):
    return instruction[0] == "un" and instruction[2] == "COPY"


def is_dead(window, after):
    return not writes(window[0]) & after


def is_idle(window, after):
    target, source = window[0][1], window[0][-1]
    return is_copy(window[0]) and target == source and target[0] in GENERAL and not FLAGS & after


def copies_back(window, after):
    first, second = window
    pair = first[1], first[-1]
    return is_copy(first) and is_copy(second) and (second[-1], second[1]) == pair and all(it[0] in GENERAL for it in pair)


def compares_zero(window, after):
    first, second = window
    if first[0] != "immed" or first[2] != 0 or second[:3] != ("alu", NOWHERE, "SUB"):
        return False
    return first[1] == second[4] and first[1][0] in GENERAL and not {first[1], CARRY} & after


def tests_again(window, after):
    first, second = window
    if not is_test(second) or first[0] not in ("alu", "un") or CARRY in after:
        return False
    tested = second[4]
    return tested == first[1] and tested[0] in GENERAL or is_copy(first) and first[4] == tested


def puts_again(window, after):
    first, *between, last = window
    is_same = first[0] == "immed" and last == first and first[1] != NOWHERE
    return is_same and not any(first[1] in writes(it) for it in between)


# Each rule with the lengths of its windows.
RULES = {is_dead: (1,), is_idle: (1,), copies_back: (2,), compares_zero: (2,), tests_again: (2,), puts_again: (3, 4)}


def needless(code, starts):
    """Each window at which a rule finds something needless."""
    at, found = live(code), []
    for place, length in windows(code, starts):
        after = at[place + length] if place + length < len(at) else set()
        window = code.instructions[place : place + length]
        found += [f"{rule.__name__} at place {place}" for rule, lengths in RULES.items() if length in lengths and rule(window, after)]
    return found


def start_faults(code, starts):
    """What isn't as it is where the starts of labels begin with 0, rise, and have an end before each later one."""
    if not starts:
        return []
    found = ["the first start isn't 0"] * (starts[0] != 0)
    rises = all(one < other for one, other in zip(starts, starts[1:])) and starts[-1] < len(code.instructions)
    found += [] if rises else ["the starts don't rise within the code"]
    ends = [start for start in starts[1:] if 0 < start <= len(code.instructions)]
    before = (code.instructions[start - 1] for start in ends)
    return found + ["a start is run into"] * any(it[0] != "halt" and it[:2] != ("br", "ALWAYS") for it in before)
