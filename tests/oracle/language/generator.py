"""The text that `gen` makes of a seed and a size."""


def made_text(seed, size):
    state, names = seed, ["a", "b"]
    lines = ["fun main[a: word, b: word]: word {"]

    def draw():
        nonlocal state
        state = (state * 1664525 + 1013904223) % 2**32
        return state >> 16

    for number in range(size):
        sign = "+-&|^"[draw() % 5]
        first, second = (names[-1 - draw() % min(number + 2, 8)] for _ in range(2))
        lines.append(f"let x{number} = {first} {sign} {second};")
        names.append(f"x{number}")
    return "\n".join(lines) + f"\n{names[-1]} }}\n"
