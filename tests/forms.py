"""Rows on `nova forms`: what it prints of the examples is as kept in tests/forms/, and the printed flow and single-use form, run by
the interpreter below, come to the outcome of each example; and what is said of a few small sources."""
import os
import re
import resource
import subprocess

from difference import difference
from documents import blocks, read
from rows import BESIDE

MASK = 0xFFFFFFFF
FORMS = ("flat", "lowered", "inlined", "closed", "contracted", "simplified", "single", "measures")
COPIES = "fun main[]: word { let (a, b, c, d, e, f, g, h) = sram[8](0); sram(8) <- (a, b, c, d, e, f, g, h); a + b + c + d + e + f + g + h }"
LOOP = "fun loop[i: word, s: word]: word { if (i == 8) s else let v = sram[1](i); loop[i + 1, s + v] } fun main[]: word { loop[0, 0] }"
TRIES = (
    "exception Low[word]; exception Odd[]; fun low[x: word]: word { if (x < 10) raise Low[x] else x } "
    "fun main[x: word]: word { try { try { low[x] + 1 } handle Odd[] { 7 } } handle Low[y] { y + 100 } }"
)
GROUP = (
    "fun first[x: word]: word { if (x == 0) 1 else second[x - 1] } and second[x: word]: word { third[x] } and third[x: word]: word { x + 1 } "
    "fun main[x: word]: word { first[x] + third[x] }"
)
QUIET = "exception Odd[]; fun main[x: word]: word { try { x + 1 } handle Odd[] { 7 } }"
FORTY = "fun main[]: word { " + "".join(
    f"let ({', '.join(f'{x}{i}' for i in range(8))}) = sram[8]({8 * k}); " for k, x in enumerate("abcde")
) + " + ".join(f"{x}{i}" for x in "abcde" for i in range(8)) + " }"


class FormsRow:
    where, wants = "tests/forms.py", ("nova",)

    def __init__(self, name, body):
        self.name, self.body = name, body

    def differences(self, novac, at):
        return self.body(at)


def command(*words):
    """The command line that prints the forms of a source, or one of them."""
    return [BESIDE["nova"], "forms", *words]


def printed(_top, source, form=None):
    ran = subprocess.run(command(source, *([form] if form else [])), capture_output=True, text=True, timeout=60)
    if ran.returncode or ran.stderr:
        raise OSError(f"nova forms ends with {ran.returncode} {ran.stderr}")
    return ran.stdout


def of_text(top, at, text, form=None):
    path = os.path.join(at, "s.nova")
    with open(path, "w", encoding="utf-8") as it:
        it.write(text)
    return printed(top, path, form)


# ---- the interpreter


class Halted(Exception):
    pass


def block(lines, at):
    """The nodes from a line on to the end of their block, and the place behind it."""
    found = []
    while at < len(lines):
        line = lines[at]
        at += 1
        if line == "}":
            break
        if line.startswith("if "):
            first, at = block(lines, at)
            found.append((line, first))
        else:
            found.append((line, None))
    return found, at


def labels_of(text):
    """Each label: its parameters and its nodes."""
    found = {}
    lines = [re.sub(r"  # .*", "", it).strip() for it in text.splitlines() if not it.startswith("#")]
    at = 0
    while at < len(lines):
        name, params = re.fullmatch(r"label (\d+)\((.*)\)", lines[at]).groups()
        end = at + 1
        while end < len(lines) and not lines[end].startswith("label "):
            end += 1
        found[int(name)] = ([it for it in params.split(", ") if it], block(lines[at + 1 : end], 0)[0])
        at = end
    return found


def value(env, text):
    return env[text] if text.startswith("v") else int(text, 0)


def computed(env, text):
    if text.startswith("~"):
        return ~value(env, text[1:]) & MASK
    parts = text.split(" ")
    if len(parts) == 1:
        return value(env, text)
    x, y = value(env, parts[0]), value(env, parts[2])
    return {
        "+": lambda: x + y, "-": lambda: x - y, "&": lambda: x & y, "|": lambda: x | y, "^": lambda: x ^ y,
        "<<": lambda: x << y, ">>": lambda: x >> y, "rol": lambda: x << y | x >> (32 - y),
    }[parts[1]]() & MASK


def stretch(memory, kind, at, n):
    first = 2 * at if kind == "sdram" else at
    if first + n > len(memory[kind]):
        raise Halted(f"fault {kind} {at}")
    return first


def run(labels, args, memory, writes, most=100_000):
    """The outcome line of a run from label 0."""
    label, words = 0, args
    for _ in range(most):
        params, nodes = labels[label]
        env, at = dict(zip(params, words)), 0
        while True:
            line, first = nodes[at]
            at += 1
            if first is not None:
                x, sign, y = re.fullmatch(r"if (\S+) (\S+) (\S+) \{", line).groups()
                x, y = value(env, x), value(env, y)
                if {"==": x == y, "!=": x != y, "<": x < y, ">=": x >= y}[sign]:
                    nodes, at = first, 0
                continue
            if (jump := re.fullmatch(r"jump (\d+)\((.*)\)", line)):
                label, words = int(jump[1]), [value(env, it) for it in jump[2].split(", ") if it]
                break
            if (ended := re.fullmatch(r"end (?:raised (\d+) )?\((.*)\)", line)):
                said = f"raised {ended[1]}" if ended[1] else "ended"
                return said + "".join(f" {value(env, it):08x}" for it in ended[2].split(", ") if it)
            if (read := re.fullmatch(r"(.+) = (s\w+)\[(\d+)\]\((\S+)\)", line)):
                place = stretch(memory, read[2], value(env, read[4]), int(read[3]))
                env.update(zip(read[1].split(", "), memory[read[2]][place : place + int(read[3])]))
            elif (write := re.fullmatch(r"(s\w+)\((\S+)\) <- (.+)", line)):
                given, to = [value(env, it) for it in write[3].split(", ")], value(env, write[2])
                place = stretch(memory, write[1], to, len(given))
                memory[write[1]][place : place + len(given)] = given
                writes.append(f"write {write[1]} {to} " + " ".join(f"{it:08x}" for it in given))
            elif (clone := re.fullmatch(r"(.+) = clone (v\d+)", line)):
                env.update({it: env[clone[2]] for it in clone[1].split(", ")})
            else:
                target, what = line.split(" = ")
                env[target] = computed(env, what)
    return "going"


def loaded(text):
    """The arguments and the memories of a memory text."""
    lines = text.splitlines()
    sram, sdram = map(int, lines[0].split()[1:])
    memory = {"sram": [0] * sram, "sdram": [0] * (2 * sdram), "scratch": [0] * 1024}
    for line in lines[2:]:
        kind, at, *given = line.split()
        first = int(at) * (2 if kind == "sdram" else 1)
        memory[kind][first : first + len(given)] = [int(it, 16) for it in given]
    return [int(it, 16) for it in lines[1].split()[1:]], memory


# ---- rows


def example(top, name):
    """The forms of an example are as kept, and four of them come to its outcome and its writes."""

    def differences(at):
        source, found = os.path.join(top, "examples", name + ".nova"), []
        with open(os.path.join(top, "tests", "forms", name + ".txt"), encoding="utf-8") as it:
            kept, forms = it.read(), printed(top, source)
        if kept != forms:
            found.append(difference(f"the forms, of which tests/forms/{name}.txt is kept", kept.encode(), forms.encode(), is_exact=True))
        with open(os.path.join(top, "examples", name + ".mem"), encoding="utf-8") as it:
            text = it.read()
        with open(os.path.join(top, "examples", name + ".out"), encoding="utf-8") as it:
            wanted = it.read().splitlines()
        for form in ["closed", "contracted", "simplified", "single"]:
            (args, memory), writes = loaded(text), []
            try:
                said = run(labels_of(printed(top, source, form)), args, memory, writes)
            except Halted as fault:
                said = str(fault)
            if [said, f"writes {len(writes)}", *writes] != wanted[: 2 + len(writes)]:
                found.append(f"{form}: {said} {writes}")
        return found

    return differences


def worked(top):
    """The forms in docs/TOUR.md are those of the source above them."""

    def differences(at):
        found = blocks(read(top, "docs/TOUR.md"))
        source = [text for _, kind, text in found if kind == "nova"]
        forms = "".join(text for _, kind, text in found if kind == "forms")
        if len(source) != 1:
            return [f"docs/TOUR.md has {len(source)} sources"]
        have = of_text(top, at, source[0])
        return [] if forms == have else [difference("the forms in docs/TOUR.md", forms.encode(), have.encode(), is_exact=True)]

    return differences


def clones(top):
    def differences(at):
        text = of_text(top, at, COPIES, "single")
        read = re.search(r"  (.*) = sram\[8\]", text)[1].split(", ")
        return [f"{x} has no two clones" for x in read if not re.search(rf"^  v\d+, v\d+ = clone {x}  #", text, re.M)]

    return differences


def loop(top):
    def differences(at):
        text = of_text(top, at, LOOP, "simplified")
        found = [] if len(labels_of(text)) >= 2 else ["fewer than two labels"]
        return found + ["a jump to label 0"] * bool(re.search(r"^ *jump 0\(", text, re.M))

    return differences


def reached(top):
    """A call gets a copy of each function of a group, and the flow has the labels that are reached: not the copies of functions that
    the called one doesn't call, and no handler that nothing raises to."""

    def differences(at):
        found = []
        for text, copied, left in [(GROUP, 9, 8), (QUIET, 2, 2)]:
            labels = len(re.findall(r"^ label ", of_text(top, at, text, "inlined"), re.M))
            flow = len(labels_of(of_text(top, at, text, "closed")))
            if (labels, flow) != (copied, left):
                found.append(f"{labels} labels, of which {flow} are left with the first one")
        return found

    return differences


def handlers(top):
    def differences(at):
        text = of_text(top, at, TRIES, "lowered")
        return [] if re.search(r"^  call \d+\(v\d+\) to \d+, 2 to \d+, 1 to \d+$", text, re.M) else ["the call names other handlers"]

    return differences


def forty(top):
    def differences(at):
        most = max(len(it.split()) for it in re.findall(r"# \d+:(.*)", of_text(top, at, FORTY, "single")))
        peak = int(re.search(r", peak (\d+)$", of_text(top, at, FORTY, "measures"), re.M)[1])
        return [] if most == peak >= 40 else [f"at most {most} are held, and the peak is {peak}"]

    return differences


# Sources whose forms are as deep as a source of allowed size makes them.
DEEPEST = {
    "tail calls through 2,047 groups": "fun g0[]: () { () }\n" + "".join(f"fun g{i + 1}[]: () {{ g{i}[] }}\n" for i in range(2046)) + "fun main[]: () { g2046[] }",
    "choices in one another, through 683 groups":
        "fun g0[]: () { () }\n" + "".join(f"fun g{i + 1}[]: () {{ if (true) g{i}[] else () }}\n" for i in range(682)) + "fun main[]: () { g682[] }",
    "97 pairs of brackets": "fun main[a: word]: word { " + "(" * 97 + "a" + ")" * 97 + " }",
    "96 choices, in else arms": "fun main[a: word]: word { " + "".join(f"if (a == {i}) {i} else " for i in range(96)) + "a }",
    "48 handlers in one another": "exception E[word]; fun main[a: word]: word { " + "try { " * 48 + "raise E[a]" + " } handle E[x] { x + 1 }" * 48 + " }",
}


def deepest(top, text):
    """Each form of a source comes out in 8 MiB of stack, which is also what dropping the forms between takes."""

    def limited():
        resource.setrlimit(resource.RLIMIT_STACK, (8 << 20, 8 << 20))

    def differences(at):
        path, found = os.path.join(at, "s.nova"), []
        with open(path, "w", encoding="utf-8") as it:
            it.write(text)
        for form in FORMS:
            ran = subprocess.run(command(path, form), capture_output=True, timeout=60, preexec_fn=limited)
            if ran.returncode or ran.stderr or not ran.stdout:
                found.append(f"{form}: status {ran.returncode}")
        return found

    return differences


def refusals(top):
    def differences(at):
        bad = os.path.join(at, "bad.nova")
        with open(bad, "w", encoding="utf-8") as it:
            it.write("fun main[]: word {")
        found = []
        for words, status in [([], 2), ([bad, "other"], 2), ([os.path.join(at, "absent")], 1), ([bad], 1)]:
            ran = subprocess.run(command(*words), capture_output=True, timeout=60)
            if ran.returncode != status or ran.stdout:
                found.append(f"{words}: {ran.returncode}")
        return found

    return differences


def all_rows(top):
    names = sorted(it[:-5] for it in os.listdir(os.path.join(top, "examples")) if it.endswith(".nova"))
    rows = [(f"forms of {it}", example(top, it)) for it in names]
    rows += [("each of eight words that are used twice has two clones", clones(top)), ("a loop has two labels, and no jump to the first", loop(top))]
    rows += [("labels that nothing leads to are left out", reached(top))]
    rows += [("a call names its handlers, the nearest first", handlers(top)), ("forty values are held at once", forty(top))]
    rows += [("the forms in docs/TOUR.md", worked(top))]
    rows += [("words, files and sources that are refused", refusals(top))]
    rows += [(f"each form in 8 MiB of stack: {name}", deepest(top, text)) for name, text in DEEPEST.items()]
    return [FormsRow(name, body) for name, body in rows]
