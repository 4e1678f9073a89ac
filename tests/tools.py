"""Rows on what stands beside the program: the files for editors, the captures and examples/check_report; and on reports and made
sources, whose answers have to agree with one another."""
import html
import importlib.machinery
import json
import os
import random
import re
import shutil
import subprocess
import sys
import tempfile
import types
import zipfile

import edits
import pages
from difference import difference
from rows import BESIDE, contents


class ToolRow:
    where, wants = "tests/tools.py", ()

    def __init__(self, name, body, top):
        self.name, self.body, self.top = name, body, top

    def differences(self, novac, at):
        return self.body(self.top)


class ReportRow:
    """The report on an example's banks: a second checker says of it what novac says, and the moves of the code cost no more."""

    where, wants = "tests/tools.py", ("novac",)

    def __init__(self, example, top):
        self.name, self.example, self.top = f"the report on {example}", os.path.join(top, "examples", example), top

    def differences(self, novac, at):
        def said(*words):
            return subprocess.run(words, cwd=at, capture_output=True, text=True, timeout=60).stdout

        compiled = said(novac, "compile", self.example, "o", "r").split()
        checked, again = said(novac, "check", "r"), said(sys.executable, os.path.join(self.top, "examples", "check_report"), "r")
        found = [] if checked == again == " ".join(compiled[2:]) + "\n" else [f"{compiled}, {checked!r}, {again!r}"]
        cost = sum(move_cost(line.split()) for line in said(novac, "dis", "o").splitlines())
        return found if cost <= int(compiled[3]) else [*found, f"the moves cost {cost}, above {compiled[3]}"]


class SameRow:
    """The object and the report that `nova build` saves of an example are those of `compile`, its summary counts what the listing
    marks, and `nova run` prints of the source and of the object what `run` does."""

    where, wants = "tests/tools.py", ("novac", "nova")

    def __init__(self, example, top):
        self.name, self.example, self.top = f"nova on {example} as novac", os.path.join(top, "examples", example), top

    def differences(self, novac, at):
        def said(*words):
            return subprocess.run(words, cwd=at, capture_output=True, text=True, timeout=60).stdout

        nova, memory = BESIDE["nova"], self.example.removesuffix("nova") + "mem"
        compiled = said(novac, "compile", self.example, "o", "r").split()
        built = said(nova, "build", self.example, "-o", "p", "--report", "q")
        found = [f"{b} isn't {a}" for a, b in ("op", "rq") if contents(at)[a] != contents(at)[b]]
        listing = said(nova, "list", self.example)
        marks = [len(re.findall(f"; {mark}$", listing, re.M)) for mark in ("move between banks", "move", "literal", "spill")]
        verdict = {"optimal": "optimal", "feasible": f"at most {(re.search('at most ([0-9]+) above', built) or ' ?')[1]} above the least"}[compiled[2]]
        counted = [f"{n} {what}{'' if n == 1 else 's'}" for n, what in zip(marks, ("move", "move", "literal", "spill"))]
        wanted = f"p: {compiled[1]} instructions, moves between banks cost {compiled[3]}, {verdict}\n"
        wanted += f"  of these {counted[0]} between banks, {counted[1]} within a bank, {counted[2]}, {counted[3]}\n"
        found += [] if built == wanted else [difference("the summary", wanted.encode(), built.encode(), is_exact=True)]
        alone = "".join(it for it in listing.splitlines(True) if not re.match(" *; ", it))
        found += [] if alone == said(nova, "list", "o") else ["the listing of the source isn't that of the object"]
        ran = said(novac, "run", "o", memory, "steps=1000000")
        return found + [f"run of {it}: another outcome" for it in (self.example, "o") if said(nova, "run", it, memory) != ran]


class PageRow:
    """The page that `nova page` saves of an example and its memory text has the source, the listing and the outcome. A browser, where one
    is there, says that its replay agrees, and colours as many moves, literals and spills as the listing has."""

    where, wants = "tests/tools.py", ("nova",)

    def __init__(self, example, top):
        self.name, self.example = f"the page on {example}", os.path.join(top, "examples", example)

    def differences(self, _novac, at):
        def said(*words):
            return subprocess.run(words, cwd=at, capture_output=True, text=True, timeout=60).stdout

        nova, memory = BESIDE["nova"], self.example.removesuffix("nova") + "mem"
        said(nova, "build", self.example, "-o", "o")
        said(nova, "page", self.example, memory, "-o", "p.html")
        page = open(os.path.join(at, "p.html"), encoding="utf-8").read()
        blocks = {name: html.unescape(text) for name, text in re.findall(r'<pre id="(\w+)">\n(.*?)</pre>', page, re.S)}
        with open(self.example, encoding="utf-8") as source, open(memory, encoding="utf-8") as text:
            wanted = {"name": self.example, "source": source.read(), "memory": text.read(), "listing": self.dense(said(nova, "list", "o")), "outcome": said(nova, "run", "o", memory)}
        found = [difference(f"the page's {name}", text.encode(), blocks.get(name, "").encode(), is_exact=True) for name, text in wanted.items() if blocks.get(name) != text]
        return found + self.in_browser(blocks, at)

    def dense(self, listing):
        """A listing as a page has it: without places, and with the first letters of remarks."""
        lines = [re.sub("^ *[0-9]+ +", "", it) for it in listing.splitlines(True)]
        return "".join(re.sub(" +;(.*)", lambda remark: " ;" + "".join(it[0] for it in remark[1].split()), it) for it in lines)

    def in_browser(self, blocks, at):
        browser = next((it for it in ("chromium", "chromium-browser", "google-chrome") if shutil.which(it)), None)
        if not browser:
            return []
        # What isn't on the screen is built when it is printed, at the latest.
        with open(os.path.join(at, "p.html"), encoding="utf-8") as page, open(os.path.join(at, "q.html"), "w", encoding="utf-8") as whole:
            whole.write(page.read() + "<script>setInterval(() => dispatchEvent(new Event('beforeprint')), 100)</script>\n")
        words = [browser, "--headless", "--no-sandbox", "--disable-gpu", "--virtual-time-budget=5000", "--dump-dom", "q.html"]
        shown = subprocess.run(words, cwd=at, capture_output=True, text=True, timeout=60).stdout
        marks = {"between": "mbb", "within": "m", "literal": "l", "spill": "s"}
        counts = {kind: len(re.findall(f";{mark}$", blocks["listing"], re.M)) for kind, mark in marks.items()}
        coloured = {kind: len(re.findall(f'<div class="row {kind}[ "]', shown)) for kind in marks}
        found = [] if counts == coloured else [f"the browser colours {coloured}, the listing has {counts}"]
        found += [] if "The replay agrees with the proved run" in shown else ["the replay doesn't agree"]
        return found + ([] if len(re.findall('<rect class="(?:hot)?" x=', shown)) == len(re.findall("^label", blocks["form"], re.M)) else ["a label isn't drawn"])


class ReplayRow:
    """The engine of the page comes on each example to the outcome and the counts of `nova run --profile`, what the page says to be live is
    what `nova list` prints, and each access and end of the run has its place in the source, one of those which may do it. It wants node, and
    passes without."""

    where, wants, name = "tests/tools.py", ("nova",), "the page's replay of the examples"

    def __init__(self, top):
        self.top = top

    def differences(self, _novac, at):
        nova, runs = BESIDE["nova"], []
        if not shutil.which("node"):
            return []

        def said(*words):
            return subprocess.run(words, cwd=at, capture_output=True, text=True, timeout=60)

        for name in sorted(it for it in os.listdir(os.path.join(self.top, "examples")) if it.endswith(".nova")):
            example = os.path.join(self.top, "examples", name)
            memory = example.removesuffix("nova") + "mem"
            said(nova, "build", example, "-o", "o")
            ran, listing, form = said(nova, "run", "o", memory, "--profile"), said(nova, "list", "o"), said(nova, "list", example)
            said(nova, "page", example, memory, "-o", "p.html")
            page = open(os.path.join(at, "p.html"), encoding="utf-8").read()
            blocks = {it: re.search(rf'<pre id="{it}">\n(.*?)</pre>', page, re.S)[1] for it in ("events", "sizes")}
            with open(memory, encoding="utf-8") as text, open(example, encoding="utf-8") as source:
                run = {"name": name, "source": source.read(), "memory": text.read(), **blocks}
            runs.append({**run, "listing": listing.stdout, "outcome": ran.stdout, "profile": ran.stderr, "form": form.stdout})
        return in_node(self.top, [os.path.join(self.top, "page", "test.js")], json.dumps(runs))


def in_node(top, words, text=""):
    """What node prints, a line each, and that it fails."""
    ran = subprocess.run(["node", *words], cwd=top, input=text, capture_output=True, text=True, timeout=60)
    return ran.stdout.splitlines() + ran.stderr.splitlines()[:6] + ([f"node ends with {ran.returncode}"] if ran.returncode else [])


class SumRow:
    """The report on a sum has the sizes, costs, rows and vector that docs/CERTIFICATES.md tells of it."""

    where, wants, name = "tests/tools.py", ("novac",), "the report of docs/CERTIFICATES.md on a sum"

    def __init__(self, top):
        self.top = top

    def differences(self, novac, at):
        source = os.path.join(self.top, "crates", "novac", "data", "add.nova")
        subprocess.run([novac, "compile", source, "o", "r"], cwd=at, capture_output=True, timeout=60)
        lines, page = read(at, "r").split("\n"), read(self.top, "docs/CERTIFICATES.md")
        costs, rows = ([it for it in lines if it.startswith(front)] for front in ("c ", "r "))
        told = re.search(r"has ([0-9]+) columns and ([0-9]+) rows", page).groups()
        found = [] if told == (str(len(costs)), str(len(rows))) else [f"{len(costs)} columns and {len(rows)} rows"]
        vector = re.search(r"The report's vector, `(x [^`]*)`", page)[1]
        found += [] if vector in lines else [f"no line is {vector}"]
        for number, row in re.findall(r"([0-9]+): `(r [^`]*)`", page):
            found += [] if rows[int(number) :][:1] == [row] else [f"row {number} isn't {row}"]
        for first, last, cells in re.findall(r"^\| ([0-9]+) to ([0-9]+) \| .* \| ([0-9, ]+) \|$", page, re.M):
            each = cells.split(", ")
            wanted = [f"c {each[at % len(each)]}" for at in range(int(last) + 1 - int(first))]
            found += [] if costs[int(first) : int(last) + 1] == wanted else [f"columns {first} to {last} cost something else"]
        return found


class MadeRow:
    """What `gen` says of a made source is what `compile` says of its text, and what `run` and `exec` come to on 1 and 2; and it says so
    twice."""

    where, wants = "tests/tools.py", ("novac",)

    def __init__(self, seed, size, top):
        self.name, self.seed, self.size, self.top = f"gen {seed} {size} as by compile", seed, size, top

    def differences(self, novac, at):
        def said(*words):
            return subprocess.run([novac, *words], cwd=at, capture_output=True, text=True, timeout=60).stdout

        text = module(self.top, "bench/run").made(self.seed, self.size)
        for name, content in (("s", text), ("m", "memory 0 0\nargs 00000001 00000002\n")):
            with open(os.path.join(at, name), "w") as it:
                it.write(content)
        compiled = said("compile", "s", "o", "r", "store=1048576").split()
        ended = [said(*words).split("\n")[0] for words in (("run", "o", "m", "steps=100000000"), ("exec", "s", "m", "steps=1"))]
        wanted = f"gen {self.seed} {self.size} source {len(text)} length {' '.join(compiled[1:])} outcome {ended[0][6:]}\n"
        found = said("gen", str(self.seed), str(self.size))
        again = said("gen", str(self.seed), str(self.size))
        return [] if found == wanted == again and ended[0] == ended[1] else [f"{found!r}, then {again!r}, wanted {wanted!r}, {ended}"]


class CrowdedRow:
    """More words are held at once than fit registers, and there is one branch: the report says that there are no banks, or that they
    weren't found. Which of the two no contract fixes."""

    where, wants, name = "tests/tools.py", ("novac",), "one branch for forty words without slots"

    def __init__(self, top):
        self.top = top

    def differences(self, novac, at):
        def said(*words):
            ran = subprocess.run([novac, *words], cwd=at, capture_output=True, text=True, timeout=60)
            return ran.returncode, ran.stdout

        with open(os.path.join(at, "s"), "w") as it:
            it.write(module(self.top, "bench/run").FORTY)
        status, line = said("compile", "s", "o", "r", "slots=0", "budget=1")
        checked = said("check", "r")
        with open(os.path.join(at, "r")) as it:
            branches = sum(row.startswith("b ") for row in it)
        proved, spent = (9, "infeasible\n", (0, "infeasible\n")), (10, "budget 1\n", (0, "spent\n"))
        found = (status, line, checked)
        good = found == proved and branches <= 1 or found == spent and branches == 1
        return [] if good and not os.path.exists(os.path.join(at, "o")) else [f"{found}, {branches} branches"]


class PacketRow:
    """The code of a program of bench/packets comes to the outcome of its meaning, and the report on it is true."""

    where, wants = "tests/tools.py", ("novac",)

    def __init__(self, source, top):
        self.name, self.source = f"the code of bench/packets/{source}", os.path.join(top, "bench", "packets", source)

    def differences(self, novac, at):
        def said(*words):
            ran = subprocess.run([novac, *words], cwd=at, capture_output=True, text=True, timeout=120)
            return ran.returncode, ran.stdout

        memory = self.source.replace(".nova", ".mem")
        status, line = said("compile", self.source, "o", "r")
        meant, ran = (said(*words, memory, "steps=100000") for words in (("exec", self.source), ("run", "o")))
        checked = said("check", "r")
        good = status == 0 and meant == ran and meant[0] == 0 and checked == (0, " ".join(line.split()[2:]) + "\n")
        return [] if good else [f"{status} {line!r}, {checked}, {ran}, wanted {meant}"]


class FormatRow:
    """`nova fmt` leaves the sources of the repository as they are. Other blanks in one of them go back, and change no object."""

    where, wants, name = "tests/tools.py", ("novac", "nova"), "the format of the repository's sources"

    def __init__(self, top):
        folders = ("examples", "examples/replay", "bench/packets", "crates/nova/data", "crates/novac/data")
        self.sources = [os.path.join(top, folder, it) for folder in folders for it in sorted(os.listdir(os.path.join(top, folder))) if it.endswith(".nova")]

    def differences(self, novac, at):
        def said(*words):
            ran = subprocess.run(words, cwd=at, capture_output=True, text=True, timeout=120)
            return ran.returncode, ran.stdout + ran.stderr

        nova, found = BESIDE["nova"], []
        status = said(nova, "fmt", "--check", *self.sources)
        found += [] if status == (0, "") else [f"nova fmt --check: {status}"]
        for number, source in enumerate(self.sources):
            with open(source, encoding="utf-8", newline="") as it:
                text = it.read()
            with open(os.path.join(at, "s"), "w", encoding="utf-8", newline="") as it:
                it.write(other_blanks(text, number))
            compiled = said(novac, "compile", "s", "o", "r", "budget=1")
            status = said(nova, "fmt", "s")
            again = said(novac, "compile", "s", "p", "q", "budget=1")
            files = contents(at)
            found += [] if status == (0, "") and files["s"] == text.encode() else [f"{source}: another text, {status}"]
            found += [] if compiled == again and files.get("o") == files.get("p") and files["r"] == files["q"] else [f"{source}: {compiled}, {again}, or another object"]
        return found


def other_blanks(text, seed):
    """A source with other blanks at the ends of its lines, and where it has some in a line that has no comment."""
    chance = random.Random(seed)
    blanks = ["", " ", "  ", "\t", " \t ", "\r", "        "]
    lines = [it.strip(" ") for it in text.split("\n")]
    lines = [it if "//" in it else re.sub(" ", lambda _: chance.choice(blanks[1:]), it) for it in lines]
    return "\n".join(chance.choice(blanks) + it + chance.choice(blanks) for it in lines)


class SizesRow:
    """docs/LANGUAGE.md tells between which numbers the lines and the expanded sizes of bench/packets are."""

    where, wants, name = "tests/tools.py", ("nova",), "the sizes of bench/packets in docs/LANGUAGE.md"

    def __init__(self, top):
        self.top = top

    def differences(self, novac, at):
        folder = os.path.join(self.top, "bench", "packets")
        sources = [os.path.join(folder, it) for it in os.listdir(folder) if it.endswith(".nova")]
        ran = subprocess.run([BESIDE["nova"], "check", *sources], cwd=at, capture_output=True, text=True, timeout=60).stdout
        sizes = [int(it) for it in re.findall(r"expanded size ([0-9]+) of", ran)]
        lines = [read(folder, it).count("\n") for it in sources]
        told = re.search(r"have ([0-9,]+) to ([0-9,]+) lines, and expanded sizes of ([0-9,]+) to ([0-9,]+)\.", read(self.top, "docs/LANGUAGE.md")).groups()
        wanted = (min(lines), max(lines), min(sizes), max(sizes))
        return [] if tuple(int(it.replace(",", "")) for it in told) == wanted and len(sizes) == len(sources) else [f"{told}, wanted {wanted}"]


# Of six programs of bench/programs what the search says of each, and how many branches it takes.
SEARCHES = {
    "bank-sum0-60": ("optimal 2", 1),
    "bank-sum2-60": ("optimal 5", 15),
    "bank-sum3-60": ("optimal 3", 3),
    "pack-40": ("optimal 8", 6),
    "triangles-3": ("optimal 6", 3),
    "triangles-8": ("optimal 16", 127),
}


class SearchRow:
    """The verdict of a 0-1 program, its cost, and at how many branches. No contract fixes how long a search is; a change of it has to be
    seen."""

    where, wants = "tests/tools.py", ("zo_bench", "novac")

    def __init__(self, program, top):
        self.name, self.program, self.top = f"the search of {program}", program, top

    def differences(self, novac, at):
        program = os.path.join(self.top, "bench", "programs", f"{self.program}.zo")
        status = subprocess.run([BESIDE["zo_bench"], program, "r"], cwd=at, capture_output=True, timeout=60).returncode
        said = subprocess.run([novac, "check", "r"], cwd=at, capture_output=True, text=True, timeout=60).stdout.strip()
        with open(os.path.join(at, "r")) as it:
            branches = sum(row.startswith("b ") for row in it)
        found, wanted = (status, said, branches), (0, *SEARCHES[self.program])
        return [] if found == wanted else [f"{found}, wanted {wanted}"]


def move_cost(words):
    """What a line of a listing costs: a copy from one bank to another 1, but by A15 nothing, and an access to a slot 16."""
    if words[0] == "un" and words[2] == "COPY" and words[1] != "none" and "A15" not in words:
        return re.match(r"[A-Z]+", words[1])[0] != re.match(r"[A-Z]+", words[3])[0]
    return 16 if words[0] in ("read", "write") and words[1] == "scratch" and words[4] == "B15" else 0


def read(top, name):
    with open(os.path.join(top, name), encoding="utf-8") as it:
        return it.read()


def words_of(top, path, line):
    """The words `codes "WORD"` of the lines of a definition that this begins."""
    return re.findall(r'codes "([^"]+)"', "\n".join(re.findall(rf"^(?:{line}).*(?:\n +.*)*", read(top, path), re.M)))


def highlighting(top):
    """Each keyword, sign, instruction and operation of the tables is coloured by both files."""
    tables, assembly = "crates/nv_text/specs/Tables.antt", "crates/uc_asm/specs/Words.antt"
    words = words_of(top, tables, "keywords =")
    words += words_of(top, assembly, "kind_name|binary_name|unary_words|condition_name") + words_of(top, "crates/nv_base/specs/MemoryNames.antt", "memory_name")
    signs = [it for it in words_of(top, tables, "signs =") if not re.fullmatch(r"[][(){},;.:]", it)]
    found = [] if len(words) >= 42 and len(signs) == 21 else [f"the tables have {len(words)} words and {len(signs)} signs"]
    vim = read(top, "editors/vim/syntax/nova.vim")
    listed = {word for line in re.findall(r"^syn keyword nova\w+ (.*)", vim, re.M) for word in line.split()}
    sign = re.search(r'^syn match novaSign "\\V(.*?)" contains', vim, re.M)[1].split("\\|")
    found += [f"nova.vim lacks {it}" for it in words if it not in listed] + [f"nova.vim lacks {it}" for it in signs if it not in sign]
    grammar = json.loads(read(top, "editors/vscode/nova.tmLanguage.json"))
    nova, inner = grammar["patterns"][1:], grammar["patterns"][0]["patterns"]
    for word in words + signs:
        if not any(re.fullmatch(it["match"], word) for it in nova + inner):
            found.append(f"nova.tmLanguage.json lacks {word}")
    return found


def module(top, path):
    """A script of the repository, without running it."""
    loader = importlib.machinery.SourceFileLoader("script", os.path.join(top, path))
    it = types.ModuleType("script")
    it.__file__ = loader.path
    exec(compile(loader.get_data(loader.path), loader.path, "exec"), it.__dict__)
    return it


def as_made(top):
    files = module(top, "editors/make").files()
    return [f"{name} is to be written again by editors/make" for name, text in files.items() if read(top, f"editors/{name}") != text]


TOLD = re.compile(r"^[|!] ((\w+)(?::(\d+):(\d+))?: (error|warning): (.*))$", re.M)
SAMPLES = """\
| s:3:7: warning: variable `x` is never used (unused)
| s:1:24: error: no token begins with `:` (syntax char)
| s: error: there is no function `main` (type 1)
"""


def told(top):
    """The first lines of faults and warnings, those of tests/mistakes.txt too, with what they say: file, line, column, severity and
    sentence."""
    file = os.path.join(top, "tests", "mistakes.txt")
    return [it.groups() for it in TOLD.finditer(SAMPLES + (read(top, file) if os.path.isfile(file) else ""))]


def problems(top):
    """The problem matcher of the package for VS Code reads each fault and warning with a place, and nothing else; the package has all
    files that it names, and the task its matcher."""
    about = json.loads(read(top, "editors/vscode/package.json"))
    given = about["contributes"]
    matcher = given["problemMatchers"][0]
    pattern = matcher["pattern"]
    found, lines = [], told(top)
    for line, *wanted in lines:
        match = re.search(pattern["regexp"], line)
        parts = [match[pattern[it]] for it in ("file", "line", "column", "severity", "message")] if match else [None]
        found += [line] if wanted[1] and parts != wanted or match and not wanted[1] else []
    found += [it for it in ("    let x = f(1:2: error)", "`(` of 2:15 isn't closed.", "declared below: line 5") if re.search(pattern["regexp"], it)]
    with tempfile.TemporaryDirectory() as folder:
        file = os.path.join(folder, "nova.vsix")
        module(top, "editors/make").package(file)
        with zipfile.ZipFile(file) as it:
            packed = set(it.namelist())
    named = [given["languages"][0]["configuration"], given["grammars"][0]["path"], about["main"], "./connection.js"]
    found += [f"the package lacks {it}" for it in named if f"extension/{it[2:]}" not in packed]
    task = json.loads(read(top, "editors/vscode/tasks.json"))["tasks"][0]
    found += [] if task["problemMatcher"] == f"${matcher['name']}" else ["the task has another matcher"]
    return found


def quickfix(top):
    """Vim, where it is there, reads each fault and warning by `errorformat`, with its place, its kind and its sentence, and nothing else."""
    if not shutil.which("vim"):
        return []
    lines = told(top)
    with tempfile.TemporaryDirectory() as folder:
        said, listed = os.path.join(folder, "said"), os.path.join(folder, "listed")
        with open(said, "w") as it:
            it.write("".join(f"{line[0]}\n    an excerpt: of 1:2\n    ^^^\nWhat helps.\n" for line in lines))
        script = [f"set runtimepath^={os.path.join(top, 'editors', 'vim')}", "compiler nova", f"cgetfile {said}"]
        item = "bufname(v:val.bufnr) . '|' . v:val.lnum . '|' . v:val.col . '|' . tolower(v:val.type) . '|' . v:val.text"
        script += [f"call writefile(map(filter(getqflist(), 'v:val.valid'), \"{item}\"), '{listed}')", "qall!"]
        words = ["vim", "-u", "NONE", "-i", "NONE", "-N", "-es", *(word for it in script for word in ("-c", it))]
        subprocess.run(words, cwd=folder, stdin=subprocess.DEVNULL, capture_output=True, timeout=60)
        have = open(listed).read().split("\n")[:-1] if os.path.exists(listed) else []
    wanted = [f"{file}|{line or 0}|{column or 0}|{kind[0]}|{sentence.lstrip()}" for _, file, line, column, kind, sentence in lines]
    return [] if have == wanted else [f"{len(have)} of {len(wanted)}", *sorted(set(have) ^ set(wanted))[:6]]


def man_as_made(top):
    """The man pages are as docs/man/make makes them of docs/COMMANDS.md."""
    files = module(top, "docs/man/make").files()
    return [f"docs/man/{name} is to be written again by docs/man/make" for name, text in files.items() if read(top, f"docs/man/{name}") != text]


# What a completion has to offer behind these words, of which the last is begun.
COMPLETIONS = [
    ("nova ", "asm build check explain fmt forms help list lsp mem page replay run test trace version --help --version"),
    ("nova b", "build"),
    ("nova build --s", "--sarif --slots --store"),
    ("nova build -", "--allow --budget --deny-warnings --help --json --report --sarif --slots --store --weights -o"),
    ("nova run -", "--budget --counts --help --json --profile --steps --trace --until"),
    ("nova check -", "--allow --deny-warnings --help --json --sarif --verbose"),
    ("nova page -", "--budget --help --json --steps -o"),
    ("nova asm -", "--help --json -o"),
    ("nova fmt -", "--check --help --json"),
    ("nova replay -", "--args --at --drop --help --json --keep --length --limit --memory --steps --table"),
    ("nova r", "replay run"),
    ("nova list -", "--budget --help --json"),
    ("nova test -", "--budget --case --coverage --help --interpret --json --junit --steps --tap --update"),
    ("nova trace -", "--help --json --line --steps"),
    ("nova help l", "list lsp"),
    ("nova explain syntax n", "number name"),
    ("nova run s m --until ", "raise write"),
    ("nova run -- -", ""),
    ("nova test --steps=", ""),
]


def completion(top):
    """The completions are as made; that for bash offers the commands and the options of docs/COMMANDS.md."""
    made = module(top, "editors/complete").files().items()
    found = [f"editors/{name} is to be written again by editors/complete" for name, text in made if read(top, f"editors/{name}") != text]
    for line, wanted in COMPLETIONS:
        words = line.split(" ")
        script = 'source "$1"; shift; COMP_WORDS=("$@"); COMP_CWORD=$(($# - 1)); _nova; printf "%s\\n" "${COMPREPLY[@]}"'
        ran = subprocess.run(["bash", "-c", script, "bash", f"{top}/editors/nova.bash", *words], capture_output=True, text=True, stdin=subprocess.DEVNULL)
        if sorted(ran.stdout.split()) != sorted(wanted.split()) or ran.stderr:
            found.append(f"{line!r}: {ran.stdout.split()} {ran.stderr}")
    text = read(top, "docs/COMMANDS.md")
    told = {it for it in re.findall(r"^\| `(--?[a-z-]+)[ `]", text, re.M)} | set(re.findall(r"`nova ([a-z]+)", text)) | set(re.findall(r"`nova (--[a-z]+)`", text))
    offered = {it for _, wanted in COMPLETIONS for it in wanted.split()}
    return found + [f"docs/COMMANDS.md tells {it}, and no completion offers it" for it in sorted(told - offered)]


def options_told(top):
    """docs/COMMANDS.md tells the options that each command of nova has. So does its help, but for `--help`, and for `--json` where that only prints
    faults in another form."""
    verbs, settings, helps = (read(top, f"crates/{it}") for it in ("nova_words/src/verb.rt", "nova_words/src/setting.rt", "nova_show/src/help.rt"))
    names, spelled = dict(re.findall(r'Verb::(\w+) => "([a-z]+)"', verbs)), dict(re.findall(r'Setting::(\w+) => "(--?[a-z-]+)"', settings))
    lists = {name: set(re.findall(r"Setting::(\w+)", body)) for name, body in re.findall(r"^const (\w+): \[Setting; [0-9]+\] = \[(.*?)\];", verbs, re.M | re.S)}
    has = {names[verb]: {spelled[it] for it in lists[table]} for arm, table in re.findall(r"((?:Verb::\w+(?: \| )?)+) => &(\w+),", verbs) for verb in re.findall(r"\w+(?=$| )", arm)}
    commands, options = module(top, "editors/complete").read_tables()
    told = {command: {name for name, (of, _) in options.items() if command in of} for command in commands}
    texts = dict(re.findall(r'^const (\w+): \[&str; [0-9]+\] = \[\n(.*?)^\];', helps, re.M | re.S))
    pages = {names[verb]: texts[table] for verb, table in re.findall(r"Some\(Verb::(\w+)\) => push_lines\(out, &(\w+)\)", helps)}
    found = [f"{it}: it has {sorted(has.get(it, []))}, and docs/COMMANDS.md tells {sorted(told.get(it, []))}" for it in sorted(has.keys() | told.keys()) if has.get(it) != told.get(it)]
    for command, page in pages.items():
        listed = {name for line in re.findall(r'^    "  (--?[a-z].*)", *$', page, re.M) for name in re.findall(r"--?[a-z-]+", re.split("   |  (?=[a-z])", line)[0])}
        found += [] if listed <= has[command] and has[command] - listed <= {"--help", "--json"} else [f"nova help {command}: {sorted(listed ^ has[command])}"]
    return found


def pages_as_made(top):
    """The pages of `nova explain` are those of docs/FAULTS.md."""
    made = pages.files(top).items()
    return [f"{name} is to be written again by tests/pages.py" for name, text in made if read(top, f"crates/nova_show/src/{name}") != text]


def page_as_made(top):
    """The texts of crates/nova_page are those of page/, whose scripts are read by node, where it is installed."""
    make = module(top, "page/make")
    found = [f"{name} is to be written again by page/make" for name, text in make.files(top).items() if read(top, f"crates/nova_page/src/{name}") != text]
    found += [] if make.is_script(read(top, "crates/nova_page/src/script.rt"), top) else ["script.rt is to be written again by page/make"]
    if not shutil.which("node"):
        return found
    scripts = [os.path.join("page", it) for it in [*(f"{name}.js" for name in make.SCRIPTS), "test.js"]]
    return found + [line for it in scripts for line in in_node(top, ["--check", it])]


def believed_as_made(top):
    """docs/PROOFS.md has the lines of the clauses and the definitions that are there."""
    same = module(top, "bench/believed").page() == read(top, "docs/PROOFS.md")
    return [] if same else ["docs/PROOFS.md is to be written again by bench/believed --page"]


def pinned_or_told(top):
    """Each public function has a clause, or bench/unpinned.txt a reason why it has none."""
    return module(top, "bench/unpinned").differences()


def nothing_new_twice(top):
    """No function and no lemma stands twice but those that bench/repeated.txt lists with a reason, and these still do."""
    ran = subprocess.run([sys.executable, os.path.join(top, "bench", "repeated")], capture_output=True, text=True)
    return [] if ran.returncode == 0 else [it for it in ran.stdout.split("\n") if it.startswith(("NEW", "GONE", "NO REASON"))] + [ran.stderr]


LONGEST_LINE, LONGEST_SENTENCE, USUAL_SENTENCE = 160, 30, 18
# Pages for everybody, whose sentences are all short; and pages whose sentences are short on average.
SHORT_PAGES = ("README.md", "docs/COMMANDS.md", "docs/MEMORY.md", "docs/TOUR.md", "docs/TESTING.md")
PLAIN_PAGES = tuple(f"docs/{it}.md" for it in ("ARCHITECTURE", "FAULTS", "FORMS", "GLOSSARY", "IDIOMS", "LANGUAGE", "MACHINE", "PROOFS", "PROVING", "RECIPES", "WEIGHTS")) + ("docs/GATE.md", "bench/README.md", "bench/NOTES.md")
NAMED_FILE = re.compile(
    r"`([\w./+-]+\.(?:rt|antt|md|py|txt|asm|report|vim|json))`|\b((?:crates|docs|tests|bench|examples|editors)/[\w./+-]*\w)"
)


def without_blocks(text):
    return re.sub(r"^```.*?^```$", "", text, flags=re.M | re.S)


def plain_sentences(text):
    """The sentences of a page, those of lists item by item, and those of tables cell by cell."""
    items = re.split(r"\n\s*\n|\n *(?:-|[0-9]+\.) ", re.sub(r"^    .*$", "", without_blocks(text), flags=re.M))
    parts = [it.split("|") if it.startswith("|") else [it] for it in items]
    return [it for part in parts for cell in part for it in re.split(r"(?<=[.?!])\s+", cell)]


def readable(top):
    """README has short lines. Pages for everybody have no long sentence, and the others short ones on average; what is made by a script
    and fragments of one or two words don't count."""
    text = read(top, "README.md")
    found = [f"README.md, line {number}: {len(it)} characters" for number, it in enumerate(text.split("\n"), 1) if len(it) > LONGEST_LINE]
    for name in SHORT_PAGES + PLAIN_PAGES:
        text = read(top, name).split("<!-- from here on by")[0]
        sentences = [it for it in plain_sentences(text) if len(it.split()) > 2]
        longer = [it for it in sentences if len(it.split()) > LONGEST_SENTENCE] if name in SHORT_PAGES else []
        found += [f"{name}: {len(it.split())} words: {it}" for it in longer]
        usual = sum(len(it.split()) for it in sentences) / len(sentences)
        found += [f"{name}: {usual:.1f} words a sentence"] if usual > USUAL_SENTENCE else []
    return found


def words_of_the_field(top):
    """Each word of the last table of docs/GLOSSARY.md is in docs/FORMS.md or docs/ARCHITECTURE.md, where the thing is explained."""
    explained = (read(top, "docs/FORMS.md") + read(top, "docs/ARCHITECTURE.md")).lower()
    rows = re.findall(r"^\| ([^|]*) \|", section(read(top, "docs/GLOSSARY.md"), "From the field's words"), re.M)
    words = [word for row in rows if row not in ("Elsewhere", "---") for word in row.split(", ")]
    return [f"no page explains {it}" for it in words if it.lower() not in explained] + ([] if len(words) > 15 else ["no words"])


def tracked(top):
    """The repository's files and folders as git knows them, or where it can't tell all that are there but what was built."""
    ran = subprocess.run(["git", "ls-files"], cwd=top, capture_output=True, text=True)
    if ran.returncode == 0 and ran.stdout:
        parts = [it.split("/") for it in ran.stdout.split("\n") if it]
        return {"/".join(it[:count]) for it in parts for count in range(1, len(it) + 1)}
    found = set()
    for folder, folders, files in os.walk(top):
        folders[:] = [it for it in folders if it not in ("out", ".git")]
        found |= {os.path.relpath(os.path.join(folder, it), top) for it in (*files, *folders)}
    return found


def named_files(top):
    """Each file and each section that a page names is there."""
    found, known = [], tracked(top)
    ends = {"/".join(it.split("/")[-count:]) for it in known for count in range(1, it.count("/") + 2)}
    for name in sorted(it for it in known if it.endswith(".md")):
        text = without_blocks(read(top, name))
        for match in NAMED_FILE.finditer(text):
            it = (match[1] or match[2]).rstrip(".")
            if it not in ends and "/out/" not in it and not it.startswith("out/"):
                found.append(f"{name}: {it} isn't there")
        sections = {re.sub(r"[^\w -]", "", it.lower()).replace(" ", "-") for it in re.findall(r"^#+ (.*)", text, re.M)}
        found += [f"{name}: #{it} isn't there" for it in re.findall(r"\]\(#([^)]*)\)", text) if it not in sections]
    return found


def section(text, title):
    """A page's section of this title, up to the next title of its level."""
    return re.search(rf"^## {re.escape(title)}$(.*?)(?=^## |\Z)", text, re.M | re.S)[1]


RECIPE_FILE = re.compile(r"`(\w+/(?:src|specs|proofs)/[\w/]+\.(?:rt|antt))`")


def code_of(top, files, found):
    """The text of files of crates; what isn't there is added to `found`."""
    there = [it for it in files if os.path.isfile(os.path.join(top, "crates", it))]
    found.extend(f"crates/{it} isn't there" for it in files if it not in there)
    return "\n".join(read(top, f"crates/{it}") for it in there)


def walks(top):
    """Of docs/ARCHITECTURE.md: each call of the walk from bytes to bytes is a function of a file beside it, and each file of a line
    of code has a word of its step."""
    page, found = read(top, "docs/ARCHITECTURE.md"), []
    for line in re.findall(r"^\| (`.*)$", section(page, "From a source byte to an object byte"), re.M):
        calls, files = line.split(" | ")[:2]
        code = code_of(top, re.findall(r"`([\w/]+\.rt)`", files), found)
        found += [f"no function of {files} is {it}" for it in re.findall(r"`(\w+)`", calls) if not re.search(rf"\bfn {it}\b", code)]
    for step in re.split(r"^[0-9]+\. ", section(page, "A line of code"), flags=re.M)[1:]:
        for file in re.findall(r"`([\w/]+\.rt)`", step):
            code = code_of(top, [file], found)
            if not any(re.search(rf"\b{it}\b", code) for it in re.findall(r"`(\w+)", step)):
                found.append(f"{file} has no word of its step")
    return found


# What is wanted and what came, and lines that the difference has to show one below the other.
MARKED = [
    (b"a\nbcd\n", b"a\nbxd\n", ["output: line 2, character 2 (- wanted, + found)", "  a", "- bcd", "+ bxd", "   ^"]),
    (b"a .. c\n..\n", b"a b d\ne\n", ["output: line 1, character 5 (- wanted, + found)", "- a .. c", "+ a b d", "      ^"]),
    (b"a ..\nb\n", b"a 1\n", ["output: line 2 (- wanted, + found)", "  a 1", "- b", "  ^"]),
    (b"a\n", b"a", ["output: line 1, character 2 (- wanted, + found)", "- a", "+ a (no line's end)", "   ^"]),
    (b"x\n" * 500 + b"a\n", b"x\n" * 500 + b"b\n", ["output: line 501, character 1 (- wanted, + found)", "  (497 lines alike)", "  x", "  x", "  x", "- a", "+ b", "  ^"]),
    (b"x" * 500 + b"a\n", b"x" * 500 + b"b\n", ["output: line 1, character 501 (- wanted, + found)", "- (447 characters) .. " + "x" * 53 + "a", "+ (447 characters) .. " + "x" * 53 + "b", " " * 75 + "^"]),
    (b"\0\1", b"\0\2", ["output: byte 1 of 2, wanted 2 (- wanted, + found)", "- 00000000  00 01", "+ 00000000  00 02", " " * 16 + "^"]),
]


def shown_differences(_top):
    """A difference begins with its place, has both lines whole or their parts round the place, and a mark below it."""
    said = [(difference("output", wanted, found).split("\n"), lines) for wanted, found, lines in MARKED]
    return [f"{have}, wanted {lines}" for have, lines in said if have != lines]


def layers(top):
    """Each crate is in one row of the layers of docs/ARCHITECTURE.md or below them, and stands on crates of its row and of later rows."""
    page, found = section(read(top, "docs/ARCHITECTURE.md"), "Layers"), []
    rows = [re.findall(r"`(\w+)`", it.split("|")[2]) for it in page.split("\n") if it.startswith("| ")]
    level = {crate: at for at, row in enumerate(rows) for crate in row}
    beside = set(re.findall(r"`(\w+)`", re.sub(r"^\|.*\n", "", page, flags=re.M)))
    for crate, below in re.findall(r"^(\w+):(.*)$", read(top, "crates.txt"), re.M):
        found += [] if crate in level or crate in beside else [f"{crate} is in no layer"]
        found += [f"{crate} stands on {it}, which is above it" for it in below.split() if level.get(it, len(rows)) < level.get(crate, 0)]
    return found + [f"crates/{it} isn't there" for it in level if not os.path.isdir(os.path.join(top, "crates", it))]


def recipes_of(top):
    """The recipes of docs/RECIPES.md by their titles."""
    parts = re.split(r"^## (.*)$", read(top, "docs/RECIPES.md"), flags=re.M)
    return dict(zip(parts[1::2], parts[2::2]))


def recipes(top):
    """The recipes name files that are there."""
    found = []
    for title, text in recipes_of(top).items():
        files = RECIPE_FILE.findall(text)
        code_of(top, files, found)
        if not files and title != "A form":
            found.append(f"a recipe without files: {title}")
    return found


# By recipe, the types of whose variants each has to be named where all are.
VARIANTS = [
    ("An instruction", "crates/uc_isa/src/instruction.rt", "Instr"),
    ("An expression", "crates/nv_ast/src/tree.rt", "Kind"),
    ("An expression", "crates/nv_ast/specs/Tree.antt", "Tree"),
    ("A column of the bank program", "crates/bank_prog_form/src/column.rt", "Column"),
    ("A command of novac", "crates/novac_words/src/command.rt", "Command"),
    ("A command of nova", "crates/nova_words/src/verb.rt", "Verb"),
    ("A warning", "crates/diag_lint/src/warning.rt", "Cause"),
]
# Crates of tests and worked examples, which show some variants and have no arm for each.
SHOWN = re.compile(r"test_|laws_commands|laws_commands")


def without_comments(text, path):
    return re.sub(r"--.*" if path.endswith(".antt") else r"//.*", "", text)


def code_files(top):
    """The files of src/ and specs/ of the crates, each with its text without comments."""
    found = {}
    for folder, _, files in os.walk(os.path.join(top, "crates")):
        path = os.path.relpath(folder, os.path.join(top, "crates"))
        if re.match(r"\w+/(src|specs)\b", path) and not SHOWN.match(path):
            names = [f"{path}/{it}" for it in files if it.endswith((".rt", ".antt"))]
            found |= {it: without_comments(read(top, f"crates/{it}"), it) for it in names}
    return found


def variants_of(top, path, name):
    """The variants of an enum, or the constructors of a type of the definitions."""
    text = read(top, path)
    if path.endswith(".antt"):
        return re.findall(r"^ +(\w+) :", re.search(rf"data {name} :.*\n((?: +\w+ :.*\n)+)", text)[1], re.M)
    return re.findall(r"^    ([A-Z]\w*)", re.search(rf"pub enum {name}\b[^{{]*{{\n(.*?)^}}", text, re.M | re.S)[1], re.M)


def kinds_in(text):
    """The kinds of type errors that a text names by number, but for the least, which other lists have too."""
    if not re.search(r"match (self\.)?kind\b", text):
        return set()
    found = set(re.findall(r"\bkind [=!]= ([0-9]+)", text))
    for arm in re.findall(r"^\s+((?:[0-9]+ \| )*[0-9]+) =>", text, re.M):
        found |= set(arm.split(" | "))
    return {it for it in found if 6 < int(it) < 25}


def complete_recipes(top):
    """A recipe names each file that has all variants of what it adds one to. In code a variant is named behind its type; in
    definitions a constructor stands by itself. Type errors have numbers: what has six of them has to be named."""
    found, texts, named = [], code_files(top), {title: set(RECIPE_FILE.findall(it)) for title, it in recipes_of(top).items()}
    for title, path, name in VARIANTS:
        wanted = variants_of(top, path, name)
        found += [] if len(wanted) > 6 else [f"{path}: {name} has {len(wanted)} variants"]
        for file, text in texts.items():
            front = rf"\b{name}::" if file.endswith(".rt") else r"\b"
            if file not in named[title] and all(re.search(rf"{front}{it}\b", text) for it in wanted):
                found.append(f"'{title}' lacks {file}")
    found += [f"'A type error' lacks {file}" for file, text in texts.items() if len(kinds_in(text)) >= 6 and file not in named["A type error"]]
    return sorted(set(found))


def captures_as_made(top):
    """The captures of tests/captures are those that its script makes."""
    wanted = dict(module(top, "tests/captures/make").files())
    folder = os.path.join(top, "tests", "captures")
    found = [f"tests/captures/{name} stands there and isn't made" for name in os.listdir(folder) if name not in wanted and "pcap" in name]
    for name, data in wanted.items():
        with open(os.path.join(folder, name), "rb") as it:
            found += [] if it.read() == data else [f"tests/captures/{name} is to be made again"]
    return found


def all_rows(top):
    rows = [("each keyword is coloured by both editors' files", highlighting), ("the editors' files are as made", as_made)]
    rows += [("VS Code's problem matcher reads each fault", problems), ("Vim's errorformat reads each fault", quickfix)]
    rows += [("the pages of `nova explain` are those of docs/FAULTS.md", pages_as_made)]
    rows += [("the texts of the page are those of page/", page_as_made)]
    rows += [("the man pages are those of docs/COMMANDS.md", man_as_made), ("completion for bash", completion), ("the options of each command are told", options_told)]
    rows += [("what has to be believed is listed in docs/PROOFS.md", believed_as_made), ("each public function has a clause or a reason", pinned_or_told)]
    rows += [("pages have short sentences, and README short lines", readable), ("the field's words are explained", words_of_the_field), ("the files that the pages name are there", named_files), ("the walks of docs/ARCHITECTURE.md", walks), ("the layers of docs/ARCHITECTURE.md", layers)]
    rows += [("the recipes of docs/RECIPES.md name files that are there", recipes), ("no recipe of docs/RECIPES.md lacks a file", complete_recipes)]
    rows += [("nothing stands twice that didn't", nothing_new_twice), ("the captures of tests/ are as made", captures_as_made)]
    rows += [("each must-fail edit has its old text once", edits.stale), ("the gate's edits are few", edits.too_many), ("tests/mutants has edits of crates that are there", edits.misplaced)]
    rows += [("a difference is shown with its place", shown_differences)]
    sources = sorted(it for it in os.listdir(os.path.join(top, "examples")) if it.endswith(".nova"))
    packets = sorted(it for it in os.listdir(os.path.join(top, "bench", "packets")) if it.endswith(".nova"))
    made = [PacketRow(it, top) for it in packets] + [MadeRow(seed, size, top) for seed, size in ((0, 2), (1, 60), (0, 500))]
    return [ToolRow(name, body, top) for name, body in rows] + [ReportRow(it, top) for it in sources] + [SameRow(it, top) for it in sources] + [PageRow("ttl.nova", top), PageRow("trie.nova", top), ReplayRow(top)] + made + [CrowdedRow(top), FormatRow(top), SizesRow(top), SumRow(top)] + [SearchRow(it, top) for it in SEARCHES]
