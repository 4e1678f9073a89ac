"""The rows that stand in the repository's documents: the examples, and the sources, texts and command lines of README and docs/."""
import os
import re

from rows import ANY, Call, Reader, Row


def read(top, name):
    with open(os.path.join(top, name), encoding="utf-8") as it:
        return it.read()


def cells(line):
    """The cells of a table's line, without the marks of code."""
    return [it.strip().strip("`").replace("\\|", "|") for it in re.split(r"(?<!\\)\|", line.strip().strip("|"))]


def blocks(text):
    """The blocks of code of a document, each with the number of its first line and its language."""
    found, inside, first, kind = [], None, 0, ""
    for number, line in enumerate(text.split("\n"), 1):
        if line.startswith("```"):
            if inside is None:
                inside, first, kind = [], number + 1, line[3:].strip()
            else:
                found.append((first, kind, "".join(it + "\n" for it in inside)))
                inside = None
        elif inside is not None:
            inside.append(line)
    return found


def named(source, output):
    """What `run` prints of a source's code where `exec` prints this: it names a raised exception, with the line of its declaration."""
    raised = re.match(r"raised ([0-9]+)[^\n]*\n", output)
    if not raised:
        return output
    plain = re.sub(r"//[^\n]*", lambda it: " " * len(it[0]), source)
    declared = list(re.finditer(r"\bexception\s+([A-Za-z_][A-Za-z0-9_]*)", plain))[int(raised[1]) - 1]
    line = plain.count("\n", 0, declared.start()) + 1
    return f"{raised[0]}exception {declared[1]} line {line}\n{output[raised.end():]}"


def executed(where, name, source, memory, calls, status, output):
    row = Row(where, name)
    row.files = {"s.nova": source.encode(), "s.mem": memory.encode()}
    row.calls = [Call(["exec", "s.nova", "s.mem", f"steps={calls}"], status, output.encode())]
    if status != STATUSES["going"]:
        row.calls.append(Call(["compile", "s.nova", "s.obj", "s.rep", "store=1048576"], 0, ANY, {"s.obj": ANY, "s.rep": ANY}))
        row.calls.append(Call(["run", "s.obj", "s.mem", "steps=10000000"], status, named(source, output).encode()))
    return row


PLAIN = "memory 4 2\nargs\n"
STATUSES = {"ended": 0, "raised": 14, "fault": 15, "going": 16}
REFUSALS = {"syntax": 6, "type": 7, "too": 8, "infeasible": 9, "budget": 10, "store": 11}
SAVED = {0: {"s.obj": ANY, "s.rep": ANY}, 9: {"s.rep": ANY}, 10: {"s.rep": ANY}}


def status_of(outcome):
    return STATUSES[outcome.split()[0]]


def examples(top):
    """Each example prints what stands beside it: a source by `exec` and when it is compiled and run, an assembly text when it is
    assembled and run, or its contexts by a schedule; a report by `check`."""
    found = []
    for file in sorted(os.listdir(os.path.join(top, "examples"))):
        name, kind = os.path.splitext(file)
        if kind not in (".nova", ".asm", ".report"):
            continue
        text, output = read(top, f"examples/{file}"), read(top, f"examples/{name}.out")
        memory = "" if kind == ".report" else read(top, f"examples/{name}.mem")
        if kind == ".nova":
            found.append(executed(f"examples/{file}", file, text, memory, 1000, status_of(output), output))
            continue
        row = Row(f"examples/{file}", file)
        row.files = {"t": text.encode(), "m": memory.encode()}
        row.calls = [Call(["check", "t"], 0, output.encode())]
        if kind == ".asm":
            run, turns = ["run", "o", "m", "steps=1000"], os.path.join(top, f"examples/{name}.turns")
            if os.path.exists(turns):
                row.files["s"] = read(top, f"examples/{name}.turns").encode()
                run = ["contexts", "o", "m", "s"]
            status = status_of(re.sub("^context 0\n", "", output))
            row.calls = [Call(["asm", "t", "o"], 0, ANY, {"o": ANY}), Call(run, status, output.encode())]
        found.append(row)
    return found


def handwritten(top):
    """The microcode by hand for the examples is lawful, and comes to the example's outcome."""
    found = []
    for file in sorted(os.listdir(os.path.join(top, "bench/handwritten"))):
        name, kind = os.path.splitext(file)
        if kind != ".asm":
            continue
        text, output = read(top, f"bench/handwritten/{file}"), read(top, f"examples/{name}.out")
        length = sum(not it.endswith(":") for it in text.split("\n")[1:-1])
        row = Row(f"bench/handwritten/{file}", file)
        row.files = {"t": text.encode(), "m": read(top, f"examples/{name}.mem").encode()}
        row.calls = [Call(["asm", "t", "o"], 0, f"assembled {length}\n".encode(), {"o": ANY}), Call(["lint", "o"], 0, f"lawful {length}\n".encode())]
        row.calls.append(Call(["run", "o", "m", "steps=1000"], status_of(output), output.encode()))
        found.append(row)
    return found


def compiled(where, source, status, output):
    row = Row(where, source or "the empty text")
    row.files = {"s.nova": source.encode()}
    row.calls = [Call(["compile", "s.nova", "s.obj", "s.rep"], status, output, SAVED.get(status, {}))]
    return row


def explained(row, answer):
    """The row with a call of `nova check`, whose output has to begin with a place, which tests/mistakes.txt and tests/explain.txt pin, or
    to give the size, or to say that the program has no fault."""
    if " at " in answer:
        front = ".. error: .."
    elif answer.startswith("too large"):
        front = f".. error: the expanded size is {answer.split()[-1]}, .."
    else:
        front = "s.nova: a program without a fault"
    words, text = ["nova", "check", "--verbose", "s.nova"], f"{front}\n..\n".encode()
    refused = "error" in front
    row.calls.append(Call(words, 1, b"", errors=text) if refused else Call(words, 0, text, errors=ANY))
    return row


def language(top):
    """docs/LANGUAGE.md: each source in a line of a table, with what stands behind it: an outcome by `exec`, a fault of types, a
    fault of the text such as `Char(21)`, or a status with a colon, semicolon or comma."""
    found = worked(top, "docs/LANGUAGE.md")
    for number, line in enumerate(read(top, "docs/LANGUAGE.md").split("\n"), 1):
        parts, where = cells(line), f"docs/LANGUAGE.md:{number}"
        if not line.startswith("|") or len(parts) < 2:
            continue
        fault = re.fullmatch(r"(Char|Number|Name|Syntax|Deep)\(([0-9]+)\)", parts[1])
        status = re.match(r"([0-9]+)[:;,](?: `([^`]*)`:)?", parts[1])
        if len(parts) == 4 and parts[3].split(" ")[0] in STATUSES:
            output = parts[3] + "\n..\n"
            found.append(executed(where, parts[0], parts[2], PLAIN, 100, status_of(parts[3]), output))
        elif len(parts) == 4 and re.fullmatch(r"type [0-9]+ at [0-9]+ [0-9]+", parts[3]):
            source = "" if parts[2] == "the empty text" else parts[2]
            found.append(compiled(where, source, 7, parts[3].encode() + b"\n"))
        elif fault and parts[0].startswith("fun ") and ".." not in parts[0]:
            found.append(compiled(where, parts[0], 6, f"syntax {fault[1].lower()} at {fault[2]}\n".encode()))
        elif len(parts) == 2 and status and parts[0].startswith("fun "):
            found.append(compiled(where, parts[0], int(status[1]), status[2].encode() + b"\n" if status[2] else ANY))
    return found


def idioms(top):
    return worked(top, "docs/IDIOMS.md")


def weights(top):
    return worked(top, "docs/WEIGHTS.md")


def machine(top):
    """docs/MACHINE.md: each assembly text is assembled, and a listing is itself; a memory text and an outcome text that
    follow it are what the code runs on and prints."""
    found, row = [], None
    document = read(top, "docs/MACHINE.md")
    for first, kind, text in blocks(document):
        where = f"docs/MACHINE.md:{first}"
        if kind == "row":
            found += Reader(where, top, f"== {where}\n{text}").rows()
        elif re.match(r"params [0-8]\n[^.]*$", text):
            row = Row(where, "an assembly text")
            row.files = {"t": text.encode(), "m": b"memory 0 0\nargs\n"}
            length = sum(not it.endswith(":") for it in text.split("\n")[1:-1])
            row.calls = [Call(["asm", "t", "o"], 0, f"assembled {length}\n".encode(), {"o": ANY}), Call(["lint", "o"], 0, f"lawful {length}\n".encode())]
            if length == text.count("\n") - 1:
                row.calls.append(Call(["dis", "o"], 0, text.encode()))
            found.append(row)
        elif re.match(r"memory [0-9][^.]*$", text) and row:
            row.files["m"] = text.encode()
        elif re.match(r"(ended|raised|fault|going)\b[^.]*$", text) and row:
            arguments = re.search(r"`(memory [0-9]+ [0-9]+)`, `(args[ 0-9a-f]*)` prints\n\n```\n" + re.escape(text), document)
            if arguments:
                row.files["m"] = "{}\n{}\n".format(*arguments.groups()).encode()
            row.calls.append(Call(["run", "o", "m", "steps=1000"], status_of(text), text.encode()))
    return found


# The line of the worked report on which a text that begins with this word stands.
REPORT_LINES = {"novareport": 1, "slots": 2, "budget": 3, "columns": 4, "r": 9, "verdict": 12, "x": 13, "tree": 14, "d": 15, "b": 15}


def changed(report, texts):
    """The report with these lines in place of its own."""
    lines = report.split("\n")
    for text in texts:
        lines[REPORT_LINES[text.split(" ")[0]] - 1] = text
    return "\n".join(lines).encode()


def changes(line):
    """What a line of the table of changes has: the lines of each change, and what `check` says then."""
    answer = re.match(r"\| (.*) \| `Bad\(([0-9]+)\)`.*\|$", line)
    refused = re.match(r"\| (.*) \| read, and not true.*\|$", line)
    texts = re.findall(r"`([^`]*)`", (answer or refused)[1]) if answer or refused else []
    if refused:
        return [(texts, "report refused\n")]
    if not answer or "line feed" in answer[1]:
        return []
    said = f"report line {answer[2]}\n"
    return [([texts[0], it], said) for it in texts[1:]] if " with " in answer[1] else [([it], said) for it in texts]


def certificates(top):
    """docs/CERTIFICATES.md: each report is true, and its verdict is printed; the table of changes names the faulty lines; and the
    command lines print what is said behind them."""
    found, report = [], ""
    document = read(top, "docs/CERTIFICATES.md")
    lines = document.split("\n")
    for first, kind, text in blocks(document):
        where = f"docs/CERTIFICATES.md:{first}"
        if text.startswith("novareport 1\nslots "):
            report = text
            verdict = re.search(r"\nverdict (.*)\n", text)[1]
            row = Row(where, f"a report, {verdict}")
            row.files = {"r": text.encode()}
            row.calls = [Call(["check", "r"], 0, f"{verdict}\n".encode())]
            found.append(row)
        elif kind == "sh":
            row = Row(where, "command lines")
            said = re.findall(r"`([^`]*)`", next(it for it in lines[first + text.count("\n") :] if it))
            for words, answer in zip(re.findall(r"out/novac (.*)", text), said):
                add_call(row, top, words.split(), f"{answer}\n".encode())
            found.append(row)
    for number, line in enumerate(lines, 1):
        for texts, answer in changes(line):
            row = Row(f"docs/CERTIFICATES.md:{number}", f"the report with {' and '.join(texts)}")
            row.files = {"r": changed(report, texts)}
            row.calls = [Call(["check", "r"], 17, answer.encode())]
            found.append(row)
    return found


def worked(top, name):
    """The blocks of a document: the answer of one of kind `nova` is what stands in backticks at the beginning of the next
    line, a refusal by `compile` or the first line of an outcome by `exec`, which runs on the last block of kind `memory`,
    or on PLAIN. A block of kind `outcome` is the whole outcome of the one before. A block of kind `row` is a row."""
    found, memory = [], PLAIN
    document = read(top, name)
    lines = document.split("\n")
    for first, kind, text in blocks(document):
        where = f"{name}:{first}"
        behind = [it for it in lines[first + text.count("\n") :] if it]
        answer = re.match(r"`([^`]*)`", behind[0]) if behind else None
        word = answer[1].split(" ")[0] if answer else ""
        if kind == "memory":
            memory = text
        elif kind == "outcome":
            found[-1].calls[-1].output = named(found[-1].files["s.nova"].decode(), text).encode()
        elif kind == "row":
            found += Reader(where, top, f"== {where}\n{text}").rows()
        elif kind == "nova" and word in STATUSES:
            found.append(executed(where, answer[1], text, memory, 100, status_of(word), answer[1] + "\n..\n"))
        elif kind == "nova":
            row = compiled(where, text, REFUSALS[word], answer[1].encode() + b"\n")
            found.append(explained(row, answer[1]))
    return found


def faults(top):
    return worked(top, "docs/FAULTS.md")


def add_call(row, base, words, output):
    """A call that ends with 0, of the words of a command line. Its files are those below the folder `base`, and those that the
    row has; all others are made."""
    names = {it: os.path.basename(it) for it in words[1:] if "=" not in it}
    made = {it for call in row.calls for it in call.saved}
    row.files |= {short: read(base, it).encode() for it, short in names.items() if os.path.isfile(os.path.join(base, it))}
    saved = {it: ANY for it in names.values() if it not in row.files and it not in made}
    row.calls.append(Call([words[0], *(names.get(it, it) for it in words[1:])], 0, output, saved))


def add_nova_call(row, base, words, output):
    """The same of the program nova, whose first word isn't among these; its options are no files."""
    files = [it for it in words[1:] if not it.startswith("-")]
    add_call(row, base, [words[0], *files], output)
    names = {it: os.path.basename(it) for it in files}
    row.calls[-1].words = ["nova", words[0], *(names.get(it, it) for it in words[1:])]
    row.calls[-1].errors = ANY


# Pages whose command lines are called.
CALLED = ("README.md", "docs/COMMANDS.md")


def command_lines(top):
    """Each block of kind `sh` of these pages is a row: its lines that call the program, built or by `rt`, one after the other; a block
    of kind `outcome` is the whole output of the last one."""
    found = []
    for name in CALLED:
        for first, kind, text in blocks(read(top, name)):
            if kind == "outcome":
                found[-1].calls[-1].output = text.encode()
            row = Row(f"{name}:{first}", "command lines")
            for line in text.split("\n") if kind == "sh" else []:
                call = re.search(r"(?:out/(novac|nova)|cd crates/(novac|nova) && rt (?:run|try) --) ([^)]*)", line)
                if call:
                    # `rt` runs in the folder of the program's crate.
                    base = os.path.join(top, "crates", call[2]) if call[2] else top
                    add = add_nova_call if "nova" in (call[1], call[2]) else add_call
                    add(row, base, [it.removeprefix("$PWD/") for it in call[3].split()], ANY)
            found += [row] if row.calls else []
    return found


# Pages with sessions: what is typed, and what is printed then.
SESSIONS = ("README.md", "docs/TOUR.md", "docs/MEMORY.md")


def slipped(source, printed):
    """The source with the line that an error shows in place of its own."""
    place, shown = re.match(r"[^:]*:([0-9]+):[0-9]+: error: .*\n    (.*)\n", printed).groups()
    lines = source.split("\n")
    lines[int(place) - 1] = shown
    return "\n".join(lines)


def add_session(row, top, source, memory, text):
    """The calls of one block: `$ nova ..`, and below it all that is printed. A source that isn't there yet is the page's last one,
    with the line that an error shows; a memory text is the page's last one, or an example's."""
    for part in re.split(r"^\$ ", text, flags=re.M)[1:]:
        line, _, printed = part.partition("\n")
        words = line.split()
        refused = re.match(r"[^\n]*: error: ", printed) is not None
        for it in words[2:]:
            if it.endswith(".nova") and it not in row.files:
                row.files[it] = (slipped(source, printed) if refused else source).encode()
            elif it.endswith(".mem") and it not in row.files:
                row.files[it] = (memory or read(top, f"examples/{it}")).encode()
        saved = {it: ANY for it in re.findall(r"^(\S+\.(?:obj|html)): ", printed, re.M)}
        status = 1 if refused or re.match("raised|fault|going", printed) else 0
        row.calls.append(Call(words, status, b"" if refused else printed.encode(), saved, printed.encode() if refused else ANY))


def sessions(top):
    """Each block of kind `console` of these pages goes on where the one before ended, up to the next source."""
    found = []
    for name in SESSIONS:
        row, source, memory = None, "", ""
        for first, kind, text in blocks(read(top, name)):
            if kind == "nova":
                row, source = None, text
            elif kind == "memory":
                memory = text
            elif kind == "console":
                if not row:
                    row = Row(f"{name}:{first}", "what is typed and printed")
                    found.append(row)
                add_session(row, top, source, memory, text)
    return found


def all_rows(top):
    return [row for of in (examples, handwritten, language, idioms, weights, machine, certificates, faults, command_lines, sessions) for row in of(top)]
