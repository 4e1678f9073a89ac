"""Rows: files, command lines, and what they have to print, give and save. tests/README.md says how they are written."""
import os
import re
import shlex
import subprocess

from difference import difference, is_like

# How long a call may take. On a busy machine a call of ten processor seconds took over a hundred.
SECONDS = 600
ABSENT, ANY = object(), object()


class BadRow(Exception):
    """A row file that isn't of the form."""


def unescaped(text):
    """The bytes of a text in which \\n, \\r, \\t, \\\\ and \\xNN stand for bytes."""
    known = {"n": b"\n", "r": b"\r", "t": b"\t", "\\": b"\\"}
    parts = re.split(r"\\(x[0-9a-f]{2}|.)", text)
    for at in range(1, len(parts), 2):
        name = parts[at]
        if name not in known and len(name) != 3:
            raise BadRow(f"\\{name} stands for no byte")
    return b"".join(
        (known.get(it) or bytes([int(it[1:], 16)])) if at % 2 else it.encode() for at, it in enumerate(parts)
    )


def value(text, top):
    """The bytes that one line gives a file."""
    kind, _, rest = text.partition(" ")
    if kind == "%hex":
        return bytes.fromhex(rest)
    if kind == "%repeat":
        times, _, part = rest.partition(" ")
        return unescaped(part) * int(times)
    if text == "%empty":
        return b""
    if kind in ("%absent", "%any"):
        return ABSENT if kind == "%absent" else ANY
    if text.startswith("@"):
        with open(os.path.join(top, text[1:]), "rb") as it:
            return it.read()
    return unescaped(text)


# Programs beside novac that a call may name as its first word, and where those are that are built.
NAMED = ("nova", "zo_bench")
BESIDE = {}


def program_of(words):
    """The program that a call runs."""
    return words[0] if words and words[0] in NAMED else "novac"


def command(novac, words):
    """The command line of a call's words."""
    name = program_of(words)
    return [novac, *words] if name == "novac" else [BESIDE.get(name, name), *words[1:]]


class Call:
    """One run of the program and what has to come of it."""

    def __init__(self, words, status=None, output=b"", saved=None, errors=b"", line=None):
        self.line = line
        self.given = words[-1] if words[-2:-1] == ["<"] else None
        self.words = words[:-2] if self.given else words
        self.status, self.output, self.saved, self.errors = status, output, saved or {}, errors


class Row:
    """Files, and calls one after the other in a new folder that holds them."""

    def __init__(self, where, name, line=None):
        self.where, self.name, self.line, self.files, self.calls = where, name, line, {}, []

    @property
    def wants(self):
        """The programs without which the row can't be tried."""
        return {program_of(it.words) for it in self.calls}

    def differences(self, novac, folder):
        wanted = {name: data for name, data in self.files.items() if data is not ABSENT}
        for name, data in wanted.items():
            with open(os.path.join(folder, name), "wb") as it:
                it.write(data)
        for call in self.calls:
            found = self.of_call(call, novac, folder, wanted)
            if found:
                words = call.words if program_of(call.words) != "novac" else ["novac", *call.words]
                return [f"$ {shlex.join(words)}" + (f" (line {call.line})" if call.line else ""), *found]
        return []

    def of_call(self, call, novac, folder, wanted):
        with open(os.path.join(folder, call.given) if call.given else os.devnull, "rb") as given:
            ran = subprocess.run(command(novac, call.words), cwd=folder, stdin=given, capture_output=True, timeout=SECONDS)
        found = []
        if ran.returncode != call.status:
            found.append(f"status {ran.returncode}, wanted {call.status}")
        if call.output is not ANY and not is_like(call.output, ran.stdout):
            found.append(difference("output", call.output, ran.stdout))
        if call.errors is not ANY and not is_like(call.errors, ran.stderr):
            found.append(difference("standard error", call.errors, ran.stderr))
        for name, data in call.saved.items():
            if data is ANY:
                data = contents(folder).get(name, ABSENT)
                if data is ABSENT:
                    found.append(f"{name} isn't there")
            if data is ABSENT:
                wanted.pop(name, None)
            else:
                wanted[name] = data
        have = contents(folder)
        for name in sorted({*wanted, *have}):
            one, other = have.get(name, ABSENT), wanted.get(name, ABSENT)
            if one is ABSENT or other is ABSENT:
                found += [] if one is other else [f"file {name}: it {'is' if other is ABSENT else 'is not'} there"]
            elif one != other:
                found.append(difference(f"file {name}", other, one, is_exact=True))
        return found


def contents(folder):
    """The bytes of each file of a folder."""
    found = {}
    for name in os.listdir(folder):
        with open(os.path.join(folder, name), "rb") as it:
            found[name] = it.read()
    return found


class Reader:
    """Reads the rows of one text."""

    def __init__(self, where, top, text):
        self.where, self.top, self.at = where, top, 0
        self.lines = text.split("\n")
        self.head = Row(where, "")

    def refuse(self, why):
        raise BadRow(f"{self.where}, line {self.at}: {why}")

    def take(self):
        self.at += 1
        return self.lines[self.at - 1]

    def block(self):
        """The lines that begin with '| ' from here on, each with its end; a last one with '\\ ' has none."""
        data = b""
        while self.at < len(self.lines) and re.match(r"\|( |$)|\\ ", self.lines[self.at]):
            line = self.take()
            data += unescaped(line[2:]) + (b"\n" if line[0] == "|" else b"")
            if line[0] == "\\":
                break
        return data

    def errors(self, line):
        """The line of the standard error, and those after it, which begin with '! ' too."""
        data = unescaped(line[2:]) + b"\n"
        while self.at < len(self.lines) and re.match(r"!( |$)", self.lines[self.at]):
            data += unescaped(self.take()[2:]) + b"\n"
        return data

    def given(self, text):
        """What behind a name and its colon gives the file's bytes."""
        return value(text.strip(" ") if text[:2] in (" %", " @") else text[1:], self.top) if text else self.block()

    def answer(self, row, status, rest):
        if not row.calls and not self.head.calls:
            self.refuse("a status without a call")
        if not row.calls:
            row.calls.append(Call(self.head.calls[0].words, line=self.at))
        call = row.calls[-1]
        call.status = int(status)
        call.output = ANY if rest == ".." else ((unescaped(rest) + b"\n" if rest else b"") + self.block())

    def line(self, row, line):
        match = re.match(r"(saved )?('[^']*'|[^ ':]+):(.*)", line)
        status = re.match(r"([0-9]+)(?: (.*))?$", line)
        if line.startswith("$ "):
            row.calls.append(Call(shlex.split(line[2:]), line=self.at))
        elif line == "$":
            row.calls.append(Call([], line=self.at))
        elif status:
            self.answer(row, status[1], status[2] or "")
        elif re.match(r"!( |$)", line):
            row.calls[-1].errors = self.errors(line)
        elif match:
            files = row.calls[-1].saved if match[1] else row.files
            files[match[2].strip("'")] = self.given(match[3])
        else:
            self.refuse("no line of a row")

    def rows(self):
        found = []
        row = self.head
        while self.at < len(self.lines):
            line = self.take()
            if line.startswith("== "):
                row = Row(self.where, line[3:], self.at)
                row.files = dict(self.head.files)
                found.append(row)
            elif line and not line.startswith("#"):
                self.line(row, line)
        for row in found:
            if not row.calls or any(it.status is None for it in row.calls):
                self.refuse(f"a call without its status: {row.name}")
        return found


def all_rows(top):
    """The rows of tests/*.txt, and those of tests/made/, which were made at random."""
    found = []
    for folder in ("tests", "tests/made"):
        for name in sorted(it for it in os.listdir(os.path.join(top, folder)) if it.endswith(".txt")):
            with open(os.path.join(top, folder, name), encoding="utf-8", newline="\n") as it:
                found += Reader(f"{folder}/{name}", top, it.read()).rows()
    return found
