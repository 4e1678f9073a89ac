"""Rows on `nova lsp`: sessions with an editor, from lsp/sessions.txt. tests/README.md says how they are written."""
import json
import os
import re
import subprocess

from rows import BESIDE

URI = "file:///s.nova"
# How long a session may take.
SECONDS = 120


def frame(content):
    """A content as it is sent."""
    return b"Content-Length: %d\r\n\r\n" % len(content) + content


def contents(sent):
    """The contents of frames; what is no frame raises an error."""
    found = []
    while sent:
        head = re.match(rb"Content-Length: ([0-9]+)\r\n\r\n", sent)
        if not head or len(sent) < head.end() + int(head[1]):
            raise ValueError(f"no frame: {sent[:80]!r}")
        found.append(json.loads(sent[head.end() : head.end() + int(head[1])]))
        sent = sent[head.end() + int(head[1]) :]
    return found


def fits(have, wanted):
    """Whether a value is as wanted: `".."` is any value, and a text that ends in ` ..` goes on freely."""
    if wanted == "..":
        return True
    if isinstance(wanted, str) and wanted.endswith(" .."):
        return isinstance(have, str) and have.startswith(wanted[:-3])
    if isinstance(wanted, dict) and isinstance(have, dict):
        return have.keys() == wanted.keys() and all(fits(have[it], wanted[it]) for it in wanted)
    if isinstance(wanted, list) and isinstance(have, list):
        return len(have) == len(wanted) and all(map(fits, have, wanted))
    return have == wanted


def place(text):
    """A position from LINE:CHARACTER, both counted from 0."""
    line, character = text.split(":")
    return {"line": int(line), "character": int(character)}


def span(text):
    """A range from LINE:CHARACTER-LINE:CHARACTER."""
    first, after = text.split("-")
    return {"start": place(first), "end": place(after)}


class Session:
    """One session: what is sent, and what has to be answered."""

    wants = ("nova",)

    def __init__(self, where, line, name):
        self.where, self.line, self.name = where, line, name
        self.sent, self.wanted, self.status, self.number, self.texts = [], [], 0, 0, {}

    def message(self, **parts):
        self.sent.append(frame(json.dumps({"jsonrpc": "2.0", **parts}).encode()))

    def tell(self, method, params):
        self.message(method=method, params={"textDocument": {"uri": URI}, **params})

    def ask(self, method, params):
        self.number += 1
        self.message(id=self.number, method=method, params={"textDocument": {"uri": URI}, **params})

    def call(self, words):
        """Adds a line `$ ..`."""
        verb, rest = words[0], words[1:]
        if verb == "start":
            self.ask("initialize", {"capabilities": {"general": {"positionEncodings": rest}}})
            self.wanted.append({"jsonrpc": "2.0", "id": self.number, "result": ".."})
        elif verb == "open":
            self.tell("textDocument/didOpen", {"textDocument": {"uri": URI, "version": 1, "text": self.texts[rest[0]]}})
        elif verb == "change":
            changes = [{"text": self.texts[rest[0]]}] if len(rest) == 1 else [{"range": span(rest[0]), "text": json.loads(" ".join(rest[1:]))}]
            self.tell("textDocument/didChange", {"textDocument": {"uri": URI, "version": 2}, "contentChanges": changes})
        elif verb == "close":
            self.tell("textDocument/didClose", {})
        elif verb == "end":
            self.ask("shutdown", {})
            self.wanted.append({"jsonrpc": "2.0", "id": self.number, "result": None})
            self.message(method="exit")
        elif verb == "send":
            self.sent.append(frame(" ".join(rest).encode()))
        elif verb == "bytes":
            self.sent.append(" ".join(rest).encode().decode("unicode_escape").encode("latin-1"))
        else:
            at = {"position": place(rest[0])} if rest and re.fullmatch("[0-9]+:[0-9]+", rest[0]) else {}
            more = json.loads(" ".join(rest[len(at) :]) or "{}")
            self.ask(verb if "/" in verb or verb == "shutdown" else f"textDocument/{verb}", {**at, **more})

    def answer(self, kind, text):
        """Adds a line `< ..`, the result of the last request, `! ..`, its error, `* ..`, the diagnostics, or `= ..`, a whole content."""
        value = json.loads(text)
        if kind == "<":
            self.wanted.append({"jsonrpc": "2.0", "id": self.number, "result": value})
        elif kind == "!":
            self.wanted.append({"jsonrpc": "2.0", "id": self.number, "error": {"code": value, "message": ".."}})
        elif kind == "*":
            params = {"uri": URI, "version": "..", "diagnostics": value if value == ".." else [self.diagnostic(*it) for it in value]}
            self.wanted.append({"jsonrpc": "2.0", "method": "textDocument/publishDiagnostics", "params": params})
        else:
            self.wanted.append(value)

    @staticmethod
    def diagnostic(at, severity, message, code=None):
        it = {"range": span(at), "severity": severity, "source": "nova", "message": message}
        return {**it, "code": code} if code else it

    def differences(self, novac, at):
        ran = subprocess.run([BESIDE["nova"], "lsp"], cwd=at, input=b"".join(self.sent), capture_output=True, timeout=SECONDS)
        have, found = contents(ran.stdout), []
        for n in range(max(len(have), len(self.wanted))):
            one, other = (it[n] if n < len(it) else None for it in (have, self.wanted))
            if not fits(one, other):
                found.append(f"message {n + 1}: {json.dumps(one)}\n wanted {json.dumps(other)}")
        if ran.returncode != self.status or ran.stderr or os.listdir(at):
            found.append(f"status {ran.returncode}, wanted {self.status}; {ran.stderr.decode()!r}, files {os.listdir(at)}")
        return found


def all_rows(top):
    found, name = [], "tests/lsp/sessions.txt"
    with open(os.path.join(top, name), encoding="utf-8") as it:
        lines = it.read().split("\n")
    for number, line in enumerate(lines, 1):
        kind, _, rest = line.partition(" ")
        if kind == "==":
            found.append(Session(name, number, rest))
        elif kind == "$":
            found[-1].call(rest.split(" "))
        elif kind in ("<", "!", "*", "="):
            found[-1].answer(kind, rest)
        elif kind == "status":
            found[-1].status = int(rest)
        elif kind == "|":
            found[-1].texts[text] += rest + "\n"
        elif kind.endswith(":"):
            text = kind[:-1]
            found[-1].texts[text] = ""
    return found
