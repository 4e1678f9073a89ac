"""The must-fail edits: those that the gate tries, crates/CRATE/must-fail/NAME.edit, and those beside it, tests/mutants/CRATE/NAME.edit."""
import os
import re

# How many edits the gate tries at most: each costs a check of its crate.
MOST = 110
# The name of an edit's file, as the gate wants it.
NAME = re.compile(r"[A-Za-z0-9_-][A-Za-z0-9_.-]*\.edit")
# What stands in tests/mutants beside the folders of edits.
BESIDE = ("README.md", "RESULT.md", "run")


def read(path):
    with open(path, encoding="utf-8") as it:
        return it.read()


def crates_of(top):
    """The crates that crates.txt names."""
    lines = (it.split("#")[0] for it in read(os.path.join(top, "crates.txt")).split("\n"))
    return [it.split(":")[0].split()[0] for it in lines if ":" in it]


def names_in(folder):
    return sorted(os.listdir(folder)) if os.path.isdir(folder) else []


def of_gate(top):
    """Each edit that the gate tries: its crate and its file."""
    folders = [(crate, os.path.join(top, "crates", crate, "must-fail")) for crate in crates_of(top)]
    return [(crate, os.path.join(folder, it)) for crate, folder in folders for it in names_in(folder) if it.endswith(".edit")]


def of_mutants(top):
    """Each edit beside the gate: the name of its folder and its file."""
    base = os.path.join(top, "tests", "mutants")
    folders = [(it, os.path.join(base, it)) for it in names_in(base) if os.path.isdir(os.path.join(base, it))]
    return [(crate, os.path.join(folder, it)) for crate, folder in folders for it in names_in(folder)]


def pairs_of(text):
    """The pairs of an edit, in turn: the file, the old text and the new one."""
    path = old = ""
    for line in text.split("\n"):
        word, _, rest = line.partition(":")
        rest = rest.removeprefix(" ")
        if word == "file":
            path = rest.strip()
        elif word == "old":
            old = rest
        elif word == "new":
            yield path, old, rest


def faults_of(edit, folder):
    """Why an edit can't be applied to the crate in a folder. A further pair is applied to what the earlier ones made."""
    texts, was, found = {}, {}, []
    for path, old, new in pairs_of(read(edit)):
        file = os.path.join(folder, path)
        if path.split("/")[0] not in ("src", "specs", "proofs") or not os.path.isfile(file):
            found.append(f"no file of the crate is {path!r}")
        elif not old:
            found.append("a `new:` without an `old:`")
        else:
            was.setdefault(path, read(file))
            text = texts.setdefault(path, was[path])
            if text.count(old) != 1:
                found.append(f"{path} has this text {text.count(old)} times: {old}")
            texts[path] = text.replace(old, new)
    return found or ([] if texts != was else ["it changes nothing"])


def stale(top):
    """The edits, in the gate and beside it, that can't be applied, each with the reason."""
    tried = [(crate, it) for crate, it in of_gate(top) + of_mutants(top) if crate in crates_of(top) and it.endswith(".edit")]
    return [f"{os.path.relpath(it, top)}: {why}" for crate, it in tried for why in faults_of(it, os.path.join(top, "crates", crate))]


def too_many(top):
    """Says so where the gate has more than MOST edits."""
    count = len(of_gate(top))
    return [] if count <= MOST else [f"the gate has {count} edits, of at most {MOST}: move those that say least to tests/mutants/CRATE/"]


def misplaced(top):
    """What stands in tests/mutants and is no edit of a crate that is there, and each edit whose name the gate has too."""
    crates, base = crates_of(top), os.path.join(top, "tests", "mutants")
    found = [f"tests/mutants/{it} is no folder of edits" for it in names_in(base) if not os.path.isdir(os.path.join(base, it)) and it not in BESIDE]
    in_gate = {(crate, os.path.basename(it)) for crate, it in of_gate(top)}
    for crate, edit in of_mutants(top):
        where = os.path.relpath(edit, top)
        found += [] if crate in crates else [f"{where}: no crate is {crate}"]
        found += [] if NAME.fullmatch(os.path.basename(edit)) else [f"{where}: an edit is a file NAME.edit"]
        found += [f"{where}: the gate has an edit of this name"] if (crate, os.path.basename(edit)) in in_gate else []
    return found
