#!/usr/bin/env python3
"""The pages that `nova explain type 14` and the like print, made from docs/FAULTS.md: `tests/pages.py` writes them
into crates/nova_show again, and the rows of tests/tools.py show whether they are as made."""
import math
import os
import re

TOP = os.path.dirname(os.path.dirname(os.path.realpath(__file__)))
PAGE = '            Page {{\n                name: "{}",\n                text: r#"{}"#,\n            }},\n'
# How many pages a function has: a function with many is dear to prove.
MOST = 8
# Each file's word, what its pages are of, and the chapters that have them.
FILES = {
    "type": ("the kinds of type faults", ["Types"]),
    "source": ("the text faults, the sizes, the store, the banks and the warnings", ["Text", "Sizes", "Store", "Banks", "Warnings"]),
    "input": ("the texts that aren't sources", ["Other texts"]),
    "status": ("the other statuses", ["Statuses"]),
}
HEAD = """//! Pages of docs/FAULTS.md, written by tests/pages.py.

use crate::pages::{{Page, page_among}};

/// The page of this name among those of {0}.
pub fn {1}_page(name: &[u8]) -> Option<&'static str> {{
    {1}_page_0(name){2}
}}
"""
PART = """
fn {}_page_{}(name: &[u8]) -> Option<&'static str> {{
    page_among(
        &[
{}        ],
        name,
    )
}}
"""


def sections(document):
    """The chapter, the heading and the text of each section of the third level."""
    for chapter in re.split(r"^## ", document, flags=re.M)[1:]:
        title, _, text = chapter.partition("\n")
        for part in re.split(r"^### ", text, flags=re.M)[1:]:
            heading, _, body = part.partition("\n")
            yield title, heading, body.strip("\n")


def plain(text):
    """A section's text for a terminal: blocks of code are moved to the right, and their marks are left out."""
    lines, inside = [], False
    for line in text.split("\n"):
        if line.startswith("```"):
            inside = not inside
        elif inside:
            lines.append(f"    {line}".rstrip())
        else:
            lines.append(line)
    return re.sub(r"\n\n+", "\n\n", "\n".join(lines))


def pages(document, chapters):
    """The name and the text of each page of some chapters. A section whose heading has several names is the page of each."""
    for title, heading, text in sections(document):
        if title in chapters:
            for name in heading.split(":")[0].split(", "):
                yield name, f"{heading}\n\n{plain(text)}\n"


def files(top=TOP):
    """The text of each file that is made."""
    with open(os.path.join(top, "docs", "FAULTS.md"), encoding="utf-8") as it:
        document = it.read()
    return {f"{word}_pages.rt": made(what, word, list(pages(document, chapters))) for word, (what, chapters) in FILES.items()}


def made(what, word, found):
    size = math.ceil(len(found) / math.ceil(len(found) / MOST))
    parts = [found[at : at + size] for at in range(0, len(found), size)]
    gap = "" if len(parts) < 3 else "\n        "
    further = "".join(f"{gap}.or({word}_page_{number}(name))" for number in range(1, len(parts)))
    return HEAD.format(what, word, further) + "".join(
        PART.format(word, number, "".join(PAGE.format(*it) for it in part)) for number, part in enumerate(parts)
    )


if __name__ == "__main__":
    for name, text in files().items():
        with open(os.path.join(TOP, "crates", "nova_show", "src", name), "w", encoding="utf-8") as it:
            it.write(text)
