#!/usr/bin/env python3
"""Brings the repository's own names to today's spelling: definitions, lemmas, fields and constructors in snake case.

usage: tools/respell.py            at the top of the repository, after the kit's port.py: rewrites crates/ and the pages

A name is a word of an .antt file, a clause or a `ghost use` of an .rt file, an edit, or a code span of a page. Its parts
are joined by dashes; each part that begins small and has a capital later is turned, as setMark-other to set_mark-other.
Types, modules, names of Rust's and names of capitals alone keep their spelling. Where a lemma already has the name that
a definition comes to, the lemma gets `_lem` first.
"""

import os
import re

WORD = re.compile(r"[^\s(){}.;,@\"«»\[\]|`]+")
PART = re.compile(r"[a-z][A-Za-z0-9]*['₀-₉]*")
STRING = re.compile(r"\"(?:\\.|[^\"\\\n])*\"|b?'(?:\\.|[^'\\\n])'")
SPAN = re.compile(r"`[^`\n]+`")
PRIME = re.compile(r"(?<=\w)′")

# lemmas that a definition would fall together with: (file, name)
LEMMAS = [
    ("crates/places/proofs/Owners.antt", "is_live"),
    ("crates/history/proofs/Demand3.antt", "answers_by"),
    ("crates/history/proofs/Demand3.antt", "takes_one"),
    ("crates/history/proofs/Said.antt", "takes_one"),
    ("crates/rules/proofs/PendingSound.antt", "in_use"),
    ("crates/rules/proofs/PendingSound.antt", "no_record"),
    ("crates/sending/proofs/Decided.antt", "no_record"),
    ("crates/history/proofs/Looks.antt", "part_bytes"),
    ("crates/effects/proofs/Queues.antt", "same_queue"),
    ("crates/history/proofs/Judged.antt", "same_queue"),
    ("crates/history/proofs/Marks.antt", "same_queue"),
    ("crates/rules/proofs/Aimed.antt", "same_queue"),
    ("crates/rules/proofs/FoundByKey.antt", "same_queue"),
    ("crates/rules/proofs/Marks.antt", "same_queue"),
    ("crates/rules/proofs/PendingSomewhere.antt", "same_queue"),
    ("crates/rules/proofs/PendingSound.antt", "same_queue"),
]


def snake(part):
    if not PART.fullmatch(part) or not re.search("[A-Z]", part):
        return part
    return re.sub(r"(?<=[a-z0-9])([A-Z])", lambda m: "_" + m.group(1).lower(), part)


def turned(text):
    return WORD.sub(lambda m: "-".join(snake(p) for p in m.group(0).split("-")), text)


def outside(pattern, text):
    """turns what the pattern does not match"""
    out, at = [], 0
    for m in pattern.finditer(text):
        out += [turned(text[at : m.start()]), m.group(0)]
        at = m.end()
    return "".join(out) + turned(text[at:])


def inside(pattern, text):
    return pattern.sub(lambda m: turned(m.group(0)), text)


def rewrite(path):
    with open(path, encoding="utf-8") as f:
        old = f.read()
    new = old
    for where, name in LEMMAS:
        if os.path.normpath(path) == where:
            new = re.sub(rf"(?<![\w-]){name}(?![\w'-])", name + "_lem", new)
    if path.endswith(".antt"):
        new = PRIME.sub("'", turned(new))
    elif path.endswith((".rt", ".edit")):
        new = PRIME.sub("'", outside(STRING, new))
    else:
        new = inside(SPAN, new)
    if new != old:
        with open(path, "w", encoding="utf-8") as f:
            f.write(new)


def main():
    for top in ("crates", "docs"):
        for folder, dirs, files in os.walk(top):
            dirs[:] = sorted(d for d in dirs if d not in ("out", "target"))
            for name in sorted(files):
                if name.endswith((".antt", ".rt", ".edit", ".md")) and not name.startswith("PORT"):
                    rewrite(os.path.join(folder, name))
    rewrite("README.md")


if __name__ == "__main__":
    main()
