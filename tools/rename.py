#!/usr/bin/env python3
"""Spells the repository's own definitions and lemmas in snake case, by the table names.tsv beside this script. Run once, after port.py.

usage: python3 tools/rename.py [ROOT]     (ROOT: the checkout; by default the one that this script stands in)

Turns the antt files of crates/, the clauses and comments of its sources, the must-fail edits of specs/, and the code spans of README.md and docs/.
A name with a dash turns only where it stands bare, since behind a dot it may be a label that Rattle makes; FIELDS are the repository's own.
Lemmas that would meet a definition's new name keep their dash, which joins two names: the table leaves them out, and MET gives theirs back to three that
port.py had turned already.
"""

import os
import re
import sys

HERE = os.path.dirname(os.path.realpath(__file__))
ROOT = os.path.realpath(sys.argv[1]) if len(sys.argv) > 1 else os.path.dirname(HERE)

with open(os.path.join(HERE, "names.tsv"), encoding="utf-8") as rows:
    TABLE = dict(row.rstrip("\n").split("\t") for row in rows)

WORD = re.compile(r"[A-Za-zΑ-ω_][A-Za-z0-9Α-ω_'₀-₉\-]*")
FIELDS = {"few-states", "low-limit", "some-states", "some-limit", "set-named", "set-terminal", "set-closed"}
# In these folders or files the lemma had the name that a definition has now.
MET = {
    "crates/record/proofs/": {"is_digit": "is-digit"},
    "crates/audit/proofs/Founding.antt": {"has_named": "has-named"},
    "crates/writer/proofs/Deciding.antt": {"by_number": "by-number"},
}


def turned(text, met):
    def word(m):
        w, at = m.group(0), m.start()
        if w in met:
            return met[w]
        behind_dot = at > 0 and text[at - 1] == "."
        if w not in TABLE or (behind_dot and "-" in w and w not in FIELDS):
            return w
        return TABLE[w]

    return WORD.sub(word, text)


def spans(text):
    return re.sub(r"`[^`\n]+`", lambda m: turned(m.group(0), {}), text)


def rust(text):
    """Strings stay; in code no word has a dash or an inner capital, so only clauses and ghost items change. Comments: code spans."""
    parts = re.split(r'(//[^\n]*|b?"(?:\\.|[^"\\\n])*")', text)
    return "".join(spans(p) if p.startswith("//") else p if p.startswith(('"', 'b"')) else turned(p, {}) for p in parts)


def antt(text, met):
    lines = []
    for line in text.split("\n"):
        at = re.search(r"(^|\s)--(\s|$)", line)
        cut = at.start() if at else len(line)
        lines.append(turned(line[:cut], met) + spans(line[cut:]))
    return "\n".join(lines)


def edit(text):
    if not re.search(r"(?m)^file: specs/", text):
        return text

    # A field is taken without brackets and a space now: `(e .from)` is `e.from`.
    def line(l):
        l = re.sub(r"\(([a-z]\w*) \.([a-z]\w*)\)", r"\1.\2", l)
        l = re.sub(r"\b([a-z]\w*) \.([a-z]\w*)", r"\1.\2", l)
        return turned(l, {})

    return "\n".join(line(l) if l.startswith(("old:", "new:")) else l for l in text.split("\n"))


def main():
    count = 0
    for folder, dirs, files in os.walk(ROOT):
        dirs[:] = sorted(d for d in dirs if d not in (".git", "out", "target"))
        for name in sorted(files):
            path = os.path.join(folder, name)
            rel = os.path.relpath(path, ROOT)
            if name.endswith(".antt"):
                met = next((t for p, t in MET.items() if rel.startswith(p)), {})
                new = lambda s: antt(s, met)
            elif name.endswith(".rt"):
                new = rust
            elif name.endswith(".edit"):
                new = edit
            elif name.endswith(".md") and (rel == "README.md" or rel.startswith("docs/")):
                new = spans
            else:
                continue
            with open(path, encoding="utf-8") as f:
                old = f.read()
            text = new(old)
            if text != old:
                with open(path, "w", encoding="utf-8") as f:
                    f.write(text)
                count += 1
    print(f"rename: {count} files changed")


main()
