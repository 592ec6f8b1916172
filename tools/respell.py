#!/usr/bin/env python3
"""Respells the repository's own definitions and lemmas: words in snake case, a dash only between two names.

usage: python3 tools/respell.py      at the top of the repository, once, after the older spelling of the language was turned

respell.tsv beside this file has a line for each name, the old and the new one. Names of src/, strings, inputs and outputs stay.
In crates/ it goes over sources, specifications, proofs and must-fail edits; in documents over what stands between backquotes.
"""
import os
import re

HERE = os.path.dirname(os.path.abspath(__file__))
with open(os.path.join(HERE, "respell.tsv"), encoding="utf-8") as f:
    NAMES = dict(line.rstrip("\n").split("\t") for line in f)
TOKEN = re.compile(r'"(?:[^"\\\n]|\\.)*"|[^\s(){}\[\],;.:=λ→×¬∷"`|⌜⌝&!\\]+')
# Signatures of ICC.1, which comments name as such.
SIGNATURES = {"rXYZ", "gXYZ", "bXYZ", "rTRC", "gTRC", "bTRC", "kTRC", "mAB", "mBA", "sRGB"}
# Lemmas that fall together with a definition's new name, by file.
FIRST = [
    ("crates/job/", "bytes_left", "bytes_left_lem"),
    ("crates/writer/", "too_short", "too_short_lem"),
    ("crates/segments_joiner/", "too_short", "too_short_lem"),
    ("crates/decimal_parser/specs/FloatLaws.antt", "is_digit", "is_digit_lem"),
]


def code(text, names):
    def one(m):
        t = m.group(0)
        return t if t.startswith('"') else names.get(t, t)

    return TOKEN.sub(one, text)


def comment(text):
    camel = {k: v for k, v in NAMES.items() if "-" not in k and k not in SIGNATURES}
    text = re.sub(r"`[^`]*`", lambda m: code(m.group(0), NAMES), text)
    return code(text, camel)


def line_of(line, mark, names):
    at = line.find(mark)
    # a comment's mark within a string is none
    while at > 0 and line[:at].count('"') % 2:
        at = line.find(mark, at + 1)
    if at < 0:
        return code(line, names)
    return code(line[:at], names) + comment(line[at:])


def source(path, text):
    mark = "--" if path.endswith(".antt") else "//"
    names = dict(NAMES)
    if path.endswith(".antt"):
        for where, old, new in FIRST:
            if path.startswith(where):
                text = code(text, {old: new})
    return "".join(line_of(line, mark, names) for line in text.splitlines(keepends=True))


def edit(text):
    # only the texts of an edit; its first line is a comment or a file
    out = []
    for line in text.splitlines(keepends=True):
        head, sep, rest = line.partition(":")
        out.append(head + sep + code(rest, NAMES) if head in ("old", "new") else line)
    return "".join(out)


def document(text):
    names = {k: v for k, v in NAMES.items() if k not in SIGNATURES}
    return re.sub(r"`[^`\n]*`", lambda m: "#".join(code(part, names) for part in m.group(0).split("#")), text)


def main():
    root = os.path.dirname(HERE)
    os.chdir(root)
    for folder, dirs, files in os.walk("."):
        dirs[:] = sorted(d for d in dirs if d not in ("out", ".git", "target", "build"))
        for f in sorted(files):
            path = os.path.relpath(os.path.join(folder, f), ".")
            if path.startswith("crates/") and f.endswith((".rt", ".antt")):
                turn = lambda t: source(path, t)
            elif path.startswith("crates/") and f.endswith(".edit"):
                turn = edit
            elif f.endswith(".md") and path != "docs/PORT.md":
                turn = document
            else:
                continue
            with open(path, encoding="utf-8") as it:
                old = it.read()
            new = turn(old)
            if new != old:
                with open(path, "w", encoding="utf-8") as it:
                    it.write(new)


main()
