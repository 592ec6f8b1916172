#!/usr/bin/env python3
"""Checks that what the documents name exists in the tree, and that no public function is without a promise.

  docs/check_names.py

Looked at are the words in backquotes of COVERAGE.md, SUPPLIER.md and EDITS.md that have one of these forms:

  crate/File#name   a definition or theorem of crates/crate/specs/File.antt, or a theorem of its proofs/File.antt
  crate#name        a function, struct, enum or constant of crates/crate/src
  crate/label       the edit crates/crate/must-fail/label.edit; a label alone stands for the crate before it, in EDITS.md
  folder/file       a file of the repository: crates/..., differential/..., docs/... and so on

Each is printed that does not exist, with its document and line; the status is then 1.
"""

import pathlib
import re
import sys

TOP = pathlib.Path(__file__).resolve().parent.parent
DOCUMENTS = ("COVERAGE.md", "SUPPLIER.md", "EDITS.md")
FOLDERS = ("crates", "differential", "docs", "conformance", "host", "include", "jobs", "jpeg", "divisions", ".ci")
SPECIFICATION = r"^\s*(?:(?:abbrev|unfoldable|pub)\s+)*(?:record\s+|data\s+)?{name}(?=[\s:({{]|$)"
CONSTRUCTORS = r"^\s+(?:\S+\s+)*{name}(?:\s+\S+)* : "
CODE = r"^\s*(?:pub\s+)?(?:extern\s+\"C\"\s+)?(?:fn|struct|enum|const|type)\s+{name}\b"


def has(path, forms, name):
    text = path.read_text(encoding="utf-8")
    return any(re.search(form.format(name=re.escape(name)), text, re.MULTILINE) for form in forms)


def defined(crate, file, name):
    paths = (TOP / "crates" / crate / folder / f"{file}.antt" for folder in ("specs", "proofs"))
    return any(path.is_file() and has(path, (SPECIFICATION, CONSTRUCTORS), name) for path in paths)


def coded(crate, name):
    return any(has(path, (CODE,), name) for path in (TOP / "crates" / crate / "src").glob("*.rt"))


def is_crate(name):
    return (TOP / "crates" / name / "src").is_dir()


def edit(crate, label):
    return (TOP / "crates" / crate / "must-fail" / f"{label}.edit").is_file()


def wrong(word):
    """Whether a word has one of the forms and names nothing. The second is the crate that it names, if it is an edit."""
    # The forms themselves, as a document explains them.
    if "NAME" in word or re.match(r"crate[/#]", word):
        return False, None
    if match := re.fullmatch(r"(\w+)/(\w+)#(\S+)", word):
        return not defined(*match.groups()), None
    if match := re.fullmatch(r"(\w+)#(\w+)", word):
        return not (is_crate(match[1]) and coded(*match.groups())), None
    if re.fullmatch(r"[\w.]+/[\w./-]*", word):
        first, _, rest = word.partition("/")
        if first in FOLDERS and (first == "crates" or not is_crate(first) or (TOP / word).exists()):
            return not (TOP / word).exists(), None
        if is_crate(first) and re.fullmatch(r"\w+", rest):
            return not edit(first, rest), first
    return False, None


def check(document):
    """The words of a document that name nothing, each with its line, and how many words were looked at."""
    bad, looked = [], 0
    path = TOP / "docs" / document
    for number, line in enumerate(path.read_text(encoding="utf-8").split("\n"), 1):
        crate = None
        if line.count("`") % 2:
            bad.append(f"docs/{document}:{number}: a backquote is not closed")
        for word in re.findall(r"`([^`]+)`", line):
            if crate and document == "EDITS.md" and re.fullmatch(r"\w+", word):
                word = f"{crate}/{word}"
            is_wrong, named = wrong(word)
            crate = named or crate
            looked += "/" in word or "#" in word
            if is_wrong:
                bad.append(f"docs/{document}:{number}: {word}")
    return bad, looked


def unpromised():
    """Public functions without `ensures`, and how many there are."""
    bad, count = [], 0
    for path in sorted(TOP.glob("crates/*/src/*.rt")):
        text = path.read_text(encoding="utf-8")
        for match in re.finditer(r"^\s*pub (?:extern \"C\" )?fn (\w+)", text, re.MULTILINE):
            count += 1
            head = re.split(r"^\s*\{$", text[match.start():], maxsplit=1, flags=re.MULTILINE)[0]
            if "ensures" not in head:
                bad.append(f"{path.relative_to(TOP)}: {match[1]} has no ensures")
    return bad, count


def main():
    bad = []
    for document in DOCUMENTS:
        found, looked = check(document)
        bad += found
        print(f"{document}: {looked} names")
    found, count = unpromised()
    bad += found
    print(f"{count} public functions")
    for line in bad:
        print(line)
    return 1 if bad else 0


if __name__ == "__main__":
    sys.exit(main())
