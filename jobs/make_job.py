#!/usr/bin/env python3
"""Turns the text of a job, such as jobs/example.txt, into the job's bytes (docs/JOB.md).

    make_job.py [TEXT] >JOB

Without TEXT the text is read from standard input. The lines may stand in any order: each section of the job takes its
entries in the order of their lines. Whatever is wrong is said with its line; then nothing is written, and the exit
status is 1.
"""
import math
import re
import struct
import sys

# The names of each field, the first being byte 0, and how many numbers may stand in place of a name. Numbers have the
# byte after the last name's.
FIELDS = {
    "white": (("D65", "E", "DCI"), 2),
    "primaries": (("SRGB", "BT2100", "P3"), 6),
    "curve": (("BT709", "Linear", "SRGB", "PQ", "DCI", "HLG"), 1),
    "intent": (("Perceptual", "Relative", "Saturation", "Absolute"), 0),
}

# The sections in the job's order, and the fields of an entry in theirs.
SECTIONS = {
    "gray": ("white", "curve", "intent"),
    "rgb": ("white", "primaries", "curve", "intent"),
    "xyb": ("intent",),
}


class Wrong(Exception):
    """What is wrong with a line."""


def float_bytes(word, takes):
    try:
        # Python's float would take 1_000 too.
        value = float(word.replace("_", "?"))
    except ValueError:
        raise Wrong(f"{word!r} is not a number; {takes}") from None
    try:
        if math.isinf(value) and "inf" not in word.lower():
            raise OverflowError
        return struct.pack(">f", value)
    except OverflowError:
        raise Wrong(f"{word} is too large for a 32-bit float (an infinity is written inf)") from None


def field_bytes(field, value):
    names, floats = FIELDS[field]
    takes = f"{field} takes {', '.join(names)}"
    if floats:
        takes += " or a number" if floats == 1 else f" or {floats} numbers with commas between"
    if value in names:
        return bytes([names.index(value)]) + bytes(4 * floats)
    # A byte as it stands, to try one that has no meaning.
    if value.startswith("byte:"):
        if not re.fullmatch("[0-9]+", value[5:]) or int(value[5:]) > 255:
            raise Wrong(f"{value[5:]!r} is not a byte, 0 to 255")
        return bytes([int(value[5:])]) + bytes(4 * floats)
    words = value.split(",")
    if len(words) != floats:
        raise Wrong(f"{value!r} does not fit: {takes}")
    return bytes([len(names)]) + b"".join(float_bytes(word, takes) for word in words)


def entry_bytes(section, words):
    if section not in SECTIONS:
        raise Wrong(f"{section!r} is not a kind of entry: {', '.join(SECTIONS)}")
    fields = SECTIONS[section]
    given = {}
    for word in words:
        field, _, value = word.partition("=")
        if field not in fields:
            raise Wrong(f"{word!r} does not start with a field of {section}: {', '.join(f + '=' for f in fields)}")
        if field in given:
            raise Wrong(f"{field} is given twice")
        given[field] = field_bytes(field, value)
    missing = [field for field in fields if field not in given]
    if missing:
        raise Wrong(f"{section} needs {', '.join(missing)} too")
    return b"".join(given[field] for field in fields)


def read_text(path):
    """The entries of each section, as their lines and bytes; ends the program where the text is wrong."""
    entries = {section: [] for section in SECTIONS}
    wrong = 0
    # A comment may hold any bytes.
    with open(path, encoding="utf-8-sig", errors="replace") as text:
        for at, line in enumerate(text, 1):
            # Spaces beside a comma or an equals sign do no harm.
            words = re.sub(r"\s*([,=])\s*", r"\1", line.partition("#")[0]).split()
            if not words:
                continue
            try:
                made = entry_bytes(words[0], words[1:])
                # A section's count is one byte.
                if len(entries[words[0]]) == 255:
                    raise Wrong(f"a job has at most 255 entries of {words[0]}")
                entries[words[0]].append((at, made))
            except Wrong as what:
                print(f"{path or 'standard input'}, line {at}: {what}", file=sys.stderr)
                wrong += 1
    if wrong:
        sys.exit(1)
    return entries


def main():
    if len(sys.argv) > 2:
        sys.exit(__doc__)
    try:
        entries = read_text(sys.argv[1] if len(sys.argv) == 2 else 0)
        with open(1, "wb", closefd=False) as out:
            for section in entries.values():
                out.write(bytes([len(section)]) + b"".join(made for _, made in section))
    except OSError as what:
        sys.exit(f"make_job.py: {what}")


if __name__ == "__main__":
    main()
