#!/usr/bin/env python3
"""Draws who owns each byte of a profile, as an SVG: the header, the tag table, each element, its padding.

    draw_profile.py PROFILE >PICTURE

Owners are read from the file's own tag table. Entries with equal offset and size name one element. Padding is the 0 to 3
bytes after an element up to a multiple of 4. A file that is not covered by these exactly once is not drawn.
"""
import sys
from html import escape

ROW = 48  # bytes in a row: an entry of the tag table, 12 bytes from byte 132 on, is never broken
CELL, LINE, GAP = 13, 24, 6  # width of a byte, height of a row, space between rows
LEFT, TOP = 58, 64
LEGEND = LEFT + ROW * CELL + 34
COLORS = {
    "header": "#c9d6e6",
    "tag table": "#ead9b5",
    "desc": "#f6c9a8",
    "cprt": "#e3cfe8",
    "wtpt": "#f7eeb0",
    "chad": "#bfe3dd",
    "cicp": "#d9b08c",
    "rXYZ": "#f3b6b6",
    "gXYZ": "#bfe0b0",
    "bXYZ": "#b4c7f0",
    "rTRC": "#d5d0c8",
    "kTRC": "#d5d0c8",
    "A2B0": "#c6b8e8",
    "B2A0": "#e8b8d4",
    "padding": "#70757d",
}
# The header's fields that differ between profiles: first byte, bytes.
FIELDS = {"size": (0, 4), "intent": (64, 4), "id": (84, 16)}
KINDS = {b"mntrGRAY": "gray", b"mntrRGB ": "RGB", b"scnrRGB ": "XYB"}


def word(file, at):
    return int.from_bytes(file[at : at + 4], "big")


def owners(file):
    """Each owner in file order: its name, first byte and number of bytes."""
    tags = word(file, 128)
    found = [("header", 0, 128), ("tag table", 128, 4 + 12 * tags)]
    elements = {}
    for i in range(tags):
        at = 132 + 12 * i
        place = word(file, at + 4), word(file, at + 8)
        elements.setdefault(place, []).append(file[at : at + 4].decode("ascii"))
    for (offset, size), signatures in elements.items():
        found.append((" ".join(signatures), offset, size))
        if -size % 4:
            found.append(("padding", offset + size, -size % 4))
    at = 0
    for name, offset, size in found:
        if offset != at:
            sys.exit(f"draw_profile.py: {name} starts at {offset}, but the bytes before it end at {at}")
        at += size
    if at != len(file):
        sys.exit(f"draw_profile.py: the owners have {at} bytes, the file has {len(file)}")
    return found


def color(name):
    return COLORS.get(name.split(" ")[0] if name != "tag table" else name, "#dddddd")


def runs(offset, size):
    """The parts of these bytes row by row: x, y and width in the picture."""
    while size:
        part = min(size, ROW - offset % ROW)
        yield LEFT + offset % ROW * CELL, TOP + offset // ROW * (LINE + GAP), part * CELL
        offset, size = offset + part, size - part


def box(x, y, width, fill, more=""):
    return f'<rect x="{x}" y="{y}" width="{width}" height="{LINE}" fill="{fill}"{more}/>'


def text(x, y, words, more=""):
    return f'<text x="{x}" y="{y}"{more}>{escape(words)}</text>'


def label(parts, words):
    """Words in the first of these parts that has room for them."""
    for x, y, width in parts:
        if 7.3 * len(words) + 4 <= width:
            return [text(x + width / 2, y + 16, words, ' class="m"')]
    return []


def draw_bytes(file, found):
    out = []
    for i in range((len(file) + ROW - 1) // ROW):
        out.append(text(LEFT - 10, TOP + i * (LINE + GAP) + 16, str(i * ROW), ' class="n"'))
    for name, offset, size in found:
        parts = list(runs(offset, size))
        out += [box(*part, color(name)) for part in parts]
        if name == "header":
            for field, place in FIELDS.items():
                marked = list(runs(*place))
                out += [box(*part, "#93adcc") for part in marked]
                out += label(marked, field)
            out += label(list(runs(4, 44)), name)
        elif name == "tag table":
            out += label(list(runs(offset, 4)), str(word(file, 128)))
            for at in range(132, offset + size, 12):
                entry = list(runs(at, 12))
                out += [box(*part, "none", ' stroke="#fff"') for part in entry]
                out += label(entry, file[at : at + 4].decode("ascii"))
        else:
            out += label(parts, name)
    return out


def draw_legend(found, total):
    out = [text(LEGEND, TOP - 12, "owner"), text(LEGEND + 300, TOP - 12, "bytes", ' class="n"')]
    padding = sum(size for name, _, size in found if name == "padding")
    rows = [(name, f"{offset} to {offset + size - 1}", size) for name, offset, size in found if name != "padding"]
    if padding:
        rows.append(("padding", "", padding))
    for i, (name, place, size) in enumerate(rows):
        y = TOP + i * 24
        out.append(f'<rect x="{LEGEND}" y="{y}" width="16" height="16" fill="{color(name)}"/>')
        out += [text(LEGEND + 24, y + 13, name), text(LEGEND + 244, y + 13, place, ' class="n"')]
        out.append(text(LEGEND + 300, y + 13, str(size), ' class="n"'))
    y = TOP + len(rows) * 24
    out.append(f'<path d="M{LEGEND} {y}h300" stroke="#888"/>')
    out += [text(LEGEND + 24, y + 18, "the file"), text(LEGEND + 300, y + 18, str(total), ' class="n"')]
    out.append(text(LEGEND, y + 48, "Darker in the header: size, intent, id."))
    return out, y + 60


def description(file, found):
    """The letters of the element desc, `mluc` with one text, as far as there is room."""
    for name, offset, size in found:
        if name == "desc":
            letters = file[offset + 28 : offset + size].decode("utf-16-be")
            return letters if len(letters) <= 90 else letters[:89] + "…"
    return ""


def main():
    if len(sys.argv) != 2:
        sys.exit(__doc__)
    with open(sys.argv[1], "rb") as opened:
        file = opened.read()
    if len(file) < 132 or word(file, 0) != len(file):
        sys.exit("draw_profile.py: this is not a whole profile")
    found = owners(file)
    kind = KINDS.get(file[12:20], "a profile of another kind")
    names = [name for name, _, _ in found]
    if kind == "gray" and "chad" in names:
        kind += ", adapted to D50"
    if kind == "RGB":
        kind += " with cicp" if "cicp" in names else " without cicp"
    legend, bottom = draw_legend(found, len(file))
    height = max(bottom, TOP + (len(file) + ROW - 1) // ROW * (LINE + GAP) + 10)
    width = LEGEND + 324
    print(f'<svg xmlns="http://www.w3.org/2000/svg" viewBox="0 0 {width} {height}" width="{width}" height="{height}">')
    print("<style>text{font:13px 'DejaVu Sans',Arial,sans-serif;fill:#222}.n{text-anchor:end}.m{text-anchor:middle;")
    print("font:12px 'DejaVu Sans Mono',monospace}.t{font-weight:bold;font-size:16px}</style>")
    print(f'<rect width="{width}" height="{height}" fill="#fff"/>')
    print(text(LEFT, 28, f"{kind}: {len(file)} bytes", ' class="t"'))
    print(text(LEFT, 48, description(file, found)))
    print("\n".join(draw_bytes(file, found) + legend))
    print("</svg>")


if __name__ == "__main__":
    try:
        main()
    except OSError as what:
        sys.exit(f"draw_profile.py: {what}")
