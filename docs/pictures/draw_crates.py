#!/usr/bin/env python3
"""Draws the crates and what they depend on, as an SVG, from a crates.txt.

    draw_crates.py CRATES.TXT >PICTURE

A crate stands above those that it depends on. Arrows that follow from others are left out. The folder crates/ beside
crates.txt tells programs, crates for C, and crates of theorems by their sources. The same input gives the same picture.
"""
import os
import re
import sys
from html import escape

HIGH, LAYER, GAP = 26, 66, 18  # height of a box, from layer to layer, least space between boxes
COLORS = {
    "library": ("#dbe8f6", "#5b84b1"),
    "theorems, no code": ("#ece0f5", "#8a63ab"),
    "entries for C": ("#fde3c8", "#c77f2e"),
    "program": ("#d9efd5", "#5a9a50"),
}


def read(path):
    """What each crate depends on, libraries of the language left out."""
    depends = {}
    with open(path, encoding="ascii") as file:
        for line in file:
            name, colon, below = line.partition("#")[0].partition(":")
            if colon:
                # A static library has a word behind its name.
                depends[name.split()[0]] = below.split()
    return {name: [b for b in below if b in depends] for name, below in depends.items()}


def group(folder, name):
    source = ""
    sources = os.path.join(folder, "crates", name, "src")
    for file in sorted(os.listdir(sources)):
        if file == "main.rt":
            return "program"
        with open(os.path.join(sources, file), encoding="utf-8") as opened:
            source += opened.read()
    if not re.search(r"^\s*(pub )?(extern \"C\" )?fn ", source, re.M):
        return "theorems, no code"
    return "entries for C" if 'extern "C"' in source else "library"


def reduced(depends):
    """The arrows without those that follow from others."""
    below = {}

    def all_below(name):
        if name not in below:
            below[name] = set(depends[name]).union(*(all_below(b) for b in depends[name]))
        return below[name]

    return {
        name: [b for b in direct if not any(b in all_below(other) for other in direct)]
        for name, direct in depends.items()
    }


def layers_of(arrows):
    """A layer for each crate, above all that it depends on, so that arrows are short."""
    above = {name: [a for a in arrows if name in arrows[a]] for name in arrows}
    layer = {}
    # crates.txt is written from bottom to top.
    for name in arrows:
        layer[name] = 1 + max((layer[b] for b in arrows[name]), default=-1)
    moved = True
    while moved:
        moved = False
        for name in reversed(list(arrows)):
            if len(above[name]) > len(arrows[name]) or (above[name] and not arrows[name]):
                highest = min(layer[a] for a in above[name]) - 1
                moved |= highest > layer[name]
                layer[name] = max(layer[name], highest)
    return layer


class Drawing:
    """Boxes and, where an arrow passes a layer, points: each has a layer, a width and a place in its layer."""

    def __init__(self, arrows):
        layer = layers_of(arrows)
        self.rows = [[] for _ in range(1 + max(layer.values()))]
        self.width = {}
        self.up, self.down = {}, {}
        self.paths = []
        for name in arrows:
            self.add(name, layer[name], 8 * len(name) + 16)
        for name, direct in arrows.items():
            for b in direct:
                path = [b]
                for at in range(layer[b] + 1, layer[name]):
                    path.append((b, name, at))
                    self.add(path[-1], at, 4)
                path.append(name)
                for low, high in zip(path, path[1:]):
                    self.up[low].append(high)
                    self.down[high].append(low)
                self.paths.append(path)
        self.order()
        self.place()

    def add(self, node, layer, width):
        self.rows[layer].append(node)
        self.width[node] = width
        self.up[node], self.down[node] = [], []

    def crossings(self, row, lower):
        """Crossings of the arrows between two neighbouring layers."""
        at = {node: i for i, node in enumerate(lower)}
        ends = [at[b] for node in row for b in sorted(self.down[node], key=at.get)]
        return sum(ends[i] > ends[j] for i in range(len(ends)) for j in range(i + 1, len(ends)))

    def total(self):
        return sum(self.crossings(row, lower) for lower, row in zip(self.rows, self.rows[1:]))

    def order(self):
        """Sweeps up and down, each node to the mean of its neighbours; then exchanges of neighbours while they help."""
        best, kept = None, None
        for sweep in range(60):
            upward = sweep % 2 == 0
            indices = range(1, len(self.rows)) if upward else range(len(self.rows) - 2, -1, -1)
            for i in indices:
                other = self.rows[i - 1] if upward else self.rows[i + 1]
                at = {node: k / max(1, len(other) - 1) for k, node in enumerate(other)}
                near = self.down if upward else self.up
                own = {node: k / max(1, len(self.rows[i]) - 1) for k, node in enumerate(self.rows[i])}
                mean = {n: sum(at[b] for b in near[n]) / len(near[n]) if near[n] else own[n] for n in own}
                self.rows[i].sort(key=mean.get)
            self.exchange()
            now = self.total()
            if best is None or now < best:
                best, kept = now, [list(row) for row in self.rows]
        self.rows = kept

    def exchange(self):
        def around(i):
            return sum(self.crossings(self.rows[k], self.rows[k - 1]) for k in (i, i + 1) if 0 < k < len(self.rows))

        helped = True
        while helped:
            helped = False
            for i, row in enumerate(self.rows):
                for k in range(len(row) - 1):
                    before = around(i)
                    row[k], row[k + 1] = row[k + 1], row[k]
                    if around(i) < before:
                        helped = True
                    else:
                        row[k], row[k + 1] = row[k + 1], row[k]

    def place(self):
        """Each node as near to the mean of its neighbours as the order and the widths of its layer allow."""
        self.x = {}
        for row in self.rows:
            at = 0
            for node in row:
                at += self.width[node] / 2
                self.x[node] = at
                at += self.width[node] / 2 + GAP
        for sweep in range(400):
            rows = self.rows if sweep % 2 else self.rows[::-1]
            for row in rows:
                self.settle(row)
        left = min(self.x[node] - self.width[node] / 2 for node in self.x)
        for node in self.x:
            self.x[node] = round(self.x[node] - left + 20, 1)

    def settle(self, row):
        # Wanted places less the least space before each; a run that is out of order takes its weighted mean.
        before, runs = 0, []
        for i, node in enumerate(row):
            if i:
                before += (self.width[row[i - 1]] + self.width[node]) / 2 + GAP
            near = self.up[node] + self.down[node]
            # A long arrow is drawn straight before all else.
            weights = [4 if isinstance(node, tuple) and isinstance(other, tuple) else 1 for other in near]
            wanted = sum(w * self.x[other] for w, other in zip(weights, near)) / sum(weights) if near else self.x[node]
            runs.append([wanted - before, max(1, sum(weights)), [(node, before)]])
            while len(runs) > 1 and runs[-2][0] > runs[-1][0]:
                place, weight, nodes = runs.pop()
                mean = (runs[-1][0] * runs[-1][1] + place * weight) / (runs[-1][1] + weight)
                runs[-1] = [mean, runs[-1][1] + weight, runs[-1][2] + nodes]
        for place, _, nodes in runs:
            for node, space in nodes:
                self.x[node] = place + space


def draw(drawing, groups):
    top = 96
    y = {}
    for i, row in enumerate(drawing.rows):
        for node in row:
            y[node] = top + (len(drawing.rows) - 1 - i) * LAYER
    width = round(max(drawing.x[n] + drawing.width[n] / 2 for n in drawing.x) + 20)
    height = top + (len(drawing.rows) - 1) * LAYER + HIGH + 20
    out = [f'<svg xmlns="http://www.w3.org/2000/svg" viewBox="0 0 {width} {height}" width="{width}" height="{height}">']
    out.append("<style>text{font:13px 'DejaVu Sans',Arial,sans-serif;fill:#222}.m{text-anchor:middle;")
    out.append("font:13px 'DejaVu Sans Mono',monospace}.t{font-weight:bold;font-size:16px}</style>")
    out.append('<defs><marker id="a" viewBox="0 0 8 8" refX="7" refY="4" markerWidth="7" markerHeight="7" orient="auto">')
    out.append('<path d="M0 1 8 4 0 7z" fill="#667"/></marker></defs>')
    out.append(f'<rect width="{width}" height="{height}" fill="#fff"/>')
    out.append(f'<text x="20" y="28" class="t">The {len(groups)} crates</text>')
    out.append('<text x="20" y="48">An arrow goes to a crate that is depended on; arrows that follow from others are left out.</text>')
    at = 20
    for name, (fill, stroke) in COLORS.items():
        count = sum(1 for of in groups.values() if of == name)
        out.append(f'<rect x="{at}" y="60" width="16" height="16" rx="3" fill="{fill}" stroke="{stroke}"/>')
        out.append(f'<text x="{at + 22}" y="73">{name} ({count})</text>')
        at += 22 + 8 * len(name) + 54
    out.append('<g fill="none" stroke="#667" marker-end="url(#a)">')
    for path in drawing.paths:
        # From the upper crate down.
        points = [(drawing.x[n], y[n]) for n in reversed(path)]
        # Curves between the layers; straight down where a layer is passed, so that no box is touched.
        x0, y0 = points[0]
        d = f"M{x0:g} {y0 + HIGH}"
        for x, y1 in points[1:]:
            middle = (y0 + HIGH + y1) / 2
            d += f"C{x0:g} {middle:g} {x:g} {middle:g} {x:g} {y1}"
            if (x, y1) != points[-1]:
                d += f"v{HIGH}"
            x0, y0 = x, y1
        out.append(f'<path d="{d}"/>')
    out.append("</g>")
    for name, of in groups.items():
        fill, stroke = COLORS[of]
        w = drawing.width[name]
        out.append(f'<rect x="{drawing.x[name] - w / 2:g}" y="{y[name]}" width="{w}" height="{HIGH}" rx="5" fill="{fill}" stroke="{stroke}"/>')
        out.append(f'<text x="{drawing.x[name]:g}" y="{y[name] + 17}" class="m">{escape(name)}</text>')
    out.append("</svg>")
    return "\n".join(out)


def main():
    if len(sys.argv) != 2:
        sys.exit(__doc__)
    depends = read(sys.argv[1])
    folder = os.path.dirname(os.path.abspath(sys.argv[1]))
    groups = {name: group(folder, name) for name in depends}
    print(draw(Drawing(reduced(depends)), groups))


if __name__ == "__main__":
    try:
        main()
    except OSError as what:
        sys.exit(f"draw_crates.py: {what}")
