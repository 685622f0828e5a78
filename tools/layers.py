#!/usr/bin/env python3
"""Draws docs/layers.svg: the crates by layer, and the way of a text through them.

usage: python3 tools/layers.py            writes docs/layers.svg
       python3 tools/layers.py --check    says whether it is as it would be written

Layers are the groups of crates.txt, the highest first, each with the comment above it; those that no way goes through stand below. The ways below
are calls, and crates.txt must say of each that the one crate names the other: a way that isn't one any more stops the script. Crates without a
function in src/ hold definitions and theorems alone.
"""
import html
import os
import re
import sys

PAGE = "docs/layers.svg"

# what a text goes through, by who calls whom: a name, a colour, and the calls
WAYS = [
    ("every line", "#444444", "kern reader, kern_ffi reader, reader utf8, reader place, place lines, reader records, records repair"),
    ("references and the header", "#8a6d00", "records header, header reference"),
    ("a star record", "#b0303a", "records stars, stars tandem, stars interpretation, stars voices, voices spines"),
    ("a barline record", "#6a3fa0", "records bars, bars notation"),
    ("a data record", "#1f5fa8", "records data, data spines, data plain, data peers, data notes, notes scan, scan items, scan pitch, scan duration"),
    ("what is written", "#2d7d46", "header writing, bars writing, notes writing, stars writing, writing lists, writing sheet"),
    ("which lines fill a staff", "#c06a1a", "kern_ffi staff, staff holders"),
]

WIDTH, LEFT, BOX, GAP, HIGH, BAND, TOP = 1500, 190, 112, 14, 30, 44, 84


def groups():
    """The groups of crates.txt: the comment above, and the crates with the crates that each names."""
    out, title = [], ""
    for line in open("crates.txt"):
        line = line.strip()
        if line.startswith("#"):
            title = line[1:].strip()
        elif not line:
            title = title if not out or out[-1][1] else title
        else:
            name, named = line.split(":")
            if not out or out[-1][0] != title:
                out.append((title, []))
            out[-1][1].append((name.split()[0], named.split()))
    return out


def has_code(name):
    for at, dirs, files in os.walk(f"crates/{name}/src"):
        for file in files:
            if file.endswith(".rt") and re.search(r"^\s*(?:pub(?:\([a-z]+\))? )?(?:extern \"C\" )?fn ", open(f"{at}/{file}").read(), re.M):
                return True
    return False


def lines_of(title, width=26):
    """A layer's title in lines that fit its column."""
    out = [""]
    for word in title.split():
        if out[-1] and len(out[-1]) + 1 + len(word) > width:
            out.append("")
        out[-1] += (" " if out[-1] else "") + word
    return out


def drawn():
    met = {name for _, _, way in WAYS for name in re.findall(r"\w+", way)}
    layers = sorted(groups()[::-1], key=lambda layer: not met & {name for name, _ in layer[1]})
    names = {name: named for _, crates in layers for name, named in crates}
    per_row = (WIDTH - LEFT - GAP) // (BOX + GAP)
    place, boxes, bands, y = {}, [], [], TOP
    for title, crates in layers:
        rows = [crates[i : i + per_row] for i in range(0, len(crates), per_row)]
        high = max(len(rows) * (HIGH + GAP) - GAP, 14 * len(lines_of(title))) + 2 * GAP
        bands.append(f'<rect x="0" y="{y}" width="{WIDTH}" height="{high}" fill="#f4f4f1"/>')
        for i, line in enumerate(lines_of(title)):
            bands.append(f'<text x="12" y="{y + GAP + 12 + 14 * i}" class="layer">{html.escape(line)}</text>')
        for r, row in enumerate(rows):
            indent = (WIDTH - LEFT - len(row) * (BOX + GAP)) / 2
            for c, (name, _) in enumerate(row):
                x, top = LEFT + indent + c * (BOX + GAP), y + GAP + r * (HIGH + GAP)
                place[name] = (x + BOX / 2, top)
                fill, stroke = ("#ffffff", "#555555") if has_code(name) else ("#e4e4de", "#aaaaaa")
                boxes.append(f'<rect x="{x:.0f}" y="{top}" width="{BOX}" height="{HIGH}" rx="4" fill="{fill}" stroke="{stroke}"/>')
                boxes.append(f'<text x="{x + BOX / 2:.0f}" y="{top + 20}" class="crate">{name}</text>')
        y += high + BAND
    calls, legend = [], []
    for i, (what, colour, way) in enumerate(WAYS):
        marker = f"end{i}"
        calls.append(
            f'<marker id="{marker}" viewBox="0 0 8 8" refX="7" refY="4" markerWidth="5" markerHeight="5" orient="auto">'
            f'<path d="M0 0 L8 4 L0 8 z" fill="{colour}"/></marker>'
        )
        x = 12 + i * 212
        legend.append(f'<path d="M{x} 58 h34" stroke="{colour}" stroke-width="2" marker-end="url(#{marker})"/>')
        legend.append(f'<text x="{x + 42}" y="62" class="layer">{what}</text>')
        for call in way.split(","):
            caller, called = call.split()
            if called not in names.get(caller, ()):
                sys.exit(f"crates.txt: {caller} doesn't name {called}")
            (x1, y1), (x2, y2) = place[caller], place[called]
            if y2 > y1:
                y1 += HIGH
                bend = max(24, (y2 - y1) / 3)
                path = f"M{x1:.0f} {y1} C{x1:.0f} {y1 + bend:.0f} {x2:.0f} {y2 - bend:.0f} {x2:.0f} {y2 - 1}"
            elif y2 == y1:
                side = 1 if x1 < x2 else -1
                path = f"M{x1 + side * 20:.0f} {y1} C{x1 + side * 30:.0f} {y1 - 26} {x2 - side * 10:.0f} {y1 - 26} {x2 - side * 10:.0f} {y1 - 1}"
            else:
                path = f"M{x1:.0f} {y1} C{x1:.0f} {y1 - 30} {x2:.0f} {y2 + HIGH + 30} {x2:.0f} {y2 + HIGH + 1}"
            calls.append(f'<path d="{path}" fill="none" stroke="{colour}" stroke-width="1.6" marker-end="url(#{marker})"/>')
    style = "text{font-family:sans-serif;fill:#222}.crate{font-size:13px;text-anchor:middle}.layer{font-size:12px}.title{font-size:16px}"
    return "\n".join(
        [
            f'<svg xmlns="http://www.w3.org/2000/svg" viewBox="0 0 {WIDTH} {y - BAND}" width="{WIDTH}" height="{y - BAND}">',
            "<title>The crates by layer, and the way of a text through them</title>",
            f"<style>{style}</style>",
            f'<rect width="{WIDTH}" height="{y - BAND}" fill="#ffffff"/>',
            '<text x="12" y="28" class="title">The crates by layer, and the way of a text through them: an arrow is a call. '
            "Grey: definitions and theorems alone.</text>",
            *bands,
            *calls,
            *legend,
            *boxes,
            "</svg>",
            "",
        ]
    )


def main():
    text = drawn()
    if sys.argv[1:] == ["--check"]:
        if not os.path.exists(PAGE) or open(PAGE).read() != text:
            sys.exit(f"{PAGE}: not as tools/layers.py draws it")
    else:
        open(PAGE, "w").write(text)


if __name__ == "__main__":
    main()
