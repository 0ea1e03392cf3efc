#!/usr/bin/env python3
"""Draws docs/architecture.svg from crates.txt: the rooms as boxes with their crates in them, and which
room uses which.

A room is the first word of its crates' names; a comment `# ROOM: ..` in crates.txt says what it holds.
A room stands above all that it uses. Left out are arrows that others imply, those to `law`, which every
room uses, and those of `examples`, which uses nearly every one. A crate in italics has no code. Where a
room stands is chosen here; one that is too wide moves those to its right. Python 3's standard library alone.

    docs/draw_architecture.py            writes the picture
    docs/draw_architecture.py --check    says whether it is the one that would be written
"""
import sys
from pathlib import Path

DOCS = Path(__file__).resolve().parent
PICTURE = DOCS / "architecture.svg"
# The rooms from the top down, and where each stands from left to right.
ROWS = [
    [("prog", 250), ("examples", 760)],
    [("io", 60), ("replay", 560)],
    [("text", 60), ("tns", 560)],
    [("file", 60), ("answer", 560)],
    [("block", 60), ("call", 560)],
    [("shape", 620)],
    [("side", 480)],
    [("cost", 40), ("index", 400), ("lattice", 740)],
    [("check", 200)],
    [("row", 480)],
    [("law", 320)],
]
QUIET = ("law", "examples")  # no arrows to the one, none from the other
LINE, SMALL, GAP, ACROSS, EDGE = 16, 11, 34, 3, 12
COLUMN = 128


def room(crate):
    return crate.split("_")[0]


def lists():
    """What each crate uses, and what each room holds, both in the order of crates.txt."""
    uses, says = {}, {}
    for line in (DOCS.parent / "crates.txt").read_text().splitlines():
        name, colon, rest = line.partition(":")
        if line.startswith("# ") and colon and " " not in name[2:]:
            says[name[2:]] = rest.strip().rstrip(".")
        elif colon and not line.startswith("#"):
            uses[name.split()[0]] = rest.split()
    return {name: [d for d in rest if d in uses] for name, rest in uses.items()}, says


def has_code(crate):
    return any("fn " in f.read_text() for f in (DOCS.parent / "crates" / crate / "src").rglob("*.rt"))


def between(uses):
    """Which rooms each room uses, without those that others imply."""
    direct = {}
    for crate, used in uses.items():
        direct.setdefault(room(crate), set()).update(room(d) for d in used if room(d) != room(crate))

    def reached(one, path=()):
        if one in path:
            sys.exit(f"architecture: rooms use each other in a circle: {' '.join(path)} {one}")
        return {r for d in direct[one] for r in {d} | reached(d, path + (one,))}

    return {r: [d for d in sorted(used) if not any(d in reached(o) for o in used if o != d)] for r, used in direct.items()}


def boxes(uses, says):
    """Each room's box: left, top, width, height, its crates in columns."""
    found, top = {}, EDGE
    for row in ROWS:
        tallest = free = 0
        for name, left in row:
            left = max(left, free)
            crates = [c for c in uses if room(c) == name]
            columns = min(ACROSS, max(1, (len(crates) + 2) // 3))
            deep = -(-len(crates) // columns)
            width = max(columns * COLUMN, 62 * len(says.get(name, "")) // 10) + EDGE
            height = 2 * LINE + 10 + deep * LINE
            found[name] = (left, top, width, height, [crates[k * deep:(k + 1) * deep] for k in range(columns)])
            tallest, free = max(tallest, height), left + width + EDGE
        top += tallest + GAP
    missing = {room(c) for c in uses} ^ set(found)
    if missing:
        sys.exit(f"architecture: crates.txt and the picture differ in the rooms {' '.join(sorted(missing))}")
    return found, top - GAP + EDGE


def svg():
    uses, says = lists()
    place, height = boxes(uses, says)
    width = max(x + w for x, y, w, h, c in place.values()) + EDGE
    out = [
        f'<svg xmlns="http://www.w3.org/2000/svg" width="{width}" height="{height}" font-family="sans-serif">',
        f'<rect width="{width}" height="{height}" fill="white"/>',
        '<defs><marker id="tip" viewBox="0 0 8 8" refX="8" refY="4" markerWidth="7" markerHeight="7" orient="auto">'
        '<path d="M0,0 L8,4 L0,8 z" fill="#777"/></marker></defs>',
    ]
    for name, used in between(uses).items():
        for other in used:
            if name in QUIET or other in QUIET:
                continue
            x, y, w, h, _ = place[name]
            u, v, s, t, _ = place[other]
            # From the bottom of the one to the top of the other, at the place where they are nearest.
            low, high = max(x, u) + 20, min(x + w, u + s) - 20
            a, b = ((low + high) / 2,) * 2 if low <= high else ((x + w - 20, u + 20) if x < u else (x + 20, u + s - 20))
            out.append(f'<line x1="{a:.0f}" y1="{y + h}" x2="{b:.0f}" y2="{v - 1}" stroke="#777" marker-end="url(#tip)"/>')
    for name, (x, y, w, h, columns) in place.items():
        out.append(f'<rect x="{x}" y="{y}" width="{w}" height="{h}" rx="6" fill="#f2f6fb" stroke="#345"/>')
        out.append(f'<text x="{x + EDGE}" y="{y + LINE + 2}" font-size="14" font-weight="bold">{name}</text>')
        out.append(f'<text x="{x + EDGE}" y="{y + 2 * LINE}" font-size="{SMALL}" fill="#555">{says[name]}</text>')
        for k, crates in enumerate(columns):
            for n, crate in enumerate(crates):
                slant = "" if has_code(crate) else ' font-style="italic"'
                out.append(f'<text x="{x + EDGE + k * COLUMN}" y="{y + (3 + n) * LINE + 4}" font-size="12"{slant}>{crate}</text>')
    return "\n".join(out + ["</svg>", ""])


def main():
    if sys.argv[1:] == ["--check"]:
        same = PICTURE.exists() and PICTURE.read_text() == svg()
        print("architecture: the picture is " + ("that of crates.txt" if same else "NOT that of crates.txt"))
        return 0 if same else 1
    PICTURE.write_text(svg())
    return 0


sys.exit(main())
