#!/usr/bin/env python3
"""Draws docs/error.svg from oracle/ERROR.txt: the largest measured distance from
the exact lattice for every m, as a part of the bound 2^(m-13).

    oracle/draw_error.py

Assumes Python 3 with its standard library, and the lines `error: m ...` that the
word `error` prints. The same ERROR.txt gives the same bytes.
"""

import math
import pathlib
import re
import sys

ROOT = pathlib.Path(__file__).resolve().parent.parent
SOURCE = ROOT / "oracle/ERROR.txt"
TARGET = ROOT / "docs/error.svg"

LEAST, MOST = -126, 119
# The lowest power of two that is drawn; smaller parts leave the picture below.
FLOOR = -20

WIDTH, HEIGHT = 1000, 620
LEFT, RIGHT, TOP, BOTTOM = 88, 976, 150, 546

# Name in ERROR.txt, colour, dashes, words. The colours can be told apart by
# colour-blind readers, the dashes without colours.
FAMILIES = [
    ("search", "#d55e00", "", "lattice alone, searched for the worst"),
    ("direct", "#e69f00", "7 3", "lattice alone, chosen coefficients and lines"),
    ("encoder search", "#0072b2", "", "encoder, searched for the worst"),
    ("hard", "#009e73", "2 2", "encoder, frames made to be hard"),
    ("drawn", "#a0568a", "", "encoder, drawn frames"),
]


def read():
    """For each family the parts by m; none where no filter was on."""
    parts = {name: {} for name, *_ in FAMILIES}
    seen = []
    for line in SOURCE.read_text(encoding="utf-8").splitlines():
        head = re.match(r"error: m (-?\d+): (.*)", line)
        if not head:
            continue
        m = int(head[1])
        seen.append(m)
        for cell in head[2].split(", "):
            found = re.fullmatch(r"(.+?) (?:-|(\S+) of \d+)", cell)
            if not found or found[1] not in parts:
                sys.exit(f"draw: cannot read {cell!r}")
            if found[2] and float(found[2]) > 0:
                parts[found[1]][m] = float(found[2])
    if seen != list(range(LEAST, MOST + 1)):
        sys.exit(f"draw: {SOURCE.name} does not have every m from {LEAST} to {MOST}")
    return parts


def across(m):
    return LEFT + (m - LEAST) * (RIGHT - LEFT) / (MOST - LEAST)


def down(power):
    return TOP + power * (BOTTOM - TOP) / FLOOR


def text(x, y, words, anchor="start", more=""):
    return f'<text x="{x:.1f}" y="{y:.1f}" text-anchor="{anchor}"{more}>{words}</text>'


def power(e, size=11):
    """2 to the e, with the exponent raised."""
    e = str(e).replace("-", "\u2212")
    return f'2<tspan dy="-5" font-size="{size}">{e}</tspan>'


def after(words):
    """Words after a raised exponent, on the line again. A shift stands for the
    space, which some viewers leave out there."""
    return f'<tspan dx="5" dy="5">{words}</tspan>'


def runs(points):
    """Unbroken runs of neighbouring m."""
    run = []
    for m in range(LEAST, MOST + 2):
        if m in points:
            run.append(m)
        elif run:
            yield run
            run = []


def frame():
    """Grid, axes and their words."""
    out = []
    for e in range(0, FLOOR - 1, -4):
        y = down(e)
        if e:
            out.append(f'<path class="grid" d="M{LEFT} {y:.1f}H{RIGHT}"/>')
        words = "1" if e == 0 else power(e)
        out.append(text(LEFT - 10, y + 5, words, "end"))
    for m in [LEAST, -100, -75, -50, -25, 0, 25, 50, 75, 100, MOST]:
        x = across(m)
        out.append(f'<path class="grid" d="M{x:.1f} {TOP}V{BOTTOM}"/>')
        out.append(text(x, BOTTOM + 22, str(m).replace("-", "\u2212"), "middle"))
    out.append(f'<path class="axis" d="M{LEFT} {TOP}V{BOTTOM}H{RIGHT}"/>')
    middle = (LEFT + RIGHT) / 2
    words = f"m: every line of the bands is at most {power('m')}{after('in size')}"
    out.append(text(middle, BOTTOM + 52, words, "middle"))
    turned = f' transform="rotate(-90 26 {(TOP + BOTTOM) / 2:.1f})"'
    words = "largest distance as a part of the bound"
    out.append(text(26, (TOP + BOTTOM) / 2, words, "middle", turned))
    return out


def legend():
    out = []
    columns = [LEFT, LEFT + 440]
    places = [(columns[0], 62), (columns[0], 86), (columns[1], 62), (columns[1], 86), (columns[1], 110)]
    for (_, colour, dashes, words), (x, y) in zip(FAMILIES, places):
        dash = f' stroke-dasharray="{dashes}"' if dashes else ""
        out.append(f'<path class="line" stroke="{colour}"{dash} d="M{x} {y - 5}h34"/>')
        out.append(text(x + 44, y, words))
    x, y = columns[0], 110
    out.append(f'<path class="bound" d="M{x} {y - 5}h34"/>')
    out.append(text(x + 44, y, f"the bound, {power('m-13')}"))
    return out


def notes(parts):
    """What the encoder does at the ends of the range."""
    of_encoder = [parts[name] for name in ("encoder search", "hard", "drawn")]
    first = min(m for points in of_encoder for m in points)
    low = min((part, m) for points in of_encoder for m, part in points.items())
    least, at = math.ceil(math.log2(low[0])), low[1]
    x = (LEFT + across(first)) / 2
    y = down(-8)
    out = [
        text(x, y, f"encoder: no filter is on below m = \u2212{-first},", "middle", ' class="note"'),
        text(x, y + 19, "where the energies\u2019 product underflows", "middle", ' class="note"'),
    ]
    at = str(at).replace("-", "\u2212")
    words = [
        "encoder: from m = 65 on",
        "the loud band\u2019s energies",
        "overflow, and only the",
        "other band is filtered:",
        f"below {power(least, 10)}{after(f'at m = {at}')}",
    ]
    # Between the curve and the right edge.
    x = (across(66) + RIGHT) / 2
    for n, line in enumerate(words):
        out.append(text(x, down(-4) + 22 + 19 * n, line, "middle", ' class="note"'))
    return out


def curves(parts):
    out = ['<g clip-path="url(#inside)">']
    # The worst on top.
    for name, colour, dashes, _ in reversed(FAMILIES):
        dash = f' stroke-dasharray="{dashes}"' if dashes else ""
        for run in runs(parts[name]):
            # A far point is kept at hand, so that no number in the file is huge.
            places = [
                (across(m), down(max(math.log2(parts[name][m]), 2 * FLOOR))) for m in run
            ]
            if len(places) == 1:
                x, y = places[0]
                out.append(f'<circle cx="{x:.1f}" cy="{y:.1f}" r="1.6" fill="{colour}"/>')
                continue
            path = "L".join(f"{x:.1f} {y:.1f}" for x, y in places)
            out.append(f'<path class="line" stroke="{colour}"{dash} d="M{path}"/>')
    out.append("</g>")
    out.append(f'<path class="bound" d="M{LEFT} {down(0):.1f}H{RIGHT}"/>')
    return out


def main():
    parts = read()
    title = "The encoder\u2019s rounding, measured against the exact lattice"
    out = [
        f'<svg xmlns="http://www.w3.org/2000/svg" width="{WIDTH}" height="{HEIGHT}" '
        f'viewBox="0 0 {WIDTH} {HEIGHT}" role="img" aria-labelledby="title">',
        f'<title id="title">{title}</title>',
        "<style>",
        "text { font: 15px sans-serif; fill: #222 }",
        ".head { font-size: 20px; font-weight: bold }",
        # A rim of the background keeps the grid off the notes.
        ".note { font-size: 14px; fill: #555; stroke: #fdfdfb; stroke-width: 5px; paint-order: stroke }",
        ".grid { stroke: #e2e2e2; fill: none }",
        ".axis { stroke: #444; fill: none }",
        ".line { stroke-width: 2; fill: none; stroke-linejoin: round }",
        ".bound { stroke: #000; stroke-width: 3; fill: none }",
        "</style>",
        f'<clipPath id="inside"><rect x="{LEFT}" y="{TOP}" width="{RIGHT - LEFT}" '
        f'height="{BOTTOM - TOP}"/></clipPath>',
        f'<rect width="{WIDTH}" height="{HEIGHT}" fill="#fdfdfb"/>',
        text(LEFT, 32, title, more=' class="head"'),
        *legend(),
        *frame(),
        *curves(parts),
        *notes(parts),
        "</svg>",
    ]
    TARGET.write_text("\n".join(out) + "\n", encoding="utf-8")


if __name__ == "__main__":
    main()
