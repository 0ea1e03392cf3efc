#!/usr/bin/env python3
"""The bar chart docs/speed.svg, from the table in bench/RESULTS.txt.

    chart.py RESULTS.txt > speed.svg

Assumes the columns that bench/table.py prints. Python 3's standard library alone.
"""

import math
import re
import statistics
import sys

LINE = re.compile(
    r"^(?P<ms>10|7\.5) ms bandwidth (?P<bw>\d) +(?P<what>on|flag|silence|order \d) +[\d ]*?"
    r"(?P<times>(?: +\d+\.\d){3}) +(?P<Rust>\d+\.\d\d) +(?P<liblc3>\d+\.\d\d) +\d+ +\d+ +\d+$"
)
ROWS = [(ms, bw) for ms in ("10", "7.5") for bw in "01234"]
RUST, LC3 = "#b5532a", "#2f6690"
LIGHT = {RUST: "#e8bfa8", LC3: "#a9c6dc"}
INK, GRID = "#222222", "#d9d9d9"
WIDTH, LEFT, RIGHT = 920, 70, 20
PANEL, GAP, TOP = 220, 110, 60


def read(path):
    ratios = {}
    for line in open(path, encoding="utf-8"):
        m = LINE.match(line.rstrip())
        if m:
            key = (m["ms"], m["bw"], m["what"])
            ratios[key] = {"Rust": float(m["Rust"]), "liblc3": float(m["liblc3"])}
    return ratios


class Panel:
    """One set of axes: a group of bars for each row, ratios upwards from 0."""

    def __init__(self, out, number, title, most, step):
        self.out, self.most = out, most
        self.top = TOP + number * (PANEL + GAP)
        self.bottom = self.top + PANEL
        self.group = (WIDTH - LEFT - RIGHT) / len(ROWS)
        self.text(LEFT, self.top - 14, title, 15, "start", "bold")
        value = 0.0
        while value <= most + 1e-9:
            y = self.y(value)
            self.line(LEFT, y, WIDTH - RIGHT, y, GRID)
            self.text(LEFT - 8, y + 4, f"{value:g}", 12, "end")
            value += step
        middle = (self.top + self.bottom) / 2
        out.append(
            f'<text x="22" y="{middle}" font-size="12" fill="{INK}" text-anchor="middle" '
            f'transform="rotate(-90 22 {middle})">time of the other / of this library</text>'
        )
        for n, (ms, bw) in enumerate(ROWS):
            x = LEFT + (n + 0.5) * self.group
            self.text(x, self.bottom + 17, f"{ms} ms", 12)
            self.text(x, self.bottom + 32, f"bw {bw}", 12)

    def y(self, value):
        return round(self.bottom - PANEL * min(value, self.most) / self.most, 1)

    def line(self, x1, y1, x2, y2, colour, dash=""):
        dash = f' stroke-dasharray="{dash}"' if dash else ""
        width = 1.5 if dash else 1
        self.out.append(
            f'<line x1="{x1:.1f}" y1="{y1}" x2="{x2:.1f}" y2="{y2}" stroke="{colour}" '
            f'stroke-width="{width}"{dash}/>'
        )

    def text(self, x, y, words, size, anchor="middle", weight="normal", colour=INK):
        self.out.append(
            f'<text x="{x:.1f}" y="{y:.1f}" font-size="{size}" font-weight="{weight}" '
            f'fill="{colour}" text-anchor="{anchor}">{words}</text>'
        )

    def bar(self, row, place, places, value, colour, rise):
        """A bar with its value inside, clear of the marks: `rise` above its foot."""
        width = self.group * 0.84 / places
        x = LEFT + row * self.group + self.group * 0.08 + place * width
        y = self.y(value)
        self.out.append(
            f'<rect x="{x:.1f}" y="{y}" width="{width - 1:.1f}" '
            f'height="{self.bottom - y:.1f}" fill="{colour}"/>'
        )
        ink = INK if colour in LIGHT.values() else "#ffffff"
        middle = x + (width - 1) / 2
        if places == 2:
            self.text(middle, self.bottom - rise, f"{value:.2f}", 12, colour=ink)
        else:
            foot = self.bottom - rise
            self.out.append(
                f'<text x="{middle + 4:.1f}" y="{foot:.1f}" font-size="11" fill="{ink}" '
                f'transform="rotate(-90 {middle + 4:.1f} {foot:.1f})">{value:.2f}</text>'
            )
        return middle

    def mark(self, value, colour):
        self.line(LEFT, self.y(value), WIDTH - RIGHT, self.y(value), colour, "6 4")

    def legend(self, entries):
        """Swatches below the rows: a colour or a dashed line, and what it stands for."""
        x, y = LEFT, self.bottom + 56
        for kind, colour, words in entries:
            if kind == "bar":
                self.out.append(
                    f'<rect x="{x}" y="{y - 10}" width="12" height="12" fill="{colour}"/>'
                )
            elif kind == "dot":
                self.out.append(f'<circle cx="{x + 6}" cy="{y - 4}" r="4" fill="{colour}"/>')
            else:
                self.line(x - 4, y - 4, x + 16, y - 4, colour, "6 4")
            self.text(x + 20, y, words, 12, "start")
            x += 34 + 6.4 * len(words)


def encode(out, number, ratios, what, title):
    most = max(max(ratios[ms, bw, what].values()) for ms, bw in ROWS)
    panel = Panel(out, number, title, math.ceil(most), 1)
    for n, (ms, bw) in enumerate(ROWS):
        r = ratios[ms, bw, what]
        panel.bar(n, 0, 2, r["Rust"], RUST, 8)
        panel.bar(n, 1, 2, r["liblc3"], LC3, 8)
    panel.mark(2.0, RUST)
    panel.mark(1.5, LC3)
    panel.legend(
        [
            ("bar", RUST, "Rust / port"),
            ("bar", LC3, "liblc3 / port"),
            ("line", RUST, "required of Rust / port: 2.0"),
            ("line", LC3, "required of liblc3 / port: 1.5"),
        ]
    )


def decode(out, number, ratios):
    panel = Panel(out, number, "Decode, over the orders 0 to 8", 2.5, 0.5)
    for n, (ms, bw) in enumerate(ROWS):
        for place, (other, colour) in enumerate((("Rust", RUST), ("liblc3", LC3))):
            of = [ratios[ms, bw, f"order {order}"][other] for order in range(9)]
            rise = 8 if of[0] > 0.4 else 40  # clear of the dot
            panel.bar(n, 2 * place, 4, statistics.median(of), colour, rise)
            x = panel.bar(n, 2 * place + 1, 4, min(of[1:]), LIGHT[colour], rise)
            y = panel.y(of[0])
            out.append(
                f'<circle cx="{x:.1f}" cy="{y}" r="3.5" fill="{colour}" stroke="#ffffff"/>'
            )
            if of[0] > panel.most:
                panel.text(x + 6, y + 14, f"{of[0]:.1f}", 11)
    panel.mark(0.95, RUST)
    panel.mark(1.0, LC3)
    panel.legend(
        [
            ("bar", RUST, "Rust / port: median"),
            ("bar", LIGHT[RUST], "worst of 1 to 8"),
            ("dot", RUST, "order 0"),
            ("bar", LC3, "liblc3 / port: median"),
            ("bar", LIGHT[LC3], "worst of 1 to 8"),
            ("dot", LC3, "order 0"),
        ]
    )
    words = "dashed: required, 0.95 of Rust and 1.0 of liblc3; a dot at the top has its value"
    panel.text(WIDTH - RIGHT, panel.top - 14, words, 12, "end")


def main():
    ratios = read(sys.argv[1])
    if len(ratios) != 120:
        sys.exit(f"chart: the table has {len(ratios)} measurements, not 120")
    height = TOP + 3 * (PANEL + GAP) - 20
    out = [
        f'<svg xmlns="http://www.w3.org/2000/svg" width="{WIDTH}" height="{height}" '
        f'viewBox="0 0 {WIDTH} {height}" font-family="sans-serif">',
        "<!-- Made by bench/chart.py from bench/RESULTS.txt. -->",
        f'<rect width="{WIDTH}" height="{height}" fill="#ffffff"/>',
    ]
    encode(out, 0, ratios, "on", "Encode, every band with a filter")
    encode(out, 1, ratios, "flag", "Encode, filters turned off by the near-Nyquist flag")
    decode(out, 2, ratios)
    out.append("</svg>")
    print("\n".join(out))


if __name__ == "__main__":
    main()
