#!/usr/bin/env python3
"""plots.py [--check]: draws docs/plots/*.svg from the tables of docs/BENCHMARKS.md, whose numbers are those of
`make bench`. With --check it writes nothing, and names each plot that is not what it would draw.
"""
import math
import os
import sys

ROOT = os.path.dirname(os.path.dirname(os.path.abspath(__file__)))
FOLDER = f"{ROOT}/docs/plots"
WIDTH, HEIGHT, LEFT, BOTTOM, TOP = 720, 320, 60, 50, 40
COLOURS = ("#1b6ca8", "#c0504d", "#d9a441", "#6a8f3c")
STYLE = ("<style>text{font:13px sans-serif;fill:#333}line{stroke:#999}.grid{stroke:#ddd}"
         "@media(prefers-color-scheme:dark){text{fill:#ddd}.grid{stroke:#444}}</style>")


def tables():
    """Every table of the page: its heads, and its rows of cells."""
    found, rows = [], []
    with open(f"{ROOT}/docs/BENCHMARKS.md", encoding="utf-8") as it:
        for line in [*it, ""]:
            if line.startswith("|"):
                rows.append([cell.strip() for cell in line.strip().strip("|").split("|")])
            elif rows:
                found.append((rows[0], rows[2:]))
                rows = []
    return found


def table(*heads):
    return next(rows for head, rows in tables() if head[:len(heads)] == list(heads))


def number(cell):
    return float(cell.split()[0].replace(",", ""))


class Plot:
    def __init__(self, title, names, least, most, is_log=False):
        self.least, self.most, self.is_log, self.parts = least, most, is_log, []
        self.text(WIDTH / 2, 18, title, "middle")
        for at, name in enumerate(names):
            x = LEFT + at * (WIDTH - LEFT) / max(len(names), 3)
            self.parts.append(f'<rect x="{x:.0f}" y="{HEIGHT - 14}" width="11" height="11" fill="{COLOURS[at]}"/>')
            self.text(x + 16, HEIGHT - 4, name)

    def text(self, x, y, said, anchor="start"):
        self.parts.append(f'<text x="{x:.1f}" y="{y:.1f}" text-anchor="{anchor}">{said}</text>')

    def height(self, value):
        share = ((math.log(value / self.least) / math.log(self.most / self.least)) if self.is_log
                 else (value - self.least) / (self.most - self.least))
        return HEIGHT - BOTTOM - share * (HEIGHT - BOTTOM - TOP)

    def grid(self, values, said=str):
        for value in values:
            y = self.height(value)
            self.parts.append(f'<line class="grid" x1="{LEFT}" y1="{y:.1f}" x2="{WIDTH - 10}" y2="{y:.1f}"/>')
            self.text(LEFT - 6, y + 4, said(value), "end")

    def bars(self, groups):
        step = (WIDTH - LEFT - 10) / len(groups)
        for at, (name, values) in enumerate(groups):
            width = step * 0.8 / len(values)
            self.text(LEFT + (at + 0.5) * step, HEIGHT - BOTTOM + 16, name, "middle")
            for place, value in enumerate(values):
                x, y = LEFT + (at + 0.1) * step + place * width, self.height(value)
                self.parts.append(f'<rect x="{x:.1f}" y="{y:.1f}" width="{width - 1:.1f}" '
                                  f'height="{HEIGHT - BOTTOM - y:.1f}" fill="{COLOURS[place]}"/>')

    def svg(self):
        return (f'<svg xmlns="http://www.w3.org/2000/svg" viewBox="0 0 {WIDTH} {HEIGHT}" width="{WIDTH}" '
                f'height="{HEIGHT}">{STYLE}\n' + "\n".join(self.parts) + "\n</svg>\n")


def steps():
    rows, compilers, groups = table("profile", "compiler"), [], {}
    for profile, compiler, _, _, mean, _ in rows:
        compilers += [compiler] if compiler not in compilers else []
        groups.setdefault(profile, []).append(number(mean))
    plot = Plot("Instructions executed a call, on average (logarithmic)", compilers, 4, 256, True)
    plot.grid((4, 8, 16, 32, 64, 128, 256))
    plot.bars(list(groups.items()))
    return plot.svg()


def by_number(heads, title, names, scale, said):
    rows = table(*heads)
    most = max(number(cell) for row in rows for cell in row[1:]) * scale
    grid = 10 ** math.floor(math.log10(most))
    top = math.ceil(most / grid) * grid
    plot = Plot(title, names, 0, top)
    plot.grid([top * part / 4 for part in range(5)], said)
    plot.bars([(f"{row[0]}", [number(cell) * scale for cell in row[1:]]) for row in rows])
    return plot.svg()


PLOTS = {
    "steps.svg": steps,
    "calls.svg": lambda: by_number(("clients", "scriptd", "plain C"), "Calls a second, by clients at a time",
                                   ("scriptd", "plain C"), 1, lambda value: f"{value:,.0f}"),
    "settle.svg": lambda: by_number(("workers", "110 pods settle in"),
                                    "Milliseconds until 110 pods are settled, by workers",
                                    ("nodeagent --with-runtime",), 1000, lambda value: f"{value:,.0f}"),
}


def main():
    stale = []
    for name, draw in PLOTS.items():
        path, drawn = f"{FOLDER}/{name}", draw()
        old = open(path, encoding="utf-8").read() if os.path.exists(path) else None
        if old != drawn and "--check" in sys.argv:
            stale.append(name)
        elif old != drawn:
            os.makedirs(FOLDER, exist_ok=True)
            with open(path, "w", encoding="utf-8") as it:
                it.write(drawn)
    if stale:
        sys.exit(f"plots: not drawn from today's tables: {' '.join(stale)}")


main()
