#!/usr/bin/env python3
"""From questions.csv and time.csv in a folder: questions.svg and table.md.

    bench/figure.py FOLDER

The curves and the first table are of random parts among 4,096. Prints how near
the machine comes to the least possible, and where another method asks fewer.
"""

import csv
import math
import sys
from pathlib import Path

# Each method's name, and how its curve is drawn: colour, dashes, marker.
METHODS = {
    "hidlombe": ("Hidlombe", "#d00000", "", "circle"),
    "halving": ("halving only", "#0072b2", "8 3", "square"),
    "ddmin": ("ddmin", "#e69f00", "2 3", "triangle"),
    "quickxplain": ("QuickXplain", "#009e73", "10 3 2 3", "diamond"),
    "chunks": ("chunk-halving", "#8a4fae", "5 2 1 2 1 2", "cross"),
    "one-by-one": ("one by one", "#777777", "1 2", "plus"),
}
LEAST = ("least possible", "#000000", "6 4", None)

WIDTH, HEIGHT = 900, 560
LEFT, RIGHT, TOP, BOTTOM = 80, 180, 50, 60
N = 4096
FEWEST, MOST = 10, 100_000


def read(file):
    """The means of each cell, by judge, n and k: of each method, and the least."""
    cells = {}
    with open(file, newline="") as lines:
        for row in csv.DictReader(lines):
            cell = cells.setdefault((row["judge"], int(row["n"]), int(row["k"])), {})
            cell[row["method"]] = float(row["mean"])
            cell["least"] = float(row["least"])
    return cells


# The curves

def x_of(k):
    return LEFT + (WIDTH - LEFT - RIGHT) * math.log(k) / math.log(N)


def y_of(questions):
    share = math.log(questions / FEWEST) / math.log(MOST / FEWEST)
    return HEIGHT - BOTTOM - (HEIGHT - TOP - BOTTOM) * share


def marker(shape, x, y, colour):
    lines = {
        "square": f"M{x - 4:.1f} {y - 4:.1f}h8v8h-8z",
        "triangle": f"M{x:.1f} {y - 5:.1f}l5 9h-10z",
        "diamond": f"M{x:.1f} {y - 5.5:.1f}l5 5.5l-5 5.5l-5 -5.5z",
        "cross": f"M{x - 4:.1f} {y - 4:.1f}l8 8m-8 0l8 -8",
        "plus": f"M{x - 5:.1f} {y:.1f}h10m-5 -5v10",
    }
    if shape is None:
        return ""
    if shape == "circle":
        return f'<circle cx="{x:.1f}" cy="{y:.1f}" r="4" fill="{colour}"/>'
    return f'<path d="{lines[shape]}" fill="white" stroke="{colour}" stroke-width="1.5"/>'


def curve(points, style):
    _, colour, dashes, shape = style
    places = [(x_of(k), y_of(questions)) for k, questions in points]
    path = " ".join(f"{x:.1f},{y:.1f}" for x, y in places)
    dash = f' stroke-dasharray="{dashes}"' if dashes else ""
    return [f'<polyline points="{path}" fill="none" stroke="{colour}" stroke-width="2"{dash}/>',
            *(marker(shape, x, y, colour) for x, y in places)]


def text(x, y, words, anchor="middle", more=""):
    return f'<text x="{x:.1f}" y="{y:.1f}" text-anchor="{anchor}"{more}>{words}</text>'


def grid():
    right, bottom = WIDTH - RIGHT, HEIGHT - BOTTOM
    lines = []
    for k in [1, 2, 5, 10, 20, 50, 100, 200, 500, 1000, 2000, 4096]:
        lines.append(f'<path d="M{x_of(k):.1f} {TOP}V{bottom}" stroke="#ddd"/>')
        lines.append(text(x_of(k), bottom + 18, f"{k:,}"))
    for power in range(1, 6):
        for digit in (1, 2, 5):
            y = digit * 10 ** power
            if y <= MOST:
                lines.append(f'<path d="M{LEFT} {y_of(y):.1f}H{right}" stroke="#ddd"/>')
                lines.append(text(LEFT - 8, y_of(y) + 4, f"{y:,}", "end"))
    middle = (LEFT + right) / 2
    high = (TOP + bottom) / 2
    return [
        *lines,
        f'<path d="M{LEFT} {TOP}V{bottom}H{right}" fill="none" stroke="black"/>',
        text(middle, 28, "Questions asked to find k random parts of 4,096 that fail together (mean)", "middle",
             ' font-size="15"'),
        text(middle, HEIGHT - 16, "k, the parts that are left"),
        text(20, high, "questions", "middle", f' transform="rotate(-90 20 {high:.0f})"'),
    ]


def legend(styles):
    lines = []
    for i, (name, colour, dashes, shape) in enumerate(styles):
        x, y = WIDTH - RIGHT + 16, TOP + 16 + 24 * i
        dash = f' stroke-dasharray="{dashes}"' if dashes else ""
        lines.append(f'<path d="M{x} {y}h40" stroke="{colour}" stroke-width="2"{dash}/>')
        lines.append(marker(shape, x + 20, y, colour))
        lines.append(text(x + 48, y + 4, name, "start"))
    return lines


def figure(cells):
    ks = sorted(k for judge, n, k in cells if (judge, n) == ("random", N) and k > 0)
    lines = grid()
    for key, style in [("least", LEAST), *reversed(METHODS.items())]:
        points = [(k, cells["random", N, k][key]) for k in ks if key in cells["random", N, k]]
        lines += curve(points, style)
    lines += legend([*METHODS.values(), LEAST])
    return "\n".join([
        f'<svg xmlns="http://www.w3.org/2000/svg" viewBox="0 0 {WIDTH} {HEIGHT}" width="{WIDTH}" height="{HEIGHT}"'
        ' font-family="sans-serif" font-size="12">',
        '<rect width="100%" height="100%" fill="white"/>',
        *(line for line in lines if line),
        "</svg>\n"])


# The tables

def table(cells, columns):
    """A row for each method; the fewest of each column stand bold."""
    lines = ["| mean questions | " + " | ".join(title for title, _ in columns) + " |",
             "|---|" + "---:|" * len(columns)]
    fewest = [min(mean for method, mean in cells[key].items() if method != "least") for _, key in columns]
    for method, (name, *_) in METHODS.items():
        row = []
        for (_, key), least in zip(columns, fewest):
            mean = cells[key].get(method)
            said = "–" if mean is None else f"{mean:,.0f}"
            row.append(f"**{said}**" if mean == least else said)
        lines.append(f"| {name} | " + " | ".join(row) + " |")
    lines.append("| least possible | " + " | ".join(f"{cells[key]['least']:,.0f}" for _, key in columns) + " |")
    return lines


def tables(cells, times):
    random = [(f"{k:,}", ("random", N, k)) for k in (1, 2, 10, 100, 1000, 2000, 4096)]
    others = [(f"{k:,} in four runs, of 4,096", ("clustered", N, k)) for k in (100, 1000)]
    others += [(f"{k:,} with what they need, of 100", ("needing", 100, k)) for k in (1, 10)]
    return "\n".join([
        "So many random parts of 4,096 fail together:", "",
        *table(cells, random), "",
        "Other judges:", "",
        *table(cells, others), "",
        "The machine's own time for a question, in microseconds; the worst that was measured, and the slowest step"
        " when each is taken at the fastest of five repeats:", "",
        "| parts | mean | worst | slowest step |", "|---:|---:|---:|---:|",
        *(f"| {int(row['n']):,} | {row['mean_us']} | {row['worst_us']} | {row['worst_of_fastest_us']} |"
          for row in times), ""])


def tell(cells):
    """How near the machine comes to the least, and who asks fewer."""
    for (judge, n, k), cell in cells.items():
        mean = cell["hidlombe"]
        fewer = [f"{method} {other:.0f}" for method, other in cell.items()
                 if method in METHODS and other < mean]
        near = f"{mean / cell['least']:.3f} of the least"
        print(f"{judge} n={n} k={k}: {mean:.1f}, {near}" + (f"; fewer: {', '.join(fewer)}" if fewer else ""))


def main():
    folder = Path(sys.argv[1])
    cells = read(folder / "questions.csv")
    with open(folder / "time.csv", newline="") as lines:
        times = list(csv.DictReader(lines))
    (folder / "questions.svg").write_text(figure(cells))
    (folder / "table.md").write_text(tables(cells, times))
    tell(cells)


if __name__ == "__main__":
    main()
