#!/usr/bin/env python3
"""Draws docs/speed.svg, docs/cold.svg, docs/wrapping.svg and docs/growth.svg from tables of
docs/BENCH.md. The first three are bars: each is the first table of a section whose cells begin with
milliseconds; columns without a colour here are left out. The last has a line for each column of its
section's table, over the numbers of the first column; both axes are logarithmic.

usage: bench/picture.py          writes them
       bench/picture.py check    whether they are what would be written
"""
import math
import os
import re
import sys

HOME = os.path.dirname(os.path.dirname(os.path.realpath(__file__)))
COLOURS = {"omosd once": "#1f5fa8", "omosd": "#1f5fa8", "omos": "#1f5fa8", "hit": "#6fa3d8",
           "ld": "#9aa5b1", "ld --wrap": "#9aa5b1", "gold": "#c3a24a", "tcc": "#7a9a5b",
           "lld": "#b58ab0", "objcopy, ld -r": "#c3a24a", "make": "#d9c9a3", "ninja": "#c9c9c9"}
PICTURES = {
    "speed": ("One object, as a process", "Milliseconds to link one object, as a process"),
    "cold": ("Objects linked for the first time", "Milliseconds to publish and link objects"),
    "wrapping": ("Wrapping", "Milliseconds to wrap a function of a library, and link"),
}
LINES = {"growth": ("Growth", "Instructions of a call, by how many paths there are")}
LINE_COLOURS = ("#1f5fa8", "#c3a24a", "#7a9a5b")
LONGEST = 480 # pixels of the longest bar


def cells_of(section):
    """The names of the columns of the section's first table, and its lines of cells."""
    text = open(HOME + "/docs/BENCH.md", encoding="utf-8").read().split(f"\n## {section}\n")[1]
    lines = [line.strip("|").split("|") for line in text.split("\n") if line.startswith("|")]
    return [cell.strip(" `") for cell in lines[0]], [[c.strip() for c in x] for x in lines[2:]]


def rows(section):
    """The section's first table of times: what is linked, and the milliseconds of each column."""
    names, lines = cells_of(section)
    for cells in lines:
        times = {n: float(c.split(" ms")[0]) for n, c in zip(names, cells)
                 if n in COLOURS and re.match(r"[\d.]+ ms", c)}
        if not times:
            return
        yield cells[0], times


def drawn(section, title):
    table = list(rows(section))
    scale = LONGEST / max(time for _, times in table for time in times.values())
    lines, y = [], 26
    for what, times in table:
        lines.append(f'<text x="10" y="{y + 4}" font-weight="bold">{what}</text>')
        y += 12
        for name, time in times.items():
            width = max(1, round(time * scale))
            lines.append(f'<text x="100" y="{y + 11}" text-anchor="end">{name}</text>')
            lines.append(f'<rect x="108" y="{y}" width="{width}" height="13" '
                         f'fill="{COLOURS[name]}"/>')
            lines.append(f'<text x="{width + 114}" y="{y + 11}">{time} ms</text>')
            y += 17
        y += 20
    head = (f'<svg xmlns="http://www.w3.org/2000/svg" width="680" height="{y - 10}" '
            'font-family="sans-serif" font-size="12">')
    ground = '<rect width="100%" height="100%" fill="white"/>'
    named = f"<title>{title}; less is better</title>"
    return "\n".join([head, named, ground, *lines, "</svg>"]) + "\n"


def number(cell):
    """The number of a cell, as `167,702`, or None."""
    digits = cell.replace(",", "")
    return int(digits) if digits.isdigit() else None


def lines_of(section):
    """For each column but the first its name and its points, those of the cells with a number."""
    names, lines = cells_of(section)
    for column in range(1, len(names)):
        points = [(number(cells[0]), number(cells[column])) for cells in lines]
        points = [point for point in points if None not in point]
        if points:
            yield names[column], points


def grown(section, title):
    columns = list(lines_of(section))
    every = [point for _, points in columns for point in points]
    low_x, high_x = (f(math.log(x) for x, _ in every) for f in (min, max))
    low_y, high_y = (f(math.log10(y) for _, y in every) for f in (min, max))
    low_y, high_y = math.floor(low_y), math.ceil(high_y)

    def at(x, y):
        across = 80 + 400 * (math.log(x) - low_x) / (high_x - low_x)
        return round(across), round(260 - 230 * (math.log10(y) - low_y) / (high_y - low_y))

    out = []
    for power in range(low_y, high_y + 1):
        y = at(every[0][0], 10**power)[1]
        out.append(f'<line x1="80" y1="{y}" x2="480" y2="{y}" stroke="#dddddd"/>')
        out.append(f'<text x="74" y="{y + 4}" text-anchor="end">{10**power:,}</text>')
    for x in sorted({x for x, _ in every}):
        out.append(f'<text x="{at(x, 1)[0]}" y="280" text-anchor="middle">{x:,}</text>')
    for colour, (name, points) in zip(LINE_COLOURS, columns):
        places = [at(x, y) for x, y in points]
        path = " ".join(f"{x},{y}" for x, y in places)
        out.append(f'<polyline points="{path}" fill="none" stroke="{colour}" stroke-width="2"/>')
        out += [f'<circle cx="{x}" cy="{y}" r="3" fill="{colour}"/>' for x, y in places]
        x, y = places[-1]
        out.append(f'<text x="{x + 10}" y="{y + 4}" fill="{colour}">{name}</text>')
    head = ('<svg xmlns="http://www.w3.org/2000/svg" width="760" height="300" '
            'font-family="sans-serif" font-size="12">')
    ground = '<rect width="100%" height="100%" fill="white"/>'
    return "\n".join([head, f"<title>{title}</title>", ground, *out, "</svg>"]) + "\n"


def pictures():
    """Each picture's file and its text."""
    for name, (section, title) in PICTURES.items():
        yield f"docs/{name}.svg", drawn(section, title)
    for name, (section, title) in LINES.items():
        yield f"docs/{name}.svg", grown(section, title)


def main():
    good = wrong = 0
    for file, text in pictures():
        if sys.argv[1:] != ["check"]:
            with open(f"{HOME}/{file}", "w", encoding="utf-8") as out:
                out.write(text)
        elif open(f"{HOME}/{file}", encoding="utf-8").read() == text:
            good += 1
        else:
            print(f"FAILED: {file}")
            wrong += 1
    if sys.argv[1:] == ["check"]:
        print(f"{good} passed, {wrong} failed")
    sys.exit(wrong > 0)


if __name__ == "__main__":
    main()
