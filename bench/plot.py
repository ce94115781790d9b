#!/usr/bin/env python3
"""Draws how time grows with rows, and puts the table into the page.

    plot.py TABLE PICTURE PAGE

The table replaces what stands in the page between the lines that mark its begin and its end.
"""

import math
import sys

WIDTH, HEIGHT = 760, 460
LEFT, RIGHT, TOP, BOTTOM = 70, 190, 50, 60
SIZES = (8, 16, 32, 64)
COLOURS = {"loose": "#1b7f5c", "tight": "#1f5fa8", "overfull": "#b8860b", "slow": "#b03030"}
BEGIN, END = "<!-- table -->", "<!-- end of table -->"


def read(path):
    """For each class, the times of both programs by rows."""
    times = {}
    with open(path, encoding="utf-8") as file:
        for line in file:
            cells = [cell.strip() for cell in line.strip().strip("|").split("|")]
            if cells[0] in COLOURS:
                times.setdefault(cells[0], []).append((int(cells[1]), float(cells[6]), float(cells[7])))
    return times


def draw(times):
    high = max(t for points in times.values() for point in points for t in point[1:])
    low = min(t for points in times.values() for point in points for t in point[1:])
    decades = range(math.floor(math.log10(low)), math.ceil(math.log10(high)) + 1)
    floor, span = decades[0], decades[-1] - decades[0]

    def x(rows):
        return LEFT + (WIDTH - LEFT - RIGHT) * math.log2(rows / 8) / 3

    def y(time):
        return HEIGHT - BOTTOM - (HEIGHT - TOP - BOTTOM) * (math.log10(time) - floor) / span

    def text(at_x, at_y, words, anchor="middle", colour="#222"):
        return f'<text x="{at_x:.1f}" y="{at_y:.1f}" text-anchor="{anchor}" fill="{colour}">{words}</text>'

    parts = [
        f'<svg xmlns="http://www.w3.org/2000/svg" viewBox="0 0 {WIDTH} {HEIGHT}" font-family="sans-serif" font-size="13">',
        f'<rect width="{WIDTH}" height="{HEIGHT}" fill="white"/>',
        text((LEFT + WIDTH - RIGHT) / 2, 26, "Processor time, in units of the plain program's on 8 rows of the class"),
        text((LEFT + WIDTH - RIGHT) / 2, HEIGHT - 16, "rows"),
    ]
    for decade in decades:
        at = y(10**decade)
        parts.append(f'<line x1="{LEFT}" y1="{at:.1f}" x2="{WIDTH - RIGHT}" y2="{at:.1f}" stroke="#ddd"/>')
        parts.append(text(LEFT - 8, at + 4, f"{10.0 ** decade:g}", "end"))
    for rows in SIZES:
        at = x(rows)
        parts.append(f'<line x1="{at:.1f}" y1="{TOP}" x2="{at:.1f}" y2="{HEIGHT - BOTTOM}" stroke="#ddd"/>')
        parts.append(text(at, HEIGHT - BOTTOM + 20, rows))
    for kind, points in times.items():
        for column, dash in ((1, ""), (2, ' stroke-dasharray="5 4"')):
            line = " ".join(f"{x(point[0]):.1f},{y(point[column]):.1f}" for point in points)
            parts.append(f'<polyline points="{line}" fill="none" stroke="{COLOURS[kind]}" stroke-width="2"{dash}/>')
        for point in points:
            parts.append(f'<circle cx="{x(point[0]):.1f}" cy="{y(point[1]):.1f}" r="3.5" fill="{COLOURS[kind]}"/>')
    at = TOP + 10
    for kind, colour in COLOURS.items():
        parts.append(f'<line x1="{WIDTH - RIGHT + 20}" y1="{at}" x2="{WIDTH - RIGHT + 50}" y2="{at}" stroke="{colour}" stroke-width="2"/>')
        parts.append(text(WIDTH - RIGHT + 58, at + 4, kind, "start"))
        at += 22
    for words, dash in (("plan", ""), ("plain program", ' stroke-dasharray="5 4"')):
        parts.append(f'<line x1="{WIDTH - RIGHT + 20}" y1="{at + 12}" x2="{WIDTH - RIGHT + 50}" y2="{at + 12}" stroke="#222" stroke-width="2"{dash}/>')
        parts.append(text(WIDTH - RIGHT + 58, at + 16, words, "start"))
        at += 22
    return "\n".join(parts + ["</svg>", ""])


def main():
    table, picture, page = sys.argv[1:4]
    with open(picture, "w", encoding="utf-8") as file:
        file.write(draw(read(table)))
    with open(table, encoding="utf-8") as file:
        rows = file.read()
    with open(page, encoding="utf-8") as file:
        before, _, rest = file.read().partition(BEGIN)
    after = rest.partition(END)[2]
    with open(page, "w", encoding="utf-8") as file:
        file.write(f"{before}{BEGIN}\n{rows}{END}{after}")


if __name__ == "__main__":
    main()
