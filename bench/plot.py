#!/usr/bin/env python3
"""Draws docs/measures.svg from bench/measures.txt: seconds against bytes of the source, a panel for each bench script, both on scales of
logarithms. A line joins the sources of one name, numbers in it left out; a dashed line is a second for each MiB.

usage: bench/plot.py                      draws the picture
       bench/plot.py NAME < LINES         puts what bench/NAME.py printed in place of its lines in bench/measures.txt, and draws
"""

import math
import os
import re
import sys

TOP = os.path.dirname(os.path.dirname(os.path.abspath(__file__)))
FIGURES = f"{TOP}/bench/measures.txt"
PICTURE = f"{TOP}/docs/measures.svg"
# What each bench script times, in the order of the panels.
PANELS = {
    "read": "check: reading",
    "names": "check: names",
    "check": "check: kinds and types",
    "recheck": "recheck",
    "build": "build",
    "run": "run",
}
# A line that a bench script prints: the name, the bytes, the seconds, the megabytes.
PRINTED = re.compile(r"^\s*(\S.*?)\s+(\d+)(?: and +\d+)? bytes +([\d.]+) s .*?([\d.]+) MB")

WIDTH, HEIGHT, COLUMNS = 300, 210, 3
LEFT, RIGHT, TITLE, BELOW = 46, 12, 26, 34
BYTES = (256, 1 << 21)
SECONDS = (0.001, 20.0)


def figures():
    """The lines of the file: bench, source, bytes, seconds, megabytes."""
    with open(FIGURES, encoding="utf-8") as file:
        lines = [line.rstrip("\n").split("\t") for line in file if line.strip() and not line.startswith("#")]
    return [(bench, source, int(size), float(seconds), megabytes) for bench, source, size, seconds, megabytes in lines]


def replaced(bench, printed):
    """Puts what a bench printed in place of its lines."""
    found = [match.groups() for match in map(PRINTED.match, printed) if match]
    if not found:
        sys.exit(f"no line of bench/{bench}.py")
    with open(FIGURES, encoding="utf-8") as file:
        lines = file.readlines()
    comments = [line for line in lines if line.startswith("#")]
    held = {name: [line for line in lines if line.startswith(name + "\t")] for name in PANELS}
    held[bench] = ["\t".join([bench, *groups]) + "\n" for groups in found]
    with open(FIGURES, "w", encoding="utf-8") as file:
        file.writelines(comments + [line for name in PANELS for line in held[name]])


def share(value, bounds):
    """Where a value stands between two bounds, by logarithms."""
    low, high = map(math.log, bounds)
    return (math.log(value) - low) / (high - low)


def across(size):
    return LEFT + share(size, BYTES) * (WIDTH - LEFT - RIGHT)


def down(seconds):
    return HEIGHT - BELOW - share(seconds, SECONDS) * (HEIGHT - BELOW - TITLE)


def text(x, y, words, anchor="middle", size=10, more=""):
    return f'<text x="{x:.1f}" y="{y:.1f}" text-anchor="{anchor}" font-size="{size}"{more}>{words}</text>'


def line(x, y, to_x, to_y, style):
    return f'<line x1="{x:.1f}" y1="{y:.1f}" x2="{to_x:.1f}" y2="{to_y:.1f}" {style}/>'


def escaped(words):
    return words.replace("&", "&amp;").replace("<", "&lt;").replace(">", "&gt;")


def frame(title):
    """The title, the axes and the grid of a panel."""
    grid = 'stroke="#dddddd" stroke-width="1"'
    made = [text(LEFT, 16, title, "start", 12, ' font-weight="bold"')]
    for size, name in ((1 << 10, "1 KiB"), (1 << 14, "16 KiB"), (1 << 17, "128 KiB"), (1 << 20, "1 MiB")):
        made.append(line(across(size), TITLE, across(size), HEIGHT - BELOW, grid))
        made.append(text(across(size), HEIGHT - BELOW + 13, name))
    for seconds, name in ((0.001, "1 ms"), (0.01, "10 ms"), (0.1, "0.1 s"), (1, "1 s"), (10, "10 s")):
        made.append(line(LEFT, down(seconds), WIDTH - RIGHT, down(seconds), grid))
        made.append(text(LEFT - 5, down(seconds) + 3.5, name, "end"))
    least = SECONDS[0] * (1 << 20)
    made.append(line(across(least), down(SECONDS[0]), across(BYTES[1]), down(2), 'stroke="#888888" stroke-width="1" stroke-dasharray="4 3"'))
    made.append(text((LEFT + WIDTH - RIGHT) / 2, HEIGHT - 6, "bytes of the source"))
    return made


def panel(bench, rows):
    made = frame(PANELS[bench])
    series = {}
    for _, source, size, seconds, megabytes in rows:
        series.setdefault(re.sub(r"\b[\d,]+\b", "#", source), []).append((size, seconds, source, megabytes))
    for points in series.values():
        points.sort()
        joined = " ".join(f"{across(size):.1f},{down(seconds):.1f}" for size, seconds, _, _ in points)
        if len(points) > 1:
            made.append(f'<polyline points="{joined}" fill="none" stroke="#1f6fb2" stroke-width="1" opacity="0.6"/>')
        for size, seconds, source, megabytes in points:
            said = f"{escaped(source)}: {size:,} bytes, {seconds:g} s" + ("" if megabytes == "-" else f", {float(megabytes):g} MB")
            made.append(
                f'<circle cx="{across(size):.1f}" cy="{down(seconds):.1f}" r="3" fill="#1f6fb2" fill-opacity="0.55"><title>{said}</title></circle>'
            )
    return made


def main():
    if len(sys.argv) > 1:
        if sys.argv[1] not in PANELS or len(sys.argv) > 2:
            sys.exit(__doc__.strip())
        replaced(sys.argv[1], sys.stdin)
    rows = figures()
    lines = -(-len(PANELS) // COLUMNS)
    made = [
        f'<svg xmlns="http://www.w3.org/2000/svg" viewBox="0 0 {WIDTH * COLUMNS} {HEIGHT * lines}" font-family="sans-serif" fill="#222222">',
        '<rect width="100%" height="100%" fill="#ffffff"/>',
    ]
    for at, bench in enumerate(PANELS):
        made.append(f'<g transform="translate({at % COLUMNS * WIDTH} {at // COLUMNS * HEIGHT})">')
        made += panel(bench, [row for row in rows if row[0] == bench])
        made.append("</g>")
    made.append("</svg>")
    with open(PICTURE, "w", encoding="utf-8") as file:
        file.write("\n".join(made) + "\n")


if __name__ == "__main__":
    main()
