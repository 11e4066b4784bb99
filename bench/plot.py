#!/usr/bin/env python3
"""Draws a table of bench/run (standard input or a file) as SVG: a dot for each row, its ratio on a logarithmic scale, in groups by entry and n.

plot.py TABLE > docs/speed.svg
"""
import math
import sys

WIDTH, HEIGHT, LEFT, TOP, BOTTOM = 980, 460, 60, 40, 110
COLOURS = {"4": "#4477aa", "16": "#228833", "64": "#cc6677"}
LEAST, MOST = 0.5, 20.0
FLOORS = {("build", 256): 1.5, ("build", 1024): 2.0, ("build", 4096): 3.0, ("search", None): 1.0, ("iterate", None): 1.5}


def rows(text):
    """Entry, n, lanes, style, k, ratio with zeroing set apart."""
    for line in text.splitlines():
        cells = [c.strip() for c in line.strip().strip("|").split("|")]
        if len(cells) == 11 and cells[1].isdigit():
            yield cells[0], int(cells[1]), cells[2], cells[3], cells[4], float(cells[9])


def height(ratio):
    part = (math.log(ratio) - math.log(LEAST)) / (math.log(MOST) - math.log(LEAST))
    return HEIGHT - BOTTOM - part * (HEIGHT - BOTTOM - TOP)


def floor_of(entry, n):
    name = entry.split()[0]
    return FLOORS.get((name, n), FLOORS.get((name, None)))


def dot(x, row):
    _, _, lanes, style, k, ratio = row
    y, colour = height(ratio), COLOURS[lanes]
    title = f"<title>{lanes} lanes, {style}{', k ' + k if k else ''}: {ratio:.2f}</title>"
    if style == "uniform":
        return f'<circle cx="{x:.1f}" cy="{y:.1f}" r="4" fill="{colour}">{title}</circle>'
    return f'<rect x="{x - 4:.1f}" y="{y - 4:.1f}" width="8" height="8" fill="none" stroke="{colour}" stroke-width="2">{title}</rect>'


def axis(out):
    for ratio in (0.5, 1, 2, 5, 10, 20):
        y = height(ratio)
        colour = "#000" if ratio == 1 else "#ddd"
        out.append(f'<line x1="{LEFT}" y1="{y:.1f}" x2="{WIDTH - 10}" y2="{y:.1f}" stroke="{colour}"/>')
        out.append(f'<text x="{LEFT - 8}" y="{y + 4:.1f}" text-anchor="end">{ratio:g}</text>')


def legend(out):
    x, y = LEFT, HEIGHT - 30
    for lanes, colour in COLOURS.items():
        out.append(f'<circle cx="{x}" cy="{y - 4}" r="4" fill="{colour}"/><text x="{x + 9}" y="{y}">{lanes} lanes</text>')
        x += 100
    out.append(f'<text x="{x}" y="{y}">full: uniform lanes; hollow: clustered; in a group by k (search and descent); dashed: the floor</text>')


def draw(groups):
    out = [
        f'<svg xmlns="http://www.w3.org/2000/svg" width="{WIDTH}" height="{HEIGHT}" font-family="sans-serif" font-size="12">',
        f'<rect width="{WIDTH}" height="{HEIGHT}" fill="#fff"/>',
        f'<text x="{LEFT}" y="22" font-size="15">CPU time of the Rust over ours (search: zeroing set apart); above 1 ours is faster</text>',
    ]
    axis(out)
    wide = (WIDTH - LEFT - 20) / max(1, len(groups))
    for g, ((entry, n), members) in enumerate(groups.items()):
        left = LEFT + 10 + g * wide
        ks = sorted({row[4] for row in members}, key=lambda k: int(k or 0))
        for row in members:
            at = (ks.index(row[4]) + 0.5) / len(ks) + (0.08 if row[3] == "clustered" else -0.08)
            out.append(dot(left + at * (wide - 14), row))
        floor = floor_of(entry, n)
        if floor:
            y = height(floor)
            out.append(f'<line x1="{left:.1f}" y1="{y:.1f}" x2="{left + wide - 14:.1f}" y2="{y:.1f}" stroke="#000" stroke-dasharray="4 3"/>')
        middle = left + (wide - 14) / 2
        out.append(f'<text x="{middle:.1f}" y="{HEIGHT - 85}" text-anchor="middle">{entry}</text><text x="{middle:.1f}" y="{HEIGHT - 68}" text-anchor="middle">n {n:,}</text>')
    legend(out)
    out.append("</svg>")
    return "\n".join(out)


def main():
    text = open(sys.argv[1]).read() if len(sys.argv) > 1 else sys.stdin.read()
    groups = {}
    for row in rows(text):
        groups.setdefault((row[0], row[1]), []).append(row)
    print(draw(dict(sorted(groups.items(), key=lambda g: (g[0][0], g[0][1])))))


if __name__ == "__main__":
    main()
