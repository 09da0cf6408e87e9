#!/usr/bin/env python3
"""Plots what a request costs over the number of sessions.

usage: plot_costs.py RUN.. > costs.svg

Each RUN is a file with what `pcrf_checks` printed, with times, of the measure `streams_called 1000 10000 100000`, or of
`streams`. Of several runs each point is the median.
"""
import math
import re
import statistics
import sys

WIDTH, HEIGHT, LEFT, RIGHT, TOP, BOTTOM = 760, 420, 60, 230, 40, 50
COLOURS = ["#1b6ca8", "#c8553d", "#588157", "#8a5a9e", "#b08900", "#444444"]


def points_of(file):
    """The microseconds of each kind of request by the number of sessions."""
    found, sessions = {}, None
    for line in open(file, encoding="utf-8"):
        if match := re.fullmatch(r"streams(?:_called)?: (\d+) sessions\n", line):
            sessions = int(match[1])
        elif match := re.fullmatch(r"streams(?:_called)?: ([^,:]+): \d+: ([\d.]+) microseconds.*\n", line):
            found[match[1], sessions] = float(match[2])
    return found


def medians(files):
    runs = [points_of(file) for file in files]
    curves = {}
    for kind, sessions in runs[0]:
        value = statistics.median(run[kind, sessions] for run in runs)
        curves.setdefault(kind, []).append((sessions, value))
    return {kind: sorted(points) for kind, points in curves.items()}


def svg(curves):
    sizes = sorted({size for points in curves.values() for size, _ in points})
    most = max(value for points in curves.values() for _, value in points)
    step = next(it for it in (1, 2, 5, 10, 20, 50, 100, 1000) if most / it <= 8)
    top = step * math.ceil(most / step)
    low, high = math.log10(sizes[0]), math.log10(sizes[-1])
    x = lambda size: LEFT + (math.log10(size) - low) / ((high - low) or 1) * (WIDTH - LEFT - RIGHT)
    y = lambda value: HEIGHT - BOTTOM - value / top * (HEIGHT - TOP - BOTTOM)
    text = lambda at, to, said, more="": f'<text x="{at:.1f}" y="{to:.1f}" {more}>{said}</text>'
    parts = [text(LEFT, 22, "Microseconds for a request, with reading and writing, by the number of sessions")]
    for value in range(0, top + 1, step):
        parts.append(f'<path d="M{LEFT} {y(value):.1f}H{WIDTH - RIGHT}" stroke="#ddd"/>')
        parts.append(text(LEFT - 8, y(value) + 4, value, 'text-anchor="end"'))
    for size in sizes:
        parts.append(text(x(size), HEIGHT - BOTTOM + 20, f"{size:,}", 'text-anchor="middle"'))
    labels = sorted(curves, key=lambda kind: -curves[kind][-1][1])
    at = TOP
    for kind, colour in zip(labels, COLOURS):
        points = curves[kind]
        path = " ".join(f"{x(size):.1f},{y(value):.1f}" for size, value in points)
        parts.append(f'<polyline points="{path}" fill="none" stroke="{colour}" stroke-width="2"/>')
        at = max(at + 16, y(points[-1][1]) + 4)
        parts.append(text(WIDTH - RIGHT + 10, at, f"{kind}: {points[-1][1]:.1f}", f'fill="{colour}"'))
    body = "\n".join(parts)
    head = f'<svg xmlns="http://www.w3.org/2000/svg" width="{WIDTH}" height="{HEIGHT}" font-family="sans-serif" font-size="12">'
    return f'{head}\n<rect width="100%" height="100%" fill="white"/>\n{body}\n</svg>'


if __name__ == "__main__":
    if len(sys.argv) < 2:
        sys.exit(__doc__)
    print(svg(medians(sys.argv[1:])))
