#!/usr/bin/env python3
"""Draws the crates of crates.txt in their floors, each with a line to every nearest crate below that it stands on. Lines to one crate join
on their way down, and have one colour.

usage: draw_floors.py > floors.svg
"""
import collections
import pathlib
import re

TOP = pathlib.Path(__file__).resolve().parent.parent.parent
ROW, BOX, TALL, LANE, GAP, LEFT = 64, 116, 26, 12, 14, 190
COLOURS = ["#1b6ca8", "#c8553d", "#588157", "#8a5a9e", "#b08900", "#2a9d8f", "#a23b72", "#6c757d"]


def read_floors():
    """The titles and crates of the floors from the lowest, and the crates that each crate stands on."""
    titles, floors, below = [], [], {}
    for line in (TOP / "crates.txt").read_text(encoding="utf-8").splitlines():
        if heading := re.match(r"# Floor \d+\. ([^:]+)", line):
            titles.append(heading[1])
            floors.append([])
        elif line.strip() and not line.startswith("#"):
            name, _, words = line.partition(":")
            floors[-1].append(name.split()[0])
            below[floors[-1][-1]] = words.split()
    return titles, floors, {name: [it for it in words if it in below] for name, words in below.items()}


def nearest(below):
    """Of the crates that each one stands on those to which no other of them leads."""
    reached = {}
    for name in below:  # (each stands behind those that it stands on)
        reached[name] = set(below[name]).union(*(reached[it] for it in below[name]))
    return {name: [it for it in below[name] if not any(it in reached[other] for other in below[name])] for name in below}


def lay(floors, edges):
    """Rows of crates and lanes, a lane (CRATE, FLOOR) for the lines to a crate that pass a floor; and who is joined to whom below."""
    floor_of = {name: at for at, names in enumerate(floors) for name in names}
    rows = [list(names) for names in floors]
    joined = collections.defaultdict(list)
    for name, targets in edges.items():
        for target in targets:
            above = name
            for at in range(floor_of[name] - 1, floor_of[target], -1):
                if (target, at) not in rows[at]:
                    rows[at].append((target, at))
                if (target, at) not in joined[above]:
                    joined[above].append((target, at))
                above = (target, at)
            if target not in joined[above]:
                joined[above].append(target)
    return rows, joined


def name_of(node):
    """A crate's name, or a lane's: that of its crate with the floor that it passes."""
    return f"{node[0]}@{node[1] + 1}" if isinstance(node, tuple) else node


def width_of(node):
    return LANE if isinstance(node, tuple) else BOX


def place(row, wish):
    """Places a row's nodes in the order of their wishes, none over another, as near to these as their widths let them."""
    row.sort(key=lambda node: wish[node])
    places, free = {}, -1e9
    for node in row:
        places[node] = max(free, wish[node] - width_of(node) / 2) + width_of(node) / 2
        free = places[node] + width_of(node) / 2 + GAP
    shift = sum(wish[node] - places[node] for node in row) / len(row)
    return {node: at + shift for node, at in places.items()}


def places_of(rows, joined):
    """Where each node stands from left to right: by sweeps, each node wants to be among those that it is joined to."""
    others = collections.defaultdict(list)
    for above, targets in joined.items():
        for target in targets:
            others[above].append(target)
            others[target].append(above)
    x = {node: 1000 * (at + 0.5) / len(row) for row in rows for at, node in enumerate(row)}
    for sweep in range(60):
        for row in rows if sweep % 2 else reversed(rows):
            wish = {node: sum(x[it] for it in others[node]) / len(others[node]) if others[node] else x[node] for node in row}
            x.update(place(row, wish))
    least = min(at - width_of(node) / 2 for node, at in x.items())
    return {node: at - least + LEFT for node, at in x.items()}


def svg():
    titles, floors, below = read_floors()
    edges = nearest(below)
    rows, joined = lay(floors, edges)
    x = places_of(rows, joined)
    height, width = ROW * len(rows) + 20, round(max(x.values()) + BOX / 2 + 10)
    y = {node: height - ROW * at - ROW / 2 - 10 for at, row in enumerate(rows) for node in row}
    names = [name for row in floors for name in row]
    colour = {name: COLOURS[at % len(COLOURS)] for at, name in enumerate(names)}
    parts = [f'<rect width="{width}" height="{height}" fill="white"/>']
    for at, title in enumerate(titles):
        top = height - ROW * (at + 1) - 10
        fill = "#f6f6f6" if at % 2 else "white"
        parts.append(f'<rect data-floor="{at + 1}" x="0" y="{top}" width="{width}" height="{ROW}" fill="{fill}"/>')
        words = f"{at + 1}. {title}".split(" ")
        lines = [""]
        for word in words:
            lines = [*lines[:-1], f"{lines[-1]} {word}".strip()] if len(lines[-1]) + len(word) < 24 else [*lines, word]
        first = top + ROW / 2 + 4 - 7 * (len(lines) - 1)
        parts += [f'<text x="8" y="{first + 14 * row:.0f}" fill="#555">{line}</text>' for row, line in enumerate(lines)]
    for above, targets in joined.items():
        for target in targets:
            end = target[0] if isinstance(target, tuple) else target
            y1 = y[above] + (0 if isinstance(above, tuple) else TALL / 2)
            y2 = y[target] - (0 if isinstance(target, tuple) else TALL / 2)
            middle = (y1 + y2) / 2
            x1, x2 = x[above], x[target]
            curve = f"M{x1:.0f} {y1:.0f}C{x1:.0f} {middle:.0f} {x2:.0f} {middle:.0f} {x2:.0f} {y2:.0f}"
            parts.append(f'<path data-from="{name_of(above)}" data-to="{name_of(target)}" d="{curve}" '
                         f'stroke="{colour[end]}" fill="none" stroke-width="1.3"/>')
    for name in names:
        dashes = ' stroke-dasharray="4 3"' if re.search(r"_(checks|tests)$", name) else ""
        parts.append(f'<g data-crate="{name}"><rect x="{x[name] - BOX / 2:.0f}" y="{y[name] - TALL / 2:.0f}" '
                     f'width="{BOX}" height="{TALL}" rx="4" fill="#eef4fa" stroke="{colour[name]}"{dashes}/>'
                     f'<text x="{x[name]:.0f}" y="{y[name] + 4:.0f}" text-anchor="middle">{name}</text></g>')
    head = (f'<svg xmlns="http://www.w3.org/2000/svg" viewBox="0 0 {width} {height}" width="{width}" height="{height}" '
            'font-family="sans-serif" font-size="12">')
    return "\n".join([head, *parts, "</svg>"])


print(svg())
