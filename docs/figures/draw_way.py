#!/usr/bin/env python3
"""Draws the way of an initial request down through the crates and of its answer up, each crate with the number of its files that are
entered, by docs/figures/way.txt (.ci/way); fails where ROWS lacks one of these crates, or has one that isn't entered.

usage: draw_way.py > way.svg
"""
import collections
import pathlib
import sys

LISTED = pathlib.Path(__file__).resolve().parent / "way.txt"
WIDTH, SIDE, TALL, BOX, GAP, TOP = 1040, 218, 66, 112, 10, 50
ROOM, ANSWER, REQUEST = "#eef4fa", "#c8553d", "#1b6ca8"

# From the top down: what is done on the way down, the crates in which it is, and what is done on the way up.
ROWS = [
    ("a frame is cut out, and read as AVPs", ["dia_codec"], "AVPs are written as bytes"),
    ("which command it is, and whether it is served", ["site_core"], "which AVPs answer it, and in which form"),
    ("each AVP is judged by its row of the command's table", ["gx_profile", "dia_base"], "the result, rules and default quality become AVPs"),
    ("the site refuses, or grants; what the request sets becomes facts", ["pcrf_world", "site_machine"],
     "what is told becomes facts; the operation goes to the log, the reply to the gateway"),
    ("", ["op_tables", "pcrf_model"], "the access point's default quality"),
    ("", ["pcc_rules", "rule_delta"], "the session's rules, and which its gateway lacks"),
    ("the session is put in place, and listed by its address", ["indexed_state", "bind_index"], "who else may have to be told"),
    ("facts are joined to the session's record", ["site_join", "gx_records", "lattice_core"], "the record that stood, if all has to be undone"),
    ("values that all share", ["pcrf_values"], ""),
]


def files_of(step):
    """How many files of each crate a step enters."""
    blocks = LISTED.read_text(encoding="utf-8").split("\n\n")
    lines = next(block.splitlines() for block in blocks if block.startswith(f"{step}\n"))
    return collections.Counter(line.split("/")[0] for line in lines[1:])


def lines_of(text, most):
    """A text in lines of so many letters at most."""
    lines = [""]
    for word in text.split():
        lines = [*lines[:-1], f"{lines[-1]} {word}".strip()] if len(lines[-1]) + len(word) < most else [*lines, word]
    return lines


def beside(text, x, y, anchor, colour):
    """A text beside a row, in the middle of its height."""
    if not text:
        return []
    lines = lines_of(text, 27)
    return [f'<text x="{x}" y="{y + 4 - 7.5 * (len(lines) - 1) + 15 * at}" text-anchor="{anchor}" fill="{colour}">{line}</text>'
            for at, line in enumerate(lines)]


def row(at, down, crates, up, count):
    """A row: its band, what is done on the way down and up, and its crates."""
    top = TOP + TALL * at
    middle = top + TALL / 2
    fill = "#f6f6f6" if at % 2 else "white"
    parts = [f'<rect x="0" y="{top}" width="{WIDTH}" height="{TALL}" fill="{fill}"/>']
    parts += beside(down, SIDE - 34, middle, "end", REQUEST) + beside(up, WIDTH - SIDE + 34, middle, "start", ANSWER)
    for number, name in enumerate(crates):
        x = WIDTH / 2 + (number - len(crates) / 2) * (BOX + GAP) + GAP / 2
        says = "1 file" if count[name] == 1 else f"{count[name]} files"
        parts.append(f'<g data-crate="{name}" data-files="{count[name]}"><rect x="{x:.0f}" y="{middle - 19:.0f}" width="{BOX}" height="38" rx="4" '
                     f'fill="{ROOM}" stroke="#444"/><text x="{x + BOX / 2:.0f}" y="{middle - 3:.0f}" text-anchor="middle">{name}</text>'
                     f'<text x="{x + BOX / 2:.0f}" y="{middle + 13:.0f}" text-anchor="middle" fill="#555">{says}</text></g>')
    return parts


def arrow(x, top, bottom, colour, says, is_up):
    """The way down or up, beside all rows."""
    start, end = (bottom, top) if is_up else (top, bottom)
    return [f'<line x1="{x}" y1="{start}" x2="{x}" y2="{end}" stroke="{colour}" stroke-width="2.4" marker-end="url(#{"up" if is_up else "down"})"/>',
            f'<text x="{x}" y="{top - 12}" text-anchor="middle" font-weight="bold" fill="{colour}">{says}</text>']


def head(name, colour):
    """The head of an arrow."""
    return (f'<marker id="{name}" viewBox="0 0 10 10" refX="9" refY="5" markerWidth="7" markerHeight="7" orient="auto">'
            f'<path d="M0 0L10 5L0 10z" fill="{colour}"/></marker>')


def svg():
    """The picture."""
    count = files_of("an initial request")
    drawn = [name for _, crates, _ in ROWS for name in crates]
    if sorted(drawn) != sorted(count):
        sys.exit(f"draw_way: ROWS and docs/figures/way.txt differ in {' '.join(sorted(set(drawn) ^ set(count)))}")
    height = TOP + TALL * len(ROWS) + 34
    bottom = TOP + TALL * len(ROWS) - 8
    parts = [f"<defs>{head('down', REQUEST)}{head('up', ANSWER)}</defs>", f'<rect width="{WIDTH}" height="{height}" fill="white"/>']
    for at, (down, crates, up) in enumerate(ROWS):
        parts += row(at, down, crates, up, count)
    parts += arrow(SIDE - 18, TOP, bottom, REQUEST, "request", False) + arrow(WIDTH - SIDE + 18, TOP, bottom, ANSWER, "answer", True)
    parts.append(f'<text x="{WIDTH / 2}" y="{height - 12}" text-anchor="middle">an initial CC-Request enters {count.total()} files '
                 f'in {len(count)} crates</text>')
    return "\n".join([f'<svg xmlns="http://www.w3.org/2000/svg" viewBox="0 0 {WIDTH} {height}" width="{WIDTH}" height="{height}" '
                      'font-family="sans-serif" font-size="12">', *parts, "</svg>"])


if __name__ == "__main__":
    print(svg())
