#!/usr/bin/env python3
"""Draws two sites with a gateway, an application function and their letters.

usage: draw_sites.py > sites.svg
"""

WIDTH, HEIGHT = 820, 300
SITE, PEER, LETTER = "#dbe9f4", "#f3efe4", "#1b6ca8"


def box(x, y, width, height, colour, title, *lines):
    """A box with its title and further lines."""
    parts = [f'<rect x="{x}" y="{y}" width="{width}" height="{height}" rx="6" fill="{colour}" stroke="#444"/>',
             f'<text x="{x + width / 2}" y="{y + 26}" text-anchor="middle" font-weight="bold">{title}</text>']
    parts += [f'<text x="{x + width / 2}" y="{y + 50 + 18 * row}" text-anchor="middle" font-size="12">{line}</text>'
              for row, line in enumerate(lines)]
    return parts


def arrow(x1, y1, x2, y2, said, at, colour="#444"):
    """An arrow with what it carries, written at a place."""
    anchor = at[2] if len(at) > 2 else "middle"
    return [f'<line x1="{x1}" y1="{y1}" x2="{x2}" y2="{y2}" stroke="{colour}" stroke-width="1.6" marker-end="url(#head)"/>',
            f'<text x="{at[0]}" y="{at[1]}" text-anchor="{anchor}" font-size="12" fill="{colour}">{said}</text>']


def note(said, x, y):
    """A second line beside an arrow."""
    return [f'<text x="{x}" y="{y}" font-size="12" fill="#444">{said}</text>']


def picture():
    """All parts, from the back to the front."""
    head = ('<defs><marker id="head" viewBox="0 0 10 10" refX="9" refY="5" markerWidth="7" markerHeight="7" orient="auto">'
            '<path d="M0 0L10 5L0 10z" fill="#444"/></marker></defs>')
    parts = [head, f'<rect width="{WIDTH}" height="{HEIGHT}" fill="white"/>']
    parts += box(20, 20, 220, 62, PEER, "gateway", "carries a subscriber's flows")
    parts += box(580, 20, 220, 62, PEER, "application function", "sets up the subscriber's call")
    parts += box(20, 190, 220, 90, SITE, "site 0", "holds facts", "answers and pushes by them")
    parts += box(580, 190, 220, 90, SITE, "site 1", "holds facts", "answers and pushes by them")
    parts += arrow(200, 82, 200, 188, "Gx: a session begins,", (212, 132, "start")) + note("changes, ends", 212, 148)
    parts += arrow(60, 190, 60, 84, "rules to install", (70, 132, "start")) + note("and to remove", 70, 148)
    parts += arrow(620, 82, 620, 188, "Rx: a call begins,", (500, 132, "start")) + note("changes, ends", 500, 148)
    parts += arrow(760, 190, 760, 84, "granted,", (670, 132, "start")) + note("or why not", 670, 148)
    parts += arrow(578, 215, 242, 215, "letter: the operations that site 0 lacks", (410, 208), LETTER)
    parts += arrow(242, 255, 578, 255, "letter: what site 0 took of site 1", (410, 273), LETTER)
    return parts


print(f'<svg xmlns="http://www.w3.org/2000/svg" viewBox="0 0 {WIDTH} {HEIGHT}" width="{WIDTH}" height="{HEIGHT}" '
      'font-family="sans-serif" font-size="14">')
print("\n".join(picture()))
print("</svg>")
