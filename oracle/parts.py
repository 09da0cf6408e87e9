"""The parts of what the program `pcrf_checks` reads and prints: a line that begins with `= ` says of which check the lines behind it are."""
import re


def lines_of(check):
    """Finds the lines of a check."""
    return re.compile(rf"(?<=^= {check}\n)(?:(?!= ).*\n)*", re.M)


def part(text, check):
    """The lines of a check."""
    return lines_of(check).search(text)[0]


def with_part(text, check, lines):
    """The text with other lines of a check."""
    return lines_of(check).sub(lambda _: lines, text, count=1)
