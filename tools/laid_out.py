"""Breaks the lines of a proof that have more than 140 columns, each at the space that stands in the fewest brackets."""

import re

WIDTH = 140


def spaces(line):
    """The places of the spaces after the indentation, each with how many brackets are open there."""
    depth = 0
    for place, letter in enumerate(line):
        if letter in "([{":
            depth += 1
        elif letter in ")]}":
            depth -= 1
        elif letter == " " and line[:place].strip():
            yield place, depth


def worth(line, place, depth):
    """How good a line's end is at a place: after few open brackets, far to the right, and beside an operator."""
    before, after = line[:place], line[place + 1 :]
    worth = place / 8 - 14 * depth
    if re.search(r"(λ|let)( [^.()]*)?$", before) or re.search(r" [:≡∙+*≤<×-]$", before) or re.match(r"[→:=+*<%/^-] ", after):
        worth -= 50
    if re.search(r"( in| =|,|→)$", before) or re.match(r"[≡∙] ", after):
        worth += 6
    return worth


def broken(line):
    indent = " " * (len(line) - len(line.lstrip()) + 4)
    while len(line) > WIDTH:
        places = [(p, d) for p, d in spaces(line) if len(indent) + 4 < p <= WIDTH]
        if not places:
            break
        place, _ = max(places, key=lambda at: worth(line, *at))
        yield line[:place]
        line = indent + line[place + 1 :]
    yield line


def laid_out(text):
    return "\n".join(part for line in text.split("\n") for part in broken(line))
