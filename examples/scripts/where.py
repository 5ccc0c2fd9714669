#!/usr/bin/env python3
"""Says where a triangle or an edge of a part is that a refusal names.
Usage: where.py PART [DECIMALS] triangle N | edge N ...; DECIMALS is the job's, 3 if it isn't given.
PART is an OFF or an ASCII STL, its lengths in millimetres."""
import re

import one_line
import part_text

USAGE = "usage: where.py PART [DECIMALS] triangle N | edge N ..., DECIMALS from 0 to 6"


def place(corner, decimals):
    return "(%s)" % ", ".join("%.*f" % (decimals, value / 10**decimals) for value in corner)


def main(*words):
    words = list(words)
    part, decimals = words.pop(0) if words else None, 3
    if words and re.fullmatch("[0-6]", words[0]):
        decimals = int(words.pop(0))
    pairs = list(zip(words[::2], words[1::2]))
    if not pairs or len(words) % 2 or not all(what in ("triangle", "edge") and re.fullmatch("[0-9]{1,9}", number) for what, number in pairs):
        raise one_line.Fault(USAGE)
    triangles = list(part_text.triangles(part, decimals))
    edges = part_text.edges(triangles)
    for what, number in ((what, int(number)) for what, number in pairs):
        if number >= len(edges if what == "edge" else triangles):
            raise one_line.Fault("there is no %s %d" % (what, number))
        half = edges[number] if what == "edge" else 3 * number
        line, corners = triangles[half // 3]
        if what == "edge":
            corners = corners[half % 3], corners[(half % 3 + 1) % 3]
        yield "%s %d: line %d, %s" % (what, number, line, " - ".join(place(corner, decimals) for corner in corners))


one_line.run(main)
