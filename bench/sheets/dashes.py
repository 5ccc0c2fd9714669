#!/usr/bin/env python3
"""dashes.py SHEET.svg..: whether the pens, the dashes and the chain lines of sheets that `sheet` wrote are those of the rules.

The rules are worked out anew here, from docs/formats.md ("Fitted dashes", "Chain lines in step", "The kinds of lines") and from the
page's size alone. Prints each difference, and at the end how much was compared; ends with 1 if anything differs."""
import re
import sys
from fractions import Fraction as F
from math import isqrt


def widths_of(width, height):
    """The widths of wide and of narrow lines, in mm, on a page of this width and height in mm."""
    fits_a4 = min(width, height) <= 210 and max(width, height) <= 297
    return (F("0.35"), F("0.18")) if fits_a4 else (F("0.5"), F("0.25"))


def length_of(points, closed):
    """The length of a path in mm: each side is cut off to 10^-6 mm. Points are in hundredths of a millimetre."""
    ends = points[1:] + points[:1] if closed else points[1:]
    sides = [isqrt(((a[0] - b[0]) ** 2 + (a[1] - b[1]) ** 2) * 10 ** 8) for a, b in zip(points, ends)]
    return F(sum(sides), 10 ** 6)


def cut(length):
    """A length in mm, cut off to 10^-6 mm."""
    return F(length * 10 ** 6 // 1, 10 ** 6)


def nearest(number):
    """The nearest whole number; halves are rounded up."""
    return (number + F(1, 2)) // 1


def dashes_of(points, closed, width):
    """The dash and the gap of a hidden path in mm, or None where it is drawn whole."""
    length = length_of(points, closed)
    if length < F("1.5"):
        return None
    period, gap = 15 * width, 3 * width
    count = max(2, nearest(length / period) if closed else nearest((length + gap) / period))
    gaps = count if closed else count - 1
    gap = max(F("0.5"), cut(length / (5 * count if closed else 5 * count - 1)))
    return cut((length - gaps * gap) / count), gap


def written(length, digits):
    """A length in mm as a sheet has it: in hundredths, with so many digits."""
    number = length * 100 * 10 ** digits
    assert number.denominator == 1
    return "%d.%0*d" % (number // 10 ** digits, digits, number % 10 ** digits)


def pattern_of(width):
    """The dash, the gap, the dot and the gap of chain lines, in mm."""
    return [24 * width, 3 * width, width / 2, 3 * width]


def offset_of(begin, end, width):
    """How far into the pattern a chain line begins, in mm: its dashes stand from the whole multiples of the pattern's length on."""
    k = 1 if begin[0] == end[0] else 0
    place, toward = F(begin[k], 100), F(end[k], 100)
    pattern = pattern_of(width)
    if place <= toward:
        return place % sum(pattern)
    # backward a dash begins where it ends in the other direction
    return (pattern[0] - place) % sum(pattern)


def points_of(route):
    closed = route.endswith("Z")
    return [tuple(map(int, it.split())) for it in route.rstrip("Z")[1:].split("L")], closed


def attribute(line, name):
    found = re.search(r' %s="([^"]*)"' % name, line)
    return found and found[1]


def compare(name):
    text = open(name, encoding="utf-8").read()
    size = re.search(r'<svg [^>]*width="(\d+)mm" height="(\d+)mm"', text)
    wide, narrow = widths_of(int(size[1]), int(size[2]))
    faults, count = [], 0

    def same(what, is_so, wanted):
        nonlocal count
        count += 1
        if is_so != wanted:
            faults.append("%s: %s: %r, not %r" % (name, what, is_so, wanted))

    for kind, width in (("visible", wide), ("hidden", narrow), ("trace", narrow), ("hatch", narrow), ("frame", F("0.7")), ("thin", F("0.25")), ("strong", F("0.35"))):
        same("width of " + kind, re.search(r"^\.%s\{stroke-width:([0-9.]+)[;}]" % kind, text, re.M)[1], "%d" % (width * 100))
    same("pattern", re.search(r"^\.trace\{.*stroke-dasharray:([^;}]*)", text, re.M)[1], " ".join(written(it, 1) for it in pattern_of(narrow)))
    for line in text.split("\n"):
        kind = attribute(line, "class")
        if line.startswith("<path"):
            points, closed = points_of(attribute(line, "d"))
            dashes = dashes_of(points, closed, narrow) if kind == "hidden" else None
            same(line, attribute(line, "stroke-dasharray"), dashes and " ".join(written(it, 4) for it in dashes))
            same(line, attribute(line, "stroke-dashoffset"), written(offset_of(*points[:2], narrow), 1) if kind == "trace" else None)
        elif line.startswith("<line"):
            begin, end = [tuple(int(attribute(line, axis + number)) for axis in "xy") for number in "12"]
            same(line, attribute(line, "stroke-dashoffset"), written(offset_of(begin, end, narrow), 1) if kind == "trace" else None)
    return faults, count


def main():
    faults, count = [], 0
    for name in sys.argv[1:]:
        more, compared = compare(name)
        faults += more
        count += compared
    print("\n".join(faults + ["%d sheets, %d compared, %d differ" % (len(sys.argv) - 1, count, len(faults))]))
    sys.exit(1 if faults else 0)


main()
