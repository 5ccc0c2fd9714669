#!/usr/bin/env python3
"""Adds up how long the visible, hidden, chain and hatch lines of each view are, in mm of the part as it is seen.
Usage: lengths.py LIST; LIST is what `sheet --list` writes. A line as it is seen is as long as its piece of the view at 1:1."""
import math
import re
from fractions import Fraction

import one_line

NAMED = {"front": (0, -1, 0), "back": (0, 1, 0), "left": (-1, 0, 0), "right": (1, 0, 0), "above": (0, 0, 1), "below": (0, 0, -1)}
MARKS = ("solid", "dashed", "chain", "hatch")
PLACE = "( -?[0-9]{1,9}){2}"
SHOWN = "%s|toward( -?[0-9]){3}|cut [xyz] -?[0-9]{1,7} (high|low) [A-M]" % "|".join(NAMED)
VIEW = re.compile("view [0-9]{1,2} (%s)%s\n" % (SHOWN, PLACE))
STROKE = re.compile("[0-9]{1,2} (%s)( -?[0-9]{1,32}(/[1-9][0-9]{0,21})?){4}%s\n" % ("|".join(MARKS), PLACE * 2))
DECIMALS = re.compile("decimals [0-6]\n")
PAGE = re.compile("page [0-9]{1,9} [0-9]{1,9}\n")


def direction(shown):
    """The direction from the part to the viewer, of the words that say what a view shows."""
    if shown[0] == "toward":
        return tuple(int(word) for word in shown[1:4])
    if shown[0] == "cut":
        to = 1 if shown[3] == "high" else -1
        return tuple(to * (axis == shown[1]) for axis in "xyz")
    return NAMED[shown[0]]


def squares(toward):
    """The squared lengths of a view's right and up axes: U and V are products with these."""
    a, b, c = toward
    right = a * a + b * b or 1
    return right, right * (a * a + b * b + c * c)


def main(*names):
    if len(names) != 1:
        raise one_line.Fault("usage: lengths.py LIST")
    unit, views, sums, pages = 1, {}, {}, 0
    with open(names[0], encoding="latin-1") as lines:
        # a line of a list is shorter than 1000; that of a file without line ends isn't
        if lines.readline(1000) != "sheet list 2\n":
            raise one_line.Fault("%s: not what sheet --list writes" % names[0])
        for count, line in enumerate(iter(lambda: lines.readline(1000), ""), 2):
            words = line.split()
            if DECIMALS.fullmatch(line):
                unit = 10 ** -int(words[1])
            elif VIEW.fullmatch(line) and any(direction(words[2:-2])):
                views[words[1]] = (" ".join(words[2:-2]), squares(direction(words[2:-2])))
                sums[words[1]] = dict.fromkeys(MARKS, 0)
            elif STROKE.fullmatch(line) and words[0] in views:
                u1, v1, u2, v2 = map(Fraction, words[2:6])
                right, up = views[words[0]][1]
                sums[words[0]][words[1]] += unit * math.sqrt((u2 - u1) ** 2 / right + (v2 - v1) ** 2 / up)
            elif PAGE.fullmatch(line):
                pages = 1
            elif pages or not line.endswith("\n"):
                raise one_line.Fault("%s: line %d: not as sheet --list writes it" % (names[0], count))
    for number, (shown, _) in views.items():
        yield "view %s %s: %s" % (number, shown, ", ".join("%s %.3f" % (mark, sums[number][mark]) for mark in MARKS))


one_line.run(main)
