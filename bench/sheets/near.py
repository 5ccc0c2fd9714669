#!/usr/bin/env python3
"""near.py SHEET.svg NUM:DEN..: how much of the visible lines of each view runs within 0.5 mm of other visible lines, by its definition (docs/definitions.md, "Lines near one another"), and which scale shows them apart.

Each SHEET.svg is one that `sheet` wrote, and is followed by its scale. Prints a line for each view: its number, how many mm of its lines are
near others, and `apart`, or the line that `sheet` says. `--picture VIEW OUT.svg` after a scale also draws the view, with red dots on what is near."""
import sys
from math import isqrt

from joints import read_svg

SCALES = [(1, 100), (1, 50), (1, 20), (1, 10), (1, 5), (1, 2), (1, 1), (2, 1), (5, 1), (10, 1), (20, 1), (50, 1)]
CELL = 1000  # of the grid, which only saves time


def sides_of(paths):
    """(path, x1, y1, x2, y2) of each side of each path; a closed path has a side from its last point to its first."""
    sides = []
    for number, (points, closed) in enumerate(paths):
        ring = [points[-1]] + points if closed else points
        sides += [(number,) + p + q for p, q in zip(ring, ring[1:])]
    return sides


def run_together(s, t):
    """Sides of different paths with no common end, which go one way or opposite ways, to less than 1 in 5."""
    if s[0] == t[0] or {s[1:3], s[3:5]} & {t[1:3], t[3:5]}:
        return False
    a, b, c, d = s[3] - s[1], s[4] - s[2], t[3] - t[1], t[4] - t[2]
    return 5 * abs(a * d - b * c) < abs(a * c + b * d)


def is_beside(d, x, y, t):
    """The point is in the box of t, or no farther than d outside, and no farther than d from its line."""
    n, x1, y1, x2, y2 = t
    if not (min(x1, x2) - d <= x <= max(x1, x2) + d and min(y1, y2) - d <= y <= max(y1, y2) + d):
        return False
    a, b = x2 - x1, y2 - y1
    return ((x - x1) * b - (y - y1) * a) ** 2 <= d * d * (a * a + b * b)


def parts(d, s):
    """The equal parts of a side, as sides: the fewest that are no longer than 2 d, or one more. And the length of the side, in 10^-4 mm."""
    path, x1, y1, x2, y2 = s
    length = isqrt(10000 * ((x2 - x1) ** 2 + (y2 - y1) ** 2))
    n = length // (200 * d) + 1
    spots = [((x1 * (n - k) + x2 * k) // n, (y1 * (n - k) + y2 * k) // n) for k in range(n + 1)]
    return [(path,) + p + q for p, q in zip(spots, spots[1:])], length


def is_close(d, p, t):
    """An end of the one is so near to the other."""
    return is_beside(d, p[1], p[2], t) or is_beside(d, p[3], p[4], t) or is_beside(d, t[1], t[2], p) or is_beside(d, t[3], t[4], p)


def grid_of(sides):
    """{cell: the sides whose boxes are in it or near it}"""
    grid = {}
    for t in sides:
        n, x1, y1, x2, y2 = t
        steps = max(abs(x2 - x1), abs(y2 - y1)) // CELL + 1
        cells = set()
        for k in range(steps + 1):
            x, y = (x1 + (x2 - x1) * k // steps) // CELL, (y1 + (y2 - y1) * k // steps) // CELL
            cells |= {(x + i, y + j) for i in (-1, 0, 1) for j in (-1, 0, 1)}
        for cell in cells:
            grid.setdefault(cell, []).append(t)
    return grid


def near_parts(d, sides, grid):
    """Of each side the parts that are near other sides, and how long they are together, in 10^-4 mm."""
    for s in sides:
        own, length = parts(d, s)
        near = [p for p in own if any(is_close(d, p, t) and run_together(s, t) for t in grid.get((p[1] // CELL, p[2] // CELL), ()))]
        yield near, len(near) * length // len(own)


def ratio(own, scale):
    """How a scale is to the sheet's own."""
    return scale[0] * own[1], scale[1] * own[0]


def near_at(own, scale, sides, grid):
    """(whether more than 10 mm at this scale run within 0.5 mm of one another, how long they are together on the sheet, in mm)"""
    greater, smaller = ratio(own, scale)
    total = sum(length for _, length in near_parts(max(1, -(-50 * smaller // greater)), sides, grid))
    return total > 100000 * smaller // greater, total / 10000


def has_room(own, scale, sides):
    greater, smaller = ratio(own, scale)
    xs, ys = [x for s in sides for x in (s[1], s[3])], [y for s in sides for y in (s[2], s[4])]
    return (max(xs) - min(xs)) * greater <= 114900 * smaller and (max(ys) - min(ys)) * greater <= 78100 * smaller


def nearness(own, sides):
    """What is said of the lines, and how long those that are near others are together."""
    grid = grid_of(sides)
    near, total = near_at(own, own, sides, grid)
    if not near:
        return "apart", total
    for scale in SCALES:
        greater, smaller = ratio(own, scale)
        if smaller < greater and has_room(own, scale, sides) and near_at(own, scale, sides, grid)[1] == 0:
            return "lines within 0.5 mm of one another: a scale of %d:%d shows them apart" % scale, total
    return "lines within 0.5 mm of one another: pieces detail shows them apart", total


def picture(sides, width):
    """The view in black, with lines of this width in hundredths of a millimetre, and a red dot on each part that is near others."""
    xs, ys = [x for s in sides for x in (s[1], s[3])], [y for s in sides for y in (s[2], s[4])]
    left, top, wide, high = min(xs) - 200, min(ys) - 200, max(xs) - min(xs) + 400, max(ys) - min(ys) + 400
    lines = ['<svg xmlns="http://www.w3.org/2000/svg" width="%dmm" height="%dmm" viewBox="%d %d %d %d">' % (wide // 100, high // 100, left, top, wide, high),
             '<rect x="%d" y="%d" width="%d" height="%d" fill="white"/>' % (left, top, wide, high)]
    lines += ['<circle cx="%d" cy="%d" r="40" fill="red" fill-opacity="0.4"/>' % p[1:3] for near, _ in near_parts(50, sides, grid_of(sides)) for p in near]
    lines += ['<line x1="%d" y1="%d" x2="%d" y2="%d" stroke="black" stroke-width="%d" stroke-linecap="round"/>' % (s[1:] + (width,)) for s in sides]
    return "\n".join(lines + ["</svg>", ""])


def main():
    words = sys.argv[1:]
    while words:
        name, own = words.pop(0), tuple(map(int, words.pop(0).split(":")))
        views = {view: sides_of(paths) for (view, kind), paths in sorted(read_svg(name).items()) if kind == "visible"}
        for view, sides in views.items():
            said, total = nearness(own, sides)
            print("%s view %d: %.1f mm near: %s" % (name, view, total, said), flush=True)
        while words and words[0] == "--picture":
            with open(words[2], "w", encoding="utf-8") as out:
                out.write(picture(views[int(words[1])], 50))
            words = words[3:]


if __name__ == "__main__":
    main()
