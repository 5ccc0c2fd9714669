#!/usr/bin/env python3
"""unbroken.py SHEET.svg..: how much of the hidden lines of sheets that `sheet` wrote shows no gap, so that it looks visible.

Prints for each sheet the length of its hidden paths, of those without a gap, and the longest of these; ends with 1 if one of them is
longer than 2 mm."""
import re
import sys


def length_of(route):
    points = [tuple(map(int, it.split())) for it in route.rstrip("Z")[1:].split("L")]
    if route.endswith("Z"):
        points.append(points[0])
    return sum(((a[0] - b[0]) ** 2 + (a[1] - b[1]) ** 2) ** 0.5 for a, b in zip(points, points[1:])) / 100


def main():
    worst = 0
    for name in sys.argv[1:]:
        total = whole = longest = 0
        for line in open(name, encoding="utf-8"):
            if not line.startswith('<path class="hidden"'):
                continue
            length = length_of(re.search(r' d="([^"]*)"', line)[1])
            total += length
            dashes = re.search(r' stroke-dasharray="([0-9.]+) ([0-9.]+)"', line)
            # dashes as long as the path, or a gap too narrow to see, are no dashes
            if not dashes or float(dashes[1]) / 100 >= length or float(dashes[2]) < 50:
                whole += length
                longest = max(longest, length)
        print("%s: %.1f mm hidden, %.1f mm without a gap, the longest %.2f mm" % (name, total, whole, longest))
        worst = max(worst, longest)
    sys.exit(1 if worst > 2 else 0)


main()
