#!/usr/bin/env python3
"""joints.py SHEET.svg SHEET.list: joins the strokes of a sheet to paths by their definition (docs/definitions.md, "Paths"), and compares these with the paths of the SVG.

Both files come from one run of `sheet --list LIST --hidden all`. The last line is `same` or `differs`; the status is 1 if anything differs."""
import re
import sys
import xml.etree.ElementTree as ET

CLASSES = {"solid": "visible", "dashed": "hidden", "chain": "trace", "hatch": "hatch"}
WIDEST = 118900


def read_list(path):
    """{(view, class): strokes}; a stroke is its two points on the sheet."""
    strokes = {}
    for line in open(path, encoding="utf-8"):
        words = line.split()
        if len(words) == 10 and words[1] in CLASSES:
            x1, y1, x2, y2 = map(int, words[6:])
            strokes.setdefault((int(words[0]), CLASSES[words[1]]), []).append(((x1, y1), (x2, y2)))
    return strokes


def read_svg(path):
    """{(view, class): paths}; a path is its points, and whether it is closed."""
    paths = {}
    for group in ET.parse(path).getroot():
        name = re.fullmatch(r"view-(\d+)", group.get("id", ""))
        for p in group if name else ():
            d = p.get("d")
            points = [tuple(map(int, q.split())) for q in d.rstrip("Z")[1:].split("L")]
            paths.setdefault((int(name[1]), p.get("class")), []).append((points, d.endswith("Z")))
    return paths


def fits(stroke):
    (x1, y1), (x2, y2) = stroke
    return abs(x2 - x1) <= WIDEST and abs(y2 - y1) <= WIDEST


def turn(strokes, e, f):
    """(aside, ahead) of a path that comes to the end e and goes on from the end f; None if it may not. An end is (stroke, 0 or 1)."""
    s, t = strokes[e[0]], strokes[f[0]]
    if e[0] == f[0] or not fits(s) or not fits(t):
        return None
    a, b = (s[e[1]][k] - s[1 - e[1]][k] for k in (0, 1))
    c, d = (t[1 - f[1]][k] - t[f[1]][k] for k in (0, 1))
    aside, ahead = abs(a * d - b * c), a * c + b * d
    return (aside, ahead) if aside <= ahead else None


def joints(strokes):
    """{end: the end that it is joined to}, of strokes of one view and mark that are no dots."""
    places = {}
    for i, stroke in enumerate(strokes):
        for tip in (0, 1):
            places.setdefault(stroke[tip], []).append((i, tip))
    joined = {}
    for ends in places.values():
        pairs = [(e, f, turn(strokes, e, f)) for n, e in enumerate(ends) for f in ends[n + 1:]]
        pairs = [p for p in pairs if p[2]]
        for p in pairs:
            if all(q is p or p[2][0] * q[2][1] < q[2][0] * p[2][1] for q in pairs):
                joined[p[0]], joined[p[1]] = p[1], p[0]
    return joined


def paths_of(strokes, hatch):
    """All paths of strokes of one view and mark."""
    strokes = [s for s in strokes if s[0] != s[1]]
    joined = {} if hatch else joints(strokes)
    passed, paths = set(), []
    for i in range(len(strokes)):
        if i in passed:
            continue
        start, closed = (i, 0), False
        while start in joined and not closed:
            before = joined[start]
            start, closed = (before[0], 1 - before[1]), before[0] == i
        if closed:
            start = (i, 0)
        points, end = [strokes[start[0]][start[1]]], start
        while end and end[0] not in passed:
            passed.add(end[0])
            far = (end[0], 1 - end[1])
            points.append(strokes[far[0]][far[1]])
            end = joined.get(far)
        paths.append((points[:-1] if closed else points, closed))
    return paths


def one_form(path):
    """The same for a path from either end, and for a closed one from any point."""
    points, closed = path
    ways = [points, points[::-1]]
    if closed:
        ways = [way[k:] + way[:k] for way in ways for k in range(len(way)) if way[k] == min(points)]
    return min(ways), closed


def main():
    svg, strokes = read_svg(sys.argv[1]), read_list(sys.argv[2])
    same = True
    for key in sorted(set(svg) | set(strokes)):
        ours = sorted(map(one_form, paths_of(strokes.get(key, []), key[1] == "hatch")))
        theirs = sorted(map(one_form, svg.get(key, [])))
        if ours != theirs:
            same = False
            print("view %d %s: %d paths by the definition, %d in the SVG" % (key + (len(ours), len(theirs))))
            for path in [p for p in ours if p not in theirs][:3]:
                print("  only by the definition:", path)
            for path in [p for p in theirs if p not in ours][:3]:
                print("  only in the SVG:", path)
    print("same" if same else "differs")
    return 0 if same else 1


if __name__ == "__main__":
    sys.exit(main())
