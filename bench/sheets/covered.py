#!/usr/bin/env python3
"""covered.py SHEET.svg [OUT.svg]: which hidden paths of a sheet lie within the ink of others, by their definition (docs/definitions.md, "Covered paths").

The sheet is one that `sheet` wrote. For each view it prints how many hidden paths there are, how many are covered, and how long both are.
OUT.svg is the same sheet without the covered paths. `--list` prints each covered path and the path that covers it."""
import re
import sys
from fractions import Fraction
from math import isqrt

VISIBLE = 35  # a path within so many hundredths of a millimetre of a visible path is covered
HIDDEN = 25  # and within so many of a longer hidden path
TRIED = 8  # at most so many other paths are tried for a path
STROKES = 1000  # a path of more strokes is drawn
LINES = 20_000  # once more paths of the sheet are drawn no other is left out
NEAR = 64  # a stroke for which more strokes of the other path count isn't covered by that path
LARGEST = 1 << 17  # no sheet is wider or higher, in hundredths of a millimetre
COSINE = (969_846, 1_000_000)  # the squared cosine of 10 degrees


class Path:
    def __init__(self, number, view, kind, points, closed):
        self.number, self.view, self.kind, self.points = number, view, kind, points
        ends = points[1:] + points[:1] if closed else points[1:]
        self.strokes = [s for s in zip(points, ends) if s[0] != s[1]]
        self.length = sum(isqrt(((a[0] - b[0]) ** 2 + (a[1] - b[1]) ** 2) * 10**8) for a, b in self.strokes)
        self.fits = all(0 <= v <= LARGEST for p in points for v in p)
        self.boxes = [(min(a[0], b[0]), min(a[1], b[1]), max(a[0], b[0]), max(a[1], b[1])) for a, b in self.strokes]


def minus(p, q):
    return p[0] - q[0], p[1] - q[1]


def dot(v, w):
    return v[0] * w[0] + v[1] * w[1]


def cross(v, w):
    return v[0] * w[1] - v[1] * w[0]


def is_within(s, place, t, far):
    """The point of s at this place is within the distance `far` of the stroke t. A place is (n, m): n of m parts of the way."""
    (a, b), (c, e), (n, m) = s, t, place
    v, w = minus(b, a), minus(e, c)
    p = (m * (a[0] - c[0]) + n * v[0], m * (a[1] - c[1]) + n * v[1])  # m times the way from c to the point
    q = (p[0] - m * w[0], p[1] - m * w[1])
    most = (far * m) ** 2
    if dot(p, p) <= most or dot(q, q) <= most:
        return True
    return 0 <= dot(p, w) <= m * dot(w, w) and cross(p, w) ** 2 <= most * dot(w, w)


def parts_little(s, t):
    """Strokes with a common end part by less than 10 degrees there; others are let be."""
    for a, b in (s, s[::-1]):
        for c, e in (t, t[::-1]):
            if a == c:
                v, w = minus(b, a), minus(e, c)
                if not (dot(v, w) > 0 and dot(v, w) ** 2 * COSINE[1] > COSINE[0] * dot(v, v) * dot(w, w)):
                    return False
    return True


def places_of(s, near):
    """The places at which a stroke is split: the foot of each end of the others, and where the perpendicular there meets it."""
    a, b = s
    found = {Fraction(0), Fraction(1)}
    for t in near:
        for end in t:
            for w in (minus(b, a), minus(t[1], t[0])):
                n, m = dot(minus(end, a), w), dot(minus(b, a), w)
                if m and 0 < Fraction(n, m) < 1:
                    found.add(Fraction(n, m))
    return [(f.numerator, f.denominator) for f in sorted(found)]


def boxes_near(p, q, far):
    return p[0] - far <= q[2] and q[0] - far <= p[2] and p[1] - far <= q[3] and q[1] - far <= p[3]


def is_stroke_covered(s, box, other, far):
    near = [t for t, b in zip(other.strokes, other.boxes) if boxes_near(box, b, far) and parts_little(s, t)]
    if not near or len(near) > NEAR:
        return False
    places = places_of(s, near)
    reached = [[is_within(s, place, t, far) for place in places] for t in near]
    return all(any(r[k] and r[k + 1] for r in reached) for k in range(len(places) - 1))


def covers(other, path):
    """Each stroke of the path lies within the distance of strokes of the other."""
    far = VISIBLE if other.kind == "visible" else HIDDEN
    return all(is_stroke_covered(s, b, other, far) for s, b in zip(path.strokes, path.boxes))


def order(path):
    """Visible paths go first, in the drawing's order, and then hidden ones, the longest first; of equal ones that which the drawing has first."""
    return (0, 0, path.number) if path.kind == "visible" else (1, -path.length, path.number)


def tried(path, before):
    """Of the paths before it those that come near its first point, at most so many."""
    s = path.strokes[0]
    found = []
    for other in (o for o in before if o.view == path.view):
        far = VISIBLE if other.kind == "visible" else HIDDEN
        box = s[0] * 2
        if any(boxes_near(box, b, far) and is_within(s, (0, 1), t, far) for t, b in zip(other.strokes, other.boxes)):
            found.append(other)
    return found[:TRIED], len(found)


def left_out(paths):
    """{number of a path: the path that covers it}, of the paths of a sheet; and {view: how many paths were tried for one at most}."""
    drawn, gone, most = [], {}, {}
    for path in sorted((p for p in paths if p.kind in ("visible", "hidden") and p.fits), key=order):
        if path.kind == "hidden" and 0 < len(path.strokes) <= STROKES and len(drawn) <= LINES:
            others, n = tried(path, drawn)
            most[path.view] = max(most.get(path.view, 0), n)
            cover = next((o for o in others if covers(o, path)), None)
            if cover:
                gone[path.number] = cover
                continue
        drawn.append(path)
    return gone, most


def read_svg(text):
    """{view: its paths}, each with its place in the text."""
    views, view = {}, None
    for found in re.finditer(r'<g id="view-(\d+)"|</g>|<path [^>]*/>', text):
        if found[1]:
            view = int(found[1])
        elif view is not None and found[0].startswith("<path"):
            kind, d = re.search(r'class="([^"]*)"', found[0]), re.search(r' d="([^"]*)"', found[0])
            if kind and d and kind[1] in ("visible", "hidden"):
                closed = d[1].endswith("Z")
                points = [tuple(map(int, q.split())) for q in d[1].rstrip("Z")[1:].split("L")]
                views.setdefault(view, []).append(Path(found.start(), view, kind[1], points, closed))
    return views


def main():
    words = [w for w in sys.argv[1:] if w != "--list"]
    text = open(words[0], encoding="utf-8").read()
    cut, views = [], read_svg(text)
    gone, most = left_out([p for paths in views.values() for p in paths])
    for view, paths in sorted(views.items()):
        hidden = [p for p in paths if p.kind == "hidden"]
        out = [p for p in hidden if p.number in gone]
        mm = [sum(p.length for p in ps) // 10**6 for ps in (hidden, out)]
        print("view %d: %d hidden paths, %d mm; covered %d, %d mm; at most %d tried" % (view, len(hidden), mm[0], len(out), mm[1], most.get(view, 0)))
        for p in out if "--list" in sys.argv else ():
            print("  ", p.points[:6], "..%d" % len(p.points), "by", gone[p.number].kind, gone[p.number].points[:6])
        cut += [p.number for p in out]
    if len(words) > 1:
        for at in sorted(cut, reverse=True):
            end = text.index("/>", at) + 2
            text = text[:at] + text[end:].lstrip("\n")
        open(words[1], "w", encoding="utf-8").write(text)


if __name__ == "__main__":
    main()
