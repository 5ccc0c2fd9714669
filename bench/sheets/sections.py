#!/usr/bin/env python3
"""Which parts of sections `sheet` fills black, and how far apart the hatch lines of the rest are.

sections.py ORACLE PART [--job JOB]: for each cut view of the job, the spacing of its hatch lines in hundredths of a
millimetre on paper and in units, the loops of each filled region as points of the sheet, and the number of its hatch lines.
ORACLE is the folder of the second program, which reads parts and jobs and makes views by fractions.

The rule. A loop is within another where an odd number of the other's segments are to the right of its first point. A region
is a loop that is within no other, with all loops that are within it. A region's hatch lines go, where U - V is a whole
number of spacings, from the first crossing of a segment of the region to the second, from the third to the fourth, and so
on. A region is filled where none of its hatch lines 3 mm apart is longer than 2.15 mm on paper. The spacing is the first of
3, 2 and 1.5 mm at which each region that isn't filled has four hatch lines or more, or else 1 mm. The hatch lines are those
of the whole section; where it is filled they don't show."""
import sys
from fractions import Fraction as F

TENTHS = (30, 20, 15, 10)
LONGEST = 215
FEWEST = 4


def spacing_of(tenths, scale, decimals):
    """So many tenths of a millimetre on paper, in whole units, cut off, at least one."""
    return max(1, tenths * 10 ** decimals * scale[1] // (10 * scale[0]))


def loops_of(view):
    """The section's loops: lists of segments (au, av, bu, bv, tri), each from the side that goes beyond the plane to the
    side that comes back; the next is in the triangle beyond that side."""
    tris, pts, hp2 = view.solid.tris, view.P, view.hp2
    half = {}
    for t, tri in enumerate(tris):
        for i in range(3):
            half[tri[i], tri[(i + 1) % 3]] = t
    found = {}
    for t, tri in enumerate(tris):
        ends = {}
        for i in range(3):
            m, n = tri[i], tri[(i + 1) % 3]
            p, q = pts[m], pts[n]
            if (2 * p[2] > hp2) != (2 * q[2] > hp2):
                s = F(hp2 - 2 * p[2], 2 * (q[2] - p[2]))
                goes = 2 * p[2] > hp2
                ends[goes] = (p[0] + s * (q[0] - p[0]), p[1] + s * (q[1] - p[1]), (n, m))
        if ends:
            a, b = ends[True], ends[False]
            found[t] = ((a[0], a[1], b[0], b[1], t), half[b[2]])
    loops, seen = [], set()
    for t in sorted(found):
        if t in seen:
            continue
        loop, at = [], t
        while at not in seen:
            seen.add(at)
            segment, then = found[at]
            loop.append(segment)
            at = then
        assert at == t
        for x, y in zip(loop, loop[1:] + loop[:1]):
            assert x[2:4] == y[:2]
        loops.append(loop)
    return loops


def is_right_of(x, u, v):
    """From the V of the lower end on, and below that of the upper end, and further right at that V."""
    au, av, bu, bv = x[:4]
    if (av <= v) == (bv <= v):
        return False
    return au + (v - av) * (bu - au) / (bv - av) > u


def encloses(loop, u, v):
    return sum(is_right_of(x, u, v) for x in loop) % 2 == 1


def regions_of(loops):
    """Lists of numbers of loops, the outer one first."""
    within = [{j for j, y in enumerate(loops) if j != k and encloses(y, *x[0][:2])} for k, x in enumerate(loops)]
    return [[o] + [k for k in range(len(loops)) if o in within[k]] for o in range(len(loops)) if not within[o]]


def lines_of(segments, spacing):
    """Pairs of crossings (number, U, U)."""
    at = []
    for au, av, bu, bv, _ in segments:
        da, db = au - av, bu - bv
        if da > db:
            au, bu, da, db = bu, au, db, da
        for j in range(-((-da) // spacing), -((-db) // spacing)):
            at.append((j, au + (bu - au) * (j * spacing - da) / (db - da)))
    at.sort()
    pairs = list(zip(at[::2], at[1::2]))
    assert len(at) % 2 == 0 and all(x[0] == y[0] for x, y in pairs)
    return [(x[0], x[1], y[1]) for x, y in pairs if x < y]


class Look:
    pass


def look_of(view, place, scale, decimals):
    loops = loops_of(view)
    look = Look()
    look.regions = regions_of(loops)
    look.lines = []
    look.filled = []

    def segments_of(region):
        return [x for k in region for x in loops[k]]

    def stroke(line, spacing):
        j, u1, u2 = line
        return place.point(u1, u1 - j * spacing) + place.point(u2, u2 - j * spacing)

    def is_short(s):
        return (s[2] - s[0]) ** 2 + (s[3] - s[1]) ** 2 <= LONGEST ** 2

    wide = spacing_of(TENTHS[0], scale, decimals)
    for region in look.regions:
        lines = lines_of(segments_of(region), wide)
        look.lines.append(len(lines))
        look.filled.append(all(is_short(stroke(x, wide)) for x in lines))
    rest = [r for r, full in zip(look.regions, look.filled) if not full]
    for look.tenths in TENTHS:
        look.spacing = spacing_of(look.tenths, scale, decimals)
        if look.tenths == TENTHS[-1] or all(len(lines_of(segments_of(r), look.spacing)) >= FEWEST for r in rest):
            break
    look.polygons = [[[place.point(*x[:2]) for x in loops[k]] for k in r] for r, full in zip(look.regions, look.filled) if full]
    look.strokes = [stroke(x, look.spacing) for x in lines_of([x for loop in loops for x in loop], look.spacing)]
    return look


def looks(drawing):
    """(view's number, look) for each cut view of the oracle's drawing."""
    sheet, job = drawing.sheet, drawing.job
    return [(n, look_of(v, sheet.places[n], sheet.scale, job.decimals)) for n, v in enumerate(drawing.views) if v.cut]


def text(n, look):
    out = ["view %d spacing %d units %d regions %d lines %d" % (n, 10 * look.tenths, look.spacing, len(look.regions), len(look.strokes))]
    for region in look.polygons:
        out.append("fill %d" % len(region))
        for loop in region:
            out.append("loop " + " ".join("%d,%d" % p for p in loop))
    return out


def main():
    sys.path.insert(0, sys.argv[1])
    import draw_ref
    desk = draw_ref.DiskDesk()
    args = sys.argv[2:]
    name = args[args.index("--job") + 1] if "--job" in args else None
    from ref_texts import read_job
    job = draw_ref.fetch_job(name, desk) if name else read_job(b"")
    solid = draw_ref.fetch_solid(args[0], job, desk)
    for n, look in looks(draw_ref.make(job, solid)):
        print("\n".join(text(n, look)))


if __name__ == "__main__":
    main()
