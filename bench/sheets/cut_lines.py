#!/usr/bin/env python3
"""Finds the marks of cuts in a view by their definition, without the crates that are proved to do so.

    cut_lines.py --try SEED N [SVG]     places the marks of N random views, checks each, and counts those that are left out; draws some to SVG

Lengths are whole hundredths of a millimetre; x goes to the right and y goes down. `layouts.py` places the marks of a job's views by this
file. It ends with 1 if marks have a flaw.
"""
import collections
import itertools
import pathlib
import random
import sys

Box = collections.namedtuple("Box", "left top right bottom")
Trace = collections.namedtuple("Trace", "letter way at")  # the way in which the cut's viewer looks; x of an upright trace, y of a level one
Placed = collections.namedtuple("Placed", "trace lane beside")
End = collections.namedtuple("End", "inner tip tail letter beside")
Mark = collections.namedtuple("Mark", "letter beside first second")

LEAST_SIDE = 750
OUT = (900, 1520, 2140)  # how far outside the box the arrows of a lane are
STRONG, ARROW, HEAD, HALF_HEAD = 800, 660, 300, 55


def is_upright(way):
    return way in ("right", "left")


def is_forward(way):
    return way in ("right", "down")


def ahead(forward, at, by):
    return at + by if forward else at - by


# ---- what views ask for
def lanes_asked(ways, forward, backward):
    """As many lanes as there are traces, but three at most; and three where viewers look both ways."""
    there, back = ways.count(forward), ways.count(backward)
    return 3 if there and back else min(3, there + back)


def side_for(lanes):
    return 1000 + 620 * (lanes - 1) if lanes else LEAST_SIDE


def asked_sides(ways):
    """The sides to the left and right, and above and below, for traces whose viewers look in these ways."""
    return side_for(lanes_asked(ways, "down", "up")), side_for(lanes_asked(ways, "right", "left"))


# ---- the figure of a mark
def upright_end(forward, at, beyond, side, out):
    """At a trace that runs upright: the strong end, the arrow across it at its outer end, a letter beside the tail toward the view, and one on
    the arrow's other side."""
    y, tail = ahead(beyond, side, out), ahead(not forward, at, ARROW)
    low, high, x = y + 450, y - 90, ahead(not forward, at, 480)
    return End((at, ahead(beyond, side, out - STRONG)), (at, y), (tail, y), (x, high if beyond else low), (x, low if beyond else high))


def level_end(forward, at, beyond, side, out):
    x, base = ahead(beyond, side, out), (at - 300 if forward else at + 660)
    near, far = ahead(not beyond, x, 290), ahead(beyond, x, 290)
    return End((ahead(beyond, side, out - STRONG), at), (x, at), (x, ahead(not forward, at, ARROW)), (near, base), (far, base))


def mark_of(box, placed):
    way, at, out = placed.trace.way, placed.trace.at, OUT[placed.lane]
    end, sides = (upright_end, (box.top, box.bottom)) if is_upright(way) else (level_end, (box.left, box.right))
    first, second = (end(is_forward(way), at, beyond, side, out) for beyond, side in zip((False, True), sides))
    return Mark(placed.trace.letter, placed.beside, first, second)


# ---- what it takes
def around(a, b, by):
    return Box(min(a[0], b[0]) - by, min(a[1], b[1]) - by, max(a[0], b[0]) + by, max(a[1], b[1]) + by)


def letter_area(place):
    return Box(place[0] - 240, place[1] - 400, place[0] + 240, place[1] + 40)


def join(a, b):
    return Box(min(a.left, b.left), min(a.top, b.top), max(a.right, b.right), max(a.bottom, b.bottom))


def letters_area(mark, end):
    return join(letter_area(end.letter), letter_area(end.beside)) if mark.beside else letter_area(end.letter)


def areas(mark):
    """The strong end, the arrow and the letters at both ends."""
    return [area for end in (mark.first, mark.second) for area in (around(end.inner, end.tip, 55), around(end.tail, end.tip, 85), letters_area(mark, end))]


def line_area(mark):
    return around(mark.first.tip, mark.second.tip, 20)


def is_clear(a, b):
    return a.right < b.left or b.right < a.left or a.bottom < b.top or b.bottom < a.top


def is_inside(room, a):
    return room.left < a.left and a.right < room.right and room.top < a.top and a.bottom < room.bottom


# ---- where marks stand
def is_placed_well(box, room, mark):
    return all(is_inside(room, a) and is_clear(a, box) for a in areas(mark))


def stand_well(box, room, marks):
    """Each mark is within the view's room and clear of its box, and no two touch."""
    apart = all(is_clear(a, b) for m, n in itertools.combinations(marks, 2) for a in areas(m) for b in areas(n))
    return apart and all(is_placed_well(box, room, m) for m in marks)


def are_uncrossed(marks):
    """No chain line crosses a letter of another mark."""
    return all(is_clear(line_area(m), letters_area(n, end)) for m, n in itertools.permutations(marks, 2) for end in (n.first, n.second))


def is_open(placed, trace):
    other = placed.trace
    return other.at == trace.at and other.way == trace.way and placed.beside is None


def ways_of(before, trace):
    """Beside the letter of a mark that is on the line; alone in each lane; and in the first lane, with all others one lane farther out."""
    if any(is_open(p, trace) for p in before):
        yield [p._replace(beside=trace.letter) if is_open(p, trace) else p for p in before]
    for lane in range(3):
        yield before + [Placed(trace, lane, None)]
    yield [p._replace(lane=min(2, p.lane + 1)) for p in before] + [Placed(trace, 0, None)]


def placed_with(box, room, before, trace):
    """The first way in which marks stand well and no chain line crosses a letter; else the first in which they stand well; else None."""
    well = [way for way in ways_of(before, trace) if stand_well(box, room, [mark_of(box, p) for p in way])]
    fine = [way for way in well if are_uncrossed([mark_of(box, p) for p in way])]
    return (fine or well or [None])[0]


def marks_in(box, room, traces):
    """The marks of a view, and the letters that are left out."""
    before, left_out = [], []
    for trace in traces:
        way = placed_with(box, room, before, trace)
        before, left_out = (before, left_out + [trace.letter]) if way is None else (way, left_out)
    return [mark_of(box, p) for p in before], left_out


# ---- what marks must be, looked for in their figures alone
def ink(mark):
    """What a mark's figures blacken, without the margins of areas: strong ends and shafts of 0.5 mm, heads, letters."""
    for end in (mark.first, mark.second):
        yield around(end.inner, end.tip, 25)
        yield around(end.tail, end.tip, HALF_HEAD)
        for letter, place in ((mark.letter, end.letter), (mark.beside, end.beside)):
            if letter:
                yield Box(place[0] - 208, place[1] - 369, place[0] + 208, place[1] + 10)


def flaws(box, room, traces, marks, left_out):
    told = sorted([m.letter for m in marks] + [m.beside for m in marks if m.beside] + left_out)
    if told != sorted(t.letter for t in traces):
        yield "a letter is lost"
    for m in marks:
        if not all(is_inside(room, a) for a in ink(m)):
            yield "%s leaves its room" % m.letter
        if not all(is_clear(Box(a.left - 45, a.top - 45, a.right + 45, a.bottom + 45), box) for a in ink(m)):
            yield "%s comes near the view" % m.letter
        for end, other in ((m.first, m.second), (m.second, m.first)):
            if abs(end.inner[0] - end.tip[0]) + abs(end.inner[1] - end.tip[1]) != STRONG or len({end.inner[0], end.tip[0], other.tip[0]}) > 1 and len({end.inner[1], end.tip[1], other.tip[1]}) > 1:
                yield "%s has a strong end that is no end of its line" % m.letter
            if not is_clear(Box(end.letter[0] - 208, end.letter[1] - 369, end.letter[0] + 208, end.letter[1] + 10), around(end.tail, end.tip, 25)):
                yield "%s has its letter on its arrow" % m.letter
    for m, n in itertools.combinations(marks, 2):
        if not all(is_clear(a, b) for a in ink(m) for b in ink(n)):
            yield "%s touches %s" % (m.letter, n.letter)


# ---- pictures
def line(a, b, width, dashes=""):
    return '<line x1="%d" y1="%d" x2="%d" y2="%d" stroke="black" stroke-width="%d"%s/>' % (*a, *b, width, dashes)


def head_of(end):
    """The corners of an arrow's head: the tip, and both ends of its base."""
    (x, y), (tail_x, tail_y) = end.tip, end.tail
    if tail_y == y:
        base = x + (HEAD if tail_x > x else -HEAD)
        return (x, y), (base, y - HALF_HEAD), (base, y + HALF_HEAD), (base, y)
    base = y + (HEAD if tail_y > y else -HEAD)
    return (x, y), (x - HALF_HEAD, base), (x + HALF_HEAD, base), (x, base)


def drawn(mark):
    yield line(mark.first.tip, mark.second.tip, 25, ' stroke-dasharray="600 75 12.5 75"')
    for end in (mark.first, mark.second):
        tip, a, b, base = head_of(end)
        yield line(end.inner, end.tip, 50, ' stroke-linecap="round"')
        yield line(end.tail, base, 50, ' stroke-linecap="round"')
        yield '<path d="M%d %dL%d %dL%d %dZ"/>' % (*tip, *a, *b)
        for letter, place in ((mark.letter, end.letter), (mark.beside, end.beside)):
            if letter:
                yield '<text x="%d" y="%d" font-size="500" font-family="Helvetica,Arial,sans-serif" text-anchor="middle">%s</text>' % (*place, letter)


def picture(views):
    lines, across = [], 0
    for box, room, marks, left_out in views:
        lines.append('<g transform="translate(%d 0)">' % (across - room.left))
        lines.append('<rect x="%d" y="%d" width="%d" height="%d" fill="none" stroke="silver" stroke-width="10"/>' % (room.left, room.top, room.right - room.left, room.bottom - room.top))
        lines.append('<rect x="%d" y="%d" width="%d" height="%d" fill="none" stroke="black" stroke-width="50"/>' % (box.left, box.top, box.right - box.left, box.bottom - box.top))
        lines += ['<text x="%d" y="%d" font-size="400">%s</text>' % (box.left, room.bottom + 600, "left out: " + " ".join(left_out))] if left_out else []
        lines += [part for mark in marks for part in drawn(mark)] + ["</g>"]
        across += room.right - room.left + 500
    size = (across / 100, 150)
    return "\n".join(['<svg xmlns="http://www.w3.org/2000/svg" width="%gmm" height="%gmm" viewBox="0 -4000 %d 15000">' % (*size, across), '<rect x="0" y="-4000" width="100%" height="100%" fill="white"/>'] + lines + ["</svg>\n"])


# ---- runs
def random_view(chance):
    width, height = (chance.choice((400, 1000, 2500, 6000)) + chance.randrange(500) for _ in range(2))
    box, count = Box(0, 0, width, height), chance.choice((1, 1, 2, 2, 3, 4, 6))
    traces = []
    for letter in "ABCDEFGHJKLM"[:count]:
        way = chance.choice(("right", "left", "down", "up"))
        length = width if is_upright(way) else height
        at = chance.choice([chance.randrange(length + 1), 0, length, length // 2] + [t.at for t in traces if is_upright(t.way) == is_upright(way)])
        traces.append(Trace(letter, way, at))
    level, upright = asked_sides([t.way for t in traces])
    return box, Box(-level, -upright, width + level, height + upright), traces


def main():
    if len(sys.argv) < 4 or sys.argv[1] != "--try":
        sys.exit(__doc__)
    bad, counts, views = False, collections.Counter(), []
    for seed in range(int(sys.argv[2]), int(sys.argv[2]) + int(sys.argv[3])):
        box, room, traces = random_view(random.Random(seed))
        marks, left_out = marks_in(box, room, traces)
        found = list(flaws(box, room, traces, marks, left_out))
        bad = bad or bool(found)
        counts.update(traces=len(traces), left_out=len(left_out), crossed=not are_uncrossed(marks), views=1)
        counts["left out of %d" % len(traces)] += len(left_out)
        views.append((box, room, marks, left_out))
        if found:
            print(seed, found)
    print(dict(counts))
    if len(sys.argv) > 4:
        pathlib.Path(sys.argv[4]).write_text(picture(views[:8]))
    sys.exit(bad)


if __name__ == "__main__":
    main()
