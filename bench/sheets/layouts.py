#!/usr/bin/env python3
"""Finds where the views of a sheet stand by the definition in the docs, without the crates that are proved to do so, to compare them.

    layouts.py PART [JOB [SVG]]         prints scale, origins and page as the list of `sheet` has them, and the plan, or the line of a refusal;
                                        draws the boxes to SVG
    layouts.py --try SEED N [FOLDER]    lays N random jobs out, checks each layout and counts the plans; draws the boxes to FOLDER
    layouts.py --sheet SHEET SEED N     compares scale, origins and page of N random jobs, or the line, with those of the program SHEET

PART is an OFF of a sound part with a face on each line; JOB is a right job of any version. With `decimals = "fit"` the part is taken to be
accepted at the first number of decimals that is in range. Lengths on the sheet are whole hundredths of a millimetre. Each random job has a
seed of its own, from SEED on. It ends with 1 if a layout has a flaw or the program does something else, and if the one job is refused.
"""
import collections
import itertools
import math
import pathlib
import random
import re
import subprocess
import sys
import tempfile
import tomllib
from fractions import Fraction

import cut_lines
import headings
import layout_jobs
from layout_jobs import GREATEST, MILLIMETRES, PAPERS, SCALES

PAGES = {"A4": (29700, 21000), "A3": (42000, 29700), "A2": (59400, 42000), "A1": (84100, 59400), "A0": (118900, 84100)}
DIRECTIONS = {"front": (0, -1, 0), "back": (0, 1, 0), "left": (-1, 0, 0), "right": (1, 0, 0), "above": (0, 0, 1), "below": (0, 0, -1)}
LETTERS = "ABCDEFGHJKLM"
FRAME, BLOCK_WIDTH, BLOCK_HEIGHT = 1000, 18000, 2200
SIDE, HEADING_LETTERS, HEADING_ROOM = 750, 500, 500
STEP, MOST_STEPS = 300, 12
MIDDLE = 1000
# ranks by the angle: False for first, True for third
RANKS = {
    False: {"front": 1000, "left": 1100, "right": 900, "back": 1200, "above": 1100, "below": 900},
    True: {"front": 1000, "left": 900, "right": 1100, "back": 1200, "above": 900, "below": 1100},
}
NAMED = -1  # the block of named views, beside those with the number of the view in their middle

View = collections.namedtuple("View", "direction name axis at high")
Job = collections.namedtuple("Job", "version decimals inches third paper upright scale views")
Case = collections.namedtuple("Case", "job corners faces")
Cell = collections.namedtuple("Cell", "block line rank")  # the line is "row", "column" or "middle"
# left and top from the origin; side is that on the left and the right, and rise that above and below
Size = collections.namedtuple("Size", "left top width height side rise")
Box = collections.namedtuple("Box", "left top right bottom")
Block = collections.namedtuple("Block", "width height places corner")  # of a box's upper left corner, by the number of the view
Plan = collections.namedtuple("Plan", "kind paper scale kept shrunk")
Layout = collections.namedtuple("Layout", "plan room page boxes sizes cells")
Lack = collections.namedtuple("Lack", "plan across down smaller larger")  # how much more the plan needs; a scale and a paper, or None


# ---- parts and jobs
def units(word, decimals, inches):
    """The units of a length: the nearest whole number, halves away from zero."""
    exact = Fraction(word) * MILLIMETRES["inch" if inches else "mm"] * 10**decimals
    size = (2 * abs(exact.numerator) + exact.denominator) // (2 * exact.denominator)
    return -size if exact < 0 else size


def read_part(text):
    """The words of the corners, and the faces."""
    lines = [line.split("#")[0].split() for line in text.replace("OFF", "", 1).split("\n")]
    lines = [words for words in lines if words]
    count, faces = int(lines[0][0]), int(lines[0][1])
    return lines[1:1 + count], [tuple(map(int, words[1:1 + int(words[0])])) for words in lines[1 + count:1 + count + faces]]


def read_view(table):
    if "cut" in table:
        axis, high = "xyz".index(table["cut"]), table["from"] == "high"
        return View(tuple((1 if high else -1) * (i == axis) for i in range(3)), None, axis, table["at"], high)
    return View(DIRECTIONS[table["name"]] if "name" in table else tuple(table["toward"]), table.get("name"), None, None, None)


def read_job(text):
    """The job; each `at` of one of version 3 is a word still, and the decimals may be "fit"."""
    table = tomllib.loads(text, parse_float=str)
    version = table.get("version", 1)
    scale = table.get("scale", "fit")
    views = [read_view(x) for x in table.get("view", [{"name": name} for name in ("front", "above", "left")])]
    return Job(
        version, table.get("decimals", "fit" if version == 3 else 3), table.get("unit") == "inch", table.get("angle") == "third",
        table.get("sheet", "A3"), table.get("layout") == "portrait", None if scale == "fit" else tuple(map(int, scale.split(":"))), views,
    )


def settled(job, words, decimals):
    """The job and the corners of the part at a number of decimals."""
    corners = [tuple(units(word, decimals, job.inches) for word in corner) for corner in words]
    views = [v if v.axis is None or job.version < 3 else v._replace(at=units(v.at, decimals, job.inches)) for v in job.views]
    return job._replace(decimals=decimals, views=views), corners


def is_in_range(job, corners):
    return all(abs(x) <= GREATEST for x in itertools.chain(*corners, (v.at for v in job.views if v.axis is not None)))


def read_case(part, job):
    """A part and a job, at the first number of decimals that is in range."""
    (words, faces), job = read_part(part), read_job(job)
    for decimals in (6, 5, 4, 3, 2) if job.decimals == "fit" else (job.decimals,):
        found, corners = settled(job, words, decimals)
        if is_in_range(found, corners):
            return Case(found, corners, faces)
    raise ValueError("the part or a cut is out of range")


# ---- axes and planes
def dot(a, b):
    return sum(x * y for x, y in zip(a, b))


def right_axis(direction):
    return (1, 0, 0) if direction[:2] == (0, 0) else (-direction[1], direction[0], 0)


def up_axis(direction):
    (a, b, c), (p, q, r) = direction, right_axis(direction)
    return b * r - c * q, c * p - a * r, a * q - b * p


def axis_of(view):
    """The axis that a view looks along, if it does."""
    along = [i for i in range(3) if view.direction[i]]
    return along[0] if len(along) == 1 else None


# axes are the same if they are equal as they stand: then V, or U, of a corner is the same in both views
def share_row(a, b):
    return up_axis(a.direction) == up_axis(b.direction)


def share_column(a, b):
    return right_axis(a.direction) == right_axis(b.direction)


def goes_through(case, cut):
    """The part has corners on both sides of the plane, which is half a unit behind `at`."""
    places = [2 * c[cut.axis] for c in case.corners]
    return min(places) < 2 * cut.at + (-1 if cut.high else 1) < max(places)


def has_section(case, cut):
    """The plane goes through a face, and so through one of its triangles."""
    plane = 2 * cut.at + (-1 if cut.high else 1)
    return any(min(xs) < plane < max(xs) for xs in ([2 * case.corners[i][cut.axis] for i in face] for face in case.faces))


def cuts_before(job, number):
    """How many views before this one show a cut."""
    return sum(v.axis is not None for v in job.views[:number])


# ---- sizes
def sheet_length(scale, decimals, axis, value):
    """A product with an axis as a length on the sheet, rounded to the nearest, halves up."""
    shortening = math.isqrt(10**18 // dot(axis, axis))
    over, under = 100 * scale[0] * shortening * value, scale[1] * 10 ** (9 + decimals)
    return (2 * over + under) // (2 * under)


def extent(case, axis, scale):
    products = [dot(axis, corner) for corner in case.corners]
    return [sheet_length(scale, case.job.decimals, axis, f(products)) for f in (min, max)]


def heading_width(case, number):
    """How wide a heading without a title and its room are."""
    job, cut = case.job, case.job.views[number]
    letter = LETTERS[cuts_before(job, number)]
    text = "%s-%s (%s = %s)" % (letter, letter, "xyz"[cut.axis], headings.place(cut.at, job.decimals, job.inches))
    return HEADING_ROOM - (-headings.width(text) * HEADING_LETTERS // 1000)


def way_of(view, cut):
    """The way in which a cut's viewer looks, in a plain view along another axis; else None."""
    if view.axis is not None or axis_of(view) in (None, cut.axis):
        return None
    across, upward = dot(cut.direction, right_axis(view.direction)), dot(cut.direction, up_axis(view.direction))
    return ("right" if across < 0 else "left") if across else ("down" if upward > 0 else "up")


def sides_of(case, number, width, shrunk):
    """The sides on the left and the right, and those above and below: for marks in a plain view, for the heading of a cut view."""
    view = case.job.views[number]
    if shrunk:
        return SIDE, SIDE
    if view.axis is not None:
        return max(SIDE, -(-(heading_width(case, number) - width) // 2)), SIDE
    return cut_lines.asked_sides([way_of(view, cut) for cut in case.job.views if cut.axis is not None])


def size_of(case, number, scale, shrunk):
    view = case.job.views[number]
    (left, right), (bottom, top) = extent(case, right_axis(view.direction), scale), extent(case, up_axis(view.direction), scale)
    return Size(left, top, right - left, top - bottom, *sides_of(case, number, right - left, shrunk))


# ---- cells
def belongs(case, cut, view):
    """The cut may stand beside this plain view."""
    if view.axis is not None or axis_of(view) in (None, cut.axis) or not goes_through(case, cut):
        return False
    return share_row(cut, view) or share_column(cut, view)


def is_after(job, cut, view):
    """The cut stands on the right of the view or below it, not on the left or above it."""
    if share_row(cut, view):
        viewer_after = dot(cut.direction, right_axis(view.direction)) > 0
    else:
        viewer_after = dot(cut.direction, up_axis(view.direction)) < 0
    return viewer_after == job.third


def are_next(third, a, b):
    pair = {a, b}
    return "front" in pair and pair != {"front", "back"} or pair == {"back", "right" if third else "left"}


def taker(job, cut, view):
    """The name of the view that stands where the cut would, if there is one."""
    for other in job.views:
        if view.name and other.name and other.direction == cut.direction and are_next(job.third, view.name, other.name):
            return other.name
    return None


def named_cell(job, name):
    line = "middle" if name == "front" else "column" if name in ("above", "below") else "row"
    return Cell(NAMED, line, RANKS[job.third][name])


def host(case, cut):
    """The view that the cut stands beside, by number: the first with a free side, or else the first."""
    found = [i for i, view in enumerate(case.job.views) if belongs(case, cut, view)]
    free = [i for i in found if taker(case.job, cut, case.job.views[i]) is None]
    return (free + found + [None])[0]


def cell_of_cut(case, number):
    """Beside another view, if there is one for it, or else in the middle of a block."""
    job, cut = case.job, case.job.views[number]
    beside = host(case, cut)
    if beside is None:
        return Cell(number, "middle", MIDDLE)
    view = job.views[beside]
    name = taker(job, cut, view) or view.name
    block, _, rank = named_cell(job, name) if name else Cell(beside, "middle", MIDDLE)
    return Cell(block, "row" if share_row(cut, view) else "column", rank + (1 + number if is_after(job, cut, view) else -1 - number))


def cells(case, kept):
    """The cell of each view, if only so many of the cuts may stand beside other views."""
    found = []
    for number, view in enumerate(case.job.views):
        if view.name:
            found.append(named_cell(case.job, view.name))
        elif view.axis is not None and cuts_before(case.job, number) < kept:
            found.append(cell_of_cut(case, number))
        else:
            found.append(Cell(number, "middle", MIDDLE))
    return found


# ---- blocks
def line_places(line, middle):
    """Where boxes begin along a row or a column: line has (rank, number, side before, length, side after), and middle those of the views that
    stand in line across it. Also where that line stands, where it ends, and where the end of all is."""
    before, after = max((x[0] for x in middle), default=0), max((x[1] + x[2] for x in middle), default=0)
    places, at = {}, 0
    for rank, number, side, length, other in sorted(line + [(MIDDLE, None, before, 0, after)]):
        places[number] = at + side
        at += side + length + other
    return places, places[None], places[None] + after, at


def block_of(numbers, found, sizes):
    """The block of these views."""
    rows = [i for i in numbers if found[i].line != "column"]
    columns = [i for i in numbers if found[i].line != "row"]
    across = [(found[i].rank, i, sizes[i].side, sizes[i].width, sizes[i].side) for i in rows if found[i].line == "row"]
    downward = [(found[i].rank, i, sizes[i].rise, sizes[i].height, sizes[i].rise) for i in columns if found[i].line == "column"]
    lefts, left, right, width = line_places(across, [(sizes[i].side, sizes[i].width, sizes[i].side) for i in columns])
    tops, top, bottom, height = line_places(downward, [(sizes[i].rise, sizes[i].height, sizes[i].rise) for i in rows])
    return Block(width, height, {i: (lefts.get(i, left), tops.get(i, top)) for i in numbers}, (right, bottom))


def blocks_of(found, sizes):
    """All blocks, that of the named views first, by the numbers of the views in their middles."""
    made = {NAMED: Block(0, 0, {}, (0, 0))}
    for key in sorted({cell.block for cell in found}):
        made[key] = block_of([i for i, cell in enumerate(found) if cell.block == key], found, sizes)
    return made


# ---- rows
class Rows:
    """What stands so far: each view's place and row, where the current row begins and ends, and the lowest end."""

    def __init__(self, views, block, shrunk, corner):
        self.views, self.steps = views, 0 if shrunk else MOST_STEPS
        self.places, self.rows = dict(block.places), dict.fromkeys(block.places, 0)
        self.left, begin = block.corner if corner else (0, block.height)
        self.row, self.begin, self.end, self.empty = 1, begin, self.left, True
        self.greatest, self.lowest = block.width, block.height

    def across(self, block, middle):
        """Where the block begins in the current row: the left side of its middle view isn't in line with one of another row."""
        others = {x for i, (x, _) in self.places.items() if self.rows[i] != self.row}
        begins = [self.end + STEP * k for k in range(self.steps + 1)]
        return next((x for x in begins if x + block.places[middle][0] not in others), begins[-1])

    def downward(self, block, middle):
        """The top of its middle view isn't in line with one of the row, or of the named views, that has another up axis."""
        others = {y for i, (_, y) in self.places.items() if self.rows[i] in (0, self.row) and not share_row(self.views[i], self.views[middle])}
        begins = [self.begin + STEP * k for k in range(self.steps + 1)]
        return next((y for y in begins if y + block.places[middle][1] not in others), begins[-1])

    def put(self, block, middle, width):
        """Puts a block in the current row if there is room, or else in the next one."""
        x = self.across(block, middle)
        if not self.empty and x + block.width > width:
            self.row, self.begin, self.end = self.row + 1, self.lowest, self.left
            x = self.across(block, middle)
        y = self.downward(block, middle)
        self.places.update({i: (x + left, y + top) for i, (left, top) in block.places.items()})
        self.rows.update(dict.fromkeys(block.places, self.row))
        self.end, self.empty = x + block.width, False
        self.greatest, self.lowest = max(self.greatest, self.end), max(self.lowest, y + block.height)


def rows_of(views, found, sizes, width, shrunk, corner):
    made = blocks_of(found, sizes)
    rows = Rows(views, made.pop(NAMED), shrunk, corner)
    for middle, block in made.items():
        rows.put(block, middle, width)
    return rows


# ---- plans
def page_of(job, paper):
    return PAGES[paper][::-1] if job.upright else PAGES[paper]


def rooms(page):
    """From left, top, right, bottom: above the title block, and beside it."""
    width, height = page
    return {
        "above": (FRAME, FRAME, width - FRAME, height - FRAME - BLOCK_HEIGHT),
        "beside": (FRAME, FRAME, width - FRAME - BLOCK_WIDTH, height - FRAME),
    }


def stated(job, paper, scale, kind=None, shrunk=False):
    """Plans on one paper at one scale, with fewer and fewer cuts beside other views."""
    count = cuts_before(job, len(job.views))
    for kept in range(count, -1, -1):
        yield Plan(kind or ("whole" if kept == count else "fewer"), paper, scale, kept, shrunk)


def falling(job, scales):
    """Plans at each scale; before cuts leave their views the next smaller scale is tried with all of them."""
    for scale, smaller in itertools.zip_longest(scales, scales[1:]):
        whole, *fewer = stated(job, job.paper, scale)
        yield whole
        if smaller:
            yield whole._replace(kind="smaller" if fewer else "whole", scale=smaller)
        yield from fewer


def plans(job):
    """All plans of a job, in order."""
    if job.paper == "fit":
        for paper in PAPERS:
            yield from stated(job, paper, job.scale or (1, 1), "paper")
    elif job.scale:
        yield from stated(job, job.paper, job.scale)
        if job.version < 3:
            yield from stated(job, job.paper, job.scale, "shrunk", True)
    else:
        yield from falling(job, SCALES if job.version == 3 else SCALES[SCALES.index((1, 1)):])


def tried(case, plan, room, sizes, found, corner):
    """The boxes of the views in the middle of a room, if it has room for them."""
    left, top, right, bottom = room
    rows = rows_of(case.job.views, found, sizes, right - left, plan.shrunk, corner)
    spare, below = right - left - rows.greatest, bottom - top - rows.lowest
    if min(spare, below) < 0:
        return None
    left, top = left + spare // 2, top + below // 2
    places = [(left + x, top + y) for _, (x, y) in sorted(rows.places.items())]
    return [Box(x, y, x + size.width, y + size.height) for (x, y), size in zip(places, sizes)]


def sizes_of(case, plan):
    return [size_of(case, number, plan.scale, plan.shrunk) for number in range(len(case.job.views))]


def first(case, some):
    """The layout of the first of some plans that has room, or None."""
    for plan in some:
        sizes, found, page = sizes_of(case, plan), cells(case, plan.kept), page_of(case.job, plan.paper)
        for corner, (name, room) in itertools.product((False, True), rooms(page).items()):
            boxes = tried(case, plan, room, sizes, found, corner)
            if boxes:
                return Layout(plan, name + (", in the corner" if corner else ""), page, boxes, sizes, found)
    return None


def layout(case):
    return first(case, plans(case.job))


def lack(case):
    """What the last plan lacks above the title block, and the first smaller scale and the first larger paper that the job could say."""
    *_, plan = plans(case.job)
    left, top, right, bottom = rooms(page_of(case.job, plan.paper))["above"]
    rows = rows_of(case.job.views, cells(case, plan.kept), sizes_of(case, plan), right - left, plan.shrunk, False)
    job = case.job
    smaller = first(case, itertools.chain(*(plans(job._replace(scale=scale)) for scale in SCALES[SCALES.index(plan.scale) + 1:])))
    larger = first(case, itertools.chain(*(plans(job._replace(paper=paper)) for paper in PAPERS[PAPERS.index(plan.paper) + 1:])))
    across, down = rows.greatest - (right - left), rows.lowest - (bottom - top)
    return Lack(plan, max(0, across), max(0, down), smaller and smaller.plan.scale, larger and larger.plan.paper)


def origins(laid):
    return [(box.left - size.left, box.top + size.top) for box, size in zip(laid.boxes, laid.sizes)]


# ---- what a layout must be, looked for in the layout alone
def with_sides(box, size):
    return Box(box.left - size.side, box.top - size.rise, box.right + size.side, box.bottom + size.rise)


def overlap(a, b):
    return a.left < b.right and b.left < a.right and a.top < b.bottom and b.top < a.bottom


def flaws_of_room(laid):
    """Boxes that leave the frame, meet the title block or one another, with their sides."""
    boxes = [with_sides(*x) for x in zip(laid.boxes, laid.sizes)]
    width, height = laid.page
    block = Box(width - FRAME - BLOCK_WIDTH, height - FRAME - BLOCK_HEIGHT, width - FRAME, height - FRAME)
    for i, box in enumerate(boxes):
        if box.left < FRAME or box.top < FRAME or box.right > width - FRAME or box.bottom > height - FRAME:
            yield "view %d leaves the frame" % i
        if overlap(box, block):
            yield "view %d is over the title block" % i
        yield from ("views %d and %d overlap" % (j, i) for j in range(i) if overlap(boxes[j], box))


def flaws_of_names(job, laid):
    """Named views in another order than the angle of projection demands, or not in line."""
    at = {view.name: origin for view, origin in zip(job.views, origins(laid)) if view.name}
    boxes = {view.name: box for view, box in zip(job.views, laid.boxes) if view.name}
    row, column = ("right", "front", "left", "back"), ("below", "front", "above")
    if job.third:
        row, column = ("left", "front", "right", "back"), column[::-1]
    for a, b in itertools.combinations([name for name in row if name in at], 2):
        if at[a][1] != at[b][1] or boxes[a].right >= boxes[b].left:
            yield "%s and %s aren't in a row" % (a, b)
    for a, b in itertools.combinations([name for name in column if name in at], 2):
        if at[a][0] != at[b][0] or boxes[a].bottom >= boxes[b].top:
            yield "%s and %s aren't in a column" % (a, b)


def is_projected(job, cut, view, box, other, origin, from_other):
    """The cut is in line with the view, and on the side of its viewer, or in first angle on the other side."""
    sign = 1 if job.third else -1
    if share_row(cut, view):
        side = sign * dot(cut.direction, right_axis(view.direction))
        return origin[1] == from_other[1] and (box.left >= other.right + 2 * SIDE if side > 0 else box.right + 2 * SIDE <= other.left)
    side = sign * dot(cut.direction, up_axis(view.direction))
    return origin[0] == from_other[0] and (box.bottom + 2 * SIDE <= other.top if side > 0 else box.top >= other.bottom + 2 * SIDE)


def flaws_of_cuts(case, laid):
    """Cuts that could be in projection with a plain view, and may be, and are with none."""
    job, at = case.job, origins(laid)
    kept = [i for i, v in enumerate(job.views) if v.axis is not None][:laid.plan.kept]
    for i in kept:
        beside = [j for j, view in enumerate(job.views) if belongs(case, job.views[i], view)]
        if beside and not any(is_projected(job, job.views[i], job.views[j], laid.boxes[i], laid.boxes[j], at[i], at[j]) for j in beside):
            yield "cut %d is in projection with no view" % i


def flaws(case, laid):
    return [*flaws_of_room(laid), *flaws_of_names(case.job, laid), *flaws_of_cuts(case, laid)]


# ---- texts
def shown(job, number):
    """What a view shows, as the list says it."""
    view = job.views[number]
    if view.axis is not None:
        letter = LETTERS[cuts_before(job, number)]
        return "cut %s %d %s %s" % ("xyz"[view.axis], view.at, "high" if view.high else "low", letter)
    return view.name or "toward %d %d %d" % view.direction


def head(case, laid):
    """The scale, the views and the page, as the head of the list says them."""
    lines = ["scale %d:%d" % laid.plan.scale]
    lines += ["view %d %s %d %d" % (i, shown(case.job, i), *at) for i, at in enumerate(origins(laid))]
    return lines + ["page %d %d" % laid.page]


def more(length, way):
    return ["%s mm more %s" % (re.sub(r"\.?0*$", "", "%d.%02d" % divmod(length, 100)), way)] if length else []


def refusal(found):
    """The line of `sheet` for views that don't fit."""
    needs = more(found.across, "across") + more(found.down, "down")
    advice = (["a scale of %d:%d" % found.smaller] if found.smaller else []) + (["a sheet of " + found.larger] if found.larger else [])
    line = "sheet: the views don't fit on %s at %d:%d" % (found.plan.paper, *found.plan.scale)
    line += ": %s %s needed" % (" and ".join(needs), "are" if len(needs) > 1 else "is") if needs else ""
    return line + ("; %s would do" % " or ".join(advice) if advice else "")


def told(laid):
    plan = laid.plan
    return "%s %d:%d %s room %s kept %d" % (plan.paper, *plan.scale, plan.kind, laid.room, plan.kept)


def marks_of(case, laid, number):
    """The marks of a plain view, and the letters that are left out: the plane goes through the part, and isn't seen as a point."""
    view, (x0, y0), box = case.job.views[number], origins(laid)[number], laid.boxes[number]
    traces = []
    for letter, cut in zip(LETTERS, (cut for cut in case.job.views if cut.axis is not None)):
        way = way_of(view, cut)
        if way is None or not goes_through(case, cut) or len({c[3 - cut.axis - axis_of(view)] for c in case.corners}) == 1:
            continue
        foot = [cut.at if i == cut.axis else 0 for i in range(3)]
        along = right_axis(view.direction) if cut_lines.is_upright(way) else up_axis(view.direction)
        length = sheet_length(laid.plan.scale, case.job.decimals, along, dot(along, foot))
        traces.append(cut_lines.Trace(letter, way, x0 + length if cut_lines.is_upright(way) else y0 - length))
    return cut_lines.marks_in(cut_lines.Box(*box), with_sides(box, laid.sizes[number]), traces)


def picture(case, laid):
    """The boxes as SVG, with their sides and what they show."""
    width, height = laid.page
    rect = '<rect x="%d" y="%d" width="%d" height="%d" fill="%s" stroke="%s" stroke-width="%d"/>'
    lines = ['<svg xmlns="http://www.w3.org/2000/svg" width="%gmm" height="%gmm" viewBox="0 0 %d %d">' % (width / 100, height / 100, width, height)]
    lines += [rect % (0, 0, width, height, "white", "none", 0), rect % (FRAME, FRAME, width - 2 * FRAME, height - 2 * FRAME, "none", "black", 70)]
    lines.append(rect % (width - FRAME - BLOCK_WIDTH, height - FRAME - BLOCK_HEIGHT, BLOCK_WIDTH, BLOCK_HEIGHT, "none", "black", 70))
    lines.append('<text x="%d" y="%d" font-size="600">%s</text>' % (width - BLOCK_WIDTH, height - 2000, told(laid)))
    for i, (box, size) in enumerate(zip(laid.boxes, laid.sizes)):
        wide, ground = with_sides(box, size), "#def" if case.job.views[i].axis is None else "#fdd"
        lines.append(rect % (*wide[:2], wide.right - wide.left, wide.bottom - wide.top, "none", "silver", 20))
        lines.append(rect % (*box[:2], box.right - box.left, box.bottom - box.top, ground, "black", 50))
        lines.append('<text x="%d" y="%d" font-size="300">%d %s</text>' % (box.left + 50, box.top + 300, i, shown(case.job, i)))
        lines += [part for mark in marks_of(case, laid, i)[0] for part in cut_lines.drawn(mark)]
    return "\n".join(lines + ["</svg>\n"])


# ---- runs
def one(names):
    case = read_case(pathlib.Path(names[0]).read_text(), pathlib.Path(names[1]).read_text() if len(names) > 1 else "")
    laid = layout(case)
    if laid is None:
        print(refusal(lack(case)))
        return True
    print("\n".join(head(case, laid) + [told(laid)] + flaws(case, laid)))
    if len(names) > 2:
        pathlib.Path(names[2]).write_text(picture(case, laid))
    return bool(flaws(case, laid))


def random_cases(seed, count):
    for number in range(int(seed), int(seed) + int(count)):
        part, job = layout_jobs.case(random.Random(number))
        yield number, part, job, read_case(part, job)


def try_out(seed, count, folder=None):
    """Lays random jobs out, prints what is wrong and how many layouts there are of each kind."""
    kinds, wrong = collections.Counter(), 0
    for number, part, job, case in random_cases(seed, count):
        laid = layout(case)
        kinds[laid and " ".join((laid.plan.kind, laid.room))] += 1
        for flaw in flaws(case, laid) if laid else ():
            wrong += 1
            print("%d: %s" % (number, flaw))
        if folder:
            pathlib.Path(folder, "%d.toml" % number).write_text(job)
            pathlib.Path(folder, "%d.off" % number).write_text(part)
            pathlib.Path(folder, "%d.svg" % number).write_text(picture(case, laid) if laid else "")
    for kind, times in sorted(kinds.items(), key=str):
        print("%6d %s" % (times, kind or "refused"))
    return wrong > 0


def answer(sheet, folder, part, job):
    """The status of the program, and the head of the list that it writes, or its lines if it refuses."""
    names = [pathlib.Path(folder, name) for name in ("part.off", "job.toml", "sheet.svg", "sheet.list")]
    names[0].write_text(part)
    names[1].write_text(job)
    words = [sheet, names[0], "--job", names[1], "--out", names[2], "--list", names[3]]
    ran = subprocess.run(words, capture_output=True, check=False, text=True)
    if ran.returncode:
        return ran.returncode, ran.stderr.splitlines()
    return 0, [line for line in names[3].read_text().split("\n") if re.match("scale |view |page ", line)]


def compare(sheet, seed, count):
    """Compares a program with the layouts of random jobs."""
    wrong = 0
    with tempfile.TemporaryDirectory() as folder:
        for number, part, job, case in random_cases(seed, count):
            laid = layout(case)
            wanted = (0, head(case, laid)) if laid else (6, [refusal(lack(case))])
            status, lines = answer(sheet, folder, part, job)
            if (status, lines) != wanted:
                wrong += 1
                print("\n".join(["%d: %s" % (number, told(laid) if laid else "refused"), *wanted[1], "but status %d" % status, *lines]))
    print("%d of %s differ" % (wrong, count))
    return wrong > 0


def main():
    words = sys.argv[1:]
    if words[:1] == ["--try"] and len(words) in (3, 4):
        return try_out(*words[1:])
    if words[:1] == ["--sheet"] and len(words) == 4:
        return compare(*words[1:])
    if 1 <= len(words) <= 3 and not words[0].startswith("-"):
        return one(words)
    print(__doc__, file=sys.stderr)
    return 2


if __name__ == "__main__":
    sys.exit(main())
