"""Makes random parts and jobs for layouts.py: parts of few faces, and jobs whose views stand in many ways."""
from fractions import Fraction

NAMES = ("front", "back", "left", "right", "above", "below")
PAPERS = ("A4", "A3", "A2", "A1", "A0")
SCALES = ((50, 1), (20, 1), (10, 1), (5, 1), (2, 1), (1, 1), (1, 2), (1, 5), (1, 10), (1, 20), (1, 50), (1, 100))
LONGER_SIDES = {"A4": 297, "A3": 420, "A2": 594, "A1": 841, "A0": 1189}
CORNERS = ((1, -1, 1), (-1, -1, 1), (1, 1, 1), (1, -1, -1), (2, -3, 1), (1, -1, 0), (0, -1, 1), (9, -4, 7))
GREATEST, LEAST_GAP = 1048576, 10
MILLIMETRES = {"mm": Fraction(1), "inch": Fraction(254, 10)}
# of lengths in a part's text: hundredths of a millimetre, thousandths of an inch
GRAINS = {"mm": 100, "inch": 1000}


# ---- parts, in grains
def prism(outline, bottom, top):
    """A prism over corners that go round counterclockwise."""
    count = len(outline)
    corners = [(x, y, z) for z in (bottom, top) for x, y in outline]
    sides = [(i, (i + 1) % count, count + (i + 1) % count, count + i) for i in range(count)]
    return corners, [tuple(range(count - 1, -1, -1)), tuple(range(count, 2 * count)), *sides]


def plain_box(chance, sizes):
    width, depth, height = sizes
    return prism([(0, 0), (width, 0), (width, depth), (0, depth)], 0, height)


def angle(chance, sizes):
    """A box without a box at one of its edges."""
    width, depth, height = sizes
    x, y = between(chance, width), between(chance, depth)
    return prism([(0, 0), (width, 0), (width, y), (x, y), (x, depth), (0, depth)], 0, height)


def tube(chance, sizes):
    """A box with a rectangular hole."""
    width, depth, height = sizes
    x, y = between(chance, width // 2), between(chance, depth // 2)
    outer = [(0, 0), (width, 0), (width, depth), (0, depth)]
    inner = [(x, y), (width - x, y), (width - x, depth - y), (x, depth - y)]
    corners = [(*place, z) for z in (0, height) for place in outer + inner]
    faces = []
    for i in range(4):
        j = (i + 1) % 4
        faces += [(i, j, 8 + j, 8 + i), (4 + j, 4 + i, 12 + i, 12 + j), (8 + i, 8 + j, 12 + j, 12 + i), (j, i, 4 + i, 4 + j)]
    return corners, faces


def pair(chance, sizes):
    """Two boxes one above the other: a plane may go between them."""
    width, depth, height = sizes
    outline = [(0, 0), (width, 0), (width, depth), (0, depth)]
    lower, faces = prism(outline, 0, between(chance, height // 2))
    upper, others = prism(outline, height - between(chance, height // 2), height)
    return lower + upper, faces + [tuple(8 + i for i in face) for face in others]


def between(chance, length):
    """A length that is less, and leaves something."""
    return chance.randint(min(LEAST_GAP, length // 3), max(length // 3, length - LEAST_GAP))


def turned(chance, part):
    """The part with its axes exchanged in turn."""
    corners, faces = part
    turn = chance.randrange(3)
    return [tuple(c[(i + turn) % 3] for i in range(3)) for c in corners], faces


def moved(chance, part):
    """The part elsewhere: as it is, around the origin, or far from it."""
    corners, faces = part
    size = max(max(c) for c in corners)
    by = chance.choice(((0, 0, 0), tuple(-max(c[i] for c in corners) // 2 for i in range(3)), tuple(chance.randint(-size, size) for _ in range(3))))
    return [tuple(a + b for a, b in zip(c, by)) for c in corners], faces


def size_in_grains(chance, unit, paper, scale, count):
    """Of a part that nearly fills the sheet with so many views, or is any smaller; seldom of any other one, from 0.5 mm to 5 m."""
    longest = LONGER_SIDES[paper] * chance.uniform(0.2, 1.4) / (1 + count**0.5)
    drawn = longest if chance.random() < 0.8 else longest ** chance.random()
    exact = drawn * scale[1] / scale[0] if chance.random() < 0.93 else 0.5 * 10000 ** chance.random()
    sides = [exact * chance.choice((1, chance.uniform(0.02, 0.2), chance.uniform(0.2, 1), chance.uniform(0.5, 1))) for _ in range(3)]
    return [int(min(5000, max(0.5, side)) * GRAINS[unit] / MILLIMETRES[unit]) for side in sides]


# ---- texts
def number(grains, unit):
    """A length as it stands in a text."""
    size = GRAINS[unit]
    return "%s%d.%0*d" % ("-" if grains < 0 else "", abs(grains) // size, len(str(size)) - 1, abs(grains) % size)


def part_text(part, unit):
    corners, faces = part
    lines = ["OFF", "%d %d 0" % (len(corners), len(faces))]
    lines += [" ".join(number(x, unit) for x in c) for c in corners]
    lines += [" ".join(map(str, (len(face), *face))) for face in faces]
    return "\n".join(lines) + "\n"


def decimals_for(chance, corners, unit):
    """A number of decimals at which the part is in range, and no two of its lengths become one."""
    exact = [abs(x) * MILLIMETRES[unit] / GRAINS[unit] for c in corners for x in c]
    steps = [y - x for a in range(3) for x, y in zip(*(lambda s: (s, s[1:]))(sorted({c[a] for c in corners})))]
    least = min(steps) * MILLIMETRES[unit] / GRAINS[unit]
    return chance.choice([k for k in range(7) if max(exact) * 10**k + 1 <= GREATEST and least * 10**k >= 2])


def plane(chance, corners, axis):
    """A place on the axis, in grains: mostly in the part, else at one of its corners, beside one, at an end, or outside."""
    places = sorted({c[axis] for c in corners})
    low, high = places[0], places[-1]
    which = chance.random()
    if which < 0.6:
        return chance.randint(low, high)
    if which < 0.8:
        return chance.choice(places)
    if which < 0.9:
        return chance.choice(places) + chance.choice((-1, 1))
    return chance.choice((low - 1, high + 1, low - (high - low), high + chance.randint(1, high - low)))


def at_text(chance, version, grains, unit, decimals):
    """The place as the job has it: in units, or as a length, with digits that must be rounded."""
    if version < 3:
        units = grains * MILLIMETRES[unit] * 10**decimals / GRAINS[unit]
        return str(min(GREATEST, max(-GREATEST, round(units) + chance.choice((0, 0, 0, 0, -1, 1)))))
    most = int(GREATEST * GRAINS[unit] / MILLIMETRES[unit] / 10**decimals) - 1
    return number(min(most, max(-most, grains)), unit) + chance.choice(("", "", "", "0", "4999", "5", "50001"))


def direction(chance):
    """Along an axis or not, of any length."""
    if chance.random() < 0.4:
        return chance.choice(CORNERS) if chance.random() < 0.8 else (chance.randint(1, 9), chance.randint(-9, 9), chance.randint(-9, 9))
    size = chance.choice((-1, 1)) * (1 if chance.random() < 0.9 else chance.randint(1, 9))
    axis = chance.randrange(3)
    return tuple(size if i == axis else 0 for i in range(3))


def cut_lines(chance, version, corners, unit, decimals):
    axis = chance.randrange(3)
    at = at_text(chance, version, plane(chance, corners, axis), unit, decimals)
    lines = ['cut = "%s"' % "xyz"[axis], "at = " + at, 'from = "%s"' % chance.choice(("high", "low"))]
    return lines + (['title = "through the bore"'] if version == 3 and chance.random() < 0.2 else [])


def views(chance, version, corners, unit, decimals, count):
    """The lines of so many views of a job, in any order."""
    often, share = chance.choice((0, 0.3, 0.5, 0.8, 1)), chance.choice((1, 0.8, 0.5, 0.2))
    made = [['name = "%s"' % name] for name in NAMES if chance.random() < often][:count]
    while len(made) < count:
        if chance.random() < share:
            made.append(cut_lines(chance, version, corners, unit, decimals))
        else:
            made.append(["toward = [%d, %d, %d]" % direction(chance)])
    if chance.random() < 0.5:
        chance.shuffle(made)
    return made


def sheet_lines(chance, version, paper, scale, is_fit):
    """The lines for the sheet and the angle; a usual value may be left out."""
    lines = []
    if chance.random() < 0.5:
        lines.append('angle = "%s"' % chance.choice(("first", "third", "third")))
    if paper != "A3" or chance.random() < 0.5:
        lines.append('sheet = "%s"' % paper)
    if not is_fit:
        lines.append('scale = "%d:%d"' % scale)
    if version > 1 and chance.random() < 0.3:
        lines.append('layout = "portrait"')
    return lines


def case(chance):
    """The texts of a part and of a job."""
    version, paper, scale, is_fit = chance.choice((1, 2, 2, 3, 3, 3)), chance.choice(PAPERS), chance.choice(SCALES), chance.random() < 0.45
    unit = "inch" if version > 1 and chance.random() < 0.2 else "mm"
    count = chance.choice((chance.randint(1, 4), chance.randint(1, 12), chance.randint(4, 9)))
    if chance.random() < 0.15:  # a crowd: small views on a small sheet, whose headings need most of the room
        paper, is_fit, count = chance.choice(("A4", "A4", "A3")), False, chance.randint(7, 12)
    sizes = size_in_grains(chance, unit, paper, scale, count)
    part = moved(chance, turned(chance, chance.choice((plain_box, angle, tube, pair))(chance, sizes)))
    decimals = decimals_for(chance, part[0], unit)
    if version == 3 and chance.random() < 0.25:
        paper = "fit"
    lines = ["version = %d" % version] + sheet_lines(chance, version, paper, scale, is_fit)
    if version < 3 or chance.random() < 0.3:
        lines.append("decimals = %d" % decimals)
    else:
        decimals = 2
    if unit == "inch":
        lines.append('unit = "inch"')
    for view in views(chance, version, part[0], unit, decimals, count) if chance.random() < 0.98 else ():
        lines += ["", "[[view]]", *view]
    return part_text(part, unit), "\n".join(lines) + "\n"
