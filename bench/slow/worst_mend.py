"""Families of parts whose slivers may keep `mend` busy, for worst.py: pages of a book, chains of flips, flat arcs, crowds of slivers on
few corners, and hubs. None of them is closed, since flips don't ask for it."""
import random

TRIANGLES = 20000
FAR = 1000000


def pages(number, at=0):
    """Slivers on one side, in both directions, like the pages of a book; some may be there more than once."""
    n = number("pages", 10, TRIANGLES // 2 - 10)
    copies = max(1, number("copies", -20, 20))
    rough = random.Random(number("seed", 0, 999))
    high = number("high", 1, 3)
    # pages on one side of the edge alone aren't flipped, so that each pair is compared
    low = min(high, number("low", -3, 3))
    end = number("end", 100000, FAR)
    a, b = (-end, at, 0), (end, at, number("slant", -2, 2))
    faces = []
    for i in range(n):
        if i % copies == 0:
            c, d = ((rough.randint(-end, end), at + rough.randint(low, high), rough.randint(low, high)) for _ in range(2))
        faces += [(a, b, c), (b, a, d)]
    return faces


def links(number):
    """A chain of flips, each made possible by the one before, in the reverse order of the triangles."""
    count = number("links", 1, 4000)
    rough = random.Random(number("chain", 0, 999))
    a, b = (0, 0, 500000), (3000, 50, 500000)
    chain = [[(a, b, (1500, 26, 500000)), (b, a, (1500, 2000, 500700))]]
    before = a, b
    for _ in range(1, count):
        while True:
            v = [rough.randint(-2000, 2000) for _ in range(3)]
            p = tuple(before[0][k] + v[k] for k in range(3))
            q = tuple(before[0][k] - v[k] + (k == 2) for k in range(3))
            if max(map(abs, v[:2])) > 800 and 200000 < min(p[2], q[2]) and max(map(abs, p + q)) < FAR:
                break
        chain.append([(p, q, before[0]), (q, p, before[1])])
        before = p, q
    if number("reversed", 0, 1):
        chain.reverse()
    return [face for link in chain for face in link]


def book_and_chain(number):
    faces = links(number)
    return faces + pages(number)[:TRIANGLES - len(faces)]


def arcs(number):
    """Points of flat arcs, each triangulated from one end, both sides."""
    n = number("n", 5, 3000)
    faces = []
    for i in range(max(1, min(number("arcs", 1, 300), TRIANGLES // (2 * n)))):
        bend = number("bend", 1, 40)
        points = [(1000 * k - 500 * n + i, 50 * i + bend * k * (n - k) // (n * n) // 4, i) for k in range(n)]
        far = (0, 50 * i - 40000, number("deep", -3, 3))
        for k in range(1, n - 1):
            faces.append((points[0], points[k], points[k + 1]))
        faces += [(points[k + 1], points[k], far) for k in range(n - 1)]
    return faces


def crowd(number):
    """Triangles on few corners, all near one line or one plane."""
    m = number("corners", 4, 600)
    rough = random.Random(number("seed", 0, 999))
    wide, high, long = number("wide", 1, 40), number("high", 0, 3), number("long", 10, FAR)
    corners = list({(rough.randint(-long, long), rough.randint(-wide, wide), rough.randint(-high, high)) for _ in range(m)})
    if len(corners) < 4:
        corners = [(0, 0, 0), (9, 1, 0), (18, 0, 1), (27, 2, 0)]
    faces = []
    for _ in range(min(TRIANGLES, number("count", 100, TRIANGLES)) // 2):
        a, b, c, d = rough.sample(corners, 4)
        faces += [(a, b, c), (b, a, d)]
    return faces


def hubs(number):
    """Slivers between few corners that have many and many that have few."""
    count = number("hubs", 2, 150)
    rough = random.Random(number("seed", 0, 999))
    high = number("high", 1, 3)
    ends = [(rough.randint(-FAR, FAR), rough.randint(-high, high), rough.randint(-high, high)) for _ in range(count)]
    faces = []
    for _ in range(number("count", 100, TRIANGLES) // 2):
        a, b = rough.sample(ends, 2)
        if a[0] != b[0]:
            c, d = ((rough.randint(min(a[0], b[0]), max(a[0], b[0])), rough.randint(-high, high), rough.randint(-high, high)) for _ in range(2))
            faces += [(a, b, c), (b, a, d)]
    return faces or [((0, 0, 0), (9, 0, 0), (0, 9, 0))]


FAMILIES = (pages, links, book_and_chain, arcs, crowd, hubs)


def words(number):
    """The further words of a run."""
    return ["--limit", str(number("limit", 0, 100))]
