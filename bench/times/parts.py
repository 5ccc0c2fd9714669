#!/usr/bin/env python3
"""Writes a part as OFF: parts.py KIND N.

cubes: N by N by N cubes, as in sample:N.
bars: N bars along x and, above them, N along y: seen from above each bar of one layer crosses each of the other.
squares: a cube whose faces are divided in N by N squares.
slivers: N thin tetrahedra side by side along the diagonal of space: the boxes of all of them overlap.
comb: a comb of N teeth.
rough: a box with a rough top of N by N squares.
walls: N slanting walls that the plane z = 0 cuts, a plate below them, and N slivers across below that.
pins: N by N pins over 400 ribs; the plane z = 8 mm cuts each pin.
"""
import random
import sys

FACES = ((0, 3, 2, 1), (4, 5, 6, 7), (0, 1, 5, 4), (1, 2, 6, 5), (2, 3, 7, 6), (3, 0, 4, 7))


def box(x, y, z, dx, dy, dz):
    return [(x + i * dx, y + j * dy, z + k * dz) for k in (0, 1) for i, j in ((0, 0), (1, 0), (1, 1), (0, 1))]


class Part:
    """Faces by their corners, in thousandths; equal corners are one."""

    def __init__(self):
        self.numbers = {}
        self.faces = []

    def face(self, *corners):
        self.faces.append([self.numbers.setdefault(corner, len(self.numbers)) for corner in corners])

    def write(self):
        print("OFF")
        print(len(self.numbers), len(self.faces), 0)
        for corner in self.numbers:
            print(*("%s%d.%03d" % ("-" if c < 0 else "", abs(c) // 1000, abs(c) % 1000) for c in corner))
        for face in self.faces:
            print(len(face), *face)


def cubes(part, n):
    for i, j, k in ((i, j, k) for i in range(n) for j in range(n) for k in range(n)):
        corners = box(20000 * i, 20000 * j, 20000 * k, 10000, 10000, 10000)
        for face in FACES:
            part.face(*(corners[k] for k in face))


def bars(part, n):
    boxes = [box(0, 10 * i + 3, 0, 10 * n, 4, 4) for i in range(n)]
    boxes += [box(10 * i + 3, 0, 6, 4, 10 * n, 4) for i in range(n)]
    for corners in boxes:
        for face in FACES:
            part.face(*(tuple(1000 * c for c in corners[k]) for k in face))


def squares(part, n):
    size = 20000
    at = [size * i // n for i in range(n + 1)]
    for axis in range(3):
        for end, flip in ((size, 1), (0, -1)):
            for i in range(n):
                for j in range(n):
                    square = [(at[i], at[j]), (at[i + 1], at[j]), (at[i + 1], at[j + 1]), (at[i], at[j + 1])][::flip]
                    part.face(*((end, u, v)[-axis:] + (end, u, v)[:-axis] if axis else (end, u, v) for u, v in square))


def slivers(part, n):
    step = 900000 // n
    width = max(2, step // 4)
    for i in range(n):
        o = (i - n // 2) * step
        a, c = (-500000 + o, -500000 - o, -500000), (500000 + o, 500000 - o, 500000)
        b, d = (a[0] + width, a[1], a[2]), (c[0], c[1] + width, c[2])
        for face in ((a, b, c), (a, d, b), (b, d, c), (a, c, d)):
            part.face(*face)


def comb(part, n):
    depth = 800000
    at = [900000 // (2 * n) * i for i in range(2 * n + 1)]
    wall = lambda x, low, high: ((x, depth, low), (x, 0, low), (x, 0, high), (x, depth, high))
    for i in range(2 * n):
        x, y = at[i], at[i + 1]
        levels = (0, 50000, 500000) if i % 2 == 0 else (0, 50000)
        for low, high in zip(levels, levels[1:]):
            part.face((x, 0, low), (y, 0, low), (y, 0, high), (x, 0, high))
            part.face((y, depth, low), (x, depth, low), (x, depth, high), (y, depth, high))
        part.face((x, depth, 0), (y, depth, 0), (y, 0, 0), (x, 0, 0))
        part.face((x, 0, levels[-1]), (y, 0, levels[-1]), (y, depth, levels[-1]), (x, depth, levels[-1]))
        if i % 2 == 0:
            part.face(*wall(x, 50000, 500000))
            part.face(*wall(y, 50000, 500000)[::-1])
    part.face(*wall(0, 0, 50000))
    part.face(*wall(at[-1], 0, 50000)[::-1])


def rough(part, n):
    step = 900000 // n
    heights = random.Random(3)
    top = {}
    for i in range(n + 1):
        for j in range(n + 1):
            inner = 0 < i < n and 0 < j < n
            top[i, j] = (i * step, j * step, 100000 + (heights.randrange(40000) if inner else 0))
    for i in range(n):
        for j in range(n):
            part.face(top[i, j], top[i + 1, j], top[i + 1, j + 1])
            part.face(top[i, j], top[i + 1, j + 1], top[i, j + 1])
    ring = [(i, 0) for i in range(n)] + [(n, j) for j in range(n)]
    ring += [(i, n) for i in range(n, 0, -1)] + [(0, j) for j in range(n, 0, -1)]
    middle = (n * step // 2, n * step // 2, 0)
    for a, b in zip(ring, ring[1:] + ring[:1]):
        low = lambda k: top[k][:2] + (0,)
        part.face(low(a), low(b), top[b], top[a])
        part.face(middle, low(b), low(a))


def tetrahedron(part, a, b, c, d):
    for face in ((a, b, c), (a, d, b), (b, d, c), (a, c, d)):
        part.face(*face)


def solid_box(part, x, y, z, dx, dy, dz):
    corners = box(x, y, z, dx, dy, dz)
    for face in FACES:
        part.face(*(corners[k] for k in face))


def walls(part, n):
    for i in range(n):
        x = -450000 + 900000 * i // n
        d = min(300, max(2, 300000 // n))
        far = [(x + d, 500000, 500), (x + d, -500000, -500), (x, 500000, -500)]
        tetrahedron(part, (x, -500000, 500), *far)
    solid_box(part, -501000, -501000, -2000, 1002000, 1002000, 500)
    for i in range(n):
        y = -200000 + 400000 * i // n
        d = min(300, max(2, 400000 // n // 3))
        far = [(-500000, y + d, -5000), (500000, y, -5000), (500000, y, -5000 - d)]
        tetrahedron(part, (-500000, y, -5000), *far)


def pins(part, n):
    for i in range(400):
        solid_box(part, 0, 2000 * i, 0, 800000, 1000, 2000)
    pitch = 800000 // n
    for i in range(n):
        for j in range(n):
            solid_box(part, pitch * i + 500, pitch * j + 300, 3000, 1000, 1000, 10000)


part = Part()
{"cubes": cubes, "bars": bars, "squares": squares, "slivers": slivers, "comb": comb, "rough": rough,
 "walls": walls, "pins": pins}[sys.argv[1]](part, int(sys.argv[2]))
part.write()
