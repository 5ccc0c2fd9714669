#!/usr/bin/env python3
"""Looks for parts that are slow to draw: worst.py PROGRAM MINUTES [SEED] [FOLDER]. Parts of each family below are made with random
numbers, drawn in one view or cut, and the slowest of a family is changed a little again and again. Prints each new worst with its
processor seconds and MB; its part and job are kept in FOLDER, `worst` where it isn't given. All parts are within the limits of `draw`;
one that is refused counts too, since the check takes its time as well. A run has at most 4 GB. If PROGRAM is `mend`, the families are
those of worst_mend.py, and the job file has the words of the run."""
import os
import random
import resource
import subprocess
import sys
import time

import worst_mend

TRIANGLES = 20000
SIDE = 500000
FACES = ((0, 3, 2, 1), (4, 5, 6, 7), (0, 1, 5, 4), (1, 2, 6, 5), (2, 3, 7, 6), (3, 0, 4, 7))


def tetrahedron(a, b, c, d):
    turn = sum((b[i] - a[i]) * ((c[j] - a[j]) * (d[k] - a[k]) - (c[k] - a[k]) * (d[j] - a[j])) for i, j, k in ((0, 1, 2), (1, 2, 0), (2, 0, 1)))
    b, c = (b, c) if turn < 0 else (c, b)
    return [(a, b, c), (a, d, b), (b, d, c), (a, c, d)]


def box(x, y, z, dx, dy, dz):
    corners = [(x + i * dx, y + j * dy, z + k * dz) for k in (0, 1) for i, j in ((0, 0), (1, 0), (1, 1), (0, 1))]
    return [tuple(corners[k] for k in face) for face in FACES]


def bundle(number):
    """Slivers side by side, along one direction."""
    n = number("n", 100, TRIANGLES // 4)
    d = [number(axis, -SIDE, SIDE) for axis in "xyz"]
    across = number("across", 0, 2)
    step = max(4, 2 * SIDE // n)
    faces = []
    for i in range(n):
        at = [-d[k] // 2 for k in range(3)]
        at[across] += (i - n // 2) * step // 2
        a = tuple(at)
        c = tuple(at[k] + d[k] for k in range(3))
        moved = lambda p, axis: tuple(p[k] + (step // 8 + 1) * (k == axis) for k in range(3))
        faces += tetrahedron(a, moved(a, across), moved(c, across), moved(c, (across + 1) % 3))
    return faces


def layers(number):
    """Layers of slivers above one another, each layer along another direction."""
    count = number("layers", 2, 60)
    n = TRIANGLES // 4 // count
    faces = []
    for layer in range(count):
        u, v = number("u%d" % layer, -1000, 1000), number("v%d" % layer, 1, 1000)
        z = (layer - count // 2) * 2000
        for i in range(n):
            o = (2 * i - n) * SIDE // (2 * n)
            a = (-u * 300 - v * o // 1000, -v * 300 + u * o // 1000, z)
            b = (u * 300 - v * o // 1000, v * 300 + u * o // 1000, z)
            faces += tetrahedron(a, (a[0] + 9, a[1], a[2]), (b[0], b[1], b[2] + 300), (b[0] + 9, b[1] + 9, b[2]))
    return faces


def boxes(number):
    """Boxes in a lattice, each with a size of its own."""
    shape = [number(axis, 1, 200) for axis in "xyz"]
    while 12 * shape[0] * shape[1] * shape[2] > TRIANGLES:
        shape[shape.index(max(shape))] -= 1
    size = [number("size" + axis, 1, 99) for axis in "xyz"]
    rough = random.Random(number("seed", 0, 99))
    faces = []
    for i in range(shape[0]):
        for j in range(shape[1]):
            for k in range(shape[2]):
                pitch = [2 * SIDE // m for m in shape]
                own = [max(2, p * rough.randint(1, s) // 100) for p, s in zip(pitch, size)]
                at = [c * p - SIDE for c, p in zip((i, j, k), pitch)]
                faces += box(*at, *own)
    return faces


def fan(number):
    """A cone over a rough ring, or two of them."""
    n = number("n", 100, TRIANGLES // 2 - 1)
    rough = random.Random(number("seed", 0, 99))
    high, low, wave = number("high", -SIDE, SIDE), number("low", -SIDE, SIDE), number("wave", 0, SIDE // 2)
    if high == low:
        high += 1
    ring = []
    for i in range(n):
        # a convex ring: points of a parabola and back along the chord's other side
        t = 2 * i / n
        x = int(SIDE * (2 * t - 1)) if t < 1 else int(SIDE * (3 - 2 * t))
        y = (1 if t < 1 else -1) * (SIDE - abs(x)) // 2
        ring.append((x, y, (high + low) // 2 + (rough.randint(-wave, wave) if wave else 0)))
    top, bottom = (0, 0, max(high, low) + SIDE // 2 + wave), (0, 0, min(high, low) - SIDE // 2 - wave)
    pairs = list(zip(ring, ring[1:] + ring[:1]))
    return [(bottom, b, a) for a, b in pairs] + [(top, a, b) for a, b in pairs]


def rough_top(number):
    """A block with a rough top of squares."""
    n = number("n", 5, 94)
    m = min(number("m", 5, 94), (TRIANGLES - 4 * n - 400) // (2 * n + 4))
    rough = random.Random(number("seed", 0, 99))
    wave = number("wave", 1, SIDE)
    height = lambda i, j: 100 + (rough.randint(0, wave) if 0 < i < n and 0 < j < m else 0)
    top = {(i, j): (2 * SIDE * i // n - SIDE, 2 * SIDE * j // m - SIDE, height(i, j)) for i in range(n + 1) for j in range(m + 1)}
    faces = []
    for i in range(n):
        for j in range(m):
            faces += [(top[i, j], top[i + 1, j], top[i + 1, j + 1]), (top[i, j], top[i + 1, j + 1], top[i, j + 1])]
    ring = [(i, 0) for i in range(n)] + [(n, j) for j in range(m)] + [(i, m) for i in range(n, 0, -1)] + [(0, j) for j in range(m, 0, -1)]
    low = lambda key: top[key][:2] + (0,)
    for a, b in zip(ring, ring[1:] + ring[:1]):
        faces += [(low(a), low(b), top[b], top[a]), ((0, 0, 0), low(b), low(a))]
    return faces


def plates(number):
    """Thin plates above one another, each a little turned by its corners."""
    n = number("n", 10, TRIANGLES // 12)
    slant, step = number("slant", 0, 400), max(40, 2 * SIDE // n)
    faces = []
    for i in range(n):
        o = (i - n // 2) * slant
        faces += box(-SIDE // 2 + o, -SIDE // 2 - o // 2, (i - n // 2) * step // 2, SIDE, SIDE, max(2, step // 8))
    return faces


FAMILIES = (bundle, layers, boxes, fan, rough_top, plates)


def write(faces, file):
    numbers = {}
    listed = [[numbers.setdefault(corner, len(numbers)) for corner in face] for face in faces]
    with open(file, "w") as it:
        it.write("OFF\n%d %d 0\n" % (len(numbers), len(listed)))
        for corner in numbers:
            it.write(" ".join("%s%d.%03d" % ("-" if c < 0 else "", abs(c) // 1000, abs(c) % 1000) for c in corner) + "\n")
        for face in listed:
            it.write("%d %s\n" % (len(face), " ".join(map(str, face))))


def job(number):
    kind = number("view", 0, 3)
    if kind == 0:
        view = 'cut = "%s"\nat = %d\nfrom = "high"\n' % ("xyz"[number("axis", 0, 2)], number("at", -SIDE // 2, SIDE // 2))
    else:
        # along an axis what stands side by side may be one behind the other
        along = number("axis", 0, 2) if kind == 1 else None
        toward = [number("toward" + axis, -3, 3) if along is None else int(k == along) for k, axis in enumerate("xyz")]
        view = "toward = [%d, %d, %d]\n" % tuple(toward if any(toward) else (0, 0, 1))
    return 'sheet = "A0"\nscale = "fit"\n[[view]]\n' + view


def measured(program, part, words):
    start = os.path.join(os.path.dirname(part), "usage.txt")
    timed = ["/usr/bin/time", "--quiet", "--format", "%U %S %M", "--output", start]
    subprocess.run(timed + [program, *words, "--out", os.path.join(os.path.dirname(part), "view.svg"), "--", part],
                   stdout=subprocess.DEVNULL, stderr=subprocess.DEVNULL)
    user, system, memory = open(start).read().split()[-3:]
    return float(user) + float(system), int(memory) / 1024


def main(program, minutes, seed, folder):
    os.makedirs(folder, exist_ok=True)
    # a run that takes more ends by want of memory, or by a signal, and counts with what it took
    resource.setrlimit(resource.RLIMIT_AS, (4 << 30, 4 << 30))
    choice = random.Random(seed)
    mends = "mend" in os.path.basename(program)
    families = worst_mend.FAMILIES if mends else FAMILIES
    worst = {}
    end = time.monotonic() + 60 * minutes
    tries = 0
    while time.monotonic() < end:
        family = choice.choice(families)
        old = worst.get(family, (0, 0, {}))[2] if choice.random() < .7 else {}
        numbers = {}

        def number(name, low, high):
            if name not in numbers:
                if name not in old or choice.random() < .15:
                    numbers[name] = choice.randint(low, high)
                elif choice.random() < .3:
                    span = max(1, (high - low) // 10)
                    numbers[name] = min(high, max(low, old[name] + choice.randint(-span, span)))
                else:
                    numbers[name] = min(high, max(low, old[name]))
            return numbers[name]

        part, told = os.path.join(folder, "part.off"), os.path.join(folder, "job.toml")
        write(family(number), part)
        text = " ".join(worst_mend.words(number)) if mends else job(number)
        with open(told, "w") as it:
            it.write(text)
        seconds, memory = measured(program, part, text.split() if mends else ["--job", told])
        tries += 1
        if seconds > worst.get(family, (0,))[0]:
            worst[family] = (seconds, memory, numbers)
            for file in (part, told):
                os.replace(file, os.path.join(folder, family.__name__ + os.path.splitext(file)[1]))
            print("%s: %.2f s %.0f MB %s" % (family.__name__, seconds, memory, {k: v for k, v in numbers.items() if k[1:] == "" or len(numbers) < 16}), flush=True)
    print("%d parts" % tries)


if not 3 <= len(sys.argv) <= 5:
    sys.exit(__doc__)
main(sys.argv[1], float(sys.argv[2]), int(sys.argv[3]) if len(sys.argv) > 3 else 1, sys.argv[4] if len(sys.argv) > 4 else "worst")
