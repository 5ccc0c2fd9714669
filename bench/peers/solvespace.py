#!/usr/bin/env python3
"""solvespace.py FOLDER PART.off MODEL.slvs: writes a model of SolveSpace, which setup.sh built in FOLDER, that links the part as an
STL beside it, turned so that its front is SolveSpace's front, and its view along (1, -1, 1) the isometric one. A view is exported by
FOLDER/solvespace-cli export-view --output OUT.svg --view front|isometric --chord-tol 0.001 MODEL.slvs"""
import os
import re
import struct
import sys


def triangles(file):
    words = [word for line in open(file) for word in line.split("#")[0].split()]
    vertices, faces = int(words[1]), int(words[2])
    points = [tuple(map(float, words[4 + 3 * k:7 + 3 * k])) for k in range(vertices)]
    at = 4 + 3 * vertices
    for _ in range(faces):
        count = int(words[at])
        face = [points[int(word)] for word in words[at + 1:at + 1 + count]]
        at += 1 + count
        for k in range(1, count - 1):
            yield [(x, z, -y) for x, y, z in (face[0], face[k], face[k + 1])]


def normal(a, b, c):
    u, v = ([q[k] - a[k] for k in range(3)] for q in (b, c))
    n = (u[1] * v[2] - u[2] * v[1], u[2] * v[0] - u[0] * v[2], u[0] * v[1] - u[1] * v[0])
    length = sum(x * x for x in n) ** .5
    return [x / length for x in n]


def main(folder, part, model):
    stl = model + ".stl"
    faces = list(triangles(part))
    with open(stl, "wb") as it:
        it.write(b"x" * 80 + struct.pack("<I", len(faces)))
        for face in faces:
            it.write(struct.pack("<12fH", *normal(*face), *(x for corner in face for x in corner), 0))
    text = open(os.path.join(folder, "normal.slvs"), "rb").read()
    text = re.sub(rb"(Group\.type=5300.*?Group\.remap=\{)(.*?)(\n\})", rb"\1\3", text, flags=re.S)
    text = text.replace(b"/TESTROOT/rect_v20.slvs", os.path.realpath(stl).encode()).replace(b"rect_v20.slvs", os.path.basename(stl).encode())
    for kind in (b"Entity", b"Constraint"):
        text = re.sub(kind + rb"\.h\.v=.*?Add" + kind + rb"\n\n", b"", text, flags=re.S)
    # at the origin, unturned
    for parameter in (b"80030000", b"80030001", b"80030002"):
        text = re.sub(rb"(Param\.h\.v\.=" + parameter + rb"\n)(Param\.val=[^\n]*\n)?", rb"\1", text)
    text = re.sub(rb"(Triangle|Surface|SCtrl|TrimBy|Curve|CCtrl|CurvePt)[ \n].*?\n", b"", text)
    with open(model, "wb") as it:
        it.write(text)


if len(sys.argv) != 4:
    sys.exit(__doc__)
main(*sys.argv[1:])
