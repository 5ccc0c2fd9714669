#!/usr/bin/env python3
"""Makes a part that `draw` accepts from a file of a CAD program, and says how.
Usage: part.py IN OUT.off [--job FILE] [--seconds N] [--draw PROGRAM] [--mend PROGRAM]
IN is a model (STEP, IGES, BREP, FCStd), a program of OpenSCAD (.scad) or a mesh (STL, 3MF, OBJ, PLY, OFF). OUT.off is the part,
for a job with the decimals that are reported. FILE is such a job of version 3, which `sheet` reads. N is the most seconds for all,
60 if it isn't given. The programs are crates/draw_cli/out/draw_cli and crates/mend_cli/out/mend_cli if they aren't given."""
import os
import re
import signal
import sys
import tempfile
from fractions import Fraction

import limited
import one_line
import part_text
import shells
from one_line import Fault
from part_meshes import Meshes, counted

USAGE = "usage: part.py IN OUT.off [--job FILE] [--seconds N] [--draw PROGRAM] [--mend PROGRAM]"
DECIMALS = (6, 5, 4, 3, 2)
FUSE, DRAW = 1 / 3, 1 / 3  # of all seconds, at most, for each step
TOUCHES = ("meets triangle", "the same way", "the same corners")
FINDINGS = (
    ("more than %d" % part_text.MOST_TRIANGLES,
     "leave out small roundings, threads and letters, or draw fewer of the bodies; of a mesh a coarser export, in OpenSCAD a smaller $fn"),
    ("has no partner", "the surface is open there: close it"),
    ("is flat", "make the thin face there larger, or leave it out"),
    ("the same ", "faces or bodies only touch there: let them overlap, or part them"),
    ("meets triangle", "faces or bodies touch or cross there: move or resize one of them a little, or unite them"),
    ("no triangle", "it is empty, or smaller than a unit: check the units"),
    ("too large", "check the units"),
)


def words_of(words):
    """The two names, and the options."""
    names, given, words = [], {}, list(words)
    while words:
        word = words.pop(0)
        if word == "--":
            names, words = names + words, []
        elif word in ("--job", "--seconds", "--draw", "--mend"):
            if not words or word in given:
                raise Fault(USAGE)
            given[word] = words.pop(0)
        else:
            names.append(word)
    if len(names) != 2 or not all(names) or not re.fullmatch("[1-9][0-9]{0,4}", given.get("--seconds", "60")):
        raise Fault(USAGE)
    return names, given


def program_of(given, name):
    built = os.path.join(os.path.dirname(os.path.realpath(__file__)), "..", "..", "crates", name + "_cli", "out", name + "_cli")
    # a path from the root isn't looked for in other folders
    path = os.path.join(os.getcwd(), given.get("--" + name, built))
    if not os.path.isfile(path):
        raise Fault("there is no program %s: build it by rt run in crates/%s_cli, or name it by --%s" % (name, name, name))
    return path


class Part:
    """A mesh with the numbers as they are in its text."""

    def __init__(self, path):
        self.corners, self.faces = part_text.read(path)
        if not self.faces:
            raise Fault("it has no triangle")
        sizes = [[(part_text.units(word, DECIMALS[0], 10**18), word) for word in axis] for axis in zip(*self.corners)]
        if any(size is None for axis in sizes for size, _ in axis):
            raise Fault("a number is too large")
        self.ends = [(min(axis)[1], max(axis)[1]) for axis in sizes]

    def middle(self):
        """The middle of the part, in whole mm."""
        return tuple(sum(part_text.units(word, 0, 10**18) for word in ends) // 2 for ends in self.ends)

    def fits(self, decimals, by):
        return all(abs(part_text.units(word, decimals, 10**18) + shift * 10**decimals) <= part_text.GREATEST
                   for ends, shift in zip(self.ends, by) for word in ends)

    def text(self, decimals, by):
        """The part, rounded and then moved by so many mm, as OFF."""
        placed, known = [], {}
        for corner in self.corners:
            units = tuple(part_text.units(word, decimals, 10**18) + shift * 10**decimals for word, shift in zip(corner, by))
            placed.append(known.setdefault(units, len(known)))
        faces = [[placed[corner] for corner in corners] for _, corners in self.faces]
        faces = [face for face in faces if len(face) > 3 or len(set(face)) == 3]
        number = lambda unit: "%s%d.%0*d" % ("-" * (unit < 0), abs(unit) // 10**decimals, decimals, abs(unit) % 10**decimals)
        rows = ["OFF %d %d 0" % (len(known), len(faces))] + [" ".join(map(number, corner)) for corner in known]
        return "\n".join(rows + ["%d %s" % (len(face), " ".join(map(str, face))) for face in faces]) + "\n"

    def places(self):
        """How it is tried: the decimals, and by how many mm it is moved. A part that is far away is moved first."""
        still, by = (0, 0, 0), tuple(-at for at in self.middle())
        as_it_is = [(decimals, still) for decimals in DECIMALS if self.fits(decimals, still)]
        moved = [(decimals, by) for decimals in DECIMALS if not self.fits(decimals, still) and self.fits(decimals, by)]
        return as_it_is + moved if as_it_is and as_it_is[0][0] > 2 else moved + as_it_is


class Trials:
    """Draws and mends, and keeps what a part is refused for."""

    def __init__(self, room, draw, mend, clock):
        self.room, self.draw, self.mend, self.clock, self.refused = room, draw, mend, clock, []

    def run(self, words):
        status, line = limited.run(words, self.clock.left(DRAW), self.room)
        if status not in (0, 4, 5, 6, None):
            raise Fault("%s ended with %s. %s" % (words[0], "signal %d" % -status if status < 0 else "status %d" % status, line[:160]))
        line = line.split("\n")[-1]
        if status == 0 and not re.match("triangles [0-9]+ |mended flips|sound already", line):
            raise Fault("%s is neither draw nor mend" % words[0])
        return status, line

    def drawn(self, name, decimals):
        with open(os.path.join(self.room, "job.toml"), "w") as job:
            job.write('decimals = %d\nsheet = "A0"\nscale = "fit"\n[[view]]\nname = "front"\n' % decimals)
        status, line = self.run([self.draw, "--job", "job.toml", "--out", "sheet.svg", "--", name])
        return status, line or "draw: it isn't done in time: --seconds gives it more"

    def at(self, text, decimals, *more):
        """The name of the accepted part, the count of its triangles, and what was mended; or None."""
        with open(os.path.join(self.room, "part.off"), "w") as file:
            file.write(text)
        status, line = self.drawn("part.off", decimals)
        if status == 0:
            return "part.off", line.split()[1], ""
        self.refused.append((line.split(": ", 1)[-1], text, decimals, *more))
        if status != 5:
            return None
        status, mended = self.run([self.mend, "--decimals", str(decimals), "--out", "mended.off", "--", "part.off"])
        if status != 0:
            return None
        status, line = self.drawn("mended.off", decimals)
        found = re.match("mended flips ([0-9]+) moved at most ([0-9.]+) units(?: pairs ([0-9]+))?", mended)
        if status != 0 or not found:
            return None
        told = ", mended by %s within %s units" % (counted(int(found[1]), "flip"), found[2])
        return "mended.off", line.split()[1], told + (", without %s of equal triangles" % counted(int(found[3]), "pair") if found[3] else "")


def point_of(edge, triangle):
    """Where an edge goes through the plane of a triangle, or its middle."""
    (a, b), (p, q, r) = edge, triangle
    across = part_text.cross(part_text.less(q, p), part_text.less(r, p))
    one, other = (sum(m * n for m, n in zip(across, part_text.less(end, p))) for end in edge)
    if one * other > 0 or one == other:
        one, other = 1, -1
    return [x + Fraction(one, one - other) * (y - x) for x, y in zip(a, b)]


def near(line, text, decimals, by, room):
    """Where the fault of a line of `draw` is, in the file as it was, or nothing."""
    found = re.search("(?:edge ([0-9]{1,9}) meets )?triangles? ([0-9]{1,9})", line)
    if not found:
        return ""
    with open(os.path.join(room, "part.off"), "w") as file:
        file.write(text)
    triangles = list(part_text.triangles(os.path.join(room, "part.off"), decimals))
    edges = part_text.edges(triangles)
    if int(found[2]) >= len(triangles) or int(found[1] or 0) >= len(edges):
        return ""
    triangle = triangles[int(found[2])][1]
    point = [Fraction(sum(axis), 3) for axis in zip(*triangle)]
    if found[1]:
        half = edges[int(found[1])]
        corners = triangles[half // 3][1]
        point = point_of((corners[half % 3], corners[(half % 3 + 1) % 3]), triangle)
    return ", near (%s) mm" % ", ".join("%.3f" % (float(at) / 10**decimals - shift) for at, shift in zip(point, by))


def refusal(trials, room):
    """The refusal that says most: slivers come from the mesh, other faults more often from the model."""
    line, text, decimals, by, after = next((one for one in trials.refused if "is flat" not in one[0]), trials.refused[0])
    return "%sdecimals %d: %s%s" % (after[1:] and after[1:] + ", ", decimals, line, near(line, text, decimals, by, room))


def job_text(name, decimals):
    # not each character may stand in a title
    title = "".join(letter if " " <= letter <= "~" and letter not in '"\\' else "?" for letter in name[:100])
    views = "".join('\n[[view]]\nname = "%s"\n' % view for view in ("front", "above", "left"))
    return 'version = 3\ntitle = "%s"\ndecimals = %d\n%s' % (title, decimals, views)


def put(path, text):
    with open(path, "wb") as file:
        file.write(text)


def tried(mesh, trials, before, after):
    """The part that is accepted, its decimals, and what was done; or None."""
    part = Part(mesh)
    for decimals, by in part.places():
        found = trials.at(part.text(decimals, by), decimals, by, after)
        if found:
            name, count, mended = found
            moved = ", moved by (%d, %d, %d) mm" % by if any(by) else ""
            return name, decimals, "%s%s%s, decimals %d%s%s" % (before, counted(int(count), "triangle"), after, decimals, moved, mended)
    return None


def accepted(path, room, trials, clock):
    meshes = Meshes(path, room, clock)
    for mesh in meshes.all():
        found = tried(mesh[0], trials, *mesh[1:])
        if found:
            return found
    if not trials.refused:
        raise Fault("it is larger than 20 m, too large")
    if meshes.is_mesh() and any(words in trials.refused[0][0] for words in TOUCHES):
        part = Part(mesh[0])
        made = shells.fused(part.corners, [face for _, face in part.faces], room, clock.left(FUSE))
        found = made and tried(made[0], trials, "%s fused, " % counted(made[1], "shell"), "")
        if found:
            return found
    raise Fault(refusal(trials, room))


def with_advice(fault, *paths):
    """The fault without the paths of the files that were read, and with what helps."""
    for path in paths:
        fault = fault.replace(path + ": ", "")
    return fault + next((": " + what for found, what in FINDINGS if found in fault), "")


def main(*words):
    (name, out), given = words_of(words)
    if not os.path.isfile(name):
        raise Fault("%s is no file" % name)
    if os.path.exists(out) and os.path.samefile(name, out):
        raise Fault("%s is IN itself" % out)
    draw, mend = program_of(given, "draw"), program_of(given, "mend")
    # what was started ends with this script, and the temporary folder goes
    signal.signal(signal.SIGTERM, lambda *_: sys.exit("part.py: terminated"))
    clock, shown, path = limited.Clock(int(given.get("--seconds", "60"))), os.path.basename(name), os.path.join(os.getcwd(), name)
    with tempfile.TemporaryDirectory() as room:
        try:
            made, decimals, told = accepted(path, room, Trials(room, draw, mend, clock), clock)
        except Fault as fault:
            raise Fault("%s: %s" % (shown, with_advice(str(fault), path, os.path.join(room, "mesh.off"))))
        with open(os.path.join(room, made), "rb") as file:
            put(out, file.read())
    if "--job" in given:
        put(given["--job"], job_text(os.path.splitext(shown)[0], decimals).encode())
    yield "%s: %s" % (shown, told)


one_line.run(main)
