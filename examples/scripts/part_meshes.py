"""The meshes of a file of a CAD program, as files that part_text reads."""
import os
import re

import limited
import part_kinds
import part_text
from one_line import Fault

LADDER = ((0.01, 0.1), (0.02, 0.15), (0.05, 0.25), (0.1, 0.25))  # mm and rad, from the finest mesh
READ, FUSE, MESH = 2 / 3, 1 / 3, 1 / 3  # of all seconds, at most, for each step
MODELS = {"step": ".step", "iges": ".iges", "brep": ".brep", "fcstd": ".FCStd"}  # kinds, and the endings that FreeCAD wants


def counted(count, name):
    return "%d %s%s" % (count, name, "" if count == 1 else "s")


class Meshes:
    """The meshes of a part, the finest first, each with what is said before and after the count of its triangles."""

    def __init__(self, path, room, clock):
        self.path, self.room, self.clock = path, room, clock
        self.kind = part_kinds.kind_of(path)
        if self.kind is None:
            raise Fault("neither STEP, IGES, BREP, FCStd, 3MF, STL, OBJ, PLY, OFF nor .scad")
        self.freecad = None

    def is_mesh(self):
        return self.kind not in MODELS and self.kind != "scad"

    def all(self):
        model = MODELS.get(self.kind)
        try:
            return self.of_model(model) if model else [(self.one(), "", "")]
        finally:
            if self.freecad:
                self.freecad.end()

    def ask(self, step, share):
        return self.freecad.ask(step, self.clock.left(share))

    def linked(self, ending):
        """A name without odd characters for the file."""
        name = "model" + ending
        os.symlink(self.path, os.path.join(self.room, name))
        return name

    def one(self):
        """The file of a part that is a mesh already, or becomes one by OpenSCAD."""
        out = os.path.join(self.room, "mesh.off")
        if self.kind == "scad":
            return self.of_scad(out)
        if self.kind == "binary stl":
            part_kinds.of_binary_stl(self.path, out)
        elif self.kind == "3mf":
            part_kinds.of_3mf(self.path, out)
        elif self.kind in ("ply", "obj", "mesh off"):
            self.freecad = limited.FreeCad(self.room)
            name = self.linked("." + self.kind.split()[-1])
            try:
                self.fits(*self.ask("read_mesh %s %d mesh.off" % (name, part_text.MOST_TRIANGLES), READ))
            except limited.Stopped as fault:
                raise Fault(str(fault))
        else:
            part_kinds.check_count(self.path, self.kind)
            return self.path
        return out

    def fits(self, count):
        if count > part_text.MOST_TRIANGLES:
            raise part_kinds.too_many(count)

    def of_scad(self, out):
        openscad = limited.found("openscad", "openscad")
        environment = dict(os.environ, QT_QPA_PLATFORM="offscreen")
        status, said = limited.run([openscad, "-o", out, self.path], self.clock.left(1), self.room, environment)
        if status is None:
            raise Fault("OpenSCAD isn't done after %d seconds: a smaller $fn, or --seconds gives it more" % self.clock.seconds)
        if status or not os.path.isfile(out):
            lines = [line for line in said.split("\n") if re.match("ERROR|Current top level|Can't|terminate|Object may", line)]
            raise Fault("OpenSCAD says: %s" % (lines[0] if lines else said.split("\n")[-1])[:200])
        part_kinds.check_count(out, "off")
        return out

    def of_model(self, ending):
        self.freecad = limited.FreeCad(self.room)
        name = self.linked(ending)
        try:
            told = self.solids(name)
            meshes = self.ladder()
        except limited.Stopped as fault:
            raise Fault(str(fault))
        return [(path, told + ", ", " at %g mm and %g rad" % rung) for path, rung in meshes]

    def solids(self, name):
        """Reads the solids, and fuses those that meet; says how many they are."""
        solids, groups, left = self.ask("read " + name, READ)
        if not solids:
            seen = " that is visible" if self.kind == "fcstd" else ""
            raise Fault("no solid%s: only open shells, faces or lines; sew its faces and make a solid of them" % seen)
        told = counted(solids, "solid")
        if groups < solids:
            try:
                fused, _, left = self.ask("fuse", FUSE)
                told += " fused to %d" % fused if fused < solids else ""
            except limited.Stopped:
                told += " that can't be fused"
                self.ask("read " + name, READ)
        return told + (", %s left out" % counted(left, "open shell") if left else "")

    def ladder(self):
        """The files of the meshes that have few enough triangles. The coarsest is made first, as it takes least time."""
        meshes = []
        for rung in reversed(LADDER):
            out = "mesh%d.off" % len(meshes)
            try:
                count, = self.ask("mesh_of %g %g %d %s" % (*rung, part_text.MOST_TRIANGLES, out), MESH)
            except limited.Stopped:
                if not meshes:
                    raise
                break
            if count > part_text.MOST_TRIANGLES:
                if not meshes:
                    raise Fault("%s even at %g mm and %g rad" % (part_kinds.too_many(count), *rung))
                break
            meshes.append((os.path.join(self.room, out), rung))
        return meshes[::-1]
