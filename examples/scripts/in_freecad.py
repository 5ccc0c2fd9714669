"""Runs inside FreeCAD, for part.py: reads a model of solids, fuses those whose boxes meet, and writes their meshes as OFF.
Each line on one pipe asks for one step, and gets one line of answer on the other pipe."""
import os
import xml.etree.ElementTree
import zipfile

import FreeCAD
import Mesh
import MeshPart
import Part

NEAR = 1e-3  # mm; boxes that are nearer meet


def shown_in_window(path):
    """Which objects the window showed, by their names; None if the document was made without a window."""
    with zipfile.ZipFile(path) as document:
        if "GuiDocument.xml" not in document.namelist():
            return None
        root = xml.etree.ElementTree.fromstring(document.read("GuiDocument.xml"))
    return {view.get("name"): switch.find("Bool").get("value") == "true" for view in root.iter("ViewProvider")
            for switch in view.iter("Property") if switch.get("name") == "Visibility"}


def groups_of(thing):
    """The groups and parts in which an object is, from the inside."""
    found = []
    while thing and len(found) < 100:
        thing = thing.getParentGeoFeatureGroup() or thing.getParentGroup()
        found += [thing] if thing else []
    return found


def shape_of(thing):
    """The object's solids, where they are in the document."""
    shape, group = Part.getShape(thing), thing.getParentGeoFeatureGroup()
    if group:
        shape.Placement = group.getGlobalPlacement().multiply(shape.Placement)
    return shape


def visible(path):
    """The shapes of the visible objects; a body stands for its features, and a result for what it is made from."""
    document, shown = FreeCAD.openDocument(path), shown_in_window(path)
    sees = (lambda thing: thing.Visibility) if shown is None else (lambda thing: shown.get(thing.Name, thing.Visibility))
    seen = []
    for thing in document.Objects:
        groups = groups_of(thing)
        inner = any(group.TypeId == "PartDesign::Body" for group in groups)
        if not inner and all(map(sees, [thing] + groups)) and not thing.isDerivedFrom("App::Part") and Part.getShape(thing).Solids:
            seen.append(thing)
    if shown is None:
        used = {below.Name for thing in seen if thing.TypeId != "App::Link" for below in thing.OutListRecursive}
        seen = [thing for thing in seen if thing.Name not in used]
    return [shape_of(thing) for thing in seen]


def closed(shape):
    """The solids of a shape; of one without solids those that its closed shells bound."""
    if shape.Solids or not shape.Faces:
        return shape.Solids
    sewn = shape.copy()
    sewn.sewShape()
    return [Part.makeSolid(shell) for shell in sewn.Shells if shell.isClosed()]


def outward(solid):
    if solid.Volume < 0:
        solid.reverse()
    return solid


def groups_by_boxes(solids):
    """The solids in groups: boxes of two groups don't meet."""
    groups = []
    for solid in solids:
        box = FreeCAD.BoundBox(solid.BoundBox)
        box.enlarge(NEAR)
        meets = [any(box.intersect(other.BoundBox) for other in group) for group in groups]
        joined = sum((group for group, met in zip(groups, meets) if met), [solid])
        groups = [group for group, met in zip(groups, meets) if not met] + [joined]
    return groups


class Model:
    def __init__(self):
        self.solids, self.mesh = [], None

    def told(self):
        left = self.shells - sum(len(solid.Shells) for solid in self.solids)
        return "%d %d %d" % (len(self.solids), len(groups_by_boxes(self.solids)), max(left, 0))

    def read(self, path):
        """The count of solids, that of groups of them whose boxes meet, and that of shells that are left out."""
        shapes = visible(path) if path.endswith(".FCStd") else [Part.read(path)]
        self.solids = [outward(solid) for shape in shapes for solid in closed(shape)]
        self.shells = sum(len(shape.Shells) for shape in shapes)
        return self.told()

    def fuse(self):
        """Fuses the solids of each group; the same counts."""
        fused = []
        for group in groups_by_boxes(self.solids):
            made = group[0].multiFuse(group[1:]) if group[1:] else group[0]
            volume, most = made.Volume, sum(solid.Volume for solid in group)
            if not made.Solids or not max(solid.Volume for solid in group) * 0.999 <= volume <= most * 1.001:
                raise ValueError("the fused solid has another volume")
            fused += made.Solids
        self.shells += sum(len(solid.Shells) for solid in fused) - sum(len(solid.Shells) for solid in self.solids)
        self.solids = fused
        return self.told()

    def mesh_of(self, far, turn, most, out):
        """The count of triangles of a mesh, which is written if there are at most so many."""
        mesh = MeshPart.meshFromShape(Shape=Part.makeCompound(self.solids), LinearDeflection=float(far), AngularDeflection=float(turn))
        return write(mesh, int(most), out)

    def read_mesh(self, path, most, out):
        return write(Mesh.Mesh(path), int(most), out)


def write(mesh, most, out):
    if mesh.CountFacets <= most:
        points, facets = mesh.Topology
        with open(out, "w") as file:
            file.write("OFF %d %d 0\n" % (len(points), len(facets)))
            # nine digits say all of a number of four bytes
            file.writelines("%.9g %.9g %.9g\n" % tuple(point) for point in points)
            file.writelines("3 %d %d %d\n" % facet for facet in facets)
    return str(mesh.CountFacets)


def main():
    model = Model()
    with os.fdopen(int(os.environ["PART_ASKED"])) as asked, os.fdopen(int(os.environ["PART_TOLD"]), "w") as told:
        for line in asked:
            step, *words = line.split()
            try:
                answer = "done " + getattr(model, step)(*words)
            except Exception as fault:
                answer = "fault " + " ".join(str(fault).split())
            told.write(answer + "\n")
            told.flush()


main()
# FreeCAD would wait for more to do
os._exit(0)
