"""A bracket as a FreeCAD model, and its mesh.
Usage: freecadcmd freecad-bracket.py; writes freecad-bracket.FCStd, and freecad-bracket.ast, an ASCII STL, into the folder that it
is called in."""
import FreeCAD
import MeshPart
import Part

NAME = "freecad-bracket"


def bracket():
    """A foot and a wall of 8 mm, a rib between them, a bore of 16 mm in the wall and two counterbored holes in the foot."""
    at = FreeCAD.Vector
    foot = Part.makeBox(70, 45, 8)
    wall = Part.makeBox(70, 8, 50, at(0, 37, 0))
    corners = [at(31, 38, 7), at(31, 10, 7), at(31, 38, 24), at(31, 38, 7)]
    rib = Part.Face(Part.makePolygon(corners)).extrude(at(8, 0, 0))
    holes = [Part.makeCylinder(8, 10, at(35, 36, 37), at(0, 1, 0))]
    for x in (14, 56):
        holes.append(Part.makeCylinder(3.3, 10, at(x, 18, -1)))
        holes.append(Part.makeCylinder(5.5, 6, at(x, 18, 4)))
    return foot.fuse([wall, rib]).cut(holes).removeSplitter()


document = FreeCAD.newDocument(NAME)
document.addObject("Part::Feature", "Bracket").Shape = bracket()
document.saveAs(NAME + ".FCStd")
mesh = MeshPart.meshFromShape(Shape=bracket(), LinearDeflection=0.01, AngularDeflection=0.1)
mesh.write(NAME + ".ast")
print(NAME, "triangles", mesh.CountFacets, "closed", mesh.isSolid())
