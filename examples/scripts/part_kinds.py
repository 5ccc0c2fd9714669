"""Which kind of file a part is, and the meshes that need no other program: binary STL and 3MF."""
import os
import struct
import xml.parsers.expat
import zipfile

from one_line import Fault
from part_text import MOST_TRIANGLES

MOST_READ = 1 << 26  # bytes of a mesh
MILLIMETRES = {"micron": 0.001, "millimeter": 1, "centimeter": 10, "inch": 25.4, "foot": 304.8, "meter": 1000}
ENDINGS = {".step": "step", ".stp": "step", ".iges": "iges", ".igs": "iges", ".brep": "brep", ".brp": "brep", ".scad": "scad", ".off": "off",
           ".stl": "stl", ".ast": "stl", ".ply": "ply", ".obj": "obj"}
SAME = (1, 0, 0, 0, 1, 0, 0, 0, 1, 0, 0, 0)


def too_many(count):
    return Fault("%s triangles, more than %d" % (count, MOST_TRIANGLES))


def kind_of_archive(path):
    try:
        with zipfile.ZipFile(path) as archive:
            names = archive.namelist()
    except (zipfile.BadZipFile, ValueError, NotImplementedError, EOFError):
        return None
    return "fcstd" if "Document.xml" in names else "3mf" if any(name.lower().endswith(".model") for name in names) else None


def kind_of(path):
    """The kind of a file, by its content where that says it, else by the ending of its name."""
    with open(path, "rb") as file:
        head = file.read(4096)
    size, start = os.path.getsize(path), head.lstrip().lower()
    if start.startswith(b"pk\x03\x04"):
        return kind_of_archive(path)
    if len(head) > 83 and size == 84 + 50 * struct.unpack("<I", head[80:84])[0]:
        return "binary stl"
    if start.startswith(b"iso-10303-21"):
        return "step"
    if b"DBRep_DrawableShape" in head or b"CASCADE Topology" in head:
        return "brep"
    if head[72:73] == b"S" and head[73:80].strip().isdigit():
        return "iges"
    if start.startswith(b"ply") and b"\nformat " in head.replace(b"\r", b"\n"):
        return "ply"
    first = start.split(None, 1)[0] if start else b""
    if first.endswith(b"off") and not first.strip(b"stcn4off"):
        # of one with colours or normals FreeCAD reads the corners
        return "off" if first == b"off" else "mesh off"
    known = ENDINGS.get(os.path.splitext(path)[1].lower())
    return "stl" if first == b"solid" and known != "scad" else known


def check_count(path, kind):
    """Refuses an STL or OFF that has too many triangles, by its own count."""
    with open(path, "rb") as file:
        text = file.read(2 * MOST_READ if kind == "stl" else 4096)
    if kind == "stl":
        count = text.lower().count(b"endfacet")
    else:
        words = b" ".join(line.split(b"#", 1)[0] for line in text.splitlines()).split()
        words = [word for word in words[:3] if word.isdigit()]
        # no count here has more than nine digits
        count = int(words[1][:9]) if len(words) > 1 else 0
    if count > MOST_TRIANGLES:
        raise too_many(count)


def put_off(out, corners, triangles):
    with open(out, "w") as file:
        file.write("OFF %d %d 0\n" % (len(corners), len(triangles)))
        file.writelines("%s %s %s\n" % corner for corner in corners)
        file.writelines("3 %d %d %d\n" % triangle for triangle in triangles)


def shown(number):
    # nine digits say all of a number of four bytes
    return "%.9g" % number


def of_binary_stl(path, out):
    count = (os.path.getsize(path) - 84) // 50
    if count > MOST_TRIANGLES:
        raise too_many(count)
    with open(path, "rb") as file:
        file.seek(84)
        text = file.read(50 * count)
    known, triangles = {}, []
    for facet in struct.iter_unpack("<12fH", text):
        corners = [tuple(map(shown, facet[at:at + 3])) for at in (3, 6, 9)]
        triangles.append(tuple(known.setdefault(corner, len(known)) for corner in corners))
    put_off(out, list(known), triangles)


class Model3mf:
    """The objects of a 3MF file, and those that it builds, each with its place."""

    def __init__(self, text):
        self.objects, self.built, self.size, self.inside = {}, [], 1, None
        parser = xml.parsers.expat.ParserCreate()
        parser.StartElementHandler, parser.StartDoctypeDeclHandler = self.element, self.doctype
        try:
            parser.Parse(text, True)
        except (xml.parsers.expat.ExpatError, KeyError, ValueError):
            raise Fault("not as in a 3MF file")

    def doctype(self, *_):
        raise Fault("a 3MF file has no DOCTYPE")

    def element(self, name, given):
        name = name.split(":")[-1]
        if name == "model":
            self.size = MILLIMETRES[given.get("unit", "millimeter")]
        elif name == "object":
            self.inside = self.objects.setdefault(given["id"], ([], [], []))
        elif name == "vertex":
            self.inside[0].append(tuple(float(given[axis]) for axis in "xyz"))
        elif name == "triangle":
            self.inside[1].append(tuple(int(given[corner]) for corner in ("v1", "v2", "v3")))
        elif name in ("component", "item"):
            place = tuple(map(float, given.get("transform", "").split())) or SAME
            if len(place) != 12:
                raise ValueError
            (self.inside[2] if name == "component" else self.built).append((given["objectid"], place))

    def put(self, name, places, corners, triangles):
        """Adds an object, moved by all its places, the innermost first."""
        listed, faces, below = self.objects.get(name, ([], [], []))
        if len(places) > 20 or len(corners) + len(listed) > 1 << 17 or len(triangles) + len(faces) > MOST_TRIANGLES:
            raise too_many("more" if len(places) > 20 else len(triangles) + len(faces))
        if any(not 0 <= corner < len(listed) for face in faces for corner in face):
            raise Fault("not as in a 3MF file")
        first = len(corners)
        triangles += [tuple(first + corner for corner in face) for face in faces]
        for point in listed:
            for m in places:
                point = tuple(sum(point[row] * m[3 * row + column] for row in range(3)) + m[9 + column] for column in range(3))
            corners.append(tuple(shown(self.size * number) for number in point))
        for inner, place in below:
            self.put(inner, [place] + places, corners, triangles)


def of_3mf(path, out):
    try:
        with zipfile.ZipFile(path) as archive:
            names = [name for name in archive.namelist() if name.lower().endswith(".model")]
            with archive.open("3D/3dmodel.model" if "3D/3dmodel.model" in names else names[0]) as file:
                text = file.read(MOST_READ + 1)
    except (zipfile.BadZipFile, ValueError, RuntimeError, NotImplementedError, EOFError, zlib_error()):
        raise Fault("damaged, or locked by a word")
    if len(text) > MOST_READ:
        raise Fault("more than %d bytes" % MOST_READ)
    model, corners, triangles = Model3mf(text), [], []
    for name, place in model.built:
        model.put(name, [place], corners, triangles)
    put_off(out, corners, triangles)


def zlib_error():
    import zlib
    return zlib.error
