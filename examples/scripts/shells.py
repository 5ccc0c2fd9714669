"""The shells of a mesh, and one solid of those that overlap, by OpenSCAD."""
import os

import limited
import part_text

MOST = 64  # shells; each takes OpenSCAD longer


def shells_of(corners, faces):
    """The faces in groups: two that share a corner are in one group. Corners are equal if their millionths are."""
    above = list(range(len(corners)))

    def top(at):
        while above[at] != at:
            above[at] = at = above[above[at]]
        return at

    first = {}
    for at, corner in enumerate(corners):
        above[at] = first.setdefault(tuple(part_text.units(word, 6, 10**18) for word in corner), at)
    for face in faces:
        for corner in face[1:]:
            above[top(corner)] = top(face[0])
    groups = {}
    for face in faces:
        groups.setdefault(top(face[0]), []).append(face)
    return list(groups.values())


def is_outward(places, faces):
    """Whether the volume that the faces bound is above zero: a shell that bounds a hollow isn't to be filled."""
    return sum(sum(p * q for p, q in zip(places[face[0]], part_text.cross(places[a], places[b])))
               for face in faces for a, b in zip(face[1:], face[2:])) > 0


def fused(corners, faces, room, seconds):
    """The file of a mesh in which the shells are one solid, and how many they were; None if that can't be."""
    groups = shells_of(corners, faces)
    places = [tuple(part_text.units(word, 6, 10**18) for word in corner) for corner in corners]
    if not 2 <= len(groups) <= MOST or not all(is_outward(places, group) for group in groups):
        return None
    openscad = limited.found("openscad", "openscad")
    for at, group in enumerate(groups):
        with open(os.path.join(room, "shell%d.off" % at), "w") as file:
            numbers = {corner: number for number, corner in enumerate(dict.fromkeys(corner for face in group for corner in face))}
            file.write("OFF\n%d %d 0\n" % (len(numbers), len(group)))
            file.writelines("%s %s %s\n" % tuple(word.decode() for word in corners[corner]) for corner in numbers)
            file.writelines("%d %s\n" % (len(face), " ".join(str(numbers[corner]) for corner in face)) for face in group)
    with open(os.path.join(room, "fuse.scad"), "w") as file:
        file.write("union() {\n%s}\n" % "".join('import("shell%d.off");\n' % at for at in range(len(groups))))
    environment = dict(os.environ, QT_QPA_PLATFORM="offscreen")
    status, _ = limited.run([openscad, "-o", "fused.off", "fuse.scad"], seconds, room, environment)
    out = os.path.join(room, "fused.off")
    return (out, len(groups)) if status == 0 and os.path.isfile(out) else None
