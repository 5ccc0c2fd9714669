#!/usr/bin/env python3
"""Counts how many parts of others `examples/scripts/part.py` makes into parts that `draw` accepts, within a minute each.
Usage: part_rate.py DRAW MEND KICAD [STEP [MOST]]. DRAW and MEND are the built programs. KICAD is the file of Debian's package
kicad-packages3d (`apt-get download kicad-packages3d`), or its folder where that is installed; every STEP-th of its STEP models by
name is taken, 40 if STEP isn't given, and at most MOST of these, 150. The other parts are those of Debian's freecad-common,
openscad and openscad-mcad, of which every STEP / 40-th is taken. Prints a table in Markdown, and the cause for each part that
isn't drawn; `part_rate.tsv` has a line for each part. What has no solid at all is counted apart."""
import os
import re
import subprocess
import sys
import tarfile
import tempfile
import time

HERE = os.path.dirname(os.path.realpath(__file__))
PART = os.path.join(HERE, "..", "..", "examples", "scripts", "part.py")
SECONDS = 60
NO_SOLID = ("not a 3D object", "object is empty", "no solid")


def found(folder, *endings):
    names = [os.path.join(at, name) for at, _, names in os.walk(folder) for name in names]
    return sorted(name for name in names if name.lower().endswith(endings))


def from_package(path, every, most, room):
    """The models of the package's file: its list is read first, then the chosen ones are taken out."""
    def members():
        packer = subprocess.Popen(["dpkg-deb", "--fsys-tarfile", path], stdout=subprocess.PIPE)
        with tarfile.open(fileobj=packer.stdout, mode="r|") as archive:
            for member in archive:
                if member.isfile() and member.name.lower().endswith(".step"):
                    yield archive, member
    chosen = set(sorted(member.name for _, member in members())[::every][:most])
    made = []
    for archive, member in members():
        if member.name in chosen:
            made.append(os.path.join(room, os.path.basename(member.name)))
            with open(made[-1], "wb") as file:
                file.write(archive.extractfile(member).read())
    return sorted(made)


def from_calls(room):
    """A program of OpenSCAD for each call of mcad_calls.txt."""
    made = []
    with open(os.path.join(HERE, "mcad_calls.txt")) as file:
        for at, line in enumerate(file):
            library, call = line.rstrip("\n").split(": ", 1)
            name = re.sub("[^A-Za-z0-9]+", "-", "%s %s" % (library[:-5], call))[:50].strip("-")
            made.append(os.path.join(room, "%02d-%s.scad" % (at, name)))
            with open(made[-1], "w") as out:
                # `include` also brings the names of its tables
                out.write("include <MCAD/units.scad>\ninclude <MCAD/%s>\n%s\n" % (library, call))
    return made


def groups(kicad, every, most, room):
    if os.path.isdir(kicad):
        models = found(kicad, ".step")[::every][:most]
    else:
        models = from_package(kicad, every, most, room)
    few = max(1, every // 40)
    documents = [name for name in found("/usr/share/freecad", ".fcstd") if open(name, "rb").read(2) == b"PK"]
    return (("KiCad's models, STEP", models), ("FreeCAD's documents, FCStd", documents[::few]),
            ("OpenSCAD's examples", found("/usr/share/openscad/examples", ".scad")[::few]), ("calls of openscad-mcad", from_calls(room)[::few]))


def tried(name, draw, mend, room):
    """How long part.py takes, whether the part is drawn, and its line."""
    begin = time.monotonic()
    words = [sys.executable, PART, "--draw", draw, "--mend", mend, "--seconds", str(SECONDS), "--", name, os.path.join(room, "part.off")]
    ran = subprocess.run(words, stdin=subprocess.DEVNULL, stdout=subprocess.PIPE, stderr=subprocess.STDOUT)
    seconds = time.monotonic() - begin
    return seconds, ran.returncode == 0 and seconds <= SECONDS + 1, ran.stdout.decode(errors="replace").strip()


def cause(line):
    return line.replace("part.py: ", "", 1).split(": ", 1)[-1].replace("|", "/")


def row(name, results):
    drawn = [line for _, done, line in results if done]
    solid = [one for one in results if not any(words in one[2] for words in NO_SOLID)]
    times = sorted(seconds for seconds, _, _ in results) or [0]
    share = "%.1f %%" % (100 * len(drawn) / len(solid)) if solid else ""
    return "| %s | %d | %d | %d | %s | %d | %d | %.0f s | %.0f s |" % (
        name, len(results), len(results) - len(solid), len(drawn), share, sum("mended by" in line for line in drawn),
        sum(" at " in line and " at 0.01 mm" not in line for line in drawn), times[len(times) // 2], times[-1])


def main(draw, mend, kicad, every="40", most="150"):
    draw, mend, all_results, causes = os.path.abspath(draw), os.path.abspath(mend), [], []
    print("| Parts | tried | without a solid | drawn | of those with a solid | mended | by a coarser mesh | half within | longest |")
    print("|---|---|---|---|---|---|---|---|---|")
    with tempfile.TemporaryDirectory() as room, open("part_rate.tsv", "w") as lines:
        for group, names in groups(kicad, int(every), int(most), room):
            results = []
            for name in names:
                results.append(tried(name, draw, mend, room))
                print("%s\t%.1f\t%d\t%s" % (name, *results[-1]), file=lines, flush=True)
                if not results[-1][1]:
                    causes.append("| `%s` | %s |" % (os.path.basename(name), cause(results[-1][2])))
            print(row(group, results), flush=True)
            all_results += results
    print(row("all", all_results))
    print("\n| Not drawn | why |\n|---|---|\n" + "\n".join(causes))


if __name__ == "__main__":
    main(*sys.argv[1:])
