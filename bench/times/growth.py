#!/usr/bin/env python3
"""Times one view of parts that grow, by `draw` and by other programs in the same run, and writes the table that growth.gnuplot
draws: growth.py TABLE [RUNS] [NAME=COMMAND ...]; TABLE is written as text, for each part a block for each program: triangles,
seconds, MB.
A COMMAND has PART for the part's file and TOWARD for the direction, as a,b,c; or MODEL for a model of SolveSpace and VIEW for
the view's name there; `draw` is crates/draw_cli's built program where it isn't given. bench/peers/setup.sh FOLDER builds the others:
"OpenCASCADE=FOLDER/occ_hlr PART TOWARD exact"
"SolveSpace=FOLDER/solvespace-cli export-view --output view.svg --view VIEW --chord-tol 0.001 MODEL"
Seconds are those of the processor, of the whole process, the least of RUNS runs; a curve ends before a run longer than 20 s."""
import os
import resource
import signal
import subprocess
import sys
import tempfile
import time

HERE = os.path.dirname(os.path.realpath(__file__))
TOP = os.path.dirname(os.path.dirname(HERE))
LONGEST = 20
VIEWS = {"0,-1,0": "front", "0,0,1": "top", "1,-1,1": "isometric"}
CURVES = (
    ("cubes, from the front", "cubes", range(2, 9), "0,-1,0"),
    ("bars across bars, from above", "bars", (5, 10, 20, 40, 80), "0,0,1"),
    ("a cube in squares, along (1, -1, 1)", "squares", (5, 10, 20, 40), "1,-1,1"),
    ("the pillow block, refined, from the front", "pillow", (18, 36, 72, 144, 288, 576), "0,-1,0"),
)


def write_part(kind, size, file):
    if kind == "pillow":
        made = file[:-4] + ".scad.off"
        scad = os.path.join(TOP, "examples", "parts", "pillow.scad")
        subprocess.run(["openscad", "-D", "$fn=%d" % size, "-o", made, scad], check=True, capture_output=True)
        os.replace(made, file)
        return
    with open(file, "w") as it:
        subprocess.run([sys.executable, os.path.join(HERE, "parts.py"), kind, str(size)], check=True, stdout=it)


def triangles_of(file):
    words = [word for line in open(file) for word in line.split("#")[0].split()]
    vertices, faces, at, count = int(words[1]), int(words[2]), 4, 0
    at += 3 * vertices
    for _ in range(faces):
        count += int(words[at]) - 2
        at += int(words[at]) + 1
    return count


def link(program, file):
    maker = os.path.join(TOP, "bench", "peers", "solvespace.py")
    subprocess.run([sys.executable, maker, os.path.dirname(program), file, file + ".slvs"], check=True)


def timed(command):
    """The processor's seconds and the MB of one run, or None where it fails or takes too long."""
    start = time.monotonic()
    # (a small parent, since a process begins with the memory of the one that starts it)
    measure = ["/usr/bin/time", "--quiet", "--format", "%M", "--output", "memory.txt"]
    process = subprocess.Popen(measure + command, stdout=subprocess.DEVNULL, stderr=subprocess.DEVNULL, start_new_session=True)
    while True:
        pid, status, usage = os.wait4(process.pid, os.WNOHANG)
        if pid:
            process.returncode = status
            memory = int(open("memory.txt").read().split()[-1]) / 1024
            return (usage.ru_utime + usage.ru_stime, memory) if status == 0 else None
        if time.monotonic() - start > 3 * LONGEST:
            os.killpg(process.pid, signal.SIGKILL)
            process.wait()
            return None
        time.sleep(0.001)


def main(table, runs, programs):
    resource.setrlimit(resource.RLIMIT_CORE, (0, 0))
    with tempfile.TemporaryDirectory() as room, open(table, "w") as out:
        os.chdir(room)
        for title, kind, sizes, toward in CURVES:
            with open("job.toml", "w") as it:
                it.write('sheet = "A0"\nscale = "fit"\n[[view]]\ntoward = [%s]\n' % toward)
            parts = []
            for size in sizes:
                file = "%s%d.off" % (kind, size)
                write_part(kind, size, file)
                parts.append((triangles_of(file), file))
            for name, command in programs:
                out.write("%s\n" % name.replace(" ", "-"))
                for count, file in parts:
                    if "MODEL" in command:
                        link(command[0], file)
                    given = {"PART": file, "TOWARD": toward, "MODEL": file + ".slvs", "VIEW": VIEWS[toward]}
                    words = [given.get(word, word) for word in command]
                    found = [it for it in (timed(words) for _ in range(runs)) if it]
                    if not found:
                        break
                    seconds, memory = min(it[0] for it in found), max(it[1] for it in found)
                    out.write("%d %.3f %.0f\n" % (count, max(seconds, 0.001), memory))
                    out.flush()
                    print("%s, %s: %d triangles %.3f s %.0f MB" % (name, title, count, seconds, memory), flush=True)
                    if seconds > LONGEST:
                        break
                out.write("\n\n")


arguments = sys.argv[1:]
if not arguments:
    sys.exit(__doc__)
table = os.path.realpath(arguments.pop(0))
runs = int(arguments.pop(0)) if arguments and arguments[0].isdigit() else 3
programs = [(it.split("=", 1)[0], it.split("=", 1)[1].split()) for it in arguments]
if "draw" not in dict(programs):
    built = os.path.join(TOP, "crates", "draw_cli", "out", "draw_cli")
    programs.insert(0, ("draw", [built, "--job", "job.toml", "--out", "view.svg", "--", "PART"]))
main(table, runs, programs)
