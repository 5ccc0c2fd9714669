#!/usr/bin/env python3
"""Tries hostile names, words and texts on the scripts of examples/scripts: hostile_names.py SHEET; SHEET is the built program
`sheet`.

In a temporary folder examples/scripts/catalogue draws parts, and each of parts, folders, jobs and programs has hostile names. A
name that is run makes a file `canary`. Each part has one line in the report. The page has a figure for each sheet, and no element
or attribute from a name. The Python scripts end with one line, whatever they are given. Prints `ok`, or what is wrong. Needs GNU
parallel.
"""
import html.parser
import os
import re
import shlex
import struct
import subprocess
import sys
import tempfile
import zipfile
from urllib.parse import unquote_to_bytes

EXAMPLES = os.fsencode(os.path.join(os.path.dirname(os.path.realpath(__file__)), "..", "..", "examples"))
SCRIPTS, CUBE = os.path.join(EXAMPLES, b"scripts"), os.path.join(EXAMPLES, b"parts", b"cube.off")
NAMES = [
    # would be run
    b"$(touch canary)", b"`touch canary`", b";touch canary;", b"|touch canary", b"&touch canary&", b"\ntouch canary\n", b"';touch canary;'",
    b'";touch canary;"', b'{= system("touch canary") =}', b'\xaf<system("touch canary")\xaf>', b"${IFS}", b"~", b"*", b"[a]", b"?",
    # would be options, words of a program, or formats
    b"-n", b"--out=x", b"-", b"(", b"!", b",", b"{}", b"{1}{2}{.}{#}", b":::", b"a=b", b"sample:3", b"%s%n", b"%41%00", b"#", b"\\n\\t\\x01\\",
    # would be lost, or steer a terminal
    b" a  b ", b"\t", b"\n", b"a\n\n", b"\r\n", b"\x01", b"\x1b[31m\x7f", b"\xff", b"\xc3", "ü€\u202e\u2028\x85".encode(), b"x" * 247,
    # would be markup
    b"<img src=x onerror=alert(1)>", b'"><script>alert(1)<!--', b"' onerror='alert(1)", b"&amp;", b"javascript:alert(1)",
]
PAGE = {"html": {"lang"}, "head": set(), "meta": {"charset", "name", "http-equiv", "content"}, "title": set(), "style": set(), "body": set(),
        "h1": set(), "table": set(), "tr": set(), "th": set(), "td": set(), "main": set(), "figure": set(), "a": {"href"},
        "img": {"src", "alt", "loading"}, "figcaption": set(), "b": set()}
wrong = []


def check(right, *what):
    if not right:
        wrong.append(" ".join(map(repr, what)))


def is_text(*names):
    try:
        return bool(b"".join(names).decode())
    except UnicodeDecodeError:
        return False


def named(field):
    """The bytes that a field of the report stands for."""
    known = {b"t": b"\t", b"n": b"\n", b"\\": b"\\"}
    return re.sub(rb"\\(?:x(..)|(.))", lambda m: bytes.fromhex(m[1].decode()) if m[1] else known.get(m[2], m[0]), field.encode(errors="surrogateescape"))


class Page(html.parser.HTMLParser):
    def __init__(self, text):
        super().__init__()
        self.count, self.pictures = dict.fromkeys(PAGE, 0), []
        self.feed(text)

    def handle_starttag(self, tag, attributes):
        check(tag in PAGE and {name for name, _ in attributes} <= PAGE[tag], "page", tag, attributes)
        self.count[tag] = self.count.get(tag, 0) + 1
        self.pictures += [unquote_to_bytes(text) for name, text in attributes if name == "src"]


def draw(program, job, parts, sheets):
    """Draws all parts, and checks the report and the page. Gives the names of the parts that are drawn, and what was printed."""
    ran = subprocess.run([os.path.join(SCRIPTS, b"catalogue", b"draw-all.sh"), program, job, parts, sheets], capture_output=True)
    with open(os.path.join(sheets, b"report.tsv"), encoding="utf-8", errors="surrogateescape", newline="\n") as file:
        rows = [line.split("\t") for line in file.read().split("\n")[:-1]]
    with open(os.path.join(sheets, b"index.html"), encoding="utf-8", errors="surrogateescape", newline="\n") as file:
        text = file.read()
    page, names = Page(text), sorted(name for name in os.listdir(parts) if name[-4:].lower() in (b".off", b".stl", b".ast"))
    drawn = [name for name, row in zip(names, rows) if row[1] == "0"]
    check([os.path.basename(named(row[0])) for row in rows] == names, "lines", parts, rows)
    check(all(len(row) == 3 and "".join(row).isprintable() for row in rows), "report", parts, rows)
    check(text.replace("\n", "").isprintable(), "characters of the page", parts)
    check(page.pictures == [b"./%s.svg" % name for name in drawn] and page.count["figure"] == len(drawn), "figures", parts, page.pictures)
    check(all(os.path.isfile(os.path.join(sheets, name + b".svg")) for name in drawn), "sheets", parts)
    check(ran.returncode == (len(drawn) < len(names)) and not ran.stderr, "ends", parts, ran.returncode, ran.stderr)
    return drawn, ran.stdout


def put(path, text, mode=0o644):
    os.makedirs(os.path.dirname(path) or b".", exist_ok=True)
    with open(path, "wb") as file:
        file.write(text)
    os.chmod(path, mode)
    return path


def catalogue(sheet):
    with open(CUBE, "rb") as file:
        cube = file.read()
    run = b"#!/bin/sh\nexec %s \"$@\"\n" % os.fsencode(shlex.quote(os.fsdecode(sheet)))
    repeat = put(b"repeat", b"#!/bin/sh\nprintf '%s\\n' \"$@\"\nexit 4\n", 0o755)
    parts = [put(os.path.join(b"parts", name + b".off.STL.Ast"[4 * (at % 3):][:4]), cube) for at, name in enumerate(NAMES)]
    job = put(b"job", b'[[view]]\nname = "front"\n')
    program = put(b"program", run, 0o755)
    drawn, _ = draw(program, job, b"parts", b"sheets")
    check(len(drawn) == sum(map(is_text, NAMES)), "drawn", drawn)
    check(draw(repeat, job, b"parts", b"sheets")[0] == [], "refused")
    check(not [name for name in os.listdir(b"sheets") if name.endswith(b".svg")], "sheets of refused parts")
    for at, name in enumerate(NAMES):
        # the folder of the parts has this name, and so begin those of the program, the job and the sheets
        put(os.path.join(name, b"a.off"), cube)
        words = put(name + b"p", run, 0o755), put(name + b"j", b""), name, name if at % 2 else name + b"s"
        drawn, _ = draw(*words)
        check(drawn == [b"a.off"] * is_text(name), "folder", name, drawn)
    put(b"sheets/gone.Off.svg", b"")
    put(b"sheets/mine.svg", b"")
    os.remove(parts[0])
    drawn, said = draw(program, job, b"parts", b"sheets")
    check(said.count(b"\nstale") == 1 and b": gone.Off.svg\n" in said, "stale", said)
    check(not [name for _, _, names in os.walk(b".") for name in names if name == b"canary"], "a name was run")


def script(status, name, *words, **more):
    """Runs a script, and checks that it ends with this status: 0 without a line on the standard error, or 1 with one line."""
    words = [sys.executable, "-EB", os.path.join(SCRIPTS, name), *words]
    ran = subprocess.run(words, stderr=subprocess.PIPE, timeout=60, **{"stdout": subprocess.PIPE, **more})
    said = ran.stderr.decode()
    check(ran.returncode == said.count("\n") == status and len(said) < 400 and said[:-1].isprintable(), words, ran.returncode, said[-400:])
    return ran.stdout


def scripts(sheet):
    triangle = b"3 1 0 1 0 0 0 1 0 0 0 1 3 0 1 2"
    facet = b"facet NORMAL a b c outer\x0bloop\x0cVertex 1 0 0 vertex +0 1e0 0. vertex .0e9 -0 1.00 endloop\n EndFacet endsolid x\n"
    read = [b"SOLID\tx\n\r" + facet, b"\n sOlid\n" + facet + b"Solid \xff\n endsolid", triangle, b"oFf#3\n" + triangle + b" 0 0 1\n", b"off\r" + triangle,
            b"#\n\x0c00" + triangle, triangle.replace(b"1 0 0", b"1 0e99999999999999999999 1e-99999999999999999999", 1)]
    wanted = b"(1.000, 0.000, 0.000) - (0.000, 1.000, 0.000) - (0.000, 0.000, 1.000)\n"
    for text in read:
        said = script(0, b"where.py", put(b"part", text), b"triangle", b"0")
        check(said.split(b", ", 1)[-1] == wanted, text, said)
    refused = [b"", b"OFF", b"OFF 3 1", b"COFF " + triangle, b"OFF BINARY " + triangle, b"-" + triangle, "²".encode() + triangle[1:], b"9" * 5000 + triangle[1:],
               triangle + b"\n0", triangle[:-1], triangle[:-1] + b"3", triangle[:-1] + b"-1", triangle[:-7] + b"2 0 1", triangle[:-7] + b"65 0 1 2",
               b"\0" + triangle, b" " * 16777217, b"solid", b"solid\n" + facet[:-12], b"solid\n" + facet + b"x"]
    refused += [triangle.replace(b"1 0 0", number + b" 0 0", 1) for number in (b"1e999999999", b"1e99999999999999999999", b"9" * 5000, b"NaN", b"inf", b"1_0",
                                                                            b"1/2", b"0x1", b"1e", b"\xa01")]
    for text in refused:
        script(1, b"where.py", put(b"part", text), b"triangle", b"0")
    part, folder, none = put(b"part", triangle), b".", b"no\n\x1b[31m\xff"
    for words in ([], [part], [part, b"edge"], *([part, b"edge", number] for number in ("²".encode(), b"-1", b"0", b"9" * 5000)),
                  *([part, decimals, b"triangle", b"0"] for decimals in ("²".encode(), b"7", b"99999999")),
                  *([name, b"triangle", b"0"] for name in (folder, none, b"", b"-n"))):
        script(1, b"where.py", *words)
    head = b"sheet list 2\ndecimals 3\nscale 1:1\nview 0 front 0 0\nleft-out 1 2\npage 1 1\n"
    check(script(0, b"lengths.py", put(b"list", head + b"0 solid 0 0 9000/3 4000 0 0 0 0\n")).startswith(b"view 0 front: solid 5.000,"), "lengths")
    for text in (b"", triangle, head[:12], *(head + line for line in (b"\n", b"0 solid 0 0 0 0 0 0 0 0", b"1 solid 0 0 0 0 0 0 0 0\n", b"view 1 toward 0 0 0 1 1\n")),
                 *(head + b"0 solid %s 0 0 0 0 0 0 0\n" % number for number in (b"1/0", b"1e999999999", b"9" * 5000, "²".encode()))):
        script(1, b"lengths.py", put(b"list", text))
    for words in ([], [part, part], [folder], [none], [b"/dev/zero"]):
        script(1, b"lengths.py", *words)
    for text in (b"", b"\xff", none, b"version = 3\n" + none, b"version = 3\nx = " + b"[" * 9000, b"version = 3\nat = " + b"9" * 5000):
        script(1, b"check_jobs.py", put(b"job", text))
    for words in ([folder], [none], [b"/dev/zero"]):
        script(1, b"check_jobs.py", *words)
    killed, text = put(b"killed", b"#!/bin/sh\nkill -9 $$\n", 0o755), put(b"text", b"text", 0o755)
    check(script(0, b"decimals.py", CUBE, sheet).count(b"accepted") == 6, "decimals")
    check(script(0, b"decimals.py", put(b"-" + none, b""), b"repeat").count(b"\n") == 7, "decimals of a refused part")
    for words in ([], [folder], [none], [CUBE, b"a", b"b", b"c"], *([CUBE, program] for program in (folder, part, none, text, killed, b"/bin/false"))):
        script(1, b"decimals.py", *words)
    with open("/dev/full", "wb") as full:
        for words in ((b"where.py", CUBE, b"edge", b"0"), (b"lengths.py", put(b"list", head)), (b"decimals.py", CUBE, sheet)):
            script(1, *words, stdout=full)
            script(1, *words, preexec_fn=lambda: os.close(1))


def zipped(name, text):
    """A file of an archive with one text."""
    with zipfile.ZipFile("archive", "w") as archive:
        archive.writestr(name, text)
    with open("archive", "rb") as file:
        return file.read()


def of_3mf(inside, head=b""):
    return zipped("3D/3dmodel.model", head + b'<model unit="millimeter">%s</model>' % inside)


def part():
    """Tries part.py with programs that stand for draw and mend."""
    draw = put(b"draw", b"#!/bin/sh\necho triangles 12 views 1\n", 0o755)
    refuse = put(b"refuse", b"#!/bin/sh\necho \"draw: solid: edge 0 meets triangle 1\" >&2\nexit 5\n", 0o755)
    slow = put(b"slow", b"#!/bin/sh\nsleep 50\n", 0o755)
    by = (b"--draw", draw, b"--mend", refuse)
    with open(CUBE, "rb") as file:
        cube = file.read()
    os.mkdir(b"in")
    os.chdir(b"in")
    by = tuple(os.path.join(b"..", word) if at % 2 else word for at, word in enumerate(by))
    for name in NAMES:
        # the names of IN, of OUT and of the job
        said = script(0, b"part.py", put(name + b".off", cube), name + b"o", b"--job", name + b"t", *by)
        check(said.count(b"\n") == 1 and said[:-1].decode().isprintable(), "part", name, said)
        check(os.path.isfile(name + b"o") and os.path.isfile(name + b"t"), "files of a part", name)
        with open(name + b"t", encoding="utf-8") as job:
            check(job.read().count("\n") == 12, "job", name)
    check(not os.path.exists(b"canary"), "a name was run")
    os.chdir(b"..")
    by = (b"--draw", draw, b"--mend", refuse)
    stl = lambda number: b"x" * 80 + struct.pack("<I12fH", 1, *[number] * 12, 0)
    item = b'<item objectid="1"/>'
    refused = [b"", b"OFF", b"solid", stl(float("nan")), stl(1e38), b"PK\x03\x04", zipped("a", b""), zipped("Document.xml", b"<a>"), of_3mf(b"<item/>"), of_3mf(item),
               of_3mf(item, b'<!DOCTYPE a [<!ENTITY b "c">]>'), of_3mf(b'<object id="1"><components><component objectid="1"/><component objectid="1"/></components></object>' + item),
               of_3mf(b'<object id="1"><mesh><vertex x="0" y="0" z="0"/><triangle v1="-1" v2="0" v3="7"/></mesh></object>' + item), of_3mf(b" " * (1 << 26)),
               b"ISO-10303-21;\n\xff", b"DBRep_DrawableShape\n", b"ply\nformat ascii 1.0\n", b" " * 72 + b"S      1\n", b"COFF 1 1 1"]
    for text in refused:
        script(1, b"part.py", put(b"part", text), b"out", *by)
    for name, text in ((b"a.scad", b"x"), (b"b.scad", b"cube("), (b"c.scad", b"square(1);"), (b"d.obj", b"f 1 2 3"), (b"e.stl", b"\0" * 90)):
        script(1, b"part.py", put(name, text), b"out", *by)
    killed, text = put(b"killed", b"#!/bin/sh\nkill -9 $$\n", 0o755), put(b"text", b"text", 0o755)
    for words in ([], [CUBE], [CUBE, b""], [CUBE, b"out", b"out"], [CUBE, b"out", b"--job"], [b".", b"out"], [b"none", b"out"], [CUBE, CUBE], [CUBE, b"."], [CUBE, b"none/out"],
                  [CUBE, b"out", b"--job", b"."], *([CUBE, b"out", b"--seconds", number] for number in (b"0", b"-1", "²".encode(), b"9" * 5000))):
        script(1, b"part.py", *words, *by)
    for program in (b".", b"none", text, killed, b"/bin/false", b"/bin/true", refuse):
        script(1, b"part.py", CUBE, b"out", b"--draw", program, b"--mend", refuse)
    script(1, b"part.py", CUBE, b"out", b"--seconds", b"1", b"--draw", slow, b"--mend", refuse)
    with open("/dev/full", "wb") as full:
        script(1, b"part.py", CUBE, b"out", *by, stdout=full)
    script(1, b"part.py", CUBE, b"/dev/full", *by)


def main(sheet):
    sheet = os.fsencode(os.path.abspath(sheet))
    with tempfile.TemporaryDirectory() as room:
        os.chdir(room)
        catalogue(sheet)
        scripts(sheet)
        part()
        os.chdir("/")
    print("\n".join(wrong) or "ok")
    return bool(wrong)


if __name__ == "__main__":
    sys.exit(main(sys.argv[1]))
