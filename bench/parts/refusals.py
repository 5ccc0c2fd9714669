#!/usr/bin/env python3
"""Compares what `sheet` and `mend` say of a part's text that they refuse with a second reading of docs/usage.md.

    bench/parts/refusals.py DRAW SHEET MEND SEED N

It makes N texts: an OFF, an STL, a STEP file or a packed file with words put in, on lines of their own or all on one line, read with
0 to 6 decimals, in millimetres or inches. The line and the kind of a fault are those of `draw`; what helps is found here. `mend` is
compared where lengths are millimetres. It prints each text that differs and how many faults of each kind there were, and ends with 1 if
a text differs.
"""
import collections
import os
import random
import re
import subprocess
import sys
import tempfile
from fractions import Fraction

OFF = b"OFF\n4 4 6\n0 0 0\n10 0 0\n0 10 0\n0 0 10\n3 0 2 1\n3 0 1 3\n3 1 2 3\n3 2 0 3\n"
STL = b"solid s\nfacet normal 0 0 1\nouter loop\nvertex 0 0 0\nvertex 10 0 0\nvertex 0 10 0\nendloop\nendfacet\nendsolid s\n"
TEXTS = (OFF, STL, OFF, OFF.replace(b"\n", b" "), STL.replace(b"\n", b" "), OFF[4:], b"ISO-10303-21;\nHEADER;\n", b"PK\x03\x04\0\0", b"")
WORDS = (
    b"OFF", b"COFF", b"solid", b"facet", b"vertex", b"normal", b"BINARY", b"PK", b"x", b"\0", b"#", b"1e9", b"12345.678", b"-99999999",
    b"2000000", b"70000", b"25000", b"9" * 50, b"1048576", b"1048577", b"104.8577", b"0.5", b"1e400", b"41300.3", b"-41.3", b".", b"5.",
)
NEITHER = "neither OFF nor ASCII STL: examples/scripts/part.py makes a part of STEP, IGES and 3MF"
COARSER = "; export a coarser mesh"
LIMIT = 1048576
JOB = 'version = 2\ndecimals = %d\nunit = "%s"\n[[view]]\nname = "front"\n'


def tokens(text, comments):
    """The words of a text, each with its line."""
    for number, line in enumerate(text.split(b"\n"), 1):
        for word in re.split(b"[\t\x0b\x0c\r ]+", line.split(b"#", 1)[0] if comments else line):
            if word:
                yield word, number


def size(word, decimals, inches):
    """How many units a number is in size, rounded; None if the word is no number."""
    if not re.fullmatch(rb"[+-]?([0-9]+\.?[0-9]*|\.[0-9]+)([eE][+-]?[0-9]+)?", word):
        return None
    if int(re.split(b"[eE]", word)[1] if re.search(b"[eE]", word) else b"0") > 30 and re.search(b"[1-9]", re.split(b"[eE]", word)[0]):
        return LIMIT + 1
    exact = abs(Fraction(word.decode())) * 10**decimals * (Fraction(254, 10) if inches else 1)
    return (2 * exact.numerator + exact.denominator) // (2 * exact.denominator)


def coordinates(text, stl):
    """The coordinates of an STL, or the tokens of an OFF behind its head, with their lines."""
    if not stl:
        found = list(tokens(text, True))
        return found[3 + (bool(found) and found[0][0].upper() == b"OFF"):]
    found, left = [], 0
    for word, line in tokens(text, False):
        if left:
            found.append((word, line))
        left = left - 1 if left else 3 * (word.upper() == b"VERTEX")
    return found


def counted(decimals):
    return "%d decimal%s" % (decimals, "" if decimals == 1 else "s")


def too_large(text, stl, line, decimals, inches):
    for word, here in coordinates(text, stl):
        if here == line and (size(word, decimals, inches) or 0) > LIMIT:
            break
    else:
        return "number too large"
    room = [fewer for fewer in range(decimals) if size(word, fewer, inches) <= LIMIT]
    most = re.sub(r"(\d+)(\d{%d})$" % decimals, r"\1.\2", str(LIMIT)) if decimals else str(LIMIT)
    shown = "".join(chr(byte) if 32 <= byte <= 126 else "?" for byte in word[:40]) + "..." * (len(word) > 40)
    helps = counted(room[-1]) + " would do" if room else "no number of decimals would do: move the part to the origin"
    return "%s is too large: at most %s mm with %s; %s" % (shown, most, counted(decimals), helps)


def too_many(text, stl, head):
    if stl:
        return "more than 20000 triangles: it has %d" % sum(word.upper() == b"FACET" for word, _ in tokens(text, False)) + COARSER
    vertices, faces = [int(word) if re.fullmatch(b"[0-9]+", word) else 0 for word in (head + [b"", b""])[:2]]
    if vertices > 60000:
        return "more than 60000 vertices: its head says %d" % min(vertices, 2**64 - 1) + COARSER
    return "more than 20000 triangles" + (": its head says %d faces" % min(faces, 2**64 - 1) if faces > 20000 else "") + COARSER


def helped(text, line, kind, decimals, inches):
    """What is wrong with a text, and what helps."""
    first = next(tokens(text, False), (b"", 0))[0]
    words = [word for word, _ in tokens(text, True)][:3]
    stl, off = first.upper() == b"SOLID", words[:1] and words[0].upper() == b"OFF"
    if kind == "binary" and text.startswith(b"PK"):
        return NEITHER
    if kind == "binary" and not off:
        return "binary: admesh -a part-ascii.stl part.stl writes a binary STL as text"
    if kind == "bad number" and not (stl or off or re.fullmatch(b"[0-9]+", (words + [b""])[0])):
        return NEITHER
    if kind == "prefixed OFF":
        return kind + ": examples/scripts/part.py writes it as plain OFF"
    if kind == "too many vertices or triangles":
        return too_many(text, stl, words[bool(off):])
    if kind == "number too large":
        return too_large(text, stl, line, decimals, inches)
    return kind


def changed(chance):
    """A text with up to three words put in."""
    words = chance.choice(TEXTS).split(b" ")
    for _ in range(chance.randint(0, 3)):
        at, word = chance.randrange(len(words)), chance.choice(WORDS)
        if b"\n" in words[at] and chance.random() < 0.7:
            before, after = words[at].split(b"\n", 1)
            words[at] = word + b"\n" + after if chance.random() < 0.5 else before + b"\n" + word + b" " + after
        else:
            words[at] = word if chance.random() < 0.7 else words[at] + b" " + word
    return b" ".join(words)


def said(program, folder, *words):
    return subprocess.run([program, "part", *words], cwd=folder, capture_output=True, check=False).stderr.decode()


def main():
    draw, sheet, mend = (os.path.abspath(name) for name in sys.argv[1:4])
    chance, kinds, wrong = random.Random(int(sys.argv[4])), collections.Counter(), 0
    with tempfile.TemporaryDirectory() as folder:
        for _ in range(int(sys.argv[5])):
            text, decimals, inches = changed(chance), chance.randint(0, 6), chance.random() < 0.4
            for name, content in (("part", text), ("job", (JOB % (decimals, "inch" if inches else "mm")).encode())):
                with open(os.path.join(folder, name), "wb") as it:
                    it.write(content)
            fault = re.fullmatch(r"draw: part: line (\d+): (.*)\n", said(draw, folder, "--job", "job"))
            if not fault:
                continue
            kinds[fault[2]] += 1
            want = "part: line %s: %s\n" % (fault[1], helped(text, int(fault[1]), fault[2], decimals, inches))
            told = [said(sheet, folder, "--job", "job")] + ([] if inches else [said(mend, folder, "--decimals", str(decimals))])
            if told != ["sheet: " + want, "mend: " + want][:len(told)]:
                wrong += 1
                print(text, decimals, inches, told, want)
    for kind, count in sorted(kinds.items()):
        print(count, kind)
    print("%d of %d differ" % (wrong, sum(kinds.values())))
    sys.exit(wrong > 0)


if __name__ == "__main__":
    main()
