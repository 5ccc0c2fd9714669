#!/usr/bin/env python3
"""Tries a part at each `decimals`: which are accepted, what the others are refused for, and how far a part that is too far
from the origin would have to be moved.
Usage: decimals.py PART [DRAW [MEND]]; these are the built programs, crates/draw_cli/out/draw_cli and crates/mend_cli/out/mend_cli
if they aren't given. PART is an OFF or an ASCII STL."""
import os
import subprocess
import tempfile
from fractions import Fraction

import one_line
import part_text


def moves(part, decimals):
    """How far the part is to be moved along each axis so that its middle is at the origin, in mm, or None if it is too large."""
    told = []
    for axis in zip(*part_text.read(part)[0]):
        axis = [part_text.units(word, decimals, 10**30) for word in axis]
        if None in axis or max(axis) - min(axis) > 2 * part_text.GREATEST - 2:
            return None
        told.append("%d" % -round(Fraction(max(axis) + min(axis), 2 * 10**decimals)))
    return told


def run(program, *words):
    """The status of a program, and the line that it prints."""
    try:
        ran = subprocess.run([program, *words], stdin=subprocess.DEVNULL, stdout=subprocess.PIPE, stderr=subprocess.STDOUT)
    except OSError as fault:
        raise one_line.Fault("%s is no program: %s" % (program, fault.strerror))
    line = ran.stdout.decode(errors="replace").strip()
    # with another `decimals` these may change: the part's text, its surface, and its place on the sheet
    if ran.returncode not in (0, 4, 5, 6):
        how = "signal %d" % -ran.returncode if ran.returncode < 0 else "status %d" % ran.returncode
        raise one_line.Fault("%s ended with %s. %s" % (program, how, line))
    return ran.returncode, line


def main(*words):
    if not 1 <= len(words) <= 3:
        raise one_line.Fault("usage: decimals.py PART [DRAW [MEND]]")
    built = os.path.join(os.path.dirname(os.path.realpath(__file__)), "..", "..", "crates")
    names = list(words[1:]) + [os.path.join(built, name, "out", name) for name in ("draw_cli", "mend_cli")][len(words) - 1:]
    if not os.path.isfile(words[0]):
        raise one_line.Fault("%s is no file" % words[0])
    # a path from the root isn't looked for in other folders
    original, draw, mend = (os.path.join(os.getcwd(), name) for name in (words[0], *names))
    with tempfile.TemporaryDirectory() as room:
        # the programs refuse a name that isn't UTF-8, and take one like sample:3 for no file
        part, job = os.path.join(room, "part"), os.path.join(room, "job.toml")
        os.symlink(original, part)
        for decimals in range(7):
            with open(job, "w") as it:
                it.write('decimals = %d\nsheet = "A0"\nscale = "fit"\n[[view]]\nname = "front"\n' % decimals)
            status, line = run(draw, "--job", job, "--out", os.path.join(room, "sheet.svg"), "--", part)
            told = "accepted" if status == 0 else "refused: %s" % line.split(": ", 1)[-1]
            if status == 4 and line.endswith("number too large"):
                by = moves(words[0], decimals)
                told += "; the part is too large" if by is None else "; moved by (%s) mm it stands at the origin" % ", ".join(by)
            if status == 5:
                status, line = run(mend, "--decimals", str(decimals), "--out", os.path.join(room, "mended.off"), "--", part)
                told += "; " + (line if status == 0 else "mend doesn't help")
            yield "decimals = %d: %s" % (decimals, told)


one_line.run(main)
