#!/usr/bin/env python3
"""Compares `sheet` with the second reading of jobs of version 3 (jobs.py), on random texts.

    bench/jobs/program.py SHEET PART SEED N

Each text is the job of a run that draws PART, a part within 10 mm of the origin, and writes the plain job. A text with a fault must give
status 3, the fault's place and the beginning of its text, and no file. Any other text must give the values of its plain job. It prints each
text that differs and how many there are, and ends with 1 if there is one. An older job is told by having no place.
"""
import pathlib
import random
import re
import subprocess
import sys
import tempfile

import job_texts
import jobs

BEGINS = {
    "NotUtf8": "not UTF-8", "NoKey": "no key", "QuotedKey": "key in quotes", "DottedKey": "dotted key", "NoEquals": "no = after",
    "NoBracket": "no closing bracket", "NoValue": "no value", "BadWord": "not a value", "BrokenText": "broken text",
    "LongText": "text in triple quotes", "InlineTable": "inline table", "BareDate": "date or time", "NoNumber": "wrong number",
    "InnerList": "list inside a list", "BrokenList": "no comma or ]", "More": "more text on the line", "Unprintable": "byte order mark",
    "Refused": "this key or table", "UnknownTable": "unknown table ", "SingleView": "[view]: ", "DoubleBlock": "[[block]]: ",
    "TooManyViews": "more than 12 views", "EmptyBlock": "[block] has no key", "UnknownKey": "unknown key ", "Wrong": "wrong ",
}
BEHIND_VIEW = {
    "Form": "exactly one of", "WithoutCut": "goes with cut only", "WithoutAt": "cut goes with at", "WithoutFrom": "cut goes with from",
    "NameTaken": "an earlier view", "AtRange": "at is too far",
}


def is_fault(said, line):
    """The line begins with the place and the text of this fault."""
    view, name = re.match(r"(view \d+: )?(\w+)", said).groups("")
    told = line.partition(said.rsplit(" ", 1)[1] + ": " + view)
    if told[0] or not told[1]:
        return False
    if name in BEHIND_VIEW:
        return told[2].startswith("view ") and BEHIND_VIEW[name] in told[2]
    return told[2].startswith(BEGINS[name])


def view_lines(words, number):
    """The lines of a plain job for views of a job, with the cuts at the number-th of their places."""
    while words:
        yield from ("", "[[view]]")
        if words[0] == "name":
            yield 'name = "%s"' % words[1]
            words = words[3:]
        elif words[0] == "toward":
            yield "toward = [%s, %s, %s]" % tuple(words[1:4])
            words = words[5:]
        else:
            yield from ('cut = "%s"' % words[1], "at = " + words[6].split(",")[number], 'from = "%s"' % words[2])
            words = words[7:]


def left_open(said, line, choices):
    """What a job says of its sheet or its scale; if it is "fit", the choice that the line of a plain job names."""
    taken = line.partition(" = ")[2].strip('"')
    return taken if said == "fit" and taken in choices else said


def is_plain(said, plain, part):
    """The plain job has the values of a job."""
    words = said.split(" ")[1:]
    lines = plain.decode().split("\n")
    decimals = int(lines[1].rpartition(" ")[2])
    title = bytes.fromhex(words[0][1:]).decode().replace("\\", "\\\\").replace('"', '\\"')
    head = ["version = 2", "decimals = %d" % decimals]
    sheet, scale = left_open(words[3], lines[3], jobs.PAPERS), left_open(words[6], lines[4], jobs.SCALES)
    head += ['%s = "%s"' % pair for pair in zip(("angle", "sheet", "scale", "crease"), (words[5], sheet, scale, words[7]))]
    if lines[:6] != head or lines[6] not in ('title = "%s"' % title, *['title = "%s"' % part.stem] * (words[0] == "-")):
        return False
    tail = ["outputs = []", 'unit = "%s"' % words[1], 'layout = "%s"' % words[4]]
    tail += view_lines(words[20:], jobs.tried(words[2]).index(decimals))
    return lines[7:] == [*tail, ""]


def differs(sheet, part, folder, text):
    """What differs for a text, or None."""
    said, job, plain = jobs.answer(text), folder / "job.toml", folder / "plain.toml"
    job.write_bytes(text)
    plain.unlink(missing_ok=True)
    ran = subprocess.run([sheet, part, "--job", job, "--out", folder / "sheet.svg", "--plain-job", plain], capture_output=True, check=False)
    line = ran.stderr.decode().removeprefix("sheet: %s:" % job)
    if said == "older":
        right = not re.match(r"\d+:\d+: ", line)
    elif not said.startswith("job "):
        right = ran.returncode == 3 and is_fault(said, line) and not plain.exists()
    elif ran.returncode == 0:
        right = is_plain(said, plain.read_bytes(), part)
    else:
        right = ran.returncode in (4, 6)  # a stated number of decimals, or a stated sheet and scale, may be too small for the part
    return None if right else "%s\n%s\n%s" % (text.hex(), said, ran.stderr.decode())


def main():
    sheet, part = sys.argv[1], pathlib.Path(sys.argv[2])
    seed, count = map(int, sys.argv[3:])
    chance, wrong = random.Random(seed), 0
    with tempfile.TemporaryDirectory() as name:
        for _ in range(count):
            found = differs(sheet, part, pathlib.Path(name), job_texts.text(chance))
            if found:
                wrong += 1
                print(found)
    print("%d of %d differ" % (wrong, count))
    sys.exit(wrong > 0)


if __name__ == "__main__":
    main()
