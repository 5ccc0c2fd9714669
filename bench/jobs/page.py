#!/usr/bin/env python3
"""Compares docs/jobs.md with the jobs that it shows, and its lines of faults with the second reading and the texts of docs/formats.md.

    bench/jobs/page.py

It prints what differs, and ends with 1 if anything does. The jobs of the table of faults are below, one for each row, in order.
"""
import os
import re
import sys

import jobs

TOP = os.path.normpath(os.path.join(os.path.dirname(os.path.abspath(__file__)), "..", ".."))
FAULTS = (
    'version = 3\n[[view]]\nname = "front"\nsheet = "A4"\n',
    'version = 3\ntitel = "Bracket"\n',
    'version = 3\noutputs = ["dxf"]\n',
    'version = 3\nmaterial = "EN-GJL-250"\n',
    'version = 3\n[view]\nname = "front"\n',
    'version = 3\n[[veiw]]\nname = "front"\n',
    'version = 3\nview = [{ name = "front" }]\n',
    "version = 3\ntitle = Bracket\n",
    'version = 3\ntitle = "Bracket\n',
    'version = 3\n[[view]]\ncut = "x"\nat = 22,5\nfrom = "low"\n',
    'version = 3\n[[view]]\ncut = "x"\nat = 22.5 mm\nfrom = "low"\n',
    'version = 3\n[[view]]\ncut = "x"\nat = "22.5"\nfrom = "low"\n',
    "version = 3\n[block]\ndate = 2026-11-30\n",
    'version = 3\nsheet = "a4"\n',
    "version = 3\n[[view]]\ntoward = [1, -1]\n",
    'version = 3\n[[view]]\nname = "front"\ncut = "x"\nat = 5\nfrom = "low"\n',
    'version = 3\n[[view]]\ncut = "x"\nfrom = "low"\n',
    'version = 3\n[[view]]\nname = "front"\n[[view]]\nname = "front"\n',
    'version = 3\ntitle = "a"\ntitle = "b"\n',
    'version = 3\n[[view]]\ncut = "x"\nat = 25400\nfrom = "low"\n',
    "\ufeffversion = 3\n",
)
# what `jobs.py` calls some faults and hints, and their rows in the tables
ROWS = {"Refused": "a key or a table that is there twice", "NotUtf8": "bytes that aren't UTF-8"}
HINTS = {"table": "another table has it", "older": "outputs", "header": "block, view", "near": "a key of its table is near", "none": "none of these"}


def read(name):
    with open(os.path.join(TOP, name), encoding="utf-8") as it:
        return it.read()


def codes(cell):
    return re.findall(r"`([^`]+)`", cell)


def tables(text):
    """The rows of each table of a text: cells, without their blanks."""
    found = [[]]
    for line in text.split("\n"):
        if line.startswith("|"):
            found[-1].append([cell.strip() for cell in line.strip("|").split("|")])
        elif found[-1]:
            found.append([])
    return [rows[2:] for rows in found if rows]


def texts_of(fault, formats):
    """The texts that a fault may have, by the tables of formats.md; names in braces stand for any."""
    flaws, hints, values = tables(formats[formats.index("### The texts of these faults"):formats.index("## A plain job")])
    view, kind, inner = re.fullmatch(r"(view \d+: )?(\w+)(?:\((.*)\))?", fault).groups("")
    if kind == "Wrong":
        allowed = [codes(row[1])[0] for row in values if inner in codes(row[0]) or (inner not in str(values) and "title" in codes(row[0]))]
        return ["%swrong %s: %s%s" % (view, inner, one, more) for one in allowed for more in ("", "; leave the quotes out")]
    row = next(row for row in flaws if row[0].replace("`", "").split("(")[0] == ROWS.get(kind, kind))
    if kind != "UnknownKey":
        return codes(row[1])
    named = [row for row in hints if row[0].replace("`", "").startswith(HINTS[inner.split(" ")[0]])]
    return [view + codes(row[1])[0] + text for hint in named for text in codes(hint[1])]


def is_text(text, form):
    return re.fullmatch(re.sub(r"\\{\w+\\}", ".+", re.escape(form)), text)


def check_faults(page, formats):
    rows = next(rows for rows in tables(page) if "titel" in str(rows))
    if len(rows) != len(FAULTS):
        yield "%d rows of faults, %d jobs" % (len(rows), len(FAULTS))
    for row, job in zip(rows, FAULTS):
        fault, place = jobs.answer(job.encode()).rsplit(" ", 1)
        said = codes(row[1])[0]
        if not said.startswith(place + ": ") or not any(is_text(said[len(place) + 2:], form) for form in texts_of(fault, formats)):
            yield "%s: it is %s at %s" % (said, fault, place)


def check_jobs(page):
    shown = re.findall(r"```toml\n((?:(?!```).*\n)*)```\n\n    (sheet .*)\n\n!\[.*\]\((.*)\)", page)
    files = sorted(os.listdir(os.path.join(TOP, "examples/jobs/version3")))
    if sorted(re.search(r"--job jobs/version3/(\S+)", line)[1] for _, line, _ in shown) != files:
        yield "the page doesn't show each job of examples/jobs/version3 once"
    for text, line, picture in shown:
        part, name, out = re.fullmatch(r"sheet (\S+) --job jobs/version3/(\S+)\.toml --out (\S+)\.svg", line).groups()
        first, job = read("examples/jobs/version3/%s.toml" % name).split("\n", 1)
        if job != text or not first.endswith("Part: " + part):
            yield "%s.toml is another job, or one for another part" % name
        if (name, "jobs/%s.svg" % name) != (out, picture) or not os.path.exists(os.path.join(TOP, "examples", part)):
            yield "%s: another name, or no part" % line


def main():
    page, formats = read("docs/jobs.md"), read("docs/formats.md")
    found = [*check_jobs(page), *check_faults(page, formats)]
    print("\n".join(found) or "right")
    return 1 if found else 0


if __name__ == "__main__":
    sys.exit(main())
