#!/usr/bin/env python3
"""Has parts drawn, reports on them, and shows their sheets on a page.
Usage: report.py SHEETS COMMAND ..; the standard input has the parts, with a zero byte after each. COMMAND reads them, and prints
for each the part, a status and a text, as draw-one.sh does. The script writes SHEETS/report.tsv and SHEETS/index.html. It prints
how many parts have which status, what was said of those that aren't drawn, and which sheets are stale: their parts are gone.
It ends with 0 if every part was drawn, and with 1 if one wasn't or there is none."""
import base64
import hashlib
import html
import os
import re
import signal
import subprocess
import sys
from collections import Counter
from urllib.parse import quote_from_bytes

SHEET = re.compile(rb"(?s)(.*\.(?i:off|stl|ast))\.svg")
STYLE = """body{font-family:sans-serif;margin:1em;background:#eee}
main{display:grid;grid-template-columns:repeat(auto-fill,minmax(min(24em,100%),1fr));gap:1em}
figure{margin:0;padding:1em;background:white;min-width:0}
img{width:100%;border:1px solid #ccc;box-sizing:border-box}
table{border-collapse:collapse;background:white;margin-bottom:1em}
td,th{border:1px solid #ccc;padding:.3em .6em;text-align:left}
td:first-child{min-width:7em}
td,figcaption{overflow-wrap:anywhere}"""
# this style, pictures from the page's own place, and nothing else
POLICY = "default-src 'none'; img-src 'self'; style-src 'sha256-%s'; base-uri 'none'; form-action 'none'" \
    % base64.b64encode(hashlib.sha256(STYLE.encode()).digest()).decode()


def shown(raw):
    r"""Bytes as text in one line. \t, \n and \\ are a tab, a line feed and a backslash; \xNN is any other byte that doesn't print."""
    text = raw.replace(b"\\", rb"\\").decode("utf-8", "backslashreplace").replace("\t", r"\t").replace("\n", r"\n")
    return "".join(c if c.isprintable() else "".join(r"\x%02x" % byte for byte in c.encode()) for c in text)


def page(rows, stale):
    """The lines of the page, of rows of a name, a status and a text, and of the names whose sheets are stale."""
    text = lambda raw: html.escape(shown(raw))
    drawn, other = ([row for row in rows if (row[1] == b"0") == right] for right in (True, False))
    yield '<!DOCTYPE html>\n<html lang="en">\n<head>\n<meta charset="utf-8">'
    yield '<meta http-equiv="Content-Security-Policy" content="%s">' % POLICY
    yield '<meta name="viewport" content="width=device-width, initial-scale=1">\n<title>Sheets</title>\n<style>%s</style>' % STYLE
    yield "</head>\n<body>\n<h1>%d of %d parts are drawn</h1>" % (len(drawn), len(rows))
    if other:
        yield "<table>\n<tr><th>part</th><th>status</th><th>what was said</th></tr>"
        yield from ("<tr>%s</tr>" % "".join("<td>%s</td>" % text(field) for field in row) for row in other)
        yield "</table>"
    if stale:
        yield "<table>\n<tr><th>stale sheets, whose parts are gone</th></tr>"
        yield from ("<tr><td>%s.svg</td></tr>" % text(name) for name in stale)
        yield "</table>"
    yield "<main>"
    for name, _, said in drawn:
        link = "./%s.svg" % quote_from_bytes(name, safe="")
        yield '<figure><a href="%s"><img src="%s" alt="%s" loading="lazy"></a>' % (link, link, text(name))
        yield "<figcaption><b>%s</b> %s</figcaption></figure>" % (text(name), text(said))
    yield "</main>\n</body>\n</html>"


def main(sheets, *command):
    with open(0, "rb", closefd=False) as given:
        parts = given.read().split(b"\0")[:-1]
    said = subprocess.run(command, input=b"".join(part + b"\0" for part in parts), stdout=subprocess.PIPE).stdout.split(b"\0")
    told = {part: (status, line) for part, status, line in zip(said[::3], said[1::3], said[2::3])}
    rows = [(part, *told.get(part, (b"-", b"no report of its run"))) for part in parts]
    named = [(os.path.basename(part), status, line) for part, status, line in rows]
    names = {name for name, _, _ in named}
    found = [SHEET.fullmatch(file) for file in sorted(os.listdir(os.fsencode(sheets)))]
    stale = [sheet[1] for sheet in found if sheet and sheet[1] not in names]
    lines = ["\t".join(map(shown, row)) for row in rows]
    summary = ["%d with status %s" % (count, shown(status)) for status, count in sorted(Counter(row[1] for row in rows).items())]
    summary += [line for line, row in zip(lines, rows) if row[1] != b"0"]
    summary += ["stale, its part is gone: %s.svg" % shown(name) for name in stale]
    for file, text in ("report.tsv", lines), ("index.html", page(named, stale)), (None, summary):
        with open(os.path.join(sheets, file) if file else 1, "w", encoding="utf-8", closefd=bool(file)) as out:
            out.writelines(line + "\n" for line in text)
    if not rows:
        sys.exit("report.py: there is no part")
    return any(row[1] != b"0" for row in rows)


if len(sys.argv) < 3:
    sys.exit("report.py: usage: report.py SHEETS COMMAND ..")
signal.signal(signal.SIGINT, signal.SIG_DFL)
try:
    sys.exit(main(*sys.argv[1:]))
except (OSError, MemoryError) as fault:
    sys.exit("report.py: %s" % (str(fault) or "out of memory"))
