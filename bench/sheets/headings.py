#!/usr/bin/env python3
"""headings.py JOB SVG LIST: reads the headings of cut views in a sheet's SVG, and finds them anew from the job and the list of strokes.

A heading is the cut's letters, its place in millimetres or inches, that there is no section, and the view's title, fitted to its room."""
import html, re, sys, tomllib
from fractions import Fraction

# Helvetica's widths of the characters 32 to 126, by Adobe's metrics
WIDTHS = [278,278,355,556,556,889,667,191,333,333,389,584,278,333,278,278,556,556,556,556,556,556,556,556,556,556,278,278,584,584,584,556,
          1015,667,667,722,722,667,611,778,722,278,500,667,556,833,722,778,667,778,722,667,611,722,667,944,667,667,611,278,278,278,469,556,
          333,556,556,500,556,556,278,556,556,222,222,500,222,833,556,556,556,556,333,500,278,556,500,722,500,500,500,334,260,334,584]


def width(text):
    return sum(WIDTHS[ord(c) - 32] if 32 <= ord(c) < 127 else 1000 for c in text)


def place(units, decimals, inches):
    exact = Fraction(units, 10 ** decimals)
    if inches:
        parts = (exact * 10000 / Fraction(254, 10) + Fraction(1, 2)).__floor__()
        return "%s%d.%04d" % ("-" if parts < 0 else "", abs(parts) // 10000, abs(parts) % 10000)
    digits = "%s%d.%0*d" % ("-" if units < 0 else "", abs(units) // 10 ** decimals, decimals, abs(units) % 10 ** decimals) if decimals else str(units)
    return digits.rstrip("0").rstrip(".") if decimals else digits


def fitted(room, text):
    """The size and the text that stands on the sheet; 500 is the largest size, 180 the least."""
    size = min(500, 1000 * room // max(1, width(text)))
    if size >= 180:
        return size, text
    for n in range(len(text), -1, -1):
        if width(text[:n] + "...") * 180 <= 1000 * room:
            return 180, text[:n] + "..."
    return 180, ""


def heading(letter, axis, at, section, title, room):
    letters = letter + "-" + letter
    missing = "" if section else ": no section"
    behind = (" " if section else "; ") + title if title else ""
    front = "%s (%s = %s)%s" % (letters, axis, at, missing)
    fits = lambda text: 1000 * room // max(1, width(text)) >= 180
    if fits(front + behind) or fits(front + "..."):
        return fitted(room, front + behind)
    return fitted(room, front if fits(front) else letters + missing + behind)


def main():
    job = tomllib.load(open(sys.argv[1], "rb"))
    svg = open(sys.argv[2], encoding="utf8").read()
    lines = open(sys.argv[3]).read().split("\n")
    decimals = int(lines[1].split()[1])
    titles = [v.get("title", "") for v in job["view"]] if job.get("version", 1) == 3 else []
    inches = job.get("unit", "mm") == "inch"
    shown = {}
    for size, text in re.findall(r'<text x="-?\d+" y="-?\d+" font-size="(\d+)"[^>]*>([^<]*)</text>', svg):
        text = html.unescape(text)
        if re.match(r"[A-M]-[A-M]", text):
            shown[text[0]] = (int(size), text)
    wrong = 0
    for line in lines:
        m = re.match(r"view (\d+) cut ([xyz]) (-?\d+) (?:high|low) ([A-M]) ", line)
        if not m:
            continue
        number, axis, at, letter = int(m[1]), m[2], int(m[3]), m[4]
        title = titles[number] if number < len(titles) else ""
        own = shown.get(letter, (0, ""))
        # the room isn't in the SVG: one that is hardly wider than the text must give it, or one that is wider than any
        least = -(-own[0] * width(own[1]) // 1000)
        rooms = [118900] + [least + more for more in range(200)]
        at = place(at, decimals, inches)
        if not any(heading(letter, axis, at, section, title, room) == own for section in (True, False) for room in rooms):
            wrong += 1
            print("%s: the heading of %s is %s" % (sys.argv[2], letter, own))
    print("%d wrong" % wrong)
    return wrong


if __name__ == "__main__":
    sys.exit(1 if main() else 0)
