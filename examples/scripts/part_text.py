"""Reads the text of a part, an OFF or an ASCII STL, by the rules of docs/formats.md, and refuses what `draw` refuses."""
import io
import re

from one_line import Fault

MOST_BYTES, MOST_CORNERS, MOST_TRIANGLES, MOST_FACE = 16777216, 60000, 20000, 64
GREATEST = 1048576  # units from the origin, on each axis
NUMBER = re.compile(rb"([+-]?)(?=\.?[0-9])([0-9]*)(?:\.([0-9]*))?(?:[eE]([+-]?)([0-9]+))?")


class Words:
    """The words of a text, one after the other, each with the number of its line."""

    def __init__(self, part, text, comments):
        self.part, self.line = part, 1
        self.rest = self.found(text, comments)
        self.ahead = next(self.rest, None)

    def found(self, text, comments):
        for self.line, line in enumerate(io.BytesIO(text), 1):
            for word in (line.split(b"#", 1)[0] if comments else line).split():
                yield word, self.line

    def fault(self):
        raise Fault("%s: line %d: not as in an OFF or an ASCII STL" % (self.part, self.ahead[1] if self.ahead else self.line))

    def take(self, fits=bool):
        """The next word, if there is one and it fits."""
        if not self.ahead or not fits(self.ahead[0]):
            self.fault()
        word, self.taken = self.ahead
        self.ahead = next(self.rest, None)
        return word

    def take_word(self, *wanted):
        return self.take(lambda word: word.lower() in wanted).lower()

    def take_count(self, least, most):
        # no count here has six digits
        value = lambda word: int(word.lstrip(b"0")[:6] or b"0")
        return value(self.take(lambda word: word.isdigit() and least <= value(word) <= most))

    def take_corner(self):
        return tuple(self.take(NUMBER.fullmatch) for _ in range(3))

    def skip_line(self):
        while self.ahead and self.ahead[1] == self.taken:
            self.take()


def of_off(words):
    if words.ahead and words.ahead[0].lower() == b"off":
        words.take()
    vertices, faces = words.take_count(0, MOST_CORNERS), words.take_count(0, MOST_TRIANGLES)
    words.take()  # the count of edges isn't used
    corners = [words.take_corner() for _ in range(vertices)]
    listed, left = [], MOST_TRIANGLES
    for _ in range(faces):
        line = words.ahead and words.ahead[1]
        count = words.take_count(3, min(MOST_FACE, left + 2))
        left -= count - 2
        listed.append((line, [words.take_count(0, vertices - 1) for _ in range(count)]))
        words.skip_line()
    if words.ahead:
        words.fault()
    return corners, listed


def of_stl(words):
    corners, listed = [], []
    while words.ahead:
        words.take_word(b"solid")
        words.skip_line()
        while words.take_word(b"facet", b"endsolid") == b"facet":
            listed.append((words.taken, [len(corners), len(corners) + 1, len(corners) + 2]))
            if len(listed) > MOST_TRIANGLES:
                words.fault()
            words.take_word(b"normal")
            for _ in range(3):
                words.take()
            words.take_word(b"outer")
            words.take_word(b"loop")
            for _ in range(3):
                words.take_word(b"vertex")
                corners.append(words.take_corner())
            words.take_word(b"endloop")
            words.take_word(b"endfacet")
        words.skip_line()
    return corners, listed


def read(part):
    """The corners, each as three numbers of the text, and the faces, each as its first line and the numbers of its corners."""
    with open(part, "rb") as file:
        text = file.read(MOST_BYTES + 1)
    if len(text) > MOST_BYTES:
        raise Fault("%s: more than %d bytes" % (part, MOST_BYTES))
    if b"\0" in text:
        raise Fault("%s: binary" % part)
    first = Words(part, text, False).ahead
    stl = first and first[0].lower() == b"solid"
    return (of_stl if stl else of_off)(Words(part, text, not stl))


def units(word, decimals, most=GREATEST):
    """A number of the text in whole units, halves away from zero; None if it is larger than most."""
    sign, whole, behind, below, power = NUMBER.fullmatch(word).groups(b"")
    digits = (whole + behind).lstrip(b"0")
    power = power.lstrip(b"0")
    # no text has so many digits that a greater power would say more
    power = int(power or b"0") if len(power) < 10 else 10**9
    point = len(digits) + (-power if below == b"-" else power) + decimals - len(behind)
    if not digits or point < 0:
        return 0
    if point > len(str(most)):
        return None
    digits = digits.ljust(point + 1, b"0")
    size = int(digits[:point] or b"0") + (digits[point:point + 1] >= b"5")
    return None if size > most else -size if sign == b"-" else size


def less(a, b):
    return tuple(p - q for p, q in zip(a, b))


def cross(a, b):
    return a[1] * b[2] - a[2] * b[1], a[2] * b[0] - a[0] * b[2], a[0] * b[1] - a[1] * b[0]


def fan(corners):
    """The triangles of a face: the fan from the first corner that sees it whole. None if no corner does."""
    area = tuple(map(sum, zip(*(cross(a, b) for a, b in zip(corners, corners[1:] + corners[:1])))))
    for at in range(len(corners)):
        turned = corners[at:] + corners[:at]
        triangles = [(turned[0], a, b) for a, b in zip(turned[1:], turned[2:])]
        faced = [sum(p * q for p, q in zip(cross(less(b, a), less(c, a)), area)) for a, b, c in triangles if len({a, b, c}) == 3]
        if faced and min(faced) > 0:
            return triangles
    return None


def triangles(part, decimals):
    """The triangles with three different corners, in units, each with the first line of its face."""
    words, faces = read(part)
    corners = [tuple(units(word, decimals) for word in corner) for corner in words]
    if any(None in corner for corner in corners):
        raise Fault("%s: a number is too large" % part)
    for line, numbers in faces:
        face = [corners[number] for number in numbers]
        found = [tuple(face)] if len(face) == 3 else fan(face)
        if found is None:
            raise Fault("%s: line %d: a face is not seen whole from a corner" % (part, line))
        for triangle in found:
            if len(set(triangle)) == 3:
                yield line, triangle


def edges(triangles):
    """The edges in the order of their numbers, each as three times the number of a triangle and one of its sides."""
    sides = {}
    for number, (_, corners) in enumerate(triangles):
        for side in range(3):
            sides[corners[side], corners[(side + 1) % 3]] = 3 * number + side
    return sorted(half for (a, b), half in sides.items() if half < sides.get((b, a), -1))
