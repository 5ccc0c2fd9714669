"""Reads texts by the grammar of TOML 1.1, within the limits that docs/usage.md names under "The job": which tables they define."""
import re

from lines import BASES, BLANK, DECIMAL, MARK, QUOTES, SPACE, WORD, after, is_date_or_time, is_number, key_part, quoted

DEPTH = 80  # the parts of a key, and arrays and inline tables in one another
ESCAPE = re.compile(rb'\\(?:[befnrt"\\]|x([0-9a-fA-F]{2})|u([0-9a-fA-F]{4})|U([0-9a-fA-F]{8}))')
LINE_END = re.compile(rb"\\[ \t]*\r?\n(?:[ \t]|\r?\n)*")
LONG_BYTES = re.compile(rb"\r?\n|[\t\x20-\x7e\x80-\xff]")


class Refused(Exception):
    """TOML refuses the text."""


class Table:
    """A table that is open: keys may be added. A header or a dotted key defined it, or a header passed through it (`implicit`)."""

    def __init__(self, origin):
        self.origin, self.nodes = origin, {}


class Tables:
    """An array of tables, of which only the last one is open."""

    def __init__(self):
        self.last = Table("header")


def byte_after(byte, text, at):
    if text[at:at + 1] != byte:
        raise Refused
    return at + 1


# ---- what lines define
def through(table, path, dotted):
    """The table at the end of a path, by a header or by a dotted key; either makes what is missing."""
    for part in path:
        node = table.nodes.setdefault(part, Table("dotted" if dotted else "implicit"))
        if isinstance(node, Tables) and not dotted:
            node = node.last
        elif not isinstance(node, Table) or (dotted and node.origin == "header"):
            raise Refused
        elif dotted:
            node.origin = "dotted"
        table = node
    return table


def put(table, path, value):
    """A value at a new key."""
    table = through(table, path[:-1], True)
    if path[-1] in table.nodes:
        raise Refused
    table.nodes[path[-1]] = value


class Document:
    """The root table, and the table of the last header."""

    def __init__(self):
        self.root = self.here = Table("header")

    def header(self, path, several):
        """`[path]`, or `[[path]]` if there may be several."""
        outer = through(self.root, path[:-1], False)
        found = outer.nodes.setdefault(path[-1], Tables() if several else Table("implicit"))
        if several and isinstance(found, Tables):
            found.last = Table("header")
        elif not several and isinstance(found, Table) and found.origin == "implicit":
            found.origin = "header"
        else:
            raise Refused
        self.here = found.last if several else found

    def entry(self, path, value):
        put(self.here, path, value)


# ---- values: a whole number is itself, and any other value is None
def whole(word):
    for form, base in BASES:
        found = re.fullmatch(form, word)
        if found:
            return int(found[1].replace("_", ""), base)
    found = DECIMAL.fullmatch(word)
    return int(word.replace("_", "")) if found and not found[3] and not found[5] else None


def bare(text, at):
    """A value without quotes and brackets."""
    found = WORD.match(text, at)
    if not found:
        raise Refused
    word = found[0].decode()
    if word in ("true", "false"):
        return None, found.end()
    if not (is_date_or_time(word) if re.match(r"\d+[-:]", word) else is_number(word)):
        raise Refused
    return whole(word), found.end()


def escaped(text, at):
    """The end of an escape."""
    found = ESCAPE.match(text, at)
    if not found:
        raise Refused
    digits = found[1] or found[2] or found[3]
    if digits and (int(digits, 16) > 0x10FFFF or 0xD800 <= int(digits, 16) < 0xE000):
        raise Refused
    return found.end()


def long_text(text, at):
    """The end of a text in three quotes."""
    quote = text[at:at + 1]
    at += 3
    while True:
        run = len(text[at:at + 6]) - len(text[at:at + 6].lstrip(quote))
        if run == 3:
            return at + 3
        if run == 6:
            raise Refused
        if run == 0 and quote == b'"' and text[at:at + 1] == b"\\":
            cut = LINE_END.match(text, at)
            at = cut.end() if cut else escaped(text, at)
            continue
        found = LONG_BYTES.match(text, at)
        if not found:
            raise Refused
        at = found.end()


def array(text, at, depth):
    """The end of an array, behind its bracket."""
    at = after(BLANK, text, at)
    while text[at:at + 1] != b"]":
        at = after(BLANK, text, value(text, at, depth)[1])
        if text[at:at + 1] != b"]":
            at = after(BLANK, text, byte_after(b",", text, at))
    return at + 1


def inline_table(text, at, depth):
    """The end of an inline table, behind its brace."""
    table, at = Table("header"), after(BLANK, text, at)
    while text[at:at + 1] != b"}":
        path, meaning, at = pair(text, at, depth)
        put(table, path, meaning)
        at = after(BLANK, text, at)
        if text[at:at + 1] != b"}":
            at = after(BLANK, text, byte_after(b",", text, at))
    return at + 1


def value(text, at, depth):
    """A value, with so many arrays and inline tables in one another at most, and its end."""
    first = text[at:at + 1]
    if depth and first == b"[":
        return None, array(text, at + 1, depth - 1)
    if depth and first == b"{":
        return None, inline_table(text, at + 1, depth - 1)
    if first not in QUOTES:
        return bare(text, at)
    if text[at:at + 3] == 3 * first:
        return None, long_text(text, at)
    found = quoted(text, at)
    if not found:
        raise Refused
    return None, found[1]


# ---- lines
def key(text, at):
    """The parts of a key, and where it and the white space behind it end."""
    path = []
    while len(path) < DEPTH:
        found = key_part(text, at)
        if not found:
            raise Refused
        path.append(found[0])
        at = after(SPACE, text, found[1])
        if text[at:at + 1] != b".":
            return path, at
        at = after(SPACE, text, at + 1)
    raise Refused


def pair(text, at, depth):
    """A key, its value, and their end."""
    path, at = key(text, at)
    meaning, at = value(text, after(SPACE, text, byte_after(b"=", text, at)), depth)
    return path, meaning, at


def line(text, at, document):
    """What a line defines; its end."""
    brackets = 2 if text.startswith(b"[[", at) else 1 if text.startswith(b"[", at) else 0
    if brackets:
        path, at = key(text, after(SPACE, text, at + brackets))
        for _ in range(brackets):
            at = byte_after(b"]", text, at)
        document.header(path, brackets == 2)
    else:
        path, meaning, at = pair(text, at, DEPTH)
        document.entry(path, meaning)
    at = after(SPACE, text, at)
    if text[at:at + 1] not in (b"", b"#", b"\n", b"\r"):
        raise Refused
    return at


def read(text):
    """The keys of a text of UTF-8, or None if it is refused. Each has its whole number, its table or its tables, or None for any other value."""
    document, at = Document(), after(BLANK, text, len(MARK) if text.startswith(MARK) else 0)
    try:
        while at < len(text):
            at = after(BLANK, text, line(text, at, document))
    except Refused:
        return None
    return document.root.nodes
