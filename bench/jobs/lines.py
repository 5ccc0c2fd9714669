#!/usr/bin/env python3
"""Reads the lines of texts as docs/definitions.md says, without the crate that is proved to do so (`job_text`), to compare them.

    bench/jobs/lines.py SEED N     writes N random texts, a line each in hexadecimal digits, then a tab and what it reads there
    bench/jobs/lines.py FILE       prints what it reads in a file

What it reads is a list of lines: where each begins, `header`, `list` or `entry`, the key, and for an entry where its value begins and
the value; or the first flaw with the number of bytes from its place to the end. Numbers are kept as written.
"""
import random
import re
import sys

MARK = b"\xef\xbb\xbf"
QUOTES = (b'"', b"'")
KEY = re.compile(rb"[A-Za-z0-9_-]+")
WORD = re.compile(rb"[A-Za-z0-9_+.:-]+(?: [0-9][A-Za-z0-9_+.:-]*)?")
BLANK = re.compile(rb"(?:[ \t]|\r?\n|#[\t\x20-\x7e\x80-\xff]*)*")
SPACE = re.compile(rb"[ \t]*")
SHORT = {b"b": b"\b", b"e": b"\x1b", b"f": b"\f", b"n": b"\n", b"r": b"\r", b"t": b"\t", b'"': b'"', b"\\": b"\\"}
LONG = {b"x": 2, b"u": 4, b"U": 8}
DATE, TIME, ZONE = r"(\d{4})-(\d\d)-(\d\d)", r"(\d\d):(\d\d)(?::(\d\d)(?:\.\d+)?)?", r"(?:[Zz]|[+-](\d\d):(\d\d))"
DATE_TIME = re.compile(f"{DATE}(?:[Tt ]{TIME}{ZONE}?)?")
DECIMAL = re.compile(r"[+-]?(0|[1-9](_?\d)*)(\.\d(_?\d)*)?([eE][+-]?\d(_?\d)*)?")
BASES = ((r"0x([0-9a-fA-F]+(?:_[0-9a-fA-F]+)*)", 16), (r"0o([0-7]+(?:_[0-7]+)*)", 8), (r"0b([01]+(?:_[01]+)*)", 2))


class Flaw(Exception):
    """What is wrong, and where."""


def after(pattern, text, at):
    """The end of what the pattern matches there."""
    return pattern.match(text, at).end()


def quoted(text, at):
    """The text in quotes on one line and its end, or None."""
    quote, at, out = text[at:at + 1], at + 1, b""
    while at < len(text):
        byte, sign = text[at:at + 1], text[at + 1:at + 2]
        if byte == quote:
            return out, at + 1
        if byte == b"\\" and quote == b'"':
            digits = text[at + 2:at + 2 + LONG.get(sign, 0)]
            if sign in SHORT:
                out, at = out + SHORT[sign], at + 2
            elif sign in LONG and len(digits) == LONG[sign] and re.fullmatch(rb"[0-9a-fA-F]+", digits):
                code = int(digits, 16)
                if code > 0x10FFFF or 0xD800 <= code < 0xE000:
                    return None
                out, at = out + chr(code).encode(), at + 2 + len(digits)
            else:
                return None
        elif byte == b"\t" or (byte >= b" " and byte != b"\x7f"):
            out, at = out + byte, at + 1
        else:
            return None
    return None


def key_part(text, at):
    """A part of a key and its end, or None."""
    if text[at:at + 1] in QUOTES:
        return quoted(text, at)
    found = KEY.match(text, at)
    return found and (found[0], found.end())


def key(text, at):
    """A key of one part without quotes, and where it and the white space behind it end."""
    if text[at:at + 1] in QUOTES:
        raise Flaw("QuotedKey", at)
    if not KEY.match(text, at):
        raise Flaw("NoKey", at)
    name, end = key_part(text, at)
    end = after(SPACE, text, end)
    if text[end:end + 1] == b".":
        raise Flaw("DottedKey", at)
    return name, end


def is_time(hour, minute, second):
    return int(hour) < 24 and int(minute) < 60 and int(second or 0) <= 60


def is_date_or_time(word):
    """A date, a time, or both."""
    found = DATE_TIME.fullmatch(word)
    if found:
        year, month, day, hour, minute, second, zone_hour, zone_minute = found.groups()
        leap = int(year) % 4 == 0 and (int(year) % 100 != 0 or int(year) % 400 == 0)
        days = (31, 29 if leap else 28, 31, 30, 31, 30, 31, 31, 30, 31, 30, 31)
        return (1 <= int(month) <= 12 and 1 <= int(day) <= days[int(month) - 1] and (hour is None or is_time(hour, minute, second))
                and (zone_hour is None or is_time(zone_hour, zone_minute, None)))
    found = re.fullmatch(TIME, word)
    return found is not None and is_time(*found.groups())


def is_number(word):
    """A number of TOML whose value has a place in 64 bits."""
    if re.fullmatch(r"[+-]?(inf|nan)", word):
        return True
    for form, base in BASES:
        found = re.fullmatch(form, word)
        if found:
            return int(found[1].replace("_", ""), base) < 2**63
    found = DECIMAL.fullmatch(word)
    if not found:
        return False
    plain = word.replace("_", "")
    return abs(float(plain)) != float("inf") if found[3] or found[5] else -2**63 <= int(plain) < 2**63


def item(text, at):
    """A text, a number, or `true` or `false`, and its end."""
    if text[at:at + 1] in QUOTES:
        if text[at:at + 3] == 3 * text[at:at + 1]:
            raise Flaw("LongText", at)
        found = quoted(text, at)
        if not found:
            raise Flaw("BrokenText", at)
        return ("text", found[0]), found[1]
    for opening, flaw in ((b"{", "InlineTable"), (b"[", "InnerList")):
        if text[at:at + 1] == opening:
            raise Flaw(flaw, at)
    found = WORD.match(text, at)
    if not found:
        raise Flaw("NoValue", at)
    word = found[0].decode()
    if word in ("true", "false"):
        return ("flag", found[0]), found.end()
    if re.match(r"\d+[-:]", word):
        raise Flaw("BareDate" if is_date_or_time(word) else "BadWord", at)
    if not is_number(word):
        raise Flaw("BadWord", at)
    if not re.fullmatch(r"[0-9.+-]+", word):
        raise Flaw("NoNumber", at)
    return ("number", found[0]), found.end()


def value(text, at):
    """An item or a list of items, and its end."""
    if text[at:at + 1] != b"[":
        return item(text, at)
    items, at = [], after(SPACE, text, at + 1)
    while text[at:at + 1] != b"]":
        found, at = item(text, at)
        items.append(found)
        at = after(SPACE, text, at)
        if text[at:at + 1] == b",":
            at = after(SPACE, text, at + 1)
        elif text[at:at + 1] != b"]":
            raise Flaw("BrokenList", at)
    return ("list", items), at + 1


def bracket(text, at):
    if text[at:at + 1] != b"]":
        raise Flaw("NoBracket", at)
    return at + 1


def line(text, at):
    """The line that begins there, and where what it says ends."""
    if text[at] < 32 or text[at] == 127 or text.startswith(MARK, at):
        raise Flaw("Unprintable", at)
    brackets = 2 if text.startswith(b"[[", at) else 1 if text.startswith(b"[", at) else 0
    name, end = key(text, after(SPACE, text, at + brackets) if brackets else at)
    if brackets:
        for _ in range(brackets):
            end = bracket(text, end)
        found = (at, ("header", "list")[brackets - 1], name)
    elif text[end:end + 1] == b"=":
        start = after(SPACE, text, end + 1)
        meaning, end = value(text, start)
        found = (at, "entry", name, start, meaning)
    else:
        raise Flaw("NoEquals", end)
    end = after(SPACE, text, end)
    if text[end:end + 1] not in (b"", b"#", b"\n", b"\r"):
        raise Flaw("More", end)
    return found, end


def lines(text):
    """All lines that aren't empty."""
    found, at = [], after(BLANK, text, 0)
    while at < len(text):
        one, end = line(text, at)
        found.append(one)
        at = after(BLANK, text, end)
    return found


def answer(text):
    """What it reads in a text, as one line."""
    try:
        text.decode()
        return repr(lines(text))
    except UnicodeDecodeError:
        return "not UTF-8"
    except Flaw as flaw:
        return f"{flaw.args[0]} {len(text) - flaw.args[1]}"


TEXTS = (
    b'version = 3\ntitle = "Bracket"  # usual\nunit = "mm"\ndecimals = "fit"\nscale = "fit"\n\n[block]\nnumber = "MV-0042"\ndate = "2026-11-29"\n\n'
    b'[[view]]\nname = "front"\n\n[[view]]\ncut = "y"\nat = 22.5\nfrom = "low"\ntitle = "through the bore"\n',
    b"[[ view ]]\r\ntoward = [1, -1, 1]\r\nhidden = true\r\n  [block] # x\nnote='it''s'\nat = -0.5\nx = [ 'a' , \"b\\u00e9\\t\", 3, ]\n",
)
PIECES = (
    rb"= [ ] [[ ]] , # \ \n \u12 \x41 { } . - + 0 1e3 0x16 1_0 inf nan true false 07:32:00 1979-05-27 1979-05-27T07:32 2026-13-40".split(b" ")
    + b"99999999999999999999 1e999 01 5. .5 a.b [a.b] 22,5 --1 +1 -0 0.10 \xc3\xa9 \x00 \x7f".split(b" ")
    + [b'"', b"'", b'"""', b"'''", b'"k"', b"1979-05-27 07:32:00Z", b"\n", b"\r", b"\r\n", b"\t", b" ", MARK]
)


def changed(chance):
    """One of the texts above with a few random changes."""
    text = chance.choice(TEXTS)
    if chance.random() < 0.3:
        rows = text.split(b"\n")
        chance.shuffle(rows)
        text = b"\n".join(rows[:chance.randint(1, len(rows))])
    for _ in range(chance.choice((0, 1, 1, 1, 2, 3, 5))):
        at, more = chance.randint(0, len(text)), chance.randint(0, len(text))
        text = chance.choice((
            text[:at] + chance.choice(PIECES) + text[at:],
            text[:at] + text[at + chance.randint(1, 6):],
            text[:at] + text[more:more + chance.randint(1, 12)] + text[at:],
            text[:at] + bytes([chance.choice(b"=\"[]#\n\r '\\.,0a-+_{}\x01")]) + text[at + 1:],
            text[:at] if chance.random() < 0.1 else text,
        ))
    return text


def main():
    if len(sys.argv) == 2:
        with open(sys.argv[1], "rb") as it:
            print(answer(it.read()))
        return
    chance = random.Random(int(sys.argv[1]))
    for _ in range(int(sys.argv[2])):
        text = changed(chance)
        print(text.hex(), answer(text), sep="\t")


if __name__ == "__main__":
    main()
