"""Makes random texts of jobs of version 3: right ones, and ones with faults of each kind, for jobs.py."""
from lines import MARK, PIECES

TEXTS = ('"Bracket"', "'MV-0042'", '"Welle \\u00d8 20 h6"', '"Geh\u00e4use"', '"\u652f\u67b6"', '""', '"1\\"x2"', '"%s"' % ("t" * 120), '"2026-11-29"')
NAMES = ("front", "back", "left", "right", "above", "below")
BLOCK = ("number", "type", "material", "author", "approved", "date", "revision", "company", "tolerances", "note")
# right values of the job's keys
RIGHT = {
    "title": TEXTS,
    "unit": ('"mm"', '"inch"'),
    "decimals": ('"fit"', "0", "1", "2", "3", "4", "5", "6"),
    "sheet": ('"fit"', '"A0"', '"A1"', '"A2"', '"A3"', '"A4"'),
    "layout": ('"landscape"', '"portrait"'),
    "angle": ('"first"', '"third"'),
    "scale": ('"fit"', '"50:1"', '"20:1"', '"10:1"', '"5:1"', '"2:1"', '"1:1"', '"1:2"', '"1:5"', '"1:10"', '"1:20"', '"1:50"', '"1:100"'),
    "crease": ('"fine"', '"normal"', '"coarse"'),
    "hidden": ('"all"', '"plain"', '"none"'),
}
TOWARD = ("[1, -1, 1]", "[2,-3,2]", "[ 0, 0, 1, ]", "[+9, -9, 0]", "[-0, +0, 5]")
PLACES = ("0", "10", "22.5", "-0.5", "+12.25", "-0", "0.10", "3.1415926535", "0.0000005", "-0.0000005", "0.00000049", "1.0005", "-1.0005")
FAR = (
    "10485.76", "10485.7649", "10485.765", "10485.77", "-10485.76", "-10485.77", "412.8252", "412.826", "1048.576", "1048.5765", "104857.6",
    "1048576", "1048577", "1048576.5", "-1048576.4", "99999999", "123456789012.5", "1.048576", "1.0485765", "-2000000.0", "9223372036854775807",
)
# wrong values: of texts, and of each other key of the job and of a view
NO_TEXTS = (
    "3", "true", '["x"]', '"%s"' % ("t" * 121), '"%s"' % ("\u00e9" * 61), '"a\tb"', '"a\\nb"', '"\\u007f"', '"x\\uFFFE"', '"\\uffff"', '"\\x07"', "[]",
)
WRONG = {
    "unit": ('"cm"', '"MM"', '"inches"', "25.4", '"mm "'),
    "decimals": ("7", "-1", "+3", "2.0", '"3"', '"Fit"', "10", "-0", "true", "[3]"),
    "sheet": ('"A5"', '"a4"', '"A3 "', "3", '"letter"', '"Fit"'),
    "layout": ('"upright"', '"Portrait"', "true"),
    "angle": ('"1st"', '"First"', "1", '"third angle"'),
    "scale": ('"1:3"', '"1/2"', "1", "0.5", '"1 : 2"', '"fits"'),
    "crease": ('"soft"', "15", '""'),
    "hidden": ('"some"', "true", "false", '"cut"'),
    "name": ('"top"', '"Front"', '"iso"', "1", '["front"]', '""'),
    "toward": (
        "[0, 0, 0]", "[1, 2]", "[1, 2, 3, 4]", "[1.0, 2, 3]", "[10, 0, 0]", '["1", 0, 0]', "[1, -10, 1]", "3", "[]", "[-0, +0, 0]", '"front"', "[true, 1, 1]",
    ),
    "cut": ('"X"', '"xy"', "1", '""', '"A"'),
    "at": ('"22.5"', '"middle"', "true", "[10]", '""'),
    "from": ('"left"', '"High"', "1", "true", '"above"'),
    "view hidden": ('"all"', '"true"', "1", "0", "[true]"),
}
FAR_KEYS = ("colour", "dimension", "x", "font-size", "thickness_of_lines", "1", "a_b")
HEADERS = (
    "blok", "views", "Block", "vew", "titleblock", "title", "job", "v", "bl", "sheet", "block2", "xiew", "table", "outputs", "viewport",
)
# lines with a flaw, or that TOML refuses, by the flaws in their order
FLAWED = (
    "= 3", "[]", "[[ ]]", "[[[view]]]", "- x = 1 #", ", ",
    '"title" = "x"', "['view']", '[["view"]]', "'x' = 1",
    'block.number = "1"', "[block.x]", "[[view.cut]]", "view . name = 1", "x.y = 1", "x.y.z = 1\nx.y.w = '2'",
    'title "x"', "hidden: true", "at", "title == 3",
    "[block", "[[view]", "[[view] ]", "[block x]", "[ block ] ]",
    "title =", "at = ,", "at = # 3", "unit = ;", "toward = [1, -1, 1\n]", "toward = [\n 1, # one\n 2,\n 3 ]",
    "at = 10mm", "unit = mm", "at = 5.", "at = 01", "at = 1e999", "at = 99999999999999999999", "hidden = True", "date = 2026-13-40",
    'title = "x', 'title = "a\\q"', "title = 'it", 'title = "a\x01b"', 'title = "\\ud800"',
    'title = """x"""', "title = '''", 'note = """a\n b"""', 'note = """\\\n  a"""',
    'view = {name = "front"}', "x = {}", "x = {a = 1, a = 2}", "x = { a.b = 1,\n c = [2] }",
    "date = 2026-11-29", "date = 07:32:00", "x = 1979-05-27 07:32Z", "x = 07:32",
    "at = 1e3", "at = 0x16", "at = 1_000", "at = inf", "at = -nan", "decimals = 0b11", "at = 2.5e0",
    "toward = [[1, 0, 0]]", "x = [[], []]", "at = [[1], 2]", "title = [ [ ] ]",
    "toward = [1, -1, 1", "toward = [1; 2; 3]", "x = [1, 2}", 'x = ["a" "b"]',
    'title = "a" "b"', "at = 22,5", "[block] x", '[[view]] name = "front"', "x = 1 y = 2",
    "x = true # \x07", "\x01x = 1", "\ufeff# mark", "x = 1\rx2 = 2", "\r", "\x7f",
)
BAD_BYTES = (b"\xff", b"\xc3", b"\xe2\x82", b"\xed\xa0\x80", b"\xc0\xaf", b"\xf5", b"\x80", b"\xf4\x90\x80\x80")
VERSIONS = ("1", "2", "4", "0", "-3", "3.0", '"3"', "[3]", "+3", "0x3", "0b11", "3_0", "03", "3e0", "true", "2026-11-29")


class Text:
    """A job as tables, each a header and its entries."""

    def __init__(self, chance):
        self.chance, self.tables = chance, [["", [["version", "3"]]]]
        for key in RIGHT:
            if chance.random() < 0.35:
                self.tables[0][1].append([key, chance.choice(RIGHT[key])])
        if chance.random() < 0.4:
            self.add_block()
        names = chance.sample(NAMES, chance.randint(0, 4))
        for name in names:
            self.tables.append(["[[view]]", [["name", '"%s"' % name]]])
        for _ in range(chance.choice((0, 0, 1, 1, 2))):
            self.add_view(chance.choice(("toward", "cut")))
        for view in self.views():
            if chance.random() < 0.15:
                view[1].append(["hidden", chance.choice(("true", "false"))])
        if chance.random() < 0.2:
            rest = self.tables[1:]
            chance.shuffle(rest)
            self.tables[1:] = rest

    def add_block(self):
        keys = self.chance.sample(BLOCK, self.chance.randint(1, 5))
        self.tables.append(["[block]", [[key, self.chance.choice(TEXTS)] for key in keys]])
        return self.tables[-1]

    def add_view(self, kind):
        if kind == "toward":
            entries = [["toward", self.chance.choice(TOWARD)]]
        elif kind == "cut":
            axis, side = self.chance.choice(('"x"', '"y"', '"z"')), self.chance.choice(('"high"', '"low"'))
            entries = [["cut", axis], ["at", self.chance.choice(PLACES)], ["from", side]]
            if self.chance.random() < 0.4:
                entries.append(["title", self.chance.choice(TEXTS)])
        else:
            entries = [["name", '"%s"' % self.chance.choice(NAMES)]]
        self.tables.insert(self.chance.randint(1, len(self.tables)), ["[[view]]", entries])
        return [table for table in self.tables if table[1] is entries][0]

    def views(self):
        return [table for table in self.tables if table[0] == "[[view]]"]

    def view_with(self, key):
        """A view that has the key, or could have it."""
        form = self.chance.choice(("name", "toward", "cut")) if key == "hidden" else key if key in ("name", "toward") else "cut"
        found = [view for view in self.views() if any(entry[0] == form for entry in view[1])]
        return self.chance.choice(found) if found else self.add_view(form)

    def block(self):
        found = [table for table in self.tables if table[0] == "[block]"]
        return found[0] if found else self.add_block()

    def any_table(self):
        return self.chance.choice(self.tables)

    def put(self, table, key, value):
        table[1][:] = [entry for entry in table[1] if entry[0] != key]
        table[1].insert(self.chance.randint(0, len(table[1])), [key, value])

    def drop(self, table, key):
        table[1][:] = [entry for entry in table[1] if entry[0] != key]

    # ---- how it is written
    def entry(self, key, value):
        equals = self.chance.choice((" = ",) * 8 + ("=", " =\t", "= "))
        end = self.chance.choice(("",) * 12 + ("  # usual", " ", "\t#", " # \u00b0"))
        return self.chance.choice(("",) * 9 + ("  ",)) + key + equals + value + end

    def written(self):
        rows = []
        for header, entries in self.tables:
            if header:
                rows += [""] * self.chance.choice((1, 1, 1, 0, 2))
                rows.append(header if self.chance.random() < 0.9 else header.replace("[view]", "[ view\t]").replace("[block]", " [block ] # texts"))
            elif self.chance.random() < 0.2:
                rows.append("# A job \u2013 of version 3.")
            rows += [self.entry(*entry) for entry in entries]
        end = self.chance.choice(("\n",) * 12 + ("\r\n",))
        return end.join(rows) + (end if self.chance.random() < 0.9 else "")


# ---- faults of tables and keys
def single_view(it):
    it.tables[:] = [table for table in it.tables if table[0] != "[[view]]"] + [["[view]", it.view_with("name")[1]]]


def one_bracket(it):
    it.chance.choice(it.views() or [it.add_view("name")])[0] = "[view]"


def double_block(it):
    it.block()[0] = "[[block]]"


def unknown_table(it):
    header = it.chance.choice(("[%s]", "[[%s]]")) % it.chance.choice(HEADERS)
    if it.chance.random() < 0.5:
        it.any_table()[0] = header
    else:
        it.tables.insert(it.chance.randint(1, len(it.tables)), [header, []])


def many_views(it):
    while len(it.views()) < it.chance.choice((12, 13, 13, 14)):
        it.add_view("toward")


def empty_block(it):
    it.block()[1][:] = []


def mistyped(chance, word):
    """A word with one or two slips."""
    for _ in range(chance.choice((1, 1, 1, 2))):
        at, letter = chance.randrange(len(word)), chance.choice("abcdefghijklmnopqrstuvwxyz_-")
        word = chance.choice((
            word[:at] + word[at + 1:], word[:at] + letter + word[at:], word[:at] + letter + word[at + 1:], word[:at] + word[at] + word[at:],
            word[:at] + word[at:at + 2][::-1] + word[at + 2:], word.capitalize(),
        )) or letter
    return word


def misspelled(it):
    table = it.any_table()
    entry = it.chance.choice(table[1] or [["title", '"x"']])
    if entry[0] == "version":
        table[1].append([mistyped(it.chance, it.chance.choice(tuple(RIGHT))), '"x"'])
    else:
        entry[0] = mistyped(it.chance, entry[0])


def far_key(it):
    it.put(it.any_table(), it.chance.choice(FAR_KEYS), "1")


def moved_key(it):
    table = it.any_table()
    view_keys = 2 * ("name", "toward", "cut", "at", "from")
    keys = {"": BLOCK + view_keys, "[block]": tuple(RIGHT) + view_keys}.get(table[0], tuple(RIGHT)[1:-1] + ("version",) + BLOCK)
    key = it.chance.choice(keys)
    it.put(table, key, it.chance.choice(RIGHT.get(key, TEXTS)))


def old_key(it):
    it.put(it.any_table(), "outputs", '["pieces", "dxf"]')


def header_as_key(it):
    it.put(it.any_table(), it.chance.choice(("block", "view")), it.chance.choice(("1", '"front"', "[]")))


# ---- wrong values
def wrong_in_job(it):
    key = it.chance.choice(tuple(RIGHT))
    it.put(it.tables[0], key, it.chance.choice(NO_TEXTS if key == "title" else WRONG[key]))


def wrong_in_block(it):
    it.put(it.block(), it.chance.choice(BLOCK), it.chance.choice(NO_TEXTS))


def wrong_in_view(it):
    key = it.chance.choice(("name", "toward", "cut", "at", "from", "title", "hidden"))
    it.put(it.view_with(key), key, it.chance.choice(NO_TEXTS if key == "title" else WRONG["view hidden" if key == "hidden" else key]))


def far_place(it):
    it.put(it.view_with("cut"), "at", it.chance.choice(FAR))
    if it.chance.random() < 0.5:
        it.put(it.tables[0], "decimals", it.chance.choice(RIGHT["decimals"]))


# ---- faults of views
def no_form(it):
    view = it.chance.choice(it.views() or [it.add_view("name")])
    for key in ("name", "toward", "cut"):
        it.drop(view, key)


def two_forms(it):
    it.put(it.view_with("name"), it.chance.choice(("toward", "cut")), it.chance.choice(('"x"', "[1, 0, 0]")))


def cut_key_without_cut(it):
    key = it.chance.choice(("at", "from", "title", "title"))
    view = it.view_with(it.chance.choice(("name", "toward")))
    it.put(view, key, {"at": "10", "from": '"low"', "title": '"x"'}[key])


def cut_without(it):
    it.drop(it.view_with("cut"), it.chance.choice(("at", "from")))


def name_taken(it):
    entries = it.view_with("name")[1]
    it.tables.append(["[[view]]", [list(entry) for entry in entries]])


# ---- the text
def twice(it):
    table = it.any_table()
    if table[1] and it.chance.random() < 0.7:
        table[1].append(list(it.chance.choice(table[1])))
    else:
        it.tables.append(list(it.block()))


def other_version(it):
    it.put(it.tables[0], "version", it.chance.choice(VERSIONS))


def no_version(it):
    it.drop(it.tables[0], "version")


def inline(it):
    it.tables[0][1].append(["view", '[{name = "front"}, {cut = "x", at = 1, from = "low"}]'])


IN_TABLES = (
    single_view, one_bracket, double_block, unknown_table, unknown_table, many_views, empty_block, misspelled, misspelled, misspelled, far_key,
    moved_key, moved_key, moved_key, old_key, header_as_key, header_as_key, far_place, far_place, no_form, two_forms,
    cut_key_without_cut, cut_key_without_cut, cut_key_without_cut, cut_key_without_cut, cut_without, cut_without, name_taken, twice, twice,
    other_version, no_version, inline,
) + 10 * (wrong_in_job,) + 12 * (wrong_in_block,) + 9 * (wrong_in_view,)


def flawed_line(chance, text):
    rows = text.split(b"\n")
    rows.insert(chance.randint(0, len(rows)), chance.choice(FLAWED).encode())
    return b"\n".join(rows)


def flawed_value(chance, text):
    """A value or a key of one of these lines, put where another one is."""
    rows, one = text.split(b"\n"), chance.choice(FLAWED).encode()
    entries = [number for number, row in enumerate(rows) if b" = " in row]
    if entries:
        at = chance.choice(entries)
        key, value = rows[at].split(b" = ", 1)
        rows[at] = key + b" = " + one.split(b" = ", 1)[1] if b" = " in one else one + b" = " + value
    return b"\n".join(rows)


def changed_lines(chance, text):
    """A line dropped, doubled, exchanged or moved."""
    rows = text.split(b"\n")
    at, more = chance.randrange(len(rows)), chance.randrange(len(rows))
    return b"\n".join(chance.choice((rows[:at] + rows[at + 1:], rows[:at] + rows[more:more + 1] + rows[at:], rows[:at] + [rows[more]] + rows[at + 1:])))


def changed_quotes(chance, text):
    places = [at for at in range(len(text)) if text[at:at + 1] in b"\"'"]
    at = chance.choice(places or [0])
    return text[:at] + chance.choice((b"", b"", b'""', b"'", b'"""')) + text[at + 1:]


def changed_bytes(chance, text):
    at, piece = chance.randint(0, len(text)), chance.choice(PIECES)
    return chance.choice((text[:at] + piece + text[at:], text[:at] + text[at + chance.randint(1, 6):], text[:at] + piece + text[at + 1:], text[:at]))


def bad_byte(chance, text):
    at = chance.randint(0, len(text))
    return text[:at] + chance.choice(BAD_BYTES) + text[at:]


def marked(chance, text):
    at = chance.choice((0, 0, text.rfind(b"\n") + 1))
    return text[:at] + MARK + text[at:]


IN_BYTES = 14 * (flawed_line,) + 6 * (flawed_value,) + 2 * (changed_lines, changed_quotes, changed_bytes) + (bad_byte, marked)


def text(chance):
    """A right job, or one with a few random changes."""
    it = Text(chance)
    changes = chance.choices((0, 1, 2, 4), (10, 72, 12, 6))[0]
    in_bytes = sum(chance.random() < 0.3 for _ in range(changes))
    for _ in range(changes - in_bytes):
        chance.choice(IN_TABLES)(it)
    if chance.random() < 0.15:
        for table in it.tables:
            chance.shuffle(table[1])
    found = it.written().encode()
    for _ in range(in_bytes):
        found = chance.choice(IN_BYTES)(chance, found)
    return found
