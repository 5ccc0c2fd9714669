#!/usr/bin/env python3
"""Counts the definitions that a promise takes: those that it names, those that these name, and so on.

    bench/house/definitions.py                    the promises of the table below
    bench/house/definitions.py NAME ..            these, each CRATE.MODULE.Definition, or CRATE::function for its contract
    bench/house/definitions.py --list NAME ..     with all that they take, in reading order: what is named comes before what names it

Counted are the definitions in the folders `specs` of this project's crates, with their lines, without comments and imports, and the
files that they stand in. Types of the code and the definitions of Rattle's library aren't.
"""
import os
import re
import sys

TOP = os.path.normpath(os.path.join(os.path.dirname(os.path.abspath(__file__)), "..", ".."))
PROMISES = (
    ("the pieces of a view are right", "geometry.Scenes.AreRight"),
    ("and those of a cut view", "geometry.Scenes.AreRightInCut"),
    ("a part is sound", "geometry.Sound.IsSound"),
    ("a drawing", "drawing.Drawing.IsPlannedDrawing"),
    ("a run of draw", "draw_core::draw"),
    ("a run of sheet", "sheet_core::sheet"),
    ("a run of mend", "mend_core::mend"),
    ("a run of pieces", "detail_view::pieces"),
)
WORD = re.compile(r"[^\s(){}\[\],;:.=→λ×]+")
USE = re.compile(r"^\s*(?:ghost |pub )?use Rattle\.([\w.]+?)(?:\.\{(.*)\})?(?: as (\w+))?;?$")


class File:
    """A file of definitions: what it imports, and its definitions, each a name with its lines."""

    def __init__(self, module, text):
        self.module = module
        self.names, self.modules, self.operators = imports(text)
        self.found = {}
        head = re.compile(r"^(?:abbrev )?(?:pub )?(?:(?:record|data) )?([^\s:(){}]+)\s*[:({]")
        last = None
        for line in text.split("\n"):
            line = re.sub(r"(^|\s)--.*", "", line).rstrip()
            if not line or USE.match(line) or line.startswith(("infix", "pub mod", "mod ")):
                continue
            row = None if line[0].isspace() else head.match(line)
            if row and not re.match(r"^[^:]*\s=\s", line):
                last = row[1]
                self.found.setdefault(last, [])
            if last:
                self.found[last].append(line)
        self.own = {symbol(name): name for name in self.found if "◌" in name}


def symbol(name):
    """The sign of an operator, such as ⊕ of ◌⊕◌."""
    return max(name.split("◌"), key=len)


def imports(text):
    """The names that a text imports from specs of this project, the modules under a name of their own, and the operators."""
    names, modules, operators = {}, {}, {}
    for line in text.split("\n"):
        row = USE.match(line)
        if not row or ".specs." not in row[1] + "." or ".declared." in row[1] + "." or row[1].startswith("std."):
            continue
        crate, _, rest = row[1].partition(".specs.")
        module = f"{crate}.{rest}"
        if row[2] is None:
            modules[row[3] or rest.split(".")[-1]] = module
        for name in (row[2] or "").split(","):
            name, _, other = name.strip().partition(" as ")
            if "◌" in name:
                operators[symbol(name)] = (module, name)
            elif name:
                names[other or name] = (module, name)
    return names, modules, operators


def read():
    """All files of definitions, by module."""
    files = {}
    for crate in sorted(os.listdir(f"{TOP}/crates")):
        top = f"{TOP}/crates/{crate}/specs"
        for at, _, found in os.walk(top):
            for name in found:
                inside = os.path.relpath(os.path.join(at, name), top)[: -len(".antt")].replace("/", ".")
                with open(os.path.join(at, name), encoding="utf-8") as it:
                    files[f"{crate}.{inside}"] = File(f"{crate}.{inside}", it.read())
    return files


def named(text, names, modules, operators):
    """The definitions that a text names, in its order."""
    for row in re.finditer(r"(\w+)\.([A-Za-z_][\w'-]*)", text):
        if row[1] in modules:
            yield modules[row[1]], row[2]
    for word in WORD.findall(text):
        if word in names:
            yield names[word]
        elif word in operators:
            yield operators[word]


def contract(crate, function):
    """The clauses of a public function, and what the file imports."""
    top = f"{TOP}/crates/{crate}/src"
    for at, _, found in os.walk(top):
        for name in sorted(found):
            with open(os.path.join(at, name), encoding="utf-8") as it:
                text = it.read()
            row = re.search(r"^pub fn " + function + r"\b.*?^\{", text, re.M | re.S)
            if row:
                return row[0], imports(text)
    sys.exit(f"no public function {function} in {crate}")


def taken(files, roots):
    """What these definitions take, in reading order."""
    order, seen = [], set()

    def visit(module, name):
        if (module, name) in seen or module not in files or name not in files[module].found:
            return
        seen.add((module, name))
        file = files[module]
        own = {**{n: (module, n) for n in file.found}, **file.names}
        signs = {**{s: (module, n) for s, n in file.own.items()}, **file.operators}
        for next_one in named("\n".join(file.found[name]), own, file.modules, signs):
            visit(*next_one)
        order.append((module, name))

    for root in roots:
        visit(*root)
    return order


def roots_of(promise):
    if "::" in promise:
        crate, function = promise.split("::")
        text, found = contract(crate, function)
        return list(named(text, *found))
    module, _, name = promise.rpartition(".")
    return [(module, name)]


def main():
    sys.setrecursionlimit(10000)
    words = sys.argv[1:]
    whole = "--list" in words
    words = [word for word in words if word != "--list"]
    files = read()
    for told, promise in [(word, word) for word in words] or PROMISES:
        order = taken(files, roots_of(promise))
        if not order:
            print(f"{told}: no such definition, {promise}")
            continue
        lines = sum(len(files[module].found[name]) for module, name in order)
        print(f"{told}: {len(order)} definitions, {lines} lines, {len({module for module, _ in order})} files ({promise})")
        if whole:
            for module, name in order:
                print(f"    {module}.{name}")


main()
