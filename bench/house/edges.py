#!/usr/bin/env python3
"""Compares crates.txt with what the crates name, and ends with 1 if they differ.

    bench/house/edges.py

It lists crates of crates.txt that a crate doesn't name in its code, its contracts or its proofs, crates that it names and that aren't
listed, and crates that stand before one on which they stand.
"""
import os
import re
import sys

TOP = os.path.normpath(os.path.join(os.path.dirname(os.path.abspath(__file__)), "..", ".."))
PARTS = ("src", "specs", "proofs")


def listed():
    with open(f"{TOP}/crates.txt", encoding="utf-8") as it:
        found = (re.match(r"(\w+)[^:#]*:(.*)", line) for line in it)
        return {row[1]: row[2].split() for row in found if row}


def named(crate):
    names = set()
    for part in PARTS:
        for at, _, files in os.walk(f"{TOP}/crates/{crate}/{part}"):
            for name in files:
                with open(os.path.join(at, name), encoding="utf-8") as it:
                    text = it.read()
                names |= set(re.findall(r"Rattle\.(\w+)\.", text))
                if name.endswith(".rt"):
                    code = re.sub(r"//.*", "", text)
                    names |= set(re.findall(r"(?<![\w:])(\w+)::", code))
    return names


def main():
    rows, before, status = listed(), set(), 0
    for crate, below in rows.items():
        names = named(crate)
        for what, found in (
            ("doesn't name", [it for it in below if it not in names]),
            ("names, unlisted,", [it for it in sorted(names) if it in rows and it != crate and it not in below]),
            ("stands before", [it for it in below if it in rows and it not in before]),
        ):
            if found:
                status = 1
                print(f"{crate} {what} {' '.join(found)}")
        before.add(crate)
    return status


if __name__ == "__main__":
    sys.exit(main())
