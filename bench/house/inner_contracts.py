#!/usr/bin/env python3
"""Lists the public contracts that cite what is another crate's own (its folder specs/inner), and ends with 1 if there are any.

    bench/house/inner_contracts.py

A public contract is the head of a public function, type or trait, or a definition right in a folder specs/, since such a contract may
cite it.
"""
import os
import re
import sys

TOP = os.path.normpath(os.path.join(os.path.dirname(os.path.abspath(__file__)), "..", ".."))
USE = re.compile(r"use Rattle\.(\w+)\.specs\.inner\.(\w+)\.\{([^}]*)\}")
HEAD = re.compile(r"^( *)pub (?:const )?(?:fn|struct|enum|trait)\b.*?(?:^\1[{}]|;$)", re.M | re.S)


def texts(folder, ending):
    for at, folders, names in os.walk(folder):
        folders.sort()
        for name in sorted(names):
            if name.endswith(ending):
                path = os.path.join(at, name)
                with open(path, encoding="utf-8") as it:
                    yield path, it.read()


def cited(names, text):
    return [it for it in (name.strip() for name in names.split(",")) if it and re.search(rf"(?<!\w){re.escape(it)}(?!\w)", text)]


def main():
    status = 0
    for crate in sorted(os.listdir(f"{TOP}/crates")):
        specs = ((path, text, text) for path, text in texts(f"{TOP}/crates/{crate}/specs", ".antt") if "/specs/inner/" not in path)
        heads = ((path, text, "\n".join(it[0] for it in HEAD.finditer(text))) for path, text in texts(f"{TOP}/crates/{crate}/src", ".rt"))
        for path, text, contracts in (*specs, *heads):
            for other, module, names in USE.findall(text):
                found = cited(names, contracts) if other != crate else []
                if found:
                    status = 1
                    print(f"{os.path.relpath(path, TOP)}: {other}/specs/inner/{module}: {', '.join(found)}")
    return status


if __name__ == "__main__":
    sys.exit(main())
