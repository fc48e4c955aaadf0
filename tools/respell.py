#!/usr/bin/env python3
"""Brings the repository's own definitions and lemmas to the spelling of Rattle's library: words in snake case.

usage: python3 tools/respell.py        at the top of the repository, once, right after the kit's port.py

A name with a capital behind a small letter or a digit that begins small, as `validPrefix`, gets an underscore there and
small letters, `valid_prefix`, wherever it stands in .antt and .rt files, in must-fail edits, and on the pages. In a name of
several parts, joined by dashes, each part goes by itself. Types, modules and facts, which begin with a capital, stay; so do
functions of src/ and exported names, which have none. A definition may then be called as the function that it is of, as
`white_space`. Five names would fall together with another name of a definition or a lemma: `OTHERS` says what they become.
"""

import os
import re

CAMEL = re.compile(r"^[a-z][A-Za-z0-9]*[A-Z]")
TOKEN = re.compile(r"(?<![A-Za-z0-9_\\'\u0370-\u03ff])[A-Za-z_\u0370-\u03ff][A-Za-z0-9_'?!\u2080-\u2089\u0370-\u03ff-]*")
OTHERS = {
    "foldEnd": "end_of_fold",
    "foldOut": "out_of_fold",
    "foundIn": "found_within",
    "isLeaf": "is_leaf_tag",
    "noBound": "without_bound",
}


def files(ends):
    for folder, dirs, names in os.walk("."):
        dirs[:] = sorted(d for d in dirs if d not in ("out", "target", ".git", "compare", "parked", "tools"))
        for name in sorted(names):
            if name.endswith(ends):
                yield os.path.join(folder, name)


def snake(part):
    if part in OTHERS:
        return OTHERS[part]
    return re.sub(r"(?<=[a-z0-9])(?=[A-Z])|(?<=[A-Z])(?=[A-Z][a-z])", "_", part).lower()


def main():
    ours = set()
    for path in files((".antt", ".rt")):
        with open(path, encoding="utf-8") as file:
            for word in TOKEN.findall(file.read()):
                ours |= {it for it in word.split("-") if CAMEL.match(it)}
    count = 0
    for path in files((".antt", ".rt", ".edit", ".md")):
        with open(path, encoding="utf-8", newline="") as file:
            old = file.read()
        new = TOKEN.sub(lambda it: "-".join(snake(part) if part in ours else part for part in it[0].split("-")), old)
        if new != old:
            count += 1
            with open(path, "w", encoding="utf-8", newline="") as file:
                file.write(new)
    print(f"respell: {len(ours)} names in {count} files")
    for name in sorted(ours):
        print(f"{name} {snake(name)}")


main()
