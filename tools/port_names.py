#!/usr/bin/env python3
"""Brings the repository's own definitions and lemmas to the present spelling.

usage: tools/port_names.py [--look]     at the top, once, after the kit's port.py

Words of specs/ and proofs/ go from camelCase to snake_case: sameKey becomes
same_key, bitsOf-within becomes bits_of-within. Functions of src/ have that
spelling already, types and modules keep theirs, and strings and bytes are
left alone.
--look writes nothing, and lists the new names that would fall together with
a name that stands already.
"""

import os
import re
import sys

CAMEL = re.compile(r"^[a-z][a-z0-9_']*[A-Z]")
NAME = re.compile(r"[A-Za-z_\u25cc\u03b1-\u03c9][\w'\u25cc-]*")
STRING = re.compile(r"""b?"(?:[^"\\]|\\.)*"|\bb'(?:[^'\\]|\\.)'""")
# a library's word of which lemmas are named, and ends of one letter
WORDS = {"getD": "get_or", "likeL": "like_last", "wayL": "way_last"}
# kept: a name of the library that a file brings in under its old spelling
KEPT = {"okOr"}


def snake(word):
    if word in WORDS:
        return WORDS[word]
    if word in KEPT or not CAMEL.match(word):
        return word
    return re.sub(r"(?<=[a-z0-9'])([A-Z])", r"_\1", word).lower()


def turned(name):
    return "-".join(snake(part) for part in name.split("-"))


def turn_text(text):
    def outside(part):
        return NAME.sub(lambda m: turned(m.group(0)), part)

    out, at = [], 0
    for m in STRING.finditer(text):
        out += [outside(text[at:m.start()]), m.group(0)]
        at = m.end()
    return "".join(out + [outside(text[at:])])


def turn_page(text):
    return re.sub(r"`[^`\n]+`", lambda m: turn_text(m.group(0)), text)


def files():
    for top in ("crates", "docs"):
        for folder, dirs, names in os.walk(top):
            dirs[:] = sorted(d for d in dirs if d != "out")
            for name in sorted(names):
                if name.endswith((".antt", ".rt", ".edit", ".md")):
                    yield os.path.join(folder, name)
    yield "README.md"


def main():
    look = "--look" in sys.argv[1:]
    for path in files():
        with open(path, encoding="utf-8") as f:
            text = f.read()
        turn = turn_page if path.endswith(".md") else turn_text
        new = turn(text)
        if new == text:
            continue
        if look:
            old_names = set(NAME.findall(text))
            for name in sorted(old_names):
                if turned(name) != name and turned(name) in old_names:
                    print(f"{path}: {name} and {turned(name)}")
        else:
            with open(path, "w", encoding="utf-8") as f:
                f.write(new)


if __name__ == "__main__":
    main()
