#!/usr/bin/env python3
"""Spells this repository's own definitions in snake case, as the port to the Rattle of the file KIT asked.

usage: tools/snake_names.py [--list]     at the top of the repository, once, right after the kit's own port.py

A definition of specs/ or proofs/ whose name is in lower camel case gets underscores (`blockBytes` is `block_bytes`), in every .antt, .rt and
.edit file below crates/. Functions, exported names, types, constructors, strings, inputs and outputs keep their names. A lemma or a field that
would then have the name of the definition that it is about gets `_lem` first. `walkPart` is `walked_part`, since a crate is called walk_part.
--list prints the old and the new names, and writes nothing. tools/respelled.tsv has them, for the pages that speak of old names.
"""

import os
import re
import sys

WORD = r"[\w'?-]"
LEMMAS = ["block_size", "by_one", "digit_at", "entry_length", "cursor_told", "load_told", "skip_by", "to_one"]
OTHERWISE = {"walkPart": "walked_part"}
DECLARED = re.compile(r"^((?:abbrev|unfoldable|opaque|pub|private) )*([^\s:(){}]+)(?: \{[^{}\n]*\})* :(?:\s|$)")


def texts(endings):
    for folder, dirs, files in os.walk("crates"):
        dirs[:] = sorted(d for d in dirs if d != "out")
        for f in sorted(files):
            if f.endswith(endings):
                yield os.path.join(folder, f)


def snake(name):
    return re.sub(r"([a-z0-9])([A-Z])", r"\1_\2", name).lower()


def declared():
    for path in texts(".antt"):
        for line in open(path, encoding="utf-8"):
            it = DECLARED.match(line)
            if it:
                yield it.group(2)


def main(argv):
    names = {n: OTHERWISE.get(n, snake(n)) for n in declared() if n[0].islower() and re.search(r"[a-z0-9][A-Z]", n)}
    if "--list" in argv:
        for n in sorted(names):
            print(f"{n}\t{names[n]}")
        return
    lemma = re.compile(rf"(?<!{WORD})(?<!\.)({'|'.join(LEMMAS)})(?!{WORD})")
    name = re.compile(rf"(?<!{WORD})({'|'.join(re.escape(n) for n in sorted(names, key=len, reverse=True))})(?!{WORD})")
    for path in texts((".antt", ".rt", ".edit")):
        old = open(path, encoding="utf-8").read()
        new = old
        if path.endswith(".antt"):
            new = lemma.sub(lambda it: it.group(1) + "_lem", new)
        new = name.sub(lambda it: names[it.group(1)], new)
        if new != old:
            open(path, "w", encoding="utf-8").write(new)


main(sys.argv[1:])
