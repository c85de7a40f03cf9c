#!/usr/bin/env python3
"""Brings the repository's own definitions, lemmas and fields of specs/ and proofs/ to the spelling of today's Rattle: words in snake case.

usage: tools/respell.py [FOLDER]     (default: this folder; the crates below crates/, and the pages that name what is in them)

Run once, after the kit's port.py. A name is respelled where a file of specs/ or proofs/ of this repository declares it, wherever it stands: in
specs/, proofs/, contracts and must-fail edits, and in README and docs/. Types, modules and the functions of src/ keep their names. NAMED says
what does not follow the rule, since another name would fall together with it.
"""
import os
import re
import sys

TOKEN = re.compile(r"[A-Za-z_][A-Za-z0-9_']*")
# Lemmas that port.py respelled to what a definition is called now, and a definition that would have a crate's name.
LEMMAS = {"level_by": "level-by", "room_of": "room-of", "head_at": "head-at", "same_step": "same-step"}
NAMED = {"levelItems": "levelled_items"}
# Fields and parts of names that the pattern of a declaration does not find.
MORE = {"keyEnd", "keyStart", "valueEnd", "valueStart", "levelBy", "onLeft", "onRight", "undoneText", "wrapsBy"}
DECLARED = re.compile(r"^\s*(?:(?:abbrev|unfoldable|mutual|pub|record|data)\s+)*([^\s:{(]+)\s*:\s")


def files(top, endings):
    for root, dirs, names in os.walk(top):
        dirs[:] = sorted(d for d in dirs if d not in ("out", "target", ".git"))
        for name in sorted(names):
            if name.endswith(endings):
                yield os.path.join(root, name)


def read(path):
    with open(path, encoding="utf-8") as f:
        return f.read()


def snake(name):
    return NAMED.get(name) or re.sub(r"(?<=[a-z0-9])[A-Z]", lambda m: "_" + m.group(0).lower(), name)


def is_camel(part):
    return re.match(r"[a-z]", part) and re.search(r"[a-z0-9][A-Z]", part)


def main():
    top = sys.argv[1] if len(sys.argv) > 1 else "."
    crates = os.path.join(top, "crates")
    own = set(MORE)
    for path in files(crates, (".antt",)):
        for line in read(path).split("\n"):
            m = DECLARED.match(line)
            if m:
                own.update(part for part in m.group(1).split("-") if is_camel(part))
    pages = [os.path.join(top, "README.md"), *files(os.path.join(top, "docs"), (".md",))]
    for path in [*files(crates, (".antt", ".rt", ".edit")), *pages]:
        old = read(path)
        new = old
        if path.endswith(".antt"):
            for lemma, name in LEMMAS.items():
                new = re.sub(r"(?<![\w.'+-])(?<!proofs\.)" + lemma + r"(?![\w'-])", name, new)
        new = TOKEN.sub(lambda m: snake(m.group(0)) if m.group(0) in own else m.group(0), new)
        if new != old:
            with open(path, "w", encoding="utf-8") as f:
                f.write(new)


main()
