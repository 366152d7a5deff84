#!/usr/bin/env python3
"""Brings the repository's own definitions and lemmas to snake case: run once at the top, after port.py.

usage: python3 tools/respell.py

What begins with a small letter and has capitals is respelled, as fieldsAfter to fields_after, in .antt and .rt files, must-fail edits,
README.md and docs/. A lemma that would have its function's name gets _lem. Functions of src/ have no such names and keep theirs.
"""

import os
import re

WORD = re.compile(r"(?<![0-9A-Za-z_'])[A-Za-z_][A-Za-z0-9_']*")
CAMEL = re.compile(r"[a-z][a-z0-9_']*[A-Z][A-Za-z0-9_']*$")
# Words of the library that older text still spells.
OLDER = {"getD": "get_or", "flatMap": "flat_map"}

# Lemmas about a definition whose new name they had: in these files alone, and not as a step or in a path.
LEMMAS = [
    ("edge_in", ["diagram/proofs/Paths.antt", "diagram/proofs/Apart.antt", "diagram/proofs/Ignored.antt", "truths/proofs/Redrawn.antt", "faults/proofs/RailsShown.antt", "rules/proofs/BlockUp.antt"]),
    ("half_at", ["functions/proofs/Levels.antt", "functions/proofs/Diagrams.antt", "search/proofs/Halves.antt", "search/proofs/GateBatches.antt", "search/proofs/inputs/agreeing/Proof.antt"]),
    ("has_parts", ["files/proofs/WholeParts.antt", "table/proofs/Heads.antt", "truths/proofs/Asked.antt"]),
]


def snake(word):
    return re.sub(r"(?<=[a-z0-9])([A-Z])", lambda m: "_" + m.group(1).lower(), word)


def texts(top, *endings):
    for folder, dirs, files in os.walk(top):
        dirs[:] = sorted(d for d in dirs if d != "out")
        for f in sorted(files):
            if f.endswith(endings):
                yield os.path.join(folder, f)


def read(path):
    with open(path, encoding="utf-8") as f:
        return f.read()


def main():
    names = set()
    for path in texts("crates", ".antt"):
        names |= {w for w in WORD.findall(re.sub(r"--.*", "", read(path))) if CAMEL.match(w)}
    turned = {w: snake(w) for w in names} | OLDER
    for name, files in LEMMAS:
        for path in (os.path.join("crates", f) for f in files):
            text = read(path)
            new = re.sub(r"(?<![\w.'-])" + name + r"(?![\w'-])", name + "_lem", text)
            if new != text:
                with open(path, "w", encoding="utf-8") as f:
                    f.write(new)
    pages = ["README.md"] + list(texts("docs", ".md"))
    for path in list(texts("crates", ".antt", ".rt", ".edit")) + pages:
        text = read(path)
        new = WORD.sub(lambda m: turned.get(m.group(), m.group()), text)
        if new != text:
            with open(path, "w", encoding="utf-8") as f:
                f.write(new)
    print(f"respell: {len(names)} names")


main()
