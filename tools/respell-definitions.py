#!/usr/bin/env python3
"""Respells the definitions and lemmas of crates/ as today's Rattle spells its own: words in snake case, facts in camel case.

usage: tools/respell-definitions.py      at the top of the repository, once, right after Rattle's own port.py

A name in camel case that stands in an .antt file of the repository, and in none of Rattle's library, becomes one in snake case,
in every .antt file, in clauses, `ghost use` lines and comments of .rt files, in must-fail edits and in the pages. Functions,
types, strings, inputs and outputs have no such name and stay as they are. Five facts of labelling's Promise become types.
Lemmas that would then have the name of a definition get back the dash that port.py took.
"""

import os
import re

ROOT = os.path.dirname(os.path.dirname(os.path.abspath(__file__)))
LIBRARY = "/opt/rattle/rattle"
CAMEL = re.compile(r"(?<![A-Za-z0-9_'])([a-z][a-z0-9]*(?:[A-Z][A-Za-z0-9]*)+)")

# facts of labelling/specs/Promise.antt: types, and so in camel case
FACTS = {"takesSheet": "TakesSheet", "judgedAs": "JudgedAs", "laidOut": "LaidOut", "turnedDown": "TurnedDown", "sideEnded": "SideEnded"}
PROMISE = "Rattle.labelling.specs.Promise"

# lemmas, and a field of a record of lemmas, whose name a definition gets; of files where a function has that name, only the lemma is meant
DASHED = ["are_words", "first_cell", "join_cells", "left_end", "low_x", "order_is", "point_at", "split_by", "sum_over", "tied_at"]


def files(folder, endings):
    for at, folders, names in os.walk(os.path.join(ROOT, folder)):
        folders[:] = sorted(f for f in folders if f not in ("out", "target", ".git"))
        yield from (os.path.join(at, n) for n in sorted(names) if n.endswith(endings))


def text_of(path):
    with open(path, encoding="utf-8", errors="replace") as f:
        return f.read()


def snake(name):
    return re.sub(r"[A-Z]", lambda m: "_" + m[0].lower(), name)


def library_names():
    names = set()
    for at, _, found in os.walk(LIBRARY):
        for n in found:
            if n.endswith(".antt"):
                names.update(m[1] for m in CAMEL.finditer(text_of(os.path.join(at, n))))
    return names


def dashed(text):
    """Only where the name stands alone: not as a path's part, a field of `c` or a part of a longer name."""
    for name in DASHED:
        text = re.sub(rf"(?<![\w.'-]){name}(?![\w.'-])", name.replace("_", "-"), text)
    return re.sub(r"(?<=\w\.)first_cell(?![\w.'-])", "first-cell", text)


def main():
    library = library_names() - {"countOn"}  # an argument's name there, and in no module that this repository imports
    own = {m[1] for p in files("crates", (".antt",)) for m in CAMEL.finditer(text_of(p))} - library
    names = {n: snake(n) for n in own}
    for path in [*files("crates", (".antt", ".rt", ".edit")), os.path.join(ROOT, "README.md"), *files("docs", (".md",))]:
        text = old = text_of(path)
        if path.endswith(".antt"):
            text = dashed(text)
        if PROMISE in text or path.endswith(("labelling/specs/Promise.antt", ".md")):
            for name, fact in FACTS.items():
                if name == "laidOut" and "crates/labelling/" not in path:  # walk has a function of that name
                    continue
                text = re.sub(rf"(?<![\w'.-]){name}(?![\w'])", fact, text)
        text = CAMEL.sub(lambda m: names.get(m[1], m[1]), text)
        if text != old:
            with open(path, "w", encoding="utf-8") as f:
                f.write(text)


if __name__ == "__main__":
    main()
