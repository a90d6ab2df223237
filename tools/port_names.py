#!/usr/bin/env python3
"""Brings the repository's own names to today's spelling: words in snake case. Run once, at the top, after the kit's port.py.

Names of definitions, lemmas and fields that begin with a small letter lose their inner capitals, in crates/ (.antt, .rt and .edit) and in the pages that
name them. Types, modules and facts keep theirs; functions of src/ have none. Lemmas whose names would fall together with a definition's get their dash back.
"""
import os
import re

WORD = re.compile(r"(?<![A-Za-z0-9_'])([a-z][a-z0-9]*(?:[A-Z][a-z0-9]*)+)(?![A-Za-z0-9'])")
# A lemma's name that port.py joined by '_' and that a definition needs now: in these files it is joined by a dash, as it was.
DASHES = [
    ("answer_at", ["crates/history/proofs/Room.antt"]),
    ("free_bytes", ["crates/tidying/proofs/Room.antt", "crates/tidying/proofs/Tables.antt"]),
    ("gives_back", ["crates/history/proofs/Hiding.antt", "crates/history/proofs/Live.antt", "crates/history/proofs/Simulation.antt", "crates/heap/proofs/Changes.antt"]),
    ("head_bytes", ["crates/takes/proofs/RoundTrips.antt", "crates/takes/proofs/WholeFiles.antt", "crates/takes/proofs/Rewriting.antt"]),
    ("in_reach", ["crates/heap/proofs/Stepping.antt"]),
    ("next_place", ["crates/takes/proofs/Rewriting.antt", "crates/takes/proofs/Walks.antt"]),
    ("next_place", ["crates/tidying/proofs/Laying.antt", "crates/tidying/proofs/lay_out/Proof.antt", "crates/tidying/proofs/plan/Proof.antt"]),
    ("no_place", ["crates/blocks/proofs/Examples.antt"]),
    ("no_step", ["crates/runner/proofs/Budgets.antt", "crates/runner/specs/Budgets.antt"]),
    ("read_at", ["crates/blocks/proofs/Reading.antt"]),
    ("table_is", ["crates/tidying/proofs/Rule.antt"]),
]


def snake(word):
    return re.sub(r"(?<=[a-z0-9])([A-Z])", lambda m: "_" + m.group(1).lower(), word)


def rewrite(path, change):
    with open(path, encoding="utf-8") as f:
        old = f.read()
    new = change(old)
    if new != old:
        with open(path, "w", encoding="utf-8") as f:
            f.write(new)


def files():
    for folder, dirs, names in os.walk("crates"):
        dirs[:] = sorted(d for d in dirs if d != "out")
        for name in sorted(names):
            if name.endswith((".antt", ".rt", ".edit")):
                yield os.path.join(folder, name)
    yield "README.md"
    for name in ("CLAIMS.md", "DECISIONS.md", "MANUAL.md", "PERFORMANCE.md"):
        yield os.path.join("docs", name)


def main():
    for name, paths in DASHES:
        word = re.compile(r"(?<![A-Za-z0-9_'-])" + name + r"(?![A-Za-z0-9_'-])")
        for path in paths:
            if os.path.exists(path):
                rewrite(path, lambda text: word.sub(name.replace("_", "-"), text))
    for path in files():
        rewrite(path, lambda text: WORD.sub(lambda m: snake(m.group(1)), text))


if __name__ == "__main__":
    main()
