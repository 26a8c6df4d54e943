#!/usr/bin/env python3
"""Brings the repository's own definitions and lemmas to snake case, with tools/respell.tsv as the table of old and new names.

usage: python3 tools/respell.py [ROOT]    once, over a tree that the kit's port.py has just turned

A row's first word says where it holds: `all` in every .antt, .rt and .edit file below crates/; `antt` in every .antt file and every edit of one.
Names that would fall together with another get `_lem`; LOCAL has those that depend on the file.
"""
import os
import re
import sys

HERE = os.path.dirname(os.path.realpath(__file__))
WORD = r"\w'′"
# (part of the path, old, new): the lemma of a definition, where both are in scope, and two readings named as their lines
LOCAL = [
    ("runoff/specs/Readings", "inner-brow", "inner_brow_reading"),
    ("runoff/specs/Readings", "inner-edge", "inner_edge_reading"),
    ("runoff/proofs/StarredReadings", "inner-brow", "inner_brow_reading"),
    ("runoff/proofs/StarredReadings", "inner-edge", "inner_edge_reading"),
    ("book/proofs/", "same_bytes", "same_bytes_lem"),
    ("book/proofs/", "entries_by", "entries_by_lem"),
    ("book/proofs/", "field_next", "field_next_lem"),
    ("book/proofs/", "name_in", "name_in_lem"),
    ("section/proofs/", "first_piece", "first_piece_lem"),
]


def table():
    with open(os.path.join(HERE, "respell.tsv"), encoding="utf-8") as f:
        return [line.rstrip("\n").split("\t") for line in f if line.strip()]


def whole(names):
    """One pattern for any of these names, as a whole word; a path's part `.name.` of a function is none of them."""
    some = "|".join(re.escape(n) for n in sorted(names, key=len, reverse=True))
    return re.compile(rf"(?<![{WORD}-])({some})(?![{WORD}]|-[\w])")


def local(path, text):
    for part, old, new in LOCAL:
        if part in path:
            text = re.sub(rf"(?<![{WORD}.-]){re.escape(old)}(?![{WORD}.]|-\w)", new, text)
    return text


def main(root):
    rows = table()
    wide = {a: b for where, a, b in rows if where == "all"}
    every = {a: b for _, a, b in rows}
    of_wide, of_every = whole(wide), whole(every)
    changed = 0
    for folder, dirs, files in os.walk(os.path.join(root, "crates")):
        dirs[:] = [d for d in dirs if d != "out"]
        for name in files:
            if not name.endswith((".antt", ".rt", ".edit")):
                continue
            path = os.path.join(folder, name)
            with open(path, encoding="utf-8") as f:
                old = f.read()
            in_antt = name.endswith(".antt") or (name.endswith(".edit") and ".antt" in old)
            names, pattern = (every, of_every) if in_antt else (wide, of_wide)
            new = local(path, old) if name.endswith(".antt") else old
            new = pattern.sub(lambda m: names[m.group(1)], new)
            if new != old:
                changed += 1
                with open(path, "w", encoding="utf-8") as f:
                    f.write(new)
    print(f"respell: {changed} files changed")


if __name__ == "__main__":
    main(sys.argv[1] if len(sys.argv) > 1 else ".")
