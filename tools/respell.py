#!/usr/bin/env python3
"""Spells this repository's own definitions, lemmas and variables in snake case, as the toolchain's own are spelled.

usage: python3 tools/respell.py [FOLDER]    once, right after the toolchain's port.py; FOLDER is the checkout (default: this folder)

It goes by words: one that begins with a small letter and has a capital further on (`countMax`, `setOf-empty`) gets an underscore there
(`count_max`, `set_of-empty`), in crates/, README.md, docs/ and examples/README.md. Types, modules and facts keep their capital. Three
names would fall together with one that is there already; OTHER gives these another name first.
"""

import os
import re
import sys

WORD = re.compile(r"(?<![\w'-])[A-Za-z_\u0370-\u03ff\u2115\u2124][\w'\-]*")
KEPT = {"uint_Makes", "uint_Tells", "shr_slice_Tells", "mut_slice_Tells", "walk_Meets"}  # the toolchain's
OTHER = {
    "crates/": {"none_runs": "nothing_runs", "none-runs": "nothing_runs"},  # beside the refusal number noneRuns
    "crates/judges/proofs/Tests.antt": {"few_words": "few_words_lem"},  # beside the refusal number fewWords
    "crates/judges/proofs/judge_plan/Proof.antt": {"few_words": "few_words_lem"},
    "crates/claims/proofs/Judge.antt": {"found_in": "found_in_lem"},  # beside the definition foundIn
}


def snake(word):
    if word in KEPT:
        return word
    parts = [re.sub(r"(?<=[a-z0-9'])([A-Z])", lambda m: "_" + m.group(1).lower(), p) if re.match("[a-z]", p) else p for p in word.split("-")]
    return "-".join(parts)


def respelled(path, text):
    other = {}
    for front, names in OTHER.items():
        if path.startswith(front) and path.endswith(".antt"):
            other |= names
    return WORD.sub(lambda m: other.get(m.group()) or snake(m.group()), text)


def files(root):
    for top in ("crates", "docs"):
        for folder, dirs, names in os.walk(os.path.join(root, top)):
            dirs[:] = sorted(d for d in dirs if d != "out")
            for name in sorted(names):
                if name.endswith((".antt", ".rt", ".edit", ".md")) and name != "PORT.md":
                    yield os.path.relpath(os.path.join(folder, name), root)
    yield from ("README.md", "examples/README.md")


def main(argv):
    root = argv[1] if len(argv) > 1 else "."
    changed = 0
    for path in files(root):
        with open(os.path.join(root, path), encoding="utf-8") as f:
            old = f.read()
        new = respelled(path, old)
        if new != old:
            with open(os.path.join(root, path), "w", encoding="utf-8") as f:
                f.write(new)
            changed += 1
    print(f"respell: {changed} files")


if __name__ == "__main__":
    main(sys.argv)
