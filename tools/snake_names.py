#!/usr/bin/env python3
"""Brings the repository's own definitions and lemmas to snake case: `positionOk` becomes `position_ok`.

usage: tools/snake_names.py [ROOT]     run once, behind port.py, at the top of the repository (docs/PORT.md)

A name is turned in every .antt, .rt and .edit file below crates/ and in the pages. It is one that begins with a small
letter, holds a capital and has no dash before the capital. Rust's names hold none, so functions, exported names,
strings and inputs keep theirs. `dB` is a unit and stays. Two names had an heir beside them already (FALLS).
"""
import os
import re
import sys

ROOT = sys.argv[1] if len(sys.argv) > 1 else "."
NAME = re.compile(r"(?<![A-Za-z0-9_'-])([a-z][A-Za-z0-9']*[A-Z][A-Za-z0-9']*)(?![A-Za-z0-9_'])")
# A lemma that would fall together with a definition of the same file: crate, lemma, its new name.
FALLS = [
    ("bank_read", "OneTable.antt", "one_table", "one_table-held"),
    ("quality_stretch", "rest/read_on/Proof.antt", "one_table", "one_table-held"),
    ("desk_delay", "RoomRefusal.antt", "out_of_range", "out_of_range-number"),
    ("desk_delay", "DeskCalls.antt", "out_of_range", "out_of_range-number"),
]
STAY = {"dB", "viewBox"}
CODE = re.compile(r'(b?"(?:[^"\\]|\\.)*")')


def snake(m):
    return m[1] if m[1] in STAY else re.sub(r"[A-Z]+", lambda c: "_" + c[0].lower(), m[1])


def turned(path, text):
    for crate, end, old, new in FALLS:
        if f"crates/{crate}/" in path and path.endswith(end):
            text = re.sub(r"(?<![A-Za-z0-9_'.-])" + old + r"(?![A-Za-z0-9_'-])", new, text)
    if path.endswith((".rt", ".edit")):
        # Strings of the code stay as they are.
        return "".join(p if i % 2 else NAME.sub(snake, p) for i, p in enumerate(CODE.split(text)))
    return NAME.sub(snake, text)


def main():
    n = 0
    paths = [os.path.join(ROOT, p) for p in ("README.md", "CONTRIBUTING.md")]
    for top in ("crates", "docs"):
        for folder, dirs, files in os.walk(os.path.join(ROOT, top)):
            dirs[:] = sorted(d for d in dirs if d != "out")
            wanted = (".antt", ".rt", ".edit") if top == "crates" else (".md",)
            paths += [os.path.join(folder, f) for f in sorted(files) if f.endswith(wanted)]
    for path in paths:
        with open(path, encoding="utf-8") as f:
            text = f.read()
        new = turned(os.path.relpath(path, ROOT), text)
        if new != text:
            n += 1
            with open(path, "w", encoding="utf-8") as f:
                f.write(new)
    print(f"{n} files")


main()
