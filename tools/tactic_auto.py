#!/usr/bin/env python3
"""Writes the line `#![tactic(auto)]` above the first item of each crate's root file, where it is missing.

usage: tools/tactic_auto.py [ROOT]     run once, behind port.py, at the top of the repository (docs/PORT.md)
"""
import glob
import os
import sys

ROOT = sys.argv[1] if len(sys.argv) > 1 else "."
LINE = "#![tactic(auto)]"
for name in ("lib.rt", "main.rt"):
    for path in sorted(glob.glob(os.path.join(ROOT, "crates", "*", "src", name))):
        with open(path, encoding="utf-8") as f:
            lines = f.read().split("\n")
        if LINE in lines:
            continue
        # Above the first line that is no comment; the head comment stays at the head.
        at = next((i for i, l in enumerate(lines) if l.strip() and not l.startswith("//")), len(lines))
        # A comment that belongs to the first item itself stays with it.
        while at > 0 and at < len(lines) and lines[at - 1].startswith("//") and not lines[at].startswith("ghost use"):
            back = at
            while back > 0 and lines[back - 1].startswith("//"):
                back -= 1
            if back == 0:
                break
            at = back
        lines[at:at] = [LINE, ""]
        with open(path, "w", encoding="utf-8") as f:
            f.write("\n".join(lines))
