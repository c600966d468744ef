#!/usr/bin/env python3
"""Writes the stored run of `residual`: two WAV files, and the report that a plain reckoning in whole numbers gives
(oracle/registrar/reckoned.py, from docs/RESIDUAL.md).

  oracle/lists/compared.py            writes args, data/ and stdout of crates/residual_report, and says what is in them
  oracle/lists/compared.py --check    writes nothing; fails, by exit status 1 and one line, where one of them is not
                                      what it would write
  oracle/lists/compared.py --help     this text

Needs Python 3.8 or newer and nothing else. The samples come from a generator of its own with the seed below, so every
run writes the same bytes.
"""
import os
import sys

sys.dont_write_bytecode = True
HERE = os.path.dirname(os.path.abspath(__file__))
# This folder comes last: Python's own module `numbers`, which `fractions` needs, has the name of a script here.
sys.path.append(sys.path.pop(0))
sys.path.append(os.path.join(HERE, "..", "registrar"))
from hostile import Draws
from reckoned import Side, report
from wave_files import drawn, stored, wav

SEED = 0x9E3779B97F4A7C15
CRATE = os.path.join(HERE, "..", "..", "crates", "residual_report")
CHANNELS, RATE = 2, 96000
# both have a block of the program's 4096 frames and a part of the next
FILES = (("float.wav", "float32", 4200), ("whole.wav", "pcm24", 4300))
SKIPS = (50, 3)


def made(draws):
    """What the crate's folder has, by its path there."""
    content, sides = {}, []
    for name, kind, frames in FILES:
        samples, numbers = drawn(draws.between, kind, frames * CHANNELS)
        content[f"data/{name}"] = wav(kind, CHANNELS, RATE, stored(kind, samples))
        sides.append(Side(name, kind, CHANNELS, RATE, numbers))
    words = [side.name for side in sides] + [f"first-skip={SKIPS[0]}", f"second-skip={SKIPS[1]}"]
    content["args"] = "".join(f"{word}\n" for word in words).encode()
    content["stdout"] = report(*sides, SKIPS).encode()
    return content


def main(arguments):
    if arguments not in ([], ["--check"]):
        print(__doc__.strip())
        return 0 if arguments in (["--help"], ["-h"]) else 2
    content = made(Draws(SEED))
    for name, wanted in content.items():
        path = os.path.join(CRATE, name)
        if arguments == []:
            os.makedirs(os.path.dirname(path), exist_ok=True)
            with open(path, "wb") as out:
                out.write(wanted)
        elif not os.path.exists(path) or open(path, "rb").read() != wanted:
            print(f"compared.py: crates/residual_report/{name} is not what this script writes", file=sys.stderr)
            return 1
    print(f"seed {SEED:016X}, " + ", ".join(f"{len(wanted)} bytes of {name}" for name, wanted in content.items()))
    return 0


sys.exit(main(sys.argv[1:]))
