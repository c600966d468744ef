#!/usr/bin/env python3
"""Writes what the program `trace` is run on: samples, and the lines that it must write for them.

  oracle/lists/trace.py            writes crates/trace/stdin and crates/trace/stdout, and says what is in them
  oracle/lists/trace.py --check    writes nothing; fails, by exit status 1 and one line, where the two files are not
                                   what it would write
  oracle/lists/trace.py --help     this text

The lines are those of 000's CubicFarrow in 000's order, done with this language's own doubles, which round as IEEE 754
says. A reader is a list of the samples accepted so far here, with no ring and no place in it. The samples are 1, 2, 3,
4, whose lines must be 01's; values at the edges of the format, NaNs and infinities; samples of 24 bits; and patterns
drawn at random. They fill three of the program's blocks and a part of a fourth, so that a program that stops after any
of them is found out; behind them stands a trailing part of three bytes.

Needs Python 3.8 or newer and nothing else. The inputs come from a generator of its own with the seed below, so every
run writes the same bytes.
"""
import os
import struct
import sys
from math import floor, isfinite

sys.dont_write_bytecode = True
sys.path.append(sys.path.pop(0))    # this folder comes last: Python's own module `numbers`, which `fractions` needs, has the name of a script here
from exact import F64
from hostile import Draws, nans, specials

SEED = 0x9E3779B97F4A7C15
ROOT = os.path.join(os.path.dirname(os.path.abspath(__file__)), "..", "..", "crates", "trace")
RING = 8
DELAY = 1.5
BLOCK = 1024
TRAILING = b"\x00\xF0\x3F"
FOUR = """0 BFB0000000000000
1 3FDC000000000000
2 3FF8000000000000
3 4004000000000000
"""


def value(bits):
    return struct.unpack("<d", struct.pack("<Q", bits))[0]


def pattern(x):
    return struct.unpack("<Q", struct.pack("<d", x))[0] if x == x else F64.nan


def cubic(held, position):
    """000's CubicFarrow at a position, over the samples accepted so far."""
    i = floor(position)
    mu = position - i

    def at(k):
        return held[k] if 0 <= k < len(held) and len(held) - 1 - k < RING else 0.0

    c0 = -mu * (mu - 1.0) * (mu - 2.0) / 6.0
    c1 = (mu + 1.0) * (mu - 1.0) * (mu - 2.0) / 2.0
    c2 = -(mu + 1.0) * mu * (mu - 2.0) / 2.0
    c3 = (mu + 1.0) * mu * (mu - 1.0) / 6.0
    return at(i - 1) * c0 + at(i) * c1 + at(i + 1) * c2 + at(i + 2) * c3


def lines(samples):
    held = []
    for bits in samples:
        count, x = len(held), value(bits)
        if isfinite(x):
            held.append(x)
            yield "%d %016X\n" % (count, pattern(cubic(held, count - DELAY)))
        else:
            yield "%d refused 4\n" % count


def inputs():
    d = Draws(SEED)
    yield from map(pattern, (1.0, 2.0, 3.0, 4.0))
    yield from specials(F64) + nans(F64)
    largest, zero, minus = F64.infinity - 1, 0, F64.sign
    yield from [largest] * 5 + [F64.sign + largest] * 5 + [largest, F64.sign + largest] * 4     # sums past the largest value, and a way back
    yield from [zero, minus, minus, zero] * 3                                                   # an answer of -0.0
    yield from [8, 24, 40, 1, 3, 0, F64.sign + 8, F64.sign + 24] * 2                            # products halfway between two of the smallest values
    for _ in range(700):
        yield pattern(d.between(-2 ** 23, 2 ** 23) / 2 ** 23)
    for _ in range(700):
        yield d.float(F64, -60, 60)
    for _ in range(700):
        yield d.float(F64, -1074, -1000)
    for _ in range(1200):
        yield d.of(specials(F64) + nans(F64)) if d.bits(3) == 0 else d.pattern(F64)


def summary(samples, made):
    answers = [line.split()[1] for line in made]
    kinds = [("refused", "refused"), ("7FF0000000000000", "infinity"), ("FFF0000000000000", "-infinity"), ("8000000000000000", "-0.0"), ("7FF8000000000000", "NaN")]
    counts = ", ".join("%d %s" % (answers.count(text), name) for text, name in kinds)
    return "seed %016X, %d samples and %d bytes, %d lines: %s" % (SEED, len(samples), len(TRAILING), len(made), counts)


def main(arguments):
    if arguments not in ([], ["--check"]):
        print(__doc__.strip())
        return 0 if arguments in (["--help"], ["-h"]) else 2
    samples = list(inputs())
    made = list(lines(samples))
    assert "".join(made).startswith(FOUR), "the first four lines are not 01's"
    assert 3 * BLOCK < len(samples) < 4 * BLOCK, "the samples are not three blocks and a part"
    files = {
        "stdin": struct.pack("<%dQ" % len(samples), *samples) + TRAILING,
        "stdout": "".join(made).encode("ascii"),
    }
    for name, content in files.items():
        path = os.path.join(ROOT, name)
        if arguments == []:
            with open(path, "wb") as out:
                out.write(content)
        elif not os.path.exists(path) or open(path, "rb").read() != content:
            print("trace.py: crates/trace/%s is not what this script writes" % name, file=sys.stderr)
            return 1
    print(summary(samples, made))
    return 0


sys.exit(main(sys.argv[1:]))
