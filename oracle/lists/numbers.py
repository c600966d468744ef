#!/usr/bin/env python3
"""Writes the stored lists of the number functions: inputs, and the answers of exact arithmetic (exact.py).

  oracle/lists/numbers.py            writes crates/replay_numbers/stdin and crates/replay_numbers/stdout, and says what
                                     is in them
  oracle/lists/numbers.py --check    writes nothing; fails, by exit status 1 and one line, where the two files are not
                                     what it would write
  oracle/lists/numbers.py --help     this text

A line of stdin is a function's letter and three words of sixteen hex digits, a b c; 53 bytes with the line's end. The
same line of stdout has three answers: the function at (a, b, c), at (b, c, a) and at (c, a, b), of which it takes as
many words as it needs. So a function of one word answers at a, b and c, a function of two at (a, b), (b, c) and (c, a).
An f32's pattern stands in the low half of its word. A truth value is 1 or 0. A NaN's answer is 7FF8000000000000, or
000000007FC00000.

Needs Python 3.8 or newer and nothing else. The inputs come from a generator of its own with the seed below, so every
run writes the same bytes.
"""
import os
import sys

sys.dont_write_bytecode = True
sys.path.append(sys.path.pop(0))    # this folder comes last: Python's own module `numbers`, which `fractions` needs, has this script's name
from collections import Counter

from exact import F32, F64, HALF, WORD, clamped, fraction, fused, is_finite, larger, narrow, product_then_sum, smaller, square_root, whole, within
from hostile import Draws, to_clamp, to_compare, to_floor, to_multiply, to_narrow, to_patterns, to_root, to_shift
from hostile_fused import to_fuse

SEED = 0x9E3779B97F4A7C15
ROOT = os.path.join(os.path.dirname(os.path.abspath(__file__)), "..", "..", "crates", "replay_numbers")


def threes(words):
    words = iter(words)
    while True:
        yield tuple(next(words) for _ in range(3))


# letter, what the program calls, lines, inputs, answer. A small letter is the f32 form.
FUNCTIONS = [
    ("N", "narrowing::narrow", 1000, lambda d: threes(to_narrow(d)), lambda a, b, c: narrow(a)),
    ("R", "square_root::square_root", 1000, lambda d: threes(to_root(d)), lambda a, b, c: square_root(F64, a)),
    ("F", "fused64::fused64", 2700, lambda d: to_fuse(F64, d), lambda a, b, c: fused(F64, a, b, c)),
    ("f", "fused32::fused32", 2700, lambda d: to_fuse(F32, d), lambda a, b, c: fused(F32, a, b, c)),
    ("W", "integer_part::floor", 1000, lambda d: threes(to_floor(d)), lambda a, b, c: whole(a) % WORD),
    ("P", "integer_part::fraction", 1000, lambda d: threes(to_floor(d)), lambda a, b, c: fraction(a)),
    ("B", "bit_patterns::float_of, bits_of", 670, lambda d: threes(to_patterns(F64, d)), lambda a, b, c: F64.canonical(a)),
    ("b", "bit_patterns::float_of_f32, bits_of_f32", 670, lambda d: threes(to_patterns(F32, d)), lambda a, b, c: F32.canonical(a)),
    ("E", "magnitude::is_finite", 670, lambda d: threes(to_patterns(F64, d)), lambda a, b, c: is_finite(F64, a)),
    ("e", "magnitude::is_finite_f32", 670, lambda d: threes(to_patterns(F32, d)), lambda a, b, c: is_finite(F32, a)),
    ("I", "magnitude::within", 670, lambda d: to_compare(F64, d), lambda a, b, c: within(F64, a, b, c)),
    ("G", "min_max::max", 670, lambda d: to_compare(F64, d), lambda a, b, c: larger(F64, a, b)),
    ("L", "min_max::min", 670, lambda d: to_compare(F64, d), lambda a, b, c: smaller(F64, a, b)),
    ("l", "min_max::min_f32", 670, lambda d: to_compare(F32, d), lambda a, b, c: smaller(F32, a, b)),
    ("C", "min_max::clamp", 1400, lambda d: to_clamp(F64, d), lambda a, b, c: clamped(F64, a, b, c)),
    ("c", "min_max::clamp_f32", 1400, lambda d: to_clamp(F32, d), lambda a, b, c: clamped(F32, a, b, c)),
    ("M", "wrapping_u64::wrapping_mul", 670, to_multiply, lambda a, b, c: a * b % WORD),
    ("S", "wrapping_u64::shl", 670, to_shift, lambda a, b, c: a * 2 ** min(b, 64) % WORD),
]


def lines():
    """Each line of the lists: the letter, its three words, its three answers."""
    d = Draws(SEED)
    for letter, _, count, inputs, answer in FUNCTIONS:
        triples = inputs(d)
        for _ in range(count):
            a, b, c = next(triples)
            yield letter, (a, b, c), (answer(a, b, c), answer(b, c, a), answer(c, a, b))


def text(words):
    return " ".join("%016X" % w for w in words)


def remarks(letter, words, answer):
    """What an answer that is rounded is good for, where its arguments are finite."""
    f = F64 if letter == "F" else F32
    if any(f.parts(w)[0] != "fin" for w in words):
        return
    x, y, z = map(f.value, words)
    exact = abs(x * y + z)
    if f.cut(exact)[2] == HALF:
        yield "ties"
    if exact == 0:
        yield "exact zeros"
    elif answer % f.sign < f.hidden:
        yield "subnormal"
    if answer % f.sign == f.infinity:
        yield "overflows"
    if x * y and abs(x * y) < f.unit:
        yield "products below the smallest value"
    if product_then_sum(f, *words) != answer:
        yield "wrong if the product and the sum are rounded apart"


def summary(made):
    yield "seed %016X, %d lines, %d answers" % (SEED, len(made), 3 * len(made))
    for letter, name, count, _, _ in FUNCTIONS:
        found = Counter()
        if letter in "Ff":
            for l, (a, b, c), answers in made:
                if l == letter:
                    for words, answer in zip(((a, b, c), (b, c, a), (c, a, b)), answers):
                        found.update(remarks(letter, words, answer))
        yield "%s %5d %s%s" % (letter, 3 * count, name, "".join("; %d %s" % (n, what) for what, n in sorted(found.items())))


def main(arguments):
    if arguments not in ([], ["--check"]):
        print(__doc__.strip())
        return 0 if arguments in (["--help"], ["-h"]) else 2
    made = list(lines())
    files = {
        "stdin": "".join("%s %s\n" % (letter, text(words)) for letter, words, _ in made),
        "stdout": "".join(text(answers) + "\n" for _, _, answers in made),
    }
    for name, content in files.items():
        path = os.path.join(ROOT, name)
        if arguments == []:
            with open(path, "w", newline="") as out:
                out.write(content)
        elif not os.path.exists(path) or open(path, newline="").read() != content:
            print("numbers.py: crates/replay_numbers/%s is not what this script writes" % name, file=sys.stderr)
            return 1
    print("\n".join(summary(made)))
    return 0


sys.exit(main(sys.argv[1:]))
