#!/usr/bin/env python3
"""Writes the stored list of small and damaged AIFF files: their bytes, and what Wish 12 of document 02 says of each.

  oracle/lists/aiff.py            writes crates/replay_aiff/stdin and stdout, and says what is in them
  oracle/lists/aiff.py --check    writes nothing; fails, by exit status 1 and one line, where the two files are not what
                                  it would write
  oracle/lists/aiff.py --help     this text

A line of stdin is a file: the number of its bytes in four hex digits, a blank, two digits for each byte. Its first line
of stdout has 20 numbers: what `read` answers (the refusal's number, 0 for none; the kind's code, channels, rate, start
and length, zeros where it is refused), the same by turns, and what `chunks_told` gives (the size of `COMM`, channels,
frames, bits, the rate's sign and exponent, its digits, the size of `SSND`, its offset). Where nothing is refused a line
follows for each channel: the refusals' numbers of the samples as f64, as f32 and as whole numbers, then for each frame
the three, as patterns in hex: 16, 8 and 8 digits.

The answers are aiff_model.py's, the files aiff_files.py's. It says for how many files each of the wrong readings of
aiff_wrong.py answers otherwise, and fails where one never does.

Needs Python 3.8 or newer and nothing else. The inputs come from a generator of its own with the seed below, so every
run writes the same bytes.
"""
import os
import struct
import sys

sys.dont_write_bytecode = True
# this folder comes last: Python's own module `numbers`, which `fractions` needs, has the name of a script here
sys.path.append(sys.path.pop(0))
from collections import Counter

from aiff_files import files
from aiff_model import Reading, Refused
from aiff_wrong import WRONG
from hostile import Draws

SEED = 0xD1B54A32D192ED03
ROOT = os.path.join(os.path.dirname(os.path.abspath(__file__)), "..", "..", "crates", "replay_aiff")
LONGEST, MOST = 512, 128        # a file's bytes and its frames: the program has room for so many


def found(reading, file):
    """The refusal's number and the five that were found."""
    try:
        return (0,) + reading.read(file)
    except Refused as refused:
        return refused.args + (0,) * 5


def samples(reading, file, sound):
    """A line for each channel: a whole number n of 2^-23, as a float n / 2^23."""
    for k in range(sound[1]):
        said = ["0 0 0 "]
        for whole in reading.channel(file, sound, k):
            wide, narrow = struct.pack(">d", whole / 2 ** 23).hex(), struct.pack(">f", whole / 2 ** 23).hex()
            said.append("%s %s %08x " % (wide, narrow, whole % 2 ** 32))
        yield "".join(said)


def answer(reading, file):
    """The lines of stdout for one file."""
    sound = found(reading, file)
    numbers = "".join("%d " % n for n in sound + sound + reading.told(file))
    return [numbers] + (list(samples(reading, file, sound[1:])) if sound[0] == 0 else [])


def summary(made, answers):
    size, lines = sum(len(file) for _, file in made), sum(map(len, answers))
    yield "seed %016X, %d files, %d bytes, %d lines" % (SEED, len(made), size, lines)
    counts = Counter(int(lines[0].split()[0]) for lines in answers)
    yield "read          " + ", ".join("%d: %d" % pair for pair in sorted(counts.items()))
    yield "made as       " + ", ".join("%s %d" % pair for pair in Counter(name for name, _ in made).items())
    for name, wrong in WRONG:
        told = sum(answer(wrong(), file) != lines for (_, file), lines in zip(made, answers))
        assert told, "no line tells: " + name
        yield "%5d files tell: %s" % (told, name)


def main(arguments):
    if arguments not in ([], ["--check"]):
        print(__doc__.strip())
        return 0 if arguments in (["--help"], ["-h"]) else 2
    made = list({file: (name, file) for name, file in files(Draws(SEED))}.values())
    answers = [answer(Reading(), file) for _, file in made]
    assert max(len(file) for _, file in made) <= LONGEST
    assert max(len(line.split()) for lines in answers for line in lines) <= 3 + 3 * MOST
    content = {
        "stdin": "".join("%04X %s\n" % (len(file), file.hex().upper()) for _, file in made),
        "stdout": "".join(line + "\n" for lines in answers for line in lines),
    }
    for name, text in content.items():
        path = os.path.join(ROOT, name)
        if arguments == []:
            with open(path, "w", newline="") as out:
                out.write(text)
        elif not os.path.exists(path) or open(path, newline="").read() != text:
            print("aiff.py: crates/replay_aiff/%s is not what this script writes" % name, file=sys.stderr)
            return 1
    print("\n".join(summary(made, answers)))
    return 0


sys.exit(main(sys.argv[1:]))
