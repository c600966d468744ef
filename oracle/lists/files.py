#!/usr/bin/env python3
"""Writes the stored list of small and damaged files: their bytes, and what Wish 1 of document 02 says of each.

  oracle/lists/files.py            writes crates/replay_files/stdin and stdout, and says what is in them
  oracle/lists/files.py --check    writes nothing; fails, by exit status 1 and one line, where the two files are not
                                   what it would write
  oracle/lists/files.py --help     this text

A line of stdin is a file: the number of its bytes in four hex digits, a blank, two digits for each byte. Its first line
of stdout has 18 numbers: what `read` answers (the refusal's number, 0 for none; the kind's code, channels, rate, start
and length, zeros where it is refused), what `read_wrapped` answers, and what `fmt_told` gives (the size of `fmt `, tag,
channels, block size, bits, the size of `data`). Where `read_wrapped` refuses nothing a line follows for each channel:
the refusals' numbers of the samples as f64, as f32 and as whole numbers, then for each frame the three, as patterns in
hex: 16, 8 and 8 digits. A NaN is 7ff8000000000000 and 7fc00000.

The answers are riff_model.py's, the files riff_files.py's. The two readings and the samples are riff_second.py's too,
written by somebody who had seen no definition: the script fails where the two models differ. It says for how many files
each of the wrong readings of riff_wrong.py answers otherwise, and fails where one never does.

Needs Python 3.8 or newer and nothing else. The inputs come from a generator of its own with the seed below, so every
run writes the same bytes.
"""
import os
import struct
import sys

sys.dont_write_bytecode = True
# this folder comes last: Python's own module `numbers`, which `fractions` needs, has the name of a script here
sys.path.append(sys.path.pop(0))
from collections import Counter

from hostile import Draws
from riff_files import files
from riff_model import FLOAT32, Reading, Refused
from riff_second import read, samples as second_samples, shown
from riff_wrong import WRONG

SEED = 0x9E3779B97F4A7C15
ROOT = os.path.join(os.path.dirname(os.path.abspath(__file__)), "..", "..", "crates", "replay_files")
LONGEST, MOST = 512, 128        # a file's bytes and its frames: the program has room for so many


def found(reading, wrapped, file):
    """The refusal's number and the five that were found."""
    reading.wrapped = wrapped
    try:
        return (0,) + reading.read(file)
    except Refused as refused:
        return refused.args + (0,) * 5


def samples(reading, file, wave):
    """A line for each channel."""
    for k in range(wave[1]):
        said = ["0 0 %d " % (wave[0] == FLOAT32)]
        for value, whole in reading.channel(file, wave, k):
            wide, narrow = struct.pack(">d", value).hex(), struct.pack(">f", value).hex()
            if value != value:
                wide, narrow = "7ff8000000000000", "7fc00000"
            said.append("%s %s %08x " % (wide, narrow, whole % 2 ** 32))
        yield "".join(said)


def answer(reading, file):
    """The lines of stdout for one file."""
    plain, wrapped = found(reading, False, file), found(reading, True, file)
    numbers = "".join("%d " % n for n in plain + wrapped + reading.told(file))
    return [numbers] + (list(samples(reading, file, wrapped[1:])) if wrapped[0] == 0 else [])


def second(file):
    """What the second model says: the first 12 numbers, and each channel's samples."""
    plain, wrapped = read(file, False), read(file, True)
    channels = range(wrapped[2] if wrapped[0] == 0 else 0)
    return ["".join("%d " % n for n in plain + wrapped)] + [
        "".join(shown(*sample) + " " for sample in second_samples(file, wrapped[1:], k)) for k in channels]


def both_say(file, lines):
    """Whether the second model says the same; what `fmt_told` tells is the first one's alone."""
    said = second(file)
    return len(said) == len(lines) and lines[0].startswith(said[0]) and all(
        line.split()[3:] == other.split() for line, other in zip(lines[1:], said[1:]))


def summary(made, answers):
    size, lines = sum(len(file) for _, file in made), sum(map(len, answers))
    yield "seed %016X, %d files, %d bytes, %d lines" % (SEED, len(made), size, lines)
    for k, name in ((0, "read"), (6, "read_wrapped")):
        counts = Counter(int(lines[0].split()[k]) for lines in answers)
        yield "%-13s %s" % (name, ", ".join("%d: %d" % pair for pair in sorted(counts.items())))
    yield "made as       " + ", ".join("%s %d" % pair for pair in Counter(name for name, _ in made).items())
    for name, wrong in WRONG:
        told = sum(answer(wrong(), file) != lines for (_, file), lines in zip(made, answers))
        assert told, "no line tells: " + name
        yield "%5d files tell: %s" % (told, name)


def main(arguments):
    if arguments not in ([], ["--check"]):
        print(__doc__.strip())
        return 0 if arguments in (["--help"], ["-h"]) else 2
    made = list({file: (name, file) for name, file in files(Draws(SEED))}.values())
    answers = [answer(Reading(), file) for _, file in made]
    for (_, file), lines in zip(made, answers):
        assert both_say(file, lines), "the two models differ: " + file.hex()
    assert max(len(file) for _, file in made) <= LONGEST
    assert max(len(line.split()) for lines in answers for line in lines) <= 3 + 3 * MOST
    content = {
        "stdin": "".join("%04X %s\n" % (len(file), file.hex().upper()) for _, file in made),
        "stdout": "".join(line + "\n" for lines in answers for line in lines),
    }
    for name, text in content.items():
        path = os.path.join(ROOT, name)
        if arguments == []:
            with open(path, "w", newline="") as out:
                out.write(text)
        elif not os.path.exists(path) or open(path, newline="").read() != text:
            print("files.py: crates/replay_files/%s is not what this script writes" % name, file=sys.stderr)
            return 1
    print("\n".join(summary(made, answers)))
    return 0


sys.exit(main(sys.argv[1:]))
