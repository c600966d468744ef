#!/usr/bin/env python3
"""Writes the stored list of files and headers to be written, and what Wishes 2 and 10 of document 02 say of each call
(riff_written.py, rf64_written.py).

  oracle/lists/written.py            writes crates/replay_written/stdin and stdout, and says what is in them
  oracle/lists/written.py --check    writes nothing; fails, by exit status 1 and one line, where the two are not what it
                                     would write
  oracle/lists/written.py --help     this text

A line of stdin is a call: the kind's code, channels, rate, the buffer's length, what is written (0 a file of f64s, 1 one
of f32s, 2 the header of an RF64 file, 3 of a BW64 file), the number of samples, then of a file each sample's pattern, all
in sixteen hex digits with a blank behind them. Its line of stdout has the refusal's number, 0 for none, the file's
length, 0 where it is refused, or the header's, the file's length as it is given beforehand, and the buffer's bytes, A5
before the call.

It says how many lines each of the wrong writings of the two models would change, and fails where one changes none.

Needs Python 3.8 or newer and nothing else. The inputs come from a generator of its own with the seed below, so every
run writes the same bytes.
"""
import os
import sys

sys.dont_write_bytecode = True
# This folder comes last: Python's own module `numbers`, which `fractions` needs, has the name of a script here.
sys.path.append(sys.path.pop(0))
from collections import Counter
from fractions import Fraction

from exact import F32, F64
from hostile import Draws, beside, nans
from rf64_written import FORMS, Heading
from rf64_written import WRONG as WRONG_HEADINGS
from riff_written import FLOAT32, WRONG, Writing

SEED = 0xD1B54A32D192ED03
ROOT = os.path.join(os.path.dirname(os.path.abspath(__file__)), "..", "..", "crates", "replay_written")
MOST, ROOM = 64, 512        # samples of a call and bytes of a buffer, as the program has room for


def ends(f):
    """Values about which something turns: the widths' ends, the ties at them, zeros, subnormals, the ends of an f32."""
    one = Fraction(1)
    near = [one, 2 * one]
    for bits in (16, 24):
        unit = one / 2 ** (bits - 1)
        near += [unit, unit / 2, 3 * unit / 2, one - unit, one - unit / 2, one + unit / 2]
    near += [F32.value(F32.infinity - 1), F32.value(F32.infinity - 1) + Fraction(2) ** 103, Fraction(2) ** 127]
    near += [one / 2 ** 149, one / 2 ** 150, 3 * one / 2 ** 150, one / 2 ** 126]
    words = [0, 1, f.hidden, f.infinity - 1, f.infinity] + [f.near(value) for value in near]
    if f is F64:
        words.append(f.near(Fraction(2) ** 1023))
    return [word + sign for word in dict.fromkeys(words) for sign in (0, f.sign)]


def tie(d, f):
    """Halfway between two stored samples, or beside that."""
    bits = d.of((16, 24))
    x = f.near(Fraction(2 * d.between(-2 ** (bits - 1), 2 ** (bits - 1) - 1) + 1, 2 ** bits))
    return d.of(beside(f, x))


def good(d, f):
    """A sample that every kind holds."""
    if d.between(0, 2) == 0:
        n = d.between(-2 ** 15, 2 ** 15 - 1)
        return f.near(Fraction(n, 2 ** 15)) if n else 0
    x = tie(d, f)
    return x if abs(f.value(x)) < 1 - Fraction(1, 2 ** 15) else 0


def calls(d):
    """(name, kind, channels, rate, room, format, samples)"""
    right = Writing().length
    for f in (F64, F32):
        for kind in range(3):
            # each end by itself, and an f64's neighbours, which an f32 does not tell apart
            for x in ends(f):
                for word in dict.fromkeys(beside(f, x) if f is F64 else [x]):
                    yield "an end", kind, 1, 48000, right(kind, [word]), f, [word]
            for word in nans(f)[:4]:
                yield "a NaN", kind, 1, 48000, right(kind, [word]), f, [word]
            # no samples, one, odd data; in buffers that fit, are one short, are longer, are none
            for channels in (1, 2):
                for frames in (0, 1, 2, d.between(3, 20)):
                    some = [good(d, f) for _ in range(frames * channels)]
                    long = right(kind, some)
                    for room in (long, long - 1, long + d.between(1, 60), d.between(0, long - 2)):
                        yield "a buffer", kind, channels, d.of((8000, 44100, 96000, 768000)), room, f, some
                    if some:
                        odd = list(some)
                        far = f.sign + f.infinity if kind == FLOAT32 else f.near(Fraction(3))
                        odd[d.between(0, len(odd) - 1)] = d.of([f.nan, f.infinity, far])
                        for room in (long, long - 1):
                            yield "one that does not fit", kind, channels, 44100, room, f, odd
            # settings, with what comes behind them due as well
            for rate in (0, 7999, 8000, 768000, 768001, 2 ** 32 - 1):
                for channels in (0, 1, 2, 3, 255):
                    some = [good(d, f) for _ in range(d.between(0, 3))]
                    some += [f.nan] * d.between(0, 1)
                    yield "settings", kind, channels, rate, d.of((0, right(kind, some), 200)), f, some


def headings(d):
    """The same of headers, a form instead of a format and a number instead of the samples."""
    right = Heading().length
    for kind in range(3):
        lasts = [n for n in (2 ** 32 // (kind + 2) - k for k in range(40)) if Heading().fits(kind, n)][:2]
        tops = 2 ** 40 // (kind + 2)
        counts = [0, 1, 3, 100, *(n + k for n in lasts for k in (0, 1, 2)), 2 ** 31, 2 ** 32 - 1, 2 ** 32, tops - 1,
                  tops, tops + 1, tops + 2, 2 ** 62, 2 ** 63, 2 ** 64 - 2, 2 ** 64 - 1]
        for count in dict.fromkeys(counts):
            for form in FORMS:
                for channels in (1, 2):
                    for room in (right(kind, count), right(kind, count) - 1, right(kind, count) + d.between(1, 40)):
                        yield "a header", kind, channels, d.of((8000, 44100, 768000)), room, form, count
            for channels, rate in ((0, 8000), (3, 48000), (1, 7999), (2, 768001), (3, 0)):
                yield "a header's settings", kind, channels, rate, d.of((0, 43, 200)), d.of(FORMS), count


def text(call):
    _, kind, channels, rate, room, f, samples = call
    what = 2 + FORMS.index(f) if f in FORMS else f is F32
    words = (samples,) if f in FORMS else (len(samples), *samples)
    return "".join("%016X " % n for n in (kind, channels, rate, room, what, *words)) + "\n"


def answer(writing, call):
    _, kind, channels, rate, room, f, samples = call
    if f in FORMS:
        number, length, buffer = writing.write(f, kind, channels, rate, room, samples, b"\xA5" * room)
    else:
        number, length, buffer = writing.write(kind, channels, rate, room, f, samples, b"\xA5" * room)
    return "%d %d %d %s\n" % (number, length, writing.told(kind, channels, samples), buffer[:room].hex())


def right(call):
    return answer(Heading() if call[5] in FORMS else Writing(), call)


def summary(made, answers):
    files = [call for call in made if call[5] not in FORMS]
    yield "seed %016X, %d files, %d samples, %d headers" % (
        SEED, len(files), sum(len(call[6]) for call in files), len(made) - len(files))
    refusals = Counter(int(said.split()[0]) for said in answers)
    yield "refusals      " + ", ".join("%d: %d" % pair for pair in sorted(refusals.items()))
    yield "made as       " + ", ".join("%s %d" % pair for pair in Counter(call[0] for call in made).items())
    for ours, wrongs in ((False, WRONG), (True, WRONG_HEADINGS)):
        for name, wrong in wrongs:
            told = sum((call[5] in FORMS) == ours and answer(wrong(), call) != said
                       for call, said in zip(made, answers))
            assert told, "no line tells: " + name
            yield "%5d %s tell: %s" % (told, "headers" if ours else "files", name)


def main(arguments):
    if arguments not in ([], ["--check"]):
        print(__doc__.strip())
        return 0 if arguments in (["--help"], ["-h"]) else 2
    made = list({text(call): call for all in (calls, headings) for call in all(Draws(SEED))}.values())
    assert all((call[5] in FORMS or len(call[6]) <= MOST) and call[4] <= ROOM for call in made)
    answers = [right(call) for call in made]
    content = {"stdin": "".join(map(text, made)), "stdout": "".join(answers)}
    for name, wanted in content.items():
        path = os.path.join(ROOT, name)
        if arguments == []:
            with open(path, "w", newline="") as out:
                out.write(wanted)
        elif not os.path.exists(path) or open(path, newline="").read() != wanted:
            print("written.py: crates/replay_written/%s is not what this script writes" % name, file=sys.stderr)
            return 1
    print("\n".join(summary(made, answers)))
    return 0


sys.exit(main(sys.argv[1:]))
