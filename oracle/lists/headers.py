#!/usr/bin/env python3
"""Writes the stored list of headers: a file's first bytes and its length, and what Wish 10 of document 02 says of each.

  oracle/lists/headers.py            writes crates/replay_headers/stdin and stdout, and says what is in them
  oracle/lists/headers.py --check    writes nothing; fails, by exit status 1 and one line, where the two files are not
                                     what it would write
  oracle/lists/headers.py --help     this text

A line of stdin is a header: the file's length in sixteen hex digits, a blank, the number of the bytes at hand in four,
a blank, two digits for each byte. Its line of stdout has 19 numbers: how many bytes are needed, 0 where enough are at
hand; what `read_header` answers (the refusal's number, 0 for none; the kind's code, channels, rate, start and length,
zeros where it is refused); what `read_header_wrapped` answers; and the same by turns, zeros where 1 or 2 applies.

The answers are rf64_model.py's, the headers rf64_files.py's. It says for how many headers each of the wrong readings of
rf64_wrong.py answers otherwise, and fails where one never does.

Needs Python 3.8 or newer and nothing else. The inputs come from a generator of its own with the seed below, so every
run writes the same bytes.
"""
import os
import sys

sys.dont_write_bytecode = True
# this folder comes last: Python's own module `numbers`, which `fractions` needs, has the name of a script here
sys.path.append(sys.path.pop(0))
from collections import Counter

from hostile import Draws
from rf64_files import headers
from rf64_model import Header
from rf64_wrong import WRONG
from riff_model import Refused

SEED = 0xBF58476D1CE4E5B9
ROOT = os.path.join(os.path.dirname(os.path.abspath(__file__)), "..", "..", "crates", "replay_headers")
LONGEST = 512        # the bytes at hand: the program has room for so many


def found(reading, wrapped, first, size):
    """The refusal's number and the five that were found."""
    reading.wrapped = wrapped
    try:
        return (0,) + reading.header(first, size)
    except Refused as refused:
        return refused.args + (0,) * 5


def answer(reading, first, size):
    """The line of stdout for one header. By turns the answer is the wrapped one."""
    plain, wrapped = found(reading, False, first, size), found(reading, True, first, size)
    by_turns = (0,) * 6 if wrapped[0] in (1, 2) else wrapped
    numbers = (reading.told(first, size),) + plain + wrapped + by_turns
    return "".join("%d " % n for n in numbers)


def summary(made, answers):
    yield "seed %016X, %d headers, %d bytes" % (SEED, len(made), sum(len(first) for _, first, _ in made))
    for k, name in ((1, "read_header"), (7, "wrapped")):
        counts = Counter(int(said.split()[k]) for said in answers)
        yield "%-13s %s" % (name, ", ".join("%d: %d" % pair for pair in sorted(counts.items())))
    yield "made as       " + ", ".join("%s %d" % pair for pair in Counter(name for name, _, _ in made).items())
    for name, wrong in WRONG:
        told = sum(answer(wrong(), first, size) != said for (_, first, size), said in zip(made, answers))
        assert told, "no line tells: " + name
        yield "%5d headers tell: %s" % (told, name)


def main(arguments):
    if arguments not in ([], ["--check"]):
        print(__doc__.strip())
        return 0 if arguments in (["--help"], ["-h"]) else 2
    made = list({(first, size): (name, first, size) for name, first, size in headers(Draws(SEED))}.values())
    assert max(len(first) for _, first, _ in made) <= LONGEST and max(size for _, _, size in made) < 2 ** 64
    answers = [answer(Header(), first, size) for _, first, size in made]
    content = {
        "stdin": "".join("%016X %04X %s\n" % (size, len(first), first.hex().upper()) for _, first, size in made),
        "stdout": "".join(said + "\n" for said in answers),
    }
    for name, text in content.items():
        path = os.path.join(ROOT, name)
        if arguments == []:
            os.makedirs(ROOT, exist_ok=True)
            with open(path, "w", newline="") as out:
                out.write(text)
        elif not os.path.exists(path) or open(path, newline="").read() != text:
            print("headers.py: crates/replay_headers/%s is not what this script writes" % name, file=sys.stderr)
            return 1
    print("\n".join(summary(made, answers)))
    return 0


sys.exit(main(sys.argv[1:]))
