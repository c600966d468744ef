"""Readings of RIFF WAVE that differ from riff_model.py's in one sentence. What each would answer is compared with the
true answer, so that files.py can say how many of its files tell the two apart.
"""
from riff_model import FLOAT32, PCM16, Reading, number


def wrong(name, **changed):
    return name, type("Wrong", (Reading,), changed)


def without(k):
    """The conditions of a wrapped kind, but one."""
    return lambda s, fmt, bits: [ok for i, ok in enumerate(Reading.wraps(s, fmt, bits)) if i != k]


def longer(s, file, found):
    """40 bytes of every `fmt ` that has a tag of FFFE."""
    fmt = Reading.format(s, file, found)
    at = found.get(b"fmt ", (0, 0))[0]
    return file[at:at + 40] if fmt[:2] == b"\xFE\xFF" and len(fmt) >= 16 else fmt


def unsigned(s, kind, stored):
    value = Reading.value(s, kind, stored)
    return value + 2 if kind != FLOAT32 and value < 0 else value


def first_sign(s, kind, stored):
    n = number(stored) - (256 ** len(stored) if stored[0] >= 128 else 0)
    return n * 256 if kind == PCM16 else n


def high_first(s, kind, stored):
    return Reading.value(s, kind, stored[::-1])


WRONG = [
    # 9
    wrong("a RIFF size of 3 is accepted",
          is_wave=lambda s, f: len(f) >= 12 and f[:4] == b"RIFF" and f[8:12] == b"WAVE"),
    wrong("a RIFF size of 4 is refused", is_wave=lambda s, f: Reading.is_wave(s, f) and number(f[4:8]) > 4),
    wrong("RIFX is accepted", is_wave=lambda s, f: Reading.is_wave(s, f.replace(b"RIFX", b"RIFF", 1))),
    wrong("the form's name is not looked at",
          is_wave=lambda s, f: len(f) >= 12 and f[:4] == b"RIFF" and number(f[4:8]) >= 4),
    # 10
    wrong("the walk is bounded by the file", end=lambda s, f: len(f)),
    wrong("the RIFF does not count for 10", riff_fits=lambda s, f: True,
          end=lambda s, f: min(8 + number(f[4:8]), len(f))),
    wrong("a chunk may run past the RIFF's end", overruns=lambda s, f, b, n: b + n > len(f)),
    wrong("a missing last pad byte is 10", overruns=lambda s, f, b, n: b + n + n % 2 > s.end(f)),
    wrong("a chunk that ends with the RIFF is 10", overruns=lambda s, f, b, n: b + n >= s.end(f)),
    wrong("places count modulo 2^32", overruns=lambda s, f, b, n: (b + n) % 2 ** 32 > s.end(f),
          behind=lambda s, b, n: max(b, (b + n + n % 2) % 2 ** 32)),
    wrong("bytes left over are 10", leftover=True),
    # the walk
    wrong("the walk goes on behind `data`", ends=lambda s, name: False),
    wrong("the last `fmt ` counts", counts=lambda s, name, found: name == b"fmt " or name not in found),
    wrong("the last `data` counts", ends=lambda s, name: False,
          counts=lambda s, name, found: name == b"data" or name not in found),
    wrong("no pad byte is skipped", behind=lambda s, b, n: b + n),
    wrong("a pad byte behind every chunk", behind=lambda s, b, n: b + n + 1),
    wrong("8 bytes left over are no chunk", least_left=9),
    # the order
    wrong("12 before 11", order=(12, 11, 13)),
    wrong("13 before 12", order=(11, 13, 12)),
    wrong("13 before 11", order=(13, 11, 12)),
    # 13
    wrong("a `fmt ` of 15 bytes is accepted", least=15),
    wrong("a `fmt ` of 16 bytes is refused", least=17),
    wrong("`fmt ` is read behind its end", least=0, format=lambda s, f, found: f[found.get(b"fmt ", (len(f), 0))[0]:]),
    wrong("tag 3 with 24 bits", kinds={**Reading.kinds, (3, 24): FLOAT32}),
    wrong("tag 3 with 16 bits", kinds={**Reading.kinds, (3, 16): PCM16}),
    wrong("tag 1 with 32 bits", kinds={**Reading.kinds, (1, 32): FLOAT32}),
    wrong("tag 1 with 8 bits", kinds={**Reading.kinds, (1, 8): PCM16}),
    wrong("three channels", channels=(1, 2, 3)),
    wrong("one channel alone", channels=(1,)),
    wrong("the block size is not tested", block=lambda s, channels, bits, told: told),
    wrong("broken frames", broken=lambda s, size, block: False),
    wrong("a `data` of no bytes is refused", broken=lambda s, size, block: size == 0 or size % block != 0),
    # a wrapped kind
    wrong("wrapped in a `fmt ` under 40 bytes", format=longer),
    wrong("wrapped with an extension under 22", wraps=without(1)),
    wrong("wrapped with other valid bits", wraps=without(2)),
    wrong("wrapped with another tail", wraps=without(3)),
    wrong("half of the wrapped tag",
          inside=lambda s, fmt, bits: number(fmt[24:26]) if all(s.wraps(fmt, bits)) else None),
    wrong("FFFE is always PCM", inside=lambda s, fmt, bits: 1 if all(s.wraps(fmt, bits)) else None),
    # samples
    wrong("PCM without a sign", value=unsigned),
    wrong("the high byte first", value=high_first),
    wrong("the whole number's sign is the first byte's", whole=first_sign),
    wrong("16 bits × 128", whole=lambda s, kind, b: Reading.whole(s, kind, b) // (2 if kind == PCM16 else 1)),
    wrong("the other channel", channel=lambda s, f, wave, k: Reading.channel(s, f, wave, wave[1] - 1 - k)),
]
