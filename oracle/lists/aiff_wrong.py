"""Readings of AIFF that differ from aiff_model.py's in one sentence. What each would answer is compared with the true
answer, so that aiff.py can say how many of its files tell the two apart.
"""
from aiff_model import PCM16, PCM24, Reading, number


def wrong(name, **changed):
    return name, type("Wrong", (Reading,), changed)


def whole_part(s, comm):
    """The digits cut instead of refused."""
    value = Reading.value(s, comm)
    return value if value is None or value < 0 else value // 1 * (value - value + 1)


WRONG = [
    # 20
    wrong("sizes low byte first", size=lambda s, some: int.from_bytes(some, "little")),
    wrong("a FORM size of 3 is accepted",
          is_aiff=lambda s, f: len(f) >= 12 and f[:4] == b"FORM" and f[8:12] == b"AIFF"),
    wrong("a FORM size of 4 is refused", is_aiff=lambda s, f: Reading.is_aiff(s, f) and number(f[4:8]) > 4),
    wrong("AIFC is taken", is_aiff=lambda s, f: Reading.is_aiff(s, f[:8] + f[8:12].replace(b"AIFC", b"AIFF") + f[12:])),
    wrong("`FORM` is not looked at", is_aiff=lambda s, f: len(f) >= 12 and Reading.is_aiff(s, b"FORM" + f[4:])),
    # 10 and the walk
    wrong("the walk is bounded by the file", end=lambda s, f: len(f)),
    wrong("the FORM does not count for 10", form_fits=lambda s, f: True,
          end=lambda s, f: min(8 + number(f[4:8]), len(f))),
    wrong("a chunk may run past the FORM's end", overruns=lambda s, f, b, n: b + n > len(f)),
    wrong("a missing last pad byte is 10", overruns=lambda s, f, b, n: b + n + n % 2 > s.end(f)),
    wrong("a chunk that ends with the FORM is 10", overruns=lambda s, f, b, n: b + n >= s.end(f)),
    wrong("the walk ends at `SSND`", ends=lambda s, name, found: name == b"SSND"),
    wrong("the walk ends with the second of both", ends=lambda s, name, found: {b"COMM", b"SSND"} <= set(found)),
    wrong("the last `COMM` counts", counts=lambda s, name, found: name == b"COMM" or name not in found),
    wrong("the last `SSND` counts", counts=lambda s, name, found: name == b"SSND" or name not in found),
    wrong("no pad byte is skipped", behind=lambda s, b, n: b + n),
    wrong("a pad byte behind every chunk", behind=lambda s, b, n: b + n + 1),
    wrong("8 bytes left over are no chunk", least_left=9),
    # 21
    wrong("a `COMM` of 17 bytes", least_comm=17),
    wrong("a `COMM` of 18 bytes is refused", least_comm=19),
    wrong("an `SSND` of 8 bytes is refused", least_ssnd=9),
    wrong("the block size is skipped too", skipped=lambda s, ssnd: 8 + number(ssnd[:4]) + number(ssnd[4:])),
    wrong("the block size for the offset", offset=lambda s, ssnd: number(ssnd[4:])),
    wrong("the offset counts from the chunk", skipped=lambda s, ssnd: s.offset(ssnd)),
    wrong("the offset is not skipped", skipped=lambda s, ssnd: 8),
    wrong("an offset at the end is refused", past=lambda s, ssnd, size: s.skipped(ssnd) >= size),
    wrong("an offset past the end is not looked at", past=lambda s, ssnd, size: False),
    wrong("frames that end with the chunk are refused",
          too_many=lambda s, comm, ssnd, size, n: n > 0 and s.skipped(ssnd) + n >= size),
    wrong("more frames than are there", too_many=lambda s, comm, ssnd, size, n: False),
    wrong("the offset is not counted for the frames", too_many=lambda s, comm, ssnd, size, n: 8 + n > size),
    wrong("frames counted modulo 2^32",
          too_many=lambda s, comm, ssnd, size, n: (s.skipped(ssnd) + n) % 2 ** 32 > size),
    # the order
    wrong("13 after the frames", order=("parts", "frames", "kind", "rate")),
    wrong("13 before the offset", order=("kind", "parts", "frames", "rate")),
    wrong("22 before the frames", order=("parts", "kind", "rate", "frames")),
    wrong("22 before 13", order=("parts", "rate", "kind", "frames")),
    # 13
    wrong("three channels", channels=(1, 2, 3)),
    wrong("one channel alone", channels=(1,)),
    wrong("8 bits", bits={**Reading.bits, 8: PCM16}),
    wrong("20 bits in three bytes", bits={**Reading.bits, 20: PCM24}),
    # 22
    wrong("digits cut instead of refused", value=whole_part),
    wrong("the exponent off by one", value=lambda s, c: (lambda v: v if v is None else v * 2)(Reading.value(s, c))),
    wrong("the sign is ignored", value=lambda s, c: Reading.value(s, bytes([c[8] & 0x7F]).join((c[:8], c[9:])))),
    wrong("digits that are not normalised are refused",
          value=lambda s, c: Reading.value(s, c) if c[10] >= 128 else None),
    wrong("7999 is a rate", least=7999),
    wrong("8000 is none", least=8001),
    wrong("768001 is a rate", most=768001),
    wrong("768000 is none", most=767999),
    # samples
    wrong("the low byte first", stored=lambda s, some: int.from_bytes(some, "little", signed=True)),
    wrong("no sign", stored=lambda s, some: number(some)),
    wrong("16 bits × 128", whole=lambda s, kind, some: s.stored(some) * (128 if kind == PCM16 else 1)),
    wrong("the other channel", channel=lambda s, f, sound, k: Reading.channel(s, f, sound, sound[1] - 1 - k)),
]
