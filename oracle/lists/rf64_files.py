"""Headers of RIFF, RF64 and BW64 files, whole and damaged, for headers.py: the edges of document 02's Wish 10, and random
damage. A header is the file's first bytes and the file's length. No answer is computed here.
"""
import struct

from riff_files import KINDS, WIDTH, chunk, fmt, riff, wrapped
from riff_model import FLOAT32, PCM16, PCM24

FULL = 2 ** 32 - 1
NAMES = (b"RF64", b"BW64")
TOP = 2 ** 40


def sizes(riff_size, data, frames=0, table=(), some=None, cut=None, more=b""):
    """A `ds64`'s body."""
    body = struct.pack("<QQQI", riff_size, data, frames, len(table) if some is None else some)
    body += b"".join(name + struct.pack("<Q", size) for name, size in table) + more
    return body[:cut]


def long(kind=FLOAT32, channels=2, frames=2 ** 29, name=b"RF64", rate=96000, body=None, field=FULL, data_field=FULL,
         riff_field=FULL, riff_size=None, data=None, before=(), middle=(), table=(), some=None, cut=None, more=b"",
         ds64=True, told=None, length=None):
    """A header up to the samples, and the file's length: as it should be but for what is given."""
    size = frames * channels * WIDTH[kind]
    if body is None:
        body = fmt(kind, channels, rate)
    own = sizes(0, 0, table=table, some=some, cut=cut, more=more)
    rest = b"".join(middle) + chunk(b"fmt ", body) + b"data" + struct.pack("<I", data_field)
    front = 12 + sum(map(len, before)) + (len(chunk(b"ds64", own)) if ds64 else 0)
    whole = front + len(rest) + size + size % 2
    fields = sizes(whole - 8 if riff_size is None else riff_size, size if data is None else data, frames, table, some,
                   cut, more)
    parts = b"".join(before) + (chunk(b"ds64", fields, told) if ds64 else b"")
    return name + struct.pack("<I", riff_field) + b"WAVE" + parts + rest, whole if length is None else length


def plain(d):
    """Every kind, form and number of channels, with sizes up to 2^40."""
    for name in NAMES:
        for kind in KINDS:
            for channels in (1, 2):
                body = fmt(kind, channels, 48000)
                for frames in (0, 1, 2 ** 31, TOP // (channels * WIDTH[kind]), TOP // (channels * WIDTH[kind]) + 1):
                    yield long(kind, channels, frames, name, body=body)
                    yield long(kind, channels, frames, name, body=wrapped(kind, channels), middle=[chunk(b"fact", b"1234")])


def ends(d):
    """Each size at its end and beside it."""
    first, size = long()
    for k in (-9, -8, -1, 0, 1, 2, 8, 100):
        yield first, size + k
        yield long(riff_size=size - 8 + k)
    for data in (0, 1, 7, 8, 2 ** 32 - 1, 2 ** 32, 2 ** 32 + 8, TOP - 8, TOP - 1, TOP, TOP + 1, TOP + 8, 2 ** 63, 2 ** 64 - 1):
        yield long(data=data)
        yield long(data=data, length=2 ** 64 - 1, riff_size=2 ** 64 - 9)
        yield long(data=data, data_field=800)
        yield long(frames=TOP // 8, data=data)
    for riff_size in (0, 1, 3, 4, 5, 11, 40, 71, 72, 73, 2 ** 32 - 1, 2 ** 32, TOP, 2 ** 63, 2 ** 64 - 9, 2 ** 64 - 8, 2 ** 64 - 1):
        for length in (len(first), size, 2 ** 64 - 1):
            yield long(riff_size=riff_size, length=length)
    for field in (0, 1, 3, 4, 5, 60, 72, 800 + 72, 2 ** 31, FULL - 1, FULL):
        yield long(riff_field=field)
        yield long(riff_field=field, length=field + 8)
        yield long(data_field=field)
        yield long(riff_field=field, data_field=field % 8000)
        yield long(riff_field=field, ds64=False)
        yield long(riff_field=field, ds64=False, name=b"RIFF", data_field=field)
        yield long(riff_field=field, riff_size=2 ** 64 - 1, data=TOP + 1)
    for length in (0, 1, 4, 8, 11, 12, 19, 20, 47, 48, 72, 2 ** 63, 2 ** 64 - 1):
        yield first[:length], length
        yield first[:12], length
        yield first[:20], length
        yield first, length


def cut(d):
    """Every number of the first bytes at hand: with the whole length, with a shorter one, and of a short file."""
    table = ((b"LIST", 2 ** 33), (b"junk", 12))
    wholes = (
        long(), long(PCM24, 1, 5, b"BW64", table=table, middle=[chunk(b"fact", b"1234")]),
        long(PCM16, 1, 2 ** 30, middle=[chunk(b"LIST", b"odd")], body=wrapped(PCM16, 1)),
        (riff(chunk(b"fmt ", fmt(PCM24, 2)), chunk(b"data", b"", 600), size=660), 668),
        long(riff_size=3), long(data=TOP + 1), long(ds64=False), long(frames=0, table=table, some=1),
    )
    for first, size in wholes:
        for k in range(len(first) + 1):
            yield first[:k], size
            yield first[:k], k
            yield first[:k], k + 1
        yield first + bytes(24), size
        yield first, len(first) - 1


def openings(d):
    """9 and 18: letters, and a `ds64` that is missing, not first, short or cut off."""
    for name in NAMES + (b"RIFF", b"RIFX", b"RF65", b"BW46", b"rf64", b"64RF", b"FORM"):
        yield long(name=name)
        first, size = long(name=name)
        yield first[:8] + b"WAVF" + first[12:], size
        yield long(name=name, ds64=False)
        yield long(name=name, ds64=False, frames=10, riff_field=200, data_field=80, length=208)
        yield long(name=name, before=[chunk(b"JUNK", bytes(28))])
        yield long(name=name, before=[chunk(b"JUNK", b"")])
        yield long(name=name, frames=10, riff_field=200, data_field=80, length=208)
    for size in (0, 1, 24, 26, 27, 28, 29, 30, 39, 40, 41):
        yield long(cut=size)
        yield long(cut=size, riff_field=3)
        yield long(told=size)
        yield long(more=bytes(max(0, size - 28)))
    for size in (800, 2 ** 31, FULL - 1, FULL):
        for length in (819, 820, 821, 2 ** 31 + 20, 2 ** 32 + 18, 2 ** 32 + 19, 2 ** 33, 2 ** 40):
            yield long(told=size, length=length)
            yield long(told=size, length=length, some=FULL)


def tables(d):
    """A table's entries: of which chunk, how many, how large."""
    big = b"BIG " + struct.pack("<I", FULL)
    for entries in ((), ((b"BIG ", 4),), ((b"BIG ", 4), (b"BIG ", 400)), ((b"BIG ", 400), (b"BIG ", 4)),
                    ((b"big ", 4), (b"BIG ", 4)), ((b"ds64", 4), (b"BIG ", 4)), ((b"data", 4), (b"BIG ", 4)),
                    ((b"fmt ", 4), (b"BIG ", 4)), ((b"BIG ", 5),), ((b"BIG ", 2 ** 32 + 4),), ((b"BIG ", TOP),),
                    ((b"none", TOP + 1),), ((b"none", TOP), (b"BIG ", 4), (b"last", TOP + 1)), ((b"BIG ", 2 ** 64 - 1),)):
        for middle in ([], [big + b"1234"], [big + b"12345\0"], [chunk(b"BIG ", b"1234")]):
            yield long(table=entries, middle=middle)
            yield long(table=entries, middle=middle, name=b"BW64", frames=2 ** 33)
            first, size = long(table=entries, middle=middle)
            yield first, size + 2 ** 34
            yield first[:60], size
        for some in (0, 1, 2, 3, 100, FULL):
            yield long(table=entries, some=some, middle=[big + b"1234"])
            yield long(table=entries, some=some, more=b"12345678901", middle=[big + b"1234"])
            yield long(table=entries, some=some, riff_size=3)
    yield long(told=FULL, table=((b"ds64", 40),), length=2 ** 33)
    yield long(told=FULL, table=((b"ds64", 40),), length=2 ** 33, riff_size=2 ** 33 - 8)
    first, size = long(table=((b"fmt ", 16),))
    yield first.replace(b"fmt \x10\0\0\0", b"fmt \xFF\xFF\xFF\xFF"), size
    first, size = long()
    yield first.replace(b"fmt \x10\0\0\0", b"fmt \xFF\xFF\xFF\xFF"), size
    yield first.replace(b"fmt \x10\0\0\0", b"fmt \xFF\xFF\xFF\xFF"), size + 2 ** 33


def walks(d):
    """10 to 13 behind an opening that is in order."""
    f, g = chunk(b"fmt ", fmt(PCM16, 1)), chunk(b"fmt ", fmt(FLOAT32, 2))
    for middle in ([f], [g], [chunk(b"LIST", b"odd")], [chunk(b"junk", b"even"), f], [chunk(b"data", b"12345678"), f],
                   [b"ds64" + struct.pack("<I", FULL)], [chunk(b"ds64", bytes(28))]):
        for name in NAMES + (b"RIFF",):
            yield long(middle=middle, name=name)
            yield long(middle=middle, name=name, frames=8, riff_field=300, data_field=64, length=308)
    for body in (fmt(PCM16, 1)[:15], fmt(PCM16, 3), fmt(PCM16, 1, block=3), fmt(PCM24, 2, bits=16), fmt(FLOAT32, 1, tag=1),
                 wrapped(FLOAT32, 2), wrapped(PCM24, 1, valid=20), wrapped(PCM16, 2)[:39]):
        for frames in (0, 3, 2 ** 30 + 1):
            yield long(body=body, frames=frames)
            yield long(body=body, data=3 * 2 ** 30 + frames % 2)
    for left in range(10):
        first, size = long(frames=0)
        yield first[:-8], len(first) - 8 + left
        yield long(riff_size=len(first) - 16 + left)


def random(d, count):
    """Headers, mostly in order, with a few of their bytes changed, cut or longer."""
    for _ in range(count):
        kind, channels = d.of(KINDS), d.between(1, 2)
        body = wrapped(kind, channels) if d.bits(1) else fmt(kind, channels, more=d.of((b"", b"\0\0")))
        table = [(d.of((b"BIG ", b"LIST", b"junk")), d.of((4, d.bits(41), TOP, TOP + 1))) for _ in range(d.bits(2) % 3)]
        middle = [d.of((chunk(b"LIST", bytes(d.between(0, 5))), b"BIG " + struct.pack("<I", FULL) + b"1234"))
                  for _ in range(d.bits(2) % 3)]
        first, size = long(kind, channels, d.of((d.between(0, 9), d.bits(36))), d.of(NAMES + (b"RIFF",)), body=body,
                           table=table, middle=middle)
        whole = bytearray(first)
        for _ in range(d.between(0, 2)):
            k = d.of((d.between(0, len(whole) - 1), d.between(0, 50)))
            whole[k % len(whole)] ^= 1 << d.bits(3)
        at_hand = d.of((len(whole), len(whole), d.between(0, len(whole))))
        yield bytes(whole[:at_hand]), max(0, size + d.of((0, 0, 0, 1, 8, -1, -8, 2 ** 33)))


def headers(d):
    for made in (plain, ends, cut, openings, tables, walks):
        for first, size in made(d):
            yield made.__name__, first, size
    for first, size in random(d, 600):
        yield "random", first, size
