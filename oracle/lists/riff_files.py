"""Small RIFF WAVE files, whole and damaged, for files.py: the edges of document 02's Wish 1, and random damage. No answer
is computed here.
"""
import struct

from riff_model import FLOAT32, PCM16, PCM24, TAIL

WIDTH = {PCM16: 2, PCM24: 3, FLOAT32: 4}
KINDS = (PCM16, PCM24, FLOAT32)
HUGE = (0x7FFFFFFF, 0x80000000, 0xFFFFFFF0, 0xFFFFFFF7, 0xFFFFFFF8, 0xFFFFFFFE, 0xFFFFFFFF)


def chunk(name, body, size=None, pad=b"\0"):
    """An identifier, a size, the body's unless another is given, the body, and a pad byte behind an odd one."""
    return name + struct.pack("<I", len(body) if size is None else size) + body + (pad if len(body) % 2 else b"")


def riff(*chunks, name=b"RIFF", form=b"WAVE", size=None, behind=b""):
    return chunk(name, form + b"".join(chunks), size, pad=b"") + behind


def fmt(kind=PCM16, channels=1, rate=44100, tag=None, block=None, bits=None, more=b"", cut=None):
    """A `fmt `'s body; `more` stands behind its 16 bytes, and it is cut to so many."""
    width = WIDTH[kind]
    tag = (3 if kind == FLOAT32 else 1) if tag is None else tag
    block = channels * width if block is None else block
    bits = 8 * width if bits is None else bits
    return (struct.pack("<HHIIHH", tag, channels, rate, rate * channels * width % 2 ** 32, block, bits) + more)[:cut]


def wrapped(kind=PCM16, channels=1, rate=96000, extension=22, valid=None, inside=None, tail=TAIL, more=b"", **others):
    """A `fmt ` of 40 bytes and more, tag FFFE."""
    valid = 8 * WIDTH[kind] if valid is None else valid
    inside = (3 if kind == FLOAT32 else 1) if inside is None else inside
    behind = struct.pack("<HHII", extension, valid, 4, inside) + tail + more
    return fmt(kind, channels, rate, **{"tag": 0xFFFE, **others}, more=behind)


def stored(d, kind, count):
    """So many stored samples: the ends of the width, what lies beside them, and any."""
    width = WIDTH[kind]
    if kind == FLOAT32:
        edges = (0, 0x80000000, 1, 0x807FFFFF, 0x00800000, 0x3F800000, 0xBF800000, 0x7F7FFFFF, 0x7F800000, 0xFF800000,
                 0x7FC00000, 0xFFC00001, 0x7F800001)
    else:
        top = 256 ** width // 2
        edges = (0, 1, 2 * top - 1, top - 1, top, top + 1, 127, 128, 255, 256, 0x7FFF % (2 * top), 0x80FF)
    return b"".join((d.of(edges) if d.bits(2) else d.bits(8 * width)).to_bytes(width, "little") for _ in range(count))


def small(d, kind, channels, frames=3, **others):
    """A whole file: `fmt ` and `data`."""
    return riff(chunk(b"fmt ", fmt(kind, channels, **others)), chunk(b"data", stored(d, kind, channels * frames)))


def plain(d):
    """Whole files of every kind."""
    for kind in KINDS:
        for channels in (1, 2):
            for rate in (44100, 48000, 96000):
                yield small(d, kind, channels, d.between(1, 24), rate=rate)
            yield small(d, kind, channels, 24, rate=d.of((0, 1, 2 ** 31, 2 ** 32 - 1)))
            yield small(d, kind, channels, 0)
            for more in (b"\0\0", b"\0", b"\1\2\3\4", bytes(24)):
                yield small(d, kind, channels, more=more)


def firsts(d):
    """9, and the RIFF for 10."""
    whole = small(d, PCM24, 2, 1)
    yield from (b"", b"R", whole[:11], whole[:12], b"RIFF\4\0\0\0WAV", b"RIFF\4\0\0\0WAVE", b"RIFF\3\0\0\0WAVE")
    for size in (0, 1, 2, 3, 4, 5, 11, 12, len(whole) - 9, len(whole) - 8, len(whole) - 7, len(whole)) + HUGE:
        yield whole[:4] + struct.pack("<I", size) + whole[8:]
        yield whole[:4] + struct.pack("<I", size) + whole[8:] + bytes(9)
    names = ("RIFX WAVE", "riff WAVE", "FORM WAVE", "RF64 WAVE", "RIFF WAVF", "RIFF AVI ", "WAVE RIFF")
    for name, form in ((n[:4].encode(), n[5:].encode()) for n in names):
        yield name + whole[4:8] + form + whole[12:]
        yield name + struct.pack("<I", len(whole)) + form + whole[12:]      # 9 before 10
        yield name + struct.pack("<I", 3) + form + whole[12:]


def cut(d):
    """A small file cut at every byte: with the RIFF size that it had, and with one that fits."""
    data = chunk(b"data", stored(d, PCM24, 3))
    whole = riff(chunk(b"LIST", b"odd"), chunk(b"fmt ", fmt(PCM24, 1)), data, chunk(b"junk", b"1234"))
    for k in range(len(whole) + 1):
        yield whole[:k]
        if k >= 12:
            yield whole[:4] + struct.pack("<I", k - 8) + whole[8:k]
            yield whole[:4] + struct.pack("<I", k - 8) + whole[8:]          # bytes behind the RIFF's end do not count


def walks(d):
    """10, 11, 12, and which chunks are found."""
    f, g = chunk(b"fmt ", fmt(PCM16, 1)), chunk(b"fmt ", fmt(FLOAT32, 2))
    a, b = chunk(b"data", stored(d, PCM16, 4)), chunk(b"data", stored(d, PCM16, 8))
    odd, even = chunk(b"LIST", b"odd"), chunk(b"junk", b"even")
    bare = chunk(b"LIST", b"odd", pad=b"")
    for parts in ((), (f,), (a,), (a, f), (f, a), (g, f, a), (f, g, a), (f, a, b), (f, b, a), (f, a, g), (f, a, f),
                  (a, f, a), (a, f, b), (odd, f, a), (even, f, a), (f, odd, a), (f, even, a), (f, odd, even, a),
                  (odd, odd, f, odd, odd, a), (f, bare, a), (bare, f, a), (f, odd), (f, bare), (odd,), (bare,),
                  (even, odd), (f, odd, b, odd, a), (odd, a), (bare, a), (a, bare), (f, f, a, a), (g, a), (f, a, bare)):
        yield riff(*parts)
        yield riff(*parts, behind=b"1234567")
        yield riff(*parts, b"1234567")                  # fewer than 8 bytes left over
        yield riff(*parts, chunk(b"last", b"x", pad=b""))
    for name in (b"fmt\0", b"FMT ", b" fmt", b"fmt_", b"Data", b"DATA", b"dat ", b"atad", b" tmf"):
        yield riff(chunk(name, fmt(PCM16, 1)), f, a)
        yield riff(f, chunk(name, b"1234"), a)
        yield riff(chunk(name, fmt(PCM16, 1)), a)
        yield riff(f, chunk(name, b"1234"))
    for size in (0, 1, 2, 3, 7, 8, 9, 15, 16, 17) + HUGE:
        junk, data = chunk(b"junk", b"12345678", size), chunk(b"data", b"12345678", size)
        for whole in (riff(junk, f, a), riff(chunk(b"fmt ", fmt(PCM16, 1), size), a), riff(f, data), riff(f, a, junk),
                      riff(data, f), riff(f, junk)):
            yield whole
            yield whole + b"12345678"
    for left in range(18):
        yield riff(f, b"data\0\0\0\0"[:left] + bytes(max(0, left - 8)))
        yield riff(f, odd, bytes(left))
        yield riff(f, bytes(left), a)
    for n in range(9):
        yield riff(f, chunk(b"data", bytes(range(n)), pad=b""))
        yield riff(f, chunk(b"data", bytes(range(n))), a)


def formats(d):
    """13, and what comes before it."""
    tags = (0, 1, 2, 3, 4, 6, 7, 0x101, 0x103, 0x8001, 0xFFFD, 0xFFFE, 0xFFFF)
    bits = (0, 1, 8, 12, 15, 16, 17, 20, 23, 24, 25, 31, 32, 33, 40, 48, 64, 0x110, 0x8010, 0xFFFF)
    for kind in KINDS:
        width = WIDTH[kind]
        a = stored(d, kind, 4)
        for tag in tags:
            yield riff(chunk(b"fmt ", fmt(kind, 1, tag=tag)), chunk(b"data", a))
        for n in bits:
            yield riff(chunk(b"fmt ", fmt(kind, 1, bits=n)), chunk(b"data", a))
            yield riff(chunk(b"fmt ", fmt(kind, 1, bits=n, block=n // 8 % 65536)), chunk(b"data", bytes(240)))
        for channels in (0, 1, 2, 3, 4, 255, 256, 257, 258, 0xFFFF):
            for block in {channels * width % 65536, width, 2 * width, 0}:
                yield riff(chunk(b"fmt ", fmt(kind, channels, block=block)), chunk(b"data", bytes(12 * width)))
        beside = [n * width + k for n in (1, 2) for k in (-1, 0, 1)]
        for block in beside + [0, 1, 4 * width, 256 * width, 0x8000 + width]:
            for channels in (1, 2):
                yield riff(chunk(b"fmt ", fmt(kind, channels, block=block)), chunk(b"data", a))
        for channels in (1, 2):
            for size in range(4 * width + 2):
                yield riff(chunk(b"fmt ", fmt(kind, channels)), chunk(b"data", (a * 2)[:size]))
        for size in range(20):
            yield riff(chunk(b"fmt ", fmt(kind, 1, more=b"\0\0\0\0", cut=size)), chunk(b"data", a))
        for size in (0, 2, 14, 15, 16):
            yield riff(chunk(b"fmt ", fmt(kind, 1, cut=size)))                              # 12 before 13
            yield riff(chunk(b"data", a), chunk(b"fmt ", fmt(kind, 1, cut=size)))           # 11 before 13
            yield riff(chunk(b"fmt ", fmt(kind, 1, cut=size)), chunk(b"fmt ", fmt(kind, 1)), chunk(b"data", a))


def wraps(d):
    """Tag FFFE: good ones, and each condition broken."""
    for kind in KINDS:
        for channels in (1, 2):
            data = chunk(b"data", stored(d, kind, 4 * channels))
            bits = 8 * WIDTH[kind]
            changes = {"extension": (22, 21, 23, 0, 65535), "valid": (0, bits - 4, bits + 1), "tag": (1, 3, 0xFFFD),
                       "inside": (0, 1, 2, 3, 0x10001, 0x1000003, 0xFFFE), "bits": (8, 16, 24, 32), "block": (1,),
                       "more": (b"\0", b"more")}
            for name, others in changes.items():
                for other in others:
                    yield riff(chunk(b"fmt ", wrapped(kind, channels, **{name: other})), data)
            for size in (15, 16, 18, 24, 26, 28, 38, 39):
                yield riff(chunk(b"fmt ", wrapped(kind, channels)[:size]), data)
            # the tail's last bytes stand behind `fmt `
            yield riff(chunk(b"fmt ", wrapped(kind, channels)[:39], pad=TAIL[11:]), data)
            yield riff(chunk(b"fmt ", wrapped(kind, channels)[:38]), chunk(TAIL[10:] + b"..", b""), data)
            for k in range(12):
                tail = TAIL[:k] + bytes([TAIL[k] ^ 1]) + TAIL[k + 1:]
                yield riff(chunk(b"fmt ", wrapped(kind, channels, tail=tail)), data)
            yield riff(chunk(b"fmt ", wrapped(kind, channels)), chunk(b"data", stored(d, kind, 3) + b"x"))
        yield riff(chunk(b"fmt ", wrapped(kind, 3)), chunk(b"data", bytes(12)))
        fact, data = chunk(b"fact", b"1234"), chunk(b"data", stored(d, kind, 6))
        yield riff(chunk(b"LIST", b"odd"), chunk(b"fmt ", wrapped(kind, 2)), fact, data, behind=b"123")


def random(d, count):
    """Files of some chunks, mostly in order, with a few of their bytes changed, or a part taken out or doubled."""
    for _ in range(count):
        kind, channels = d.of(KINDS), d.between(1, 2)
        parts = []
        for _ in range(d.between(0, 2)):
            name, body, pad = d.of((b"LIST", b"fact", b"junk")), bytes(d.between(0, 5)), d.of((b"\0", b"\0", b""))
            parts.append(chunk(name, body, pad=pad))
        body = wrapped(kind, channels) if d.bits(1) else fmt(kind, channels, more=d.of((b"", b"", b"\0\0")))
        parts.insert(d.between(0, len(parts)), chunk(b"fmt ", body))
        parts.insert(d.between(1, len(parts)), chunk(b"data", stored(d, kind, channels * d.between(0, 4))))
        whole = bytearray(riff(*parts, behind=bytes(d.between(0, 3) * d.bits(1))))
        for _ in range(d.between(0, 2)):
            k = d.of((d.between(0, len(whole) - 1), d.between(0, 43)))
            what = d.bits(2)
            if what == 0:
                del whole[k:k + d.between(1, 8)]
            elif what == 1:
                whole[k:k] = whole[k:k + d.between(1, 8)]
            else:
                whole[k % len(whole)] ^= 1 << d.bits(3)
        yield bytes(whole)


def files(d):
    for made in (plain, firsts, cut, walks, formats, wraps):
        for file in made(d):
            yield made.__name__, file
    for file in random(d, 400):
        yield "random", file
