"""Small AIFF files, whole and damaged, for aiff.py: the edges of document 02's Wish 12, and random damage. No answer is
computed here.
"""
import struct

HUGE = (0x7FFFFFFF, 0x80000000, 0xFFFFFFF0, 0xFFFFFFF7, 0xFFFFFFF8, 0xFFFFFFFE, 0xFFFFFFFF)
LITTLE = (0x04000000, 0x12000000, 0x08000000)           # small sizes, had their low byte come first


def extended(value, shift=0):
    """A whole number as an 80-bit extended one, its digits moved so many places to the right."""
    exponent = value.bit_length() - 1
    return struct.pack(">HQ", 16383 + exponent + shift, value << 63 - exponent >> shift)


def chunk(name, body, size=None, pad=b"\0"):
    return name + struct.pack(">I", len(body) if size is None else size) + body + (pad if len(body) % 2 else b"")


def form(*chunks, name=b"FORM", kind=b"AIFF", size=None, behind=b""):
    return chunk(name, kind + b"".join(chunks), size, pad=b"") + behind


def comm(channels=1, frames=0, bits=16, rate=None, more=b"", cut=None):
    """A `COMM`'s body, cut to so many bytes."""
    return (struct.pack(">HIH", channels, frames, bits) + (extended(44100) if rate is None else rate) + more)[:cut]


def ssnd(samples, offset=0, block=0, gap=b""):
    return struct.pack(">II", offset, block) + gap + samples


def stored(d, width, count):
    """So many stored samples: the ends of the width, what lies beside them, and any."""
    top = 256 ** width // 2
    edges = (0, 1, 2 * top - 1, top - 1, top, top + 1, 127, 128, 255, 256, 0x7FFF % (2 * top), 0x80FF)
    return b"".join((d.of(edges) if d.bits(2) else d.bits(8 * width)).to_bytes(width, "big") for _ in range(count))


def small(d, channels=1, bits=16, frames=3, **others):
    samples = stored(d, bits // 8, channels * frames)
    return form(chunk(b"COMM", comm(channels, frames, bits, **others)), chunk(b"SSND", ssnd(samples)))


def plain(d):
    """Whole files of every kind."""
    for bits in (16, 24):
        for channels in (1, 2):
            for rate in (8000, 44100, 48000, 96000, 192000, 768000):
                yield small(d, channels, bits, d.between(1, 24), rate=extended(rate))
            yield small(d, channels, bits, 0)
            yield small(d, channels, bits, 40)
            for more in (b"\0", b"more", bytes(24)):
                yield small(d, channels, bits, more=more)


def firsts(d):
    """20, and the FORM for 10."""
    whole = small(d, 2, 24, 1)
    yield from (b"", b"F", whole[:11], whole[:12], b"FORM\0\0\0\4AIF", b"FORM\0\0\0\4AIFF", b"FORM\0\0\0\3AIFF")
    for size in (0, 1, 2, 3, 4, 5, 11, 12, len(whole) - 9, len(whole) - 8, len(whole) - 7, len(whole)) + HUGE + LITTLE:
        yield whole[:4] + struct.pack(">I", size) + whole[8:]
        yield whole[:4] + struct.pack(">I", size) + whole[8:] + bytes(9)
    names = ("FORM AIFC", "FORM 8SVX", "form AIFF", "RIFF AIFF", "FORM aiff", "LIST AIFF", "AIFF FORM", "FORX AIFF")
    for name, kind in ((n[:4].encode(), n[5:].encode()) for n in names):
        yield name + whole[4:8] + kind + whole[12:]
        yield name + struct.pack(">I", len(whole)) + kind + whole[12:]      # 20 before 10
        yield name + struct.pack(">I", 3) + kind + whole[12:]


def cut(d):
    """A small file cut at every byte: with the FORM size that it had, and with one that fits."""
    sound = chunk(b"SSND", ssnd(stored(d, 3, 3)))
    whole = form(chunk(b"NAME", b"odd"), chunk(b"COMM", comm(1, 3, 24)), sound, chunk(b"ANNO", b"1234"))
    for k in range(len(whole) + 1):
        yield whole[:k]
        if k >= 12:
            yield whole[:4] + struct.pack(">I", k - 8) + whole[8:k]
            yield whole[:4] + struct.pack(">I", k - 8) + whole[8:]          # bytes behind the FORM's end do not count


def walks(d):
    """10, 21's missing chunks, and which chunks are found."""
    c, e = chunk(b"COMM", comm(1, 4, 16)), chunk(b"COMM", comm(2, 1, 24, extended(96000)))
    a, b = chunk(b"SSND", ssnd(stored(d, 2, 4))), chunk(b"SSND", ssnd(stored(d, 2, 8)))
    odd, even, bare = chunk(b"NAME", b"odd"), chunk(b"MARK", b"even"), chunk(b"NAME", b"odd", pad=b"")
    for parts in ((), (c,), (a,), (a, c), (c, a), (c, e, a), (e, c, a), (c, a, e), (a, c, e), (a, e, c), (c, a, b),
                  (c, b, a), (a, b, c), (b, a, c), (b, c, a), (odd, c, a), (c, odd, a), (a, odd, c), (odd, a, odd, c),
                  (even, c, odd, even, a, odd), (c, bare, a), (bare, c, a), (a, bare, c), (c, odd), (a, odd), (odd,),
                  (c, a, odd), (c, a, bare), (a, c, bare), (odd, even)):
        yield form(*parts)
        yield form(*parts, behind=b"1234567")
        yield form(*parts, b"1234567")                  # fewer than 8 bytes left over
        yield form(*parts, chunk(b"last", b"x", pad=b""))
        yield form(*parts, chunk(b"last", b"12345678", 9))                  # an overrun behind both
    for name in (b"comm", b"Comm", b"MMOC", b"COMN", b"ssnd", b"DNSS", b"SND ", b"SSNE"):
        yield form(chunk(name, comm(2, 1)), c, a)
        yield form(c, chunk(name, ssnd(b"1234")), a)
        yield form(chunk(name, comm(1, 4)), a)
        yield form(c, chunk(name, ssnd(b"1234")))
    for size in (0, 1, 2, 3, 7, 8, 9, 15, 16, 17, 18, 19) + HUGE + LITTLE:
        junk, sound = chunk(b"MARK", b"12345678", size), chunk(b"SSND", ssnd(b"12345678"), size)
        for whole in (form(junk, c, a), form(chunk(b"COMM", comm(1, 4), size), a), form(c, sound), form(c, a, junk),
                      form(sound, c), form(a, c, junk)):
            yield whole
            yield whole + b"12345678"


def parts(d):
    """21 but for missing chunks: sizes, offsets and frames; with 13 and 22 beside them."""
    for size in range(21):
        yield form(chunk(b"COMM", comm(1, 4, 16, more=b"\0\0", cut=size)), chunk(b"SSND", ssnd(stored(d, 2, 4))))
        yield form(chunk(b"SSND", ssnd(stored(d, 2, 4))), chunk(b"COMM", comm(3, 4, 8, cut=size)))
    for size in range(18):
        sound = ssnd(stored(d, 2, 6))[:size]
        for frames in (0, 1, 4):
            yield form(chunk(b"COMM", comm(1, frames)), chunk(b"SSND", sound))
            yield form(chunk(b"COMM", comm(9, frames)), chunk(b"SSND", sound))
    for bits in (16, 24):
        for channels in (1, 2):
            frame = channels * bits // 8
            last = 4 * frame
            for offset in (0, 1, 2, 3, frame, 2 * frame, 3 * frame, last - 1, last, last + 1, 1000) + HUGE:
                samples = stored(d, bits // 8, 4 * channels)
                for frames in (0, 1, 2, 3, 4):
                    for block in (0, 4, offset % 2 ** 32):
                        sound = chunk(b"SSND", ssnd(samples, offset, block))
                        yield form(chunk(b"COMM", comm(channels, frames, bits)), sound)
                yield form(chunk(b"COMM", comm(3, 0, bits)), chunk(b"SSND", ssnd(samples, offset)))     # 21 before 13
            for frames in (4, 5, 0x10000001, 2 ** 32 // frame + 1, 2 ** 31, 2 ** 32 - 1):
                for others in ({}, {"rate": bytes(10)}, {"channels": 3}, {"bits": 8}):
                    body = comm(**{"channels": channels, "frames": frames, "bits": bits, **others})
                    yield form(chunk(b"COMM", body), chunk(b"SSND", ssnd(stored(d, bits // 8, 4 * channels))))
            gap = bytes(range(7))
            yield form(chunk(b"COMM", comm(channels, 3, bits)), chunk(b"SSND", ssnd(stored(d, 3, 12), 7, 512, gap)))


def kinds(d):
    """13, and what comes beside it."""
    for channels in (0, 1, 2, 3, 4, 255, 256, 257, 258, 0x8001, 0xFFFF):
        for bits in (0, 1, 8, 12, 15, 16, 17, 20, 23, 24, 25, 32, 48, 64, 0x110, 0x8010, 0xFFFF):
            for frames, rate in ((1, None), (0, bytes(10)), (99, None), (99, bytes(10))):
                yield form(chunk(b"COMM", comm(channels, frames, bits, rate)), chunk(b"SSND", ssnd(bytes(12))))


def rates(d):
    """22: the 80-bit numbers on both sides of each end, and what is no number."""
    numbers = [7999, 8000, 8001, 11025, 22050, 44100, 48000, 88200, 262144, 524288, 767999, 768000, 768001, 2 ** 20]
    made = [extended(n, shift) for n in numbers for shift in (0, 1, 7, 40, 44, 50, 63)]
    right = (1, 125, 4000, 8000, 48000, 384000)
    made += [struct.pack(">HQ", 16446 + k, n) for k in (-1, 0, 1, 2, 6, 19, 20) for n in right]
    for top in (0, 0x8000):
        for exponent in (0, 1, 16382, 16383, 16396, 16402, 16446, 16447, 32766, 32767):
            made += [struct.pack(">HQ", top + exponent, n) for n in (0, 1, 2 ** 62, 2 ** 63, 0xAC44 << 48, 2 ** 64 - 1)]
    sign = lambda ten: bytes([ten[0] ^ 0x80]) + ten[1:]
    made += [sign(extended(n)) for n in (8000, 44100, 48000, 768000)]
    for n in (8000, 44100, 48000, 767999):
        whole = number(extended(n)[2:])
        made += [extended(n)[:2] + struct.pack(">Q", whole + (1 << k)) for k in (0, 1, 20, 40, 43, 44, 47, 48, 49)]
    for ten in made:
        yield small(d, 1, 16, 1, rate=ten)


def number(some):
    return int.from_bytes(some, "big")


def random(d, count):
    """Files of some chunks, with a few of their bytes changed, or a part taken out or doubled."""
    for _ in range(count):
        bits, channels, frames = d.of((16, 24)), d.between(1, 2), d.between(0, 4)
        all_parts = []
        for _ in range(d.between(0, 2)):
            name, body, pad = d.of((b"NAME", b"MARK", b"ANNO")), bytes(d.between(0, 5)), d.of((b"\0", b"\0", b""))
            all_parts.append(chunk(name, body, pad=pad))
        offset = d.of((0, 0, 0, 4, 3))
        sound = ssnd(stored(d, bits // 8, channels * frames), offset, d.of((0, 0, 512)), bytes(offset))
        rate = extended(d.of((8000, 44100, 48000, 96000)))
        all_parts.insert(d.between(0, len(all_parts)), chunk(b"COMM", comm(channels, frames, bits, rate)))
        all_parts.insert(d.between(0, len(all_parts)), chunk(b"SSND", sound))
        whole = bytearray(form(*all_parts, behind=bytes(d.between(0, 3) * d.bits(1))))
        for _ in range(d.between(0, 2)):
            k = d.of((d.between(0, len(whole) - 1), d.between(0, 53)))
            what = d.bits(2)
            if what == 0:
                del whole[k:k + d.between(1, 8)]
            elif what == 1:
                whole[k:k] = whole[k:k + d.between(1, 8)]
            else:
                whole[k % len(whole)] ^= 1 << d.bits(3)
        yield bytes(whole)


def files(d):
    for made in (plain, firsts, cut, walks, parts, kinds, rates):
        for file in made(d):
            yield made.__name__, file
    for file in random(d, 400):
        yield "random", file
