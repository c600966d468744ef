"""RIFF WAVE files as document 02 and the published layouts describe them, made byte by byte; no source is read here."""
import struct
from fractions import Fraction

WORDS = {"pcm16": "PCM of 16 bits", "pcm24": "PCM of 24 bits", "float32": "float of 32 bits"}
WIDTH = {"pcm16": 2, "pcm24": 3, "float32": 4}
# What stands behind the tag in the name of a kind inside WAVE_FORMAT_EXTENSIBLE.
TAIL = bytes.fromhex("000000001000800000aa00389b71")

# The first bytes of a file of 44 frames, PCM of 24 bits, one channel, 44100 Hz, as sox 14.4.2 and ffmpeg 5.1 write it.
SOX = bytes.fromhex(
    "52494646cc00000057415645666d742028000000feff010044ac0000cc04020003001800160018000400000001000000000010008000"
    "00aa00389b7166616374040000002c0000006461746184000000"
)
FFMPEG = bytes.fromhex(
    "52494646e200000057415645666d742028000000feff010044ac0000cc04020003001800160018000400000001000000000010008000"
    "00aa00389b714c4953541a000000494e464f495346540e0000004c61766635392e32372e313030006461746184000000"
)


def chunk(name, body):
    return name + struct.pack("<I", len(body)) + body + b"\0" * (len(body) % 2)


def riff(*chunks):
    body = b"WAVE" + b"".join(chunks)
    return b"RIFF" + struct.pack("<I", len(body)) + body


def fields(tag, channels, rate, bits):
    frame = channels * bits // 8
    return struct.pack("<HHIIHH", tag, channels, rate, rate * frame, frame, bits)


def wav(kind, channels, rate, body, wrapped=False, junk=b""):
    """A file of one of the three kinds; a wrapped one as WAVE_FORMAT_EXTENSIBLE; `junk` stands before `data`."""
    bits = 8 * WIDTH[kind]
    tag = 3 if kind == "float32" else 1
    fmt = fields(tag, channels, rate, bits)
    fact = b""
    if wrapped:
        fmt = fields(0xFFFE, channels, rate, bits) + struct.pack("<HHIH", 22, bits, 0, tag) + TAIL
    elif kind == "float32":
        fmt += b"\0\0"
        fact = chunk(b"fact", struct.pack("<I", len(body) // (channels * WIDTH[kind])))
    return riff(chunk(b"fmt ", fmt), fact, junk, chunk(b"data", body))


def stored(kind, samples):
    """The bytes of samples: whole numbers for PCM, floats for float32."""
    if kind == "float32":
        return struct.pack(f"<{len(samples)}f", *samples)
    return b"".join((n % 2 ** (8 * WIDTH[kind])).to_bytes(WIDTH[kind], "little") for n in samples)


def single(x):
    """The nearest float of 32 bits."""
    return struct.unpack("<f", struct.pack("<f", x))[0]


def nearest(x, width):
    """W2d: the nearest whole number, ties to even, or None where it does not fit."""
    n = round(Fraction(x) * 2 ** (8 * width - 1))
    return n if -(2 ** (8 * width - 1)) <= n < 2 ** (8 * width - 1) else None


def drawn(between, kind, count):
    """Samples of a kind as they are stored, and as whole numbers of 24 bits; `between` draws from both ends on."""
    if kind == "float32":
        samples = [single(between(-(2**30), 2**30 - 2**7) / 2**30) for _ in range(count)]
        return samples, [nearest(x, 3) for x in samples]
    half = 2 ** (8 * WIDTH[kind] - 1)
    samples = [between(-half, half - 1) for _ in range(count)]
    return samples, [n * 2**23 // half for n in samples]
