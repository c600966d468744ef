"""AIFF, RF64 and BW64 files as Apple's layout, EBU Tech 3306 and ITU-R BS.2088 describe them, made byte by byte; no
source is read here. A long file is sparse: the zeros behind its first bytes take no room on most disks."""
import os
import struct

from wave_files import WIDTH, chunk, fields


def extended(rate):
    """A whole number as an 80-bit extended one: its exponent, then 64 digits with the first one set."""
    exponent = rate.bit_length() - 1
    return struct.pack(">HQ", 16383 + exponent, rate << (63 - exponent))


def piece(name, body):
    """A chunk of a FORM: its size has the high byte first."""
    return name + struct.pack(">I", len(body)) + body + b"\0" * (len(body) % 2)


def form(*pieces, kind=b"AIFF"):
    body = kind + b"".join(pieces)
    return b"FORM" + struct.pack(">I", len(body)) + body


def turned(kind, body):
    """The bytes of each sample the other way round."""
    width = WIDTH[kind]
    return b"".join(body[k : k + width][::-1] for k in range(0, len(body), width))


def comm(channels, frames, bits, rate):
    return piece(b"COMM", struct.pack(">HIH", channels, frames, bits) + rate)


def aiff(kind, channels, rate, body, offset=0, samples_first=False, junk=b""):
    """An AIFF of a WAV's stored samples; an offset skips so many bytes; `SSND` may come before `COMM`."""
    frames = len(body) // (channels * WIDTH[kind])
    told = comm(channels, frames, 8 * WIDTH[kind], extended(rate))
    held = piece(b"SSND", struct.pack(">II", offset, 0) + b"\x55" * offset + turned(kind, body))
    return form(held, junk, told) if samples_first else form(told, junk, held)


def long_head(name, kind, channels, rate, size, wide=True, table=b"", junk=b""):
    """The first bytes of a file past RIFF, up to its samples: with `wide` the 32-bit sizes are at FFFFFFFF."""
    width = WIDTH[kind]
    fmt = fields(3 if kind == "float32" else 1, channels, rate, 8 * width)
    fact = b""
    if kind == "float32":
        fmt += b"\0\0"
        fact = chunk(b"fact", b"\xff" * 4)
    entries = len(table) // 12
    rest = chunk(b"fmt ", fmt) + fact + junk + b"data"
    riff = 4 + 36 + len(table) + len(rest) + 4 + size + size % 2
    ds64 = chunk(b"ds64", struct.pack("<QQQI", riff, size, size // (channels * width), entries) + table)
    fields32 = (0xFFFFFFFF, 0xFFFFFFFF) if wide else (riff, size)
    return name + struct.pack("<I", fields32[0]) + b"WAVE" + ds64 + rest + struct.pack("<I", fields32[1])


def sparse(name, head, size):
    """A file of this beginning, then zeros up to its size, and a pad byte behind an odd one."""
    with open(name, "wb") as file:
        file.write(head)
        file.truncate(len(head) + size + size % 2)
    return name


def put(name, place, content):
    """Writes over some bytes of a file."""
    with open(name, "r+b") as file:
        file.seek(place)
        file.write(content)


def room(name):
    """How many bytes of the disk a file takes."""
    return os.stat(name).st_blocks * 512
