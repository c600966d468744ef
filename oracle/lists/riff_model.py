"""RIFF WAVE as Wish 1 of document 02 says it: the model behind files.py, which knows no source of this repository.
Wrapped kinds, of which the document says nothing, follow the published layout of WAVE_FORMAT_EXTENSIBLE.

A method or a constant of `Reading` is one of its sentences, so that a wrong reading changes a single one of them
(riff_wrong.py).
"""
import struct

PCM16, PCM24, FLOAT32 = range(3)
TAIL = bytes.fromhex("000010008000 00AA00389B71")     # behind the four bytes of the tag: -0000-0010-8000-00AA00389B71


class Refused(Exception):
    """Carries the number."""


def number(some):
    return int.from_bytes(some, "little")


class Reading:
    """`fmt ` with PCM 16 and 24 bit or IEEE float 32, one or two channels."""
    wrapped = False

    def end(self, file):
        """The RIFF size bounds the walk."""
        return 8 + number(file[4:8])

    def is_wave(self, file):
        """9: not RIFF WAVE or a RIFF size under 4."""
        return len(file) >= 12 and file[:4] == b"RIFF" and file[8:12] == b"WAVE" and number(file[4:8]) >= 4

    def riff_fits(self, file):
        """The RIFF counts as a chunk for 10."""
        return self.end(file) <= len(file)

    def behind(self, body, size):
        """Unknown chunks are skipped with their pad byte."""
        return body + size + size % 2

    def overruns(self, file, body, size):
        """10: a chunk runs past the end. A missing last pad byte is ignored."""
        return body + size > self.end(file)

    # Fewer than 8 bytes left over are ignored.
    least_left = 8
    leftover = False

    def ends(self, name):
        """The walk ends with the first `data`."""
        return name == b"data"

    def counts(self, name, found):
        """The first `fmt ` counts, and the first `data`."""
        return name not in found

    def walk(self, file):
        """The chunks by their identifiers, (body, size), and whether the last runs past the end."""
        found, at, end = {}, 12, min(self.end(file), len(file))
        while end - at >= self.least_left:
            name, size, body = file[at:at + 4], number(file[at + 4:at + 8]), at + 8
            if self.counts(name, found):
                found[name] = (body, size)
            if self.overruns(file, body, size):
                return found, True
            if self.ends(name):
                return found, False
            at = self.behind(body, size)
        return found, self.leftover and end > at

    def format(self, file, found):
        """The body of `fmt `, and no byte behind it."""
        body, size = found.get(b"fmt ", (0, 0))
        return file[body:body + size]

    def fields(self, fmt):
        """Tag, channels, rate, byte rate, block size, bits; a byte that is missing counts as 0."""
        return struct.unpack("<HHIIHH", fmt[:16].ljust(16, b"\0"))

    def tag(self, fmt):
        """FFFE is unwrapped only where that is asked for."""
        tag, bits = self.fields(fmt)[0], self.fields(fmt)[5]
        return self.inside(fmt, bits) if self.wrapped and tag == 0xFFFE else tag

    def wraps(self, fmt, bits):
        """A `fmt ` of 40 bytes or more, an extension of 22 or more, all bits valid, and the tail of all such kinds."""
        return len(fmt) >= 40, number(fmt[16:18]) >= 22, number(fmt[18:20]) == bits, fmt[28:40] == TAIL

    def inside(self, fmt, bits):
        return number(fmt[24:28]) if all(self.wraps(fmt, bits)) else None

    kinds = {(1, 16): PCM16, (1, 24): PCM24, (3, 32): FLOAT32}
    least = 16
    channels = (1, 2)

    def block(self, channels, bits, told):
        """Channels × bytes, whatever the file tells."""
        return channels * (bits // 8)

    def broken(self, size, block):
        return block == 0 or size % block != 0

    def kind(self, fmt, size):
        """13: a kind not listed, a `fmt ` under 16 bytes, a block size other than channels × bytes or a `data` of
        broken frames."""
        _, channels, _, _, block, bits = self.fields(fmt)
        kind = self.kinds.get((self.tag(fmt), bits))
        if len(fmt) < self.least or kind is None or channels not in self.channels:
            raise Refused(13)
        if block != self.block(channels, bits, block) or self.broken(size, block):
            raise Refused(13)
        return kind

    order = (11, 12, 13)

    def read(self, file):
        """What the samples are and where: kind, channels, rate, start, length."""
        if not self.is_wave(file):
            raise Refused(9)
        if not self.riff_fits(file):
            raise Refused(10)
        found, overrun = self.walk(file)
        if overrun:
            raise Refused(10)
        start, length = found.get(b"data", (0, 0))
        fmt = self.format(file, found)
        for no in self.order:
            if no == 11 and b"fmt " not in found or no == 12 and b"data" not in found:
                raise Refused(no)
            if no == 13:
                kind = self.kind(fmt, length)
        return kind, self.fields(fmt)[1], self.fields(fmt)[2], start, length

    def told(self, file):
        """For who explains a refusal: the size of `fmt `, its fields, the size of `data`; zeros where there is none."""
        found, _ = self.walk(file)
        tag, channels, _, _, block, bits = self.fields(self.format(file, found))
        return found.get(b"fmt ", (0, 0))[1], tag, channels, block, bits, found.get(b"data", (0, 0))[1]

    # ---- what the samples are worth

    def whole(self, kind, stored):
        """In units of 2^-23: PCM 24 as it is stored, PCM 16 × 256."""
        n = int.from_bytes(stored, "little", signed=True)
        return n * 256 if kind == PCM16 else n

    def value(self, kind, stored):
        """PCM becomes whole multiples of 2^-15 or 2^-23; a float is what is stored."""
        if kind == FLOAT32:
            return struct.unpack("<f", stored)[0]
        return int.from_bytes(stored, "little", signed=True) / (2 ** 15 if kind == PCM16 else 2 ** 23)

    def channel(self, file, wave, k):
        """One channel's stored samples, each as (value, whole number or 0)."""
        kind, channels, _, start, length = wave
        width = (2, 3, 4)[kind]
        part = file[start:start + length]
        for at in range(k * width, len(part), channels * width):
            stored = part[at:at + width].ljust(width, b"\0")
            yield self.value(kind, stored), 0 if kind == FLOAT32 else self.whole(kind, stored)
