"""AIFF as Wish 12 of document 02 says it: the model behind aiff.py, which knows no source of this repository. Where the
document names Apple's published layout, that decides.

A method or a constant of `Reading` is one of its sentences, so that a wrong reading changes a single one of them
(aiff_wrong.py).
"""
from fractions import Fraction

PCM16, PCM24 = range(2)


class Refused(Exception):
    """Carries the number."""


def number(some):
    return int.from_bytes(some, "big")


class Reading:
    """One or two channels, big-endian PCM 16 and 24."""

    def size(self, some):
        """The high byte of a size comes first."""
        return number(some)

    def end(self, file):
        """`FORM` bounds the walk as RIFF does."""
        return 8 + self.size(file[4:8])

    def is_aiff(self, file):
        """20: not AIFF. A FORM size under 4 holds no `AIFF`."""
        return len(file) >= 12 and file[:4] == b"FORM" and file[8:12] == b"AIFF" and self.size(file[4:8]) >= 4

    def form_fits(self, file):
        """Chunk overruns are 10; the FORM counts as a chunk, as the RIFF does."""
        return self.end(file) <= len(file)

    def behind(self, body, size):
        """Unknown chunks are skipped with their pad byte."""
        return body + size + size % 2

    def overruns(self, file, body, size):
        return body + size > self.end(file)

    # Fewer than 8 bytes left over are ignored.
    least_left = 8

    def ends(self, name, found):
        """All of it is walked."""
        return False

    def counts(self, name, found):
        """`COMM` and `SSND` in either order, the first of each counting."""
        return name not in found

    def walk(self, file):
        """The chunks by their identifiers, (body, size), and whether the last runs past the end."""
        found, at, end = {}, 12, min(self.end(file), len(file))
        while end - at >= self.least_left:
            name, size, body = file[at:at + 4], self.size(file[at + 4:at + 8]), at + 8
            if self.counts(name, found):
                found[name] = (body, size)
            if self.overruns(file, body, size):
                return found, True
            if self.ends(name, found):
                return found, False
            at = self.behind(body, size)
        return found, False

    def head(self, file, found, name, most):
        """The first bytes of a chunk, and none behind it."""
        body, size = found.get(name, (0, 0))
        return file[body:body + min(size, most)]

    least_comm, least_ssnd = 18, 8

    def offset(self, ssnd):
        """`SSND`'s offset is skipped."""
        return number(ssnd[:4])

    def skipped(self, ssnd):
        """Its 8 bytes and the offset; its block size is ignored."""
        return 8 + self.offset(ssnd)

    def past(self, ssnd, size):
        """21: an offset past the end."""
        return self.skipped(ssnd) > size

    bits, channels = {16: PCM16, 24: PCM24}, (1, 2)

    def kind(self, comm):
        """13: kinds not listed."""
        channels, bits = number(comm[:2]), number(comm[6:8])
        if channels not in self.channels or bits not in self.bits:
            raise Refused(13)
        return self.bits[bits], channels

    def length(self, comm, kind, channels):
        return number(comm[2:6]) * channels * (2, 3)[kind]

    def too_many(self, comm, ssnd, size, length):
        """21: more frames than the bytes after the offset hold."""
        return self.skipped(ssnd) + length > size

    least, most = 8000, 768000

    def value(self, comm):
        """The 80-bit extended number, None for infinities and NaNs."""
        field, digits = number(comm[8:10]), number(comm[10:18])
        sign, exponent = -1 if field >> 15 else 1, field & 0x7FFF
        if exponent == 0x7FFF:
            return None
        return sign * digits * Fraction(2) ** (exponent - 16383 - 63)

    def rate(self, comm):
        """22: a rate that isn't a whole number from 8000 to 768000."""
        value = self.value(comm)
        if value is None or value.denominator != 1 or not self.least <= value <= self.most:
            raise Refused(22)
        return int(value)

    # 13 is tested between 21's offset test and its frame test, 22 comes last.
    order = ("parts", "kind", "frames", "rate")

    def read(self, file):
        """What the samples are and where: kind, channels, rate, start, length."""
        if not self.is_aiff(file):
            raise Refused(20)
        if not self.form_fits(file):
            raise Refused(10)
        found, overrun = self.walk(file)
        if overrun:
            raise Refused(10)
        comm, ssnd = self.head(file, found, b"COMM", 18), self.head(file, found, b"SSND", 8)
        body, size = found.get(b"SSND", (0, 0))
        kind, channels, rate, length = None, 0, None, 0
        for test in self.order:
            if test == "parts":
                if b"COMM" not in found or b"SSND" not in found or found[b"COMM"][1] < self.least_comm:
                    raise Refused(21)
                if size < self.least_ssnd or self.past(ssnd, size):
                    raise Refused(21)
            elif test == "kind":
                kind, channels = self.kind(comm)
            elif test == "frames":
                length = self.length(comm, PCM16 if kind is None else kind, channels or number(comm[:2]))
                if self.too_many(comm, ssnd, size, length):
                    raise Refused(21)
            else:
                rate = self.rate(comm)
        return kind, channels, rate, body + self.skipped(ssnd), length

    def told(self, file):
        """For who explains a refusal: the size of `COMM`, its fields, the size of `SSND` and its offset."""
        found, _ = self.walk(file)
        comm, ssnd = self.head(file, found, b"COMM", 18), self.head(file, found, b"SSND", 8)
        cuts = comm[:2], comm[2:6], comm[6:8], comm[8:10], comm[10:18]
        return (found.get(b"COMM", (0, 0))[1], *map(number, cuts), found.get(b"SSND", (0, 0))[1], number(ssnd[:4]))

    # ---- what the samples are worth: the meaning is the one of Wish 1

    def stored(self, some):
        return int.from_bytes(some, "big", signed=True)

    def whole(self, kind, some):
        """In units of 2^-23: PCM 24 as it is stored, PCM 16 × 256."""
        return self.stored(some) * (256 if kind == PCM16 else 1)

    def channel(self, file, sound, k):
        """One channel's samples as whole numbers."""
        kind, channels, _, start, length = sound
        width = (2, 3)[kind]
        part = file[start:start + length]
        for at in range(k * width, len(part), channels * width):
            yield self.whole(kind, part[at:at + width])
