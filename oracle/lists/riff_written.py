"""RIFF WAVE written as Wish 2 of document 02 and the published layout say it, from those texts alone: the model behind
written.py. A method or a constant of `Writing` is one of their sentences, so that a wrong writing is one that changes a
single one of them. Values are exact fractions; nothing here computes with a float.
"""
from fractions import Fraction

from exact import F32, F64, narrow

PCM16, PCM24, FLOAT32 = range(3)


class Refused(Exception):
    """Carries the number."""


def little(n, size):
    return (n % 256 ** size).to_bytes(size, "little")


def chunk(name, body):
    return name + little(len(body), 4) + body


class Writing:
    """The three kinds of Wish 1 into a lent buffer."""
    order = (1, 13, 14, 15)

    def nearest(self, value):
        """Rounded to nearest, ties to even."""
        return round(value)

    def fits(self, n, top):
        """15: the rounded value does not fit the PCM width; -1 is held and 1 is not."""
        return -top <= n < top

    def amount(self, part):
        """The value that is rounded: the very one that was handed in."""
        return part[2] * (-1) ** part[1]

    def stored(self, kind, f, word):
        """A sample's bytes. 15: NaN, or infinite as a float."""
        part = f.parts(word)
        if kind == FLOAT32:
            bits = word if f is F32 else narrow(word)
            if F32.parts(bits)[0] != "fin":
                raise Refused(15)
            return little(bits, 4)
        top = 2 ** (15 if kind == PCM16 else 23)
        if part[0] != "fin":
            raise Refused(15)
        n = self.nearest(self.amount(part) * top)
        if not self.fits(n, top):
            raise Refused(15)
        return little(n, kind + 2)

    def size(self, kind, samples):
        return len(samples) * (kind + 2)

    def pad(self, size):
        """A chunk of an odd size has a pad byte, which its size does not count and the RIFF's does."""
        return size % 2

    def counted(self, pad):
        return pad

    counted_before = 8      # of the file's length the RIFF's size leaves out its own 8 bytes

    def frames(self, channels, samples):
        """What `fact` has: the number of frames."""
        return len(samples) // channels

    def format(self, kind, channels, rate, samples):
        """Every kind but PCM has the size of an extension, which is 0, and a `fact`."""
        frame = channels * (kind + 2)
        body = little(3 if kind == FLOAT32 else 1, 2) + little(channels, 2) + little(rate, 4)
        body += little(rate * frame, 4) + little(frame, 2) + little(8 * (kind + 2), 2)
        if kind != FLOAT32:
            return chunk(b"fmt ", body)
        return chunk(b"fmt ", body + little(0, 2)) + chunk(b"fact", little(self.frames(channels, samples), 4))

    def length(self, kind, samples):
        size = self.size(kind, samples)
        return (58 if kind == FLOAT32 else 44) + size + self.pad(size)

    def header(self, kind, channels, rate, samples):
        size = self.size(kind, samples)
        riff = self.length(kind, samples) - self.pad(size) + self.counted(self.pad(size)) - self.counted_before
        start = b"RIFF" + little(riff, 4) + b"WAVE" + self.format(kind, channels, rate, samples)
        return start + b"data" + little(size, 4)

    rates = (8000, 768000)  # a rate is a setting wherever it is handed in

    # ---- refusals
    def test(self, number, kind, channels, rate, samples, f, room):
        """1 covers a rate out of range and a count of broken frames. 13 a kind not listed: one or two channels. 14 the
        buffer is shorter than the file. 15 a sample is out of range or NaN."""
        if number == 1:
            return self.rates[0] <= rate <= self.rates[1] and (channels not in (1, 2) or len(samples) % channels == 0)
        if number == 13:
            return channels in (1, 2)
        if number == 14:
            return self.length(kind, samples) <= room
        try:
            [self.stored(kind, f, word) for word in samples]
            return True
        except Refused:
            return False

    def behind(self, old):
        """Bytes past the written length stay as they were."""
        return old

    def left(self, number, call, old):
        """A refused call writes nothing."""
        return old

    def write(self, kind, channels, rate, room, f, samples, old):
        """The refusal's number, the length, and the buffer afterwards."""
        call = (kind, channels, rate, samples, f, room)
        for number in self.order:
            if not self.test(number, *call):
                return number, 0, self.left(number, call, old)
        length = self.length(kind, samples)
        file = self.header(kind, channels, rate, samples) + b"".join(self.stored(kind, f, word) for word in samples)
        file += bytes(length - len(file))
        return 0, length, file + self.behind(old[length:])

    def told(self, kind, channels, samples):
        """How long the file is; 0 where 1 or 13 is due whatever the rate."""
        good = channels in (1, 2) and len(samples) % channels == 0
        return self.length(kind, samples) if good else 0


# ---- writings that differ in one sentence
def wrong(name, **changed):
    return name, type("Wrong", (Writing,), changed)


def by_way_of_f32(s, part):
    return F32.value(F32.rounded(part[1], min(part[2], Fraction(2) ** 100))) if part[2] else Fraction(0)


def header_left(s, number, call, old):
    kind, channels, rate, samples, _, _ = call
    head = s.header(kind, channels, rate, samples) if number == 15 else b""
    return head + old[len(head):]


def away(s, value):
    n = (abs(value) + Fraction(1, 2)).__floor__()
    return n if value >= 0 else -n


def clipped(s, kind, f, word):
    part = f.parts(word)
    if kind == FLOAT32 or part[0] != "fin":
        return Writing.stored(s, kind, f, word)
    top = 2 ** (15 if kind == PCM16 else 23)
    return little(max(-top, min(top - 1, round(s.amount(part) * top))), kind + 2)


def one_fits(s, kind, f, word):
    part = f.parts(word)
    one = kind != FLOAT32 and part == ("fin", 0, 1)
    return little(2 ** (8 * (kind + 2) - 1) - 1, kind + 2) if one else Writing.stored(s, kind, f, word)


def infinite_stored(s, kind, f, word):
    bits = word if f is F32 else narrow(word)
    infinite = kind == FLOAT32 and F32.parts(bits)[0] == "inf"
    return little(bits, 4) if infinite else Writing.stored(s, kind, f, word)


def nan_is_zero(s, kind, f, word):
    return Writing.stored(s, kind, f, 0 if f.parts(word)[0] == "nan" else word)


WRONG = [
    wrong("clips", stored=clipped),
    wrong("cuts towards zero", nearest=lambda s, v: int(v)),
    wrong("cuts towards minus infinity", nearest=lambda s, v: v.__floor__()),
    wrong("ties away from zero", nearest=away),
    wrong("ties upwards", nearest=lambda s, v: (v + Fraction(1, 2)).__floor__()),
    wrong("1.0 stored as the greatest", stored=one_fits),
    wrong("-1.0 refused", fits=lambda s, n, top: -top < n < top),
    wrong("1.0 fits", fits=lambda s, n, top: -top <= n <= top),
    wrong("PCM by way of f32", amount=by_way_of_f32),
    wrong("an infinity is stored as a float", stored=infinite_stored),
    wrong("a NaN is stored as 0", stored=nan_is_zero),
    wrong("15 before 14", order=(1, 13, 15, 14)),
    wrong("14 before 13", order=(1, 14, 13, 15)),
    wrong("13 before 1", order=(13, 1, 14, 15)),
    wrong("the rate is not looked at", rates=(0, 2 ** 32 - 1)),
    wrong("a rate of 8000 refused", rates=(8001, 768000)),
    wrong("a rate of 768001", rates=(8000, 768001)),
    wrong("broken frames accepted",
          test=lambda s, n, k, c, *rest: Writing.test(s, n, k, 1 if (n, c) == (1, 2) else c, *rest)),
    wrong("three channels", test=lambda s, n, k, c, *rest: (n, c) == (13, 3) or Writing.test(s, n, k, c, *rest)),
    wrong("a buffer of exactly the length refused",
          test=lambda s, n, *call: Writing.test(s, n, *call[:5], call[5] - (n == 14))),
    wrong("a header, then 15", left=header_left),
    wrong("the RIFF's size counts from 0", counted_before=0),
    wrong("the pad is not counted by the RIFF's size", counted=lambda s, pad: 0),
    wrong("no pad byte", pad=lambda s, size: 0),
    wrong("a pad byte behind every data", pad=lambda s, size: 1),
    wrong("the tail cleared", behind=lambda s, old: bytes(len(old))),
    wrong("`fact` counts samples", frames=lambda s, channels, samples: len(samples)),
]
