"""Headers of WAV files of any length as Wishes 2 and 10 of document 02 say them, with the layout of EBU Tech 3306 and
ITU-R BS.2088: the model behind the headers of written.py. What fits RIFF is riff_written.py's. A method or a constant of
`Heading` is one sentence, so that a wrong heading is one that changes a single one of them.
"""
from riff_written import FLOAT32, Writing, chunk, little

FULL = 2 ** 32 - 1
FORMS = (b"RF64", b"BW64")


class Heading:
    order = (1, 19, 13, 14)
    largest = 2 ** 40

    def size(self, kind, count):
        return count * (kind + 2)

    def padded(self, kind, count):
        """The samples' bytes with the pad byte behind an odd number of them."""
        return self.size(kind, count) + self.size(kind, count) % 2

    def fits(self, kind, count):
        """A file that fits RIFF is still written as RIFF."""
        return (58 if kind == FLOAT32 else 44) + self.padded(kind, count) - 8 <= FULL

    def length(self, kind, count):
        """`ds64` takes 36 bytes."""
        return (58 if kind == FLOAT32 else 44) + (0 if self.fits(kind, count) else 36)

    def letters(self, form):
        return form

    def numbers(self, riff, size, frames):
        """The RIFF's size, that of `data`, the frames."""
        return riff, size, frames

    def fact(self, frames):
        """32-bit sizes at FFFFFFFF."""
        return FULL

    def riff(self, kind, count):
        return self.length(kind, count) + self.padded(kind, count) - 8

    def sizes(self, kind, channels, count):
        """True sizes in `ds64`, which comes first and has no table."""
        numbers = self.numbers(self.riff(kind, count), self.size(kind, count), count // channels)
        return chunk(b"ds64", b"".join(little(n, 8) for n in numbers) + little(0, 4))

    def long(self, form, kind, channels, rate, count):
        heading = self

        class Format(Writing):
            def frames(self, channels, samples):
                return heading.fact(count // channels)
        start = self.letters(form) + little(FULL, 4) + b"WAVE" + self.sizes(kind, channels, count)
        return start + Format().format(kind, channels, rate, ()) + b"data" + little(FULL, 4)

    def bytes(self, form, kind, channels, rate, count):
        return self.short(kind, channels, rate, count) if self.fits(kind, count) else self.long(
            form, kind, channels, rate, count)

    def short(self, kind, channels, rate, count):
        return Writing().header(kind, channels, rate, range(count))

    def test(self, number, kind, channels, rate, count, room):
        """1 the rate or a count of broken frames, 19 a size above 2^40, 13 channels, 14 too short a block."""
        if number == 1:
            return 8000 <= rate <= 768000 and (channels not in (1, 2) or count % channels == 0)
        if number == 19:
            return self.size(kind, count) <= self.largest
        if number == 13:
            return channels in (1, 2)
        return self.length(kind, count) <= room

    def write(self, form, kind, channels, rate, room, count, old):
        """The refusal's number, the header's length, and the block afterwards."""
        for number in self.order:
            if not self.test(number, kind, channels, rate, count, room):
                return number, self.length(kind, count), old
        head = self.bytes(form, kind, channels, rate, count)
        return 0, len(head), head + old[len(head):]

    def told(self, kind, channels, count):
        """How long the file is; 0 where 1, 19 or 13 is due whatever the rate."""
        good = all(self.test(number, kind, channels, 8000, count, 0) for number in (1, 19, 13))
        return self.length(kind, count) + self.padded(kind, count) if good else 0


def wrong(name, **changed):
    return name, type("Wrong", (Heading,), changed)


WRONG = [
    wrong("RF64 for a file that fits", fits=lambda s, kind, count: False),
    wrong("RIFF for a file that does not fit", fits=lambda s, kind, count: True),
    wrong("RIFF's end one byte too far", fits=lambda s, k, n: (58 if k == FLOAT32 else 44) + s.padded(k, n) - 9 <= FULL),
    wrong("the pad is not asked whether it fits", fits=lambda s, k, n: (58 if k == FLOAT32 else 44) + s.size(k, n) - 8 <= FULL),
    wrong("BW64 as RF64", letters=lambda s, form: b"RF64"),
    wrong("frames and `data`'s size exchanged", numbers=lambda s, riff, size, frames: (riff, frames, size)),
    wrong("the RIFF's size and `data`'s exchanged", numbers=lambda s, riff, size, frames: (size, riff, frames)),
    wrong("samples for frames", sizes=lambda s, kind, channels, count: Heading.sizes(s, kind, 1, count)),
    wrong("`fact` counts frames", fact=lambda s, frames: frames),
    wrong("the pad is not counted", padded=lambda s, kind, count: s.size(kind, count)),
    wrong("13 before 19", order=(1, 13, 19, 14)),
    wrong("19 before 1", order=(19, 1, 13, 14)),
    wrong("14 before 13", order=(1, 19, 14, 13)),
    wrong("2^40 refused", largest=2 ** 40 - 1),
    wrong("2^40 + 1 accepted", largest=2 ** 40 + 4),
    wrong("past 32 bits by 1", test=lambda s, no, kind, *rest: Heading.test(s, no, kind, *rest) and (
        no != 1 or s.fits(kind, rest[2]))),
]
