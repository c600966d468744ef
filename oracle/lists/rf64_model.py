"""Headers of WAV files of any length as Wish 10 of document 02 says it, with the layout of EBU Tech 3306 and ITU-R
BS.2088: the model behind headers.py. It is written from those texts and from the readings of docs/DECISIONS.md, 'Files
past four gigabytes', and calls nothing of this repository; its author had read the definitions. What Wish 1 says stays
riff_model.py's.

A method or a constant of `Header` is one sentence, so that a wrong reading changes a single one of them
(rf64_wrong.py). `first` are the file's first bytes, as many as are at hand, and `size` is how long the file is.
"""
from riff_model import Reading, Refused, number

FULL = 2 ** 32 - 1
LARGEST = 2 ** 40


class Needs(Exception):
    """Carries how many of the first bytes must be at hand."""


class Header(Reading):
    names = (b"RF64", b"BW64")
    order_1_2 = (1, 2)
    order_early = (9, 18, 19, 10)

    def long(self, first):
        """RF64 of EBU Tech 3306, BW64 of ITU-R BS.2088. A `ds64` in a RIFF is an unknown chunk."""
        return first[:4] in self.names

    def letters(self, first):
        """9: none of RIFF, RF64, BW64 with WAVE."""
        return (first[:4] == b"RIFF" or self.long(first)) and first[8:12] == b"WAVE"

    least_sizes = 28

    def sizes_at(self, first, size):
        """Where the first chunk's body starts if it is a `ds64` of 28 bytes or more that lies in the file."""
        if size >= 20 and first[12:16] == b"ds64" and number(first[16:20]) >= self.least_sizes:
            return 20 if 20 + number(first[16:20]) <= size else None
        return None

    def wide(self, some):
        """A size of `ds64` has 8 bytes."""
        return number(some)

    def riff_field(self, first):
        return first[20:28]

    def data_field(self, first):
        return first[28:36]

    def how_many(self, first):
        """As many entries as the table says, but no more than the body holds."""
        return min(number(first[44:48]), (number(first[16:20]) - 28) // 12)

    def entries(self, first):
        """An identifier and a size each."""
        ends = min(48 + 12 * self.how_many(first), len(first))
        return [(first[at:at + 4], self.wide(first[at + 4:at + 12])) for at in range(48, ends, 12)]

    def uses(self, field):
        """A 32-bit size at FFFFFFFF says that the true one stands in `ds64`."""
        return field == FULL

    def riff(self, first, size):
        """The true RIFF size; without a `ds64` the 32-bit one."""
        field = number(first[4:8])
        if self.long(first) and self.sizes_at(first, size) and self.uses(field):
            return self.wide(self.riff_field(first))
        return field

    own_entry = False

    def chunk_size(self, first, name, field):
        """`data`'s from `ds64`, another's from its first entry, with none FFFFFFFF itself. `ds64` has no entry."""
        if not self.long(first) or not self.uses(field):
            return field
        if name == b"data":
            return self.wide(self.data_field(first))
        if name == b"ds64" and not self.own_entry:
            return field
        return self.entry(name, self.entries(first), field)

    def entry(self, name, entries, field):
        return next((size for other, size in entries if other == name), field)

    def sizes(self, first):
        """What 19 looks at: the size of `data` and every entry, used or not."""
        return [self.wide(self.data_field(first))] + [size for _, size in self.entries(first)]

    def small(self, size):
        return size <= LARGEST

    # ---- what must be at hand
    def look(self, first, upto):
        if len(first) < upto:
            raise Needs(upto)

    def opened(self, first, size):
        """The letters; of RF64 and BW64 the head of the first chunk, the fixed part of its `ds64`, and where 9 is not
        due the table."""
        if size < 12:
            return
        self.look(first, 12)
        if not self.letters(first) or not self.long(first) or size < 20:
            return
        self.look(first, 20)
        if self.sizes_at(first, size):
            self.look(first, 48)
            if self.riff(first, size) >= 4:
                self.look(first, 48 + 12 * self.how_many(first))

    def early(self, no, first, size):
        """9, 18, 19, and 10 of the RIFF: whether the number is not due."""
        there = not self.long(first) or bool(self.sizes_at(first, size))
        if no == 9:
            return size >= 12 and self.letters(first) and self.riff(first, size) >= 4
        if no == 18:
            return there
        if no == 19:
            return not (self.long(first) and there) or all(map(self.small, self.sizes(first)))
        return 8 + self.riff(first, size) <= size

    def heads(self, first, end):
        """The walk by the chunks' heads. The RIFF's true size bounds it."""
        found, at = {}, 12
        while end - at >= 8:
            self.look(first, at + 8)
            name, body = first[at:at + 4], at + 8
            size = self.chunk_size(first, name, number(first[at + 4:at + 8]))
            if self.counts(name, found):
                found[name] = (body, size)
            if body + size > end:
                return found, True
            if self.ends(name):
                return found, False
            at = self.behind(body, size)
        return found, False

    def told(self, first, size):
        """What the reading needs, 0 where enough is at hand."""
        try:
            self.opened(first, size)
            if all(self.early(no, first, size) for no in self.order_early):
                self.heads(first, 8 + self.riff(first, size))
        except Needs as needs:
            return needs.args[0]
        return 0

    def header(self, first, size):
        """What the samples are and where: kind, channels, rate, start, length."""
        for no in self.order_1_2:
            if no == 1 and len(first) > size or no == 2 and self.told(first, size):
                raise Refused(no)
        for no in self.order_early:
            if not self.early(no, first, size):
                raise Refused(no)
        found, overrun = self.heads(first, 8 + self.riff(first, size))
        if overrun:
            raise Refused(10)
        start, length = found.get(b"data", (0, 0))
        fmt = self.format(first, found)
        for no in self.order:
            if no == 11 and b"fmt " not in found or no == 12 and b"data" not in found:
                raise Refused(no)
            if no == 13:
                kind = self.kind(fmt, length)
        return kind, self.fields(fmt)[1], self.fields(fmt)[2], start, length
