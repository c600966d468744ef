"""Readings of headers that differ from rf64_model.py's in one sentence. What each would answer is compared with the true
answer, so that headers.py can say how many of its headers tell the two apart.
"""
from rf64_model import FULL, LARGEST, Header
from riff_model import number


def wrong(name, **changed):
    return name, type("Wrong", (Header,), changed)


def behind_junk(s, first, size):
    """A `ds64` behind a first chunk of another name."""
    return Header.sizes_at(s, first, size) or (20 if first[12:16] == b"JUNK" and b"ds64" in first[:64] else None)


def last_entry(s, name, entries, field):
    return next((size for other, size in reversed(entries) if other == name), field)


def only_used(s, first):
    return [s.wide(s.data_field(first))]


WRONG = [
    # the order
    wrong("10 before 19", order_early=(9, 18, 10, 19)),
    wrong("18 before 9", order_early=(18, 9, 19, 10)),
    wrong("19 before 9", order_early=(19, 9, 18, 10)),
    wrong("1 is not tested", order_1_2=(2,)),
    # the letters
    wrong("BW64 refused", names=(b"RF64",)),
    wrong("RF64 refused", names=(b"BW64",)),
    wrong("RIFF has a `ds64` too", names=(b"RF64", b"BW64", b"RIFF")),
    wrong("WAVE is not looked at", letters=lambda s, f: f[:4] == b"RIFF" or s.long(f)),
    # `ds64`
    wrong("`ds64` found behind JUNK", sizes_at=behind_junk),
    wrong("a `ds64` of 27 bytes", least_sizes=27),
    wrong("a `ds64` of 28 bytes refused", least_sizes=29),
    wrong("a `ds64` that is cut off",
          sizes_at=lambda s, f, n: Header.sizes_at(s, f, max(n, 20 + number(f[16:20])))),
    wrong("the low half of a size only", wide=lambda s, some: number(some[:4])),
    wrong("`data`'s size from `ds64` always", chunk_size=lambda s, f, name, field: Header.chunk_size(
        s, f, name, FULL if name == b"data" else field)),
    wrong("the RIFF's size from `ds64` always", riff=lambda s, f, n: Header.riff(
        s, f[:4] + b"\xFF" * 4 + f[8:], n) if s.long(f) and s.sizes_at(f, n) else Header.riff(s, f, n)),
    wrong("`data`'s size from the number of frames", data_field=lambda s, f: f[36:44]),
    wrong("the RIFF's size and `data`'s exchanged", riff_field=lambda s, f: f[28:36], data_field=lambda s, f: f[20:28]),
    wrong("FFFFFFFF of `data` as it stands", chunk_size=lambda s, f, name, field: field if name == b"data"
          else Header.chunk_size(s, f, name, field)),
    # the table
    wrong("no table", entry=lambda s, name, entries, field: field),
    wrong("the last entry", entry=last_entry),
    wrong("an entry for `ds64`", own_entry=True),
    wrong("more entries than the body holds", how_many=lambda s, f: number(f[44:48])),
    wrong("0 without an entry", entry=lambda s, name, entries, field: Header.entry(s, name, entries, 0)),
    # 19
    wrong("2^40 refused", small=lambda s, n: n < LARGEST),
    wrong("2^40 + 1 accepted", small=lambda s, n: n <= LARGEST + 1),
    wrong("19 looks at `data` alone", sizes=only_used),
    wrong("19 looks at the RIFF too", sizes=lambda s, f: Header.sizes(s, f) + [s.wide(s.riff_field(f))]),
    # what Wish 1 says
    wrong("the walk goes on behind `data`", ends=lambda s, name: False),
    wrong("no pad byte is skipped", behind=lambda s, b, n: b + n),
    wrong("the last `fmt ` counts", counts=lambda s, name, found: name == b"fmt " or name not in found),
]
