"""A second model of Wish 1 of document 02 (RIFF WAVE files), written from its text alone by somebody who
had not seen the definitions.

Standard input: a line for each file, the number of its bytes in four hex digits, a blank, its bytes in hex.
Standard output: for each file a line with read(file, False) and read(file, True), and where the latter
refuses nothing a line for each channel with its frames' values (f64 pattern, f32 pattern, whole number)."""
import struct
import sys

KINDS = {(1, 16): 0, (1, 24): 1, (3, 32): 2}  # (tag, bits) -> kind
WIDTH = (2, 3, 4)  # bytes of one sample, by kind
TAIL = bytes.fromhex("0000" "0000" "1000" "8000" "00AA00389B71")  # a standard sub-format behind its tag


def number(file, at, width):
    """The unsigned little-endian number of so many bytes."""
    return int.from_bytes(file[at:at + width], "little")


def refuse(why):
    return (why, 0, 0, 0, 0, 0)


def tag_of(fmt, wrapped):
    """The tag of a fmt body of 16 bytes or more, unwrapped where that is asked for and all is in place."""
    tag = number(fmt, 0, 2)
    if (wrapped and tag == 0xFFFE and len(fmt) >= 40 and number(fmt, 16, 2) >= 22
            and number(fmt, 18, 2) == number(fmt, 14, 2) and fmt[26:40] == TAIL):
        return number(fmt, 24, 2)
    return tag


def read(file, wrapped):
    """(refusal or 0, kind, channels, rate, start of the samples' bytes, their length)"""
    if len(file) < 12 or file[0:4] != b"RIFF" or file[8:12] != b"WAVE" or number(file, 4, 4) < 4:
        return refuse(9)
    end = 8 + number(file, 4, 4)  # bounds the walk; what lies behind it is not looked at
    if end > len(file):
        return refuse(10)
    fmt = data = None
    at = 12
    while data is None and end - at >= 8:
        name, size = file[at:at + 4], number(file, at + 4, 4)
        body = at + 8
        if body + size > end:
            return refuse(10)
        if name == b"fmt " and fmt is None:
            fmt = file[body:body + size]
        elif name == b"data":
            data = (body, size)
        at = body + size + size % 2  # may pass the end by a missing last pad byte, which is ignored
    if fmt is None:
        return refuse(11)
    if data is None:
        return refuse(12)
    if len(fmt) < 16:
        return refuse(13)
    channels, rate, block, bits = number(fmt, 2, 2), number(fmt, 4, 4), number(fmt, 12, 2), number(fmt, 14, 2)
    kind = KINDS.get((tag_of(fmt, wrapped), bits))
    if kind is None or channels not in (1, 2) or block != channels * WIDTH[kind] or data[1] % block != 0:
        return refuse(13)
    return (0, kind, channels, rate) + data


def samples(file, wave, channel):
    """For each frame the channel's sample: (value, whole number of 2^-23; 0 for a float kind)."""
    kind, channels, _, start, length = wave
    width = WIDTH[kind]
    answer = []
    for at in range(start + channel * width, start + length, channels * width):
        stored = file[at:at + width]
        if kind == 2:
            answer.append((struct.unpack("<f", stored)[0], 0))
        else:
            n = int.from_bytes(stored, "little", signed=True)
            answer.append((n / 2 ** 15, n * 256) if kind == 0 else (n / 2 ** 23, n))
    return answer


def shown(value, whole):
    if value != value:
        patterns = ("7ff8000000000000", "7fc00000")
    else:
        patterns = (struct.pack(">d", value).hex(), struct.pack(">f", value).hex())
    return "%s %s %08x" % (patterns + (whole % 2 ** 32,))


def main():
    for line in sys.stdin:
        count, text = line[:4], line[5:].strip()
        file = bytes.fromhex(text)
        if int(count, 16) != len(file):
            sys.exit("a line whose count is not that of its bytes: " + line[:40])
        plain, unwrapped = read(file, False), read(file, True)
        print(*(plain + unwrapped))
        if unwrapped[0] == 0:
            for channel in range(unwrapped[2]):
                print(" ".join(shown(*sample) for sample in samples(file, unwrapped[1:], channel)))


if __name__ == "__main__":
    main()
