"""Files that are in order: what look, plain, imitate and residual make of them."""
import errno
import os
import struct

import absence
import pictured
from reckoned import Side, clock, described, report, unwrapped
from trial import check, load, run, save
from wave_files import FFMPEG, SOX, WIDTH, WORDS, drawn, nearest, single, stored, wav


def looks(dice):
    """look's line and plain's file, byte for byte: every kind, plain and wrapped, with and without a strange chunk."""
    for kind in WORDS:
        for channels in (1, 2):
            for frames in (0, 1, 7, 9000):
                samples, _ = drawn(dice.randint, kind, frames * channels)
                body = stored(kind, samples)
                rate = dice.choice((8000, 44100, 48000, 96000, 768000))
                wrapped = dice.random() < 0.5
                junk = b"LIST" + struct.pack("<I", 5) + b"noise\0" if dice.random() < 0.5 else b""
                name = save("look.wav", wav(kind, channels, rate, body, wrapped, junk))
                told = f"look.wav: {described(kind, channels, rate, frames)}, {clock(frames, rate)}"
                check("look", run("look", name), (0, (told + ", wrapped" * wrapped + "\n").encode(), ""))
                said = unwrapped("plain", name, kind) if wrapped else ""
                check("plain", run("plain", name, "plain.wav"), (0, b"", said))
                check("plain, its file", load("plain.wav"), wav(kind, channels, rate, body))
                os.remove("plain.wav")


def others(dice):
    """Files of 24 bits as sox and ffmpeg write them: each command reads what stands inside."""
    samples, numbers = drawn(dice.randint, "pcm24", 44)
    body = stored("pcm24", samples)
    for head in (SOX, FFMPEG):
        name = save("other.wav", head + body)
        told = f"other.wav: {described('pcm24', 1, 44100, 44)}, {clock(44, 44100)}, wrapped\n".encode()
        check("look at another program's file", run("look", name), (0, told, ""))
        check("plain", run("plain", name, "plain.wav"), (0, b"", unwrapped("plain", name, "pcm24")))
        check("plain, its file", load("plain.wav"), wav("pcm24", 1, 44100, body))
        said = unwrapped("imitate", name, "pcm24") + absence.said(44, rate=44100)
        check("imitate", run("imitate", name, "like.wav"), (0, b"", said))
        sides = Side(name, "pcm24", 1, 44100, numbers), Side("plain.wav", "pcm24", 1, 44100, numbers)
        said = unwrapped("residual", name, "pcm24")
        check("residual", run("residual", name, "plain.wav"), (0, report(*sides).encode(), said))
        os.remove("plain.wav")
        os.remove("like.wav")


def rendered(samples):
    """What ./run render makes of 32-bit float samples: oracle/render holds it beside the original."""
    status, out, said = run("render", data=struct.pack(f"<{len(samples)}f", *samples))
    check("render", (status, said), (0, ""))
    return list(struct.unpack(f"<{len(samples)}f", out))


def imitations(dice):
    """imitate's samples are render's, as float and rounded as W2 rounds them, in one channel and in both."""
    one, two = ([single(dice.uniform(-0.5, 0.5)) for _ in range(9001)] for _ in range(2))
    save("one.wav", wav("float32", 1, 48000, stored("float32", one)))
    lacking = absence.said(9001)
    check("imitate", run("imitate", "one.wav", "like.wav"), (0, b"", lacking))
    beside = rendered(one)
    check("imitate, samples as render's", load("like.wav"), wav("float32", 1, 48000, stored("float32", beside)))
    status, out, said = run("imitate", "one.wav", "-", "seed=1", "delay=512")
    check("imitate to standard output", (status, out, said), (0, load("like.wav"), lacking))
    for kind in ("pcm16", "pcm24"):
        check("imitate", run("imitate", "one.wav", f"{kind}.wav", f"kind={kind}"), (0, b"", lacking))
        numbers = [nearest(x, WIDTH[kind]) for x in beside]
        check("imitate, rounded", load(f"{kind}.wav"), wav(kind, 1, 48000, stored(kind, numbers)))
    both = [x for pair in zip(one, two) for x in pair]
    save("both.wav", wav("float32", 2, 48000, stored("float32", both)))
    check("imitate", run("imitate", "both.wav", "likes.wav"), (0, b"", absence.said(9001, channels=2)))
    pairs = [x for pair in zip(beside, rendered(two)) for x in pair]
    check("imitate, two channels", load("likes.wav"), wav("float32", 2, 48000, stored("float32", pairs)))
    # another seed changes nothing without drift, and something with it
    check("imitate", run("imitate", "one.wav", "seeded.wav", "seed=7"), (0, b"", lacking))
    check("imitate, a seed without drift", load("seeded.wav"), load("like.wav"))
    status, out, said = run("imitate", "one.wav", "drifted.wav", "seed=7", "drift_amount=1")
    check("imitate", (status, out, said.count(" read absent taps, last at frame ")), (0, b"", 1))
    check("imitate, a seed with drift", load("drifted.wav") == load("like.wav"), False)


def residuals(dice):
    """Every line of residual's report, for files of each kind, with skips, a number of frames, and one channel."""
    pairs = (("pcm16", "pcm24", 1), ("pcm24", "pcm24", 2), ("float32", "pcm24", 2), ("pcm16", "float32", 1))
    for kind, other, channels in pairs:
        sides = []
        for name, k, frames in (("first.wav", kind, 9500), ("second.wav", other, 10100)):
            samples, numbers = drawn(dice.randint, k, frames * channels)
            save(name, wav(k, channels, 96000, stored(k, samples)))
            sides.append(Side(name, k, channels, 96000, numbers))
        for skip, drop, frames in ((0, 0, None), (512, 3, None), (9499, 0, None), (20000, 0, None), (0, 700, 4097)):
            words = [f"first-skip={skip}", f"second-skip={drop}"] + ([f"frames={frames}"] if frames is not None else [])
            told = report(*sides, (skip, drop), frames).encode()
            check("residual", run("residual", "first.wav", "second.wav", *words), (0, told, ""))
        for c in range(channels):
            told = report(*sides, channels=[c]).encode()
            one = run("residual", "first.wav", "second.wav", f"channel={c + 1}")
            check("residual, one channel", one, (0, told, ""))
        told = report(sides[0], sides[0]).encode()
        check("residual, no difference", run("residual", "first.wav", "first.wav"), (0, told, ""))
        pictures(sides)
    odd_names()


def pictures(sides):
    """The picture beside the report: of all frames, of fewer than its bars, of none, and of one channel."""
    for words, given in (
        ([], {}),
        (["first-skip=512", "second-skip=3", "frames=4097"], {"skips": (512, 3), "frames": 4097}),
        (["frames=301"], {"frames": 301}),
        (["frames=1"], {"frames": 1}),
        (["first-skip=20000"], {"skips": (20000, 0)}),
        (["channel=1"], {"channels": [0]}),
    ):
        told = run("residual", "first.wav", "second.wav", "picture=picture.svg", *words)
        check("residual, with a picture", told, (0, report(*sides, **given).encode(), ""))
        check("picture", pictured.shown(load("picture.svg")), pictured.due(*sides, **given))
        os.remove("picture.svg")


def odd_names():
    """A picture is well-formed XML whatever the files' names are. A name that is not UTF-8 cannot be opened."""
    content = wav("pcm16", 1, 48000, b"\0\1" * 100)
    for name, seen in (
        (b"caf\xc3\xa9.wav", "caf\u00e9.wav"),
        (b"caf\xe9.wav", "caf?.wav"),
        (b"a&<b>\x01.wav", "a&<b>?.wav"),
        (b"half \xed\xa0\x80.wav", "half ???.wav"),
        (b"none \xef\xbf\xbe.wav", "none ???.wav"),
        (b"long \xf0\x9f\x8e\xb5.wav", "long \U0001f3b5.wav"),
        (b"over \xc0\xaf.wav", "over ??.wav"),
    ):
        save(name, content)
        got, _, said = run("residual", os.fsdecode(name), os.fsdecode(name), "picture=picture.svg")
        if name.decode("utf-8", "ignore").encode() != name:
            why = f"residual: {name.decode('latin-1')}: {os.strerror(errno.EILSEQ)}\n"
            check("picture, no name", (got, said, os.path.exists("picture.svg")), (1, why, False))
        else:
            title, _ = pictured.shown(load("picture.svg"))
            check("picture, an odd name", (got, said, title), (0, "", f"How far {seen} and {seen} differ"))
            os.remove("picture.svg")
        os.remove(name)
