"""AIFF, RF64 and BW64: each command makes of them what it makes of the WAV file with the same stored samples."""
import os
import shutil
import struct
import subprocess

import absence
from other_files import aiff, long_head, piece, put, room, sparse
from reckoned import Side, clock, described, report
from trial import ROOT, check, load, run, save
from wave_files import WIDTH, chunk, drawn, stored, wav


def alike(layout, name, kind, channels, rate, numbers):
    """look, plain, imitate and residual of a file beside same.wav."""
    frames = len(numbers) // channels
    told = f"{name}: {layout}, {described(kind, channels, rate, frames)}, {clock(frames, rate)}\n"
    check(f"{layout}, looked at", run("look", name), (0, told.encode(), ""))
    check(f"{layout}, plain", run("plain", name, "alike-plain.wav"), (0, b"", ""))
    check(f"{layout}, plain's file", load("alike-plain.wav"), load("same.wav"))
    said = absence.said(frames, channels, rate)
    for source, like in ((name, "alike.wav"), ("same.wav", "alike-same.wav")):
        check(f"{layout}, imitated", run("imitate", source, like, "kind=float32"), (0, b"", said))
    check(f"{layout}, imitate's file", load("alike.wav"), load("alike-same.wav"))
    sides = [Side(each, kind, channels, rate, numbers) for each in ("same.wav", name)]
    check(f"{layout}, compared", run("residual", "same.wav", name), (0, report(*sides).encode(), ""))
    for made in ("alike-plain.wav", "alike.wav", "alike-same.wav"):
        os.remove(made)


def drawn_alike(dice, kind, channels, frames):
    """same.wav with samples that are drawn; its rate, its body and its whole numbers."""
    rate = dice.choice((8000, 44100, 48000, 96000))
    samples, numbers = drawn(dice.randint, kind, frames * channels)
    body = stored(kind, samples)
    save("same.wav", wav(kind, channels, rate, body))
    return rate, body, numbers


def aiffs(dice):
    """Both kinds, `COMM` and `SSND` in either order, with and without an offset and a strange chunk."""
    for kind in ("pcm16", "pcm24"):
        for channels in (1, 2):
            for frames in (0, dice.choice((1, 7)), 5000):
                rate, body, numbers = drawn_alike(dice, kind, channels, frames)
                junk = piece(b"NAME", b"A side") + piece(b"ANNO", b"noise") if dice.random() < 0.5 else b""
                content = aiff(kind, channels, rate, body, dice.choice((0, 5)), dice.random() < 0.5, junk)
                alike("AIFF", save("lent.aiff", content), kind, channels, rate, numbers)


def longs(dice):
    """Every kind, short: sizes in `ds64` or as in RIFF, with and without a table and a strange chunk."""
    for layout in ("RF64", "BW64"):
        for kind in WIDTH:
            channels = dice.choice((1, 2))
            rate, body, numbers = drawn_alike(dice, kind, channels, dice.choice((1, 7, 5000)))
            wide = dice.random() < 0.5
            table = b"axml" + struct.pack("<Q", 12) if dice.random() < 0.5 else b""
            junk = chunk(b"LIST", b"noise") if dice.random() < 0.5 else b""
            head = long_head(layout.encode(), kind, channels, rate, len(body), wide, table, junk)
            name = save("long.wav", head + body + b"\0" * (len(body) % 2))
            alike(layout, name, kind, channels, rate, numbers)


# How other programs make an AIFF file and an RF64 file of same.wav; the blank is filled with 16 or 24.
OTHERS = (
    ("sox", "made.aiff", "sox -D same.wav made.aiff"),
    ("ffmpeg", "made.aiff", "ffmpeg -v error -i same.wav -c:a pcm_s{}be made.aiff"),
    ("ffmpeg", "made.wav", "ffmpeg -v error -i same.wav -c:a pcm_s{}le -rf64 always made.wav"),
    ("sndfile-convert", "made.aiff", "sndfile-convert same.wav made.aiff"),
    ("sndfile-convert", "made.rf64", "sndfile-convert same.wav made.rf64"),
)


def other_programs(dice):
    """Where sox, ffmpeg or libsndfile's tools are at hand, plain makes same.wav again of what they make of it."""
    missing = sorted({program for program, _, _ in OTHERS if not shutil.which(program)})
    if missing:
        print(f"morning: no {', '.join(missing)}, so none of its files is tried")
    for program, name, command in OTHERS:
        for kind in ("pcm16", "pcm24"):
            if program not in missing:
                drawn_alike(dice, kind, dice.choice((1, 2)), 1000)
                words = command.format(8 * WIDTH[kind]).split()
                subprocess.run(words, stdin=subprocess.DEVNULL, stdout=subprocess.DEVNULL, check=True)
                got, out, _ = run("plain", name, "alike-plain.wav")
                check(f"others, {command}", (got, out), (0, b""))
                check(f"others, {command}: plain's file", load("alike-plain.wav"), load("same.wav"))
                os.remove(name)
                os.remove("alike-plain.wav")


def first_bytes(count, *words):
    """The first bytes that ./run writes with these words; it is not waited for."""
    command = [os.path.join(ROOT, "run"), *words]
    with subprocess.Popen(command, stdout=subprocess.PIPE, stderr=subprocess.DEVNULL) as made:
        return made.stdout.read(count)


def past_four_gigabytes(dice):
    """A sparse file of five gigabytes: looked at, its end compared, and what plain and imitate begin to write of it."""
    frames, few = 5 * 2**30 // 6, 700
    head = long_head(b"RF64", "pcm24", 2, 48000, frames * 6)
    try:
        name = sparse("sparse.wav", head, frames * 6)
    except OSError as why:
        print(f"morning: no file past four gigabytes, which cannot be made here: {why}")
        return
    if room(name) > 2**20:
        os.remove(name)
        print("morning: no file past four gigabytes: this disk gives room to zeros")
        return
    samples, numbers = drawn(dice.randint, "pcm24", 2 * few)
    put(name, len(head) + (frames - few) * 6, stored("pcm24", samples))
    told = f"{name}: RF64, {described('pcm24', 2, 48000, frames)}, {clock(frames, 48000)}\n"
    check("sparse, looked at", run("look", name), (0, told.encode(), ""))
    save("end.wav", wav("pcm24", 2, 48000, stored("pcm24", samples)))
    lines = report(Side("end.wav", "pcm24", 2, 48000, numbers), Side(name, "pcm24", 2, 48000, numbers))
    lines = lines.replace(f"{few} frames: {name}", f"{frames} frames: {name}")
    lines = lines.replace("second from frame 0", f"second from frame {frames - few}")
    words = ("end.wav", name, f"second-skip={frames - few}")
    check("sparse, its end compared", run("residual", *words), (0, lines.encode(), ""))
    silence = b"\0" * 60000
    check("sparse, plain", first_bytes(len(head) + 60000, "plain", name, "-"), head + silence)
    head = long_head(b"RF64", "float32", 2, 48000, frames * 8)
    begun = first_bytes(len(head) + 60000, "imitate", name, "-", "kind=float32")
    check("sparse, imitated", begun, head + silence)
    os.remove(name)
