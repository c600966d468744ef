"""Which samples of an imitation read absent taps: counted tap by tap from document 02 and from 001's wandering."""
import math
import os
import struct

from reckoned import many
from trial import check, load, run, save
from wave_files import single, stored, wav

RING, TAPS = 65536, 32


def delays(frames, rate, middle=512, depth=8, side=0):
    """001's wow of a frame: a cosine of 0.55 Hz, whose height is what `depth` cents lead ahead and behind."""
    height = (2 ** (depth / 1200) - 1) * rate / (2 * math.pi * 0.55)
    return [middle + height * math.cos(2 * math.pi * 0.55 * i / rate + side) for i in range(frames)]


def absent(i, delay):
    """Whether the sample of a frame reads taps before the first, behind the newest, and overwritten ones."""
    first = math.floor(i - delay) - (TAPS // 2 - 1)
    taps = range(first, first + TAPS)
    return any(n < 0 for n in taps), any(n > i for n in taps), any(0 <= n <= i - RING for n in taps)


def figures(late):
    kinds = [absent(i, delay) for i, delay in enumerate(late)]
    lacking = [i for i, each in enumerate(kinds) if any(each)]
    if not lacking:
        return "no sample read an absent tap\n"
    before, ahead, gone = (sum(each[k] for each in kinds) for k in range(3))
    start = f"{many(len(lacking), 'sample')} read absent taps, last at frame {lacking[-1]}: "
    return start + f"{before} before the start, {ahead} ahead of the newest, {gone} overwritten\n"


def said(frames, channels=1, rate=48000, middle=512, depth=8, stereo=0):
    """What imitate says once it has ended well."""
    sides = [stereo * math.pi / 2 * sign for sign in ((-1, 1) if channels == 2 else (0,))]
    each = [figures(delays(frames, rate, middle, depth, side)) for side in sides]
    if channels == 1:
        return f"imitate: {each[0]}"
    if each[0] == each[1]:
        return f"imitate: each channel: {each[0]}"
    return f"imitate: channel 1: {each[0]}imitate: channel 2: {each[1]}"


def imitated(what, samples, *words, **settings):
    """What imitate makes of float samples at 48000 Hz, once what it says is what was reckoned."""
    channels = settings.get("channels", 1)
    save("lacking.wav", wav("float32", channels, 48000, stored("float32", samples)))
    got = run("imitate", "lacking.wav", "lacks.wav", *words)
    check(f"absence, {what}", got, (0, b"", said(len(samples) // channels, **settings)))
    heard = load("lacks.wav")[-4 * len(samples) :] if samples else b""
    os.remove("lacks.wav")
    return struct.unpack(f"<{len(samples)}f", heard)


def absences(dice):
    """Delays that stand still, from the least to the longest; both channels; no sample; a silence in the file."""
    noise = [single(dice.uniform(-0.5, 0.5)) for _ in range(2000)]
    still = "wow_depth_cents=0"
    for middle in (16, 17.5, 512, 512.5, 1999, 3000):
        imitated(f"delay {middle}", noise, still, f"delay={middle}", middle=middle, depth=0)
    for frames in (0, 1, 527, 528):
        imitated(f"{frames} frames", noise[:frames], still, depth=0)
    imitated("the longest delay", [0.25] * 66000, still, "delay=65512", middle=65512, depth=0)
    for stereo in (0, 0.5, 1):
        imitated(f"stereo {stereo}", noise, f"stereo_amount={stereo}", channels=2, stereo=stereo)
    # Absence is the same whatever the file holds; a silence of the file's own goes on behind it.
    late, last = 1000, 526
    loud = imitated("noise at once", noise, still, depth=0)
    quiet = imitated("noise after silence", [0.0] * late + noise, still, depth=0)
    check("absence, noise is heard while taps are absent", any(loud[: last + 1]), True)
    check("absence, silence behind the absent taps", any(quiet[: last + 400]), False)
    check("absence, the same noise later", quiet[late + last :][:900], loud[last:][:900])
