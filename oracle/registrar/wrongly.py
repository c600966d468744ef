"""Wrong files, wrong words, full disks: one line on standard error, status 1 or 2, and every file as it was."""
import os
import re
import resource
import signal
import struct

import other_files
from trial import check, held, load, run, save
from wave_files import chunk, fields, riff, stored, wav

PCM = chunk(b"fmt ", fields(1, 1, 48000, 16))
FULL = "No space left on device"


def make_files():
    """Two good files, and whatever else may be handed in: each with the words that its line must have."""
    save("good.wav", wav("pcm16", 1, 48000, b"\0\0" * 10))
    save("long.wav", wav("pcm16", 1, 48000, b"\1\0" * 100000))
    save("quick.wav", wav("pcm16", 1, 44100, b"\0\0" * 10))
    save("wide.wav", wav("pcm16", 2, 48000, b"\0\0" * 10))
    save("slow.wav", wav("pcm16", 1, 4000, b"\0\0" * 10))
    save("nan.wav", wav("float32", 2, 48000, stored("float32", [0.0] * 13 + [float("nan")] + [0.0] * 2)))
    os.mkdir("folder")
    save("empty.wav", b"")
    save("letter.wav", b"Dear registrar, this is a letter.\n")
    save("song.wav", b"ID3\x04\0\0\0\0\0\x21TSSE" + b"\0" * 40 + b"\xff\xfb\x90\x64" + b"\0" * 400)
    save("cut.wav", wav("pcm16", 1, 48000, b"\0\0" * 10)[:-3])
    save("head.wav", b"RIFF\x24\0")
    save("mute.wav", riff(PCM))
    save("bare.wav", riff(chunk(b"data", b"\0\0")))
    save("eight.wav", riff(chunk(b"fmt ", fields(1, 1, 48000, 8)), chunk(b"data", b"\x80" * 10)))
    save("three.wav", riff(chunk(b"fmt ", fields(1, 3, 48000, 16)), chunk(b"data", b"\0" * 18)))
    save("deep.wav", riff(chunk(b"fmt ", fields(1, 1, 48000, 32)), chunk(b"data", b"\0" * 16)))
    save("law.wav", riff(chunk(b"fmt ", fields(6, 1, 8000, 8)), chunk(b"data", b"\0" * 16)))
    save("boxed.wav", riff(chunk(b"fmt ", fields(65534, 1, 48000, 8)), chunk(b"data", b"\0" * 16)))
    comm = other_files.comm(1, 5, 16, other_files.extended(48000))
    ssnd = other_files.piece(b"SSND", b"\0" * 18)
    slow = other_files.comm(1, 5, 16, other_files.extended(7999))
    save("carried.aifc", other_files.form(comm, ssnd, kind=b"AIFC"))
    save("cut.aiff", other_files.form(comm, ssnd)[:-1])
    save("mute.aiff", other_files.form(comm))
    save("eight.aiff", other_files.form(other_files.comm(1, 5, 8, other_files.extended(48000)), ssnd))
    save("slow.aiff", other_files.form(slow, ssnd))
    save("bare.rf64", b"RF64" + riff(PCM, chunk(b"data", b"\0\0"))[4:])
    save("huge.rf64", other_files.long_head(b"RF64", "pcm16", 1, 48000, 2**40 + 2))
    table = (b"axml" + b"\0" * 8) * 338
    save("table.rf64", other_files.long_head(b"RF64", "pcm16", 1, 48000, 2, table=table) + b"\0\0")
    save("cut.bw64", other_files.long_head(b"BW64", "pcm16", 1, 48000, 2**33) + b"\0" * 100)
    save("taken.wav", b"kept")
    save("half.wav.part", b"kept")
    return (
        ("none.wav", "No such file or directory"),
        ("folder", "Is a directory"),
        ("empty.wav", "is empty.*"),
        ("letter.wav", "is refused by 9: .*WAV.*"),
        ("song.wav", "is refused by 9: .*WAV.*"),
        ("head.wav", "is refused by 9: .*WAV.*"),
        ("cut.wav", "is refused by 10: .*copy it again.*"),
        ("bare.wav", "is refused by 11: .*save it anew.*"),
        ("mute.wav", "is refused by 12: .*save it anew.*"),
        ("eight.wav", "is refused by 13: tag 1, 8 bits.*: sox -D eight\\.wav -t wavpcm -b 24 OUT\\.wav"),
        ("three.wav", "is refused by 13: .*3 channels.*: sox -D three\\.wav -t wavpcm -b 24 OUT\\.wav remix 1 2"),
        ("deep.wav", "is refused by 13: .*32 bits, 1 channel, 4 bytes a frame: .*sox -D deep\\.wav .*"),
        ("law.wav", "is refused by 13: tag 6, .*sox -D law\\.wav .*"),
        ("boxed.wav", "is refused by 13: a wrapped kind \\(tag 65534\\), 8 bits, .*"),
        ("carried.aifc", "is refused by 20: .*"),
        ("cut.aiff", "is refused by 10: .*copy it again.*"),
        ("mute.aiff", "is refused by 21: .*"),
        ("eight.aiff", "is refused by 13: .*8 bits.*sox .*eight\\.aiff .*"),
        ("slow.aiff", "is refused by 22: .*"),
        ("bare.rf64", "is refused by 18: .*"),
        ("huge.rf64", "is refused by 19: .*"),
        ("table.rf64", "is refused by 2: .*"),
        ("cut.bw64", "is refused by 10: .*copy it again.*"),
    )


def one_line(status, words, pattern):
    """A call that fails: nothing on standard output, one line on standard error that the pattern describes."""
    got, out, said = run(*words)
    right = bool(re.fullmatch(f"{words[0]}: {pattern}\n", said))
    check(f"refused: {' '.join(words)}: {said}", (got, out, right), (status, b"", True))


def every_wrong_file(files):
    for name, why in files:
        told = re.escape(name) + "(: | )" + why
        one_line(1, ("look", name), told)
        one_line(1, ("plain", name, "out.wav"), told)
        one_line(1, ("imitate", name, "out.wav", "seed=7"), told)
        one_line(1, ("residual", name, "good.wav"), told)
        one_line(1, ("residual", "good.wav", name), told)


def other_refusals():
    taken = r"exists already: remove it or choose another name"
    for command in ("look", "plain", "imitate", "residual"):
        others = {"look": ()}.get(command, ("out.wav",))
        one_line(1, (command, "", *others), r"'': No such file or directory")
    one_line(1, ("plain", "slow.wav", "out.wav"), r"slow\.wav is refused by 1: its rate is 4000 Hz.*8000 to 768000.*")
    one_line(1, ("plain", "nan.wav", "out.wav"), r"nan\.wav is refused by 15: frame 6 of channel 2 .*")
    one_line(1, ("imitate", "nan.wav", "out.wav"), r"nan\.wav is refused by 4: frame 6 of channel 2 .*")
    one_line(1, ("residual", "nan.wav", "nan.wav"), r"nan\.wav is refused by 15: frame 6 of channel 2 .*")
    for command in ("plain", "imitate"):
        one_line(1, (command, "good.wav", "taken.wav"), rf"taken\.wav {taken}")
        one_line(1, (command, "good.wav", "good.wav"), rf"good\.wav {taken}")
        one_line(1, (command, "good.wav", "folder"), rf"folder {taken}")
        one_line(1, (command, "good.wav", "half.wav"), r"half\.wav\.part exists already: .*remove it.*")
        one_line(1, (command, "good.wav", "nowhere/out.wav"), r"nowhere/out\.wav: No such file or directory")
    one_line(1, ("imitate", "good.wav", "out.wav", "delay=3"), r"with these settings delay= can be from \d+ to \d+ samples")
    one_line(1, ("imitate", "good.wav", "out.wav", "wow_depth_cents=1201"), r"wow_depth_cents is from .*")
    one_line(1, ("residual", "good.wav", "good.wav", "channel=2"), r"good\.wav has one channel only")
    one_line(1, ("residual", "good.wav", "quick.wav"), r"good\.wav has 48000 and quick\.wav has 44100 Hz: .*")
    one_line(1, ("residual", "good.wav", "wide.wav"), r"good\.wav has 1 and wide\.wav has 2 channels: .*")
    picture = ("residual", "good.wav", "good.wav")
    one_line(1, (*picture, "picture=taken.wav"), rf"taken\.wav {taken}")
    one_line(1, (*picture, "picture=good.wav"), rf"good\.wav {taken}")
    one_line(1, (*picture, "picture=half.wav"), r"half\.wav\.part exists already: .*remove it.*")
    one_line(1, (*picture, "picture=nowhere/a.svg"), r"nowhere/a\.svg: No such file or directory")


def usage(words):
    """A call that names too few files or too many: its usage in one line."""
    got, out, said = run(*words)
    right = bool(re.fullmatch(rf"usage: \./run {words[0]} .*\n", said))
    check(f"refused: {words}", (got, out, right), (2, b"", True))


def help_asked():
    """--help and -h: the usage, on standard output, and all is well."""
    for command in ("look", "plain", "imitate", "residual"):
        for word in ("--help", "-h"):
            got, out, said = run(command, word)
            right = bool(re.fullmatch(rf"usage: \./run {command} .*\n", out.decode()))
            check(f"help: {command} {word}", (got, right, said), (0, True, ""))


def wrong_words():
    one_line(2, ("imitate", "good.wav", "out.wav", "sede=7"), r"sede=7 is no setting that it knows.*")
    one_line(2, ("imitate", "good.wav", "out.wav", "seed=seven"), r"seed=seven will not do: a seed is .*")
    one_line(2, ("imitate", "good.wav", "out.wav", "seed="), r"seed= will not do: a seed is .*")
    one_line(2, ("imitate", "good.wav", "out.wav", "seed=-1"), r"seed=-1 will not do: a seed is .*")
    one_line(2, ("imitate", "good.wav", "out.wav", "delay=5l2"), r"delay=5l2 will not do: .*")
    one_line(2, ("imitate", "good.wav", "out.wav", "kind=mp3"), r"kind=mp3 will not do: .*float32.*")
    one_line(2, ("imitate", "good.wav", "out.wav", "first-skip=7"), r"first-skip=7 is a setting of another .*")
    one_line(2, ("plain", "good.wav", "out.wav", "seed=7"), r"seed=7 is a setting of another .*")
    one_line(2, ("residual", "good.wav", "good.wav", "seed=7"), r"seed=7 is a setting of another .*")
    one_line(2, ("residual", "good.wav", "good.wav", "channel=0"), r"channel=0 will not do: .* 1, 2 or all")
    one_line(2, ("residual", "good.wav", "good.wav", "frames=-1"), r"frames=-1 will not do: .*")
    one_line(2, ("residual", "good.wav", "good.wav", "picture="), r"picture= will not do: .*")
    one_line(2, ("imitate", "good.wav", "out.wav", "picture=a.svg"), r"picture=a\.svg is a setting of another .*")
    for words in (("look",), ("plain",), ("plain", "good.wav"), ("plain", "good.wav", "out.wav", "more.wav")):
        usage(words)
    for words in (("imitate",), ("residual", "good.wav"), ("imitate", "good.wav", "out.wav", "more.wav")):
        usage(words)
    for words in ((), ("louk", "good.wav"), ("registrar", "good.wav"), ("trace", "good.wav")):
        told = run(*words)
        check(f"refused: {words}", (told[0], told[1], told[2] != ""), (2, b"", True))


def small_disk():
    """No file may grow past 64 KiB, as on a disk that is full; the signal for it is left unheard."""
    signal.signal(signal.SIGXFSZ, signal.SIG_IGN)
    resource.setrlimit(resource.RLIMIT_FSIZE, (65536, 65536))


def full_disks():
    for command in ("plain", "imitate"):
        told = run(command, "long.wav", "out.wav", before=small_disk)
        check(f"refused: {command} onto a full disk", told, (1, b"", f"{command}: out.wav: File too large\n"))
    got, _, said = run("residual", "long.wav", "long.wav", "picture=a.svg", before=small_disk)
    check("refused: a picture onto a full disk", (got, said), (1, "residual: a.svg: File too large\n"))
    with open("/dev/full", "wb") as full:
        each = ("look good.wav", "plain good.wav -", "imitate good.wav -", "residual good.wav good.wav")
        for words in map(str.split, each):
            got, _, said = run(*words, out=full)
            check(f"refused: {words} to a full output", (got, said), (1, f"{words[0]}: standard output: {FULL}\n"))
        for name in ("render", "trace"):
            got, _, said = run(name, data=b"\0" * 8, out=full)
            check(f"refused: {name} to a full output", (got, said), (1, f"{name}: standard output takes no more\n"))


def too_loud(dice, rendered):
    """A sample that does not fit its kind once it is read back: the sinc overshoots near full scale."""
    numbers = [dice.randrange(-(2**15), 2**15) for _ in range(5000)]
    save("loud.wav", wav("pcm16", 1, 48000, stored("pcm16", numbers)))
    heard = rendered([n / 2**15 for n in numbers])
    first = next(k for k, x in enumerate(heard) if not -(2**15) <= round(x * 2**15) < 2**15)
    place = rf"loud\.wav is refused by 15: frame {first} of channel 1 .*kind=float32"
    one_line(1, ("imitate", "loud.wav", "out.wav"), place)


def refusals(dice, rendered):
    files = make_files()
    too_loud(dice, rendered)
    before = held()
    every_wrong_file(files)
    other_refusals()
    wrong_words()
    help_asked()
    full_disks()
    check("refused: all files as they were", held(), before)
    one_wrong_among_good()


def one_wrong_among_good():
    """A wrong file does not keep look from the others."""
    got, out, said = run("look", "good.wav", "none.wav", "wide.wav")
    check("look at three", (got, out.count(b"\n"), said.count("\n")), (1, 2, 1))
