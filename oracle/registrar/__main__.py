"""What oracle/morning runs: it compares the registrar's programs with a plain reckoning of what they write. Standard library only."""
import sys

sys.dont_write_bytecode = True
import os
import random
import tempfile

import absence
import other_layouts
import pages
import rightly
import trial
import wrongly
from wave_files import wav


def build_all():
    trial.save("any.wav", wav("pcm24", 1, 48000, b"\0" * 30))
    each = ("look any.wav", "plain any.wav -", "imitate --help", "residual any.wav any.wav", "trace", "render")
    for command in each:
        trial.build(*command.split())


def main():
    dice = random.Random(2)
    with tempfile.TemporaryDirectory() as folder:
        os.chdir(folder)
        build_all()
        rightly.looks(dice)
        rightly.others(dice)
        rightly.imitations(dice)
        absence.absences(dice)
        rightly.residuals(dice)
        other_layouts.aiffs(dice)
        other_layouts.longs(dice)
        other_layouts.other_programs(dice)
        other_layouts.past_four_gigabytes(dice)
        wrongly.refusals(dice, rightly.rendered)
        os.chdir(trial.ROOT)
    pages.pages()
    each = ", ".join(f"{subject} {count}" for subject, count in trial.counted.items())
    print(f"morning: no difference in {sum(trial.counted.values())} comparisons: {each}")


main()
