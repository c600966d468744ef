"""Running ./run on files of a folder that is removed afterwards, and comparing what it did with what was reckoned."""
import os
import subprocess
import sys

ROOT = os.path.dirname(os.path.dirname(os.path.dirname(os.path.abspath(__file__))))
counted = {}


def short(thing):
    words = repr(thing)
    return words if len(words) < 1000 else f"{words[:500]} ... {words[-500:]} ({len(words)} characters)"


def check(what, got, wanted):
    """Counts a comparison under the first word of `what`; ends the whole run where the two differ."""
    subject = what.split()[0].rstrip(",:")
    counted[subject] = counted.get(subject, 0) + 1
    if got != wanted:
        sys.exit(f"morning: {what}: got\n{short(got)}\nand not\n{short(wanted)}")


def run(*words, data=b"", out=subprocess.PIPE, before=None):
    """./run with these words: its exit status, standard output and standard error. `before` is called in the child."""
    done = subprocess.run(
        [os.path.join(ROOT, "run"), *words], input=data, stdout=out, stderr=subprocess.PIPE, preexec_fn=before
    )
    return done.returncode, done.stdout, done.stderr.decode("latin-1")


def build(*words):
    """./run once with these words, so that a program that is not built yet is proved, which is said as it comes."""
    done = subprocess.run([os.path.join(ROOT, "run"), *words], stdin=subprocess.DEVNULL, stdout=subprocess.DEVNULL)
    if done.returncode != 0:
        sys.exit(f"morning: ./run {' '.join(words)} failed")


def save(name, content):
    with open(name, "wb") as file:
        file.write(content)
    return name


def load(name):
    with open(name, "rb") as file:
        return file.read()


def held(folder="."):
    """Every file of a folder with its bytes, and the name of every other thing in it."""
    paths = {name: os.path.join(folder, name) for name in os.listdir(folder)}
    return {name: load(path) if os.path.isfile(path) else None for name, path in paths.items()}
