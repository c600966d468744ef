"""The pages show what examples/morning does: its words, its pictures, and the figures worked out again."""
import contextlib
import io
import os
import subprocess
import tempfile

import pictured
from trial import ROOT, check, load


def page(name):
    return load(os.path.join(ROOT, name)).decode()


def blocks(name):
    """The indented blocks of a page, without their four blanks."""
    found, lines = [], []
    for line in page(name).splitlines() + ["end"]:
        if line.startswith("    "):
            lines.append(line[4:] + "\n")
        elif lines:
            found.append("".join(lines))
            lines = []
    return found


def said_by(command, folder):
    """What a command writes, as a terminal shows it: standard output and standard error."""
    both = {"stdout": subprocess.PIPE, "stderr": subprocess.STDOUT}
    done = subprocess.run(command, shell=True, cwd=folder, check=True, **both)
    return done.stdout.decode()


def again(block, folder):
    """A block of commands, each behind a dollar, and what they write now."""
    commands = [line for line in block.splitlines(True) if line.startswith("$ ")]
    return "".join(command + said_by(command[2:], folder) for command in commands)


def printed(program, names):
    """What a few lines of Python print, behind others that left these names."""
    said = io.StringIO()
    with contextlib.redirect_stdout(said):
        exec(compile(program, "docs/RESIDUAL.md", "exec"), names)
    return said.getvalue().rstrip("\n")


def figures(lines):
    """Number, largest, place, sum and level of a report's first channel."""
    line = next(line for line in lines.splitlines() if line.startswith("channel 1: "))
    parts = dict(part.split(" ", 1) for part in line.split(": ", 1)[1].split(", "))
    return [parts[name] for name in ("number", "largest", "place", "sum", "level")]


def shown(folder):
    said = said_by(f"'{ROOT}/examples/morning' .", folder)
    first, second = said.split("end\n")[:2]
    check("pages: README.md has what examples/morning says", first + "end\n" in blocks("README.md"), True)
    report = first[first.index("first: ") :] + "end\n"
    listed = blocks("docs/RESIDUAL.md")
    check("pages: docs/RESIDUAL.md has the report of B", report in listed, True)
    for name in ("README.md", "docs/RESIDUAL.md"):
        for level in (figures(first)[-1], figures(second)[-1]):
            check(f"pages: {name} has {level}", level in page(name), True)
    for name in ("B", "C"):
        # the two in docs/ are copies of what examples/morning leaves in target/morning
        check(f"pages: docs/residual-{name}.svg", page(f"docs/residual-{name}.svg"), load(f"{name}.svg").decode())
    names = {}
    for block in listed:
        if block.startswith("$ od"):
            check("pages: bytes looked up by hand", again(block, folder), block)
        if block.startswith("import wave"):
            check("pages: figures worked out again", printed(block, names), " ".join(figures(report)))
        if block.startswith("k, m = 628,"):
            light, dark = pictured.shown(load("B.svg"))[1][0][2][2 * 628 : 2 * 628 + 2]
            check("pages: bars worked out again", printed(block, names), f"{light[2]:.0f} {dark[2]:.0f}")
            check("pages: bars told", f"`{light[2]:.0f} {dark[2]:.0f}`" in page("docs/RESIDUAL.md"), True)


def pages():
    with tempfile.TemporaryDirectory() as folder:
        os.chdir(folder)
        shown(folder)
        os.chdir(ROOT)
