#!/usr/bin/env python3
"""Makes docs/ORACLE.md's table of hostile calls from what two runs printed.

  oracle/hostile --calls 100000000 >RUN
  oracle/hostile --checked --calls 10000000 >CHECKED
  oracle/hostile_table.py RUN CHECKED

Prints the table: the exports that refuse nothing in one row, what every kernel exports in a row for all kernels, a row
for each of the others, and both runs together.
Fails where the rows of a run do not add up to its last one. Needs Python 3.8 or newer and nothing else.
"""
import re
import sys


def read(path):
    """The rows of a run: an export's name, and its calls, accepted calls and refusals by number; the last has no name."""
    with open(path) as file:
        lines = file.read().splitlines()
    head = next(k for k, line in enumerate(lines) if line.split()[:2] == ["calls", "accepted"])
    ends = [found.end() for found in re.finditer(r"calls|accepted|by \d+", lines[head])]
    rows = []
    for line in lines[head + 1 :]:
        if line.startswith("no fault"):
            break
        name = re.match(r"fugnadri_(\S*)|", line)
        starts = [name.end()] + ends
        cells = [line[a:b].strip() for a, b in zip(starts, ends)]
        rows.append((name.group(1), [int(cell or 0) for cell in cells]))
    for column in zip(*(cells for _, cells in rows)):
        assert sum(column[:-1]) == column[-1], f"{path}: a column does not add up"
    return rows


def row(name, cells):
    told = [f"{n:,}" if n or k < 2 else "" for k, n in enumerate(cells)]
    return re.sub(r"\|  (?=\|)", "| ", "| " + " | ".join([name, *told]) + " |")


def over_kernels(names):
    """The kernels, and what each of them exports: a kernel is whatever has a sample and a stretch that tells."""
    kernels = [name[: -len("_sample")] for name in names if name.endswith("_sample")]
    kernels = [kernel for kernel in kernels if kernel + "_stretch_told" in names]
    of = [{name[len(kernel) + 1 :] for name in names if name.startswith(kernel + "_")} for kernel in kernels]
    return kernels, set.intersection(*of) if of else set()


def together_over(kernels, shared, exports):
    """The rows, with one for what every kernel exports where the first of these stands."""
    sums = {}
    for name, cells in exports:
        for kernel in kernels:
            if name.startswith(kernel + "_") and name[len(kernel) + 1 :] in shared:
                name = f"`KERNEL_{name[len(kernel) + 1 :]}` of {len(kernels)} kernels"
                break
        else:
            name = f"`{name}`"
        sums[name] = [a + b for a, b in zip(sums.get(name, [0] * len(cells)), cells)]
    return sums.items()


def table(run, checked):
    *exports, (_, together) = run
    yield "| export | calls | accepted | " + " | ".join(f"by {k}" for k in range(1, len(together) - 1)) + " |"
    yield "|" + "---|" * (len(together) + 1)
    free = [cells for _, cells in exports if cells[0] == cells[1]]
    yield row(f"the {len(free)} that refuse nothing", [sum(column) for column in zip(*free)])
    kernels, shared = over_kernels([name for name, _ in exports])
    for name, cells in together_over(kernels, shared, exports):
        if cells[0] != cells[1]:
            yield row(name, cells)
    yield row("together", together)
    yield row("together with `--checked`", checked[-1][1])


def main(arguments):
    if len(arguments) != 2 or arguments[0] in ("-h", "--help"):
        print(__doc__.strip())
        return 0 if arguments[:1] in (["-h"], ["--help"]) else 2
    print("\n".join(table(*map(read, arguments))))
    return 0


sys.exit(main(sys.argv[1:]))
