#!/usr/bin/env python3
"""tools/break_lines.py FILE.. | CRATE..
Breaks each line of more than 120 columns that docs/check-width names, without changing a word: a `use` becomes two of
the same page, a comment or a paragraph flows on into the next line, and an expression goes on in a line indented
deeper, broken where the fewest brackets are open. Run `rt fmt` in the crate's folder afterwards."""
import os
import re
import sys

WIDTH = 120


def depths(line):
    """For each place of the line how many brackets are open there."""
    depth, out = 0, []
    for ch in line:
        if ch in "([{":
            depth += 1
        elif ch in ")]}":
            depth -= 1
        out.append(depth)
    return out


def use(line):
    found = re.match(r"((?:pub )?(?:ghost )?use [^{]*\{)(.*)(\};?)$", line)
    if not found:
        return None
    head, names, tail = found[1], [it.strip() for it in found[2].split(",") if it.strip()], found[3]
    out, now = [], []
    for name in names:
        if now and len(head + ", ".join([*now, name]) + tail) > WIDTH:
            out.append(head + ", ".join(now) + tail)
            now = []
        now.append(name)
    return [*out, head + ", ".join(now) + tail]


def expression(line, step):
    out = []
    indent = len(line) - len(line.lstrip(" "))
    deeper = " " * (indent + step)
    while len(line) > WIDTH:
        open_at = depths(line)
        first = len(line) - len(line.lstrip(" "))
        best = None
        # where the fewest brackets are open: before an arrow or behind '=', else before '≡', and so on; the last place
        for at in range(first + 1, WIDTH + 1):
            before, behind = line[first:at].rstrip(), line[at:].lstrip()
            if line[at] != " " or at < first + 40:
                continue
            if re.search(r"(λ[^.→↦]*|[∀∃][^.→↦]*)$", before) or before.endswith((":", "record", "·")) or re.search(r" [-*+/%≡≤<→×^]$", before):
                continue
            if behind.startswith("→ ") or before.endswith(" =") or before.endswith(" in"):
                kind = 0
            elif behind.startswith(("≡ ", "≤ ", "< ")):
                kind = 1
            elif re.match(r"(×|&&|\|\||\+\+|∷|⊎|\|) ", behind) or before.endswith((";", ",")):
                kind = 2
            elif re.match(r"[-*+/%^] |\+ℤ ", behind):
                kind = 4
            else:
                kind = 3
            score = (open_at[at], kind, -at)
            if best is None or score < best[0]:
                best = (score, at)
        if best is None:
            return None
        at = best[1]
        out.append(line[:at].rstrip())
        line = deeper + line[at:].lstrip()
    return [*out, line]


def flows(lines, i, lead, stop):
    """Moves the words of lines[i] that are too many to the next line, or to a line of their own."""
    line = lines[i]
    at = line.rfind(" ", 0, WIDTH + 1)
    if at <= len(lead):
        return False
    rest = line[at + 1 :]
    lines[i] = line[:at].rstrip()
    nxt = lines[i + 1] if i + 1 < len(lines) else ""
    if nxt.startswith(lead) and nxt[len(lead) :].strip() and not nxt[len(lead) :].startswith(" ") and not re.match(stop, nxt[len(lead) :]):
        lines[i + 1] = lead + rest + " " + nxt[len(lead) :]
    else:
        lines.insert(i + 1, lead + rest)
    return True


def mend(path):
    with open(path, encoding="utf-8") as it:
        lines = it.read().split("\n")
    page = path.endswith(".md")
    step = 4 if path.endswith(".rt") else 2
    fence, i, left = False, 0, []
    while i < len(lines):
        line = lines[i]
        if page and re.match(r" *```", line):
            fence = not fence
        if len(line) <= WIDTH or (page and (fence or re.match(r" *\||    ", line))):
            i += 1
            continue
        done = None
        if page:
            lead = re.match(r" *", line)[0] if not re.match(r" *([-*]|\d+\.) ", line) else " " * len(re.match(r" *([-*]|\d+\.) ", line)[0])
            if flows(lines, i, lead, r"([-*|#]|\d+\. )"):
                continue
        elif re.match(r" *(--|//[/!]?|#) ", line):
            if flows(lines, i, re.match(r" *(--|//[/!]?|#) ", line)[0], r"$^"):
                continue
        elif re.match(r"(pub |ghost )*use ", line):
            done = use(line)
        elif path.endswith((".antt", ".rt")) and '"' not in line and "--" not in line:
            done = expression(line, step)
        if done is None:
            left.append(f"{path}:{i + 1}")
            i += 1
            continue
        lines[i : i + 1] = done
        i += len(done)
    with open(path, "w", encoding="utf-8") as it:
        it.write("\n".join(lines))
    return left


for word in sys.argv[1:]:
    files = [word]
    if not os.path.isfile(word):
        files = []
        for at, folders, names in os.walk(f"crates/{word}"):
            folders[:] = [it for it in folders if it not in ("out", "must-fail", "data")]
            files += [f"{at}/{it}" for it in names if it.endswith((".antt", ".rt"))]
    for file in sorted(files):
        with open(file, encoding="utf-8") as it:
            if any(len(line) > WIDTH for line in it):
                for place in mend(file):
                    print(f"{place}: left as it is")
