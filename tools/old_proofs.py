#!/usr/bin/env python3
"""Turns proofs that walk the older names (Proof.antt over Tie) to this Rattle's.

usage: answers.py CRATE_DIR [FUNCTION_PATH ..]

It asks `rt check --generated DIR --old-names` for the old and new name of each goal, place and step, and then writes
  Answers.antt (and Invariants.antt)   where no helper of the file speaks of a place of the walk
  Proof.antt, in the new names         where one does
A file that it cannot turn is left, and named. Run it in a crate whose lower crates are proved.
"""
import json
import os
import re
import subprocess
import sys
import tempfile

IDC = r"A-Za-z0-9_'₀-₉\-"


def norm(s):
    s = s.replace("_", "-")
    return re.sub(r"^(overflow|offset-bounds|bounds|nonzero-div|nonzero-rem)-", "", s) if False else re.sub(r"^overflow-", "", s)


def names_of(crate):
    d = tempfile.mkdtemp(prefix="names-")
    r = subprocess.run(["rt", "check", "--generated", d, "--old-names"], cwd=crate, capture_output=True, text=True)
    p = os.path.join(d, "names.json")
    if not os.path.exists(p):
        print(r.stdout[-3000:], r.stderr[-2000:])
        raise SystemExit("no names.json for " + crate)
    with open(p) as f:
        return json.load(f)


LABELS = {}


def labels(root):
    """name of a function -> {('ensures', labels), ('requires', labels)} over all sources of the repository."""
    import glob
    for p in glob.glob(os.path.join(root, "crates", "*", "src", "**", "*.rt"), recursive=True):
        with open(p) as f:
            lines = f.read().split("\n")
        cur = None
        for k, l in enumerate(lines):
            m = re.match(r"^\s*(?:pub(?:\(\w+\))? )?(?:const )?(?:unsafe )?(?:extern \"C\" )?fn (\w+)", l)
            if m:
                cur = (p.split("/crates/")[1].split("/")[0], m[1])
                mod = os.path.splitext(p.split("/src/")[1])[0].split("/")
                sig = " ".join(lines[k:k + 40])
                sig = sig[sig.find("fn "):]
                sig = re.split(r"\)\s*(?:->|ensures|requires|\{|where)", sig)[0]
                LABELS.setdefault(cur, []).append({"ensures": [], "requires": [], "mod": mod,
                                                   "params": re.findall(r"(\w+): ", sig)})
            m = re.match(r"^\s+(ensures|requires) (\w+ )?\{", l)
            if m and cur:
                LABELS[cur][-1][m[1]].append((m[2] or "").strip())


def labels_of(crate, name, kind, path=None):
    """The labels, where every function of that name that can be meant agrees; of the function at path, if it is given."""
    got = LABELS.get((crate, name)) or [x for (c, n), xs in LABELS.items() if n == name for x in xs]
    if path and len(got) > 1:
        mods = path.split(".")[:-1] or ["lib"]
        got = [x for x in got if x["mod"] == mods] or got
    sets = {tuple(x[kind]) for x in got}
    return list(next(iter(sets))) if len(sets) == 1 else None


def tuple_parts(inner):
    """The parts of a tuple, at its top level."""
    parts, depth, cur = [], 0, ""
    for ch in inner:
        if ch in "([{":
            depth += 1
        if ch in ")]}":
            depth -= 1
        if ch == "," and depth == 0:
            parts.append(cur)
            cur = ""
        else:
            cur += ch
    if cur.strip():
        parts.append(cur)
    return parts


def closes_at_end(s):
    """Whether the parenthesis that begins s is closed by its last character."""
    depth = 0
    for i, ch in enumerate(s):
        if ch == "(":
            depth += 1
        elif ch == ")":
            depth -= 1
            if depth == 0:
                return i == len(s) - 1
    return False


def as_fields(t, ls):
    """A lemma's pair at the end of an answer, as a record of these labels."""
    m = re.match(r"((?:.|\n)*?^[^\s:]+ \w+ =)((?:.|\n)*)$", t, re.M)
    if not m:
        return t
    head, body = m[1], m[2].rstrip()
    depth, cut = 0, 0
    for k in re.finditer(r"[(\[{]|[)\]}]|(?<=\s)in(?=\s)", body):
        if k[0] in "([{":
            depth += 1
        elif k[0] in ")]}":
            depth -= 1
        elif depth == 0:
            cut = k.end()
    last = body[cut:].strip()
    w = re.match(r"[^\s(]+", last)
    if not w or w[0] in ("record", "search", "grind", "elim", "rw", "simp", "cc", "omega", "subst", "absurd", "λ", "?"):
        return t
    flat, depth = "", 0
    for ch in last:
        depth += (ch in "([{") - (ch in ")]}")
        flat += ch if depth == 0 else ""
    if "∙" in flat or "." in w[0] and w[0].startswith("c."):
        return t
    # the older clauses were nested pairs
    fields = "; ".join(f"{l} = both" + ".1" * i + (".0" if i < len(ls) - 1 else "") for i, l in enumerate(ls))
    return f"{head}{body[:cut]}\n    let both = {last} in\n    record {{ {fields} }}\n"


def as_record(t, ls):
    """The last tuple of a text, as a record of these labels."""
    if not ls or len(ls) < 2 or not all(ls):
        return t
    s = t.rstrip()
    if not s.endswith(")"):
        return as_fields(t, ls)
    depth = 0
    for i in range(len(s) - 1, -1, -1):
        if s[i] == ")":
            depth += 1
        elif s[i] == "(":
            depth -= 1
            if depth == 0:
                break
    parts = tuple_parts(s[i + 1:-1])
    # a nested tuple (a, (b, c)) of three clauses
    while 2 <= len(parts) < len(ls):
        last = parts[-1].strip()
        if not (last.startswith("(") and last.endswith(")") and closes_at_end(last)):
            break
        more = tuple_parts(last[1:-1])
        if len(more) < 2:
            break
        parts = parts[:-1] + more
    if len(parts) < 2 or len(parts) != len(ls):
        return as_fields(t, ls)
    return s[:i] + "record { " + "; ".join(f"{l} = {p.strip()}" for l, p in zip(ls, parts)) + " }" + "\n"


class Fn:
    def __init__(self, key, v):
        self.key, self.v = key, v
        self.needs = [tuple(x) for x in v["needs"]]
        self.need = {}
        for old, new in self.needs:
            for k in (norm(old), norm(new)):
                self.need.setdefault(k, new)
        for old, new in self.needs:
            self.need[norm(old)] = new
        self.place, self.step = {}, {}
        for pl, newname in zip(v["places"], v["places_by_name"]):
            self.place[norm(pl[0])] = newname
            old, new = pl[2]
            if old:
                self.step.setdefault(norm(old), set()).add(new)
        # fields of a step that go by another name, as `true` that is now `true-raw`
        self.field = {}
        for pl in v["places"]:
            for o, n in pl[4]:
                self.field.setdefault(pl[2][1], {}).setdefault(o, set()).add(n)
        # what a call leaves in its arguments goes by the parameter's name
        self.news = {}
        for pl in v["places"]:
            if pl[2][1] and pl[3] and v.get("params", {}).get(pl[3]):
                self.news[pl[2][1]] = v["params"][pl[3]]
        self.clauses = {}
        for pl, cl in zip(v["places"], v["clauses"]):
            if cl and cl.get("fields") and pl[2][1]:
                self.clauses[pl[2][1]] = cl["fields"]
        # what an arm of a `match` tells: of an older step, the path to it
        self.arm = {}
        for a in v.get("arms") or []:
            for new, old, path in (a[2] if a else []):
                if path and path[0] == "given":
                    self.arm.setdefault((norm(old), tuple(path)), set()).add(f"{a[0]}.{new}")
        self.loops = [(a, b) for a, b in v["loops"]]
        self.changed = v["changed"]


def decls(text):
    """Top-level pieces: comments and blank lines go with what follows."""
    out, cur = [], []
    for line in text.split("\n"):
        top = bool(line) and not line[0].isspace() and not line.startswith("--")
        if top and not line.startswith("use ") and (
                re.match(rf"^(abbrev |unfoldable )*(pub )?[^\s(){{}}]+ :(\s|$)", line)
                or re.match(r"^(pub )?(record|data) ", line)):
            # a signature begins a new piece; comments just above belong to it
            back = []
            while cur and (cur[-1].startswith("--") or not cur[-1].strip()):
                back.insert(0, cur.pop())
            out.append(cur)
            cur = back + [line]
        else:
            cur.append(line)
    out.append(cur)
    return ["\n".join(c) for c in out]


def name_of(d):
    m = re.search(r"^(?:abbrev |unfoldable )*(?:pub )?(?:(?:record|data) ([^\s]+)|([^\s(){}]+) :(?:\s|$))", d, re.M)
    return (m[1] or m[2]) if m else None


def split_args(s):
    """Splits juxtaposed arguments at top level."""
    out, depth, cur = [], 0, ""
    for ch in s:
        if ch in "([{":
            depth += 1
        if ch in ")]}":
            depth -= 1
        if ch.isspace() and depth == 0:
            if cur:
                out.append(cur)
            cur = ""
        else:
            cur += ch
    if cur:
        out.append(cur)
    return out


def word(w):
    return re.compile(rf"(?<![{IDC}.]){re.escape(w)}(?![{IDC}])")


TRIVIAL = re.compile(r"^\(λ [^.]*\. (search (rules|\(rules\))|tt)\)$")


def unalias(t):
    """Writes out what a `let` names of the places before."""
    while True:
        m = re.search(rf"\blet ([^\s:=]+) = ([a-z]+[0-9'₀-₉]*)((?:\.before)+) in[ \n]", t)
        if not m:
            break
        name, base = m[1], m[2]
        end = m.end()
        rest = t[end:]
        ws = ""
        if m[0].endswith("\n"):
            mm = re.match(r"\s*", rest)
            rest = rest[mm.end():]
            # keep the layout: drop the let line only
            start = t.rfind("\n", 0, m.start()) + 1
            indent = t[start:m.start()]
            if indent.strip():
                head = t[:m.start()].rstrip()
                rest = "\n    " + rest
            else:
                head = t[:m.start()]
            t = head + word(name).sub(base + m[3], rest)
        else:
            t = t[:m.start()] + word(name).sub(base + m[3], rest)
    return t


def flatten(t):
    """The steps of a place are all fields of it."""
    t = unalias(t)
    return re.sub(r"(?:\.before)+(?=\.)", "", t)


def steps(fn, t, say, by_label=True):
    def told(m):
        path = m[2].strip(".").split(".")
        for n in range(len(path), 0, -1):
            got = fn.arm.get((norm(m[1]), tuple(path[:n])))
            if got and len(got) == 1:
                return "." + next(iter(got)) + "".join("." + x for x in path[n:])
        return m[0]
    if by_label:
        t = re.sub(rf"\.([A-Za-z][{IDC}]*)(\.given(?:\.[0-9]+)*)", told, t)

    def sub(m):
        k = norm(m[1])
        s = fn.step.get(k)
        if not s and m[1][0].isupper():
            s = fn.step.get(norm(m[1][0].lower() + m[1][1:]))
        if not s:
            return m[0]
        if len(s) > 1:
            say(f"step {m[1]} is one of {sorted(s)}")
            return m[0]
        if next(iter(s)) == m[1] + "-1" and (by_label or not t[m.end():].startswith(".given")):
            # a step of Rattle's own, which answers do not name: it is a field of that name
            return m[0]
        return "." + next(iter(s))
    t = re.sub(rf"(?<!\))\.([A-Za-z][{IDC}]*)", sub, t)
    for st, fs in fn.field.items():
        def fd(m):
            ns = fs.get(m[2])
            if not ns or len(ns) > 1:
                if ns:
                    say(f"field {m[2]} of {st} is one of {sorted(ns)}")
                return m[0]
            return m[1] + next(iter(ns))
        t = re.sub(rf"(\.{re.escape(st)}\.)([A-Za-z][{IDC}]*)", fd, t)
    for st, ps in fn.news.items():
        def nw(m):
            # nested pairs over all parameters
            ds = m[2].strip(".").split(".")
            n = 0
            while n < len(ds) and ds[n] == "1":
                n += 1
            if n >= len(ps):
                return m[0]
            return m[1] + "." + ps[n] + "".join("." + d for d in ds[n + 1:])
        t = re.sub(rf"(\.{re.escape(st)}\.new)((?:\.[01])+)(?![{IDC}])", nw, t)
    for st, fields in fn.clauses.items() if by_label else ():
        def cl(m):
            if len(fields) == 1:
                return m[1] + "." + fields[0]
            n = m[2] or ""
            idx = None
            if n:
                ds = n.strip(".").split(".")
                # a .1.1.0 of nested pairs, or a plain index
                if ds[0] == "0":
                    idx, rest = 0, ds[1:]
                else:
                    k = 0
                    while k < len(ds) and ds[k] == "1" and k < len(fields) - 1:
                        k += 1
                    if len(ds) == 1 and int(ds[0]) > 1:
                        k, rest = int(ds[0]), []
                    else:
                        rest = ds[k:]
                        if k < len(fields) - 1:
                            if rest and rest[0] == "0":
                                rest = rest[1:]
                            elif len(fields) > 2 and not rest:
                                pass
                    idx = k
                return m[1] + "." + fields[idx] + "".join("." + r for r in rest)
            return m[0]
        t = re.sub(rf"(\.{re.escape(st)}\.ensures)((?:\.[0-9]+)*)(?![{IDC}])(?!\.[0-9])", cl, t)
        for name in re.findall(rf"\blet ([^\s:=]+) = \w+\.{re.escape(st)} in\b", t):
            t = re.sub(rf"((?<![{IDC}.]){re.escape(name)}\.ensures)((?:\.[0-9]+)*)(?![{IDC}])(?!\.[0-9])", cl, t)
        # all clauses as one argument
        if len(fields) > 1:
            t = re.sub(rf"(?<![{IDC}.])((?!let)[A-Za-z][{IDC}]*(?:\.[{IDC}]+)*\.{re.escape(st)}\.ensures)(?=[\s)])(?!\s+in\b)",
                       lambda m: "(" + ", (".join(f"{m[1]}.{x}" for x in fields[:-1]) + f", {m[1]}.{fields[-1]}"
                       + ")" * (len(fields) - 1), t)
        # the same where a `let` names the clauses
        for al in re.findall(rf"\blet ([^\s:=]+) = [^\s]*\.{re.escape(st)}\.ensures\s+in\b", t):
            if len(fields) > 1:
                t = re.sub(rf"(?<![{IDC}.]){re.escape(al)}\.([0-9]+)(?![{IDC}])",
                           lambda m: al + "." + fields[int(m[1])] if int(m[1]) < len(fields) else m[0], t)
        # the same where a `let` names the step
        for al in re.findall(rf"\blet ([^\s:=]+) = c(?:\.[^\s.]+)*\.{re.escape(st)}\s+in\b", t):
            if len(fields) > 1:
                t = re.sub(rf"(?<![{IDC}.])({re.escape(al)}\.ensures)\.([0-9]+)(?![{IDC}])",
                           lambda m: m[1] + "." + fields[int(m[2])] if int(m[2]) < len(fields) else m[0], t)
    # an argument has its own name, though a step may be named after it
    for al in ["c.args"] + re.findall(r"\blet ([^\s:=]+) = c\.args in\b", t):
        t = re.sub(rf"(?<![{IDC}.])({re.escape(al)}\.[a-z_0-9]+)-[0-9]+(?=\.(?:now|new)\b)", r"\1", t)
    t = re.sub(r"\.well-formed\b", ".well_formed", t)
    # older names of what is known at the start
    t = re.sub(r"\.pre(?=[.,\s)]|$)", ".requires", t)
    t = re.sub(r"\.fits(?=\.)", ".ranges", t)
    t = re.sub(r"\.inv(?=[.,\s)]|$)", ".invariant", t)
    t = re.sub(r"\.good(?=\.[01])", ".well_formed", t)
    t = re.sub(r"\.type-inv\b", ".type_inv", t)
    # what an arm knows of the value that is matched
    t = re.sub(rf"\.enum_told-(in-[{IDC}]+?)-1\.given\.1\b", r".\1.is", t)
    arms = [new for pl in fn.v["places"] for new in (pl[2][1],) if new and new.startswith("in-")]
    if arms:
        t = re.sub(r"\.enum_told\.given\.1\b", f".{arms[0]}.is", t)
    # the two ways of a test
    t = re.sub(rf"(\.if-[{IDC}]+)\.taken\b", r"\1.true", t)
    t = re.sub(rf"(\.if-[{IDC}]+)\.left\b", r"\1.false", t)
    if by_label:
        t = re.sub(r"\.result-1\b", ".result", t)
    return t


def without_ways(text):
    """Writes out `abbrev begun : tie.PLACE .. → tie.EARLIER ..` with `begun c = c.before..` where it is used."""
    ways = []

    def written_out(text):
        was = None
        while ways and was != text:
            was = text
            lines = text.split("\n")
            for i, l in enumerate(lines):
                if l.lstrip().startswith("--"):
                    continue
                for name, chain in ways:
                    l = re.sub(rf"\({re.escape(name)} ([a-z][{IDC}]*(?:\.before)*)\)", rf"\1{chain}", l)
                    l = re.sub(rf"(?<![{IDC}.]){re.escape(name)} ([a-z][{IDC}]*(?:\.before)*)(?![{IDC}.])", rf"\1{chain}", l)
                lines[i] = l
            text = "\n".join(lines)
        return text
    # a way may be written by others
    while True:
        m = re.search(rf"^abbrev ([^\s]+) :\s+tie\.[A-Z][^→]*→\s+tie\.[A-Z][^→\n]*\n\1 (\w+) = \2((?:\.before)+)\n+",
                      text, re.M)
        if not m:
            break
        ways.append((m[1], m[3]))
        text = written_out(text[:m.start()] + text[m.end():])
    return text


def turn(crate, fn, path, mode=None):
    """path: the folder of the function's proof."""
    said = []
    say = said.append
    p = os.path.join(path, "Proof.antt")
    with open(p) as f:
        text = f.read()
    text = without_ways(text)
    text = re.sub(r"\.«([^»]*)»", r".\1", text)
    # arguments have the names of the source
    way = fn.key.split("-proofs.", 1)[1].rsplit(".Lts", 1)[0].split(".")
    for x in LABELS.get((os.path.basename(crate), way[-1]), []):
        if x["mod"] == (way[:-1] or ["lib"]) or len(way) == 1:
            for q in x["params"]:
                if "_" in q:
                    text = re.sub(rf"\.{q.replace('_', '-')}(?![{IDC}])", "." + q, text)
    ds = decls(text)
    head, ds = ds[0], ds[1:]
    # the last piece that closes
    spec = [d for d in ds if re.search(r"tie\.close", d)]
    if len(spec) != 1:
        say("no single tie.close")
        return None, said
    ds = [d for d in ds if d is not spec[0]]
    m = re.search(r"tie\.close\s+\(tie\.spec((?:.|\n)*)\)\s*$", spec[0])
    if not m:
        say("tie.close of another form")
        return None, said
    args = split_args(m[1])
    named, rest, invs = {}, [], []
    for d in ds:
        s = re.search(rf"^(abbrev |unfoldable )*(?:pub )?([^\s]+) :\s+tie\.(Need-[{IDC}]+|invariant-[{IDC}]+|decreases-[{IDC}]+)([^\n]*)$", d, re.M)
        if s and s[3].startswith("Need-"):
            named[s[2]] = (d, s[3][5:])
        elif s:
            invs.append((s[2], s[3], d))
        else:
            rest.append(d)
    inv_names = [i[0] for i in invs]
    while args and args[0] in inv_names:
        args.pop(0)
    places_used = any(re.search(r"\btie\.(?!Need-|spec|close|invariant|decreases)[A-Z]", d) for d in ds)
    # goals of the arguments
    goal_of = {}
    for n, (d, need) in named.items():
        g = fn.need.get(norm(need))
        if g is None and fn.need.get(norm(n)):
            g = fn.need.get(norm(n))
        goal_of[n] = g
        if g is None:
            say(f"need {need} ({n}) is not known")
    # align inline arguments
    new = [b for a, b in fn.needs]
    inline = {}
    anchors = [(i, new.index(goal_of[a])) for i, a in enumerate(args) if a in named and goal_of[a] in new]
    bounds = [(-1, -1)] + anchors + [(len(args), len(new))]
    for (i0, j0), (i1, j1) in zip(bounds, bounds[1:]):
        seg = [a for a in args[i0 + 1:i1] if not (a in named)]
        gs = new[j0 + 1:j1]
        hard = [a for a in seg if not TRIVIAL.match(a)]
        if not hard:
            continue
        if len(seg) == len(gs):
            for a, g in zip(seg, gs):
                if not TRIVIAL.match(a):
                    inline[g] = a
        elif len(hard) == len(gs):
            for a, g in zip(hard, gs):
                inline[g] = a
        else:
            say(f"inline {hard} fit none or several of {gs}")
    unanswered = [g for g in new if g not in inline and g not in goal_of.values()]
    fnpath = fn.key.split("-proofs.", 1)[1].rsplit(".Lts", 1)[0]
    cratename = os.path.basename(crate)
    own = fnpath.split(".")[-1]

    def goal_labels(g):
        for old, new in fn.needs:
            if new == g and fn.v.get("asked", {}).get(old):
                return fn.v["asked"][old]
        if g and g.startswith("returns"):
            return labels_of(cratename, own, "ensures", fnpath)
        m = re.match(r"^(\w+)(-\w+)*-requires", g or "")
        if m:
            return labels_of(cratename, m[1], "requires")
        return None

    def own_requires(t):
        ls = labels_of(cratename, own, "requires", fnpath)
        if not ls or len(ls) < 2 or not all(ls):
            return t
        def one(m):
            ds = m[1].strip(".").split(".")
            k = 0
            while k < len(ds) and ds[k] == "1" and k < len(ls) - 1:
                k += 1
            rest = ds[k:]
            if k < len(ls) - 1 and rest and rest[0] == "0":
                rest = rest[1:]
            return ".requires." + ls[k] + "".join("." + r for r in rest)
        return re.sub(r"(?<=c)\.requires((?:\.[0-9]+)+)", one, t)
    # helpers over one place of the walk, `(c : tie.After-f) →` first
    over = {}
    for d in rest:
        m = re.search(rf"^(?:abbrev |unfoldable )*(?:pub )?([^\s]+) :\s+\((\w+) : tie\.([A-Z][{IDC}]*)(?: [{IDC}]+)*\)", d, re.M)
        if m and norm(m[3]) in fn.place:
            over[m[1]] = (m[2], fn.place[norm(m[3])])
        m = re.search(rf"^(?:abbrev |unfoldable )*(?:pub )?([^\s]+) :\s+tie\.([A-Z][{IDC}]*)(?: [{IDC}]+)* →", d, re.M)
        if m and norm(m[2]) in fn.place:
            over[m[1]] = (None, fn.place[norm(m[2])])
    if mode is None:
        named_place = sum(len(re.findall(r"\btie\.(?!Need-|spec|close|invariant|decreases)[A-Z]", d)) for d in ds)
        mode = "A" if named_place > len(over) else "B"
        # a helper that is called from a helper over a later place stays in the old walk
        for d in rest:
            t = unalias(d)
            if any(re.search(rf"(?<![{IDC}.]){re.escape(h)} \w+(?:\.before)+(?![{IDC}.])", t) for h in over):
                mode = "A"
    # `use` has to import the record of a place from Goals; `goal.at` is made for those alone
    places_named = set()

    def at_places(t, g, own_place=None):
        """Calls of a helper over a place, from the answer of the goal g (or from a helper over own_place, g is None)."""
        for h, (_, pl) in over.items():
            def one(m):
                if not m[2]:
                    return m[0]
                if g is None and own_place:
                    places_named.add(pl)
                    return f"{h} (goal.at.{own_place} {m[1]}).{pl}"
                if g is None:
                    say(f"helper {h} is called at {m[1]}{m[2]} from a helper")
                    return m[0]
                return f"{h} (goal.at.{g} {m[1]}).{pl}"
            t = re.sub(rf"(?<![{IDC}.]){re.escape(h)} (\w+)((?:\.before)*)(?![{IDC}.])", one, t)
        def place(m):
            if norm(m[1]) not in fn.place:
                return m[0]
            places_named.add(fn.place[norm(m[1])])
            return fn.place[norm(m[1])]
        handed = "".join(rf"(?: {re.escape(i)})?" for i in inv_names)
        return re.sub(rf"\btie\.(?!Need-|spec|close|invariant|decreases)([A-Z][{IDC}]*){handed}", place, t)
    head = re.sub(r"^use Rattle\.[^ ]*\.Statement\.\{\s*statement,?\s*\}\n", "", head, flags=re.M)
    head = "\n".join(l for l in head.split("\n") if not re.match(r"^use Rattle\.[^ ]*\.Statement\.", l))
    if mode == "B":
        head = re.sub(r"^use Rattle\.([^\s]*)\.Tie as tie$", r"use Rattle.\1.Goals as goal", head, flags=re.M)
        rename = {n: g for n, g in goal_of.items() if g}
        body = []
        # what the invariants cite of the file's own goes with them
        moved, queue = [], []
        for i in invs:
            # the names of the loop's variables are no helpers
            mm = re.search(rf"^{re.escape(i[0])} ([^=]*)=", i[2], re.M)
            bound = "|".join(re.escape(x) for x in mm[1].split()) if mm else ""
            queue.append(re.sub(rf"(?<![{IDC}.])({bound})(?![{IDC}])", "", i[2]) if bound else i[2])
        while queue:
            q = queue.pop()
            for r in rest:
                n = name_of(r)
                if n and r not in moved and re.search(rf"(?<![{IDC}.]){re.escape(n)}(?![{IDC}])", q):
                    moved.append(r)
                    queue.append(r)
        moved = [r for r in rest if r in moved]
        if moved:
            names_moved = ", ".join(name_of(r) for r in moved)
            head = head.rstrip("\n") + f"\nuse Rattle.{cratename}.proofs.{fnpath}.Invariants.{{{names_moved}}}\n"
        for d in ds:
            if any(d is i[2] for i in invs) or d in moved:
                continue
            t = d
            n = next((n for n in named if named[n][0] is d), None)
            if n is not None:
                g = goal_of[n]
                if g is None:
                    others = [o for o in ds if o is not d] + args
                    # kept as a note
                    body.append("-- not turned: " + t.replace("\n", "\n-- "))
                    continue
                t = re.sub(rf"^(abbrev |unfoldable )*(?:pub )?{re.escape(n)} :\s+tie\.Need-[^\n]*$", f"pub {g} : goal.{g}", t, flags=re.M)
                t = re.sub(rf"^{re.escape(n)} (\w+) κs =", rf"{n} \1 =", t, flags=re.M)
                t = re.sub(rf"^{re.escape(n)} (\w+) κs\b", rf"{n} \1", t, flags=re.M)
            if n is not None and rename.get(n, n) != n:
                t = re.sub(rf"^{re.escape(n)}(?= [a-z])", rename[n], t, flags=re.M)
            other = [a for a, b in rename.items() if a != b and a != "returns"]
            if other:
                # all at once, and not in what was just renamed
                alts = "|".join(re.escape(a) for a in sorted(other, key=len, reverse=True))
                lines = t.split("\n")
                for i, l in enumerate(lines):
                    if n is not None and (l.startswith(f"pub {goal_of[n]} : ") or l.startswith(goal_of[n] + " ")):
                        at = l.find("=") if l.startswith(goal_of[n] + " ") else len(l)
                    else:
                        at = 0
                    lines[i] = l[:at] + re.sub(rf"(?<![{IDC}.])({alts})(?![{IDC}])", lambda m: rename[m[1]], l[at:])
                t = "\n".join(lines)
            t = at_places(unalias(t), goal_of[n] if n is not None else None, over.get(name_of(d), (None, None))[1])
            t = flatten(t)
            t = steps(fn, t, say)
            if n is not None:
                t = as_record(t, goal_labels(goal_of[n]))
            t = own_requires(t)
            body.append(t.rstrip("\n"))
        for g, a in inline.items():
            mm = re.match(r"^\(λ (\w+)( κs)?\. ((?:.|\n)*)\)$", a)
            mm2 = None if mm else a
            if mm:
                e = own_requires(as_record(steps(fn, flatten(at_places(unalias(mm[3]), g)), say), goal_labels(g))).rstrip("\n")
                body.append(f"\npub {g} : goal.{g}\n{g} {mm[1]} = {e}")
            else:
                body.append(f"\npub {g} : goal.{g}\n{g} = {a}")
        if places_named:
            head = head.rstrip("\n") + f"\nuse Rattle.{cratename}.proofs.{fnpath}.Goals.{{{', '.join(sorted(places_named))}}}\n"
        text = (head.rstrip("\n") + "\n" + "\n".join(body)).rstrip("\n") + "\n"
        if not body:
            text = None
        inv_text = None
        if invs:
            uses = "\n".join(l for l in head.split("\n") if l.startswith("use ") and ".Goals as goal" not in l and ".Goals.{" not in l
                             and ".Invariants.{" not in l)
            parts = []
            for r in moved:
                r = r.strip("\n")
                if not re.search(r"^(abbrev |unfoldable )*pub ", r, re.M):
                    n = name_of(r)
                    r = re.sub(rf"^((?:abbrev |unfoldable )*)(?=(?:record |data )?{re.escape(n)}(?: :|\s))", r"\1pub ", r, count=1, flags=re.M)
                parts.append(r)
            for name, kind, d in invs:
                # kind: invariant-loop, decreases-loop2 ..
                base = kind.split("-", 1)
                li = next((k for k, (ln, vs) in enumerate(fn.loops) if norm(ln[0]) == norm(base[1])), None)
                if li is None:
                    say(f"loop {kind} is not known")
                    continue
                ln, vs = fn.loops[li]
                ch = fn.changed[li]
                mm = re.search(rf"^{re.escape(name)} ([^=]*)=((?:.|\n)*)$", d, re.M)
                if not mm:
                    say(f"{kind}: no equation")
                    continue
                ps = mm[1].split()
                want = len(vs) + sum(ch)
                if len(ps) == want - 1 and vs[0] == "rt" and not ch[0]:
                    # the handle, which older programs had not
                    vs, ch, want = vs[1:], ch[1:], want - 1
                if len(ps) != want:
                    say(f"{kind}: {len(ps)} parameters, {want} wanted: {vs} {ch}")
                    continue
                expr = mm[2]
                sub = {}
                for q, vname, c in zip(ps, vs, ch):
                    sub[q] = f"l.initial.{vname}" if c else f"l.{vname}"
                for q, vname in zip(ps[len(vs):], [x for x, c in zip(vs, ch) if c]):
                    sub[q] = f"l.{vname}"
                def one(m2):
                    return sub.get(m2[0], m2[0])
                # a λ's own name is no variable of the loop
                for q in re.findall(rf"λ \(?([A-Za-z][{IDC}]*)(?=\.| :)", expr):
                    i = expr.find("(λ " + q) if q in sub else -1
                    i = expr.find("(λ (" + q) if q in sub and i < 0 else i
                    if i >= 0:
                        j, depth = i, 0
                        while j < len(expr):
                            depth += (expr[j] == "(") - (expr[j] == ")")
                            j += 1
                            if depth == 0:
                                break
                        expr = expr[:i] + re.sub(rf"(?<![{IDC}.]){re.escape(q)}(?![{IDC}])", q + q, expr[i:j]) + expr[j:]
                expr = re.sub(rf"(?<![{IDC}.])[A-Za-z][{IDC}]*(?![{IDC}])(?! = )", one, expr)
                # a signed variable is an integer already
                expr = re.sub(rf"\(to_z w[0-9]+ (l\.[{IDC}.]+)\)", r"\1", expr)
                expr = re.sub(rf"(?<![{IDC}.])to_z w[0-9]+ (l\.[{IDC}.]+)", r"\1", expr)
                comment = "\n".join(l for l in d.split("\n") if l.startswith("--"))
                unf = "\n".join(l for l in d.split("\n") if l.startswith("unfolding"))
                nm = f"{base[0]}-{ln[1]}"
                parts.append((comment + "\n" if comment else "") + f"abbrev pub {nm} : goal.{nm}\n" + (unf + "\n" if unf else "") + f"{nm} l ={expr}".rstrip())
            inv_text = uses + f"\nuse Rattle.{cratename}.proofs.{fnpath}.Given as goal\n\n" + "\n\n".join(parts) + "\n"
        return ("B", text, inv_text, unanswered), said
    # mode A
    t = head + "\n" + "\n".join(ds)
    for n, g in goal_of.items():
        if g:
            t = re.sub(rf"^((?:abbrev |unfoldable )*(?:pub )?{re.escape(n)} :\s+)tie\.Need-[{IDC}]+", rf"\1tie.Need-{g}", t, flags=re.M)
    def pl(m):
        k = norm(m[1])
        return "tie." + fn.place[k] if k in fn.place else m[0]
    t = re.sub(rf"\btie\.(?!Need-|spec|close|invariant|decreases)([A-Z][{IDC}]*)", pl, t)
    loopsub = []
    for ln, vs in fn.loops:
        for w in ("invariant", "decreases"):
            loopsub.append((f"{w}-{ln[0]}", f"{w}-{ln[1]}"))
    for a, b in loopsub:
        t = re.sub(rf"\btie\.{re.escape(a)}(?![{IDC}])", f"tie.{b}", t)
    at = max((m.end() for m in re.finditer(r"^use [^\n]*$", t, re.M)), default=0)
    t = t[:at] + steps(fn, t[at:], say, False)
    kept = []
    for old, g in fn.needs:
        n = next((n for n in named if goal_of[n] == g), None)
        if n:
            kept.append(n)
        elif g in inline:
            kept.append(steps(fn, inline[g], say, False))
        else:
            kept.append("(λ c κs. search rules)" if g.endswith("-requires") or re.search(r"-requires-\d+$", g) or "-requires-" in g else "(λ c. search rules)")
    sname = fnpath.split(".")[-1] + "_spec"
    stm = f"use Rattle.{cratename}.proofs.{fnpath}.Statement.{{statement}}\n"
    t = re.sub(r"^(use Rattle\.[^\s]*\.Tie as tie)$", stm + r"\1", t, count=1, flags=re.M)
    lines = ["    tie.close (tie.spec"]
    for w in inv_names + kept:
        if len(lines[-1]) + len(w) > 117:
            lines.append("   ")
        lines[-1] += " " + w
    closed = "\n".join(lines) + ")\n"
    t = t.rstrip("\n") + f"\n\npub {sname} : {{M : Type 1}} → statement M\n{sname} =\n{closed}"
    return ("A", t, None, unanswered), said


def main():
    crate = os.path.abspath(sys.argv[1])
    only = sys.argv[2:]
    mode = None
    if only and only[0] in ("A", "B"):
        mode = only.pop(0)
    names = names_of(crate)
    labels(os.path.dirname(os.path.dirname(crate)))
    n = {"A": 0, "B": 0}
    for key, v in names.items():
        if not key.endswith(".Lts") or not isinstance(v, dict):
            continue
        fnpath = key.split("-proofs.", 1)[1].rsplit(".Lts", 1)[0]
        if only and fnpath not in only:
            continue
        path = os.path.join(crate, "proofs", *fnpath.split("."))
        if not os.path.exists(os.path.join(path, "Proof.antt")):
            continue
        fn = Fn(key, v)
        try:
            got, said = turn(crate, fn, path, mode)
        except Exception as e:
            print(f"{fnpath}: {type(e).__name__} {e}")
            continue
        for s in said:
            print(f"{fnpath}: {s}")
        if got is None:
            continue
        kind, text, inv, left = got
        n[kind] += 1
        if kind == "A":
            with open(os.path.join(path, "Proof.antt"), "w") as f:
                f.write(text)
        else:
            os.remove(os.path.join(path, "Proof.antt"))
            if text:
                with open(os.path.join(path, "Answers.antt"), "w") as f:
                    f.write(text)
            if inv:
                with open(os.path.join(path, "Invariants.antt"), "w") as f:
                    f.write(inv)
            if not os.listdir(path):
                os.rmdir(path)
    print(f"turned to Answers.antt: {n['B']}, Proof.antt renamed: {n['A']}")


main()
