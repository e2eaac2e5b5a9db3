#!/usr/bin/env python3
"""Turns this repository's own names to the spelling of today's Rattle, after port.py: definitions, lemmas and fields of specs/ and proofs/ in snake case,
octetsOf and octets-back as octets_of and octets_back. Run once, at the top. It goes by text: .antt files and clauses of .rt files whole, comments and pages between
backticks, must-fail edits as the file that they alter. Names that begin with a capital (types, the tables' words, codes) and names of src/ stay as they are.
A lemma whose new name a definition has already gets _lem behind it."""

import glob
import os
import re

STOP = set(" \t\n(){}[].,;:|\"`")
TOKEN = re.compile(r"[^\s(){}\[\].,;:|\"`]+")
HEAD = re.compile(r"(?m)^(?:(?:pub|abbrev|unfoldable|record|data) )*([^\s:(){}.,;]+)(?= [:({])")
FIELD = re.compile(r"(?m)^(?:  | {4})(?:pub )?([^\s:(){}.,;]+) : ")
# what the port's own scripts spell anew, and leave in an edit
STD = {"getD": "get_or", "the-variants": "TheVariants"}
# a definition of history's, beside table6's givesUp
OTHER = {"gives_up": "giving_up"}


def snake(n):
    n = re.sub(r"(?<=[a-z0-9])(?=[A-Z])", "_", n)
    n = n.replace("-", "_").lower()
    return n


def wanted(n):
    core = n.strip("◌")
    return bool(re.match(r"[a-z][A-Za-z0-9'/_-]*$", core)) and ("-" in core or re.search(r"[A-Z]", core)) and core != "is-2/10/3"


def antt_files():
    for part in ("specs", "proofs"):
        yield from sorted(glob.glob(f"crates/*/{part}/**/*.antt", recursive=True))


def read(p):
    with open(p, encoding="utf-8") as f:
        return f.read()


def write(p, t):
    with open(p, "w", encoding="utf-8") as f:
        f.write(t)


def collect():
    """The map of names and of fields, and the names that are taken."""
    names, fields, taken, specs = set(), set(), set(), set()
    for p in antt_files():
        t = read(p)
        for m in HEAD.finditer(t):
            # in a proof by hand a name that stands for a goal is Rattle's
            if re.match(r"%s : (?:tie|goal)\." % re.escape(m[1]), t[m.start(1):m.start(1) + len(m[1]) + 10]):
                continue
            (names if wanted(m[1]) else taken).add(m[1])
            if "/specs/" in p:
                specs.add(m[1])
        for m in FIELD.finditer(t):
            if wanted(m[1]):
                fields.add(m[1])
    new = {}
    # definitions first, then what specs/ has besides, then lemmas: the first has the plain name
    for n in sorted(names, key=lambda n: (n not in specs, "-" in n, n)):
        s = snake(n)
        if s in taken and n in specs and "-" not in n:
            # a lemma that port.py spelled so gives way to the definition
            new[s] = OTHER.get(s, s + "_lem")
            taken.add(new[s])
        elif s in taken:
            s += "_lem"
            assert s not in taken, n
        taken.add(s)
        new[n] = s
    return new, {n: snake(n) for n in fields}, taken


class Old(dict):
    """The map for edits, comments and pages, which port.py left alone: names that it has turned itself already, too."""

    def __init__(self, new, taken):
        super().__init__(new)
        self.taken = taken

    def get(self, w, other=None):
        s = super().get(w) or STD.get(w)
        if not s and wanted(w) and snake(w) in self.taken:
            s = snake(w)
        return s or other


def turn(t, new, fields):
    """Code: every name; a name behind a dot only where it is a field."""
    out, at = [], 0
    for m in TOKEN.finditer(t):
        w = m[0]
        dotted = m.start() > 0 and t[m.start() - 1] == "." and m.start() > 1 and t[m.start() - 2] not in STOP - {")"}
        to = fields.get(w) if dotted else new.get(w, fields.get(w))
        out += [t[at:m.start()], to or w]
        at = m.end()
    return "".join(out) + t[at:]


def backticks(t, new, fields):
    return re.sub(r"`([^`\n]+)`", lambda m: "`" + turn(m[1], new, fields) + "`", t)


def camel_only(new):
    return {n: s for n, s in new.items() if "-" not in n}


def modern(t):
    """An edit's text with paths, operators and projections as port.py spells them."""
    t = re.sub(r"Rattle·(\w+)·specs\.specs\.", r"Rattle.\1.specs.", t)
    t = re.sub(r"Rattle·(\w+)·proofs\.proofs\.", r"Rattle.\1.proofs.", t)
    t = re.sub(r"Rattle·(\w+)\.", r"Rattle.\1.", t)
    t = re.sub(r"(?<![\w◌])_([-+*/%<≤≡∷]|\|\||&&|\+\+)_(?![\w◌])", r"◌\1◌", t)
    t = re.sub(r"(?<=[\w')}]) \.(?=[a-z0-9])", ".", t)
    return re.sub(r"(?<=[ (])\(([a-z][\w']*(?:\.[\w']+)+)\)", r"\1", t)


def antt(t, new, fields):
    lines = []
    for l in t.split("\n"):
        m = re.match(r"(.*?)(^| )(-- .*|--)$", l)
        if m:
            code, note = m[1] + m[2], turn(m[3], camel_only(new), camel_only(fields))
            lines.append(turn(code, new, fields) + backticks(note, new, fields))
        else:
            lines.append(turn(l, new, fields))
    return "\n".join(lines)


def rt(t, new, fields):
    lines = []
    for l in t.split("\n"):
        if re.match(r"\s*(ghost use|requires|ensures)\b", l):
            lines.append(turn(l, new, fields))
        elif re.match(r"\s*//", l):
            lines.append(backticks(turn(l, camel_only(new), camel_only(fields)), new, fields))
        else:
            lines.append(turn(l, camel_only(new), {}))
    return "\n".join(lines)


def edit(t, new, fields):
    lines, file = [], ""
    for l in t.split("\n"):
        m = re.match(r"(old|new): (.*)$", l)
        if l.startswith("file:"):
            file = l
        if m:
            body = m[2]
            if file.endswith(".antt"):
                body = turn(modern(body), new, fields)
            else:
                body = rt(body, new, fields)
            lines.append(f"{m[1]}: {body}")
        else:
            lines.append(backticks(l, new, fields) if l.startswith("#") else l)
    return "\n".join(lines)


def main():
    new, fields, taken = collect()
    old = Old(new, taken)
    for p in antt_files():
        write(p, antt(read(p), new, fields))
    for p in sorted(glob.glob("crates/*/src/*.rt")):
        write(p, rt(read(p), new, fields))
    for p in sorted(glob.glob("crates/*/must-fail/*.edit")):
        write(p, edit(read(p), old, fields))
    for p in ["README.md", *sorted(glob.glob("docs/**/*.md", recursive=True))]:
        if os.path.basename(p) != "PORT.md":
            write(p, backticks(read(p), old, fields))
    for n in sorted(new):
        if new[n].endswith("_lem"):
            print(n, "->", new[n])
    print(len(new), "names,", len(fields), "fields")


if __name__ == "__main__":
    main()
