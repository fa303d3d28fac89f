#!/usr/bin/env python3
"""Brings the names that this repository declares to the spelling of today's Rattle.

Run once at the top, after the kit's own port.py.  It renames in specs/, proofs/, in clauses and ghost
members of src/, and in the lines of must-fail edits.  Functions and fields of src/, strings and comments stay.

- a type, a record or a fact is in upper camel case: `Total-order` becomes `TotalOrder`
- any other name is in snake case: `put-in` becomes `put_in`
- in a lemma a dash stays between the names of two functions: `length-routed`
- an alias in lower camel case becomes snake case, and goes where it then says the name itself
"""
import os
import re
import sys

TOKEN = re.compile(r"[^\s(){}\[\],;.«»⌜⌝\"∷≡⟦⟧|]+")
DECL = re.compile(
    r"^(?P<ind>\s*)(?P<kw>(?:abbrev|unfoldable|pub|data|record)(?:\s+(?:abbrev|unfoldable|pub|data|record))*\s+)?"
    r"(?P<names>[^\s():{}⌜λ]+(?:\s+[^\s():{}⌜λ]+)*)\s*(?P<params>(?:\{[^}]*\}\s*|\((?:[^()]|\([^()]*\))*\)\s*)*):\s"
)
# names of the library that a lemma's name may join
STD = {"length", "get_or", "take", "drop", "map", "sum", "append", "or", "and", "set", "power"}
# lemmas that would fall together with something else
FIXED = {}


def files(top):
    for folder, dirs, names in os.walk(os.path.join(top, "crates")):
        dirs[:] = sorted(d for d in dirs if d != "out")
        for n in sorted(names):
            if n.endswith((".antt", ".rt", ".edit")):
                yield os.path.join(folder, n)


def snake(name):
    name = name.replace("getD", "get_or").replace("-", "_").replace("′", "'")
    return re.sub(r"(?<=[a-z0-9])([A-Z])", lambda m: "_" + m.group(1).lower(), name)


def camel(name):
    return "".join(p[:1].upper() + p[1:] for p in name.split("-"))


def declared(path, text):
    """Names that a file of specs/ or proofs/ declares, each with 'def' or 'lemma'."""
    out = []
    for line in text.split("\n"):
        if line.lstrip().startswith("--"):
            continue
        m = DECL.match(line)
        if not m or ": goal." in line:
            continue
        kw = m.group("kw") or ""
        for n in m.group("names").split():
            kind = "def" if re.search(r"abbrev|unfoldable|data|record", kw) or "/specs/" in path else "lemma"
            if n[:1].isalpha():
                out.append((n, kind))
    return out


def lemma(name, known):
    parts = name.replace("getD", "get_or").split("-")
    words = []
    i = 0
    while i < len(parts):
        for j in range(len(parts), i, -1):
            w = "_".join(parts[i:j])
            if w in known or j == i + 1:
                words.append((w, w in known))
                i = j
                break
    out = words[0][0]
    for (a, ka), (b, kb) in zip(words, words[1:]):
        out += ("-" if ka and kb else "_") + b
    return snake(out.split("-")[0]) + "".join("-" + snake(p) for p in out.split("-")[1:])


def mapping(top):
    kinds = {}
    for p in files(top):
        if p.endswith(".antt"):
            with open(p) as f:
                for n, k in declared(p, f.read()):
                    if kinds.get(n) != "def":
                        kinds[n] = k
    known = STD | {snake(n) for n, k in kinds.items() if k == "def" and n[0].islower()}
    out = {}
    for n, k in sorted(kinds.items()):
        if n[0].isupper():
            new = camel(n)
        elif k == "def":
            new = snake(n)
        else:
            new = lemma(n, known)
        new = FIXED.get(n, new)
        if new != n:
            out[n] = new
    return out, set(kinds)


def turn(text, names, comment):
    """Every token of names outside comments and strings."""
    lines = []
    for line in text.split("\n"):
        cut = len(line)
        in_string = False
        for i, c in enumerate(line):
            if c == '"' and (i == 0 or line[i - 1] != "\\"):
                in_string = not in_string
            if not in_string and line.startswith(comment, i) and (i == 0 or line[i - 1] in " \t"):
                cut = i
                break
        code, rest = line[:cut], line[cut:]
        code = TOKEN.sub(lambda m: names.get(m.group(0), m.group(0)), code)
        lines.append(code + rest)
    return "\n".join(lines)


def aliases(text):
    """Aliases in lower camel case, or with a dash, of one .rt file: turned, and dropped where they say the name."""
    renames = {}

    def one(m):
        name, alias = m.group(1), m.group(2)
        new = snake(alias)
        if new != alias:
            renames[alias] = new
        return name if new == name else f"{name} as {new}"

    out = []
    for line in text.split("\n"):
        if line.startswith("ghost use") or line.lstrip().startswith("ghost use"):
            line = re.sub(r"([\w'-]+) as ([a-z][\w'-]*)", one, line)
        out.append(line)
    return "\n".join(out), renames


def main():
    top = sys.argv[1] if len(sys.argv) > 1 else "."
    names, old = mapping(top)
    olds = {}
    for o, n in names.items():
        olds.setdefault(n, []).append(o)
    for n, os_ in sorted(olds.items()):
        if len(os_) > 1 or n in old:
            print("look: falls together:", n, "from", os_, "and" if n in old else "", n if n in old else "")
    for p in files(top):
        with open(p) as f:
            text = f.read()
        if p.endswith(".edit"):
            new = "\n".join(l if l.startswith("file:") else turn(l, names, "//") for l in text.split("\n"))
        elif p.endswith(".antt"):
            new = turn(text, names, "--")
        else:
            new = turn(text, names, "//")
            new, renames = aliases(new)
            new = turn(new, renames, "//")
        if new != text:
            with open(p, "w") as f:
                f.write(new)
    if "--list" in sys.argv:
        for o, n in sorted(names.items()):
            print(o, "->", n)


if __name__ == "__main__":
    main()
