#!/usr/bin/env python3
"""Spells the repository's own definitions and lemmas as the library spells its words.

usage: python3 tools/respell.py [FOLDER]        FOLDER: a repository that port.py has turned; else the one that has this script

A definition, a record, a field and a constructor are in snake case. A lemma is too, but keeps one dash where it joins the
names of two definitions, and ends in _lem where it would have a function's name. Functions of src/, strings, inputs and
outputs keep their names, and so do the labels that the checker makes in a function's proof files. A new name that stands in
a text already is reported, and nothing is written; a definition may have the name of the function that it mirrors.
"""
import os
import re
import sys

NAME = r'[^\s(){}.;,@"«»]+'
DECLARED = re.compile(r"^( {0,4})((?:(?:abbrev|unfoldable|pub|record|data) )*)(" + NAME + r")(?: [({].*)? ?:(?:\s|$)")
SPECS = re.compile(r"crates/\w+/specs/\w+\.antt$")
LEMMAS = re.compile(r"crates/\w+/proofs/\w+\.antt$")
TOKEN = re.compile(NAME)
# Words of the library that a lemma's name may join.
LIBRARY = {"length", "take", "drop", "map", "append", "sum"}


def texts(*kinds):
    for folder, dirs, files in os.walk("crates"):
        dirs[:] = sorted(d for d in dirs if d != "out")
        for f in sorted(files):
            if f.endswith(kinds):
                yield os.path.join(folder, f)


def read(path):
    with open(path, encoding="utf-8") as f:
        return f.read()


def declared():
    """Names that definitions have, and names that lemmas have."""
    definitions, lemmas = set(), set()
    for path in texts(".antt"):
        if not (SPECS.match(path) or LEMMAS.match(path)):
            continue
        for line in read(path).split("\n"):
            m = DECLARED.match(line)
            if not m or line.lstrip().startswith("--"):
                continue
            of_record = m.group(1) and SPECS.match(path)
            defines = of_record or any(w in m.group(2) for w in ("abbrev", "unfoldable", "record", "data"))
            (definitions if defines else lemmas).add(m.group(3))
    return definitions, lemmas - definitions


def snake(name):
    return name.replace("-", "_")


def functions():
    return {f for path in texts(".rt") for f in re.findall(r"\bfn (\w+)", read(path))}


def renamed(definitions, lemmas):
    taken = functions()
    to = {n: snake(n) for n in definitions if "-" in n}
    known = {snake(n) for n in definitions} | LIBRARY
    for n in lemmas:
        if "-" not in n:
            continue
        parts = n.split("-")
        cuts = [("_".join(parts[:i]), "_".join(parts[i:])) for i in range(1, len(parts))]
        joined = [a + "-" + b for a, b in cuts if a in known and b in known]
        to[n] = joined[0] if joined else snake(n)
        if to[n] in taken:
            to[n] += "_lem"
    return {n: t for n, t in to.items() if n != t}


def meets(to):
    """New names that stand in some text already."""
    new = {}
    for n, t in to.items():
        new.setdefault(t, []).append(n)
    found = ["%s: all become %s" % (" and ".join(ns), t) for t, ns in new.items() if len(ns) > 1]
    for path in texts(".antt"):
        alone = re.compile(r"(?<![^\s(){},;@\"«»])" + NAME + r"(?![.])")
        for word in set(alone.findall(read(path))):
            if word in new:
                found.append("%s: %s stands here already, for %s" % (path, word, new[word][0]))
    return found


def turn(text, to, kept=()):
    return TOKEN.sub(lambda m: to.get(m.group(0), m.group(0)) if m.group(0) not in kept else m.group(0), text)


def turned_code(text, to):
    """Rust's text: comments stay."""
    return "\n".join(line if line.lstrip().startswith("//") else turn(line, to) for line in text.split("\n"))


def turned_answers(text, to):
    """A function's proof: the labels that it declares and those behind goal. stay."""
    kept = set(re.findall(r"(?m)^(?:abbrev )?pub (\S+) : goal\.", text))
    return turn(text, to, kept)


def main():
    os.chdir(os.path.dirname(os.path.dirname(os.path.abspath(__file__))) if len(sys.argv) < 2 else sys.argv[1])
    to = renamed(*declared())
    found = meets(to)
    if found:
        print("\n".join(found))
        return 1
    for path in texts(".antt", ".rt", ".edit"):
        text = read(path)
        if path.endswith(".antt"):
            whole = SPECS.match(path) or LEMMAS.match(path)
            new = turn(text, to) if whole else turned_answers(text, to)
        else:
            new = turned_code(text, to)
        if new != text:
            with open(path, "w", encoding="utf-8") as f:
                f.write(new)
    for page in ["README.md"] + sorted("docs/" + f for f in os.listdir("docs") if f.endswith(".md")):
        text = read(page)
        new = re.sub(r"`[^`\n]*`", lambda m: turn(m.group(0)[1:-1], to).join("``"), text)
        if new != text:
            with open(page, "w", encoding="utf-8") as f:
                f.write(new)
    for n, t in sorted(to.items()):
        print(n, t)
    return 0


sys.exit(main())
