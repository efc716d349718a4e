#!/usr/bin/env python3
"""Respells the repository's own names of definitions, lemmas, fields and constructors: words in snake case, a dash only between two names.

usage: python3 tools/respell.py [--dry]     at the top of the repository, once, after the toolchain's own script

A name is the repository's own if a file of specs/ or proofs/ declares it. Types and modules keep their spelling, and so do functions of src/,
exported names, strings, inputs and outputs. Where a lemma would then have its definition's name it gets `_lem`. It writes .antt files, .rt files
outside strings, and what comments, README.md and docs/ say in backquotes. It prints the names that fall together with another all the same.
"""
import collections
import os
import re
import sys

TOP = os.getcwd()
PART = r"A-Za-z0-9_'À-ʯͰ-Ͽἀ-῿₀-₉≢≤→\-"
NAME = re.compile(r"(?<![%s·«])[%s]+" % (PART, PART))
DECLARES = re.compile(r"^(\s*)(?:abbrev |unfoldable |pub )*([%s]+) ?:(?= |$)" % PART)
KIND = re.compile(r"^(\s*)(?:abbrev |unfoldable |pub )*(record|data) ([%s]+)" % PART)
LET = re.compile(r"\blet ([%s]+) =" % PART)
# What the check names itself, in a proof by hand.
MADE = re.compile(r"^(invariant|decreases|loop|returns|overflow|bounds|in|if|then|else|match|ghost)-|.*-(requires|spec|requires-\d+)$|^μ-|^Inv-")


def files(*ends):
    for folder, dirs, names in os.walk(TOP):
        dirs[:] = sorted(d for d in dirs if d not in ("out", ".git", "target"))
        for name in sorted(names):
            if name.endswith(ends):
                yield os.path.join(folder, name)


def read(path):
    with open(path, encoding="utf-8") as it:
        return it.read()


def declared():
    """Returns, of each own name, how it is declared: 'specs' at the top of a file of specs/, 'top' of proofs/, 'type', 'member' or 'inner'."""
    found = collections.defaultdict(set)
    for path in files(".antt"):
        by_hand = path.endswith("/Proof.antt")
        depth = None
        for line in read(path).split("\n"):
            if line.strip().startswith("--"):
                continue
            for name in LET.findall(line):
                found[name].add("inner")
            it = KIND.match(line)
            if it:
                depth = len(it.group(1))
                found[it.group(3)].add("type")
                continue
            it = DECLARES.match(line)
            if not it:
                if line and not line[0].isspace():
                    depth = None
                continue
            name = it.group(2)
            if by_hand and (": tie." in line or MADE.match(name) or ": {M : Type 1}" in line):
                continue
            if not it.group(1):
                depth = None
                found[name].add("specs" if "/specs/" in path else "top")
            elif depth is not None and len(it.group(1)) > depth:
                found[name].add("member")
            else:
                found[name].add("inner")
    return found


def library():
    """Returns the names that the files import from the libraries."""
    names = set()
    for path in files(".antt", ".rt"):
        for module, listed in re.findall(r"(?m)^(?:ghost )?(?:pub )?use ([\w.+'-]+)\.\{([^}]*)\}", read(path)):
            if re.match(r"Rattle\.(?!std\b)", module):
                continue
            for name in listed.split(","):
                names.add(name.strip().split(" as ")[0])
    return names


def snake(part):
    if not part or part[0].isupper():
        return part
    return re.sub(r"(?<=[a-z0-9'])([A-Z])", lambda m: "_" + m.group(1).lower(), part)


def camel(name):
    return "-" not in name and snake(name) != name


def spelled(own, theirs):
    said = {n for n, kinds in own.items() if kinds & {"specs", "type"} and "-" not in n}
    words = {snake(n) for n in said} | said | {n for n in theirs if "-" not in n}

    def turned(name):
        parts = [snake(p) for p in name.split("-")]
        text = parts[0]
        for left, right in zip(parts, parts[1:]):
            text += ("-" if left in words and right in words else "_") + right
        return text

    full = {n: turned(n) if not n[0].isupper() or "-" in n else n for n in own}
    groups = collections.defaultdict(list)
    for n, t in full.items():
        groups[t].append(n)
    left = []
    for t, ns in sorted(groups.items()):
        if len(ns) == 1 and (t not in theirs or ns[0] in theirs):
            continue
        keep = [n for n in ns if camel(n)] or [n for n in ns if "-" not in n] or ns[:1]
        if t in theirs and t not in ns:
            keep = []
        for n in ns:
            if n not in keep[:1]:
                full[n] = t + "_lem"
    back = collections.defaultdict(list)
    for n, t in full.items():
        back[t].append(n)
    left = sorted((t, ns) for t, ns in back.items() if len(ns) > 1)
    table = {n: t for n, t in full.items() if n != t and n not in theirs}
    return table, left


# A name in snake case may be a function of src/ too, and so a step of a proof: in .rt files, and behind a dot, it stays.
PLAIN = re.compile(r"[a-z0-9_']+$")


def names_in(text, table, only=None, rust=False):
    def turned(m):
        name = m.group()
        if only and not only(name) or PLAIN.match(name) and (rust or text[m.start() - 1 : m.start()] == "."):
            return name
        return table.get(name, name)

    return NAME.sub(turned, text)


def comment(text, table):
    """Rewrites what a comment has in backquotes, and names with a capital inside anywhere but between quotation marks."""
    pieces = re.split(r"(`[^`]*`|\"[^\"]*\")", text)
    for k, piece in enumerate(pieces):
        if piece.startswith("`"):
            pieces[k] = names_in(piece, table)
        elif not piece.startswith('"'):
            pieces[k] = names_in(piece, table, camel)
    return "".join(pieces)


def of_antt(text, table):
    lines = text.split("\n")
    for k, line in enumerate(lines):
        at = re.search(r"(?:^|\s)--(?=\s|$)", line)
        code, rest = (line[: at.start()], line[at.start():]) if at else (line, "")
        lines[k] = names_in(code, table) + comment(rest, table)
    return "\n".join(lines)


def of_rust(text, table):
    lines = text.split("\n")
    for k, line in enumerate(lines):
        pieces = re.split(r"(b?\"(?:[^\"\\]|\\.)*\"|//.*$)", line)
        for j, piece in enumerate(pieces):
            if piece.startswith("//"):
                pieces[j] = comment(piece, table)
            elif not re.match(r"b?\"", piece):
                pieces[j] = names_in(piece, table, rust=True)
        lines[k] = "".join(pieces)
    return "\n".join(lines)


def of_page(text, table):
    pieces = re.split(r"(```.*?```|`[^`\n]*`)", text, flags=re.S)
    return "".join(names_in(p, table) if p.startswith("`") and not p.startswith("```") else p for p in pieces)


def main():
    own = declared()
    theirs = library()
    table, left = spelled(own, theirs)
    for t, ns in left:
        print("fall together:", t, ns)
    print(len(table), "names,", sum(t.endswith("_lem") for t in table.values()), "with _lem")
    if "--table" in sys.argv:
        for n in sorted(table):
            print(n, table[n])
    if "--dry" in sys.argv:
        return
    for path in files(".antt", ".rt", ".md"):
        text = read(path)
        turn = of_antt if path.endswith(".antt") else of_rust if path.endswith(".rt") else of_page
        new = turn(text, table)
        if new != text:
            with open(path, "w", encoding="utf-8") as it:
                it.write(new)


if __name__ == "__main__":
    main()
