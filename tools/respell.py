#!/usr/bin/env python3
"""Brings this repository's own definitions and lemmas to today's spelling. Run once, at the top, after port.py.

- The crate `bytes` becomes `octets`, since a library of the kit has its name.
- A word that is a definition, a lemma or a field, and was spelled in camel case, is spelled in snake case.
- In a lemma's name a dash stays where it joins two names of definitions; before any other word it becomes `_`.

Names of functions and types in src/, strings, inputs and outputs stay. A new spelling that already stands somewhere with
another meaning is printed, with where, and is to be looked at by hand.
"""
import collections
import os
import re
import subprocess

TOKEN = re.compile(r"[^\s(){}\[\],;:.λ∷`\"|$]+")
DECLARED = re.compile(r"^( *)(?:(?:abbrev|pub|unfoldable|axiom) )*([^\s:(){}λ,;.\[\]|]+) (?:: |\(|\{)")
PLAIN = re.compile(r"[a-z][A-Za-z0-9_'-]*$")
# words of the library that stand in names of lemmas
LIBRARY = set("length take drop append cond map get_or set all sum fold reverse join concat filter decimal replicate true false and or not add sub mul div mod pow "
              "le lt eq leb ltb eqb put_mid prefix_len flat_map some none zero suc".split())
# lemmas that a definition's new name would meet
FIRST = [
    ("crates/octets/proofs/Numbers.antt", "is_digit", "is_digit_lem"),
    ("crates/pages/proofs/Whole.antt", "step_by", "step_by_lem"),
]


def files(root, endings):
    for folder, dirs, names in os.walk(root):
        dirs[:] = sorted(d for d in dirs if d not in ("out", ".git"))
        for n in sorted(names):
            if n.endswith(endings):
                yield os.path.join(folder, n)


def read(path):
    with open(path, encoding="utf-8") as f:
        return f.read()


def write(path, text):
    with open(path, "w", encoding="utf-8") as f:
        f.write(text)


def snake(name):
    return re.sub(r"(?<=[a-z0-9])([A-Z])", lambda m: "_" + m.group(1).lower(), name)


def rename_crate():
    if not os.path.isdir("crates/bytes"):
        return
    subprocess.run(["git", "mv", "crates/bytes", "crates/octets"], check=True)
    write("crates.txt", re.sub(r"\bbytes\b(?!,)", "octets", read("crates.txt")).replace("# texts: octets", "# texts: bytes"))
    for path in files("crates", (".antt", ".rt", ".edit")):
        text = read(path)
        new = text.replace("Rattle.bytes.", "Rattle.octets.").replace("Rattle·bytes·", "Rattle·octets·").replace("Rattle·bytes.", "Rattle·octets.")
        if path.endswith((".rt", ".edit")):
            new = re.sub(r"^(.*\buse )bytes::", r"\1octets::", new, flags=re.M)
            new = re.sub(r"(?<![\w:.])bytes::", "octets::", new)
        if new != text:
            write(path, new)


def declared():
    found = collections.defaultdict(set)
    goals = set()
    for path in files("crates", ".antt"):
        text = read(path)
        goals |= set(re.findall(r"\b(?:goal|given)\.([^\s(){};,]+)", text))
        for line in text.splitlines():
            m = DECLARED.match(line)
            if m and "--" not in line[: m.end()]:
                found[m.group(2)].add(path)
    return found, goals


def new_names(found, goals):
    words = {n for n, at in found.items() if any("/specs/" in p for p in at)}
    words = {snake(w) for w in words} | LIBRARY
    names = {}
    for n in found:
        if n in goals or not PLAIN.match(n) or re.match(r"(returns|then|else|loop|index|overflow|invariant|decreases|requires)-", n):
            continue
        parts = [snake(p) if re.match(r"[a-z]", p) else p for p in n.split("-")]
        out = parts[0]
        for p in parts[1:]:
            joins = (p in words or p[:1].isupper()) and (out.split("-")[-1] in words or out.split("-")[-1][:1].isupper())
            out += ("-" if joins else "_") + p
        if out != n:
            names[n] = out
    # a lemma that would have a definition's name
    taken = {n for n in found if n not in names} | {b for a, b in names.items() if "-" not in a}
    return {a: b + "_lem" if "-" in a and b in taken else b for a, b in names.items()}


def in_code(line, names, comment):
    code, mark, rest = line.partition(comment)
    return TOKEN.sub(lambda m: names.get(m.group(0), m.group(0)), code) + mark + rest


def fields(line, names):
    """Also behind a dot, which ends a token."""
    return in_code(line, names, "--")


def respell(names):
    camel = {a: b for a, b in names.items() if re.search(r"[A-Z]", a)}
    for path in files("crates", ".antt"):
        text = read(path)
        new = "\n".join(fields(l, names) for l in text.split("\n"))
        if camel:
            new = re.sub(r"(?<![\w'-])(" + "|".join(map(re.escape, sorted(camel, key=len, reverse=True))) + r")(?![\w'-])", lambda m: camel[m.group(0)], new)
        if new != text:
            write(path, new)
    pages = [p for p in files(".", ".md") if not p.startswith("./crates/")] + list(files("crates", (".rt", ".edit")))
    for path in pages:
        text = read(path)
        new = re.sub(r"(?<![\w'-])(" + "|".join(map(re.escape, sorted(camel, key=len, reverse=True))) + r")(?![\w'-])", lambda m: camel[m.group(0)], text)
        if new != text:
            write(path, new)


def fallen_together(names):
    back = collections.defaultdict(set)
    for a, b in names.items():
        back[b].add(a)
    for b, a in sorted(back.items()):
        if len(a) > 1:
            print(f"fall together: {sorted(a)} -> {b}")
    for path in files("crates", (".antt", ".rt")):
        here = collections.Counter(t for l in read(path).splitlines() for t in TOKEN.findall(l.partition("--" if path.endswith("antt") else "//")[0]))
        for a, b in names.items():
            if a in here and b in here:
                print(f"stands already: {b} (from {a}) in {path}: {here[b]}")


def main():
    rename_crate()
    for path, old, new in FIRST:
        write(path, re.sub(rf"(?<![\w'-]){old}(?![\w'-])", new, read(path)))
    found, goals = declared()
    names = new_names(found, goals)
    fallen_together(names)
    respell(names)
    print(f"{len(names)} names respelled")


main()
