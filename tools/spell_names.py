#!/usr/bin/env python3
"""Spells the repository's own definitions and lemmas as today's Rattle does.

usage: python3 tools/spell_names.py        at the top of the repository, once, right after port.py

A definition or a field in camel case becomes snake case (letterValues: letter_values); types and facts keep their capitals.
In a lemma a dash stays where it joins the names of two definitions (length-ending_with) and becomes _ before a plain word
(accepts_star). Names that the source of src/ declares, and names brought in from the toolchain's libraries, stay.
Turned are specs/, proofs/, the clauses of src/, the must-fail edits, and the names between backticks in README.md and docs/.
"""
import os
import re
import sys

WORD = r"[^\s(){}.;,@\"«»\[\]\\`|]+"
TOKEN = re.compile(WORD)
DECLARED = re.compile(r"(?m)^[ ]*(?:(?:pub|abbrev|unfoldable|record|data) )*(" + WORD + r") :\s+(\S+)")
RECORD = re.compile(r"(?m)^[ ]*(?:pub )?(?:record|data) (" + WORD + r")")
OWN_USE = re.compile(r"(?m)^(?:ghost )?use Rattle\.(?!std\b)[^{;]*(\{[^}]*\}|[^\n;]*)")
# words of the library that lemmas here are named after
STD = {"length", "map", "append", "take", "drop", "set", "get_or", "head", "find", "filter", "reverse"}


def files():
    for folder, dirs, names in os.walk("crates"):
        dirs[:] = sorted(d for d in dirs if d != "out")
        for name in sorted(names):
            if name.endswith((".rt", ".antt", ".edit")):
                yield os.path.join(folder, name)


def read(path):
    with open(path, encoding="utf-8") as f:
        return f.read()


def snake(part):
    if not part or part[0].isupper():
        return part
    return re.sub(r"(?<=[a-z0-9])([A-Z])", lambda m: "_" + m.group(1).lower(), part)


def spelled(name, definitions):
    parts = [snake(p) for p in name.split("-")]
    out = parts[0]
    for at in range(1, len(parts)):
        left, right = parts[at - 1], parts[at]
        joins = (left in definitions or left in STD) and (right in STD or right in definitions and "_" in right)
        out += ("-" if joins or left[:1].isupper() else "_") + right
    return out


def foreign(text):
    """The names that a file takes from libraries that are not of this repository."""
    out = set()
    for m in re.finditer(r"(?m)^(?:ghost )?use ([^\s{]+?)\.\{([^}]*)\}", text):
        if not re.match(r"Rattle\.(?!std\b)", m.group(1)):
            out |= {w.split(" as ")[-1].strip() for w in m.group(2).split(",")}
            out |= {w.split(" as ")[0].strip() for w in m.group(2).split(",")}
    return out


def table():
    own, definitions = set(), set()
    for path in files():
        text = re.sub(r"(--|//)[^\n]*", "", read(path))
        own |= {n for use in OWN_USE.findall(text) for n in re.findall(r" as ([^\s,]+)", use)}
        if path.endswith(".antt"):
            # what answers a goal has the goal's name
            names = {n for n, of in DECLARED.findall(text) if not of.startswith("tie.")} | set(RECORD.findall(text))
            own |= {n for n in names if not n.startswith("+") and not n.endswith("-spec")}
            if "/specs/" in path:
                definitions |= {snake(n) for n in names if "-" not in n}
    turned = {n: spelled(n, definitions) for n in own}
    # a lemma that would have its function's name
    turned.update({n: n + "_lem" for n in own if turned[n] == n and any(b == n and a != n for a, b in turned.items())})
    taken = {b for a, b in turned.items() if a != b and "-" not in a}
    return {a: b + "_lem" if "-" in a and b in taken else b for a, b in turned.items() if a != b}


def turn(text, names, skip):
    return TOKEN.sub(lambda m: names[m.group()] if m.group() in names and m.group() not in skip else m.group(), text)


def main():
    names = table()
    for b in sorted({b for b in names.values() if list(names.values()).count(b) > 1}):
        print("fall together:", b, file=sys.stderr)
    for path in files():
        text = read(path)
        lines = []
        skip = foreign(text)
        for line in text.split("\n"):
            clause = not path.endswith(".rt") or re.match(r"\s*(ghost |requires|ensures|also_)", line) or re.search(r"[≡≤×λ→◌]", line)
            lines.append(turn(line, names, skip) if clause else line)
        new = "\n".join(lines)
        if new != text:
            with open(path, "w", encoding="utf-8") as f:
                f.write(new)
    pages = ["README.md"] + [os.path.join(d, n) for d, _, ns in os.walk("docs") for n in sorted(ns) if n.endswith(".md")]
    for path in pages:
        text = read(path)
        new = re.sub(r"`[^`\n]+`", lambda m: turn(m.group(), names, set()), text)
        if new != text:
            with open(path, "w", encoding="utf-8") as f:
                f.write(new)
    if "--table" in sys.argv:
        for a, b in sorted(names.items()):
            print(a, b)


if __name__ == "__main__":
    main()
