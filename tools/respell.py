#!/usr/bin/env python3
"""Respells the names of definitions and lemmas in specs/ and proofs/ as the toolchain's library spells its own.

usage: respell.py [FOLDER]      rewrites crates/, docs/ and README.md in FOLDER (the current one)

Functions, lemmas, fields and constructors become snake case, facts and types upper camel case. Only names that
this repository defines turn: those of the library and those that the check makes stay. A second run changes nothing.
"""
import os
import re
import sys

NAME = r"[^\s(){}.;,@\"«»\[\]|]+"
MADE = ("Answers.antt", "Invariants.antt", "Proof.antt")
COMMENT = re.compile(r"--[^\n]*")
SIGNATURE = re.compile(
    rf"(?:^|[({{;\[]|let |in |where |, |\| )\s*(?:abbrev )?(?:unfoldable )?(?:pub )?({NAME}(?: {NAME})*) :\s(?=(?P<type>[^\n]*))",
    re.M,
)
DECLARED = re.compile(rf"\b(?:record|data|let) ({NAME})(?= [:=({{]|\s)")
IMPORT = re.compile(r"^use (?:Rattle\.std|Prim|native|borrow|lib|mathlib)\b[^{\n]*\.\{([^}]*)\}", re.M)
FACT = re.compile(r"^\s*(?:abbrev |unfoldable )?(?:pub )?([A-Z][^\s]*) :[^\n]*Type 0$|\b(?:record|data) ([A-Z][^\s]*)", re.M)
CODE_SPAN = re.compile(r"`[^`\n]+`")
# names that would fall together with another one
APART = {
    "all-zero": "all_zero_lem",
    "basis-at": "basis_at_lem",
    "basis-of": "basis_of_lem",
    "boundary-of": "boundary_of_lem",
    "creates-at": "creates_at_lem",
    "is-empty": "is_empty_lem",
    "item-at": "item_of_lem",
    "open-numbers": "open_numbers_lem",
    "open-test": "open_test_lem",
}
STRING_OR_COMMENT = re.compile(r"//[^\n]*|\"(?:[^\"\\\n]|\\.)*\"")


def files(root, ends):
    for folder, folders, names in os.walk(os.path.join(root, "crates")):
        folders[:] = sorted(f for f in folders if f != "out")
        for name in sorted(names):
            if name.endswith(ends):
                yield os.path.join(folder, name)


def read(path):
    with open(path, encoding="utf-8") as f:
        return f.read()


def respelled(name, facts):
    words = re.sub(r"(?<=[a-z0-9])(?=[A-Z])", "-", name).split("-")
    if name in facts:
        return "".join(word[:1].upper() + word[1:] for word in words)
    return "_".join(word[:1].lower() + word[1:] for word in words)


def is_old(name):
    return re.search(r"\w-\w", name) or re.match(r"[a-z]\w*[a-z0-9][A-Z]", name)


def table(root):
    own, foreign, facts = set(), set(), set()
    for path in files(root, ".antt"):
        text = COMMENT.sub("", read(path))
        for found in IMPORT.finditer(text):
            foreign.update(item.strip().split(" as ")[0] for item in found.group(1).split(","))
        for found in SIGNATURE.finditer(text):
            made = os.path.basename(path) in MADE and found.group("type").startswith("goal.")
            (foreign if made else own).update(found.group(1).split())
        own.update(found.group(1) for found in DECLARED.finditer(text))
        facts.update(a or b for a, b in FACT.findall(text))
    rows = {name: respelled(name, facts) for name in own - foreign if is_old(name)}
    return {**rows, **{name: new for name, new in APART.items() if name in rows}}


def turn(text, rows):
    return re.sub(r"[^\s(){}.;,@\"«»\[\]|`]+", lambda found: rows.get(found.group(0), found.group(0)), text)


def turn_outside(pattern, text, rows):
    out, end = [], 0
    for found in pattern.finditer(text):
        kept = CODE_SPAN.sub(lambda span: turn(span.group(0), rows), found.group(0))
        out += [turn(text[end : found.start()], rows), kept]
        end = found.end()
    return "".join(out) + turn(text[end:], rows)


def set_apart(root):
    for path in files(root, ".antt"):
        if "proofs" in path:
            old = read(path)
            new = re.sub(r"(?<=Opens\.\{)([^}]*)\bis_open\b|\bis_open(?= (?:: \(l|l i =|columns d l i|cs d l ))", r"\1is_open_lem", old)
            write(path, old, new)


def write(path, old, new):
    if new != old:
        with open(path, "w", encoding="utf-8") as f:
            f.write(new)


def main():
    root = sys.argv[1] if len(sys.argv) > 1 else "."
    set_apart(root)
    rows = table(root)
    pages = [os.path.join(root, "README.md")]
    pages += [os.path.join(root, "docs", name) for name in sorted(os.listdir(os.path.join(root, "docs"))) if name.endswith(".md")]
    changes = [(path, lambda text: turn_outside(COMMENT, text, rows)) for path in files(root, ".antt")]
    changes += [(path, lambda text: turn_outside(STRING_OR_COMMENT, text, rows)) for path in files(root, ".rt")]
    changes += [(path, lambda text: CODE_SPAN.sub(lambda span: turn(span.group(0), rows), text)) for path in pages]
    for path, change in changes:
        old = read(path)
        write(path, old, change(old))


if __name__ == "__main__":
    main()
