#!/usr/bin/env python3
"""Brings the repository's own words to the spelling of today's Rattle, after port.py and once: words in snake case, also the fields of records.

usage: tools/respell.py        at the top of the repository

A word of antt in camel case (as `packSigned`) gets underscores, wherever it stands in .antt files, in the ghost text and the comments of .rt files, in must-fail edits and in
the pages. A name that specs/ declares with a hyphen (as a field `answer-is`) gets an underscore in place of it. Functions of src/, exported names, strings, inputs and outputs
have neither form and keep their names.
"""
import os
import re
import sys

WORD = r"[^\s(){}.,;:`\"/|λ≡∷⟦⟧\[\]«»◌=*]+"
# words that are names of other languages, tools or keys, as they stand in pages and strings
KEEP = {"memAvailable"}
# lemmas that would have their function's name, by folder and file
LEMMAS = {"same_bits": "same_bits_lem"}
LEMMA_FILES = ("book_build/proofs/Filled.antt", "book_rows/proofs/Steps.antt", "book_rows/proofs/differs/Proof.antt")


def snake(w):
    out = re.sub(r"(?<=[a-z0-9])([A-Z])", lambda m: "_" + m.group(1).lower(), w)
    return out


def texts(root):
    for d, dirs, files in os.walk(root):
        dirs[:] = sorted(x for x in dirs if x not in ("out", ".git", "target"))
        for f in sorted(files):
            yield os.path.join(d, f)


def read(p):
    with open(p, encoding="utf-8") as f:
        return f.read()


def camel_words(root):
    found = set()
    for p in texts(os.path.join(root, "crates")):
        if p.endswith(".antt"):
            for w in re.findall(WORD, re.sub(r"--.*", "", read(p))):
                if re.match(r"^[a-z][A-Za-z0-9_'-]*$", w) and re.search(r"[a-z0-9][A-Z]", w):
                    # parts joined by a dash are names of their own: a capital at the head of one is a fact's
                    for part in w.split("-"):
                        if re.match(r"^[a-z]\w*$", part) and re.search(r"[a-z0-9][A-Z]", part):
                            found.add(part)
    return found - KEEP


def hyphened(root):
    """Names that specs/ declares with a hyphen: fields and definitions."""
    found = set()
    for p in texts(os.path.join(root, "crates")):
        if p.endswith(".antt") and "/specs/" in p:
            t = re.sub(r"--.*", "", read(p))
            for m in re.finditer(r"(?m)^\s*(?:abbrev |unfoldable )?pub (?:abbrev |unfoldable )?([a-z][\w']*(?:-[\w']+)+) :", t):
                found.add(m.group(1))
    return found


def main():
    root = os.getcwd()
    camel = camel_words(root)
    hyphen = hyphened(root)
    table = {w: snake(w) for w in camel}
    fields = {w: w.replace("-", "_") for w in hyphen}
    clash = 0
    word = re.compile(r"(?<![\w'-])(" + "|".join(sorted(map(re.escape, table), key=len, reverse=True)) + r")(?![\w'])")
    # in a hyphened name a camel part is turned too
    part = re.compile(r"(?<![\w'])(" + "|".join(sorted(map(re.escape, table), key=len, reverse=True)) + r")(?![\w'])")
    field = re.compile(r"(?<![\w'-])(" + "|".join(sorted(map(re.escape, fields), key=len, reverse=True)) + r")(?![\w'-])")
    changed = 0
    for p in texts(root):
        inside = "/crates/" in p
        if not (p.endswith((".antt", ".edit", ".md")) or (inside and p.endswith(".rt"))):
            continue
        if p.endswith(".md") and not inside and "/docs/" not in p and os.path.basename(p) != "README.md":
            continue
        old = text = read(p)
        if p.endswith(LEMMA_FILES):
            for a, b in LEMMAS.items():
                text = re.sub(r"(?<![\w'-])" + a + r"(?![\w'-])", b, text)
        if p.endswith(".antt"):
            bare = re.sub(r"--.*", "", text)
            ws = set(re.findall(WORD, bare))
            used = {w for w in table if part.search(bare) and re.search(r"(?<![\w'-])" + re.escape(w) + r"(?![\w'-])", bare)}
            for w in sorted(used):
                n = table[w]
                if re.search(r"(?<![\w'.-])" + re.escape(n) + r"(?![\w'-])", bare):
                    print(f"clash: {p}: {w} and {n}")
                    clash += 1
            for w, n in sorted(fields.items()):
                if w in ws and re.search(r"(?<![\w'.-])" + re.escape(n) + r"(?![\w'-])", bare):
                    print(f"clash: {p}: {w} and {n}")
                    clash += 1
        new = part.sub(lambda m: table[m.group(1)], text)
        new = field.sub(lambda m: fields[m.group(1)], new)
        if new != old:
            changed += 1
            with open(p, "w", encoding="utf-8") as f:
                f.write(new)
    print(f"respell: {len(table)} words, {len(fields)} names with a hyphen, {changed} files; {clash} names fall together")


if __name__ == "__main__":
    main()
