#!/usr/bin/env python3
"""Brings the names of this repository's own definitions, fields and lemmas to one spelling.

usage: python3 tools/respell.py [--dry]      at the top of the repository

Run once, right after the scripts of the toolchain that turn an older repository. A name that an .antt file of a crate
declares is respelled wherever it stands in the crates' .rt and .antt files:
  - words in snake case: `movedOn` and `stride-lawful` become `moved_on` and `stride_lawful`;
  - a fact in upper camel case: `None-of` becomes `NoneOf`;
  - a prime is an apostrophe.
Names that the toolchain makes (goals, steps, loops) and names of the source keep their spelling. It says which new names
fall together with another name of a file that uses them, and writes nothing of a name that falls together with another
name of ours.
"""

import collections
import os
import re
import sys

TOKEN = re.compile(r"[^\s(){}\[\];,.\"`«»]+")
# where a lemma would have the name of the definition that it is about, or of another that is used beside it
GIVEN = {n: respelling + "_lem" for n, respelling in {
    "after-commas": "after_commas",
    "answer-of": "answer_of",
    "bad-next": "bad_next",
    "bad-shape": "bad_shape",
    "crossed-reads": "crossed_reads",
    "in-turn": "in_turn",
    "most-cells": "most_cells",
    "most-crews": "most_crews",
    "read-skew": "read_skew",
}.items()}
# names that fall together, but not in one file
APART = {"goes_on", "in_range", "with_values"}
# lemmas whose names the toolchain's scripts respelled, where the definition's name falls together with it
GIVEN_IN = [
    ("crates/schedule/proofs/Filling.antt", "moved_on", "moved_on_lem"),
    ("crates/jobs/proofs/", "no_room", "no_room_lem"),
]


def files(root):
    for folder, dirs, names in os.walk(os.path.join(root, "crates")):
        dirs[:] = sorted(d for d in dirs if d != "out")
        for name in sorted(names):
            if name.endswith((".rt", ".antt")):
                yield os.path.join(folder, name)


def is_proof_of_function(path):
    return os.path.basename(path) in ("Answers.antt", "Invariants.antt", "Proof.antt")


def declared(root):
    """The names that our .antt files declare: definitions and lemmas at the margin, fields and constructors below them."""
    found = set()
    for path in files(root):
        if not path.endswith(".antt"):
            continue
        with open(path, encoding="utf-8") as f:
            text = f.read()
        for m in re.finditer(r"(?m)^(?:abbrev |unfoldable )?(?:pub )?(?:abbrev |unfoldable )?([^\s:(){}.;,]+) : *(\S*)", text):
            if not (is_proof_of_function(path) and m.group(2).startswith("goal.")):
                found.add(m.group(1))
        if not is_proof_of_function(path):
            found.update(m.group(1) for m in re.finditer(r"(?m)^[ \t]+(?:pub )?([^\s:(){}.;,=]+) : ", text))
    return found


def made(root):
    """The names that answer or set a goal of the toolchain's: they are never respelled."""
    found = set()
    for path in files(root):
        if is_proof_of_function(path):
            with open(path, encoding="utf-8") as f:
                found.update(re.findall(r"goal\.([^\s(){};,.]+)", f.read()))
    return found


def respelled(name):
    if name in GIVEN:
        return GIVEN[name]
    name = name.replace("′", "'").replace("getD", "get_or")
    if name[0].isupper():
        return re.sub(r"-(.)", lambda m: m.group(1).upper(), name)
    name = re.sub(r"(?<=[a-z0-9])([A-Z])", lambda m: "_" + m.group(1).lower(), name)
    return name.replace("-", "_")


def is_word(name):
    return re.fullmatch(r"[A-Za-z][A-Za-z0-9_'′-]*", name) is not None


def table(root):
    names = {n for n in declared(root) if is_word(n)} - made(root)
    new = {n: respelled(n) for n in names}
    back = collections.defaultdict(set)
    for n, to in new.items():
        back[to].add(n)
    clash = {to: ns for to, ns in back.items() if len(ns) > 1 and to not in APART | {to for _, to, _ in GIVEN_IN}}
    for to, ns in sorted(clash.items()):
        print(f"together: {', '.join(sorted(ns))} would all be {to}")
    return {n: to for n, to in new.items() if n != to and to not in clash}


def main(argv):
    new = table(".")
    for path in files("."):
        with open(path, encoding="utf-8") as f:
            text = f.read()
        tokens = set(TOKEN.findall(text))
        for n in sorted(tokens & new.keys()):
            if new[n] in tokens:
                print(f"beside: {path}: {n} becomes {new[n]}, which stands there already")
        here = new | {n: to for part, n, to in GIVEN_IN if part in path}
        turned = TOKEN.sub(lambda m: here.get(m.group(0), m.group(0)), text)
        if turned != text and "--dry" not in argv:
            with open(path, "w", encoding="utf-8") as f:
                f.write(turned)
    print(f"respell: {len(new)} names")


if __name__ == "__main__":
    main(sys.argv[1:])
