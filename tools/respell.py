#!/usr/bin/env python3
"""Respells this repository's own names as Rattle spells its own: startRaw becomes start_raw.

usage: python3 tools/respell.py      at the top, once, after port.py

Definitions, lemmas, fields and variables of specs/ and proofs/ were partly in camel case; words are in snake case now. Types and modules keep
their capitals, and a dash that joins two names in a lemma's name stays. Clauses and `ghost use` lines of src/ and the pages are turned too. Rust's own names
in src/ were in snake case already. The must-fail edits are turned as port.py turns the files that they apply to.
"""

import glob
import re

CAMEL = re.compile(r"[a-z][a-z0-9]*(?:[A-Z][a-z0-9]*)+$")
TOKEN = re.compile(r"(?<![\w'])([a-z][A-Za-z0-9]*(?:-[a-z][A-Za-z0-9]*)*)(?![\w'])")
STRING = re.compile(r'("(?:[^"\\]|\\.)*")')
# port.py turned these itself in files, and not in edits
WORDS = {"natAbs": "nat_abs", "negℤ": "neg_ℤ", "getD": "get_or", "the-variants": "TheVariants"}
CALLS = ("force d", "readRaw a raw", "rulesOn a")


def snake(token):
    return "-".join(re.sub(r"[A-Z]", lambda m: "_" + m.group().lower(), p) if CAMEL.match(p) else p for p in token.split("-"))


def respelled(text):
    return TOKEN.sub(lambda m: snake(m.group(1)), text)


def outside_strings(text):
    return "".join(p if i % 2 else respelled(p) for i, p in enumerate(STRING.split(text)))


def turned(text):
    """A line of an edit, as port.py turns the line that it is for."""
    for old, new in WORDS.items():
        text = re.sub(r"(?<![\w'-])" + re.escape(old) + r"(?![\w'-])", new, text)
    text = re.sub(r"Rattle·(\w+)(?:·specs)?\.", r"Rattle.\1.", text)
    for call in CALLS:
        # a field of what a call gives: the call stands in brackets, and the field behind them
        field = re.escape(call) + r"((?: \.\w+)+)"
        text = re.sub(r"\(" + field + r"\)|" + field, lambda m: f"({call}){m.group(1) or m.group(2)}", text)
    text = re.sub(r"(?<![\w◌])_([^\s_(){}]+)_(?!\w)", r"◌\1◌", text)
    while True:
        # a projection is written tight, and an argument that is one projection needs no brackets
        tight = re.sub(r"(\w|\)) \.(\w)", r"\1.\2", text)
        tight = re.sub(r"(?<=[ (])\(([\w']+(?:\.\w+)+)\)", r"\1", tight)
        if tight == text:
            return respelled(text)
        text = tight


def write(path, turn):
    with open(path, encoding="utf-8") as f:
        text = f.read()
    new = turn(text)
    if new != text:
        with open(path, "w", encoding="utf-8") as f:
            f.write(new)


def edit(text):
    return "\n".join(turned(line) if line.startswith(("old: ", "new: ")) and ".antt" in text else line for line in text.split("\n"))


for path in glob.glob("crates/*/specs/**/*.antt", recursive=True) + glob.glob("crates/*/proofs/**/*.antt", recursive=True):
    write(path, respelled)
for path in glob.glob("crates/*/src/**/*.rt", recursive=True):
    write(path, outside_strings)
for path in glob.glob("crates/*/must-fail/*.edit"):
    write(path, edit)
for path in ["README.md", *glob.glob("docs/**/*.md", recursive=True)]:
    write(path, respelled)
