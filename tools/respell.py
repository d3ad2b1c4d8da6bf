#!/usr/bin/env python3
"""Spells this repository's definitions and lemmas as today's Rattle does, once, on a tree that
/opt/rattle/port/port.py has turned and nobody has edited since.

usage: python3 tools/respell.py          at the top of the repository

respelled.tsv beside this file has a line for each name: as port.py leaves it, a tab, its new spelling.
Functions of src/, exported C names, strings, inputs and outputs keep their names. A name behind a dot is
a label that Rattle makes, and stays, unless it is written in camel case, is a field of a record of
specs/ or proofs/, or stands behind the alias of a module.
"""

import glob
import os
import re

HERE = os.path.dirname(os.path.realpath(__file__))
NAME = re.compile(r"(?<![\w'′-])([A-Za-z][\w'′]*(?:-[\w'′]+)*)(?![\w'′-])")
MARKS = r"(?:pattern |unfoldable |abbrev |pub )*"
# Names of one file alone: one that would meet another name there.
HERE_ALONE = [
    ("crates/clusters/proofs/Radix.antt", r"\bin_order\b", "in_order_lem"),
    ("crates/clusters/proofs/Columns.antt", r"\bin_order\b(?= = rw)", "as_sorted"),
    ("crates/clusters/proofs/Gathered.antt", r"(?<=\.)in_order\b", "as_sorted"),
    ("crates/clusters/specs/Needs.antt", r"(?<=pub )in_order\b", "as_sorted"),
    ("crates/file/proofs/Accepted.antt", r"\bnumbers_fit\b", "numbers_fit_lem"),
    ("crates/float/proofs/Roots.antt", r"\broot_in\b", "root_in_lem"),
    ("crates/report/proofs/Bounced.antt", r"\bmade_by\b", "by_made"),
]


def read(path):
    with open(path, encoding="utf-8") as f:
        return f.read()


def fields_of(paths):
    """The fields of records that the files declare."""
    found = set()
    for p in paths:
        inside = False
        for line in read(p).split("\n"):
            if re.match(rf"{MARKS}record ", line):
                inside = True
            elif line and not line.startswith(" "):
                inside = False
            elif inside and (m := re.match(rf"\s+{MARKS}([^\s:]+) :", line)):
                found.add(m.group(1))
    return found


def turn(text, table, fields, rust):
    aliases = set(re.findall(r"^use \S+ as (\S+)$", text, re.M)) - {"tie", "lts", "goal"}

    def name(m):
        word = m.group(1)
        if word not in table:
            return word
        before = text[: m.start()]
        if before.endswith("."):
            head = re.search(r"([\w'-]+)\.$", before)
            camel = re.search(r"[a-z0-9][A-Z]", word)
            module = head and (head.group(1) in aliases or head.group(1)[:1].isupper())
            if not (camel or word in fields or module):
                return word
        return table[word]

    if not rust:
        return NAME.sub(name, text)
    # In Rust text only camel case is a name of specs/; strings stay.
    words = re.compile(r'"(?:[^"\\\n]|\\.)*"|(?<![\w])([a-z]\w*[A-Z]\w*)(?!\w)')
    return words.sub(lambda m: m.group(0) if m.group(0)[0] == '"' else table.get(m.group(1), m.group(0)), text)


def main():
    with open(os.path.join(HERE, "respelled.tsv"), encoding="utf-8") as f:
        table = dict(line.rstrip("\n").split("\t") for line in f)
    antt = sorted(glob.glob("crates/*/specs/**/*.antt", recursive=True) + glob.glob("crates/*/proofs/**/*.antt", recursive=True))
    rust = sorted(glob.glob("crates/*/src/**/*.rt", recursive=True))
    fields = fields_of(antt)
    for p in antt + rust:
        text = read(p)
        new = text
        for path, old, other in HERE_ALONE:
            if path == p:
                new = re.sub(old, other, new)
        new = turn(new, table, fields, p.endswith(".rt"))
        if new != text:
            with open(p, "w", encoding="utf-8") as f:
                f.write(new)


main()
