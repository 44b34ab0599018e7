#!/usr/bin/env python3
"""Brings the repository's own definitions, fields and lemmas to snake case: isOrderedCcw -> is_ordered_ccw, all-below -> all_below.

usage: tools/respell.py          at the top, once, right after the kit's port.py
       tools/respell.py --map    only prints the table

A name is respelled in every .rt and .antt file and in every must-fail edit. Where the new spelling stands in the tree already, as a
variable, a field, a parameter or a name of the library, the new name ends in `_of`: isOuter beside a field is_outer gives is_outer_of.
A dash in a lemma's name stays: it joins two names. Functions of src/ keep their names.
"""

import glob
import re
import sys

WORD = re.compile(r"[^\s(){}\[\].;,:@\"`«»]+")
HEAD = re.compile(r"^((?:abbrev |unfoldable |pub |data |record |ruleset )*)([^\s:(){}]+) :")
FIELD = re.compile(r"^\s+(?:pub )?([^\s:(){}]+) : ")
# definitions with a dash that are no lemmas
DASHED = {"all-below", "any-below", "first-below", "period-below", "to-f64", "to-read", "put-number-at", "put-number-below", "x-of", "y-of"}
# what the kit calls get_or was getD
GIVEN = {"rightOf": "right_node_of", "getD-from": "get_or-from", "getD-put": "get_or-put"}


def read(path):
    with open(path, encoding="utf-8", newline="") as f:
        return f.read()


def files():
    own = []
    for form in ("crates/*/specs/**/*.antt", "crates/*/proofs/**/*.antt", "crates/*/src/**/*.rt", "crates/*/must-fail/*.edit"):
        own += sorted(glob.glob(form, recursive=True))
    return own


def snake(name):
    return re.sub(r"(?<=[a-z0-9])([A-Z]+)", lambda m: "_" + m.group(1).lower(), name)


def table(texts):
    defined, standing = set(), set()
    for path, text in texts.items():
        if path.endswith(".antt"):
            for line in text.split("\n"):
                m = HEAD.match(line)
                if m:
                    defined.add(m.group(2))
                m = FIELD.match(line)
                if m and not line.lstrip().startswith("--"):
                    defined.add(m.group(1))
            bare = re.sub(r"--[^\n]*", "", text)
            for m in WORD.finditer(bare):
                if m.start() == 0 or bare[m.start() - 1] != ".":
                    standing.add(m.group())
                # a name whose signature stands on more lines than one, or beside others
                if re.match(r"[a-z][a-z0-9]+[A-Z]", m.group()):
                    defined.add(m.group())
        elif path.endswith(".rt"):
            code = re.sub(r"//[^\n]*", "", text)
            standing |= set(re.findall(r"\b([a-z_0-9]+)\s*:(?!:)", code)) | set(re.findall(r"\blet (?:mut )?([a-z_0-9]+)", code))
    new = dict(GIVEN)
    for name in sorted(defined):
        # a Greek or an arrow name, a type (capital first) and a lemma's dash stay
        if name in new or not re.match(r"[a-z]", name):
            continue
        to = name.replace("-", "_") if name in DASHED else name
        if re.search(r"[a-z0-9][A-Z]", to):
            to = "-".join(snake(part) if re.match(r"[a-z]", part) and not re.fullmatch(r"[a-z]+-[A-Z]", part) else part for part in to.split("-"))
        if to == name:
            continue
        taken = set(new.values())
        if to in standing or to in taken:
            to += "_of"
        if to in standing or to in taken:
            raise SystemExit(f"{name}: {to} stands already")
        new[name] = to
    return new


def main():
    texts = {path: read(path) for path in files()}
    new = table(texts)
    if "--map" in sys.argv:
        for name in sorted(new):
            print(f"{name}\t{new[name]}")
        return
    for path, text in texts.items():
        to = WORD.sub(lambda m: new.get(m.group(), m.group()), text)
        if to != text:
            with open(path, "w", encoding="utf-8", newline="") as f:
                f.write(to)
    print(f"{len(new)} names respelled")


main()
