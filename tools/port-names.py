#!/usr/bin/env python3
"""Brings the names of definitions and lemmas to today's spelling: words in snake case. Run once, at the top, after port.py.

It renames what the specs and the lemma files declare (`ceilOf` is `ceil_of`, `row-told` is `row_told`), wherever it is cited: in specs, proofs, clauses,
edits and the pages. Symbols of the class rules (pB, pE) and functions of src/ keep their names. The crate csv, whose name the kit has, is sheet_csv.
"""
import collections
import os
import re
import subprocess
import sys

TOKEN = re.compile(r"[^\s(){}\[\],;.\"@λ`|/:]+")
CAMEL = re.compile(r"^[a-z][A-Za-z0-9'₀-₉]*[A-Z]")
DASHED = re.compile(r"[^-\s]-[^->\s]")
SYMBOLS = {"zL", "zR", "pB", "pE", "pC", "pWD", "mPa", "kNm", "mPa\\n"}
SIGNATURE = re.compile(r"^\s*(?:(?:pub|abbrev|unfoldable) )*([^\s(){}\[\],;.:]+)((?: [^\s(){}\[\],;.:]+)*) : ")
HEAD = re.compile(r"^(?:(?:pub|abbrev|unfoldable) )*(?:record|data) (\S+)")
BINDER = re.compile(r"(?:\blet |[({])((?:[^\s(){}\[\],;.:]+ )*[^\s(){}\[\],;.:]+)(?: :| =)")
LIBRARY = re.compile(r"^\s*(?:ghost |pub )*use (?!Rattle\.(?:{own})\.)")
CRATE = "csv", "sheet_csv"


def read(path):
    with open(path, encoding="utf-8", newline="") as f:
        return f.read()


def write(path, text):
    with open(path, "w", encoding="utf-8", newline="") as f:
        f.write(text)


def tracked(*endings):
    names = subprocess.run(["git", "ls-files", "-z"], capture_output=True, text=True, check=True).stdout.split("\0")
    return [it for it in names if it.endswith(endings) and os.path.isfile(it)]


def is_old(name):
    return name not in SYMBOLS and bool(CAMEL.match(name) or DASHED.search(name))


LEMMAS = set()
# Lemmas that an earlier script named as a definition here will be named.
STANDING = {"all_short", "header_refused", "too_long", "held_in", "lines_left"}


def snake(name):
    name = re.sub(r"([a-z0-9₀-₉])([A-Z])", lambda m: m[1] + "_" + m[2].lower(), name) if CAMEL.match(name) else name
    return name.replace("-", "_")


def new_name(name):
    """A lemma that would have its function's name ends in _lem."""
    return snake(name) + ("_lem" if name in LEMMAS or name in STANDING else "")


def of_function(path):
    """Whether the file is part of one function's proof: there the kit's made names stand beside ours."""
    parts = path.split("/")
    return parts[2] == "proofs" and len(parts) > 4


def declared():
    names, fields, binders = set(), set(), collections.defaultdict(set)
    for path in tracked(".antt"):
        if of_function(path):
            continue
        in_record = False
        for line in read(path).split("\n"):
            if line.lstrip().startswith("--"):
                continue
            head = HEAD.match(line)
            if head:
                names.add(head[1])
                in_record = True
            elif line and not line[0].isspace():
                in_record = False
            found = SIGNATURE.match(line)
            if found:
                for it in [found[1], *found[2].split()]:
                    names.add(it)
                    if in_record and line[0].isspace():
                        fields.add(it)
            for group in BINDER.findall(line):
                binders[path].update(group.split())
    return {it for it in names if is_old(it)}, {it for it in fields if is_old(it)}, binders, names


def imported(text, own):
    """The names that the file's use lines bring, by whether they are of this repository."""
    ours, theirs = set(), set()
    for line in re.findall(r"^\s*(?:(?:ghost|pub|unfoldable) )*use [^\n]*", text, re.M):
        of_ours = re.search(r"use Rattle\.(%s)\.|use super|use crate" % "|".join(own), line)
        (ours if of_ours else theirs).update(TOKEN.findall(line))
    return ours, theirs


def respelled(text, which):
    return TOKEN.sub(lambda m: new_name(m[0]) if m[0] in which else m[0], text)


def in_source(text, which):
    """A .rt file: all but its strings."""
    parts = re.split(r'("(?:[^"\\\n]|\\.)*")', text)
    return "".join(it if i % 2 else respelled(it, which) for i, it in enumerate(parts))


def in_page(text, which):
    return re.sub(r"`[^`\n]*`", lambda m: respelled(m[0], which), text)


def crate_renamed(path, text):
    old, new = CRATE
    text = re.sub(rf"\bRattle\.{old}\.", f"Rattle.{new}.", text)
    text = re.sub(rf"\bcrates/{old}\b(?![\w_])", f"crates/{new}", text)
    if path.endswith(".rt"):
        text = re.sub(rf"\b{old}::", f"{new}::", text)
    if path.endswith(".md"):
        text = re.sub(rf"`{old}(?=::|/|`)", f"`{new}", text)
    if path == "crates.txt":
        text = re.sub(rf"\b{old}\b(?!_)", new, text)
    return text


def main():
    own = sorted(os.listdir("crates"))
    names, fields, binders, every = declared()
    functions = {snake(it) for it in names if "-" not in it} | every
    names |= STANDING
    LEMMAS.update(it for it in names if DASHED.search(it) and not CAMEL.match(it) and snake(it) in functions)
    clashes = sorted(it for it in names if new_name(it) in every)
    taken = collections.defaultdict(list)
    for it in sorted(names):
        taken[new_name(it)].append(it)
    for it, olds in taken.items():
        if len(olds) > 1:
            print("look: fall together:", it, "of", " ".join(olds))
    for it in clashes:
        print("look: stands already:", new_name(it))
    changed = 0
    for path in tracked(".antt", ".rt", ".edit", ".md", "crates.txt", ".ci/run", ".py") + [it for it in tracked("") if it.startswith(("checks/", "tools/", "docs/")) and "." not in os.path.basename(it)]:
        if path == "tools/port-names.py":
            continue
        old = text = read(path)
        if path.endswith(".antt"):
            ours, theirs = imported(text, own)
            which = names - theirs
            if of_function(path):
                which = (ours & names) | (fields - theirs)
            else:
                which = which | {it for it in binders[path] if is_old(it)} - theirs
            text = respelled(text, which)
        elif path.endswith(".rt"):
            text = in_source(text, names - STANDING)
        elif path.endswith(".edit"):
            text = "\n".join(it if it.startswith("fact:") else in_source(it, names - STANDING) for it in text.split("\n"))
        elif path.endswith(".md"):
            text = in_page(text, names - STANDING)
        text = crate_renamed(path, text)
        if text != old:
            write(path, text)
            changed += 1
    if os.path.isdir("crates/" + CRATE[0]):
        subprocess.run(["git", "mv", "crates/" + CRATE[0], "crates/" + CRATE[1]], check=True)
    print(f"{len(names)} names, {changed} files")


if __name__ == "__main__":
    main()
