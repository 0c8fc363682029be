#!/usr/bin/env python3
"""Respells the repository's own definitions and lemmas: words in snake case (maxMips, one-layer), types and modules as they are.

usage: python3 tools/respell.py [--list]     at the top of the repository, once, right after the kit's port.py

It reads which names crates/*/specs and crates/*/proofs define (definitions, lemmas, fields of records, cases of data, names made by `as`), and
writes them anew wherever they stand in .antt files, and in the clauses, ghost items and `ghost use` lines of .rt files. Functions of src/, strings and
names that Rattle makes for a proof (a goal, a step, a field of a step) keep their spelling. It stops before it writes anything where two
names would become one, or where a new name is one that the repository or a parameter has already. --list prints the pairs and writes nothing.
"""

import collections
import os
import re
import sys

# An identifier of antt: letters, digits, _ ' and - inside a word; a dot or a bracket ends it.
WORD = re.compile(r"(?<![\w'-])[A-Za-z_][\w']*(?:-[\w']+)*(?![\w'-])")
SIGNATURE = re.compile(r"^(?: *)(?:abbrev |unfoldable |pub |record |data |ruleset )*([A-Za-z_][\w'-]*)(?= *(?::| [({]| :))")
ALIAS = re.compile(r"\bas ([A-Za-z_][\w'-]*)")
# Names that stand in a file of answers for a goal of Rattle's: `pub NAME : goal.NAME`.
GOAL = re.compile(r"\bgoal\.([A-Za-z_][\w'-]*)")
GENERATED = re.compile(r"^(returns|loop|invariant|decreases|in|if|from|field|then|else|match|index)-")

# Where a plain respelling would fall together with another name, or with a field of a struct that the same clauses cite.
CHOSEN = {
    "allowedUsages": "allowed_usages_of",
    "requiredFeatures": "required_features_of",
    "renderExtent": "render_extent_of",
    "twinListed": "is_twin_listed",
    "format-fits": "format_fits_lem",
    "is-this": "is_this_lem",
    "refused-by": "refused_by_lem",
    "same-format": "same_format_lem",
}


def files(ending):
    for folder, dirs, names in os.walk("crates"):
        dirs[:] = sorted(d for d in dirs if d != "out")
        for name in sorted(names):
            if name.endswith(ending):
                yield os.path.join(folder, name)


def read(path):
    with open(path, encoding="utf-8") as f:
        return f.read()


def respelled(name):
    if name in CHOSEN:
        return CHOSEN[name]
    if name[0].isupper():
        if "-" in name and name.upper() == name:
            return name.replace("-", "_")
        return name
    name = name.replace("-", "_")
    name = re.sub(r"(?<=[a-z0-9])([A-Z])", r"_\1", name)
    return re.sub(r"_?([0-9])_?D\b", r"_\1d", name).lower()


def defined():
    """Each name that the repository defines in antt, with the places where it does."""
    found = collections.defaultdict(set)
    for path in files(".antt"):
        text = read(path)
        goals = set(GOAL.findall(text))
        for line in text.split("\n"):
            line = re.sub(r"--(?=\s|$).*", "", line)
            if re.match(r"^ *(use|ghost|mod|pub mod|pub use|unfolding)\b", line):
                for alias in ALIAS.findall(line):
                    found[alias].add(path)
                continue
            m = SIGNATURE.match(line)
            if m and m[1] not in goals and not (GENERATED.match(m[1]) and ("proofs" in path and path.count("/") > 3)):
                found[m[1]].add(path)
    for path in files(".rt"):
        for line in re.findall(r"ghost use [^;]*;", read(path)):
            for alias in ALIAS.findall(line):
                found[alias].add(path)
    return found


def clashes(pairs):
    """What would fall together, or is there already."""
    said = []
    by_new = collections.defaultdict(list)
    for old, new in pairs.items():
        by_new[new].append(old)
    for new, olds in sorted(by_new.items()):
        if len(olds) > 1:
            said.append(f"{' and '.join(sorted(olds))} would both be {new}")
    standing = collections.defaultdict(set)
    for path in files(".antt"):
        text = re.sub(r"--(?=\s|$).*", "", read(path))
        # A field (`x.name`, `record { name = .. }`) is found by its type.
        for word in WORD.findall(re.sub(r"\.[A-Za-z_][\w'-]*|(?<=[{;\s])[A-Za-z_][\w'-]* =(?= )", " ", text)):
            standing[word].add(path)
    for old, new in sorted(pairs.items()):
        both = {p for p in standing[new] if re.search(r"(?<![\w'-])" + re.escape(old) + r"(?![\w'-])", read(p))}
        if both:
            said.append(f"{old} would be {new}, which stands beside it in {', '.join(sorted(both))}")
    for path in files(".rt"):
        text = read(path)
        for line in re.findall(r"ghost use [^;]*;", text):
            for word in WORD.findall(line):
                new = pairs.get(word)
                if new and re.search(r"[(,]\s*(?:mut )?" + re.escape(new) + r":", text):
                    said.append(f"{word} would be {new}, a parameter in {path}")
                if new and re.search(r"\bconst " + re.escape(new) + r"\b", text):
                    said.append(f"{word} would be {new}, a constant in {path}")
    return said


def without_strings(text, turn):
    """The text with turn done outside string literals."""
    parts = re.split(r'("(?:\\.|[^"\\\n])*")', text)
    return "".join(p if i % 2 else turn(p) for i, p in enumerate(parts))


def main():
    names = defined()
    pairs = {n: respelled(n) for n in names if respelled(n) != n}
    if "--list" in sys.argv:
        for old, new in sorted(pairs.items()):
            print(old, new)
    said = clashes(pairs)
    for line in said:
        print("respell: " + line, file=sys.stderr)
    if said or "--list" in sys.argv:
        return 1 if said else 0

    def turn(text):
        return WORD.sub(lambda m: pairs.get(m[0], m[0]), text)

    # A field of a step (`c.twin-listed.result`) is Rattle's name, not ours.
    def turn_proof(text):
        steps = r"(?<![\w'-])c\.[\w'.-]+"
        out, at = [], 0
        for m in re.finditer(steps, text):
            out += [turn(text[at:m.start()]), m[0]]
            at = m.end()
        return "".join(out) + turn(text[at:])

    changed = 0
    for path in list(files(".antt")) + list(files(".rt")):
        text = read(path)
        new = turn_proof(text) if path.endswith(".antt") else without_strings(text, turn)
        if new != text:
            with open(path, "w", encoding="utf-8") as f:
                f.write(new)
            changed += 1
    print(f"respell: {len(pairs)} names, {changed} files")
    return 0


sys.exit(main())
