#!/usr/bin/env python3
"""Brings the repository's own definitions and lemmas to today's spelling: words in snake case.

usage: tools/respell.py [--list]     at the top of the repository, once, after the kit's port.py

It renames what specs/ and proofs/ declare (definitions, lemmas, constructors, fields) outside the folders of single
functions, wherever a .rt or .antt file or a must-fail edit cites it. Functions of src/, strings and what Rattle makes
keep their names. It stops, and writes nothing, where two names would fall together.
"""

import os
import re
import sys

# Lemmas that would get the name of the definition that they are about, or of another lemma.
LEMMAS = """
    bad-code bad-reading batch-told beside_at black-child character-of entry-told first-slot good-reading grand-at
    lengths-fit linked-count met-told next-in own-number parent-color place-value recolor-at record-at remove-two
    rise-at same-lengths side-if step_down tidy-slot turn-over uncle-at
""".split()
APART = {name: name.replace("-", "_") + "_lem" for name in LEMMAS}
APART["orInsert-refused"] = "or_insert_call_refused"  # beside or-insert-refused, of another crate
APART["onLeft"] = "is_on_left"  # beside a field

# a word of antt: letters, digits, and the signs that may stand inside a name
WORD = re.compile(r"[^\W\d_][\w'₀-₉]*(?:-[\w'₀-₉]+)*|_[\w'₀-₉]+(?:-[\w'₀-₉]+)*")
PATH = re.compile(r"Rattle(?:\.[\w+]+)+")
SIGNATURE = re.compile(r"^(?:(?:pub|abbrev|unfoldable|ruleset) )*([^\s:(){}.;,]+) :(?= |$)", re.M)
MEMBER = re.compile(r"^  (?:pub )?([^:=\n(){}.;,]+?) :(?= |$)", re.M)


def snake(name):
    name = name.replace("-", "_")
    name = re.sub(r"(?<=[a-z0-9'])([A-Z])", lambda m: "_" + m[1].lower(), name)
    return name


def files(root, endings):
    for folder, dirs, names in os.walk(os.path.join(root, "crates")):
        dirs[:] = sorted(d for d in dirs if d != "out")
        for name in sorted(names):
            if name.endswith(endings):
                yield os.path.join(folder, name)


def is_of_function(path):
    return os.path.basename(path) == "Proof.antt"


def code(text):
    return re.sub(r"--[^\n]*", "", text)


def declared(root):
    found = set()
    for path in files(root, (".antt",)):
        if is_of_function(path):
            continue
        with open(path, encoding="utf-8") as f:
            text = code(f.read())
        found.update(SIGNATURE.findall(text))
        for names in MEMBER.findall(text):
            found.update(names.split())
    return found


def renamed(names):
    new = {}
    for name in sorted(names):
        if name[0].isupper():
            continue
        to = APART.get(name, snake(name))
        if to != name:
            new[name] = to
    return new


def respell(text, new):
    return WORD.sub(lambda m: new.get(m[0], m[0]), text)


def together(root, names, new):
    """The names that would fall together: with another new one, or with a word that stands in the same file."""
    back = {}
    for name, to in new.items():
        back.setdefault(to, []).append(name)
    said = [f"{' and '.join(olds)} would both be {to}" for to, olds in back.items() if len(olds) > 1]
    for path in files(root, (".antt",)):
        if is_of_function(path):
            continue
        with open(path, encoding="utf-8") as f:
            words = set(WORD.findall(PATH.sub("", code(f.read()))))
        said += [
            f"{path}: {w} would be {new[w]}, which stands there"
            for w in words
            if w in new and new[w] in words and new[w] not in new
        ]
    return said


def main():
    root = os.path.dirname(os.path.dirname(os.path.realpath(__file__)))
    names = declared(root)
    new = renamed(names)
    said = together(root, names, new)
    if "--list" in sys.argv:
        print("\n".join(f"{name} {to}" for name, to in sorted(new.items())))
    if said:
        print("\n".join(said), file=sys.stderr)
        return 1
    if "--list" in sys.argv:
        return 0
    for path in files(root, (".rt", ".antt", ".edit")):
        with open(path, encoding="utf-8") as f:
            text = f.read()
        to = respell(text, new if path.endswith(".antt") else {n: t for n, t in new.items() if n != snake(n)})
        if to != text:
            with open(path, "w", encoding="utf-8") as f:
                f.write(to)
    print(f"{len(new)} names respelled")
    return 0


if __name__ == "__main__":
    sys.exit(main())
