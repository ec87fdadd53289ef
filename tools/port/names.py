#!/usr/bin/env python3
"""Spells the repository's own names as today's Rattle does, once, after port.py: words in snake case, types and modules in camel case.

usage: names.py [ROOT]

    floorDiv, rowFor-by, axis-places, floor-div-spec  ->  floor_div, row_for-by, axis_places, floor_div_spec

A dash that joins two names of a lemma stays. A lemma whose name would become its function's gets `_lem`. Functions of src/, exported names,
strings, inputs and outputs keep their names.
A line `look:` names what falls together in a file.
"""
import glob
import os
import re
import sys

NAME = r"[^\s(){}.;,@\"«»\[\]:|]+"
# strings stay
TOKEN = re.compile(r"\"(?:[^\"\\\n]|\\.)*\"|" + NAME)
CAMEL = re.compile(r"(?<=[a-z0-9])([A-Z])")
# lemmas that would meet the definition that they are about, once that is in snake case
LEMMAS = {
    "enumeration": ["allowed_at"],
    "fleet": ["point_at"],
    "query": ["in_either"],
    "reaching": ["head_at", "word_number"],
    "session": ["turn_in"],
    "simplex": ["first_rows"],
    "states": ["place_at"],
}
# words of the library that an own lemma is about
LIBRARY = {"getD": "get_or"}


def read(path):
    with open(path, encoding="utf-8") as f:
        return f.read()


def is_camel(name):
    return len(name) > 2 and name[0].islower() and bool(CAMEL.search(name)) and not re.search(r"_[A-Z]", name)


def snake(name):
    for old, new in LIBRARY.items():
        name = re.sub(rf"(?<![\w]){old}(?!\w)", new, name)
    return CAMEL.sub(lambda m: "_" + m[1].lower(), name)


def fields(text):
    """the dashed fields of the records of a text"""
    for record in re.findall(r"(?ms)^ *(?:pub )?record .*?(?=\n\n|\Z)", text):
        for name in re.findall(r"(?m)^ +(?:pub )?(%s) : " % NAME, record):
            if "-" in name and re.fullmatch(r"[a-z][a-z0-9-]*", name):
                yield name


def renamed(name, lemmas, own):
    if name in lemmas:
        return name + "_lem"
    if name in own or name.endswith("-spec") and re.fullmatch(r"[a-z0-9_-]+", name):
        return name.replace("-", "_")
    return snake(name) if is_camel(name) else name


def main():
    root = sys.argv[1] if len(sys.argv) > 1 else "."
    antt = [p for part in ("specs", "proofs") for p in glob.glob(f"{root}/crates/*/{part}/**/*.antt", recursive=True)]
    rt = glob.glob(f"{root}/crates/*/src/**/*.rt", recursive=True)
    texts = {p: read(p) for p in sorted(antt + rt)}
    words = {snake(it) for text in texts.values() for it in TOKEN.findall(text) if is_camel(it)}
    # a field that would meet a definition keeps its dash
    own = {it for p in antt for it in fields(texts[p]) if it.replace("-", "_") not in words}
    changed = 0
    for path, text in texts.items():
        crate = os.path.relpath(path, root).split(os.sep)[1]
        is_rt = path.endswith(".rt")

        met = {}

        def one(found):
            if found[0].startswith('"'):
                return found[0]
            behind_dot = text[found.start() - 1 : found.start()] == "."
            # a function of src/, its folder below proofs/ and its module keep their names
            of_source = is_rt or behind_dot
            name = renamed(found[0], () if of_source else LEMMAS.get(crate, ()), own)
            if not of_source:
                met.setdefault(name, set()).add(found[0])
            return name

        new = TOKEN.sub(one, text)
        for name, olds in met.items():
            if len(olds) > 1:
                print(f"look: {path}: {', '.join(sorted(olds))} are {name} now")
        if new != text:
            changed += 1
            with open(path, "w", encoding="utf-8") as f:
                f.write(new)
    print(f"{changed} files")


if __name__ == "__main__":
    main()
