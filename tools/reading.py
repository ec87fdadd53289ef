#!/usr/bin/env python3
"""Holds docs/REVIEW.md's reading list to the definitions that the public contracts name, and docs/CONTRACTS.md's list of public calls to the code.

From the `ensures` of each public call the names are followed through the imports, definition by definition, within crates/*/specs. A file
is read whole where at least half of its lines of definitions are reached; of another file the list names the definitions reached.
Run at the repository's root; ends with 'N passed, M failed'. `tools/reading.py counts` puts the numbers of lines into the list."""
import os
import re
import sys

EDGE = r"\s(){}\[\],;.:⌜⌝"
WORD = rf"[^{EDGE}]+"
HEAD = r"^( *)(?:(?:abbrev|unfoldable|pub) )*"
REVIEW, CONTRACTS = "docs/REVIEW.md", "docs/CONTRACTS.md"


def read(path):
    with open(path, encoding="utf8") as f:
        return f.read()


def imports(text, keyword):
    """name -> (module, its name there), and alias -> module"""
    names, aliases = {}, {}
    for path in re.findall(rf"^(?:{keyword}) (Rattle\.[^;\n]*)", text, re.M):
        if listed := re.match(r"(.*?)\.\{(.*)\}$", path):
            for item in listed[2].split(","):
                words = item.strip().split(" as ")
                names[words[-1]] = (listed[1], words[0])
        elif alias := re.match(r"(.*?) as (\w+)$", path):
            aliases[alias[2]] = alias[1]
    return names, aliases


def file_of(module):
    m = re.match(r"Rattle\.(\w+)\.specs\.(\w+)$", module)
    return m and os.path.exists(f"crates/{m[1]}/specs/{m[2]}.antt") and f"{m[1]}/specs/{m[2]}"


class File:
    """a file of specs/: its definitions with their lines, and whose each constructor is"""

    def __init__(self, name):
        text = read(f"crates/{name}.antt")
        self.size = text.count("\n")
        self.names, self.aliases = imports(text, "use|pub use")
        self.lines, self.owner = {}, {}
        at, deep, data = None, 0, False
        for line in text.split("\n"):
            if not line.strip() or re.match(r"\s*(--|use\b|pub use\b|pub mod\b|module\b|unfolding\b)", line):
                continue
            indent = len(line) - len(line.lstrip())
            body = at and indent > deep
            if not body or indent <= 2:
                if typed := re.match(rf"{HEAD}(record|data) ({WORD})", line):
                    at, deep, data = typed[3], indent, typed[2] == "data"
                elif (named := re.match(rf"{HEAD}({WORD})(?: \{{\w+\}})? :", line)) and not (body and deep == indent - 2 and at in self.typed()):
                    at, deep, data = named[2], indent, False
                elif (again := re.match(rf" *({WORD})", line)) and again[1] in self.lines and not body:
                    at = again[1]
            if at:
                self.lines.setdefault(at, []).append(line)
                if data and line.strip() != self.lines[at][0].strip():
                    for constructors in re.findall(rf"^ *((?:{WORD} ?)+) :", line):
                        self.owner.update((c, at) for c in constructors.split())

    def typed(self):
        return {n for n, l in self.lines.items() if re.match(rf"{HEAD}(record|data) ", l[0])}


class Reached:
    def __init__(self):
        self.files, self.found = {}, {}

    def file(self, name):
        if name not in self.files:
            self.files[name] = File(name)
        return self.files[name]

    def follow(self, text, names, aliases, own=None):
        # a field, or a name behind a module's, is no name of its own
        for word in set(re.findall(rf"(?<![^{EDGE}])(?<!\S\.){WORD}", text)):
            if word in names:
                self.visit(file_of(names[word][0]), names[word][1])
            elif own:
                self.visit(own, word)
        for alias, module in aliases.items():
            for word in re.findall(rf"(?<![^{EDGE}]){alias}\.({WORD})", text):
                self.visit(file_of(module), word)

    def visit(self, name, word):
        if not name:
            return
        f = self.file(name)
        word = f.owner.get(word, word) if word not in f.lines else word
        if word not in f.lines:
            if word in f.names:
                self.visit(file_of(f.names[word][0]), f.names[word][1])
            return
        if word not in self.found.setdefault(name, []):
            self.found[name].append(word)
            self.follow("\n".join(f.lines[word]), f.names, f.aliases, name)

    def whole(self, name):
        lines = self.file(name).lines
        return 2 * sum(len(lines[w]) for w in self.found[name]) >= sum(map(len, lines.values()))


def ensures(crate, function):
    """the text of the call's contract and its file's imports, and whether it has a `requires`"""
    for source in sorted(os.listdir(f"crates/{crate}/src")):
        text = read(f"crates/{crate}/src/{source}")
        if m := re.search(rf'^pub (?:extern "C" )?fn {function}\b.*?\n\{{', text, re.M | re.S):
            return " ".join(re.findall(r"^ *ensures.*?\}$", m[0], re.M | re.S)), imports(text, "ghost use"), "requires" in m[0]
    return "", ({}, {}), True


def exported(crate):
    """the names that the crate's root hands on"""
    found = set()
    for one, many in re.findall(r"^pub use \w+::(?:(\w+)|\{(.*?)\});", read(f"crates/{crate}/src/lib.rt"), re.M | re.S):
        found.update([one] if one else re.findall(r"\w+", many))
    return found


def rows(text):
    part = re.search(r"^## Reading list\n(.*?)^## ", text, re.M | re.S)
    return re.findall(r"^\| ([\w/]+/specs/\w+) \| ([\d,]+) \| (.*) \|$", part[1], re.M) if part else []


def main():
    passed = failed = 0

    def held(yes, what):
        nonlocal passed, failed
        passed, failed = passed + bool(yes), failed + (not yes)
        if not yes:
            print(what)

    reached = Reached()
    calls = list(dict.fromkeys(re.findall(r"^\| `(\w+)::(\w+)` \|", read(CONTRACTS), re.M)))
    for crate, function in calls:
        text, (names, aliases), asks = ensures(crate, function)
        held(text and not asks, f"{crate}::{function}: no `ensures`, or a `requires`")
        held(function in exported(crate), f"{crate}::{function}: not exported")
        reached.follow(text, names, aliases)
    whole = {n: reached.file(n).size for n in reached.found if reached.whole(n)}
    total = f"{len(whole)} files, {sum(whole.values()):,} lines"
    review = read(REVIEW)
    if sys.argv[1:] == ["counts"]:
        for name, size, _ in [row for row in rows(review) if os.path.exists(f"crates/{row[0]}.antt")]:
            review = review.replace(f"| {name} | {size} |", f"| {name} | {reached.file(name).size} |")
        with open(REVIEW, "w", encoding="utf8") as f:
            f.write(re.sub(r"\d+ files, [\d,]+ lines", total, review))
        return 0
    listed = [name for name, _, _ in rows(review)]
    for name, size, told in rows(review):
        if not os.path.exists(f"crates/{name}.antt"):
            held(False, f"{name} is not there")
            continue
        held(int(size.replace(",", "")) == reached.file(name).size, f"{name}: {reached.file(name).size} lines")
        if name in reached.found and name not in whole:
            for word in reached.found[name]:
                held(f"`{word}`" in told, f"{name}: {word} is not named")
        for other in {file_of(m) for m, _ in reached.file(name).names.values()} & set(whole):
            held(listed.index(other) <= listed.index(name) if other in listed else False, f"{name}: {other} comes later")
    for name in reached.found:
        held(name in listed, f"{name} is not in the reading list: {' '.join(sorted(reached.found[name]))}")
    held(total in review, f"the list has {total}")
    held(len(calls) == 37, f"{len(calls)} public calls in {CONTRACTS}")
    print(f"{passed} passed, {failed} failed")
    return failed > 0


if __name__ == "__main__":
    sys.exit(main())
