#!/usr/bin/env python3
"""Definitions and laws that nothing uses: names declared under crates/*/specs and crates/*/proofs that no other line of crates/ names and no
document under docs/ names as a theorem for readers; pages that tell what a change did are not read. Run at the repository's root; prints
them and ends with 'N passed, M failed'.

A function's own proof (Proof.antt) is not looked at; integers/proofs/Examples.antt is the page of examples that docs/PROOFS.md points to."""
import os
import re
import sys

EDGE = r"\s(){}\[\],;.:λ→"
WORD = rf"[^{EDGE}]+"
TELLING_OF_CHANGES = ("docs/DESIGN-PASS.md", "docs/LOOK-BACK.md", "docs/PORT.md", "docs/changes/")
DECLARED = re.compile(rf"^( *)(?:(?:abbrev|unfoldable|pub) )*({WORD})(?: \{{\w+\}})? : ", re.M)


def texts(folder, ends):
    for d, _, names in sorted(os.walk(folder)):
        # what rt made of a crate has copies of its texts
        if "out" in d.split(os.sep):
            continue
        for name in sorted(names):
            if name.endswith(ends):
                path = os.path.join(d, name)
                with open(path, encoding="utf8") as f:
                    yield path, f.read()


def main():
    crates = {p: t for p, t in texts("crates", (".rt", ".antt")) if "/must-fail/" not in p}
    documents = " ".join(t for p, t in texts("docs", ".md") if not p.startswith(TELLING_OF_CHANGES))
    named = {}
    for text in crates.values():
        for word in re.findall(WORD, text):
            named[word] = named.get(word, 0) + 1
    passed = failed = 0
    for path, text in crates.items():
        if not path.endswith(".antt") or "/Proof" in path or path.endswith("/Examples.antt"):
            continue
        for indent, name in DECLARED.findall(text):
            whole = re.escape(name)
            heads = len(re.findall(rf"^{indent}(?:(?:abbrev|unfoldable|pub) )*{whole}(?=\s)", text, re.M))
            if named[name] > heads or re.search(rf"(?<![\w-]){whole}(?![\w-])", documents):
                passed += 1
            else:
                failed += 1
                print(f"{path}: {name}")
    print(f"{passed} passed, {failed} failed")
    return failed > 0


if __name__ == "__main__":
    sys.exit(main())
