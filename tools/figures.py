#!/usr/bin/env python3
"""The crates in figures, as a table for docs/ARCHITECTURE.md: run at the repository's root.

Lines that are neither empty nor comments: code, contracts (with ghost uses), definitions (specs/), laws and functions' proofs (proofs/); and
edits that must fail, those of must-fail/ and those on demand (tests/edits)."""
import os
import re


def lines(path, mark):
    with open(path, encoding="utf8") as f:
        return [l.strip() for l in f if l.strip() and not l.strip().startswith(mark)]


def below(folder, end):
    for d, _, names in sorted(os.walk(folder)):
        for name in sorted(names):
            if name.endswith(end):
                yield os.path.join(d, name)


def code_and_contracts(path):
    code = contracts = 0
    clause = False
    for l in lines(path, "//"):
        # a clause goes on to the line that ends with its brace
        if clause or re.match(r"ghost |requires |ensures |#!\[tactic", l):
            contracts += 1
            clause = not l.endswith(("}", ";", "]"))
        else:
            code += 1
    return code, contracts


def row(crate):
    at = os.path.join("crates", crate)
    both = [code_and_contracts(p) for p in below(os.path.join(at, "src"), ".rt")]
    proofs = {True: 0, False: 0}
    for p in below(os.path.join(at, "proofs"), ".antt"):
        proofs[p.endswith(("Proof.antt", "Answers.antt", "Invariants.antt"))] += len(lines(p, "--"))
    specs = sum(len(lines(p, "--")) for p in below(os.path.join(at, "specs"), ".antt"))
    edits = [len(list(below(folder, ".edit"))) for folder in (os.path.join(at, "must-fail"), os.path.join("tests/edits", crate))]
    return [sum(c for c, _ in both), sum(c for _, c in both), specs, proofs[False], proofs[True], *edits]


def main():
    with open("crates.txt", encoding="utf8") as f:
        crates = [line.split(":")[0].split()[0] for line in f if ":" in line and not line.startswith("#")]
    rows = {c: row(c) for c in crates}
    print("| Crate | code | contracts | definitions | laws | functions' proofs | edits that must fail | on demand |")
    print("|---|---|---|---|---|---|---|---|")
    for c, r in rows.items():
        print("| " + " | ".join([c, *map(str, r)]) + " |")
    print("| " + " | ".join(["all", *(str(sum(x)) for x in zip(*rows.values()))]) + " |")


main()
