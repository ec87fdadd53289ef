#!/usr/bin/env python3
"""Holds crates.txt to the files: a crate lists the crates that its files name, and no other. Run at the repository's root; ends with
'N passed, M failed'."""
import os
import re
import sys


def listed():
    with open("crates.txt", encoding="utf8") as f:
        lines = [line.split("#")[0] for line in f]
    # a static library has that word behind its name
    return {name.split()[0]: set(rest.split()) for name, _, rest in (line.partition(":") for line in lines if ":" in line)}


def named(crate, crates):
    """the crates that its code calls or its definitions and proofs import"""
    found = set()
    for folder, below, names in os.walk(os.path.join("crates", crate)):
        below[:] = [it for it in below if it != "out"]
        for name in names:
            if not name.endswith((".rt", ".antt")):
                continue
            with open(os.path.join(folder, name), encoding="utf8") as f:
                text = "\n".join(line for line in f if not re.match(r"\s*(//|--)", line))
            found.update(re.findall(r"\bRattle\.(\w+)", text))
            if name.endswith(".rt"):
                found.update(re.findall(r"(?<![\w:])(\w+)::", text))
    return {name for name in found if name in crates} - {crate}


def main():
    crates = listed()
    passed = failed = 0
    for crate, has in crates.items():
        # a module of the crate's own may have a crate's name
        own = {name[:-3] for name in os.listdir(os.path.join("crates", crate, "src"))}
        needs = {name for name in named(crate, crates.keys()) if name not in own or name in has}
        passed += len(has & needs)
        for name in sorted(has ^ needs):
            failed += 1
            print(f"{crate}: {name} is {'listed, and no file names it' if name in has else 'named, and not listed'}")
    print(f"{passed} passed, {failed} failed")
    return failed > 0


if __name__ == "__main__":
    sys.exit(main())
