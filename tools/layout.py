#!/usr/bin/env python3
"""Holds the layout of a set's bytes, the limits and the numbers of a refusal to their homes.

In crates/*/src and crates/*/specs a command byte, a width or a limit stands as a digit only where it is defined: the layout in crate codec,
limits and refusals in crate model. The same number with another meaning is excepted below, file by file, with what it means there.
Run at the repository's root; ends with 'N passed, M failed'."""
import glob
import re
import sys

# command bytes (also as decimals), widths with and without the first byte, the longest basic set and set
LAYOUT = {"0x11", "0x12", "0x13", "0x14", "0x16", "0x17", "17", "18", "19", "20", "22", "23", "36", "37", "38", "39", "2057", "65824"}
# the documents' limits, and those ends of ranges that differ by 1; sizes that follow from them
LIMITS = {"8", "15", "32", "48", "200", "8000", "32766", "32767", "1000000", "1048575", "1048576", "999999999", "1000000000"}
LIMITS |= {"2097152", "274877906944", "343597383680", "549755813888"}
# a refusal's number as a digit: where it is given back
REFUSALS = re.compile(r"\b(?:refused|Refused|refused_line|Stop)[ (](\d+)\b|(?:\breturn |^ *)([2-9]|1[0-9])(?:;|$)")
# a place inside a command: where a number is read from lent bytes
PLACES = re.compile(r"\b(?:[siu](?:16|32)_at|dot_at|extreme|coefficients)\((?:\w+, )+?(\d+)\b")
HOMES = {"crates/model/src/limit.rt", "crates/model/src/refusal.rt", "crates/model/specs/Limits.antt", "crates/model/specs/Refusals.antt"}
OTHER = {
    # below the homes, or no numbers of a set
    "crates/integers/": "*",
    "crates/wide/": "*",
    # the documents' cases as they are written there, so that a wrong name shows
    "crates/worked/": "*",
    # rows of 18 numbers, of 36 words; 17 slots
    "crates/wide_tableau/": {"18", "36"},
    "crates/tableau/": {"18"},
    "crates/simplex/": {"18"},
    "crates/carrying/": {"18", "36"},
    "crates/climbing/": {"18", "36"},
    "crates/extremes/": {"18", "36"},
    "crates/sharing/": {"18"},
    "crates/candidates/": {"18"},
    "crates/cutting/": {"18"},
    "crates/subtraction/": {"18"},
    "crates/operations/": {"18"},
    "crates/probe/": {"18"},
    "crates/memory/": {"17", "18", "36"},
    "crates/drafting/": {"18", "36"},
    "crates/states/": {"18", "36"},
    "crates/reaching/": {"17", "36"},
    "crates/host/": {"36"},
    # digits and signs as text, and the room of a number's text
    "crates/listing/src/text.rt": {"20", "22", "48"},
    "crates/listing/src/lines.rt": {"8"},
    "crates/listing/specs/Text.antt": {"20", "32", "48"},
    # places of a script command's operands, and their widths (document 01, "The script program")
    "crates/commands/": {"1", "2", "3", "8", "20", "32", "37"},
    "crates/script/src/fronts.rt": {"2", "3", "4"},
    "crates/session/": {"37"},
    # what a decoded set is made of, with the documents' numbers as they are written there
    "crates/codec/specs/Valid.antt": {"8", "48", "32767", "999999999", "1000000000"},
    # numbers of 2 bytes from a place on
    "crates/records/src/decoding.rt": {"8"},
}


def excepted(path, number):
    return any(path.startswith(p) and (n == "*" or number in n) for p, n in OTHER.items())


def digits(line):
    return re.findall(r"(?<![\w.])(0x[0-9a-fA-F]+|\d+)(?![\w.])", line.replace("_", ""))


def places(path, code):
    return [] if path.startswith("crates/codec/") else PLACES.findall(code)


def main():
    passed, failed = 0, 0
    for path in sorted(glob.glob("crates/*/src/**/*.rt", recursive=True) + glob.glob("crates/*/specs/**/*.antt", recursive=True)):
        if path in HOMES:
            continue
        known = LIMITS if path.startswith("crates/codec/") else LAYOUT | LIMITS
        with open(path, encoding="utf8") as f:
            for at, line in enumerate(f, 1):
                code = line.split("//")[0] if path.endswith(".rt") else line.split("--")[0]
                for number in [n for n in digits(code) if n in known] + [a or b for a, b in REFUSALS.findall(code)] + places(path, code):
                    if excepted(path, number):
                        passed += 1
                    else:
                        failed += 1
                        print(f"{path}:{at}: {number} as a digit")
        passed += 1
    print(f"{passed} passed, {failed} failed")
    return failed != 0


if __name__ == "__main__":
    sys.exit(main())
