#!/usr/bin/env bash
# program.sh NAME: target/bin/NAME, built by rt, which proves the program first, where it is not newer than every file of crates/.
cd "$(dirname "$0")/.." || exit 2
made=target/bin/$1
[ -e "$made" ] && [ -z "$(find crates crates.txt -name out -prune -o -type f -newer "$made" -print -quit)" ] && exit
# rt runs what it builds
(cd "crates/$1" && rt run </dev/null) && mkdir -p target/bin && cp "crates/$1/out/$1" "$made"
