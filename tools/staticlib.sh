#!/usr/bin/env bash
# staticlib.sh NAME..: target/staticlib/libNAME.a of each static library NAME of this tree, written by rt, which proves it first, where it is not
# newer than every file of crates/.
cd "$(dirname "$0")/.." || exit 2
mkdir -p target/staticlib
for name; do
  made=target/staticlib/lib$name.a
  [ -e "$made" ] && [ -z "$(find crates crates.txt -name out -prune -o -type f -newer "$made" -print -quit)" ] && continue
  (cd "crates/$name" && rt lib) && cp "crates/$name/out/lib$name.a" "$made" || exit 1
done
