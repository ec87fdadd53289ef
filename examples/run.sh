#!/usr/bin/env bash
# examples/run.sh [PROGRAM]: runs every example with PROGRAM and compares with its .out file; then loads each set that
# was listed from its own lines and lists it again. PROGRAM is the engine's pitsets if that is built, else second.
# Last line: 'N passed, M failed'.
set -u
here=$(cd "$(dirname "$0")" && pwd)
root=$(dirname "$here")
pittext=$root/tools/target/release/pittext
program=$root/target/bin/pitsets
[ -x "$program" ] || program=$root/tools/target/release/second
program=${1:-$program}
work=$(mktemp -d)
trap 'rm -rf "$work"' EXIT
passed=0
failed=0

# same NAME FILE.pit EXPECTED: does PROGRAM print the expected bytes?
same() {
    if "$pittext" run "$program" "$2" > "$work/found" && cmp -s "$3" "$work/found"; then
        passed=$((passed + 1))
    else
        echo "$1: differs"
        diff "$3" "$work/found"
        failed=$((failed + 1))
    fi
}

# A script that loads each listed set from its listing and lists it, made from an output; and what it should print.
read_back() {
    awk '
        function relist() { if (number != "") print "list " number; number = "" }
        /^axes / { print }
        /^set / { relist(); number = $2; print "load " number }
        /^(set|basic|div|ge|eq) / { print; next }
        { relist() }
        END { print "end" }' "$1"
}
read_back_output() {
    awk '/^set / { print "done" } /^(axes|set|basic|div|ge|eq|end)( |$)/' "$1"
}

if [ ! -x "$pittext" ]; then
    echo "pittext is not built: cargo build --release --offline --manifest-path tools/Cargo.toml"
    echo "0 passed, 1 failed"
    exit 1
fi
for example in "$here"/*.pit; do
    name=$(basename "$example" .pit)
    out=$here/$name.out
    same "$name" "$example" "$out"
    if grep -q '^set ' "$out"; then
        read_back "$out" > "$work/again.pit"
        read_back_output "$out" > "$work/again.out"
        same "$name, listings read back" "$work/again.pit" "$work/again.out"
    fi
done
echo "$passed passed, $failed failed"
[ "$failed" -eq 0 ]
