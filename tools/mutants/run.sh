#!/usr/bin/env bash
# Builds each deliberately wrong copy of `second` (one .sed file each) and runs the stored calls on it, and the stored
# scripts where these have nothing against it: a copy that none of them tells apart is a failure.
# Last line: 'N passed, M failed'.
#
#   mutants/run.sh          all of them, in two halves at once
#   mutants/run.sh 0        every second one, from the first on (1: from the second on)
set -u
here=$(cd "$(dirname "$0")" && pwd)
if [ $# -eq 0 ]; then
    second_half=$(mktemp)
    trap 'rm -f "$second_half"' EXIT
    "$here/run.sh" 1 > "$second_half" 2>&1 &
    first_half=$("$here/run.sh" 0 2>&1)
    wait
    { echo "$first_half"; cat "$second_half"; } |
        awk '/^[0-9]+ passed, [0-9]+ failed$/ { p += $1; f += $3; n++; next } { print }
             END { if (n != 2) f++; print p + 0 " passed, " f + 0 " failed"; exit f > 0 }'
    exit
fi
half=$1
tools=$(dirname "$here")
hexscript=${HEXSCRIPT:-$tools/target/release/hexscript}
work=$(mktemp -d)
trap 'rm -rf "$work"' EXIT
passed=0
failed=0

# The copy is a workspace of its own, so that no other one takes it in.
copy() {
    rm -rf "$work/second/src"
    mkdir -p "$work/second"
    cp -r "$tools/second/src" "$work/second/src"
    cp "$tools/second/Cargo.toml" "$work/second/Cargo.toml"
    grep -q '^\[workspace\]' "$work/second/Cargo.toml" || printf '\n[workspace]\n' >> "$work/second/Cargo.toml"
}

build() {
    cargo build --quiet --offline -j1 --manifest-path "$work/second/Cargo.toml" --target-dir "$work/target"
}

# The closing line of the stored calls, which take less time and know every request, or, where all of them pass, of the
# stored scripts.
stored_cases() {
    local last
    last=$("$hexscript" calls "$work/target/debug/second" calls -- "$tools"/../tests/calls/*.txt 2>&1 | tail -n 1)
    if [[ $last == *" 0 failed" ]]; then
        last=$("$hexscript" run "$work/target/debug/second" -- "$tools"/../tests/scripts/*.txt 2>&1 | tail -n 1)
    fi
    echo "$last"
}

fail() {
    echo "$1"
    failed=$((failed + 1))
}

# The unchanged copy must pass, or being caught would mean nothing.
copy
if build && [[ $(stored_cases) == *" 0 failed" ]]; then
    passed=$((passed + 1))
else
    fail "the unchanged copy does not pass the stored scripts and calls"
fi

number=0
for edit in "$here"/*.sed; do
    number=$((number + 1))
    [ $(((number - 1) % 2)) -eq "$half" ] || continue
    name=$(basename "$edit" .sed)
    copy
    file=$work/second/$(sed -n 's/^# file //p' "$edit")
    cp "$file" "$work/before"
    sed -i -f "$edit" "$file"
    if cmp -s "$file" "$work/before"; then
        fail "$name: the edit finds nothing to change"
    elif ! build; then
        fail "$name: does not build"
    else
        result=$(stored_cases)
        echo "$name: $result"
        if [[ $result == *" failed" && $result != *" 0 failed" ]]; then
            passed=$((passed + 1))
        else
            fail "$name: no stored script or call tells it apart"
        fi
    fi
done
echo "$passed passed, $failed failed"
[ "$failed" -eq 0 ]
