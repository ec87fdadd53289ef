#!/usr/bin/env bash
# The program pitsets against the second program, byte for byte; the last line is 'N passed, M failed'.
# SEED chooses the generated scripts (default: the time, so that every run has its own).
cd "$(dirname "$0")/.." || exit 2
tools=tools/target/release
program=target/bin/pitsets
seed=${SEED:-$(date +%s)}
passed=0
failed=0
work=$(mktemp -d)
trap 'rm -rf "$work"' EXIT

# count NAME COMMAND..: the counts of the command's last line join the sum
count() {
  local name=$1 last
  shift
  "$@" >"$work/log" 2>&1
  last=$(tail -n 1 "$work/log")
  case $last in
  *' passed, 0 failed') passed=$((passed + ${last%% *})) ;;
  *) failed=$((failed + 1)); cat "$work/log" ;;
  esac
  echo "$name: $last"
}

# held NAME COMMAND..: the command says yes
held() {
  local name=$1
  shift
  if "$@"; then passed=$((passed + 1)); else failed=$((failed + 1)); echo "failed: $name"; fi
}

# same NAME: what pitsets printed is what second printed
same() { held "$1" cmp -s "$work/ours" "$work/theirs"; }

tools/program.sh pitsets >"$work/log" 2>&1 || { cat "$work/log"; echo "0 passed, 1 failed"; exit 1; }
(cd tools && cargo build --release --offline --quiet) || { echo "0 passed, 1 failed"; exit 1; }
gcc -O2 -std=gnu11 -Wall -Wextra -Werror -o "$work/drip" tests/drip.c || { echo "0 passed, 1 failed"; exit 1; }
printf '#!/bin/sh\nulimit -s 1024\nexec %s\n' "$PWD/$program" >"$work/small"
chmod +x "$work/small"

count "stored scripts" $tools/hexscript run $program -- tests/scripts/*.txt
count "stored scripts, stack of 1 MiB" $tools/hexscript run "$work/small" -- tests/scripts/*.txt
count "2,000 generated scripts, seed $seed" $tools/compare $program 2000 "$seed"
count "examples" examples/run.sh $program

# a script cut off at every byte, on a stack of 1 MiB
$tools/pittext bytes <examples/shift.pit >"$work/script"
for n in $(seq 0 "$(wc -c <"$work/script")"); do
  head -c "$n" "$work/script" >"$work/cut"
  "$work/small" <"$work/cut" >"$work/ours"
  $tools/second <"$work/cut" >"$work/theirs"
  same "shift.pit cut off after $n bytes"
done

# each byte a read of its own
for f in examples/*.pit; do
  $tools/pittext bytes <"$f" >"$work/script"
  "$work/drip" $program <"$work/script" >"$work/ours"
  $tools/second <"$work/script" >"$work/theirs"
  same "$f, byte by byte"
done

# the longest command, 65,539 bytes, 200 times behind a short one: 13 MB in 8 MiB of address space
{ printf '\x40\x00\xff\xff\x11'; head -c 65534 /dev/zero; } >"$work/load"
{ printf '\x10\x01\x45\x00'; for _ in $(seq 200); do cat "$work/load"; done; printf '\x45\x00\x00'; } >"$work/script"
(ulimit -v 8192; exec $program) <"$work/script" >"$work/ours"
$tools/second <"$work/script" >"$work/theirs"
same "200 loads of 65,535 bytes"

# errors are told on standard error
held "a directory as input" test "$($program 2>&1 </)" = "read: Is a directory (os error 21)"
held "a full device as output" test "$($program 2>&1 >/dev/full <crates/pitsets/stdin)" = "write: No space left on device (os error 28)"
echo "$passed passed, $failed failed"
[ "$failed" -eq 0 ]
