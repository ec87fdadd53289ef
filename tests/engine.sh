#!/usr/bin/env bash
# The engine's public calls, through the static libraries of the crates probe and host (the latter for the states), against the stored
# calls and the second program, answer by answer, and by meaning; and what include/pitsets.h says of a state's buffer (host/walking.h).
# CALLS (default 10000) scales the run; with a few hundred the tests may lack an answer at 128 bits, or rows built of some kind, the
# searches a run of some kind, and the checks, the operations, the counts, the ranges, the values or the walks a kind, which fails. The last
# line is 'N passed, M failed'.
cd "$(dirname "$0")/.." || exit 2
calls=${CALLS:-10000}
passed=0
failed=0
bash tests/build-probe || { echo "0 passed, 1 failed"; exit 1; }

# counted NAME COMMAND..: the command's closing line joins the sum; what it says before is shown.
counted() {
  local name=$1 out line
  shift
  out=$("$@" 2>&1)
  line=$(tail -n 1 <<<"$out")
  head -n -1 <<<"$out" | head -n 40
  echo "$name: $line (${SECONDS} s)"
  if [[ $line =~ ^([0-9]+)\ passed,\ ([0-9]+)\ failed$ ]]; then
    passed=$((passed + BASH_REMATCH[1]))
    failed=$((failed + BASH_REMATCH[2]))
  else
    failed=$((failed + 1))
    echo "$out" | tail -n 20
  fi
}

# held SEED COUNT KIND..: each answer byte for byte the second program's.
held() {
  local seed=$1 count=$2
  shift 2
  counted "$*" tools/target/release/compare calls target/tests/probe "$count" "$seed" "$@"
}

counted "stored calls" tools/target/release/hexscript calls target/tests/probe -- tests/calls/*.txt
held 5 "$calls" check part
counted "numbers of rules among these" tools/target/release/generate numbers "$calls" 5 check part
held 6 $((2 * calls)) member holder
held 11 $((2 * calls)) fleet
counted "lists of points among these" tools/target/release/generate fleets $((2 * calls)) 11
held 10 "$calls" search
counted "shut windows and runs of failing prefixes among these" tools/target/release/generate searches "$calls" 10
held 12 "$calls" count counts
counted "kinds of counts among these" tools/target/release/generate counts "$calls" 12
held 18 "$calls" range
counted "kinds of ranges among these" tools/target/release/generate ranges "$calls" 18
held 14 $((2 * calls)) greatest least
counted "kinds of greatest and least among these" tools/target/release/generate extremes $((2 * calls)) 14
held 16 "$calls" states
counted "kinds of walks among these" tools/target/release/generate states "$calls" 16
held 7 $((5 * calls)) test
counted "wide at 64 bits and rows built among these" tools/target/release/generate tests $((5 * calls)) 7
held 8 "$calls" union intersection difference complement
counted "numbers of rules among these" tools/target/release/generate numbers "$calls" 8 union intersection difference complement
counted "by meaning" tools/target/release/meaning $((calls / 10)) 9 target/tests/probe
counted "counts by enumeration" tools/target/release/meaning counts $((6 * calls / 10)) 13 target/tests/probe
counted "ranges by enumeration" tools/target/release/meaning ranges $((6 * calls / 10)) 19 target/tests/probe
counted "greatest and least by vertices" tools/target/release/meaning extremes "$calls" 15 target/tests/probe
counted "walks by elimination" tools/target/release/meaning states $((calls / 2)) 17 target/tests/probe
echo "$passed passed, $failed failed"
[ "$failed" -eq 0 ]
