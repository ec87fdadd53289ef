#!/usr/bin/env bash
# The engine before and after a change, in another clone of this repository (before) and here (after): instructions,
# time and basic sets of the results. Both are linked with the harness here and run over the same workloads, in turns.
#
#   bench/peers/compare.sh CLONE                         dispatch, slots, weeks: difference, complement, intersection,
#                                                        chain
#   bench/peers/compare.sh CLONE big:difference,chain    FAMILY:OPERATION,.. instead, any number of them
#   CASES=24 ROUNDS=21 SEED=7 ..                         cases (default 100), rounds of time (9), other workloads (1)
#   STAGES="time table" ..                               some of: build make time count table
#
# It needs rt on the PATH and valgrind; crates of CLONE that are not proved yet are proved there. The figures are those
# of the cases that both finished. What it writes is under target/bench/compare; the table is in its table.md.
set -eu -o pipefail
[ $# -ge 1 ] || { sed -n '2,/^set/s/^# \{0,1\}//p' "$0"; exit 2; }
clone=$(cd "$1" && pwd)
shift
cd "$(dirname "$0")/../.."
stages=${STAGES:-build make time count table}
cases=${CASES:-100}
rounds=${ROUNDS:-9}
out=target/bench/compare
. bench/peers/steps.sh
cutting=difference,complement,intersection,chain
works=("$@")
[ $# -ge 1 ] || works=("dispatch:$cutting" "slots:$cutting" "weeks:$cutting")
mkdir -p $out

build() {
  build_parts
  engine before "$clone"
  engine after .
}

# each FUNCTION: calls it with each family and operation that is asked
each() {
  local w o
  for w in "${works[@]}"; do
    for o in $(tr ',' ' ' <<<"${w#*:}"); do $1 ${w%%:*} $o; done
  done
}

# the one that comes first changes from round to round
time_both() {
  local round order c
  say "time $1: $2"
  for ((round = 1; round <= rounds; round++)); do
    if ((round % 2)); then order="before after"; else order="after before"; fi
    for c in $order; do $out/$c time $out/$1.work $2 $cases 5 20 >>$out/time.csv; done
  done
}

count_both() {
  local chosen c
  chosen=$(python3 $here/table.py common $out $1 $2 $cases)
  say "count $1: $2"
  for c in before after; do echo "$c,$1,$2,$(instructions $c $1 $2 $chosen)" >>$out/count.csv; done
}

if has build; then build; fi
if has make; then make_workloads; fi
if has time; then
  : >$out/time.csv
  machine >$out/machine.txt
  echo "before: $(git -C "$clone" rev-parse --short HEAD); seed $seed, $rounds rounds" >>$out/machine.txt
  each time_both
fi
if has count; then
  : >$out/count.csv
  each count_both
fi
if has table; then python3 $here/table.py compare $out | tee $out/table.md; fi
