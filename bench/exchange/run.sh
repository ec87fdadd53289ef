#!/usr/bin/env bash
# The exchange before request 4 of document 02 and after it, as the table of docs/BENCHMARKS.md: the static library of
# crate probe at both commits, in turns in one process over the same tableaus.
#
#   bench/exchange/run.sh          before: the commit that the request's landing stands on
#   BEFORE=COMMIT ..               another one
#   LIBRARY=FILE ..                its libprobe.a, built elsewhere
#   CORE=0 ..                      the processor that it runs on (default 1)
#   bench/exchange/run.sh quick    only where the library before is there already
#
# The commit before is checked out as a work tree under target/bench and proved there by tools/staticlib.sh, which takes as
# long as proving everything, the first time.
cd "$(dirname "$0")/../.." || exit 2
landing_stands_on=118b089
out=target/bench/exchange
warn=(-std=c99 -Wall -Wextra -Werror)
mkdir -p $out

# one_object SIDE LIBRARY CALL..: what the library needs for these calls as one object, out of which only the calls can
# be seen, as SIDE_CALL: so neither side runs code of the other's.
one_object() {
  local side=$1 library=$2 needed=() renamed=() seen=() call
  shift 2
  for call in "$@"; do
    needed+=(-u "$call")
    renamed+=(--redefine-sym "$call=${side}_$call")
    seen+=(--keep-global-symbol="${side}_$call")
  done
  ld -r --force-group-allocation "${needed[@]}" -o $out/$side.o "$library" &&
    objcopy "${renamed[@]}" $out/$side.o &&
    objcopy "${seen[@]}" $out/$side.o
}

# the library of the commit before, proved in a work tree of its own
library_before() {
  [ -e "$tree" ] || git worktree add --force --detach "$tree" "$commit" >&2 || return 1
  "$tree/tools/staticlib.sh" probe >&2
}

if [ -n "${LIBRARY:-}" ]; then
  library=$LIBRARY
  before=$LIBRARY
else
  commit=$(git rev-parse --verify --short "${BEFORE:-$landing_stands_on}^{commit}") || exit 1
  tree=target/bench/before-$commit
  library=$tree/target/staticlib/libprobe.a
  before=$commit
  if [ "${1:-}" = quick ] && [ ! -e "$library" ]; then
    echo "bench/exchange: left out, $library is not there" >&2
    exit
  fi
  library_before || exit 1
fi
tools/staticlib.sh probe >/dev/null || exit 1

one_object before "$library" probe_test probe_tests || exit 1
one_object after target/staticlib/libprobe.a probe_test probe_tests probe_built || exit 1
gcc -O3 "${warn[@]}" -c -o $out/plain.o bench/simplex/plain.c || exit 1
gcc -O3 "${warn[@]}" -DEVERY_ROW -c -o $out/every_row.o bench/simplex/plain.c || exit 1
gcc -O2 "${warn[@]}" -o $out/bench bench/exchange/bench.c bench/simplex/sets.c $out/{plain,every_row,before,after}.o || exit 1
echo "$(grep -m 1 'model name' /proc/cpuinfo | sed 's/.*: //'), $(nproc) processors, load $(cut -d ' ' -f 1 /proc/loadavg); $(gcc --version | head -n 1)"
echo "before: $before; after: $(git describe --always --dirty)"
echo
nice -n -5 true 2>/dev/null && first="nice -n -5"
exec $first taskset -c "${CORE:-1}" $out/bench tools/generate/data/hard-sets.txt
