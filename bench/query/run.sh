#!/usr/bin/env bash
# What check, member and union cost (bytes.c), a fleet of 64 against member and isl (fleet.c), the first-point search
# (search.py) and the count (count.py), as docs/BENCHMARKS.md has it.
#
#   bench/query/run.sh          everything
#   bench/query/run.sh quick    one round, fewer searches of the workloads
#   PARTS="search count" ..     some of: bytes fleet search count
#   LIBRARY=FILE ..             beside it the libprobe.a of another commit, built there by `tools/staticlib.sh probe` (before)
#   COUNT=yes ..                instructions of the searches too, by valgrind
#   SEED=7 ..                   other workloads (default 1)
#
# Fleet and count are held against isl's where libisl-dev is installed, which bench/peers/run.sh does, and against isl
# with 32-bit small integers where that has built it.
cd "$(dirname "$0")/../.." || exit 2
out=target/bench/query stages=${PARTS:-bytes fleet search count}
. bench/peers/steps.sh
warn=(-O2 -std=c99 -Wall -Wextra -Werror)
if [ "${1:-}" = quick ]; then rounds=1 cases=8; else rounds=5 cases=100; fi
mkdir -p $out
staticlib . probe
if has fleet; then staticlib . host; fi
(cd tools && cargo build --release --offline --quiet) || exit 1
build_parts
make_workloads
gcc "${warn[@]}" -Ibench/peers -o $out/searches bench/query/searches.c $out/sets.o target/staticlib/libprobe.a || exit 1
for w in dispatch limit big tiny slots; do $out/searches $out/$w.work $cases >$out/$w.calls || exit 1; done

# built SUFFIX LIBRARY: the programs over the library
built() {
  local p
  for p in bytes search count; do gcc "${warn[@]}" -o $out/$p$1 bench/query/$p.c "$2" || return; done
}

# points NAME FLAG..: isl's count of points, with what finds that build of isl
points() {
  local name=$1
  shift
  gcc $flags -Ibench/peers -DNAME="\"$name\"" bench/query/points_isl.c $here/column_isl.c $out/sets.o "$@" -o $out/points-$name &&
    peers+=($name=$out/points-$name)
}

# fleet NAME FLAG..: the fleet beside member and a build of isl, so too
fleet() {
  local name=$1 w
  shift
  gcc $flags -Iinclude -Ibench/peers -DNAME="\"$name\"" -o $out/fleet-$name bench/query/fleet.c $here/column_isl.c \
    $out/sets.o target/staticlib/libhost.a "$@" || return
  for w in dispatch limit big; do $out/fleet-$name $out/$w.work $cases $((4 * rounds)) || return; done
}

# beside_isl FUNCTION: FUNCTION for each build of isl that is there
beside_isl() {
  local isl32=target/bench/peers/isl32-build
  if [ -e /usr/include/isl/set.h ]; then "$1" isl -lisl || return; else say "isl is left out: bench/peers/run.sh installs it"; fi
  if [ -e $isl32/.libs/libisl.a ]; then
    "$1" isl32 -I$isl32/include -I"$(echo target/bench/peers/apt/isl-*/include)" $isl32/.libs/libisl.a
  fi
}

built "" target/staticlib/libprobe.a || exit 1
engines=($out/search)
machine
if [ -n "${LIBRARY:-}" ]; then
  built -before "$LIBRARY" || exit 1
  engines+=($out/search-before)
  if has bytes; then
    echo "before, $LIBRARY:"
    $out/bytes-before || exit 1
    echo "after:"
  fi
fi
if has bytes; then $out/bytes || exit 1; fi
if has fleet; then
  printf '\n| points of | cases | by 64: ns a point | by member | prepared set | member over 64 | isl over 64 |\n'
  echo "|---|---|---|---|---|---|---|"
  beside_isl fleet || exit 1
fi
if has search; then
  echo
  python3 bench/query/search.py $rounds $out "${engines[@]}" || exit 1
fi
if has count; then
  echo
  peers=()
  if [ -n "${LIBRARY:-}" ]; then peers+=(before=$out/count-before); fi
  beside_isl points
  python3 bench/query/count.py $rounds $out $out/count "${peers[@]}"
fi
