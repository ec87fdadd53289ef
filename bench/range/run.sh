#!/usr/bin/env bash
# What pitsets_range costs (range.c) on boxes about the points of the workloads of bench/peers, beside the engine's
# difference and two searches called one by one, and beside isl and MLIR's Presburger library, by the columns of
# bench/peers: a subset test, and a lexicographic minimum of the box with the set and of the box without it. As
# docs/BENCHMARKS.md has it.
#
#   bench/range/run.sh          everything
#   bench/range/run.sh quick    one round, fewer cases
#   SEED=7 ..                   other workloads (default 1)
#
# isl and MLIR take part where they are installed, isl with 32-bit small integers where it is built:
# STAGES="install build" bench/peers/run.sh does all of it.
cd "$(dirname "$0")/../.." || exit 2
out=target/bench/range stages=
. bench/peers/steps.sh
if [ "${1:-}" = quick ]; then rounds=1 cases=8; else rounds=20 cases=100; fi
mkdir -p $out
staticlib . host
staticlib . probe
build_parts
make_workloads
gcc $flags -Iinclude -I$here -c -o $out/range.o bench/range/range.c || exit 1
parts="$out/range.o $out/sets.o target/staticlib/libhost.a target/staticlib/libprobe.a"

# beside NAME COMPILER..: a row for each workload, beside the library that the compiler's words link
beside() {
  local name=$1 w
  shift
  "$@" -DNAME="\"$name\"" -I$here $parts -o $out/range-$name || exit 1
  for w in dispatch slots weeks limit big; do $out/range-$name $out/$w.work $cases $rounds || exit 1; done
}

machine
head="sets of | boxes | sure, never, depends, refused | one call, µs | one by one, µs | library, µs"
printf '\n| %s | library over one call | of the sums | wrong |\n|---|---|---|---|---|---|---|---|---|\n' "$head"
isl32=target/bench/peers/isl32-build
if [ -e /usr/include/isl/set.h ]; then beside isl gcc $flags $here/column_isl.c -lisl; else say "isl is left out"; fi
if [ -e $isl32/.libs/libisl.a ]; then
  beside isl32 gcc $flags -I$isl32/include -I"$(echo target/bench/peers/apt/isl-*/include)" \
    $here/column_isl.c $isl32/.libs/libisl.a
fi
if command -v llvm-config-19 >/dev/null; then
  beside mlir19 g++ -O2 -std=c++17 -DNDEBUG -fno-rtti -I"$(llvm-config-19 --includedir)" $here/column_mlir.cpp \
    -L"$(llvm-config-19 --libdir)" -lMLIRPresburger -lMLIRSupport $(llvm-config-19 --link-static --libs support)
else say "MLIR is left out"; fi
