#!/usr/bin/env bash
# What pitsets_greatest and pitsets_least cost (value.c) on the basic sets of the workloads of bench/peers, beside isl's
# optimum over rational points (optimum_isl.c) and that of MLIR's simplex (optimum_mlir.cpp), as docs/BENCHMARKS.md has
# it.
#
#   bench/value/run.sh          everything
#   bench/value/run.sh quick    one round, fewer cases
#   SEED=7 ..                   other workloads (default 1)
#
# isl and MLIR take part where they are installed, isl with 32-bit small integers where it is built:
# STAGES="install build" bench/peers/run.sh does all of it.
cd "$(dirname "$0")/../.." || exit 2
out=target/bench/value stages=
. bench/peers/steps.sh
if [ "${1:-}" = quick ]; then rounds=1 cases=8; else rounds=20 cases=100; fi
mkdir -p $out
staticlib . host
build_parts
make_workloads
gcc $flags -Iinclude -I$here -c -o $out/value.o bench/value/value.c || exit 1
parts="$out/value.o $out/sets.o target/staticlib/libhost.a"

# beside NAME COMPILER..: a row for each workload, beside the library that the compiler's words link
beside() {
  local name=$1 w
  shift
  "$@" -DNAME="\"$name\"" -I$here $parts -o $out/value-$name || exit 1
  for w in dispatch slots weeks limit big; do $out/value-$name $out/$w.work $cases $rounds || exit 1; done
}

machine
head="basic sets of | asked | value, empty, unbounded, wide, long | engine, µs | library, µs | library over engine | of the sums"
printf '\n| %s |\n|---|---|---|---|---|---|---|\n' "$head"
isl32=target/bench/peers/isl32-build
if [ -e /usr/include/isl/lp.h ]; then beside isl gcc $flags bench/value/optimum_isl.c -lisl; else say "isl is left out"; fi
if [ -e $isl32/.libs/libisl.a ]; then
  beside isl32 gcc $flags -I$isl32/include -I"$(echo target/bench/peers/apt/isl-*/include)" \
    bench/value/optimum_isl.c $isl32/.libs/libisl.a
fi
if command -v llvm-config-19 >/dev/null; then
  beside mlir19 g++ -O2 -std=c++17 -DNDEBUG -fno-rtti -I"$(llvm-config-19 --includedir)" bench/value/optimum_mlir.cpp \
    -L"$(llvm-config-19 --libdir)" -lMLIRPresburger -lMLIRSupport $(llvm-config-19 --link-static --libs support)
else say "MLIR is left out"; fi
