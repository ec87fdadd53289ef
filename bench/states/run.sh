#!/usr/bin/env bash
# What the calls on a state cost (states.c) on the basic sets of the workloads of bench/peers: built rule by rule, beside
# a test of the grown set after each rule, and MLIR's simplex (growing_mlir.cpp); and a rule tried and taken back, beside
# the same two, with a mark and a going back alone. As docs/BENCHMARKS.md has it.
#
#   bench/states/run.sh          everything
#   bench/states/run.sh quick    one round, fewer cases
#   SEED=7 ..                    other workloads (default 1)
#
# MLIR takes part where it is installed: STAGES=install bench/peers/run.sh does that.
cd "$(dirname "$0")/../.." || exit 2
out=target/bench/states stages=
. bench/peers/steps.sh
if [ "${1:-}" = quick ]; then rounds=1 cases=8; else rounds=20 cases=100; fi
mkdir -p $out
staticlib . host
staticlib . probe
build_parts
make_workloads
gcc $flags -Iinclude -I$here -c -o $out/states.o bench/states/states.c || exit 1
parts="$out/states.o $out/sets.o target/staticlib/libhost.a target/staticlib/libprobe.a"
if command -v llvm-config-19 >/dev/null; then
  g++ -O2 -std=c++17 -DNDEBUG -fno-rtti -DNAME='"mlir19"' -I$here -I"$(llvm-config-19 --includedir)" bench/states/growing_mlir.cpp \
    $parts -L"$(llvm-config-19 --libdir)" -lMLIRPresburger -lMLIRSupport $(llvm-config-19 --link-static --libs support) \
    -o $out/states || exit 1
else
  say "MLIR is left out"
  gcc $flags -I$here bench/states/growing_none.c $parts -o $out/states || exit 1
fi

# rows WHAT: a row for each workload
rows() { for w in dispatch slots weeks limit big; do $out/states $out/$w.work $cases $rounds $1 || exit 1; done; }

machine
sets="basic sets of | sets | rules a set | empty at the last, stopped at wide or long"
printf '\nµs a rule, the start among them:\n\n'
printf '| %s | added to a state | test of the grown set | test over state | library | library over state |\n' "$sets"
printf '|---|---|---|---|---|---|---|---|---|\n'
rows grow
printf '\nµs, the last rule tried and taken back:\n\n'
printf '| %s | mark | back | added and gone back | test of the grown set | test over state |' "$sets"
printf ' library: added and rolled back | library over state |\n'
printf '|---|---|---|---|---|---|---|---|---|---|---|\n'
rows try
