#!/usr/bin/env bash
# fuzz.sh PROGRAM SECONDS DIR: AFL++ (Debian's package afl++) over `compare one PROGRAM`, which runs a script with PROGRAM and with
# the second program and aborts where they differ or PROGRAM fails. The seeds are the stored scripts; the coverage that guides it is
# the second program's. DIR gets the seeds and what is found; the last line is 'N passed, M failed', M the scripts that break something.
set -eu
program=$(realpath "$1")
seconds=$2
mkdir -p "$3"
dir=$(realpath "$3")
cd "$(dirname "$0")"
afl=$(dirname "$(dpkg -L afl++ | grep -m 1 '/afl-compiler-rt.o$')")
flags="-C passes=sancov-module -C codegen-units=1 -C link-arg=$afl/afl-compiler-rt.o"
for f in level=3 trace-pc-guard prune-blocks=0; do flags="$flags -C llvm-args=-sanitizer-coverage-$f"; done
cargo build --release --offline --quiet -p hexscript
RUSTFLAGS="$flags" cargo build --release --offline --quiet -p compare --target-dir target/fuzz
mkdir -p "$dir/seeds"
for f in ../tests/scripts/*.txt; do
    grep '^case ' "$f" | cut -c 6- | while IFS= read -r name; do
        target/release/hexscript "$f" "$name" > "$dir/seeds/$(basename "$f" .txt)-$(md5sum <<< "$name" | cut -c 1-8)"
    done
done
AFL_SKIP_CPUFREQ=1 AFL_I_DONT_CARE_ABOUT_MISSING_CRASHES=1 AFL_NO_UI=1 AFL_NO_AFFINITY=1 \
    afl-fuzz -i "$dir/seeds" -o "$dir/found" -V "$seconds" -t 2000+ -m none -- target/fuzz/release/compare one "$program"
grep -E '^(run_time|execs_done|corpus_count|saved_crashes|saved_hangs|bitmap_cvg)' "$dir/found/default/fuzzer_stats"
broken=$(find "$dir/found/default/crashes" -name 'id:*' | wc -l)
runs=$(sed -n 's/^execs_done *: *//p' "$dir/found/default/fuzzer_stats")
echo "$((runs - broken)) passed, $broken failed"
[ "$broken" -eq 0 ]
