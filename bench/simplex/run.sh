#!/usr/bin/env bash
# The test for fractions, at 64 bits and carried to 128, against plain C of the same steps, as the tables of
# docs/BENCHMARKS.md. CORE is the processor that it runs on (default 1).
cd "$(dirname "$0")/../.." || exit 2
tools/staticlib.sh probe >/dev/null || exit 1
mkdir -p target/bench
warn=(-std=c99 -Wall -Wextra -Werror)
gcc -O3 "${warn[@]}" -c -o target/bench/plain.o bench/simplex/plain.c || exit 1
gcc -O2 "${warn[@]}" -o target/bench/simplex bench/simplex/bench.c bench/simplex/sets.c target/bench/plain.o target/staticlib/libprobe.a || exit 1
echo "$(grep -m 1 'model name' /proc/cpuinfo | sed 's/.*: //'), $(nproc) processors, load $(cut -d ' ' -f 1 /proc/loadavg); $(gcc --version | head -n 1)"
nice -n -5 true 2>/dev/null && first="nice -n -5"
exec $first taskset -c "${CORE:-1}" target/bench/simplex tools/generate/data/hard-sets.txt
