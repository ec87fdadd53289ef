#!/usr/bin/env bash
# The C host's tests; the last line is 'N passed, M failed'.
cd "$(dirname "$0")/.." || exit 2
. tools/need.sh
for p in valgrind pkg-config make g++; do
  need $p $p || { echo "0 passed, 1 failed"; exit 1; }
done
cd host && make -s all calls calls-asan threads && sh ./test.sh
