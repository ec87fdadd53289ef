#!/usr/bin/env bash
# The deepest calls (tests/calls/deep.txt) through the static library on a stack of 1 MiB, and how small a stack is enough for them.
# The last line is 'N passed, M failed'.
cd "$(dirname "$0")/.." || exit 2
bash tests/build-probe || { echo "0 passed, 1 failed"; exit 1; }

# deep KIB: the calls on a stack of so many KiB
deep() { tools/target/release/hexscript calls bash -c "ulimit -s $1; exec env -i target/tests/probe" -- tests/calls/deep.txt 2>&1; }

# enough KIB: always, wherever the system lets the stack begin
enough() { for _ in $(seq 40); do deep "$1" >/dev/null || return 1; done; }

low=0
high=1024
while [ $((high - low)) -gt 4 ]; do
  mid=$(((low + high) / 2))
  if enough $mid; then high=$mid; else low=$mid; fi
done
echo "the smallest stack that is enough: $high KiB"
deep 1024
