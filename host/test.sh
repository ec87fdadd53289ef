#!/bin/sh
# The C side's tests, run in host/ by `make test`; the last line is 'N passed, M failed'.
# COUNT calls are compared with tools/second (default 10,000); under the sanitiser and valgrind fewer.
tools=../tools/target/release
count=${COUNT:-10000}
passed=0
failed=0
log=$(mktemp)
dir=$(mktemp -d)
trap 'rm -rf "$log" "$dir"' EXIT

# check NAME COMMAND..: the command succeeds
check() {
  name=$1
  shift
  if "$@" >"$log" 2>&1; then
    passed=$((passed + 1)); echo "ok $name"
  else
    failed=$((failed + 1)); echo "FAILED $name"; tail -n 20 "$log"
  fi
}

kinds="member fleet count counts range greatest least states union intersection difference complement"

# compared NAME COUNT SEED PROGRAM..: the generated calls' answers are second's; its own counts join the sum
compared() {
  name=$1 n=$2 seed=$3
  shift 3
  "$tools/compare" calls "$*" "$n" "$seed" $kinds >"$log" 2>&1
  status=$?
  line=$(tail -n 1 "$log")
  case $line in
    *' passed, '*' failed') passed=$((passed + ${line%% *})); f=${line#*, }; failed=$((failed + ${f%% *}));;
    *) status=1;;
  esac
  if [ $status -ne 0 ]; then
    case $line in *' 0 failed'|'') failed=$((failed + 1));; esac
    echo "FAILED $name"; tail -n 40 "$log"
  else echo "ok $name: $line"; fi
}

check "header alone, C99" gcc -std=c99 -Wall -Wextra -Werror -fsyntax-only -x c ../include/pitsets.h
check "header alone, C++" g++ -Wall -Wextra -Werror -fsyntax-only -x c++ ../include/pitsets.h
check "example" sh -c './example | diff - example.expected'
check "example of counts" sh -c './ways | diff - ways.expected'
check "example of ranges" sh -c './ranges | diff - ranges.expected'
check "example of greatest values" sh -c './most | diff - most.expected'
check "example of states" sh -c './states | diff - states.expected'
check "two threads" ./threads
check "installed and linked by pkg-config" sh -c "make -s install PREFIX=$dir && rm -f pitsets.pc && gcc -o $dir/example example.c \$(PKG_CONFIG_PATH=$dir/lib/pkgconfig pkg-config --cflags --libs pitsets) && $dir/example | diff - example.expected"
check "stack of 1 MB" sh -c 'ulimit -s 1024 && for e in example ways ranges most states; do ./$e | diff - $e.expected || exit 1; done'
check "stored counts" "$tools/hexscript" calls ./calls -- ../tests/calls/how-many-ways.txt
check "stored ranges" "$tools/hexscript" calls ./calls -- ../tests/calls/scale-readings.txt
check "stored values" "$tools/hexscript" calls ./calls -- ../tests/calls/greatest-and-least.txt
check "stored states" "$tools/hexscript" calls ./calls -- ../tests/calls/named-states.txt
compared "calls" "$count" 1 ./calls
compared "calls, address sanitiser" $((count / 5)) 2 ./calls-asan
compared "calls, valgrind" $((count / 50)) 3 valgrind -q --error-exitcode=9 --leak-check=full ./calls
echo "$passed passed, $failed failed"
[ "$failed" -eq 0 ]
