# What run.sh and compare.sh share: a column built, the engine's libraries, workloads made, instructions counted.
# Sourced from the root of the repository; they set `out`, where everything is written to, and `stages`.
here=bench/peers
flags="-O2 -std=gnu11 -Wall -Wextra"
seed=${SEED:-1}

has() { [[ " $stages " == *" $1 "* ]]; }
say() { printf '[%d:%02d] %s\n' $((SECONDS / 60)) $((SECONDS % 60)) "$*" >&2; }

build_parts() {
  gcc $flags -c -o $out/sets.o $here/sets.c
  gcc $flags -c -o $out/harness.o $here/harness.c
  gcc $flags -o $out/workload $here/workload.c $out/sets.o
}

# column NAME COMPILER.. : links the column with the harness
column() {
  local name=$1
  shift
  say "build $name"
  rm -f $out/$name
  "$@" -DNAME="\"$name\"" -o $out/$name
}

# staticlib CLONE NAME: proved where it is not yet, and written by rt
staticlib() {
  command -v rt >/dev/null || { say "rt is not on the PATH: install the Rattle kit"; exit 1; }
  say "staticlib.sh $2 in $1"
  "$1/tools/staticlib.sh" $2 >$out/$2.log 2>&1 || { tail -n 5 $out/$2.log; exit 1; }
}

# engine NAME CLONE: the engine of a clone of this repository, as a column
engine() {
  local libraries="$2/target/staticlib"
  staticlib "$2" host
  staticlib "$2" probe
  column $1 gcc $flags -I"$2/include" $here/column_pitsets.c $out/{harness,sets}.o "$libraries"/lib{host,probe}.a
}

make_workloads() {
  say "workloads from seed $seed"
  $out/workload dispatch $seed 100 $out/dispatch.work
  $out/workload tiny $((seed + 1)) 600 $out/tiny.work
  $out/workload limit $((seed + 2)) 24 $out/limit.work
  $out/workload big $((seed + 3)) 24 $out/big.work
  $out/workload slots $((seed + 4)) 100 $out/slots.work
  $out/workload weeks $((seed + 5)) 100 $out/weeks.work
}

# machine [CLONE]: what is measured and where; the clone is the engine's
machine() {
  echo "processor: $(grep -m 1 'model name' /proc/cpuinfo | sed 's/.*: //'), $(getconf _NPROCESSORS_ONLN) of them"
  echo "load average before the timing: $(cut -d ' ' -f 1-3 /proc/loadavg)"
  echo "repository: $(git -C "${1:-.}" rev-parse --short HEAD 2>/dev/null || echo 'no commit'); kit: $(rt version)"
}

# instructions COLUMN FAMILY OPERATION CASE,..: callgrind's sum over the cases
instructions() {
  valgrind --tool=callgrind --toggle-collect=measured --callgrind-out-file=/dev/null \
    $out/$1 count $out/$2.work $3 $4 2>&1 | sed -n 's/.*Collected : //p'
}
