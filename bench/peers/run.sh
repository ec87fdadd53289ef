#!/usr/bin/env bash
# The engine against isl and MLIR's Presburger library (FPL as it went upstream): installs them from Debian's packages, builds a column for each
# and one for the engine, makes workloads from a seed, checks every column against membership by the definition, times, counts instructions
# and prints tables. docs/BENCHMARKS.md says how to read them.
#
#   bench/peers/run.sh          everything
#   bench/peers/run.sh quick    fewer cases; within 5 minutes where the crates are proved already
#   SEED=7 ..                   other workloads (default 1)
#   FAMILIES="weeks big" ..     some of: tiny dispatch slots weeks limit big
#   OPERATIONS="union first" .. some of: union intersection difference complement chain empty subset first member prepared
#   ENGINE=CLONE ..             the engine of another clone of this repository, proved there where it is not yet
#   STAGES="time table" ..      some of: install build make check time count table
#
# It needs rt on the PATH. What it builds and writes is under target/bench/peers; the tables are in its table.md. Exit status 1: the engine was wrong.
set -eu -o pipefail
cd "$(dirname "$0")/../.."
mode=${1:-full}
stages=${STAGES:-install build make check time count table}
families=${FAMILIES:-tiny dispatch slots weeks limit big}
out=target/bench/peers
. bench/peers/steps.sh
operations=${OPERATIONS:-union intersection difference complement chain empty subset first member prepared}
checked=${operations/member/}
checked=${checked/prepared/}
engine=${ENGINE:-.}
mkdir -p $out
case $mode in
  full) timed="dispatch limit big dispatch limit big dispatch limit big slots weeks" readings=5 seconds=20 counted=12
    declare -A cases=([dispatch]=100 [slots]=100 [weeks]=100 [limit]=24 [big]=24)
    declare -A judged=([tiny]=600 [dispatch]=60 [slots]=60 [weeks]=60 [limit]=12 [big]=24);;
  quick) timed="dispatch slots weeks limit big" readings=3 seconds=3 counted=3
    declare -A cases=([dispatch]=24 [slots]=24 [weeks]=16 [limit]=6 [big]=4)
    declare -A judged=([tiny]=80 [dispatch]=8 [slots]=8 [weeks]=8 [limit]=3 [big]=3);;
  *) sed -n '2,/^set/s/^# \{0,1\}//p' "$0"; exit 2;;
esac

among() { [[ " $families " == *" $1 "* ]]; }
columns() { for c in isl isl32 mlir19 pitsets; do [ -x $out/$c ] && echo $c; done; }

install_packages() {
  local missing=""
  for p in g++ make xz-utils python3 valgrind libisl-dev libmlir-19-dev llvm-19-dev; do
    dpkg -s $p >/dev/null 2>&1 || missing="$missing $p"
  done
  [ -z "$missing" ] && return
  say "install:$missing"
  apt-get update -q >$out/install.log 2>&1 || true
  DEBIAN_FRONTEND=noninteractive apt-get install -y -q --no-install-recommends $missing >>$out/install.log 2>&1 || { tail -n 5 $out/install.log; exit 1; }
}

# isl once more, with 32-bit small integers: the source package of the installed library, from where apt has the library from
build_isl32() {
  [ -e $out/isl32-build/.libs/libisl.a ] && return
  say "build isl32 from Debian's source package (a minute or two)"
  (
    mkdir -p $out/isl32-build $out/apt/lists/partial $out/apt/cache
    cd $out/apt
    apt-cache policy libisl-dev | awk '$NF == "Packages" { split($3, part, "/"); print "deb-src", $2, part[1], part[2]; exit }' >sources.list
    own=(-o Dir::Etc::SourceList="$PWD/sources.list" -o Dir::Etc::SourceParts=- -o Dir::State::Lists="$PWD/lists" -o Dir::Cache="$PWD/cache")
    apt-get "${own[@]}" -q update && apt-get "${own[@]}" -q source --download-only isl && tar xf isl_*.orig.tar.* && cd ../isl32-build &&
      ../apt/isl-*/configure --with-int=imath-32 --disable-shared --with-clang=no CFLAGS="-O3 -DNDEBUG" &&
      make gitversion.h && make -j"$(nproc)" libisl.la
  ) >$out/isl32.log 2>&1 || say "isl32 is left out, see $out/isl32.log"
}

build() {
  local mlir parts="$out/harness.o $out/sets.o"
  build_parts
  engine pitsets "$engine"
  column isl gcc $flags $here/column_isl.c $parts -lisl
  build_isl32
  if [ -e $out/isl32-build/.libs/libisl.a ]; then
    column isl32 gcc $flags -I$out/isl32-build/include -I"$(echo $out/apt/isl-*/include)" $here/column_isl.c $parts $out/isl32-build/.libs/libisl.a
  fi
  mlir="-I$(llvm-config-19 --includedir) $here/column_mlir.cpp $parts -L$(llvm-config-19 --libdir) -lMLIRPresburger -lMLIRSupport"
  column mlir19 g++ -O2 -std=c++17 -DNDEBUG -fno-rtti $mlir $(llvm-config-19 --link-static --libs support)
  for c in $(columns); do $out/$c version | grep .; done >$out/versions.txt
}

# asked FAMILY OPERATION..: the operations, without the first point where the box is too large for a walk: most searches spend
# the engine's limit (big), or it is one over seconds (weeks); and for a quick run (limit)
asked() {
  local family=$1
  shift
  case $family-$mode in big-*|weeks-*|limit-quick) echo "${@/first/}";; *) echo "$@";; esac
}

check() {
  : >$out/check.csv
  for f in $families; do
    for c in $(columns); do
      say "check $f: ${judged[$f]} cases, $c"
      $out/$c check $out/$f.work ${judged[$f]} $seconds $(asked $f $checked) >>$out/check.csv
    done
  done
}

# a family that stands three times in $timed has three rounds, of which table.py takes the median
time_columns() {
  local f o c
  : >$out/time.csv
  machine "$engine" >$out/machine.txt
  for f in $timed; do
    among $f || continue
    for o in $(asked $f $operations); do
      say "time $f: ${cases[$f]} cases, $o"
      for c in $(columns); do $out/$c time $out/$f.work $o ${cases[$f]} $readings $seconds >>$out/time.csv; done
    done
  done
}

# counted_on FAMILY: the operations whose instructions are counted, elsewhere than on dispatch those of asking
counted_on() {
  local o
  for o in $(asked $1 $operations); do
    case $1-$o in dispatch-*|*-union|*-first|*-member|*-prepared) echo $o;; esac
  done
}

count() {
  local f o c chosen
  : >$out/count.csv
  for f in dispatch limit big; do
    among $f || continue
    for o in $(counted_on $f); do
      chosen=$(python3 $here/table.py common $out $f $o $counted)
      [ -n "$chosen" ] || continue
      say "count $o: $f cases $chosen"
      for c in $(columns); do
        [ $c-$o = pitsets-prepared ] && continue
        echo "$c,$f,$o,$(wc -w <<<"${chosen//,/ }"),$(instructions $c $f $o $chosen)" >>$out/count.csv
      done
    done
  done
}

if has install; then install_packages; fi
if has build; then build; fi
if has make; then make_workloads; fi
if has check; then check; fi
if has time; then time_columns; fi
if has count; then count; fi
if has table; then
  say "done"
  python3 $here/table.py table $out $mode $seed | tee $out/table.md
  python3 $here/table.py verdict $out
fi
