#!/usr/bin/env bash
# Every benchmark, one after the other: bench/*/run.sh, with the words given here (quick: within minutes). .ci/run runs none of them.
# exchange needs the library of another commit, which is proved the first time; quick leaves it out until then.
cd "$(dirname "$0")" || exit 2
status=0
for part in */run.sh; do
  echo "== bench/$part" >&2
  "$part" "$@" || status=1
done
exit $status
