#!/usr/bin/env bash
# Builds the script program (rt proves every crate that it stands on first: minutes the first time, then seconds) and runs a plan: a permit, a
# closure taken away, what is left listed, trucks asked. examples/try.sh [FILE.pit]
# Needs the Rattle kit; the Debian packages that it needs it installs.
set -euo pipefail
plan=$(realpath -- "${1:-$(dirname "$0")/shift.pit}")
cd "$(dirname "$0")/.."
. tools/need.sh
need_rt || exit 1
need gcc gcc || exit 1
need cargo cargo || exit 1
tools/program.sh pitsets | { grep '^rt:' || true; }
cargo build --release --offline --quiet --manifest-path tools/Cargo.toml
echo
cat "$plan"
echo
echo "== what pitsets prints"
tools/target/release/pittext run target/bin/pitsets "$plan"
