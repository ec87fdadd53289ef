#!/usr/bin/env bash
# All tests of the tools: builds, cargo's tests, stored scripts and calls, histogram, meaning, examples, wrong copies.
# Last line: 'N passed, M failed', the sum over all of them.
set -u
cd "$(dirname "$0")"
bin=target/release
passed=0
failed=0

# add NAME STATUS OUTPUT: takes the counts of the output's last line into the sum.
add() {
    local last
    last=$(tail -n 1 <<< "$3")
    if [[ $last =~ ^([0-9]+)\ passed,\ ([0-9]+)\ failed$ ]]; then
        passed=$((passed + BASH_REMATCH[1]))
        failed=$((failed + BASH_REMATCH[2]))
        # A bad status with no failure counted is a failure of its own.
        if [ "$2" -ne 0 ] && [ "${BASH_REMATCH[2]}" -eq 0 ]; then failed=$((failed + 1)); fi
    else
        failed=$((failed + 1))
        last="no count in the last line: $last"
    fi
    if [ "$2" -ne 0 ]; then echo "$3"; fi
    echo "$1: $last (${SECONDS}s)"
}

# step NAME COMMAND..: runs it and adds its counts.
step() {
    local name=$1 output status
    shift
    output=$("$@" 2>&1)
    status=$?
    add "$name" "$status" "$output"
}

# Cargo's own tests, their 'test result' lines summed into one.
cargo_tests() {
    local output status
    output=$(cargo test --release --offline 2>&1)
    status=$?
    if [ "$status" -ne 0 ]; then echo "$output"; fi
    awk '/^test result:/ { good += $4; bad += $6 } END { printf "%d passed, %d failed\n", good, bad }' <<< "$output"
    return "$status"
}

if ! cargo build --release --offline --quiet; then
    echo "0 passed, 1 failed"
    exit 1
fi
step "cargo test" cargo_tests
step "stored scripts" $bin/hexscript run $bin/second -- ../tests/scripts/*.txt
step "stored calls" $bin/hexscript calls $bin/second calls -- ../tests/calls/*.txt
step "histogram of 16,000 scripts and calls" $bin/generate histogram 16000 3
step "meaning, library" $bin/meaning 2000 1
step "meaning, program" $bin/meaning 100 2 $bin/second calls
step "meaning, counts" $bin/meaning counts 6000 1
step "meaning, ranges" $bin/meaning ranges 6000 1
step "meaning, extremes" $bin/meaning extremes 10000 1
step "meaning, states" $bin/meaning states 5000 1
step "compare, scripts" $bin/compare $bin/second 100 1
step "compare, calls" $bin/compare calls "$bin/second calls" 500 1
step "examples with second" ../examples/run.sh $bin/second
step "wrong copies" mutants/run.sh
echo "$passed passed, $failed failed"
[ "$failed" -eq 0 ]
