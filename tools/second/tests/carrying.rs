//! Request 9, "Wider numbers without starting over": what is wide at 64 bits
//! goes on at 128.

mod common;
use common::*;
use second::calls::hex;
use second::parse;
use second::test::{test_limited, BOUND_128, BOUND_64, PIVOT_LIMIT};

/// x ≥ 2^31, y ≥ 2^14·x, z ≥ 2^14·y: z is at 2^59.
const HIGH: &str = "ge -2147483648 1 0 0 0; ge 0 -16384 1 0 0; ge 0 0 -16384 1 0";
/// The same below 0.
const LOW: &str = "ge -2147483648 -1 0 0 0; ge 0 16384 -1 0 0; ge 0 0 16384 -1 0";
/// x1 ≥ 1, 2^14·x2 ≥ x1 and so on: x5 has the denominator 2^56.
const DEEP: &str = "ge -1 1 0 0 0 0 0; ge 0 -1 16384 0 0 0 0; ge 0 0 -1 16384 0 0 0; \
                    ge 0 0 0 -1 16384 0 0; ge 0 0 0 0 -1 16384 0";
/// x1 ≥ 1, 32,767·x2 ≥ x1 and so on: the row of x4 has the entry 32,767^3.
const STEEP: &str = "ge -1 1 0 0 0; ge 0 -1 32767 0 0; ge 0 0 -1 32767 0; ge 0 0 0 -1 32767";

/// Answer, pivots, and the pivots before the carry, with a limit of pivots.
fn limited(n: usize, rules: &str, limit: u32) -> (&'static str, u32, Option<u32>) {
    let set = parse(n as u8, &set(n, &format!("basic; {rules}"))).expect("a good set");
    let outcome = test_limited(n, &set.basics[0], Some(limit));
    (outcome.answer.word(), outcome.pivots, outcome.carried)
}

fn outcome(n: usize, rules: &str) -> (&'static str, u32, Option<u32>) {
    limited(n, rules, PIVOT_LIMIT)
}

#[test]
fn the_bounds_are_those_of_64_and_128_bits() {
    assert_eq!(BOUND_64, (1 << 31) - 1);
    assert_eq!(BOUND_128, (1 << 63) - 1);
    // Two products of numbers within the bound still have a sum of 128 bits.
    for bound in [BOUND_64, BOUND_128] {
        assert!(bound.checked_mul(bound).and_then(|product| product.checked_mul(2)).is_some());
    }
}

#[test]
fn carried_before_any_pivot_or_after_some_or_not_at_all() {
    assert_eq!(outcome(1, "ge -2147483647 1"), ("point", 1, None));
    assert_eq!(outcome(1, "ge -2147483648 1"), ("point", 1, Some(0)));
    assert_eq!(outcome(1, "ge -2147483648 -1; ge -2147483648 1"), ("dropped", 1, Some(0)));
    assert_eq!(outcome(2, "ge -3 1 0; ge -2147483648 0 1; ge 5 0 -1"), ("dropped", 2, Some(1)));
    assert_eq!(outcome(2, "ge -3 1 0; ge -2147483648 1 1"), ("point", 2, Some(0)));
    assert_eq!(outcome(4, STEEP), ("point", 4, Some(3)));
    assert_eq!(outcome(4, &format!("{STEEP}; ge 0 0 0 0 -1")), ("dropped", 4, Some(3)));
    // A row beyond the bound that no further pivot touches, and one that has
    // no helping column.
    assert_eq!(outcome(2, "ge -65539 1 0; ge 0 32767 0; ge -1 0 1"), ("point", 2, None));
    assert_eq!(outcome(1, "ge -2147483648 0"), ("dropped", 0, None));
}

#[test]
fn constants_at_the_bound_of_128_bits() {
    let at = |side: &str, rule: &str| outcome(4, &format!("{side}; {rule}"));
    assert_eq!(at(HIGH, "ge 1 0 0 -16 1"), ("point", 4, Some(0)));
    assert_eq!(at(HIGH, "ge 0 0 0 -16 1"), ("wide", 3, Some(0)));
    assert_eq!(at(HIGH, "eq -1 0 0 16 -1"), ("point", 4, Some(0)));
    assert_eq!(at(HIGH, "eq 0 0 0 16 -1"), ("wide", 3, Some(0)));
    assert_eq!(at(LOW, "ge 1 0 0 16 -1"), ("point", 4, Some(0)));
    assert_eq!(at(LOW, "ge 0 0 0 16 -1"), ("wide", 3, Some(0)));
    assert_eq!(at(LOW, "eq -1 0 0 -16 1"), ("point", 4, Some(0)));
    assert_eq!(at(LOW, "eq 0 0 0 -16 1"), ("wide", 3, Some(0)));
    // Step 2 before step 4.
    assert_eq!(at(HIGH, "ge 0 0 0 -16 0"), ("dropped", 3, Some(0)));
}

#[test]
fn entries_and_denominators_at_the_bound_of_128_bits() {
    let entry = |k: i32| outcome(6, &format!("{DEEP}; ge 0 0 0 0 0 -1 {k}"));
    assert_eq!(entry(127), ("point", 6, Some(3)));
    assert_eq!(entry(128), ("wide", 5, Some(3)));
    assert_eq!(entry(-127), ("point", 6, Some(3)));
    assert_eq!(entry(-128), ("wide", 5, Some(3)));
    // The row of x3 + x7 ≥ 0 has the denominator 2^28·k^3 and numbers below
    // 2^52 beside it; the pivot of x1 ≥ 5 touches it.
    let denominator = |k: i32| {
        let twos = "ge -1 1 0 0 0 0 0 0; ge 0 -1 16384 0 0 0 0 0; ge 0 0 -1 16384 0 0 0 0";
        let ks = format!("ge 0 0 0 0 -1 {k} 0 0; ge 0 0 0 0 0 -1 {k} 0; ge 0 0 0 0 0 0 -1 {k}");
        let ends = "ge 0 0 0 1 0 0 0 1; ge -5 1 0 0 0 0 0 0";
        outcome(7, &format!("{twos}; ge -1 0 0 0 1 0 0 0; {ks}; {ends}"))
    };
    assert_eq!(denominator(3249), ("point", 8, Some(6)));
    assert_eq!(denominator(3251), ("wide", 7, Some(6)));
}

/// Wide at 64 bits twice, with small numbers between.
#[test]
fn never_back_to_64_bits() {
    let chain = |from: usize| {
        let line = |constant: i32, places: &[(usize, i32)]| {
            let mut numbers = [0; 8];
            places.iter().for_each(|&(place, k)| numbers[place] = k);
            format!("ge {constant} {}", eight(&numbers))
        };
        let next = (from + 1..from + 4).map(|axis| line(0, &[(axis - 1, -1), (axis, 32767)]));
        let fives = (from..from + 4).map(|axis| line(-5, &[(axis, 1)]));
        let first = std::iter::once(line(-1, &[(from, 1)]));
        first.chain(next).chain(fives).collect::<Vec<_>>().join("; ")
    };
    assert_eq!(outcome(8, &chain(0)), ("point", 8, Some(3)));
    assert_eq!(outcome(8, &chain(4)), ("point", 8, Some(3)));
    assert_eq!(outcome(8, &format!("{}; {}", chain(0), chain(4))), ("point", 16, Some(3)));
}

/// The limit of pivots is one of both levels together.
#[test]
fn the_count_runs_on() {
    let rules = format!("{STEEP}; ge 0 0 0 0 -1");
    // Step 3 before step 4: the pivot that would be wide is one too many.
    assert_eq!(limited(4, &rules, 3), ("long", 3, None));
    assert_eq!(limited(4, &rules, 4), ("dropped", 4, Some(3)));
    let one_more = format!("ge -2147483648 0 0 0 0 1; {}", wider(&rules));
    assert_eq!(limited(5, &one_more, 4), ("long", 4, Some(0)));
    assert_eq!(limited(5, &one_more, 5), ("dropped", 5, Some(0)));
}

/// The rules with a further axis, absent in them.
fn wider(rules: &str) -> String {
    rules.split(';').map(|rule| format!("{rule} 0")).collect::<Vec<_>>().join(";")
}

#[test]
fn every_operation_carries_its_candidates() {
    let gives = |name: &str, n: usize, sets: &[&str], want: &str| {
        let want = set(n, want);
        let sets: Vec<String> = sets.iter().map(|lines| set_hex(n, lines)).collect();
        let answer = call(format!("{name} {n} {} {}", want.len(), sets.join(" ")));
        assert_eq!(answer, format!("gives {} {}", want.len(), hex(&want)));
    };
    let far = "basic; ge -2147483648 1";
    gives("intersection", 1, &[far, "basic; ge 0 -1"], "");
    gives("difference", 1, &[far, "basic; ge -5 1; ge 9 -1"], "basic; ge -2147483648 1; ge -10 1");
    gives(
        "complement",
        2,
        &["basic; ge -2147483648 1 0; ge 0 1 0; ge -5 0 1"],
        "basic; ge 2147483647 -1 0; basic; ge -2147483648 1 0; ge 4 0 -1",
    );
    // Wide at 128 bits is kept.
    let beyond = "ge 0 0 0 -16 1; ge 0 0 0 0 -1";
    let high = format!("basic; {HIGH}");
    gives("intersection", 4, &[&high, &format!("basic; {beyond}")], &format!("{high}; {beyond}"));
}
