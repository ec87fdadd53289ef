//! "The test for fractions" on tableaus small enough to follow by hand.

mod common;
use common::*;
use second::parse;
use second::test::{test_bounded, BOUND_64, PIVOT_LIMIT};

fn answer(n: usize, lines: &str) -> String {
    tested(n as u8, &set(n, lines))
}

/// The same by document 01 alone: without a carry, wide at 64 bits is the answer.
fn answer_64(n: usize, lines: &str) -> String {
    let set = parse(n as u8, &set(n, lines)).expect("a good set");
    let outcome = test_bounded(n, &set.basics[0], Some(PIVOT_LIMIT), [BOUND_64; 2]);
    format!("{} {}", outcome.answer.word(), outcome.pivots)
}

#[test]
fn a_free_column_helps_both_ways() {
    assert_eq!(answer(1, "basic; ge -5 1"), "point 1 1");
    assert_eq!(answer(1, "basic; ge -5 -1"), "point 1 1");
    assert_eq!(answer(1, "basic; eq 5 1"), "point 1 1");
    assert_eq!(answer(1, "basic; ge -5 0"), "dropped 0 0");
    assert_eq!(answer(1, "basic"), "point 0 0");
}

#[test]
fn an_equality_column_never_helps() {
    // x = 1 + e1; the second row is −1 + e1.
    assert_eq!(answer(1, "basic; eq -1 1; eq -2 1"), "dropped 1 2");
    assert_eq!(answer(1, "basic; eq -1 1; ge -2 1"), "dropped 1 2");
}

#[test]
fn an_inequality_column_only_grows() {
    // x = 5 + s1; the equality is 2 + s1, −2 + s1, 2 − s1.
    assert_eq!(answer(1, "basic; ge -5 1; eq -3 1"), "dropped 1 2");
    assert_eq!(answer(1, "basic; ge -5 1; eq -7 1"), "point 2 4");
    assert_eq!(answer(1, "basic; ge -5 1; eq 7 -1"), "point 2 4");
}

#[test]
fn bounds_of_divisions_are_rows() {
    // q ≤ −1 while x ≥ 0.
    assert_eq!(&answer(1, "basic; div 10 0 1; ge 0 1 0; ge -1 0 -1")[..7], "dropped");
    // x − 10q is 9.5, beyond 9; then 8.5.
    assert_eq!(&answer(1, "basic; div 10 0 1; eq -19 2 -20")[..7], "dropped");
    assert_eq!(&answer(1, "basic; div 10 0 1; eq -17 2 -20")[..5], "point");
}

#[test]
fn the_number_test_takes_entries_constants_and_denominators() {
    assert_eq!(answer_64(1, "basic; ge -2147483647 1"), "point 1");
    assert_eq!(answer_64(1, "basic; ge -2147483648 1"), "wide 0");
    // With D = 32,767 · 32,749 + 1 = 1,073,086,484:
    //   x1 = (1 + x2 + s1) / 32,767,
    //   x2 = (32,766 − s1 + 32,767·s2) / D,
    // and the third row has the entry k·D for x3: in the bound for k = 2.
    let chain = |k: i32| {
        format!("basic; ge -1 32767 -1 0; ge -1 1 32749 0; ge -1 0 1 {k}")
    };
    assert_eq!(answer_64(3, &chain(1)), "point 3");
    assert_eq!(answer_64(3, &chain(2)), "point 3");
    assert_eq!(answer_64(3, &chain(3)), "wide 2");
    assert_eq!(answer_64(3, &chain(-3)), "wide 2");
}
