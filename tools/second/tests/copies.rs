//! Request 4, "Fewer copies in the exchange": the rows that a test's exchanges
//! build are those with a nonzero entry in the exchanged column.

mod common;
use common::*;

fn answer(n: usize, rules: &str) -> String {
    tested(n as u8, &set(n, &format!("basic; {rules}")))
}

#[test]
fn one_row_all_rows_and_some() {
    assert_eq!(answer(2, "ge 5 1 1; ge 9 -1 -1"), "point 0 0");
    assert_eq!(answer(2, "ge -5 1 0; ge 0 0 1; ge 9 0 -1"), "point 1 1");
    assert_eq!(answer(2, "ge -5 1 0; ge 9 -1 0; ge 0 1 1"), "point 1 3");
    assert_eq!(answer(2, "ge -5 1 0; ge 0 0 1; ge 9 -1 1"), "point 1 2");
    assert_eq!(answer(1, &times(48, "ge -5 1")), "point 1 48");
}

/// Rows of free variables count as the others do.
#[test]
fn rows_of_axes_are_built_too() {
    // x = 5 − y + r1; then y = 7 + r2 goes into x.
    assert_eq!(answer(2, "ge -5 1 1; ge -7 0 1"), "point 2 3");
    // The row of x gets the entry of y and loses that of r3 again.
    assert_eq!(answer(2, "ge -5 1 1; ge -1 1 0; ge -7 0 1; ge -9 0 1"), "point 4 11");
}

/// A row without an entry in the column is as it was, however large the tableau.
#[test]
fn rows_over_other_axes_are_not_built() {
    let apart = |count: usize| format!("ge -1 1 0; {}", times(count, "ge 0 0 1"));
    assert!((0..=47).all(|count| answer(2, &apart(count)) == "point 1 1"));
}

#[test]
fn both_sizes_together() {
    assert_eq!(answer(2, "ge -2147483648 1 0; ge 0 0 1; ge 0 1 1"), "point 1 2");
    let both = "ge -3 1 0; ge 0 1 0; ge -2147483648 0 1; ge 0 0 1; ge 5 0 -1";
    assert_eq!(answer(2, both), "dropped 2 5");
}

#[test]
fn no_test_no_rows() {
    assert_eq!(call("test 1 11 2".to_string()), "none");
    assert_eq!(call("test 0 11 1".to_string()), "refused 1");
}
