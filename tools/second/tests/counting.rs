//! Request 12, "How many ways": the points of a box in a set, all of them and by one axis.

mod common;
use common::*;

const RULE_LESS: [u8; 1] = [0x11];
const FAR: i32 = 1_048_576;

/// 0 ≤ x ≤ 2 and 1 ≤ y ≤ 3, then 1 ≤ x ≤ 3 and 2 ≤ y ≤ 4: 9 points each, 4 of them in both.
fn overlapping() -> Vec<u8> {
    set(2, "basic; ge 0 1 0; ge 2 -1 0; ge -1 0 1; ge 3 0 -1; basic; ge -1 1 0; ge 3 -1 0; ge -2 0 1; ge 4 0 -1")
}

#[test]
fn each_point_once_however_many_basic_sets_hold_it() {
    let set = overlapping();
    assert_eq!(count(2, &set, 100, &[0, 0], &[4, 5]), "count 14 29");
    assert_eq!(counts(2, &set, 100, 1, &[0, 0], &[4, 5]), "count 14 3 4 4 3 0 29");
    assert_eq!(counts(2, &set, 100, 2, &[0, 0], &[4, 5]), "count 14 0 3 4 4 3 0 29");
    assert_eq!(counts(1, &[0x11; 32], 9, 1, &[-3], &[-1]), "count 3 1 1 1 3");
}

/// 1 + 4 + 4·3 prefixes; the member last in dictionary order is the last prefix.
#[test]
fn the_walk_goes_on_past_each_member_to_the_end() {
    assert_eq!(search(3, &RULE_LESS, 99, &[5, 0, 7], &[5, 3, 9]), "at 5 0 7 3");
    assert_eq!(count(3, &RULE_LESS, 99, &[5, 0, 7], &[5, 3, 9]), "count 12 17");
    assert_eq!(counts(3, &RULE_LESS, 99, 1, &[5, 0, 7], &[5, 3, 9]), "count 12 12 17");
    assert_eq!(counts(3, &RULE_LESS, 99, 2, &[5, 0, 7], &[5, 3, 9]), "count 12 3 3 3 3 17");
    assert_eq!(counts(3, &RULE_LESS, 99, 3, &[5, 0, 7], &[5, 3, 9]), "count 12 4 4 4 17");
}

/// The limit may be the very number of prefixes (reading 15).
#[test]
fn spent_gives_no_counts() {
    let set = overlapping();
    assert_eq!(count(2, &set, 28, &[0, 0], &[4, 5]), "spent 28");
    assert_eq!(count(2, &set, 29, &[0, 0], &[4, 5]), "count 14 29");
    assert_eq!(count(2, &set, 30, &[0, 0], &[4, 5]), "count 14 29");
    assert_eq!(counts(2, &set, 28, 1, &[0, 0], &[4, 5]), "spent 28");
    assert_eq!(count(1, &RULE_LESS, 1_000_000, &[-FAR], &[FAR]), "spent 1000000");
}

#[test]
fn prefixes_that_fail_are_tested_and_not_gone_below() {
    assert_eq!(count(3, &[], 99, &[0, 0, 0], &[4, 9, 9]), "count 0 5");
    assert_eq!(counts(3, &[], 99, 3, &[0, 0, 0], &[4, 9, 1]), "count 0 0 0 5");
    // 2y = 1 is met by fractions only: a prefix that leaves y open passes.
    let half = set(2, "basic; eq -1 0 2");
    assert_eq!(count(2, &half, 99, &[0, 0], &[2, 1]), "count 0 9");
}

#[test]
fn an_upside_down_box_counts_0() {
    assert_eq!(count(1, &RULE_LESS, 1, &[5], &[4]), "count 0 0");
    assert_eq!(counts(1, &RULE_LESS, 1, 1, &[5], &[4]), "count 0 0");
    assert_eq!(counts(2, &RULE_LESS, 1, 1, &[5, 1], &[7, 0]), "count 0 0 0 0 0");
    assert_eq!(counts(2, &RULE_LESS, 1, 2, &[5, 1], &[7, 0]), "count 0 0");
    assert_eq!(counts(1, &RULE_LESS, 1, 1, &[FAR], &[-FAR]), "count 0 0");
}

#[test]
fn sides_of_64_values_are_the_longest() {
    let ones = |count: usize| "1 ".repeat(count);
    assert_eq!(counts(1, &RULE_LESS, 99, 1, &[-31], &[31]), format!("count 63 {}63", ones(63)));
    assert_eq!(counts(1, &RULE_LESS, 99, 1, &[-31], &[32]), format!("count 64 {}64", ones(64)));
    assert_eq!(counts(1, &RULE_LESS, 99, 1, &[-32], &[32]), "refused 19");
    assert_eq!(counts(1, &RULE_LESS, 99, 1, &[-FAR], &[FAR]), "refused 19");
    // Another side may be longer, and the whole is not refused.
    assert_eq!(counts(2, &RULE_LESS, 999, 2, &[0, 0], &[64, 0]), "count 65 65 130");
    assert_eq!(count(1, &RULE_LESS, 99, &[-32], &[32]), "count 65 65");
}

#[test]
fn axes_are_1_to_n() {
    for axis in [0, 3, 9, u64::from(u32::MAX) + 1, u64::MAX] {
        assert_eq!(counts(2, &RULE_LESS, 99, axis, &[0, 0], &[1, 1]), "refused 19", "{axis}");
    }
}

/// 1, the set's own, 12, 19, 13.
#[test]
fn the_order_of_refusals() {
    assert_eq!(counts(0, &[0x99], 0, 0, &[FAR + 1], &[0]), "refused 1");
    assert_eq!(counts(1, &[0x99], 0, 0, &[FAR + 1], &[0]), "refused 2");
    assert_eq!(counts(1, &RULE_LESS, 0, 0, &[FAR + 1], &[0]), "refused 12");
    assert_eq!(counts(1, &RULE_LESS, 0, 2, &[0, 1], &[0, 1]), "refused 12");
    assert_eq!(counts(1, &RULE_LESS, 0, 0, &[0], &[0]), "refused 19");
    assert_eq!(counts(1, &RULE_LESS, 0, 1, &[0], &[64]), "refused 19");
    assert_eq!(counts(1, &RULE_LESS, 0, 1, &[0], &[63]), "refused 13");
    assert_eq!(counts(1, &RULE_LESS, 1_000_001, 1, &[5], &[4]), "refused 13");
    assert_eq!(counts(1, &RULE_LESS, 9, 2, &[5], &[4]), "refused 19");
    assert_eq!(count(0, &[0x99], 0, &[FAR + 1], &[0]), "refused 1");
    assert_eq!(count(1, &[0x99], 0, &[FAR + 1], &[0]), "refused 2");
    assert_eq!(count(1, &RULE_LESS, 0, &[FAR + 1], &[0]), "refused 12");
    assert_eq!(count(1, &RULE_LESS, 0, &[5], &[4]), "refused 13");
    assert_eq!(count(1, &RULE_LESS, 1_000_001, &[0], &[99]), "refused 13");
}
