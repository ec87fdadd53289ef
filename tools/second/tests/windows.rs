//! Request 7, "Windows that shut before they open": none with a tally of 0,
//! after the refusals of the set, 12 and 13.

mod common;
use common::*;

const RULE_LESS: [u8; 1] = [0x11];
const FAR: i32 = 1_048_576;

#[test]
fn a_shut_window_answers_none_0_whatever_the_set() {
    assert_eq!(search(1, &RULE_LESS, 9, &[5], &[4]), "none 0");
    assert_eq!(search(1, &[], 9, &[5], &[4]), "none 0");
    assert_eq!(search(1, &a(), 1, &[2186], &[0]), "none 0");
    assert_eq!(search(1, &RULE_LESS, 1_000_000, &[FAR], &[-FAR]), "none 0");
}

/// No prefix is tested, not of the axes before the shut one either.
#[test]
fn on_a_later_axis_too() {
    assert_eq!(search(2, &RULE_LESS, 9, &[-FAR, 1], &[FAR, 0]), "none 0");
    assert_eq!(search(3, &RULE_LESS, 9, &[0, 1, 0], &[9, 0, 9]), "none 0");
    assert_eq!(search(8, &RULE_LESS, 9, &[0, 0, 0, 0, 0, 0, 0, 1], &[1, 1, 1, 1, 1, 1, 1, 0]), "none 0");
    assert_eq!(search(8, &RULE_LESS, 9, &[1; 8], &[0; 8]), "none 0");
}

#[test]
fn one_value_is_not_shut() {
    assert_eq!(search(1, &RULE_LESS, 9, &[5], &[5]), "at 5 1");
    assert_eq!(search(2, &RULE_LESS, 9, &[5, -7], &[5, -7]), "at 5 -7 2");
    assert_eq!(search(1, &[], 9, &[5], &[5]), "none 1");
}

#[test]
fn the_refusals_come_first() {
    assert_eq!(search(0, &RULE_LESS, 9, &[5], &[4]), "refused 1");
    assert_eq!(search(1, &[0x99], 9, &[5], &[4]), "refused 2");
    assert_eq!(search(1, &RULE_LESS, 9, &[FAR + 1], &[4]), "refused 12");
    assert_eq!(search(1, &RULE_LESS, 9, &[5], &[-FAR - 1]), "refused 12");
    assert_eq!(search(1, &RULE_LESS, 0, &[5], &[4]), "refused 13");
    assert_eq!(search(1, &RULE_LESS, 1_000_001, &[5], &[4]), "refused 13");
    assert_eq!(search(1, &RULE_LESS, 0, &[FAR + 1], &[4]), "refused 12");
}

/// An absent axis is refused, never shut.
#[test]
fn absent_axes_are_12() {
    assert_eq!(search(1, &RULE_LESS, 9, &[0, 1], &[0, 0]), "refused 12");
    assert_eq!(search(1, &RULE_LESS, 9, &[0, 0], &[0, -1]), "refused 12");
    assert_eq!(search(2, &RULE_LESS, 9, &[5, 0, 2], &[4, 0, 1]), "refused 12");
}
