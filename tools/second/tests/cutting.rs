//! "Cutting rules": joins, opposites, and when a rule joins.

mod common;
use common::*;
use second::calls::hex;

fn gives(name: &str, n: usize, first: &str, second: &str, want: &str) {
    let (first, second, want) = (set_hex(n, first), set_hex(n, second), set(n, want));
    let line = format!("{name} {n} {} {first} {second}", want.len());
    assert_eq!(call(line), format!("gives {} {}", want.len(), hex(&want)));
}

#[test]
fn equal_divisions_are_shared_once_each() {
    // Two equal ones of A are taken in order; the third of B is appended.
    gives(
        "intersection",
        1,
        "basic; div 3 1 1; div 3 1 1; ge 0 1 2 3",
        "basic; div 3 1 1; div 3 1 1; div 3 1 1; ge 9 0 4 5 6",
        "basic; div 3 1 1; div 3 1 1; div 3 1 1; ge 0 1 2 3 0; ge 9 0 4 5 6",
    );
    // An appended division of B is not shared by a later one of B.
    gives(
        "intersection",
        1,
        "basic; div 2 0 1",
        "basic; div 3 1 1; div 2 0 1; div 3 1 1; ge 9 0 4 5 6",
        "basic; div 2 0 1; div 3 1 1; div 3 1 1; ge 9 0 5 4 6",
    );
}

#[test]
fn divisions_differ_in_d_or_c_or_a_coefficient() {
    gives(
        "intersection",
        2,
        "basic; div 3 1 1 0",
        "basic; div 4 1 1 0; div 3 2 1 0; div 3 1 1 1; div 3 1 1 0; ge 9 0 0 1 2 3 4",
        "basic; div 3 1 1 0; div 4 1 1 0; div 3 2 1 0; div 3 1 1 1; ge 9 0 0 4 1 2 3",
    );
}

#[test]
fn intersection_goes_through_pairs_in_order() {
    gives(
        "intersection",
        1,
        "basic; ge 0 1; basic; ge -9 -1",
        "basic; ge 1 1; basic; ge 20 1",
        "basic; ge 0 1; ge 1 1; basic; ge 0 1; ge 20 1; basic; ge -9 -1; ge 20 1",
    );
}

#[test]
fn an_equality_has_two_opposites_in_order() {
    gives("difference", 1, "basic", "basic; eq -4 1", "basic; ge -5 1; basic; ge 3 -1");
}

#[test]
fn a_rule_without_kept_candidates_does_not_join() {
    gives(
        "difference",
        1,
        "basic; ge 0 1",
        "basic; ge 1 1; ge 5 -1",
        "basic; ge 0 1; ge -6 1",
    );
}

#[test]
fn an_equality_with_one_kept_candidate_joins() {
    gives(
        "difference",
        2,
        "basic; ge -4 1 0",
        "basic; eq -4 1 0; ge 0 0 1",
        "basic; ge -4 1 0; ge -5 1 0; basic; ge -4 1 0; eq -4 1 0; ge -1 0 -1",
    );
}

#[test]
fn candidates_carry_all_joined_divisions() {
    gives(
        "difference",
        1,
        "basic",
        "basic; div 2 0 1; ge 0 1 0",
        "basic; div 2 0 1; ge -1 -1 0",
    );
}

#[test]
fn each_piece_meets_the_later_cutters() {
    // 0..9 without 3..4, then without 6..7, in the order of the pieces.
    gives(
        "difference",
        1,
        "basic; ge 0 1; ge 9 -1",
        "basic; ge -3 1; ge 4 -1; basic; ge -6 1; ge 7 -1",
        "basic; ge 0 1; ge 9 -1; ge 2 -1; ge 5 -1; \
         basic; ge 0 1; ge 9 -1; ge -3 1; ge -5 1; ge 5 -1; \
         basic; ge 0 1; ge 9 -1; ge -3 1; ge -5 1; ge -6 1; ge -8 1",
    );
}
