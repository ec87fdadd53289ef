//! Request 5, "Scale readings as ranges": sure, never or depends, the difference of the box and the set in the table.

mod common;
use common::*;
use second::calls::hex;

const RULE_LESS: [u8; 1] = [0x11];
const FAR: i32 = 1_048_576;
/// As much room and as many prefixes as these cases need.
const ROOM: usize = 9_000;
const ENOUGH: [u32; 2] = [1_000_000; 2];

/// The whole answer in a table of the difference's own length.
fn exact(n: u8, set: &[u8], low: &[i32], high: &[i32], difference: &[u8]) -> String {
    let (room, table) = (difference.len(), hex(difference));
    let answer = call(format!("range {n} {room} {} 1000000 1000000 {} {}", hex(set), eight(low), eight(high)));
    answer.strip_suffix(&format!(" | {room} {table}")).unwrap_or(&answer).to_string()
}

#[test]
fn the_three_answers() {
    let beyond = |low: i32, high: i32, rule: &str| set(1, &format!("basic; ge {low} 1; ge {high} -1; {rule}"));
    assert_eq!(exact(1, &a(), &[0], &[2186], &[]), "sure");
    assert_eq!(exact(1, &a(), &[2187], &[3000], &beyond(-2187, 3000, "ge -2187 1")), "never");
    assert_eq!(exact(1, &a(), &[2180], &[2190], &beyond(-2180, 2190, "ge -2187 1")), "depends 2180 / 2187");
    assert_eq!(exact(1, &a(), &[-7], &[5], &beyond(7, 5, "ge -1 -1")), "depends 0 / -7");
}

/// "No cutters: the basic set stays as it is": axis by axis, the low before the high.
#[test]
fn the_box_as_it_is_written() {
    let left = set(2, "basic; ge 3 1 0; ge -3 -1 0; ge -5 0 1; ge 7 0 -1");
    assert_eq!(exact(2, &[], &[-3, 5], &[-3, 7], &left), "never");
    let widest = set(1, "basic; ge 1048576 1; ge 1048576 -1");
    assert_eq!(exact(1, &[], &[-FAR], &[FAR], &widest), "spent 1");
    assert_eq!(range(1, ROOM, &[], ENOUGH, &[-FAR], &[-1]), "spent 1 | 75");
    assert_eq!(range(1, ROOM, &RULE_LESS, ENOUGH, &[FAR], &[FAR]), "sure | 0");
}

#[test]
fn each_point_is_the_first_of_its_kind() {
    // x + y = 4 of 0 to 3 each: (1, 3), (2, 2), (3, 1) are in.
    let diagonal = set(2, "basic; eq -4 1 1");
    assert_eq!(range(2, ROOM, &diagonal, ENOUGH, &[0, 0], &[3, 3]), "depends 1 3 / 0 0 | 372");
    assert_eq!(range(2, ROOM, &diagonal, ENOUGH, &[1, 3], &[3, 3]), "depends 1 3 / 2 3 | 186");
    // The later basic set has the first point.
    let two = set(1, "basic; ge -5 1; basic; ge 2 -1");
    assert_eq!(range(1, ROOM, &two, ENOUGH, &[0], &[9]), "depends 0 / 3 | 149");
}

/// The set's search of x = 9 takes 10 prefixes, that of the difference from 0 one.
#[test]
fn each_search_has_its_own_limit() {
    let nine = set(1, "basic; eq -9 1");
    let with = |limits: [u32; 2]| range(1, ROOM, &nine, limits, &[0], &[20]);
    assert_eq!(with([10, 1]), "depends 9 / 0 | 224");
    assert_eq!(with([9, 1_000_000]), "spent 1 | 224");
    assert_eq!(with([9, 1]), "spent 1 | 224");
    let but_nine = set(1, "basic; ge -10 1; basic; ge 8 -1");
    let with = |limits: [u32; 2]| range(1, ROOM, &but_nine, limits, &[0], &[20]);
    assert_eq!(with([1, 10]), "depends 0 / 9 | 149");
    assert_eq!(with([1, 9]), "spent 2 | 149");
    assert_eq!(with([1_000_000, 9]), "spent 2 | 149");
}

/// Nothing outside, found with one prefix, would mean sure; nothing inside never.
#[test]
fn spent_whatever_the_other_search_would_settle() {
    assert_eq!(range(2, ROOM, &RULE_LESS, [1, 1], &[5, 5], &[5, 5]), "spent 1 | 0");
    assert_eq!(range(2, ROOM, &RULE_LESS, [2, 1], &[5, 5], &[5, 5]), "sure | 0");
    assert_eq!(range(2, ROOM, &[], [1, 1], &[5, 5], &[5, 5]), "spent 2 | 149");
    assert_eq!(range(2, ROOM, &[], [1, 2], &[5, 5], &[5, 5]), "never | 149");
    // Both: the search of the set is named.
    let corner = set(2, "basic; eq -5 1 0; eq -5 0 1");
    assert_eq!(range(2, ROOM, &corner, [1, 1], &[4, 4], &[5, 5]), "spent 1 | 409");
}

/// The box's rules have no number, the others keep theirs.
#[test]
fn numbers_of_rules_stay_in_the_difference() {
    let given = set(1, "basic; rule 7 ge -3 1; rule 9 ge 5 -1");
    let left = set(1, "basic; ge 0 1; ge 9 -1; rule 7 ge 2 -1; basic; ge 0 1; ge 9 -1; rule 7 ge -3 1; rule 9 ge -6 1");
    assert_eq!(left.len(), 2 + 7 * 37 + 3 * 2);
    assert_eq!(exact(1, &given, &[0], &[9], &left), "depends 3 / 0");
    assert_eq!(range(1, left.len() - 1, &given, ENOUGH, &[0], &[9]), "refused 11");
}

/// 16 rules of a box of eight axes and 33 of the set are too many, where each of these cuts; 32 are not.
#[test]
fn the_rules_of_the_box_count() {
    let (low, high) = ([0; 8], [40, 0, 0, 0, 0, 0, 0, 0]);
    let lows = |count: i32| (1..=count).map(|k| format!("ge -{k} 1 0 0 0 0 0 0 0")).collect::<Vec<_>>().join("; ");
    let of = |rules: &str| range(8, 65_000, &set(8, &format!("basic; {rules}")), ENOUGH, &low, &high);
    let depends = "depends 32 0 0 0 0 0 0 0 / 0 0 0 0 0 0 0 0 | 38512";
    assert_eq!(of(&lows(32)), depends);
    assert_eq!(of(&lows(33)), "refused 10");
    // The last candidate would be dropped.
    assert_eq!(of(&format!("{}; ge 40 -1 0 0 0 0 0 0 0", lows(32))), "refused 10");
    // One rule cuts nothing and does not join.
    assert_eq!(of(&format!("ge 0 1 0 0 0 0 0 0 0; {}", lows(32))), depends);
}

/// 1, the set's own, 12 (a low over its high too), 13 of either limit, 10, 11.
#[test]
fn the_order_of_refusals() {
    let too_many = set(1, &format!("basic; {}", (1..=33).map(|k| format!("ge -{k} 1")).collect::<Vec<_>>().join("; ")));
    let ten = |n: u8, limits: [u32; 2], low: i32, high: i32| range(n, 0, &too_many, limits, &[low], &[high]);
    assert_eq!(range(0, 0, &[0x99], [0, 0], &[FAR + 1], &[0]), "refused 1");
    assert_eq!(range(1, 0, &[0x99], [0, 0], &[FAR + 1], &[0]), "refused 2");
    assert_eq!(range(1, 0, &set(1, "basic; ge 0 1")[..9], [0, 0], &[5], &[4]), "refused 3");
    assert_eq!(ten(1, [0, 0], FAR + 1, 0), "refused 12");
    assert_eq!(ten(1, [0, 0], 0, -FAR - 1), "refused 12");
    assert_eq!(ten(1, [0, 0], 5, 4), "refused 12");
    assert_eq!(range(1, 0, &too_many, [0, 0], &[0, 1], &[40, 1]), "refused 12");
    assert_eq!(ten(1, [0, 9], 0, 40), "refused 13");
    assert_eq!(ten(1, [9, 0], 0, 40), "refused 13");
    assert_eq!(ten(1, [9, 1_000_001], 0, 40), "refused 13");
    assert_eq!(ten(1, [1_000_001, 9], 0, 40), "refused 13");
    assert_eq!(ten(1, [1, 1], 0, 40), "refused 10");
    assert_eq!(range(1, 111, &a(), [1, 1], &[-7], &[5]), "refused 11");
    assert_eq!(range(1, 112, &a(), [1, 1], &[-7], &[5]), "spent 1 | 112");
}

#[test]
fn a_refused_table_is_all_0() {
    let refused = call(format!("range 1 111 {} 9 9 {} {}", hex(&a()), eight(&[-7]), eight(&[5])));
    assert_eq!(refused, format!("refused 11 {}", "00".repeat(111)));
    assert_eq!(call(format!("range 0 3 - 9 9 {} {}", eight(&[0]), eight(&[0]))), "refused 1 000000");
    assert_eq!(call(format!("range 1 0 - 9 9 {} {}", eight(&[1]), eight(&[0]))), "refused 12 -");
}
