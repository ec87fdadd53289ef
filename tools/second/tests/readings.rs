//! The readings of readings.md, one test each. Number 24 is about the C
//! interface and has no counterpart here.

mod common;
use common::*;
use second::calls::hex;

/// n copies of a different division each, by its constant.
fn divisions(count: usize) -> String {
    let lines: Vec<String> = (0..count).map(|c| format!("div 2 {c} 1")).collect();
    lines.join(";")
}

#[test]
fn reading_01_cut_off_is_3_whatever_else() {
    assert_eq!(check(1, &[0x14]), "3");
    assert_eq!(check(1, &[0x12]), "3");
    let mut after_rule = set(1, "basic; ge 0 1");
    after_rule.extend([0x12, 0, 0]);
    assert_eq!(check(1, &after_rule), "3");
    let mut full = set(1, &format!("basic; {}", times(48, "ge 0 1")));
    full.push(0x14);
    assert_eq!(check(1, &full), "3");
}

#[test]
fn reading_02_where_9_is_given() {
    assert_eq!(check(1, &[0x11; 32]), "0");
    assert_eq!(check(1, &[0x11; 33]), "9");
    assert_eq!(check(1, &set(1, &format!("basic; {}", divisions(8)))), "0");
    assert_eq!(check(1, &set(1, &format!("basic; {}", divisions(9)))), "9");
    let rules = |count| set(1, &format!("basic; {}", times(count, "eq 0 1")));
    assert_eq!(check(1, &rules(48)), "0");
    assert_eq!(check(1, &rules(49)), "9");
    // The 33rd comes before what follows it.
    let mut later = vec![0x11; 33];
    later.push(0x99);
    assert_eq!(check(1, &later), "9");
    // 48 rules in each of two basic sets are not too many.
    assert_eq!(check(1, &rules(48).repeat(2)), "0");
}

#[test]
fn reading_03_absent_places() {
    let mut bytes = set(1, "basic; ge 0 1");
    bytes[8] = 5; // place 2
    assert_eq!(check(1, &bytes), "8");
    assert_eq!(check(2, &bytes), "0");
    bytes[1 + 5 + 30 + 1] = 0x80; // place 16 is −32,768
    assert_eq!(check(1, &bytes), "7");
    // A division of another basic set is absent in this one.
    let mut other = set(1, "basic; div 2 0 1; ge 0 1 1; basic; ge 0 1");
    let rule = other.len() - (bytes.len() - 1);
    other[rule + 5 + 16] = 1; // place 9
    assert_eq!(check(1, &other), "8");
}

#[test]
fn reading_04_an_equalitys_constant() {
    assert_eq!(check(1, &set(1, "basic; eq -2147483648 1")), "7");
    assert_eq!(check(1, &set(1, "basic; eq -2147483647 1")), "0");
    assert_eq!(check(1, &set(1, "basic; ge -2147483648 1")), "0");
}

#[test]
fn reading_05_a_long_loads_own_numbers_come_before_11() {
    let many = set(1, &times(8, &format!("basic; {}", times(27, "ge 0 1"))));
    let mut long = many.clone();
    long.push(0x11);
    assert_eq!(Script::new(1).load(0, &long).end(), "axes 1\nrefused 11\nend\n");
    long.push(0x99);
    assert_eq!(Script::new(1).load(0, &long).end(), "axes 1\nrefused 2\nend\n");
}

#[test]
fn reading_06_10_comes_before_11() {
    let many = vec![0x11; 32];
    assert_eq!(short("union", 1, 0, &many, &[0x11]), "refused 10");
    assert_eq!(short("union", 1, 0, &many, &[]), "refused 11");
    // The table is full after the first candidate; the last join is over 8.
    let first = set(1, &format!("basic; basic; {}", divisions(8)));
    let second = set(1, "basic; div 3 0 1");
    assert_eq!(short("intersection", 1, 0, &first, &second), "refused 10");
    let cutter = set(1, "basic; div 3 0 1; ge 0 1 0");
    assert_eq!(short("difference", 1, 0, &first, &cutter), "refused 10");
}

#[test]
fn reading_07_the_join_comes_first_but_only_for_pieces_there_are() {
    let full = set(1, &format!("basic; {}", divisions(8)));
    let other = set(1, "basic; div 3 0 1");
    assert_eq!(short("difference", 1, 1000, &full, &other), "refused 10");
    let not_reached = [vec![0x11], other.clone()].concat();
    assert_eq!(short("difference", 1, 1000, &full, &not_reached), "gives 0");
    assert_eq!(short("difference", 1, 1000, &[], &other), "gives 0");
    assert_eq!(short("intersection", 1, 1000, &full, &[]), "gives 0");
    // An equal division is no further one.
    let equal = set(1, "basic; div 2 7 1");
    assert_eq!(short("difference", 1, 1000, &full, &equal), "gives 0");
}

#[test]
fn reading_08_over_48_rules_whatever_the_test_says() {
    let never = set(1, &format!("basic; ge -1 0; {}", times(47, "ge 0 1")));
    let one = set(1, "basic; ge 0 1");
    assert_eq!(tested(1, &never), "dropped 0 0");
    assert_eq!(short("intersection", 1, 5000, &never, &one), "refused 10");
    assert_eq!(short("difference", 1, 5000, &never, &one), "refused 10");
    assert_eq!(short("intersection", 1, 5000, &never, &[0x11]), "gives 0");
    // With 47 rules the first rule's candidate has 48; it is dropped, so the
    // rule does not join and the second candidate has 48 too.
    let ruled = set(1, &format!("basic; {}", times(47, "ge 0 1")));
    let two = set(1, "basic; ge 0 1; ge 1 1");
    assert_eq!(short("difference", 1, 5000, &ruled, &two), "gives 0");
    // Kept, it joins, and the next candidate has 49.
    let kept = set(1, "basic; ge -1 1; ge -2 1");
    assert_eq!(short("difference", 1, 5000, &ruled, &kept), "refused 10");
}

#[test]
fn reading_09_no_rules_and_no_cutters() {
    assert_eq!(short("difference", 1, 0, &a(), &[0x11]), "gives 0");
    let never = set(1, "basic; ge -1 0; ge 0 1");
    let answer = call(format!("difference 1 75 {} -", hex(&never)));
    assert_eq!(answer, format!("gives 75 {}", hex(&never)));
}

#[test]
fn reading_10_pieces_between_cutters_have_no_limit() {
    let steps: Vec<String> = (0..40).map(|i| format!("ge {} -1", 100 - i)).collect();
    let cutter = set(1, &format!("basic; {}", steps.join(";")));
    assert_eq!(short("difference", 1, 9000, &[0x11], &cutter), "refused 10");
    let then_all = [cutter, vec![0x11]].concat();
    assert_eq!(short("difference", 1, 0, &[0x11], &then_all), "gives 0");
}

#[test]
fn reading_11_only_touched_rows_are_judged() {
    // x ≥ 2^31, y ≥ 2^14·x, z ≥ 2^14·y, and a last row with the constant −2^63,
    // which the pivot of v ≥ 1 does not touch.
    let high = "basic; ge -2147483648 1 0 0 0 0; ge 0 -16384 1 0 0 0; ge 0 0 -16384 1 0 0";
    let apart = set(5, &format!("{high}; ge -1 0 0 0 1 0; ge 0 0 0 -16 0 1"));
    assert_eq!(tested(5, &apart), "wide 4 7");
    let touched = set(5, &format!("{high}; ge -1 0 0 0 1 0; ge 0 0 0 -16 1 1"));
    assert_eq!(tested(5, &touched), "wide 3 6");
    // Nor does it matter where no pivot is needed, or none helps.
    assert_eq!(tested(1, &set(1, "basic; ge 2147483647 1")), "point 0 0");
    assert_eq!(tested(1, &set(1, "basic; ge -2147483648 0")), "dropped 0 0");
}

#[test]
fn reading_12_absent_axes_change_nothing() {
    let lines = "basic; div 7 3 5; ge -40 3 -2; eq -11 2 1; ge 100 -1 -1; ge -1 1 -1";
    let bytes = set(1, lines);
    let answer = tested(1, &bytes);
    assert!((2..=8).all(|n| tested(n, &bytes) == answer));
}

#[test]
fn reading_13_the_empty_prefix_is_not_tested() {
    assert_eq!(search(1, &[0x11], 1, &[0], &[0]), "at 0 1");
    assert_eq!(search(3, &[0x11], 3, &[-4, 5, 6], &[9, 9, 9]), "at -4 5 6 3");
}

#[test]
fn reading_14_each_rule_each_axis_each_division_by_itself() {
    // x2 − floor(x2) − 1 never holds, but seems to while x2 is open.
    let apart = set(2, "basic; div 1 0 0 1; ge -1 0 1 -1");
    assert_eq!(search(2, &apart, 99, &[0, 0], &[1, 5]), "none 14");
    // Two rules that do not go together.
    let rules = set(2, "basic; ge -3 0 1; ge 2 0 -1");
    assert_eq!(search(2, &rules, 99, &[0, 0], &[0, 5]), "none 7");
    // Two basic sets, neither of which can hold.
    let never = set(2, "basic; ge -6 0 1; basic; ge -1 0 -1");
    assert_eq!(search(2, &never, 99, &[0, 0], &[3, 5]), "none 4");
    // Floors of negative numerators: q is −1 from x = −10 to −1.
    let floors = set(1, "basic; div 10 0 1; eq 1 0 1");
    assert_eq!(search(1, &floors, 99, &[-20], &[20]), "at -10 11");
    // A negative coefficient takes the other end.
    let minus = set(2, "basic; div 10 0 0 -1; ge -1 0 0 1");
    assert_eq!(search(2, &minus, 99, &[0, -9], &[0, 9]), "none 1");
    assert_eq!(search(2, &minus, 99, &[0, -10], &[0, 9]), "at 0 -10 2");
}

#[test]
fn reading_15_spent_only_if_a_prefix_is_still_needed() {
    let four = set(1, "basic; eq -4 1");
    assert_eq!(search(1, &four, 5, &[0], &[9]), "at 4 5");
    assert_eq!(search(1, &four, 4, &[0], &[9]), "spent 4");
    assert_eq!(search(1, &four, 4, &[0], &[3]), "none 4");
    assert_eq!(search(1, &four, 3, &[0], &[3]), "spent 3");
    // A passing prefix of length 1 still needs its second axis.
    assert_eq!(search(2, &[0x11], 1, &[0, 0], &[0, 0]), "spent 1");
    assert_eq!(search(2, &[0x11], 2, &[0, 0], &[0, 0]), "at 0 0 2");
}

#[test]
fn reading_16_no_basic_sets_pass_nothing() {
    assert_eq!(search(2, &[], 99, &[0, 0], &[9, 9]), "none 10");
    assert_eq!(search(2, &[], 9, &[0, 0], &[9, 9]), "spent 9");
    assert_eq!(search(2, &[], 10, &[0, 0], &[9, 9]), "none 10");
}

fn part(n: u8, set: &str, k: u64) -> String {
    call(format!("part {n} {set} {k}"))
}

#[test]
fn reading_17_parts() {
    let two = set_hex(1, "basic; div 2 0 1; ge 0 1 0; basic; basic; ge 5 -1");
    let parts: Vec<String> = (0..5).map(|k| part(1, &two, k)).collect();
    assert_eq!(parts, ["0 0", "0 61", "61 1", "62 38", "0 0"]);
    assert_eq!(part(1, &two, u64::MAX), "0 0");
    assert_eq!(part(0, &two, 1), "0 0");
    assert_eq!(part(1, &format!("{two}99"), 1), "0 0");
    assert_eq!(part(1, "-", 1), "0 0");
}

fn holder(n: u8, first: &str, second: &str, x: &[i32]) -> String {
    call(format!("holder {n} {first} {second} {}", eight(x)))
}

#[test]
fn reading_17_holders() {
    let first = set_hex(1, "basic; ge 0 1; basic; ge -9 -1");
    let second = set_hex(1, "basic; ge -5 1; basic");
    assert_eq!(holder(1, &first, &second, &[7]), "first 0 38");
    assert_eq!(holder(1, &first, &second, &[-9]), "first 38 38");
    assert_eq!(holder(1, &first, &second, &[-8]), "second 38 1");
    assert_eq!(holder(1, "-", &second, &[5]), "second 0 38");
    assert_eq!(holder(1, &first, "-", &[-8]), "first 0 0");
    assert_eq!(holder(1, &first, "99", &[7]), "first 0 0");
    assert_eq!(holder(1, "99", &second, &[7]), "first 0 0");
    assert_eq!(holder(1, &first, &second, &[1_048_577]), "first 0 0");
    assert_eq!(holder(1, &first, &second, &[7, 1]), "first 0 0");
    assert_eq!(holder(9, &first, &second, &[7]), "first 0 0");
}

#[test]
fn readings_18_to_21_in_short() {
    // More of these stand in tests/script.rs.
    assert_eq!(Script(vec![0x00]).run(), "refused 15\n");
    assert_eq!(Script(vec![0x98]).run(), "refused 2\n");
    assert_eq!(Script(vec![]).run(), "refused 3\n");
    assert_eq!(Script(vec![0x10]).run(), "refused 3\n");
    assert_eq!(Script::new(1).raw(&[0x45]).run(), "axes 1\nrefused 3\n");
    assert_eq!(Script::new(1).raw(&[0x45, 9]).end(), "axes 1\nrefused 14\nend\n");
    assert_eq!(Script::new(1).raw(&[0x10, 2, 0]).run(), "axes 1\nrefused 15\n");
    let beyond = Script::new(1).raw(&[0x40, 0, 2, 0, 0x11]).run();
    assert_eq!(beyond, "axes 1\nrefused 3\n");
    let inside = Script::new(1).raw(&[0x40, 0, 2, 0, 0x11, 0x14]).end();
    assert_eq!(inside, "axes 1\nrefused 3\nend\n");
}

#[test]
fn readings_22_and_23_lines() {
    let bytes = set(3, "basic; div 4 -5 1 0 -1; div 2 0 0 0 0; eq 1 2 3 4 5 6; ge 0 0 0 0 0 0");
    let output = Script::new(3)
        .load(2, &bytes)
        .raw(&[0x45, 2])
        .load(0, &[0x11])
        .search(0, 3, &[-1, 2, 3], &[0, 3, 3])
        .search(0, 2, &[-1, 2, 3], &[0, 3, 3])
        .search(1, 2, &[-1, 2, 3], &[0, 3, 3])
        .end();
    let want = "axes 3\ndone\nset 2 has 1\nbasic 1\ndiv 4 -5 1 0 -1\ndiv 2 0 0 0 0\n\
                eq 1 2 3 4 5 6\nge 0 0 0 0 0 0\ndone\nat -1 2 3 3\nspent 2\nnone 2\nend\n";
    assert_eq!(output, want);
}
