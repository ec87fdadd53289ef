//! "Refused": each number in its case, and their order.

mod common;
use common::*;
use second::calls::hex;

fn division(d: u16, c: i32, axes: &[i16]) -> Vec<u8> {
    let mut bytes = vec![0x12];
    bytes.extend(d.to_le_bytes());
    bytes.extend(c.to_le_bytes());
    push_places(&mut bytes, axes, 8);
    bytes
}

fn rule(command: u8, constant: i32, places: &[i16]) -> Vec<u8> {
    let mut bytes = vec![command];
    bytes.extend(constant.to_le_bytes());
    push_places(&mut bytes, places, 16);
    bytes
}

fn push_places(bytes: &mut Vec<u8>, places: &[i16], count: usize) {
    for i in 0..count {
        let k = places.get(i).copied().unwrap_or(0);
        bytes.extend(k.to_le_bytes());
    }
}

fn opened(parts: &[Vec<u8>]) -> Vec<u8> {
    let mut bytes = vec![0x11];
    bytes.extend(parts.concat());
    bytes
}

#[test]
fn the_table_of_refusals_for_sets() {
    let good = rule(0x14, 0, &[1]);
    assert_eq!(check(0, &[]), "1");
    assert_eq!(check(9, &[0x99]), "1");
    assert_eq!(check(255, &[]), "1");
    assert_eq!(check(1, &[0x99]), "2");
    assert_eq!(check(1, &[0x11, 0x14, 0x00]), "3");
    assert_eq!(check(1, &good), "4");
    assert_eq!(check(1, &division(1, 0, &[])), "4");
    assert_eq!(check(1, &opened(&[good.clone(), division(1, 0, &[])])), "5");
    assert_eq!(check(1, &opened(&[division(0, 0, &[])])), "6");
    assert_eq!(check(1, &opened(&[division(32_768, 0, &[])])), "6");
    assert_eq!(check(1, &opened(&[rule(0x14, 0, &[-32_768])])), "7");
    assert_eq!(check(1, &opened(&[rule(0x14, 0, &[0, 5])])), "8");
    assert_eq!(check(1, &opened(&vec![good; 49])), "9");
}

#[test]
fn ends_of_the_ranges() {
    assert_eq!(check(8, &opened(&[division(32_767, 1_000_000_000, &[32_767; 8])])), "0");
    assert_eq!(check(8, &opened(&[division(1, -1_000_000_000, &[-32_767; 8])])), "0");
    assert_eq!(check(1, &opened(&[division(1, 1_000_000_001, &[])])), "7");
    assert_eq!(check(1, &opened(&[division(1, -1_000_000_001, &[])])), "7");
    assert_eq!(check(1, &opened(&[division(1, i32::MIN, &[])])), "7");
    assert_eq!(check(1, &opened(&[division(1, 0, &[-32_768])])), "7");
    assert_eq!(check(1, &opened(&[division(1, 0, &[0, 1])])), "8");
    assert_eq!(check(1, &opened(&[rule(0x14, i32::MIN, &[])])), "0");
    assert_eq!(check(1, &opened(&[rule(0x14, i32::MAX, &[32_767])])), "0");
    assert_eq!(check(1, &opened(&[rule(0x13, i32::MIN, &[])])), "7");
    assert_eq!(check(1, &opened(&[rule(0x13, -i32::MAX, &[-32_767])])), "0");
}

#[test]
fn order_within_one_command() {
    let mut cut_division = division(0, 0, &[]);
    cut_division.pop();
    // 3 before 4 and 5.
    assert_eq!(check(1, &cut_division), "3");
    let after_rule = opened(&[rule(0x14, 0, &[]), cut_division]);
    assert_eq!(check(1, &after_rule), "3");
    // 4 before 6 and 7; 5 before 9 and 6.
    assert_eq!(check(1, &division(0, i32::MIN, &[])), "4");
    let mut full = vec![division(1, 0, &[]); 8];
    full.push(rule(0x14, 0, &[]));
    full.push(division(0, 0, &[]));
    assert_eq!(check(1, &opened(&full)), "5");
    // 9 before 6, 7, 8.
    let mut nine = vec![division(1, 0, &[]); 8];
    nine.push(division(0, i32::MIN, &[0, 1]));
    assert_eq!(check(1, &opened(&nine)), "9");
    let mut rules = vec![rule(0x14, 0, &[]); 48];
    rules.push(rule(0x13, i32::MIN, &[0, 1]));
    assert_eq!(check(1, &opened(&rules)), "9");
    // 6 before 7 before 8.
    assert_eq!(check(1, &opened(&[division(0, i32::MIN, &[0, 1])])), "6");
    assert_eq!(check(1, &opened(&[division(1, i32::MIN, &[0, 1])])), "7");
    assert_eq!(check(1, &opened(&[rule(0x13, i32::MIN, &[0, 1])])), "7");
}

#[test]
fn commands_are_judged_as_they_come() {
    let eight_first = opened(&[rule(0x14, 0, &[0, 1]), vec![0x99]]);
    assert_eq!(check(1, &eight_first), "8");
    let seven_first = opened(&[rule(0x14, 0, &[-32_768]), division(0, 0, &[])]);
    assert_eq!(check(1, &seven_first), "7");
}

#[test]
fn operations_1_then_first_then_second_then_10_then_11() {
    let (bad2, bad4) = (vec![0x99], rule(0x14, 0, &[]));
    for name in ["union", "intersection", "difference"] {
        assert_eq!(short(name, 0, 5, &bad2, &bad4), "refused 1");
        assert_eq!(short(name, 1, 5, &bad2, &bad4), "refused 2");
        assert_eq!(short(name, 1, 5, &bad4, &bad2), "refused 4");
        assert_eq!(short(name, 1, 5, &[], &bad4), "refused 4");
    }
    assert_eq!(call("complement 9 2 99".into()), "refused 1 0000");
    assert_eq!(call("complement 1 2 99".into()), "refused 2 0000");
    let (many, one) = (vec![0x11; 32], vec![0x11]);
    assert_eq!(short("union", 1, 0, &many, &one), "refused 10");
    assert_eq!(short("union", 1, 31, &many, &[]), "refused 11");
    assert_eq!(short("union", 1, 32, &many, &[]), "gives 32");
    assert_eq!(short("intersection", 1, 0, &many, &[0x11, 0x11]), "refused 10");
}

#[test]
fn questions_1_then_set_then_12_then_13() {
    assert_eq!(member(0, &[0x99], &[9_999_999]), "refused 1");
    assert_eq!(member(1, &[0x99], &[9_999_999]), "refused 2");
    assert_eq!(member(1, &[], &[1_048_577]), "refused 12");
    assert_eq!(member(1, &[], &[0, 1]), "refused 12");
    assert_eq!(search(0, &[0x99], 0, &[5], &[4]), "refused 1");
    assert_eq!(search(1, &[0x99], 0, &[5], &[4]), "refused 2");
    assert_eq!(search(1, &[], 0, &[5], &[4]), "refused 13");
    assert_eq!(search(1, &[], 0, &[0, -1], &[0, 0]), "refused 12");
    assert_eq!(search(1, &[], 0, &[0], &[0, 1]), "refused 12");
    assert_eq!(search(1, &[], 0, &[0], &[1_048_577]), "refused 12");
    assert_eq!(search(1, &[], 0, &[-1_048_577], &[0]), "refused 12");
    assert_eq!(search(1, &[], 0, &[4], &[5]), "refused 13");
    assert_eq!(search(1, &[], 1_000_001, &[4], &[5]), "refused 13");
}

#[test]
fn tables_are_zero_after_a_refusal_and_past_the_result() {
    let a = a();
    assert_eq!(a.len(), 75);
    let short_table = call(format!("union 1 74 {} -", hex(&a)));
    assert_eq!(short_table, format!("refused 11 {}", "00".repeat(74)));
    let exact = call(format!("union 1 75 {} -", hex(&a)));
    assert_eq!(exact, format!("gives 75 {}", hex(&a)));
    let long_table = call(format!("union 1 80 {} -", hex(&a)));
    assert_eq!(long_table, format!("gives 75 {}{}", hex(&a), "00".repeat(5)));
    assert_eq!(call("union 1 0 - -".into()), "gives 0 -");
    assert_eq!(call("union 1 0 11 -".into()), "refused 11 -");
}

#[test]
fn ill_formed_lines() {
    for line in [
        "", " ", "member", "member ", "check 1", "check 1 ", "check 1  -", "check 1 - ",
        " check 1 -", "check 256 -", "check -1 -", "check +1 -", "check 1 1", "check 1 1G",
        "check 1 1A", "check 1 - -", "part 1 - -1", "part 1 - ", "test 1 11",
        "search 1 - 4294967296 0 0 0 0 0 0 0 0 0 0 0 0 0 0 0 0", "unite 1 0 - -",
        "count 1 - 4294967296 0 0 0 0 0 0 0 0 0 0 0 0 0 0 0 0", "count 1 - 9 1 0 0 0 0 0 0 0 0 0 0 0 0 0 0 0 0",
        "counts 1 - 9 0 0 0 0 0 0 0 0 0 0 0 0 0 0 0 0", "counts 1 - 9 -1 0 0 0 0 0 0 0 0 0 0 0 0 0 0 0 0",
        "member 1 - 0 0 0 0 0 0 0", "member 1 - 0 0 0 0 0 0 0 0 0",
        "member 1 - 2147483648 0 0 0 0 0 0 0", "member 1 - - 0 0 0 0 0 0 0",
        "member 1 - --1 0 0 0 0 0 0 0", "union 1 99999999999999999999 - -",
        "union 1 -1 - -", "complement 1 1 11 11", "check 1 é", "check\t1 -",
        "greatest 1 - 1 0 0 0 0 0 0 0 0 0 0 0 0 0 0 0 0", "least 1 - 1 0 0 0 0 0 0 0 0 0 0 0 0 0 0 0 0 0 0",
        "greatest 1 - -1 0 0 0 0 0 0 0 0 0 0 0 0 0 0 0 0 0", "least 1 - 1 2147483648 0 0 0 0 0 0 0 0 0 0 0 0 0 0 0 0",
        "greatest 1 - 1 0 0 0 0 0 0 0 0 0 0 0 0 0 0 0 0 -2147483649", "most 1 - 1 0 0 0 0 0 0 0 0 0 0 0 0 0 0 0 0 0",
        "range 1 0 - 9 0 0 0 0 0 0 0 0 0 0 0 0 0 0 0 0", "range 1 0 - 9 9 0 0 0 0 0 0 0 0 0 0 0 0 0 0 0",
        "range 1 -1 - 9 9 0 0 0 0 0 0 0 0 0 0 0 0 0 0 0 0", "range 1 0 - 9 -9 0 0 0 0 0 0 0 0 0 0 0 0 0 0 0 0",
        "range 1 0 - 9 4294967296 0 0 0 0 0 0 0 0 0 0 0 0 0 0 0 0", "range 1 - 9 9 0 0 0 0 0 0 0 0 0 0 0 0 0 0 0 0",
        "fleet 1", "fleet 1 - ", "fleet 1 -  0", "fleet 1 - 0 ", "fleet 1 - 2147483648", "fleet 1 - 0 1A",
    ] {
        assert_eq!(call(line.to_string()), "bad line", "{line:?}");
    }
}
