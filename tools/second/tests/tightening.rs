//! Request 3, "Half slots": what tightening makes of one rule, and where the
//! operations do it.

mod common;
use common::*;
use second::algebra::{opposites, tightened};
use second::calls::hex;
use second::listing::{list_basic, read_basic};
use second::BasicSet;

/// A basic set of one rule, which has coefficients for so many divisions.
fn one_rule(n: usize, divisions: usize, line: &str) -> BasicSet {
    let division = format!("div 2 0{}\n", " 0".repeat(n));
    let lines = division.repeat(divisions) + line;
    read_basic(n, &lines).expect("listing lines")
}

/// The tightened rule's line, or `void`.
fn tight(n: usize, divisions: usize, line: &str) -> String {
    let mut basic = one_rule(n, divisions, line);
    let Some(rule) = tightened(&basic.rules[0]) else {
        return "void".to_string();
    };
    basic.rules = vec![rule];
    let listing = list_basic(n, &basic);
    listing.lines().last().expect("the rule's line").to_string()
}

fn gives(name: &str, n: usize, first: &str, second: &str, want: &str) {
    let (first, second, want) = (set_hex(n, first), set_hex(n, second), set(n, want));
    let line = format!("{name} {n} {} {first} {second}", want.len());
    assert_eq!(call(line), format!("gives {} {}", want.len(), hex(&want)));
}

#[test]
fn an_inequalitys_constant_is_rounded_down() {
    let lines = [
        ("ge 0 2", "ge 0 1"),
        ("ge 1 2", "ge 0 1"),
        ("ge 2 2", "ge 1 1"),
        ("ge -1 2", "ge -1 1"),
        ("ge -2 2", "ge -1 1"),
        ("ge -3 2", "ge -2 1"),
        ("ge 1 -2", "ge 0 -1"),
        ("ge -1 -2", "ge -1 -1"),
        ("ge 8 -3", "ge 2 -1"),
        ("ge -7 3", "ge -3 1"),
        ("ge 32766 32767", "ge 0 1"),
        ("ge -1 -32767", "ge -1 -1"),
    ];
    for (given, want) in lines {
        assert_eq!(tight(1, 0, given), want, "{given}");
    }
}

#[test]
fn constants_at_the_ends_of_32_bits() {
    assert_eq!(tight(1, 0, "ge -2147483648 2"), "ge -1073741824 1");
    assert_eq!(tight(1, 0, "ge -2147483648 3"), "ge -715827883 1");
    assert_eq!(tight(1, 0, "ge 2147483647 2"), "ge 1073741823 1");
    assert_eq!(tight(1, 0, "ge -2147483648 -32767"), "ge -65539 -1");
    assert_eq!(tight(1, 0, "eq -2147483647 2"), "void");
    assert_eq!(tight(1, 0, "eq 2147483646 -2"), "eq 1073741823 -1");
}

#[test]
fn an_equality_is_divided_or_void() {
    let lines = [
        ("eq 6 3", "eq 2 1"),
        ("eq -6 3", "eq -2 1"),
        ("eq 0 5", "eq 0 1"),
        ("eq -18 -6", "eq -3 -1"),
        ("eq -1 2", "void"),
        ("eq 1 -2", "void"),
        ("eq 3 6", "void"),
        ("eq 7 1", "eq 7 1"),
    ];
    for (given, want) in lines {
        assert_eq!(tight(1, 0, given), want, "{given}");
    }
}

/// g is over 1 nowhere here: 0 where all coefficients are 0.
#[test]
fn rules_with_all_coefficients_0_remain() {
    for line in ["ge 0 0", "ge -6 0", "ge 6 0", "eq 0 0", "eq 5 0", "eq -4 0"] {
        assert_eq!(tight(1, 0, line), line);
    }
    assert_eq!(tight(2, 1, "eq 5 0 0 0"), "eq 5 0 0 0");
}

#[test]
fn g_is_over_axes_and_divisions() {
    assert_eq!(tight(2, 0, "ge 9 4 6"), "ge 4 2 3");
    assert_eq!(tight(2, 0, "ge 9 4 5"), "ge 9 4 5");
    assert_eq!(tight(1, 1, "ge 9 4 6"), "ge 4 2 3");
    assert_eq!(tight(1, 1, "ge 9 4 5"), "ge 9 4 5");
    assert_eq!(tight(1, 2, "ge 9 0 0 -4"), "ge 2 0 0 -1");
    assert_eq!(tight(1, 1, "eq -1 2 -4"), "void");
    assert_eq!(tight(1, 1, "eq -1 2 -3"), "eq -1 2 -3");
    // The last of the 16 places decides.
    let sixes = "6 ".repeat(15);
    let (ones, twos) = ("1 ".repeat(15), "2 ".repeat(15));
    assert_eq!(tight(8, 8, &format!("ge -1 {sixes}6")), format!("ge -1 {ones}1"));
    assert_eq!(tight(8, 8, &format!("ge -1 {sixes}9")), format!("ge -1 {twos}3"));
    assert_eq!(tight(8, 8, &format!("ge -1 {sixes}5")), format!("ge -1 {sixes}5"));
}

#[test]
fn the_constant_is_not_in_g() {
    assert_eq!(tight(1, 0, "ge 4 6"), "ge 0 1");
    assert_eq!(tight(1, 0, "ge 2 0"), "ge 2 0");
    assert_eq!(tight(1, 0, "ge 2 1"), "ge 2 1");
    // Divided by 2 it would be 2x + 1 = 0.
    assert_eq!(tight(1, 0, "eq 2 4"), "void");
}

/// So that pieces of an earlier cutter stay as they are.
#[test]
fn a_tightened_rule_stays_as_it_is() {
    for line in ["ge -7 6 9", "eq 12 6 -18", "ge 5 0 0", "ge -2147483648 4 6"] {
        let once = tight(2, 0, line);
        assert_eq!(tight(2, 0, &once), once);
    }
}

/// 6x − 8 = 0 is void and lies between 1 and 2. Divided first it would be
/// x − 2 = 0, whose opposites leave 2 out.
#[test]
fn a_void_rules_opposites_are_those_of_the_rule_as_given() {
    assert_eq!(tight(1, 0, "eq -8 6"), "void");
    let given = one_rule(1, 0, "eq -8 6");
    let tight: Vec<_> = opposites(&given.rules[0]).iter().map(tightened).collect();
    let want = ["ge -2 1", "ge 1 -1"].map(|line| one_rule(1, 0, line).rules.pop());
    assert_eq!(tight, want);
    gives("difference", 1, "basic", "basic; eq -8 6", "basic; ge -2 1; basic; ge 1 -1");
}

#[test]
fn both_sides_of_an_intersection_and_of_a_cut_are_tightened() {
    let both = "basic; ge -2 1; eq -3 1";
    gives("intersection", 1, "basic; ge -6 4", "basic; eq -18 6", both);
    gives(
        "difference",
        1,
        "basic; ge 3 2",
        "basic; ge -9 2; ge 31 -3",
        "basic; ge 1 1; ge 4 -1; basic; ge 1 1; ge -5 1; ge -11 1",
    );
}

#[test]
fn a_union_and_a_basic_set_without_cutters_are_written_as_given() {
    let (half, slack) = ("basic; ge 3 2; eq -1 2", "basic; ge 4 6");
    gives("union", 1, half, slack, &format!("{half}; {slack}"));
    gives("difference", 1, half, "", half);
}

#[test]
fn a_void_rule_by_its_place() {
    gives("intersection", 1, "basic; ge 0 1; eq -1 2; basic", "basic", "basic");
    gives("intersection", 1, "basic", "basic; eq -1 2; ge 0 1; basic", "basic");
    gives("difference", 1, "basic; eq -1 2", "basic; ge 0 1", "");
    // It joins, and x ≥ 5 is not looked at.
    let around = "basic; ge -1 1; basic; ge 0 -1";
    gives("difference", 1, "basic", "basic; eq -1 2; ge -5 1", around);
    // At (½, ½) both its candidates are dropped: it does not join, y ≥ 5 cuts.
    let middle = "basic; eq -1 1 1; eq 0 1 -1";
    let cut = format!("{middle}; ge 4 0 -1");
    gives("difference", 2, middle, "basic; eq -1 2 0; ge -5 0 1", &cut);
}

/// "First sets are tightened before joining, the rest after 10's join and
/// candidate limits."
#[test]
fn which_void_rule_spares_a_10() {
    let five = "basic; div 2 0 1; div 2 1 1; div 3 0 1; div 3 1 1; div 5 0 1";
    let four = "basic; div 7 0 1; div 7 1 1; div 7 2 1; div 7 3 1";
    let full = format!("basic; {}", times(47, "ge 0 1"));
    let answer = |name, first: String, second: String| {
        short(name, 1, 9000, &set(1, &first), &set(1, &second))
    };
    for name in ["intersection", "difference"] {
        let join = |first: &str, second: &str| {
            answer(name, format!("{five}; {first}"), format!("{four}; {second}"))
        };
        assert_eq!(join("eq -1 2 0 0 0 0 0", "ge 0 1 0 0 0 0"), "gives 0");
        assert_eq!(join("eq -2 2 0 0 0 0 0", "ge 0 1 0 0 0 0"), "refused 10");
        assert_eq!(join("ge 0 1 0 0 0 0 0", "eq -1 2 0 0 0 0"), "refused 10");
        let rules = |first: &str, second: &str| {
            answer(name, format!("{full}; {first}"), format!("basic; {second}"))
        };
        assert_eq!(rules("eq -1 2", "ge 0 1"), "gives 0");
        assert_eq!(rules("eq -2 2", "ge 0 1"), "refused 10");
        assert_eq!(rules("ge 0 1", "eq -1 2"), "refused 10");
    }
    // x ≥ 5 behind the rule that ends the cut would make a candidate of 49.
    let behind = |rule: &str| {
        answer("difference", full.clone(), format!("basic; {rule}; ge -5 1"))
    };
    assert_eq!(behind("eq -1 2"), format!("gives {}", 2 * (1 + 48 * 37)));
    assert_eq!(behind("eq -2 2"), "refused 10");
}
