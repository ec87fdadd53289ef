//! Numbers of rules: how many rules have one, that nothing else changes, and how sets with number 0 are told.

use generate::histogram::Counts;
use generate::model::encode;
use generate::numbers::{all_numbered, numbered, of_operation, of_set, plain};
use generate::rng::Rng;
use generate::sets::World;
use hexscript::tokens::{bytes, Names};

#[test]
fn about_70_of_100_rules_have_no_number() {
    let (mut rules, mut none, mut first, mut last) = (0, 0, 0, 0);
    for index in 0..3_000 {
        let rng = &mut Rng::of(31, index);
        let given = World::new(rng).any(rng);
        let set = numbered(&given, rng);
        assert!(plain(&set) == given && numbered(&given, rng) == set);
        for rule in set.iter().flat_map(|basic| &basic.rules) {
            rules += 1;
            none += usize::from(rule.number == 0);
            first += usize::from(rule.number == 1);
            last += usize::from(rule.number == u16::MAX);
        }
        let all = all_numbered(&given, rng);
        assert!(plain(&all) == given && all.iter().flat_map(|basic| &basic.rules).all(|rule| rule.number != 0));
    }
    assert!((65..=75).contains(&(100 * none / rules)), "{none} of {rules}");
    assert!(first > rules / 20 && last > rules / 20, "{first} and {last} of {rules}");
}

/// Equal sets of one script have numbers of their own.
#[test]
fn two_sets_in_a_row_are_numbered_apart() {
    let rng = &mut Rng::of(32, 0);
    let world = World::new(rng);
    let basic = std::iter::repeat_with(|| world.boxed(rng)).find(|basic| basic.rules.len() > 1).expect("two rules");
    let (one, two) = (vec![basic.clone()], vec![basic.clone(), basic]);
    assert!(encode(&all_numbered(&one, rng)) != encode(&all_numbered(&two, rng)[..1]));
}

fn reached(tokens: &str) -> Vec<String> {
    let mut counts = Counts::new();
    of_set(1, &bytes(tokens, &Names::new()).expect("good tokens"), &mut counts);
    counts.into_keys().collect()
}

#[test]
fn sets_are_told_by_their_numbers() {
    let rule = "i32:0 i16:1 zeros:30";
    assert_eq!(reached(&format!("11 14 {rule}")), [""; 0]);
    let three = format!("11 16 u16:1 {rule} 17 u16:65535 {rule} 17 u16:2 {rule}");
    assert_eq!(reached(&three), ["another number", "number 1", "number 65,535"]);
    assert_eq!(reached(&format!("11 17 u16:0 {rule} 99")), ["17 alone"]);
    assert_eq!(reached("11 16 u16:0 i32:-2147483648 zeros:32"), ["17 before 7"]);
    assert_eq!(reached("11 17 u16:0 i32:0 i16:0,5 zeros:28 99"), ["17 before 8"]);
    assert_eq!(reached("11 17 u16:0 i32:0 zeros:31"), ["3 before 17"]);
    assert_eq!(reached(&format!("17 u16:0 {rule}")), ["4 before 17"]);
    assert_eq!(reached(&format!("11 48*(14 {rule}) 16 u16:0 {rule}")), ["9 before 17"]);
    // Another command is refused, or the number is not there yet.
    assert_eq!(reached(&format!("11 14 i32:0 i16:0,5 zeros:28 17 u16:0 {rule}")), [""; 0]);
    assert_eq!(reached("11 17 00"), [""; 0]);
    assert_eq!(reached(&format!("11 49*(14 {rule}) 16 u16:0 {rule}")), [""; 0]);
}

#[test]
fn operations_are_told_by_their_numbers() {
    let set = |tokens: &str| second::parse(1, &bytes(tokens, &Names::new()).expect("good tokens")).expect("a good set");
    let reached = |kind: &str, a: &second::Set, b: &second::Set, room: usize| {
        let mut counts = Counts::new();
        of_operation(kind, a, b, room, &mut counts);
        counts.into_keys().collect::<Vec<_>>()
    };
    let (none, plain) = (set(""), set("11 14 i32:0 i16:1 zeros:30"));
    let even = set("11 16 u16:7 i32:-4 i16:2 zeros:30");
    assert_eq!(reached("union", &plain, &plain, 99), [""; 0]);
    assert_eq!(reached("union", &even, &none, 40), ["numbers in a union", "numbers to the last byte"]);
    assert_eq!(reached("difference", &even, &none, 39), ["11 by the numbers alone", "numbers with no cutter"]);
    assert_eq!(reached("difference", &even, &none, 37), ["numbers with no cutter"]);
    let both = ["numbered opposites of an equality", "numbered rule tightened"];
    assert_eq!(reached("difference", &plain, &even, 999), both);
    assert_eq!(reached("complement", &even, &none, 999), both);
    assert_eq!(reached("intersection", &plain, &even, 999), ["numbered rule tightened"]);
    let by_half = set("11 12 u16:2 i32:0 i16:1 zeros:14 17 u16:9 i32:-3 zeros:16 i16:1 zeros:14");
    let by_third = set("11 12 u16:3 i32:0 i16:1 zeros:14");
    assert_eq!(reached("difference", &by_third, &by_half, 999), ["numbered opposite", "numbered rule moved"]);
}
