//! Document 02, request 9, on generated basic sets: what a carry is the same as, and what is generated to be carried.

use generate::model::{encode, Basic};
use generate::{corners, hard, rng::Rng, sets::World, wider};
use second::extreme::{Aim, ValueSearch};
use second::test::{test, test_bounded, Steps, BOUND_128, BOUND_64, PIVOT_LIMIT};
use second::{parse, Answer, BasicSet, Kind, Outcome, Rule};
use std::collections::BTreeSet;

fn read(n: usize, basic: &Basic) -> BasicSet {
    parse(n as u8, &encode(std::slice::from_ref(basic))).expect("a good set").basics.remove(0)
}

/// The test at one width alone: what is wide there is wide.
fn test_at(n: usize, basic: &BasicSet, bound: i128) -> Outcome {
    test_bounded(n, basic, Some(PIVOT_LIMIT), [bound; 2])
}

/// What a test comes to, whatever the size of its numbers.
fn made(outcome: Outcome) -> (Answer, u32, u32) {
    (outcome.answer, outcome.pivots, outcome.built)
}

fn any(rng: &mut Rng) -> (usize, Basic) {
    let world = World::new(rng);
    match rng.below(20) {
        0 => wider::slow(rng),
        1..=4 => (world.n, world.wide(rng)),
        5..=8 => (world.n, world.dense(rng)),
        _ => wider::quick(rng),
    }
}

/// "go on from that very pivot": starting over at 128 bits would come to the same answer by the same pivots, and what
/// is judged without wide at 64 bits keeps its judgement.
#[test]
fn a_carried_test_is_one_test_at_the_larger_bound() {
    let rng = &mut Rng::of(11, 0);
    let mut answers = BTreeSet::new();
    for _ in 0..4_000 {
        let (n, basic) = any(rng);
        let basic = read(n, &basic);
        let (whole, at_64, at_128) = (test(n, &basic), test_at(n, &basic, BOUND_64), test_at(n, &basic, BOUND_128));
        assert_eq!(made(whole), made(at_128));
        if at_64.answer == Answer::Wide {
            assert_eq!(whole.carried, Some(at_64.pivots));
            answers.insert(whole.answer.word());
        } else {
            assert_eq!(whole, at_64);
        }
    }
    assert_eq!(answers.len(), 4, "{answers:?}");
}

/// The same of the search for a value (request 11), in either half.
#[test]
fn a_carried_value_is_one_at_the_larger_bound() {
    let rng = &mut Rng::of(13, 0);
    let mut carried = BTreeSet::new();
    for _ in 0..4_000 {
        let (n, basic) = if rng.chance(50) { any(rng) } else { corners::steep_corner(rng) };
        let basic = read(n, &basic);
        let axes = std::array::from_fn(|axis| if axis < n { rng.range(-9, 9) } else { 0 });
        let expression = Rule { kind: Kind::Inequality, number: 0, constant: 0, axes, divs: [0; 8] };
        let mut whole = ValueSearch::new(n, &basic, Aim::Greatest, &expression);
        let mut at_128 = ValueSearch::new(n, &basic, Aim::Greatest, &expression);
        at_128.steps = Steps::new(at_128.steps.tableau, Some(PIVOT_LIMIT), [BOUND_128; 2]);
        let mut answers = (whole.first_half(), at_128.first_half());
        let first = whole.steps.pivots;
        while answers == (None, None) {
            answers = (whole.turn(), at_128.turn());
        }
        assert_eq!((answers.0, whole.steps.pivots), (answers.1, at_128.steps.pivots));
        carried.extend(whole.steps.carried.map(|pivots| pivots < first));
    }
    assert_eq!(carried.len(), 2);
}

/// The headings say what the test would answer without the limit of 200.
#[test]
fn hard_sets_over_larger_numbers_make_the_same_pivots() {
    for (n, basic) in hard::stored() {
        let outcome = |basic: &Basic| test(n, &read(n, basic));
        let given = outcome(&basic);
        assert_eq!(given.carried, None);
        for k in [7, 229, 1_147, 16_381] {
            let larger = outcome(&hard::spread(&basic, k).expect("numbers in their ranges"));
            assert_eq!(made(larger), made(given));
            assert!(k < 16_381 || larger.carried.is_some());
        }
        // Coefficients and divisors have no room for more.
        assert!(hard::spread(&basic, 16_387).is_none());
    }
}

#[test]
fn the_sets_of_wider_numbers_are_good() {
    let rng = &mut Rng::of(12, 0);
    for round in 0..2_000 {
        for (n, basic) in [wider::quick(rng), wider::slow(rng)] {
            read(n, &basic);
        }
        let kind = ["intersection", "difference", "complement"][round % 3];
        let (n, first, second) = wider::operands(rng, kind);
        for set in [first, second] {
            assert!(parse(n as u8, &encode(&set)).is_ok());
        }
    }
}
