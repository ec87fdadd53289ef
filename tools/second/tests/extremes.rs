//! Request 11, "Greatest and least": both halves of the search for the value.

mod common;
use common::*;
use second::extreme::{Aim, Extreme, ValueSearch};
use second::listing::read_basic;
use second::{parse, BasicSet, Kind, Rule};

fn greatest(n: u8, bytes: &[u8], constant: i32, axes: &[i32]) -> String {
    extreme("greatest", n, bytes, 1, (constant, axes, &[]))
}

fn least(n: u8, bytes: &[u8], constant: i32, axes: &[i32]) -> String {
    extreme("least", n, bytes, 1, (constant, axes, &[]))
}

/// The answer, the pivots of the first half and of the second one, and the pivots before the carry.
type Course = (Extreme, u32, u32, Option<u32>);

fn inequality(constant: i64, axes: &[i64]) -> Rule {
    let mut rule = Rule { kind: Kind::Inequality, number: 0, constant, axes: [0; 8], divs: [0; 8] };
    rule.axes[..axes.len()].copy_from_slice(axes);
    rule
}

fn course_of(n: usize, basic: &BasicSet, aim: Aim, axes: &[i64]) -> Course {
    let mut search = ValueSearch::new(n, basic, aim, &inequality(0, axes));
    let mut answer = search.first_half();
    let first = search.steps.pivots;
    while answer.is_none() {
        answer = search.turn();
    }
    (answer.expect("an answer"), first, search.steps.pivots - first, search.steps.carried)
}

fn course(n: usize, lines: &str, aim: Aim, axes: &[i64]) -> Course {
    let set = parse(n as u8, &set(n, lines)).expect("a good set");
    course_of(n, &set.basics[0], aim, axes)
}

#[test]
fn values_in_lowest_terms_with_a_positive_denominator() {
    assert_eq!(greatest(1, &a(), 0, &[1]), "value 2186 1");
    assert_eq!(least(1, &a(), 7, &[-3]), "value -6551 1");
    let third = set(1, "basic; eq 5 3");
    assert_eq!(greatest(1, &third, 0, &[1]), "value -5 3");
    assert_eq!(least(1, &third, 0, &[-6]), "value 10 1");
    assert_eq!(least(1, &third, 5, &[3]), "value 0 1");
    // (2 + r + s) / 4 has no common divisor.
    let fourth = set(2, "basic; ge -2 4 -1; ge 0 0 1");
    assert_eq!(least(2, &fourth, 0, &[1]), "value 1 2");
    // Rules are not tightened.
    assert_eq!(least(1, &set(1, "basic; ge -1 2"), 0, &[1]), "value 1 2");
}

#[test]
fn divisions_lie_between_their_bounds() {
    let five = set(1, "basic; div 2 0 1; eq -5 1 0");
    assert_eq!(extreme("greatest", 1, &five, 1, (0, &[], &[1])), "value 5 2");
    assert_eq!(extreme("least", 1, &five, 1, (0, &[], &[1])), "value 2 1");
    let any = set(1, "basic; div 2 0 1");
    assert_eq!(extreme("greatest", 1, &any, 1, (0, &[1], &[-2])), "value 1 1");
    assert_eq!(extreme("greatest", 1, &any, 1, (0, &[1], &[-1])), "unbounded");
}

#[test]
fn no_such_basic_set_is_empty_whatever_is_asked() {
    for k in [0, 2, 33, u64::MAX] {
        for expression in [(0, &[1][..], &[][..]), (0, &[1, 1], &[]), (0, &[32_768], &[]), (0, &[], &[0, i32::MIN])] {
            assert_eq!(extreme("greatest", 1, &a(), k, expression), "empty");
            assert_eq!(extreme("least", 1, &[], k, expression), "empty");
        }
    }
}

/// 1, the set's own, 7, 8.
#[test]
fn the_order_of_refusals() {
    let bad = (0, &[32_768, 1][..], &[1][..]);
    assert_eq!(extreme("greatest", 0, &[0x99], 0, bad), "refused 1");
    assert_eq!(extreme("greatest", 1, &[0x99], 0, bad), "refused 2");
    assert_eq!(extreme("greatest", 1, &a(), 1, bad), "refused 7");
    assert_eq!(extreme("least", 1, &a(), 1, (0, &[0, 0, 0, 0, 0, 0, 0, -32_768], &[])), "refused 7");
    assert_eq!(extreme("least", 1, &a(), 1, (0, &[0, 1], &[0, 0, 0, 0, 0, 0, 0, 65_536])), "refused 7");
    assert_eq!(extreme("least", 1, &a(), 1, (0, &[1, -32_767], &[])), "refused 8");
    assert_eq!(extreme("least", 1, &a(), 1, (0, &[1], &[1])), "refused 8");
    assert_eq!(greatest(1, &a(), i32::MIN, &[-32_767]), "value -2147483648 1");
}

#[test]
fn free_columns_go_either_way() {
    let every = set(1, "basic");
    for axes in [[1], [-1]] {
        assert_eq!(greatest(1, &every, 0, &axes), "unbounded");
        assert_eq!(least(1, &every, 0, &axes), "unbounded");
    }
    assert_eq!(least(2, &set(2, "basic; ge 0 -1 2; ge 4 1 0"), 0, &[0, 1]), "value -2 1");
    assert_eq!(greatest(2, &set(2, "basic; ge 0 1 -2; ge 4 -1 0"), 0, &[0, 1]), "value 2 1");
}

#[test]
fn equalities_stop_both_ways_and_never_enter() {
    for equality in ["eq 0 1 -1", "eq 0 -1 1"] {
        let set = set(2, &format!("basic; {equality}; ge 3 0 -1; ge 2 0 1"));
        assert_eq!(greatest(2, &set, 0, &[1]), "value 3 1");
        assert_eq!(least(2, &set, 0, &[1]), "value -2 1");
        assert_eq!(greatest(2, &set, 0, &[1, -1]), "value 0 1");
    }
    let five = set(1, "basic; eq -5 1");
    assert_eq!((greatest(1, &five, 0, &[3]), least(1, &five, 0, &[3])), ("value 15 1".into(), "value 15 1".into()));
}

/// Klee and Minty's cube has 2^n corners, and the lowest-numbered columns lead through all of them.
#[test]
fn every_corner_of_a_cube() {
    let place = |axis: usize, before: i32, own: i32| {
        let mut numbers = [0; 8];
        numbers[axis] = own;
        if axis > 0 {
            numbers[axis - 1] = before;
        }
        numbers
    };
    for n in 1..=8 {
        let line = |constant: i32, numbers: [i32; 8]| {
            let words: Vec<String> = numbers[..n].iter().map(i32::to_string).collect();
            format!("; ge {constant} {}", words.join(" "))
        };
        let own = |axis: usize| if axis == 0 { 1 } else { 3 };
        let sides = |axis: usize| {
            line(-1, place(axis, -1, own(axis))) + &line(1000 * own(axis), place(axis, -1, -own(axis)))
        };
        let lines = "basic".to_string() + &(0..n).map(sides).collect::<String>();
        let mut last = [0; 8];
        last[n - 1] = 1;
        let (answer, first, second, _) = course(n, &lines, Aim::Greatest, &last);
        let turns = (1 << n) - 1;
        assert_eq!((first, second), (n as u32, turns.min(200 - n as u32)));
        assert_eq!(answer == Extreme::Long, n == 8);
        assert_eq!(course(n, &lines, Aim::Least, &last).2, 0);
    }
}

/// x ≥ 2^31, y ≥ 2^14·x, z ≥ 2^14·y: z is at 2^59, and 16·z at 2^63.
const TOWER: &str = "basic; ge -2147483648 1 0 0 0; ge 0 -16384 1 0 0; ge 0 0 -16384 1 0";
const AT_63: Extreme = Extreme::Value(1 << 63, 1);

#[test]
fn the_expression_is_under_the_number_test_in_both_halves() {
    assert_eq!(course(4, TOWER, Aim::Least, &[0, 0, 16]), (AT_63, 3, 0, Some(0)));
    let first = format!("{TOWER}; ge -1 0 0 0 1");
    assert_eq!(course(4, &first, Aim::Least, &[0, 0, 16]), (AT_63, 4, 0, Some(0)));
    assert_eq!(course(4, &first, Aim::Least, &[0, 0, 16, 1]), (Extreme::Wide, 3, 0, Some(0)));
    let second = format!("{TOWER}; ge 5 0 0 0 -1");
    assert_eq!(course(4, &second, Aim::Greatest, &[0, 0, -16, 1]), (Extreme::Wide, 3, 0, Some(0)));
    assert_eq!(course(4, &second, Aim::Greatest, &[0, 0, 0, 1]), (Extreme::Value(5, 1), 3, 1, Some(0)));
}

#[test]
fn touched_rows_decide_and_unbounded_comes_first() {
    let with = |rules: &str| course(4, &format!("{TOWER}; {rules}"), Aim::Greatest, &[0, 0, 0, 1]).0;
    assert_eq!(with("ge 0 0 0 16 -1; ge 5 0 0 0 -1"), Extreme::Wide);
    assert_eq!(with("ge -1 0 0 16 -1; ge 5 0 0 0 -1"), Extreme::Value(5, 1));
    assert_eq!(with("ge 0 0 0 16 1; ge 5 0 0 0 -1"), Extreme::Wide);
    assert_eq!(with("ge 0 0 0 16 0; ge 5 0 0 0 -1"), Extreme::Value(5, 1));
    assert_eq!(with("ge 0 0 0 16 1"), Extreme::Unbounded);
    assert_eq!(with("ge 0 0 0 16 -1"), Extreme::Wide);
}

#[test]
fn the_second_half_carries_too() {
    let held = "basic; ge 1 -32767 32766 0 0; ge 1 0 -32767 32766 0; ge 1 0 0 -32767 32766; ge 0 0 0 0 -1";
    let value = Extreme::Value(3_220_930_567, 32_767 * 32_767 * 32_767);
    assert_eq!(course(4, held, Aim::Greatest, &[1]), (value, 0, 4, Some(3)));
}

/// The hard set that takes 199 pivots, with rules on a further axis.
#[test]
fn the_pivots_of_both_halves_are_200_together() {
    let block = include_str!("hard-sets.txt").split("# axes ").nth(1).expect("a set");
    let (_, lines) = block.split_once('\n').expect("a heading");
    let hard = read_basic(4, lines).expect("listing lines");
    let with = |rules: &[(i64, i64)], aim: Aim| {
        let mut basic = hard.clone();
        basic.rules.extend(rules.iter().map(|&(constant, k)| inequality(constant, &[0, 0, 0, 0, k])));
        let (answer, first, second, _) = course_of(5, &basic, aim, &[0, 0, 0, 0, 1]);
        (answer, first, second)
    };
    let (low, high) = ((-1, 1), (3, -1));
    assert_eq!(with(&[high], Aim::Greatest), (Extreme::Value(3, 1), 199, 1));
    assert_eq!(with(&[low, high], Aim::Greatest), (Extreme::Long, 200, 0));
    assert_eq!(with(&[low, high], Aim::Least), (Extreme::Value(1, 1), 200, 0));
    assert_eq!(with(&[low], Aim::Greatest), (Extreme::Unbounded, 200, 0));
    assert_eq!(with(&[low, (-2, 1)], Aim::Least), (Extreme::Long, 200, 0));
}
