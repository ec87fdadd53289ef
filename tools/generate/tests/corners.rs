//! The basic sets of greatest and least are good, and do what they are made for.

use generate::corners::{circle, corner, cube, padded, peak, slope, steep_corner, Expression};
use generate::model::{encode, Basic};
use generate::rng::Rng;
use hexscript::tokens::hex;
use std::collections::BTreeMap;

fn answer(n: usize, basic: &Basic, expression: &Expression) -> String {
    let Expression { constant, axes, divisions } = expression;
    let numbers: Vec<String> = axes.iter().chain(divisions).map(i32::to_string).collect();
    let set = hex(&encode(std::slice::from_ref(basic)));
    second::run_call(&format!("greatest {n} {set} 1 {constant} {}", numbers.join(" ")))
}

/// How often each answer comes, by its first word.
fn answers(count: usize, made: impl Fn(&mut Rng) -> (usize, Basic, Expression)) -> BTreeMap<String, usize> {
    let rng = &mut Rng::of(13, 0);
    let mut found = BTreeMap::new();
    for _ in 0..count {
        let (n, basic, expression) = made(rng);
        let answer = answer(n, &basic, &expression);
        *found.entry(answer.split(' ').next().unwrap_or("").to_string()).or_default() += 1;
    }
    found
}

fn words(found: &BTreeMap<String, usize>) -> Vec<&str> {
    found.keys().map(String::as_str).collect()
}

/// The point in which the rules meet is one.
#[test]
fn corners_have_a_point() {
    let rng = &mut Rng::of(14, 0);
    for _ in 0..500 {
        for (n, basic) in [corner(rng), steep_corner(rng)] {
            assert!(!["empty", "long"].contains(&answer(n, &basic, &Expression::axis(0)).as_str()));
        }
    }
}

/// No circle is gone round: the textbooks' values.
#[test]
fn circles_end() {
    let rng = &mut Rng::of(15, 0);
    let mut found = BTreeMap::new();
    for _ in 0..2_000 {
        let (n, basic, expression) = circle(rng);
        *found.entry(answer(n, &basic, &expression)).or_insert(0) += 1;
    }
    assert_eq!(words(&found), ["unbounded", "value 1 1", "value 2 1", "value 20 1", "value 5 1"]);
}

#[test]
fn cubes_of_eight_axes_are_long() {
    assert_eq!(words(&answers(300, cube)), ["long", "value"]);
}

#[test]
fn slopes_go_beyond_their_bounds() {
    assert_eq!(words(&answers(500, slope)), ["unbounded", "value", "wide"]);
    assert_eq!(words(&answers(500, peak)), ["empty", "unbounded", "value", "wide"]);
}

#[test]
fn padded_sets_end_at_about_200_pivots() {
    assert_eq!(words(&answers(200, padded)), ["long", "unbounded", "value", "wide"]);
}
