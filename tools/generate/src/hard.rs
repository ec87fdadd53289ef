//! The stored basic sets that need about 200 pivots, changes of them, and the same pivots over larger numbers.

use crate::model::{encode, Basic, Division, Rule};
use crate::rng::Rng;
use second::test::test;
use second::{parse, Answer};

const TEXT: &str = include_str!("../data/hard-sets.txt");

/// The places of `values` from 1 on, the rest 0.
fn places(values: &[i64]) -> [i16; 8] {
    let mut out = [0; 8];
    for (place, &v) in out.iter_mut().zip(values) {
        *place = v as i16;
    }
    out
}

/// Reads listing lines; a heading `# axes N ..` opens a basic set.
pub fn stored() -> Vec<(usize, Basic)> {
    let mut out: Vec<(usize, Basic)> = Vec::new();
    for line in TEXT.lines() {
        let words: Vec<&str> = line.split_whitespace().collect();
        if let ["#", "axes", n, ..] = words[..] {
            out.push((n.parse().expect("a number of axes"), Basic::default()));
            continue;
        }
        let Some((n, basic)) = out.last_mut() else { continue };
        let v: Vec<i64> = words[1..].iter().map(|w| w.parse().expect("a number")).collect();
        match words[0] {
            "div" => basic.divisions.push(Division { d: v[0] as u16, c: v[1] as i32, axes: places(&v[2..]) }),
            word => basic.rules.push(Rule {
                equality: word == "eq",
                number: 0,
                constant: v[0] as i32,
                axes: places(&v[1..=*n]),
                divisions: places(&v[*n + 1..]),
            }),
        }
    }
    out
}

/// One small change; many keep the number of pivots near 200.
fn change(rng: &mut Rng, n: usize, basic: &mut Basic) {
    let i = rng.below(basic.rules.len());
    match rng.below(10) {
        0..=4 => basic.rules[i].constant += rng.range(-3, 3) as i32,
        5 => basic.rules[i].axes[rng.below(n)] += rng.range(-1, 1) as i16,
        6 => basic.rules[i].divisions[rng.below(basic.divisions.len())] += rng.range(-1, 1) as i16,
        7 => basic.rules.swap(i, (i + 1) % 20),
        8 if basic.rules.len() > 25 => drop(basic.rules.remove(i)),
        _ => {
            let mut rule = basic.rules[i];
            rule.constant = rng.range(-60, 60) as i32;
            rule.axes[rng.below(n)] = rng.range(-4, 4) as i16;
            basic.rules.push(rule);
        }
    }
}

/// A stored hard set, as it is or with up to three changes, and its number of axes.
pub fn near(rng: &mut Rng) -> (usize, Basic) {
    let stored = stored();
    let (n, mut basic) = stored[rng.below(stored.len())].clone();
    for _ in 0..rng.below(4) {
        change(rng, n, &mut basic);
    }
    (n, basic)
}

/// The stored set that has a point, mostly changed into others that have one, its number of axes, and how many pivots
/// its test makes: with another constant of a late rule they are a few less.
pub fn with_point(rng: &mut Rng) -> (usize, Basic, u32) {
    let (n, given) = stored().swap_remove(0);
    for _ in 0..4 {
        let mut basic = given.clone();
        if rng.chance(60) {
            basic.rules[17 + rng.below(8)].constant += rng.range(-3, 3) as i32;
        } else {
            (0..rng.below(3)).for_each(|_| change(rng, n, &mut basic));
        }
        let set = parse(n as u8, &encode(std::slice::from_ref(&basic))).expect("a good set");
        let outcome = test(n, &set.basics[0]);
        if outcome.answer == Answer::Point {
            return (n, basic, outcome.pivots);
        }
    }
    (n, given, 199)
}

/// A coefficient times a factor; nothing where it would leave its range.
fn scaled(coefficient: i16, factor: i32) -> Option<i16> {
    let product = i32::from(coefficient).checked_mul(factor)?;
    i16::try_from(product).ok().filter(|&k| k != i16::MIN)
}

/// The same pivots over larger numbers: each constant times k, each divisor d put up to k(d - 1) + 1, the coefficients
/// of its division times the quotient of the two, which is a whole number where d divides k - 1. So the constants of
/// the tableau are k times the old ones, those of the bounds too, and its columns positive multiples: every sign stays,
/// and with it every choice. Nothing where a number would leave its range.
pub fn spread(basic: &Basic, k: i32) -> Option<Basic> {
    let mut out = basic.clone();
    let mut factors = [1; 8];
    for (division, factor) in out.divisions.iter_mut().zip(&mut factors) {
        let d = i32::from(division.d);
        let larger = k.checked_mul(d - 1)?.checked_add(1)?;
        *factor = larger / d;
        division.d = u16::try_from(larger).ok().filter(|&d| d <= 32_767)?;
        division.c = division.c.checked_mul(k).filter(|c| c.unsigned_abs() <= 1_000_000_000)?;
    }
    for rule in &mut out.rules {
        rule.constant = rule.constant.checked_mul(k).filter(|&c| !rule.equality || c != i32::MIN)?;
        for (coefficient, factor) in rule.divisions.iter_mut().zip(factors) {
            *coefficient = scaled(*coefficient, factor)?;
        }
    }
    Some(out)
}
