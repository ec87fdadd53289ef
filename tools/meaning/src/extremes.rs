//! Greatest and least over small basic sets against their vertices.

use crate::cases::{meaning, verdict, Check, Verdict};
use crate::fractions::{rows, Row};
use crate::sets::Basic;
use crate::vertices::{choices, greatest, Most};
use generate::corners::{corner, slope};
use generate::model::{self, encode};
use generate::numbers::numbered;
use generate::rng::Rng;
use generate::sets::World;
use generate::wider;
use hexscript::tokens::hex;

/// Axes and divisions together.
const MOST_VARIABLES: usize = 4;
/// How many sets of sides may be looked at for a vertex.
const MOST_CHOICES: usize = 4_000;
/// Document 000's bound for 128 bits.
const BOUND: i128 = 9_223_372_036_854_775_807;
const PIVOTS: usize = 200;

/// Basic sets of small numbers, corners in which many rules meet, slopes, and larger numbers.
fn any_set(rng: &mut Rng) -> (usize, model::Set) {
    let n = 1 + rng.below(3);
    let world = World::with_axes(rng, n);
    let alone = |(n, basic): (usize, model::Basic)| (n, vec![basic]);
    match rng.below(12) {
        0..=2 => (n, [world.small(rng), vec![world.boxed(rng)]].concat()),
        3 | 4 => (n, world.small(rng)),
        5 => (n, world.slots(rng)),
        6..=8 => alone(corner(rng)),
        9 => {
            let (n, basic, _) = slope(rng);
            alone((n, basic))
        }
        10 => alone(wider::quick(rng)),
        _ => alone((n, world.wide(rng))),
    }
}

/// The sides of a basic set and of the fence about it.
fn sides(n: usize, basic: &Basic) -> (usize, usize) {
    let variables = n + basic.divisions.len();
    let (inequalities, equalities) = rows(n, basic);
    (variables, inequalities.len() + equalities.len() + 2 * variables)
}

fn is_small(n: usize, basic: &Basic) -> bool {
    let (variables, sides) = sides(n, basic);
    variables <= MOST_VARIABLES && choices(sides, variables) <= MOST_CHOICES
}

/// Small coefficients, one place, none, or large ones.
fn any_expression(rng: &mut Rng, variables: usize) -> Row {
    let mut row: Row = vec![0; 1 + variables];
    row[0] = i128::from(rng.pick(&[0, 0, 1, -7, 2_147_483_647, -2_147_483_648]));
    let size = rng.pick(&[0, 1, 3, 3, 3, 32_767]);
    row[1..].fill_with(|| i128::from(rng.range(-size, size)));
    if size == 0 {
        row[1 + rng.below(variables)] = i128::from(rng.pick(&[0, 1, -1]));
    }
    row
}

/// Every number of a tableau is at most a determinant of its rows, one for each variable and one more: by Hadamard's
/// inequality at most the product of their lengths, which sums of sizes are not below.
fn may_be_wide(n: usize, basic: &Basic, expression: &Row) -> bool {
    let (mut all, equalities) = rows(n, basic);
    all.extend(equalities);
    all.push(expression.clone());
    let mut lengths: Vec<i128> = all.iter().map(|row| row.iter().map(|number| number.abs()).sum()).collect();
    lengths.sort_unstable_by(|a, b| b.cmp(a));
    let product = lengths.iter().take(expression.len()).try_fold(1i128, |product, &l| product.checked_mul(l.max(1)));
    product.is_none_or(|product| product > BOUND)
}

/// No choice of columns comes back in either half (document 02, request 14).
fn may_be_long(n: usize, basic: &Basic) -> bool {
    let (variables, sides) = sides(n, basic);
    2 * choices(sides - variables, variables) > PIVOTS
}

fn words(most: Most, least: bool) -> String {
    match most {
        Most::Empty => "empty".to_string(),
        Most::Unbounded => "unbounded".to_string(),
        Most::Value(numerator, denominator) => {
            format!("value {} {denominator}", if least { -numerator } else { numerator })
        }
    }
}

/// The answer of the vertices, if their numbers have room, decides; wide and long are allowed where they can be.
fn judge(answer: &str, expected: Option<&str>, wide: bool, long: bool) -> Verdict {
    match (answer, expected) {
        ("wide", _) if wide => Verdict::Untold,
        ("long", _) if long => Verdict::Untold,
        (_, None) => Verdict::Untold,
        (_, Some(expected)) => verdict(answer == expected, || format!("should be {expected}")),
    }
}

fn line(kind: &str, n: usize, set: &model::Set, k: usize, expression: &Row) -> String {
    let mut numbers = [0; 17];
    numbers[0] = expression[0];
    numbers[1..=n].copy_from_slice(&expression[1..=n]);
    numbers[9..9 + expression.len() - 1 - n].copy_from_slice(&expression[1 + n..]);
    format!("{kind} {n} {} {k} {}", hex(&encode(set)), numbers.map(|number| number.to_string()).join(" "))
}

/// Check number `index` of a seed: one basic set of a set, small enough, or seldom one that is not there.
pub fn check(seed: u64, index: u64) -> Check {
    let rng = &mut Rng::of(seed ^ 0xE47, index);
    let (n, set) = loop {
        let (n, set) = any_set(rng);
        if meaning(&set).iter().all(|basic| is_small(n, basic)) {
            break (n, numbered(&set, rng));
        }
    };
    let least = rng.chance(50);
    let kind = if least { "least" } else { "greatest" };
    let mut read = meaning(&set);
    if read.is_empty() || rng.chance(3) {
        let k = rng.pick(&[0, read.len() + 1]);
        let call = line(kind, n, &set, k, &vec![1; 1 + n]);
        return Check { call, judge: Box::new(|answer| judge(answer, Some("empty"), false, false)) };
    }
    let k = rng.below(read.len());
    let basic = read.swap_remove(k);
    let expression = any_expression(rng, n + basic.divisions.len());
    let towards = if least { expression.iter().map(|number| -number).collect() } else { expression.clone() };
    let expected = greatest(n, &basic, &towards).map(|most| words(most, least));
    let (wide, long) = (may_be_wide(n, &basic, &expression), may_be_long(n, &basic));
    let call = line(kind, n, &set, k + 1, &expression);
    Check { call, judge: Box::new(move |answer| judge(answer, expected.as_deref(), wide, long)) }
}
