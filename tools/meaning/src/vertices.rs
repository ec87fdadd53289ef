//! The greatest value of an expression over the points with fractions of a basic set, by enumeration of vertices
//! (document 02, "Greatest and least"): it shares nothing with the tableau. Each variable is kept between -M and M,
//! with M beyond every number, so that there are vertices wherever there are points, and the value is greatest at one
//! of them; a greatest value that grows with M is one without end.

use crate::fractions::{gcd, rows, Row};
use crate::sets::Basic;
use std::cmp::Ordering;

#[derive(Clone, Copy, Debug, PartialEq)]
pub enum Most {
    Empty,
    Unbounded,
    /// In lowest terms, the denominator positive.
    Value(i128, i128),
}

/// The constant, the part of it that is multiplied by M, then one coefficient a variable.
type Side = Vec<i128>;

/// The numerators of a point, constants and parts by M in turn, over one positive denominator.
struct Vertex {
    plain: Vec<i128>,
    by_m: Vec<i128>,
    denominator: i128,
}

fn side(row: &Row) -> Side {
    [&[row[0], 0], &row[1..]].concat()
}

/// M - v >= 0 and M + v >= 0 for each variable.
fn fence(variables: usize) -> Vec<Side> {
    let one = |v: usize, sign: i128| {
        let mut side = vec![0; 2 + variables];
        (side[1], side[2 + v]) = (1, sign);
        side
    };
    (0..variables).flat_map(|v| [one(v, -1), one(v, 1)]).collect()
}

/// constant + coefficients · values, both over the denominator.
fn sum(constant: i128, denominator: i128, coefficients: &[i128], values: &[i128]) -> Option<i128> {
    let start = constant.checked_mul(denominator)?;
    coefficients.iter().zip(values).try_fold(start, |sum, (&k, &v)| sum.checked_add(k.checked_mul(v)?))
}

impl Vertex {
    /// The value of a side at the vertex: the part by M and the constant, both over the denominator.
    fn value(&self, side: &Side) -> Option<(i128, i128)> {
        let by_m = sum(side[1], self.denominator, &side[2..], &self.by_m)?;
        let plain = sum(side[0], self.denominator, &side[2..], &self.plain)?;
        Some((by_m, plain))
    }

    /// Each value at least 0, those of equalities 0: parts by M decide before constants.
    fn meets(&self, equalities: &[Side], sides: &[Side]) -> Option<bool> {
        for side in equalities {
            if self.value(side)? != (0, 0) {
                return Some(false);
            }
        }
        for side in sides {
            if self.value(side)? < (0, 0) {
                return Some(false);
            }
        }
        Some(true)
    }
}

/// Elimination without fractions (Bareiss): the matrix becomes d times a unit matrix beside the right-hand sides; what
/// is left of dependent rows is not looked at. Gives the places of the pivots and d; nothing where a number does not
/// fit.
fn eliminate(matrix: &mut [Vec<i128>], variables: usize) -> Option<(Vec<(usize, usize)>, i128)> {
    let (mut pivots, mut last): (Vec<(usize, usize)>, i128) = (Vec::new(), 1);
    for row in 0..matrix.len() {
        let Some(column) = (0..variables).find(|&c| matrix[row][c] != 0) else { continue };
        let pivot = matrix[row].clone();
        for (i, other) in matrix.iter_mut().enumerate() {
            let factor = other[column];
            if i == row {
                continue;
            }
            for (number, &p) in other.iter_mut().zip(&pivot) {
                *number = number.checked_mul(pivot[column])?.checked_sub(factor.checked_mul(p)?)? / last;
            }
        }
        last = pivot[column];
        pivots.push((row, column));
    }
    Some((pivots, last))
}

/// The point at which all the sides are 0; none where they leave it open or have no such point. The outer nothing: a
/// number does not fit.
fn meeting(sides: &[&Side], variables: usize) -> Option<Option<Vertex>> {
    let right = |side: &&Side| [&side[2..], &[-side[0], -side[1]]].concat();
    let mut matrix: Vec<Vec<i128>> = sides.iter().map(right).collect();
    let (pivots, d) = eliminate(&mut matrix, variables)?;
    if pivots.len() < variables {
        return Some(None);
    }
    let mut vertex = Vertex { plain: vec![0; variables], by_m: vec![0; variables], denominator: d.abs() };
    for (row, column) in pivots {
        vertex.plain[column] = matrix[row][variables] * d.signum();
        vertex.by_m[column] = matrix[row][variables + 1] * d.signum();
    }
    Some(Some(vertex))
}

/// The equalities without those that follow from others, as far as coefficients go.
fn independent(equalities: &[Side], variables: usize) -> Option<Vec<Side>> {
    let mut matrix: Vec<Vec<i128>> = equalities.iter().map(|side| side[2..].to_vec()).collect();
    let (pivots, _) = eliminate(&mut matrix, variables)?;
    Some(pivots.iter().map(|&(row, _)| equalities[row].clone()).collect())
}

/// Which of two values, each a part by M and a constant over a denominator, is greater.
fn compare(a: ((i128, i128), i128), b: ((i128, i128), i128)) -> Option<Ordering> {
    let parts = |x: i128, y: i128| Some(x.checked_mul(b.1)?.cmp(&y.checked_mul(a.1)?));
    Some(parts(a.0 .0, b.0 .0)?.then(parts(a.0 .1, b.0 .1)?))
}

/// How many ways there are to choose so many of so many things.
pub fn choices(of: usize, chosen: usize) -> usize {
    (0..chosen).fold(1, |ways, i| ways * of.saturating_sub(i) / (i + 1))
}

/// Every choice of so many sides.
fn each_choice<'a>(
    sides: &'a [Side],
    count: usize,
    chosen: &mut Vec<&'a Side>,
    visit: &mut dyn FnMut(&[&'a Side]) -> Option<()>,
) -> Option<()> {
    if count == 0 {
        return visit(chosen);
    }
    for (i, side) in sides.iter().enumerate() {
        chosen.push(side);
        each_choice(&sides[i + 1..], count - 1, chosen, visit)?;
        chosen.pop();
    }
    Some(())
}

/// The greatest value of `expression` over the basic set; nothing where a number does not fit.
pub fn greatest(n: usize, basic: &Basic, expression: &Row) -> Option<Most> {
    let variables = n + basic.divisions.len();
    let (inequalities, equalities) = rows(n, basic);
    let equalities: Vec<Side> = equalities.iter().map(side).collect();
    let sides: Vec<Side> = inequalities.iter().map(side).chain(fence(variables)).collect();
    let kept = independent(&equalities, variables)?;
    let goal = side(expression);
    let mut best: Option<((i128, i128), i128)> = None;
    each_choice(&sides, variables - kept.len(), &mut kept.iter().collect(), &mut |chosen| {
        let Some(vertex) = meeting(chosen, variables)? else { return Some(()) };
        if vertex.meets(&equalities, &sides)? {
            let found = (vertex.value(&goal)?, vertex.denominator);
            let greater = match best {
                None => true,
                Some(best) => compare(found, best)? == Ordering::Greater,
            };
            best = if greater { Some(found) } else { best };
        }
        Some(())
    })?;
    Some(match best {
        None => Most::Empty,
        Some(((0, value), denominator)) => {
            let divisor = gcd(value, denominator);
            Most::Value(value / divisor, denominator / divisor)
        }
        Some(_) => Most::Unbounded,
    })
}

#[cfg(test)]
mod tests {
    use super::{choices, greatest, Most};
    use crate::sets::read;
    use hexscript::tokens::{bytes, Names};

    fn told(n: usize, text: &str, expression: &[i128]) -> Option<Most> {
        let set = read(&bytes(text, &Names::new()).expect("good tokens")).expect("a set");
        greatest(n, &set[0], &expression.to_vec())
    }

    #[test]
    fn values_of_one_axis() {
        let between = "11 14 i32:-3 i16:2 zeros:30 14 i32:5 i16:-1 zeros:30";
        assert_eq!(told(1, between, &[0, 1]), Some(Most::Value(5, 1)));
        assert_eq!(told(1, between, &[1, -4]), Some(Most::Value(-5, 1)));
        assert_eq!(told(1, between, &[0, -1]), Some(Most::Value(-3, 2)));
        assert_eq!(told(1, between, &[7, 0]), Some(Most::Value(7, 1)));
        assert_eq!(told(1, "11 14 i32:-3 i16:2 zeros:30", &[0, 1]), Some(Most::Unbounded));
        assert_eq!(told(1, "11 14 i32:-3 i16:2 zeros:30 14 i32:1 i16:-1 zeros:30", &[0, 1]), Some(Most::Empty));
        assert_eq!(told(1, "11", &[3, 0]), Some(Most::Value(3, 1)));
        assert_eq!(told(1, "11", &[3, -1]), Some(Most::Unbounded));
        assert_eq!(told(1, "11 14 i32:-1 zeros:32", &[0, 0]), Some(Most::Empty));
    }

    /// A strip without corners, x + y = 3: x + y has an end and x has none.
    #[test]
    fn sets_without_corners() {
        let strip = "11 13 i32:-3 i16:1,1 zeros:28";
        assert_eq!(told(2, strip, &[1, 2, 2]), Some(Most::Value(7, 1)));
        assert_eq!(told(2, strip, &[0, 1, 0]), Some(Most::Unbounded));
        let twice = "11 13 i32:-3 i16:1,1 zeros:28 13 i32:-6 i16:2,2 zeros:28";
        assert_eq!(told(2, twice, &[0, 2, 2]), Some(Most::Value(6, 1)));
        let never = "11 13 i32:-3 i16:1,1 zeros:28 13 i32:-7 i16:2,2 zeros:28";
        assert_eq!(told(2, never, &[0, 2, 2]), Some(Most::Empty));
    }

    /// q = floor(x / 2) over fractions: 0 <= x - 2q <= 1; at x = 5 it is 2 to 5/2.
    #[test]
    fn bounds_of_divisions_count() {
        let five = "11 12 u16:2 i32:0 i16:1 zeros:14 13 i32:-5 i16:1 zeros:30";
        assert_eq!(told(1, five, &[0, 0, 1]), Some(Most::Value(5, 2)));
        assert_eq!(told(1, five, &[0, 0, -1]), Some(Most::Value(-2, 1)));
    }

    #[test]
    fn ways_to_choose() {
        assert_eq!([choices(5, 0), choices(5, 2), choices(18, 4), choices(3, 4)], [1, 10, 3060, 0]);
    }
}
