//! Whether a point with fractions meets a basic set, by elimination: equalities are solved and put in,
//! then each variable goes by Fourier and Motzkin's method. It shares nothing with the tableau.

use crate::sets::Basic;
use std::collections::BTreeSet;

/// constant, then one coefficient a variable: constant + coefficients · variables (= or >=) 0.
pub type Row = Vec<i128>;

/// Above this many rows the elimination is given up.
const MOST_ROWS: usize = 1_000;

/// The rows of a basic set: bounds of divisions and inequalities, and the equalities.
pub fn rows(n: usize, basic: &Basic) -> (Vec<Row>, Vec<Row>) {
    let m = basic.divisions.len();
    let (mut inequalities, mut equalities) = (Vec::new(), Vec::new());
    for (i, division) in basic.divisions.iter().enumerate() {
        let mut lower = vec![0; 1 + n + m];
        lower[0] = division.c;
        lower[1..=n].copy_from_slice(&division.axes[..n]);
        lower[1 + n + i] = -division.d;
        let mut upper: Row = lower.iter().map(|v| -v).collect();
        upper[0] += division.d - 1;
        inequalities.extend([lower, upper]);
    }
    for rule in &basic.rules {
        let mut row = vec![rule.constant];
        row.extend(&rule.places[..n]);
        row.extend(&rule.places[8..8 + m]);
        if rule.equality { &mut equalities } else { &mut inequalities }.push(row);
    }
    (inequalities, equalities)
}

pub fn gcd(a: i128, b: i128) -> i128 {
    if b == 0 { a.abs() } else { gcd(b, a % b) }
}

/// a · x + b · y, divided by the common divisor; nothing if a number does not fit.
fn blend(a: i128, x: &Row, b: i128, y: &Row) -> Option<Row> {
    let term = |(u, v): (&i128, &i128)| a.checked_mul(*u)?.checked_add(b.checked_mul(*v)?);
    let row: Row = x.iter().zip(y).map(term).collect::<Option<_>>()?;
    let divisor = row.iter().fold(0, |g, &v| gcd(g, v)).max(1);
    Some(row.iter().map(|v| v / divisor).collect())
}

/// Solves an equality for one of its variables and puts it into all rows; false where it cannot hold.
fn put_in(equality: &Row, rows: &mut [Row]) -> Option<bool> {
    let Some(variable) = (1..equality.len()).find(|&v| equality[v] != 0) else {
        return Some(equality[0] == 0);
    };
    let p = equality[variable];
    for row in rows.iter_mut().filter(|r| r[variable] != 0) {
        // A positive factor on the row keeps its direction.
        *row = blend(p.abs(), row, -row[variable] * p.signum(), equality)?;
    }
    Some(true)
}

/// Removes one variable: each lower bound with each upper bound.
fn eliminate(rows: BTreeSet<Row>, variable: usize) -> Option<BTreeSet<Row>> {
    let (with, mut out): (BTreeSet<Row>, BTreeSet<Row>) = rows.into_iter().partition(|r| r[variable] != 0);
    let (lower, upper): (Vec<Row>, Vec<Row>) = with.into_iter().partition(|r| r[variable] > 0);
    for low in &lower {
        for high in &upper {
            out.insert(blend(-high[variable], low, low[variable], high)?);
        }
        if out.len() > MOST_ROWS {
            return None;
        }
    }
    Some(out)
}

/// The variable whose removal makes the fewest rows.
fn cheapest(rows: &BTreeSet<Row>, width: usize) -> Option<usize> {
    let cost = |v: usize| {
        let lower = rows.iter().filter(|r| r[v] > 0).count();
        let upper = rows.iter().filter(|r| r[v] < 0).count();
        lower * upper
    };
    (1..width).filter(|&v| rows.iter().any(|r| r[v] != 0)).min_by_key(|&v| cost(v))
}

/// Whether there is a point with fractions; nothing where the system is too large to tell.
pub fn has_point(n: usize, basic: &Basic) -> Option<bool> {
    let (inequalities, mut equalities) = rows(n, basic);
    let width = 1 + n + basic.divisions.len();
    let mut all = inequalities;
    while let Some(equality) = equalities.pop() {
        if !(put_in(&equality, &mut all)? && put_in(&equality, &mut equalities)?) {
            return Some(false);
        }
    }
    let mut rows: BTreeSet<Row> = all.into_iter().collect();
    while let Some(variable) = cheapest(&rows, width) {
        rows = eliminate(rows, variable)?;
    }
    Some(rows.iter().all(|row| row[0] >= 0))
}

#[cfg(test)]
mod tests {
    use super::has_point;
    use crate::sets::read;
    use hexscript::tokens::{bytes, Names};

    fn told(n: usize, text: &str) -> Option<bool> {
        let set = read(&bytes(text, &Names::new()).expect("good tokens")).expect("a set");
        has_point(n, &set[0])
    }

    #[test]
    fn rules_of_one_axis() {
        assert_eq!(told(1, "11"), Some(true));
        assert_eq!(told(1, "11 13 i32:-1 i16:2 zeros:30"), Some(true));
        assert_eq!(told(1, "11 14 i32:-1 zeros:32"), Some(false));
        assert_eq!(told(1, "11 14 i32:-5 i16:1 zeros:30 14 i32:4 i16:-1 zeros:30"), Some(false));
        assert_eq!(told(1, "11 14 i32:-5 i16:1 zeros:30 14 i32:5 i16:-1 zeros:30"), Some(true));
    }

    #[test]
    fn bounds_of_divisions_count() {
        let three = "11 12 u16:2 i32:0 i16:1 zeros:14 13 i32:-3 zeros:16 i16:1 zeros:14";
        assert_eq!(told(1, &format!("{three} 14 i32:5 i16:-1 zeros:30")), Some(false));
        assert_eq!(told(1, &format!("{three} 14 i32:6 i16:-1 zeros:30")), Some(true));
        assert_eq!(told(1, &format!("{three} 14 i32:-8 i16:1 zeros:30")), Some(false));
    }

    #[test]
    fn equalities_are_put_in() {
        let two = "11 13 i32:0 i16:1,0 zeros:28 13 i32:-1 i16:1,1 zeros:28";
        assert_eq!(told(2, &format!("{two} 14 i32:0 i16:0,-1 zeros:28")), Some(false));
        assert_eq!(told(2, &format!("{two} 14 i32:-1 i16:0,1 zeros:28")), Some(true));
        assert_eq!(told(2, &format!("{two} 13 i32:-2 i16:0,2 zeros:28 13 i32:-3 i16:0,2 zeros:28")), Some(false));
    }
}
