//! "Greatest and least" (request 11): the most or the least that a basic set allows of an expression.

use crate::bytes::check_coefficients;
use crate::exact::{gcd, mul};
use crate::model::{BasicSet, Rule, Set};
use crate::tableau::{Nature, Row, Tableau};
use crate::test::{Answer, Steps, BOUND_128, BOUND_64, PIVOT_LIMIT};
use std::cmp::Ordering;

#[derive(Clone, Copy, Debug, PartialEq, Eq)]
pub enum Aim {
    Greatest,
    Least,
}

#[derive(Clone, Copy, Debug, PartialEq, Eq)]
pub enum Extreme {
    /// Numerator and denominator, "in lowest terms, its denominator positive".
    Value(i128, i128),
    Empty,
    Unbounded,
    Wide,
    Long,
}

/// The greatest or least value of an expression, "written as an inequality's numbers", over the points with fractions
/// of basic set k, or 7 or 8 of the expression.
pub fn extreme(set: &Set, k: u64, aim: Aim, expression: &Rule) -> Result<Extreme, u8> {
    // "none such: empty, the expression unread"
    let Some(basic) = set.basic(k) else { return Ok(Extreme::Empty) };
    check_coefficients(set.n, basic, expression)?;
    let mut search = ValueSearch::new(set.n, basic, aim, expression);
    let mut answer = search.first_half();
    while answer.is_none() {
        answer = search.turn();
    }
    Ok(answer.expect("a search that has ended"))
}

/// Both halves of the search for the value, turn by turn.
#[derive(Clone, Debug)]
pub struct ValueSearch {
    pub steps: Steps,
    aim: Aim,
}

/// The column that improves the value and the direction of its variable, 1 or −1.
#[derive(Clone, Copy, Debug, PartialEq, Eq)]
pub struct Entering {
    pub column: usize,
    pub direction: i128,
}

/// A row that stops the entering column, after a move of numerator / denominator.
#[derive(Clone, Copy, Debug, PartialEq, Eq)]
pub struct Stop {
    pub row: usize,
    variable: usize,
    numerator: i128,
    denominator: i128,
}

impl Stop {
    /// Which of two stops comes sooner, once the number test is passed.
    pub fn compare(&self, other: &Stop) -> Ordering {
        mul(self.numerator, other.denominator).cmp(&mul(other.numerator, self.denominator))
    }
}

impl ValueSearch {
    pub fn new(n: usize, basic: &BasicSet, aim: Aim, expression: &Rule) -> ValueSearch {
        let mut tableau = Tableau::new(n, basic);
        // "The expression is one more free row from the start"; it never leaves, and stays the last.
        tableau.begin_expression(Nature::Free, n, expression);
        ValueSearch { steps: Steps::new(tableau, Some(PIVOT_LIMIT), [BOUND_64, BOUND_128]), aim }
    }

    /// The test for fractions: an answer unless it finds a point.
    pub fn first_half(&mut self) -> Option<Extreme> {
        match self.steps.judge() {
            Answer::Point => None,
            Answer::Dropped => Some(Extreme::Empty),
            Answer::Long => Some(Extreme::Long),
            Answer::Wide => Some(Extreme::Wide),
        }
    }

    /// A turn of the second half: the answer, or an exchange and none yet.
    pub fn turn(&mut self) -> Option<Extreme> {
        let Some(entering) = self.entering() else { return Some(self.value()) };
        let stops = self.stops(entering);
        // "unbounded comes first, then long, then wide .. and only then the leaving row is chosen"
        if stops.is_empty() {
            return Some(Extreme::Unbounded);
        }
        match self.steps.hindered(entering.column) {
            Some(Answer::Long) => return Some(Extreme::Long),
            Some(_) => return Some(Extreme::Wide),
            None => {}
        }
        self.steps.exchange(leaving(&stops), entering.column);
        None
    }

    /// The expression's row.
    pub fn expression(&self) -> &Row {
        self.steps.tableau.rows.last().expect("the row put in at the start")
    }

    /// "enter the lowest-numbered column that improves the value (a free one in whichever direction helps)";
    /// "equality columns never enter"
    pub fn entering(&self) -> Option<Entering> {
        let tableau = &self.steps.tableau;
        (0..tableau.columns.len())
            .filter_map(|column| Some(Entering { column, direction: self.improving(column)? }))
            .min_by_key(|entering| tableau.columns[entering.column])
    }

    /// The direction in which the column's variable improves the value, if it may go there.
    fn improving(&self, column: usize) -> Option<i128> {
        let tableau = &self.steps.tableau;
        let better = match self.aim {
            Aim::Greatest => self.expression().entries[column].signum(),
            Aim::Least => -self.expression().entries[column].signum(),
        };
        let may = match tableau.natures[tableau.columns[column]] {
            Nature::Free => better != 0,
            Nature::AtLeastZero => better > 0,
            Nature::Zero => false,
        };
        may.then_some(better)
    }

    /// The rows that stop the column, whenever they do.
    pub fn stops(&self, entering: Entering) -> Vec<Stop> {
        let rows = self.steps.tableau.rows.iter().enumerate();
        rows.filter_map(|(row, numbers)| self.stop(row, numbers, entering)).collect()
    }

    /// "free rows never stop it, an equality row with a nonzero entry stops it at a move of 0"; another one where it
    /// comes down to 0. The row's own denominator divides both of its numbers and changes no move.
    fn stop(&self, row: usize, numbers: &Row, entering: Entering) -> Option<Stop> {
        let slope = numbers.entries[entering.column] * entering.direction;
        let (numerator, denominator) = match self.steps.tableau.natures[numbers.variable] {
            Nature::AtLeastZero if slope < 0 => (numbers.constant, -slope),
            Nature::Zero if slope != 0 => (0, 1),
            _ => return None,
        };
        Some(Stop { row, variable: numbers.variable, numerator, denominator })
    }

    /// The constant over the denominator, "in lowest terms": the row is reduced by all its numbers only.
    fn value(&self) -> Extreme {
        let Row { constant, denominator, .. } = *self.expression();
        let divisor = gcd(constant.unsigned_abs(), denominator.unsigned_abs()) as i128;
        Extreme::Value(constant / divisor, denominator / divisor)
    }
}

/// "of the rows that stop it soonest, the lowest-numbered leaves"
fn leaving(stops: &[Stop]) -> usize {
    let first = stops.iter().min_by(|a, b| a.compare(b).then(a.variable.cmp(&b.variable)));
    first.expect("a row that stops it").row
}
