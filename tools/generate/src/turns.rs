//! A search for the greatest or least value (document 02, request 11) looked at turn by turn, by `second`'s own turns.

use crate::histogram::{bump, Counts};
use second::extreme::{Aim, Entering, Extreme, Stop, ValueSearch};
use second::tableau::{Nature, Row};
use second::test::{test, BOUND_128, BOUND_64, PIVOT_LIMIT};
use second::{Answer, BasicSet, Outcome, Rule};

/// A search that is looked at turn by turn.
pub(crate) struct Counter<'a> {
    search: ValueSearch,
    /// The test of the basic set, without the expression's row.
    bare: Outcome,
    /// The pivots of the first half.
    first: u32,
    counts: &'a mut Counts,
}

impl<'a> Counter<'a> {
    pub fn new(n: usize, basic: &BasicSet, aim: Aim, expression: &Rule, counts: &'a mut Counts) -> Counter<'a> {
        let search = ValueSearch::new(n, basic, aim, expression);
        Counter { search, bare: test(n, basic), first: 0, counts }
    }

    fn bump(&mut self, name: &str) {
        bump(self.counts, name);
    }

    fn bump_if(&mut self, events: &[(&str, bool)]) {
        events.iter().filter(|(_, is)| *is).for_each(|(name, _)| bump(self.counts, name));
    }

    /// Runs the search to its end, and counts it.
    pub fn run(mut self) {
        if let Some(answer) = self.search.first_half() {
            return self.count_first(answer);
        }
        self.first = self.search.steps.pivots;
        if self.search.steps.carried != self.bare.carried {
            self.bump("carried by the expression alone");
        }
        loop {
            let before = self.search.clone();
            let entering = before.entering();
            self.count_passed(entering);
            match (entering, self.search.turn()) {
                (_, Some(answer)) => return self.count_second(answer, entering),
                (Some(entering), None) => self.count_turn(&before, entering),
                (None, None) => unreachable!("a turn without a column is the last"),
            }
        }
    }

    /// An answer of the first half.
    fn count_first(&mut self, answer: Extreme) {
        let pivots = self.search.steps.pivots;
        let alone = answer == Extreme::Wide && (self.bare.answer != Answer::Wide || self.bare.pivots > pivots);
        self.bump_if(&[
            ("empty", answer == Extreme::Empty),
            ("carried in the first half, empty", answer == Extreme::Empty && self.search.steps.carried.is_some()),
            ("wide in the first half", answer == Extreme::Wide),
            ("wide by the expression alone, first half", alone),
            ("long in the first half", answer == Extreme::Long),
        ]);
    }

    /// An answer of the second half, with the column that would have entered.
    fn count_second(&mut self, answer: Extreme, entering: Option<Entering>) {
        let pivots = self.search.steps.pivots;
        let half = self.search.steps.carried.map(|carried| if carried < self.first { "first" } else { "second" });
        self.bump_if(&[
            ("over 100 pivots in the second half", pivots - self.first > 100),
            ("pivots in both halves", self.first > 0 && pivots > self.first),
        ]);
        match (answer, entering) {
            (Extreme::Value(numerator, denominator), _) => self.count_value(numerator, denominator, half),
            (Extreme::Unbounded, Some(entering)) => self.count_unbounded(entering, half),
            (Extreme::Wide, Some(entering)) => {
                self.bump("wide in the second half");
                let last = self.search.expression().variable;
                if beyond(&self.search, entering, BOUND_128).all(|row| row.variable == last) {
                    self.bump("wide by the expression alone, second half");
                }
            }
            (Extreme::Long, Some(entering)) => {
                self.bump("long in the second half");
                if beyond(&self.search, entering, BOUND_128).next().is_some() {
                    self.bump("long before wide");
                }
            }
            _ => unreachable!("no such answer of the second half"),
        }
    }

    fn count_value(&mut self, numerator: i128, denominator: i128, carried: Option<&str>) {
        let row = self.search.expression().denominator;
        let two_words = |number: i128| i64::try_from(number).is_err();
        self.bump_if(&[
            ("whole value", denominator == 1 && numerator != 0),
            ("fraction", denominator > 1),
            ("value of 0", numerator == 0),
            ("value below 0", numerator < 0),
            ("value of two words", two_words(numerator) || two_words(denominator)),
            ("value reduced further than its row", denominator < row),
            ("value at 200 pivots", self.search.steps.pivots == PIVOT_LIMIT),
        ]);
        if let Some(half) = carried {
            self.bump(&format!("carried in the {half} half, value"));
        }
    }

    fn count_unbounded(&mut self, entering: Entering, carried: Option<&str>) {
        let free = nature(&self.search, entering) == Nature::Free;
        let beyond = beyond(&self.search, entering, BOUND_128).next().is_some();
        self.bump_if(&[
            ("unbounded, growing column", !free),
            ("unbounded, free column up", free && entering.direction > 0),
            ("unbounded, free column down", free && entering.direction < 0),
            ("unbounded at 200 pivots", self.search.steps.pivots == PIVOT_LIMIT),
            ("unbounded before wide", beyond),
        ]);
        if let Some(half) = carried {
            self.bump(&format!("carried in the {half} half, unbounded"));
        }
    }

    /// Columns of equalities that would improve the value one way or the other, before the one that enters.
    fn count_passed(&mut self, entering: Option<Entering>) {
        let (tableau, row) = (&self.search.steps.tableau, self.search.expression());
        let before = |column: usize| entering.is_none_or(|e| tableau.columns[column] < tableau.columns[e.column]);
        let equality = |column: usize| tableau.natures[tableau.columns[column]] == Nature::Zero;
        let passed = (0..tableau.columns.len()).any(|c| equality(c) && before(c) && row.entries[c] != 0);
        self.bump_if(&[("equality column passed over", passed)]);
    }

    /// A turn with an exchange, by the search as it was before.
    fn count_turn(&mut self, before: &ValueSearch, entering: Entering) {
        let (tableau, stops) = (&before.steps.tableau, before.stops(entering));
        let equality = |stop: &Stop| tableau.natures[tableau.rows[stop.row].variable] == Nature::Zero;
        let soonest: Vec<&Stop> = stops.iter().filter(|a| stops.iter().all(|b| a.compare(b).is_le())).collect();
        let leaving = soonest.iter().min_by_key(|stop| tableau.rows[stop.row].variable).expect("a row that stops");
        let grows = tableau.rows[leaving.row].entries[entering.column] * entering.direction > 0;
        let last = before.expression().variable;
        let free = |row: &Row| tableau.natures[row.variable] == Nature::Free && row.variable != last;
        let carried_here = before.steps.carried != self.search.steps.carried;
        let by_expression = beyond(before, entering, BOUND_64).all(|row| row.variable == last);
        let entered = (nature(before, entering), entering.direction > 0);
        self.bump_if(&[
            ("growing column enters", entered == (Nature::AtLeastZero, true)),
            ("free column enters upward", entered == (Nature::Free, true)),
            ("free column enters downward", entered == (Nature::Free, false)),
            ("tie", soonest.len() > 1),
            ("tie with an equality", soonest.len() > 1 && soonest.iter().any(|stop| equality(stop))),
            ("move of 0", tableau.rows[leaving.row].constant == 0),
            ("equality leaves, growing", equality(leaving) && grows),
            ("equality leaves, falling", equality(leaving) && !grows),
            ("free row passed over", tableau.touched(entering.column).any(free)),
            ("carried by the expression alone", carried_here && by_expression),
            ("row beyond the bound untouched", tableau.rows.iter().any(|row| row.is_beyond(BOUND_128))),
        ]);
    }
}

/// The nature of the entering column's variable.
fn nature(search: &ValueSearch, entering: Entering) -> Nature {
    let tableau = &search.steps.tableau;
    tableau.natures[tableau.columns[entering.column]]
}

/// The rows that an exchange would touch and that are beyond the bound.
fn beyond(search: &ValueSearch, entering: Entering, bound: i128) -> impl Iterator<Item = &Row> + '_ {
    search.steps.tableau.touched(entering.column).filter(move |row| row.is_beyond(bound))
}
