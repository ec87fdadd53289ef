//! "In a new rule's row each variable of nonzero coefficient that is now a row is replaced by that row" (request 8): a
//! rule written over the columns of a tableau that pivots have changed.

use crate::model::Rule;
use crate::tableau::{substitute, Row, Tableau};

/// A new rule's row on its way. After the entries of the columns it has one for each axis and division by number, the
/// coefficient of a variable that waits to be replaced: "all numbers count for the bound and the common divisor, those
/// of variables that still wait too" (readings-02.md).
#[derive(Clone, Debug)]
pub struct Draft {
    pub row: Row,
    columns: usize,
}

impl Draft {
    /// The rule as given, over n axes; its variable is the next one.
    pub fn new(tableau: &Tableau, n: usize, rule: &Rule) -> Draft {
        let mut waiting = tableau.free_coefficients(n, rule);
        // The column's variable, where it is free, does not wait.
        let take = |&variable: &usize| waiting.get_mut(variable).map_or(0, std::mem::take);
        let mut entries: Vec<i128> = tableau.columns.iter().map(take).collect();
        entries.append(&mut waiting);
        let (variable, constant) = (tableau.natures.len(), i128::from(rule.constant));
        Draft { row: Row { variable, denominator: 1, constant, entries }, columns: tableau.columns.len() }
    }

    /// The coefficients of the variables that wait, by number.
    pub fn waiting(&self) -> &[i128] {
        &self.row.entries[self.columns..]
    }

    /// "lowest number first"
    pub fn next(&self) -> Option<usize> {
        self.waiting().iter().position(|&coefficient| coefficient != 0)
    }

    /// Whether one of the "both rows" is beyond the bound where this variable is replaced.
    pub fn is_beyond(&self, tableau: &Tableau, variable: usize, bound: i128) -> bool {
        let replacing = tableau.row_of(variable).expect("a variable that waits is a row");
        self.row.is_beyond(bound) || replacing.is_beyond(bound)
    }

    /// "replaced by that row, .. and the result reduced"
    pub fn replace(&mut self, tableau: &Tableau, variable: usize) {
        let mut replacing = tableau.row_of(variable).expect("a variable that waits is a row").clone();
        replacing.entries.resize(self.row.entries.len(), 0);
        substitute(&mut self.row, &replacing, self.columns + variable);
    }

    /// The row, once no variable waits.
    pub fn settled(mut self) -> Row {
        self.row.entries.truncate(self.columns);
        self.row
    }
}
