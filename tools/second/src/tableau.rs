//! The tableau of "The test for fractions": whole-number rows, each with its own
//! denominator, and the exchange of a row and a column.

use crate::exact::{add, gcd, mul};
use crate::model::{BasicSet, Kind, Rule};

/// What a variable may be: anything, at least 0 (inequality or bound), 0.
#[derive(Clone, Copy, Debug, PartialEq, Eq)]
pub enum Nature {
    Free,
    AtLeastZero,
    Zero,
}

impl Nature {
    /// Of the expression of a rule.
    pub fn of(kind: Kind) -> Nature {
        match kind {
            Kind::Equality => Nature::Zero,
            Kind::Inequality => Nature::AtLeastZero,
        }
    }
}

/// denominator · variable = constant + entries · column variables.
#[derive(Clone, Debug, PartialEq, Eq)]
pub struct Row {
    pub variable: usize,
    pub denominator: i128,
    pub constant: i128,
    pub entries: Vec<i128>,
}

#[derive(Clone, Debug)]
pub struct Tableau {
    /// By variable number, counted from 0.
    pub natures: Vec<Nature>,
    /// The variable of each column; column variables stand at 0.
    pub columns: Vec<usize>,
    pub rows: Vec<Row>,
}

impl Row {
    /// The numbers that step 4 looks at and step 5 reduces.
    fn numbers(&self) -> impl Iterator<Item = i128> + '_ {
        let ends = [self.denominator, self.constant];
        ends.into_iter().chain(self.entries.iter().copied())
    }

    pub fn is_beyond(&self, bound: i128) -> bool {
        self.numbers().any(|number| !(-bound..=bound).contains(&number))
    }

    /// "made positive, and is divided by the common divisor of all its numbers"
    fn reduce(&mut self) {
        let mut divisor: u128 = 0;
        for number in self.numbers() {
            divisor = gcd(number.unsigned_abs(), divisor);
            if divisor == 1 {
                break;
            }
        }
        // Numbers stay below 2^127 (see `exact`), and so does their divisor.
        let divisor = divisor as i128;
        let divisor = if self.denominator < 0 { -divisor } else { divisor };
        if divisor == 1 {
            return;
        }
        self.denominator /= divisor;
        self.constant /= divisor;
        self.entries.iter_mut().for_each(|entry| *entry /= divisor);
    }
}

impl Tableau {
    /// Variables: axes, divisions, the two bounds of each division, rules.
    /// Absent axes have no column (reading 12).
    pub fn new(n: usize, basic: &BasicSet) -> Tableau {
        let free = n + basic.divisions.len();
        let mut tableau = Tableau {
            natures: vec![Nature::Free; free],
            columns: (0..free).collect(),
            rows: Vec::new(),
        };
        for (number, division) in basic.divisions.iter().enumerate() {
            // numerator − d·q ≥ 0
            let mut entries = widen(&division.axes[..n]);
            entries.resize(free, 0);
            entries[n + number] = -i128::from(division.d);
            let constant = i128::from(division.c);
            // d·q − numerator + d − 1 ≥ 0
            let opposite = entries.iter().map(|entry| -entry).collect();
            let slack = i128::from(division.d) - 1;
            tableau.begin_row(Nature::AtLeastZero, constant, entries);
            tableau.begin_row(Nature::AtLeastZero, slack - constant, opposite);
        }
        for rule in &basic.rules {
            tableau.begin_expression(Nature::of(rule.kind), n, rule);
        }
        tableau
    }

    /// A row that begins as the expression of a rule over n axes.
    pub fn begin_expression(&mut self, nature: Nature, n: usize, rule: &Rule) {
        let coefficients = self.free_coefficients(n, rule);
        self.begin_row(nature, i128::from(rule.constant), coefficients);
    }

    /// What the expression of a rule has of each free variable, by number.
    pub fn free_coefficients(&self, n: usize, rule: &Rule) -> Vec<i128> {
        let divisions = self.columns.len() - n;
        [widen(&rule.axes[..n]), widen(&rule.divs[..divisions])].concat()
    }

    /// A further variable that begins as a row, with denominator 1.
    fn begin_row(&mut self, nature: Nature, constant: i128, entries: Vec<i128>) {
        let variable = self.natures.len();
        self.append(nature, Row { variable, denominator: 1, constant, entries });
    }

    /// A further variable that begins as this row.
    pub fn append(&mut self, nature: Nature, row: Row) {
        self.natures.push(nature);
        self.rows.push(row);
    }

    /// The row that gives a variable, unless it is a column.
    pub fn row_of(&self, variable: usize) -> Option<&Row> {
        self.rows.iter().find(|row| row.variable == variable)
    }

    fn is_violated(&self, row: &Row) -> bool {
        match self.natures[row.variable] {
            Nature::Free => false,
            Nature::AtLeastZero => row.constant < 0,
            Nature::Zero => row.constant != 0,
        }
    }

    pub fn lowest_violated_row(&self) -> Option<usize> {
        (0..self.rows.len())
            .filter(|&r| self.is_violated(&self.rows[r]))
            .min_by_key(|&r| self.rows[r].variable)
    }

    /// Step 2: whether the column can move the violated row towards 0.
    fn helps(&self, row: &Row, column: usize) -> bool {
        let entry = row.entries[column];
        match self.natures[self.columns[column]] {
            Nature::Free => entry != 0,
            Nature::AtLeastZero if row.constant < 0 => entry > 0,
            Nature::AtLeastZero => entry < 0,
            Nature::Zero => false,
        }
    }

    pub fn lowest_helping_column(&self, row: usize) -> Option<usize> {
        (0..self.columns.len())
            .filter(|&column| self.helps(&self.rows[row], column))
            .min_by_key(|&column| self.columns[column])
    }

    /// The rows that an exchange with this column would touch.
    pub fn touched(&self, column: usize) -> impl Iterator<Item = &Row> + '_ {
        self.rows.iter().filter(move |row| row.entries[column] != 0)
    }

    /// Step 4; the exchanged row has a nonzero entry in the column too.
    pub fn is_wide(&self, column: usize, bound: i128) -> bool {
        self.touched(column).any(|row| row.is_beyond(bound))
    }

    /// Step 5: the column's variable becomes the row's, and the other way.
    /// Gives the number of rows built: this one, and the others with a nonzero
    /// entry in the column.
    pub fn exchange(&mut self, row: usize, column: usize) -> u32 {
        let leaving = self.rows[row].variable;
        let solved = solve_for(&self.rows[row], column, self.columns[column]);
        let mut built = 1;
        self.columns[column] = leaving;
        for other in &mut self.rows {
            if other.variable != leaving && other.entries[column] != 0 {
                substitute(other, &solved, column);
                built += 1;
            }
        }
        self.rows[row] = solved;
        built
    }
}

fn widen(coefficients: &[i64]) -> Vec<i128> {
    coefficients.iter().copied().map(i128::from).collect()
}

/// den · y = const + a · x, solved for the column's x: its entry becomes the
/// denominator, den its entry, and everything else changes sign.
fn solve_for(row: &Row, column: usize, entering: usize) -> Row {
    let mut solved = Row {
        variable: entering,
        denominator: row.entries[column],
        constant: -row.constant,
        entries: row.entries.iter().map(|entry| -entry).collect(),
    };
    solved.entries[column] = row.denominator;
    solved.reduce();
    solved
}

/// Puts the solved row in the place of the column's variable.
pub fn substitute(row: &mut Row, solved: &Row, column: usize) {
    let factor = row.entries[column];
    let scale = solved.denominator;
    let blend = |old: i128, new: i128| add(mul(old, scale), mul(factor, new));
    row.entries[column] = 0;
    row.constant = blend(row.constant, solved.constant);
    for (entry, &new) in row.entries.iter_mut().zip(&solved.entries) {
        *entry = blend(*entry, new);
    }
    row.denominator = mul(row.denominator, scale);
    row.reduce();
}
