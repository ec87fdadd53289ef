//! "The test for fractions": a tableau exchanged by the numbered steps; request
//! 9, "Wider numbers without starting over", carries it on where step 4 would
//! have it wide; request 4, "Fewer copies in the exchange", counts the rows that
//! its exchanges build.

use crate::model::BasicSet;
use crate::tableau::Tableau;

pub const PIVOT_LIMIT: u32 = 200;
/// Document 000's bound for numbers of 64 bits, 2^31 − 1.
pub const BOUND_64: i128 = 2_147_483_647;
/// The same for 128 bits, 2^63 − 1.
pub const BOUND_128: i128 = 9_223_372_036_854_775_807;

#[derive(Clone, Copy, Debug, PartialEq, Eq, Hash)]
pub enum Answer {
    Point,
    Dropped,
    Long,
    Wide,
}

impl Answer {
    pub fn word(self) -> &'static str {
        match self {
            Answer::Point => "point",
            Answer::Dropped => "dropped",
            Answer::Long => "long",
            Answer::Wide => "wide",
        }
    }
}

/// A test's answer, and what was done on the way to it.
#[derive(Clone, Copy, Debug, PartialEq, Eq, Hash)]
pub struct Outcome {
    pub answer: Answer,
    /// At 64 and at 128 bits together.
    pub pivots: u32,
    /// The rows built by all these exchanges.
    pub built: u32,
    /// The pivots made before the tableau was carried, if it was.
    pub carried: Option<u32>,
}

impl Outcome {
    /// Everything but dropped is kept.
    pub fn kept(self) -> bool {
        self.answer != Answer::Dropped
    }
}

/// The test of a basic set over n axes.
pub fn test(n: usize, basic: &BasicSet) -> Outcome {
    test_limited(n, basic, Some(PIVOT_LIMIT))
}

/// The same with another limit of pivots, or with none.
pub fn test_limited(n: usize, basic: &BasicSet, limit: Option<u32>) -> Outcome {
    test_bounded(n, basic, limit, [BOUND_64, BOUND_128])
}

/// The same with other bounds for step 4, before the carry and after it; with
/// two equal ones a carry changes nothing.
pub fn test_bounded(
    n: usize,
    basic: &BasicSet,
    limit: Option<u32>,
    bounds: [i128; 2],
) -> Outcome {
    let mut steps = Steps::new(Tableau::new(n, basic), limit, bounds);
    let answer = steps.judge();
    Outcome { answer, pivots: steps.pivots, built: steps.built, carried: steps.carried }
}

/// A tableau, and what the steps have done to it.
#[derive(Clone, Debug)]
pub struct Steps {
    pub tableau: Tableau,
    pub pivots: u32,
    pub built: u32,
    /// As in `Outcome`.
    pub carried: Option<u32>,
    limit: Option<u32>,
    bounds: [i128; 2],
}

impl Steps {
    pub fn new(tableau: Tableau, limit: Option<u32>, bounds: [i128; 2]) -> Steps {
        Steps { tableau, pivots: 0, built: 0, carried: None, limit, bounds }
    }

    /// The numbered steps, in the document's order.
    pub fn judge(&mut self) -> Answer {
        loop {
            let Some(row) = self.tableau.lowest_violated_row() else { return Answer::Point };
            let Some(column) = self.tableau.lowest_helping_column(row) else { return Answer::Dropped };
            if let Some(answer) = self.hindered(column) {
                return answer;
            }
            self.exchange(row, column);
        }
    }

    /// Steps 3 and 4, before an exchange with this column: long, wide, or neither.
    pub fn hindered(&mut self, column: usize) -> Option<Answer> {
        if self.limit == Some(self.pivots) {
            return Some(Answer::Long);
        }
        self.is_wide(|tableau, bound| tableau.is_wide(column, bound)).then_some(Answer::Wide)
    }

    /// Whether numbers are beyond step 4's bound, with request 9's carry.
    pub fn is_wide(&mut self, beyond: impl Fn(&Tableau, i128) -> bool) -> bool {
        let [first, wider] = self.bounds;
        if self.carried.is_none() && beyond(&self.tableau, first) {
            // "carry the tableau as it is .. and go on from that very pivot"
            self.carried = Some(self.pivots);
        }
        self.carried.is_some() && beyond(&self.tableau, wider)
    }

    /// Step 5.
    pub fn exchange(&mut self, row: usize, column: usize) {
        self.built += self.tableau.exchange(row, column);
        self.pivots += 1;
    }
}
