//! "Named states" (request 8): one working basic set that rules join singly, and marks to go back to.

use crate::bytes::{check_axes, check_rule, push_division};
use crate::draft::Draft;
use crate::model::{BasicSet, Division, Rule, MAX_RULES};
use crate::refusal;
use crate::tableau::{Nature, Row, Tableau};
use crate::test::{Answer, Steps, BOUND_128, BOUND_64, PIVOT_LIMIT};

/// "States can be marked under names 0 to 15."
pub const LAST_NAME: u64 = 15;

/// "the state says point, empty, wide or long"
pub fn word(says: Answer) -> &'static str {
    match says {
        Answer::Dropped => "empty",
        says => says.word(),
    }
}

/// "one working basic set with its tableau", and what it says.
#[derive(Clone, Debug)]
pub struct State {
    pub n: usize,
    /// Every rule that counts. As long as the state says point, all of them are in the tableau.
    pub basic: BasicSet,
    pub tableau: Tableau,
    pub says: Answer,
}

impl State {
    /// "started from n and divisions, .. and tested", or 1, or of the first bad division 9, 6, 7 or 8.
    pub fn start(n: u8, divisions: &[Division]) -> Result<State, u8> {
        let n = check_axes(n)?;
        let mut basic = BasicSet::default();
        for division in divisions {
            push_division(n, &mut basic, division.clone())?;
        }
        let tableau = Tableau::new(n, &basic);
        let mut state = State { n, basic, tableau, says: Answer::Point };
        let mut steps = state.steps();
        state.says = steps.judge();
        state.tableau = steps.tableau;
        Ok(state)
    }

    /// A test that goes on "from the tableau reached, with 200 pivots".
    pub fn steps(&self) -> Steps {
        Steps::new(self.tableau.clone(), Some(PIVOT_LIMIT), [BOUND_64, BOUND_128])
    }

    /// The state with one rule more, or 7, 8 or 10.
    pub fn add(&mut self, rule: &Rule) -> Result<(), u8> {
        check_rule(self.n, &self.basic, rule)?;
        if self.basic.rules.len() == MAX_RULES {
            return Err(refusal::TOO_MANY_RESULTING);
        }
        self.basic.rules.push(rule.clone());
        // "Once empty, wide or long it says so until it goes back; rules added meanwhile count unpivoted."
        if self.says == Answer::Point {
            self.go_on(rule);
        }
        Ok(())
    }

    fn go_on(&mut self, rule: &Rule) {
        let mut steps = self.steps();
        // A row that is wide stays out of the tableau.
        self.says = Answer::Wide;
        if let Some(row) = settle(&mut steps, Draft::new(&self.tableau, self.n, rule)) {
            steps.tableau.append(Nature::of(rule.kind), row);
            self.says = steps.judge();
        }
        self.tableau = steps.tableau;
    }
}

/// The row of a new rule, "one at a time, lowest number first, both rows within step 4's bound"; None beyond it. Where
/// the row is carried, the pivots behind it are too.
pub fn settle(steps: &mut Steps, mut draft: Draft) -> Option<Row> {
    while let Some(variable) = draft.next() {
        if steps.is_wide(|tableau, bound| draft.is_beyond(tableau, variable, bound)) {
            return None;
        }
        draft.replace(&steps.tableau, variable);
    }
    Some(draft.settled())
}

/// A call: "rules and divisions as numbers, not commands" (readings-02.md).
#[derive(Clone, Debug, PartialEq, Eq)]
pub enum Step {
    Start(u8, Vec<Division>),
    Add(Rule),
    Mark(u64),
    Back(u64),
}

/// What a call says: the state's word as it is then, None where there is no state yet, or a refusal.
pub type Said = Result<Option<Answer>, u8>;

/// The working state and the marks.
#[derive(Clone, Debug, Default)]
pub struct Desk {
    /// None before the first start that is not refused.
    pub now: Option<State>,
    /// By name, in the order of the last marking of each.
    pub marks: Vec<(u64, State)>,
}

impl Desk {
    pub fn take(&mut self, step: &Step) -> Said {
        match step {
            Step::Start(n, divisions) => self.start(*n, divisions)?,
            Step::Add(rule) => self.add(rule)?,
            Step::Mark(name) => self.mark(*name)?,
            Step::Back(name) => self.back(*name)?,
        }
        Ok(self.now.as_ref().map(|state| state.says))
    }

    /// "A refused call leaves state and marks as they were."
    fn start(&mut self, n: u8, divisions: &[Division]) -> Result<(), u8> {
        let now = Some(State::start(n, divisions)?);
        *self = Desk { now, marks: Vec::new() };
        Ok(())
    }

    fn add(&mut self, rule: &Rule) -> Result<(), u8> {
        self.now.as_mut().map_or(Ok(()), |state| state.add(rule))
    }

    fn mark(&mut self, name: u64) -> Result<(), u8> {
        if name > LAST_NAME {
            return Err(refusal::STATE_NAME);
        }
        if let Some(state) = &self.now {
            // "Marking a used name moves it."
            self.marks.retain(|(used, _)| *used != name);
            self.marks.push((name, state.clone()));
        }
        Ok(())
    }

    /// "restores every number of the state and forgets the marks made after it"
    fn back(&mut self, name: u64) -> Result<(), u8> {
        let place = self.marks.iter().position(|(used, _)| *used == name).ok_or(refusal::STATE_NAME)?;
        self.now = Some(self.marks[place].1.clone());
        self.marks.truncate(place + 1);
        Ok(())
    }
}
