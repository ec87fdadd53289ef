//! Calls of named states (document 02, request 8): walks of 60 calls with five names.

use crate::model::{Division, Rule};
use crate::numbers::maybe_numbered;
use crate::plans::{aimed, hard_addition, ladder, many, pillars, rule_by_rule, small, steep_start, Plan};
use crate::rng::Rng;
use hexscript::tokens::hex;
use second::calls::read_walk;
use second::model::MAX_RULES;
use second::states::{Desk, State, Step, LAST_NAME};
use second::Answer;
use std::collections::HashMap;

/// The calls of a walk.
pub const CALLS: usize = 60;
const NAMES: usize = 5;

/// What a walk mostly does.
#[derive(Clone, Copy, PartialEq)]
enum Manner {
    /// Rules, and back when it says empty, wide or long.
    Adding,
    /// Marks, moved ones too, and back to each of them.
    Marking,
    /// Rules up to the 49th, whatever it says.
    Filling,
}

struct Walker<'a> {
    rng: &'a mut Rng,
    manner: Manner,
    plan: Plan,
    /// The next rule of the plan, and that of each mark: from there on the same rules come again.
    next: usize,
    at_mark: HashMap<u64, usize>,
    names: Vec<u64>,
    /// What the calls do.
    desk: Desk,
    steps: Vec<String>,
}

fn any_plan(rng: &mut Rng) -> (Manner, Plan) {
    match rng.below(40) {
        0..=4 => (Manner::Marking, ladder(rng)),
        5..=7 => (Manner::Marking, small(rng)),
        8..=14 => (Manner::Adding, small(rng)),
        15..=21 => (Manner::Adding, rule_by_rule(rng)),
        22 => (Manner::Adding, steep_start(rng)),
        23..=30 => (Manner::Adding, pillars(rng)),
        31..=34 => (Manner::Adding, hard_addition(rng)),
        35 | 36 => (Manner::Filling, hard_addition(rng)),
        _ => (Manner::Filling, many(rng)),
    }
}

/// Five names, the last one often among them.
fn any_names(rng: &mut Rng) -> Vec<u64> {
    let mut names: Vec<u64> = (0..=LAST_NAME).collect();
    while names.len() > NAMES {
        let spared = usize::from(rng.chance(60));
        names.remove(rng.below(names.len() - spared));
    }
    names
}

impl<'a> Walker<'a> {
    fn new(rng: &'a mut Rng, manner: Manner, plan: Plan) -> Walker<'a> {
        let names = any_names(rng);
        let (next, at_mark, desk, steps) = (0, HashMap::new(), Desk::default(), Vec::new());
        Walker { rng, manner, plan, next, at_mark, names, desk, steps }
    }

    fn take(&mut self, step: String) {
        let read = read_walk(&step).expect("a step").remove(0);
        let refused = self.desk.take(&read).is_err();
        self.steps.push(step);
        match read {
            Step::Mark(name) if !refused => drop(self.at_mark.insert(name, self.next)),
            Step::Back(name) if !refused => self.next = self.at_mark[&name],
            _ => {}
        }
    }

    fn start(&mut self, n: usize, divisions: &[Division]) {
        let bytes: Vec<u8> = divisions.iter().flat_map(Division::bytes).collect();
        self.take(format!("start {n} {}", hex(&bytes)));
    }

    /// With a number now and then: a rule that is added again has another.
    fn add(&mut self, rule: &Rule) {
        let rule = maybe_numbered(rule, self.rng);
        self.take(format!("add {}", hex(&rule.bytes())));
    }

    fn mark(&mut self) {
        let name = self.rng.pick(&self.names);
        self.take(format!("mark {name}"));
    }

    /// To a name that is marked, or to any of the five.
    fn back(&mut self) {
        let marked: Vec<u64> = self.desk.marks.iter().map(|(name, _)| *name).collect();
        let any = marked.is_empty() || self.rng.chance(20);
        let name = self.rng.pick(if any { &self.names } else { &marked });
        self.take(format!("back {name}"));
    }

    /// A start by the plan, or by another one.
    fn good_start(&mut self) {
        if self.desk.now.is_some() {
            self.plan = any_plan(self.rng).1;
        }
        (self.next, self.at_mark) = (0, HashMap::new());
        let Plan { n, divisions, .. } = self.plan.clone();
        self.start(n, &divisions);
    }

    /// A number of axes out of range, a ninth division, one that is bad, or both of these.
    fn bad_start(&mut self) {
        let n = self.plan.n;
        let mut divisions = self.plan.divisions.clone();
        if self.rng.chance(40) {
            divisions.resize(9 + self.rng.below(2), Division { d: 2, c: 0, axes: [0; 8] });
        }
        if self.rng.chance(25) {
            let n = self.rng.pick(&[0, 9, 255]);
            return self.start(n, &divisions);
        }
        if divisions.is_empty() {
            divisions.push(Division { d: 1, c: 0, axes: [0; 8] });
        }
        for _ in 0..1 + self.rng.below(2) {
            let place = self.rng.below(divisions.len());
            let division = &mut divisions[place];
            match self.rng.below(4) {
                0 => division.d = self.rng.pick(&[0, 32_768, 65_535]),
                1 => division.c = self.rng.pick(&[1_000_000_001, -1_000_000_001, i32::MIN]),
                2 => division.axes[self.rng.below(8)] = i16::MIN,
                _ => division.axes[self.rng.below(8)] = self.rng.pick(&[5, -32_767]),
            }
        }
        self.start(n, &divisions);
    }

    /// The plan's next rule; or, at times and where there is none, one aimed at the tableau, or another.
    fn next_rule(&mut self) -> Rule {
        let others = match self.manner {
            Manner::Filling => 1,
            _ if self.plan.crux.is_some() => 5,
            _ => 25,
        };
        match (self.plan.rules.get(self.next), &self.desk.now) {
            (Some(rule), _) if !self.rng.chance(others) => {
                self.next += 1;
                *rule
            }
            (_, Some(state)) if self.rng.chance(60) => aimed(self.rng, state).unwrap_or(self.plan.more(self.rng)),
            _ => self.plan.more(self.rng),
        }
    }

    /// A number out of its range, at an absent place, or both.
    fn bad_rule(&mut self) {
        let mut rule = self.next_rule();
        for _ in 0..1 + self.rng.below(2) {
            let number = self.rng.pick(&[i16::MIN, i16::MIN, 5, -1, 32_767]);
            let list = if self.rng.chance(50) { &mut rule.axes } else { &mut rule.divisions };
            list[self.rng.below(8)] = number;
        }
        if self.rng.chance(15) {
            (rule.equality, rule.constant) = (true, i32::MIN);
        }
        self.add(&rule);
    }

    /// A name over 15, some of which end in bits of a good one.
    fn bad_name(&mut self) {
        let good = self.rng.pick(&self.names);
        let name = self.rng.pick(&[16, 16, 16, 17, 16 + good, 256 + good, (1 << 32) + good, u64::MAX]);
        let word = self.rng.pick(&["mark", "back"]);
        self.take(format!("{word} {name}"));
    }

    /// How many of a hundred calls add, mark and go back; the rest are starts and bad ones.
    fn shares(&self, state: &State) -> [usize; 3] {
        let ahead = self.plan.crux.is_some_and(|crux| self.next < crux);
        match (self.manner, state.says) {
            (Manner::Filling, _) if state.basic.rules.len() == MAX_RULES => [40, 2, 1],
            (Manner::Filling, _) => [88, 2, 1],
            (_, Answer::Point) if ahead => [93, 1, 0],
            (Manner::Marking, _) => [17, 41, 35],
            (Manner::Adding, Answer::Point) => [70, 13, 9],
            (Manner::Adding, _) => [25, 11, 55],
        }
    }

    fn turn(&mut self) {
        let Some(state) = &self.desk.now else { return self.early() };
        let unmarked = !self.at_mark.values().any(|&at| at == self.next);
        if self.plan.crux == Some(self.next) && unmarked && state.says == Answer::Point {
            return self.mark();
        }
        let [add, mark, back] = self.shares(state);
        match self.rng.below(100) {
            part if part < add => {
                let rule = self.next_rule();
                self.add(&rule);
            }
            part if part < add + mark => self.mark(),
            part if part < add + mark + back => self.back(),
            part if part < 95 => self.bad_rule(),
            95 | 96 => self.bad_start(),
            97 if self.manner != Manner::Filling => self.good_start(),
            _ => self.bad_name(),
        }
    }

    /// A call before the first good start.
    fn early(&mut self) {
        match self.rng.below(20) {
            0 => {
                let rule = self.plan.more(self.rng);
                self.add(&rule);
            }
            1 => self.bad_rule(),
            2 => self.mark(),
            3 => self.back(),
            4 => self.bad_name(),
            5 => self.bad_start(),
            _ => self.good_start(),
        }
    }
}

fn walk(rng: &mut Rng, manner: Manner, plan: Plan) -> String {
    let mut walker = Walker::new(rng, manner, plan);
    while walker.steps.len() < CALLS {
        walker.turn();
    }
    format!("states {}", walker.steps.join(" ; "))
}

pub fn call(rng: &mut Rng) -> String {
    let (manner, plan) = any_plan(rng);
    walk(rng, manner, plan)
}

/// A walk that starts by this plan.
pub fn of_plan(rng: &mut Rng, plan: Plan) -> String {
    let manner = rng.pick(&[Manner::Adding, Manner::Adding, Manner::Marking]);
    walk(rng, manner, plan)
}
