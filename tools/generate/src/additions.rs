//! A rule added to a named state (document 02, request 8), looked at replacement by replacement, by `second`'s own
//! drafts.

use crate::histogram::{bump, Counts};
use second::algebra::tightened;
use second::draft::Draft;
use second::states::{settle, word, State};
use second::tableau::{Nature, Row, Tableau};
use second::test::{Steps, BOUND_128, PIVOT_LIMIT};
use second::{Answer, Kind, Rule};

/// How many rows were replaced in a new rule's.
const REPLACED: [&str; 5] =
    ["no row replaced", "1 row replaced", "2 rows replaced", "3 rows replaced", "over 3 rows replaced"];

/// Counts an addition to a state that says point; the pivots come back.
pub(crate) fn count(before: &State, rule: &Rule, counts: &mut Counts) -> u32 {
    let draft = Draft::new(&before.tableau, before.n, rule);
    count_replacements(before, draft.clone(), counts);
    let mut steps = before.steps();
    let row = settle(&mut steps, draft.clone());
    let by_row = steps.carried.is_some();
    let Some(row) = row else {
        bump_if(counts, &[("wide since the lowest is first", !is_wide(&before.tableau, draft, highest))]);
        return 0;
    };
    let beyond = row.is_beyond(BOUND_128);
    let small = by_row && !row.is_beyond(i128::from(i32::MAX));
    steps.tableau.append(Nature::of(rule.kind), row);
    let says = steps.judge();
    bump_if(counts, &[
        ("not wide since the lowest is first", is_wide(&before.tableau, draft, highest)),
        ("settled row beyond the bound", beyond),
        ("new row carried, small again", small),
    ]);
    count_pivots(&steps, says, by_row, counts);
    count_kind(before, rule, says, counts);
    steps.pivots
}

pub(crate) fn bump_if(counts: &mut Counts, events: &[(&str, bool)]) {
    events.iter().filter(|(_, is)| *is).for_each(|(name, _)| bump(counts, name));
}

fn highest(draft: &Draft) -> Option<usize> {
    draft.waiting().iter().rposition(|&coefficient| coefficient != 0)
}

/// Whether the draft would be wide with its variables replaced in this order.
fn is_wide(tableau: &Tableau, mut draft: Draft, next: fn(&Draft) -> Option<usize>) -> bool {
    while let Some(variable) = next(&draft) {
        if draft.is_beyond(tableau, variable, BOUND_128) {
            return true;
        }
        draft.replace(tableau, variable);
    }
    false
}

/// The row without what waits.
fn columns_of(draft: &Draft) -> Row {
    draft.clone().settled()
}

fn count_replacements(before: &State, mut draft: Draft, counts: &mut Counts) {
    let (tableau, mut replaced) = (&before.tableau, 0);
    while let Some(variable) = draft.next() {
        let replacing = tableau.row_of(variable).expect("a row");
        let (own, other) = (draft.row.is_beyond(BOUND_128), replacing.is_beyond(BOUND_128));
        if own || other {
            bump_if(counts, &[
                ("new row wide", true),
                ("new row wide at a later replacement", replaced > 0),
                ("new row alone beyond the bound", !other),
                ("replaced row alone beyond the bound", !own),
                ("waiting coefficient alone beyond the bound", !other && !columns_of(&draft).is_beyond(BOUND_128)),
            ]);
            return;
        }
        let denominator = draft.row.denominator * replacing.denominator;
        bump_if(counts, &[
            ("row at the bound", draft.row.is_beyond(BOUND_128 - 2) || replacing.is_beyond(BOUND_128 - 2)),
            ("division replaced", variable >= before.n),
        ]);
        draft.replace(tableau, variable);
        replaced += 1;
        count_reduction(&draft, denominator / draft.row.denominator, counts);
    }
    bump(counts, REPLACED[replaced.min(REPLACED.len() - 1)]);
}

/// A replacement after which a coefficient still waits, and the divisor by which it was reduced.
fn count_reduction(draft: &Draft, divisor: i128, counts: &mut Counts) {
    if draft.next().is_none() {
        return;
    }
    let row = &draft.row;
    let beyond = |number: &i128| (number * divisor).abs() > BOUND_128;
    let unreduced = row.entries.iter().chain([&row.constant, &row.denominator]).any(beyond);
    bump_if(counts, &[
        ("a coefficient waits on", true),
        ("reduced while a coefficient waits", divisor > 1),
        ("not wide since it is reduced", unreduced && !row.is_beyond(BOUND_128)),
    ]);
}

fn count_pivots(steps: &Steps, says: Answer, by_row: bool, counts: &mut Counts) {
    bump_if(counts, &[
        ("wide in the pivots", says == Answer::Wide),
        ("no pivot", steps.pivots == 0),
        ("200 pivots, not long", steps.pivots == PIVOT_LIMIT && says != Answer::Long),
    ]);
    match steps.carried {
        Some(_) if by_row => bump(counts, &format!("new row carried, {}", word(says))),
        Some(_) => bump(counts, &format!("carried in the pivots, {}", word(says))),
        None => {}
    }
}

/// Equalities, and rules that would be answered otherwise if they were tightened.
fn count_kind(before: &State, rule: &Rule, says: Answer, counts: &mut Counts) {
    if rule.kind == Kind::Equality {
        bump(counts, &format!("equality, {}", word(says)));
    }
    let mut other = before.clone();
    let tight = tightened(rule);
    let as_tight = tight.as_ref().map_or(Answer::Dropped, |tight| {
        other.add(tight).expect("a good rule");
        other.says
    });
    bump_if(counts, &[("as given, not tightened", tight.as_ref() != Some(rule) && as_tight != says)]);
}
