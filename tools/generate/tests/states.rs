//! Walks of named states (document 02, request 8): as they should be, and what holds of their rows.

use generate::model::{encode, Basic};
use generate::plans::{hard_addition, ladder, many, pillars, rule_by_rule, small, steep_start, Plan};
use generate::rng::Rng;
use generate::{calls, walks};
use second::calls::read_walk;
use second::draft::Draft;
use second::states::{settle, Desk, State, Step, LAST_NAME};
use second::tableau::Nature;
use second::test::{Steps, BOUND_128, PIVOT_LIMIT};
use second::{parse, Answer, BasicSet, Rule};
use std::collections::{BTreeMap, BTreeSet};

fn walk(index: u64) -> Vec<Step> {
    let call = calls::call(31, index, &["states"]);
    read_walk(call.strip_prefix("states ").expect("a walk")).expect("steps")
}

/// The additions of so many walks to states that say point, each with the state before it and after it.
fn additions(walks: u64, mut look: impl FnMut(&State, &Rule, &State)) {
    for index in 0..walks {
        let mut desk = Desk::default();
        for step in walk(index) {
            let before = desk.now.clone().filter(|state| state.says == Answer::Point);
            let said = desk.take(&step);
            if let (Some(before), Step::Add(rule), Ok(_)) = (before, &step, said) {
                look(&before, rule, desk.now.as_ref().expect("a state"));
            }
        }
    }
}

#[test]
fn sixty_calls_and_five_names() {
    for index in 0..200 {
        let steps = walk(index);
        assert_eq!(steps.len(), walks::CALLS);
        let name = |step: &Step| match step {
            Step::Mark(name) | Step::Back(name) => Some(*name).filter(|&name| name <= LAST_NAME),
            _ => None,
        };
        assert!(steps.iter().filter_map(name).collect::<BTreeSet<_>>().len() <= 5);
    }
}

/// The basic set of a plan, whose own rules may be over 48.
fn read(plan: &Plan) -> BasicSet {
    let mut rules = plan.rules.clone();
    rules.truncate(48);
    let basic = Basic { divisions: plan.divisions.clone(), rules };
    parse(plan.n as u8, &encode(&[basic])).expect("a good set").basics.remove(0)
}

#[test]
fn plans_are_good() {
    let rng = &mut Rng::of(32, 0);
    for _ in 0..300 {
        for made in [small, rule_by_rule, steep_start, pillars, hard_addition, many, ladder] {
            let mut plan = made(rng);
            let more = plan.more(rng);
            plan.rules.insert(0, more);
            read(&plan);
        }
    }
}

/// No rule of a hard set takes a pivot before the one that it waits for, which then takes up to 200, or would take
/// more.
#[test]
fn hard_sets_wait_for_one_rule() {
    let rng = &mut Rng::of(33, 0);
    let mut said = BTreeMap::new();
    for _ in 0..200 {
        let plan = hard_addition(rng);
        let Some(crux) = plan.crux else { continue };
        let basic = read(&plan);
        let mut state = State::start(plan.n as u8, &basic.divisions).expect("good divisions");
        let mut columns = state.tableau.columns.clone();
        for (place, rule) in basic.rules[..=crux].iter().enumerate() {
            state.add(rule).expect("a good rule");
            let still = rule.constant == 0 && place < crux;
            assert!(!still || (state.says == Answer::Point && state.tableau.columns == columns));
            columns.clone_from(&state.tableau.columns);
        }
        *said.entry(state.says.word()).or_insert(0) += 1;
    }
    assert!(said["long"] > 20 && said["point"] > 20, "{said:?}");
}

/// Request 9: an addition that is carried is one at the larger bound.
#[test]
fn a_carried_addition_is_one_at_the_larger_bound() {
    let mut carried = 0;
    additions(400, |before, rule, after| {
        let mut steps = Steps::new(before.tableau.clone(), Some(PIVOT_LIMIT), [BOUND_128; 2]);
        let says = settle(&mut steps, Draft::new(&before.tableau, before.n, rule)).map_or(Answer::Wide, |row| {
            steps.tableau.append(Nature::of(rule.kind), row);
            steps.judge()
        });
        assert_eq!((says, &steps.tableau.rows), (after.says, &after.tableau.rows));
        let mut own = before.steps();
        settle(&mut own, Draft::new(&before.tableau, before.n, rule));
        carried += usize::from(own.carried.is_some());
    });
    assert!(carried > 500, "{carried}");
}

/// What waits is the rule's own coefficient times the denominator, so that the divisor of the row divides it: a common
/// divisor without the coefficients that wait would be the same.
#[test]
fn what_waits_has_the_denominator() {
    let mut waiting = 0;
    additions(400, |before, rule, _| {
        let tableau = &before.tableau;
        let given = tableau.free_coefficients(before.n, rule);
        let mut draft = Draft::new(tableau, before.n, rule);
        while let Some(variable) = draft.next().filter(|&next| !draft.is_beyond(tableau, next, BOUND_128)) {
            draft.replace(tableau, variable);
            for (place, &number) in draft.waiting().iter().enumerate().filter(|(_, number)| **number != 0) {
                assert_eq!(number, given[place] * draft.row.denominator);
                waiting += 1;
            }
        }
    });
    assert!(waiting > 5_000, "{waiting}");
}

/// x = 0 and q = c / d meet the bounds of all divisions, and each pivot brings one of them into the columns for good.
#[test]
fn starts_have_a_point_or_are_wide() {
    let rng = &mut Rng::of(34, 0);
    let mut wide = 0;
    for _ in 0..2_000 {
        let plan = if rng.chance(50) { steep_start(rng) } else { small(rng) };
        let state = State::start(plan.n as u8, &read(&plan).divisions).expect("good divisions");
        assert!(matches!(state.says, Answer::Point | Answer::Wide));
        wide += usize::from(state.says == Answer::Wide);
    }
    assert!(wide > 100, "{wide}");
}
