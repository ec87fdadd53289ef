//! Request 8, "Named states": a working basic set that rules join singly, and marks to go back to.

mod common;
use common::*;
use second::calls::hex;
use second::draft::Draft;
use second::listing::read_basic;
use second::states::{settle, State};
use second::tableau::{Nature, Tableau};
use second::test::{test, Steps, BOUND_128, BOUND_64, PIVOT_LIMIT};
use second::{Answer, BasicSet, Kind, Rule};

/// The words of the last calls of a walk.
fn last(count: usize, steps: &str) -> String {
    let words = walk(steps);
    let words: Vec<&str> = words.split(" ; ").collect();
    words[words.len() - count..].join(" ")
}

fn inequality(constant: i64, axes: &[i64]) -> Rule {
    let mut rule = Rule { kind: Kind::Inequality, number: 0, constant, axes: [0; 8], divs: [0; 8] };
    rule.axes[..axes.len()].copy_from_slice(axes);
    rule
}

/// A state after these rules, all of them good.
fn state(n: usize, lines: &str) -> State {
    let basic = read_basic(n, &lines.replace(';', "\n")).expect("listing lines");
    let mut state = State::start(n as u8, &basic.divisions).expect("good divisions");
    basic.rules.iter().for_each(|rule| state.add(rule).expect("a good rule"));
    state
}

#[test]
fn started_from_axes_and_divisions_and_tested() {
    for n in 1..=8 {
        assert_eq!(walk(&format!("start {n}")), "point");
    }
    assert_eq!(walk("start 1 / div 2 -5 0 / div 2 5 1 / div 7 -100 3"), "point");
    let steep = "start 5 / div 1 -1 32767 0 0 0 0 / div 1 0 -32766 32767 0 0 0 / div 1 0 0 -32766 32767 0 0 \
                 / div 1 0 0 0 -32766 32767 0";
    assert_eq!(walk(steep), "point");
    let steeper = format!("{steep} / div 1 0 0 0 0 -32766 32767");
    assert_eq!(walk(&format!("{steeper}; add ge 0 0 0 0 0 0 0 0 0 0 0; mark 1")), "wide ; wide ; wide");
}

/// Each pivot of a start brings a bound of one more division into the columns, and none leaves them.
#[test]
fn a_start_has_a_point() {
    let state = state(2, "div 2 -5 0 0; div 3 -7 1 0; div 5 90 0 -1; div 7 -1 2 2; div 1 -1 3 3");
    assert_eq!(state.says, Answer::Point);
    let bounds = state.tableau.columns.iter().filter(|&&variable| variable >= 7).count();
    assert_eq!(bounds, 5);
}

#[test]
fn rules_join_singly_and_as_given() {
    assert_eq!(walk("start 1; add ge 0 1; add ge 2186 -1; add ge -2187 1"), "point ; point ; point ; empty");
    assert_eq!(last(1, "start 1; add eq -1 2"), "point");
    assert_eq!(last(2, "start 1; add ge -1 2; add ge 1 -2"), "point point");
    assert_eq!(last(2, "start 1; add eq -5 1; add eq -6 1"), "point empty");
    assert_eq!(last(2, "start 1 / div 2 0 1; add eq -3 0 1; add ge 5 -1 0"), "point empty");
    assert_eq!(last(2, "start 1 / div 2 0 1; add eq -3 0 1; add ge 6 -1 0"), "point point");
}

/// What goes on from the tableau reached says what a test of the whole basic set says, where neither is wide or long.
#[test]
fn as_a_test_of_the_grown_set() {
    let rules =
        ["ge 3 1 -2 0", "ge -7 2 1 -1", "eq 1 1 1 -2", "ge 8 -3 0 1", "ge -2 0 -1 1", "ge 4 -1 -1 0", "ge -1 1 0 -1"];
    for first in 0..rules.len() {
        let mut basic = BasicSet::default();
        let mut state = State::start(2, &read_basic(2, "div 3 1 1 2").expect("a division").divisions).expect("good");
        basic.divisions = state.basic.divisions.clone();
        for step in 0..rules.len() {
            let line = rules[(first + 3 * step) % rules.len()];
            let rule = read_basic(2, &format!("div 3 1 1 2\n{line}")).expect("a rule").rules.remove(0);
            basic.rules.push(rule.clone());
            state.add(&rule).expect("a good rule");
            assert_eq!(state.says, test(2, &basic).answer);
        }
    }
}

/// What a state says after one rule more, under these bounds, with its tableau and the pivots.
fn added(state: &State, rule: &Rule, bounds: [i128; 2]) -> (Answer, Tableau, u32) {
    let mut steps = Steps::new(state.tableau.clone(), Some(PIVOT_LIMIT), bounds);
    let Some(row) = settle(&mut steps, Draft::new(&state.tableau, state.n, rule)) else {
        return (Answer::Wide, steps.tableau, 0);
    };
    steps.tableau.append(Nature::of(rule.kind), row);
    (steps.judge(), steps.tableau, steps.pivots)
}

/// A hard set with its constants at a further axis, at which all of its rules hold and take no pivot.
fn waiting(block: usize) -> State {
    let text = include_str!("hard-sets.txt").split("# axes ").nth(block).expect("a set");
    let (_, lines) = text.split_once('\n').expect("a heading");
    let mut hard = read_basic(4, lines).expect("listing lines");
    for division in &mut hard.divisions {
        (division.axes[4], division.c) = (division.c, 0);
    }
    let mut state = State::start(6, &hard.divisions).expect("good divisions");
    for rule in &mut hard.rules {
        (rule.axes[4], rule.constant) = (rule.constant, 0);
        state.add(rule).expect("a good rule");
        assert!(state.says == Answer::Point && state.tableau.columns == [0, 1, 2, 3, 4, 5, 6, 7]);
    }
    state
}

/// The rule that the hard set waits for.
fn put_at_1() -> Rule {
    Rule { kind: Kind::Equality, ..inequality(-1, &[0, 0, 0, 0, 1]) }
}

/// The one of 199 pivots makes 200 in this addition, the one of 200 would make 201.
#[test]
fn each_addition_has_200_pivots() {
    let mut state = waiting(1);
    let made = |state: &State, rule: &Rule| {
        let (says, _, pivots) = added(state, rule, [BOUND_64, BOUND_128]);
        (says, pivots)
    };
    assert_eq!(made(&state, &put_at_1()), (Answer::Point, 200));
    state.add(&put_at_1()).expect("a good rule");
    for low in 1..9 {
        let rule = inequality(-low, &[0, 0, 0, 0, 0, 1]);
        assert_eq!(made(&state, &rule), (Answer::Point, 1));
        state.add(&rule).expect("a good rule");
    }
    let mut state = waiting(2);
    assert_eq!(made(&state, &put_at_1()), (Answer::Long, 200));
    state.add(&put_at_1()).expect("a good rule");
    state.add(&inequality(0, &[1])).expect("a good rule");
    assert_eq!((state.says, state.basic.rules.len()), (Answer::Long, 32));
}

/// 2x = 1, 3y = 1: 6x + 6y + 6 is replaced by 3 and 2.
#[test]
fn rows_replaced_one_at_a_time() {
    let state = state(3, "eq -1 2 0 0; eq -1 0 3 0");
    let mut draft = Draft::new(&state.tableau, 3, &inequality(6, &[6, 6, 6]));
    assert_eq!((draft.waiting(), draft.next()), (&[6, 6, 0][..], Some(0)));
    draft.replace(&state.tableau, 0);
    // (18 + 6·r + 12·y + 12·z) / 2, reduced.
    assert_eq!((draft.row.denominator, draft.row.constant, draft.waiting()), (1, 9, &[0, 6, 0][..]));
    draft.replace(&state.tableau, 1);
    assert_eq!((draft.next(), draft.settled().constant), (None, 11));
    let mut draft = Draft::new(&state.tableau, 3, &inequality(0, &[1, 1]));
    draft.replace(&state.tableau, 0);
    assert_eq!((draft.row.denominator, draft.row.constant, draft.waiting()), (2, 1, &[0, 2, 0][..]));
    draft.replace(&state.tableau, 1);
    assert_eq!((draft.row.denominator, draft.row.constant), (6, 5));
}

/// x at 2^31, y at 2^45, z at 2^59, and u at 1 behind or before them.
const TOWER: &str = "start 4; add ge -2147483648 1 0 0 0; add ge 0 -16384 1 0 0; add ge 0 0 -16384 1 0";

#[test]
fn both_rows_within_the_bound_of_128_bits() {
    let high = |rule: &str| last(1, &format!("{TOWER}; add ge -1 0 0 0 1; add {rule}"));
    assert_eq!(high("ge -1 0 0 16 1"), "point");
    assert_eq!(high("ge 0 0 0 16 1"), "wide");
    assert_eq!(high("ge 1 0 0 -16 -1"), "empty");
    assert_eq!(high("ge 0 0 0 -16 -1"), "wide");
    // What comes of the last replacement is not looked at.
    assert_eq!(high("ge 0 0 0 16 0"), "point");
    // The lowest-numbered one first, whatever the size of its row.
    let low = "start 4; add ge -1 1 0 0 0; add ge -2147483648 0 1 0 0; add ge 0 0 -16384 1 0; add ge 0 0 0 -16384 1";
    assert_eq!(last(1, &format!("{low}; add ge 0 1 0 0 16")), "point");
    // w at 2^63 - 2^32, and at 2^63.
    let w = "start 4; add ge -2147483647 1 0 0 0; add ge 0 -16384 1 0 0; add ge 0 0 -16384 1 0; add ge 0 0 0 -16 1";
    assert_eq!(last(1, &format!("{w}; add ge 0 0 0 0 1")), "point");
    assert_eq!(last(2, &format!("{w}; add ge -2147483648 1 0 0 0; add ge 0 0 0 0 1")), "point wide");
}

/// x5 has the denominator 2^56.
#[test]
fn what_waits_is_within_the_bound_and_reduced_too() {
    let deep = "start 6; add ge -1 1 0 0 0 0 0; add ge 0 -1 16384 0 0 0 0; add ge 0 0 -1 16384 0 0 0; \
                add ge 0 0 0 -1 16384 0 0; add ge 0 0 0 0 -1 16384 0; add ge -1 0 0 0 0 0 1";
    let with = |rule: &str| last(1, &format!("{deep}; add {rule}"));
    assert_eq!(with("ge 0 0 0 0 0 1 127"), "point");
    assert_eq!(with("ge 0 0 0 0 0 1 128"), "wide");
    assert_eq!(with("ge 0 0 0 0 0 1 -128"), "wide");
    assert_eq!(with("ge 0 0 0 0 0 16384 128"), "point");
    assert_eq!(last(1, "start 2; add eq -1 2 0; add eq -1 0 1; add ge 0 2 -1"), "point");
    assert_eq!(last(1, "start 2; add eq -1 2 0; add eq -1 0 1; add ge -1 2 -1"), "empty");
}

/// Request 9: "The named states use the same carry, for a new rule's row too".
#[test]
fn a_new_row_is_carried() {
    let carried = |state: &State, rule: &Rule| {
        let mut steps = state.steps();
        settle(&mut steps, Draft::new(&state.tableau, state.n, rule)).expect("a row");
        steps.carried
    };
    let far = state(2, "ge -2147483648 1 0");
    assert_eq!(carried(&far, &inequality(0, &[-1, 1])), Some(0));
    assert_eq!(carried(&far, &inequality(i64::from(i32::MIN), &[0, 1])), None);
    let near = state(2, "eq -2147483647 1 0; eq -2147483647 0 1");
    assert_eq!(carried(&near, &inequality(0, &[1, 1])), None);
    assert_eq!(carried(&near, &inequality(0, &[2, -2])), Some(0));
    assert_eq!(last(2, "start 2; add ge -2147483648 1 0; add ge 0 -1 1; add ge 2147483647 0 -1"), "point empty");
}

/// A chain of axes, each at 1 or more above k times the one before it: the same at the larger bound alone. How many
/// axes have a point by then, and how many of them without a carry.
#[test]
fn a_carried_addition_is_one_at_the_larger_bound() {
    for (k, points, uncarried) in [(1, 8, 8), (181, 8, 5), (4_096, 6, 3), (16_384, 5, 3), (32_767, 5, 3)] {
        let mut state = State::start(8, &[]).expect("no divisions");
        let mut within = (0, 0);
        for axis in 0..8 {
            if state.says != Answer::Point {
                break;
            }
            let mut rule = inequality(-1, &[]);
            rule.axes[axis] = 1;
            if axis > 0 {
                rule.axes[axis - 1] = -k;
            }
            let [at_64, at_128] = [BOUND_64, BOUND_128].map(|bound| added(&state, &rule, [bound; 2]));
            state.add(&rule).expect("a good rule");
            assert_eq!((state.says, &state.tableau.rows), (at_128.0, &at_128.1.rows));
            within.0 += usize::from(state.says == Answer::Point);
            within.1 += usize::from(at_64.0 == Answer::Point);
        }
        assert_eq!(within, (points, uncarried));
    }
}

#[test]
fn wide_in_the_pivots() {
    assert_eq!(last(1, &format!("{TOWER}; add ge 0 0 0 -16 1")), "wide");
    assert_eq!(last(1, &format!("{TOWER}; add ge 1 0 0 -16 1")), "point");
    assert_eq!(last(2, &format!("{TOWER}; add ge 0 0 0 16 1; add ge -1 0 0 0 1")), "point wide");
    assert_eq!(last(2, &format!("{TOWER}; add ge 0 0 0 16 0; add ge -1 0 0 0 1")), "point point");
}

/// A row that is wide stays out of the tableau, which stays as it was.
#[test]
fn a_wide_row_stays_out() {
    let mut state = state(4, "ge -1 0 0 0 1; ge -2147483648 1 0 0 0; ge 0 -16384 1 0 0; ge 0 0 -16384 1 0");
    let before = state.tableau.clone();
    state.add(&inequality(0, &[0, 0, 16, 1])).expect("a good rule");
    assert_eq!((state.says, state.basic.rules.len()), (Answer::Wide, 5));
    assert_eq!((&state.tableau.rows, &state.tableau.columns), (&before.rows, &before.columns));
    assert_eq!(state.tableau.natures, before.natures);
}

#[test]
fn empty_and_wide_stay_until_it_goes_back() {
    let empty = "start 1; add ge -5 1; mark 0; add ge 4 -1; add ge 0 1; mark 1; back 1; back 0; add ge 0 1";
    assert_eq!(walk(empty), "point ; point ; point ; empty ; empty ; empty ; empty ; point ; point");
    let wide = format!("{TOWER}; mark 0; add ge 0 0 0 -16 1; add ge -1 0 0 0 0; mark 1; back 0; back 1");
    assert_eq!(last(5, &wide), "wide wide wide point refused 18");
}

/// "A 49th rule is 10, after 7 and 8", whatever the state says; going back restores the count.
#[test]
fn forty_eight_rules() {
    for (end, word) in [("add ge 9 -1", "point"), ("add ge -1 -1", "empty")] {
        let full = format!("start 1; add ge 0 1; mark 0; {end}{}", "; add ge 0 1".repeat(46));
        assert_eq!(last(2, &format!("{full}; add ge 0 1")), format!("{word} refused 10"));
        assert_eq!(last(2, &format!("{full}; back 0; add ge 0 1")), "point point");
        let bad = bad_rules().map(|rule| format!("add {rule}")).join(" ; ");
        let words = call(format!("{} ; {bad} ; mark 1", walk_line(&full)));
        assert!(words.ends_with(&format!("refused 7 ; refused 7 ; refused 8 ; {word}")), "{words}");
    }
}

/// 7 by a coefficient, 7 by an equality's constant, 8, all with one axis.
fn bad_rules() -> [String; 3] {
    let zeros = |count: usize| "00".repeat(count);
    [
        format!("14{}0080{}", zeros(4), zeros(30)),
        format!("1300000080{}", zeros(32)),
        format!("14{}0500{}", zeros(6), zeros(28)),
    ]
}

#[test]
fn bad_rules_are_not_added() {
    let [range, constant, absent] = bad_rules();
    let good = "1400000000".to_string() + &"00".repeat(32);
    let line = format!("states start 1 - ; add {range} ; add {constant} ; add {absent} ; add {good}");
    assert_eq!(call(line), "point ; refused 7 ; refused 7 ; refused 8 ; point");
    // 7 at any place before 8.
    let both = format!("14{}0500{}0080", "00".repeat(6), "00".repeat(26));
    assert_eq!(call(format!("states start 1 - ; add {both}")), "point ; refused 7");
}

#[test]
fn names_0_to_15() {
    for name in 0..16 {
        assert_eq!(walk(&format!("start 1; mark {name}; back {name}")), "point ; point ; point");
    }
    for name in [16, 17, 255, 256, 1 << 32, u64::MAX] {
        assert_eq!(walk(&format!("start 1; mark {name}; back {name}")), "point ; refused 18 ; refused 18");
    }
}

#[test]
fn going_back_forgets_later_marks_only() {
    let marks = "start 1; mark 0; mark 1; mark 2";
    assert_eq!(last(3, &format!("{marks}; back 2; back 1; back 0")), "point point point");
    assert_eq!(walk(&format!("{marks}; back 1; back 2")).rsplit(" ; ").next(), Some("refused 18"));
    assert_eq!(last(4, &format!("{marks}; back 1; back 1; back 0; back 0")), "point point point point");
    assert_eq!(walk(&format!("{marks}; back 0; back 1")).rsplit(" ; ").next(), Some("refused 18"));
    assert_eq!(last(3, &format!("{marks}; back 0; mark 2; back 2")), "point point point");
}

#[test]
fn marking_a_used_name_moves_it() {
    let moved = "start 1; mark 0; add ge -5 1; mark 1; add ge 6 -1; mark 0";
    assert_eq!(walk(&format!("{moved}; back 1; back 0")).rsplit(" ; ").next(), Some("refused 18"));
    assert_eq!(last(3, &format!("{moved}; back 0; back 1; add ge -7 1")), "point point point");
    assert_eq!(last(2, &format!("{moved}; back 0; add ge -7 1")), "point empty");
}

#[test]
fn a_mark_holds_every_number() {
    let start = "start 2 / div 2 0 1 0; add eq -3 0 0 1; add ge 0 1 -1 0; mark 5";
    let tail = "add ge -7 0 1 0; add ge -8 0 1 0";
    assert_eq!(last(2, &format!("{start}; {tail}")), "point empty");
    assert_eq!(last(2, &format!("{start}; {tail}; back 5; {tail}")), "point empty");
    assert_eq!(last(1, &format!("{start}; {tail}; back 5; add ge -8 0 1 0")), "empty");
    assert_eq!(last(1, &format!("{start}; {tail}; back 5; add ge -6 0 -1 0")), "point");
}

/// 1; then each division as it comes 9, 6, 7, 8.
#[test]
fn refused_starts() {
    let division = |d: u16, c: i32, axes: [i16; 8]| {
        let mut bytes = vec![0x12];
        bytes.extend(d.to_le_bytes());
        bytes.extend(c.to_le_bytes());
        axes.iter().for_each(|k| bytes.extend(k.to_le_bytes()));
        hex(&bytes)
    };
    let (good, absent) = (division(2, 0, [1, 0, 0, 0, 0, 0, 0, 0]), [0, 5, 0, 0, 0, 0, 0, 0]);
    let start = |n: u8, divisions: String| call(format!("states start {n} {divisions}"));
    assert_eq!(start(0, division(0, 0, absent)), "refused 1");
    assert_eq!(start(9, "-".to_string()), "refused 1");
    assert_eq!(start(1, division(0, 1_000_000_001, absent)), "refused 6");
    assert_eq!(start(1, division(32_768, 0, [0; 8])), "refused 6");
    assert_eq!(start(1, division(1, 1_000_000_001, absent)), "refused 7");
    assert_eq!(start(1, division(1, 0, [0, 5, 0, 0, 0, 0, 0, i16::MIN])), "refused 7");
    assert_eq!(start(1, division(1, 0, absent)), "refused 8");
    assert_eq!(start(1, good.repeat(8)), "point");
    assert_eq!(start(1, good.repeat(8) + &division(0, 0, absent)), "refused 9");
    assert_eq!(start(1, good.repeat(7) + &division(0, 0, absent) + &good), "refused 6");
}

#[test]
fn a_refused_start_leaves_state_and_marks() {
    let words = walk("start 1; add ge -5 1; mark 3; start 0; start 9; mark 4; back 3; add ge 4 -1; back 4");
    assert_eq!(words, "point ; point ; point ; refused 1 ; refused 1 ; point ; point ; empty ; refused 18");
}

#[test]
fn a_start_is_without_marks() {
    let words = walk("start 1; add ge -5 1; mark 2; start 2; back 2; add ge 4 -1 0; mark 2; start 1; back 2");
    assert_eq!(words, "point ; point ; point ; point ; refused 18 ; point ; point ; point ; refused 18");
}

/// 18 comes before all else.
#[test]
fn before_the_first_start_there_is_none() {
    let words = walk("add ge 0 1; mark 0; mark 15; mark 16; back 0; back 16; start 1; back 0");
    assert_eq!(words, "none ; none ; none ; refused 18 ; refused 18 ; refused 18 ; point ; refused 18");
    let [range, ..] = bad_rules();
    assert_eq!(call(format!("states start 0 - ; add {range} ; mark 0")), "refused 1 ; none ; none");
}

#[test]
fn ill_formed_walks() {
    let rule = "1400000000".to_string() + &"00".repeat(32);
    for steps in [
        "", "start", "start 1", "start 1 -;", "start 1 - ;", "start 1 11", "start 256 -", "mark", "mark -1", "back x",
        "mark 1 2", "add", "add -", "add 11", "walk 1", "start 1 - mark 1", "start 1 1400", "mark 18446744073709551616",
    ] {
        assert_eq!(call(format!("states {steps}")), "bad line", "{steps}");
    }
    for rule in [rule.clone() + "00", rule.clone() + &rule, rule.replacen("14", "12", 1)] {
        assert_eq!(call(format!("states start 1 - ; add {rule}")), "bad line");
    }
    assert_eq!(call("states".to_string()), "bad line");
}
