//! No tableau twice (document 02, request 14): with the limit of pivots off no choice of column variables comes back,
//! neither in the test for fractions nor in either half of a value search. Bounds are off as far as `second`'s numbers
//! go: it stops where an exchange might leave 128 bits, and these stops are counted.

use generate::corners::{circle, corner, cube, padded, peak, slope, steep_corner, Expression};
use generate::model::{encode, Basic};
use generate::rng::Rng;
use generate::sets::World;
use generate::{hard, wider};
use second::extreme::{Aim, Extreme, Stop, ValueSearch};
use second::tableau::Tableau;
use second::test::{Answer, Steps, BOUND_128, PIVOT_LIMIT};
use second::{parse, BasicSet, Kind, Rule};
use std::collections::HashSet;

/// The choices of column variables that were met.
#[derive(Default)]
struct Choices(HashSet<Vec<usize>>);

impl Choices {
    /// Whether this one is new.
    fn meet(&mut self, tableau: &Tableau) -> bool {
        let mut columns = tableau.columns.clone();
        columns.sort_unstable();
        self.0.insert(columns)
    }
}

/// Without a limit of pivots, and with products that stay within 128 bits.
fn unlimited(tableau: Tableau) -> Steps {
    Steps::new(tableau, None, [BOUND_128, BOUND_128])
}

/// The test for fractions, step by step.
fn judge(steps: &mut Steps) -> Answer {
    let mut met = Choices::default();
    loop {
        assert!(met.meet(&steps.tableau), "a choice of columns came back");
        let Some(row) = steps.tableau.lowest_violated_row() else { return Answer::Point };
        let Some(column) = steps.tableau.lowest_helping_column(row) else { return Answer::Dropped };
        if let Some(answer) = steps.hindered(column) {
            return answer;
        }
        steps.exchange(row, column);
    }
}

/// The second half, turn by turn.
fn climb(search: &mut ValueSearch) -> Extreme {
    let mut met = Choices::default();
    loop {
        assert!(met.meet(&search.steps.tableau), "a choice of columns came back in the second half");
        if let Some(extreme) = search.turn() {
            return extreme;
        }
    }
}

fn read(n: usize, basic: &Basic) -> BasicSet {
    let set = parse(n as u8, &encode(std::slice::from_ref(basic))).expect("a good set");
    set.basics.into_iter().next().expect("one basic set")
}

fn searching(n: usize, basic: &BasicSet, aim: Aim, expression: &Expression) -> ValueSearch {
    let rule = Rule {
        kind: Kind::Inequality,
        number: 0,
        constant: i64::from(expression.constant),
        axes: expression.axes.map(i64::from),
        divs: expression.divisions.map(i64::from),
    };
    let mut search = ValueSearch::new(n, basic, aim, &rule);
    search.steps = unlimited(search.steps.tableau);
    search
}

/// A basic set of every kind that the generator has.
fn any_basic(rng: &mut Rng) -> (usize, Basic) {
    let world = World::new(rng);
    match rng.below(20) {
        0..=5 => (world.n, world.dense(rng)),
        6..=8 => (world.n, world.wide(rng)),
        9..=10 => (world.n, world.boxed(rng)),
        11..=13 => corner(rng),
        14..=15 => steep_corner(rng),
        16..=17 => wider::quick(rng),
        18 => wider::slow(rng),
        _ => hard::near(rng),
    }
}

/// A basic set with an expression over it.
fn any_search(rng: &mut Rng) -> (usize, Basic, Expression) {
    match rng.below(8) {
        0 => circle(rng),
        1 => cube(rng),
        2 => slope(rng),
        3 => peak(rng),
        4 => padded(rng),
        _ => {
            let (n, basic) = any_basic(rng);
            let mut axes = [0; 8];
            axes[..n].fill_with(|| rng.range(-4, 4) as i32);
            (n, basic, Expression { constant: 0, axes, divisions: [0; 8] })
        }
    }
}

#[test]
fn hard_sets_end() {
    let mut pivots = Vec::new();
    for (n, basic) in hard::stored() {
        let mut steps = unlimited(Tableau::new(n, &read(n, &basic)));
        assert!(matches!(judge(&mut steps), Answer::Point | Answer::Dropped));
        pivots.push(steps.pivots);
    }
    assert_eq!(pivots, [199, 200, 229, 243]);
}

#[test]
fn no_test_comes_back() {
    let rng = &mut Rng::of(21, 0);
    let (mut judged, mut stopped, mut pivoting, mut long) = (0, 0, 0, 0);
    for _ in 0..20_000 {
        let (n, basic) = any_basic(rng);
        let mut steps = unlimited(Tableau::new(n, &read(n, &basic)));
        match judge(&mut steps) {
            Answer::Point | Answer::Dropped => judged += 1,
            Answer::Wide => stopped += 1,
            Answer::Long => panic!("there is no limit"),
        }
        pivoting += usize::from(steps.pivots > 1);
        long += usize::from(steps.pivots > PIVOT_LIMIT);
    }
    println!("{judged} judged, {stopped} stopped at 128 bits, {pivoting} with several pivots, {long} with over 200");
    assert!(judged > 18_000 && pivoting > 14_000 && long > 500);
}

#[test]
fn no_value_search_comes_back() {
    let rng = &mut Rng::of(22, 0);
    let (mut values, mut ends, mut stopped, mut climbing, mut long) = (0, 0, 0, 0, 0);
    for turn in 0..20_000 {
        let (n, basic, expression) = any_search(rng);
        let aim = if turn % 2 == 0 { Aim::Greatest } else { Aim::Least };
        let mut search = searching(n, &read(n, &basic), aim, &expression);
        let first = judge(&mut search.steps);
        let made = search.steps.pivots;
        match if first == Answer::Point { climb(&mut search) } else { Extreme::Empty } {
            Extreme::Value(..) => values += 1,
            Extreme::Unbounded => ends += 1,
            Extreme::Empty if first == Answer::Dropped => ends += 1,
            Extreme::Empty | Extreme::Wide => stopped += 1,
            Extreme::Long => panic!("there is no limit"),
        }
        climbing += usize::from(search.steps.pivots > made + 1);
        long += usize::from(search.steps.pivots - made > PIVOT_LIMIT);
    }
    println!("{values} values, {ends} empty or unbounded, {stopped} stopped at 128 bits");
    println!("{climbing} with several pivots in the second half, {long} with over 200 there");
    assert!(values > 8_000 && ends > 8_000 && climbing > 4_500 && long > 150);
}

/// Whether a search goes round in a circle where of the rows that stop it soonest the highest-numbered leaves.
fn goes_round(mut search: ValueSearch) -> bool {
    let mut met = Choices::default();
    judge(&mut search.steps);
    while met.meet(&search.steps.tableau) {
        let Some(entering) = search.entering() else { return false };
        let number = |stop: &Stop| search.steps.tableau.rows[stop.row].variable;
        let stops = search.stops(entering);
        let Some(stop) = stops.iter().min_by(|a, b| a.compare(b).then(number(b).cmp(&number(a)))) else { return false };
        search.steps.exchange(stop.row, entering.column);
    }
    true
}

/// What is looked for can be seen: by that choice some of the textbooks' circles come back.
#[test]
fn other_choices_come_back() {
    let rng = &mut Rng::of(23, 0);
    let found = (0..5_000).any(|_| {
        let (n, basic, expression) = circle(rng);
        goes_round(searching(n, &read(n, &basic), Aim::Greatest, &expression))
    });
    assert!(found);
}
