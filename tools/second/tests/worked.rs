//! "Worked on the board", every case, starred or not.

mod common;
use common::*;
use second::algebra::{opposites, unwatched};
use second::calls::hex;
use second::listing::read_basic;
use second::{algebra, parse, Answer, Division};

fn table(name: &str, n: u8, first: &[u8], second: &[u8], want: &[u8]) {
    let answer = call(format!("{name} {n} {} {} {}", want.len(), hex(first), hex(second)));
    assert_eq!(answer, format!("gives {} {}", want.len(), hex(want)));
}

#[test]
fn a_holds_2186_and_not_2187() {
    assert_eq!(member(1, &a(), &[2186]), "in");
    assert_eq!(member(1, &a(), &[2187]), "out");
    assert_eq!(member(1, &a(), &[0]), "in");
    assert_eq!(member(1, &a(), &[-1]), "out");
}

#[test]
fn floors_round_towards_minus_infinity() {
    let tenth = Division { d: 10, c: 0, axes: [1, 0, 0, 0, 0, 0, 0, 0] };
    for (x, q) in [(-1, -1), (-2186, -219), (-10, -1), (0, 0), (9, 0), (2186, 218)] {
        assert_eq!(tenth.value(&[x, 0, 0, 0, 0, 0, 0, 0]), q);
    }
    let minus_one = set(1, "basic; div 10 0 1; eq 1 0 1");
    assert_eq!(member(1, &minus_one, &[-1]), "in");
    assert_eq!(member(1, &minus_one, &[0]), "out");
    let minus_219 = set(1, "basic; div 10 0 1; eq 219 0 1");
    assert_eq!(member(1, &minus_219, &[-2186]), "in");
}

#[test]
fn a_minus_the_last_ten() {
    let last = set(1, "basic; div 10 0 1; eq -218 0 1");
    let want = set(1, "basic; div 10 0 1; ge 0 1 0; ge 2186 -1 0; ge 217 0 -1");
    assert_eq!(want.len(), 135);
    table("difference", 1, &a(), &last, &want);
}

#[test]
fn a_minus_a_and_a_minus_nothing() {
    table("difference", 1, &a(), &a(), &[]);
    table("difference", 1, &a(), &[], &a());
}

#[test]
fn complements() {
    assert_eq!(call("complement 1 1 -".into()), "gives 1 11");
    let want = set(1, "basic; ge -1 -1; basic; ge 0 1; ge -2187 1");
    assert_eq!(want.len(), 113);
    let answer = call(format!("complement 1 113 {}", hex(&a())));
    assert_eq!(answer, format!("gives 113 {}", hex(&want)));
}

#[test]
fn opposite_of_the_least_constant() {
    let basic = read_basic(1, "ge -2147483648 1").unwrap();
    let opposite = opposites(&basic.rules[0]);
    assert_eq!(opposite.len(), 1);
    assert_eq!(opposite[0].constant, 2147483647);
    let want = set(1, "basic; ge 2147483647 -1");
    let answer = call(format!("complement 1 38 {}", set_hex(1, "basic; ge -2147483648 1")));
    assert_eq!(answer, format!("gives 38 {}", hex(&want)));
}

/// The second one is dropped since request 9.
#[test]
fn dropped_at_the_bound_and_beyond() {
    let below = set(1, "basic; ge 0 -1");
    let last = set(1, "basic; ge -2147483647 1");
    table("intersection", 1, &last, &below, &[]);
    let beyond = set(1, "basic; ge -2147483648 1");
    table("intersection", 1, &beyond, &below, &[]);
    let dropped = set(1, "basic; ge -2147483647 1; ge 0 -1");
    assert_eq!(tested(1, &dropped), "dropped 1 2");
    let carried = set(1, "basic; ge -2147483648 1; ge 0 -1");
    assert_eq!(tested(1, &carried), "dropped 1 2");
}

#[test]
fn a_half_is_dropped_and_not_found() {
    let half = set(1, "basic; eq -1 2");
    table("intersection", 1, &half, &[0x11], &[]);
    // As stored it has a point with fractions.
    assert_eq!(tested(1, &half), "point 1 1");
    assert_eq!(search(1, &half, 1_000_000, &[0], &[1]), "none 2");
    assert_eq!(search(1, &half, 2, &[0], &[1]), "none 2");
    assert_eq!(search(1, &half, 1, &[0], &[1]), "spent 1");
}

#[test]
fn the_watch_sees_each_candidate() {
    let first = parse(1, &a()).unwrap();
    let last = parse(1, &set(1, "basic; div 10 0 1; eq -218 0 1")).unwrap();
    let mut seen = Vec::new();
    let result = algebra::difference(&first, &last, &mut |basic, outcome| {
        seen.push((basic.rules[2].constant, outcome.answer));
    });
    assert_eq!(result.unwrap().basics.len(), 1);
    assert_eq!(seen, [(-219, Answer::Dropped), (217, Answer::Point)]);
}

#[test]
fn stages_end_in_the_difference() {
    let whole = parse(2, &[0x11]).unwrap();
    let cutters = "basic; ge 0 1 0; ge 5 -1 0; ge 0 0 1; basic; eq 9 1 1; ge 3 1 -1";
    let second = parse(2, &set(2, cutters)).unwrap();
    let stages = algebra::pieces_after_each_cutter(
        2,
        &whole.basics[0],
        &second.basics,
        &mut unwatched,
    );
    let difference = algebra::difference(&whole, &second, &mut unwatched).unwrap();
    let stages = stages.unwrap();
    assert_eq!(stages.len(), 2);
    assert_eq!(stages[0].len(), 3);
    assert_eq!(stages[1], difference.basics);
}
