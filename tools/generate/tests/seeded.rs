//! The generator: the same from the same seed, well-formed, and its hard sets as hard as they say.

use generate::{calls, events, hard, histogram, model, rng::Rng, runs, scripts, sets::World, slots};
use hexscript::tokens::hex;

#[test]
fn a_seed_gives_the_same_again() {
    for index in 0..50 {
        assert_eq!(scripts::script(9, index), scripts::script(9, index));
        assert_eq!(calls::call(9, index, &calls::KINDS), calls::call(9, index, &calls::KINDS));
    }
    let differ = (0..50).filter(|&i| scripts::script(9, i) != scripts::script(10, i)).count();
    assert!(differ > 45);
}

#[test]
fn every_call_is_well_formed_and_of_its_kind() {
    for kind in calls::KINDS {
        for index in 0..100 {
            let call = calls::call(3, index, &[kind]);
            assert!(call.starts_with(&format!("{kind} ")), "{call}");
            assert_ne!(second::run_call(&call), "bad line", "{call}");
        }
    }
}

#[test]
fn the_stored_hard_sets_answer_as_their_headings_say() {
    let answers = ["point 199 6569", "dropped 200 6591", "long 200 6793", "long 200 6822"];
    let stored = hard::stored();
    assert_eq!(stored.len(), answers.len());
    for ((n, basic), answer) in stored.into_iter().zip(answers) {
        let call = format!("test {n} {} 1", hex(&model::encode(&[basic])));
        assert_eq!(second::run_call(&call), answer);
    }
}

#[test]
fn changed_hard_sets_stay_near_200_pivots() {
    let rng = &mut Rng::of(5, 0);
    let mut near = 0;
    for _ in 0..100 {
        let (n, basic) = hard::near(rng);
        let answer = second::run_call(&format!("test {n} {} 1", hex(&model::encode(&[basic]))));
        let pivots: u32 = answer.split(' ').nth(1).and_then(|p| p.parse().ok()).expect("a count of pivots");
        near += u32::from(pivots >= 150);
    }
    assert!(near >= 30, "{near} of 100");
}

#[test]
fn the_sets_of_half_slots_are_good() {
    let rng = &mut Rng::of(6, 0);
    for round in 0..2_000 {
        let world = World::new(rng);
        let (first, second) = world.half_slots(rng, round % 2 == 0);
        for set in [first, second, world.slots(rng), vec![world.wide(rng)]] {
            assert!(second::parse(world.n as u8, &model::encode(&set)).is_ok());
        }
    }
}

/// 6 times 5,461 is 32,766; a rule with a number too large to be multiplied stays as it is.
#[test]
fn a_multiplied_rule_stays_within_its_ranges() {
    let rng = &mut Rng::of(7, 0);
    let divisions = vec![model::Division { d: 1, c: 0, axes: [0; 8] }; 8];
    let mut changed = 0;
    for round in 0..400 {
        let k: i16 = rng.pick(&[5_461, -5_461, 5_462, 16_383, -16_384, 32_767, -32_767]);
        let constant = rng.pick(&[i32::MAX, -i32::MAX, 1 << 30, -1 << 30, 7]);
        let rule = model::Rule { equality: round % 2 == 0, number: 0, constant, axes: [k; 8], divisions: [-k; 8] };
        let new = slots::maybe_multiplied(rng, rule, 100);
        let basic = model::Basic { divisions: divisions.clone(), rules: vec![new] };
        assert!(second::parse(8, &model::encode(&[basic])).is_ok());
        changed += usize::from(new != rule);
    }
    assert!(changed > 50, "{changed}");
}

#[test]
fn wanted_names_are_all_there() {
    assert_eq!(
        histogram::wanted().len(),
        16 + 4 + 3 + 5 + 4 + 2 + 10 + 6 + 2 + events::EVENTS.len() + runs::EVENTS.len() + 9 + 8 + 4 * 4 + 8
    );
}
