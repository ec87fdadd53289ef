//! Calls of the range: how often each answer comes, that a moved set has the moved points, and how calls are told by
//! what they reach.

use generate::boxes::moved;
use generate::calls;
use generate::histogram::Counts;
use generate::model::encode;
use generate::ranges::count;
use generate::rng::Rng;
use generate::sets::World;
use second::parse;

/// With limits and a table that are enough.
#[test]
fn each_answer_comes_about_as_often() {
    let mut counts = [0; 3];
    for index in 0..3_000 {
        let call = calls::call(8, index, &["range"]);
        let mut words: Vec<&str> = call.split(' ').collect();
        (words[2], words[4], words[5]) = ("70000", "20000", "20000");
        let answer = second::run_call(&words.join(" "));
        let place = ["sure", "never", "depends"].iter().position(|word| answer.starts_with(word));
        place.into_iter().for_each(|place| counts[place] += 1);
    }
    let all: usize = counts.iter().sum();
    assert!(all > 2_100 && counts.iter().all(|count| (28..=39).contains(&(100 * count / all))), "{counts:?}");
}

#[test]
fn a_moved_set_has_the_moved_points() {
    let rng = &mut Rng::of(51, 0);
    let (mut whole, mut inside) = (0, 0);
    for _ in 0..500 {
        let world = World::new(rng);
        let set = world.any(rng);
        let mut by = [0; 8];
        by[..world.n].fill_with(|| rng.range(-900_000, 900_000) as i32);
        let Some(there) = moved(&set, &by) else { continue };
        let [here, there] = [set, there].map(|set| parse(world.n as u8, &encode(&set)).expect("a good set"));
        whole += 1;
        for _ in 0..20 {
            let mut point = [0; 8];
            point[..world.n].fill_with(|| rng.range(-9, 9) as i32);
            assert_eq!(here.holds(&point), there.holds(&std::array::from_fn(|axis| point[axis] + by[axis])));
            inside += usize::from(here.holds(&point));
        }
    }
    assert!(whole > 350 && inside > 1_000, "{whole} sets, {inside} points");
}

fn reached(call: &str) -> Vec<String> {
    let mut counts = Counts::new();
    count(call, &mut counts);
    counts.into_keys().collect()
}

#[test]
fn calls_are_told_by_what_they_reach() {
    let asked = |room: usize, set: &str, limits: &str, low: i32, high: i32| {
        reached(&format!("range 1 {room} {set} {limits} {low} 0 0 0 0 0 0 0 {high} 0 0 0 0 0 0 0"))
    };
    let at_tallies = ["first limit at the tally", "second limit at the tally"];
    let of = |others: &[&str]| {
        let mut all: Vec<String> = at_tallies.iter().chain(others).map(|name| name.to_string()).collect();
        all.sort();
        all
    };
    assert_eq!(asked(0, "11", "1 2", 3, 4), of(&["no rules", "no table, nothing outside", "sure"]));
    let never = ["box of one point", "never", "no basic sets", "table just long enough"];
    assert_eq!(asked(75, "-", "1 1", 3, 3), of(&never));
    assert_eq!(asked(74, "-", "1 1", 3, 3), ["table a byte too short"]);
    assert_eq!(asked(0, "-", "1 1", 3, 4), ["11 before spent", "no table, 11"]);
    assert_eq!(asked(75, "-", "1 0", 3, 4), ["13 by the second limit"]);
    assert_eq!(asked(0, "-", "0 1", 3, 4), ["13 before 11", "13 by the first limit"]);
    assert_eq!(asked(75, "-", "0 1", 4, 3), ["12 by a low over its high", "low over high before 13"]);
    assert_eq!(asked(75, "-", "1 0", 1_048_577, 3), ["12 before 13", "12 by a coordinate"]);
    assert_eq!(asked(75, "99", "1 1", 4, 3), ["the set's own before 12"]);
    assert_eq!(asked(75, "11", "1 x", 4, 3), [""; 0]);
}
