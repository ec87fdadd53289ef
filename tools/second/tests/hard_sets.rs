//! hard-sets.txt: known pivot counts without the limit of 200, and what the
//! limit makes of them.

use second::listing::read_basic;
use second::test::{test, test_limited};
use second::BasicSet;

struct Hard {
    n: usize,
    pivots: u32,
    answer: String,
    basic: BasicSet,
}

fn hard_sets() -> Vec<Hard> {
    let text = include_str!("hard-sets.txt");
    text.split("# axes ").skip(1).map(read_hard).collect()
}

fn read_hard(block: &str) -> Hard {
    let (heading, lines) = block.split_once('\n').expect("a heading");
    let words: Vec<&str> = heading.split(' ').collect();
    let n = words[0].parse().expect("axes");
    Hard {
        n,
        pivots: words[2].parse().expect("pivots"),
        answer: words[3].to_string(),
        basic: read_basic(n, lines).expect("listing lines"),
    }
}

#[test]
fn without_the_limit_as_the_headings_say() {
    let sets = hard_sets();
    let counts: Vec<u32> = sets.iter().map(|hard| hard.pivots).collect();
    assert_eq!(counts, [199, 200, 229, 243]);
    for hard in sets {
        let outcome = test_limited(hard.n, &hard.basic, None);
        assert_eq!((outcome.answer.word(), outcome.pivots), (&*hard.answer, hard.pivots));
        // One of them is wide at 64 bits, behind the limit.
        assert_eq!(outcome.carried, (hard.pivots == 229).then_some(201));
    }
}

/// Request 4: each exchange builds its own row and at most all of them.
#[test]
fn rows_built_exchange_by_exchange() {
    for hard in hard_sets() {
        let built = |limit| test_limited(hard.n, &hard.basic, Some(limit)).built;
        let rows = 2 * hard.basic.divisions.len() + hard.basic.rules.len();
        let each: Vec<u32> = (0..hard.pivots).map(|made| built(made + 1) - built(made)).collect();
        assert!(each.iter().all(|&one| (1..=rows as u32).contains(&one)));
        assert!(each.iter().any(|&one| one < rows as u32));
        assert_eq!((built(0), built(hard.pivots)), (0, each.iter().sum()));
    }
}

/// Step 3 stands after steps 1 and 2: the 200 that end in dropped are not long.
#[test]
fn with_the_limit() {
    let outcomes: Vec<String> = hard_sets()
        .iter()
        .map(|hard| test(hard.n, &hard.basic))
        .map(|outcome| format!("{} {}", outcome.answer.word(), outcome.pivots))
        .collect();
    assert_eq!(outcomes, ["point 199", "dropped 200", "long 200", "long 200"]);
}
