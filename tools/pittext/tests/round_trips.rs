//! Bytes to text and back, on generated and stored scripts; listings read back as the set they list, without the
//! numbers of its rules.

use generate::damage::blind;
use generate::model::{encode, Set};
use generate::numbers::numbered;
use generate::rng::Rng;
use generate::scripts::script;
use generate::sets::World;
use hexscript::files::cases;
use second::algebra;

fn round_trip(bytes: &[u8]) -> String {
    let text = pittext::write(bytes);
    let again = pittext::read(&text).unwrap_or_else(|fault| panic!("{fault}\n{text}"));
    assert_eq!(again, bytes, "\n{text}");
    assert_eq!(pittext::write(&again), text);
    text
}

fn output(script: &[u8]) -> String {
    String::from_utf8(second::run_script(script)).expect("text")
}

#[test]
fn generated_scripts() {
    let (mut clean, mut numbers) = (0, 0);
    for index in 0..2_000 {
        let bytes = script(1, index);
        let text = round_trip(&bytes);
        numbers += usize::from(text.contains("\n  rule "));
        // A script without a refusal needs no raw bytes and no absent places.
        if !output(&bytes).contains("refused") {
            clean += 1;
            let told = text.split("\nend\n").next().unwrap_or("");
            assert!(!told.contains("bytes") && !told.contains("full"), "{text}");
        }
    }
    assert!(clean > 700, "{clean} scripts without a refusal");
    assert!(numbers > 400, "{numbers} scripts with a numbered rule");
}

#[test]
fn damaged_scripts() {
    for index in 0..3_000 {
        let rng = &mut Rng::of(2, index);
        let mut bytes = script(2, index);
        for _ in 0..1 + rng.below(5) {
            blind(rng, &mut bytes);
        }
        round_trip(&bytes);
    }
    round_trip(&[]);
}

#[test]
fn stored_scripts() {
    let folder = concat!(env!("CARGO_MANIFEST_DIR"), "/../../tests/scripts");
    let mut count = 0;
    for entry in std::fs::read_dir(folder).expect("stored scripts") {
        let text = std::fs::read_to_string(entry.expect("a file").path()).expect("text");
        for case in cases(&text).expect("good cases") {
            round_trip(&case.input);
            count += 1;
        }
    }
    assert!(count > 50, "{count} stored scripts");
}

/// `10` n, then `40` for each set.
fn loads(n: usize, sets: &[&[u8]]) -> Vec<u8> {
    let mut bytes = vec![0x10, n as u8];
    for (target, set) in sets.iter().enumerate() {
        bytes.extend([0x40, target as u8]);
        bytes.extend((set.len() as u16).to_le_bytes());
        bytes.extend(*set);
    }
    bytes
}

/// From `set M has K` to the line before `end`.
fn listing(output: &str) -> &str {
    let start = output.find("set ").expect("a listing");
    output[start..].strip_suffix("end\n").expect("an end")
}

/// What a listing says, loaded as set 0.
fn read_back(n: usize, listing: &str) -> Vec<u8> {
    pittext::read(&format!("axes {n}\nload 0\n{listing}")).unwrap_or_else(|fault| panic!("{fault}\n{listing}"))
}

fn any_set(world: &World, rng: &mut Rng) -> Set {
    if rng.chance(20) { world.near_limit(rng, false) } else { world.any(rng) }
}

#[test]
fn listings_of_loaded_sets() {
    let mut read = 0;
    for index in 0..2_000 {
        let rng = &mut Rng::of(3, index);
        let world = World::new(rng);
        let set = any_set(&world, rng);
        let script = loads(world.n, &[&encode(&numbered(&set, rng))]);
        let output = output(&[&script[..], &[0x45, 0, 0x00]].concat());
        // A set longer than its table is refused and not listed.
        if !output.contains("refused") {
            assert_eq!(read_back(world.n, listing(&output)), loads(world.n, &[&encode(&set)]), "{output}");
            read += 1;
        }
    }
    assert!(read > 1_800, "{read} listings");
}

/// The library's result of one of the four operations, as bytes without numbers.
fn result(code: u8, n: usize, first: &[u8], second: &[u8]) -> Option<Vec<u8>> {
    let first = second::parse(n as u8, first).ok()?;
    let second = second::parse(n as u8, second).ok()?;
    let watch = &mut algebra::unwatched;
    let result = match code {
        0x41 => algebra::union(&first, &second),
        0x42 => algebra::intersection(&first, &second, watch),
        0x43 => algebra::difference(&first, &second, watch),
        _ => algebra::complement(&first, watch),
    };
    result.ok().map(|mut set| {
        set.basics.iter_mut().flat_map(|basic| &mut basic.rules).for_each(|rule| rule.number = 0);
        second::encode(&set)
    })
}

#[test]
fn listings_of_results() {
    let mut read = 0;
    for index in 0..2_000 {
        let rng = &mut Rng::of(4, index);
        let world = World::new(rng);
        let (first, second) = (world.any(rng), world.any(rng));
        let (first, second) = (encode(&numbered(&first, rng)), encode(&numbered(&second, rng)));
        let code = rng.pick(&[0x41, 0x42, 0x43, 0x44]);
        let operation: &[u8] = if code == 0x44 { &[code, 2, 0] } else { &[code, 2, 0, 1] };
        let script = loads(world.n, &[&first, &second]);
        let output = output(&[&script[..], operation, &[0x45, 2, 0x00]].concat());
        if !output.contains("refused") {
            let expected = result(code, world.n, &first, &second).expect("a result");
            let back = read_back(world.n, listing(&output));
            assert_eq!(back, loads(world.n, &[&expected]), "{output}");
            read += 1;
        }
    }
    assert!(read > 1_500, "{read} listings");
}
