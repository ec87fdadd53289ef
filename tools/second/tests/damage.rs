//! No input makes the program panic: random and damaged scripts and lines.

mod common;
use common::*;
use second::{run_call, run_script};

/// A small generator of pseudo-random numbers (xorshift).
struct Random(u64);

impl Random {
    fn below(&mut self, bound: usize) -> usize {
        self.0 ^= self.0 << 13;
        self.0 ^= self.0 >> 7;
        self.0 ^= self.0 << 17;
        (self.0 % bound as u64) as usize
    }
}

fn sample_script() -> Vec<u8> {
    Script::new(2)
        .load(0, &set(2, "basic; div 3 -2 1 1; ge 0 1 0 0; eq 2 -1 3 2; basic; ge 9 -1 -1"))
        .load(1, &set(2, "basic; ge 0 1 0; ge 5 0 -1"))
        .raw(&[0x41, 2, 0, 1, 0x42, 3, 0, 1, 0x43, 1, 0, 1, 0x44, 2, 1, 0x45, 2])
        .member(2, &[3, 4])
        .search(2, 500, &[-3, -3], &[3, 3])
        .raw(&[0])
        .0
}

#[test]
fn damaged_scripts_end_in_a_line() {
    let sample = sample_script();
    let mut random = Random(0x9E37_79B9_7F4A_7C15);
    for _ in 0..3000 {
        let mut script = sample.clone();
        for _ in 0..1 + random.below(3) {
            let place = random.below(script.len());
            script[place] = random.below(256) as u8;
        }
        script.truncate(1 + random.below(2 * sample.len()));
        assert!(run_script(&script).ends_with(b"\n"));
    }
}

#[test]
fn random_bytes_and_lines() {
    let mut random = Random(88_172_645_463_325_252);
    let commands = [0x00, 0x10, 0x11, 0x12, 0x14, 0x17, 0x40, 0x41, 0x45, 0x46, 0x47, 1, 2, 255];
    let words = ["member", "test", "union", "-", "11", "1", "0", "-1", "part", "x", "", "255"];
    for _ in 0..3000 {
        let script: Vec<u8> = (0..random.below(90))
            .map(|_| commands[random.below(commands.len())])
            .collect();
        assert!(run_script(&[&[0x10, 1], &script[..]].concat()).ends_with(b"\n"));
        assert!(run_script(&script).ends_with(b"\n"));
        let line: Vec<&str> =
            (0..random.below(14)).map(|_| words[random.below(words.len())]).collect();
        assert!(!run_call(&line.join(" ")).is_empty());
    }
}
