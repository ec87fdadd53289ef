//! `meaning COUNT SEED`                  checks `second` by meaning on COUNT cases
//! `meaning COUNT SEED PROGRAM [ARGS..]` checks a program that speaks the line mode
//! `meaning counts COUNT SEED ..`        the same of COUNT calls of the count, by enumeration of their boxes
//! `meaning ranges COUNT SEED ..`        the same of COUNT calls of the range, so too, and by membership of what they
//!                                       leave in the table
//! `meaning extremes COUNT SEED ..`      the same of COUNT calls of greatest and least, by enumeration of vertices
//! `meaning states COUNT SEED ..`        the same of COUNT walks of named states, by elimination, fresh tests and a clock

mod cases;
mod counting;
mod extremes;
mod fractions;
mod numbers;
mod ranges;
mod sets;
mod states;
mod tight;
mod vertices;
mod walk;

use cases::{checks, Check, Verdict};
use hexscript::describe;
use hexscript::runner::{output_of, Score};
use std::process::ExitCode;

/// Cases whose calls go to one run of the program.
const BATCH: u64 = 100;

/// The answers to the calls, by the library or by the program.
fn answers(program: &[String], calls: &[Check]) -> Result<Vec<String>, String> {
    if program.is_empty() {
        return Ok(calls.iter().map(|c| second::run_call(&c.call)).collect());
    }
    let input: String = calls.iter().map(|c| format!("{}\n", c.call)).collect();
    let output = output_of(program, input.as_bytes())?;
    Ok(String::from_utf8_lossy(&output).lines().map(str::to_string).collect())
}

fn shortened(answer: &str) -> String {
    let text: String = answer.chars().take(400).collect();
    if text.len() < answer.len() { format!("{text}..") } else { text }
}

fn run(arguments: &[String]) -> Result<ExitCode, String> {
    let (made, arguments): (fn(u64, u64) -> Vec<Check>, &[String]) = match arguments {
        [word, rest @ ..] if word == "counts" => (|seed, index| vec![counting::check(seed, index)], rest),
        [word, rest @ ..] if word == "ranges" => (|seed, index| vec![ranges::check(seed, index)], rest),
        [word, rest @ ..] if word == "extremes" => (|seed, index| vec![extremes::check(seed, index)], rest),
        [word, rest @ ..] if word == "states" => (|seed, index| vec![states::check(seed, index)], rest),
        _ => (checks, arguments),
    };
    let [count, seed, program @ ..] = arguments else {
        return Err("meaning [counts|ranges|extremes|states] COUNT SEED [PROGRAM ARGS..]".to_string());
    };
    let number = |w: &str| w.parse::<u64>().map_err(|_| format!("'{w}' is no number"));
    let (count, seed) = (number(count)?, number(seed)?);
    let (mut score, mut untold) = (Score::default(), 0);
    for start in (0..count).step_by(BATCH as usize) {
        let calls: Vec<Check> = (start..count.min(start + BATCH)).flat_map(|i| made(seed, i)).collect();
        let found = answers(program, &calls)?;
        for (i, check) in calls.iter().enumerate() {
            let answer = found.get(i).map_or("(no line)", String::as_str);
            match (check.judge)(answer) {
                Verdict::Good => score.add(true, String::new),
                Verdict::Untold => untold += 1,
                Verdict::Bad(story) => score.add(false, || {
                    format!("{}\n  answer {}\n  {story}", describe::call(&check.call), shortened(answer))
                }),
            }
        }
    }
    println!("{untold} answers of which this method can tell nothing");
    Ok(score.finish())
}

fn main() -> ExitCode {
    let arguments: Vec<String> = std::env::args().skip(1).collect();
    run(&arguments).unwrap_or_else(|e| {
        eprintln!("{e}");
        println!("0 passed, 1 failed");
        ExitCode::FAILURE
    })
}
